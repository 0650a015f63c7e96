/* The same work by hand, in plain C: what the library is timed against. */
#ifndef BYHAND_H
#define BYHAND_H

#include "tulgravyn.h"

uint8_t byhand_read(const uint8_t *input, size_t len, uint8_t *map, struct tulgravyn_stack *stack, struct tulgravyn_fault *fault);
uint8_t byhand_plan(const struct tulgravyn_stack *s, const uint8_t *map, size_t map_len, uint8_t *bytes, size_t bytes_len);
uint8_t byhand_move(const struct tulgravyn_stack *s, const uint8_t *map, size_t map_len, const uint8_t *bytes, size_t bytes_len,
                    struct tulgravyn_record *table, size_t records, const struct tulgravyn_router *r, uint8_t buffer, uint8_t port);
uint8_t byhand_collect(const struct tulgravyn_stack *s, const uint8_t *map, size_t map_len, const uint8_t *bytes, size_t bytes_len,
                       struct tulgravyn_record *table, size_t records, const struct tulgravyn_router *r, uint8_t buffer,
                       struct tulgravyn_record *packet);

#endif
