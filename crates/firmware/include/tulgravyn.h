/*
 * Tulgravyn for firmware: plans location bytes for stacked processors, and works a channel table.
 *
 * Link libfirmware.a (made by `rt staticlib firmware`). It needs memcpy and memset, and nothing else: no heap, no files, no locks, no
 * state of its own. Each function is proved to do what docs/FIRMWARE.md says, for every content of every buffer.
 *
 * Pointers. Every pointer must be valid for its length, aligned for its type, and not null, also where the length is 0. What a call
 * writes (stack and fault of a reading, map, bytes, table, out, count, state, packet, bits) must not overlap anything else that the call is given.
 * Nothing is kept: all memory is the caller's, before and after.
 *
 * Re-entrancy. A call touches only what it is given, so calls on different buffers may run at once. Calls on one table must not.
 *
 * Stack use. tulgravyn_plan keeps two lists of 576 places (about 2.5 KiB); every other call needs less than 1 KiB.
 *
 * Answers. 0, or the number of a refusal. A refusal alters nothing, except that a reading refused by any number but 9 zeroes the link map.
 */
#ifndef TULGRAVYN_H
#define TULGRAVYN_H

#include <stddef.h>
#include <stdint.h>

#ifdef __cplusplus
extern "C" {
#endif

/* The largest stack: columns and rows of a plane, and planes. */
#define TULGRAVYN_MOST_COLUMNS 24
#define TULGRAVYN_MOST_ROWS 24
#define TULGRAVYN_MOST_PLANES 8

/* Sizes of buffers for a stack of w columns, h rows and k planes. */
#define TULGRAVYN_MAP_BYTES(w, h, k) ((size_t)((k) - 1) * (w) * (h))   /* one byte a place of a gap: 1 is a link        */
#define TULGRAVYN_PLAN_BYTES(w, h, k) ((size_t)(k) * (w) * (h))        /* one byte a router: low half Up, high half Down */
#define TULGRAVYN_RECORDS(w, h, k) ((size_t)11 * (k) * (w) * (h))      /* eleven buffers a router                       */
#define TULGRAVYN_PLAN_TEXT(w, h, k) ((size_t)3 * (k) * (w) * (h))     /* a listing: two digits and a space or newline  */
#define TULGRAVYN_FAULT_TEXT 32                                        /* the line of any fault                         */
#define TULGRAVYN_READ_MAP_BYTES 4032                                  /* tulgravyn_read asks for a map of this size    */

/* Why a call refuses. */
enum tulgravyn_refusal {
    TULGRAVYN_OK = 0,
    TULGRAVYN_INPUT_ENDS = 1,      /* the input ends within a record, or before Z                  */
    TULGRAVYN_UNKNOWN_LETTER = 2,  /* no record has this kind letter                               */
    TULGRAVYN_OUT_OF_RANGE = 3,    /* a size, a set, a field, a scheme, a tie rule or a fault      */
    TULGRAVYN_OUT_OF_PLACE = 4,    /* a record out of its place, or a byte after Z                 */
    TULGRAVYN_ONE_SET = 5,         /* all four directions in one set                               */
    TULGRAVYN_LINK_OUTSIDE = 6,    /* a link outside the stack                                     */
    TULGRAVYN_LINK_TWICE = 7,      /* a link named twice                                           */
    TULGRAVYN_GAP_UNLINKED = 8,    /* a gap without a link                                         */
    TULGRAVYN_SHORT_BUFFER = 9,    /* a buffer shorter than the call asks for                      */
    TULGRAVYN_ZERO_STATE = 10,     /* a shift register of zero                                     */
    TULGRAVYN_OUTSIDE = 11,        /* a router, buffer, port or coordinate outside                 */
    TULGRAVYN_OCCUPIED = 12,       /* the buffer to enter is occupied                              */
    TULGRAVYN_EMPTY_BUFFER = 13,   /* the buffer is empty                                          */
    TULGRAVYN_DAMAGED = 14,        /* mark above 1, a coordinate outside, or moves above 1,000     */
    TULGRAVYN_ARRIVED = 15,        /* the packet has arrived already                               */
    TULGRAVYN_NOT_PERMITTED = 16,  /* the port is not permitted                                    */
    TULGRAVYN_LEAVES_STACK = 17,   /* the port leads out of the stack                              */
    TULGRAVYN_NOT_ARRIVED = 18     /* the packet has not arrived                                   */
};

/* How location bytes are filled and read. */
enum tulgravyn_scheme { TULGRAVYN_MD_SAFE = 0, TULGRAVYN_RANDOM_OFFLINE = 1, TULGRAVYN_OPTIMISTIC = 2 };

/* How ties are settled. Only random-offline asks. */
enum tulgravyn_tie { TULGRAVYN_FIRST = 0, TULGRAVYN_LAST = 1, TULGRAVYN_REGISTER = 2 };

/* The layer of a fault. */
enum tulgravyn_layer { TULGRAVYN_BYTE = 0, TULGRAVYN_RECORD = 1, TULGRAVYN_STACK = 2 };

/* Ports, and the bits of tulgravyn_ports: port n has bit 1 << n. */
enum tulgravyn_port {
    TULGRAVYN_EAST = 0, TULGRAVYN_WEST = 1, TULGRAVYN_NORTH = 2, TULGRAVYN_SOUTH = 3, TULGRAVYN_UP = 4, TULGRAVYN_DOWN = 5
};

/* Buffers of a router. The sides are those by which a packet came in: TULGRAVYN_SIDE(network, port). */
#define TULGRAVYN_LOCAL 0
#define TULGRAVYN_SIDE(network, port) (1 + 4 * (network) + (port))
#define TULGRAVYN_BELOW 9
#define TULGRAVYN_ABOVE 10

/* A stack: its sizes, the set (0 or 1) of each direction, and the scheme. Every call tests it first: 3 for its sizes, 3 or 5 for its
 * sets, 3 for its scheme, in this order. */
struct tulgravyn_stack {
    uint8_t width, height, planes;
    uint8_t north, east, south, west;
    uint8_t scheme;
};

/* The fault of a reading: where its record starts, its refusal, its layer. */
struct tulgravyn_fault {
    size_t place;
    uint8_t number;
    uint8_t layer;
};

struct tulgravyn_router {
    uint8_t x, y, z;
};

/* A record of the table; the one of buffer b of router (x, y, z) is number 11 * ((z * height + y) * width + x) + b.
 * Mark 0: empty, with every field 0. Mark 1: a packet, with the moves it has made. Sixteen bytes; the last three are not used. */
struct tulgravyn_record {
    uint32_t tag;
    uint16_t moves;
    uint8_t mark;
    struct tulgravyn_router source;
    struct tulgravyn_router destination;
};

#if defined(__STDC_VERSION__) && __STDC_VERSION__ >= 201112L
_Static_assert(sizeof(struct tulgravyn_stack) == 8, "the stack has eight bytes");
_Static_assert(sizeof(struct tulgravyn_record) == 16 && offsetof(struct tulgravyn_record, source) == 7, "the record has sixteen bytes");
#endif

/* Reads a description. On 0 the stack holds its sizes and sets (its scheme stays as it was) and the map is 1 at its links, 0 elsewhere.
 * Else the fault tells more, and the stack stays. */
uint8_t tulgravyn_read(const uint8_t *input, size_t input_len, uint8_t *map, size_t map_len, struct tulgravyn_stack *stack,
                       struct tulgravyn_fault *fault);

/* Writes the line of a fault into out, and its length into count. 3: no reading has such a fault. 9: out is too short. */
uint8_t tulgravyn_list_fault(const struct tulgravyn_fault *fault, uint8_t *out, size_t out_len, size_t *count);

/* Plans by the stack's scheme: writes the location byte of every router. tie is an enum tulgravyn_tie; state is the register's state,
 * before and after (it is read and written only with TULGRAVYN_REGISTER). 3: unknown tie rule. 10: a register of zero. 9. 8. */
uint8_t tulgravyn_plan(const struct tulgravyn_stack *stack, uint8_t tie, uint16_t *state, const uint8_t *map, size_t map_len,
                       uint8_t *bytes, size_t bytes_len);

/* Writes the location bytes as text into out, a row a line, and the length of the text into count. 9. */
uint8_t tulgravyn_list_plan(const struct tulgravyn_stack *stack, const uint8_t *bytes, size_t bytes_len, uint8_t *out, size_t out_len,
                            size_t *count);

/* Empties every record of the routers' buffers. 9. A run starts with an accepted plan and an accepted clear. */
uint8_t tulgravyn_clear(const struct tulgravyn_stack *stack, struct tulgravyn_record *table, size_t records);

/* Puts a packet into its source's Local buffer. 9, 11, 12. */
uint8_t tulgravyn_inject(const struct tulgravyn_stack *stack, const uint8_t *map, size_t map_len, const uint8_t *bytes,
                         size_t bytes_len, struct tulgravyn_record *table, size_t records, const struct tulgravyn_router *source,
                         const struct tulgravyn_router *destination, uint32_t tag);

/* Carries a packet out of its buffer by a permitted port. 9, 11, 13, 14, 15, 16, 17, 12. */
uint8_t tulgravyn_move(const struct tulgravyn_stack *stack, const uint8_t *map, size_t map_len, const uint8_t *bytes,
                       size_t bytes_len, struct tulgravyn_record *table, size_t records, const struct tulgravyn_router *router,
                       uint8_t buffer, uint8_t port);

/* Hands out a packet that is at its destination, into packet, and empties its buffer. 9, 11, 13, 14, 18. */
uint8_t tulgravyn_collect(const struct tulgravyn_stack *stack, const uint8_t *map, size_t map_len, const uint8_t *bytes,
                          size_t bytes_len, struct tulgravyn_record *table, size_t records, const struct tulgravyn_router *router,
                          uint8_t buffer, struct tulgravyn_record *packet);

/* The ports that the packet in a buffer is permitted, as bits. 9, 11, 13, 14. */
uint8_t tulgravyn_ports(const struct tulgravyn_stack *stack, const uint8_t *map, size_t map_len, const uint8_t *bytes,
                        size_t bytes_len, const struct tulgravyn_record *table, size_t records, const struct tulgravyn_router *router,
                        uint8_t buffer, uint8_t *bits);

#ifdef __cplusplus
}
#endif

#endif
