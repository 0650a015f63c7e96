/* Reads the description of a stack of 3 x 3 x 2, plans it, prints the listing, and runs one packet through the channel table. */
#include "tulgravyn.h"

#include <stdio.h>

#define W 3
#define H 3
#define K 2

static const uint8_t description[] = {
    'S', W, H, K,          /* columns, rows, planes                            */
    'O', 1, 0, 1, 0,       /* North and South in set 1, East and West in set 0 */
    'L', 0, 0, 0,          /* a link at (0, 0) of gap 0                        */
    'L', 2, 2, 0,          /* and one at (2, 2)                                */
    'Z',
};

static uint8_t map[TULGRAVYN_READ_MAP_BYTES];
static uint8_t bytes[TULGRAVYN_PLAN_BYTES(W, H, K)];
static uint8_t text[TULGRAVYN_PLAN_TEXT(W, H, K)];
static struct tulgravyn_record table[TULGRAVYN_RECORDS(W, H, K)];

static const struct tulgravyn_router low = {1, 1, 0}, high = {1, 1, 1};

/* Where the packet stands before each move, and the port it leaves by: West, South, Up, East, North. */
static const struct {
    struct tulgravyn_router router;
    uint8_t buffer, port;
} journey[] = {
    {{1, 1, 0}, TULGRAVYN_LOCAL, TULGRAVYN_WEST},
    {{0, 1, 0}, TULGRAVYN_SIDE(0, TULGRAVYN_EAST), TULGRAVYN_SOUTH},
    {{0, 0, 0}, TULGRAVYN_SIDE(0, TULGRAVYN_NORTH), TULGRAVYN_UP},
    {{0, 0, 1}, TULGRAVYN_BELOW, TULGRAVYN_EAST},
    {{1, 0, 1}, TULGRAVYN_SIDE(0, TULGRAVYN_WEST), TULGRAVYN_NORTH},
};

int main(void)
{
    struct tulgravyn_stack stack = {.scheme = TULGRAVYN_RANDOM_OFFLINE};
    struct tulgravyn_fault fault;
    struct tulgravyn_record packet;
    uint16_t state = 0;
    uint8_t answer, bits;
    size_t count;

    answer = tulgravyn_read(description, sizeof description, map, sizeof map, &stack, &fault);
    if (answer != TULGRAVYN_OK) {
        if (tulgravyn_list_fault(&fault, text, sizeof text, &count) == TULGRAVYN_OK)
            fwrite(text, 1, count, stdout);
        return 1;
    }
    printf("plan %u\n", tulgravyn_plan(&stack, TULGRAVYN_FIRST, &state, map, sizeof map, bytes, sizeof bytes));
    if (tulgravyn_list_plan(&stack, bytes, sizeof bytes, text, sizeof text, &count) == TULGRAVYN_OK)
        fwrite(text, 1, count, stdout);

    printf("clear %u\n", tulgravyn_clear(&stack, table, TULGRAVYN_RECORDS(W, H, K)));
    printf("inject %u\n", tulgravyn_inject(&stack, map, sizeof map, bytes, sizeof bytes, table, TULGRAVYN_RECORDS(W, H, K), &low, &high, 7001));
    printf("inject %u\n", tulgravyn_inject(&stack, map, sizeof map, bytes, sizeof bytes, table, TULGRAVYN_RECORDS(W, H, K), &low, &high, 7002));
    for (size_t i = 0; i < sizeof journey / sizeof journey[0]; i++) {
        answer = tulgravyn_ports(&stack, map, sizeof map, bytes, sizeof bytes, table, TULGRAVYN_RECORDS(W, H, K), &journey[i].router, journey[i].buffer, &bits);
        printf("ports %u: %02x, ", answer, bits);
        answer = tulgravyn_move(&stack, map, sizeof map, bytes, sizeof bytes, table, TULGRAVYN_RECORDS(W, H, K), &journey[i].router, journey[i].buffer, journey[i].port);
        printf("move %u\n", answer);
    }
    answer = tulgravyn_collect(&stack, map, sizeof map, bytes, sizeof bytes, table, TULGRAVYN_RECORDS(W, H, K), &high, TULGRAVYN_SIDE(0, TULGRAVYN_SOUTH), &packet);
    printf("collect %u: tag %lu after %u moves\n", answer, (unsigned long)packet.tag, packet.moves);
    return 0;
}
