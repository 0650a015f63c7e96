/* Times the library against the same work by hand: both in one run, round by round in turn, and prints the ratios. */
#define _POSIX_C_SOURCE 199309L
#include "byhand.h"

#include <stdio.h>
#include <stdlib.h>
#include <string.h>
#include <time.h>

#define W 24
#define H 24
#define K 8
#define RECORDS TULGRAVYN_RECORDS(W, H, K)
#define ROUNDS 15

static uint8_t map[2][TULGRAVYN_READ_MAP_BYTES], bytes[2][TULGRAVYN_PLAN_BYTES(W, H, K)], text[20000];
static struct tulgravyn_record table[2][RECORDS];
static struct tulgravyn_stack stack = {W, H, K, 1, 0, 1, 0, TULGRAVYN_MD_SAFE};

static unsigned long seed = 1;
static unsigned pick(unsigned n) { return (unsigned)((seed = seed * 16807 % 2147483647) / 8 % n); }

static double now(void)
{
    struct timespec t;
    clock_gettime(CLOCK_MONOTONIC, &t);
    return (double)t.tv_sec * 1e9 + (double)t.tv_nsec;
}

static int by_size(const void *a, const void *b)
{
    double x = *(const double *)a, y = *(const double *)b;
    return x < y ? -1 : x > y;
}

/* The middle of the rounds of each, and their ratio. A difference in what the two did ends the program. */
static void report(const char *what, double times[2][ROUNDS], double units, const char *unit, int alike)
{
    if (!alike) {
        printf("%s: the library and the program by hand differ\n", what);
        exit(1);
    }
    for (int i = 0; i < 2; i++)
        qsort(times[i], ROUNDS, sizeof times[i][0], by_size);
    double library = times[0][ROUNDS / 2], byhand = times[1][ROUNDS / 2];
    printf("%-34s %10.1f %10.1f %s %8.2f\n", what, library / units, byhand / units, unit, library / byhand);
}

static void plan(unsigned percent)
{
    double times[2][ROUNDS];
    char what[40];
    memset(map, 0, sizeof map);
    for (size_t g = 0; g < K - 1; g++)
        for (size_t i = 0; i < W * H; i++)
            map[0][g * W * H + i] = percent == 100 || i == g || pick(100) < percent;
    for (int i = 0; i < ROUNDS; i++) {
        uint16_t state = 1;
        double start = now();
        uint8_t a = tulgravyn_plan(&stack, TULGRAVYN_FIRST, &state, map[0], sizeof map[0], bytes[0], sizeof bytes[0]);
        times[0][i] = now() - start;
        start = now();
        uint8_t b = byhand_plan(&stack, map[0], sizeof map[0], bytes[1], sizeof bytes[1]);
        times[1][i] = now() - start;
        if (a != b || a)
            exit(1);
    }
    snprintf(what, sizeof what, "plan 24 x 24 x 8, %u %% links", percent);
    report(what, times, 1e3, "us", memcmp(bytes[0], bytes[1], sizeof bytes[0]) == 0);
}

static void crowd(struct tulgravyn_record *t)
{
    seed = 7;
    if (tulgravyn_clear(&stack, t, RECORDS))
        exit(1);
    for (uint8_t z = 0; z < K; z++)
        for (uint8_t y = 0; y < H; y++)
            for (uint8_t x = 0; x < W; x++) {
                struct tulgravyn_router from = {x, y, z}, to = {(uint8_t)pick(W), (uint8_t)pick(H), (uint8_t)pick(K)};
                if (tulgravyn_inject(&stack, map[0], sizeof map[0], bytes[0], sizeof bytes[0], t, RECORDS, &from, &to, z))
                    exit(1);
            }
}

typedef uint8_t mover(const struct tulgravyn_stack *, const uint8_t *, size_t, const uint8_t *, size_t, struct tulgravyn_record *, size_t,
                      const struct tulgravyn_router *, uint8_t, uint8_t);
typedef uint8_t collector(const struct tulgravyn_stack *, const uint8_t *, size_t, const uint8_t *, size_t, struct tulgravyn_record *,
                          size_t, const struct tulgravyn_router *, uint8_t, struct tulgravyn_record *);

/* Every buffer of every router is tried at every port, and collected from; the sum of the answers is a check. */
static unsigned long sweep(struct tulgravyn_record *t, mover *move, collector *collect)
{
    unsigned long sum = 0;
    struct tulgravyn_record packet;
    for (uint8_t z = 0; z < K; z++)
        for (uint8_t y = 0; y < H; y++)
            for (uint8_t x = 0; x < W; x++)
                for (uint8_t b = 0; b < 11; b++) {
                    struct tulgravyn_router r = {x, y, z};
                    for (uint8_t p = 0; p < 6; p++)
                        sum = sum * 31 + move(&stack, map[0], sizeof map[0], bytes[0], sizeof bytes[0], t, RECORDS, &r, b, p);
                    sum = sum * 31 + collect(&stack, map[0], sizeof map[0], bytes[0], sizeof bytes[0], t, RECORDS, &r, b, &packet);
                }
    return sum;
}

static void moves(void)
{
    double times[2][ROUNDS];
    int alike = 1;
    crowd(table[0]);
    crowd(table[1]);
    for (int i = 0; i < ROUNDS; i++) {
        double start = now();
        unsigned long a = sweep(table[0], tulgravyn_move, tulgravyn_collect);
        times[0][i] = now() - start;
        start = now();
        unsigned long b = sweep(table[1], byhand_move, byhand_collect);
        times[1][i] = now() - start;
        alike = alike && a == b;
    }
    report("move and collect, crowded 24x24x8", times, (double)RECORDS * 7, "ns", alike && memcmp(table[0], table[1], sizeof table[0]) == 0);
}

static void reading(void)
{
    double times[2][ROUNDS];
    size_t n = 0;
    struct tulgravyn_stack read[2] = {stack, stack};
    struct tulgravyn_fault fault[2];
    static const uint8_t head[] = {'S', W, H, K, 'O', 1, 0, 1, 0};
    memcpy(text, head, n = sizeof head);
    for (uint8_t g = 0; g < K - 1; g++)
        for (uint8_t y = 0; y < H; y++)
            for (uint8_t x = 0; x < W; x++) {
                uint8_t link[] = {'L', x, y, g};
                memcpy(text + n, link, 4);
                n += 4;
            }
    text[n++] = 'Z';
    for (int i = 0; i < ROUNDS; i++) {
        double start = now();
        uint8_t a = tulgravyn_read(text, n, map[0], sizeof map[0], &read[0], &fault[0]);
        times[0][i] = now() - start;
        start = now();
        uint8_t b = byhand_read(text, n, map[1], &read[1], &fault[1]);
        times[1][i] = now() - start;
        if (a || b)
            exit(1);
    }
    report("read the largest description", times, 1e3, "us", memcmp(map[0], map[1], sizeof map[0]) == 0 && memcmp(&read[0], &read[1], sizeof read[0]) == 0);
}

int main(void)
{
    printf("%-34s %10s %10s %11s\n", "the middle of 15 rounds each", "library", "by hand", "ratio");
    plan(5);
    plan(25);
    plan(100);
    plan(5);
    moves();
    reading();
    return 0;
}
