#include "byhand.h"

#include <string.h>

typedef struct tulgravyn_stack stack;
typedef struct tulgravyn_record record;
typedef struct tulgravyn_router router;

enum { NORTH = 1, EAST = 2, SOUTH = 4, WEST = 8 };

static uint8_t bad_stack(const stack *s)
{
    if (s->width < 1 || s->width > 24 || s->height < 1 || s->height > 24 || s->planes < 1 || s->planes > 8)
        return 3;
    if (s->north > 1 || s->east > 1 || s->south > 1 || s->west > 1)
        return 3;
    if (s->north == s->east && s->east == s->south && s->south == s->west)
        return 5;
    return s->scheme > 2 ? 3 : 0;
}

static uint8_t toward(unsigned x, unsigned y, unsigned to_x, unsigned to_y)
{
    return (y < to_y ? NORTH : 0) | (x < to_x ? EAST : 0) | (to_y < y ? SOUTH : 0) | (to_x < x ? WEST : 0);
}

static unsigned gap(unsigned a, unsigned b) { return a < b ? b - a : a - b; }

/* One half of a plane: each router points at its last nearest elevator. */
static void fill_half(unsigned w, unsigned h, const uint8_t (*lifts)[2], unsigned n, int down, uint8_t *bytes)
{
    for (unsigned y = 0; y < h; y++)
        for (unsigned x = 0; x < w; x++) {
            unsigned best = 0, least = ~0u;
            for (unsigned i = 0; i < n; i++) {
                unsigned d = gap(x, lifts[i][0]) + gap(y, lifts[i][1]);
                if (d <= least) {
                    least = d;
                    best = i;
                }
            }
            uint8_t half = toward(x, y, lifts[best][0], lifts[best][1]);
            uint8_t *b = &bytes[y * w + x];
            *b = down ? (uint8_t)(half << 4 | (*b & 15)) : (uint8_t)((*b & 0xf0) | half);
        }
}

uint8_t byhand_plan(const stack *s, const uint8_t *map, size_t map_len, uint8_t *bytes, size_t bytes_len)
{
    uint8_t bad = bad_stack(s), lifts[576][2];
    if (bad)
        return bad;
    size_t area = (size_t)s->width * s->height;
    if (map_len < (size_t)(s->planes - 1) * area || bytes_len < (size_t)s->planes * area)
        return 9;
    for (unsigned g = 0; g + 1 < s->planes; g++)
        if (!memchr(map + g * area, 1, area))
            return 8;
    memset(bytes, 0, (size_t)s->planes * area);
    for (unsigned g = 0; g + 1 < s->planes; g++) {
        unsigned n = 0;
        for (unsigned y = 0; y < s->height; y++)
            for (unsigned x = 0; x < s->width; x++)
                if (map[(g * s->height + y) * s->width + x] == 1) {
                    lifts[n][0] = (uint8_t)x;
                    lifts[n++][1] = (uint8_t)y;
                }
        fill_half(s->width, s->height, lifts, n, 0, bytes + g * area);
        fill_half(s->width, s->height, lifts, n, 1, bytes + (g + 1) * area);
    }
    return 0;
}

static int inside(const stack *s, const router *r) { return r->x < s->width && r->y < s->height && r->z < s->planes; }

static size_t number(const stack *s, unsigned x, unsigned y, unsigned z, unsigned buffer)
{
    return 11 * ((size_t)(z * s->height + y) * s->width + x) + buffer;
}

static uint8_t permitted(const stack *s, uint8_t needed)
{
    uint8_t first = (s->north ? 0 : NORTH) | (s->east ? 0 : EAST) | (s->south ? 0 : SOUTH) | (s->west ? 0 : WEST);
    return needed & first ? needed & first : needed;
}

static int same(const router *a, const router *b) { return a->x == b->x && a->y == b->y && a->z == b->z; }

/* The refusals that a call on a packet tries first. */
static uint8_t find(const stack *s, size_t map_len, size_t bytes_len, const record *table, size_t records, const router *r,
                    uint8_t buffer, int named)
{
    uint8_t bad = bad_stack(s);
    if (bad)
        return bad;
    size_t area = (size_t)s->width * s->height;
    if (map_len < (size_t)(s->planes - 1) * area || bytes_len < (size_t)s->planes * area || records < 11 * (size_t)s->planes * area)
        return 9;
    if (!inside(s, r) || buffer > 10 || !named)
        return 11;
    const record *p = &table[number(s, r->x, r->y, r->z, buffer)];
    if (p->mark == 0)
        return 13;
    if (p->mark > 1 || !inside(s, &p->source) || !inside(s, &p->destination) || p->moves > 1000)
        return 14;
    return 0;
}

/* MD-safe and random-offline only: the pointing guide. */
uint8_t byhand_move(const stack *s, const uint8_t *map, size_t map_len, const uint8_t *bytes, size_t bytes_len, record *table,
                    size_t records, const router *r, uint8_t buffer, uint8_t port)
{
    static const uint8_t bit[4] = {EAST, WEST, NORTH, SOUTH};
    uint8_t bad = find(s, map_len, bytes_len, table, records, r, buffer, port < 6);
    if (bad)
        return bad;
    record *from = &table[number(s, r->x, r->y, r->z, buffer)];
    const router *to = &from->destination;
    if (same(r, to))
        return 15;
    if (r->z == to->z) {
        if (port > 3 || !(permitted(s, toward(r->x, r->y, to->x, to->y)) & bit[port]))
            return 16;
    } else {
        int up = r->z < to->z;
        unsigned g = up ? r->z : r->z - 1u;
        if (map[(g * s->height + r->y) * s->width + r->x] == 1) {
            if (port != (up ? 4 : 5))
                return 16;
        } else {
            uint8_t byte = bytes[(r->z * s->height + r->y) * s->width + r->x];
            if (port > 3 || !(permitted(s, up ? byte & 15 : byte >> 4) & bit[port]))
                return 16;
        }
    }
    unsigned x = r->x, y = r->y, z = r->z, enters;
    switch (port) {
    case 0: if (x + 1 >= s->width) return 17; x++; break;
    case 1: if (x == 0) return 17; x--; break;
    case 2: if (y + 1 >= s->height) return 17; y++; break;
    case 3: if (y == 0) return 17; y--; break;
    case 4: if (z + 1 >= s->planes) return 17; z++; break;
    default: if (z == 0) return 17; z--; break;
    }
    enters = port == 4 ? 9 : port == 5 ? 10 : (to->z < from->source.z ? 5 : 1) + (port ^ 1u);
    record *into = &table[number(s, x, y, z, enters)];
    if (into->mark)
        return 12;
    record packet = *from;
    memset(from, 0, sizeof *from);
    packet.moves++;
    *into = packet;
    return 0;
}

uint8_t byhand_collect(const stack *s, const uint8_t *map, size_t map_len, const uint8_t *bytes, size_t bytes_len, record *table,
                       size_t records, const router *r, uint8_t buffer, record *packet)
{
    (void)map, (void)bytes;
    uint8_t bad = find(s, map_len, bytes_len, table, records, r, buffer, 1);
    if (bad)
        return bad;
    record *from = &table[number(s, r->x, r->y, r->z, buffer)];
    if (!same(r, &from->destination))
        return 18;
    *packet = *from;
    memset(from, 0, sizeof *from);
    return 0;
}

static uint8_t fail(uint8_t *map, struct tulgravyn_fault *fault, uint8_t n, size_t place)
{
    memset(map, 0, TULGRAVYN_READ_MAP_BYTES);
    fault->place = place;
    fault->number = n;
    fault->layer = n == 1 ? 0 : n < 4 ? 1 : 2;
    return n;
}

/* The map has TULGRAVYN_READ_MAP_BYTES bytes. */
uint8_t byhand_read(const uint8_t *in, size_t len, uint8_t *map, stack *s, struct tulgravyn_fault *fault)
{
    uint8_t w = 0, h = 0, k = 0, set[4] = {0};
    size_t at = 0;
    int turn = 0;
    memset(map, 0, TULGRAVYN_READ_MAP_BYTES);
    for (;; turn++) {
        if (at == len)
            return fail(map, fault, 1, at);
        const uint8_t *b = in + at + 1;
        size_t left = len - at - 1, body;
        switch (in[at]) {
        case 'S': case 'L': body = 3; break;
        case 'O': body = 4; break;
        case 'Z': body = 0; break;
        default: return fail(map, fault, 2, at);
        }
        if (left < body)
            return fail(map, fault, 1, at);
        switch (in[at]) {
        case 'S':
            if (b[0] < 1 || b[0] > 24 || b[1] < 1 || b[1] > 24 || b[2] < 1 || b[2] > 8)
                return fail(map, fault, 3, at);
            if (turn != 0)
                return fail(map, fault, 4, at);
            w = b[0], h = b[1], k = b[2];
            break;
        case 'O':
            if (b[0] > 1 || b[1] > 1 || b[2] > 1 || b[3] > 1)
                return fail(map, fault, 3, at);
            if (turn != 1)
                return fail(map, fault, 4, at);
            if (b[0] == b[1] && b[1] == b[2] && b[2] == b[3])
                return fail(map, fault, 5, at);
            memcpy(set, b, 4);
            break;
        case 'L': {
            if (b[0] > 23 || b[1] > 23 || b[2] > 6)
                return fail(map, fault, 3, at);
            if (turn < 2)
                return fail(map, fault, 4, at);
            if (b[0] >= w || b[1] >= h || b[2] + 1 >= k)
                return fail(map, fault, 6, at);
            uint8_t *m = &map[(b[2] * h + b[1]) * w + b[0]];
            if (*m)
                return fail(map, fault, 7, at);
            *m = 1;
            break;
        }
        default:
            if (turn < 2)
                return fail(map, fault, 4, at);
            for (unsigned g = 0; g + 1 < k; g++)
                if (!memchr(map + (size_t)g * w * h, 1, (size_t)w * h))
                    return fail(map, fault, 8, at);
            if (left)
                return fail(map, fault, 4, at + 1);
            s->width = w, s->height = h, s->planes = k;
            s->north = set[0], s->east = set[1], s->south = set[2], s->west = set[3];
            return 0;
        }
        at += 1 + body;
    }
}
