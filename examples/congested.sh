#!/bin/sh
# Writes a script for a crowded stack of 24 by 24 by 8 with 336 links, 48 in each gap: a packet at every router,
# then rounds in which every router tries each port of one of its buffers and collects from it.
#   sh examples/congested.sh [ROUNDS] | crates/replay/out/replay
awk -v rounds="${1:-22}" 'BEGIN {
    width = 24; height = 24; planes = 8; buffers = 11; ports = 6; seed = 1
    print "stack", width, height, planes
    print "order 1 0 1 0"
    for (gap = 0; gap < planes - 1; gap++)
        for (y = 0; y < height; y++)
            for (x = (5 * y + 3 * gap) % 12; x < width; x += 12) print "link", x, y, gap
    print "plan random-offline register ace1"
    for (z = 0; z < planes; z++)
        for (y = 0; y < height; y++)
            for (x = 0; x < width; x++) print "inject", x, y, z, pick(width), pick(height), pick(planes), ++tag
    for (round = 0; round < rounds; round++)
        for (z = 0; z < planes; z++)
            for (y = 0; y < height; y++)
                for (x = 0; x < width; x++) try((x + y + z + round) % buffers)
}
# A number below `count`, from a generator that needs no more than 32 bits.
function pick(count) {
    seed = (seed * 16807) % 2147483647
    return int(seed / 65536) % count
}
function try(buffer,   port) {
    for (port = 0; port < ports; port++) print "move", x, y, z, buffer, port
    print "collect", x, y, z, buffer
}'
