#!/bin/sh
# Writes the description of a stack of 24 by 24 by 8 with 336 links, 48 in each gap:
#   sh examples/large.sh | crates/plan/out/plan
byte() { printf "\\$(printf %03o "$1")"; }

printf S; byte 24; byte 24; byte 8
printf O; byte 1; byte 0; byte 1; byte 0
gap=0
while [ "$gap" -lt 7 ]; do
    y=0
    while [ "$y" -lt 24 ]; do
        x=$(((5 * y + 3 * gap) % 12))
        while [ "$x" -lt 24 ]; do
            printf L; byte "$x"; byte "$y"; byte "$gap"
            x=$((x + 12))
        done
        y=$((y + 1))
    done
    gap=$((gap + 1))
done
printf Z
