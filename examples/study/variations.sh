#!/bin/sh
# Writes the variations of the study, one a line: container, lines, load, length and beginning, as script.sh takes them. They are 3,600. The
# beginnings are drawn from 680 to 935, which are all places that a failure can have in the 256 ticks from one status of its line to the next.
draw=1
for container in vc3 vc4; do
    for lines in 1 4 16; do
        for load in 10 50 90; do
            length=2
            while [ "$length" -le 400 ]; do
                draw=$(((draw * 1103515245 + 12345) % 2147483648))
                echo "$container $lines $load $length $((680 + draw / 65536 % 256))"
                length=$((length + 2))
            done
        done
    done
done
