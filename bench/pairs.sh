#!/bin/sh
# Times a pair of two groups of 64 lines beside a walk of one of them, over 9,000 ticks with a frame of 1,518 octets a tick from tick 2,000
# on. The walk has twice the lag, as each way of a pair has. Says the least time of some turns, by turns, and how many times a walk a
# pair costs. The program has to be built: rt ci does it.
cd "$(dirname "$0")/.." || exit 1
program=$PWD/crates/vcat_walk/out/vcat_walk
turns=${1:-7}
[ -x "$program" ] || { echo "bench: $program is missing: run rt ci first" >&2; exit 1; }
work=$(mktemp -d) || exit 1
trap 'rm -rf "$work"' EXIT
trap 'exit 130' INT
trap 'exit 143' TERM
script() {
    awk -v lag="$1" -v first="$2" 'BEGIN {
        print "lines 64"
        delays = "delays"
        for (m = 0; m < 64; m++) delays = delays " " (7 * m + first) % 41
        print delays; print "ring 64"; print "lag " lag; print "ticks 9000"
        for (m = 0; m < 64; m++) print "add 0 " m
        for (n = 0; n < 256; n++) octet[n] = sprintf("%02x", n)
        for (t = 2000; t < 9000; t++) {
            frame = ""
            for (n = 0; n < 1518; n++) frame = frame octet[(n * n + 31 * t + first) % 256]
            print "frame " t " " frame
        }
    }'
}
script 8 0 > "$work/walk"
{ script 4 0; echo other; script 4 5; } > "$work/pair"
least() {
    start=$(date +%s%N)
    "$program" "$1" < "$work/$1" > "$work/$1.out" 2> "$work/$1.notes" || echo "status $?" >&2
    end=$(date +%s%N)
    echo $((end - start)) >> "$work/$1.times"
}
n=0
while [ $n -lt "$turns" ]; do
    least walk
    least pair
    n=$((n + 1))
done
cmp "$work/walk.out" "$work/pair.out" && tail -n 1 "$work/pair.out" "$work/pair.notes"
walk=$(sort -n "$work/walk.times" | head -n 1)
pair=$(sort -n "$work/pair.times" | head -n 1)
awk -v walk="$walk" -v pair="$pair" 'BEGIN { printf "walk %.3f s, pair %.3f s, %.2f times\n", walk / 1e9, pair / 1e9, pair / walk }'
