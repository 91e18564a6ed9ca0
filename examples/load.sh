#!/bin/sh
# Writes the script that `make` walks to standard output: load.sh NUMBER LINES TICKS, with NUMBER below 2^63. The delays of the lines, and of each
# frame its length and its octets, are drawn one after the other; a draw takes 31 bits of a state of 64, which the shell's numbers have.
case $# in
3) ;;
*) echo "usage: load.sh NUMBER LINES TICKS" >&2; exit 2 ;;
esac
state=$1
draw() {
    state=$((state * 6364136223846793005 + 1442695040888963407))
    drawn=$(((state >> 33 & 0x7fffffff) % $1))
}

echo "lines $2"
printf delays
line=0
while [ "$line" -lt "$2" ]; do
    draw 41
    printf ' %d' "$drawn"
    line=$((line + 1))
done
printf '\nring 64\nlag 4\nticks %d\n' "$3"
line=0
while [ "$line" -lt "$2" ]; do
    echo "add 0 $line"
    line=$((line + 1))
done
due=0
while [ "$due" -lt "$3" ]; do
    draw 1455
    left=$((64 + drawn))
    printf 'frame %d ' "$due"
    while [ "$left" -gt 0 ]; do
        draw 256
        printf %02x "$drawn"
        left=$((left - 1))
    done
    echo
    due=$((due + 8))
done
