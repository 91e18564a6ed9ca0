#!/bin/sh
# Runs scripts of the study and writes a row of the table for each: rows.sh with the words of script.sh, or without words for those of each line of
# standard input. A row has the words and then what service says of all ticks: the frames that were offered, refused, got and lost with their octets,
# the greatest queue and its tick, the greatest delay, how many rows were dark, and the rest. The first script without it ends all, with status 1.
here=$(dirname -- "$0")
program=$here/vcat_walk
[ -x "$program" ] || program=$("$here/../../vcat" --program walk)
row() {
    "$here/script.sh" "$@" | "$program" service 1500 | sed -n "s/^service/$*/p" | grep .
}
if [ $# -gt 0 ]; then
    row "$@"
    exit
fi
while read -r line; do
    # shellcheck disable=SC2086
    row $line || exit 1
done
