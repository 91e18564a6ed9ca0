#!/bin/sh
# Times `walk` from outside, over 256 frames of 9,600 octets and 1,000,000 ticks, and says how many octets of the container
# frames go through the program in a second, and its greatest memory; with a word, over so many ticks. The program has to be built: rt ci does it, or VCAT_PROVED=1 ./vcat.
cd "$(dirname "$0")/.." || exit 1
program=$PWD/crates/vcat_walk/out/vcat_walk
ticks=${1:-1000000}
[ -x "$program" ] || { echo "bench: $program is missing: run rt ci first" >&2; exit 1; }
work=$(mktemp -d) || exit 1
trap 'rm -rf "$work"' EXIT
trap 'exit 130' INT
trap 'exit 143' TERM
awk -v frames=256 -v octets=9600 -v ticks="$ticks" -f bench/frames.awk > "$work/script"
start=$(date +%s%N)
"$program" walk < "$work/script" > "$work/out" &
pid=$!
most=0
while kill -0 "$pid" 2> /dev/null; do
    now=$(awk '/^VmHWM/ {print $2}' "/proc/$pid/status" 2> /dev/null)
    [ "${now:-0}" -gt "$most" ] && most=$now
    sleep 0.05
done
wait "$pid"
status=$?
end=$(date +%s%N)
tail -n 1 "$work/out"
awk -v ticks="$ticks" -v ns="$((end - start))" -v most="$most" -v status="$status" 'BEGIN {
    printf "status %d, %.2f s, %.0f million container octets a second, at most %.1f MiB\n",
        status, ns / 1e9, 2340 * (ticks - 40) / (ns / 1e9) / 1e6, most / 1024
}'
