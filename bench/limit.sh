#!/bin/sh
# Inputs of 67,108,864 octets, the most that there may be, and of one more, through both built programs. Of each it says the status, the
# time and the greatest memory; the status is 0 where all were as they have to be.
cd "$(dirname "$0")/.." || exit 1
top=$PWD
for name in vcat_walk vcat_run; do
    [ -x "crates/$name/out/$name" ] || { echo "limit: build the programs first: rt ci" >&2; exit 1; }
done
[ -x /usr/bin/time ] || { echo "limit: /usr/bin/time is missing" >&2; exit 1; }
work=$(mktemp -d) || exit 1
trap 'rm -rf "$work"' EXIT
trap 'exit 130' INT
trap 'exit 143' TERM
wrong=0
most=67108864
head='lines 1
delays 0
ring 1
lag 1
ticks 20000
add 0 0'

# Runs a program with these words over an input, and tests status and note, and what stands last on the output.
try() {
    what=$1 input=$2 wanted=$3 note=$4 last=$5
    shift 5
    case $1 in run) program=$top/crates/vcat_run/out/vcat_run ;; *) program=$top/crates/vcat_walk/out/vcat_walk ;; esac
    timeout 600 /usr/bin/time -q -o "$work/used" -f '%e %M' "$program" "$@" < "$input" > "$work/out" 2> "$work/notes"
    status=$?
    said=
    [ "$status" = "$wanted" ] || said="status $wanted is wanted"
    [ "$(cat "$work/notes")" = "$note" ] || said="$said, the note is not"
    [ "$(tail -n 1 "$work/out")" = "$last" ] || said="$said, the output ends otherwise"
    [ -z "$said" ] || wrong=$((wrong + 1))
    awk -v what="$what" -v words="$*" -v size="$(wc -c < "$input")" -v status="$status" -v said="$said" '{
        printf "%s, %s of %d octets: status %d, %.2f s, %.0f MiB%s\n", words, what, size, status, $1, $2 / 1024, said ? ", WRONG: " said : ""
    }' "$work/used"
}

# Both programs over a text that ends at the limit, and then over one octet more: what the text is, its status, its note, and the last
# line of the output.
both() {
    for words in walk "run 3"; do
        # shellcheck disable=SC2086
        try "$1" "$work/text" "$2" "$3" "$4" $words
    done
    printf '\n' >> "$work/text"
    for words in walk "run 3"; do
        # shellcheck disable=SC2086
        try "$1" "$work/text" 8 "fault: too long" "" $words
    done
}

# A comment fills a text up to the limit.
fill() {
    left=$((most - $(wc -c < "$work/text")))
    { printf '#'; head -c $((left - 2)) /dev/zero | tr '\0' x; echo; } >> "$work/text"
}

{ echo "$head"; yes "# $(printf %078d 0)"; } | head -c $most > "$work/text"
both comments 0 "" "total ticks 20000 taken 20000 frames 0 commands 1 refused 0 got 0"

head -c $most /dev/zero | tr '\0' '\n' > "$work/text"
both "ends of lines" 5 "fault: line 67108865: missing
help: the line lines has to stand here" ""

awk -v frames=3480 -v octets=9600 -v every=5 -v ticks=20000 -f bench/frames.awk > "$work/text"
fill
both frames 0 "" "total ticks 20000 taken 20000 frames 3480 commands 1 refused 0 got 3480"

commands=$(((most - 2 - ${#head}) / 8))
{ echo "$head"; yes "add 0 0" | head -n $commands; } > "$work/text"
fill
both commands 0 "" "total ticks 20000 taken 20000 frames 0 commands 1 refused $commands got 0"
echo "answered wrongly: $wrong"
[ "$wrong" = 0 ]
