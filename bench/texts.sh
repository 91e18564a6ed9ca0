#!/bin/sh
# Ten thousand scripts of examples/ in which one octet is another are walked. It says how many are what; the status is 0 where each was answered with
# a status that there is, in time, and with nothing written beside a fault. With the name of a file it keeps there what was changed and what came of it.
cd "$(dirname "$0")/.." || exit 1
program=$PWD/crates/vcat_walk/out/vcat_walk
[ -x "$program" ] || { echo "texts: build the programs first: rt ci" >&2; exit 1; }
kept=${1:-/dev/null}
work=$(mktemp -d) || exit 1
trap 'rm -rf "$work"' EXIT
trap 'exit 130' INT
trap 'exit 143' TERM

# The file, the place and the octet of each change, drawn from a number.
ls examples/*.vcat | awk -v count=10000 '
    { files[NR] = $0; count_of = "wc -c < " $0; count_of | getline sizes[NR]; close(count_of) }
    END {
        srand(16)
        for (i = 0; i < count; i++) {
            k = 1 + int(NR * rand())
            print files[k], int(sizes[k] * rand()), int(256 * rand())
        }
    }' > "$work/changes"
wrong=0
while read -r file place octet; do
    cp "$file" "$work/script"
    printf "\\$(printf %o "$octet")" | dd of="$work/script" bs=1 seek="$place" conv=notrunc 2> /dev/null
    timeout 60 "$program" walk < "$work/script" > "$work/out" 2> "$work/notes"
    status=$?
    echo "$file $place $octet $status" >> "$work/statuses"
    case $status in
    0) [ -s "$work/notes" ] && wrong=$((wrong + 1)) ;;
    5 | 6) [ -s "$work/out" ] && wrong=$((wrong + 1)) ;;
    *) wrong=$((wrong + 1)) ;;
    esac
done < "$work/changes"
cp "$work/statuses" "$kept"
awk '{ count[$4]++ } END { for (s in count) print "one octet changed: status " s ", " count[s] " scripts" }' "$work/statuses" | sort
echo "answered wrongly: $wrong"
[ "$wrong" = 0 ]
