#!/bin/sh
# Writes one script of the study to standard output: script.sh CONTAINER LINES LOAD LENGTH BEGIN [DRAW]. CONTAINER is vc3 or vc4; LINES is how many
# lines the group has, line n with a delay of n ticks; LOAD is per cent of what it carries; and line 0 fails for LENGTH ticks from tick BEGIN on. The
# frames, of 1,518 octets each, are due from 40 ticks before BEGIN to 759 after it, and their octets are drawn from DRAW, or from 1. The session ends
# 1,300 ticks after BEGIN.
here=$(dirname -- "$0")
case $# in
5 | 6) ;;
*) echo "usage: script.sh CONTAINER LINES LOAD LENGTH BEGIN [DRAW]" >&2; exit 2 ;;
esac
case $1 in
vc3) rate=48384 ;;
vc4) rate=149760 ;;
*) echo "script.sh: $1 is neither vc3 nor vc4" >&2; exit 2 ;;
esac
mbits=$((($3 * $2 * rate + 50000) / 100000))
awk -v container="$1" -v lines="$2" -v percent="$3" -v length_of="$4" -v begin="$5" -v draw="${6:-1}" -v mbits="$mbits" '
    BEGIN { for (n = 0; n < lines; n++) delays = delays (n ? " " : "") n }
    /^ADD$/ { for (n = 0; n < lines; n++) print "add 0 " n; next }
    {
        gsub(/CONTAINER/, container); gsub(/LINES/, lines); gsub(/DELAYS/, delays); gsub(/MBITS/, mbits); gsub(/LOAD/, percent)
        gsub(/LENGTH/, length_of); gsub(/BEGIN/, begin); gsub(/END/, begin + length_of); gsub(/TICKS/, begin + 1300)
        gsub(/FROM/, begin - 40); gsub(/UNTIL/, begin + 760); gsub(/DRAW/, draw)
        print
    }' "$here/template.vcat"
