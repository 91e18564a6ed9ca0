#!/bin/sh
# Builds examples/ns3/echo.cc and bulk.cc by the commands of their page. echo runs with 1, 8 and 40 ticks in an event: what it writes last has to be what
# the page's table says, and `fates` of what was said has to lose no frame. The goodput that bulk writes last has to stand on the page, and to be that of
# `service`. The status is 0 where all is right, and 77 where ns-3 3.37 isn't there (Debian: g++, libns3-dev). The program has to stand: ./vcat builds one
# if none does.
cd "$(dirname "$0")/.." || exit 1
page=examples/ns3/README.md
if ! printf '#include "ns3/core-module.h"\n' | g++ -E -x c++ - > /dev/null 2>&1; then
    echo "live_ns3: left out, as g++ or ns-3 is missing (Debian: g++, libns3-dev)" >&2
    exit 77
fi
work=$(mktemp -d) || exit 1
trap 'rm -rf "$work"' EXIT
trap 'exit 130' INT
trap 'exit 143' TERM
printf 'lines 1\ndelays 0\nring 1\nlag 1\nticks 1\n' | ./vcat live > "$work/first" || exit 1
program=$(./vcat --program live)
sed -n "s|^\\$ \\(g++ .*\\)|\\1|p" "$page" | sed "s|/tmp/\\([a-z]*\\)|'$work/\\1'|" > "$work/build"
sh -e "$work/build" || exit 1
failed=0
for ticks in 1 8 40; do
    "$work/echo" --program="$program" --pass="$ticks" --keep="$work/said" > "$work/text" || failed=1
    said=$(tail -n 1 "$work/text")
    wanted=$(sed -n "s/^| $ticks | \\(.*\\) | \\(.*\\) |\$/45 of 45 came back, within \\1, half of them within \\2/p" "$page")
    echo "$ticks in an event: $said"
    if [ "$said" != "$wanted" ]; then
        echo "live_ns3: it isn't: $wanted" >&2
        failed=1
    fi
    for way in there back; do
        if ! examples/live_script.py --way "$way" "$program" walk < "$work/said.vcat" | "$program" fates | tail -n 1 | grep -q ' frames 45 got 45 lost 0 '; then
            echo "live_ns3: $ticks in an event: of the frames $way some are lost" >&2
            failed=1
        fi
    done
done
# The rest of a frame of TCP is 70 octets of headers and FCS.
"$work/bulk" --program="$program" --keep="$work/said" > "$work/text" || failed=1
said=$(tail -n 1 "$work/text")
goodput=$(examples/live_script.py --way there "$program" walk < "$work/said.vcat" | "$program" service 800 |
    awk '$1 == "stretch" && $2 >= 800 && $3 <= 4000 { printf "%.2f ", ($12 - 70 * $11) * 80 / 1e6 } END { print "Mbit/s" }')
echo "TCP: $said, by service $goodput"
if [ "$said" != "$goodput" ] || ! grep -qxF "$said" "$page"; then
    echo "live_ns3: the goodput isn't that of service, or isn't on the page" >&2
    failed=1
fi
exit "$failed"
