#!/bin/sh
# Makes a script of fibres: fibres.sh < FIBRES > SCRIPT. FIBRES is a script whose lines "lines", "delays" and "fail" are left out, and come of these
# lines before the one with the ticks:
#
#   fibre NAME DELAY        a fibre, and its delay in ticks
#   line NAME ..            the next line of the group, from 0: the fibres that it runs over, from the source to the sink
#   cut NAME FIRST END      from tick FIRST to below END nothing enters the fibre; what is in it by then arrives
#
# A line's delay is that of its fibres together. What enters a fibre in tick T was made in tick T less the delays of the fibres before it, so a cut
# damages other containers of each line; cuts that overlap are one failure of a line. "ring" and "lag" may be left out too: then the ring is the least,
# and the lag the least for a way back as long as the slowest line. A cut in the middle of a fibre is one of the second of two fibres.
exec awk '
    BEGIN { lines = cuts = 0 }
    function refuse(why) { print "fibres.sh: line " NR ": " why | "cat >&2"; refused = 1; exit 1 }
    function known(name) { if (!(name in delay)) refuse("there is no fibre " name) }
    function numbers(from) { for (; from <= NF; from++) if ($from !~ /^[0-9]+$/) refuse($from " is no number") }

    # The windows of a line in order, as lines of a script; those that overlap or touch are one.
    function tell(line, ticks, i, j, n, first, end, from, to) {
        for (i = 0; i < cuts; i++) {
            if (!((line, cut[i]) in before)) continue
            from = opened[i] - before[line, cut[i]]; to = closed[i] - before[line, cut[i]]
            if (from < 0) from = 0
            if (to > ticks) to = ticks
            if (from >= to) continue
            for (j = n++; j && first[j - 1] > from; j--) { first[j] = first[j - 1]; end[j] = end[j - 1] }
            first[j] = from; end[j] = to
        }
        for (i = 0; i < n; i = j) {
            to = end[i]
            for (j = i + 1; j < n && first[j] <= to; j++) if (end[j] > to) to = end[j]
            print "fail", line, first[i], to, 0
        }
    }

    $1 ~ /^(fibre|line|cut)$/ && begun { refuse($1 " stands before ticks") }
    $1 == "fibre" { if (NF != 3) refuse("fibre NAME DELAY"); numbers(3); delay[$2] = $3; print "#", $0; next }
    $1 == "line" {
        for (i = 2; i <= NF; i++) {
            known($i)
            if ((lines, $i) in before) refuse("twice over " $i)
            before[lines, $i] = total[lines] + 0
            total[lines] += delay[$i]
        }
        total[lines] += 0
        print "#", $0
        lines++
        next
    }
    $1 == "cut" {
        if (NF != 4) refuse("cut NAME FIRST END")
        known($2); numbers(3)
        cut[cuts] = $2; opened[cuts] = $3; closed[cuts++] = $4
        print "#", $0
        next
    }
    $1 == "ring" || $1 == "lag" { given[$1] = $0; next }
    $1 == "ticks" {
        begun = 1
        most = least = total[0]
        for (i = 0; i < lines; i++) {
            delays = delays " " total[i]
            if (total[i] > most) most = total[i]
            if (total[i] < least) least = total[i]
        }
        print "lines", lines + 0
        print "delays" delays
        print ("ring" in given) ? given["ring"] : "ring " most - least + 1
        print ("lag" in given) ? given["lag"] : "lag " int((32 + 2 * most + 15) / 16)
        print
        for (i = 0; i < lines; i++) tell(i, $2)
        next
    }
    { print }
    END { if (!refused && !begun) { print "fibres.sh: there is no line with the ticks" | "cat >&2"; exit 1 } }'
