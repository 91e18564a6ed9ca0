# shellcheck shell=sh disable=SC2154
# ./vcat report and ./vcat phases: what the program says of a script, in milliseconds and megabits a second. The script vcat reads this file; it has
# the names. Each number is one that the program wrote, or is made of such here; nothing is proved of that.

# The input, kept in the folder $work, and its name.
take_script() {
    ready
    make_work
    # One octet more than a script may have is status 8.
    head -c 67108865 > "$work/script" || exit 126
    text=${file:-$work/script}
    called=${file##*/}
    called=${called:-script}
}

# An answer about it, in a file of its first word. A refusal ends all with its notes and its status.
ask() {
    answer "$@" < "$work/script" > "$work/$1"
    if [ "$status" -ne 0 ]; then exit "$status"; fi
}

# For awk: times, rates, and tables whose first column stands to the left.
words_of='
    function ms(ticks, text) { text = sprintf("%.3f", ticks / 8); sub(/[.]?0+$/, "", text); return text " ms" }
    function span(first, end) { return "from " ms(first) " for " ms(end - first) }
    function rate(octets, ticks) { return sprintf("%.2f", octets * 0.064 / ticks) }
    function plural(count, noun) { return count " " noun (count == 1 ? "" : "s") }
    function called(name) { name = ENVIRON["called"]; gsub(/[\001-\037\177]/, "?", name); return name }
    # A number that begins with 0 is an octal one to some awk.
    function plain(i) {
        for (i = 2; i <= NF; i++) { gsub(/,0+/, ",", $i); sub(/^0+/, "", $i); if ($i == "") $i = 0 }
    }
    # A line of a kind, of which thirteen stand at most.
    function add(kind, text) { if (++many[kind] <= 13) said[kind, many[kind]] = text }
    function show(kind, i) {
        for (i = 1; i <= many[kind] && (i < 13 || many[kind] == 13); i++) print "  " said[kind, i]
        if (many[kind] > 13) print "  and " many[kind] - 12 " more"
    }
    # A row of cells with "|" between them; what is not shown is as wide.
    function row(kind, cells, cell, count, i) {
        count = split(cells, cell, "|")
        for (i = 1; i <= count; i++) if (length(cell[i]) > width[kind, i]) width[kind, i] = length(cell[i])
        add(kind, cells)
    }
    function show_table(kind, i, j, cell, count, text) {
        for (i = 1; i <= many[kind] && i <= 13; i++) {
            count = split(said[kind, i], cell, "|")
            text = sprintf("%-" width[kind, 1] "s", cell[1])
            for (j = 2; j <= count; j++) text = text sprintf("  %" width[kind, j] "s", cell[j])
            said[kind, i] = text
        }
        show(kind)
    }'

# The report: service, check and the script are read in turn, and the lines of fates beside those of the script.
report() {
    take_script
    ask service 100000000
    ask fates
    ask check
    # An octet 0 of a comment isn't read by every awk.
    tr '\000' '\001' < "$work/script" | called=$called fates=$work/fates awk "$words_of"'
        function cause(first) {
            if (NF == first) return "no line could be read"
            return $first == "container" ? "a damaged container of line " $(first + 1) : "a control packet of line " $(first + 1) " that could not be read"
        }
        # The fate of the next item, a frame of so many octets, if it has landed.
        function frame(octets, part, due, i) {
            if (next_item == "") next_item = next_fate()
            if (next_item == items++) {
                split(fate, part, " ")
                due = part[4]
                if (!frames++) first_due = due
                end_due = due + 1
                load += octets + 8
                i = !outages || due < dark_first ? 1 : due < dark_end ? 2 : 3
                offered[i] += octets
                count[i, part[5] ~ /^(got|refused|waits)$/ ? part[5] : "lost"] += octets
                next_item = next_fate()
            }
        }
        function next_fate(part) {
            while ((getline fate < ENVIRON["fates"]) > 0) {
                split(fate, part, " ")
                if (part[1] == "frame") return part[2] + 0
            }
            return -1
        }
        # The frames of a line of traffic: so many sizes in turn, each due when those before it are sent.
        function stream(sizes, size, k, before) {
            sizes = split($2, size, ",")
            for (k = 0; $4 + int(8 * before / (125 * $3)) < $5; k++) {
                frame(size[k % sizes + 1] + 0)
                before += size[k % sizes + 1]
            }
        }
        function command(line) {
            kind[items] = $1
            line_of[items++] = line
            if ($1 == "add") added[line]
            if ($1 != told || $2 + 0 != told_due) commands++
            told = $1
            told_due = $2 + 0
            if (++told_of[commands] <= 128) lines_told[commands] = lines_told[commands] " " line
            command_told[commands] = told
            time_told[commands] = ms(told_due)
        }
        function fail(line, first, end, slip, i) {
            i = ++fails[line]
            failure[line, i] = first " " end " " slip
            near[line] = i > 1 && first - ended[line] < 17 ? near[line] + slip : slip
            ended[line] = end
            if (near[line] > slips) slips = near[line]
        }
        FILENAME ~ /service$/ {
            if ($1 == "members") {
                if (!stairs) row("capacity", "from|to|members|Mbit/s")
                members[++stairs] = $0
                row("capacity", ms($2) "|" ms($3) "|" $4 "|" rate($5, 1))
            }
            if ($1 == "outage") {
                if (!outages++) dark_first = $2
                dark_end = $3
                add("outages", span($2, $3) ": " plural($7, "frame") " lost, " plural($8, "octet") "; first " cause(9))
            }
            if ($1 == "delays") delays = $0
            if ($1 == "service") split($0, total, " ")
            next
        }
        FILENAME ~ /check$/ { checked[++findings] = $0; next }
        { sub(/\r$/, "") }
        NF == 0 || $1 ~ /^#/ { next }
        $1 == "frame" { frame(length($3) / 2); next }
        { plain() }
        $1 == "delays" { for (i = 2; i <= NF; i++) delay[i - 2] = $i + 0; next }
        $1 == "fail" { fail($2 + 0, $3 + 0, $4 + 0, $5 + 0); next }
        $1 == "lost" { add("lost", "lost: return packets " $2 + 0 " to " $3 - 1); next }
        $1 == "stream" { stream(); next }
        $1 == "add" || $1 == "remove" { command($3 + 0); next }
        $1 ~ /^(client|operator|tick|carry|back|take|round|drain)$/ { events = 1; next }
        { setting[$1] = $2 }
        END { tell() }
        function tell(i) {
            lines = setting["lines"] + 0; ticks = setting["ticks"] + 0; lag = setting["lag"] + 0; ring = setting["ring"] + 0
            slow = fast = delay[0]
            for (i = 1; i < lines; i++) { if (delay[i] > slow) slow = delay[i]; if (delay[i] < fast) fast = delay[i] }
            slips += 0; outages += 0; frames += 0
            left = 16 * lag - 16 - slow - slips
            print called() ": " plural(lines, "line") " of VC-" (setting["container"] == "vc3" ? 3 : 4) ", " plural(ticks, "tick") " (" ms(ticks) ")"
            if (total[31] != ticks || total[33] != ticks) print "  by its event lines " total[31] " ticks are made and " total[33] " rows taken"
            tell_settings()
            print "\nMembers and capacity"
            if (!stairs) print "  none"
            show_table("capacity")
            if (frames) tell_throughput()
            print "\nOutages"
            if (!outages) print "  none"
            show("outages")
            tell_frames()
            print "\nWarnings"
            warn()
            if (!many["warnings"]) print "  none"
            show("warnings")
        }
        function tell_settings(i, j, part) {
            print "\nAs read: 8 ticks are 1 ms, a packet is 16 ticks or 2 ms"
            for (i = 0; i < lines; i = j + 1) {
                for (j = i; j + 1 < lines && delay[j + 1] == delay[i];) j++
                print "  " (i == j ? "line " i : "lines " i " to " j) ": delay " delay[i] " ticks, " ms(delay[i])
            }
            print "  ring: " plural(ring, "cell") ", " slow - fast + slips + 1 " needed"
            print "  lag: " plural(lag, "packet") ", for a round trip of " ms(16 * lag - 16) ": " ms(slow) " there" \
                (slips ? " and " ms(slips) " of slips" : "") ", " ms(left) " left for the way back"
            i = setting["holdoff"] + 1
            print "  hold-off: a member goes out after " plural(i, "packet") " in turn that can\047t be read, " ms(16 * i)
            i = setting["restore"] + 1
            print "  restore: it comes back after " plural(i, "packet") " in turn that can, " ms(16 * i)
            print "  statuses: all are told in " (setting["statuses"] == 32 ? 64 : 32) " ms; the sink " (setting["sink"] == "infers" ? "infers" : "stops")
            for (i = 0; i < lines; i++) for (j = 1; j <= fails[i]; j++) {
                split(failure[i, j], part, " ")
                add("failures", "failure: line " i ", " span(part[1], part[2]) (part[3] > 0 ? ", slip " ms(part[3]) : "") " (" part[1] " to " part[2] ")")
            }
            show("failures")
            show("lost")
            for (i = 1; i <= commands; i++)
                add("commands", command_told[i] ": line" (told_of[i] > 1 ? "s" : "") lines_told[i] \
                    (told_of[i] > 128 ? " and " told_of[i] - 128 " more" : "") " at " time_told[i])
            show("commands")
        }
        function tell_throughput(i, j, from, to, text, fates) {
            split("got lost refused waits", fates, " ")
            print "\nThroughput of the frames that are due then"
            row("rates", "Mbit/s|from|to|offered|got|lost|refused|waiting")
            for (i = 1; i <= 3; i++) {
                from = i == 1 ? first_due : i == 2 ? dark_first : dark_end
                to = i == 1 && outages ? dark_first : i == 2 ? dark_end : end_due
                if (from < first_due) from = first_due
                if (to > end_due) to = end_due
                if (from + 0 >= to + 0 || (i > 1 && !outages)) continue
                text = (!outages ? "all" : i == 1 ? "before" : i == 2 ? "during" : "after") "|" ms(from) "|" ms(to) "|" rate(offered[i], to - from)
                for (j = 1; j <= 4; j++) text = text "|" rate(count[i, fates[j]], to - from)
                row("rates", text)
            }
            show_table("rates")
        }
        function tell_frames(part, path) {
            print "\nFrames\n  " total[5] " offered: " total[11] " got, " total[14] " lost, " total[8] " refused, " total[28] " waiting"
            split(delays, part, " ")
            path = part[10] == "path" ? part[11] : slow
            if (total[11] > 0) print "  delay as the client sees it, " ms(path) " of the slowest line with it: least " ms(part[3] + path) \
                ", half " ms(part[5] + path) ", 99 of 100 " ms(part[7] + path) ", greatest " ms(part[9] + path) \
                (slips || 16 * lag < 17 + slow || events ? "; more where slips, the least lag or event lines hold rows up" : "")
            print "  queue: " total[19] " of 256 waited at most, first at " ms(total[20])
        }
        # How many packets a failure makes unreadable.
        function missed(part) { return int((part[2] - 1) / 16) - int((part[1] - 8) / 16) + 1 }
        function warn(i, j, part, hits, most, least, mean) {
            for (i = 0; i < lines; i++) for (j = 1; j <= fails[i]; j++) {
                split(failure[i, j], part, " ")
                hits = missed(part)
                if (hits > most) most = hits
                if (least == "" || hits < least) least = hits
                if (2 * (part[2] - part[1]) > ticks)
                    long[++longs] = "fail " i " " part[1] " " part[2] ": it lasts more than half of the session; END is no length"
            }
            hits = setting["holdoff"] + 0
            if (hits && least != "" && most <= hits)
                add("warnings", "hold-off: no failure makes more than " plural(most, "packet") " unreadable, so none reaches it")
            if (hits && least > hits)
                add("warnings", "hold-off: each failure makes " plural(least, "packet") " or more unreadable, so each passes it")
            if (left < slow) add("warnings", "lag: a way back as long as the way there needs lag " int((31 + 2 * slow + slips) / 16))
            for (i = 1; i <= longs; i++) add("warnings", long[i])
            for (i = 1; i <= findings; i++) warn_of(checked[i])
            if (frames) mean = load / (end_due - first_due)
            for (i = 1; i <= stairs && frames; i++) {
                split(members[i], part, " ")
                if (part[5] < mean && part[2] < end_due && part[3] > first_due)
                    add("warnings", span(part[2] < first_due ? first_due : part[2], part[3] > end_due ? end_due : part[3]) \
                        " the group carries " rate(part[5], 1) " Mbit/s, and " rate(mean, 1) " are offered with the 8 octets of each frame")
            }
            if (total[35] != "true") add("warnings", "chance: a receiver came into SYNC at no start of a frame, so these numbers are no promise")
        }
        function warn_of(line, part, why) {
            split(line, part, " ")
            if (part[1] == "line") add("warnings", "line " part[2] (part[2] in added ? " never carried payload" : " is never added"))
            if (part[1] == "window") add("warnings", "fail " part[2] " " part[3] " " part[4] ": it spoiled nothing")
            if (part[1] == "early")
                add("warnings", plural(part[2], "frame") " due before any line carries payload" (part[3] == "none" ? "" : ", from " ms(part[3]) " on"))
            why = line
            sub(/^item [0-9]+ refused /, "", why)
            if (part[1] == "item" && part[2] in kind)
                add("warnings", "item " part[2] ": " kind[part[2]] " line " line_of[part[2]] " is refused: " why)
        }' "$work/service" "$work/check" - || exit 126
    exit 0
}

# The table of phases: of FILE, and of it with the failure at each of 256 places, or 512 with statuses in 32 packets.
phases() {
    faults=$(explain_words 2>&1)
    if [ -n "$faults" ]; then
        printf '%s\n' "$faults" >&2
        exit 2
    fi
    # The words are numbers here; without zeros before them, as for plain.
    # shellcheck disable=SC2046
    set -- $(printf '%s\n' "$@" | sed 's/^0*\(.\)/\1/')
    take_script
    ask service 100000000
    if [ -z "$program" ]; then refuse "phases wants a program that is kept." 126; fi
    if [ "$(tail -c 1 "$work/script" | wc -l)" -eq 0 ]; then echo >> "$work/script"; fi
    # Of each phase how many lines stand before its failure, and the words of that.
    tr '\000' '\001' < "$work/script" | line=$2 first=$3 ticks=$4 awk "$words_of"'
        BEGIN { line = ENVIRON["line"] + 0; first = ENVIRON["first"] + 0; phases = 256 }
        { sub(/\r$/, "") }
        $1 == "statuses" || $1 == "fail" { plain() }
        $1 == "statuses" { phases = 16 * $2 }
        $1 == "fail" && $2 + 0 == line { begins[++count] = $3 + 0; at[count] = NR }
        $1 ~ /^(frame|stream|add|remove|client|operator|tick|carry|back|take|round|drain)$/ { items = NR; exit }
        END {
            for (i = 0; i < phases; i++) {
                place = items ? items : NR + 1
                for (k = count; k && begins[k] >= first + i; k--) place = at[k]
                print place - 1, line, first + i, first + i + ENVIRON["ticks"]
            }
        }' > "$work/plan"
    cat > "$work/phase" << 'END'
put_in() { head -n "$1" script; echo "fail $2 $3 $4 0"; tail -n "+$(($1 + 1))" script; }
if [ "$#" -eq 2 ]; then put_in $1; else put_in $1 | "$program" service 100000000 2> /dev/null | grep '^service' || echo refused; fi
END
    start_clock
    all_phases > "$work/phases"
    stop_clock
    refused=$(sed -n '/^refused/{=;q;}' "$work/phases")
    if [ -n "$refused" ]; then
        (cd "$work" && sh phase "$(sed -n "${refused}p" plan)" text > refused)
        text=$work/refused
        answer service 100000000 < "$text" > "$work/stdout"
        if [ "$status" -ne 0 ]; then exit "$status"; fi
    fi
    if [ "$(grep -c '^service' "$work/phases")" -ne "$(wc -l < "$work/plan")" ]; then refuse "not each phase has an answer." 126; fi
    called=$called ticks=$4 awk "$words_of"'
        function cell(kind, value) { if (kind !~ / ms$/) return sprintf("%.0f", value); value = ms(value); sub(/ ms$/, "", value); return value }
        function tell(kind, column, i, j, v, sorted, at) {
            for (i = 1; i <= phases; i++) {
                v = value[i, column] + 0
                if (i == 1 || v > sorted[i - 1]) at = begin[i]
                for (j = i; j > 1 && sorted[j - 1] > v; j--) sorted[j] = sorted[j - 1]
                sorted[j] = v
            }
            row("table", kind "|" cell(kind, sorted[1]) "|" cell(kind, sorted[int((phases + 1) / 2)]) "|" cell(kind, sorted[phases]) "|" at "|" \
                cell(kind, value[0, column]))
        }
        FILENAME ~ /plan$/ { begin[FNR] = $3; line = $2; next }
        $1 == "service" {
            if (FILENAME ~ /phases$/) phases++
            value[phases + 0, "dark"] = $24; value[phases + 0, "lost"] = $14; value[phases + 0, "octets"] = $15
            value[phases + 0, "refused"] = $8; value[phases + 0, "delay"] = $22
        }
        END {
            print called() ": fail " line " of " ms(ENVIRON["ticks"]) " at each of " phases " phases, from tick " begin[1] " on"
            row("table", "|least|middle|greatest|at|without")
            tell("dark, ms", "dark"); tell("frames lost", "lost"); tell("octets lost", "octets")
            tell("frames refused", "refused"); tell("greatest delay, ms", "delay")
            show_table("table")
        }' "$work/plan" "$work/service" "$work/phases" || exit 126
    exit 0
}

# A line service for each phase, or what stands for a refusal; of those one by one, the first refusal ends all.
all_phases() (
    cd "$work" || exit
    export program
    if parallel --version 2> /dev/null | grep -q '^GNU'; then
        parallel --will-cite -k sh phase < plan
        return
    fi
    while read -r words; do
        sh phase "$words" > answered
        cat answered
        if grep -q '^refused' answered; then return; fi
    done < plan
)
