#!/bin/sh
# Faults from outside, tried on both built programs: memory that is refused at each call in turn, threads that can't be started, an
# input that is cut, inputs and outputs that fail, and signals. Of each it says how many were tried, and each that was answered
# wrongly; the status is 0 where none was. What is named after it is all that is tried: memory, cut, files, signals.
cd "$(dirname "$0")/.." || exit 1
top=$PWD
for name in vcat_walk vcat_run; do
    [ -x "crates/$name/out/$name" ] || { echo "faults: build the programs first: rt ci" >&2; exit 1; }
done
work=$(mktemp -d) || exit 1
trap 'rm -rf "$work"' EXIT
trap 'exit 130' INT
trap 'exit 143' TERM
wrong=0
: > "$work/empty"

# The program that answers to a first word.
program_of() {
    case $1 in
    run) echo "$top/crates/vcat_run/out/vcat_run" ;;
    *) echo "$top/crates/vcat_walk/out/vcat_walk" ;;
    esac
}

# What is wrong with an answer is said, and counted.
complain() {
    echo "faults: $*" >&2
    wrong=$((wrong + 1))
}

# What was tried, and whether all of it since the last report was right.
reported=0
report() {
    if [ "$wrong" = "$reported" ]; then echo "$*: all right"; else echo "$*: $((wrong - reported)) wrong"; fi
    reported=$wrong
}

# Runs a program with these words; `settings` stand around it. It is given up after a minute, with status 124.
settings=
answer() {
    # shellcheck disable=SC2086
    timeout 60 env $settings "$(program_of "$1")" "$@" > "$work/out" 2> "$work/notes"
    status=$?
}

# What an answer has to be: the status, the output, and the note where one is named.
expect() {
    [ "$status" = "$2" ] || complain "$1: status $status, not $2"
    cmp -s "$3" "$work/out" || complain "$1: the output is not what is wanted"
    [ -z "$4" ] || [ "$(cat "$work/notes")" = "$4" ] || complain "$1: the note is '$(cat "$work/notes")'"
}

# An answer without all that it asked for: want of memory and nothing written, or the whole text all the same.
expect_all_or_nothing() {
    case $status in
    7)
        short=$((short + 1))
        expect "$1" 7 "$work/empty" ""
        [ ! -s "$work/notes" ] || expect "$1" 7 "$work/empty" "fault: no memory"
        ;;
    *)
        whole=$((whole + 1))
        expect "$1" 0 "$work/whole" ""
        [ ! -s "$work/notes" ] || [ "$2" = trace ] || complain "$1: a note beside status 0"
        ;;
    esac
}

# Memory: each call alone is refused, and then it and all after it; and each thread in turn.
memory() {
    input=$1
    shift
    preload="LD_PRELOAD=$work/refuse.so"
    settings="$preload REFUSE_COUNT=$work/count"
    rm -f "$work/count"
    answer "$@" < "$input"
    [ -s "$work/count" ] || { complain "$*: the calls can't be counted"; settings=; return; }
    [ "$status" = 0 ] || complain "$*: status $status"
    cp "$work/out" "$work/whole"
    read -r calls threads < "$work/count"
    for from in "" REFUSE_FROM=1; do
        short=0 whole=0 number=0
        while [ "$number" -lt "$calls" ]; do
            number=$((number + 1))
            settings="$preload REFUSE=$number $from"
            answer "$@" < "$input"
            expect_all_or_nothing "memory $number $from of $*" "$1"
        done
        report "$*: memory refused at each of $calls calls${from:+ and from there on}, $short times status 7 and nothing" \
            "written, $whole times the whole text"
    done
    short=0 whole=0 number=0
    while [ "$number" -lt "$threads" ]; do
        number=$((number + 1))
        settings="$preload REFUSE_THREAD=$number"
        answer "$@" < "$input"
        expect_all_or_nothing "thread $number of $*" "$1"
    done
    [ "$threads" = 0 ] ||
        report "$*: each of $threads threads not started, $short times status 7 and nothing written, $whole times the whole text"
    settings=
}

all_memory() {
    cc -O1 -shared -fPIC -o "$work/refuse.so" bench/refuse.c -ldl || exit 1
    memory examples/hitless.vcat walk
    memory examples/hitless.vcat trace
    memory examples/live.vcat live
    memory examples/live_pair.vcat live pair told
    memory examples/h4.hex decode
    memory /dev/null make 7 8 400
    memory examples/hitless.vcat run 3
}

# An input that is cut at each of a hundred places: a script, or told as faulty. Both programs answer it alike.
cut_input() {
    file=$1
    size=$(wc -c < "$file")
    good=0
    for place in $(awk -v n="$size" 'BEGIN { for (i = 0; i < 100; i++) print int(i * n / 100) }'); do
        head -c "$place" "$file" > "$work/cut"
        answer walk < "$work/cut"
        case $status in
        0)
            good=$((good + 1))
            tail -n 1 "$work/out" | grep -q '^total ticks ' || complain "cut at $place: no totals"
            [ ! -s "$work/notes" ] || complain "cut at $place: a note"
            ;;
        5)
            expect "cut at $place" 5 "$work/empty" ""
            grep -Eq '^fault: line [0-9]+: (word|number|hex|range|order|missing)$' "$work/notes" || complain "cut at $place: no note"
            ;;
        *) complain "cut at $place: status $status" ;;
        esac
        walked=$status
        mv "$work/out" "$work/walked"
        mv "$work/notes" "$work/walked_notes"
        answer run 3 < "$work/cut"
        expect "run of a cut at $place" "$walked" "$work/walked" "$(cat "$work/walked_notes")"
    done
    report "walk and run 3: $file cut at 100 places, $good are scripts, the others are told as faulty, and both answer alike"
}

# A script whose frames come over all of its ticks, so that lines go out all along.
long_script() {
    awk -v frames=20000 -v octets=256 -v every=10 -v ticks=200100 -f bench/frames.awk > "$work/long"
}

# What was written is a prefix of the text.
expect_prefix() {
    head -c "$(wc -c < "$work/out")" "$work/whole" | cmp -s - "$work/out" || complain "$1: no prefix"
}

# Standard output on a full device, closed, and read by nobody after its first octets; notes on a full device, and closed.
outputs() {
    program=$(program_of "$1")
    answer "$@" < "$work/long"
    mv "$work/out" "$work/whole"
    "$program" "$@" < examples/hitless.vcat > /dev/full 2> "$work/notes"
    [ $? = 4 ] && tail -n 1 "$work/notes" | grep -q '^fault: write failed$' || complain "$* on a full device"
    "$program" "$@" < examples/hitless.vcat >&- 2> "$work/notes"
    [ $? = 4 ] && tail -n 1 "$work/notes" | grep -q '^fault: write failed$' || complain "$* on a closed output"
    "$program" "$@" < examples/hitless.vcat > /dev/full 2> /dev/full
    [ $? = 4 ] || complain "$* on full devices"
    "$program" "$@" < examples/hitless.vcat >&- 2>&-
    [ $? = 4 ] || complain "$* with all outputs closed"
    for octets in 1 10 20000 1000000; do
        {
            "$program" "$@" < "$work/long" 2> "$work/notes"
            echo $? > "$work/status"
        } | head -c "$octets" > "$work/out"
        [ "$(cat "$work/status")" = 4 ] || complain "$* whose reader goes after $octets octets: status $(cat "$work/status")"
        tail -n 1 "$work/notes" | grep -q '^fault: write failed$' || complain "$* whose reader goes after $octets octets: no note"
        expect_prefix "$* whose reader goes after $octets octets"
    done
    for fault in hex spread; do
        case $fault in hex) wanted=5 ;; *) wanted=6 ;; esac
        "$program" "$@" < examples/faults/$fault.vcat > "$work/out" 2>&-
        [ $? = $wanted ] && [ ! -s "$work/out" ] || complain "$* of a fault on closed notes"
        "$program" "$@" < examples/faults/$fault.vcat > "$work/out" 2> /dev/full
        [ $? = $wanted ] && [ ! -s "$work/out" ] || complain "$* of a fault on notes that are full"
    done
    "$program" "$@" x < /dev/null > "$work/out" 2>&-
    [ $? = 2 ] && [ ! -s "$work/out" ] || complain "$*: usage on closed notes"
    report "$*: output full, closed, or left by its reader after 1, 10, 20,000 and 1,000,000 octets, status 4 and a prefix;" \
        "notes closed or full, statuses 2, 5 and 6 stay"
}

# Inputs that can't be read.
inputs() {
    answer "$@" < examples
    expect "$* of a folder" 3 "$work/empty" "fault: read failed"
    answer "$@" <&-
    expect "$* of a closed input" 3 "$work/empty" "fault: read failed"
    report "$*: a folder as input, and a closed input, status 3 and nothing written"
}

# Signals at twenty moments of a run leave a prefix of the text.
signals() {
    program=$(program_of "$1")
    start=$(date +%s%N)
    answer "$@" < "$work/long"
    stop=$(date +%s%N)
    mv "$work/out" "$work/whole"
    ended=0 begun=0
    for delay in $(awk -v ns="$((stop - start))" 'BEGIN { for (i = 1; i <= 20; i++) print i * ns / 21e9 }'); do
        "$program" "$@" < "$work/long" > "$work/out" 2> "$work/notes" &
        sleep "$delay"
        kill -TERM $! 2> /dev/null
        wait $! 2> /dev/null
        status=$?
        expect_prefix "$* and a signal after $delay seconds"
        case $status in
        0) expect "$* and a signal that came late" 0 "$work/whole" "" ;;
        143)
            ended=$((ended + 1))
            [ ! -s "$work/out" ] || begun=$((begun + 1))
            ;;
        *) complain "$* and a signal after $delay seconds: status $status" ;;
        esac
    done
    report "$*: signals at 20 moments of a run, $ended ended it, $begun of them after its first lines, what was written is a prefix" \
        "of the text"
}

for part in ${*:-memory cut files signals}; do
    case $part in
    memory) all_memory ;;
    cut)
        cut_input examples/hitless.vcat
        cut_input examples/failed_member.vcat
        ;;
    files)
        long_script
        inputs walk
        inputs trace
        inputs decode
        inputs run 3
        outputs walk
        outputs trace
        outputs run 3
        "$(program_of trace)" trace < examples/hitless.vcat > "$work/out" 2> /dev/full
        [ $? = 4 ] && [ ! -s "$work/out" ] || complain "a trace on a full device"
        ;;
    signals)
        long_script
        signals walk
        signals run 3
        ;;
    *) complain "there is no part $part" ;;
    esac
done
echo "answered wrongly: $wrong"
[ "$wrong" = 0 ]
