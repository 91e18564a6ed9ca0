# shellcheck shell=sh disable=SC2154
# Builds what answers where no program stands: the proved one, or a trial that is kept. The script vcat reads this file then; it has the names.

# Begins a command of the toolchain in the crate's folder. What ends vcat ends it too, with all that it has started.
begin() {
    {
        # Where there is a setsid it begins a group of processes.
        # shellcheck disable=SC2046
        (cd "$crate" && exec $(command -v setsid) "$@" <&3 3<&-) &
        builder=$!
    } 3<&0
}
toolchain() {
    begin "$@"
    wait "$builder"
    status=$?
    builder=
}

# Says that the build $1 was refused, with the end of its log $2.
refuse_build() {
    stop_signs
    echo "vcat: the $1 was refused. The last lines of its log:" >&2
    tail -n 20 "$2" >&2
    exit 126
}

# Builds the proved program, by its stored run.
build_proved() {
    log=$crate/out/vcat.log
    rm -f "$program"
    : > "$log"
    : > "$work/start"
    start_signs "the program is proved and built, once: $proved_time. The log is $log" "$work/start"
    # The words of the stored run stand in the file args, one a line.
    # shellcheck disable=SC2046
    toolchain rt run -- $(cat "$crate/args") < "$crate/stdin" > "$log" 2>&1
    if [ "$status" -ne 0 ] || ! is_newest "$program"; then
        rm -f "$program"
        refuse_build build "$log"
    fi
    stop_signs
}

# The folder of the toolchain.
kit_of() {
    kit=$(readlink -f "$(command -v rt)")
    echo "${kit%/bin/rt}"
}

# Makes the folder $1 of links to the toolchain's kit, whose clang is tools/clang, and whose prover, which would look at names meanwhile, does nothing.
link_kit() {
    rm -rf "$1"
    mkdir -p "$1/bin" "$1/toolchain/bin" || return
    ln -s "$kit" "$1/kit"
    ln -s "$top/tools/clang" "$1/toolchain/bin/clang"
    printf '#!/bin/sh\n' > "$1/bin/rattle" && chmod +x "$1/bin/rattle" || return
    # The command rt finds its kit by its own place, so it can't be a link.
    cp "$kit/bin/rt" "$kit/bin/rtlib.py" "$1/bin" || return
    for each in "$kit"/* "$kit"/bin/* "$kit"/toolchain/* "$kit"/toolchain/bin/*; do
        link=$1${each#"$kit"}
        if [ ! -e "$link" ]; then ln -s "$each" "$link"; fi
    done
}

# Makes the trial $1 without the toolchain's checks. It is none if it doesn't answer a first script.
make_trial() {
    kit=$(kit_of)
    link_kit "$work/kit" 2> /dev/null && mkdir "$work/kit/program" || return
    toolchain env TMPDIR="$work" "$work/kit/bin/rt" try < /dev/null > /dev/null 2> "$work/log"
    object=$work/kit/program/object
    if [ ! -e "$object" ]; then
        # A crate that is refused has status 1.
        if [ "$status" -eq 1 ]; then refuse_build "trial build" "$work/log"; fi
        return 1
    fi
    "$kit/bin/rattle-link" --target x86_64-unknown-linux-gnu --toolchain "$kit/toolchain" -o "$1" \
        "$object" "$kit/c/libos_c.a" "$kit/c/liblibc_c.a" > /dev/null 2>&1 || return
    # The words are two for vcat_run.
    # shellcheck disable=SC2086
    "$1" $first < "$top/examples/one_line.vcat" 2> /dev/null | cmp -s - "$top/examples/one_line.stdout"
}

# The process that runs the file $1, if there is one. Only of those of whoever calls, since its words are run, and with the file in its memory: a
# program that takes another's rights counts as the caller's too.
process_of() {
    for each in /proc/[0-9]*; do
        if [ -O "$each" ] && grep -Fqs -e " $1" "$each/maps" && { tr '\0' '\n' < "$each/cmdline"; } 2> /dev/null | grep -Fqx -e "$1"; then
            echo "$each"
            return
        fi
    done
    return 1
}

# Takes the trial $1 from the folder $2 in which the toolchain runs it: the program, and a script that starts it by the same words. The toolchain makes
# a trial only to run it once, and removes it behind that run.
take_trial() {
    for made in "$2"/*/*/program; do
        [ -x "$made" ] && process=$(process_of "$made") || return
        {
            printf '#!/bin/sh\nexec '
            tr '\0' '\n' < "$process/cmdline" | made=$made awk '$0 == ENVIRON["made"] { exit } { print }' |
                sed "s/'/'\\\\''/g; s/.*/'&'/" | tr '\n' ' '
            # shellcheck disable=SC2016
            echo '"${0%/*}/program" "$@"'
        } > "$1"
        chmod +x "$1" && cp "$made" "$1.program" && mv "$1.program" "${trial%/*}/program"
        return
    done
}

# Makes the trial $1 with the toolchain's checks, by a walk that takes long. If it isn't found while that runs, as with a toolchain that runs its trials
# otherwise, it is none.
make_checked_trial() {
    rm -f "$1"
    printf 'lines 1\ndelays 0\nring 64\nlag 4\nticks 100000000\nadd 0 0\n' > "$work/long"
    mkdir "$work/checked"
    # shellcheck disable=SC2086
    begin env TMPDIR="$work/checked" rt try --seconds "$trial_seconds" -- $first < "$work/long" > /dev/null 2> "$work/log"
    until take_trial "$1" "$work/checked"; do
        if ! kill -0 "$builder" 2> /dev/null; then break; fi
        sleep 0.2
    done
    end_builder
    [ -x "$1" ]
}

# Builds the trial that is kept. It is as old as the beginning of its build, so that sources which change meanwhile count as newer.
build_trial() {
    case $name in
    vcat_run)
        first="run 1"
        others=
        ;;
    *)
        first=walk
        others=", and another for run and watch"
        ;;
    esac
    start_signs "no proved program stands here: a trial, which proves nothing, is built once, in $trial_time$others. \
rt ci builds the proved ones: $gate_time; VCAT_PROVED=1 ./vcat $asked .. this one alone: $proved_time"
    : > "$work/start"
    if [ -w "${trial%/*}" ] && { make_trial "$work/made" || make_checked_trial "$work/made"; }; then
        cp "$work/made" "$trial.$$" && touch -r "$work/start" "$trial.$$" && mv "$trial.$$" "$trial" && program=$trial
    fi
    stop_signs
    if [ -n "$program" ]; then return; fi
    if [ "$asked" = live ]; then
        refuse "live answers as its input comes, and a trial that isn't kept answers at its end: VCAT_PROVED=1 ./vcat live builds the program." 126
    fi
    say "the trial can't be kept here, so each answer builds one."
}

# Answers by a trial that the toolchain makes for this answer alone. It ends standard error with a few lines of its own, and the last one has the
# status. What it writes comes at its end.
try_once() {
    toolchain rt try --seconds "$trial_seconds" -- "$@" > "$work/output" 2> "$work/log"
    status=$(sed -n '$s/^run=ended status=\([0-9][0-9]*\) .*/\1/p' "$work/log")
    if [ -n "$status" ]; then
        cat "$work/output"
        awk '{ line[NR] = $0 } END { n = NR; while (n && line[n] ~ /^(checked: |races: |run=)/) n--; for (i = 1; i <= n; i++) print line[i] }' \
            "$work/log" >&2
        return
    fi
    status=126
    limit=$(sed -n 's/^checked: no-answer: //p' "$work/log" | tail -n 1)
    if [ -z "$limit" ]; then refuse_build "trial build" "$work/log"; fi
    echo "vcat: the trial met a limit and gives no answer: $limit. The proved program has no such limit: VCAT_PROVED=1 ./vcat .." >&2
}

# Builds what is wanted.
build() {
    if ! command -v rt > /dev/null 2>&1; then
        echo "vcat: the program is not built, and the toolchain's command rt is not there to build it." >&2
        exit 127
    fi
    mkdir -p "${trial%/*}" 2> /dev/null
    make_work
    if [ "${VCAT_PROVED-}" = 1 ]; then
        build_proved
    else
        program=
        build_trial
    fi
}
