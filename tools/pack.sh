# shellcheck shell=sh disable=SC2154
# ./vcat dist and ./vcat install: all that answers without the toolchain, as one file or below a folder. The script vcat reads this file; it has the
# names. What is packed has its programs in bin/, and no crates.

# The page of the manual.
manual() {
    printf '.TH VCAT 1 "" "%s"\n' "$(version | cut -d ' ' -f 1-2)"
    cat << 'END'
.SH NAME
vcat \- a simulated terminal pair for Ethernet over virtually concatenated SDH
.SH SYNOPSIS
.B vcat
.I COMMAND
.RI [ WORD ]...
.RI [ FILE ]
.SH DESCRIPTION
A command reads a script, or another text, from FILE or from standard input, and writes what comes of it. A last word is FILE if it has
a / or a . in it.
.SH COMMANDS
END
    commands | awk -F ' [|] ' '{
        gsub(/-/, "\\-")
        name = $2
        words = sub(/ .*/, "", name) ? substr($2, length(name) + 1) : ""
        print ".TP\n\\fB" name "\\fR" words "\n" $3 "."
    }'
    cat << 'END'
.SH ENVIRONMENT
.TP
.B VCAT_QUIET=1
Nothing is said of builds and of how long answers take.
.SH EXIT STATUS
0 to 8 are those of the programs, which SCRIPT.md tells. 125: the file can't be read. 126: a build, or what it makes, is refused. 127: there is nothing to build with.
.SH FILES
END
    printf '%s has what is packed with the programs: docs/TUTORIAL.md, docs/SCRIPT.md and docs/COMMANDS.md to begin with, and examples/.\n' \
        "The folder that the link vcat leads to"
}

# The completion of words for bash: commands, words that may be left out, files.
completion() {
    cat << END
_vcat() {
    local word=\${COMP_WORDS[COMP_CWORD]} words=
    case "\$COMP_CWORD,\${COMP_WORDS[*]:1:COMP_CWORD-1}" in
    1,*) words="$(commands | awk '{ print $3 }' | tr '\n' ' ')help --version" ;;
END
    # Of a second group the words also stand behind each word of the first.
    commands | awk '{
        for (n = 0; match($0, /\[[^]]*\]/); $0 = substr($0, RSTART + RLENGTH)) {
            if (n == 0) name = $3
            group[++n] = substr($0, RSTART + 1, RLENGTH - 2)
            gsub(/[|]/, " ", group[n])
        }
        if (n == 0) next
        print "    \"2," name "\") words=\"" group[1] (n > 1 ? " " group[2] : "") "\" ;;"
        count = n > 1 ? split(group[1], word, " ") : 0
        for (i = 1; i <= count; i++) print "    \"3," name " " word[i] "\") words=\"" group[2] "\" ;;"
    }'
    cat << 'END'
    esac
    mapfile -t COMPREPLY < <(compgen -W "$words" -- "$word")
    if [ "$COMP_CWORD" -gt 1 ]; then mapfile -t -O "${#COMPREPLY[@]}" COMPREPLY < <(compgen -f -- "$word"); fi
}
complete -o filenames -F _vcat vcat ./vcat
END
}

# Sees to it that both programs stand, and that they are proved, if that isn't said to be indifferent.
programs() {
    for name in vcat_walk vcat_run; do
        if [ -z "$option" ] && [ "${VCAT_PROVED-}" != 1 ] && [ "$(standing "$name")" != "$(place_of "$name")" ]; then
            refuse "$name isn't proved and built: rt ci does that, $gate_time, or VCAT_PROVED=1 ./vcat $asked. ./vcat $asked --unproved takes a trial." 126
        fi
    done
    ready_both
    for name in vcat_walk vcat_run; do
        if ! head -c 4 "$(standing "$name")" | grep -q ELF; then refuse "the trial of $name runs by the toolchain alone." 126; fi
    done
}

# Fills the folder $1 with all that is packed.
pack() {
    mkdir -p "$1/bin" "$1/view" "$1/tools" || return
    for name in vcat_walk vcat_run; do cp "$(standing "$name")" "$1/bin/$name" || return; done
    cp "$top/vcat" "$top/README.md" "$top/CHANGELOG.md" "$top/LICENSE" "$1" &&
        cp -R "$top/docs" "$top/examples" "$1" && cp "$top"/view/*.* "$1/view" && cp "$top/tools/pack.sh" "$top/tools/report.sh" "$1/tools" || return
    rm -f "$1"/docs/*.py
    version > "$1/VERSION" && manual > "$1/vcat.1" && completion > "$1/vcat.bash"
}

# Makes the file of it in the folder in which this is called, the same octets of the same programs and commit.
dist() {
    if [ ! -d "$top/crates" ]; then refuse "this is unpacked from such a file; a clone of the repository makes one." 126; fi
    programs
    number=$(version | sed 's/^Soqaylle \([^ ,]*\).*/\1/')
    whole=soqaylle-$number-linux-x86_64
    if version | grep -q unproved; then whole=soqaylle-$number-unproved-linux-x86_64; fi
    make_work
    pack "$work/$whole" || exit 126
    time=$(git -C "$top" log -1 --format=%ct 2> /dev/null)
    tar --sort=name --owner=0 --group=0 --numeric-owner --mode=u=rwX,go=rX --mtime="@${time:-0}" -C "$work" -cf "$work/tar" "$whole" &&
        gzip -n -9 < "$work/tar" > "$whole.tar.gz" || exit 126
    echo "$whole.tar.gz"
}

# Puts it below the folder $1, as the targets of other programs do.
install() {
    if [ -z "$1" ]; then refuse "PREFIX is empty."; fi
    umask 022
    into=$1/lib/soqaylle
    if [ -d "$top/crates" ]; then programs; fi
    make_work
    if [ -d "$top/crates" ]; then pack "$work/packed"; else cp -R "$top" "$work/packed"; fi || exit 126
    mkdir -p "$1/bin" "$1/lib" "$1/share/man/man1" "$1/share/bash-completion/completions" && rm -rf "$into" && cp -R "$work/packed" "$into" &&
        ln -sf ../lib/soqaylle/vcat "$1/bin/vcat" && ln -sf ../../../lib/soqaylle/vcat.1 "$1/share/man/man1/vcat.1" &&
        ln -sf ../../../lib/soqaylle/vcat.bash "$1/share/bash-completion/completions/vcat" || exit 126
    echo "$1/bin/vcat"
}
