#!/bin/sh
# Runs many scripts of examples/study, one, two and four at a time by GNU parallel, each script as a job of its own and fifty in a job, and says how
# many that is a second and how many times as many as one at a time; and then over two machines, which are this one by ssh at two ports. The servers
# are started and ended here, with keys of their own in a temporary folder. Each table has to be the same, which is the status.
# many.sh [SCRIPTS], at most 10,000, and so many without the word. Nothing is installed; what is missing is said. The program has to be built: rt ci.
cd "$(dirname "$0")/.." || exit 1
program=$PWD/crates/vcat_walk/out/vcat_walk
count=${1:-10000}
[ -x "$program" ] || { echo "many: $program is missing: run rt ci first" >&2; exit 1; }
# sshd wants to be called by its whole path, which need not be on the path of a user.
sshd=$(PATH=$PATH:/usr/sbin command -v sshd)
for tool in parallel ssh "${sshd:-sshd}" ssh-keygen rsync; do
    command -v "$tool" > /dev/null || {
        echo "many: $tool is missing (Debian: parallel, openssh-client, openssh-server, rsync)" >&2
        exit 1
    }
done
if [ "$(id -u)" = 0 ] && [ ! -d /run/sshd ]; then
    echo "many: the folder /run/sshd is missing, without which sshd doesn't start for root" >&2
    exit 1
fi
work=$(mktemp -d) || exit 1
servers=
# It is called by the trap.
# shellcheck disable=SC2317
end() {
    for server in $servers; do kill "$server" 2> /dev/null; done
    rm -rf "$work"
}
trap end EXIT
trap 'exit 130' INT
trap 'exit 143' TERM
export PARALLEL_HOME="$work/parallel"
mkdir -p "$PARALLEL_HOME" "$work/here" && cp examples/study/* "$program" "$work/here" && cd "$work/here" || exit 1

# Loads over one line, each with nine draws of the client's octets at most.
for draw in 1 2 3 4 5 6 7 8 9; do
    ./variations.sh | awk -v draw="$draw" '$2 == 1 { print $0, draw }'
done | head -n "$count" > scripts
count=$(wc -l < scripts)
wrong=0
# Runs what follows the three words: the table's name, how many at a time, and what the jobs are.
pass() {
    table=$1 width=$2 what=$3
    shift 3
    start=$(date +%s%N)
    "$@" > "$table" || { echo "many: $table: a job failed" >&2; wrong=1; }
    stop=$(date +%s%N)
    [ "$width" = 1 ] && alone=$((stop - start))
    awk -v count="$count" -v ns="$((stop - start))" -v alone="$alone" -v width="$width" -v what="$what" 'BEGIN {
        printf "%d at a time, %s: %.1f s, %.0f scripts a second, %.2f times one at a time\n", width, what, ns / 1e9, count / (ns / 1e9), alone / ns
    }'
    if [ ! -e first ]; then cp "$table" first; fi
    cmp -s first "$table" || { echo "many: $table isn't the same table" >&2; wrong=1; }
}
pass loop 1 "in a loop" ./rows.sh < scripts
for width in 1 2 4; do
    pass "single_$width" "$width" "a script in a job" parallel -j "$width" --keep-order --colsep ' ' ./rows.sh '{1} {2} {3} {4} {5} {6}' :::: scripts
done
for width in 1 2 4; do
    pass "fifty_$width" "$width" "fifty in a job" parallel -j "$width" --keep-order --pipe -N 50 ./rows.sh < scripts
done

# Two servers, each at the first port that is free from a drawn one on.
ssh-keygen -q -t ed25519 -N '' -f "$work/server" && ssh-keygen -q -t ed25519 -N '' -f "$work/user" || exit 1
port=$((20000 + $$ % 20000))
: > "$work/ssh"
for machine in one two; do
    tries=0
    while :; do
        port=$((port + 1)) tries=$((tries + 1))
        [ "$tries" -le 20 ] || { echo "many: no server starts: $(tail -n 1 "$work/$machine.log")" >&2; exit 1; }
        "$sshd" -D -e -f /dev/null -h "$work/server" -o Port="$port" -o ListenAddress=127.0.0.1 -o PidFile=none -o StrictModes=no -o UsePAM=no \
            -o AuthorizedKeysFile="$work/user.pub" -o AuthenticationMethods=publickey -o PermitRootLogin=prohibit-password \
            -o MaxStartups=100 2> "$work/$machine.log" < /dev/null &
        server=$!
        seconds=0
        until grep -q '^Server listening' "$work/$machine.log" || ! kill -0 "$server" 2> /dev/null || [ "$seconds" -ge 10 ]; do
            sleep 1
            seconds=$((seconds + 1))
        done
        if grep -q '^Server listening' "$work/$machine.log" && kill -0 "$server" 2> /dev/null; then break; fi
        kill "$server" 2> /dev/null
    done
    servers="$servers $server"
    cat >> "$work/ssh" << END
Host $machine
    HostName 127.0.0.1
    HostKeyAlias study
    Port $port
    IdentityFile $work/user
    IdentitiesOnly yes
    UserKnownHostsFile $work/known
    StrictHostKeyChecking yes
    LogLevel ERROR
END
done
echo "study $(cut -d ' ' -f 1,2 "$work/server.pub")" > "$work/known"
export PARALLEL_SSH="ssh -F $work/ssh"
pass machines 4 "fifty in a job, two at a time on each of two machines" parallel -j 2 --sshlogin one,two --workdir "$work/there" --cleanup \
    --basefile vcat_walk --basefile script.sh --basefile rows.sh --basefile template.vcat --keep-order --pipe -N 50 ./rows.sh < scripts
exit "$wrong"
