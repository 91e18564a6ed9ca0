#!/usr/bin/env python3
"""Times `live` over pipes, and looks at its memory.

live_time.py [--pair] [--answers N] [--ticks N] [--busy N] [--most MILLISECONDS] [--program WORDS]

First `pass 1` is said 10,000 times beside busy processes, one for each processor, with a frame before each, and each answer is waited for: the slowest and
the middle one are told. Then 1,000,000 ticks pass with a frame in each, of one line without failures: the resident memory behind the first thousand
ticks and at the end, and its greatest. With --pair it is `live pair`, with a frame each way. The status is 0 if the slowest answer came within 100
milliseconds, each frame came out, and the memory at the end is no more than behind the first thousand ticks. The program has to be built: rt ci."""
import argparse
import os
import pathlib
import subprocess
import sys
import time

TOP = pathlib.Path(__file__).resolve().parent.parent
PROGRAM = str(TOP / "crates/vcat_walk/out/vcat_walk")
CONFIGURATION = "lines 1\ndelays 0\nring 1\nlag 2\nticks 1000000\n"
DIGITS = "02000000000202000000000188b5" + "5a" * 50
# The words, what is said first, and what is said in each tick.
ONE_WAY = ["live"], CONFIGURATION + "add 0\n", f"frame {DIGITS}\npass 1\n"
BOTH_WAYS = (["live", "pair"], CONFIGURATION + "other\n" + CONFIGURATION + "add there 0\nadd back 0\n",
             f"frame there {DIGITS}\nframe back {DIGITS}\npass 1\n")
AT_ONCE = 100  # ticks between two reads


def start(given):
    talk = subprocess.Popen(given.program + given.words, stdin=subprocess.PIPE, stdout=subprocess.PIPE)
    say(talk, given.first)
    return talk


def say(talk, text):
    talk.stdin.write(text.encode())
    talk.stdin.flush()


def hear(talk, ticks):
    """Reads up to the line that says so many ticks; the frames that came."""
    last, got = b"now %d\n" % ticks, 0
    for line in talk.stdout:
        if line == last:
            return got
        got += line.startswith(b"got ")
    sys.exit(f"live_time: it has ended with status {talk.wait()}")


def end(talk):
    """Ends the text; the frames that came, by the totals."""
    talk.stdin.close()
    totals = talk.stdout.read().splitlines()
    if talk.wait() != 0:
        sys.exit(f"live_time: it has ended with status {talk.returncode}")
    return sum(int(total.split()[-1]) for total in totals)


def memory(talk):
    """Resident memory now, and the greatest so far, in KiB."""
    with open(f"/proc/{talk.pid}/smaps_rollup") as rollup, open(f"/proc/{talk.pid}/status") as status:
        of = dict(line.split(":", 1) for line in [*rollup.readlines()[1:], *status])
    return int(of["Rss"].split()[0]), int(of["VmHWM"].split()[0])


def time_answers(given):
    """The times of answers to single ticks, in order of length."""
    busy = [subprocess.Popen([sys.executable, "-c", "while True: pass"]) for _ in range(given.busy)]
    try:
        talk = start(given)
        times, got = [], 0
        for tick in range(1, given.answers + 1):
            began = time.monotonic()
            say(talk, given.tick)
            got += hear(talk, tick)
            times.append(time.monotonic() - began)
        if end(talk) != got:
            sys.exit("live_time: the totals tell another number of frames")
        return sorted(times), got
    finally:
        for other in busy:
            other.kill()
        for other in busy:
            other.wait()


def pass_ticks(given):
    """Memory after a thousand ticks and after all, the greatest, and the frames that came."""
    talk = start(given)
    passed, got, early = 0, 0, None
    while passed < given.ticks:
        say(talk, given.tick * AT_ONCE)
        passed += AT_ONCE
        got += hear(talk, passed)
        if passed == 1000:
            early = memory(talk)
    late = memory(talk)
    if end(talk) != got:
        sys.exit("live_time: the totals tell another number of frames")
    return early[0], late[0], late[1], got


def main():
    parser = argparse.ArgumentParser()
    parser.add_argument("--pair", action="store_true")
    parser.add_argument("--answers", type=int, default=10_000)
    parser.add_argument("--ticks", type=int, default=1_000_000)
    parser.add_argument("--busy", type=int, default=os.cpu_count() or 1)
    parser.add_argument("--most", type=float, default=100)
    parser.add_argument("--program", default=PROGRAM)
    given = parser.parse_args()
    given.program = given.program.split()
    given.words, given.first, given.tick = BOTH_WAYS if given.pair else ONE_WAY
    if "/" in given.program[0] and not os.access(given.program[0], os.X_OK):
        print(f"live_time: {given.program[0]} is missing: run rt ci first", file=sys.stderr)
        return 1
    times, got = time_answers(given)
    slowest = 1000 * times[-1]
    print(f"{len(times)} answers beside {given.busy} busy processes: the slowest {slowest:.2f} ms, the middle one "
          f"{1000 * times[len(times) // 2]:.3f} ms; {got} frames came")
    began = time.monotonic()
    early, late, greatest, got = pass_ticks(given)
    seconds = time.monotonic() - began
    print(f"{given.ticks} ticks, {got} frames, {seconds:.1f} s: {early} KiB after 1,000 ticks, {late} at the end, {greatest} at most")
    return 0 if slowest <= given.most and late <= early and got > given.tick.count("frame") * (given.ticks - 100) else 1


if __name__ == "__main__":
    sys.exit(main())
