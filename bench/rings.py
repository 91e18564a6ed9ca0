#!/usr/bin/env python3
"""Counts who wakes whom in a `run`, by strace, and who sleeps. No time is taken, so it may be run beside other work: a ring that is left out wakes nobody.

rings.py [--program PATH] [--least N]

The scripts are those of waits.py, and one that is kept full, with a lag so long that lines find their receive rings full. A thread sleeps at its bell: a word at
which it alone waits, for at most a millisecond. Whoever rings wakes it there, if it sleeps. The threads are told apart by the order in which they are started:
client, operator, source, two for the lines; the sink is the calling thread. The status is 0 if each that has to ring for another woke it at least N times in all
scripts, and each slept at its bell as often. It needs strace, and the program has to be built: rt ci."""
import argparse
import collections
import os
import pathlib
import re
import subprocess
import sys
import tempfile

import loads
import waits

# The value of a bell at which its owner sleeps.
ASLEEP = "2"
# How often each one has to wake another. Where it doesn't ring, the sink still wakes the source once a script, as it stores its flag.
LEAST = 12
THREADS = ["client", "operator", "source", "line", "sink"]
# Who has to ring for whom.
RINGS = [
    ("client", "source"),
    ("operator", "source"),
    ("source", "client"),
    ("source", "operator"),
    ("source", "line"),
    ("source", "sink"),
    ("line", "sink"),
    ("line", "source"),
    ("sink", "line"),
    ("sink", "source"),
]
CALL = re.compile(r"(\d+)\s+futex\((0x[0-9a-f]+), FUTEX_(WAIT|WAKE)\w*(?:\|\w+)?, (\d+)(, \{tv_sec=0,)?")
STARTED = re.compile(r"\d+\s+(?:clone3?\(|<\.\.\. clone3? resumed>).* = (\d+)$")


def roles(lines):
    """The name of each thread."""
    first = lines[0].split()[0]
    started = [found[1] for found in map(STARTED.match, lines) if found]
    names = ["client", "operator", "source"] + ["line"] * len(started)
    return {first: "sink", **dict(zip(started, names))}


def count(lines):
    """How often each one slept at its bell, and who woke whom how often."""
    names, calls = roles(lines), [found.groups() for found in map(CALL.match, lines) if found]
    bells = {word: names.get(thread) for thread, word, what, value, limit in calls if what == "WAIT" and value == ASLEEP and limit}
    sleeps = collections.Counter(bells[word] for _, word, what, _, limit in calls if what == "WAIT" and limit and word in bells)
    wakes = collections.Counter((names.get(thread), bells[word]) for thread, word, what, *_ in calls if what == "WAKE" and word in bells)
    return sleeps, wakes


def scripts():
    """The scripts, each with its name."""
    for lines in waits.BOUNDS:
        yield f"{lines} lines", waits.script(lines)
    yield "64 lines, kept full", loads.script("stream", 64, 4450, 1518).replace(f"lag {loads.LAG}\n", "lag 32\n")


def main():
    parser = argparse.ArgumentParser()
    parser.add_argument("--program", default=waits.TOP / "crates/vcat_run/out/vcat_run")
    parser.add_argument("--least", type=int, default=LEAST)
    given = parser.parse_args()
    if not os.access(given.program, os.X_OK):
        sys.exit(f"rings: {given.program} is missing: run rt ci first")
    slept, woken = collections.Counter(), collections.Counter()
    with tempfile.TemporaryDirectory() as folder:
        text, told = (os.path.join(folder, name) for name in ("text", "told"))
        words = ["strace", "-f", "-e", "trace=futex,clone,clone3", "-o", told, given.program, "run", waits.WORKERS]
        for name, script in scripts():
            pathlib.Path(text).write_text(script)
            with open(text, "rb") as source:
                subprocess.run(words, stdin=source, stdout=subprocess.DEVNULL, check=True)
            sleeps, wakes = count(pathlib.Path(told).read_text().splitlines())
            print(f"{name}: " + ", ".join(f"{one} wakes {other} {wakes[one, other]}" for one, other in RINGS), end="; ")
            print("sleeps of " + ", ".join(f"{one} {sleeps[one]}" for one in THREADS), flush=True)
            slept, woken = slept + sleeps, woken + wakes
    silent = [f"{one} wakes {other} {woken[one, other]} times" for one, other in RINGS if woken[one, other] < given.least]
    silent += [f"{one} sleeps {slept[one]} times" for one in THREADS if slept[one] < given.least]
    print(f"at least {given.least} are wanted: " + ("; ".join(silent) if silent else "all are there"))
    return 1 if silent else 0


if __name__ == "__main__":
    sys.exit(main())
