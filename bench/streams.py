#!/usr/bin/env python3
"""Tries lines `stream` of random scripts: with the lines that the command of its words writes in the place of each, a script has to have the same texts.

streams.py [--count N] [--from NUMBER] [--seconds N], or streams.py --script NUMBER, which prints a script.

A script is one of threads_many.py with lines `stream` among its items and, in one of four, event lines behind them. Text, notes and status are compared, of
each command that reads a script, and of `pair`, which reads two. The status is 0 where all were equal. The programs that stand answer: a trial will do."""
import argparse
import functools
import os
import pathlib
import random
import re
import subprocess
import sys

TOP = pathlib.Path(__file__).resolve().parent.parent
sys.dont_write_bytecode = True
sys.path.insert(0, str(TOP / "bench"))
import threads_many

MOST = 150_000  # octets of a stream, but for its last frame
COMMANDS = ["walk", "trace", "fates", "check", "h4 0", "service 100", "service 1", "capture", "gfp", "run 1", "run 3", "watch 2"]
EVENTS = ["client 3", "client 700", "operator 2", "tick 300", "carry 0 90", "back 4", "take 60", "round 150", "drain"]


@functools.cache
def program_of(word):
    """The program that answers to a word."""
    found = subprocess.run([TOP / "vcat", "--program", word], capture_output=True, text=True).stdout.rstrip()
    if not os.access(found, os.X_OK):
        sys.exit(f"streams: {found} is missing: run rt ci first")
    return found


def stream(draw, first, ticks):
    """A line `stream` of frames from tick `first` on, and the lines that the command writes of it."""
    sizes = [draw.choice([64, 64, 65, 1518, 9600, draw.randint(64, 9600)]) for _ in range(draw.choice([1, 1, 2, 3, 16]))]
    end = first + draw.randint(1, min(ticks - first, draw.choice([1, 20, 2500])))
    rate = draw.randint(1, max(1, min(400_000, 8 * MOST // (125 * (end - first)))))
    line = f"stream {','.join(map(str, sizes))} {rate} {first} {end} {draw.choice([0, 1, 7, draw.getrandbits(64)])}"
    return line, subprocess.run([program_of("stream"), *line.split()], capture_output=True, text=True, check=True).stdout.splitlines()


def with_streams(text, draw):
    """A script with lines `stream` among its items, and the same with the lines of frames in their place. Frames that are due too early then aren't in
    either."""
    ticks, items = int(re.search("^ticks (.*)$", text, re.M)[1]), len(re.findall("^(?:frame|add|remove) ", text, re.M))
    short, long, last = [], [], 0
    for words in [*map(str.split, text.splitlines()), None]:
        due = ticks - 1 if words is None else int(words[1]) if words[0] in ("frame", "add", "remove") else None
        if words is None or due is not None and draw.random() < 2 / (items + 1):
            line, frames = stream(draw, draw.choice([last, draw.randint(last, max(last, due))]), ticks)
            short, long, last = short + [line], long + frames, int(frames[-1].split()[1])
        if words is not None and (words[0] != "frame" or due >= last):
            short, long = short + [" ".join(words)], long + [" ".join(words)]
            last = due if words[0] == "frame" else last
    return short, long


def scripts(number):
    """The commands for the text of a number, the text with lines `stream`, and the text without them."""
    draw, text = random.Random(f"streams {number}"), threads_many.script(number)
    if number % 4 == 3:
        text = re.sub("^lost .*\n", "", text, flags=re.M)
        there, back = with_streams(text, draw), with_streams(text, draw)
        return ["pair"], *("\n".join([*one, "other", *other, ""]) for one, other in zip(there, back))
    events = draw.choices(EVENTS, k=draw.randint(1, 30)) if draw.random() < 1 / 3 else []
    return COMMANDS, *("\n".join([*lines, *events, ""]) for lines in with_streams(text, draw))


def main():
    parser = argparse.ArgumentParser()
    parser.add_argument("--count", type=int, default=200)
    parser.add_argument("--from", type=int, default=0, dest="first")
    parser.add_argument("--seconds", type=int, default=120)
    parser.add_argument("--script", type=int)
    given = parser.parse_args()
    if given.script is not None:
        sys.stdout.write(scripts(given.script)[1])
        return 0
    compared, statuses, differ = 0, {}, 0
    for number in range(given.first, given.first + given.count):
        commands, short, long = scripts(number)
        for command in commands:
            words = [program_of(command.split()[0]), *command.split()]
            found, wanted = (threads_many.answer(words, text.encode(), given.seconds) for text in (short, long))
            compared += 1
            if found is None or found != wanted:
                differ += 1
                print(f"script {number}: {command} differs, or doesn't end within {given.seconds} seconds", file=sys.stderr)
            else:
                statuses[found[2]] = statuses.get(found[2], 0) + 1
    print(f"scripts {given.count}, texts compared {compared}, differ {differ}; statuses {dict(sorted(statuses.items()))}")
    return 1 if differ or not compared else 0


if __name__ == "__main__":
    sys.exit(main())
