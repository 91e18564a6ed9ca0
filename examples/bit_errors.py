#!/usr/bin/env python3
"""Draws bit errors at a rate, and writes a script with those of its containers' H4, and which of its frames come altered.

    examples/bit_errors.py SCRIPT RATE NUMBER > NEW.vcat

A container has an error in its H4 with the chance 8 RATE; it gets a line `fail LINE N N+1 0` of its own, if it isn't damaged already. Of the frames that
the new script delivers, one of n octets comes altered with the chance 1 - (1 - RATE)^(8 (n + 4) + 43): by an error in its payload area, or in the 43 bits
before it, which the descrambler repeats. A check of its FCS drops it. Comments at the head of the new script have them, and both totals. NUMBER is what
all is drawn from. docs/STANDARDS.md tells what this leaves out.
"""

import math
import pathlib
import random
import subprocess
import sys

VCAT = pathlib.Path(__file__).resolve().parent.parent / "vcat"
MOST = 256
FAILURES = ("container", "lines", "delays", "ring", "lag", "ticks", "sink", "holdoff", "restore", "statuses", "fail", "lost")


def hits(draw, chance, count):
    """The places below count that are hit, each with the chance."""
    place = -1
    while True:
        place += 1 + int(math.log(1 - draw.random()) / math.log1p(-chance))
        if place >= count:
            return
        yield place


def with_failures(text, draw, rate):
    """The lines of the script with its new failures, how many there are, and the number of containers."""
    lines, setting, old, first_item = text.removesuffix("\n").split("\n"), {}, {}, None
    for at, line in enumerate(lines):
        words = line.split()
        if not words or words[0].startswith("#"):
            continue
        if words[0] not in FAILURES:
            first_item = at
            break
        setting[words[0]] = words[1]
        if words[0] == "fail":
            old.setdefault(int(words[1]), []).append((int(words[2]), int(words[3]), at))
    end = len(lines) if first_item is None else first_item
    count, ticks, put = int(setting["lines"]), int(setting["ticks"]), []
    for place in hits(draw, 8 * rate, count * ticks):
        line, tick = divmod(place, ticks)
        windows = old.get(line, [])
        if any(first <= tick < last for first, last, _ in windows):
            continue
        put.append((next((at for first, _, at in windows if first > tick), end), line, tick))
        if sum(1 for _, other, _ in put if other == line) + len(windows) > MOST:
            sys.exit(f"bit_errors: line {line} has more than {MOST} failures: take a lower rate, or fewer ticks")
    for at, line, tick in sorted(put, reverse=True):
        lines.insert(at, f"fail {line} {tick} {tick + 1} 0")
    return lines, len(put), count * ticks


def lengths(lines):
    """The octets of each item that is a frame, and of each frame of a line of traffic."""
    found, item = {}, 0
    for words in (line.split() for line in lines):
        if not words or words[0] not in ("frame", "stream", "add", "remove"):
            continue
        if words[0] != "stream":
            found[item] = len(words[2]) // 2
            item += 1
            continue
        sizes, k, before = [int(size) for size in words[1].split(",")], 0, 0
        while int(words[3]) + 8 * before // (125 * int(words[2])) < int(words[4]):
            found[item] = sizes[k % len(sizes)]
            before, k, item = before + found[item], k + 1, item + 1
    return found


def main():
    if len(sys.argv) != 4:
        sys.exit(__doc__)
    rate, draw = float(sys.argv[2]), random.Random(int(sys.argv[3]))
    if not 0 < rate <= 0.01:
        sys.exit("bit_errors: RATE is above 0 and at most 0.01")
    lines, failures, containers = with_failures(pathlib.Path(sys.argv[1]).read_bytes().decode("latin-1"), draw, rate)
    text = "".join(line + "\n" for line in lines)
    answer = subprocess.run([VCAT, "fates"], input=text.encode("latin-1"), stdout=subprocess.PIPE)
    if answer.returncode:
        sys.exit(answer.returncode)
    octets, got, altered = lengths(lines), 0, []
    for words in (line.split() for line in answer.stdout.decode().splitlines()):
        if words[0] == "frame" and words[4] == "got":
            got += 1
            if draw.random() < -math.expm1((8 * (octets[int(words[1])] + 4) + 43) * math.log1p(-rate)):
                altered.append(words)
    print(f"# Bit errors at {sys.argv[2]}, drawn from {sys.argv[3]}: of {containers} containers {failures} fail by their H4, and of {got} frames got "
          f"{len(altered)} come altered.")
    for words in altered:
        print(f"# altered: item {words[1]} of {octets[int(words[1])]} octets, due {words[3]}, got in row {words[6]}")
    sys.stdout.write(text)


if __name__ == "__main__":
    main()
