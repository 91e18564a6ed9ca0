#!/usr/bin/env python3
"""Runs random scripts on 1 to 64 threads and compares what is written with the walk of the same script, every second one beside busy processes.

threads_many.py [--count N] [--from NUMBER] [--until HH:MM] [--busy N] [--seconds N], or threads_many.py --script NUMBER, which prints a script.

Script and number of threads are drawn from a number, so that a run can be made again. A script has 1 to 64 lines of either container, delays,
failures that let containers vanish, lost return packets, and frames and commands of which some are refused. A run hangs where it doesn't end within
the seconds. The status is 0 where each run ended by itself with the text, the notes and the status of the walk. The programs have to be built: rt ci."""
import argparse
import os
import pathlib
import random
import subprocess
import sys
import time

TOP = pathlib.Path(__file__).resolve().parent.parent
WALK = TOP / "crates/vcat_walk/out/vcat_walk"
RUN = TOP / "crates/vcat_run/out/vcat_run"
FEW_LINES = [1, 1, 2, 3, 4, 7, 8, 9, 16, 17, 31, 32, 48, 64]


def windows(draw, ticks, most):
    """Windows of a line in order, and the greatest sum of slips of those that are near each other."""
    lines, place, end, near, worst = [], 0, None, 0, 0
    for _ in range(draw.choice([0, 0, 0, 1, 1, 2, 5])):
        first = place + draw.randrange(1, 1 + max(1, ticks // 3))
        length = draw.choice([1, 2, 3, 8, 15, 16, 17, 24, 40, 100, 300])
        if first + length > ticks:
            break
        slip = draw.choice([0, 0, 1, min(most, length - 1)]) if length > 1 else 0
        near = near + slip if end is not None and first < end + 17 else slip
        worst = max(worst, near)
        lines.append((first, first + length, slip))
        place = end = first + length
    return lines, worst


def script(number):
    """The script of a number."""
    draw = random.Random(number)
    lines = draw.choice(FEW_LINES)
    ticks = draw.choice([41, 200, 500, 900, 1500, 2500])
    greatest = draw.choice([0, 0, 3, 12, 40, 200])
    delays = [draw.randint(0, greatest) for _ in range(lines)]
    fails, slip = [], 0
    for line in range(lines):
        found, worst = windows(draw, ticks, 8)
        slip = max(slip, worst)
        fails += [f"fail {line} {first} {end} {gone}" for first, end, gone in found]
    ring = max(delays) - min(delays) + slip + 1 + draw.choice([0, 0, 1, 50])
    lag = (16 + max(delays) + slip + 15) // 16 + draw.choice([0, 0, 1, 3])
    said = [f"container {draw.choice(['vc3', 'vc4'])}", f"lines {lines}", "delays " + " ".join(map(str, delays))]
    said += [f"ring {ring}", f"lag {lag}", f"ticks {ticks}"]
    options = [f"sink {draw.choice(['stops', 'infers'])}", f"holdoff {draw.choice([0, 1, 2, 9])}",
               f"restore {draw.choice([0, 1, 15, 40])}", f"statuses {draw.choice([16, 32])}"]
    said += draw.sample(options, draw.choice([0, 0, 1, 4])) + fails
    place = 0
    for _ in range(draw.choice([0, 0, 1, 3])):
        first = place + draw.randint(0, 20)
        place = first + draw.randint(1, 6)
        said.append(f"lost {first} {place}")
    items = [(0, f"add 0 {line}") for line in range(lines)] if draw.random() < 0.8 else []
    for _ in range(draw.choice([0, 1, 5, 30])):
        due = draw.randrange(ticks)
        items.append((due, f"{draw.choice(['add', 'add', 'remove'])} {due} {draw.randint(0, lines)}"))
    long = draw.choice([64, 300, 1518, 9600])
    for _ in range(draw.choice([0, 3, 30, 300, 1200])):
        due = draw.randrange(ticks)
        octets = draw.choice([60, 64, long, 9601]) if draw.random() < 0.05 else draw.randint(64, long)
        items.append((due, f"frame {due} {draw.randbytes(octets).hex()}"))
    items.sort(key=lambda item: item[0])
    return "\n".join(said + [line for _, line in items]) + "\n"


def workers(number):
    """The threads for the lines, for the script of a number: as often 1, 2 or 64 as any from 1 to 64."""
    draw = random.Random(f"workers {number}")
    return draw.choice([1, 2, 64, draw.randint(1, 64), draw.randint(1, 64), draw.randint(1, 64)])


def answer(words, text, seconds):
    """Text, notes and status of a program; None where it doesn't end."""
    try:
        done = subprocess.run(words, input=text, capture_output=True, timeout=seconds)
    except subprocess.TimeoutExpired:
        return None
    return done.stdout, done.stderr, done.returncode


def main():
    parser = argparse.ArgumentParser()
    parser.add_argument("--count", type=int, default=1000)
    parser.add_argument("--from", type=int, default=0, dest="first")
    parser.add_argument("--until", help="no run begins from this time of day on")
    parser.add_argument("--busy", type=int, default=2 * (os.cpu_count() or 1))
    parser.add_argument("--seconds", type=int, default=120)
    parser.add_argument("--script", type=int)
    given = parser.parse_args()
    if given.script is not None:
        sys.stdout.write(script(given.script))
        return 0
    for program in (WALK, RUN):
        if not os.access(program, os.X_OK):
            print(f"threads_many: {program} is missing: run rt ci first", file=sys.stderr)
            return 1
    counts = dict(alone=0, beside=0, differ=0, hang=0)
    statuses, longest, threads = {}, {"alone": 0.0, "beside": 0.0}, set()
    for number in range(given.first, given.first + given.count):
        if given.until and time.strftime("%H:%M") >= given.until:
            break
        text = script(number).encode()
        wanted = answer([WALK, "walk"], text, given.seconds)
        if wanted is None:
            print(f"script {number}: the walk doesn't end", file=sys.stderr)
            return 1
        how = "beside" if number % 2 else "alone"
        busy = [subprocess.Popen([sys.executable, "-c", "while True: pass"]) for _ in range(given.busy)] if number % 2 else []
        try:
            start = time.monotonic()
            found = answer([RUN, "run", str(workers(number))], text, given.seconds)
            longest[how] = max(longest[how], time.monotonic() - start)
        finally:
            for other in busy:
                other.kill()
            for other in busy:
                other.wait()
        counts[how] += 1
        threads.add(workers(number))
        statuses[wanted[2]] = statuses.get(wanted[2], 0) + 1
        if found is None:
            counts["hang"] += 1
            print(f"script {number}: run {workers(number)} doesn't end within {given.seconds} seconds, {how}", file=sys.stderr)
        elif found != wanted:
            counts["differ"] += 1
            print(f"script {number}: run {workers(number)} differs from the walk, {how}", file=sys.stderr)
    total = counts["alone"] + counts["beside"]
    print(f"runs {total}: {counts['alone']} alone, {counts['beside']} beside {given.busy} busy processes; {len(threads)} numbers of threads")
    print(f"differ {counts['differ']}, hang {counts['hang']}; statuses {dict(sorted(statuses.items()))}")
    print(f"the longest run: {longest['alone']:.2f} s alone, {longest['beside']:.2f} s beside busy processes")
    return 1 if counts["differ"] or counts["hang"] or not total else 0


if __name__ == "__main__":
    sys.exit(main())
