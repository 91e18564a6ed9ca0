#!/usr/bin/env python3
"""Counts how often the threads of a `run` sleep, and how long it takes beside a walk of the same script, against bounds that stand below.

waits.py [--program PATH] [--walk PATH] [--turns N] [--busy N] [--script LINES]

Three fixed scripts of 1, 8 and 64 lines run on two threads for their lines. Client and operator have so many items, most of them refused, that they hand them in some
two hundred times, and the delays differ, so that each thread waits for each other one. Of some turns the least counts, alone and beside busy processes: how often a
thread gave up its processor (voluntary context switches), the seconds by the clock in times those of the walk, and the processor time in times that of the walk. A ring
that is left out costs up to a millisecond each time; a wait that is left out makes a thread go round without sleep. The status is 0 if all is within the bounds and each
text is that of the walk. The programs have to be built: rt ci."""
import argparse
import os
import pathlib
import random
import subprocess
import sys
import tempfile
import time

TOP = pathlib.Path(__file__).resolve().parent.parent
WORKERS = "2"
NAMES = "sleeps", "times the walk", "times its processor time", "times the walk beside busy processes"
ITEMS = 200_000  # commands, all refused
# lines: ticks; and then at most how many sleeps, times the walk by the clock, of processor time, and by the clock beside busy processes
BOUNDS = {
    1: (20_000, 6_000, 2, 1.5, 4),
    8: (6_000, 6_000, 0.9, 1.5, 3),
    64: (1_500, 1_800, 1.3, 1.5, 4),
}


def script(lines):
    """The script of so many lines."""
    draw = random.Random(lines)
    ticks = BOUNDS[lines][0]
    said = [f"lines {lines}", "delays " + " ".join(str(7 * line % 41) for line in range(lines)), "ring 64", "lag 4", f"ticks {ticks}"]
    items = [(64 * line, f"add {64 * line} {line}") for line in range(min(lines, ticks // 64))]
    items += [(due, f"frame {due} {draw.randbytes(64).hex()}") for due in (draw.randrange(ticks) for _ in range(5000))]
    items += [(due, f"remove {due} {lines}") for due in (draw.randrange(ticks) for _ in range(ITEMS))]
    items.sort(key=lambda item: item[0])
    return "\n".join(said + [line for _, line in items]) + "\n"


def turn(words, text, out):
    """Voluntary context switches of a call with its threads, and its seconds by the clock and of processor time."""
    with open(text, "rb") as source, open(out, "wb") as to:
        start = time.monotonic()
        child = subprocess.Popen(words, stdin=source, stdout=to)
        _, status, use = os.wait4(child.pid, 0)
        child.returncode = os.waitstatus_to_exitcode(status)
        seconds = time.monotonic() - start
    if child.returncode != 0:
        sys.exit(f"waits: {' '.join(map(str, words))} has ended with status {child.returncode}")
    return use.ru_nvcsw, seconds, use.ru_utime + use.ru_stime


def least(turns, words, text, out):
    """The least of each figure."""
    return [min(each) for each in zip(*(turn(words, text, out) for _ in range(turns)))]


def main():
    parser = argparse.ArgumentParser()
    parser.add_argument("--program", default=TOP / "crates/vcat_run/out/vcat_run")
    parser.add_argument("--walk", default=TOP / "crates/vcat_walk/out/vcat_walk")
    parser.add_argument("--turns", type=int, default=7)
    parser.add_argument("--busy", type=int, default=os.cpu_count() or 1)
    parser.add_argument("--script", type=int, choices=BOUNDS)
    given = parser.parse_args()
    if given.script:
        sys.stdout.write(script(given.script))
        return 0
    for program in (given.program, given.walk):
        if not os.access(program, os.X_OK):
            sys.exit(f"waits: {program} is missing: run rt ci first")
    over = 0
    with tempfile.TemporaryDirectory() as folder:
        text, out, wanted = (os.path.join(folder, name) for name in ("text", "out", "wanted"))
        for lines, (_, *most) in BOUNDS.items():
            pathlib.Path(text).write_text(script(lines))
            words = [given.program, "run", WORKERS]
            walk = least(given.turns, [given.walk, "walk"], text, wanted)
            sleeps, seconds, processor = least(given.turns, words, text, out)
            busy = [subprocess.Popen([sys.executable, "-c", "while True: pass"]) for _ in range(given.busy)]
            try:
                beside = least(given.turns, words, text, out)[1]
            finally:
                for other in busy:
                    other.kill()
                for other in busy:
                    other.wait()
            found = sleeps, seconds / walk[1], processor / walk[2], beside / walk[1]
            same = pathlib.Path(out).read_bytes() == pathlib.Path(wanted).read_bytes()
            told = []
            for name, number, limit in zip(NAMES, found, most):
                over += number > limit
                told.append(f"{number:.4g} {name}, at most {limit:g}{': TOO MUCH' if number > limit else ''}")
            over += not same
            print(f"{lines} lines: " + "; ".join(told) + ("" if same else "; THE TEXT DIFFERS"))
    return 1 if over else 0


if __name__ == "__main__":
    sys.exit(main())
