#!/usr/bin/env python3
"""Times whole scripts: the call from script to text, and prints the table of README.md: the least seconds of some turns by the clock and of
processor time, the octets of all containers that it is in a second by the clock, and the greatest memory.

    bench/loads.py [TURNS]                            all loads, five turns of each
    bench/loads.py [TURNS] --walk PROGRAM             those of `walk` alone, by this program in place of the proved one
    bench/loads.py --script KIND LINES TICKS OCTETS   the script of a load, printed

A load is `full`, a group that is kept nearly full with frames of so many octets from the tick on in which all lines are in use; `idle`, a group without
frames; `queue`, 256 frames that wait from the start; or `stream`, nearly full by one line `stream`. The programs have to be built: rt ci does it.
As `./vcat` does, this script asks for huge pages, unless GLIBC_TUNABLES says something else."""
import os
import pathlib
import random
import subprocess
import sys
import tempfile
import time

TOP = pathlib.Path(__file__).resolve().parent.parent
PAYLOAD = 2340                   # octets of a container
HUGE = {"GLIBC_TUNABLES": "glibc.malloc.hugetlb=1", **os.environ}
LAG = 4                          # in packets; a command is carried out each LAG packets
MOST = 65_000_000                # octets of a script, below the limit
WAIT = 250                       # frames that may come in a tick, below the limit of the queue
LOADS = [
    ("walk", "full", 1, 14_000, 64),
    ("walk", "full", 1, 14_000, 1518),
    ("walk", "full", 8, 2300, 1518),
    ("walk", "full", 64, 4450, 64),
    ("walk", "full", 64, 4450, 1518),
    ("walk", "full", 64, 4450, 9600),
    ("walk", "full", 128, 8500, 1518),
    ("walk", "idle", 1, 200_000, 0),
    ("walk", "idle", 64, 12_000, 0),
    ("walk", "queue", 1, 200_000, 9600),
    ("walk", "stream", 1, 14_000, 64),
    ("walk", "stream", 1, 14_000, 1518),
    ("service 1000", "stream", 7, 80_000, 1518),
    ("service 8000", "idle", 1, 28_800_000, 0),
] + [(f"run {workers}", "full", lines, ticks, 1518) for lines, ticks in ((1, 14_000), (8, 2300), (64, 4450)) for workers in (1, 2, 4)]


def head(lines, ticks):
    """The configuration, and the commands that add all lines: at most 64 of them wait at once."""
    yield f"lines {lines}"
    yield "delays " + " ".join(str(7 * line % 41) for line in range(lines))
    yield "ring 64"
    yield f"lag {LAG}"
    yield f"ticks {ticks}"
    for line in range(lines):
        yield f"add {64 * max(0, line - 60)} {line}"


def frames(kind, lines, ticks, octets, room):
    """The lines of the client's frames, as far as there is room for them."""
    draw = random.Random(1)
    first, rate = (0, 256) if kind == "queue" else (16 * LAG * lines + 164, 0.95 * PAYLOAD * lines / (octets + 8))
    if kind == "stream":
        yield f"stream {octets} {int(0.064 * octets * rate)} {first} {ticks} 1"
        return
    credit = 0.0
    for tick in range(first, first + 1 if kind == "queue" else ticks):
        credit += rate
        for _ in range(int(credit) if kind == "queue" else min(WAIT, int(credit))):
            line = f"frame {tick} {draw.randbytes(octets).hex()}"
            room -= len(line) + 1
            if room < 0:
                return
            yield line
        credit %= 1


def script(kind, lines, ticks, octets):
    """The text of a load."""
    text = list(head(lines, ticks))
    if kind != "idle":
        text += frames(kind, lines, ticks, octets, MOST - sum(len(line) + 1 for line in text))
    return "\n".join(text) + "\n"


def program_of(words):
    """The proved program of a command."""
    name = "vcat_run" if words[0] == "run" else "vcat_walk"
    program = TOP / "crates" / name / "out" / name
    if not program.exists():
        sys.exit(f"loads: {program} is missing: run rt ci first")
    return program


def once(command, path):
    """The seconds of a call on a script by the clock, those of processor time, and its greatest memory in MiB."""
    with open(path, "rb") as source:
        start = time.perf_counter()
        child = subprocess.Popen(command, stdin=source, stdout=subprocess.DEVNULL, env=HUGE)
        _, status, used = os.wait4(child.pid, 0)
        taken = time.perf_counter() - start
    child.returncode = os.waitstatus_to_exitcode(status)
    if child.returncode != 0:
        sys.exit(f"loads: {command} ended with status {child.returncode}")
    return taken, used.ru_utime + used.ru_stime, used.ru_maxrss / 1024


def write_script(path, *load):
    """Writes the script of a load, by another process: the memory of this one counts in that of its children."""
    with open(path, "wb") as text:
        subprocess.run([sys.executable, __file__, "--script", *map(str, load)], stdout=text, check=True)


def row(words, kind, lines, ticks, octets, turns):
    """The row of a load."""
    size = f"frames of {octets:,} octets"
    what = {"full": f"kept full, {size}", "idle": "idle", "queue": f"256 {size}", "stream": f"kept full by a line, {size}"}[kind]
    seconds, processor, memory = (min(each) for each in zip(*turns))
    speed = lines * ticks * PAYLOAD / seconds / 1e6
    return f"| `{words}` | {lines} | {what} | {ticks:,} | {seconds:.3f} s | {processor:.3f} s | {speed:,.0f} million | {memory:.0f} MiB |"


def main():
    words = sys.argv[1:]
    if words[:1] == ["--script"]:
        kind, lines, ticks, octets = words[1], *map(int, words[2:5])
        sys.stdout.write(script(kind, lines, ticks, octets))
        return
    own = None
    if "--walk" in words:
        at = words.index("--walk")
        own = pathlib.Path(words[at + 1]).resolve()
        del words[at:at + 2]
    turns = int(words[0]) if words else 5
    loads = [load for load in LOADS if own is None or load[0] == "walk"]
    print("| Command | Lines | Load | Ticks | By the clock | Processor time | Octets in a second | Memory |")
    print("|---|---|---|---|---|---|---|---|")
    with tempfile.TemporaryDirectory() as folder:
        for command, kind, lines, ticks, octets in loads:
            path = pathlib.Path(folder) / f"{kind}-{lines}-{ticks}-{octets}"
            if not path.exists():
                write_script(path, kind, lines, ticks, octets)
            call = [own or program_of(command.split()), *command.split()]
            print(row(command, kind, lines, ticks, octets, [once(call, path) for _ in range(turns)]), flush=True)


if __name__ == "__main__":
    main()
