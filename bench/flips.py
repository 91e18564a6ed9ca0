#!/usr/bin/env python3
"""Turns over single bits of streams of frames with FCS, and looks whether exactly the frames are lost that they touch.

    bench/flips.py [FLIPS [SEED]]

A text has 400 frames of 64 to 9,600 octets and flips that are drawn: in each core header one or none, in each area one or none, and
none in an area where one lies in the last 43 bits of the area before it; none in the two idles. Texts are made until so many flips were
tried (100,000 where none are named). Of each text the frames that get through are compared with those that are drawn to be clear, and
the counts with theirs. The first text that differs is kept, and the status is then 1."""
import pathlib
import random
import subprocess
import sys

TOP = pathlib.Path(__file__).resolve().parent.parent
FRAMES = 400                     # of a text
BEFORE = 43                      # area bits before an area that touch it


def size(draw):
    """The length of a frame: short ones come more often."""
    return draw.choice([64, draw.randint(64, 128), draw.randint(64, 1518), draw.randint(64, 9600)])


def noise(draw):
    """The lines of a text, the frames that get through, and the number of flips."""
    lines, flips, clear = [], [], []
    place, is_touched = 8, False
    for _ in range(FRAMES):
        frame = draw.randbytes(size(draw)).hex()
        lines.append("frame " + frame)
        if draw.random() < 0.5:
            flips.append(8 * place + draw.randrange(32))
        bits = 4 * len(frame) + 64
        first = 8 * (place + 4)
        was, is_touched = is_touched, False
        if not was and draw.random() < 0.6:
            bit = draw.choice([draw.randrange(bits), draw.randrange(64), bits - 1 - draw.randrange(64)])
            flips.append(first + bit)
            is_touched = bit >= bits - BEFORE
        elif not was:
            clear.append(frame)
        place += len(frame) // 2 + 12
    lines += ["flip %d %d" % divmod(bit, 8) for bit in flips]
    return lines, clear, len(flips)


def main():
    wanted = int(sys.argv[1]) if len(sys.argv) > 1 else 100_000
    draw = random.Random(int(sys.argv[2]) if len(sys.argv) > 2 else 1)
    program = subprocess.run([TOP / "vcat", "--program", "noise"], capture_output=True, text=True).stdout.strip()
    words = [program, "noise"] if pathlib.Path(program).is_file() else [TOP / "vcat", "noise"]
    flips = frames = lost = texts = 0
    while flips < wanted:
        lines, clear, count = noise(draw)
        text = "\n".join(lines) + "\n"
        answer = subprocess.run(words, input=text, capture_output=True, text=True)
        told = ["got " + frame for frame in clear]
        told.append("noise frames %d flips %d got %d dropped %d" % (FRAMES, count, len(clear), FRAMES - len(clear)))
        if answer.returncode != 0 or answer.stdout.split("\n") != told + [""]:
            pathlib.Path("flips_that_differ.txt").write_text(text)
            print("text %d differs: flips_that_differ.txt" % texts)
            return 1
        flips, frames, lost, texts = flips + count, frames + FRAMES, lost + FRAMES - len(clear), texts + 1
    print("%d flips in %d texts of %d frames: %d frames, exactly those that were touched, were lost" % (flips, texts, frames, lost))
    return 0


sys.exit(main())
