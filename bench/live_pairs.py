#!/usr/bin/env python3
"""Tries `live pair`, with `trace` and with `told`, over pipes: random texts of both ways in random pieces.

live_pairs.py [--count N] [--from NUMBER] [--seconds N] [--program WORDS] [--walker WORDS], or live_pairs.py --text NUMBER, which prints a text.

As in live_pipes.py just the answers to the lines that are whole have to come behind each piece, and at the end the totals. What is wanted comes, of each
way, from `walk`, `trace`, `fates` and `capture` of the script of that way by itself, which examples/live_script.py makes by `pair there` and `pair back`.
And `pair` of both scripts has to write these frames first, and the same refused items. The status is 0 where all was right. The program has to be
built: rt ci."""
import argparse
import os
import random
import subprocess
import sys

from live_pipes import PROGRAM, Wanted, converse, drawn_failures, drawn_frame
from live_script import WAYS, Said, alone, divide, pair_of

TELLS = [], ["trace"], ["told"]
LATER = 2000  # ticks in which a frame that was begun ends


# ---- random texts


def configuration_of(draw, ticks):
    """The lines of a way's configuration but `lag` and `ticks`, how many lines there are, the greatest delay, and where each line's failures end."""
    lines = draw.choice([1, 1, 2, 3])
    delays = [draw.randint(0, draw.choice([0, 3, 40])) for _ in range(lines)]
    head = [f"container {draw.choice(['vc3', 'vc4'])}", f"lines {lines}", "delays " + " ".join(map(str, delays)), f"ring {max(delays) - min(delays) + 1}"]
    options = draw.sample(["sink infers", "holdoff 2", "restore 3", "statuses 32"], draw.randint(1, 3)) if draw.random() < 0.3 else []
    fails, free = [], [0] * lines
    if draw.random() < 0.2:
        said, gone, place = drawn_failures(draw, 0, ticks)
        if not gone:
            fails, free[0] = said, place
    return head, options + fails, lines, max(delays), free


def text_of(number):
    """The text of a number. Half of the cuts are of both ways."""
    draw = random.Random(f"pair {number}")
    ticks = draw.choice([60, 300, 700, 1200])
    ways = {way: configuration_of(draw, ticks) for way in WAYS}
    lag = (31 + max(ways[way][3] for way in WAYS) + draw.choice([0, 0, 1, 16])) // 16
    there, back = ([*head, f"lag {lag}", f"ticks {ticks}", *rest] for head, rest, _, _, _ in ways.values())
    out = [*there, "other", *back]
    lines, free = {way: ways[way][2] for way in WAYS}, {way: ways[way][4] for way in WAYS}
    out += [f"add {way} {line}" for way in WAYS for line in range(lines[way]) if draw.random() < 0.9]
    passed, cut = 0, set()
    for _ in range(draw.randint(0, 90)):
        does, way = draw.random(), draw.choice(WAYS)
        if passed == ticks:
            break
        if does < 0.5:
            some = min(ticks - passed, draw.choice([1, 1, 2, 8, 16, 17, draw.randint(1, 120)]))
            passed += some
            out.append(f"pass {some}")
        elif does < 0.8:
            out += [f"frame {way} {drawn_frame(draw)}" for _ in range(draw.choice([1, 1, 2, 5, 270 if draw.random() < 0.02 else 1]))]
        elif does < 0.87:
            out.append(f"{draw.choice(['add', 'remove'])} {way} {draw.randint(0, lines[way])}")
        else:
            line = draw.randrange(lines[way])
            for each in WAYS if draw.random() < 0.5 else [way]:
                if (each, line) in cut:
                    cut.discard((each, line))
                    free[each][line] = passed
                    out.append(f"mend {each} {line}")
                elif line < lines[each] and passed >= free[each][line]:
                    cut.add((each, line))
                    out.append(f"cut {each} {line}")
    return "\n".join(out) + "\n"


# ---- what is wanted of a text


class WantedWay(Wanted):
    """What a way is answered, by walks of its script by itself."""

    def __init__(self, name, said, walker):
        super().__init__(said, walker)
        self.name, self.item, self.waiting = name, 0, 0
        # With more ticks each frame that was begun also ends, so it has rows. Of each that is accepted: the due tick, and the row of its first octet.
        longer = "".join(f"ticks {int(line[6:]) + LATER}\n" if line.startswith("ticks ") else line + "\n" for line in said.lines())
        done = subprocess.run(walker + ["fates"], input=longer.encode(), stdout=subprocess.PIPE, check=True).stdout.decode()
        fates = [line.split() for line in done.splitlines() if line.startswith("frame ")]
        self.queued = [(int(words[3]), int(words[5]) if len(words) > 5 else None) for words in fates if words[4] != "refused"]

    def members(self):
        """The lines `member`, each with the ticks that are made, by the codes in the trace."""
        told, before = [], {}
        for step in self.steps:
            words = step.split()
            codes = [word.split(":")[0].replace("eos", "norm") for word in words[words.index("back") + 2:]]
            ticks = 16 * int(words[1]) + 9
            told += [(ticks, f"member {self.name} {ticks} {line} {code}") for line, code in enumerate(codes) if code != before.get(line, "idle")]
            before = dict(enumerate(codes))
        return told

    def told(self, tells):
        """All that comes while time passes, each line with its ticks: of steps, and frames."""
        steps = [(16 * int(line.split()[1]) + 9, line.replace("packet ", f"packet {self.name} ", 1)) for line in self.steps]
        frames = [(ticks, f"got {self.name} {ticks} {frame}") for ticks, frame in zip(self.times, self.frames)]
        return {"": [], "trace": steps, "told": self.members()}[tells], frames

    def queue(self, passed):
        """The line `queue` behind a `pass`, where the number is another one."""
        waiting = sum(due < passed and (row is None or row >= passed) for due, row in self.queued)
        changed, self.waiting = waiting != self.waiting, waiting
        return [f"queue {self.name} {waiting}"] if changed else []

    def refusal(self):
        self.item += 1
        told = self.refused.get(self.item - 1)
        return [told.replace("refused ", f"refused {self.name} ", 1)] if told else []


def answers_of(lines, ways, tells):
    """The answers to each line."""
    steps, frames = zip(*(way.told(tells) for way in ways.values()))
    timed = [(ticks, place, line) for place, all_told in enumerate((*steps, *frames)) for ticks, line in all_told]
    timed.sort(key=lambda told: told[:2])
    passed, place, out = 0, 0, []
    for line in lines:
        words, told = line.split(), []
        if words and words[0] == "pass":
            passed += int(words[1])
            while place < len(timed) and timed[place][0] <= passed:
                told.append(timed[place][2])
                place += 1
            if tells == "told":
                told += [line for way in ways.values() for line in way.queue(passed)]
            told.append(f"now {passed}")
        elif words and words[0] in ("frame", "add", "remove"):
            told += ways[words[1]].refusal()
        out.append("".join(one + "\n" for one in told))
    return out


def pair_agrees(scripts, ways, walker):
    """Whether `pair` writes the frames of each way first, and the same refused items."""
    done = subprocess.run(walker + ["pair"], input=scripts.encode(), capture_output=True, check=True)
    for way, report in zip(ways.values(), (done.stdout, done.stderr)):
        lines = report.decode().splitlines()
        frames = [line[4:] for line in lines if line.startswith("got ")]
        refused = [line for line in lines if line.startswith("refused ")]
        if frames[:len(way.frames)] != way.frames or refused != list(way.refused.values()):
            return False
    return True


def try_text(given, number):
    """The answers to the lines of a text, and what is wrong, or nothing."""
    text, walk = text_of(number), given.walker + ["walk"]
    parts = divide(text)
    scripts = pair_of([Said(part) for part in parts])
    ways = {way: WantedWay(way, alone([Said(part) for part in parts], way, walk), given.walker) for way in WAYS}
    tells = TELLS[number % 3]
    answers = answers_of(text.split("\n"), ways, "".join(tells))
    totals = "".join(way.total.replace("total ", f"total {name} ", 1) + "\n" for name, way in ways.items())
    if not pair_agrees(scripts, ways, given.walker):
        return answers, "pair writes other frames or refused items"
    words = given.program + ["live", "pair", *tells]
    return answers, converse(words, text.encode(), answers, totals, random.Random(f"pieces {number}"), given.seconds, number % 7 == 0)


def main():
    parser = argparse.ArgumentParser()
    parser.add_argument("--count", type=int, default=300)
    parser.add_argument("--from", type=int, default=0, dest="first")
    parser.add_argument("--seconds", type=float, default=60)
    parser.add_argument("--program", default=PROGRAM)
    parser.add_argument("--walker")
    parser.add_argument("--text", type=int)
    given = parser.parse_args()
    if given.text is not None:
        sys.stdout.write(text_of(given.text))
        return 0
    given.walker, given.program = (given.walker or given.program).split(), given.program.split()
    if not os.access(given.program[0], os.X_OK) and "/" in given.program[0]:
        print(f"live_pairs: {given.program[0]} is missing: run rt ci first", file=sys.stderr)
        return 1
    wrong, kinds = 0, {}
    for number in range(given.first, given.first + given.count):
        answers, found = try_text(given, number)
        if found:
            wrong += 1
            print(f"live_pairs: text {number}: {found}", file=sys.stderr)
        for line in "".join(answers).splitlines():
            kinds[line.split()[0]] = kinds.get(line.split()[0], 0) + 1
    print(f"texts {given.count}: {wrong} wrong; answers {dict(sorted(kinds.items()))}")
    return 1 if wrong else 0


if __name__ == "__main__":
    sys.exit(main())
