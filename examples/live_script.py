#!/usr/bin/env python3
"""Makes a script of what was said to `live`: of it `walk` writes the same frames, refused items and totals, and `fates` says what became of each.

  live_script.py [--way WAY] [PROGRAM WORDS..] < SAID > SCRIPT      for instance: live_script.py ./vcat walk < there.vcat | ./vcat fates

Of what was said to `live pair` it makes the two scripts of a pair, with `other` between. `pair` goes on until all ticks have passed, so what came of
each way is what `pair` writes first. With WAY, which is there or back, it makes the script of that way by itself, which ends where the text did: of
it `walk` writes the same as of a text of one way.

- What stood before the first live line stays: configuration, `fail`, `lost`.
- A cut is a failure without slip, from the ticks that had passed by then to those that had passed when it was mended, or else by the end. Without
  a container between it is none.
- A frame or a command is due at the ticks that had passed.
- Event lines make as many rounds as these ticks took, and land all items; the two scripts of a pair have none.

Mostly a round makes a tick. At a lag that is hardly enough for the delays some don't; then PROGRAM WORDS, at first `./vcat walk`, is asked which
is the least number of rounds that makes the ticks. With WAY the script comes of `pair WAY` in the place of its last word. Most lines that
`live` refuses are pointed out, with status 2: such a line has to be left out, with all behind it.
"""
import argparse
import pathlib
import subprocess
import sys

WALK = [str(pathlib.Path(__file__).resolve().parent.parent / "vcat"), "walk"]
MOST = 1_000_000  # what an event line may say
WAYS = "there", "back"
LIVE = "pass", "frame", "add", "remove", "cut", "mend"


def refuse(why):
    print(f"live_script: {why}", file=sys.stderr)
    sys.exit(2)


def number(word):
    if not (word.isascii() and word.isdigit()):
        raise ValueError(word)
    return int(word)


def lines_of(text):
    """The number and the words of each line that has some and is no comment."""
    for number, line in enumerate(text.split("\n"), 1):
        words = [word for word in line.removesuffix("\r").split(" ") if word]
        if words and not words[0].startswith("#"):
            yield number, words


def divide(text):
    """The texts of both ways in a text of `live pair`, each as one of `live`, with the same numbers of lines; or the text itself."""
    if not any(words == ["other"] for _, words in lines_of(text)):
        return [text]
    lines = {way: [""] * (text.count("\n") + 1) for way in WAYS}
    now, is_live = WAYS[0], False
    for number, words in lines_of(text):
        line = " ".join(words)
        is_known = len(words) > 1 and words[1] in WAYS if words[0] in LIVE[1:] else words[0] in LIVE or not is_live
        if not is_known:
            refuse(f"line {number} isn't one that live pair takes: {line[:60]}")
        is_live |= words[0] in LIVE
        if words == ["other"]:
            now = WAYS[1]
        elif words[0] == "pass":
            for way in WAYS:
                lines[way][number - 1] = line
        elif words[0] in LIVE:
            lines[words[1]][number - 1] = " ".join([words[0], *words[2:]])
        else:
            lines[now][number - 1] = line
    return ["\n".join(lines[way]) for way in WAYS]


class Said:
    """What was said of one way, as lines of a script."""

    def __init__(self, text):
        self.settings, self.failures, self.items = [], [], []
        self.numbers, self.slips = {}, False
        self.passed, self.cut_at, self.ends = 0, {}, {}  # of each line when it was cut, and where its last failure ends
        self.count = {"client": 0, "operator": 0}
        self.is_live = False
        for number, words in lines_of(text):
            try:
                self.line(*words)
            except (ValueError, KeyError, IndexError):
                refuse(f"line {number} isn't one that live takes: {' '.join(words)[:60]}")
        for line in list(self.cut_at):
            self.mend(line)

    def line(self, word, *rest):
        if word in LIVE:
            self.is_live = True
        elif self.is_live:
            raise ValueError(word)
        if word in LIVE:
            (value,) = rest
            ticks, _, _ = (self.numbers[word][0] for word in ("ticks", "delays", "lag"))
            if word != "pass" and self.passed >= ticks:
                raise ValueError(self.passed)
        if word == "pass":
            self.passed += number(value)
            if number(value) < 1 or self.passed > ticks:
                raise ValueError(self.passed)
        elif word == "cut":
            self.cut(number(value))
        elif word == "mend":
            self.mend(number(value))
        elif word in ("frame", "add", "remove"):
            if not (0 < len(bytes.fromhex(value)) <= 65_535 if word == "frame" else number(value) <= 255):
                raise ValueError(value)
            self.items.append(f"{word} {self.passed} {value}")
            self.count["client" if word == "frame" else "operator"] += 1
        else:
            self.settings.append(" ".join((word, *rest)))
            if word not in ("container", "sink"):
                self.numbers[word] = [int(part) for part in rest]
            if word == "fail":
                line, _, self.ends[line], slip = self.numbers[word]
                self.slips |= slip > 0

    def cut(self, line):
        if line in self.cut_at or line >= self.numbers["lines"][0] or self.passed < self.ends.get(line, 0):
            raise ValueError(line)
        self.cut_at[line] = self.passed

    def mend(self, line):
        first = self.cut_at.pop(line)
        if first < self.passed:
            self.failures.append(f"fail {line} {first} {self.passed} 0")
            self.ends[line] = self.passed

    def lines(self):
        return [*self.settings, *self.failures, *self.items]

    def script(self, rounds):
        events = []
        for word, number in ("round", rounds), *((word, max(1, count)) for word, count in self.count.items()):
            events += [f"{word} {MOST}"] * (number // MOST) + [f"{word} {number % MOST}"] * (number % MOST > 0)
        return "".join(line + "\n" for line in self.lines() + events)

    def goes_by_the_clock(self):
        """Whether it is known that each round makes a tick: nothing slips, and the lag has a tick to spare."""
        return not self.slips and 16 * self.numbers["lag"][0] >= 17 + max(self.numbers["delays"])

    def ticks_of(self, rounds, walk):
        done = subprocess.run(walk, input=self.script(rounds), stdout=subprocess.PIPE, text=True)
        if done.returncode:
            refuse(f"{' '.join(walk)} refuses the script, with status {done.returncode}")
        return int(done.stdout.splitlines()[-1].split()[2])

    def rounds(self, walk):
        """The least number of rounds that makes the ticks."""
        if not self.passed or self.goes_by_the_clock():
            return self.passed
        few, enough = self.passed - 1, self.passed
        while self.ticks_of(enough, walk) < self.passed:
            few, enough = enough, 2 * enough
        while enough - few > 1:
            middle = (few + enough) // 2
            if self.ticks_of(middle, walk) < self.passed:
                few = middle
            else:
                enough = middle
        return enough


def pair_of(ways):
    """The two scripts of a pair."""
    there, back = (said.lines() for said in ways)
    return "".join(line + "\n" for line in [*there, "other", *back])


def alone(ways, way, walk):
    """What was said of a way, with the lines of its script by itself: what it didn't hear by the other way is lost."""
    words = [*walk[:-1], "pair", way]
    done = subprocess.run(words, input=pair_of(ways), stdout=subprocess.PIPE, text=True)
    if done.returncode:
        refuse(f"{' '.join(words)} refuses the scripts, with status {done.returncode}")
    said = ways[WAYS.index(way)]
    said.settings, said.failures, said.items = done.stdout.splitlines(), [], []
    said.numbers["lag"] = [2 * said.numbers["lag"][0]]
    return said


def main():
    parser = argparse.ArgumentParser(formatter_class=argparse.RawDescriptionHelpFormatter, description=__doc__)
    parser.add_argument("--way", choices=WAYS, help="the way of a pair whose script is made")
    parser.add_argument("walk", nargs=argparse.REMAINDER, metavar="PROGRAM WORDS", help="what walks a script; ./vcat walk unless it is said")
    given = parser.parse_args()
    sys.stdin.reconfigure(newline="\n")
    ways = [Said(text) for text in divide(sys.stdin.read())]
    walk = given.walk or WALK
    if given.way and len(ways) == 1:
        refuse("a text of one way has no line other")
    if len(ways) == 2 and not given.way:
        sys.stdout.write(pair_of(ways))
        return
    said = alone(ways, given.way, walk) if given.way else ways[0]
    sys.stdout.write(said.script(said.rounds(walk)))


if __name__ == "__main__":
    main()
