#!/usr/bin/env python3
"""Tries `live` over pipes, as a program that is coupled with it meets it: random texts in random pieces, and fixed rows.

live_pipes.py [--count N] [--from NUMBER] [--seconds N] [--program WORDS] [--walker WORDS], or live_pipes.py --text NUMBER, which prints a text.

Behind each piece, with the pipe open and before more is said, just the answers to the lines that are whole by then have to come; every seventh text comes octet
by octet. At the end output, notes and status have to be those that are wanted. What is wanted of a text comes from `walk`, `trace` and
`capture` of its script, which examples/live_script.py makes: each frame, and each decision step, with the ticks that its rounds make. Of the fixed
rows it stands here. The status is 0 where all was right. The program has to be built: rt ci. With --program and --walker other programs answer in
its place, the one to `live` and the other to the rest."""
import argparse
import os
import pathlib
import random
import select
import socket
import struct
import subprocess
import sys
import time

TOP = pathlib.Path(__file__).resolve().parent.parent
sys.dont_write_bytecode = True
sys.path.insert(0, str(TOP / "examples"))
from live_script import Said

PROGRAM = str(TOP / "crates/vcat_walk/out/vcat_walk")
FIVE = "lines 1\ndelays 0\nring 1\nlag 1\nticks 9\n"
FIRST_WORDS = "container, lines, delays, ring, lag, ticks, sink, holdoff, restore, statuses, fail, lost, frame, add, remove, cut, mend, pass"


# ---- random texts


def drawn_frame(draw):
    octets = draw.choice([64, 64, draw.randint(64, 130), draw.randint(64, 130), draw.randint(64, 1518), draw.choice([1, 63, 9600, 9601])])
    digits = draw.randbytes(octets).hex()
    return digits.upper() if draw.random() < 0.1 else digits


def drawn_failures(draw, line, ticks):
    """Lines `fail` of a line, by which no containers vanish or a few, the greatest slip, and where the last ends."""
    said, place, slip = [], 0, 0
    for _ in range(draw.choice([0, 0, 0, 1, 2])):
        first = place + draw.choice([0, 1, 16, 60])
        length = draw.choice([1, 2, 17, 40])
        if first + length > ticks // 2:
            break
        gone = draw.choice([0, 1]) if length > 1 else 0
        slip += gone
        place = first + length
        said.append(f"fail {line} {first} {place} {gone}")
    return said, slip, place


def text_of(number):
    """The text of a number."""
    draw = random.Random(f"text {number}")
    lines, ticks = draw.choice([1, 1, 2, 3, 5]), draw.choice([60, 300, 700, 1200])
    delays = [draw.randint(0, draw.choice([0, 3, 40])) for _ in range(lines)]
    fails, slip, free = [], 0, []
    for line in range(lines):
        said, gone, place = drawn_failures(draw, line, ticks) if draw.random() < 0.3 else ([], 0, 0)
        fails, slip = fails + said, max(slip, gone)
        free.append(place)
    spare = draw.choice([0, 0, 1, 16, 40])
    out = [f"container {draw.choice(['vc3', 'vc4'])}", f"lines {lines}", "delays " + " ".join(map(str, delays)),
           f"ring {max(delays) - min(delays) + slip + 1 + draw.choice([0, 3])}", f"lag {(31 + max(delays) + slip + spare) // 16}", f"ticks {ticks}"]
    if draw.random() < 0.3:
        out += draw.sample(["sink infers", "holdoff 2", "restore 3", "statuses 32"], draw.randint(1, 3))
    out += fails + (["lost 2 5"] if draw.random() < 0.2 else [])
    out += [f"add {line}" for line in range(lines) if draw.random() < 0.9]
    passed, cut, cuts = 0, set(), 0
    for _ in range(draw.randint(0, 90)):
        does = draw.random()
        if passed == ticks:
            break
        if does < 0.5:
            some = min(ticks - passed, draw.choice([1, 1, 2, 8, 16, 17, draw.randint(1, 120)]))
            passed += some
            out.append(f"pass {some}")
        elif does < 0.8:
            out += ["frame " + drawn_frame(draw) for _ in range(draw.choice([1, 1, 2, 5, 270 if draw.random() < 0.02 else 1]))]
        elif does < 0.87:
            out.append(f"{draw.choice(['add', 'remove'])} {draw.randint(0, lines)}")
        else:
            line = draw.randrange(lines)
            if line in cut:
                cut.discard(line)
                free[line] = passed
                out.append(f"mend {line}")
            elif passed >= free[line] and cuts < 250:
                cut.add(line)
                cuts += 1
                out.append(f"cut {line}")
    for _ in range(draw.choice([0, 0, 2])):
        out.insert(draw.randint(0, len(out)), draw.choice(["", "# said by nobody", "   "]))
    end = draw.choice(["\n", "\n", "\n", "\r\n"])
    return end.join(out) + draw.choice([end, end, ""])


# ---- what is wanted of a text


class Wanted:
    """What a text is answered, by walks of the script of what was said."""

    def __init__(self, said, walker):
        self.walker, self.said = walker, said
        self.counts = {}
        self.rounds = self.said.rounds(walker + ["walk"])
        whole = self.run("walk", self.rounds)
        self.frames = [line[4:] for line in whole if line.startswith("got ")]
        self.refused = {int(line.split()[1]): line for line in whole if line.startswith("refused ")}
        self.total = whole[-1]
        self.steps = self.run("trace", self.rounds, notes=True)
        self.times = self.times_by_rows() if self.said.goes_by_the_clock() else self.times_by_rounds()

    def run(self, word, rounds, notes=False):
        done = subprocess.run(self.walker + [word], input=self.said.script(rounds).encode(), capture_output=True, check=True)
        return (done.stderr if notes else done.stdout).decode().splitlines()

    def times_by_rows(self):
        """By the clock row t is taken in round t + d, with the greatest delay d. The row of a frame is the time of its record in a capture."""
        done = subprocess.run(self.walker + ["capture"], input=self.said.script(self.rounds).encode(), stdout=subprocess.PIPE, check=True).stdout
        delay = max(int(word) for line in self.said.settings if line.startswith("delays ") for word in line.split()[1:])
        times, place = [], 24
        while place < len(done):
            seconds, micros, length = struct.unpack_from("<III", done, place)
            times.append((seconds * 1_000_000 + micros) // 125 + delay + 1)
            place += 16 + length
        return times

    def counts_after(self, rounds):
        """The ticks that so many rounds make, and the frames that they give."""
        if rounds not in self.counts:
            total = self.run("walk", rounds)[-1].split()
            self.counts[rounds] = int(total[2]), int(total[12])
        return self.counts[rounds]

    def times_by_rounds(self):
        """Walks find the round that gives each frame."""
        times = {}
        parts = [(0, self.rounds)] if self.frames else []
        while parts:
            few, many = parts.pop()
            before, behind = self.counts_after(few)[1], self.counts_after(many)[1]
            if before == behind:
                continue
            if many - few == 1:
                times.update({frame: self.counts_after(many)[0] for frame in range(before, behind)})
            else:
                parts += [(few, (few + many) // 2), ((few + many) // 2, many)]
        return [times[frame] for frame in range(len(self.frames))]

    def answers(self, lines, has_steps):
        """The answers to each line."""
        timed = [(16 * j + 9, 0, line) for j, line in enumerate(self.steps)] if has_steps else []
        timed += [(tick, 1, f"got {tick} {frame}") for tick, frame in zip(self.times, self.frames)]
        timed.sort(key=lambda told: told[:2])
        passed, item, place, out = 0, 0, 0, []
        for line in lines:
            words, told = line.split(), []
            if words and words[0] == "pass":
                passed += int(words[1])
                while place < len(timed) and timed[place][0] <= passed:
                    told.append(timed[place][2])
                    place += 1
                told.append(f"now {passed}")
            elif words and words[0] in ("frame", "add", "remove"):
                told += [self.refused[item]] if item in self.refused else []
                item += 1
            out.append("".join(one + "\n" for one in told))
        return out


# ---- conversations


class Talk:
    """A program behind pipes, of which each answer is waited for so long."""

    def __init__(self, words, seconds, **others):
        self.seconds = seconds
        self.program = subprocess.Popen(words, stdin=others.pop("stdin", subprocess.PIPE), stdout=subprocess.PIPE, stderr=subprocess.PIPE, **others)
        self.got = b""

    def say(self, octets):
        """Whether they could be said: once the program has ended they can't."""
        try:
            self.program.stdin.write(octets)
            self.program.stdin.flush()
            return True
        except (BrokenPipeError, ConnectionResetError):
            return False

    def hear(self, wanted):
        """Waits for as much as is wanted; what is wrong, or nothing."""
        until = time.monotonic() + self.seconds
        while len(self.got) < len(wanted):
            more = self.read(until)
            if more is None:
                return f"no answer within {self.seconds} seconds: {len(self.got)} octets of {len(wanted)}"
            if not more:
                return f"ended after {len(self.got)} octets of {len(wanted)}"
        return None if self.got == wanted else f"another answer: {differing(self.got, wanted)}"

    def read(self, until):
        """What is there, at the end nothing; None if nothing comes by then."""
        if not select.select([self.program.stdout], [], [], max(0, until - time.monotonic()))[0]:
            return None
        more = os.read(self.program.stdout.fileno(), 65536)
        self.got += more
        return more

    def is_quiet(self):
        """Whether nothing more has come."""
        return not select.select([self.program.stdout], [], [], 0)[0]

    def end(self, wanted, notes, status, closing=True):
        """Closes the pipe, and compares all that came; what is wrong, or nothing."""
        if closing:
            try:
                self.program.stdin.close()
            except (BrokenPipeError, ConnectionResetError):
                pass
        until = time.monotonic() + self.seconds
        while more := self.read(until):
            pass
        if more is None:
            return f"no end within {self.seconds} seconds"
        found = self.got, self.program.stderr.read().decode(), self.program.wait()
        if found[0] != wanted:
            return f"another text: {differing(found[0], wanted)}"
        return None if found[1:] == (notes, status) else f"status {found[2]} and {found[1]!r}, not {status} and {notes!r}"

    def stop(self):
        self.program.kill()
        self.program.wait()
        for end in self.program.stdin, self.program.stdout, self.program.stderr:
            try:
                if end:
                    end.close()
            except BrokenPipeError:
                pass


def differing(found, wanted):
    place = next((i for i, (one, other) in enumerate(zip(found, wanted)) if one != other), min(len(found), len(wanted)))
    return f"from octet {place} on {found[place:place + 40]!r}, and not {wanted[place:place + 40]!r}"


def pieces_of(text, draw, one_by_one):
    place = 0
    while place < len(text):
        size = 1 if one_by_one else draw.choice([1, 3, 20, 300, 5000])
        yield text[place:place + size]
        place += size


def converse(words, text, answers, total, draw, seconds, one_by_one):
    """Says a text in pieces. What is wrong, or nothing."""
    talk = Talk(words, seconds)
    try:
        said, lines, due = b"", 0, b""
        for piece in pieces_of(text, draw, one_by_one):
            said += piece
            if not talk.say(piece):
                return f"it ended after {len(said)} octets"
            whole = lines + piece.count(b"\n")
            due += "".join(answers[lines:whole]).encode()
            lines = whole
            wrong = talk.hear(due)
            if wrong is None and not talk.is_quiet():
                wrong = "it said more than is answered"
            if wrong:
                return f"after {len(said)} octets: {wrong}"
        return talk.end("".join(answers + [total]).encode(), "", 0)
    finally:
        talk.stop()


def try_texts(given):
    """How many texts were answered wrongly."""
    wrong, kinds = 0, {}
    for number in range(given.first, given.first + given.count):
        text = text_of(number)
        wanted = Wanted(Said(text.replace("\r\n", "\n")), given.walker)
        has_steps = number % 2 == 1
        answers = wanted.answers(text.replace("\r\n", "\n").split("\n"), has_steps)
        words = given.program + ["live"] + ["trace"] * has_steps
        found = converse(words, text.encode(), answers, wanted.total + "\n", random.Random(f"pieces {number}"), given.seconds, number % 7 == 0)
        if found:
            wrong += 1
            print(f"live_pipes: text {number}: {found}", file=sys.stderr)
        for kind in [line.split()[0] for told in answers for line in told.splitlines()] + ["stalls"] * (wanted.rounds > wanted.said.passed):
            kinds[kind] = kinds.get(kind, 0) + 1
    print(f"texts {given.count}: {wrong} wrong; answers {dict(sorted(kinds.items()))}")
    return wrong


# ---- fixed rows: what is said, the answers, the status and the notes. They are the lines behind FIVE.

ROWS = [
    ("", "total ticks 0 taken 0 frames 0 commands 0 refused 0 got 0\n", 0, ""),
    ("pass 4\nPass 1\n", "now 4\n", 5, f"fault: line 7: word\nhelp: a line begins with one of {FIRST_WORDS}\n"),
    ("round 1\n", "", 5, f"fault: line 6: word\nhelp: a line begins with one of {FIRST_WORDS}\n"),
    ("add 0\nlost 0 1\n", "", 5, "fault: line 7: order\nhelp: fail and lost stands before live lines\n"),
    ("pass 2\nring 1\n", "now 2\n", 5, "fault: line 7: order\nhelp: configuration stands before live lines\n"),
    ("pass\n", "", 5, "fault: line 6: word\nhelp: pass takes 1 word, and 0 follow\n"),
    ("add 0 0\n", "", 5, "fault: line 6: word\nhelp: add takes 1 word, and 2 follow\n"),
    ("frame 0G\n", "", 5, "fault: line 6: hex\nhelp: word 2 is an even number of hexadecimal digits\n"),
    ("pass +1\n", "", 5, "fault: line 6: number\nhelp: word 2 is a number of one to ten digits\n"),
    ("pass 8\npass 2\n", "now 8\n", 5, "fault: line 7: range\nhelp: word 2 is from 1 to 1\n"),
    ("remove 256\n", "", 5, "fault: line 6: range\nhelp: word 2 is from 0 to 255\n"),
    ("remove 0\npass 9\ncut 0\n", "refused 0 not in\nnow 9\n", 5, "fault: line 8: order\nhelp: the last tick has passed\n"),
    ("cut 0\ncut 0\n", "", 5, "fault: line 7: order\nhelp: line 0 is cut already\n"),
    ("cut 0\npass 1\nmend 0\nmend 0\n", "now 1\n", 5, "fault: line 9: order\nhelp: line 0 isn't cut\n"),
    ("fail 0 2 7 0\npass 6\ncut 0\n", "now 6\n", 5, "fault: line 8: order\nhelp: the failure before ends at 7\n"),
    ("fail 0 2 3 1\npass x\n", "", 6, "fault: slip line 0 window 0\nhelp: a slip of 1 needs a failure of at least 2 frames\n"),
    ("frame 00\npass 1\n", "refused 0 length 1\nnow 1\n", 0, ""),
]


def try_rows(given):
    """How many of the rows, and of the ends below, were answered wrongly."""
    wrong = 0

    def tell(name, found):
        nonlocal wrong
        if found:
            wrong += 1
            print(f"live_pipes: {name}: {found}", file=sys.stderr)

    live = given.program + ["live"]
    for said, answers, status, notes in ROWS:
        talk = Talk(live, given.seconds)
        talk.say((FIVE + said).encode())
        found = talk.hear(answers.encode()) if said else None
        if status:  # it ends while the pipe is open
            tell(repr(said), found or talk.end(answers.encode(), notes, status, closing=False))
        else:
            total = answers if not said else answers + "total ticks 1 taken 1 frames 0 commands 0 refused 1 got 0\n"
            tell(repr(said), found or talk.end(total.encode(), notes, status))
        talk.stop()
    for name, end in ENDS.items():
        tell(name, end(live, given.seconds))
    print(f"rows {len(ROWS) + len(ENDS)}: {wrong} wrong")
    return wrong


def no_more_words(live, seconds):
    """More words are none of a command: nothing is read."""
    talk = Talk(live + ["all"], seconds)
    try:
        found = talk.program.wait(seconds), talk.program.stdout.read()
    except subprocess.TimeoutExpired:
        found = "it waits"
    talk.stop()
    return None if found == (2, b"") else f"{found}"


def long_line(live, seconds):
    """A line is too long before its LF has come."""
    talk = Talk(live, seconds)
    talk.say((FIVE + "pass 1\n#" + " " * 262143).encode())
    found = talk.hear(b"now 1\n") or (None if talk.is_quiet() and talk.program.poll() is None else "it ended before its time")
    talk.say(b" ")
    found = found or talk.end(b"now 1\n", "fault: too long\n", 8, closing=False)
    talk.stop()
    return found


def last_line(live, seconds):
    """A last line without its LF counts at the end, and not before."""
    talk = Talk(live, seconds)
    talk.say((FIVE + "pass 1\npass 2").encode())
    found = talk.hear(b"now 1\n")
    found = found or talk.end(b"now 1\nnow 3\ntotal ticks 3 taken 3 frames 0 commands 0 refused 0 got 0\n", "", 0)
    talk.stop()
    return found


def broken_source(live, seconds):
    """A source that fails: a connection that is reset."""
    server = socket.create_server(("127.0.0.1", 0))
    ours = socket.create_connection(server.getsockname())
    theirs, _ = server.accept()
    talk = Talk(live, seconds, stdin=theirs)
    theirs.close()
    ours.sendall((FIVE + "pass 3\npass 1").encode())
    found = talk.hear(b"now 3\n")
    ours.setsockopt(socket.SOL_SOCKET, socket.SO_LINGER, struct.pack("ii", 1, 0))
    ours.close()
    server.close()
    found = found or talk.end(b"now 3\n", "fault: read failed\n", 3, closing=False)
    talk.stop()
    return found


def nobody_reads(live, seconds):
    """Answers that nobody reads: it ends at the first, and doesn't wait for more."""
    talk = Talk(live, seconds)
    talk.say((FIVE + "pass 1\n").encode())
    found = talk.hear(b"now 1\n")
    talk.program.stdout.close()
    talk.say(b"pass 1\n")
    try:
        ended = talk.program.wait(seconds), talk.program.stderr.read()
    except subprocess.TimeoutExpired:
        ended = "it waits"
    talk.program.kill()
    talk.program.wait()
    return found or (None if ended == (4, b"fault: write failed\n") else f"{ended}")


ENDS = {
    "more words": no_more_words,
    "a long line": long_line,
    "a last line without its end": last_line,
    "a source that fails": broken_source,
    "answers that nobody reads": nobody_reads,
}


def main():
    parser = argparse.ArgumentParser()
    parser.add_argument("--count", type=int, default=300)
    parser.add_argument("--from", type=int, default=0, dest="first")
    parser.add_argument("--seconds", type=float, default=60)
    parser.add_argument("--program", default=PROGRAM)
    parser.add_argument("--walker")
    parser.add_argument("--text", type=int)
    given = parser.parse_args()
    if given.text is not None:
        sys.stdout.write(text_of(given.text))
        return 0
    given.walker = (given.walker or given.program).split()
    given.program = given.program.split()
    if not os.access(given.program[0], os.X_OK) and "/" in given.program[0]:
        print(f"live_pipes: {given.program[0]} is missing: run rt ci first", file=sys.stderr)
        return 1
    return 1 if try_rows(given) + try_texts(given) else 0


if __name__ == "__main__":
    sys.exit(main())
