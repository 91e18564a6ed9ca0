"""A virtually concatenated group behind pipes, for programs that are coupled with one.

A `Group` is one way of it, a process `live`, and a `Pair` is both ways, a process `live pair`. Say what happens, let ticks pass, and take what came of
it. A tick is 125 microseconds. However much is said or answered, neither side waits for a full pipe. With a name to keep, NAME.vcat gets what was said,
of which examples/live_script.py makes a script, and NAME.got what was answered.
"""
import binascii
import collections
import os
import pathlib
import select
import subprocess
import sys
import zlib
from collections.abc import Sequence
from dataclasses import dataclass, field

WAYS = "there", "back"
EXAMPLES = pathlib.Path(__file__).resolve().parent
VCAT = EXAMPLES.parent / "vcat"


def program_of_live() -> str:
    """The path of the program that answers `live`. If none stands, ./vcat builds one, and says so."""
    smallest = "lines 1\ndelays 0\nring 1\nlag 1\nticks 1\n"
    subprocess.run([VCAT, "live"], input=smallest, stdout=subprocess.DEVNULL, text=True, check=True)
    return subprocess.run([VCAT, "--program", "live"], stdout=subprocess.PIPE, text=True, check=True).stdout.strip()


def with_fcs(octets: bytes) -> bytes:
    return octets + zlib.crc32(octets).to_bytes(4, "little")


def without_fcs(frame: bytes) -> bytes | None:
    """A frame without its FCS, or None if that is wrong: nobody on the way looks at it."""
    octets = frame[:-4]
    return octets if with_fcs(octets) == frame else None


@dataclass
class Setting:
    """The configuration of a way. Ring and lag are by themselves the least with which each round makes a tick."""

    delays: Sequence[int]  # of each line, in ticks
    vc3: bool = False
    ring: int = 0  # cells
    lag: int = 0  # packets, of 16 ticks each
    ticks: int = 100_000_000

    def lines(self) -> list[str]:
        most, least = max(self.delays), min(self.delays)
        return [
            f"container {'vc3' if self.vc3 else 'vc4'}",
            f"lines {len(self.delays)}",
            f"delays {' '.join(map(str, self.delays))}",
            f"ring {self.ring or most - least + 1}",
            f"lag {self.lag or -(-(17 + most) // 16)}",
            f"ticks {self.ticks}",
        ]


@dataclass
class Answers:
    """What came of a way while ticks passed."""

    got: list[tuple[int, bytes]] = field(default_factory=list)  # how many ticks were made, and a frame with its FCS
    refused: dict[int, str] = field(default_factory=dict)  # why, of each item
    members: list[tuple[int, int, str]] = field(default_factory=list)  # if they are told: how many ticks were made, the line, and what it is


class Ended(Exception):
    """A group has ended before its text did. On standard error stands why."""


class Way:
    """What was said of a way, and what came of it."""

    def __init__(self) -> None:
        self.items = self.queue = self.new_frames = 0
        self.answers = Answers()

    def say(self, line: str) -> int:
        """Counts a line, and gives the number of the item that it is: frames and commands are counted from 0."""
        number = self.items
        self.items += line.startswith(("frame ", "add ", "remove "))
        self.new_frames += line.startswith("frame ")
        return number

    def waiting(self) -> int:
        """How many frames wait at most: as many as were told last, where that is told, and those that were said since."""
        return self.queue + self.new_frames

    def hear(self, word: bytes, number: bytes, rest: bytes = b"") -> None:
        if word == b"got":
            self.answers.got.append((int(number), binascii.unhexlify(rest)))
        elif word == b"refused":
            self.answers.refused[int(number)] = rest.decode()
        elif word == b"member":
            line, code = rest.decode().split(" ")
            self.answers.members.append((int(number), int(line), code))
        elif word == b"queue":
            self.queue = int(number)


class Conversation:
    """A process that answers a live text line by line."""

    def __init__(self, words: Sequence[str], keep: str, ways: Sequence[Way]) -> None:
        self.said = open(f"{keep}.vcat" if keep else os.devnull, "wb")
        self.answered = open(f"{keep}.got" if keep else os.devnull, "wb")
        # In a session of its own no Ctrl-C ends it before its text has ended.
        self.process = subprocess.Popen(words, stdin=subprocess.PIPE, stdout=subprocess.PIPE, bufsize=0, start_new_session=True)
        self.input, self.output = self.process.stdin, self.process.stdout
        for pipe in self.input, self.output:
            os.set_blocking(pipe.fileno(), False)  # these ends alone: those of the process have to block
        self.unsent, self.unread = bytearray(), b""
        self.all_ways, self.is_passing = ways, False

    def say_line(self, line: str) -> None:
        """Says a line, which is sent once ticks pass."""
        octets = line.encode() + b"\n"
        self.said.write(octets)
        self.unsent += octets

    def pass_ticks(self, ticks: int) -> None:
        """Lets ticks pass, and hears what comes of it."""
        self.say_line(f"pass {ticks}")
        self.is_passing = True
        for way in self.all_ways:
            way.answers = Answers()
        while self.is_passing:
            readable, writable, _ = select.select([self.output], [self.input] if self.unsent else [], [])
            if writable:
                self.write()
            if readable:
                self.read()

    def write(self) -> None:
        """Sends what the pipe takes."""
        try:
            del self.unsent[: self.input.write(self.unsent) or 0]
        except BrokenPipeError:
            raise self.ended() from None

    def read(self) -> None:
        """Hears what the pipe has."""
        octets = self.output.read(65536)
        if octets == b"":
            raise self.ended()
        if octets:
            self.answered.write(octets)
            *lines, self.unread = (self.unread + octets).split(b"\n")
            for line in lines:
                if line.startswith(b"now "):
                    self.is_passing = False
                    for way in self.all_ways:
                        way.new_frames = 0
                else:
                    self.hear(line)

    def hear(self, line: bytes) -> None:
        raise NotImplementedError

    def ended(self) -> Ended:
        return Ended(f"a group has ended, with status {self.process.wait()}")

    def end(self) -> tuple[str, int]:
        """Ends the text, and gives the line of totals, of each way, and the status."""
        octets, _ = self.process.communicate(self.unsent)
        self.answered.write(octets)
        self.answered.close()
        self.said.close()
        return octets.decode().rstrip("\n"), self.process.returncode


class Group(Conversation):
    """One way of a group: a process with the words `live`, `live told` or `live trace`."""

    def __init__(self, words: Sequence[str], setting: Setting, keep: str = "") -> None:
        self.way = Way()
        super().__init__(words, keep, [self.way])
        for line in setting.lines():
            self.say(line)

    def say(self, line: str) -> int:
        """Says a line, and gives the number of the item that it is."""
        self.say_line(line)
        return self.way.say(line)

    def frame(self, frame: bytes) -> int:
        """Says a frame, which has its FCS, and gives the number of the item."""
        return self.say("frame " + frame.hex())

    def waiting(self) -> int:
        return self.way.waiting()

    def hear(self, line: bytes) -> None:
        self.way.hear(*line.split(b" ", 2))

    def let_pass(self, ticks: int) -> Answers:
        self.pass_ticks(ticks)
        return self.way.answers


class Pair(Conversation):
    """Both ways of a group, a process `live pair told`: what each end reports comes to the other by the lines of the other way."""

    def __init__(self, program: str, setting: Setting, keep: str = "") -> None:
        self.program, self.keep = program, keep
        self.ways = {way: Way() for way in WAYS}
        super().__init__([program, "live", "pair", "told"], keep, list(self.ways.values()))
        for line in [*setting.lines(), "other", *setting.lines()]:
            self.say_line(line)

    def say(self, way: str, line: str) -> int:
        """Says a live line of a way, and gives the number of the item that it is."""
        word, _, rest = line.partition(" ")
        self.say_line(f"{word} {way} {rest}")
        return self.ways[way].say(line)

    def frame(self, way: str, frame: bytes) -> int:
        """Says a frame of a way, which has its FCS, and gives the number of the item."""
        return self.say(way, "frame " + frame.hex())

    def waiting(self, way: str) -> int:
        return self.ways[way].waiting()

    def hear(self, line: bytes) -> None:
        word, way, rest = line.split(b" ", 2)
        self.ways[way.decode()].hear(word, *rest.split(b" ", 1))

    def let_pass(self, ticks: int) -> dict[str, Answers]:
        self.pass_ticks(ticks)
        return {name: way.answers for name, way in self.ways.items()}

    def fates(self, way: str) -> collections.Counter[str]:
        """What became of how many frames of a way. The text has ended, and was kept."""
        script = [sys.executable, EXAMPLES / "live_script.py", "--way", way, self.program, "walk"]
        with open(f"{self.keep}.vcat", "rb") as said:
            made = subprocess.run(script, stdin=said, stdout=subprocess.PIPE, check=True)
        told = subprocess.run([self.program, "fates"], input=made.stdout, stdout=subprocess.PIPE, check=True).stdout.decode()
        return collections.Counter(line.split()[4] for line in told.splitlines() if line.startswith("frame "))
