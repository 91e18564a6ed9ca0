#!/usr/bin/env python3
"""Two network namespaces of Linux, with a virtually concatenated group between them, in real time.

  link.py [OPTIONS]      for instance: link.py --lines 2 --delays 40 --run 'ip netns exec $A ping -c 5 10.77.0.2'

Each namespace has one TAP device, tap0, with the address 10.77.0.1 or 10.77.0.2, and nothing else. Frames that leave the first go there, to the second, and
those of the second go back, by one process `live pair told`. CMD is a text for a shell, to which $A and $B are the names of the namespaces, and starts
once the members are in use. All ends with CMD, by its status; without CMD with --seconds or Ctrl-C. At each end the namespaces are deleted. Root that may
make namespaces, /dev/net/tun and `ip` are needed: where something is missing, the status is 77.
"""
import argparse
import contextlib
import fcntl
import os
import pathlib
import re
import shutil
import signal
import struct
import subprocess
import sys
import time
from collections import Counter
from dataclasses import dataclass, field

sys.dont_write_bytecode = True
sys.path.insert(0, str(pathlib.Path(__file__).resolve().parent.parent))
from group import WAYS, Answers, Ended, Pair, Setting, program_of_live, with_fcs, without_fcs

MISSING = 77
TICK = 125e-6  # seconds
STEP = 16  # ticks that pass at once while no clock goes
TUN = "/dev/net/tun"
TUNSETIFF, IFF_TAP, IFF_NO_PI = 0x400454CA, 0x0002, 0x1000
LEAST_OCTETS, MOST_OCTETS = 60, 65536  # of a frame without its FCS
MOST_FRAMES = 1000  # that a TAP device keeps, and that are read from it at once
SIGNALS = signal.SIGINT, signal.SIGTERM, signal.SIGHUP


@dataclass
class Event:
    """A live line that is said at a time, of one way or of both."""

    second: float
    ways: tuple[str, ...]
    line: str


def event(text: str) -> Event:
    """The event of an option T:WAY:LINE."""
    second, way, line = text.split(":")
    if way not in (*WAYS, "both") or not re.fullmatch(r"(add|remove|cut|mend) \d+", line):
        raise ValueError(text)
    return Event(float(second), WAYS if way == "both" else (way,), line)


def parse_options() -> argparse.Namespace:
    parser = argparse.ArgumentParser(formatter_class=argparse.RawDescriptionHelpFormatter, description=__doc__)
    parser.add_argument("--lines", type=int, default=1, metavar="L", help="lines of each way, 1 unless it is said")
    parser.add_argument("--delays", default="0", metavar="D", help="the delay of all lines in ticks of 125 us, or of each, with commas between")
    parser.add_argument("--vc3", action="store_true", help="lines are VC-3s of 48 Mbit/s, and not VC-4s of 150")
    parser.add_argument("--members", type=int, metavar="M", help="lines that are added first, from 0; all unless it is said")
    parser.add_argument("--dilation", type=float, default=1, metavar="D", help="a tick takes D times 125 us by the clock")
    parser.add_argument("--period", type=float, default=1, metavar="MS", help="how often time passes for the group, in milliseconds")
    parser.add_argument("--event", type=event, action="append", default=[], metavar="T:WAY:LINE", dest="events",
                        help="at T seconds says LINE, as in 'cut 0', mend, add, remove; WAY is there, back or both")
    parser.add_argument("--run", metavar="CMD", help="what is run between the namespaces")
    parser.add_argument("--neigh", action="store_true", help="each end knows the other's address, so nobody asks for it by ARP")
    parser.add_argument("--hold", type=int, metavar="Q", help="leaves frames in the TAP device while Q wait in the group, which refuses them from 256 on")
    parser.add_argument("--keep", default="", metavar="PREFIX", help="keeps what was said and answered, and says what became of the frames")
    parser.add_argument("--seconds", type=float, metavar="S", help="ends after S seconds")
    options = parser.parse_args()
    try:
        delays = [int(delay) for delay in options.delays.split(",")]
    except ValueError:
        parser.error(f"--delays has numbers with commas between, and no {options.delays}")
    options.setting = Setting(delays * options.lines if len(delays) == 1 else delays, options.vc3)
    options.members = options.lines if options.members is None else options.members
    if not 1 <= options.lines == len(options.setting.delays) <= 128:
        parser.error("there are 1 to 128 lines, and --delays has one number, or one for each")
    if not 0 <= options.members <= options.lines:
        parser.error("--members is at most the number of lines")
    if options.period <= 0 or options.dilation <= 0:
        parser.error("--period and --dilation are above 0")
    if any(int(each.line.split()[1]) >= options.lines for each in options.events):
        parser.error("lines are numbered from 0, and an --event is of one that isn't there")
    options.events.sort(key=lambda each: each.second)
    return options


def find_missing(run: str | None) -> str | None:
    """What is needed and isn't there."""
    if os.geteuid() != 0:
        return "namespaces are made by root alone"
    if not os.path.exists(TUN):
        return f"there is no {TUN}"
    programs = ["ip", *re.findall(r"netns exec \S+ ([\w./-]+)", run or "")]
    absent = [program for program in programs if not shutil.which(program)]
    if absent:
        return f"there is no {absent[0]}"
    try:
        os.close(os.open(TUN, os.O_RDWR))
    except OSError as error:
        return f"{TUN} can't be opened: {error.strerror}"
    trial = f"vcat-{os.getpid()}"
    made = subprocess.run(["ip", "netns", "add", trial], stderr=subprocess.PIPE, text=True)
    subprocess.run(["ip", "netns", "delete", trial], stderr=subprocess.DEVNULL)
    return f"no namespace can be made: {made.stderr.strip()}" if made.returncode else None


def ip(words: str) -> str:
    """Runs `ip`, which no signal ends on the way."""
    before = signal.pthread_sigmask(signal.SIG_BLOCK, SIGNALS)
    try:
        return subprocess.run(["ip", *words.split()], stdout=subprocess.PIPE, text=True, check=True).stdout
    finally:
        signal.pthread_sigmask(signal.SIG_SETMASK, before)


class Namespace:
    """A network namespace with a TAP device."""

    def __init__(self, letter: str, number: int) -> None:
        self.name = f"vcat-{letter}-{os.getpid()}"
        self.address, self.hardware = f"10.77.0.{number}", f"02:00:00:00:00:{number:02x}"
        self.is_made, self.tap = False, -1

    def make(self) -> None:
        ip(f"netns add {self.name}")
        self.is_made = True
        self.tap = os.open(TUN, os.O_RDWR | os.O_NONBLOCK | os.O_CLOEXEC)
        device = f"vcat{os.getpid()}"
        fcntl.ioctl(self.tap, TUNSETIFF, struct.pack("16sH22x", device.encode(), IFF_TAP | IFF_NO_PI))
        # The device goes into the namespace, and what is open stays its other end.
        ip(f"link set {device} netns {self.name} name tap0")
        self.inside("link set lo up")
        # Without an address of IPv6 the system sends nothing of its own.
        self.inside(f"link set tap0 address {self.hardware} addrgenmode none txqueuelen {MOST_FRAMES}")
        self.inside(f"address add {self.address}/24 dev tap0")
        self.inside("link set tap0 up")

    def know(self, other: "Namespace") -> None:
        self.inside(f"neighbour replace {other.address} lladdr {other.hardware} dev tap0 nud permanent")

    def inside(self, words: str) -> None:
        ip(f"-n {self.name} {words}")

    def remove(self) -> None:
        """Ends what runs in it, and deletes it."""
        if self.tap >= 0:
            os.close(self.tap)
        if self.is_made:
            for process in ip(f"netns pids {self.name}").split():
                with contextlib.suppress(ProcessLookupError):
                    os.kill(int(process), signal.SIGKILL)
            ip(f"netns delete {self.name}")


@dataclass
class Tally:
    """What came to a way, and what came of it."""

    entered: int = 0
    left: int = 0
    wrong: int = 0
    refused: Counter = field(default_factory=Counter)

    def text(self) -> str:
        refused = "".join(f", {count} refused ({why})" for why, count in self.refused.items()) or ", 0 refused"
        return f"{self.entered} frames in, {self.left} out{refused}, {self.wrong} with a wrong FCS"


class Link:
    """Carries frames between two namespaces by a group, whose time goes by the clock."""

    def __init__(self, options: argparse.Namespace, pair: Pair, ends: list[Namespace]) -> None:
        self.options, self.pair = options, pair
        self.entries, self.exits = dict(zip(WAYS, ends)), dict(zip(WAYS, reversed(ends)))
        self.tallies = {way: Tally() for way in WAYS}
        self.members = {way: set() for way in WAYS}
        self.commands = {way: {} for way in WAYS}
        self.events = list(options.events)
        self.tick = TICK * options.dilation
        self.start = None
        self.ticks = self.ticks_before = self.most_ticks = 0
        self.most_late = 0.0
        self.signal = 0

    def stop(self, number: int, _) -> None:
        """Has a signal end all, at the end of the turn."""
        self.signal = number

    def seconds(self) -> float:
        """Seconds since the clock goes."""
        return time.monotonic() - self.start if self.start else 0.0

    def tell(self, way: str, text: str) -> None:
        print(f"{self.seconds():9.3f} {way}: {text}", flush=True)

    def command(self, way: str, line: str) -> None:
        item = self.pair.say(way, line)
        self.tell(way, f"{line}, at tick {self.ticks}")
        if line.startswith(("add ", "remove ")):
            self.commands[way][item] = line

    def let_pass(self, ticks: int) -> None:
        answers = self.pair.let_pass(ticks)
        self.ticks += ticks
        for way in WAYS:
            self.hear(way, answers[way])

    def hear(self, way: str, answers: Answers) -> None:
        tally = self.tallies[way]
        for ticks, line, code in answers.members:
            self.tell(way, f"member {ticks} {line} {code}")
            (self.members[way].add if code == "norm" else self.members[way].discard)(line)
        for item, why in answers.refused.items():
            if item in self.commands[way]:
                self.tell(way, f"{self.commands[way][item]} is refused, {why}")
            else:
                tally.refused[why] += 1
        for _, frame in answers.got:
            octets = without_fcs(frame)
            if octets is None:
                tally.wrong += 1
                continue
            with contextlib.suppress(OSError):  # a device that is down takes none
                os.write(self.exits[way].tap, octets)
                tally.left += 1

    def read_frames(self, way: str) -> list[bytes]:
        """What has come from the way's namespace, as long as no more frames wait in the group than may."""
        frames = []
        room = MOST_FRAMES if self.options.hold is None else self.options.hold - self.pair.waiting(way)
        for _ in range(room):
            try:
                octets = os.read(self.entries[way].tap, MOST_OCTETS)
            except BlockingIOError:
                break
            frames.append(with_fcs(octets.ljust(LEAST_OCTETS, b"\0")))
        self.tallies[way].entered += len(frames)
        return frames

    def add_members(self) -> None:
        """Adds the first lines, and lets time pass, by no clock, until all are in use."""
        for way in WAYS:
            for line in range(self.options.members):
                self.command(way, f"add {line}")
        while not self.signal and any(len(self.members[way]) < self.options.members for way in WAYS):
            self.let_pass(STEP)
        self.ticks_before = self.ticks

    def turn(self) -> None:
        """Lets the time pass that has passed by the clock, and says what had come before: so nothing is sooner at the other end than it may be."""
        frames = {way: self.read_frames(way) for way in WAYS}
        ticks = min(self.ticks_before + int(self.seconds() / self.tick), self.options.setting.ticks) - self.ticks
        if ticks:
            self.most_ticks = max(self.most_ticks, ticks)
            self.let_pass(ticks)
        while self.events and self.events[0].second <= self.seconds():
            now = self.events.pop(0)
            for way in now.ways:
                self.command(way, now.line)
        for way in WAYS:
            for frame in frames[way]:
                self.pair.frame(way, frame)
        self.most_late = max(self.most_late, self.seconds() - (self.ticks - self.ticks_before) * self.tick)

    def go(self, job: subprocess.Popen | None) -> None:
        """Carries frames until the job, the time or the last tick ends it, or a signal."""
        options = self.options
        self.start = next_turn = time.monotonic()
        while not self.signal and (job is None or job.poll() is None):
            self.turn()
            if self.ticks == options.setting.ticks or options.seconds is not None and self.seconds() >= options.seconds:
                break
            next_turn = max(next_turn + options.period / 1000, time.monotonic())
            time.sleep(max(0, next_turn - time.monotonic()))

    def drain(self) -> None:
        """Lets what is under way come out, as far as ticks are left."""
        ticks = min(max(self.options.setting.delays) + STEP, self.options.setting.ticks - self.ticks)
        if ticks:
            self.let_pass(ticks)

    def sum_up(self) -> None:
        """Says what there was, once the pair has ended."""
        print(f"{self.ticks} ticks, at most {self.most_ticks} in one pass; at worst {1000 * self.most_late:.1f} ms late")
        for way in WAYS:
            print(f"{way}: {self.tallies[way].text()}")
            if self.options.keep:
                print(f"{way}: {self.fates(way)}")

    def fates(self, way: str) -> str:
        try:
            fates = self.pair.fates(way)
        except subprocess.CalledProcessError as error:
            return f"what became of frames isn't known, by a status {error.returncode}"
        lost = {fate: count for fate, count in fates.items() if fate not in ("got", "waits", "refused")}
        causes = "".join(f", {count} {fate}" for fate, count in lost.items())
        return f"{fates['got']} got, {fates['waits']} wait, {sum(lost.values())} lost{causes}"


def start_job(text: str, ends: list[Namespace]) -> subprocess.Popen:
    names = {"A": ends[0].name, "B": ends[1].name}
    return subprocess.Popen(["/bin/sh", "-c", text], env={**os.environ, **names}, start_new_session=True)


def end_job(job: subprocess.Popen | None, number: int) -> int:
    """Ends a job, if it goes on, by a signal, and gives its status as a shell does; 0 if there is none."""
    if job is None:
        return 0
    if job.poll() is None:
        os.killpg(job.pid, number)
        try:
            job.wait(3)
        except subprocess.TimeoutExpired:
            os.killpg(job.pid, signal.SIGKILL)
            job.wait()
    return job.returncode if job.returncode >= 0 else 128 - job.returncode


def carry(options: argparse.Namespace, program: str) -> int:
    """Makes all that is needed, carries frames, and gives the status."""
    ends = [Namespace("a", 1), Namespace("b", 2)]
    link = Link(options, Pair(program, options.setting, options.keep), ends)
    for number in SIGNALS:
        signal.signal(number, link.stop)
    with contextlib.ExitStack() as stack:
        stack.callback(link.pair.end)
        for end in ends:
            stack.callback(end.remove)
            end.make()
        if options.neigh:
            ends[0].know(ends[1])
            ends[1].know(ends[0])
        link.add_members()
        job = start_job(options.run, ends) if options.run else None
        stack.callback(end_job, job, signal.SIGKILL)
        link.go(job)
        status = end_job(job, link.signal or signal.SIGTERM)
        link.drain()
    link.sum_up()
    return 128 + link.signal if link.signal else status


def main() -> int:
    options = parse_options()
    missing = find_missing(options.run)
    if missing:
        print(f"link: {missing}", file=sys.stderr)
        return MISSING
    try:
        program = program_of_live()
    except subprocess.CalledProcessError:
        return MISSING  # ./vcat has said what
    try:
        return carry(options, program)
    except (Ended, OSError, subprocess.CalledProcessError) as error:
        print(f"link: {error}", file=sys.stderr)
        return 1


if __name__ == "__main__":
    sys.exit(main())
