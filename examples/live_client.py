#!/usr/bin/env python3
"""Couples two groups behind pipes: one carries the messages of a sender, and the other the acknowledgements of their receiver.

  live_client.py FOLDER PROGRAM WORDS..      for instance: live_client.py /tmp "$(./vcat --program live)" live

One message is under way at a time. If its acknowledgement doesn't come in time, it is sent again behind a short frame, for after a break the first
frame is lost in any case. The operator adds a line where messages wait, and removes one where none has waited for long. Line 0 is cut and mended.
FOLDER gets what was said to each group (there.vcat, back.vcat) and what was answered (there.got, back.got); examples/live_script.py makes scripts
of the former. All is counted in ticks and nothing in seconds, so the text is always the same.
"""
import os
import sys

sys.dont_write_bytecode = True
from group import Group, Setting, with_fcs, without_fcs

THERE = Setting([4, 9, 6], vc3=True, ring=8, lag=2, ticks=1_000_000)
BACK = Setting([5], vc3=True, lag=3, ticks=1_000_000)
LAST_TICK, FIRST_MESSAGE, LAST_MESSAGE = 2000, 120, 1200
CUT, MENDED = 902, 950
PATIENCE = 45  # ticks until a message is sent again
OCTETS, SHORT = 9000, 64
NO_MESSAGE = 2**32 - 1


def frame_of(message, octets):
    """A frame: two addresses, a type that nobody uses, the number of a message, zeros, and the FCS."""
    head = bytes.fromhex("02000000000202000000000188b5") + message.to_bytes(4, "big")
    return with_fcs(head.ljust(octets - 4, b"\0"))


def message_in(frame):
    """The number in a frame; none if the FCS is wrong."""
    octets = without_fcs(frame)
    return NO_MESSAGE if octets is None else int.from_bytes(octets[14:18], "big")


class Sender:
    """Which message is under way, and which wait."""

    def __init__(self, group):
        self.group = group
        self.waiting, self.made_at = [], {}
        self.sent_at = self.item = None
        self.again = 0
        self.took = []

    def make(self, now):
        self.made_at[len(self.made_at)] = now
        self.waiting.append(len(self.made_at) - 1)

    def turn(self, now):
        """Sends the oldest message, or sends it again."""
        if self.sent_at is not None and now - self.sent_at > PATIENCE:
            print(f"{now:5} sender: message {self.waiting[0]} once more")
            self.again += 1
            self.sent_at = None
            self.group.frame(frame_of(NO_MESSAGE, SHORT))
        if self.sent_at is None and self.waiting:
            self.sent_at = now
            self.item = self.group.frame(frame_of(self.waiting[0], OCTETS))

    def hear(self, now, refused, acknowledged):
        if self.item in refused:
            print(f"{now:5} sender: message {self.waiting[0]} was refused, {refused[self.item]}")
            self.sent_at = None
        self.item = None
        for message in acknowledged:
            if self.sent_at is not None and message == self.waiting[0]:
                self.took.append(now - self.made_at[self.waiting.pop(0)])
                self.sent_at = None


class Operator:
    """How many lines are members, by how many messages wait."""

    def __init__(self, group, lines):
        self.group, self.lines = group, lines
        self.members, self.changed, self.busy = 1, 0, 0
        group.say("add 0")

    def turn(self, now, waiting):
        if waiting:
            self.busy = now
        if waiting > 4 and self.members < self.lines and now - self.changed > 90:
            print(f"{now:5} operator: line {self.members} joins, as {waiting} messages wait")
            self.group.say(f"add {self.members}")
            self.members, self.changed = self.members + 1, now
        elif now - max(self.busy, self.changed) > 150 and self.members > 1:
            self.members, self.changed = self.members - 1, now
            print(f"{now:5} operator: line {self.members} leaves")
            self.group.say(f"remove {self.members}")


def main(folder, *words):
    there = Group(words, THERE, os.path.join(folder, "there"))
    back = Group(words, BACK, os.path.join(folder, "back"))
    sender, operator = Sender(there), Operator(there, 3)
    back.say("add 0")
    for now in range(LAST_TICK):
        if FIRST_MESSAGE <= now < LAST_MESSAGE and now % (60 if now < 300 else 20) == 0:
            sender.make(now)
        for tick, does in (CUT, "cut"), (MENDED, "mend"):
            if now == tick:
                print(f"{now:5} fibre: {does} 0")
                there.say(f"{does} 0")
        sender.turn(now)
        operator.turn(now, len(sender.waiting))
        answers = there.let_pass(1)
        for _, frame in answers.got:
            if message_in(frame) != NO_MESSAGE:
                back.frame(frame_of(message_in(frame), SHORT))
        acknowledged = [message_in(frame) for _, frame in back.let_pass(1).got]
        sender.hear(now + 1, answers.refused, acknowledged)
    print(f"{len(sender.took)} of {len(sender.made_at)} messages acknowledged, after {min(sender.took)} to {max(sender.took)} ticks; {sender.again} sent once more")
    for name, group in ("there", there), ("back", back):
        total, status = group.end()
        print(f"{name} {status}: {total}")


if __name__ == "__main__":
    if len(sys.argv) < 4:
        sys.exit("usage: live_client.py FOLDER PROGRAM WORDS..")
    main(*sys.argv[1:])
