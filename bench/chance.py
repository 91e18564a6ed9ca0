#!/usr/bin/env python3
"""Prints examples/chance.vcat: a script in which the premise on chance doesn't hold.

Four frames fill the rows from 40 on, each with 2,000 octets of the stream. The payload of the last one is made so that some of
its scrambled octets read as two idle frames, and a failure lets the receiver begin just before them: what it takes for the start
of a GFP frame is none. Scrambled is an area with x^43 + 1, from zeros, over all areas of the stream one after another."""
import zlib

ROW = 756                                  # octets of payload of a VC-3
FRAME = 1992                               # octets of a frame, its FCS included
IDLE = bytes.fromhex("b6ab31e0")           # an idle frame as it is sent
AIM = 50 * ROW - 40 * ROW                  # the place of the stream at which row 50 begins: row 40 is the first that carries payload
HEAD = bytes.fromhex("020000000002020000000001" "88b5")
TYPE = bytes.fromhex("00011021")           # the type header, with its check


class Scrambler:
    """The last 43 scrambled bits, the newest one lowest."""

    def __init__(self):
        self.last = 0

    def octet(self, octet):
        """The scrambled octet: each bit is added to the scrambled one 43 bits before."""
        scrambled = octet ^ (self.last >> 35 & 255)
        self.last = (self.last << 8 | scrambled) & (1 << 43) - 1
        return scrambled


def frame(scrambler, start, number):
    """The frame whose piece begins at a place. Where the aim lies in it, its octets are what the scrambler makes two idles of."""
    for octet in TYPE:
        scrambler.octet(octet)
    octets = bytearray()
    for i in range(FRAME - 4):
        place = start + 8 + i - AIM - 16
        if i < len(HEAD):
            octet = HEAD[i]
        elif 0 <= place < 8:
            octet = IDLE[place % 4] ^ (scrambler.last >> 35 & 255)
        else:
            octet = (37 * i + 11 * number) % 251
        scrambler.octet(octet)
        octets.append(octet)
    octets += zlib.crc32(octets).to_bytes(4, "little")
    for octet in octets[-4:]:
        scrambler.octet(octet)
    return octets.hex()


def main():
    scrambler = Scrambler()
    print("""# The premise on chance doesn't hold here: after the failure the receiver begins in row 50, and some octets of the last frame read there as
# two idle frames. Made by bench/chance.py.
container vc3
lines 1
delays 0
ring 1
lag 1
ticks 90
fail 0 41 48 0
add 0 0""")
    for number in range(4):
        print("frame 0", frame(scrambler, 8 + number * (8 + FRAME), number))


if __name__ == "__main__":
    main()
