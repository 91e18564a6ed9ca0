#!/usr/bin/env python3
"""Prints examples/far_header.vcat, and with the word `infers` examples/far_header_infers.vcat: more of its rows are whole, and fewer of its
frames come out.

One container of line 1 is damaged. From row 936 on all are whole, and with `sink infers` from row 914 on. That one begins within a frame which
is made so that four of its octets, scrambled, read as a core header that leads to row 950."""
import sys
import zlib

sys.dont_write_bytecode = True
from chance import HEAD, TYPE, Scrambler

ROW = 2 * 756                              # octets of payload of two lines of VC-3
LONG = 1600                                # octets of the frame of row 913, its FCS included
AIM = ROW + 16                             # where the header is to be in row 914, from the first octet of row 913, with which that frame begins
FAR = 37 * ROW + 400                       # and where it leads: to an idle frame in row 950
DUES = [880, 890, 913, *range(920, 1000, 4)]


def header(length):
    """A core header as it is sent."""
    check = length << 16
    for bit in reversed(range(16, 32)):
        check ^= (check >> bit & 1) * (0x11021 << bit - 16)
    return ((length << 16 | check) ^ 0xB6AB31E0).to_bytes(4, "big")


def frame(scrambler, octets, number, aimed):
    """A frame; where it is aimed, its octets are what the scrambler makes the header of."""
    sent = header(FAR - AIM - 4)
    for octet in TYPE:
        scrambler.octet(octet)
    made = bytearray()
    for i in range(octets - 4):
        place = 8 + i - AIM
        octet = HEAD[i] if i < len(HEAD) else (37 * i + 11 * number) % 251
        if aimed and 0 <= place < 4:
            octet = sent[place] ^ (scrambler.last >> 35 & 255)
        scrambler.octet(octet)
        made.append(octet)
    made += zlib.crc32(made).to_bytes(4, "little")
    for octet in made[-4:]:
        scrambler.octet(octet)
    return made.hex()


def main():
    infers = sys.argv[1:] == ["infers"]
    print("""\
# As far_header.vcat, but the sink goes on, so rows are whole from 914 on. In that row some octets of a frame read as a core header, which leads
# to row 950. The receiver follows it there, and gets 13 frames. Made by bench/far_header.py infers.""" if infers else """\
# One container of line 1 is damaged: rows 900 to 935 are spoiled, and 16 of 23 frames come out. Made by bench/far_header.py.""")
    print("container vc3\nlines 2\ndelays 0 0\nring 1\nlag 1\nticks 1000")
    if infers:
        print("sink infers")
    print("fail 1 900 901 0\nadd 0 0\nadd 0 1")
    scrambler = Scrambler()
    for number, due in enumerate(DUES):
        print("frame", due, frame(scrambler, LONG if due == 913 else 64, number, due == 913))


if __name__ == "__main__":
    main()
