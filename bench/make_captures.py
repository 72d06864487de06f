#!/usr/bin/env python3
"""Writes a capture for each of some ports: 120,000 frames in all, 54 octets long, every eighth of a port 1,500. They are for
a station that never sends, or, with the word `known`, each for the host of the next port. With the word `bound` they are so,
too, but the host of a port has 24 addresses: the first frame of each claims it, and all others come once it is bound.

usage: make_captures.py FOLDER [PORTS [known|bound]] [--frames FRAMES] [--octets OCTETS]
"""
import os
import struct
import sys

sys.dont_write_bytecode = True
sys.path.append(os.path.join(os.path.dirname(os.path.realpath(__file__)), "..", "tools"))

from tool_parts import options

FRAMES = 120_000
# The octets of a frame, and of every eighth.
SIZES = (54, 1500)

# the addresses of a host where they are bound, and how long they are tested before, with some to spare (ms)
ADDRESSES, TESTED = 24, 1000

HEADER = bytes.fromhex("d4c3b2a1020004000000000000000000ffff000001000000")


def frame(port, size, to, address=0):
    """A plain IPv6 packet (next header 59) from an address of the host of this port, padded to the size; `to` ends its
    destination's MAC."""
    source = bytes([2, 0, 0, 0, 0, 16 * port + port])
    ethernet = bytes([2, 0, 0, 0, 0, to]) + source + bytes.fromhex("86dd")
    payload = size - 14 - 40
    ip = bytes.fromhex("60000000") + struct.pack(">HBB", payload, 59, 64)
    sender = bytes.fromhex("fe80" + 24 * "0" + f"{address:02x}{16 * port + port:02x}")
    addresses = sender + bytes.fromhex("fe80" + 26 * "0" + "fe")
    return ethernet + ip + addresses + bytes(payload)


def main(folder, ports, word, count_of_frames, octets_of_all=None):
    count = ADDRESSES if word == "bound" else 1
    sizes = (octets_of_all,) * 2 if octets_of_all else SIZES
    for port in range(1, ports + 1):
        to = 0xFE if word == "" else 17 * (port % ports + 1)
        frames = [[frame(port, size, to, address) for size in sizes] for address in range(count)]
        with open(f"{folder}/{port}.pcap", "wb") as out:
            out.write(HEADER)
            for k in range(count_of_frames // ports):
                # The addresses come in their order first, and then in another one.
                address = k if k < count else k * 7919 // 64 % count
                octets = frames[address][k % 8 == 7]
                stamp = 1000 + ports * k + port + (TESTED if word == "bound" and k >= count else 0)
                out.write(struct.pack("<IIII", stamp // 1000, 1000 * (stamp % 1000), len(octets), len(octets)))
                out.write(octets)


if __name__ == "__main__":
    words = options.parser(__doc__)
    words.add_argument("folder", metavar="FOLDER", type=options.folder, help="where they are written")
    words.add_argument("ports", metavar="PORTS", nargs="?", type=options.whole(1, 16), default=2, help="2 if not given")
    words.add_argument("word", metavar="known|bound", nargs="?", choices=("known", "bound"), help="see above")
    words.add_argument("--frames", metavar="FRAMES", type=options.whole(1), default=FRAMES, help="%(default)s if not given")
    words.add_argument("--octets", metavar="OCTETS", type=options.whole(54, 1518), help="the length of all frames")
    given = words.parse_args()
    main(given.folder, given.ports, given.word or "", given.frames, given.octets)
