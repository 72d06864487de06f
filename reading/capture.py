"""Captures: classic pcap files that come in and go out (docs/FORMATS.md, Captures)."""
import struct
from dataclasses import dataclass

# The longest frame that comes in, the longest one that goes out, at a trunk with a tag more, and the longest captured
# record, in octets.
LONGEST_FRAME, LONGEST_FRAME_OUT, LONGEST_RECORD = 1518, 1522, 262144

HEADER = bytes.fromhex("d4c3b2a1020004000000000000000000ffff000001000000")

# The first four octets: the byte order of the file, and how many units of its fractions make a ms.
MAGIC = {
    "d4c3b2a1": ("<", 1000), "a1b2c3d4": (">", 1000), "4d3cb2a1": ("<", 1000000), "a1b23c4d": (">", 1000000),
}


@dataclass
class Arrival:
    """A frame, or a long frame, whose octets are None."""

    stamp: int
    length: int
    octets: bytes | None


def arrivals(octets, is_cut=False, longest=LONGEST_FRAME):
    """What a capture brings: the arrivals, and how it ends ("end", "malformed AT" or "failed"). Where `is_cut` is true these
    are the octets before a read that failed. A frame has `longest` octets at most."""
    short = "failed" if is_cut else None
    order, per_ms = MAGIC.get(octets[:4].hex(), (None, 1))
    if len(octets) < 24:
        return [], short or "malformed 0"
    if order is None or struct.unpack(order + "HH12xI", octets[4:24]) != (2, 4, 1):
        return [], "malformed 0"
    found, at = [], 24
    while at < len(octets):
        if len(octets) - at < 16:
            return found, short or f"malformed {at}"
        seconds, fraction, captured, _ = struct.unpack(order + "IIII", octets[at : at + 16])
        if captured > LONGEST_RECORD:
            return found, f"malformed {at}"
        if len(octets) - at - 16 < captured:
            return found, short or f"malformed {at}"
        frame = octets[at + 16 : at + 16 + captured]
        found.append(Arrival(1000 * seconds + fraction // per_ms, captured, frame if captured <= longest else None))
        at += 16 + captured
    return found, short or "end"


def record(moment, frame):
    """A record of an output, with its moment in ms."""
    return struct.pack("<IIII", moment // 1000 % 2**32, 1000 * (moment % 1000), len(frame), len(frame)) + frame
