"""Captures of several interfaces (pcapng): what their blocks tell, and what each interface's own capture holds
(docs/FORMATS.md, Captures). Written from the rules, over whole lists of octets."""
import struct
from dataclasses import dataclass, field

from .capture import HEADER, LONGEST_FRAME, LONGEST_RECORD, record

LONGEST_BLOCK, LAST_PLACE, LATEST_STAMP = 1048576, 2**62, 2**62
SECTION, INTERFACE, PACKET = 0x0A0D0D0A, 1, 6
MAGIC = {"4d3c2b1a": "<", "1a2b3c4d": ">"}
ETHERNET, OUTPUTS = 1, 16


class Wrong(Exception):
    """A block breaks a rule."""


@dataclass
class Packet:
    """A packet of an interface, counted through the file, with its stamp in ms."""

    interface: int
    stamp: int
    octets: bytes


@dataclass
class Told:
    """The link types of all interfaces, the packets, both in the order of their blocks (an interface by its number), and how
    the file ends ("end" or "malformed AT")."""

    links: list = field(default_factory=list)
    packets: list = field(default_factory=list)
    order: list = field(default_factory=list)
    ending: str = ""


def padded(size):
    return (size + 3) // 4 * 4


def ensure(holds):
    if not holds:
        raise Wrong


def options(order, octets):
    """The options in these octets, as codes with their values."""
    found, at = [], 0
    while at < len(octets):
        code, size = struct.unpack(order + "HH", octets[at : at + 4])
        if code == 0:
            break
        ensure(at + 4 + padded(size) <= len(octets))
        found.append((code, octets[at + 4 : at + 4 + size]))
        at += 4 + padded(size)
    return found


def units(found):
    """The units of a second that the options of an interface say: those of the last resolution, or microseconds."""
    per_second = 10**6
    for code, value in found:
        if code == 9:
            ensure(len(value) == 1)
            base, exponent, most = (2, value[0] - 128, 100) if value[0] >= 128 else (10, value[0], 38)
            ensure(exponent <= most)
            per_second = base**exponent
    return per_second


def block_at(octets, at, order):
    """The block that begins at this place: its order, its type and all its octets."""
    ensure(len(octets) - at >= 12)
    kind_octets = octets[at : at + 4]
    if kind_octets.hex() == "0a0d0d0a":
        order = MAGIC.get(octets[at + 8 : at + 12].hex())
    ensure(order is not None)
    kind, total = struct.unpack(order + "II", octets[at : at + 8])
    ensure(total % 4 == 0 and 12 <= total <= LONGEST_BLOCK and at + total <= min(len(octets), LAST_PLACE))
    ensure(struct.unpack(order + "I", octets[at + total - 4 : at + total]) == (total,))
    return order, kind, octets[at : at + total]


def read(octets):
    """What a file tells."""
    told, order, here, at = Told(), None, [], 0
    first = 0
    while at < len(octets) or order is None:
        try:
            order_of_block, kind, block = block_at(octets, at, order)
            if kind == SECTION:
                ensure(len(block) >= 28 and struct.unpack(order_of_block + "H", block[12:14]) == (1,))
                options(order_of_block, block[24:-4])
                order, here, first = order_of_block, [], len(told.links)
            elif kind == INTERFACE:
                ensure(len(block) >= 20 and len(here) < 256 and len(told.links) < 65536)
                here.append(units(options(order, block[16:-4])))
                told.order.append(len(told.links))
                told.links.append(struct.unpack(order + "H", block[8:10])[0])
            elif kind == PACKET:
                ensure(len(block) >= 32)
                interface, high, low, captured, _ = struct.unpack(order + "5I", block[8:28])
                ensure(interface < len(here) and captured <= LONGEST_RECORD and 28 + padded(captured) + 4 <= len(block))
                options(order, block[28 + padded(captured) : -4])
                stamp = min(1000 * (high * 2**32 + low) // here[interface], LATEST_STAMP)
                told.packets.append(Packet(first + interface, stamp, block[28 : 28 + captured]))
                told.order.append(told.packets[-1])
        except Wrong:
            told.ending = f"malformed {at}"
            return told
        at += len(block)
    told.ending = "end"
    return told


def option_parts(order, octets):
    """The sizes of the parts of options: the head of each, and its value with the padding; behind the end of options all."""
    found, at = [], 0
    while at < len(octets):
        code, size = struct.unpack(order + "HH", octets[at : at + 4])
        found += [4, len(octets) - at - 4 if code == 0 else padded(size)]
        at += sum(found[-2:])
    return found


def parts(octets):
    """The sizes of the parts of a file, one behind the other: the head of a block, its fields, the octets of a packet and their
    padding, the parts of its options or the content of any other block, and the length at its end."""
    found, order, at = [], None, 0
    while at < len(octets):
        order, kind, block = block_at(octets, at, order)
        fields = {SECTION: 16, INTERFACE: 8, PACKET: 20}.get(kind, 0)
        captured = struct.unpack(order + "I", block[20:24])[0] if kind == PACKET else 0
        rest = block[8 + fields + padded(captured) : -4]
        inner = option_parts(order, rest) if fields else [len(rest)]
        found += [size for size in (8, fields, captured, -captured % 4, *inner, 4) if size]
        at += len(block)
    return found


def split(told):
    """The capture of each Ethernet interface from 0 to 15, and the printed line."""
    outputs = {k: [] for k, link in enumerate(told.links[:OUTPUTS]) if link == ETHERNET}
    frames = long = skipped = 0
    for packet in told.packets:
        if packet.interface not in outputs:
            skipped += 1
        elif len(packet.octets) > LONGEST_FRAME:
            long += 1
        else:
            frames += 1
            outputs[packet.interface].append(record(packet.stamp, packet.octets))
    captures = {k: HEADER + b"".join(records) for k, records in outputs.items()}
    return captures, f"interfaces {len(told.links)} frames {frames} long {long} skipped {skipped}"
