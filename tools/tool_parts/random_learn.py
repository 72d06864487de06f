"""Random captures of router advertisements, and a plan, from which routers and prefixes are learned.

A draw steps x to (6364136223846793005 * x + 1442695040888963407) mod 2^64, from x = the seed, and is x / 2^33 rounded
down; a choice of n takes it modulo n. Ports 1, 3 and 5 are hosts', 2 is trusted, 4 a server's. Where the seed is odd
advertisements come from 80 routers with 40 prefixes, so that some find no place; else from few. Stamps go on by 0 to 700 ms,
and now and then back. Where the seed is 2 modulo 4 port 5 is in VLAN 10, port 6 is a trunk of VLANs 1 and 10, port 7 is
trusted in VLAN 10, and the first prefix is one of VLAN 10; then one frame in eight has a tag."""
import struct

from reading import capture, making
from reading.frame import tagged_frame
from reading.learn import Learned
from reading.plan import read_address, read_plan

LINKS = ("2001:db8:1::", "2001:db8:2::", "2001:db8:3::")
OTHERS = ("2001:db8:9::", "fe80::", "ff02::", "2001:db8:1::1", "fe80:1::", "::")
LIFETIMES = (0, 1, 2, 60, 1800, 0xFFFF)
VALID = (0, 1, 2, 60, 1800, 0xFFFFFFFF)
LENGTHS = (64, 64, 64, 64, 63, 10, 128, 0, 129)
WINDOWS = (0, 1, 500, 3000, 3600000)
ROLES = {1: "host", 2: "trusted", 3: "host", 4: "server", 5: "host"}
# The further ports of a plan with VLANs, and what its ports say of these.
MORE, VLANS = {6: "trusted", 7: "trusted"}, {5: "vlan = 10", 6: "trunk = [1, 10]", 7: "vlan = 10"}
MAC = 0x020000000022


class Source:
    def __init__(self, seed):
        self.x, self.now, self.is_crowded = seed, 1000, seed % 2 == 1

    def draw(self, count):
        self.x = (6364136223846793005 * self.x + 1442695040888963407) % 2**64
        return (self.x >> 33) % count

    def one(self, items):
        return items[self.draw(len(items))]

    def happens(self, one_in):
        return self.draw(one_in) == 0


def net(source):
    if source.is_crowded and not source.happens(4):
        return read_address("2001:db8::") | source.draw(40) << 80
    return read_address(source.one(LINKS if not source.happens(3) else OTHERS))


def prefix_option(source):
    length, flags, valid = source.one(LENGTHS), 0xC0 if not source.happens(6) else 0x40, source.one(VALID)
    numbers = bytes([length, flags]) + struct.pack(">II", valid, valid)
    return bytes([3, 4]) + numbers + bytes(4) + net(source).to_bytes(16, "big")


def options(source):
    parts = [prefix_option(source) for _ in range(source.one((0, 1, 1, 2, 3, 12)))]
    if source.happens(4):
        parts.append(bytes([1, 1]) + bytes(6))
    if source.happens(20):
        parts.append(bytes([3, source.draw(3)]) + bytes(6))
    return b"".join(parts)


def advert(source):
    router = making.LINK_LOCAL | 0x22 + source.draw(80 if source.is_crowded else 3)
    if source.happens(20):
        router = read_address("2001:db8:1::22")
    message = bytes([134, source.happens(20), 0, 0, 64, 0]) + struct.pack(">H", source.one(LIFETIMES)) + bytes(8)
    hop_limit = 64 if source.happens(20) else 255
    whole = making.icmp(MAC, router, making.ALL_NODES, message + options(source), hop_limit)
    return making.in_first_fragment(whole) if source.happens(20) else whole


def damaged(source, octets):
    at = source.draw(len(octets))
    return octets[:at] if source.happens(2) else octets[:at] + bytes([octets[at] ^ 1 << source.draw(8)]) + octets[at + 1 :]


def frame(source):
    if source.happens(12):
        return making.claim(MAC, making.LINK_LOCAL | 0x11)
    if source.happens(20):
        return bytes(source.one((0, 13, 14, 1519, 2000)))
    octets = advert(source)
    return damaged(source, octets) if source.happens(12) else octets


def random_captures(seed, count=200):
    """The text of a plan, the octets of the capture of each port, and the length of the window."""
    source, has_vlans = Source(seed), seed % 4 == 2
    roles = ROLES | MORE if has_vlans else ROLES
    window = source.one(WINDOWS[1:4] if seed % 4 else WINDOWS)
    prefixes = [link for link in LINKS if not source.happens(3)]
    records = {number: [] for number in roles}
    for _ in range(count):
        source.now = max(0, source.now + source.one((0, 0, 1, 7, 100, 499, 700)) - 900 * source.happens(30))
        number, octets = 1 + source.draw(len(roles)), frame(source)
        if has_vlans and len(octets) >= 14 and source.happens(8):
            octets = tagged_frame(source.one((0, 1, 10, 20)), octets)
        records[number].append((source.now, octets))
    captures = {number: making.capture(records[number]) for number in roles}
    if source.happens(3):
        captures[3] += bytes(15)
    lines = ['mac = "02:00:00:00:00:fe"', 'journal = "journal.txt"']
    for number, role in roles.items():
        lines += ["[[port]]", f"number = {number}", f'role = "{role}"', f'input = "{number}.pcap"']
        lines += [f'output = "{number}.out.pcap"', *([VLANS[number]] if has_vlans and number in VLANS else [])]
    for at, prefix in enumerate(prefixes):
        lines += ["[[prefix]]", f'prefix = "{prefix}/64"', 'method = "fcfs"']
        lines += ["vlan = 10"] if has_vlans and at == 0 else []
    return "".join(f"{line}\n" for line in lines), captures, window


def learned(text, captures, window):
    plan = read_plan(text.encode("ascii"))
    return Learned(plan, {number: capture.arrivals(octets) for number, octets in captures.items()}, window)


def met(lines):
    """What the lines show: how advertisements and ports came out, what stands, and whether anything found no place."""
    found = set()
    for line in lines:
        words = line.split()
        found |= {
            "advert": {words[-1]}, "port": {words[-1]}, "router": {"a router"}, "prefix": {"for ever" if words[-1] == "-" else "a prefix"},
            "lost": {"lost"} if words[-1] != "0" else set(), "end": set(),
        }[words[0]]
    return found


def check(same):
    """The reading learns from random captures, and they come out each way."""
    found = set()
    for seed in range(1, 17):
        found |= met(learned(*random_captures(seed)).lines())
    want = ("a prefix", "a router", "blocking", "drop", "for ever", "forwarding", "learning", "lost", "pass")
    same("random advertisements", "how they come out", sorted(found), list(want))
    print("random advertisements: they come out each way")
