"""Stateful RA-Guard (RFC 6105 section 3): which ports of a link have routers, which prefixes these advertise, and what learning
from captures prints. It goes over whole lists: all arrivals, then what was seen in the window, then what passes."""
from dataclasses import dataclass

from .frame import ROUTER_ADVERTISEMENT, checksum, number, read_frame, read_options
from .plan import DEFAULT_VLAN, LINK_LOCAL, MULTICAST, address_text, lies_in, overlap

LAST_MOMENT = 1 << 62
HOP_LIMIT = 255
FIXED = 16
PREFIX_OPTION, PREFIX_OPTION_LENGTH, ON_LINK = 3, 32, 0x80
FOREVER = 0xFFFFFFFF
ROUTERS_MOST, PREFIXES_MOST = 64, 32


@dataclass
class Advert:
    """A good advertisement (RFC 4861 sections 4.2 and 6.1.2); a prefix is (address, length, valid lifetime)."""

    source: int
    lifetime: int
    prefixes: list


@dataclass
class Sighting:
    """A router advertisement at a port. `good` is None where a host doesn't take it."""

    moment: int
    port: int
    good: Advert | None


def in_order(plan, captures):
    """(moment, port, octets) of all arrivals: the earliest head of all inputs first, of equals that of the lower port. A
    moment is the stamp, at most 2^62, and never before the last one; a long frame has None for its octets."""
    inputs = {port.number: list(captures[port.number][0]) for port in plan.ports}
    found, moment = [], 0
    while any(inputs.values()):
        port = min((n for n in inputs if inputs[n]), key=lambda n: (inputs[n][0].stamp, n))
        arrival = inputs[port].pop(0)
        moment = max(moment, min(arrival.stamp, LAST_MOMENT))
        found.append((moment, port, arrival.octets))
    return found


def read_advert(octets):
    """The router advertisement that a frame without a tag carries and that isn't behind a fragment header: (packet, what it
    says or None), or None where it carries none."""
    frame = read_frame(octets)
    packet = frame.packet if frame and frame.tag is None else None
    if packet is None or packet.icmp != ROUTER_ADVERTISEMENT or packet.is_fragmented:
        return None
    return packet, good_advert(packet)


def good_advert(packet):
    message = packet.message
    is_good = (
        lies_in(packet.source, LINK_LOCAL) and packet.hop_limit == HOP_LIMIT and message[1] == 0 and len(message) >= FIXED
        and checksum(packet, message) == 0 and read_options(message[FIXED:]) is not None
    )
    return Advert(packet.source, number(message[6:8]), prefixes(message[FIXED:])) if is_good else None


def prefixes(octets):
    """The prefixes of whole options that count (RFC 4861 section 4.6.2)."""
    found, at = [], 0
    while at < len(octets):
        option = octets[at : at + 8 * octets[at + 1]]
        at += len(option)
        if option[0] != PREFIX_OPTION or len(option) != PREFIX_OPTION_LENGTH or not option[3] & ON_LINK:
            continue
        length = option[2]
        if not 1 <= length <= 128:
            continue
        address = number(option[16:32]) >> (128 - length) << (128 - length)
        if not overlap((address, length), LINK_LOCAL) and not overlap((address, length), MULTICAST):
            found.append((address, length, number(option[4:8])))
    return found


class Learned:
    """What all arrivals of a plan come to, with a window of so many ms. It is learned at access ports of the default VLAN
    alone, of frames without a tag."""

    def __init__(self, plan, captures, window):
        self.plan = plan
        self.ports = [port for port in plan.ports if not port.trunk and port.vlan == DEFAULT_VLAN]
        self.trusted = {port.number for port in self.ports if port.is_trusted}
        arrivals = in_order(plan, captures)
        numbers = {port.number for port in self.ports}
        frames = [arrival for arrival in arrivals if arrival[2] is not None and arrival[1] in numbers]
        self.end = frames[0][0] + window if frames else None
        self.last = arrivals[-1][0] if arrivals else 0
        self.seen = [
            Sighting(moment, port, found[1]) for moment, port, octets in frames if (found := read_advert(octets)) is not None
        ]
        self.early = [one for one in self.seen if one.good and one.moment < self.end]
        self.tables()

    def acceptable(self, port, advert):
        known = {prefix[1:3] for prefix in self.plan.prefixes if prefix.vlan == DEFAULT_VLAN}
        return port in self.trusted or all((net, length) in known for net, length, _ in advert.prefixes)

    def state(self, port, moment):
        if port in self.trusted:
            return "forwarding"
        if self.end is None or moment < self.end:
            return "learning"
        heard = [one.good for one in self.early if one.port == port]
        return "forwarding" if heard and all(self.acceptable(port, one) for one in heard) else "blocking"

    def passes(self, one):
        return bool(
            one.good and self.state(one.port, one.moment) == "forwarding" and self.acceptable(one.port, one.good)
        )

    def tables(self):
        """What those that pass tell, one after the other: entries by their keys, each with the moment before which it stands, or
        None."""
        self.routers, self.prefixes, self.lost = {}, {}, 0
        for one in self.seen:
            if self.passes(one):
                until = one.moment + 1000 * one.good.lifetime
                self.put(self.routers, ROUTERS_MOST, one.moment, (one.good.source, one.port), until)
                for net, length, valid in one.good.prefixes:
                    until = None if valid == FOREVER else one.moment + 1000 * valid
                    self.put(self.prefixes, PREFIXES_MOST, one.moment, (net, length), until)

    def put(self, table, most, moment, key, until):
        table.pop(key, None)
        if stands(until, moment):
            if len(standing(table, moment)) < most:
                table[key] = until
            else:
                self.lost += 1

    def lines(self):
        """What is printed, line by line."""
        for one in self.seen:
            yield f"advert {one.moment} {one.port} {'pass' if self.passes(one) else 'drop'}"
        for port in self.ports:
            yield f"port {port.number} {self.state(port.number, self.last)}"
        for (source, port), until in standing(self.routers, self.last):
            yield f"router {address_text(source)} {port} {until}"
        for (net, length), until in standing(self.prefixes, self.last):
            yield f"prefix {address_text(net)}/{length} {'-' if until is None else until}"
        yield f"lost {self.lost}"
        yield "end"


def stands(until, moment):
    """An entry stands strictly before its moment."""
    return until is None or moment < until


def standing(table, moment):
    return sorted((key, until) for key, until in table.items() if stands(until, moment))
