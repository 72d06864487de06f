"""The switch: one event, one entry of the history, which goes on in segments (docs/RULES.md, docs/TROUBLE.md)."""
import collections
from dataclasses import dataclass, field

from . import commands
from .plan import address_text, key_text, mac_text
from .frame import ADVERTISEMENT, DHCP_CLIENT, DHCP_SERVER, ICMPV6, MLD_OF_HOSTS, ROUTER_SOLICITATION, SOLICITED_NODES
from .frame import guard, inner_frame, internet_sum, read_frame, tagged_frame
from .dhcp import DECLINE, RELEASE, REPLY
from .states import ALL, DAD, NA, NONE, SENT, TEST_CLAIM, TRUSTED, TRUSTED_DAD, TRUSTED_NA, TRUSTED_ONLY, VALID
from .states import Address, Scope

# Entries that are kept back for drains and ends, and octets for one more frame.
ENTRIES_KEPT, OCTETS_KEPT = 4130, 1518
LATEST = 2**62

# How long a request stays open, and a station known, in ms; how many of them a port may have, of stations in each VLAN.
REQUEST_TIME, STATION_TIME = 120000, 300000
REQUESTS, STATIONS = 16, 256

GROUP_BIT = 1 << 40


@dataclass
class Entry:
    """`text` is the line of the journal behind number, pass and moment."""

    by: int
    moment: int
    text: str
    verdict: object = None
    cuts: list = field(default_factory=list)
    probes: int = 0
    lost: int = 0


def set_text(ports):
    return ",".join(map(str, ports)) or "-"


def verdict_text(verdict):
    if not isinstance(verdict, Scope):
        return f"drop-{verdict}"
    if not verdict.only_trusted:
        return "pass-all"
    return "pass-trusted" if verdict.more is None else f"pass-trusted+{verdict.more}"


def digits(octets):
    return octets.hex() or "-"


def state_lines(key, state):
    """The lines of the state of an address: where it is fixed, where DHCPv6 bound it, and what it has by first come."""
    if state.fixed is not None:
        yield f"fixed {key} {state.fixed}"
    if state.bound:
        yield f"bound {key} {state.bound[0]} {commands.moment_text(state.bound[1])}"
    first = state.first
    if first.state == VALID:
        yield f"fcfs {key} {first.state} {first.port} {first.until}"
    elif first.state != NONE:
        claimant = f" {first.claimant}" if first.state == TEST_CLAIM else ""
        yield f"fcfs {key} {first.state} {first.port}{claimant} {first.since} {'yes' if first.two else 'no'}"


def probe_frame(mac, target):
    """A solicitation as in duplicate address detection, from the switch (RFC 4861 section 4.3, RFC 2464 section 7)."""
    low = target & 0xFFFFFF
    group = SOLICITED_NODES[0] | low
    addresses = bytes(16) + group.to_bytes(16, "big")
    message = bytes.fromhex("8700000000000000") + target.to_bytes(16, "big")
    checksum = internet_sum(addresses + bytes([0, 0, 0, len(message), 0, 0, 0, ICMPV6]) + message)
    message = message[:2] + checksum.to_bytes(2, "big") + message[4:]
    ethernet = (0x3333FF << 24 | low).to_bytes(6, "big") + mac.to_bytes(6, "big") + bytes.fromhex("86dd")
    return ethernet + bytes.fromhex("6000000000183aff") + addresses + message


class Switch:
    """Addresses are kept by (VLAN, address), requests by (VLAN, port, transaction, client), and stations by (VLAN, MAC
    address). What waits in a queue is as it goes out there. `floods` makes it a switch that knows no station."""

    station_time = STATION_TIME

    def __init__(self, plan, floods=False):
        self.plan, self.floods = plan, floods
        self.ports = {port.number: port for port in plan.ports}
        self.trusted = [port.number for port in plan.ports if port.is_trusted]
        numbers = list(self.ports)
        self.control_pass, self.ticker_pass = len(numbers), len(numbers) + 1
        self.ingress_pass = {n: at for at, n in enumerate(numbers)}
        self.egress_pass = {n: len(numbers) + 2 + at for at, n in enumerate(numbers)}
        # The entries of the segment that goes on, their octets, and what is counted of those of all segments.
        self.entries, self.octets, self.moment, self.counts = [], 0, 0, collections.Counter()
        self.addresses, self.requests, self.stations = {}, {}, {}
        self.shut, self.closed = set(), set()
        # How passes have ended for good, by their numbers.
        self.ended = {}
        self.queues = {n: [] for n in numbers}
        self.probes = self.lost = 0

    # Entries.

    def is_full(self):
        return len(self.entries) >= self.plan.entries - ENTRIES_KEPT or self.octets + OCTETS_KEPT > self.plan.bytes

    def enter(self, by, text, **fields):
        entry = Entry(by, self.moment, text, **fields)
        self.entries.append(entry)
        if entry.verdict is not None:
            self.counts["Pass" if isinstance(entry.verdict, Scope) else entry.verdict] += 1
        self.counts.update(Cut=len(entry.cuts), Probes=entry.probes, Lost=entry.lost)

    def begin(self, stamp):
        """Comes to the moment of an event, and lets every address age."""
        self.moment = max(self.moment, min(stamp, LATEST))
        self.probes = self.lost = 0
        due = []
        for key, state in self.addresses.items():
            due += [(at, key, probe) for at, probe in state.age(self.moment, self.plan)]
        self.forget()
        for at, key, probe in sorted(due, key=lambda item: item[:2]):
            self.queue_probe(probe, key, at)

    def forget(self):
        self.addresses = {key: state for key, state in self.addresses.items() if not state.is_free}
        self.requests = {key: until for key, until in self.requests.items() if until > self.moment}

    def frame(self, port, stamp, octets):
        self.begin(stamp)
        frame = read_frame(octets)
        verdict = self.judge(self.ports[port], frame)
        outs = cuts = []
        if isinstance(verdict, Scope):
            vlan = self.ports[port].vlan_of(frame.tag)
            outs = self.outs(port, vlan, frame.destination, verdict)
            self.learn((vlan, frame.source), port)
            cuts = [out for out in outs if not self.queue(out, self.moment, vlan, inner_frame(octets))]
        sets = f"{set_text(outs)} {set_text(cuts)}"
        text = f"F {port} {stamp} {digits(octets)} {verdict_text(verdict)} {sets} {self.probes} {self.lost}"
        self.enter(self.ingress_pass[port], text, verdict=verdict, cuts=cuts, probes=self.probes, lost=self.lost)
        self.octets += len(octets)

    def long_frame(self, port, stamp, length):
        self.begin(stamp)
        verdict = "PortDown" if port in self.shut else "Malformed"
        text = f"L {port} {stamp} {length} {verdict_text(verdict)} {self.probes} {self.lost}"
        self.enter(self.ingress_pass[port], text, verdict=verdict, probes=self.probes, lost=self.lost)

    def command(self, stamp, line):
        """A command of control. Answers the reply."""
        self.begin(stamp)
        apply = commands.command(self, line)
        self.octets += len(line)
        text = f"C {stamp} {digits(line)} {self.probes} {self.lost}"
        self.enter(self.control_pass, text, probes=self.probes, lost=self.lost)
        return "".join(f"{text}\n" for text in apply())

    def drain(self, port):
        items, self.queues[port] = self.queues[port], []
        self.enter(self.egress_pass[port], f"D {port} {len(items)}")
        return items

    def end(self, by, text):
        """A pass ends; `text` is which one, and how."""
        self.enter(by, f"E {text}")
        who, _, how = text.partition(" ")
        if how != "paused":
            self.ended[by] = who, how

    def turn(self):
        """Goes on in the next segment: an output that didn't fail is open again."""
        self.entries, self.octets = [], 0
        self.closed = {port for port, by in self.egress_pass.items() if by in self.ended}

    def base_lines(self):
        """What a segment goes on from that begins now, line by line (docs/FORMATS.md)."""
        yield f"moment {self.moment}"
        yield f"shut {set_text(sorted(self.shut))}"
        yield from (f"count {row}" for row in commands.show_counters(self))
        for (vlan, address), state in sorted(self.addresses.items()):
            yield from state_lines(key_text(vlan, address_text(address)), state)
        by_client = sorted((vlan, transaction, client, port, until)
                           for (vlan, port, transaction, client), until in self.requests.items())
        for vlan, transaction, client, port, until in by_client:
            yield f"request {vlan} {port} {transaction} {digits(client)} {until}"
        for (vlan, mac), (port, last) in sorted(self.stations.items()):
            if self.is_live((vlan, mac)):
                yield f"station {key_text(vlan, mac_text(mac))} {port} {last}"
        yield from (f"ended {who} {how}" for _, (who, how) in sorted(self.ended.items()))

    def end_output(self, port, how):
        self.end(self.egress_pass[port], f"out{port} {how}")
        self.closed.add(port)
        self.queues[port] = []

    # Queues, stations, outs.

    def queue(self, port, moment, vlan, octets):
        """Puts a frame of a VLAN, without its tag, into the queue of a port: there it has one where the port is a trunk."""
        has_place = port not in self.closed and len(self.queues[port]) < self.plan.depth
        if has_place:
            self.queues[port].append((moment, tagged_frame(vlan, octets) if self.ports[port].trunk else octets))
        return has_place

    def queue_probe(self, probe, key, due):
        vlan, address = key
        asked = [port for port in self.plan.members(vlan) if port in self.trusted] if probe == TRUSTED else [probe]
        for port in asked:
            if port in self.shut:
                continue
            if self.queue(port, due, vlan, probe_frame(self.plan.mac, address)):
                self.probes += 1
            else:
                self.lost += 1

    def is_live(self, station):
        return station in self.stations and self.moment < self.stations[station][1] + STATION_TIME

    def learn(self, station, port):
        is_here = self.is_live(station) and self.stations[station][0] == port
        if is_here or self.live_stations(station[0], port) < STATIONS:
            self.stations[station] = (port, self.moment)

    def live_stations(self, vlan, port):
        """How many stations of a VLAN are known at a port."""
        return sum(key[0] == vlan and at == port and self.is_live(key) for key, (at, _) in self.stations.items())

    def outs(self, port, vlan, destination, scope):
        """The port of the destination's station, or all ports of the VLAN; of these the ones in scope, without the frame's
        own."""
        is_known = not self.floods and not destination & GROUP_BIT and self.is_live((vlan, destination))
        base = [self.stations[vlan, destination][0]] if is_known else self.plan.members(vlan)
        in_scope = [out for out in base if not scope.only_trusted or out in self.trusted or out == scope.more]
        return [out for out in in_scope if out != port and out not in self.shut]

    # Addresses.

    def state(self, key):
        """The state of an address that is on-link in its VLAN."""
        return self.addresses.get(key) or Address(self.plan.method(*key))

    def keep(self, key, state):
        self.addresses[key] = state
        if state.is_free:
            del self.addresses[key]

    def held(self, port):
        return sum(state.holds(port) for state in self.addresses.values())

    def has_room(self, port):
        return self.held(port) < self.plan.per_port

    def mark(self, key, name, port=None):
        """An event on an on-link address. Answers its verdict; its probe is due now."""
        state = self.state(key)
        verdict, probe = state.step((name, port, port is not None and self.has_room(port)), self.moment, self.plan)
        self.keep(key, state)
        if probe is not None:
            self.queue_probe(probe, key, self.moment)
        return verdict

    def is_on_link(self, vlan, address):
        return address is not None and self.plan.method(vlan, address) is not None

    # The verdict.

    def judge(self, port, frame):
        if port.number in self.shut:
            return "PortDown"
        rule = guard(port, self.plan.drop_unknown, frame)
        if rule:
            return rule
        if not self.plan.savi or frame.packet is None:
            return ALL
        judge = self.judge_trusted if port.is_trusted else self.judge_source
        return judge(port, port.vlan_of(frame.tag), frame.packet)

    def judge_trusted(self, port, vlan, packet):
        verdict = ALL
        if self.is_on_link(vlan, target := packet.solicited()):
            verdict = self.mark((vlan, target), TRUSTED_DAD)
        elif self.is_on_link(vlan, target := packet.advertised()):
            self.mark((vlan, target), TRUSTED_NA)
        self.judge_dhcp(port, vlan, packet)
        return verdict

    def judge_source(self, port, vlan, packet):
        """At the port of a host or a server: the source, then what the packet says."""
        if packet.source == 0:
            return self.judge_unspecified(port, vlan, packet)
        if not self.is_on_link(vlan, packet.source):
            return "OffLink"
        verdict = self.mark((vlan, packet.source), SENT, port.number)
        if not isinstance(verdict, Scope):
            return verdict
        if packet.icmp == ADVERTISEMENT:
            target = packet.advertised()
            return self.mark((vlan, target), NA, port.number) if self.is_on_link(vlan, target) else "NaTarget"
        return self.judge_dhcp(port, vlan, packet) or verdict

    def judge_unspecified(self, port, vlan, packet):
        """What a host without an address may send (RFC 4862, RFC 4861, RFC 3810)."""
        target = packet.solicited()
        if target is not None:
            return self.mark((vlan, target), DAD, port.number) if self.is_on_link(vlan, target) else "OffLink"
        is_report = packet.icmp in MLD_OF_HOSTS and not packet.is_fragmented and packet.hop_limit == 1
        return TRUSTED_ONLY if packet.icmp == ROUTER_SOLICITATION or is_report else "UnspecifiedSource"

    def judge_dhcp(self, port, vlan, packet):
        """Requests, releases and replies. Answers the rule that stops a request, or None."""
        message = packet.dhcp()
        if message is None:
            return None
        if packet.udp == DHCP_SERVER and not port.is_trusted:
            if message.asks:
                return self.ask(vlan, port.number, message)
            if message.kind in (RELEASE, DECLINE):
                self.give_up(vlan, port.number, message)
        elif packet.udp == DHCP_CLIENT and port.role != "host" and message.kind == REPLY:
            self.reply(vlan, message)
        return None

    def ask(self, vlan, port, message):
        key = (vlan, port, message.transaction, message.client)
        if key not in self.requests and sum(other[1] == port for other in self.requests) >= REQUESTS:
            return "PendingFull"
        if self.asking(vlan, message) not in (None, port):
            return "DhcpContested"
        self.requests[key] = self.moment + REQUEST_TIME
        return None

    def asking(self, vlan, message):
        """The port that has an open request in the VLAN with the transaction and the client of a message, or None."""
        found = (key[1] for key in self.requests if (key[0], *key[2:]) == (vlan, message.transaction, message.client))
        return next(found, None)

    def give_up(self, vlan, port, message):
        for address, _ in message.leases:
            if self.is_on_link(vlan, address):
                state = self.state((vlan, address))
                state.release(port)
                self.keep((vlan, address), state)

    def reply(self, vlan, message):
        port = self.asking(vlan, message)
        if port is None:
            return
        del self.requests[vlan, port, message.transaction, message.client]
        for address, lifetime in message.leases:
            if self.is_on_link(vlan, address):
                state = self.state((vlan, address))
                state.lease(port, lifetime, self.moment, self.has_room(port))
                self.keep((vlan, address), state)
