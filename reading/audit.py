"""The audit of a journal: what DHCPv4 leased at which port (RFC 2131), and which IPv4 and ARP frames that passed aren't by
these leases. The check of the journal is that of checking.py beside this file."""
from dataclasses import dataclass

from .checking import Checker
from .frame import UDP, inner_frame, number, read_frame
from .states import Scope

ETHERTYPE_IPV4, ETHERTYPE_ARP = 0x0800, 0x0806

# RFC 826 for Ethernet and IPv4: hardware, protocol, and the lengths of their addresses; a request and a reply; all octets.
ARP_HEAD, ARP_OPERATIONS, ARP_LENGTH = bytes.fromhex("000108000604"), (1, 2), 28

IPV4_LEAST, UDP_HEADER = 20, 8
# More fragments, and the offset of a fragment (RFC 791 section 3.1).
FRAGMENT_BITS = 0x3FFF

# RFC 2131 section 2 and RFC 2132 section 2: the fixed octets, and those in front of the options.
DHCP_SERVER, DHCP_CLIENT = 67, 68
BOOT_REQUEST, BOOT_REPLY = 1, 2
MESSAGE_FIXED, MAGIC_COOKIE = 236, bytes.fromhex("63825363")
MAC_LENGTH = 6
# RFC 2132 sections 3.1, 3.2, 9.1, 9.2 and 9.6.
PADDING, REQUESTED_ADDRESS, LEASE_TIME, MESSAGE_TYPE, OPTIONS_END = 0, 50, 51, 53, 255
REQUEST, DECLINE, ACKNOWLEDGEMENT, REFUSAL, RELEASE = 3, 4, 5, 6, 7

# How long a request is open, in ms; how many a port may have; the lease that has no end, in s (RFC 2131 section 3.3).
REQUEST_TIME, REQUESTS, FOREVER = 120000, 16, 0xFFFFFFFF

REASONS = ("arp-bad", "arp-source", "ip-bad", "server", "ip-source", "request-full", "port-full")


@dataclass
class Message:
    """A message of DHCPv4. Of several options of one code the first counts."""

    operation: int
    mac_length: int
    transaction: int
    own: int
    given: int
    mac: int
    options: dict

    @property
    def kind(self):
        return self.options[MESSAGE_TYPE][0]

    def number_of(self, code):
        """The number in an option of four octets, or None where there is none."""
        found = self.options.get(code, b"")
        return number(found) if len(found) == 4 else None


@dataclass
class Packet:
    """An IPv4 packet; with its ports and payload where it is a whole datagram of UDP."""

    source: int
    sender: int | None = None
    receiver: int | None = None
    payload: bytes = b""

    @property
    def is_of_new_client(self):
        """What a client sends before it has an address."""
        return (self.source, self.sender, self.receiver) == (0, DHCP_CLIENT, DHCP_SERVER)

    def message(self):
        return read_message(self.payload) if self.receiver in (DHCP_SERVER, DHCP_CLIENT) else None


def read_packet(octets):
    """What stands behind EtherType 0800, or None where its header can't be read."""
    if not octets or octets[0] >> 4 != 4:
        return None
    length, total = 4 * (octets[0] & 0xF), number(octets[2:4])
    if not IPV4_LEAST <= length <= total <= len(octets):
        return None
    packet, body = Packet(number(octets[12:16])), octets[length:total]
    is_whole = number(octets[6:8]) & FRAGMENT_BITS == 0
    if octets[9] == UDP and is_whole and len(body) >= UDP_HEADER:
        packet.sender, packet.receiver, packet.payload = number(body[:2]), number(body[2:4]), body[UDP_HEADER:]
    return packet


def read_message(octets):
    """The message, or None where it can't be read: then it is a packet like others."""
    fixed, rest = octets[:MESSAGE_FIXED], octets[MESSAGE_FIXED:]
    options = read_options(rest[len(MAGIC_COOKIE) :])
    if not rest.startswith(MAGIC_COOKIE) or options is None or len(options.get(MESSAGE_TYPE, b"")) != 1:
        return None
    return Message(
        operation=fixed[0], mac_length=fixed[2], transaction=number(fixed[4:8]), own=number(fixed[12:16]),
        given=number(fixed[16:20]), mac=number(fixed[28 : 28 + MAC_LENGTH]), options=options)


def read_options(octets):
    """The values of options by their codes, or None where one isn't whole. The end need not be marked."""
    found, at = {}, 0
    while at < len(octets) and octets[at] != OPTIONS_END:
        if octets[at] == PADDING:
            at += 1
            continue
        behind = at + 2 + (octets[at + 1] if at + 1 < len(octets) else len(octets))
        if behind > len(octets):
            return None
        found.setdefault(octets[at], octets[at + 2 : behind])
        at = behind
    return found


def is_arp(octets, mac):
    """An ARP message that an Ethernet station with this MAC address sends of itself."""
    operation, sender_mac = number(octets[6:8]), number(octets[8:14])
    return (
        len(octets) >= ARP_LENGTH and octets.startswith(ARP_HEAD) and operation in ARP_OPERATIONS and sender_mac == mac
    )


@dataclass
class Binding:
    """A lease: at which port, of which MAC address, and until which moment, or None where it has no end."""

    port: int
    mac: int
    until: int | None


class Snoop:
    """What the frames so far come to: bindings by (VLAN, IPv4 address), and open requests, as (port, until), by (VLAN,
    transaction, MAC address)."""

    def __init__(self, plan):
        self.ports, self.per_port = {port.number: port for port in plan.ports}, plan.per_port
        self.requests, self.bindings = {}, {}

    def judge(self, number_of_port, moment, octets):
        """A frame that passed. Answers the reason by which it is told, or None."""
        self.forget(moment)
        port, frame, payload = self.ports[number_of_port], read_frame(octets), inner_frame(octets)[14:]
        vlan = port.vlan_of(frame.tag)
        if frame.kind == ETHERTYPE_ARP:
            return None if port.is_trusted else self.judge_arp(port, vlan, frame.source, payload)
        packet = read_packet(payload) if frame.kind == ETHERTYPE_IPV4 else None
        if frame.kind == ETHERTYPE_IPV4 and not port.is_trusted and (reason := self.judge_source(port, vlan, packet)):
            return reason
        message = packet.message() if packet else None
        if message is None or message.mac_length != MAC_LENGTH:
            return None
        return self.hear(port, vlan, moment, packet.receiver, message)

    def forget(self, moment):
        """A request or a binding is there strictly before its moment."""
        self.requests = {key: (port, until) for key, (port, until) in self.requests.items() if moment < until}
        self.bindings = {key: one for key, one in self.bindings.items() if one.until is None or moment < one.until}

    def binding_at(self, vlan, address, port):
        """The binding of an address at this port, or None."""
        found = self.bindings.get((vlan, address))
        return found if found and found.port == port else None

    # What a port that isn't trusted may send.

    def judge_arp(self, port, vlan, mac, payload):
        if not is_arp(payload, mac):
            return "arp-bad"
        sender = number(payload[14:18])
        found = self.binding_at(vlan, sender, port.number)
        return None if sender == 0 or found and found.mac == mac else "arp-source"

    def judge_source(self, port, vlan, packet):
        if packet is None:
            return "ip-bad"
        if port.role == "host" and packet.receiver == DHCP_CLIENT:
            return "server"
        is_live = self.binding_at(vlan, packet.source, port.number) is not None
        return None if is_live or packet.is_of_new_client else "ip-source"

    # What a message does. Each answers why it couldn't, or None.

    def hear(self, port, vlan, moment, receiver, message):
        if receiver == DHCP_SERVER and not port.is_trusted and message.operation == BOOT_REQUEST:
            if message.kind == REQUEST:
                return self.ask(port.number, vlan, moment, message)
            address = {RELEASE: message.own, DECLINE: message.number_of(REQUESTED_ADDRESS)}.get(message.kind)
            if self.binding_at(vlan, address, port.number):
                del self.bindings[vlan, address]
        elif receiver == DHCP_CLIENT and port.role != "host" and message.operation == BOOT_REPLY:
            if message.kind in (ACKNOWLEDGEMENT, REFUSAL):
                return self.answer(vlan, moment, message)
        return None

    def ask(self, port, vlan, moment, message):
        key = vlan, message.transaction, message.mac
        if sum(at == port for other, (at, _) in self.requests.items() if other != key) == REQUESTS:
            return "request-full"
        self.requests[key] = port, moment + REQUEST_TIME
        return None

    def answer(self, vlan, moment, message):
        port, _ = self.requests.pop((vlan, message.transaction, message.mac), (None, None))
        time = message.number_of(LEASE_TIME)
        if port is None or message.kind == REFUSAL or message.given == 0 or not time:
            return None
        held = sum(one.port == port for one in self.bindings.values())
        if held >= self.per_port and not self.binding_at(vlan, message.given, port):
            return "port-full"
        until = None if time == FOREVER else moment + 1000 * time
        self.bindings[vlan, message.given] = Binding(port, message.mac, until)
        return None


class Auditor(Checker):
    """The check of a journal whose frames are judged too, as long as the journal is right."""

    def __init__(self, text):
        super().__init__(text)
        self.told, self.frames, self.segment = [], 0, 0

    def read_head(self):
        plan = super().read_head()
        self.snoop = Snoop(plan)
        return plan

    def read_base(self):
        self.segment += 1
        super().read_base()

    def frame(self, head, words):
        super().frame(head, words)
        entry, port, octets = self.history.entries[-1], int(words[0]), bytes.fromhex(words[2].decode("ascii").strip("-"))
        if not isinstance(entry.verdict, Scope):
            return
        self.frames += read_frame(octets).kind in (ETHERTYPE_IPV4, ETHERTYPE_ARP)
        if reason := self.snoop.judge(port, entry.moment, octets):
            self.told.append(f"{self.segment} {len(self.history.entries) - 1} port {port} {reason}")

    def printed(self):
        said = self.answer()
        if said.startswith("good: "):
            said = f"audited {self.history.number()} frames {self.frames} violations {len(self.told)}"
        return [*self.told, said]


def lines(text):
    """What is written to standard output of these octets, line by line."""
    return Auditor(text).printed()


def status(printed):
    """The status where every read and write was done."""
    return 0 if printed[-1].startswith("audited ") else 4
