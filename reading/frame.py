"""What a frame is, and the rules on messages (docs/RULES.md, rules 2 to 13): Ethernet with VLANs (IEEE 802.1Q), IPv6 (RFC
8200), neighbor discovery (RFC 4861), UDP."""
from dataclasses import dataclass

from .capture import LONGEST_FRAME
from .dhcp import Message, read_message
from .plan import LAST_VLAN, MULTICAST, lies_in, read_address

ETHERTYPE_IPV6 = 0x86DD
ETHERTYPE_CUSTOMER_TAG, ETHERTYPE_SERVICE_TAG = 0x8100, 0x88A8
ETHERTYPES_OF_TAGS = (ETHERTYPE_CUSTOMER_TAG, ETHERTYPE_SERVICE_TAG)

# A tag that names no VLAN, or has another one behind it, or is cut short.
BAD_TAG = "bad"

HOP_BY_HOP, FRAGMENT, AUTHENTICATION = 0, 44, 51
# Routing, destination options, mobility, HIP, Shim6: headers whose length octet counts units of 8 octets behind the first.
OTHER_EXTENSIONS = (43, 60, 135, 139, 140)
IPV4, TCP, UDP, IPV6, ESP, ICMPV6 = 4, 6, 17, 41, 50, 58
# Upper headers, with the octets that must be there.
UPPER = dict.fromkeys((33, 47, 59, 89, 103, 112, 115, 132, 136), 0)
UPPER |= {TCP: 20, UDP: 8, ICMPV6: 4, ESP: 8, IPV4: 20, IPV6: 40}

ROUTER_SOLICITATION, ROUTER_ADVERTISEMENT, SOLICITATION, ADVERTISEMENT, REDIRECT = 133, 134, 135, 136, 137
# MLD reports and done messages (RFC 2710, RFC 3810).
MLD_OF_HOSTS = (131, 132, 143)

DHCP_CLIENT, DHCP_SERVER = 546, 547
RELAY_FORW, RELAY_REPL = 12, 13

# Links whose router advertisements hosts take (RFC 4861 section 6.1.2), and solicited-node groups (RFC 4291 section 2.7.1).
LINK_LOCAL_UNICAST = (read_address("fe80::"), 10)
SOLICITED_NODES = (read_address("ff02::1:ff00:0"), 104)

# How a chain of headers ends, but at an upper header.
BAD, HIDDEN, UNKNOWN, LATER = "bad", "hidden", "unknown", "later"

S_FLAG = 0x40
SOURCE_LINK_ADDRESS = 1


def number(octets):
    return int.from_bytes(octets, "big")


@dataclass
class Packet:
    """An IPv6 packet. `outcome` is how its chain of headers ends: one of the words above, or "upper" with the number of the
    upper header, its octets, and whether it stands behind a fragment header."""

    source: int
    destination: int
    hop_limit: int
    outcome: str = BAD
    upper: int = -1
    message: bytes = b""
    is_fragmented: bool = False

    @property
    def icmp(self):
        """The type of an ICMPv6 message, or None."""
        return self.message[0] if self.upper == ICMPV6 else None

    @property
    def udp(self):
        """The destination port of a UDP datagram, or None."""
        return number(self.message[2:4]) if self.upper == UDP else None

    @property
    def is_valid_discovery(self):
        return not self.is_fragmented and discovery_fault(self) is None

    def solicited(self):
        """The target of a valid duplicate address detection (RFC 4862 section 5.4), or None."""
        if self.icmp == SOLICITATION and self.source == 0 and self.is_valid_discovery:
            return number(self.message[8:24])
        return None

    def advertised(self):
        """The target of a valid neighbor advertisement, or None."""
        return number(self.message[8:24]) if self.icmp == ADVERTISEMENT and self.is_valid_discovery else None

    def dhcp(self) -> Message | None:
        """The DHCPv6 message, where it can be read: not fragmented, to a port of DHCPv6, of the length that UDP says."""
        if self.udp not in (DHCP_CLIENT, DHCP_SERVER) or self.is_fragmented:
            return None
        return read_message(self.message[8:]) if number(self.message[4:6]) == len(self.message) else None


@dataclass
class Frame:
    """`tag` is None, the number of a VLAN, or BAD_TAG. `kind`, the EtherType, and `packet` are those of the frame without
    the tag of its VLAN; `packet` is None where that isn't IPv6, or its IPv6 header is at fault."""

    destination: int
    source: int
    tag: int | str | None
    kind: int
    packet: Packet | None = None

    @property
    def is_ipv6(self):
        return self.kind == ETHERTYPE_IPV6


def read_frame(octets):
    """The frame, or None where it is too short or too long, with its tag if it has one."""
    if not 14 <= len(octets) <= LONGEST_FRAME:
        return None
    tag, inner = read_tag(octets), inner_frame(octets)
    frame = Frame(number(inner[:6]), number(inner[6:12]), tag, number(inner[12:14]))
    if frame.is_ipv6:
        frame.packet = read_packet(inner[14:])
    return frame


def read_tag(octets):
    """IEEE 802.1Q section 9.6: the VLAN is the low 12 bits behind the EtherType of a tag. One that gives a priority alone
    (VLAN 0), VLAN 4095 and two tags are none that a switch of VLANs takes from others here."""
    kind = number(octets[12:14])
    if kind not in ETHERTYPES_OF_TAGS:
        return None
    vlan = number(octets[14:16]) & 0xFFF
    is_good = (
        kind == ETHERTYPE_CUSTOMER_TAG and len(octets) >= 18 and 1 <= vlan <= LAST_VLAN
        and number(octets[16:18]) not in ETHERTYPES_OF_TAGS
    )
    return vlan if is_good else BAD_TAG


def inner_frame(octets):
    """A frame without the tag of its VLAN."""
    return octets if read_tag(octets) in (None, BAD_TAG) else octets[:12] + octets[16:]


def tagged_frame(vlan, octets):
    """A frame without a tag, with that of a VLAN, which gives no priority."""
    return octets[:12] + ETHERTYPE_CUSTOMER_TAG.to_bytes(2, "big") + vlan.to_bytes(2, "big") + octets[12:]


def read_packet(octets):
    """RFC 8200 section 3. Octets behind the payload length are padding."""
    if len(octets) < 40 or octets[0] >> 4 != 6 or 40 + number(octets[4:6]) > len(octets):
        return None
    packet = Packet(number(octets[8:24]), number(octets[24:40]), octets[7])
    if lies_in(packet.source, MULTICAST):
        return None
    read_chain(packet, octets[6], octets[40 : 40 + number(octets[4:6])])
    return packet


def read_chain(packet, value, body):
    """RFC 8200 section 4: each header names the next. What isn't whole is hidden in a first fragment (RFC 7112), else
    bad."""
    at = 0
    while True:
        cut = HIDDEN if packet.is_fragmented else BAD
        if value in UPPER:
            if len(body) - at < UPPER[value]:
                packet.outcome = cut
            else:
                packet.outcome, packet.upper, packet.message = "upper", value, body[at:]
            return
        if value == FRAGMENT and packet.is_fragmented or value == HOP_BY_HOP and at > 0:
            packet.outcome = BAD
            return
        if value not in (HOP_BY_HOP, FRAGMENT, AUTHENTICATION, *OTHER_EXTENSIONS):
            packet.outcome = UNKNOWN
            return
        length = header_length(value, body[at:])
        if length is None or len(body) - at < length:
            packet.outcome = cut
            return
        if value == FRAGMENT:
            if number(body[at + 2 : at + 4]) >> 3:
                packet.outcome = LATER
                return
            packet.is_fragmented = True
        value, at = body[at], at + length


def header_length(value, octets):
    """The octets of an extension header, or None where its length octet isn't there."""
    if value == FRAGMENT:
        return 8
    if len(octets) < 2:
        return None
    return 4 * (octets[1] + 2) if value == AUTHENTICATION else 8 * (octets[1] + 1)


def checksum(packet, message):
    """The Internet checksum over pseudo header and message (RFC 8200 section 8.1): 0 where the message's own is right."""
    addresses = packet.source.to_bytes(16, "big") + packet.destination.to_bytes(16, "big")
    return internet_sum(addresses + len(message).to_bytes(4, "big") + bytes([0, 0, 0, ICMPV6]) + message)


def internet_sum(octets):
    """RFC 1071."""
    total = sum(number(octets[at : at + 2].ljust(2, b"\0")) for at in range(0, len(octets), 2))
    while total >> 16:
        total = (total & 0xFFFF) + (total >> 16)
    return total ^ 0xFFFF


def read_options(octets):
    """The types of the options of neighbor discovery, or None where they don't fill the octets (RFC 4861 section 4.6)."""
    kinds, at = [], 0
    while at < len(octets):
        if len(octets) - at < 2 or octets[at + 1] == 0 or at + 8 * octets[at + 1] > len(octets):
            return None
        kinds.append(octets[at])
        at += 8 * octets[at + 1]
    return kinds


def discovery_fault(packet):
    """What is wrong with a solicitation or an advertisement (RFC 4861 sections 6.1.1, 7.1.1, 7.1.2), or None."""
    message, kind = packet.message, packet.message[0]
    fixed = 8 if kind == ROUTER_SOLICITATION else 24
    if packet.hop_limit != 255:
        return "hop limit"
    if message[1] != 0:
        return "code"
    if len(message) < fixed:
        return "length"
    if checksum(packet, message):
        return "checksum"
    if fixed == 24 and lies_in(number(message[8:24]), MULTICAST):
        return "target"
    options = read_options(message[fixed:])
    if options is None:
        return "options"
    if packet.source == 0 and kind != ADVERTISEMENT:
        to_others = kind == SOLICITATION and not lies_in(packet.destination, SOLICITED_NODES)
        if SOURCE_LINK_ADDRESS in options or to_others:
            return "unspecified source"
    if kind == ADVERTISEMENT and lies_in(packet.destination, MULTICAST) and message[4] & S_FLAG:
        return "solicited flag"
    return None


def is_of_server(packet):
    """What only servers and relays of DHCPv6 send (RFC 7610 section 5)."""
    first = packet.message[8:9]
    return packet.udp == DHCP_CLIENT or packet.udp == DHCP_SERVER and first in (bytes([RELAY_FORW]), bytes([RELAY_REPL]))


def is_reserved(mac):
    """01-80-C2-00-00-00 to 01-80-C2-00-00-0F (IEEE 802.1Q table 8-1)."""
    return mac >> 4 == 0x0180C200000


def guard(port, drop_unknown, frame):
    """The first of rules 2 to 13 that a frame breaks at a port, or None. `frame` is None where it is too short or too
    long."""
    if frame is None:
        return "Malformed"
    if is_reserved(frame.destination):
        return "ReservedGroup"
    if frame.source >> 40 & 1:
        return "SourceMac"
    if port.vlan_of(frame.tag) is None:
        return "Tagged"
    return guard_packet(port.role, drop_unknown, frame.packet) if frame.is_ipv6 and not port.is_trusted else None


def guard_packet(role, drop_unknown, packet):
    """Rules 6 to 13."""
    if packet is None or packet.outcome == BAD:
        return "BadIpv6"
    if packet.outcome == HIDDEN:
        return "HiddenUpper"
    if packet.outcome == UNKNOWN and drop_unknown:
        return "UnknownNextHeader"
    kind = packet.icmp
    if kind == ROUTER_ADVERTISEMENT and packet.hop_limit == 255 and lies_in(packet.source, LINK_LOCAL_UNICAST):
        return "RouterAdvert"
    if kind in range(ROUTER_SOLICITATION, REDIRECT + 1) and packet.is_fragmented:
        return "FragmentedNd"
    if kind in (ROUTER_SOLICITATION, SOLICITATION, ADVERTISEMENT) and discovery_fault(packet):
        return "BadNd"
    if kind == REDIRECT:
        return "Redirect"
    return "DhcpServer" if role == "host" and is_of_server(packet) else None
