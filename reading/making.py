"""Frames and captures for tests and for random ones. A MAC address and an address are numbers."""
import struct

from .capture import HEADER
from .dhcp import CLIENT_ID, IA_ADDRESS, IA_NA, RAPID_COMMIT
from .frame import ADVERTISEMENT, DHCP_CLIENT, DHCP_SERVER, ICMPV6, LINK_LOCAL_UNICAST, ROUTER_ADVERTISEMENT
from .frame import ROUTER_SOLICITATION, SOLICITATION, SOLICITED_NODES, UDP, internet_sum
from .plan import read_address

NO_NEXT_HEADER = 59
LISTENER_REPORT = 143

ALL_NODES, ALL_ROUTERS, ALL_REPORTS = read_address("ff02::1"), read_address("ff02::2"), read_address("ff02::16")
ALL_SERVERS = read_address("ff02::1:2")
LINK_LOCAL = LINK_LOCAL_UNICAST[0]

ROUTER_MAC = 0x0200000000FE
ROUTER = LINK_LOCAL | 0xFE


def octets(number, length):
    return number.to_bytes(length, "big")


def group_mac(destination):
    """RFC 2464 section 7."""
    return 0x3333 << 32 | destination & 0xFFFFFFFF


def solicited_nodes(target):
    return SOLICITED_NODES[0] | target & 0xFFFFFF


def frame(destination_mac, source_mac, kind, payload):
    return octets(destination_mac, 6) + octets(source_mac, 6) + octets(kind, 2) + payload


def packet(source, destination, next_header, hop_limit, body):
    head = octets(6 << 28, 4) + octets(len(body), 2) + bytes([next_header, hop_limit])
    return head + octets(source, 16) + octets(destination, 16) + body


def summed(source, destination, next_header, message, at):
    """The message with its checksum, whose place is `at`."""
    pseudo = octets(source, 16) + octets(destination, 16) + octets(len(message), 4) + octets(next_header, 4)
    checksum = internet_sum(pseudo + message[:at] + bytes(2) + message[at + 2 :])
    return message[:at] + octets(checksum, 2) + message[at + 2 :]


def icmp(mac, source, destination, message, hop_limit=255, destination_mac=None):
    """An ICMPv6 message, from a MAC address, to a group or to a MAC address."""
    body = summed(source, destination, ICMPV6, message, 2)
    to = group_mac(destination) if destination_mac is None else destination_mac
    return frame(to, mac, 0x86DD, packet(source, destination, ICMPV6, hop_limit, body))


def claim(mac, target):
    """Duplicate address detection (RFC 4862 section 5.4.2)."""
    return icmp(mac, 0, solicited_nodes(target), bytes([SOLICITATION]) + bytes(7) + octets(target, 16))


def solicitation(mac, source, target):
    """A solicitation of a host that has an address, with its link-layer address (RFC 4861 section 4.3)."""
    message = bytes([SOLICITATION]) + bytes(7) + octets(target, 16) + bytes([1, 1]) + octets(mac, 6)
    return icmp(mac, source, solicited_nodes(target), message)


def advertisement(mac, source, target=None, flags=0x20, destination=ALL_NODES, destination_mac=None):
    """A neighbor advertisement, of the source's own address if no other is given (RFC 4861 section 4.4)."""
    message = bytes([ADVERTISEMENT, 0, 0, 0, flags, 0, 0, 0]) + octets(source if target is None else target, 16)
    return icmp(mac, source, destination, message, destination_mac=destination_mac)


def router_solicitation(mac, source):
    option = bytes([1, 1]) + octets(mac, 6) if source else b""
    return icmp(mac, source, ALL_ROUTERS, bytes([ROUTER_SOLICITATION]) + bytes(7) + option)


def router_advertisement(mac, source, hop_limit=255):
    message = bytes([ROUTER_ADVERTISEMENT, 0, 0, 0, 64, 0]) + octets(1800, 2) + bytes(8)
    return icmp(mac, source, ALL_NODES, message, hop_limit)


def report(mac, source, group):
    """An MLD report behind its router alert (RFC 3810 section 5.2)."""
    message = bytes([LISTENER_REPORT, 0, 0, 0, 0, 0, 0, 1, 4, 0, 0, 0]) + octets(group, 16)
    body = bytes.fromhex("3a00050200000100") + summed(source, ALL_REPORTS, ICMPV6, message, 2)
    return frame(group_mac(ALL_REPORTS), mac, 0x86DD, packet(source, ALL_REPORTS, 0, 1, body))


def data(mac, source, destination=ROUTER, destination_mac=ROUTER_MAC):
    """A packet without an upper header."""
    return frame(destination_mac, mac, 0x86DD, packet(source, destination, NO_NEXT_HEADER, 64, b""))


def datagram(source, destination, sender, receiver, payload):
    body = octets(sender, 2) + octets(receiver, 2) + octets(8 + len(payload), 2) + bytes(2) + payload
    return packet(source, destination, UDP, 64, summed(source, destination, UDP, body, 6))


def option(code, content):
    return octets(code, 2) + octets(len(content), 2) + content


def identity(mac):
    """A DUID by link-layer address (RFC 8415 section 11.4)."""
    return bytes.fromhex("00030001") + octets(mac, 6)


def message(kind, transaction, client, leases=(), is_rapid=False, more=b""):
    """A message of DHCPv6; `leases` are (address, valid lifetime in s)."""
    addresses = b"".join(
        option(IA_ADDRESS, octets(address, 16) + octets(valid, 4) * 2) for address, valid in leases
    )
    parts = b"" if client is None else option(CLIENT_ID, client)
    parts += option(RAPID_COMMIT, b"") if is_rapid else b""
    parts += more + option(IA_NA, octets(1, 4) + bytes(8) + addresses)
    return bytes([kind]) + octets(transaction, 3) + parts


def to_server(mac, source, payload):
    """From a client to all servers and relays."""
    return frame(group_mac(ALL_SERVERS), mac, 0x86DD, datagram(source, ALL_SERVERS, DHCP_CLIENT, DHCP_SERVER, payload))


def to_client(mac, source, client_mac, client, payload):
    return frame(client_mac, mac, 0x86DD, datagram(source, client, DHCP_SERVER, DHCP_CLIENT, payload))


def in_first_fragment(whole, identification=1):
    """A frame with an IPv6 packet, whose body stands behind a fragment header as a whole (RFC 8200 section 4.5)."""
    head, body = whole[:54], whole[54:]
    fragment = bytes([head[20], 0, 0, 0]) + octets(identification, 4)
    return head[:18] + octets(8 + len(body), 2) + bytes([44]) + head[21:] + fragment + body


def capture(records):
    """A capture of records (stamp in ms, frame)."""
    parts = [HEADER]
    for stamp, frame_octets in records:
        length = len(frame_octets)
        parts.append(struct.pack("<IIII", stamp // 1000, 1000 * (stamp % 1000), length, length) + frame_octets)
    return b"".join(parts)
