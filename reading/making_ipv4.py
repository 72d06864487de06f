"""Frames of IPv4, ARP and DHCPv4 for tests and for random ones. A MAC address and an address are numbers."""
from .audit import ACKNOWLEDGEMENT, ARP_HEAD, BOOT_REPLY, BOOT_REQUEST, DHCP_CLIENT, DHCP_SERVER, ETHERTYPE_ARP
from .audit import ETHERTYPE_IPV4, LEASE_TIME, MAC_LENGTH, MAGIC_COOKIE, MESSAGE_TYPE, OPTIONS_END, REFUSAL
from .frame import UDP, internet_sum
from .making import frame, octets

BROADCAST_MAC, BROADCAST = 0xFFFFFFFFFFFF, 0xFFFFFFFF
OFFER = 2
# Don't fragment (RFC 791 section 3.1).
WHOLE = 0x4000


def read_address(text):
    """The number of an address in dotted decimal."""
    value = 0
    for part in text.split("."):
        value = value << 8 | int(part)
    return value


def arp(mac, sender, target, operation=1, sender_mac=None, destination_mac=BROADCAST_MAC):
    """RFC 826: the station at `mac` says that `sender` is at `sender_mac`, its own if no other is given."""
    body = ARP_HEAD + octets(operation, 2) + octets(mac if sender_mac is None else sender_mac, 6) + octets(sender, 4)
    return frame(destination_mac, mac, ETHERTYPE_ARP, body + bytes(6) + octets(target, 4))


def packet(source, destination, protocol, body, fragment=WHOLE, options=b""):
    """RFC 791 section 3.1; options fill whole words."""
    head = bytes([0x45 + len(options) // 4, 0]) + octets(20 + len(options) + len(body), 2) + bytes(2) + octets(fragment, 2)
    head += bytes([64, protocol, 0, 0]) + octets(source, 4) + octets(destination, 4) + options
    return head[:10] + octets(internet_sum(head), 2) + head[12:] + body


def datagram(source, destination, sender, receiver, payload, **more):
    """UDP without a checksum (RFC 768)."""
    head = octets(sender, 2) + octets(receiver, 2) + octets(8 + len(payload), 2) + bytes(2)
    return packet(source, destination, UDP, head + payload, **more)


def option(code, value):
    return bytes([code, len(value)]) + value


def message(kind, transaction, mac, own=0, given=0, options=b"", operation=None, mac_length=MAC_LENGTH):
    """RFC 2131 section 2. `own` and `given` are ciaddr and yiaddr; `options` stand behind the type."""
    of_server = kind in (OFFER, ACKNOWLEDGEMENT, REFUSAL)
    head = bytes([operation or (BOOT_REPLY if of_server else BOOT_REQUEST), 1, mac_length, 0]) + octets(transaction, 4)
    head += bytes(4) + octets(own, 4) + octets(given, 4) + bytes(8) + octets(mac, 6) + bytes(10 + 64 + 128)
    return head + MAGIC_COOKIE + option(MESSAGE_TYPE, bytes([kind])) + options + bytes([OPTIONS_END])


def time_option(seconds):
    return option(LEASE_TIME, octets(seconds, 4))


def to_servers(mac, payload, source=0, destination=BROADCAST, sender=DHCP_CLIENT, receiver=DHCP_SERVER, **more):
    """From a client, which has no address yet if none is given."""
    return frame(BROADCAST_MAC, mac, ETHERTYPE_IPV4, datagram(source, destination, sender, receiver, payload, **more))


def to_client(mac, source, payload, destination=BROADCAST, destination_mac=BROADCAST_MAC, **more):
    """From a server."""
    whole = datagram(source, destination, DHCP_SERVER, DHCP_CLIENT, payload, **more)
    return frame(destination_mac, mac, ETHERTYPE_IPV4, whole)


def data(mac, source, destination=BROADCAST, destination_mac=BROADCAST_MAC, protocol=1, body=bytes(8), **more):
    """A packet that isn't one of DHCPv4: of ICMP, if no other protocol is given."""
    return frame(destination_mac, mac, ETHERTYPE_IPV4, packet(source, destination, protocol, body, **more))
