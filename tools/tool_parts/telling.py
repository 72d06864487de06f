"""Frames in words."""
from reading.dhcp import RELAY_FORW, RELAY_REPL
from reading.frame import ADVERTISEMENT, DHCP_CLIENT, DHCP_SERVER, REDIRECT, ROUTER_ADVERTISEMENT, ROUTER_SOLICITATION
from reading.frame import BAD_TAG, SOLICITATION, discovery_fault, number, read_frame
from reading.plan import address_text, mac_text
from reading.switch import set_text

ICMP_NAMES = {
    1: "destination unreachable", 128: "echo request", 129: "echo reply", 131: "MLD report", 132: "MLD done",
    143: "MLD report", ROUTER_SOLICITATION: "router solicitation", ROUTER_ADVERTISEMENT: "router advertisement",
    SOLICITATION: "solicitation", ADVERTISEMENT: "neighbor advertisement", REDIRECT: "redirect",
}
DHCP_NAMES = {
    1: "solicit", 2: "advertise", 3: "request", 4: "confirm", 5: "renew", 6: "rebind", 7: "reply", 8: "release",
    9: "decline", RELAY_FORW: "relay-forward", RELAY_REPL: "relay-reply",
}
# What each rule refuses (docs/RULES.md).
RULE_WORDS = {
    "PortDown": "a frame at a port that is shut", "Malformed": "fewer than 14 octets or more than 1,518",
    "ReservedGroup": "a group of bridges", "SourceMac": "a group as sender",
    "Tagged": "a frame of no VLAN of the port",
    "BadIpv6": "a malformed IPv6 packet", "HiddenUpper": "a first fragment without its whole header chain",
    "UnknownNextHeader": "a next header that isn't known", "RouterAdvert": "a router advertisement",
    "FragmentedNd": "fragmented neighbor discovery", "BadNd": "malformed neighbor discovery", "Redirect": "a redirect",
    "DhcpServer": "a message of a DHCPv6 server", "UnspecifiedSource": "a packet from ::",
    "OffLink": "a source in no prefix of the link", "NotAssigned": "a source that no server leased",
    "PortFull": "a further address at a full port", "WrongPort": "a source that is live at another port",
    "Unverified": "a source that isn't valid yet", "Contested": "a source that another port has claimed",
    "NaTarget": "an advertisement of an address that isn't its own", "PendingFull": "a DHCPv6 request beyond 16 open ones",
    "DhcpContested": "a DHCPv6 request that another port has open",
}
UPPER_NAMES = {6: "TCP", 17: "UDP", 59: "no next header"}


def row(entry):
    """A frame's entry of a journal, in words."""
    if entry.kind == "L":
        return f"port {entry.port} {tell_whole(entry)}: {entry.verdict}"
    outs = f" to {set_text(entry.outs)}" if entry.outs else ""
    cuts = f" cut {set_text(entry.cuts)}" if entry.cuts else ""
    probes = f" probes {entry.probes}" if entry.probes else ""
    return f"port {entry.port} {tell_whole(entry)}: {entry.verdict}{outs}{cuts}{probes}"


def tell_whole(arrival):
    """A frame with its octets, or a long one, of which the journal has the length alone."""
    return tell(arrival.octets) if arrival.length == len(arrival.octets) else f"{arrival.length} octets"


def tell(octets):
    frame = read_frame(octets)
    if frame is None:
        return f"{len(octets)} octets"
    tag = "" if frame.tag in (None, BAD_TAG) else f" tagged {frame.tag}"
    return tell_frame(frame) + tag


def tell_frame(frame):
    if not frame.is_ipv6:
        return f"EtherType {frame.kind:04x} from {mac_text(frame.source)}"
    if frame.packet is None:
        return f"bad IPv6 from {mac_text(frame.source)}"
    return tell_packet(frame.packet)


def tell_packet(packet):
    names = f"{address_text(packet.source)} > {address_text(packet.destination)}"
    if packet.outcome != "upper":
        return f"{names} {packet.outcome} chain"
    fragment = " in a first fragment" if packet.is_fragmented else ""
    if packet.icmp is not None:
        return names + " " + tell_icmp(packet) + fragment
    message = packet.dhcp()
    if message is not None:
        name = DHCP_NAMES.get(message.kind, f"type {message.kind}")
        leases = "".join(f" {address_text(address)} for {valid} s" for address, valid in message.leases)
        return f"{names} DHCPv6 {name} {message.transaction:06x}{leases}{fragment}"
    name = UPPER_NAMES.get(packet.upper, f"header {packet.upper}")
    at = f" to port {number(packet.message[2:4])}" if packet.upper in (6, 17) else ""
    is_bad = packet.udp in (DHCP_CLIENT, DHCP_SERVER) and not packet.is_fragmented
    return f"{names} {name}{at}{' unreadable' if is_bad else ''}{fragment}"


def tell_icmp(packet):
    name = ICMP_NAMES.get(packet.icmp, f"ICMPv6 type {packet.icmp}")
    if packet.icmp not in (SOLICITATION, ADVERTISEMENT) or len(packet.message) < 24:
        return name
    name = "claim" if packet.icmp == SOLICITATION and packet.source == 0 else name
    flags = f" flags {packet.message[4] >> 5:03b}" if packet.icmp == ADVERTISEMENT else ""
    fault = discovery_fault(packet)
    return f"{name} of {address_text(number(packet.message[8:24]))}{flags}{f' ({fault})' if fault else ''}"
