"""Audits of small journals, worked out by hand. Hosts are at ports 1 and 2, port 3 is trusted, with the network's DHCPv4
server behind it, and port 4 is of a server's role, unless a case says otherwise. A row of a case is a frame that comes in at
a port: (port, stamp, octets, reason), with None where it is looked at and isn't told, and UNSEEN where it is no IPv4 and no
ARP, or didn't pass. In a table each frame comes at port 1 or another one at 2000 ms, when the first host has 192.0.2.1 at
port 1 by a lease for an hour."""
from .. import audit, checking, commands, making
from .. import making_ipv4 as ipv4
from ..audit import ACKNOWLEDGEMENT, DECLINE, REFUSAL, RELEASE, REQUEST
from ..capture import Arrival
from ..frame import tagged_frame
from ..making import octets
from ..making_ipv4 import arp, data, message, option, time_option, to_client, to_servers
from ..session import Replay
from .histories import M1, M2, M3, ROUTER_MAC, TWO_PORTS, plan_of
from .vlans import plan_of as plan_of_vlans

ROLES = ("host", "host", "trusted", "server")
UNSEEN = "unseen"

# The addresses that are leased, and the server's.
ONE, TWO, SERVER = (ipv4.read_address(f"192.0.2.{n}") for n in (1, 2, 254))

HOUR = 3600


def ask(transaction=7, mac=M1, kind=REQUEST, options=b"", own=0, **more):
    """A request of a host that has no address yet."""
    return to_servers(mac, message(kind, transaction, mac, own=own, options=options), **more)


def answer(address=ONE, transaction=7, mac=M1, seconds=HOUR, kind=ACKNOWLEDGEMENT, source_mac=ROUTER_MAC, source=SERVER,
           **more):
    payload = message(kind, transaction, mac, given=address, options=time_option(seconds), **more)
    return to_client(source_mac, source, payload)


def answer_with(options, address=ONE):
    """An acknowledgement with these options alone, behind its type."""
    return to_client(ROUTER_MAC, SERVER, message(ACKNOWLEDGEMENT, 7, M1, given=address, options=options))


# What an acknowledgement carries.
GIVEN = message(ACKNOWLEDGEMENT, 7, M1, given=ONE, options=time_option(HOUR))


def release(address=ONE, mac=M1, source=ONE, client=M1):
    return to_servers(mac, message(RELEASE, 9, client, own=address), source=source)


def decline(address=ONE, mac=M1, options=b""):
    return ask(9, mac, DECLINE, options or option(50, octets(address, 4)))


def with_payload(change):
    """The host's request, with another message in it."""
    return to_servers(M1, change(message(REQUEST, 7, M1)))


def with_head(at, digits, frame):
    """A frame with other octets from a place behind its Ethernet header on."""
    changed = bytes.fromhex(digits)
    return frame[: 14 + at] + changed + frame[14 + at + len(changed) :]


# That port 1 has the first address, and that it has it no more.
HAS, HASNT = (data(M1, ONE), None), (data(M1, ONE), "ip-source")
LEASED = ((1, 1000, ask(), None), (3, 1100, answer(), None))
SAID = arp(M1, ONE, SERVER)

# Frames whose octets are known, and what makes them.
NAMED = {
    "an ARP request": (
        "ffffffffffff 020000000011 0806 0001 0800 06 04 0001 020000000011 c0000201 000000000000 c00002fe", SAID),
    "a request": (
        "ffffffffffff 020000000011 0800 45000110000040004011 39de 00000000 ffffffff 0044 0043 00fc 0000"
        "01 01 06 00 00000007 0000 0000 00000000 00000000 00000000 00000000 020000000011" + "00" * 202 +
        "63825363 350103 ff", ask()),
    "an acknowledgement": (
        "ffffffffffff 0200000000fe 0800 45000116000040004011 76d9 c00002fe ffffffff 0043 0044 0102 0000"
        "02 01 06 00 00000007 0000 0000 00000000 c0000201 00000000 00000000 020000000011" + "00" * 202 +
        "63825363 350105 330400000e10 ff", answer()),
}

# What a port that isn't trusted may send: name, port, frame, reason.
TABLE = (
    ("an ARP message of its own address", 1, SAID, None),
    ("a reply of its own address", 1, arp(M1, ONE, TWO, 2), None),
    ("trailing padding", 1, SAID + bytes(18), None),
    ("a probe", 1, arp(M1, 0, TWO), None),
    ("one octet too few", 1, SAID[:-1], "arp-bad"),
    ("nothing behind the EtherType", 1, SAID[:14], "arp-bad"),
    ("another hardware", 1, with_head(0, "0006", SAID), "arp-bad"),
    ("another protocol", 1, with_head(2, "86dd", SAID), "arp-bad"),
    ("another length of hardware addresses", 1, with_head(4, "08", SAID), "arp-bad"),
    ("another length of protocol addresses", 1, with_head(5, "10", SAID), "arp-bad"),
    ("operation 0", 1, arp(M1, ONE, TWO, 0), "arp-bad"),
    ("operation 3", 1, arp(M1, ONE, TWO, 3), "arp-bad"),
    ("operation 257", 1, arp(M1, ONE, TWO, 257), "arp-bad"),
    ("a sender that isn't the station that sends", 1, arp(M1, ONE, TWO, sender_mac=M2), "arp-bad"),
    ("a probe of another station", 1, arp(M1, 0, TWO, sender_mac=M2), "arp-bad"),
    ("of an address that nobody has, and malformed", 1, arp(M1, TWO, ONE, 3), "arp-bad"),
    ("an ARP message of an address that nobody has", 1, arp(M1, TWO, ONE), "arp-source"),
    ("the same at a server's port", 4, arp(M1, TWO, ONE), "arp-source"),
    ("a malformed one at a server's port", 4, arp(M1, TWO, ONE, 3), "arp-bad"),
    ("of its neighbor's address", 2, arp(M2, ONE, SERVER), "arp-source"),
    ("of its neighbor's address, with its MAC address", 2, arp(M1, ONE, SERVER), "arp-source"),
    ("of its own address, with another MAC address", 1, arp(M2, ONE, SERVER), "arp-source"),
    ("any at a trusted port", 3, arp(M1, TWO, ONE, 3), None),
    ("a packet of its own address", 1, data(M1, ONE), None),
    ("the same with another MAC address", 1, data(M2, ONE), None),
    ("of an address that nobody has", 1, data(M1, TWO), "ip-source"),
    ("of its neighbor's", 2, data(M1, ONE), "ip-source"),
    ("of no address", 1, data(M1, 0), "ip-source"),
    ("of any address at a trusted port", 3, data(M1, TWO), None),
    ("of an address that nobody has, at a server's port", 4, data(M1, TWO), "ip-source"),
    ("version 6", 1, with_head(0, "65", data(M1, ONE)), "ip-bad"),
    ("a header of 16 octets", 1, with_head(0, "44", data(M1, ONE)), "ip-bad"),
    ("a header that is longer than the packet", 1, with_head(0, "48", data(M1, ONE)), "ip-bad"),
    ("a header that is the whole packet", 1, with_head(0, "47", data(M1, ONE)), None),
    ("a total length below the header", 1, with_head(2, "0013", data(M1, ONE)), "ip-bad"),
    ("a total length that is the header's", 1, with_head(2, "0014", data(M1, ONE)), None),
    ("one octet more than there is", 1, with_head(2, "001d", data(M1, ONE)), "ip-bad"),
    ("nothing behind the EtherType of IPv4", 1, data(M1, ONE)[:14], "ip-bad"),
    ("nineteen octets behind it", 1, data(M1, ONE)[:33], "ip-bad"),
    ("an IPv4 packet with trailing padding", 1, data(M1, ONE) + bytes(18), None),
    ("a malformed header at a server's port", 4, with_head(0, "65", data(M1, ONE)), "ip-bad"),
    ("a malformed header at a trusted port", 3, with_head(0, "65", data(M1, ONE)), None),
    ("a host that poses as a server", 1, answer(TWO, source_mac=M1, source=ONE), "server"),
    ("one that has no address", 2, answer(TWO, source_mac=M2, source=SERVER), "server"),
    ("anything to the port of clients", 1, to_servers(M1, b"", source=ONE, receiver=68), "server"),
    ("seven octets of UDP", 1, data(M1, ONE, protocol=17, body=bytes.fromhex("00430044000800")), None),
    ("seven octets of UDP, of nobody", 1, data(M1, TWO, protocol=17, body=bytes.fromhex("00430044000800")), "ip-source"),
    ("eight octets of UDP", 1, data(M1, TWO, protocol=17, body=bytes.fromhex("0043004400080000")), "server"),
    ("eight octets, one of them behind the total length", 1,
     with_head(2, "001b", data(M1, ONE, protocol=17, body=bytes.fromhex("0043004400080000"))), None),
    ("TCP to that number", 1, data(M1, ONE, protocol=6, body=bytes.fromhex("0043004400080000")), None),
    ("a first fragment to the port of clients", 1, to_servers(M1, b"", source=ONE, receiver=68, fragment=0x2000), None),
    ("a later fragment", 1, to_servers(M1, b"", source=ONE, receiver=68, fragment=1), None),
    ("the port of clients behind options", 1, to_servers(M1, b"", source=ONE, receiver=68, options=bytes(4)), "server"),
    ("a server's port sends as a server", 4, answer(TWO, source_mac=M3), "ip-source"),
    ("a server behind a trusted port", 3, answer(TWO), None),
    ("a new client", 2, ask(8, M2), None),
    ("a new client whose packet has options", 2, ask(8, M2, options=option(12, b"host")), None),
    ("a new client that says no DHCPv4", 2, to_servers(M2, b""), None),
    ("no source from another port", 2, to_servers(M2, b"", sender=67), "ip-source"),
    ("no source to another port", 2, to_servers(M2, b"", receiver=69), "ip-source"),
    ("no source in a first fragment", 2, ask(8, M2, fragment=0x2000), "ip-source"),
    ("no source in a later fragment", 2, ask(8, M2, fragment=0x1FFF), "ip-source"),
    ("the bit that is reserved", 2, ask(8, M2, fragment=0x8000), None),
    ("no source, and not the whole header of UDP", 2, data(M2, 0, protocol=17, body=bytes.fromhex("00440043000800")),
     "ip-source"),
    ("a source of ones", 1, data(M1, ipv4.BROADCAST), "ip-source"),
    ("another EtherType", 1, making.frame(M2, M1, 0x0801, data(M1, TWO)[14:]), UNSEEN),
    ("a length in place of the EtherType", 1, making.frame(M2, M1, 0x0100, data(M1, TWO)[14:]), UNSEEN),
    ("IPv6", 1, making.claim(M1, making.LINK_LOCAL | 0x11), UNSEEN),
    ("a group that no bridge forwards", 1, b"\x01\x80\xc2\x00\x00\x00" + data(M1, TWO)[6:], UNSEEN),
    ("a group that sends", 1, data(1 << 40, TWO), UNSEEN),
    ("a tag", 1, tagged_frame(1, data(M1, TWO)), UNSEEN),
)

# Whether the host has the address behind a message in place of its request, and behind one in place of the answer.
REQUESTS = (
    ("a request", ask(), True),
    ("no end of its options", with_payload(lambda octets: octets[:-1]), True),
    ("octets behind the end of its options", with_payload(lambda octets: octets + b"\x0c\xff"), True),
    ("padding between options", with_payload(lambda octets: octets[:240] + bytes(3) + octets[240:]), True),
    ("another option in front", with_payload(lambda octets: octets[:240] + option(12, b"h") + octets[240:]), True),
    ("an option without octets", with_payload(lambda octets: octets[:240] + option(12, b"") + octets[240:]), True),
    ("a second type", with_payload(lambda octets: octets[:-1] + option(53, b"\x01")), True),
    ("a second type of two octets", with_payload(lambda octets: octets[:-1] + option(53, b"\x01\x01")), True),
    ("another type first", with_payload(lambda octets: octets[:240] + option(53, b"\x01") + octets[240:]), False),
    ("a type of two octets", with_payload(lambda octets: octets[:240] + b"\x35\x02\x03\x03"), False),
    ("a type without octets", with_payload(lambda octets: octets[:240] + option(53, b"")), False),
    ("no type", with_payload(lambda octets: octets[:240] + b"\xff"), False),
    ("a type behind the end", with_payload(lambda octets: octets[:240] + b"\xff" + octets[240:]), False),
    ("no options", with_payload(lambda octets: octets[:240]), False),
    ("an option that runs over", with_payload(lambda octets: octets[:-1] + b"\x0c\x01"), False),
    ("an option without its length", with_payload(lambda octets: octets[:-1] + b"\x0c"), False),
    ("an option that is whole with the padding of the frame alone",
     with_payload(lambda octets: octets[:-1] + b"\x0c\x02a") + bytes(8), False),
    ("another cookie", with_payload(lambda octets: octets[:239] + b"\x62" + octets[240:]), False),
    ("235 octets in front of the cookie", with_payload(lambda octets: octets[1:]), False),
    ("the operation of a server", with_payload(lambda octets: b"\x02" + octets[1:]), False),
    ("operation 0", with_payload(lambda octets: b"\x00" + octets[1:]), False),
    ("another hardware", with_payload(lambda octets: b"\x01\x06" + octets[2:]), True),
    ("an address of eight octets", with_payload(lambda octets: octets[:2] + b"\x08" + octets[3:]), False),
    ("an address of five octets", with_payload(lambda octets: octets[:2] + b"\x05" + octets[3:]), False),
    ("other octets behind the MAC address", with_payload(lambda octets: octets[:34] + b"\x01" * 10 + octets[44:]), True),
    ("another MAC address", with_payload(lambda octets: octets[:33] + b"\x12" + octets[34:]), False),
    ("another transaction", with_payload(lambda octets: octets[:7] + b"\x08" + octets[8:]), False),
    ("a discovery", with_payload(lambda octets: octets[:242] + b"\x01" + octets[243:]), False),
    ("from another Ethernet address", ask()[:6] + octets(M2, 6) + ask()[12:], True),
    ("IPv4 with options", ask(options=b"") and to_servers(M1, message(REQUEST, 7, M1), options=bytes(8)), True),
    ("a length of UDP that isn't its own", with_head(24, "0008", ask()), True),
    ("a packet that isn't to be fragmented", to_servers(M1, message(REQUEST, 7, M1), fragment=0), True),
    ("a packet whose total length cuts the last option", with_head(2, "010e", ask()), False),
    ("a packet whose total length cuts the end of the options", with_head(2, "010f", ask()), True),
)
ANSWERS = (
    ("an acknowledgement", answer(), True),
    ("a lease of 1,000 s", answer(seconds=1000), True),
    ("a lease of 2 s", answer(seconds=2), True),
    ("a lease of 1 s, which is over", answer(seconds=1), False),
    ("a lease of 0 s", answer(seconds=0), False),
    ("no time", answer_with(b""), False),
    ("a time of three octets", answer_with(option(51, b"\x00\x0e\x10")), False),
    ("a time of five octets, and one of four", answer_with(option(51, bytes(4) + b"\x01") + time_option(HOUR)), False),
    ("two times", answer_with(time_option(HOUR) + time_option(0)), True),
    ("a time that runs over", answer_with(b"\x33\x09\x00\x00\x0e\x10"), False),
    ("no address", answer(0), False),
    ("a refusal", answer(kind=REFUSAL), False),
    ("an offer", answer(kind=2), False),
    ("of another transaction", answer(transaction=8), False),
    ("of another client", answer(mac=M2), False),
    ("the operation of a client", answer(operation=1), False),
    ("an address of eight octets", answer(mac_length=8), False),
    ("to the port of servers", to_servers(ROUTER_MAC, GIVEN, source=SERVER), False),
    ("from another port", to_servers(ROUTER_MAC, GIVEN, source=SERVER, sender=4000, receiver=68), True),
    ("in a fragment", to_client(ROUTER_MAC, SERVER, GIVEN, fragment=0x2000), False),
    ("to the host alone", to_client(ROUTER_MAC, SERVER, GIVEN, destination=ONE, destination_mac=M1), True),
)

# Requests of one port, of transactions from 100 on.
SIXTEEN = tuple((1, 1000 + k, ask(100 + k), None) for k in range(16))


def one_host(*rows):
    """A host's lease, and then what comes."""
    return (*LEASED, *rows)


# Name, more of the plan, and rows.
CASES = (
    ("a request is open for 120 s", "",
     ((1, 1000, ask(), None), (3, 120999, answer(), None), (1, 121001, *HAS))),
    ("and not at its end", "",
     ((1, 1000, ask(), None), (3, 121000, answer(), None), (1, 121001, *HASNT))),
    ("a request that comes again is open for longer", "",
     ((1, 1000, ask(), None), (1, 100000, ask(), None), (3, 219999, answer(), None), (1, 220001, *HAS))),
    ("and not for ever", "",
     ((1, 1000, ask(), None), (1, 100000, ask(), None), (3, 220000, answer(), None), (1, 220001, *HASNT))),
    ("a refusal takes the request away", "",
     ((1, 1000, ask(), None), (3, 1100, answer(kind=REFUSAL), None), (3, 1101, answer(), None), (1, 1200, *HASNT))),
    ("an answer without a lease takes the request away", "",
     ((1, 1000, ask(), None), (3, 1100, answer(seconds=0), None), (3, 1101, answer(), None), (1, 1200, *HASNT))),
    ("an offer doesn't", "",
     ((1, 1000, ask(), None), (3, 1100, answer(kind=2), None), (3, 1101, answer(), None), (1, 1200, *HAS))),
    ("one answer to one request", "",
     one_host((3, 1101, answer(TWO), None), (1, 1200, *HAS), (1, 1201, data(M1, TWO), "ip-source"))),
    ("a refusal of a later request leaves the binding", "",
     one_host((1, 1200, ask(8), None), (3, 1201, answer(transaction=8, kind=REFUSAL), None), (1, 1202, *HAS))),
    ("a lease of 0 s leaves the binding", "",
     one_host((1, 1200, ask(8), None), (3, 1201, answer(transaction=8, seconds=0), None), (1, 1202, *HAS))),
    ("a host that says it is a server answers nothing", "",
     ((1, 1000, ask(), None), (2, 1100, answer(source_mac=M2), "server"), (1, 1200, *HASNT), (3, 1300, answer(), None),
      (1, 1400, *HAS))),
    ("a server at a server's port answers nothing without an address", "",
     ((1, 1000, ask(), None), (4, 1100, answer(source_mac=M3), "ip-source"), (1, 1200, *HASNT), (3, 1300, answer(), None),
      (1, 1400, *HAS))),
    ("and does with one", "",
     ((4, 900, ask(5, M3), None), (3, 901, answer(SERVER, 5, M3), None), (1, 1000, ask(), None),
      (4, 1100, answer(source_mac=M3), None), (1, 1200, *HAS))),
    ("a request from a false source", "",
     ((1, 1000, ask(source=TWO), "ip-source"), (3, 1100, answer(), None), (1, 1200, *HASNT))),
    ("a request at a trusted port", "",
     ((3, 1000, ask(), None), (3, 1100, answer(), None), (1, 1200, *HASNT))),
    ("one that comes again at a trusted port", "",
     ((1, 1000, ask(), None), (3, 1001, ask(), None), (3, 1100, answer(), None), (1, 1200, *HAS))),
    ("a request with another EtherType", "",
     ((1, 1000, ask()[:12] + b"\x08\x01" + ask()[14:], UNSEEN), (3, 1100, answer(), None), (1, 1200, *HASNT))),
    ("a request from an own address", "",
     one_host((1, 1200, ask(8, source=ONE, own=ONE), None), (3, 1201, answer(transaction=8, seconds=2 * HOUR), None),
              (1, 3601100, *HAS), (1, 7201200, *HAS), (1, 7201201, *HASNT))),
    ("a lease ends at its moment", "",
     one_host((1, 3601099, *HAS), (1, 3601100, *HASNT))),
    ("a shorter lease takes the place of a longer one", "",
     one_host((1, 1200, ask(8), None), (3, 1201, answer(transaction=8, seconds=1), None), (1, 2200, *HAS),
              (1, 2201, *HASNT))),
    ("a lease without an end", "",
     ((1, 1000, ask(), None), (3, 1100, answer(seconds=0xFFFFFFFF), None), (1, 4294967296100, *HAS), (1, 2**62, *HAS))),
    ("the longest lease with one", "",
     ((1, 1000, ask(), None), (3, 1100, answer(seconds=0xFFFFFFFE), None), (1, 4294967295099, *HAS),
      (1, 4294967295100, *HASNT))),
    ("a stamp that falls is taken at the moment that was reached", "",
     ((1, 1000, ask(), None), (3, 1100, answer(seconds=1), None), (2, 2100, ask(9, M2), None), (1, 2050, *HAS))),
    ("what falls behind another frame of its port", "",
     ((1, 1000, ask(), None), (3, 1100, answer(seconds=1), None), (1, 2100, *HASNT), (1, 2050, *HASNT))),
    # Between ports.
    ("a request moves to the port where it comes again", "",
     ((1, 1000, ask(), None), (2, 1100, ask(), None), (3, 1200, answer(), None), (1, 1300, *HASNT), (2, 1301, *HAS))),
    ("and back", "",
     ((1, 1000, ask(), None), (2, 1100, ask(), None), (1, 1200, ask(), None), (3, 1300, answer(), None), (1, 1400, *HAS))),
    ("it leaves a place behind, and takes one", "",
     (*SIXTEEN, (1, 1100, ask(99), "request-full"), (2, 1101, ask(115), None), (1, 1102, ask(99), None),
      (1, 1103, ask(98), "request-full"), (3, 1104, answer(transaction=115), None), (1, 1200, *HASNT), (2, 1201, *HAS))),
    ("it stays where it was if the other port has no place", "",
     (*SIXTEEN, (2, 1100, ask(99), None), (1, 1101, ask(99), "request-full"), (3, 1200, answer(transaction=99), None),
      (2, 1300, *HAS), (1, 1301, *HASNT))),
    ("and as long as it was", "",
     ((2, 1000, ask(99), None), *((1, 2000 + k, ask(100 + k), None) for k in range(16)), (1, 90000, ask(99), "request-full"),
      (3, 121000, answer(transaction=99), None), (2, 121001, *HASNT))),
    ("another client in the same transaction", "",
     ((1, 1000, ask(), None), (2, 1001, ask(7, M2), None), (3, 1100, answer(TWO, mac=M2), None), (3, 1101, answer(), None),
      (1, 1200, *HAS), (2, 1201, data(M2, TWO), None), (2, 1202, data(M2, ONE), "ip-source"))),
    ("an address that is leased to another port", "",
     one_host((2, 1200, ask(8, M2), None), (3, 1300, answer(ONE, 8, M2), None), (1, 1400, *HASNT),
              (2, 1401, data(M2, ONE), None), (2, 1402, arp(M2, ONE, SERVER), None), (2, 1403, arp(M1, ONE, SERVER), "arp-source"))),
    ("an address that is leased to another client of the port", "",
     one_host((1, 1200, ask(8, M2), None), (3, 1300, answer(ONE, 8, M2), None), (1, 1400, *HAS),
              (1, 1401, SAID, "arp-source"), (1, 1402, arp(M2, ONE, SERVER), None))),
    # What finds no place.
    ("seventeen requests at one port", "",
     (*SIXTEEN, (1, 1100, ask(99), "request-full"), (2, 1101, ask(98), None))),
    ("one of the sixteen comes again", "",
     (*SIXTEEN, (1, 1100, ask(107), None), (1, 1101, ask(99), "request-full"))),
    ("one of the sixteen is answered", "",
     (*SIXTEEN, (3, 1100, answer(TWO, 107), None), (1, 1101, ask(99), None), (1, 1102, ask(98), "request-full"))),
    ("the first of the sixteen ends", "",
     (*SIXTEEN, (1, 120999, ask(99), "request-full"), (1, 121000, ask(99), None), (1, 121000, ask(98), "request-full"),
      (1, 121001, ask(98), None))),
    ("what found no place isn't open", "",
     (*SIXTEEN, (1, 1100, ask(99), "request-full"), (3, 1200, answer(transaction=99), None), (1, 1300, *HASNT))),
    ("a discovery needs no place", "",
     (*SIXTEEN, (1, 1100, ask(99, kind=1), None))),
    ("two leases at a port that may have one", "per_port = 1\n",
     one_host((1, 1200, ask(8), None), (3, 1300, answer(TWO, 8), "port-full"), (1, 1400, *HAS),
              (1, 1401, data(M1, TWO), "ip-source"), (3, 1500, answer(TWO, 8), None), (1, 1600, data(M1, TWO), "ip-source"))),
    ("its lease comes again", "per_port = 1\n",
     one_host((1, 1200, ask(8), None), (3, 1300, answer(ONE, 8, seconds=2 * HOUR), None), (1, 3700000, *HAS))),
    ("its lease has ended by then", "per_port = 1\n",
     one_host((1, 3601000, ask(8), None), (3, 3601099, answer(TWO, 8), "port-full"), (1, 3601099, ask(9), None),
              (3, 3601100, answer(TWO, 9), None), (1, 3601200, data(M1, TWO), None))),
    ("a lease of 0 s, or none, needs no room", "per_port = 1\n",
     one_host((1, 1200, ask(8), None), (3, 1300, answer(TWO, 8, seconds=0), None), (1, 1400, ask(9), None),
              (3, 1500, answer(0, 9), None), (1, 1600, ask(10), None), (3, 1700, answer(TWO, 10, kind=REFUSAL), None))),
    ("another client of the port takes the address", "per_port = 1\n",
     one_host((1, 1200, ask(8, M2), None), (3, 1300, answer(ONE, 8, M2), None), (1, 1400, arp(M2, ONE, SERVER), None))),
    ("the address of a neighbor, at a full port", "per_port = 1\n",
     one_host((2, 1200, ask(8, M2), None), (3, 1300, answer(TWO, 8, M2), None), (1, 1400, ask(9), None),
              (3, 1500, answer(TWO, 9), "port-full"), (2, 1600, data(M2, TWO), None), (1, 1601, *HAS))),
    ("the address of a neighbor, at a port with room, which the neighbor then has", "per_port = 1\n",
     one_host((2, 1200, ask(8, M2), None), (3, 1300, answer(ONE, 8, M2), None), (1, 1400, ask(9), None),
              (3, 1500, answer(TWO, 9), None), (1, 1600, data(M1, TWO), None), (2, 1601, data(M2, ONE), None))),
    ("a server's port is full", "per_port = 1\n",
     one_host((4, 1200, ask(5, M3), None), (3, 1201, answer(SERVER, 5, M3), None), (1, 1300, ask(8), None),
              (4, 1400, answer(TWO, 8, source_mac=M3), "port-full"))),
    # Giving up.
    ("a release", "", one_host((1, 1200, release(), None), (1, 1300, *HASNT))),
    ("a release in the name of another client", "", one_host((1, 1200, release(client=M2), None), (1, 1300, *HASNT))),
    ("a release without a source", "", one_host((1, 1200, release(source=0), None), (1, 1300, *HASNT))),
    ("a release of a false source", "", one_host((1, 1200, release(source=TWO), "ip-source"), (1, 1300, *HAS))),
    ("a release by a neighbor", "", one_host((2, 1200, release(mac=M2, source=0), None), (1, 1300, *HAS))),
    ("a release behind a trusted port", "", one_host((3, 1200, release(), None), (1, 1300, *HAS))),
    ("a release of no address", "", one_host((1, 1200, release(0), None), (1, 1300, *HAS))),
    ("a release with the address in an option", "",
     one_host((1, 1200, ask(9, M1, RELEASE, option(50, octets(ONE, 4))), None), (1, 1300, *HAS))),
    ("a decline", "", one_host((1, 1200, decline(), None), (1, 1300, *HASNT))),
    ("a decline by a neighbor", "", one_host((2, 1200, decline(mac=M2), None), (1, 1300, *HAS))),
    ("a decline of another address", "", one_host((1, 1200, decline(TWO), None), (1, 1300, *HAS))),
    ("a decline of three octets", "",
     one_host((1, 1200, decline(options=option(50, b"\xc0\x00\x02")), None), (1, 1300, *HAS))),
    ("a decline of five octets", "",
     one_host((1, 1200, decline(options=option(50, octets(ONE, 4) + b"\x00")), None), (1, 1300, *HAS))),
    ("a decline whose second address is meant", "",
     one_host((1, 1200, decline(options=option(50, octets(TWO, 4)) + option(50, octets(ONE, 4))), None), (1, 1300, *HAS))),
    ("a decline that names the address as the own one alone", "",
     one_host((1, 1200, ask(9, kind=DECLINE, own=ONE), None), (1, 1300, *HAS))),
    ("a release leaves the request", "",
     one_host((1, 1200, ask(8), None), (1, 1201, release(), None), (3, 1300, answer(TWO, 8), None),
              (1, 1400, data(M1, TWO), None))),
    ("a release makes room", "per_port = 1\n",
     one_host((1, 1200, ask(8), None), (1, 1201, release(), None), (3, 1300, answer(TWO, 8), None),
              (1, 1400, data(M1, TWO), None))),
    ("without validation of IPv6 it is the same", 'savi = "off"\n',
     one_host((1, 1200, *HAS), (2, 1201, data(M2, ONE), "ip-source"))),
)

VLAN_PORTS = ("host vlan = 10", "host vlan = 20", "trusted trunk = [10, 20]", "host vlan = 10", "trusted vlan = 20")


def in_a(frame):
    return tagged_frame(10, frame)


def in_b(frame):
    return tagged_frame(20, frame)


# Hosts at ports 1 and 4 are in VLAN 10, that at port 2 in VLAN 20; 3 is a trunk of both, and 5 is trusted in VLAN 20.
VLAN_CASES = (
    ("two tenants with one address", "",
     ((1, 1000, ask(), None), (2, 1001, ask(), None), (3, 1100, in_a(answer()), None), (1, 1200, *HAS), (2, 1201, *HASNT),
      (3, 1300, in_b(answer(seconds=1)), None), (1, 1400, *HAS), (2, 1401, *HAS), (4, 1402, *HASNT), (1, 2300, *HAS),
      (2, 2300, *HASNT))),
    ("an answer in the other VLAN", "",
     ((1, 1000, ask(), None), (3, 1100, in_b(answer()), None), (5, 1101, answer(), None), (1, 1200, *HASNT),
      (3, 1300, in_a(answer()), None), (1, 1400, *HAS))),
    ("an answer without a tag at a trunk is dropped", "",
     ((1, 1000, ask(), None), (3, 1100, answer(), UNSEEN), (1, 1200, *HASNT))),
    ("a release in the other VLAN", "",
     ((1, 1000, ask(), None), (2, 1001, ask(), None), (3, 1100, in_a(answer()), None), (5, 1101, answer(), None),
      (2, 1200, release(), None), (1, 1300, *HAS), (2, 1301, *HASNT))),
    ("a request moves within its VLAN alone", "",
     ((1, 1000, ask(), None), (2, 1001, ask(), None), (4, 1002, ask(), None), (3, 1100, in_a(answer()), None),
      (3, 1101, in_b(answer()), None), (4, 1200, *HAS), (1, 1201, *HASNT), (2, 1202, *HAS))),
    ("a lease in a tagged frame, with a priority", "",
     ((1, 1000, ask(), None), (3, 1100, answer()[:12] + bytes.fromhex("8100a00a") + answer()[12:], None), (1, 1200, *HAS))),
    ("a tag at a host's port", "",
     ((1, 1000, in_a(ask()), UNSEEN), (3, 1100, in_a(answer()), None), (1, 1200, *HASNT))),
    ("a trunk that answers where the port is full", "per_port = 1\n",
     ((1, 1000, ask(), None), (2, 1001, ask(), None), (3, 1100, in_a(answer()), None), (1, 1200, ask(8), None),
      (3, 1300, in_a(answer(TWO, 8)), "port-full"), (3, 1400, in_b(answer(TWO)), None), (2, 1500, data(M1, TWO), None))),
)


def journal(plan, rows, lines=""):
    captures = {
        n: ([Arrival(stamp, len(frame), frame) for port, stamp, frame, *_ in rows if port == n], "end")
        for n in (port.number for port in plan.ports)
    }
    run = Replay(plan, captures, commands.lines(lines.encode("ascii")))
    return run, "".join(run.journal()).encode("ascii")


def wanted(run, rows):
    """What is printed, by the rows' reasons: frames come in the order of the rows."""
    entries = [(s, n, entry) for s, segment in enumerate(run.segments) for n, entry in enumerate(segment.entries)]
    frames = [(s, n, int(entry.text.split()[1])) for s, n, entry in entries if entry.text.startswith("F ")]
    found = [f"{s} {n} port {port} {row[3]}" for (s, n, port), row in zip(frames, rows, strict=True)
             if row[3] not in (None, UNSEEN)]
    seen = sum(row[3] != UNSEEN for row in rows)
    return [*found, f"audited {len(entries)} frames {seen} violations {len(found)}"]


def check_case(same, name, plan, rows):
    run, text = journal(plan, rows)
    got = [tuple(map(int, entry.text.split()[1:3])) for entry in run.entries() if entry.text.startswith("F ")]
    if got != [row[:2] for row in rows]:
        rows = sorted(rows, key=lambda row: got.index(row[:2]))
    same(f"audit: {name}", "the lines are", audit.lines(text), wanted(run, rows))


def check(same):
    for name, (digits, made) in NAMED.items():
        same(f"audit: {name}", "its octets are", made.hex(), digits.replace(" ", ""))
    check_rows(same)
    plan = plan_of(ROLES, (), control=False)
    for name, port, frame, reason in TABLE:
        check_case(same, name, plan, one_host((port, 2000, frame, reason)))
    for name, frame, is_one in REQUESTS:
        check_case(same, f"request: {name}", plan,
                   ((1, 1000, frame, None), (3, 1100, answer(), None), (1, 2500, *(HAS if is_one else HASNT))))
    for name, frame, is_one in ANSWERS:
        check_case(same, f"answer: {name}", plan,
                   ((1, 1000, ask(), None), (3, 1100, frame, None), (1, 2500, *(HAS if is_one else HASNT))))
    for name, more, rows in CASES:
        check_case(same, name, plan_of(ROLES, (), more, control=False), rows)
    for name, more, rows in VLAN_CASES:
        check_case(same, name, plan_of_vlans(VLAN_PORTS, (), more), rows)
    check_commands(same)
    check_segments(same)
    check_damage(same)
    count = len(TABLE) + len(REQUESTS) + len(ANSWERS) + len(CASES) + len(VLAN_CASES)
    print(f"audits: {count} journals and some more: as they should be")


def check_rows(same):
    """Port 1 is a host's, and port 2 trusted. 8 entries: the ends of control and of port 2, the frame, its drain at port 2,
    and the ends of port 1, of the ticker and of both outputs. A request and its answer are four more, and stand in front of
    the end of port 2."""
    plan = plan_of(TWO_PORTS, (), control=False)
    leased = ((1, 1000, ask()), (2, 1100, answer()))
    rows = (
        ("an address that nobody has", ((1, 1000, SAID),), ["0 2 port 1 arp-source", "audited 8 frames 1 violations 1"]),
        ("no address", ((1, 1000, arp(M1, 0, SERVER)),), ["audited 8 frames 1 violations 0"]),
        ("an ms before the lease ends", (*leased, (1, 3601099, SAID)), ["audited 12 frames 3 violations 0"]),
        ("when the lease ends", (*leased, (1, 3601100, SAID)),
         ["0 6 port 1 arp-source", "audited 12 frames 3 violations 1"]),
        ("nothing", (), ["audited 6 frames 0 violations 0"]),
    )
    for name, frames, want in rows:
        lines = audit.lines(journal(plan, frames)[1])
        same(f"audit: {name}", "the lines are", lines, want)
        same(f"audit: {name}", "the status is", audit.status(lines), 0)


def check_commands(same):
    """What a port that is shut drops isn't looked at."""
    rows = ((1, 1000, SAID, UNSEEN), (1, 1200, SAID, "arp-source"))
    run, text = journal(plan_of(ROLES, ()), rows, "500 shut 1\n1100 open 1\n")
    same("audit: a port that is shut", "the lines are", audit.lines(text), wanted(run, rows))


def check_segments(same):
    """With room for one frame in a segment: what was leased goes on, and a line has the number of its segment, from 0. In
    each segment the one frame stands in front, but for the ends of inputs that have nothing."""
    plan = plan_of(TWO_PORTS, (), "entries = 4131\n", control=False)
    rows = ((1, 1000, ask(), None), (2, 1100, answer(), None), (1, 1200, SAID, None),
            (1, 1300, arp(M1, TWO, SERVER), "arp-source"), (1, 1400, data(M2, TWO), "ip-source"))
    run, text = journal(plan, rows)
    same("audit: segments", "there are several", len(run.segments) > 3, True)
    lines = audit.lines(text)
    same("audit: segments", "the lines are", lines, wanted(run, rows))
    same("audit: segments", "the numbers of entries are all small", [line.split()[1] for line in lines[:-1]], ["0", "0"])
    same("audit: segments", "the check says", checking.answer(text), f"good: {len(run.entries())} entries")


def check_damage(same):
    """What stands in front of the first fault is told, and then the answer of the check. Entry 0 is line 15, so the frames,
    which are entries 2, 4 and 6, are lines 17, 19 and 21, and the last line is the 27th."""
    plan = plan_of(TWO_PORTS, (), control=False)
    said = arp(M1, TWO, SERVER)
    text = journal(plan, [(1, 1000 + 100 * k, said) for k in range(3)])[1]
    told = [f"0 {n} port 1 arp-source" for n in (2, 4, 6)]
    lines = text.split(b"\n")
    same("audit: a journal", "the lines are", audit.lines(text), [*told, "audited 12 frames 3 violations 3"])
    same("audit: a journal", "it has lines", len(lines) - 1, 27)

    def with_line(at, line):
        return b"\n".join((*lines[: at - 1], *line, *lines[at:]))

    second = lines[18]
    cases = (
        ("another verdict", with_line(19, [second.replace(b"pass-all", b"pass-trusted")]),
         [told[0], "wrong at entry 4: want pass-all have pass-trusted"]),
        ("a frame that isn't there", with_line(19, []), [told[0], "bad line 19"]),
        ("a line that is none", with_line(19, [b"x"]), [told[0], "bad line 19"]),
        ("a drain of two", with_line(22, [b"7 5 1200 D 2 2"]), [*told, "wrong at entry 7: want 1 have 2"]),
        ("no end", with_line(27, []), [*told, "bad line 27"]),
        ("a last line without its line feed", text[:-1], [*told, "bad line 27"]),
        ("something behind it", text + b"\n", [*told, "bad line 28"]),
        ("another version", b"savi-journal 3" + text[14:], ["bad line 1"]),
        ("nothing", b"", ["bad line 1"]),
    )
    for name, octets_of_text, want in cases:
        found = audit.lines(octets_of_text)
        same(f"audit: {name}", "the lines are", found, want)
        same(f"audit: {name}", "the status is", audit.status(found), 4)
