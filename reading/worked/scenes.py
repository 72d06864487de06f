"""What the scenes of crates/world_runs with the validation of sources come to, worked out by hand from the rules of
docs/RULES.md and docs/TROUBLE.md. Ports 1, 2, 3 are hosts, 4 is trusted and 5 a server, and 2001:db8:1::/64 is fcfs,
2001:db8:2::/64 dhcp and 2001:db8:3::/64 mixed, unless a scene says otherwise. How long an address is bound shows in the
moments of the probes that ask for it then, when a frame comes long after."""
from .. import making
from ..frame import tagged_frame
from ..making import advertisement, claim, data, to_server
from .histories import A11, A12, A22, ADVERTS, CUT, G11, G22, JUDGED, LATER, LEASED, M1, M2, M3, MIXED, NAMED, REPLY, REQUEST
from .histories import ROUTER_MAC, ask

SWITCH_MAC = 0x020000000001
SERVER = making.option(2, making.identity(M2))


def filled(octets):
    """A frame of so many octets, whose EtherType is IPv4's."""
    return making.frame((1 << 48) - 1, ROUTER_MAC, 0x0800, bytes(octets - 14))


# The frames of these scenes, by their names there. A name without a host is of host 1, whose address is fe80::11.
FRAMES = {
    "address_question": claim(M1, A11),
    "question_for_2001:db8:1::11": claim(M1, G11),
    "question_for_2001:db8:1::11_by_host_2": claim(M2, G11),
    "question_for_2001:db8:1::22_by_host_2": claim(M2, G22),
    "question_for_2001:db8:3::33": claim(M1, MIXED),
    "question_for_2001:db8:3::33_by_host_2": claim(M2, MIXED),
    "question_for_fe80::12_by_host_2": claim(M2, A12),
    "question_for_fe80::22_by_host_2": claim(M2, A22),
    "question_for_fe80::200_by_host_2": claim(M2, making.LINK_LOCAL | 0x200),
    "PACKET": data(M1, A11),
    "packet_of_fe80::11_by_host_2": data(M2, A11),
    "packet_of_fe80::11_by_host_3": data(M3, A11),
    "packet_of_2001:db8:1::11": data(M1, G11),
    "packet_of_2001:db8:2::101": data(M1, LEASED),
    "packet_of_2001:db8:2::102": data(M1, LEASED + 1),
    "packet_of_2001:db8:3::33": data(M1, MIXED),
    "answer_of_host_1": advertisement(M1, A11),
    "answer_of_the_router_for_fe80::11": advertisement(ROUTER_MAC, A11),
    "listener_report": NAMED["report"][1],
    "router_question": NAMED["router solicitation"][1],
    "advert_of_the_router": making.router_advertisement(ROUTER_MAC, making.ROUTER),
    "ADVERT": ADVERTS[0],
    "advert_behind_destination_options": ADVERTS[1],
    "advert_in_an_atomic_fragment": ADVERTS[2],
    "advert_with_a_hop_limit_of_64": ADVERTS[3],
    "cut_chain_in_a_first_fragment": CUT,
    "later_fragment": LATER,
    "two_fragment_headers": making.in_first_fragment(making.in_first_fragment(data(M2, G22))),
    "dhcp_request": REQUEST,
    "dhcp_request_by_host_2": ask(M2, A12, 0x0A0B0C),
    "dhcp_reply": REPLY,
    "lease_of_2001:db8:3::33": making.to_client(
        ROUTER_MAC, making.ROUTER, M1, A11, making.message(7, 0x0A0B0C, making.identity(M1), [(MIXED, 600)], more=SERVER)),
    "release_of_2001:db8:3::33": to_server(
        M1, A11, making.message(8, 0x0A0B0C, making.identity(M1), [(MIXED, 0)], more=SERVER)),
    "thirteen_octets": data(M1, A11)[:13],
    "frame_of_1518_octets": filled(1518),
    "frame_of_1519_octets": filled(1519),
    "probe_for_fe80::11": claim(SWITCH_MAC, A11),
    "probe_for_fe80::22": claim(SWITCH_MAC, A22),
    "probe_for_2001:db8:1::11": claim(SWITCH_MAC, G11),
    "probe_for_2001:db8:3::33": claim(SWITCH_MAC, MIXED),
    "question_for_fe80::11_by_host_2": claim(M2, A11),
    "question_for_fe80::11_in_VLAN_10": tagged_frame(10, claim(M1, A11)),
    "question_for_fe80::11_by_host_2_in_VLAN_20": tagged_frame(20, claim(M2, A11)),
    "ADVERT_in_VLAN_20": tagged_frame(20, ADVERTS[0]),
    "PACKET_in_VLAN_10": tagged_frame(10, data(M1, A11)),
}
FRAMES |= {f"dhcp_request_{k}": ask(M1, A11, k) for k in range(1, 18)}
FRAMES |= {f"question_for_fe80::{k:x}": claim(M1, making.LINK_LOCAL | k) for k in range(0x100, 0x121)}

# Frames that a host may send to do harm, by the scene in which each comes in alone at port 1: its name, and its verdict.
HARMFUL = {
    "an Ethernet header alone": ("ethernet_header_alone", "drop-BadIpv6"),
    "a packet of version 5": ("packet_of_version_5", "drop-BadIpv6"),
    "a packet that is shorter than it says": ("packet_shorter_than_it_says", "drop-BadIpv6"),
    "a packet from a group": ("packet_from_a_group", "drop-BadIpv6"),
    "hop-by-hop options twice": ("two_hop-by-hop_headers", "drop-BadIpv6"),
    "destination options that are longer than the packet": ("destination_options_longer_than_the_packet", "drop-BadIpv6"),
    "a router advertisement behind 182 headers": ("advert_behind_182_headers", "drop-RouterAdvert"),
    "a fragment header with nothing behind it": ("fragment_header_alone", "drop-HiddenUpper"),
    "next header 253": ("next_header_253", "drop-UnknownNextHeader"),
    "an authentication header of 8 octets": ("authentication_header_of_8_octets", "drop-Unverified"),
}
FRAMES |= {name: frame for (name, _), (_, frame, _) in zip(HARMFUL.values(), JUDGED)}
# A client identifier of three octets, the fewest that are read (RFC 8415 section 11.1), and as many leases as a frame takes.
SHORTEST = bytes([0, 3, 1])
FRAMES |= {
    "dhcp_request_with_an_overlong_option": making.to_server(
        M1, A11, REQUEST[62:].replace(bytes([0, 1, 0, 10]), bytes([0, 1, 0, 255]), 1)),
    "dhcp_request_of_the_shortest_identity": making.to_server(M1, A11, making.message(3, 0x0A0B0C, SHORTEST)),
    "reply_with_51_leases": making.to_client(
        M2, A22, M1, A11, making.message(7, 0x0A0B0C, SHORTEST, [(LEASED - 0x101 + k, 600) for k in range(1, 52)])),
}

# Each scene: its frames in the order in which they are judged, as PORT@STAMP FRAME VERDICT OUTS PROBES; and further lines
# that it leaves. A long frame stands there by its length.
WORKED = {
    "a host boots": (
        ["1@1000 listener_report pass-trusted 4 0",
         "1@1100 address_question pass-trusted 4 0",
         "1@2100 router_question pass-all 2,3,4,5 0",
         "4@2110 advert_of_the_router pass-all 1,2,3,5 0",
         "1@2200 question_for_2001:db8:1::11 pass-trusted 4 0",
         "1@3000 packet_of_2001:db8:1::11 pass-all 4 0"], ["status 0"]),
    "a host boots, and is silent then": (
        ["1@1000 listener_report pass-trusted 4 0",
         "1@1100 address_question pass-trusted 4 0",
         "1@2100 router_question pass-all 2,3,4,5 0",
         "4@2110 advert_of_the_router pass-all 1,2,3,5 0",
         "1@2200 question_for_2001:db8:1::11 pass-trusted 4 0",
         "1@3000 packet_of_2001:db8:1::11 pass-all 4 0",
         "4@400000 advert_of_the_router pass-all 1,2,3,5 4"],
        ["port 1: HEADER AT_2110_70 advert_of_the_router AT_302100_78 probe_for_fe80::11"
         " AT_302350_78 probe_for_fe80::11 AT_303000_78 probe_for_2001:db8:1::11"
         " AT_303250_78 probe_for_2001:db8:1::11 AT_400000_70 advert_of_the_router"]),
    "data while an address is tentative": (
        ["1@1000 address_question pass-trusted 4 0",
         "1@1100 PACKET drop-Unverified - 0",
         "4@400000 advert_of_the_router pass-all 1,2,3,5 2"],
        ["port 1: HEADER AT_301500_78 probe_for_fe80::11 AT_301750_78 probe_for_fe80::11"
         " AT_400000_70 advert_of_the_router"]),
    "data of an address that nobody has claimed": (
        ["1@1000 PACKET drop-Unverified - 1",
         "1@1499 PACKET drop-Unverified - 1",
         "1@1500 PACKET pass-all 2,3,4,5 0"],
        ["port 4: HEADER AT_1000_78 probe_for_fe80::11 AT_1250_78 probe_for_fe80::11 AT_1500_54 PACKET",
         "5 0 1000 F 1 1000 PACKET drop-Unverified - - 1 0",
         "9 0 1500 F 1 1500 PACKET pass-all 2,3,4,5 - 0 0",
         "entries 21 frames 3 passed 1 dropped 2 probes 2 lost 0 cut 0"]),
    "another host claims an address, and its holder answers": (
        ["1@1000 address_question pass-trusted 4 0",
         "2@2000 packet_of_fe80::11_by_host_2 drop-WrongPort - 1",
         "1@2400 answer_of_host_1 pass-all 2,3,4,5 1"],
        ["port 1: HEADER AT_2000_78 probe_for_fe80::11 AT_2250_78 probe_for_fe80::11"]),
    "another host claims an address, and its holder answers, and is silent then": (
        ["1@1000 address_question pass-trusted 4 0",
         "2@2000 packet_of_fe80::11_by_host_2 drop-WrongPort - 1",
         "1@2400 answer_of_host_1 pass-all 2,3,4,5 1",
         "4@400000 advert_of_the_router pass-all 1,2,3,5 2"],
        ["port 1: HEADER AT_2000_78 probe_for_fe80::11 AT_2250_78 probe_for_fe80::11 AT_302400_78 probe_for_fe80::11"
         " AT_302650_78 probe_for_fe80::11 AT_400000_70 advert_of_the_router"]),
    "another host claims an address, and its holder is gone": (
        ["1@1000 address_question pass-trusted 4 0",
         "2@2000 packet_of_fe80::11_by_host_2 drop-WrongPort - 1",
         "2@2500 packet_of_fe80::11_by_host_2 pass-all 1,3,4,5 1",
         "4@400000 advert_of_the_router pass-all 1,2,3,5 2"],
        ["port 1: HEADER AT_2000_78 probe_for_fe80::11 AT_2250_78 probe_for_fe80::11"
         " AT_2500_54 packet_of_fe80::11_by_host_2 AT_400000_70 advert_of_the_router",
         "port 2: HEADER AT_302500_78 probe_for_fe80::11 AT_302750_78 probe_for_fe80::11"
         " AT_400000_70 advert_of_the_router"]),
    "a third host claims an address under a test": (
        ["1@1000 address_question pass-trusted 4 0",
         "2@2000 packet_of_fe80::11_by_host_2 drop-WrongPort - 1",
         "3@2300 packet_of_fe80::11_by_host_3 drop-Contested - 1",
         "4@400000 advert_of_the_router pass-all 1,2,3,5 2"],
        ["port 1: HEADER AT_2000_78 probe_for_fe80::11 AT_2250_78 probe_for_fe80::11 AT_400000_70 advert_of_the_router",
         "port 2: HEADER AT_302500_78 probe_for_fe80::11 AT_302750_78 probe_for_fe80::11"
         " AT_400000_70 advert_of_the_router",
         "port 3: HEADER AT_400000_70 advert_of_the_router"]),
    "an objection from a trusted port": (
        ["1@1000 address_question pass-trusted 4 0",
         "4@1200 answer_of_the_router_for_fe80::11 pass-all 1,2,3,5 0",
         "4@400000 advert_of_the_router pass-all 1,2,3,5 0"], ["status 0"]),
    "router advertisements of a host": (
        ["2@1000 ADVERT drop-RouterAdvert - 0",
         "2@1001 advert_behind_destination_options drop-RouterAdvert - 0",
         "2@1002 advert_in_an_atomic_fragment drop-RouterAdvert - 0",
         "2@1003 advert_with_a_hop_limit_of_64 drop-Unverified - 1"],
        ["port 4: HEADER AT_1003_78 probe_for_fe80::22"]),
    "fragments": (
        ["2@1000 question_for_2001:db8:1::22_by_host_2 pass-trusted 4 0",
         "2@2000 cut_chain_in_a_first_fragment drop-HiddenUpper - 0",
         "2@2001 later_fragment pass-all 1,3,4,5 0",
         "2@2002 two_fragment_headers drop-BadIpv6 - 0"], ["status 0"]),
    "a request and its reply": (
        ["1@1000 address_question pass-trusted 4 0",
         "5@1000 question_for_fe80::22_by_host_2 pass-trusted 4 0",
         "1@2000 dhcp_request pass-all 2,3,4,5 0",
         "5@2100 dhcp_reply pass-all 1 0",
         "1@2300 packet_of_2001:db8:2::102 drop-NotAssigned - 0",
         "2@2400 dhcp_reply drop-DhcpServer - 0",
         "4@400000 advert_of_the_router pass-all 1,2,3,5 4",
         "1@400001 packet_of_2001:db8:2::101 pass-all 4 0"],
        ["port 1: HEADER AT_2100_166 dhcp_reply AT_302000_78 probe_for_fe80::11 AT_302250_78 probe_for_fe80::11"
         " AT_400000_70 advert_of_the_router",
         "port 5: HEADER AT_2000_96 dhcp_request AT_302100_78 probe_for_fe80::22 AT_302350_78 probe_for_fe80::22"
         " AT_400000_70 advert_of_the_router"]),
    "another host asks with the same identity": (
        ["1@1000 address_question pass-trusted 4 0",
         "2@1000 question_for_fe80::12_by_host_2 pass-trusted 4 0",
         "5@1000 question_for_fe80::22_by_host_2 pass-trusted 4 0",
         "1@2000 dhcp_request pass-all 2,3,4,5 0",
         "2@2050 dhcp_request_by_host_2 drop-DhcpContested - 0"], ["status 0"]),
    "sixteen requests, and one more": (
        ["1@1000 address_question pass-trusted 4 0"]
        + [f"1@{2000 + k} dhcp_request_{k} pass-all 2,3,4,5 0" for k in range(1, 17)]
        + ["1@2017 dhcp_request_17 drop-PendingFull - 0",
           "1@122001 dhcp_request_17 pass-all 2,3,4,5 0"], ["status 0"]),
    "a lease of an address that another port claimed first": (
        ["1@1000 address_question pass-trusted 4 0",
         "2@1000 question_for_2001:db8:3::33_by_host_2 pass-trusted 4 0",
         "1@2000 dhcp_request pass-all 2,3,4,5 0",
         "4@2100 lease_of_2001:db8:3::33 pass-all 1 0",
         "4@400000 advert_of_the_router pass-all 1,2,3,5 4"],
        ["port 1: HEADER AT_2100_138 lease_of_2001:db8:3::33 AT_302000_78 probe_for_fe80::11"
         " AT_302250_78 probe_for_fe80::11 AT_400000_70 advert_of_the_router",
         "port 2: HEADER AT_2000_96 dhcp_request AT_301500_78 probe_for_2001:db8:3::33"
         " AT_301750_78 probe_for_2001:db8:3::33 AT_400000_70 advert_of_the_router"]),
    "a lease of an address that its own port claimed first, to its end": (
        ["1@1000 question_for_2001:db8:3::33 pass-trusted 4 0",
         "1@1000 address_question pass-trusted 4 0",
         "1@2000 dhcp_request pass-all 2,3,4,5 0",
         "4@2100 lease_of_2001:db8:3::33 pass-all 1 0",
         "1@722099 packet_of_2001:db8:3::33 pass-all 2,3,4,5 4",
         "1@722100 packet_of_2001:db8:3::33 drop-Unverified - 1"],
        ["port 1: HEADER AT_2100_138 lease_of_2001:db8:3::33 AT_301500_78 probe_for_2001:db8:3::33"
         " AT_301750_78 probe_for_2001:db8:3::33 AT_302000_78 probe_for_fe80::11 AT_302250_78 probe_for_fe80::11",
         "port 4: HEADER AT_1000_78 question_for_2001:db8:3::33 AT_1000_78 address_question AT_2000_96 dhcp_request"
         " AT_722099_54 packet_of_2001:db8:3::33 AT_722100_78 probe_for_2001:db8:3::33"]),
    "a lease of an address that its own port claimed first, and its release": (
        ["1@1000 question_for_2001:db8:3::33 pass-trusted 4 0",
         "1@1000 address_question pass-trusted 4 0",
         "1@2000 dhcp_request pass-all 2,3,4,5 0",
         "4@2100 lease_of_2001:db8:3::33 pass-all 1 0",
         "1@2300 release_of_2001:db8:3::33 pass-all 2,3,4,5 0",
         "1@2400 packet_of_2001:db8:3::33 pass-all 4 0",
         "4@400000 advert_of_the_router pass-all 1,2,3,5 4"],
        ["port 1: HEADER AT_2100_138 lease_of_2001:db8:3::33 AT_302300_78 probe_for_fe80::11"
         " AT_302400_78 probe_for_2001:db8:3::33 AT_302550_78 probe_for_fe80::11"
         " AT_302650_78 probe_for_2001:db8:3::33 AT_400000_70 advert_of_the_router"]),
    "32 addresses at a port, and one more": (
        [f"1@{1000 + k} question_for_fe80::{0x100 + k:x} pass-trusted 4 0" for k in range(32)]
        + ["1@1032 question_for_fe80::120 drop-PortFull - 0",
           "2@1033 question_for_fe80::200_by_host_2 pass-trusted 4 0"], ["status 0"]),
    "a claim long after the holder was last heard": (
        ["1@1000 address_question pass-trusted 4 0",
         "2@4000000 packet_of_fe80::11_by_host_2 drop-Unverified - 3"],
        ["port 1: HEADER AT_301500_78 probe_for_fe80::11 AT_301750_78 probe_for_fe80::11",
         "port 4: HEADER AT_1000_78 address_question AT_4000000_78 probe_for_fe80::11"]),
    "frames that are too short or too long": (
        ["4@1000 thirteen_octets drop-Malformed - 0",
         "4@1001 1519 drop-Malformed - 0",
         "4@1002 frame_of_1518_octets pass-all 1,2,3,5 0"], ["status 0"]),
    # One address for each port.
    "an address at a port that may have one, and one more": (
        ["1@1000 address_question pass-trusted 4 0",
         "1@1100 question_for_2001:db8:1::11 drop-PortFull - 0",
         "2@1200 question_for_2001:db8:1::11_by_host_2 pass-trusted 4 0"], ["status 0"]),
    # Queues of one item: a probe takes the place of a frame.
    "a probe and a frame for a queue of one item": (
        ["1@1000 address_question pass-trusted 4 0",
         "2@2000 packet_of_fe80::11_by_host_2 drop-WrongPort - 1",
         "2@2500 packet_of_fe80::11_by_host_2 pass-all 1,3,4,5 1"],
        ["9 1 2500 F 2 2500 packet_of_fe80::11_by_host_2 pass-all 1,3,4,5 1 1 0",
         "port 1: HEADER AT_2000_78 probe_for_fe80::11 AT_2250_78 probe_for_fe80::11"]),
    # Port 1 is a host's and port 2 is trusted.
    "falling stamps, and a record that is cut": (
        ["1@5000 PACKET drop-Unverified - 1",
         "1@4000 PACKET drop-Unverified - 0"],
        ["status 4", "port 1: malformed at 164", "port 2: HEADER AT_5000_78 probe_for_fe80::11",
         "2 0 5000 F 1 5000 PACKET drop-Unverified - - 1 0",
         "4 0 5000 F 1 4000 PACKET drop-Unverified - - 0 0",
         "5 0 5000 E in1 malformed 164"]),
    # Port 1 is trusted, 2 and 3 are hosts'. Room for one frame behind three ends; in the next segment for both others.
    "a history that is full behind its first frame": (
        ["1@1000 ADVERT pass-all 2,3 0", "1@1001 ADVERT pass-all 2,3 0", "1@1002 ADVERT pass-all 2,3 0"],
        ["status 0", "entries 22 frames 3 passed 3 dropped 0 probes 0 lost 0 cut 0",
         "3 0 1000 F 1 1000 ADVERT pass-all 2,3 - 0 0", "4 6 1000 D 2 1", "5 7 1000 D 3 1", "6 0 1000 E in1 paused",
         "7 4 1000 E ticker paused", "8 5 1000 E out1 paused", "moment 1000", "shut -", "count Pass 1",
         "station 02:00:00:00:00:22 1 1000", "ended in2 end", "ended in3 end", "ended control end",
         "0 0 1001 F 1 1001 ADVERT pass-all 2,3 - 0 0", "3 0 1002 F 1 1002 ADVERT pass-all 2,3 - 0 0", "6 0 1002 E in1 end",
         "7 4 1002 E ticker end", "8 5 1002 E out1 end", "end 11"]),
    "an output that fails at its second frame": (
        ["1@1000 ADVERT pass-all 2,3 0",
         "1@1001 ADVERT pass-all 2,3 0",
         "1@1002 ADVERT pass-all 2,3 0"],
        ["status 6", "port 2: HEADER AT_1000 ADVERT", "8 6 1001 E out2 failed",
         "10 0 1002 F 1 1002 ADVERT pass-all 2,3 2 0 0",
         "entries 16 frames 3 passed 3 dropped 0 probes 0 lost 0 cut 1"]),
    # Ports 1 and 2 are a host's and trusted.
    "two ports, and nothing to do": (
        [],
        ["status 0", "entries 6 frames 0 passed 0 dropped 0 probes 0 lost 0 cut 0", "port 1: HEADER", "port 2: HEADER",
         "0 2 0 E control end", "1 0 0 E in1 end", "2 1 0 E in2 end", "3 3 0 E ticker end", "4 4 0 E out1 end",
         "5 5 0 E out2 end", "end 6"]),
}

SILENT = ["status 0", "standard error:"]


def harm():
    """Of a harmful frame nothing goes out, and it binds nothing. One that is read to its end is data of an address that
    nobody has claimed: the trusted port is asked."""
    scenes = HARMFUL | {"next header 253, which passes": ("next_header_253", "drop-Unverified")}
    return {title: alone(name, verdict) for title, (name, verdict) in scenes.items()}


def alone(name, verdict):
    probes = int(verdict == "drop-Unverified")
    entries = ["5 0 E control end"] + [f"{n - 1} 0 E in{n} end" for n in (2, 3, 4, 5)]
    entries += [f"0 1000 F 1 1000 {name} {verdict} - - {probes} 0"] + ["10 1000 D 4 1"] * probes
    entries += ["0 1000 E in1 end", "6 1000 E ticker end"] + [f"{n + 6} 1000 E out{n} end" for n in range(1, 6)]
    counts = f"entries {len(entries)} frames 1 passed 0 dropped 1 probes {probes} lost 0 cut 0"
    outputs = [f"port {n}: HEADER" for n in (1, 2, 3, 5)]
    outputs += ["port 4: HEADER" + " AT_1000_78 probe_for_fe80::22" * probes]
    journal = [f"{n} {entry}" for n, entry in enumerate(entries)] + [f"end {len(entries)}"]
    return [f"1@1000 {name} {verdict} - {probes}"], SILENT + [counts] + outputs + journal


WORKED |= harm()

# What a run with five ports opens.
OPENED = ("plan", "port 1", "port 2", "port 3", "port 4", "port 5", "journal")
# A packet of an address that nobody has claimed, three times; and what the frames come to.
PROBED = ["1@1000 PACKET drop-Unverified - 1", "1@1499 PACKET drop-Unverified - 1", "1@1500 PACKET pass-all 2,3,4,5 0"]
UNPROBED = [row[:-1] + "0" for row in PROBED]
SENT_AT_4 = ["", " AT_1000_78 probe_for_fe80::11", " AT_1250_78 probe_for_fe80::11", " AT_1500_54 PACKET"]


def calls_of_ports():
    """A read of a port gives a header, of the capture or of a record, or a frame. Port 4 is sent both probes and the last
    packet, and ports 2, 3 and 5 that packet."""
    worked = {}
    for k in range(1, 9):
        worked[f"probes: read {k} at port 1"] = PROBED[: max(0, (k - 2) // 2)], ["status 5", "port 1: read failed"]
    worked["probes: read 9 at port 1"] = PROBED, SILENT
    for n in (2, 3, 4, 5):
        for k in (1, 2):
            worked[f"probes: read {k} at port {n}"] = PROBED, ["status 5", f"port {n}: read failed"]
        worked[f"probes: read 3 at port {n}"] = PROBED, SILENT
        if n != 4:
            last = [f"10 0 1500 F 1 1500 PACKET pass-all 2,3,4,5 {n} 0 0", f"0 {6 + n} 0 E out{n} failed"]
            worked[f"probes: write 1 at port {n}"] = PROBED, ["status 6", f"port {n}: write failed"] + last
            worked[f"probes: write 2 at port {n}"] = PROBED, ["status 6", f"port {n}: write failed", f"port {n}: HEADER"]
            worked[f"probes: write 3 at port {n}"] = PROBED, SILENT
    worked["probes: write 1 at port 1"] = PROBED, ["status 6", "port 1: write failed", "port 1:"]
    worked["probes: write 2 at port 1"] = PROBED, SILENT
    for k in range(1, 5):
        asked = min(k - 1, 2)
        frames = PROBED[:asked] + UNPROBED[asked:]
        text = "port 4:" + ("" if k == 1 else " HEADER" + "".join(SENT_AT_4[: k - 1]))
        worked[f"probes: write {k} at port 4"] = frames, ["status 6", "port 4: write failed", text]
    worked["probes: write 5 at port 4"] = PROBED, SILENT + ["port 4: HEADER" + "".join(SENT_AT_4)]
    for k, name in enumerate(OPENED, 1):
        worked[f"probes: opening {k}"] = [], ["status 7", f"cannot open {name}", "journal:"]
    worked["probes: opening 8"] = PROBED, SILENT
    worked["probes: write 1 of the journal"] = [], ["status 6", "journal: write failed", "journal:"]
    worked["probes: write 1 of the summary"] = PROBED, ["status 6"]
    return worked


WORKED |= calls_of_ports()


def loads():
    """Runs of `gen`, which leave no journal. 12 entries are ends, of five inputs, control, the ticker and five outputs; 6
    are the claims, which pass to port 4 alone, each with its drain. Then, by the remainders of the draws: with seed 1 port 3
    sends from host 2's address, which is held there, so port 2 is asked (a drain), and port 1 sends from it meanwhile; with
    seed 2147483647 port 3 sends from its own address to the four others (four drains), and port 2 from those of hosts 1
    and 3, whose ports are asked."""
    summaries = {
        "a load of no packets": "entries 18 frames 3 passed 3 dropped 0 probes 0 lost 0 cut 0",
        "a load of two packets": "entries 21 frames 5 passed 3 dropped 2 probes 1 lost 0 cut 0",
        "a load of the greatest seed": "entries 27 frames 6 passed 4 dropped 2 probes 2 lost 0 cut 0",
    }
    worked = {name: ([], SILENT + [line]) for name, line in summaries.items()}
    worked |= {f"a load of {packets}": ([], SILENT) for packets in ("1,000 packets", "2,500 packets", "seed 0")}
    return worked | {"the summary of a load": ([], ["status 6"])}


WORKED |= loads()


def judged(entry):
    """A line of what is printed of a journal, where it is a frame's, as PORT@STAMP FRAME VERDICT OUTS PROBES; else None."""
    words = entry.split()
    if len(words) == 12 and words[3] == "F":
        return f"{words[4]}@{words[5]} {words[6]} {words[7]} {words[8]} {words[10]}"
    if len(words) == 10 and words[3] == "L":
        return f"{words[4]}@{words[5]} {words[6]} {words[7]} - {words[8]}"
    return None


def faults(scenes, names):
    """What isn't as it was worked out. `scenes` has the lines that each scene leaves, by its name; `names` the digits of the
    scenes' frames, by their names."""
    found = [f"{name}: isn't that frame" for name, frame in FRAMES.items() if names.get(name) != frame.hex()]
    for name in sorted(WORKED.keys() & scenes.keys()):
        frames, more = WORKED[name]
        lines = scenes[name]
        got = [row for line in lines if (row := judged(line))]
        found += [f"{name}: {row} should be there" for row in frames if row not in got]
        found += [f"{name}: the frames are {len(got)}, or in another order"] if got != frames else []
        found += [f"{name}: {line} should be there" for line in more if line not in lines]
    return found
