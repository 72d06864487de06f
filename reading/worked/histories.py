"""Histories that were worked out by hand from the rules of docs/RULES.md and docs/TROUBLE.md, and a load whose sums a
further implementation gave. Ports 1, 2, 3 are hosts, 4 is trusted and 5 a server, unless a history says otherwise."""
from .. import capture, commands, making
from ..making import claim, data
from ..plan import read_address, read_plan
from ..session import CONTROL, Replay

ROLES = ("host", "host", "host", "trusted", "server")
TWO_PORTS = ("host", "trusted")
PREFIXES = (("2001:db8:1::/64", "fcfs"), ("2001:db8:2::/64", "dhcp"), ("2001:db8:3::/64", "mixed"))

# Hosts at ports 1, 2 and 3, and the router.
M1, M2, M3, ROUTER_MAC = 0x020000000011, 0x020000000022, 0x020000000033, making.ROUTER_MAC


def a(text):
    return read_address(text)


A11, A12, A22, A33 = a("fe80::11"), a("fe80::12"), a("fe80::22"), a("fe80::33")
G11, G22 = a("2001:db8:1::11"), a("2001:db8:1::22")
MIXED, LEASED = a("2001:db8:3::33"), a("2001:db8:2::101")

# Frames whose octets are known, and what makes them.
NAMED = {
    "claim of fe80::11": (
        "3333ff000011 020000000011 86dd 6000000000183aff 00000000000000000000000000000000"
        "ff0200000000000000000001ff000011 87007c0500000000 fe800000000000000000000000000011", claim(M1, A11)),
    "claim of 2001:db8:1::11": (
        "3333ff000011 020000000011 86dd 6000000000183aff 00000000000000000000000000000000"
        "ff0200000000000000000001ff000011 87004ccc00000000 20010db8000100000000000000000011", claim(M1, G11)),
    "data of fe80::11": (
        "0200000000fe 020000000011 86dd 6000000000003b40 fe800000000000000000000000000011"
        "fe8000000000000000000000000000fe", data(M1, A11)),
    "advertisement of fe80::11": (
        "333300000001 020000000011 86dd 6000000000183aff fe800000000000000000000000000011"
        "ff020000000000000000000000000001 88005b8520000000 fe800000000000000000000000000011",
        making.advertisement(M1, A11)),
    "report": (
        "333300000016 020000000011 86dd 6000000000240001 00000000000000000000000000000000"
        "ff020000000000000000000000000016 3a00050200000100 8f006f7900000001 04000000"
        "ff0200000000000000000001ff000011", making.report(M1, 0, making.solicited_nodes(A11))),
    "router solicitation": (
        "333300000002 020000000011 86dd 6000000000103aff fe800000000000000000000000000011"
        "ff020000000000000000000000000002 85007a0c00000000 0101020000000011", making.router_solicitation(M1, A11)),
    "request": (
        "333300010002 020000000011 86dd 60000000002a1140 fe800000000000000000000000000011"
        "ff020000000000000000000000010002 02220223002aed77 030a0b0c 0001000a00030001020000000011"
        "0003000c000000010000000000000000",
        making.to_server(M1, A11, making.message(3, 0x0A0B0C, making.identity(M1)))),
    "reply": (
        "020000000011 020000000022 86dd 6000000000701140 fe800000000000000000000000000022"
        "fe800000000000000000000000000011 0223022200708931 070a0b0c 0001000a00030001020000000011"
        "0002000a00030001020000000022 00030044000000010000000000000000 00050018"
        "20010db8000200000000000000000101 ffffffffffffffff 00050018 20010db8000200000000000000000102"
        "0000000000000000",
        making.to_client(M2, A22, M1, A11, making.message(
            7, 0x0A0B0C, making.identity(M1), [(LEASED, 0xFFFFFFFF), (LEASED + 1, 0)],
            more=making.option(2, making.identity(M2))))),
}

# Router advertisements of a host: plain, behind destination options, in a first fragment, with another hop limit.
ADVERTS = [bytes.fromhex(digits) for digits in (
    "33330000000102000000002286dd6000000000103afffe800000000000000000000000000022ff0200000000000000000000000000018600"
    "3506400007080000000000000000",
    "33330000000102000000002286dd6000000000183cfffe800000000000000000000000000022ff0200000000000000000000000000013a00"
    "01040000000086003506400007080000000000000000",
    "33330000000102000000002286dd6000000000182cfffe800000000000000000000000000022ff0200000000000000000000000000013a00"
    "00010000000186003506400007080000000000000000",
    "33330000000102000000002286dd6000000000103a40fe800000000000000000000000000022ff0200000000000000000000000000018600"
    "3506400007080000000000000000",
)]
# A first fragment whose chain is cut, and a fragment behind it.
CUT, LATER = [bytes.fromhex(
    "33330000000102000000002286dd6000000000102c4020010db8000100000000000000000022ff020000000000000000000000000001" + rest
) for rest in ("3c000001000000023a01010c00000000", "3c000008000000020000000000000000")]


def plan_of(roles=ROLES, prefixes=PREFIXES, more="", control=True):
    text = 'mac = "02:00:00:00:00:01"\njournal = "journal.txt"\n' + more
    text += 'control = "commands.txt"\ncontrol_out = "replies.txt"\n' if control else ""
    for prefix, method in prefixes:
        text += f'[[prefix]]\nprefix = "{prefix}"\nmethod = "{method}"\n'
    for n, role in enumerate(roles, 1):
        text += f'[[port]]\nnumber = {n}\nrole = "{role}"\ninput = "{n}.pcap"\noutput = "{n}.out"\n'
    return read_plan(text.encode("ascii"))


def replay(plan, frames, lines="", rest=None, fails=None):
    """Plays frames (port, stamp, octets), and control's lines; `rest` has octets behind a port's records."""
    captures = {}
    for port in plan.ports:
        octets = making.capture([(stamp, frame) for n, stamp, frame in frames if n == port.number])
        captures[port.number] = capture.arrivals(octets + (rest or {}).get(port.number, b""))
    return Replay(plan, captures, commands.lines(lines.encode("ascii")), fails)


def judged(run):
    """Each frame as PORT@STAMP VERDICT OUTS PROBES."""
    rows = []
    for entry in run.entries():
        words = entry.text.split()
        if words[0] == "F":
            rows.append(f"{words[1]}@{words[2]} {words[4]} {words[5]} {words[7]}")
    return rows


def replies(run):
    return run.outputs[CONTROL].octets.decode("ascii").split("\n")[:-1]


def sent(run, port):
    """What a port sends, as (moment, octets)."""
    found, how = capture.arrivals(bytes(run.outputs[port].octets), longest=capture.LONGEST_FRAME_OUT)
    assert how == "end"
    return [(arrival.stamp, arrival.octets) for arrival in found]


CLAIM_11 = claim(M1, A11)
REQUEST, REPLY = NAMED["request"][1], NAMED["reply"][1]


def ask(mac, source, transaction, client=M1, kind=3):
    return making.to_server(mac, source, making.message(kind, transaction, making.identity(client)))


def lease(addresses, transaction=0x0A0B0C, client=M1, mac=ROUTER_MAC, source=making.ROUTER):
    payload = making.message(7, transaction, making.identity(client), addresses)
    return making.to_client(mac, source, client, A11, payload)


# Name, frames, control's lines, what the frames come to, replies.
HISTORIES = (
    ("a host boots",
     [(1, 1000, NAMED["report"][1]), (1, 1100, CLAIM_11), (1, 2100, NAMED["router solicitation"][1]),
      (4, 2110, making.router_advertisement(ROUTER_MAC, making.ROUTER)), (1, 2200, claim(M1, G11)),
      (1, 3000, data(M1, G11))],
     "3100 show bindings\n",
     ["1@1000 pass-trusted 4 0", "1@1100 pass-trusted 4 0", "1@2100 pass-all 2,3,4,5 0", "4@2110 pass-all 1,2,3,5 0",
      "1@2200 pass-trusted 4 0", "1@3000 pass-all 4 0"],
     ["2001:db8:1::11 1 valid - 303000", "fe80::11 1 valid - 302100", "end"]),
    ("data while an address is tentative",
     [(1, 1000, CLAIM_11), (1, 1100, data(M1, A11))], "1101 show bindings\n",
     ["1@1000 pass-trusted 4 0", "1@1100 drop-Unverified - 0"], ["fe80::11 1 tentative - 1500", "end"]),
    ("another host claims an address, and its holder answers",
     [(1, 1000, CLAIM_11), (2, 2000, data(M2, A11)), (1, 2400, making.advertisement(M1, A11))], "2450 show bindings\n",
     ["1@1000 pass-trusted 4 0", "2@2000 drop-WrongPort - 1", "1@2400 pass-all 2,3,4,5 1"],
     ["fe80::11 1 valid - 302400", "end"]),
    ("another host claims an address, and its holder is gone",
     [(1, 1000, CLAIM_11), (2, 2000, data(M2, A11)), (2, 2500, data(M2, A11))], "2600 show bindings\n",
     ["1@1000 pass-trusted 4 0", "2@2000 drop-WrongPort - 1", "2@2500 pass-all 1,3,4,5 1"],
     ["fe80::11 2 valid - 302500", "end"]),
    ("a third host claims an address under a test",
     [(1, 1000, CLAIM_11), (2, 2000, data(M2, A11)), (3, 2300, data(M3, A11))], "2301 show bindings\n",
     ["1@1000 pass-trusted 4 0", "2@2000 drop-WrongPort - 1", "3@2300 drop-Contested - 1"],
     ["fe80::11 1 testing-vp 2 2500", "end"]),
    ("an objection from a trusted port",
     [(1, 1000, CLAIM_11), (4, 1200, making.advertisement(ROUTER_MAC, A11))], "1201 show bindings\n",
     ["1@1000 pass-trusted 4 0", "4@1200 pass-all 1,2,3,5 0"], ["end"]),
    ("router advertisements of a host",
     [(2, 1000 + at, advert) for at, advert in enumerate(ADVERTS)], "1002 show bindings\n",
     ["2@1000 drop-RouterAdvert - 0", "2@1001 drop-RouterAdvert - 0", "2@1002 drop-RouterAdvert - 0",
      "2@1003 drop-Unverified - 1"], ["end"]),
    ("fragments",
     [(2, 1000, claim(M2, G22)), (2, 2000, CUT), (2, 2001, LATER),
      (2, 2002, making.in_first_fragment(making.in_first_fragment(data(M2, G22))))], "",
     ["2@1000 pass-trusted 4 0", "2@2000 drop-HiddenUpper - 0", "2@2001 pass-all 1,3,4,5 0", "2@2002 drop-BadIpv6 - 0"],
     []),
    ("a request and its reply",
     [(1, 1000, CLAIM_11), (5, 1000, claim(M2, A22)), (1, 2000, REQUEST), (5, 2100, REPLY), (1, 2300, data(M1, LEASED + 1)),
      (2, 2400, REPLY)], "2200 show bindings\n",
     ["1@1000 pass-trusted 4 0", "5@1000 pass-trusted 4 0", "1@2000 pass-all 2,3,4,5 0", "5@2100 pass-all 1 0",
      "1@2300 drop-NotAssigned - 0", "2@2400 drop-DhcpServer - 0"],
     ["2001:db8:2::101 1 bound - -", "fe80::11 1 valid - 302000", "fe80::22 5 valid - 302100", "end"]),
    ("another host asks with the same identity",
     [(1, 1000, CLAIM_11), (2, 1000, claim(M2, A12)), (1, 2000, REQUEST), (2, 2050, ask(M2, A12, 0x0A0B0C))], "",
     ["1@1000 pass-trusted 4 0", "2@1000 pass-trusted 4 0", "1@2000 pass-all 2,3,4,5 0", "2@2050 drop-DhcpContested - 0"],
     []),
    ("a lease of an address that another port claimed first",
     [(2, 1000, claim(M2, MIXED)), (1, 1000, CLAIM_11), (1, 2000, REQUEST), (4, 2100, lease([(MIXED, 600)]))],
     "2200 show bindings\n",
     ["1@1000 pass-trusted 4 0", "2@1000 pass-trusted 4 0", "1@2000 pass-all 2,3,4,5 0", "4@2100 pass-all 1 0"],
     ["2001:db8:3::33 2 valid - 301500", "fe80::11 1 valid - 302000", "end"]),
    ("a lease of an address that its own port claimed first, and its release",
     [(1, 1000, claim(M1, MIXED)), (1, 1000, CLAIM_11), (1, 2000, REQUEST), (4, 2100, lease([(MIXED, 600)])),
      (1, 2300, making.to_server(M1, A11, making.message(8, 0x0A0B0D, making.identity(M1), [(MIXED, 600)]))),
      (1, 2400, data(M1, MIXED))],
     "2200 show bindings\n2350 show bindings\n",
     ["1@1000 pass-trusted 4 0", "1@1000 pass-trusted 4 0", "1@2000 pass-all 2,3,4,5 0", "4@2100 pass-all 1 0",
      "1@2300 pass-all 2,3,4,5 0", "1@2400 pass-all 4 0"],
     ["2001:db8:3::33 1 bound - 722100", "2001:db8:3::33 1 valid - 301500", "fe80::11 1 valid - 302000", "end",
      "2001:db8:3::33 1 valid - 301500", "fe80::11 1 valid - 302300", "end"]),
    ("a port is shut and opened",
     [(1, 1000, NAMED["report"][1]), (1, 2600, NAMED["report"][1])],
     "500 shut 1\n2500 open 1\n3000 show stations\n3001 show ports\n",
     ["1@1000 drop-PortDown - 0", "1@2600 pass-trusted 4 0"],
     ["ok", "ok", "02:00:00:00:00:11 1 302600", "end", "1 host up 0 0 0", "2 host up 0 0 0", "3 host up 0 0 0",
      "4 trusted up 0 0 0", "5 server up 0 0 0", "end"]),
    ("sixteen requests, and one more",
     [(1, 1000, CLAIM_11)] + [(1, 2000 + k, ask(M1, A11, k)) for k in range(1, 18)] + [(1, 122001, ask(M1, A11, 17))], "",
     ["1@1000 pass-trusted 4 0"] + [f"1@{2000 + k} pass-all 2,3,4,5 0" for k in range(1, 17)]
     + ["1@2017 drop-PendingFull - 0", "1@122001 pass-all 2,3,4,5 0"], []),
    ("32 addresses at a port, and one more",
     [(1, 1000 + k, claim(M1, making.LINK_LOCAL | 0x100 + k)) for k in range(33)]
     + [(2, 1033, claim(M2, making.LINK_LOCAL | 0x200))], "",
     [f"1@{1000 + k} pass-trusted 4 0" for k in range(32)] + ["1@1032 drop-PortFull - 0", "2@1033 pass-trusted 4 0"], []),
    ("a claim long after the holder was last heard",
     [(1, 1000, CLAIM_11), (2, 4000000, data(M2, A11))], "",
     ["1@1000 pass-trusted 4 0", "2@4000000 drop-Unverified - 3"], []),
    ("51 leases in one reply, and room for 31",
     [(1, 1000, CLAIM_11), (5, 1000, claim(M2, A22)), (1, 2000, making.to_server(M1, A11, making.message(3, 1, b"\0\3\1"))),
      (5, 2100, making.to_client(M2, A22, M1, A11, making.message(
          7, 1, b"\0\3\1", [(LEASED - 0x101 + k, 600) for k in range(1, 52)])))],
     "2200 show ports\n",
     ["1@1000 pass-trusted 4 0", "5@1000 pass-trusted 4 0", "1@2000 pass-all 2,3,4,5 0", "5@2100 pass-all 1 0"],
     ["1 host up 32 0 0", "2 host up 0 0 0", "3 host up 0 0 0", "4 trusted up 0 0 0", "5 server up 1 0 0", "end"]),
)

STATIC_LINES = (
    "1000 static fe80::98 1", "1001 static fe80::99 1", "1002 static fe80::99 9", "1003 static fe80::99 4",
    "1004 static 2001:db8:9::1 1", "1005 clear fe80::99",
)


def body(next_header, octets, source=A22, hop_limit=64, version=6, length=None):
    """A packet of the host at port 1, with a header that may be at fault."""
    whole = making.frame(ROUTER_MAC, M2, 0x86DD, making.packet(source, making.ROUTER, next_header, hop_limit, octets))
    size = (len(octets) if length is None else length).to_bytes(2, "big")
    return whole[:14] + bytes([version << 4]) + whole[15:18] + size + whole[20:]


OPTIONS = bytes.fromhex("3c00010400000000")
# Frames at port 1 of hosts without a binding.
JUDGED = (
    ("an EtherType alone", bytes.fromhex("0200000000fe02000000002286dd"), "drop-BadIpv6"),
    ("version 5", body(59, b"", version=5), "drop-BadIpv6"),
    ("one octet fewer than there should be", body(59, b"", length=1), "drop-BadIpv6"),
    ("a source of a group", body(59, b"", source=making.ALL_NODES), "drop-BadIpv6"),
    ("hop-by-hop options twice", body(0, bytes.fromhex("00000104000000003b00010400000000")), "drop-BadIpv6"),
    ("options longer than the packet", body(60, bytes.fromhex("3bff010400000000")), "drop-BadIpv6"),
    ("an advertisement behind 182 headers",
     body(60, OPTIONS * 181 + b"\x3a" + OPTIONS[1:] + b"\x86" + bytes(7), hop_limit=255), "drop-RouterAdvert"),
    ("a first fragment with nothing in it", body(44, bytes.fromhex("3a00000100000001")), "drop-HiddenUpper"),
    ("next header 253", body(253, b""), "drop-UnknownNextHeader"),
    ("an authentication header of 8 octets", body(51, bytes.fromhex("1100000000000000") + bytes(8)), "drop-Unverified"),
    ("a wrong checksum", CLAIM_11[:-1] + b"\x12", "drop-BadNd"),
    ("a redirect", NAMED["router solicitation"][1].replace(b"\x85\x00\x7a", b"\x89\x00\x7a"), "drop-Redirect"),
    ("a claim in a fragment", making.in_first_fragment(CLAIM_11), "drop-FragmentedNd"),
    ("a server's reply", REPLY, "drop-DhcpServer"),
)


def check(same):
    """Compares each history with what it must come to. `same` takes a name, what is compared, and both values."""
    for name, (digits, made) in NAMED.items():
        same(name, "its octets are", made.hex(), digits.replace(" ", ""))
    for name, frames, lines, want, said in HISTORIES:
        run = replay(plan_of(), frames, lines)
        same(name, "the frames come to", judged(run), want)
        same(name, "the replies are", replies(run), said)
    for name, frame, verdict in JUDGED:
        run = replay(plan_of(), [(1, 1000, frame)])
        same(name, "the verdict is", judged(run)[0].split()[1], verdict)
    passing = plan_of(more='unknown = "pass"\n')
    same("next header 253, which passes", "the verdict is", judged(replay(passing, [(1, 1000, body(253, b""))])),
         ["1@1000 drop-Unverified - 1"])
    check_probes(same)
    check_room(same)
    check_control(same)
    check_stations(same)
    print(f"worked histories: {len(HISTORIES) + len(JUDGED) + 6} as they should be")


def check_probes(same):
    """What is sent: probes carry the moment at which they were due."""
    name = "data of an address that nobody has claimed"
    run = replay(plan_of(), [(1, stamp, data(M1, A11)) for stamp in (1000, 1499, 1500)])
    same(name, "the summary is", run.summary(), "entries 21 frames 3 passed 1 dropped 2 probes 2 lost 0 cut 0\n")
    same(name, "the frames come to", judged(run),
         ["1@1000 drop-Unverified - 1", "1@1499 drop-Unverified - 1", "1@1500 pass-all 2,3,4,5 0"])
    probe = claim(0x020000000001, A11)
    same(name, "port 4 sends", sent(run, 4), [(1000, probe), (1250, probe), (1500, data(M1, A11))])
    same(name, "entry 5 is", run.switch.entries[5].text.split()[4:], ["drop-Unverified", "-", "-", "1", "0"])
    name = "probes of a binding that ended long ago"
    run = replay(plan_of(), [(1, 1000, CLAIM_11), (2, 4000000, data(M2, A11))])
    same(name, "port 1 sends", sent(run, 1), [(301500, probe), (301750, probe)])
    same(name, "port 4 sends", sent(run, 4), [(1000, CLAIM_11), (4000000, probe)])


def check_room(same):
    name = "one address for each port"
    plan = plan_of(more="per_port = 1\n")
    run = replay(plan, [(1, 1000, CLAIM_11), (1, 1100, claim(M1, G11)), (2, 1200, claim(M2, G11))])
    same(name, "the frames come to", judged(run),
         ["1@1000 pass-trusted 4 0", "1@1100 drop-PortFull - 0", "2@1200 pass-trusted 4 0"])
    run = replay(plan, [], "".join(f"{line}\n" for line in STATIC_LINES))
    same(name, "the replies are", replies(run),
         ["ok", "error: port full", "error: no such port", "error: trusted port", "error: off-link", "error: no binding"])


def check_control(same):
    name = "quit"
    run = replay(plan_of(), [], "1 quit\n2 quit\n")
    same(name, "control ends by", [e.text for e in run.switch.entries if "control" in e.text], ["E control quit"])


def check_stations(same):
    """257 stations at one port: the last isn't known, and a frame to it goes everywhere."""
    macs = [(0x020000010000 + k).to_bytes(6, "big") for k in range(257)]
    adverts = [(4, 1000 + k, ADVERTS[0][:6] + mac + ADVERTS[0][12:]) for k, mac in enumerate(macs)]
    to_last = macs[-1] + data(M1, A11)[6:12] + b"\x08\x00"
    run = replay(plan_of(), adverts + [(1, 2300, to_last)], "2257 show stations\n")
    same("257 stations", "there are", len(replies(run)), 257)
    same("257 stations", "the last frame comes to", judged(run)[-1], "1@2300 pass-all 2,3,4,5 0")


# Loads by their frames: ports 1, 2, 3 claim an address each, and then send data in one another's names.
LOADS = {
    2: "entries 21 frames 5 passed 3 dropped 2 probes 1 lost 0 cut 0\n",
    100000: "entries 256188 frames 100003 passed 33237 dropped 66766 probes 23518 lost 0 cut 0\n",
}


def check_load(same, frames, seed=1):
    drawn = seed

    def draw():
        nonlocal drawn
        drawn = (1103515245 * drawn + 12345) % 2**31
        return drawn // 65536

    macs, addresses = (M1, M2, M3), (A11, A22, A33)
    load = [(1 + at, 0, claim(macs[at], addresses[at])) for at in range(3)]
    for k in range(frames):
        at = draw() % 3
        load.append((1 + at, 1000 + 10 * k, data(macs[at], addresses[draw() % 3])))
    run = replay(plan_of(more="entries = 1000000\n", control=False), load)
    same(f"a load of {frames} frames", "the summary is", run.summary(), LOADS[frames])
    print(f"a load of {frames} frames: as it should be")
