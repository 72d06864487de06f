"""Histories of ports in several VLANs, worked out by hand from the rules of docs/RULES.md and docs/FORMATS.md. Ports 1 and 5
are hosts in VLAN 10 and port 2 one in VLAN 20, port 3 is a trunk of both, port 4 is trusted in VLAN 10, and port 6 a server
in VLAN 20, unless a history says otherwise."""
import subprocess
import tempfile

from .. import capture, checking, making
from ..frame import tagged_frame
from ..learn import Learned
from ..making import claim, data
from ..plan import ConfigFault, key_text, read_key, read_mac, read_plan
from ..session import head
from .histories import A11, A12, A22, ADVERTS, G11, M1, M2, ROUTER_MAC, ask, judged, lease, replay, replies, sent

TOP = 'mac = "02:00:00:00:00:01"\njournal = "journal.txt"\ncontrol = "commands.txt"\ncontrol_out = "replies.txt"\n'

PORTS = (
    "host vlan = 10", "host vlan = 20", "trusted trunk = [20, 10]", "trusted vlan = 10", "host vlan = 10",
    "server vlan = 20",
)
# Two VLANs have the same prefix, with methods of their own; no port is in the VLAN of the last one.
PREFIXES = ("2001:db8:1::/64 dhcp vlan = 20", "2001:db8:1::/64 fcfs vlan = 10", "2001:db8:3::/64 fcfs vlan = 1")
# Two hosts and a trunk.
TENANTS = PORTS[:2] + ("trusted trunk = [10, 20]",)


def plan_text(ports=PORTS, prefixes=PREFIXES, more=""):
    text = TOP + more
    for number, (role, _, vlans) in enumerate((port.partition(" ") for port in ports), 1):
        text += f'[[port]]\nnumber = {number}\nrole = "{role}"\ninput = "{number}.pcap"\noutput = "{number}.out"\n{vlans}\n'
    for prefix, method, vlan in (prefix.split(" ", 2) for prefix in prefixes):
        text += f'[[prefix]]\nprefix = "{prefix}"\nmethod = "{method}"\n{vlan}\n'
    return text


def plan_of(*parts, **more):
    return read_plan(plan_text(*parts, **more).encode("ascii"))


def tag(control, frame, kind="8100"):
    """A frame with any tag, by its two octets behind the EtherType, in digits."""
    return frame[:12] + bytes.fromhex(kind + control) + frame[12:]


def filled(octets):
    """A frame of so many octets to a group, whose EtherType is IPv4's."""
    return making.frame((1 << 48) - 1, M1, 0x0800, bytes(octets - 14))


ADVERT = ADVERTS[0]
# Frames and where they come in, and each of them is dropped by rule 5.
TAGGED = (
    ("a tag at the port of a host", 1, tag("000a", data(M1, A11))),
    ("a tag at a trusted access port", 4, tag("000a", ADVERT)),
    ("no tag at a trunk", 3, ADVERT),
    ("a tag of a VLAN that the trunk doesn't list", 3, tag("001e", ADVERT)),
    ("the tag of VLAN 1 at this trunk", 3, tag("0001", ADVERT)),
    ("a priority alone at a trunk", 3, tag("e000", ADVERT)),
    ("a priority alone at the port of a host", 1, tag("e000", data(M1, A11))),
    ("VLAN 4095", 3, tag("0fff", ADVERT)),
    ("a service tag", 3, tag("000a", ADVERT, "88a8")),
    ("two tags", 3, tag("000a", tag("000a", ADVERT))),
    ("a service tag behind the tag", 3, tag("000a", tag("000a", ADVERT, "88a8"))),
    ("a tag with nothing behind it", 3, tag("000a", ADVERT)[:16]),
    ("a tag with one octet behind it", 3, tag("000a", ADVERT)[:17]),
    ("a tag that is cut", 3, tag("000a", ADVERT)[:14]),
)
# Frames at a trunk with a verdict of another rule, and with which of the ports in the VLAN it passes.
OTHERS = (
    ("a tag and nothing else", tag("000a", ADVERT)[:18], "pass-all 1,4,5"),
    ("a priority beside the VLAN", tag("f00a", ADVERT), "pass-all 1,4,5"),
    ("the tag of the other VLAN", tag("0014", ADVERT), "pass-all 2,6"),
    ("thirteen octets", tag("000a", ADVERT)[:13], "drop-Malformed -"),
    ("a reserved group and no VLAN", tag("0fff", bytes.fromhex("0180c2000000") + ADVERT[6:]), "drop-ReservedGroup -"),
    ("a group that sends with no tag", ADVERT[:6] + b"\x01" + ADVERT[7:], "drop-SourceMac -"),
)

# Control's line and its reply.
COMMANDS = (
    ("static fe80::99 1", "ok"), ("static fe80::99 2", "ok"), ("static fe80::99 3", "error: trusted port"),
    ("static fe80::99@10 1", "error: bad address"), ("static 2001:db8:1::99 2", "ok"),
    ("static 2001:db8:3::99 1", "error: off-link"), ("show bindings", "fe80::99@10 1 static - -"),
    (None, "2001:db8:1::99@20 2 static - -"), (None, "fe80::99@20 2 static - -"), (None, "end"),
    ("clear fe80::99", "error: bad address"), ("clear fe80::99@1", "error: bad address"),
    ("clear fe80::99@30", "error: bad address"), ("clear fe80::99@010", "error: bad address"),
    ("clear fe80::99@4095", "error: bad address"), ("clear fe80::99@", "error: bad address"),
    ("clear fe80::99@10@20", "error: bad address"), ("clear fe80::98@10", "error: no binding"),
    ("clear FE80:0::99@10", "ok"), ("clear fe80::99@10", "error: no binding"),
    ("show bindings", "2001:db8:1::99@20 2 static - -"),
    (None, "fe80::99@20 2 static - -"), (None, "end"),
)

HEAD = [
    "port 1 host pcap vlan 10", "port 2 host pcap vlan 20", "port 3 trusted pcap trunk 10,20", "port 4 trusted pcap vlan 10",
    "port 5 host pcap vlan 10", "port 6 server pcap vlan 20", "prefix 2001:db8:3::/64 fcfs",
    "prefix 2001:db8:1::/64 fcfs vlan 10", "prefix 2001:db8:1::/64 dhcp vlan 20",
]
# Lines of that head, by their numbers, and others that may not stand there.
BAD_LINES = (
    (12, "port 1 host pcap vlan 1"), (12, "port 1 host pcap vlan 0"), (12, "port 1 host pcap vlan 4095"),
    (12, "port 1 host pcap vlan 010"), (12, "port 1 host pcap vlan"), (12, "port 1 host pcap vlan 10,20"),
    (12, "port 1 host pcap vlan 10 "), (12, "port 1 host pcap Vlan 10"), (12, "port 1 host pcap trunk 10"),
    (14, "port 3 trusted pcap trunk 20,10"), (14, "port 3 trusted pcap trunk 10,10"), (14, "port 3 trusted pcap trunk"),
    (14, "port 3 trusted pcap trunk 10,"), (14, "port 3 trusted pcap trunk 0,10"), (14, "port 3 trusted pcap trunk 10,4095"),
    (14, "port 3 trusted pcap trunk 10 vlan 10"), (14, "port 3 trusted pcap trunk 1,2,3,4,5,6,7"),
    (18, "prefix 2001:db8:3::/64 fcfs vlan 1"), (18, "prefix 2001:db8:3::/64 fcfs vlan 4095"),
    (18, "prefix 2001:db8:3::/64 fcfs trunk 2"), (19, "prefix 2001:db8:1::/64 fcfs vlan 10,20"),
    (19, "prefix 2001:db8:3::/64 fcfs"), (20, "prefix 2001:db8:1::/64 dhcp vlan 10"),
    (20, "prefix 2001:db8:1::/64 dhcp vlan 9"),
)
# And lines that may.
GOOD_LINES = (
    (12, "port 1 host pcap"), (12, "port 1 host pcap vlan 4094"), (14, "port 3 trusted pcap trunk 1"),
    (14, "port 3 trusted pcap trunk 1,2,3,4,5,6"), (20, "prefix 2001:db8::/32 mixed vlan 20"),
)

# What a plan of these ports and prefixes comes to: the number of its fault, or none.
FAULTS = (
    (("host vlan = 1", "host vlan = 4094", "trusted trunk = [1]"), (), None),
    (("trusted trunk = [4094, 1, 8, 7, 6, 5, 4, 3]",), (), None),
    (("host", "host vlan = 2", "trusted trunk = [3, 4, 5, 6, 7, 8]"), ("2001:db8::/32 fcfs vlan = 9",), None),
    (("host",), ("2001:db8::/32 fcfs", "2001:db8:1::/64 dhcp vlan = 2"), None),
    (("host vlan = 0",), (), 22), (("host vlan = 4095",), (), 22), (("host vlan = -1",), (), 22),
    (("host",), ("2001:db8::/32 fcfs vlan = 0",), 22),
    (("trusted trunk = []",), (), 22), (("trusted trunk = [2, 2]",), (), 22), (("trusted trunk = [0]",), (), 22),
    (("trusted trunk = [2]\nvlan = 2",), (), 22), (("host trunk = [2]\nvlan = 2",), (), 22), (("host trunk = []",), (), 22),
    (("host trunk = [2]",), (), 23), (("server trunk = [2]",), (), 23),
    (("host trunk = [1, 2, 3, 4, 5, 6, 7, 8, 9]",), (), 23), (("trusted trunk = [1, 2, 3, 4, 5, 6, 7, 8, 9]",), (), 24),
    (("host", "trusted trunk = [2, 3, 4, 5, 6, 7, 8, 9]"), (), 24),
    (("host vlan = 4095",), ("2001:db8::/32 fcfs", "2001:db8:1::/64 dhcp vlan = 1"), 18),
    (("host",), ("2001:db8::/32 fcfs vlan = 2", "2001:db8:1::/64 dhcp vlan = 2"), 18),
    (("host",), ("fe80::/10 fcfs vlan = 2",), 18),
    (("host vlan = 0\nformat = \"stream\"",), (), 20), (("host vlan = \"2\"",), (), 3), (("host vlan = [2]",), (), 3),
    (("trusted trunk = 2",), (), 3), (("trusted trunk = [2, \"3\"]",), (), 3), (("trusted trunk = [2.0]",), (), 3),
    (("host vlans = 2",), (), 2), (("host",), ("2001:db8::/32 fcfs trunk = [2]",), 2),
)


def check(same):
    """Compares each history with what it must come to. `same` takes a name, what is compared, and both values."""
    check_row(same)
    check_tags(same)
    check_lengths(same)
    check_ways(same)
    check_prefixes(same)
    check_probes(same)
    check_requests(same)
    check_commands(same)
    check_stations(same)
    check_segments(same)
    check_heads(same)
    check_faults(same)
    check_keys(same)
    check_learning(same)
    print(f"worked histories of VLANs: {len(TAGGED) + len(OTHERS) + 9}, {len(BAD_LINES) + len(GOOD_LINES)} lines of a head "
          f"and {len(FAULTS)} plans as they should be")


def check_row(same):
    """Two tenants have one address, and a trunk has both VLANs."""
    name = "two tenants and a trunk"
    asked, answered = claim(M1, A11), claim(M2, A11)
    frames = [(1, 1000, asked), (2, 1100, answered), (3, 2100, tag("0014", ADVERT)), (3, 2101, ADVERT),
              (1, 2102, tag("000a", data(M1, A11)))]
    run = replay(plan_of(TENANTS, ()), frames, "2000 show bindings\n")
    same(name, "the frames come to", judged(run),
         ["1@1000 pass-trusted 3 0", "2@1100 pass-trusted 3 0", "3@2100 pass-all 2 0", "3@2101 drop-Tagged - 0",
          "1@2102 drop-Tagged - 0"])
    same(name, "port 3 gets", sent(run, 3), [(1000, tag("000a", asked)), (1100, tag("0014", answered))])
    same(name, "it gets octets", [len(octets) for _, octets in sent(run, 3)], [82, 82])
    same(name, "port 2 gets", sent(run, 2), [(2100, ADVERT)])
    same(name, "port 1 gets", sent(run, 1), [])
    same(name, "the replies are", replies(run), ["fe80::11@10 1 valid - 301500", "fe80::11@20 2 valid - 301600", "end"])


def check_tags(same):
    for name, port, frame in TAGGED:
        for more in ("", 'savi = "off"\n'):
            run = replay(plan_of(more=more), [(port, 1000, frame)])
            same(f"{name} {more}", "it comes to", judged(run), [f"{port}@1000 drop-Tagged - 0"])
    for name, frame, want in OTHERS:
        same(name, "it comes to", judged(replay(plan_of(), [(3, 1000, frame)])), [f"3@1000 {want} 0"])
    run = replay(plan_of(("trusted trunk = [10]",) * 2, ()), [(1, 1000, tag("f00a", ADVERT))])
    same("a priority beside the VLAN", "another trunk sends", sent(run, 2), [(1000, tag("000a", ADVERT))])


def judged_by(program, text, port, frame):
    """The verdict of a program on one frame at 1 s, and the ports to which it goes."""
    with tempfile.TemporaryDirectory() as work:
        plan = read_plan(text.encode("ascii"))
        files = {"plan.toml": text.encode("ascii"), plan.control[0]: b""}
        files |= {at.input: capture.HEADER + (capture.record(1000, frame) if at.number == port else b"") for at in plan.ports}
        for name, octets in files.items():
            with open(f"{work}/{name}", "wb") as file:
                file.write(octets)
        subprocess.run([program, "replay", "plan.toml"], cwd=work, check=True, stdout=subprocess.DEVNULL, timeout=100)
        with open(f"{work}/{plan.journal}", encoding="ascii") as file:
            entries = [line.split() for line in file]
    return [" ".join(entry[7:9]) for entry in entries if entry[3:5] == ["F", str(port)]]


def check_program(same, program):
    """A program judges each frame of both tables as is worked out here."""
    for name, port, frame in TAGGED:
        for more in ("", 'savi = "off"\n'):
            same(f"{name} {more}", "the program says", judged_by(program, plan_text(more=more), port, frame), ["drop-Tagged -"])
    for name, frame, want in OTHERS:
        same(name, "the program says", judged_by(program, plan_text(), 3, frame), [want])
    print(f"worked frames with tags: the program judges {2 * len(TAGGED) + len(OTHERS)} as they should be")


def check_lengths(same):
    """The longest frame has a tag more where it goes out at a trunk, and one that comes in with a tag counts with it."""
    name = "the longest frames"
    frames = [(1, 1000, filled(1518)), (3, 1001, tag("000a", filled(1514))), (3, 1002, tag("000a", filled(1515)))]
    run = replay(plan_of(TENANTS, ()), frames)
    same(name, "the frames come to", judged(run), ["1@1000 pass-all 3 0", "3@1001 pass-all 1 0"])
    same(name, "port 3 sends", sent(run, 3), [(1000, tag("000a", filled(1518)))])
    same(name, "port 3 sends octets", len(sent(run, 3)[0][1]), 1522)
    same(name, "port 1 sends", sent(run, 1), [(1001, filled(1514))])
    same(name, "the summary is", run.summary().split(" ", 2)[2], "frames 3 passed 2 dropped 1 probes 0 lost 0 cut 0\n")


def check_ways(same):
    """One MAC address in two VLANs: a frame to it goes where it is in the frame's own."""
    name = "one station in two VLANs"
    to_host = making.frame(M1, ROUTER_MAC, 0x0800, b"")
    frames = [(1, 1000, claim(M1, A11)), (2, 1000, claim(M1, A11)), (1, 1600, data(M1, A11)), (2, 1601, data(M1, A11)),
              (3, 1700, tag("000a", to_host)), (3, 1701, tag("0014", to_host)), (5, 1702, to_host), (4, 1703, to_host)]
    run = replay(plan_of(), frames, "1800 show stations\n")
    same(name, "the frames come to", judged(run),
         ["1@1000 pass-trusted 3,4 0", "2@1000 pass-trusted 3 0", "1@1600 pass-all 3,4,5 0", "2@1601 pass-all 3,6 0",
          "3@1700 pass-all 1 0", "3@1701 pass-all 2 0", "5@1702 pass-all 1 0", "4@1703 pass-all 1 0"])
    same(name, "the replies are", replies(run),
         ["02:00:00:00:00:11@10 1 301600", "02:00:00:00:00:fe@10 4 301703", "02:00:00:00:00:11@20 2 301601",
          "02:00:00:00:00:fe@20 3 301701", "end"])


def check_prefixes(same):
    """A prefix, with its method, is one of its VLAN alone."""
    other = claim(M1, making.read_address("2001:db8:3::1"))
    run = replay(plan_of(), [(1, 1000, claim(M1, G11)), (2, 1001, claim(M2, G11)), (1, 1002, other)])
    same("a prefix of two VLANs", "the frames come to", judged(run),
         ["1@1000 pass-trusted 3,4 0", "2@1001 drop-NotAssigned - 0", "1@1002 drop-OffLink - 0"])


def check_probes(same):
    """Trusted ports of the VLAN are asked, and probes that are due at one moment go out by VLAN, then by address."""
    name = "probes in two VLANs"
    frames = [(2, 1000, data(M2, A11)), (1, 1000, data(M1, A22)), (1, 1000, data(M1, A12)), (1, 1300, data(M1, A12))]
    run = replay(plan_of(), frames)
    same(name, "the frames come to", judged(run),
         ["1@1000 drop-Unverified - 2", "1@1000 drop-Unverified - 2", "2@1000 drop-Unverified - 1",
          "1@1300 drop-Unverified - 5"])
    asked = ((10, A22), (10, A12), (20, A11), (10, A12), (10, A22), (20, A11))
    probes = [tagged_frame(vlan, claim(0x020000000001, address)) for vlan, address in asked]
    same(name, "port 3 sends", sent(run, 3), [(moment, probe) for moment, probe in zip((1000,) * 3 + (1250,) * 3, probes)])
    same(name, "port 4 sends", [moment for moment, _ in sent(run, 4)], [1000, 1000, 1250, 1250])


def check_requests(same):
    """One transaction of one client in two VLANs is two requests; a reply counts in its own VLAN."""
    name = "requests in two VLANs"
    leased, own = lease([(G11, 600)]), claim(M1, A11)
    frames = [(1, 1000, own), (2, 1000, claim(M1, A11)), (5, 1000, claim(M1, A12)), (1, 2000, ask(M1, A11, 0x0A0B0C)),
              (2, 2001, ask(M1, A11, 0x0A0B0C)), (5, 2002, ask(M1, A12, 0x0A0B0C)), (3, 2100, tag("000a", leased)),
              (2, 2101, data(M1, G11)), (3, 2102, tag("0014", leased)), (2, 2103, data(M1, G11))]
    run = replay(plan_of(), frames, "2050 show ports\n2200 show bindings\n")
    same(name, "the frames come to", judged(run)[3:],
         ["1@2000 pass-all 3,4,5 0", "2@2001 pass-all 3,6 0", "5@2002 drop-DhcpContested - 0", "3@2100 pass-all 1 0",
          "2@2101 drop-NotAssigned - 0", "3@2102 pass-all 2 0", "2@2103 pass-all 3 0"])
    same(name, "the replies are", replies(run),
         ["1 host up 1 1 0", "2 host up 1 1 0", "3 trusted up 0 0 0", "4 trusted up 0 0 0", "5 host up 1 0 0",
          "6 server up 0 0 0", "end", "fe80::11@10 1 valid - 302000", "fe80::12@10 5 valid - 302002",
          "2001:db8:1::11@20 2 bound - 722102", "fe80::11@20 2 valid - 302001", "end"])


def check_commands(same):
    lines = [line for line, _ in COMMANDS if line]
    run = replay(plan_of(), [], "".join(f"{1000 + at} {line}\n" for at, line in enumerate(lines)))
    same("commands in two VLANs", "the replies are", replies(run), [reply for _, reply in COMMANDS])


def check_stations(same):
    """A trunk has room for 256 stations in each of its VLANs."""
    def of(vlan, k):
        return tagged_frame(vlan, making.frame((1 << 48) - 1, 0x020000010000 + k, 0x0800, b""))

    frames = [(3, 1000 + k, of(10, k)) for k in range(257)] + [(3, 1257, of(20, 256))]
    frames += [(1, 1300, making.frame(0x020000010000 + k, M1, 0x0800, b"")) for k in (255, 256)]
    frames += [(2, 1301, making.frame(0x020000010100, M2, 0x0800, b""))]
    run = replay(plan_of(), frames, "1258 show stations\n")
    same("257 stations in one VLAN, and one in another", "the last frames come to", judged(run)[-3:],
         ["1@1300 pass-all 3 0", "1@1300 pass-all 3,4,5 0", "2@1301 pass-all 3 0"])
    same("257 stations in one VLAN, and one in another", "the last lines are", (len(replies(run)), replies(run)[-3:]),
         (258, ["02:00:00:01:00:ff@10 3 301255", "02:00:00:01:01:00@20 3 301257", "end"]))


def check_segments(same):
    """What a segment goes on from names VLANs, and a check takes it."""
    name = "VLANs in segments"
    frames = [(2, 1000, claim(M2, A11)), (1, 1100, claim(M1, A11)), (2, 1700, ask(M2, A11, 7, M2)), (1, 1800, data(M1, A11))]
    run = replay(plan_of(more="entries = 4131\n"), frames, "1000 static 2001:db8:1::99 2\n")
    text = "".join(run.journal())
    base = [line for line in run.segments[-1].base if not line.endswith(" 0") and not line.startswith("ended")]
    same(name, "the last segment goes on from", base,
         ["moment 1700", "shut -", "count Pass 3", "fcfs fe80::11@10 valid 1 301600", "fixed 2001:db8:1::99@20 2",
          "fcfs fe80::11@20 valid 2 301700", "request 20 2 7 00030001020000000022 121700",
          "station 02:00:00:00:00:11@10 1 1100", "station 02:00:00:00:00:22@20 2 1700"])
    same(name, "the check says", checking.answer(text.encode("ascii")), f"good: {len(run.entries())} entries")
    others = ("fe80::11@10 valid", "fe80::11 valid"), ("request 20 ", "request 10 "), ("11@10 1 1100", "11@20 1 1100")
    for old, new in others:
        at = text.index(old)
        changed = text[:at] + new + text[at + len(old) :]
        want = f"bad line {text.count(chr(10), 0, at) + 1}"
        same(f"{name}, with {new}", "the check says", checking.answer(changed.encode("ascii")), want)


def check_heads(same):
    run = replay(plan_of(), [])
    lines = "".join(run.journal()).splitlines()
    same("the head of a journal", "its last lines are", head(run.plan).splitlines()[11:], HEAD)
    for number, line in BAD_LINES + GOOD_LINES:
        text = "".join(f"{line if at == number else other}\n" for at, other in enumerate(lines, 1))
        want = f"bad line {number}" if (number, line) in BAD_LINES else f"good: {len(run.entries())} entries"
        same(f"a journal with {line!r}", "the check says", checking.answer(text.encode("ascii")), want)


def check_faults(same):
    for ports, prefixes, want in FAULTS:
        text = plan_text(ports, [prefix if "=" in prefix else f"{prefix} " for prefix in prefixes])
        try:
            read_plan(text.encode("ascii"))
            found = None
        except ConfigFault as fault:
            found = int(str(fault).split()[-1])
        same(f"a plan of {ports} and {prefixes}", "its fault is", found, want)


def check_keys(same):
    """A key is an address alone in VLAN 1, and has the number of any other one behind `@`."""
    for vlan in (1, 2, 10, 4094):
        same("keys", f"what is read of one of VLAN {vlan} is", read_key(key_text(vlan, "fe80::11")), (vlan, A11))
        station = read_key(key_text(vlan, "02:00:00:00:00:11"), read_mac)
        same("keys", f"what is read of a station of VLAN {vlan} is", station, (vlan, M1))
    for behind in ("@", "@0", "@1", "@4095", "@02", "@2 ", "@2@2", "@-2"):
        same("keys", f"what is read of fe80::11{behind} is", read_key(f"fe80::11{behind}"), None)
    same("keys", "what is read of no address is", read_key("@2"), None)


def check_learning(same):
    """Routers are learned at access ports of VLAN 1, from frames without a tag; the window begins with the first one there."""
    plan = plan_of(("host", "trusted", "host vlan = 10", "trusted trunk = [1]"), ())
    frames = [(4, 900, tag("0001", ADVERT)), (3, 950, ADVERT), (2, 1000, ADVERT), (1, 1001, ADVERT),
              (1, 1002, tag("0001", ADVERT)), (1, 1600, ADVERT), (3, 1700, ADVERT), (4, 1801000, tag("0001", ADVERT))]
    captures = {n: capture.arrivals(making.capture([row[1:] for row in frames if row[0] == n])) for n in (1, 2, 3, 4)}
    same("routers in several VLANs", "what is learned is", list(Learned(plan, captures, 500).lines()),
         ["advert 1000 2 pass", "advert 1001 1 drop", "advert 1600 1 pass", "port 1 forwarding", "port 2 forwarding",
          "router fe80::22 1 1801600", "lost 0", "end"])
