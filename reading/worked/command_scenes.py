"""What the scenes with control come to, worked out by hand from the rules of docs/RULES.md, docs/TROUBLE.md and
docs/COMMANDS.md. Ports 1, 2, 3 are hosts, 4 is trusted and 5 a server, and 2001:db8:1::/64 is fcfs, 2001:db8:2::/64 dhcp and
2001:db8:3::/64 mixed, unless a scene says otherwise."""
from ..commands import RULES
from .scenes import OPENED, SILENT, judged
from .scenes import WORKED as WITHOUT_COMMANDS


def ports(*rows, down=()):
    """The reply to `show ports`, where a row has what a port holds, its open requests and its queue."""
    roles = ("host", "host", "host", "trusted", "server")
    lines = []
    for n, (role, row) in enumerate(zip(roles, rows), 1):
        lines.append(f"{n} {role} {'down' if n in down else 'up'} {row}")
    return lines + ["end"]


def counters(**counts):
    """The reply to `show counters`, where what isn't named is 0."""
    return [f"{name} {counts.get(name, 0)}" for name in (*RULES, "Pass", "Cut", "Probes", "Lost")] + ["end"]


NOTHING = "0 0 0"
CLAIM, RIVAL = "1@1000 address_question pass-trusted 4 0", "2@2000 packet_of_fe80::11_by_host_2 drop-WrongPort - 1"
UNVERIFIED, SHUT, PASSED = (
    f"1@2000 PACKET {row}" for row in ("drop-Unverified - 1", "drop-PortDown - 0", "pass-all 2,3,4,5 0"))

# Each scene: its frames in the order in which they are judged, as PORT@STAMP FRAME VERDICT OUTS PROBES; its replies; and
# further lines that it leaves.
WORKED = {
    "a host boots, and its bindings are shown": (
        WITHOUT_COMMANDS["a host boots"][0],
        ["2001:db8:1::11 1 valid - 303000", "fe80::11 1 valid - 302100", "end"], SILENT),
    "what a run with control opens": (
        WITHOUT_COMMANDS["a host boots"][0],
        ["2001:db8:1::11 1 valid - 303000", "fe80::11 1 valid - 302100", "end"],
        ["std err", "input plan", "port 1 host pcap 1.pcap 1.out", "port 4 trusted pcap 4.pcap 4.out",
         "port 5 server pcap 5.pcap 5.out", "control commands.txt replies.txt recorded", "output journal.txt", "std out"]),
    "a tentative address is shown": (
        [CLAIM, "1@1100 PACKET drop-Unverified - 0"], ["fe80::11 1 tentative - 1500", "end"], SILENT),
    "a holder that answered is shown": (
        [CLAIM, RIVAL, "1@2400 answer_of_host_1 pass-all 2,3,4,5 1"], ["fe80::11 1 valid - 302400", "end"],
        ["port 1: HEADER AT_2000_78 probe_for_fe80::11 AT_2250_78 probe_for_fe80::11"]),
    "a new holder is shown": (
        [CLAIM, RIVAL, "2@2500 packet_of_fe80::11_by_host_2 pass-all 1,3,4,5 1"],
        ["fe80::11 2 valid - 302500", "end"], SILENT),
    "a test is shown": (
        [CLAIM, RIVAL, "3@2300 packet_of_fe80::11_by_host_3 drop-Contested - 1"], ["fe80::11 1 testing-vp 2 2500", "end"],
        SILENT),
    "an objection leaves nothing to show": (
        [CLAIM, "4@1200 answer_of_the_router_for_fe80::11 pass-all 1,2,3,5 0"], ["end"], SILENT),
    "router advertisements of a host bind nothing": (
        WITHOUT_COMMANDS["router advertisements of a host"][0],
        ["end", "fe80::22 2 tentative - 1503", "end"], SILENT),
    "fragments, and the binding that they renew": (
        WITHOUT_COMMANDS["fragments"][0], ["2001:db8:1::22 2 valid - 302001", "end"], SILENT),
    "a lease is shown": (
        [CLAIM, "5@1000 question_for_fe80::22_by_host_2 pass-trusted 4 0", "1@2000 dhcp_request pass-all 2,3,4,5 0",
         "5@2100 dhcp_reply pass-all 1 0", "1@2300 packet_of_2001:db8:2::102 drop-NotAssigned - 0",
         "2@2400 dhcp_reply drop-DhcpServer - 0"],
        ["2001:db8:2::101 1 bound - -", "fe80::11 1 valid - 302000", "fe80::22 5 valid - 302100", "end"], SILENT),
    "open requests are shown": (
        WITHOUT_COMMANDS["another host asks with the same identity"][0],
        ports("1 1 0", "1 0 0", NOTHING, NOTHING, "1 0 0") * 2 + ports("1 0 0", "1 0 0", NOTHING, NOTHING, "1 0 0"), SILENT),
    "a claim of another port is shown, and no lease": (
        WITHOUT_COMMANDS["a lease of an address that another port claimed first"][0][:-1],
        ["2001:db8:3::33 2 valid - 301500", "fe80::11 1 valid - 302000", "end"], SILENT),
    "a lease and a claim of one port are shown, and its release": (
        WITHOUT_COMMANDS["a lease of an address that its own port claimed first, and its release"][0][:-1],
        ["2001:db8:3::33 1 bound - 722100", "2001:db8:3::33 1 valid - 301500", "fe80::11 1 valid - 302000", "end",
         "2001:db8:3::33 1 valid - 301500", "fe80::11 1 valid - 302300", "end"], SILENT),
    "a silent address is shown until it is gone": (
        [CLAIM],
        ["fe80::11 1 tentative - 1500", "end"] + ["fe80::11 1 valid - 301500", "end"] * 2
        + ["fe80::11 1 testing-lt - 302000", "end"] * 2 + ["end"],
        ["port 1: HEADER AT_301500_78 probe_for_fe80::11 AT_301750_78 probe_for_fe80::11",
         "10 5 301500 C 301500 show_bindings 1 0", "11 7 301500 D 1 1", "12 5 301999 C 301999 show_bindings 1 0"]),
    "stations are shown": (
        ["1@1000 listener_report pass-trusted 4 0", "4@1100 advert_of_the_router pass-all 1,2,3,5 0"],
        ["02:00:00:00:00:11 1 301000", "02:00:00:00:00:fe 4 301100", "end", "02:00:00:00:00:fe 4 301100", "end", "end"],
        SILENT),
    "what was counted is shown": (
        ["1@1000 PACKET drop-Unverified - 1", "4@1001 1519 drop-Malformed - 0", "1@1499 PACKET drop-Unverified - 1",
         "1@1500 PACKET pass-all 2,3,4,5 0", "4@1600 thirteen_octets drop-Malformed - 0"],
        counters(Malformed=2, Unverified=2, Pass=1, Probes=2), SILENT),
    "each command and each error": (
        [],
        ["end", "ok", "ok", "fe80::99 2 static - -", "end", "ok", "error: no binding", "error: bad address",
         "error: bad address", "error: bad port", "error: no such port", "error: trusted port", "error: off-link",
         "error: no such port", "error: bad port", "error: unknown command", "error: unknown command", "error: bad address",
         "error: unknown command", "ok", "ok"] + ports(*[NOTHING] * 5, down=[1]) + ["ok", "ok", "end"] + counters() + ["ok"],
        ["status 0", "20 5 1015 C 1015 - 0 0", "30 5 1025 C 1025 quit 0 0", "31 5 1025 E control quit", "end 38"]),
    "a request whose option is longer than the message": (
        [CLAIM, "1@2000 dhcp_request_with_an_overlong_option pass-all 2,3,4,5 0"],
        ports("1 0 0", NOTHING, NOTHING, NOTHING, NOTHING), SILENT),
    "51 leases in one reply, and room for 31": (
        [CLAIM, "5@1000 question_for_fe80::22_by_host_2 pass-trusted 4 0",
         "1@2000 dhcp_request_of_the_shortest_identity pass-all 2,3,4,5 0", "5@2100 reply_with_51_leases pass-all 1 0"],
        ports("32 0 0", NOTHING, NOTHING, NOTHING, "1 0 0")
        + [f"2001:db8:2::{k:x} 1 bound - 722100" for k in range(1, 32)]
        + ["fe80::11 1 valid - 302000", "fe80::22 5 valid - 302100", "end"],
        SILENT + ["port 1: HEADER AT_2100_1517 reply_with_51_leases"]),
    "a port is shut and opened": (
        ["1@1000 listener_report drop-PortDown - 0", "1@2600 listener_report pass-trusted 4 0"],
        ["ok", "ok", "02:00:00:00:00:11 1 302600", "end"] + ports(*[NOTHING] * 5), SILENT),
    "commands at the moment of a frame": (
        ["1@1000 listener_report drop-PortDown - 0", "1@1001 listener_report pass-trusted 4 0"], ["ok", "ok"],
        ["4 5 1000 C 1000 shut_1 0 0", "5 0 1000 F 1 1000 listener_report drop-PortDown - - 0 0",
         "6 5 1001 C 1001 open_1 0 0", "7 5 1001 E control end", "8 0 1001 F 1 1001 listener_report pass-trusted 4 - 0 0"]),
    "nothing gets past a shut port": (
        ["1@1000 thirteen_octets drop-PortDown - 0", "4@1001 1519 drop-PortDown - 0",
         "4@1002 frame_of_1518_octets drop-PortDown - 0", "1@1003 PACKET drop-PortDown - 0"],
        ["ok", "ok"] + counters(PortDown=4), SILENT),
    "no probe for a shut port": (
        ["1@1000 PACKET drop-Unverified - 0", "1@1499 PACKET drop-Unverified - 1", "1@1500 PACKET pass-all 2,3,4,5 0"],
        ["ok", "ok"],
        ["port 4: HEADER AT_1250_78 probe_for_fe80::11 AT_1500_54 PACKET",
         "entries 22 frames 3 passed 1 dropped 2 probes 1 lost 0 cut 0"]),
    "the holder's port is shut": (
        [CLAIM, "2@3000 packet_of_fe80::11_by_host_2 drop-WrongPort - 0",
         "2@3500 packet_of_fe80::11_by_host_2 pass-all 3,4,5 0"],
        ["ok", "fe80::11 1 testing-vp 2 3500", "end"] + ports(NOTHING, "1 0 0", NOTHING, NOTHING, NOTHING, down=[1]),
        ["port 1: HEADER"]),
    "a station behind a shut port": (
        ["4@1000 advert_of_the_router pass-all 1,2,3,5 0", "1@1200 PACKET pass-all - 0", "1@1400 PACKET pass-all 4 0"],
        ["ok", "ok", "ok"], SILENT),
    "a static binding, and its end": (
        ["1@1000 PACKET pass-all 2,3,4,5 0", "2@1001 packet_of_fe80::11_by_host_2 drop-WrongPort - 0",
         "4@1003 answer_of_the_router_for_fe80::11 pass-all 1,2,3,5 0", "1@1200 PACKET drop-Unverified - 1"],
        ["ok", "fe80::11 1 static - -", "end", "ok", "end"], SILENT),
    "a static binding takes the place of another": (
        [CLAIM, "1@1700 PACKET drop-WrongPort - 0", "2@1800 packet_of_fe80::11_by_host_2 pass-all 1,3,4,5 0"],
        ["ok", "fe80::11 2 static - -", "end"] + ports(NOTHING, "1 0 0", NOTHING, NOTHING, NOTHING), SILENT),
    "a static binding of an address that a server assigns": (
        ["1@1000 packet_of_2001:db8:2::101 pass-all 2,3,4,5 0", "1@1001 packet_of_2001:db8:2::102 drop-NotAssigned - 0"],
        ["ok"], SILENT),
    "a lease and a claim end by clear": (
        ["1@1000 question_for_2001:db8:3::33 pass-trusted 4 0", CLAIM, "1@2000 dhcp_request pass-all 2,3,4,5 0",
         "4@2100 lease_of_2001:db8:3::33 pass-all 1 0", "1@2300 packet_of_2001:db8:3::33 drop-Unverified - 1"],
        ["ok", "fe80::11 1 valid - 302000", "end"], SILENT),
    # One address for each port.
    "static bindings and their errors": (
        [], ["ok", "error: port full", "error: no such port", "error: trusted port", "error: off-link", "error: no binding"],
        SILENT),
    "what a port holds that may have one address": (
        [CLAIM, "1@1100 question_for_2001:db8:1::11 drop-PortFull - 0",
         "2@1200 question_for_2001:db8:1::11_by_host_2 pass-trusted 4 0"],
        ports("1 0 0", "1 0 0", NOTHING, NOTHING, NOTHING), SILENT),
    "a static binding of what a full port holds": (
        [CLAIM], ["error: port full", "ok", "fe80::11 1 static - -", "end"], SILENT),
    "a static binding of what a full port claims": (
        [CLAIM, RIVAL], ["error: port full", "ok", "fe80::11 2 static - -", "end"],
        ["port 1: HEADER AT_2000_78 probe_for_fe80::11"]),
    # Queues of one item.
    "probes for a queue of one item, of which one is lost": (
        ["1@1000 PACKET drop-Unverified - 1", "1@1001 packet_of_2001:db8:1::11 drop-Unverified - 1"],
        ports("2 0 0", NOTHING, NOTHING, "0 0 1", NOTHING) + counters(Unverified=2, Probes=3, Lost=1),
        ["9 5 2000 C 2000 show_ports 1 1", "10 10 2000 D 4 1",
         "port 4: HEADER AT_1000_78 probe_for_fe80::11 AT_1001_78 probe_for_2001:db8:1::11 AT_1250_78 probe_for_fe80::11"]),
    "quit, and the ports go on": (
        ["1@1000 PACKET drop-Unverified - 1", "1@2500 PACKET pass-all 2,3,4,5 0"], ["ok"],
        ["status 0", "6 5 2000 C 2000 quit 1 0", "7 5 2000 E control quit", "8 10 2000 D 4 1",
         "9 0 2500 F 1 2500 PACKET pass-all 2,3,4,5 - 0 0"]),
    "falling stamps of commands": (
        ["1@4500 PACKET drop-Unverified - 1"], ["fe80::11 1 valid - 305000", "end"] * 2,
        ["7 5 5000 C 5000 show_bindings 1 0", "8 10 5000 D 4 1", "9 5 5000 C 4000 show_bindings 0 0"]),
    "the latest stamp of a command": (
        [], ports(*[NOTHING] * 5), ["5 5 4611686018427387904 C 18446744073709551615 show_ports 0 0"]),
    "a last command without its line feed": (
        [], ["end", "ok"], ["status 0", "6 5 1001 C 1001 quit 0 0", "7 5 1001 E control quit"]),
    "a command of 120 octets": (
        [], ["error: unknown command"], ["status 0", "5 5 1000 C 1000 115_times_x 0 0", "6 5 1000 E control end"]),
    "a line that is too long behind commands": (
        [], ["ok", "fe80::99 1 static - -", "end", "ok", "end"],
        ["status 4", "control: overlong line at 81", "9 5 1003 E control overlong 81"]),
    "a line that is too long between commands": (
        [SHUT], ["ok"], ["status 4", "control: overlong line at 12", "5 5 1000 E control overlong 12"]),
    "a command without a stamp": (
        [], [], ["status 4", "control: malformed at 0", "0 5 0 E control malformed 0"]),
    "an empty line between commands": (
        [SHUT], ["ok"], ["status 4", "control: malformed at 12", "5 5 1000 E control malformed 12"]),
    "a stamp with a zero in front": (
        [SHUT], ["ok"], ["status 4", "control: malformed at 12", "5 5 1000 E control malformed 12"]),
    # The commands are `show bindings`, `static fe80::11 1` and `quit`.
    "the first reply isn't written": (
        [UNVERIFIED], [], ["status 6", "control: write failed", "4 5 1000 C 1000 show_bindings 0 0",
                           "5 5 1000 E control unwritten"]),
    "a reply between others isn't written": (
        [PASSED], ["end"], ["status 6", "control: write failed", "6 5 1001 E control unwritten"]),
    "the reply to quit isn't written": (
        [PASSED], ["end", "ok"], ["status 6", "control: write failed", "6 5 1002 C 1002 quit 0 0",
                                  "7 5 1002 E control unwritten"]),
    "a reply isn't written, and nothing can be said of it": ([UNVERIFIED], [], ["status 6"]),
    "a reply isn't written, and a read of a port fails": (
        [], [], ["status 5", "port 1: read failed", "control: write failed", "0 0 0 E in1 failed"]),
    "a reply isn't written, and a write at a port fails": (
        [PASSED], ["end"], ["status 6", "control: write failed", "port 4: write failed"]),
    "a reply isn't written, and the journal isn't": (
        [], ["end"], ["status 6", "control: write failed", "journal: write failed", "journal:"]),
    # The commands are `shut 1` and `open 1`.
    "a read of the first command fails": ([UNVERIFIED], [], ["status 5", "control: read failed", "0 5 0 E control failed"]),
    "a read of the second command fails": (
        [SHUT], ["ok"], ["status 5", "control: read failed", "5 5 1000 E control failed"]),
    "a read of a word of the second command fails": ([SHUT], ["ok"], ["status 5", "control: read failed"]),
    "a read of the second line feed fails": ([SHUT], ["ok"], ["status 5", "control: read failed"]),
    "a read of the end of control fails": (
        [UNVERIFIED], ["ok", "ok"], ["status 5", "control: read failed", "6 5 1001 E control failed"]),
    "a read of nothing of control fails": ([UNVERIFIED], ["ok", "ok"], SILENT + ["6 5 1001 E control end"]),
    "a read of the end behind a line without a line feed fails": ([SHUT], ["ok"], ["status 5", "control: read failed"]),
    "a read behind 120 octets of a line fails": ([UNVERIFIED], [], ["status 5", "control: read failed"]),
    "a read behind 121 octets of a line fails": ([UNVERIFIED], [], ["status 4", "control: overlong line at 0"]),
    # A segment has room for seven entries, or for thirteen octets.
    "a history that is full of commands": (
        [], ["end"] + ports(*[NOTHING] * 5) + ["ok"],
        SILENT + ["6 5 1001 C 1001 show_ports 0 0", "7 5 1001 E control paused", "end 14", "moment 1001", "ended in5 end",
                  "0 5 1002 C 1002 quit 0 0", "1 5 1002 E control quit", "end 8"]),
    "a history that is full for a command and a frame": (
        ["1@5000 PACKET drop-Unverified - 1"], ["end"] * 4,
        SILENT + ["7 5 1002 E control paused", "8 0 1002 E in1 paused", "end 15", "moment 1002",
                  "0 5 1003 C 1003 show_bindings 0 0", "1 5 1003 E control end", "3 10 5000 D 4 1", "4 0 5000 E in1 end"]),
    "a history whose octets are full of commands": (
        [], ["end"] + ports(*[NOTHING] * 5),
        SILENT + ["6 5 1000 E control paused", "end 13", "moment 1000", "0 5 1001 C 1001 show_ports 0 0",
                  "1 5 1001 E control end", "end 8"]),
    # Port 1 is a host's in VLAN 10, port 2 one in VLAN 20, and port 3 a trunk of both.
    "two tenants and a trunk": (
        ["1@1000 address_question pass-trusted 3 0", "2@1100 question_for_fe80::11_by_host_2 pass-trusted 3 0",
         "3@2100 ADVERT_in_VLAN_20 pass-all 2 0", "3@2101 ADVERT drop-Tagged - 0", "1@2102 PACKET_in_VLAN_10 drop-Tagged - 0"],
        ["fe80::11@10 1 valid - 301500", "fe80::11@20 2 valid - 301600", "end"],
        SILENT + ["port 1: HEADER", "port 2: HEADER AT_2100_70 ADVERT",
                  "port 3: HEADER AT_1000_82 question_for_fe80::11_in_VLAN_10"
                  " AT_1100_82 question_for_fe80::11_by_host_2_in_VLAN_20"]),
    # Sources aren't validated.
    "commands where sources aren't validated": (
        ["1@1000 PACKET pass-all 3,4,5 0", "2@1001 listener_report drop-PortDown - 0"],
        ["ok", "ok", "fe80::11 3 static - -", "end"] + ports(NOTHING, NOTHING, "1 0 0", NOTHING, NOTHING, down=[2])
        + counters(PortDown=1, Pass=1), SILENT),
}


# The replies to `static fe80::99 1`, `show bindings`, `clear fe80::99` and `show bindings`, and where these lines end.
# Behind them stands a line of 121 octets.
REPLIES = (["ok"], ["fe80::99 1 static - -", "end"], ["ok"], ["end"])
LINE_ENDS = (23, 42, 62, 81)
OVERLONG = ["status 4", "control: overlong line at 81", "9 5 1003 E control overlong 81"]


def first(count):
    return [line for reply in REPLIES[:count] for line in reply]


def calls_of_control():
    """A read gives 16 octets, so that the 13th has the last ones."""
    worked = {}
    for k in range(1, 14):
        count = sum(end <= 16 * (k - 1) for end in LINE_ENDS)
        worked[f"commands: read {k} of control"] = [], first(count), ["status 5", "control: read failed"]
    worked["commands: read 14 of control"] = [], first(4), OVERLONG
    for k in range(1, 5):
        worked[f"commands: write {k} of control"] = [], first(k - 1), ["status 6", "control: write failed"]
    worked["commands: write 5 of control"] = [], first(4), OVERLONG
    for n in range(1, 6):
        end = ["status 6", f"port {n}: write failed", "control: overlong line at 81", f"0 {6 + n} 0 E out{n} failed"]
        worked[f"commands: write 1 at port {n}"] = [], first(4), end
        end = ["status 5", f"port {n}: read failed", "control: overlong line at 81", f"{n - 1} {n - 1} 0 E in{n} failed"]
        worked[f"commands: read 1 at port {n}"] = [], first(4), end
    for k, name in enumerate((*OPENED[:-1], "control", OPENED[-1]), 1):
        worked[f"commands: opening {k}"] = [], [], ["status 7", f"cannot open {name}", "journal:"]
    worked["commands: opening 9"] = [], first(4), OVERLONG
    for k in (1, 2):
        worked[f"commands: read {k} of the configuration"] = [], [], ["status 5", "plan: read failed", "journal:"]
    worked["commands: write 1 of the journal"] = [], first(4), ["status 6", "control: overlong line at 81", "journal: write failed"]
    worked["commands: write 1 of the summary"] = [], first(4), ["status 6", "control: overlong line at 81"]
    worked["commands: write 1 of standard error"] = [], first(4), ["status 4"]
    return worked


WORKED |= calls_of_control()


def replies(lines):
    """Control's output, of the lines that a scene leaves."""
    if "replies:" not in lines:
        return []
    rest = lines[lines.index("replies:") + 1 :]
    return rest[: next(at for at, line in enumerate(rest) if line.startswith("journal"))]


def faults(scenes):
    """What isn't as it was worked out. `scenes` has the lines that each scene leaves, by its name."""
    found = []
    for name in sorted(WORKED.keys() & scenes.keys()):
        frames, said, more = WORKED[name]
        lines = scenes[name]
        got = [row for line in lines if (row := judged(line))]
        found += [f"{name}: the frames are {got}, and should be {frames}"] if got != frames else []
        found += [f"{name}: the replies are {replies(lines)}, and should be {said}"] if replies(lines) != said else []
        found += [f"{name}: {line} should be there" for line in more if line not in lines]
    return found
