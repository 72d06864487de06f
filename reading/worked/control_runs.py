"""Runs with control whose whole results were worked out by hand: journals, ends and statuses, and which lines an input of
control has. Ports 1, 2, 3 are hosts, 4 is trusted and 5 a server, unless a run says otherwise."""
from .. import commands
from ..making import claim, data
from ..session import CONTROL
from .histories import A11, A12, A22, ADVERTS, LEASED, M1, M2, REPLY, REQUEST, TWO_PORTS
from .histories import ask, judged, plan_of, replay, replies, sent

HEADER = "d4c3b2a1020004000000000000000000ffff000001000000"

EMPTY_JOURNAL = """savi-journal 2
mac 02:00:00:00:00:01
savi on
unknown drop
per_port 32
depth 256
entries 262144
bytes 67108864
gap 250
test 500
binding 300000
port 1 host pcap
port 2 trusted pcap
begin
0 2 0 E control end
1 0 0 E in1 end
2 1 0 E in2 end
3 3 0 E ticker end
4 4 0 E out1 end
5 5 0 E out2 end
end 6
"""

LONGEST = b"1 " + b"x" * 118
# Octets of control's input, whether a read failed behind them, its lines, and how it ends.
INPUTS = (
    (b"", False, [], "end"),
    (b"", True, [], "failed"),
    (b"1 quit\n", False, [(1, b"quit")], "end"),
    (b"1 quit", False, [(1, b"quit")], "end"),
    (b"1 quit", True, [], "failed"),
    (b"1 quit\n", True, [(1, b"quit")], "failed"),
    (b"0 quit\n18446744073709551615 quit\n", False, [(0, b"quit"), (2**64 - 1, b"quit")], "end"),
    (b"1 quit\n18446744073709551616 quit\n", False, [(1, b"quit")], "malformed 7"),
    (b"01 quit\n", False, [], "malformed 0"),
    (b"1 quit\n\n", False, [(1, b"quit")], "malformed 7"),
    (b"1\n", False, [], "malformed 0"),
    (b"1 \n", False, [(1, b"")], "end"),
    (b"1  quit\n", False, [(1, b" quit")], "end"),
    (b"+1 quit\n", False, [], "malformed 0"),
    (b"1\tquit\n", False, [], "malformed 0"),
    (b"1 quit\r\n", False, [(1, b"quit\r")], "end"),
    (b"1 qu\0it\n", False, [(1, b"qu\0it")], "end"),
    (b"show ports", True, [], "failed"),
    (LONGEST + b"\n", False, [(1, LONGEST[2:])], "end"),
    (LONGEST, False, [(1, LONGEST[2:])], "end"),
    (LONGEST, True, [], "failed"),
    (b"1 quit\n" + LONGEST + b"x\n", False, [(1, b"quit")], "overlong 7"),
    (LONGEST + b"x", False, [], "overlong 0"),
    (LONGEST + b"x", True, [], "overlong 0"),
    (b"x" * 121, False, [], "overlong 0"),
    (b"x" * 120 + b"\n", False, [], "malformed 0"),
)

# Commands at 1,000 ms of a switch without a binding, and their replies.
REPLIES = (
    ("show bindings", ["end"]),
    ("show stations", ["end"]),
    ("show ports",
     ["1 host up 0 0 0", "2 host up 0 0 0", "3 host up 0 0 0", "4 trusted up 0 0 0", "5 server up 0 0 0", "end"]),
    ("show counters", [f"{name} 0" for name in (*commands.RULES, "Pass", "Cut", "Probes", "Lost")] + ["end"]),
    ("shut 1", ["ok"]),
    ("shut 4", ["ok"]),
    ("open 1", ["ok"]),
    ("quit", ["ok"]),
    ("static fe80::99 5", ["ok"]),
    ("static FE80:0:0:0:0:0:0:99 1", ["ok"]),
    ("static fe80::99 4", ["error: trusted port"]),
    ("static 2001:db8:9::1 4", ["error: trusted port"]),
    ("static 2001:db8:9::1 1", ["error: off-link"]),
    ("static fe80:0:0:1::1 1", ["error: off-link"]),
    ("static :: 1", ["error: off-link"]),
    ("static 2001:db8:9::1 6", ["error: no such port"]),
    ("static fe80::99 17", ["error: bad port"]),
    ("static fe80::99 0", ["error: bad port"]),
    ("static fe80::99 01", ["error: bad port"]),
    ("static fe80::99 ", ["error: bad port"]),
    ("static fe80::g 17", ["error: bad address"]),
    ("static fe80::1.2.3.4 1", ["error: bad address"]),
    ("static fe80::99", ["error: unknown command"]),
    ("static fe80::99 1 1", ["error: unknown command"]),
    ("clear fe80::99", ["error: no binding"]),
    ("clear 2001:db8:9::1", ["error: no binding"]),
    ("clear ", ["error: bad address"]),
    ("clear", ["error: unknown command"]),
    ("shut 6", ["error: no such port"]),
    ("open 16", ["error: no such port"]),
    ("open 17", ["error: bad port"]),
    ("shut one", ["error: bad port"]),
    ("", ["error: unknown command"]),
    (" quit", ["error: unknown command"]),
    ("quit ", ["error: unknown command"]),
    ("Quit", ["error: unknown command"]),
    ("show", ["error: unknown command"]),
    ("show bindings ", ["error: unknown command"]),
    ("show  bindings", ["error: unknown command"]),
    ("show binding", ["error: unknown command"]),
    ("help", ["error: unknown command"]),
)


def entries(run):
    """The entries of all segments, each with its number in its segment."""
    return [f"{n} {entry.by} {entry.moment} {entry.text}" for segment in run.segments for n, entry in enumerate(segment.entries)]


def check(same):
    """Compares each run with what it must come to. `same` takes a name, what is compared, and both values."""
    for octets, is_cut, lines, how in INPUTS:
        found, ends = commands.lines(octets, is_cut)
        same(f"control's input {octets}", "its lines are", [(line.stamp, line.text) for line in found], lines)
        same(f"control's input {octets}", "it ends by", ends, how)
    for command, reply in REPLIES:
        run = replay(plan_of(), [], f"1000 {command}\n")
        same(f"the command '{command}'", "its reply is", replies(run), reply)
        digits = command.encode("ascii").hex() or "-"
        same(f"the command '{command}'", "its entry is", entries(run)[5], f"5 5 1000 C 1000 {digits} 0 0")
    check_empty(same)
    check_probed(same)
    check_contested(same)
    check_malformed(same)
    check_overlong(same)
    check_full(same)
    check_failed_output(same)
    print(f"worked runs with control: {len(INPUTS) + len(REPLIES) + 7} as they should be")


def check_empty(same):
    name = "captures without a record"
    run = replay(plan_of(TWO_PORTS, (), control=False), [])
    same(name, "the journal is", "".join(run.journal()), EMPTY_JOURNAL)
    same(name, "the summary is", run.summary(), "entries 6 frames 0 passed 0 dropped 0 probes 0 lost 0 cut 0\n")
    same(name, "the outputs are", [run.outputs[n].octets.hex() for n in (1, 2)], [HEADER] * 2)
    same(name, "the status is", run.status(), 0)


def check_probed(same):
    name = "data of an address that nobody has claimed"
    run = replay(plan_of(), [(1, stamp, data(M1, A11)) for stamp in (1000, 1499, 1500)])
    packet = data(M1, A11).hex()
    same(name, "entry 5 is", entries(run)[5], f"5 0 1000 F 1 1000 {packet} drop-Unverified - - 1 0")
    same(name, "entry 9 is", entries(run)[9], f"9 0 1500 F 1 1500 {packet} pass-all 2,3,4,5 - 0 0")
    same(name, "the status is", run.status(), 0)


def check_contested(same):
    name = "another host asks with the same identity"
    frames = [(1, 1000, claim(M1, A11)), (2, 1000, claim(M2, A12)), (5, 1000, claim(M2, A22)),
              (1, 2000, REQUEST), (2, 2050, ask(M2, A12, 0x0A0B0C)), (5, 2100, REPLY)]
    run = replay(plan_of(), frames, "2200 show bindings\n")
    same(name, "the frames come to", judged(run)[-2:], ["2@2050 drop-DhcpContested - 0", "5@2100 pass-all 1 0"])
    same(name, "the replies are", replies(run)[0], "2001:db8:2::101 1 bound - -")
    same(name, "the leased address is", run.switch.addresses[1, LEASED].bound, (1, None))


def check_malformed(same):
    name = "falling stamps, and a record that is cut"
    frames = [(1, 5000, data(M1, A11)), (1, 4000, data(M1, A11))]
    run = replay(plan_of(TWO_PORTS, (), control=False), frames, rest={1: bytes(10)})
    same(name, "the moments are", [e.moment for e in run.switch.entries if e.text.startswith("F")], [5000, 5000])
    same(name, "the first port ends by", [e.text for e in run.switch.entries if "in1" in e.text], ["E in1 malformed 164"])
    same(name, "standard error is", run.lines, ["port 1: malformed at 164"])
    same(name, "the status is", run.status(), 4)


def check_overlong(same):
    name = "a line that is too long"
    lines = "1000 static fe80::99 1\n1001 show bindings\n1002 clear fe80::99\n1003 show bindings\n" + "x" * 121
    run = replay(plan_of(), [], lines)
    want = "ok\nfe80::99 1 static - -\nend\nok\nend\n"
    same(name, "control's output is", run.outputs[CONTROL].octets.decode("ascii"), want)
    same(name, "control ends by", [e.text for e in run.switch.entries if "control" in e.text], ["E control overlong 81"])
    same(name, "standard error is", run.lines, ["control: overlong line at 81"])
    same(name, "the status is", run.status(), 4)


def check_full(same):
    name = "a full history"
    run = replay(plan_of(("trusted", "host", "host"), (), "entries = 4135\n", control=False),
                 [(1, 1000 + at, ADVERTS[0]) for at in range(3)])
    kinds = [entry.split()[3] for entry in entries(run)]
    same(name, "its first frame, drains and end are", kinds[3:7], ["F", "D", "D", "E"])
    same(name, "entry 6 is", entries(run)[6], "6 0 1000 E in1 paused")
    same(name, "what comes behind it is", [entry.split(" ", 4)[4] for entry in entries(run)[7:11]],
         ["ticker paused", "out1 paused", "out2 paused", "out3 paused"])
    same(name, "the second segment is", "".join(kinds[11:]), "FDDFDDEEEEE")
    same(name, "it begins and ends by", [entries(run)[11][:22], entries(run)[21]], ["0 0 1001 F 1 1001 3333", "10 7 1002 E out3 end"])
    same(name, "it goes on from", [line for line in run.segments[1].base if not line.endswith(" 0")],
         ["moment 1000", "shut -", "count Pass 1", "station 02:00:00:00:00:22 1 1000", "ended in2 end", "ended in3 end",
          "ended control end"])
    same(name, "standard error is", run.lines, [])
    same(name, "the status is", run.status(), 0)


def check_failed_output(same):
    name = "an output that fails at its second frame"
    run = replay(plan_of(("trusted", "host", "host"), (), control=False),
                 [(1, 1000 + at, ADVERTS[0]) for at in range(3)], fails={2: 3})
    same(name, "entry 8 is", entries(run)[8].split()[3:], "E out2 failed".split())
    third = [entry for entry in entries(run) if entry.split()[3] == "F"][2]
    same(name, "the third frame's outs and cuts are", third.split()[8:10], ["2,3", "2"])
    same(name, "port 2 has", len(run.outputs[2].octets), 24 + 16 + 70)
    same(name, "port 2 sends", sent(run, 2), [(1000, ADVERTS[0])])
    same(name, "the summary is", run.summary(), "entries 16 frames 3 passed 3 dropped 0 probes 0 lost 0 cut 1\n")
    same(name, "standard error is", run.lines, ["port 2: write failed"])
    same(name, "the status is", run.status(), 6)
