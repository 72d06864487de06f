"""Mistakes in a plan, and what must be told of each: at least one for each fault, for each kind of TOML error and for each
warning. A case is a change of the plan below."""
import struct

from reading import toml_text

from .uses import PATH_MOST

# The plan, of 18 lines.
BASE = """mac = "02:00:00:00:00:01"
journal = "journal.txt"

[[port]]
number = 1
role = "host"
input = "1.pcap"
output = "1.out"

[[port]]
number = 2
role = "trusted"
input = "2.pcap"
output = "2.out"

[[prefix]]
prefix = "2001:db8:1::/64"
method = "fcfs"
"""


def port(number, more=""):
    return f'[[port]]\nnumber = {number}\nrole = "host"\ninput = "{number}.pcap"\noutput = "{number}.out"\n{more}\n'


def prefix(number):
    return f'[[prefix]]\nprefix = "2001:db8:{number:x}::/48"\nmethod = "fcfs"\n'


MAC, JOURNAL, ROLE, METHOD = 'mac = "02:00:00:00:00:01"', 'journal = "journal.txt"', 'role = "host"', 'method = "fcfs"'
TRUSTED = 'role = "trusted"'
FIRST, PREFIX = "[[port]]\nnumber = 1", 'prefix = "2001:db8:1::/64"'
MANY_PORTS = "".join(port(number) for number in range(3, 18))
MANY_PREFIXES = "".join(prefix(number) for number in range(0x100, 0x120))

# Faults: what is changed to what; the number that the program gives, the line, column and key of that finding; words of what
# to write instead; and the numbers of all findings, where there are others.
FAULTS = (
    (MAC, "# " + 65536 * "-" + "\n" + MAC, 1, (1, 1), "", "leave out comments"),
    (MAC, MAC + '\ncolour = "red"', 2, (2, 1), "colour", "The keys here are mac, journal,"),
    (ROLE, ROLE + '\nrol = "host"', 2, (7, 1), "rol", "Is `role` meant?"),
    (METHOD, METHOD + '\nbinding_s = 300', 2, (19, 1), "binding_s", "Put it above the first table."),
    (METHOD, METHOD + '\ncolour = 1', 2, (19, 1), "colour", "The keys here are prefix, method, vlan."),
    (METHOD, METHOD + '\ntrunk = [2]', 2, (19, 1), "trunk", "Put it in a [[port]]."),
    (ROLE, ROLE + '\nvlans = 2', 2, (7, 1), "vlans", "Is `vlan` meant?"),
    (MAC, 'mac = "02:00:00:00:00:01"\nnumber = 1', 2, (2, 1), "number", "Put it in a [[port]]."),
    (JOURNAL, "journal = 7", 3, (2, 11), "journal", 'journal = "7"'),
    (JOURNAL, "journal = 2026-11-29", 3, (2, 11), "journal", 'journal = "2026-11-29"'),
    ("number = 1", 'number = "1"', 3, (5, 10), "number", "number = 1"),
    (JOURNAL, JOURNAL + "\nper_port = 32.0", 3, (3, 12), "per_port", "per_port = 32"),
    (JOURNAL, JOURNAL + "\nsavi = true", 3, (3, 8), "savi", 'savi = "on"'),
    ("[[prefix]]", "[prefix]", 3, (16, 1), "prefix", "[[prefix]]"),
    (BASE, MAC + "\n" + JOURNAL + "\nport = 1\n", 3, (3, 8), "port", "[[port]]"),
    (JOURNAL, JOURNAL + "\nper_port = 2026-11-29", 3, (3, 12), "per_port", "per_port = 32"),
    (ROLE, ROLE + '\nvlan = "10"', 3, (7, 8), "vlan", "vlan = 10"),
    (METHOD, METHOD + "\nvlan = [10]", 3, (19, 8), "vlan", "vlan = 1"),
    (TRUSTED, TRUSTED + "\ntrunk = 20", 3, (13, 9), "trunk", "trunk = [20]"),
    (TRUSTED, TRUSTED + '\ntrunk = "20, 10"', 3, (13, 9), "trunk", "trunk = [10, 20]"),
    (TRUSTED, TRUSTED + '\ntrunk = [10, "20"]', 3, (13, 9), "trunk", "trunk = [10, 20]"),
    (TRUSTED, TRUSTED + "\ntrunk = [true]", 3, (13, 9), "trunk", "trunk = [10, 20]"),
    (JOURNAL, "", 4, (1, 1), "journal", 'journal = "journal.txt"'),
    (ROLE + "\n", "", 4, (4, 1), "role", 'role = "host"'),
    (METHOD, "", 4, (16, 1), "method", 'method = "fcfs"'),
    (JOURNAL, JOURNAL + '\ncontrol = "c"', 4, (3, 1), "control", "control_out = "),
    (JOURNAL, JOURNAL + '\ncontrol_out = "c"', 4, (3, 1), "control_out", "control = "),
    (BASE, MAC + "\n" + JOURNAL + "\n", 4, (1, 1), "port", "[[port]]"),
    (MAC, 'mac = "03:00:00:00:00:01"', 5, (1, 7), "mac", 'mac = "02:00:00:00:00:01"'),
    (MAC, 'mac = "0200.0000.0001"', 5, (1, 7), "mac", 'mac = "02:00:00:00:00:01"'),
    (MAC, 'mac = "02:00:00:00:00"', 5, (1, 7), "mac", "six pairs"),
    (JOURNAL, JOURNAL + '\nsavi = "On"', 6, (3, 8), "savi", 'savi = "on"'),
    (JOURNAL, JOURNAL + '\nunknown = "deny"', 7, (3, 11), "unknown", 'unknown = "drop"'),
    (JOURNAL, JOURNAL + "\nper_port = 65", 8, (3, 12), "per_port", "per_port = 64"),
    (JOURNAL, JOURNAL + "\ndepth = 0", 9, (3, 9), "depth", "depth = 1"),
    (JOURNAL, JOURNAL + "\nentries = 1_000_001", 10, (3, 11), "entries", "entries = 1000000"),
    (JOURNAL, JOURNAL + "\nbytes = 1517", 11, (3, 9), "bytes", "bytes = 1518"),
    (JOURNAL, JOURNAL + "\ntest_ms = 60001", 12, (3, 11), "test_ms", "test_ms = 60000"),
    (JOURNAL, JOURNAL + "\ntest_ms = 250", 12, (3, 11), "test_ms", "probe_gap_ms = 125"),
    (JOURNAL, JOURNAL + "\nprobe_gap_ms = 500", 12, (3, 16), "probe_gap_ms", "probe_gap_ms = 250"),
    (JOURNAL, JOURNAL + "\nbinding_s = 0", 12, (3, 13), "binding_s", "binding_s = 1"),
    (BASE, MAC + "\n" + JOURNAL + "\nport = []\n", 13, (3, 8), "port", "[[port]]"),
    ("[[prefix]]", MANY_PORTS + "[[prefix]]", 13, (100, 1), "port", "Leave some out", (13, 14)),
    ("number = 2", "number = 1", 14, (11, 10), "number", "number = 2"),
    ("number = 2", "number = 17", 14, (11, 10), "number", "number = 2"),
    (ROLE, 'role = "router"', 15, (6, 8), "role", 'role = "trusted"'),
    (ROLE, 'role = "Host"', 15, (6, 8), "role", 'role = "host"'),
    (ROLE, ROLE + '\nformat = "pcapng"', 16, (7, 10), "format", 'format = "pcap"'),
    (PREFIX, 'prefix = "2001:db8:1::1/64"', 17, (17, 10), "prefix", '"2001:db8:1::/64"'),
    (PREFIX, 'prefix = "2001:db8:1::"', 17, (17, 10), "prefix", '"2001:db8:1::/64"'),
    (PREFIX, 'prefix = "2001:db8:1::/0"', 17, (17, 10), "prefix", "/64"),
    (PREFIX, 'prefix = "192.0.2.0/24"', 17, (17, 10), "prefix", "hexadecimal"),
    (PREFIX, 'prefix = "link"', 17, (17, 10), "prefix", "for instance"),
    (METHOD, METHOD + "\n" + MANY_PREFIXES, 17, (112, 1), "prefix", "Leave some out"),
    (METHOD, METHOD + '\n[[prefix]]\nprefix = "2001:db8::/32"\nmethod = "dhcp"', 18, (20, 10), "prefix", "one method"),
    (PREFIX, 'prefix = "fe80::/10"', 18, (17, 10), "prefix", "Leave it out"),
    (PREFIX, 'prefix = "ff02::/16"', 18, (17, 10), "prefix", "Leave it out"),
    (PREFIX, 'prefix = "::1/128"', 18, (17, 10), "prefix", "Leave it out"),
    (METHOD, 'method = "slaac"', 19, (18, 10), "method", 'method = "fcfs"'),
    (METHOD, 'method = "dhcpv6"', 19, (18, 10), "method", 'method = "dhcp"'),
    (ROLE, ROLE + '\nformat = "stream"', 20, (7, 10), "format", "serve"),
    (METHOD, METHOD + '\nvlan = 2\n[[prefix]]\nprefix = "2001:db8::/32"\nmethod = "dhcp"\nvlan = 2', 18, (21, 10), "prefix",
     "another VLAN"),
    (ROLE, ROLE + "\nvlan = 0", 22, (7, 8), "vlan", "vlan = 1"),
    (ROLE, ROLE + "\nvlan = 4095", 22, (7, 8), "vlan", "vlan = 4094"),
    (METHOD, METHOD + "\nvlan = -1", 22, (19, 8), "vlan", "vlan = 1"),
    (TRUSTED, TRUSTED + "\ntrunk = []", 22, (13, 9), "trunk", "trunk = [10, 20]"),
    (TRUSTED, TRUSTED + "\ntrunk = [20, 10, 20]", 22, (13, 9), "trunk", "trunk = [10, 20]"),
    (TRUSTED, TRUSTED + "\ntrunk = [20, 4095]", 22, (13, 9), "trunk", "trunk = [20]"),
    (TRUSTED, TRUSTED + "\ntrunk = [20]\nvlan = 20", 22, (14, 1), "vlan", "Leave one of the two out"),
    (ROLE, ROLE + "\ntrunk = [10, 20]", 23, (7, 9), "trunk", "Write vlan = 10"),
    (TRUSTED, TRUSTED + "\ntrunk = [2, 3, 4, 5, 6, 7, 8, 9]", 24, (13, 9), "trunk", "Leave some out"),
    # Several faults: the least number is the program's.
    (ROLE, ROLE + "\ntrunk = []\nvlan = 0", 22, (7, 9), "trunk", "trunk = [10, 20]", (22, 22, 22, 23)),
    (ROLE, ROLE + "\nvlan = 0\nformat = \"stream\"", 20, (8, 10), "format", "serve", (20, 22)),
    (MAC, 'mac = "a"\nsavi = "On"\nper_port = 0', 5, (1, 7), "mac", "six pairs", (5, 6, 8)),
    (ROLE, 'role = "a"\nformat = "b"\ncolour = 1', 2, (8, 1), "colour", "The keys here are", (2, 15, 16)),
    ("number = 2", 'number = "2"\nnumbr = 2', 2, (12, 1), "numbr", "`number`", (2, 3)),
)

# TOML errors: what is changed to what; the kind, the line and the column; words of what is wrong or to write instead.
ERRORS = (
    (JOURNAL, 'journal = "\udcff"', toml_text.NOT_UTF8, (2, 12), "Save the file in UTF-8"),
    (ROLE, '= "host"', toml_text.KEY, (6, 1), "a key is expected"),
    (ROLE, "// the host\n" + ROLE, toml_text.KEY, (6, 1), 'begins by "#"'),
    (ROLE, 'role "host"', toml_text.EQUALS, (6, 6), "here stands `\"`"),
    (ROLE, "role", toml_text.EQUALS, (6, 5), "the line ends"),
    (FIRST, "[port\nnumber = 1", toml_text.HEADER, (4, 6), "[[port]]"),
    (FIRST, "[[port]\nnumber = 1", toml_text.HEADERS, (4, 8), "[[port]]"),
    (ROLE, 'role = "host";', toml_text.LINE_END, (6, 14), "here stands `;`"),
    (ROLE, 'role = "host", input = "1.pcap"', toml_text.LINE_END, (6, 14), "a line of its own"),
    (ROLE, 'role = ["host" "server"]', toml_text.ARRAY, (6, 16), "Put `,` between two items"),
    (ROLE, 'role = {a = 1 b = 2}', toml_text.INLINE, (6, 15), "Put `,` between two keys"),
    (ROLE, 'role = "host', toml_text.STRING, (6, 8), "has no \" at its end"),
    (ROLE, 'role = "ho\x01st"', toml_text.STRING, (6, 11), "no character of a text"),
    ('input = "1.pcap"', 'input = "C:\\new\\dir"', toml_text.ESCAPE, (7, 16), "'C:\\new\\dir'"),
    (ROLE, "role = host", toml_text.VALUE, (6, 8), 'role = "host"'),
    (ROLE, "role = \u201chost\u201d", toml_text.VALUE, (6, 8), 'role = "host"'),
    (ROLE, "role =", toml_text.VALUE, (6, 7), "the line ends"),
    ("number = 1", "number = one", toml_text.VALUE, (5, 10), "number = 1"),
    ("number = 1", "number = 01", toml_text.VALUE, (5, 10), "number = 1"),
    (JOURNAL, JOURNAL + "\nentries = 10_", toml_text.UNDERSCORE, (3, 11), "the digits alone"),
    (JOURNAL, JOURNAL + "\nbytes = 9223372036854775808", toml_text.TOO_LARGE, (3, 9), "a smaller number"),
    (MAC, "mac = 02:00:00:00:00:01", toml_text.MOMENT, (1, 7), 'mac = "02:00:00:00:00:01"'),
    (PREFIX, "prefix = 2001:db8:1::/64", toml_text.MOMENT, (17, 10), 'prefix = "2001:db8:1::/64"'),
    (JOURNAL, JOURNAL + "\nbinding_s = 2026-02-30", toml_text.MOMENT, (3, 13), "no date"),
    (ROLE, ROLE + '\nrole = "server"', toml_text.TWICE, (7, 1), "the first is in line 6"),
    (BASE, BASE.replace("[[port]]", "[port]"), toml_text.TWICE, (10, 2), "the first is in line 4"),
    (MAC, MAC + '\njournal.name = "j"', toml_text.TWICE, (3, 1), "the first is in line 2"),
    (ROLE, ROLE + "\nrole.name = 1", toml_text.EXTENDS, (7, 1), "has a value in line 6"),
    (MAC, MAC + "\nport = []", toml_text.TWICE, (5, 3), "the first is in line 2"),
    (ROLE, "role = " + 81 * "[" + 81 * "]", toml_text.TOO_DEEP, (6, 88), "stand in one another"),
)

# Texts of TOML 1.1 that Python's own reader refuses or reads otherwise, and that the program takes.
TAKEN = (
    (BASE, BASE.replace("\n", "\r\n")), (BASE, "\ufeff" + BASE), (ROLE, 'role = "\\x68ost"'), (JOURNAL, 'journal = "\\ej"'),
    (BASE, MAC + "\n" + JOURNAL + '\nport = [\n{ number = 1,\n role = "host", input = "i", output = "o", },\n]\n'),
    (TRUSTED, TRUSTED + "\ntrunk = [\n20, # the guests\n10,\n]"), (ROLE, ROLE + "\nvlan = 0xFFE"),
    (METHOD, METHOD + '\n[[prefix]]\nprefix = "2001:db8::/32"\nmethod = "dhcp"\nvlan = 2'),
    (TRUSTED, TRUSTED + "\ntrunk = [2, 3, 4, 5, 6, 7, 8]"),
)

NANO = struct.pack("<IHHIIII", 0xA1B23C4D, 2, 4, 0, 0, 65535, 1)
CAPTURE = struct.pack("<IHHIIII", 0xA1B2C3D4, 2, 4, 0, 0, 65535, 1)
COOKED = struct.pack(">IHHIIII", 0xA1B2C3D4, 2, 4, 0, 0, 65535, 113)
NEWER = struct.pack("<IHHIIII", 0xA1B2C3D4, 2, 5, 0, 0, 65535, 1)
PCAPNG = bytes.fromhex("0a0d0d0a1c0000004d3c2b1a01000000ffffffffffffffff1c000000")
GZIP = bytes.fromhex("1f8b0800000000000003") + bytes(20)
STREAM = 'format = "stream"\ninput = "1.sock"\noutput = "1.sock"'
NAMES_1 = 'input = "1.pcap"\noutput = "1.out"'
LONG = "d/" * (PATH_MOST // 2 - 1) + "abcd.sock"

LIVE = (MAC + "\n" + JOURNAL + '\ncontrol = "none/c.sock"\ncontrol_out = "c.sock"\n[[port]]\nnumber = 1\nrole = "trusted"\n' +
        STREAM + "\n")

# Warnings: what is changed to what, what the two captures are, and of each warning its line and words of it.
WARNINGS = (
    (MAC, MAC, (CAPTURE, NANO), ()),
    ("1.out", "1.pcap", (CAPTURE, CAPTURE), ((8, "port 1's input in line 7"),)),
    ("1.out", "./1.pcap", (CAPTURE, CAPTURE), ((8, "port 1's input in line 7"),)),
    ("2.out", "1.out", (CAPTURE, CAPTURE), ((14, "port 1's output in line 8"),)),
    ("2.pcap", "1.pcap", (CAPTURE, CAPTURE), ((13, "taken twice"),)),
    ("2.pcap", "1.out", (CAPTURE, CAPTURE), ((13, "port 1's output in line 8"), (13, "isn't there"))),
    ("journal.txt", "2.pcap", (CAPTURE, CAPTURE), ((2, "port 2's input in line 13"),)),
    ("journal.txt", "plan.toml", (CAPTURE, CAPTURE), ((2, "this configuration"),)),
    ("journal.txt", "link.pcap", (CAPTURE, CAPTURE), ((2, "port 1's input in line 7"),)),
    ("journal.txt", "pipe", (CAPTURE, CAPTURE), ((2, "savi-journal-keep keep pipe"),)),
    (JOURNAL, JOURNAL + '\ncontrol = "1.pcap"\ncontrol_out = "2.out"', (CAPTURE, CAPTURE),
     ((3, "port 1's input in line 9"), (4, "port 2's output in line 16"))),
    ("2.out", "/dev/null", (CAPTURE, CAPTURE), ()),
    (JOURNAL, 'journal = "/dev/null"', (CAPTURE, CAPTURE), ()),
    (BASE[BASE.index("[[prefix]]"):], "", (CAPTURE, CAPTURE), ((1, "there is no prefix"),)),
    ('role = "trusted"', 'role = "server"', (CAPTURE, CAPTURE), ((4, "no port is trusted"),)),
    ('role = "trusted"', 'role = "host"\n#', (CAPTURE, CAPTURE), ((4, "no port is trusted"),)),
    (BASE[BASE.index('role = "trusted"'):],
     'role = "host"\ninput = "2.pcap"\noutput = "2.out"\n[[prefix]]\nprefix = "2001:db8:1::/64"\nmethod = "dhcp"\n',
     (CAPTURE, CAPTURE), ((4, "no port is trusted"), (4, "no port has a server"))),
    (MAC, MAC, (PCAPNG, CAPTURE), ((7, "savi_switch split 1.pcap"),)),
    (MAC, MAC, (CAPTURE, GZIP), ((13, "gunzip"),)),
    (MAC, MAC, (COOKED, CAPTURE), ((7, "link type 113 (Linux cooked"),)),
    (MAC, MAC, (NEWER, CAPTURE), ((7, "version 2.5"),)),
    (MAC, MAC, (b"", CAPTURE), ((7, "an empty file"),)),
    (MAC, MAC, (b"a text that is no capture", CAPTURE), ((7, "no capture"),)),
    (MAC, MAC, (CAPTURE[:20], CAPTURE), ((7, "cut in its header"),)),
    (MAC, MAC, (CAPTURE, None), ((13, "isn't there"),)),
    ("1.out", "none/1.out", (CAPTURE, CAPTURE), ((8, "isn't there"),)),
    ("journal.txt", "none/j.txt", (CAPTURE, CAPTURE), ((2, "isn't there"),)),
    (NAMES_1, STREAM, (CAPTURE, CAPTURE), ()),
    (NAMES_1, STREAM.replace("1.sock", LONG), (CAPTURE, CAPTURE), ((8, "107 at most"), (9, "107 at most"))),
    (NAMES_1, STREAM.replace("1.sock", "1.pcap"), (CAPTURE, CAPTURE), ((8, "another file is there"), (9, "another file is there"))),
    (BASE[BASE.index(NAMES_1):BASE.index("[[prefix]]")],
     STREAM + '\n[[port]]\nnumber = 2\nrole = "trusted"\nformat = "stream"\ninput = "1.sock"\noutput = "2.sock"\n', (None, None),
     ((14, "takes one peer"),)),
    (BASE[:BASE.index("[[prefix]]")], LIVE, (None, None), ((3, "isn't there"),)),
    (BASE[:BASE.index("[[prefix]]")], LIVE.replace("1.sock", "c.sock"), (None, None),
     ((3, "isn't there"), (4, "the path of port 1's input in line 9 too"))),
    (BASE[:BASE.index("[[port]]\nnumber = 2")], MAC + "\n" + JOURNAL + "\n\n", (None, CAPTURE), ()),
    (BASE, BASE[:BASE.index("[[prefix]]")].replace('"host"', '"trusted"'), (CAPTURE, CAPTURE), ()),
    (METHOD, METHOD + "\nvlan = 2", (CAPTURE, CAPTURE), ((1, "there is no prefix"), (19, "Write one of 1:"))),
    (TRUSTED, TRUSTED + "\ntrunk = [1, 2]", (CAPTURE, CAPTURE), ()),
    (TRUSTED, TRUSTED + "\nvlan = 2", (CAPTURE, CAPTURE), ((4, "VLAN 1: no port is trusted"),)),
    (ROLE, ROLE + "\nvlan = 2", (CAPTURE, CAPTURE),
     ((1, "VLAN 2: sources are validated"), (4, "VLAN 2: no port is trusted"))),
)

# Plans, and what tools/plan prints of them.
SHOWN = (
    (BASE, """plan.toml: a plan for replay and for serve
mac       02:00:00:00:00:01
journal   journal.txt
control   -
sources   validated
unknown   next headers are dropped
room      32 addresses a port, 256 frames waiting at one, 262,144 entries, 67,108,864 octets
times     probe gap 250 ms, test 500 ms, binding 300 s

Port  Role     Format  Input   Output  Name
   1  host     pcap    1.pcap  1.out
   2  trusted  pcap    2.pcap  2.out

Prefix           Method
2001:db8:1::/64  fcfs

"""),
    (MAC + "\n" + JOURNAL + """
savi = "off"
unknown = "pass"
per_port = 64
depth = 1
entries = 1000000
bytes = 1518
probe_gap_ms = 59999
test_ms = 60000
binding_s = 86400
control = "control.sock"
control_out = "replies.sock"

# The router. It may advertise.
[[port]]
number = 16
role = "trusted"
input = "16.pcap"
output = "16.out"

[[port]]
number = 3 # Room 3
role = "server"
format = "stream"
input = "3.in.sock"
output = "3.out.sock"

[[prefix]]
prefix = "2001:DB8:2:0::/64"
method = "mixed"

[[prefix]]
prefix = "2001:db8:1::/64"
method = "dhcp"
""", """plan.toml: a plan for serve alone, since a replay reads captures
mac       02:00:00:00:00:01
journal   journal.txt
control   control.sock, replies to replies.sock
sources   not validated: messages alone are guarded
unknown   next headers are passed
room      64 addresses a port, 1 frames waiting at one, 1,000,000 entries, 1,518 octets
times     probe gap 59,999 ms, test 60,000 ms, binding 86,400 s

Port  Role     Format  Input      Output      Name
   3  server   stream  3.in.sock  3.out.sock  Room 3
  16  trusted  pcap    16.pcap    16.out      The router

Prefix           Method
2001:db8:1::/64  dhcp
2001:db8:2::/64  mixed

"""),
    (BASE.replace(ROLE, ROLE + "\nvlan = 10").replace(TRUSTED, TRUSTED + "\ntrunk = [20, 10]") +
     """vlan = 20

[[prefix]]
prefix = "2001:db8:1::/64"
method = "dhcp"
vlan = 10
""", """plan.toml: a plan for replay and for serve
mac       02:00:00:00:00:01
journal   journal.txt
control   -
sources   validated
unknown   next headers are dropped
room      32 addresses a port, 256 frames waiting at one, 262,144 entries, 67,108,864 octets
times     probe gap 250 ms, test 500 ms, binding 300 s

Port  Role     VLANs        Format  Input   Output  Name
   1  host     10           pcap    1.pcap  1.out
   2  trusted  trunk 10,20  pcap    2.pcap  2.out

Prefix           VLAN  Method
2001:db8:1::/64  10    dhcp
2001:db8:1::/64  20    fcfs

"""),
)
