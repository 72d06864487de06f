"""Journals (docs/FORMATS.md, The journal): the plan of one, and its entries one by one, of all segments."""
import functools
import re
from dataclasses import dataclass

from .commands import RULES
from .plan import Plan, key_fault, list_fault, planned_ports, planned_prefixes, read_key, read_mac, read_vlans

# The longest line, in octets without its line feed: an entry with a frame of 1,518 octets, and more than the rest can take.
LONGEST = 3400

NUMBER, SET = "(0|[1-9][0-9]*)", "(-|[0-9,]+)"
DIGITS, VERDICT = "(-|[0-9a-f]+)", r"(pass-all|pass-trusted(?:\+[0-9]+)?|drop-[A-Za-z0-9]+)"

# The keys of the head behind `savi` and `unknown`, in their order, as CONFIGURATION.md has them.
HEAD_NUMBERS = {
    "per_port": "per_port", "depth": "depth", "entries": "entries", "bytes": "bytes", "gap": "probe_gap_ms",
    "test": "test_ms", "binding": "binding_s",
}


def form(*parts):
    return re.compile(" ".join(parts), re.ASCII)


ENTRY = form(NUMBER, NUMBER, NUMBER, "([FLTCDE])", "(.*)")
FORMS = {
    "F": form(NUMBER, NUMBER, DIGITS, VERDICT, SET, SET, NUMBER, NUMBER),
    "L": form(NUMBER, NUMBER, NUMBER, VERDICT, NUMBER, NUMBER),
    "T": form(NUMBER, NUMBER, NUMBER),
    "C": form(NUMBER, DIGITS, NUMBER, NUMBER),
    "D": form(NUMBER, NUMBER),
    "E": form("(control|ticker|in[0-9]+|out[0-9]+)", "(end|quit|failed|unwritten|paused|(?:malformed|overlong) [0-9]+)"),
}
# What a segment goes on from, line by line.
KEY, TWO = "[0-9a-f:.]+(?:@[1-9][0-9]*)?", "(?:yes|no)"
BASE = form("(?:" + "|".join((
    f"moment {NUMBER}", f"shut {SET}", f"count [A-Za-z0-9]+ {NUMBER}", f"fixed {KEY} {NUMBER}", f"bound {KEY} {NUMBER} (?:-|{NUMBER})",
    f"fcfs {KEY} (?:valid {NUMBER} (?:-|{NUMBER})|(?:tentative|testing-lt|testing-vp {NUMBER}) {NUMBER} {NUMBER} {TWO})",
    f"request {NUMBER} {NUMBER} {NUMBER} {DIGITS} {NUMBER}", f"station {KEY} {NUMBER} {NUMBER}",
    "ended (?:control|in[0-9]+|out[0-9]+) (?:end|quit|failed|unwritten|(?:malformed|overlong) [0-9]+)",
)) + ")")


# No segment goes on from more: addresses of sixteen ports, requests and stations, in lines.
BASE_LINES = 1 << 14


class Fault(Exception):
    """A journal that can't be read on, and the line, from 1, at which that shows."""

    def __init__(self, line, what):
        super().__init__(f"line {line}: {what}")


@dataclass(slots=True)
class Entry:
    """`number` is counted over all segments, as the check of a journal counts. Moments and stamps are in ms. What an entry of
    its kind hasn't is None, 0 or empty."""

    number: int
    by: int
    moment: int
    kind: str
    port: int | None = None
    stamp: int | None = None
    octets: bytes = b""
    length: int = 0
    verdict: str | None = None
    outs: tuple = ()
    cuts: tuple = ()
    probes: int = 0
    lost: int = 0
    count: int = 0
    who: str | None = None
    how: str | None = None

    @property
    def rule(self):
        """The rule that dropped the frame, or None."""
        return self.verdict[5:] if self.verdict and self.verdict.startswith("drop-") else None


@functools.lru_cache(maxsize=4096)
def read_set(text):
    """The ports of a set in rising order, or None."""
    if text == "-":
        return ()
    words = text.split(",")
    if not all(re.fullmatch("[1-9][0-9]?", word) for word in words):
        return None
    ports = tuple(map(int, words))
    return ports if list(ports) == sorted(set(ports)) else None


def shown(line):
    """A line as it may stand in a message."""
    text = ascii(line.rstrip("\n"))
    return text if len(text) <= 72 else f"{text[:60]}.. ({len(line)} octets)"


class Journal:
    """A journal from its lines, which end with a line feed each. Raises Fault where one is at fault, also from `entries`.

    `base` has the lines of what the first segment goes on from, which a whole journal hasn't: it is the rest of one, whose
    first segments aren't there any more."""

    def __init__(self, lines):
        self.lines, self.at, self.closed, self.base = iter(lines), 0, 0, []
        self.plan = self.read_head()
        numbers = [port.number for port in self.plan.ports]
        self.ports = frozenset(numbers)
        self.vlans = frozenset(vlan for port in self.plan.ports for vlan in port.vlans)
        whos = [f"in{n}" for n in numbers] + ["control", "ticker"] + [f"out{n}" for n in numbers]
        self.passes = {who: by for by, who in enumerate(whos)}
        for at, line in enumerate(self.base, self.at - len(self.base)):
            if not self.is_of_plan(line.split(" ")):
                raise Fault(at, f"no switch of the plan above goes on from {shown(line)}")

    def is_of_plan(self, words):
        """Whether what a segment goes on from names addresses and ports of the plan."""
        if words[0] == "shut":
            return (found := read_set(words[1])) is not None and self.ports.issuperset(found)
        if words[0] == "request":
            is_of_plan = int(words[1]) in self.vlans and int(words[2]) in self.ports
            return is_of_plan and len(words[4]) % 2 == (words[4] == "-")
        if words[0] == "station":
            key = read_key(words[1], read_mac)
            return key is not None and key[0] in self.vlans and int(words[2]) in self.ports
        if words[0] not in ("fixed", "bound", "fcfs"):
            return True
        ports = words[3:5] if words[2] == "testing-vp" else words[3:4] if words[0] == "fcfs" else words[2:3]
        key = read_key(words[1])
        return key is not None and key[0] in self.vlans and self.ports.issuperset(map(int, ports))

    def fail(self, what):
        raise Fault(self.at, what)

    def line(self, what):
        """The next line without its line feed. `what` says which one stands there in a whole journal."""
        self.at += 1
        line = next(self.lines, "")
        if not line:
            self.fail(f"the journal ends, and {what} is missing{self.closed_text()}")
        if len(line) > LONGEST + 1:
            self.fail(f"more than {LONGEST:,} octets in one line")
        if not line.endswith("\n"):
            self.fail(f"cut short: {shown(line)}{self.closed_text()}")
        return line[:-1]

    def closed_text(self):
        """What is left of a run that was stopped: `closed` is the line at which the last segment ends that was closed."""
        return f"; the segments up to line {self.closed} are closed, and can be checked by themselves" if self.closed else ""

    # The head.

    def value(self, key, pattern):
        line = self.line(f"`{key}`")
        match = re.fullmatch(f"{key} {pattern}", line, re.ASCII)
        return match[1] if match else self.fail(f"`{key}` and its value are expected, and here stands {shown(line)}")

    def read_head(self):
        self.version = {"savi-journal 1": 1, "savi-journal 2": 2}.get(line := self.line("`savi-journal 2`"))
        if self.version is None:
            self.fail(f"no journal of version 1 or 2, which begins with `savi-journal` and that number: {shown(line)}")
        top = {"mac": self.value("mac", "([0-9a-f:]+)")}
        top |= {"savi": self.value("savi", "(on|off)"), "unknown": self.value("unknown", "(drop|pass)")}
        top |= {name: int(self.value(key, NUMBER)) for key, name in HEAD_NUMBERS.items()}
        life = top["binding_s"]
        top["binding_s"] = life // 1000 if life % 1000 == 0 else self.fail("`binding` isn't a whole number of seconds")
        ports, prefixes = self.read_lists()
        if fault := key_fault(top) or list_fault(ports, prefixes, streams=True):
            self.fail(f"no configuration has the plan above: fault {fault} (docs/CONFIGURATION.md)")
        return Plan(
            mac=read_mac(top["mac"]), journal="", savi=top["savi"] == "on", drop_unknown=top["unknown"] == "drop",
            per_port=top["per_port"], depth=top["depth"], entries=top["entries"], bytes=top["bytes"],
            gap=top["probe_gap_ms"], test=top["test_ms"], life=life,
            ports=planned_ports([port | {"input": "", "output": ""} for port in ports]), prefixes=planned_prefixes(prefixes),
        )

    def read_lists(self):
        """The lines of ports, and behind them those of prefixes, as a configuration has them; of a rest also its base."""
        ports, prefixes = [], []
        while (line := self.line("`begin`")) != "begin":
            if self.version == 2 and ports and (self.base or line.startswith("moment ")):
                self.base.append(self.base_line(line))
                continue
            port = re.fullmatch("port ([1-9][0-9]?) ([a-z]+) (pcap|stream)( .*)?", line, re.ASCII)
            prefix = re.fullmatch("prefix ([0-9a-f:]+/[0-9]+) ([a-z]+)( vlan .*)?", line, re.ASCII)
            vlans = read_vlans((port and port[4] or prefix and prefix[3]) or "")
            if port and not prefixes and vlans is not None:
                ports.append({"number": int(port[1]), "role": port[2], "format": port[3]} | vlans)
            elif prefix and ports and vlans is not None:
                prefixes.append({"prefix": prefix[1], "method": prefix[2]} | vlans)
            else:
                self.fail(f"a port, a prefix or `begin` is expected, and here stands {shown(line)}")
        return ports, prefixes

    # The segments.

    def entries(self):
        """The entries of all segments. A segment in which passes are paused has another one behind it."""
        self.before, self.moment, self.is_paused = 0, 0, False
        yield from self.segment()
        while self.is_paused and self.version == 2:
            self.is_paused = False
            self.read_base()
            yield from self.segment()
        self.at += 1
        if (line := next(self.lines, "")):
            self.fail(f"a line behind the journal's end: {shown(line)}")

    def read_base(self):
        while (line := self.line("what the next segment goes on from")) != "begin":
            self.base_line(line)

    def base_line(self, line):
        if not BASE.fullmatch(line) or len(self.base) > BASE_LINES:
            self.fail(f"what a segment goes on from is expected, or `begin`, and here stands {shown(line)}")
        return line

    def segment(self):
        number = 0
        while not (line := self.line(f"entry {number} or `end {number}`")).startswith("end "):
            match = ENTRY.fullmatch(line) or self.fail(f"no entry: {shown(line)}")
            found, by, now = int(match[1]), int(match[2]), int(match[3])
            if found != number:
                self.fail(f"entry {number} is expected, and here stands entry {found}")
            if now < self.moment:
                self.fail(f"entry {number} is earlier than the one before it, by {self.moment - now} ms")
            entry = self.read_entry(Entry(self.before + number, by, now, match[4]), match[5])
            self.is_paused |= entry.how == "paused"
            yield entry
            number, self.moment = number + 1, now
        if line != f"end {number}":
            self.fail(f"`end {number}` is expected, and here stands {shown(line)}")
        self.before, self.closed = self.before + number, self.at

    def read_entry(self, entry, text):
        match = FORMS[entry.kind].fullmatch(text)
        if not match:
            self.fail(f"entry {entry.number} isn't one of kind {entry.kind}: {shown(text)}")
        {"F": self.read_frame, "L": self.read_long, "T": self.read_tick, "C": self.read_command, "D": self.read_drain,
         "E": self.read_end}[entry.kind](entry, match.groups())
        return entry

    def read_frame(self, entry, words):
        self.read_arrival(entry, words)
        entry.octets, entry.verdict = self.read_octets(entry, words[2]), self.read_verdict(entry, words[3])
        entry.length = len(entry.octets)
        entry.outs, entry.cuts = self.read_ports(entry, words[4]), self.read_ports(entry, words[5])

    def read_long(self, entry, words):
        self.read_arrival(entry, words)
        entry.length, entry.verdict = int(words[2]), self.read_verdict(entry, words[3])

    def read_tick(self, entry, words):
        self.read_pass(entry, "ticker")
        entry.stamp, entry.probes, entry.lost = map(int, words)

    def read_command(self, entry, words):
        self.read_pass(entry, "control")
        entry.stamp, entry.octets = int(words[0]), self.read_octets(entry, words[1])
        entry.probes, entry.lost = int(words[2]), int(words[3])

    def read_drain(self, entry, words):
        entry.port, entry.count = map(int, words)
        self.read_pass(entry, f"out{entry.port}")

    def read_end(self, entry, words):
        entry.who, entry.how = words
        self.read_pass(entry, entry.who)

    def read_arrival(self, entry, words):
        entry.port, entry.stamp = int(words[0]), int(words[1])
        entry.probes, entry.lost = int(words[-2]), int(words[-1])
        self.read_pass(entry, f"in{entry.port}")

    def read_pass(self, entry, who):
        if (by := self.passes.get(who)) is None:
            self.fail(f"entry {entry.number} is about `{who}`, and the plan above has no such port")
        if by != entry.by:
            self.fail(f"entry {entry.number} is of pass {entry.by}, and that of `{who}` is {by}")

    def read_octets(self, entry, digits):
        if digits == "-":
            return b""
        return self.fail(f"entry {entry.number} has half an octet") if len(digits) % 2 else bytes.fromhex(digits)

    def read_verdict(self, entry, text):
        word, _, name = text.partition("-")
        port = name.partition("+")[2]
        if word == "drop" and name not in RULES or port and int(port) not in self.ports:
            self.fail(f"entry {entry.number} has no verdict of the rules: {text}")
        return text

    def read_ports(self, entry, text):
        ports = read_set(text)
        if ports is None or not self.ports.issuperset(ports):
            self.fail(f"entry {entry.number} has no set of ports of the plan: {text}")
        return ports


def lines_of(file):
    """The lines of a file of which each octet is a character, none of them longer than can be told."""
    return iter(lambda: file.readline(LONGEST + 2), "")
