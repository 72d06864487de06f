"""The check of a journal, with what it answers (docs/FORMATS.md, The check of a journal): each entry is computed anew by
switch.py beside this file."""
import re
from dataclasses import replace

from .commands import LONGEST_LINE, RULES
from .journal import HEAD_NUMBERS, LONGEST
from .plan import DEFAULT_VLAN, METHODS, ROLES, VLANS, Plan, PortPlan, PrefixPlan
from .plan import is_clash, is_out, key_fault, mac_text, prefix_text, read_mac, read_prefix, read_vlans
from .switch import LATEST, Switch

LONGEST_FRAME = 1518
NUMBER = re.compile(b"0|[1-9][0-9]*")
HOWS = {
    "in": ("end", "malformed", "failed", "paused"), "ticker": ("end", "paused"), "out": ("end", "failed", "paused"),
    "control": ("end", "quit", "malformed", "overlong", "failed", "unwritten", "paused"),
}
# The first line of each version.
VERSIONS = {b"savi-journal 1": 1, b"savi-journal 2": 2}
# The passes that take inputs.
TAKERS = ("in", "control")
# The ways of an end that have a number.
PLACED = ("malformed", "overlong")


class BadLine(Exception):
    """A line that may not stand where it does."""


class Wrong(Exception):
    """An entry that isn't the one that would stand there: what it would have, and what it has."""


def number(word, most=2**64 - 1):
    if not NUMBER.fullmatch(word) or int(word) > most:
        raise BadLine
    return int(word)


def text_of(word, pattern):
    """The text of a word in this form."""
    if not re.fullmatch(pattern, word):
        raise BadLine
    return word.decode("ascii")


def port(word):
    found = number(word, 16)
    if found == 0:
        raise BadLine
    return found


def ports(word):
    found = [] if word == b"-" else [port(part) for part in word.split(b",")]
    if found != sorted(set(found)):
        raise BadLine
    return word.decode("ascii")


def octets(word, most):
    found = b"" if word == b"-" else bytes.fromhex(text_of(word, b"([0-9a-f]{2})+"))
    if len(found) > most:
        raise BadLine
    return found


def verdict(word):
    text = text_of(word, b"[A-Za-z0-9+-]+")
    if text in ("pass-all", "pass-trusted") or text.startswith("drop-") and text[5:] in RULES:
        return text
    if text.startswith("pass-trusted+"):
        port(word[len("pass-trusted+"):])
        return text
    raise BadLine


def vlans(words, trunks=True):
    """What the words behind a port or a prefix say of its VLANs."""
    found = read_vlans(b"".join(b" " + word for word in words).decode("ascii", "replace"))
    if found is None or "trunk" in found and not trunks:
        raise BadLine
    return found


def passing(word):
    """Who an end is of: its kind, and the number of its port or None."""
    if word in (b"control", b"ticker"):
        return word.decode("ascii"), None
    kind = "in" if word.startswith(b"in") else "out"
    if not word.startswith(kind.encode("ascii")):
        raise BadLine
    return kind, port(word[len(kind):])


class History(Switch):
    """The history so far, to which a journal's entries are added one by one."""

    def __init__(self, plan):
        super().__init__(plan)
        # The passes that have ended or are paused, whether an input among them is, and the entries of the segments before.
        self.over, self.has_pause, self.before = set(), False, 0

    def number(self):
        """The number of the next entry, over all segments."""
        return self.before + len(self.entries)

    def turn(self):
        self.over, self.has_pause, self.before = set(self.ended), False, self.number()
        super().turn()

    def number_of(self, kind, n):
        """The number of a pass, or None where it isn't in the plan."""
        numbers = {"in": self.ingress_pass, "out": self.egress_pass}.get(kind)
        return numbers.get(n) if numbers else self.control_pass if kind == "control" else self.ticker_pass

    def is_open(self, kind, n=None):
        by = self.number_of(kind, n)
        return by is not None and by not in self.over

    def takers_are_over(self):
        return self.over >= {*self.ingress_pass.values(), self.control_pass}

    def is_idle(self, stamp):
        """Whether no address has another state by then."""
        moment = max(self.moment, min(stamp, LATEST))
        aged = {key: replace(state, first=replace(state.first)) for key, state in self.addresses.items()}
        for state in aged.values():
            state.age(moment, self.plan)
        return aged == self.addresses


def want(holds, letter):
    if not holds:
        raise Wrong("none", letter)


class Checker:
    def __init__(self, text):
        self.lines, self.at = text.split(b"\n"), 0
        # What stands behind the last line feed.
        self.rest = self.lines.pop()

    def line(self):
        """The next line. One that isn't there, or has no line feed, may not stand there."""
        self.at += 1
        if self.at > len(self.lines) or len(self.lines[self.at - 1]) > LONGEST:
            raise BadLine
        return self.lines[self.at - 1]

    def answer(self):
        try:
            self.history = History(self.read_head())
            return self.read_segments()
        except BadLine:
            return f"bad line {self.at}"
        except Wrong as fault:
            return f"wrong at entry {self.entry}: want {fault.args[0]} have {fault.args[1]}"

    # The head.

    def value(self, key, pattern):
        word, space, rest = self.line().partition(b" ")
        if word != key.encode("ascii") or not space:
            raise BadLine
        return text_of(rest, pattern)

    def read_head(self):
        self.version = VERSIONS.get(self.line())
        if self.version is None:
            raise BadLine
        top = {"mac": self.value("mac", b"[0-9a-f:]+"), "savi": "on", "unknown": "drop", "per_port": 1, "depth": 1,
               "entries": 4131, "bytes": 1518, "probe_gap_ms": 1, "test_ms": 60000, "binding_s": 1}
        self.demand(top)
        if read_mac(top["mac"]) is None or mac_text(read_mac(top["mac"])) != top["mac"]:
            raise BadLine
        top |= {"savi": self.value("savi", b"on|off")}
        top |= {"unknown": self.value("unknown", b"drop|pass")}
        for key, name in HEAD_NUMBERS.items():
            found = number(self.value(key, b"[0-9]+").encode("ascii"))
            if key == "binding" and found % 1000:
                raise BadLine
            top |= {name: found // 1000 if key == "binding" else found}
            self.demand(top)
        found, prefixes = self.read_lists()
        return Plan(
            mac=read_mac(top["mac"]), journal="", savi=top["savi"] == "on", drop_unknown=top["unknown"] == "drop",
            per_port=top["per_port"], depth=top["depth"], entries=top["entries"], bytes=top["bytes"],
            gap=top["probe_gap_ms"], test=top["test_ms"], life=1000 * top["binding_s"], ports=found, prefixes=prefixes)

    def demand(self, top):
        """The values so far may be those of a plan."""
        if key_fault(top):
            raise BadLine

    def read_lists(self):
        found, prefixes = [], []
        while (line := self.line()) != b"begin":
            words = line.split(b" ")
            if words[0] == b"port" and len(words) in (4, 6) and not prefixes:
                found.append(self.read_port(found, words))
            elif words[0] == b"prefix" and len(words) in (3, 5) and found:
                prefixes.append(self.read_prefix(prefixes, words))
            else:
                raise BadLine
        if not found:
            raise BadLine
        return found, prefixes

    def read_port(self, found, words):
        n, role, form = port(words[1]), text_of(words[2], b"[a-z]+"), text_of(words[3], b"pcap|stream")
        if role not in ROLES or found and n <= found[-1].number:
            raise BadLine
        read = PortPlan(n, role, "", "", form, **vlans(words[4:]))
        if read.trunk and not read.is_trusted or len({vlan for one in (*found, read) for vlan in one.vlans}) > VLANS:
            raise BadLine
        return read

    def read_prefix(self, prefixes, words):
        text, method = text_of(words[1], b"[0-9a-f:/]+"), text_of(words[2], b"[a-z]+")
        found = read_prefix(text)
        if found is None or prefix_text(*found) != text or method not in METHODS or is_out(len(prefixes), 0, 31):
            raise BadLine
        read = PrefixPlan(vlans(words[3:], trunks=False).get("vlan", DEFAULT_VLAN), *found, method)
        read_so_far = [*prefixes, read]
        if read_so_far != sorted(read_so_far) or is_clash(read_so_far):
            raise BadLine
        return read

    # The segments.

    def read_segments(self):
        """Where a segment is paused the next one follows, which version 1 doesn't have."""
        self.read_entries()
        while self.history.has_pause and self.version == 2:
            self.history.turn()
            self.read_base()
            self.read_entries()
        self.at += 1
        if self.at <= len(self.lines) or self.rest or self.history.has_pause:
            raise BadLine
        return f"good: {self.history.number()} entries"

    def read_base(self):
        """What the segment that begins goes on from, and `begin`: each line is the computed one."""
        for wanted in (*self.history.base_lines(), "begin"):
            if self.line() != wanted.encode("ascii"):
                raise BadLine

    def read_entries(self):
        history = self.history
        takers = {
            b"F": self.frame, b"L": self.long, b"T": self.tick, b"C": self.command, b"D": self.drain, b"E": self.end,
        }
        while not (line := self.line()).startswith(b"end"):
            words = line.split(b" ")
            if len(words) < 5 or number(words[0]) != len(history.entries):
                raise BadLine
            self.entry, head = history.number(), (number(words[1], 2**32 - 1), number(words[2]))
            if words[3] not in takers:
                raise BadLine
            takers[words[3]](head, words[4:])
        if line != b"end %d" % len(history.entries) or len(history.over) != 2 * len(history.ports) + 2:
            raise BadLine

    def fields(self, words, *readers):
        if len(words) != len(readers):
            raise BadLine
        return [read(word) for read, word in zip(readers, words)]

    def compare(self, head, computed=()):
        """The fields of the entry that was made, and those that the journal has: the first that differs."""
        entry = self.history.entries[-1]
        made = [entry.by, entry.moment] + (entry.text.split(" ")[-len(computed):] if computed else [])
        for wanted, had in zip(map(str, made), map(str, (*head, *computed))):
            if wanted != had:
                raise Wrong(wanted, had)

    def frame(self, head, words):
        n, stamp, frame, *computed = self.fields(
            words, port, number, lambda word: octets(word, LONGEST_FRAME), verdict, ports, ports, small, small)
        want(self.history.is_open("in", n) and not self.history.is_full(), "F")
        self.history.frame(n, stamp, frame)
        self.compare(head, computed)

    def long(self, head, words):
        n, stamp, length, *computed = self.fields(words, port, number, small, verdict, small, small)
        want(self.history.is_open("in", n) and not self.history.is_full() and length > LONGEST_FRAME, "L")
        self.history.long_frame(n, stamp, length)
        self.compare(head, computed)

    def tick(self, head, words):
        stamp, *computed = self.fields(words, number, small, small)
        history = self.history
        want(history.is_open("ticker") and not history.is_full() and not history.is_idle(stamp), "T")
        history.begin(stamp)
        text = f"T {stamp} {history.probes} {history.lost}"
        history.enter(history.ticker_pass, text, probes=history.probes, lost=history.lost)
        self.compare(head, computed)

    def command(self, head, words):
        stamp, line, *computed = self.fields(words, number, lambda word: octets(word, LONGEST_LINE), small, small)
        want(self.history.is_open("control") and not self.history.is_full(), "C")
        self.history.command(stamp, line)
        self.compare(head, computed)

    def drain(self, head, words):
        n, count = self.fields(words, port, small)
        history = self.history
        want(history.is_open("out", n) and history.queues[n] and count, "D")
        if count > len(history.queues[n]):
            raise Wrong(len(history.queues[n]), count)
        history.queues[n] = history.queues[n][count:]
        history.enter(history.egress_pass[n], f"D {n} {count}")
        self.compare(head)

    def end(self, head, words):
        (kind, n), how = passing(words[0]), text_of(b"".join(words[1:2]), b"[a-z]+")
        if how not in HOWS[kind] or len(words) != 2 + (how in PLACED):
            raise BadLine
        if how in PLACED:
            number(words[2])
        history = self.history
        want(history.is_open(kind, n) and self.may_end(kind, n, how), "E")
        history.over.add(history.number_of(kind, n))
        history.has_pause |= how == "paused" and kind in TAKERS
        if kind == "out":
            history.end_output(n, how)
        else:
            history.end(history.number_of(kind, n), b" ".join(words).decode("ascii"))
        self.compare(head)

    def may_end(self, kind, n, how):
        history = self.history
        if how not in ("end", "paused"):
            return True
        if kind in TAKERS:
            return how == "end" or history.is_full()
        is_idle = kind == "ticker" or not history.is_open("ticker") and not history.queues[n]
        return history.takers_are_over() and is_idle and history.has_pause == (how == "paused")


def small(word):
    return number(word, 2**32 - 1)


def answer(text):
    """The line that is written to standard output of these octets."""
    return Checker(text).answer()
