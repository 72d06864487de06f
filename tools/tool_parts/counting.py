"""What a journal tells of frames and of addresses, from its entries one by one: counts by port, who was refused what, and
how often addresses came and went. What is kept doesn't grow with the length of the journal: of the sources of refused frames
those with the most frames are named, and the others counted together."""
import datetime
from dataclasses import dataclass, field

from reading.commands import RULES
from reading.frame import ETHERTYPE_IPV6, inner_frame, number, read_tag
from reading.journal import Fault, Journal
from reading.plan import DEFAULT_VLAN, Plan, PortPlan, address_text, key_text, mac_text

from .following import LEASED, STATIC, TENTATIVE, TESTED, VALID, Follower

# How many sources of one port and rule are named. Twice as many are kept before the others are put together.
SOURCES = 2048


@dataclass(slots=True)
class Span:
    """Frames: how many, and the entries and moments of the first and the last one."""

    count: int
    entry: int
    moment: int
    last_entry: int
    last_moment: int

    def join(self, other):
        if other.entry < self.entry:
            self.entry, self.moment = other.entry, other.moment
        if other.last_entry > self.last_entry:
            self.last_entry, self.last_moment = other.last_entry, other.last_moment
        self.count += other.count


def span_of(entry):
    return Span(1, entry.number, entry.moment, entry.number, entry.moment)


@dataclass
class Refused:
    """The frames of one port that one rule dropped: in all, by their sources, and those of sources that aren't named, with
    how many times a source was put there."""

    port: int
    rule: str
    all: Span | None = None
    sources: dict = field(default_factory=dict)
    others: Span | None = None
    put_aside: int = 0

    def take(self, entry, source):
        span = span_of(entry)
        if self.all is None:
            self.all = span_of(entry)
        else:
            self.all.join(span)
        if source in self.sources:
            self.sources[source].join(span)
            return
        self.sources[source] = span
        if len(self.sources) > 2 * SOURCES:
            named = self.ranked()
            self.sources = dict(named[:SOURCES])
            for _, span in named[SOURCES:]:
                self.put_aside += 1
                self.others = self.others or Span(0, span.entry, span.moment, span.last_entry, span.last_moment)
                self.others.join(span)

    def ranked(self):
        """The sources that are named, those with the most frames first."""
        return sorted(self.sources.items(), key=lambda item: (-item[1].count, item[1].entry))


@dataclass
class PortCount:
    role: str
    plan: PortPlan
    frames: int = 0
    dropped: int = 0
    cut: int = 0

    @property
    def passed(self):
        return self.frames - self.dropped


@dataclass
class BindingCount:
    """How often addresses were claimed, became valid, leased and static at a port, and were tested there; how many of them
    went to another port, became free, and are there at the end."""

    claimed: int = 0
    valid: int = 0
    leased: int = 0
    static: int = 0
    tested: int = 0
    moved: int = 0
    freed: int = 0
    last: int = 0


@dataclass
class Telling:
    """What a journal tells, up to its fault if it has one. `refused` is by port and rule, and `bindings` by the number of
    each validated port. `is_rest` says that its first segments aren't there."""

    plan: Plan
    ports: dict
    bindings: dict
    entries: int = 0
    probes: int = 0
    lost: int = 0
    first: int | None = None
    last: int = 0
    refused: dict = field(default_factory=dict)
    others: int = 0
    other: int | None = None
    fault: Fault | None = None
    is_rest: bool = False

    def total(self, what):
        return sum(getattr(count, what) for count in self.ports.values())

    def seconds(self, moment):
        """From the first frame."""
        return (moment - (self.first or 0)) / 1000

    def by_port_and_rule(self):
        """What was refused, in the order of the ports and of the rules."""
        return sorted(self.refused.values(), key=lambda refused: (refused.port, RULES.index(refused.rule)))


def moment_text(ms):
    """A moment in ms since 1970, where it is a date."""
    try:
        time = datetime.datetime.fromtimestamp(ms // 1000, datetime.timezone.utc)
    except (OverflowError, ValueError, OSError):
        return f"{ms} ms since 1970"
    return f"{time:%Y-%m-%d %H:%M:%S}.{ms % 1000:03} UTC"


def source_of(port, octets):
    """The VLAN of a frame at a port of a plan, the default one where it has none, and the octets of the source that it
    names: its IPv6 address where it has one, else its MAC address if any."""
    vlan = port.vlan_of(read_tag(octets)) if len(octets) >= 14 else None
    inner = octets if vlan is None else inner_frame(octets)
    is_ipv6 = len(inner) >= 38 and number(inner[12:14]) == ETHERTYPE_IPV6
    return DEFAULT_VLAN if vlan is None else vlan, inner[22:38] if is_ipv6 else inner[6:12] if len(inner) >= 12 else b""


def source_text(source):
    """The key of a source, or `-`."""
    vlan, octets = source
    if not octets:
        return "-"
    return key_text(vlan, {16: address_text, 6: mac_text}[len(octets)](number(octets)))


def tell(lines, watcher=None):
    """What the lines of a journal tell. Raises Fault where its head is at fault. Each refused frame and each change of an
    address is told to `watcher` too, by `refused(told, entry, source)` and `changed(address, old, change)`."""
    journal = Journal(lines)
    ports = {port.number: PortCount(port.role, port) for port in journal.plan.ports}
    bindings = {number: BindingCount() for number, count in ports.items() if count.role != "trusted"}
    told = Telling(journal.plan, ports, bindings, is_rest=bool(journal.base))

    def changed(address, old, change):
        if change.entry is not None:
            count_change(bindings, old, change.binding)
        if watcher:
            watcher.changed(address, old, change)

    follower = Follower(journal.plan, changed)
    if journal.plan.savi:
        follower.go_on_from(journal.base)
    try:
        for entry in journal.entries():
            take(told, entry, watcher)
            if journal.plan.savi:
                follower.take(entry)
    except Fault as fault:
        told.fault = fault
    for binding in follower.bindings.values():
        if binding.port in bindings:
            bindings[binding.port].last += 1
    told.others, told.other = follower.others, follower.other
    return told


def take(told, entry, watcher):
    told.entries, told.last = entry.number + 1, entry.moment
    told.probes, told.lost = told.probes + entry.probes, told.lost + entry.lost
    if entry.kind not in "FL":
        return
    told.first = entry.moment if told.first is None else told.first
    count = told.ports[entry.port]
    count.frames += 1
    for port in entry.cuts:
        told.ports[port].cut += 1
    rule = entry.rule
    if rule:
        count.dropped += 1
        source = source_of(count.plan, entry.octets)
        if (entry.port, rule) not in told.refused:
            told.refused[entry.port, rule] = Refused(entry.port, rule)
        told.refused[entry.port, rule].take(entry, source)
        if watcher:
            watcher.refused(told, entry, source)


REST_TEXT = ("The rest of a journal, whose first segments aren't there any more: entries are counted from its front, and addresses "
             "that were there before aren't counted as claimed.")


def others_text(told):
    return (f"Frames that the second implementation would have judged otherwise: {told.others}, the first in entry "
            f"{told.other}. Who has which address may be wrong here.")


def count_change(counts, old, new):
    if old and old.port in counts and (new is None or new.port != old.port):
        counts[old.port].freed += new is None
        counts[old.port].moved += new is not None
    if new is None or new.port not in counts:
        return
    count, is_here = counts[new.port], old is not None and old.port == new.port
    kind = old.kind if is_here else None
    count.claimed += new.kind == TENTATIVE and kind != TENTATIVE
    count.valid += new.kind == VALID and kind not in (VALID, TESTED, LEASED)
    count.leased += new.kind == LEASED and kind != LEASED
    count.static += new.kind == STATIC and kind != STATIC
    count.tested += new.kind == TESTED and kind != TESTED
