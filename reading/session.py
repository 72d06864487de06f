"""A replay: the order in which inputs are taken, what is written, the journal, the summary and the status
(docs/FORMATS.md)."""
from dataclasses import dataclass, field

from . import capture, commands
from .plan import mac_text, port_text, prefix_text, vlan_text
from .states import Scope
from .switch import Switch

# The causes of a status behind a session, the first that applies.
STATUSES = (("failed input", 5), ("failed output", 6), ("at fault", 4))

CONTROL = 0


@dataclass
class Input:
    """What an input brings: arrivals or lines, and how it ends."""

    arrivals: list
    how: str
    by: int
    name: str
    title: str
    at: int = 0
    is_over: bool = False

    def head(self):
        return self.arrivals[self.at] if self.at < len(self.arrivals) else None


@dataclass
class Output:
    """What an output takes: `fails` is the number of the write that fails, from 1, or 0."""

    fails: int = 0
    writes: int = 0
    octets: bytearray = field(default_factory=bytearray)

    def write(self, octets):
        self.writes += 1
        if self.writes == self.fails:
            return False
        self.octets += octets
        return True


@dataclass
class Segment:
    """A segment that is closed: what it went on from, where it isn't the first, and its entries."""

    base: list
    entries: list


class Replay:
    """`captures` has what each port's input brings, by the port's number, as (arrivals, how it ends). `fails` has the number
    of the write that fails, from 1, by port, and by 0 for control's output."""

    def __init__(self, plan, captures, control=None, fails=None, floods=False):
        self.plan, self.switch = plan, Switch(plan, floods)
        self.lines, self.causes, self.segments, self.base = [], set(), [], []
        fails = fails or {}
        self.outputs = {n: Output(fails.get(n, 0)) for n in (CONTROL, *self.switch.ports)}
        self.inputs = {CONTROL: Input(*(control or ([], "end")), self.switch.control_pass, "control", "control")}
        for n, by in self.switch.ingress_pass.items():
            self.inputs[n] = Input(*captures[n], by, f"in{n}", f"port {n}")
        self.play()

    def play(self):
        for n in self.switch.ports:
            self.write(n, capture.HEADER)
        while self.look():
            if self.switch.is_full():
                self.pause()
            self.turn()
        self.close("end")

    def pause(self):
        """Pauses all that is open, and goes on in the next segment."""
        for source in self.inputs.values():
            if not source.is_over:
                self.switch.end(source.by, f"{source.name} paused")
        self.close("paused")
        self.switch.turn()
        self.base = list(self.switch.base_lines())

    def close(self, how):
        """Ends the ticker and the outputs, which closes the segment."""
        self.switch.end(self.switch.ticker_pass, f"ticker {how}")
        for n in self.switch.ports:
            if n not in self.switch.closed:
                self.switch.end_output(n, how)
        self.segments.append(Segment(self.base, self.switch.entries))

    def look(self):
        """Ends each input that has nothing more, control first. Answers whether one has."""
        for source in self.inputs.values():
            if not source.is_over and source.head() is None:
                self.end_input(source, source.how)
        return any(not source.is_over for source in self.inputs.values())

    def turn(self):
        """Takes the arrival with the least stamp, of control first and then of the lower port; and drains the queues."""
        number = min((n for n in self.inputs if not self.inputs[n].is_over), key=lambda n: (self.inputs[n].head().stamp, n))
        source = self.inputs[number]
        arrival = source.head()
        source.at += 1
        if number == CONTROL:
            self.command(source, arrival)
        else:
            self.enter(number, arrival)
        for n, items in self.switch.queues.items():
            if items:
                self.drain(n)

    def enter(self, port, arrival):
        """Enters what came in at a port."""
        if arrival.octets is None:
            self.switch.long_frame(port, arrival.stamp, arrival.length)
        else:
            self.switch.frame(port, arrival.stamp, arrival.octets)

    def command(self, source, line):
        reply = self.switch.command(line.stamp, line.text)
        if not self.outputs[CONTROL].write(reply.encode("ascii")):
            self.end_input(source, "unwritten")
        elif commands.is_quit(line.text):
            self.end_input(source, "quit")

    def drain(self, port):
        for moment, frame in self.switch.drain(port):
            if not self.write(port, capture.record(moment, frame)):
                break

    def write(self, port, octets):
        is_written = self.outputs[port].write(octets)
        if not is_written:
            self.switch.end_output(port, "failed")
            self.note("failed output", f"port {port}: write failed")
        return is_written

    def end_input(self, source, how):
        source.is_over = True
        self.switch.end(source.by, f"{source.name} {how}")
        word, _, place = how.partition(" ")
        if word == "failed":
            self.note("failed input", f"{source.title}: read failed")
        elif word == "unwritten":
            self.note("failed output", f"{source.title}: write failed")
        elif word == "malformed":
            self.note("at fault", f"{source.title}: malformed at {place}")
        elif word == "overlong":
            self.note("at fault", f"{source.title}: overlong line at {place}")

    def note(self, cause, line):
        self.causes.add(cause)
        self.lines.append(line)

    def status(self):
        return next((status for cause, status in STATUSES if cause in self.causes), 0)

    def entries(self):
        """The entries of all segments."""
        return [entry for segment in self.segments for entry in segment.entries]

    def summary(self):
        entries = self.entries()
        judged = [entry.verdict for entry in entries if entry.verdict is not None]
        passed = sum(isinstance(verdict, Scope) for verdict in judged)
        probes, lost = sum(entry.probes for entry in entries), sum(entry.lost for entry in entries)
        cut = sum(len(entry.cuts) for entry in entries)
        counts = f"frames {len(judged)} passed {passed} dropped {len(judged) - passed}"
        return f"entries {len(entries)} {counts} probes {probes} lost {lost} cut {cut}\n"

    def journal(self):
        """The text of the journal, in pieces."""
        yield head(self.plan)
        for segment in self.segments:
            yield from (f"{line}\n" for line in (*segment.base, "begin"))
            for n, entry in enumerate(segment.entries):
                yield f"{n} {entry.by} {entry.moment} {entry.text}\n"
            yield f"end {len(segment.entries)}\n"


def head(plan):
    """The lines in front of the first segment."""
    lines = [
        "savi-journal 2", f"mac {mac_text(plan.mac)}", f"savi {'on' if plan.savi else 'off'}",
        f"unknown {'drop' if plan.drop_unknown else 'pass'}", f"per_port {plan.per_port}", f"depth {plan.depth}",
        f"entries {plan.entries}", f"bytes {plan.bytes}", f"gap {plan.gap}", f"test {plan.test}", f"binding {plan.life}",
    ]
    lines += [f"port {port.number} {port.role} {port.format}{port_text(port)}" for port in plan.ports]
    lines += [f"prefix {prefix_text(net, length)} {method}{vlan_text(vlan)}" for vlan, net, length, method in plan.prefixes]
    return "".join(f"{line}\n" for line in lines)
