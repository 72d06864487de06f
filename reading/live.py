"""A live session: a worker for each input, each output, control and the ticker, whose turns at the switch come in any order
(docs/LIVE.md; docs/FORMATS.md, Streams)."""
import random
import struct

from . import capture, commands
from .session import CONTROL, Replay, Segment

# The most octets of records that go in one write, and the most items of one drain.
GATHERED, DRAINED = 65536, 256

# What a worker has come to: the gate, before a turn; or something that it does without the switch.
TURN, AWAY = "turn", "away"


class Clock:
    """`readings` come one after the other, and the last one again and again; without any it reads 0."""

    def __init__(self, readings=()):
        self.readings, self.made = list(readings) or [0], 0

    def now(self):
        self.made += 1
        return self.readings[min(self.made, len(self.readings)) - 1]


def stream(octets, clock, is_cut=False):
    """What a stream brings: the arrivals, stamped by the clock, and how it ends ("end", "malformed AT" or "failed"). Where
    `is_cut` is true these are the octets before a read that failed."""
    found, at = [], 0
    while at < len(octets):
        length = struct.unpack(">I", octets[at : at + 4])[0] if len(octets) - at >= 4 else 0
        if length > capture.LONGEST_RECORD:
            return found, f"malformed {at}"
        if len(octets) - at < 4 + length:
            return found, "failed" if is_cut else f"malformed {at}"
        frame = octets[at + 4 : at + 4 + length]
        found.append(capture.Arrival(clock.now(), length, frame if length <= capture.LONGEST_FRAME else None))
        at += 4 + length
    return found, "failed" if is_cut else "end"


def lines(octets, clock, is_cut=False):
    """The commands that control brings, a line each, stamped by the clock, and how it ends."""
    found, at = [], 0
    while at < len(octets):
        end = octets.find(b"\n", at)
        line = octets[at : end if end >= 0 else len(octets)]
        if len(line) > commands.LONGEST_LINE:
            return found, f"overlong {at}"
        if end < 0 and is_cut:
            return found, "failed"
        found.append(commands.Line(clock.now(), line))
        at += len(line) + (end >= 0)
    return found, "failed" if is_cut else "end"


def given(octets, pieces, fails):
    """The octets that a source gave before the read that fails, which may be the one that sees the end, and whether one did;
    `fails` is its number from 1, or 0. A read takes up to so many octets."""
    is_cut = 0 < fails <= -(-len(octets) // pieces) + 1
    return (octets[: (fails - 1) * pieces], True) if is_cut else (octets, False)


class Held(Exception):
    """A session in which no worker can go on."""


class Worker:
    """The turns of a pass, as an iterator that comes to what it does next: the gate, or something without the switch."""

    def __init__(self, by, steps):
        self.by, self.steps, self.came, self.place = by, steps, 0, None

    def go_on(self):
        """Does what the worker has come to. False where that was its last turn."""
        self.place = next(self.steps, None)
        self.came += self.place == TURN
        return self.place is not None


class Live(Replay):
    """A live session, in segments: an input for which there is no room is paused, and so are the others, the ticker and the
    outputs; the next segment begins with what each of them had before it.

    `inputs` and `control` are as those of a replay. `holds` has for a pass and the number of a turn which other pass has
    to come by first, and for which turn. The order of the turns is drawn by `seed`."""

    def __init__(self, plan, inputs, control=None, fails=None, ticker=None, holds=None, seed=0):
        self.clock, self.holds, self.random = ticker or Clock(), holds or {}, random.Random(seed)
        # What is paused in the segment that goes on, whether the ticker has ended in it, and the outputs that were begun.
        self.paused, self.ticker_is_over, self.begun = set(), False, set()
        super().__init__(plan, inputs, control, fails)

    def play(self):
        came = {}
        self.serve(came)
        while self.paused:
            self.paused, self.ticker_is_over = set(), False
            self.switch.turn()
            self.base = list(self.switch.base_lines())
            self.serve(came)

    def serve(self, came):
        """Plays a segment. `came` has how many turns each pass took before it."""
        workers = [Worker(source.by, self.take(n, source)) for n, source in self.inputs.items() if not source.is_over]
        workers.append(Worker(self.switch.ticker_pass, self.tick()))
        workers += [Worker(by, self.send(n)) for n, by in self.switch.egress_pass.items() if n not in self.switch.closed]
        for worker in workers:
            worker.came = came.get(worker.by, 0)
        self.workers = {worker.by: worker for worker in workers}
        running = list(self.workers.values())
        while running:
            able = [worker for worker in running if self.may_go_on(worker)]
            if not able:
                raise Held
            worker = self.random.choice(able)
            if not worker.go_on():
                running.remove(worker)
        came.update((worker.by, worker.came) for worker in workers)
        self.segments.append(Segment(self.base, self.switch.entries))

    def may_go_on(self, worker):
        holds = self.holds.get((worker.by, worker.came), []) if worker.place == TURN else []
        return all(self.workers[other].came >= turn for other, turn in holds)

    def take(self, number, source):
        """The turns of an input."""
        while source.head() is not None and not source.is_over:
            yield TURN
            arrival = self.taken(source)
            if arrival is None:
                return
            if number == CONTROL:
                yield from self.answer(source, arrival)
            else:
                self.enter(number, arrival)
            yield AWAY
        if not source.is_over:
            yield TURN
            self.end_input(source, source.how)

    def answer(self, source, line):
        reply = self.switch.command(line.stamp, line.text)
        yield AWAY
        is_written = self.outputs[CONTROL].write(reply.encode("ascii"))
        if not is_written or commands.is_quit(line.text):
            yield TURN
            self.end_input(source, "quit" if is_written else "unwritten")

    def taken(self, source):
        """What comes next of an input; or None where there is no room for it, and the input is paused."""
        if self.switch.is_full():
            self.paused.add(source.by)
            self.switch.end(source.by, f"{source.name} paused")
            return None
        arrival = source.head()
        source.at += 1
        return arrival

    def closing(self):
        """How the ticker and the outputs end: they are paused where an input is."""
        return "paused" if self.paused else "end"

    def inputs_are_over(self):
        return all(source.is_over or source.by in self.paused for source in self.inputs.values())

    def is_due(self, stamp):
        """Whether the state of an address, or a probe, is due by then."""
        now = max(self.switch.moment, stamp)
        dues = [state.first.due(self.plan) for state in self.switch.addresses.values()]
        dues += [state.bound[1] for state in self.switch.addresses.values() if state.bound]
        return any(due is not None and due <= now for due in dues)

    def tick(self):
        """The turns of the ticker."""
        while not self.ticker_is_over:
            stamp = self.clock.now()
            yield TURN
            switch = self.switch
            if not switch.is_full() and self.is_due(stamp):
                switch.begin(stamp)
                text = f"T {stamp} {switch.probes} {switch.lost}"
                switch.enter(switch.ticker_pass, text, probes=switch.probes, lost=switch.lost)
            elif self.inputs_are_over():
                self.ticker_is_over = True
                switch.end(switch.ticker_pass, f"ticker {self.closing()}")
            yield AWAY

    def send(self, port):
        """The turns of an output."""
        is_stream = self.plan_of(port).format == "stream"
        is_written = port in self.begun or is_stream or self.outputs[port].write(capture.HEADER)
        self.begun.add(port)
        while is_written:
            yield TURN
            queue = self.switch.queues[port]
            if not queue and self.inputs_are_over() and self.ticker_is_over:
                self.switch.end_output(port, self.closing())
                return
            items = self.switch.drain(port) if queue else []
            yield AWAY
            is_written = self.write_all(port, items, is_stream)
        yield TURN
        self.switch.end_output(port, "failed")
        self.note("failed output", f"port {port}: write failed")

    def plan_of(self, port):
        return next(plan for plan in self.plan.ports if plan.number == port)

    def write_all(self, port, items, is_stream):
        """Writes the records of a drain, as many at once as there is room to gather."""
        pieces = [b""]
        for moment, frame in items:
            record = struct.pack(">I", len(frame)) + frame if is_stream else capture.record(moment, frame)
            if len(pieces[-1]) + len(record) > GATHERED:
                pieces.append(b"")
            pieces[-1] += record
        return all(self.outputs[port].write(piece) for piece in pieces if piece)

    def ticks(self):
        return [f"{entry.by} {entry.moment} {entry.text}" for entry in self.entries() if entry.text.startswith("T ")]

    def ends(self):
        """How each pass ended, in the order of the passes."""
        ends = [entry for entry in self.entries() if entry.text.startswith("E ") and not entry.text.endswith(" paused")]
        return [entry.text.removeprefix("E ") for entry in sorted(ends, key=lambda entry: entry.by)]
