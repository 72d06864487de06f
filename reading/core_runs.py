"""What crates/core_runs must print: events put to a switch one by one, by the second implementation."""
from dataclasses import replace

from . import line_runs
from .plan import read_plan
from .switch import LATEST, Switch


class Machine(Switch):
    """A switch whose events come one by one: each answers whether an entry was made, or the word for what else became of it."""

    def is_idle(self, stamp):
        """Whether no address has another state by the moment of a tick."""
        moment = max(self.moment, min(stamp, LATEST))
        aged = {key: replace(state) for key, state in self.addresses.items()}
        for state in aged.values():
            state.age(moment, self.plan)
        return aged == self.addresses

    def tick(self, stamp):
        self.begin(stamp)
        self.enter(self.ticker_pass, f"T {stamp} {self.probes} {self.lost}", probes=self.probes, lost=self.lost)

    def take(self, port, most):
        """A drain of at most so many items."""
        items, self.queues[port] = self.queues[port][:most], self.queues[port][most:]
        self.enter(self.egress_pass[port], f"D {port} {len(items)}")
        return items


class Scene:
    """A plan and the events that its switch meets."""

    def __init__(self, names):
        self.names, self.text, self.machine, self.printed = names, "", None, []

    def event(self, line):
        if self.machine is None:
            self.machine = Machine(read_plan(self.text.encode("ascii")))
        machine, held = self.machine, self.machine.octets
        before = len(machine.entries)
        told, rest = self.step(*line.split(" ", 3))
        if len(machine.entries) > before:
            entry = machine.entries[-1]
            told = f"Done({line_runs.entry(f'0 {entry.by} {entry.moment} {entry.text}')[1](held)})"
        self.printed += [line, f"  {len(machine.entries)} {told}" if told else "  not open"] + rest

    def step(self, word, first, *words):
        """What becomes of an event where no entry is made, and what is printed behind an entry."""
        machine = self.machine
        full = f"Full {{ len: {len(machine.entries)} }}"
        has_ended = word in ("frame", "long", "end") and machine.ingress_pass[int(first)] in machine.ended
        if has_ended or word == "fail" and int(first) in machine.closed:
            return None, []
        if word in ("frame", "long", "command", "tick") and machine.is_full():
            return full, []
        if word == "frame":
            machine.frame(int(first), int(words[0]), bytes.fromhex(self.names[words[1]]))
        elif word == "long":
            machine.long_frame(int(first), int(words[0]), int(words[1]))
        elif word == "command":
            return "", machine.command(int(first), " ".join(words).encode("ascii")).splitlines()
        elif word == "tick":
            if machine.is_idle(int(first)):
                return "Nothing", []
            machine.tick(int(first))
        elif word == "end":
            machine.end(machine.ingress_pass[int(first)], f"in{first} end")
        elif word == "fail":
            machine.end_output(int(first), "failed")
        elif word == "drain":
            return self.drain(int(first), int(words[0]))
        return "", []

    def drain(self, port, most):
        if not self.machine.queues[port]:
            return "Nothing", []
        known = {digits: name for name, digits in self.names.items()}
        items = self.machine.take(port, most)
        return "", [f"  at {moment}: {known.get(octets.hex(), octets.hex())}" for moment, octets in items]


def worked_out(given):
    """The lines that must be printed of those that are given."""
    names, printed = {}, []
    scene = Scene(names)
    for line in given:
        word, _, rest = line.partition(" ")
        if word == "name":
            name, digits = rest.split()
            names[name] = digits
        elif word == "scene":
            printed += scene.printed
            scene = Scene(names)
            printed.append(f"== {rest}")
        elif word == "line":
            scene.text += f"{rest}\n"
        elif word not in ("", "#"):
            scene.event(line)
    return printed + scene.printed
