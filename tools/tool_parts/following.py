"""Who has which address when, from the entries of a journal. It reads the frames, and goes by reading/states.py; of
the verdicts that stand in the journal it only notes where it would have judged otherwise. An address is a pair, of its VLAN
and its number."""
import collections
import heapq
from typing import NamedTuple

from reading import commands
from reading.frame import read_frame
from reading.journal import read_set
from reading.plan import read_key
from reading.states import NONE, TENTATIVE, TEST_CLAIM, TEST_LIFE, VALID, Address, FirstCome
from reading.switch import Switch, verdict_text

TESTED, LEASED, STATIC = "tested", "leased", "static"
KINDS = {TENTATIVE: TENTATIVE, VALID: VALID, TEST_LIFE: TESTED, TEST_CLAIM: TESTED}


class Binding(NamedTuple):
    """The port that has an address, and by what: TENTATIVE, VALID, TESTED, LEASED or STATIC. `claimant` is the port for
    which it is tested, or None. `also` is what it has by first come besides its lease, or None."""

    port: int
    kind: str
    claimant: int | None = None
    also: str | None = None


class Change(NamedTuple):
    """What an address comes to, or None where it becomes free; the entry that does it, or where time does it the first
    entry behind, or None in front of the rest of a journal."""

    moment: int
    binding: Binding | None
    entry: int | None
    by_time: bool


def binding_of(state):
    if state is None or state.is_free:
        return None
    if state.fixed is not None:
        return Binding(state.fixed, STATIC)
    first = None if state.first.state == NONE else KINDS[state.first.state]
    if state.bound:
        return Binding(state.bound[0], LEASED, also=first)
    return Binding(state.first.port, first, state.first.claimant)


def next_due(state, times):
    """The moment at which a state ends or changes, or None."""
    dues = [state.first.due(times), state.bound[1] if state.bound else None]
    return min((due for due in dues if due is not None), default=None)


class Follower(Switch):
    """Each change of an address is told to `told(address, old, change)`, with its binding before; without it `tracks` has
    the changes of each address that was ever held. Of the entries that this reading would have judged otherwise `others` is
    the number, and `other` the first one. Its work for an entry doesn't grow with the number of addresses, and what it keeps
    not with the length of the journal."""

    def __init__(self, plan, told=None):
        super().__init__(plan)
        self.told, self.tracks, self.bindings = told or self.keep_track, {}, {}
        self.others, self.other, self.entry = 0, None, 0
        # What is due, earliest first, and of each address the earliest moment that stands there.
        self.dues, self.awaited, self.request_due = [], {}, 0
        # The ports that hold each address, and how many addresses each port holds.
        self.holders, self.counts = {}, collections.Counter()

    def go_on_from(self, base):
        """What the rest of a journal goes on from, by its lines (docs/FORMATS.md, The journal)."""
        self.entry = None
        for line in base:
            word, *words = line.split(" ")
            if word in BASE_READERS:
                BASE_READERS[word](self, *words)
        for address in self.addresses:
            self.note(address, self.moment, False)
        self.entry = 0

    def set_moment(self, moment):
        self.moment = int(moment)

    def set_shut(self, ports):
        self.shut = set(read_set(ports) or ())

    def based(self, key):
        address = read_key(key)
        return self.addresses.setdefault(address, Address(self.plan.method(*address)))

    def set_fixed(self, key, port):
        self.based(key).fixed = int(port)

    def set_bound(self, key, port, until):
        self.based(key).bound = int(port), None if until == "-" else int(until)

    def set_first_come(self, key, state, port, *more):
        if state == VALID:
            first = FirstCome(VALID, int(port), until=int(more[0]))
        else:
            *claimant, since, two = more
            first = FirstCome(state, int(port), *map(int, claimant), since=int(since), two=two == "yes")
        self.based(key).first = first

    def set_request(self, vlan, port, transaction, client, until):
        client = b"" if client == "-" else bytes.fromhex(client)
        self.requests[int(vlan), int(port), int(transaction), client] = int(until)
        self.request_due = self.request_due or self.moment

    def take(self, entry):
        """The next entry of the journal."""
        if entry.kind in "DE":
            return
        self.entry = entry.number
        self.come_to(entry.moment)
        if entry.kind == "F":
            verdict = self.judge(self.ports[entry.port], read_frame(entry.octets))
            if verdict_text(verdict) != entry.verdict:
                self.others += 1
                self.other = entry.number if self.other is None else self.other
        elif entry.kind == "C":
            commands.command(self, entry.octets)()
            for address in [*self.holders, *self.addresses]:
                self.note(address, self.moment, False)

    def come_to(self, moment):
        self.moment = moment
        while self.dues and self.dues[0][0] <= moment:
            due, address = heapq.heappop(self.dues)
            if self.awaited.get(address) == due:
                del self.awaited[address]
                self.ripen(address)
        if self.requests and self.request_due <= moment:
            self.forget()
            self.request_due = min(self.requests.values(), default=0)

    def ripen(self, address):
        """Lets come what is due of an address, each at its moment."""
        while (state := self.addresses.get(address)) and (due := next_due(state, self.plan)) is not None:
            if due > self.moment:
                self.wait_for(address, due)
                return
            state.age(due, self.plan)
            if state.is_free:
                del self.addresses[address]
            self.note(address, due, True)

    def wait_for(self, address, due):
        if due < self.awaited.get(address, due + 1):
            self.awaited[address] = due
            heapq.heappush(self.dues, (due, address))

    def note(self, address, moment, by_time):
        state = self.addresses.get(address)
        binding, old = binding_of(state), self.bindings.get(address)
        if binding != old:
            if binding is None:
                del self.bindings[address]
            else:
                self.bindings[address] = binding
            self.told(address, old, Change(moment, binding, self.entry, by_time))
        ports = {port for port in self.ports if state.holds(port)} if state else set()
        self.counts.update(ports)
        self.counts.subtract(self.holders.pop(address, ()))
        if ports:
            self.holders[address] = ports
        if state and (due := next_due(state, self.plan)) is not None:
            self.wait_for(address, due)

    def keep_track(self, address, _, change):
        self.tracks.setdefault(address, []).append(change)

    # What the switch does otherwise: it looks at each address for each frame, and queues probes.

    def keep(self, address, state):
        super().keep(address, state)
        self.note(address, self.moment, False)

    def ask(self, vlan, port, message):
        self.request_due = self.request_due or self.moment
        return super().ask(vlan, port, message)

    def held(self, port):
        return self.counts[port]

    def queue_probe(self, probe, address, due):
        pass


# The lines of what a segment goes on from that say who has which address. Counters, stations and ended passes don't.
BASE_READERS = {"moment": Follower.set_moment, "shut": Follower.set_shut, "fixed": Follower.set_fixed, "bound": Follower.set_bound,
                "fcfs": Follower.set_first_come, "request": Follower.set_request}
