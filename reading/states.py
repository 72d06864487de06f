"""Who has an address: first come, first served (RFC 6620), by DHCPv6 (RFC 7513), or both (RFC 8074). Moments are in ms.

An event is (name, port, room). `room` says whether that port may hold one more address; an event of a trusted port has None
for its port. The answer is (verdict, probe): a verdict is a scope or the name of a rule, a probe is TRUSTED, a port, or None."""
from dataclasses import dataclass, replace

NONE, TENTATIVE, VALID, TEST_LIFE, TEST_CLAIM = "none", "tentative", "valid", "testing-lt", "testing-vp"

SENT, DAD, NA, TRUSTED_DAD, TRUSTED_NA = "sent", "dad", "na", "trusted dad", "trusted na"

# A probe to all trusted ports.
TRUSTED = "trusted"

# A server's lease outlives its lifetime by this, in ms.
LEASE_GRACE = 120000
INFINITE = 0xFFFFFFFF


@dataclass(frozen=True)
class Scope:
    """Who may get a frame that passes: all ports, or the trusted ones and maybe one more."""

    only_trusted: bool = False
    more: int | None = None


ALL, TRUSTED_ONLY = Scope(), Scope(True)


@dataclass(frozen=True)
class FirstCome:
    """`since` is where a test began, `until` where a binding ends; `two` says that the second probe is still to come."""

    state: str = NONE
    port: int | None = None
    claimant: int | None = None
    since: int = 0
    until: int = 0
    two: bool = False

    def due(self, times):
        """The moment at which the state ends or a probe falls due, or None."""
        if self.state == NONE:
            return None
        if self.state == VALID:
            return self.until
        return self.since + (times.gap if self.two else times.test)

    def end(self, times):
        """The moment at which the state ends, or None."""
        return None if self.state == NONE else self.until if self.state == VALID else self.since + times.test

    def after_due(self, times):
        """The state and the probe when what is due comes."""
        due = self.due(times)
        if self.state == VALID:
            return FirstCome(TEST_LIFE, self.port, since=due, two=True), self.port
        if self.two:
            return replace(self, two=False), TRUSTED if self.state == TENTATIVE else self.port
        if self.state == TENTATIVE:
            return FirstCome(VALID, self.port, until=due + times.life), None
        if self.state == TEST_CLAIM:
            return FirstCome(VALID, self.claimant, until=due + times.life), None
        return FirstCome(), None

    def step(self, event, now, times):
        """The answer to an event, and the new state."""
        if self.state == NONE:
            return self.step_none(event, now)
        if self.state == TENTATIVE:
            return self.step_tentative(event)
        name, port, _ = event
        if name in (SENT, DAD, NA) and port == self.port:
            return (TRUSTED_ONLY if name == DAD else ALL, None), FirstCome(VALID, port, until=now + times.life)
        return self.step_valid(event, now) if self.state == VALID else self.step_test(event)

    def step_none(self, event, now):
        name, port, room = event
        if name == NA:
            return ("NaTarget", None), self
        if name in (TRUSTED_DAD, TRUSTED_NA):
            return (ALL if name == TRUSTED_NA else TRUSTED_ONLY, None), self
        if not room:
            return ("PortFull", None), self
        if name == SENT:
            return ("Unverified", TRUSTED), FirstCome(TENTATIVE, port, since=now, two=True)
        return (TRUSTED_ONLY, None), FirstCome(TENTATIVE, port, since=now)

    def step_tentative(self, event):
        name, port, _ = event
        if name == TRUSTED_NA:
            return (ALL, None), FirstCome()
        if name == TRUSTED_DAD:
            return (Scope(True, self.port), None), self
        if name == NA:
            return ("NaTarget", None), self
        if port != self.port:
            return ("Contested", None), self
        return (TRUSTED_ONLY if name == DAD else "Unverified", None), self

    def step_valid(self, event, now):
        """An event that isn't of the holder."""
        name, port, room = event
        if name == TRUSTED_NA:
            return (ALL, None), self
        if name == NA:
            return ("NaTarget", None), self
        if name == TRUSTED_DAD:
            return (Scope(True, self.port), self.port), FirstCome(TEST_LIFE, self.port, since=now, two=True)
        if not room:
            return ("PortFull", None), self
        verdict = "WrongPort" if name == SENT else Scope(True, self.port)
        return (verdict, self.port), FirstCome(TEST_CLAIM, self.port, port, since=now, two=True)

    def step_test(self, event):
        """An event that isn't of the holder."""
        name, port, _ = event
        if name == TRUSTED_NA:
            return (ALL, None), self
        if name == TRUSTED_DAD:
            return (Scope(True, self.port), None), self
        if name == NA:
            return ("NaTarget", None), self
        if self.state == TEST_CLAIM and port == self.claimant:
            return ("WrongPort" if name == SENT else Scope(True, self.port), None), self
        return ("Contested", None), self


def step_owned(owner, event):
    """The verdict where an address is static or bound by DHCP at the port `owner`."""
    name, port, _ = event
    if name == TRUSTED_NA:
        return ALL
    if name == TRUSTED_DAD:
        return Scope(True, owner)
    if port == owner:
        return TRUSTED_ONLY if name == DAD else ALL
    return {SENT: "WrongPort", DAD: Scope(True, owner), NA: "NaTarget"}[name]


# The verdicts on an address that a server assigns and hasn't.
UNASSIGNED = {SENT: "NotAssigned", DAD: "NotAssigned", NA: "NaTarget", TRUSTED_DAD: TRUSTED_ONLY, TRUSTED_NA: ALL}


@dataclass
class Address:
    """An address: static at the port `fixed`, or bound by DHCP as (port, until or None), and its state by first come."""

    method: str
    fixed: int | None = None
    bound: tuple | None = None
    first: FirstCome = FirstCome()

    @property
    def is_free(self):
        return self.fixed is None and self.bound is None and self.first.state == NONE

    def holds(self, port):
        """Whether the address takes room at a port."""
        if port == self.fixed or self.bound and port == self.bound[0]:
            return True
        return self.first.state != NONE and port in (self.first.port, self.first.claimant)

    def age(self, now, times):
        """Lets come what is due by now, the earliest first. Answers the probes as (due, probe)."""
        probes = []
        while (due := self.first.due(times)) is not None and due <= now:
            self.first, probe = self.first.after_due(times)
            if probe is not None:
                probes.append((due, probe))
        if self.bound and self.bound[1] is not None and self.bound[1] <= now:
            self.bound = None
        return probes

    def step(self, event, now, times):
        """A frame's event on the address, which was aged to now."""
        if self.fixed is not None:
            return step_owned(self.fixed, event), None
        if self.bound:
            owner, (name, port, _) = self.bound[0], event
            if self.first.state != NONE and (name == TRUSTED_NA or name in (SENT, DAD, NA) and port == owner):
                _, self.first = self.first.step(event, now, times)
            return step_owned(owner, event), None
        if self.method == "dhcp":
            return UNASSIGNED[event[0]], None
        answer, self.first = self.first.step(event, now, times)
        return answer

    def lease(self, port, lifetime, now, room):
        """A server's lease, with its valid lifetime in s, for the client at a port."""
        if self.method == "fcfs" or self.fixed is not None:
            return
        if lifetime == 0:
            self.release(port)
            return
        is_here = self.bound is not None and self.bound[0] == port
        is_claimed_here = self.first.state in (TENTATIVE, VALID, TEST_LIFE) and self.first.port == port
        may_come = self.first.state == NONE and room or self.bound is None and is_claimed_here
        if is_here or may_come:
            self.bound = (port, None if lifetime == INFINITE else now + 1000 * lifetime + LEASE_GRACE)

    def release(self, port):
        if self.bound and self.bound[0] == port:
            self.bound = None

    def fix(self, port):
        self.fixed, self.bound, self.first = port, None, FirstCome()
