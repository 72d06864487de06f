"""Two tenants with the same addresses, in VLANs of their own. Behind a trunk a Linux bridge that filters VLANs leads to a
router of each. A host of the one tenant attacks."""
import os
import time
from dataclasses import dataclass, field

from reading import making
from reading.plan import address_text

from . import frames
from .attacks import AGAIN, GRACE
from .namespaces import PATIENCE, Ground, LabFault, Late, Namespace, own_name, remove, undisturbed, wait_until
from .networks import Bridge, Switch, filter_vlans, make_switch_space
from .soft_bridge import SoftBridge
from .stations import INTERFACE, MARKS, OWN_PREFIX, Station, reaches

A, B = 10, 20

# Each host's port, and the last octet of its MAC address: a1 and b1 are clones.
HOSTS = {"a1": (1, 0x11), "a2": (2, 0x22), "b1": (3, 0x11), "b2": (5, 0x55)}
# The routers, alike too: their ports at the next bridge.
ROUTERS = {"ra": (A, 0xFE), "rb": (B, 0xFE)}
NEXT = "next", (4, 0xFD)
NAMES = ("switch", NEXT[0], *HOSTS, *ROUTERS)

# The VLANs of the switch's ports: one without tags, or those of a trunk.
VLANS = {1: A, 2: A, 3: B, 4: (A, B), 5: B}

ROUTER_ADDRESS = OWN_PREFIX | 1


class VlanBridge(Bridge):
    def up(self):
        super().up()
        filter_vlans(self.space, "br0", {f"p{port}": vlans for port, vlans in VLANS.items()})


class VlanSwitch(Switch):
    def vlans(self, port):
        vlans = VLANS[port]
        return [f"trunk = {list(vlans)}" if isinstance(vlans, tuple) else f"vlan = {vlans}"]

    def prefixes(self):
        return tuple((OWN_PREFIX, "fcfs", f"vlan = {vlan}") for vlan in (A, B))


def no_filter():
    """Why there are no bridges that filter VLANs here, or None."""
    try:
        space = Namespace("try3")
        space.ip("link", "add", "br0", "type", "bridge", "vlan_filtering", "1")
    except LabFault as fault:
        return str(fault).splitlines()[0]
    finally:
        with undisturbed():
            remove(own_name("try3"))
    return None


@dataclass
class Trial:
    """What became of one network. `reached` has of each attack the names of the other tenant's stations that got a frame of
    it, `sent` its frames; `honest` says of each kind of honest traffic whether it came through. `late` says what wasn't
    ready in time, or is empty."""

    title: str
    late: str = ""
    reached: dict = field(default_factory=dict)
    sent: dict = field(default_factory=dict)
    honest: dict = field(default_factory=dict)
    said: list = field(default_factory=list)
    journal: str | None = None
    checked: str | None = None


class TenantGround(Ground):
    """`has_filter` says whether the kernel's bridges filter VLANs."""

    names = NAMES

    def __init__(self, has_filter):
        self.has_filter = has_filter

    def build(self, make_network, folder):
        space = make_switch_space()
        self.hosts = {name: Station(name, space, place) for name, place in HOSTS.items()}
        self.bridge = Station(NEXT[0], space, NEXT[1]).space
        self.routers = {name: Station(name, self.bridge, place) for name, place in ROUTERS.items()}
        self.a1, self.a2, self.b1, self.b2 = self.hosts.values()
        self.ra, self.rb = self.routers.values()
        return make_network(space, folder)

    def join(self):
        """Makes the bridge behind the trunk."""
        for name in ("all", "default"):
            self.bridge.set(f"{name}/disable_ipv6", 1)
        ports = {INTERFACE: (A, B)} | {f"p{router.port}": router.port for router in self.routers.values()}
        for port in ports:
            self.bridge.stop_offloads(port)
            self.bridge.ip("link", "set", port, "up")
        if not self.has_filter:
            SoftBridge(self.bridge, ports).start()
            return
        self.bridge.ip("link", "add", "br0", "type", "bridge")
        for port in ports:
            self.bridge.ip("link", "set", port, "master", "br0")
        filter_vlans(self.bridge, "br0", ports)
        self.bridge.ip("link", "set", "br0", "up")

    def boot(self):
        for router in self.routers.values():
            router.space.set("all/forwarding", 1)
            router.up()
            router.space.ip("-6", "addr", "add", f"{address_text(ROUTER_ADDRESS)}/64", "dev", INTERFACE)
        for host in self.hosts.values():
            host.up()
        if not wait_until(self.is_up, PATIENCE, 0.2):
            raise Late(f"not up within {PATIENCE} s: {', '.join(self.lacks())}")

    def is_up(self):
        for router in self.routers.values():
            message = frames.router_advertisement(router.link_local, OWN_PREFIX)
            router.send(frames.to_all_nodes(router.mac, router.link_local, 58, message))
        return not self.lacks()

    def lacks(self):
        """What isn't there yet."""
        wanted = [(host, address) for host in self.hosts.values() for address in (host.link_local, host.address)]
        wanted += [(router, address) for router in self.routers.values() for address in (router.link_local, ROUTER_ADDRESS)]
        lacking = [host for host in self.hosts.values() if self.ra.link_local not in host.routers()]
        found = [f"{station.name} has no {address_text(address)}" for station, address in wanted if not station.has(address)]
        return found + [f"{host.name} has no router" for host in lacking]

    # Attacks.

    def try_attack(self, sent):
        """Sends frames of a2. Answers which stations of the other tenant got one of them."""
        for station in (*self.hosts.values(), *self.routers.values()):
            list(station.frames())
        for frame in sent:
            self.a2.send(frame)
        self.settle(self.a2, (self.a1, self.ra))
        seen = self.settle(self.b2, (self.b1, self.rb))
        seen[self.b2.name] = {frames.untagged(frame) for frame in self.b2.frames()}
        inner = {frames.untagged(frame) for frame in sent}
        return sorted(name for name, found in seen.items() if found & inner)

    def settle(self, sender, victims):
        """Waits until what was sent before has come to where it goes: a mark of the sender, in its own name, has come to
        each victim. Answers the frames that each got before it, without their tags, by its name."""
        group, seen = making.ALL_NODES, {victim.name: set() for victim in victims}
        mark = frames.datagram(sender.mac, sender.link_local, group, making.group_mac(group), MARKS, os.urandom(16))

        def all_have():
            for victim in victims:
                seen[victim.name] |= {frames.untagged(frame) for frame in victim.frames()}
            return all(mark in found for found in seen.values())

        def is_there():
            sender.send(mark)
            return wait_until(all_have, AGAIN, 0.005)

        if not wait_until(is_there, PATIENCE, 0):
            lacking = " and ".join(name for name, found in seen.items() if mark not in found)
            raise Late(f"the own packets of {sender.name} don't come to {lacking} within {PATIENCE} s")
        time.sleep(GRACE)
        all_have()
        return seen


def with_tag(vlan, frame):
    return frame[:12] + making.octets(frames.ETHERTYPE_VLAN, 2) + making.octets(vlan, 2) + frame[12:]


def attacks(ground):
    """What a2 tries, as frames by a title."""
    own, group = ground.a2, making.ALL_NODES

    def plain():
        return frames.datagram(own.mac, own.link_local, group, making.group_mac(group), 4096, os.urandom(16))

    to_router = frames.datagram(own.mac, own.address, ROUTER_ADDRESS, ground.rb.mac, 4096, os.urandom(16))
    in_its_name = frames.datagram(own.mac, ground.b1.address, ground.b2.address, ground.b2.mac, 4096, os.urandom(16))
    return {
        "a frame with the other tenant's tag": [with_tag(B, plain())],
        "the same behind a tag of its own VLAN": [with_tag(A, with_tag(B, plain()))],
        "the same behind a priority alone": [with_tag(0, with_tag(B, plain()))],
        "a frame with a tag of its own VLAN": [with_tag(A, plain())],
        "a frame with a priority alone": [with_tag(0, plain())],
        "a frame for the other tenant's router": [to_router],
        "a frame from the clone's address, for the other tenant's host": [in_its_name],
    }


def honest(ground):
    """The traffic of hosts that do nothing wrong."""
    return {
        "A's host to its router and back": reaches(ground.a1, ground.ra, ROUTER_ADDRESS),
        "its clone in B to B's router, which has the same address": reaches(ground.b1, ground.rb, ROUTER_ADDRESS),
        "A's hosts to each other": reaches(ground.a1, ground.a2, ground.a2.address),
        "B's hosts to each other": reaches(ground.b1, ground.b2, ground.b2.address),
    }


def make(make_network, folder, has_filter):
    """Tries one network."""
    os.mkdir(folder)
    with TenantGround(has_filter) as ground:
        network = ground.build(make_network, folder)
        trial, is_joined = Trial(network.title), False
        try:
            ground.join()
            network.up()
            is_joined = True
            ground.boot()
            for title, sent in attacks(ground).items():
                trial.sent[title], trial.reached[title] = sent, ground.try_attack(sent)
            trial.honest = honest(ground)
        except Late as late:
            trial.late = str(late)
        if is_joined:
            trial.said = network.close()
            trial.journal, trial.checked = network.journal, network.check()
    return trial


def verdicts(journal):
    """The verdicts on what came in from a2, by the octets in hexadecimal digits."""
    with open(journal, encoding="ascii") as lines:
        rows = [line.split() for line in lines]
    return {row[6]: row[7].removeprefix("drop-") for row in rows if len(row) > 7 and row[3] == "F" and row[4] == "2"}


def lines(trials):
    """What each network did with each attack, and with honest traffic."""
    for title in trials[0].sent:
        yield f"{title}:"
        for trial in trials:
            found, sent = verdicts(trial.journal) if trial.journal else {}, trial.sent[title]
            rule = "".join(f" ({found.get(frame.hex(), 'not in the journal')})" for frame in sent if trial.journal)
            yield f"  {trial.title}: {'comes to ' + ', '.join(trial.reached[title]) if trial.reached[title] else '-'}{rule}"
    for title in trials[0].honest:
        yield f"{title}:"
        yield from (f"  {trial.title}: {'comes through' if trial.honest[title] else 'FAILS'}" for trial in trials)
    yield from (f"check of the journal of {trial.title}: {trial.checked}" for trial in trials if trial.checked)


def faults(trial, trials):
    """What is wrong of a switch: each frame in the other tenant's VLAN, what `check` finds, and honest traffic that failed
    and that the bridge carried."""
    yield from (f"{trial.title}: {said}" for said in trial.said)
    if not trial.journal:
        return
    unsure = {title for other in trials if not other.journal for title, came in other.honest.items() if not came}
    yield from (f"{trial.title}: {title}: comes to {', '.join(names)}" for title, names in trial.reached.items() if names)
    failed = [title for title, came in trial.honest.items() if not came and title not in unsure]
    yield from (f"{trial.title}: failed: {title}" for title in failed)
    if trial.checked is not None and not trial.checked.startswith("good: "):
        yield f"{trial.title}: its journal isn't good: {trial.checked}"
