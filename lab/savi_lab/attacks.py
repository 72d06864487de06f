"""The attacks, each with what its victims' kernels come to."""
import os
import time
from dataclasses import dataclass, field

from reading import making
from reading.plan import address_text, mac_text, read_address

from . import frames, leases
from .namespaces import PATIENCE, Late, wait_until
from .stations import INTERFACE, MARKS, OUTSIDE, OWN_PREFIX

# Each false router advertisement has a prefix of its own, so that it is known which one was taken.
FALSE_PREFIX = read_address("2001:db8:bad::")
FORBIDDEN = read_address("2001:db8:99::1")
NEW = OWN_PREFIX | 0xD1

# How long the kernel takes at most over a frame that its interface has shown, in s.
GRACE = 0.03

# After how long a packet that didn't come is sent again, in s.
AGAIN = 1


@dataclass
class Result:
    """`suffered` says what became of the victims, or is empty. `frames` are those of the attack, `arrived` how many of these
    came to one of the victims at least."""

    suffered: str = ""
    frames: list = field(default_factory=list)
    arrived: int = 0


class Field:
    """The stations of one network, and what an attack sent there. `joins_hosts` says whether the network carries anything
    from host to host."""

    def __init__(self, stations, joins_hosts):
        self.stations, self.joins_hosts = stations, joins_hosts
        self.host1, self.host2, self.attacker, self.router, _ = stations.values()
        self.hosts, self.victims = (self.host1, self.host2), (self.host1, self.host2, self.router)
        self.marked = self.victims if joins_hosts else (self.router,)
        self.client = None
        self.sent, self.seen = [], set()

    def begin(self):
        for station in self.stations.values():
            list(station.frames())
            station.heard()
        self.sent, self.seen = [], set()

    def strike(self, *octets):
        for frame in octets:
            self.sent.append(frame)
            self.attacker.send(frame)

    def settle(self):
        """Waits until all that the attacker sent has come to where it goes. Behind it the attacker sends a mark in its own
        name, which each network carries; what stands before the mark at a victim has been judged by its kernel."""
        own, group = self.attacker, making.ALL_NODES
        mark = frames.datagram(own.mac, own.link_local, group, making.group_mac(group), MARKS, os.urandom(16))
        waiting = list(self.marked)

        def is_there():
            own.send(mark)
            return wait_until(lambda: self.all_have(waiting, mark), AGAIN, 0.005)

        if not wait_until(is_there, PATIENCE, 0):
            names = " and ".join(victim.name for victim in waiting)
            raise Late(f"the attacker's own packets don't come to {names} within {PATIENCE} s")
        time.sleep(GRACE)
        for victim in self.victims:
            self.look_for(victim, mark)

    def all_have(self, waiting, mark):
        """Whether the mark has come to each victim; those to whom it came wait no more."""
        for victim in tuple(waiting):
            if self.look_for(victim, mark):
                waiting.remove(victim)
        return not waiting

    def look_for(self, victim, mark):
        is_there = False
        for frame in victim.frames():
            is_there = is_there or frame == mark
            self.seen.add(frames.untagged(frame))
        return is_there

    def result(self, suffered):
        arrived = sum(frames.untagged(frame) in self.seen for frame in self.sent)
        return Result(suffered, self.sent, arrived)


def told(effects):
    """Effects by host, as a text: hosts that suffer the same stand together."""
    by_effect = {}
    for name, effect in effects:
        if effect:
            by_effect.setdefault(effect, []).append(name)
    return "; ".join(f"{' and '.join(names)}: {effect}" for effect, names in by_effect.items())


# Router advertisements.


def advertise(form, number):
    """The attack of a false router in one of the forms of frames.hidden_forms."""

    def attack(field):
        own, prefix = field.attacker, FALSE_PREFIX | number << 64
        field.strike(*frames.hidden_forms(own.mac, own.link_local, prefix, 0xBAD00 + number)[form])
        field.settle()
        return told((host.name, adverts_taken(host, own.link_local, prefix)) for host in field.hosts)

    return attack


def adverts_taken(host, source, prefix):
    """What a host took from a false router; it is taken away again."""
    taken = [address for address in host.addresses() if address >> 64 == prefix >> 64]
    is_router = source in host.routers()
    for address in taken:
        host.space.ip("-6", "addr", "del", f"{address_text(address)}/64", "dev", INTERFACE)
    if is_router:
        host.space.ip("-6", "route", "del", "default", "via", address_text(source), "dev", INTERFACE)
    return " and ".join(["default route over the attacker"] * is_router + ["an address in its prefix"] * bool(taken))


# Neighbor discovery.


def meet(field, one, other, address):
    """Lets a station learn an address of another anew, where the network lets it."""
    if not field.joins_hosts and one in field.hosts and other in field.hosts:
        return
    one.forget_neighbors()

    def is_found():
        one.say(address, b"hello")
        return wait_until(lambda: one.neighbor(address) == mac_text(other.mac), AGAIN)

    if not wait_until(is_found, PATIENCE, 0):
        raise Late(f"{one.name} doesn't find {address_text(address)} within {PATIENCE} s")


def poisoned(field, victim, address, whose):
    is_taken = victim.neighbor(address) == mac_text(field.attacker.mac)
    victim.forget_neighbors()
    return f"{victim.name}: sends to the attacker what is for {whose}" if is_taken else ""


def advertise_neighbor(field):
    own, host = field.attacker, field.host1
    meet(field, host, field.host2, field.host2.address)
    field.strike(frames.advertisement(own.mac, own.link_local, field.host2.address, frames.OVERRIDE))
    field.settle()
    return poisoned(field, host, field.host2.address, "host2")


def advertise_in_its_name(field):
    own, host, other = field.attacker, field.host1, field.host2
    meet(field, host, other, other.address)
    field.strike(frames.advertisement(own.mac, other.address, other.address, frames.OVERRIDE))
    field.settle()
    return poisoned(field, host, other.address, "host2")


def advertise_router(field):
    own, host, router = field.attacker, field.host1, field.router
    meet(field, host, router, router.link_local)
    flags = frames.ROUTER | frames.OVERRIDE
    field.strike(frames.advertisement(own.mac, own.link_local, router.link_local, flags))
    field.settle()
    return poisoned(field, host, router.link_local, "the router")


def answer_for_neighbor(field):
    """The attacker hears host 1 ask for host 2, and answers behind host 2 itself."""
    own, host, other = field.attacker, field.host1, field.host2
    host.forget_neighbors()
    group = making.octets(making.group_mac(making.solicited_nodes(other.address)), 6)
    host.say(other.address, b"hello")
    own.wait_for(lambda frame: frame[:6] == group and frame[54:55] == b"\x87", 2)
    wait_until(lambda: host.neighbor(other.address), 2)
    flags = frames.SOLICITED | frames.OVERRIDE
    answer = frames.advertisement(own.mac, own.link_local, other.address, flags, host.address, host.mac)
    field.strike(answer)
    field.settle()
    return poisoned(field, host, other.address, "host2")


def advertise_to_router(field):
    own, router, other = field.attacker, field.router, field.host2
    meet(field, router, other, other.address)
    answer = frames.advertisement(own.mac, own.link_local, other.address, frames.OVERRIDE, router.link_local, router.mac)
    field.strike(answer)
    field.settle()
    return poisoned(field, router, other.address, "host2")


def advertise_in_fragment(field):
    """To host 2, whose kernel takes fragmented neighbor discovery."""
    own, host, other = field.attacker, field.host2, field.host1
    meet(field, host, other, other.address)
    whole = frames.advertisement(own.mac, own.link_local, other.address, frames.OVERRIDE)
    field.strike(making.in_first_fragment(whole, 0xBAD20))
    field.settle()
    return poisoned(field, host, other.address, "host1")


def solicit_in_its_name(field):
    own, host, other = field.attacker, field.host1, field.host2
    meet(field, host, other, other.address)
    field.strike(frames.solicitation(own.mac, other.address, host.address, host.mac))
    field.settle()
    return poisoned(field, host, other.address, "host2")


def deny_address(field):
    """Host 1 wants a new address, and the attacker says that it has it."""
    own, host = field.attacker, field.host1
    name = f"{address_text(NEW)}/64"
    host.space.ip("-6", "addr", "add", name, "dev", INTERFACE)
    group = making.octets(making.group_mac(making.solicited_nodes(NEW)), 6)
    own.wait_for(lambda frame: frame[:6] == group and frame[54:55] == b"\x87", 0.5)
    field.strike(frames.advertisement(own.mac, own.link_local, NEW, frames.OVERRIDE))
    field.settle()
    wait_until(lambda: not host.addresses().get(NEW, {"tentative": False}).get("tentative") or is_denied(host), 4)
    is_refused = is_denied(host)
    host.space.ip("-6", "addr", "del", name, "dev", INTERFACE)
    return f"{host.name}: can't take a new address" if is_refused else ""


def is_denied(host):
    return bool(host.addresses().get(NEW, {}).get("dadfailed"))


# In the name of others.


def send_in_its_name(field):
    own, host, other = field.attacker, field.host1, field.host2
    field.strike(frames.datagram(own.mac, other.address, host.address, host.mac, 4096, b"false"))
    field.settle()
    is_taken = (b"false", other.address) in host.heard()
    return f"{host.name}: takes a datagram as host2's" if is_taken else ""


def send_from_elsewhere(field):
    own, router = field.attacker, field.router
    field.strike(frames.datagram(own.mac, FORBIDDEN, OUTSIDE, router.mac, 4096, b"false"))
    field.settle()
    is_taken = (b"false", FORBIDDEN) in router.heard()
    return f"{router.name}: takes a datagram from {address_text(FORBIDDEN)}, which isn't on the link" if is_taken else ""


def redirect(field):
    own, host, router = field.attacker, field.host1, field.router
    meet(field, host, router, router.link_local)
    field.strike(frames.redirect(own.mac, router.link_local, own.link_local, OUTSIDE, host.address, host.mac))
    field.settle()
    is_taken = host.hop_to(OUTSIDE) == own.link_local
    host.space.ip("-6", "route", "flush", "cache")
    return f"{host.name}: sends to the attacker what is for {address_text(OUTSIDE)}" if is_taken else ""


def take_mac(field):
    """The attacker sends with host 2's MAC address, so that the network looks for host 2 at its port."""
    own, other, router = field.attacker, field.host2, field.router
    meet(field, router, other, other.address)
    group = making.ALL_NODES
    false = frames.datagram(other.mac, own.link_local, group, making.group_mac(group), MARKS, b"false")
    field.strike(false)
    field.settle()
    list(own.frames())
    secret = os.urandom(16)

    def is_misled():
        own.send(false)
        router.say(other.address, secret)
        return own.wait_for(lambda frame: secret in frame, 0.1) is not None

    # A network may go on for a while by what it has kept.
    is_heard = wait_until(is_misled, 3, 0)
    meet(field, other, router, router.link_local)
    return f"{router.name}: what is for host2 goes to the attacker" if is_heard else ""


# DHCPv6.


def lease(field):
    reply = field.client.lease(leases.Attacker(field, field.client))
    field.settle()
    if reply is None or leases.address_of(reply) != leases.FALSE_LEASE:
        return ""
    is_dns = reply.get(leases.DNS_SERVERS) == making.octets(leases.FALSE_DNS, 16)
    return "host1: takes the attacker's lease" + " and its name server" * is_dns


# Titles, with what they do. Host 2 takes fragmented neighbor discovery, as kernels did before RFC 6980.
ATTACKS = {
    "router advertisement": advertise("plain", 1),
    "the same behind destination options": advertise("options", 2),
    "the same in one whole fragment": advertise("atomic", 3),
    "the same, its ICMPv6 header in the second fragment": advertise("later", 4),
    "the same, with options in both fragments": advertise("chain", 5),
    "the same behind a tag of VLAN 0": advertise("priority", 6),
    "the same behind two tags of VLAN 0": advertise("priorities", 7),
    "the same with an IEEE 802.2 SNAP header": advertise("snap", 8),
    "redirect in the router's name": redirect,
    "neighbor advertisement of host 2's address": advertise_neighbor,
    "the same in host 2's name": advertise_in_its_name,
    "the same to the router": advertise_to_router,
    "one of the router's address": advertise_router,
    "one of host 1's address, in one whole fragment": advertise_in_fragment,
    "answer to a solicitation of host 2's address": answer_for_neighbor,
    "solicitation in host 2's name": solicit_in_its_name,
    "answer to host 1's address detection": deny_address,
    "datagram from host 2's address": send_in_its_name,
    "datagram from an address of another link": send_from_elsewhere,
    "answers to a DHCPv6 client": lease,
    "frame from host 2's MAC address": take_mac,
}

# What the switch doesn't guard against (docs/REPLAYS.md, "Where a frame goes").
UNGUARDED = ("frame from host 2's MAC address",)


def run(attack, field):
    field.begin()
    return field.result(attack(field))
