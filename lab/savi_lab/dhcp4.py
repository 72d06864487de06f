"""DHCPv4 (RFC 2131) of real clients and a real server, and an attacker at the port of a host. Behind the trusted port a
Linux bridge leads to the server. All frames pass the switch; the audit of its journal says which aren't by the leases."""
import json
import os
import re
import shutil
import signal
import socket
import subprocess
import time
from dataclasses import dataclass, field

from reading import audit, making_ipv4 as ipv4
from reading.audit import ACKNOWLEDGEMENT, DECLINE, RELEASE, REQUESTED_ADDRESS
from reading.making import octets

from .namespaces import PATIENCE, Ground, LabFault, Late, call, end, wait_until
from .networks import make_switch_space
from .stations import HONEST, INTERFACE, Station, received

# The hosts' ports, and the last octets of their MAC addresses; port 5 has nothing to do.
HOSTS = {"host1": (1, 0x11), "host2": (2, 0x22)}
ATTACKER, IDLE = ("attacker", (3, 0x33)), ("idle", (5, 0x55))
NEXT, SERVER = ("next", (4, 0xFD)), ("server", (4, 0xFE))
NAMES = ("switch", *HOSTS, ATTACKER[0], IDLE[0], NEXT[0], SERVER[0])

SERVER_ADDRESS, OWN_ADDRESS = ipv4.read_address("192.0.2.254"), ipv4.read_address("192.0.2.200")
FIRST, LAST, LENGTH = "192.0.2.10", "192.0.2.99", 24
# The port of its datagrams: that of stations.py takes IPv4 too.
DATAGRAMS = 4098

# What a client runs when it has a lease, and when it has none any more: udhcpc tells by an argument, dhclient by a variable.
SCRIPT = f"""#!/bin/sh
case "${{1:-$reason}}" in
    bound | renew | BOUND | RENEW | REBIND | REBOOT)
        ip -4 addr replace "${{ip:-$new_ip_address}}/{LENGTH}" dev {INTERFACE} ;;
    deconfig | EXPIRE | FAIL | RELEASE | STOP) ip -4 addr flush dev {INTERFACE} ;;
esac
"""


def text_of(address):
    """Dotted decimal."""
    return ".".join(map(str, octets(address, 4)))


class Udhcpc:
    """The client of busybox. It renews a lease when it is asked to, and releases it when it ends."""

    name = "udhcpc"

    def __init__(self, host, folder, script, words):
        log = os.path.join(folder, f"{host.name}.log")
        with open(log, "w", encoding="utf-8") as opened:
            self.process = host.space.start(
                *words, "-f", "-R", "-i", INTERFACE, "-s", script, "-t", "5", "-T", "1", stdout=opened, stderr=opened)

    def renew(self):
        self.process.send_signal(signal.SIGUSR1)

    def release(self):
        end(self.process)


class Dhclient:
    """The client of ISC. It renews a lease of itself alone. Its release may be lost: it gives the address up at once."""

    name = "dhclient"

    def __init__(self, host, folder, script, words):
        def path(kind):
            return os.path.join(folder, f"{host.name}.{kind}")

        self.host = host
        self.words = [*words, "-4", "-d", "-cf", "/dev/null", "-sf", script, "-lf", path("leases"), "-pf", path("pid")]
        self.words.append(INTERFACE)
        with open(path("leases"), "w", encoding="ascii"), open(path("log"), "w", encoding="utf-8") as opened:
            self.process = host.space.start(*self.words, stdout=opened, stderr=opened)

    def renew(self):
        pass

    def release(self):
        call("ip", "netns", "exec", self.host.space.name, *self.words[:1], "-r", *self.words[1:])
        end(self.process)


def clients():
    """The clients that are here, as (kind, words)."""
    found = []
    if program := shutil.which("udhcpc"):
        found.append((Udhcpc, [program]))
    elif program := shutil.which("busybox"):
        if b"udhcpc" in subprocess.run([program, "--list"], capture_output=True).stdout:
            found.append((Udhcpc, [program, "udhcpc"]))
    if program := shutil.which("dhclient"):
        found.append((Dhclient, [program]))
    return found


def lacks():
    """What is missing here, or None."""
    if not shutil.which("dnsmasq"):
        return "there is no `dnsmasq` for the server"
    return None if clients() else "there is neither `udhcpc` (busybox) nor `dhclient` for the hosts"


@dataclass
class Trial:
    """What became of it. `sent` has of each attack the reason that it must have, or None, and its frame; `is_spoofed` says
    whether arpspoof ran too; `honest` says of each kind of honest traffic whether it came through. `late` says what wasn't
    ready in time, or is empty."""

    clients: list
    late: str = ""
    sent: dict = field(default_factory=dict)
    is_spoofed: bool = False
    honest: dict = field(default_factory=dict)
    said: list = field(default_factory=list)
    journal: str | None = None


class LeaseGround(Ground):
    names = NAMES

    def build(self, make_network, folder):
        space = make_switch_space()
        self.hosts = [Station(name, space, place) for name, place in HOSTS.items()]
        self.attacker, self.idle = (Station(name, space, place) for name, place in (ATTACKER, IDLE))
        self.bridge = Station(NEXT[0], space, NEXT[1]).space
        self.server = Station(SERVER[0], self.bridge, SERVER[1])
        self.folder = folder
        return make_network(space, folder)

    def join(self):
        """Makes the bridge behind the trusted port."""
        for name in ("all", "default"):
            self.bridge.set(f"{name}/disable_ipv6", 1)
        self.bridge.ip("link", "add", "br0", "type", "bridge")
        for interface in (INTERFACE, f"p{self.server.port}"):
            self.bridge.stop_offloads(interface)
            self.bridge.ip("link", "set", interface, "master", "br0")
            self.bridge.ip("link", "set", interface, "up")
        self.bridge.ip("link", "set", "br0", "up")

    def serve(self):
        """Starts the server, and waits until it listens."""
        self.server.up()
        self.server.space.ip("addr", "add", f"{text_of(SERVER_ADDRESS)}/{LENGTH}", "dev", INTERFACE)
        with open(os.path.join(self.folder, "dnsmasq.log"), "w", encoding="ascii") as log:
            server = self.server.space.start(
                "dnsmasq", "--no-daemon", "--conf-file=/dev/null", "--port=0", "--user=root", "--no-resolv", "--no-hosts",
                "--no-ping", f"--interface={INTERFACE}", f"--dhcp-range={FIRST},{LAST},1h",
                f"--dhcp-leasefile={os.path.join(self.folder, 'dnsmasq.leases')}",
                f"--pid-file={os.path.join(self.folder, 'dnsmasq.pid')}", stdout=log, stderr=log)
        there = wait_until(lambda: server.poll() is not None or listens(self.server, 67), PATIENCE)
        if not there or server.poll() is not None:
            raise Late(f"dnsmasq doesn't listen within {PATIENCE} s, or ended")

    def spoof(self):
        """Runs arpspoof (dsniff), where it is there, at the attacker until it has told all that a host's address is at it.
        Answers whether it ran."""
        program, said = shutil.which("arpspoof"), os.path.join(self.folder, "arpspoof.log")
        if not program:
            return False
        with open(said, "w", encoding="utf-8") as log:
            run = self.attacker.space.start(program, "-i", INTERFACE, text_of(address_of(self.hosts[0])), stdout=log, stderr=log)
        is_said = wait_until(lambda: run.poll() is not None or os.path.getsize(said) > 0, PATIENCE)
        if not is_said or run.poll() is not None:
            raise Late(f"arpspoof sends nothing within {PATIENCE} s, or ended")
        run.kill()
        run.wait()
        return True

    def lease(self, kinds):
        """Starts a client at each host, and waits until each has an address. Answers the clients."""
        script = os.path.join(self.folder, "client.sh")
        with open(script, "w", encoding="ascii") as file:
            file.write(SCRIPT)
        os.chmod(script, 0o755)
        started = []
        for at, host in enumerate(self.hosts):
            host.up()
            kind, words = kinds[at % len(kinds)]
            started.append(kind(host, self.folder, script, words))
        if not wait_until(lambda: all(map(address_of, self.hosts)), PATIENCE, 0.1):
            lacking = " and ".join(host.name for host in self.hosts if not address_of(host))
            raise Late(f"{lacking} got no lease within {PATIENCE} s")
        return started


def listens(station, port):
    """Whether a UDP socket of a station has this port."""
    with station.space.entered(), open("/proc/thread-self/net/udp", encoding="ascii") as sockets:
        return any(line.split()[1].endswith(f":{port:04X}") for line in sockets)


def address_of(station):
    """The IPv4 address that the kernel has at its interface, or None."""
    shown = json.loads(station.space.ip("-4", "-j", "addr", "show", "dev", INTERFACE) or "[]")
    found = [item["local"] for link in shown for item in link.get("addr_info", ())]
    return ipv4.read_address(found[0]) if found else None


def reaches(one, other):
    """Whether a datagram of a station comes to another one, and back."""
    def opened(station):
        with station.space.entered():
            found = socket.socket(socket.AF_INET, socket.SOCK_DGRAM)
        found.bind((text_of(address_of(station)), DATAGRAMS))
        found.setblocking(False)
        return found

    payload, to = os.urandom(8), (text_of(address_of(other)), DATAGRAMS)
    with opened(one) as asking, opened(other) as answering:
        def is_answered():
            asking.sendto(payload, to)
            time.sleep(0.05)
            for found, sender in received(answering):
                answering.sendto(found, sender)
            time.sleep(0.05)
            return any(found == payload for found, _ in received(asking))

        return wait_until(is_answered, HONEST, 0)


def attacks(ground):
    """What the attacker sends, as (reason or None, frame) by a title."""
    own, host = ground.attacker.mac, ground.hosts[0]
    address, mac = address_of(host), host.mac
    acknowledgement = ipv4.message(ACKNOWLEDGEMENT, 1, mac, given=OWN_ADDRESS, options=ipv4.time_option(3600))
    decline = ipv4.message(DECLINE, 2, mac, options=ipv4.option(REQUESTED_ADDRESS, octets(address, 4)))
    poisoned = ipv4.arp(own, SERVER_ADDRESS, address, 2, destination_mac=mac)
    packet = ipv4.data(own, address, SERVER_ADDRESS, ground.server.mac)
    return {
        "it says to a host that the server's address is at it": ("arp-source", poisoned),
        "it says to all that a host's address is at it": ("arp-source", ipv4.arp(own, address, SERVER_ADDRESS)),
        "it says so in the host's name": ("arp-bad", ipv4.arp(own, address, SERVER_ADDRESS, sender_mac=mac)),
        "an ARP message that is cut": ("arp-bad", poisoned[:40]),
        "an ARP probe": (None, ipv4.arp(own, 0, OWN_ADDRESS)),
        "a packet from a host's address": ("ip-source", packet),
        "a packet whose header is cut": ("ip-bad", packet[:30]),
        "it poses as a server": ("server", ipv4.to_client(own, SERVER_ADDRESS, acknowledgement)),
        "the same in a fragment": ("ip-source", ipv4.to_client(own, SERVER_ADDRESS, acknowledgement, fragment=0x2000)),
        "it releases a host's address": (
            "ip-source", ipv4.to_servers(own, ipv4.message(RELEASE, 3, mac, own=address), source=address)),
        "it declines a host's address, without a source": (None, ipv4.to_servers(own, decline)),
    }


def honest(ground, when):
    host, other = ground.hosts
    return {
        f"{when}: a host and the server": reaches(host, ground.server), f"{when}: both hosts": reaches(host, other),
    }


def make(make_network, folder):
    """Tries the switch."""
    os.mkdir(folder)
    kinds = clients()
    trial, is_joined = Trial([kind.name for kind, _ in kinds]), False
    with LeaseGround() as ground:
        network = ground.build(make_network, folder)
        try:
            ground.join()
            network.up()
            is_joined = True
            ground.serve()
            started = ground.lease(kinds)
            trial.honest |= honest(ground, "before")
            for client in started:
                client.renew()
            ground.attacker.up()
            trial.sent = attacks(ground)
            for _, frame in trial.sent.values():
                ground.attacker.send(frame)
            trial.is_spoofed = ground.spoof()
            trial.honest |= honest(ground, "behind the attacks")
            for client in started:
                client.release()
        except Late as late:
            trial.late = str(late)
        if is_joined:
            trial.said, trial.journal = network.close(), network.journal
    return trial


@dataclass
class Audited:
    """What an audit prints: reasons by (segment, number), ports likewise, and the last line."""

    reasons: dict
    ports: dict
    last: str


def read_audit(text):
    *told, last = text.splitlines() or [""]
    rows = [re.fullmatch(r"(\d+) (\d+) port (\d+) ([a-z-]+)", line) for line in told]
    if not all(rows):
        raise LabFault(f"the audit says {text[:200]!r}")
    keys = [(int(row[1]), int(row[2])) for row in rows]
    return Audited({key: row[4] for key, row in zip(keys, rows)}, {key: int(row[3]) for key, row in zip(keys, rows)}, last)


def numbers(journal, port):
    """Where the frames of a port stand, (segment, number) by their octets in hexadecimal digits."""
    found, segment = {}, -1
    with open(journal, encoding="ascii") as lines:
        for words in map(str.split, lines):
            segment += words == ["begin"]
            if len(words) == 12 and words[3] == "F" and int(words[4]) == port:
                found[words[6]] = segment, int(words[0])
    return found


def spoofed(trial, audited):
    """The reasons, or None, of the ARP messages of the attacker's port that arpspoof sent."""
    sent = {frame.hex() for _, frame in trial.sent.values()}
    return [audited.reasons.get(place) for digits, place in numbers(trial.journal, ATTACKER[1][0]).items()
            if digits not in sent and digits[24:28] == "0806"]


def lines(trial, audited):
    """What the audit says of each attack, and of honest traffic."""
    places = numbers(trial.journal, ATTACKER[1][0])
    for title, (_, frame) in trial.sent.items():
        place = places.get(frame.hex())
        yield f"{title}: {audited.reasons.get(place, 'no reason') if place else 'not in the journal'}"
    if trial.is_spoofed:
        yield f"arpspoof, in a host's name: {', '.join(str(reason or 'no reason') for reason in spoofed(trial, audited))}"
    for title, came in trial.honest.items():
        yield f"{title}: {'comes through' if came else 'FAILS'}"
    yield f"the hosts' clients: {', '.join(trial.clients)}; {audited.last}"


def faults(trial, audited, text):
    """What is wrong: an attack without its reason, or with one that it hasn't; a reason for what a host or the server sent;
    honest traffic that failed; and an audit that isn't that of the second implementation."""
    yield from trial.said
    places = numbers(trial.journal, ATTACKER[1][0])
    for title, (reason, frame) in trial.sent.items():
        found = audited.reasons.get(places.get(frame.hex()))
        if found != reason:
            yield f"{title}: {found or 'no reason'}, and should be {reason or 'no reason'}"
    if trial.is_spoofed and set(spoofed(trial, audited)) != {"arp-source"}:
        yield f"arpspoof: {spoofed(trial, audited)}, and should be arp-source"
    for place, port in audited.ports.items():
        if port != ATTACKER[1][0]:
            yield f"port {port} has the reason {audited.reasons[place]}, in entry {place[1]} of segment {place[0]}"
    yield from (f"failed: {title}" for title, came in trial.honest.items() if not came)
    with open(trial.journal, "rb") as file:
        if (want := "".join(f"{line}\n" for line in audit.lines(file.read()))) != text:
            yield f"the audit isn't that of the second implementation, whose last line is {want.splitlines()[-1]}"
