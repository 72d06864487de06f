"""The stations of the lab: each a namespace with one interface, and a real kernel's IPv6 behind it."""
import contextlib
import os
import select
import socket
import struct
import time

from reading import making
from reading.plan import address_text, mac_text, read_address

from .leases import SERVER_PORT
from .namespaces import PATIENCE, Late, Namespace, wait_until

INTERFACE = "eth0"
# The port of the lab's datagrams, and that of its marks.
DATAGRAMS, MARKS = 4096, 4097

# The prefix of the router's advertisements, that of the DHCPv6 server, and an address behind the router.
OWN_PREFIX, LEASED_PREFIX = read_address("2001:db8:1::"), read_address("2001:db8:2::")
OUTSIDE = read_address("2001:db8:f::1")
SERVER = LEASED_PREFIX | 1

# How long honest traffic is tried until it counts as stopped, in s.
HONEST = 10

ETH_P_ALL, SOL_PACKET, PACKET_ADD_MEMBERSHIP, PACKET_MR_PROMISC, PACKET_OUTGOING = 3, 263, 1, 1, 4

# Each station's port, and the last octet of its MAC address.
STATIONS = {"host1": (1, 0x11), "host2": (2, 0x22), "attacker": (3, 0x33), "router": (4, 0xFE), "server": (5, 0x55)}
ROLES = {1: "host", 2: "host", 3: "host", 4: "trusted", 5: "server"}


def identifier(mac):
    """The interface identifier of a MAC address (RFC 4291 appendix A)."""
    return ((mac >> 24) << 40 | 0xFFFE << 24 | mac & 0xFFFFFF) ^ 1 << 57


class Station:
    """`tap` takes and sends whole frames, `datagrams` is a UDP socket of the kernel. `place` is its port, in the namespace
    `switch`, and the last octet of its MAC address: that of STATIONS if none is given."""

    def __init__(self, name, switch, place=None):
        self.name, (self.port, last) = name, place or STATIONS[name]
        self.mac = 0x02 << 40 | last
        self.link_local = making.LINK_LOCAL | identifier(self.mac)
        self.address = OWN_PREFIX | identifier(self.mac)
        self.space = Namespace(name)
        self.space.ip("link", "add", INTERFACE, "address", mac_text(self.mac), "type", "veth", "peer", "name",
                      f"p{self.port}", "netns", switch.name)
        self.space.stop_offloads(INTERFACE)
        self.tap, self.datagrams = self.open_tap(), self.open_datagrams()
        self.index = self.in_space(lambda: socket.if_nametoindex(INTERFACE))

    def in_space(self, work):
        with self.space.entered():
            return work()

    def open_tap(self):
        with self.space.entered():
            tap = socket.socket(socket.AF_PACKET, socket.SOCK_RAW, 0)
            membership = struct.pack("=IHH8s", socket.if_nametoindex(INTERFACE), PACKET_MR_PROMISC, 0, b"")
            tap.setsockopt(SOL_PACKET, PACKET_ADD_MEMBERSHIP, membership)
            tap.setsockopt(socket.SOL_SOCKET, socket.SO_RCVBUF, 1 << 22)
            tap.bind((INTERFACE, ETH_P_ALL))
        tap.setblocking(False)
        return tap

    def open_datagrams(self, address="::", port=DATAGRAMS):
        with self.space.entered():
            opened = socket.socket(socket.AF_INET6, socket.SOCK_DGRAM)
        opened.bind((address, port))
        opened.setblocking(False)
        return opened

    def up(self):
        self.space.ip("link", "set", INTERFACE, "up")
        # The tap was bound while the interface was down, and would say so once.
        self.tap.getsockopt(socket.SOL_SOCKET, socket.SO_ERROR)

    # Frames.

    def send(self, frame):
        self.tap.send(frame)

    def frames(self):
        """The frames that came in since the last look."""
        while True:
            try:
                frame, sender = self.tap.recvfrom(1 << 16)
            except BlockingIOError:
                return
            if sender[2] != PACKET_OUTGOING:
                yield frame

    def wait_for(self, is_it, seconds):
        """The first frame that comes in within so many seconds and is it, or None."""
        deadline = time.monotonic() + seconds
        while (left := deadline - time.monotonic()) > 0:
            if frame := next(filter(is_it, self.frames()), None):
                return frame
            select.select([self.tap], [], [], left)
        return None

    # The kernel.

    def addresses(self):
        """Its addresses with what the kernel says of each."""
        shown = self.space.shown("addr", "show", "dev", INTERFACE)
        return {read_address(item["local"]): item for link in shown for item in link.get("addr_info", ())}

    def has(self, address):
        """Whether the address is there and isn't tentative."""
        found = self.addresses().get(address)
        return found is not None and not found.get("tentative") and not found.get("dadfailed")

    def routers(self):
        """The next hops of its default routes."""
        routes = self.space.shown("route", "show", "default")
        return {read_address(route["gateway"]) for route in routes if "gateway" in route}

    def hop_to(self, address):
        """The next hop to an address, or None."""
        routes = self.space.shown("route", "get", address_text(address))
        return next((read_address(route["gateway"]) for route in routes if "gateway" in route), None)

    def neighbor(self, address):
        """The MAC address that it has for a neighbor, as a text, or None."""
        shown = self.space.shown("neigh", "show", "to", address_text(address), "dev", INTERFACE)
        return next((item.get("lladdr") for item in shown), None)

    def forget_neighbors(self):
        self.space.ip("-6", "neigh", "flush", "dev", INTERFACE)

    def say(self, address, octets, by=None):
        """Sends a datagram by the kernel."""
        is_local = address >> 64 == making.LINK_LOCAL >> 64
        with contextlib.suppress(OSError):
            (by or self.datagrams).sendto(octets, (address_text(address), DATAGRAMS, 0, self.index if is_local else 0))

    def echo(self):
        """Sends back each datagram that came in."""
        for octets, sender in received(self.datagrams):
            with contextlib.suppress(OSError):
                self.datagrams.sendto(octets, sender)

    def heard(self):
        """The datagrams that came in since the last look, as (octets, source)."""
        return [(octets, read_address(sender[0].partition("%")[0])) for octets, sender in received(self.datagrams)]


def received(datagrams):
    while True:
        try:
            yield datagrams.recvfrom(1 << 16)
        except BlockingIOError:
            return
        except OSError:
            continue  # an ICMPv6 error of an earlier datagram


def reaches(one, other, address, by=None, length=8):
    """Whether a datagram of a station comes to an address of the other, and back. `by` is a socket of the first."""
    octets = os.urandom(length)

    def is_answered():
        one.say(address, octets, by)
        time.sleep(0.05)
        other.echo()
        time.sleep(0.05)
        return any(found == octets for found, _ in received(by or one.datagrams))

    return wait_until(is_answered, HONEST, 0)


def reaches_from(host, router, source):
    """Whether a host that takes a further address reaches the outside from it."""
    host.space.ip("-6", "addr", "add", f"{address_text(source)}/128", "dev", INTERFACE)
    if not wait_until(lambda: host.has(source), HONEST):
        return False
    with host.open_datagrams(address_text(source), 0) as sender:
        return reaches(host, router, OUTSIDE, sender)


def start_router(station, folder, find):
    """Makes a router of a station. `find` answers the path of a program, or None. Answers what sends its advertisements."""
    space = station.space
    space.set("all/forwarding", 1)
    space.ip("-6", "addr", "add", f"{address_text(OUTSIDE)}/128", "dev", "lo")
    station.up()
    space.ip("-6", "addr", "add", f"{address_text(OWN_PREFIX | 1)}/64", "dev", INTERFACE)
    space.ip("-6", "route", "add", f"{address_text(LEASED_PREFIX)}/64", "dev", INTERFACE)
    if not wait_until(lambda: station.has(station.link_local), PATIENCE):
        raise Late(f"the router gets no address within {PATIENCE} s")
    if not (program := find("radvd")):
        return None
    name = os.path.join(folder, "radvd.conf")
    with open(name, "w", encoding="ascii") as conf:
        conf.write(f"interface {INTERFACE} {{ AdvSendAdvert on; MinRtrAdvInterval 3; MaxRtrAdvInterval 4;\n"
                   f"  prefix {address_text(OWN_PREFIX)}/64 {{ }}; }};\n")
    with open(os.path.join(folder, "radvd.log"), "w", encoding="ascii") as log:
        return space.start(program, "-n", "-m", "stderr", "-C", name, "-p", os.path.join(folder, "radvd.pid"),
                           stdout=log, stderr=log)


def start_server(station, folder, find):
    """Starts a DHCPv6 server, and waits until it listens. Answers None where there is none."""
    if not (program := find("dnsmasq")):
        return None
    station.space.ip("-6", "addr", "add", f"{address_text(SERVER)}/64", "dev", INTERFACE)
    first, last = (address_text(LEASED_PREFIX | end) for end in (0x100, 0x1FF))
    name = os.path.join(folder, "dnsmasq.log")
    with open(name, "w", encoding="ascii") as log:
        server = station.space.start(
            program, "--no-daemon", "--conf-file=/dev/null", "--port=0", "--user=root", "--no-resolv", "--no-hosts",
            f"--interface={INTERFACE}", f"--dhcp-range={first},{last},64,1h",
            f"--dhcp-leasefile={os.path.join(folder, 'leases')}", f"--pid-file={os.path.join(folder, 'dnsmasq.pid')}",
            stdout=log, stderr=log)
    there = wait_until(lambda: server.poll() is not None or listens(station, SERVER_PORT), PATIENCE)
    if not there or server.poll() is not None:
        with open(name, encoding="utf-8", errors="replace") as log:
            what = f"doesn't listen within {PATIENCE} s" if not there else "ended"
            raise Late(f"dnsmasq {what}: {log.read().strip() or 'no word of it'}")
    return server


def listens(station, port):
    """Whether a UDP socket of a station has this port."""
    with station.space.entered(), open("/proc/thread-self/net/udp6", encoding="ascii") as sockets:
        return any(line.split()[1].endswith(f":{port:04X}") for line in sockets)
