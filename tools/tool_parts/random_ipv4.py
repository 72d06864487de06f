"""Random frames of IPv4, ARP and DHCPv4, for tools/random-frames, whose sources of draws these take. Requests and bindings
are those that the reading knows by then (reading/audit.py): most answers are to an open request, most messages of hosts from
an address that is leased to them, and one frame in two meets a request or a binding again, now or when it ends."""
from reading import making_ipv4 as ipv4
from reading.audit import ACKNOWLEDGEMENT, DECLINE, FOREVER, REFUSAL, RELEASE, REQUEST, REQUESTED_ADDRESS
from reading.making import octets
from reading.making_ipv4 import DHCP_CLIENT, DHCP_SERVER, arp, data, message, option, time_option, to_client, to_servers

MACS = {1: 0x020000000011, 2: 0x020000000022, 3: 0x020000000033, 4: 0x0200000000FE, 5: 0x02000000005E, 6: 0x0200000000FD}
HOSTS, TRUSTED, SERVER = (1, 2, 3), (4, 6), 5
ACCESS = HOSTS + (SERVER,)

ADDRESSES = tuple(ipv4.read_address(f"192.0.2.{n}") for n in range(1, 7))
OTHERS = (0, ipv4.BROADCAST, ipv4.read_address("198.51.100.1"))
LIFETIMES = (0, 1, 2, 60, 60, 3600, 3600, 3600, FOREVER, FOREVER)

DISCOVERY, OFFER, INFORM = 1, 2, 8


def any_address(source):
    return source.one(OTHERS if source.happens(12) else ADDRESSES)


def held(source, port):
    """The addresses that are leased to a port."""
    return [address for (_, address), one in source.snoop.bindings.items() if one.port == port]


def own(source, port):
    """Mostly an address that is leased to the port."""
    found = held(source, port)
    return source.one(found) if found and not source.happens(5) else any_address(source)


def padded(source, frame):
    return frame + bytes(source.draw(19)) if source.happens(6) else frame


# Messages.


def options(source):
    """Options that say nothing here, mostly whole ones."""
    found = b""
    for _ in range(source.draw(3)):
        kind = source.draw(12)
        if kind < 3:
            found += bytes(1 + kind)
        elif kind < 10:
            found += option(source.one((12, 55, 61, 81)), bytes(source.draw(20)))
        else:
            found += option(source.one((50, 51, 53)), bytes(1 + source.draw(8) for _ in range(source.one((0, 1, 3, 4, 5)))))
    return found


def with_odd_end(source, payload):
    """A message, one in ten of which doesn't end as others, is cut, or has an option in front of its type."""
    if not source.happens(10):
        return payload
    head, rest = payload[:240], payload[240:]
    return source.one((
        payload[:-1], payload + bytes(4), payload[:-1] + option(12, b"host")[: 1 + source.draw(6)],
        payload[: source.draw(len(payload))], head + options(source) + rest, head + option(53, b"\3\3"[: source.draw(3)]) + rest,
        bytes([3 - payload[0]]) + payload[1:], payload[:2] + b"\x10" + payload[3:],
    ))


def carrying(source):
    """What may be odd of a packet that carries a message."""
    kind = source.draw(24)
    return {0: {"fragment": 0x2000}, 1: {"fragment": 1}, 2: {"options": bytes(4)}, 3: {"options": bytes(40)}}.get(kind, {})


def asking(source, port, transaction, mac, kind=REQUEST, own_address=0, more=b""):
    payload = message(kind, transaction, mac, own=own_address, options=options(source) + more)
    receiver = source.one((67, 67, 68, 69)) if source.happens(30) else DHCP_SERVER
    sender = DHCP_CLIENT if not source.happens(30) else DHCP_SERVER
    address = own_address if own_address and not source.happens(6) else 0
    return padded(source, to_servers(
        MACS[port], with_odd_end(source, payload), source=address, sender=sender, receiver=receiver, **carrying(source)))


def answering(source, port, transaction, mac, address, kind=ACKNOWLEDGEMENT):
    seconds = source.one(LIFETIMES)
    parts = (time_option(seconds), options(source))
    payload = message(kind, transaction, mac, given=address, options=b"".join(parts if source.draw(2) else parts[::-1]))
    server = source.one(held(source, port) or ADDRESSES) if source.draw(12) else any_address(source)
    return padded(source, to_client(MACS[port], server, with_odd_end(source, payload), **carrying(source)))


# Kinds of frames.


def request(source, port):
    """Of a new client, or of one that has an address; of the port's host mostly."""
    kind = source.one((DISCOVERY, REQUEST, REQUEST, REQUEST, REQUEST, REQUEST, REQUEST, INFORM))
    mac = MACS[port] if not source.happens(6) else source.mac(port)
    return asking(source, port, source.draw(1000), mac, kind, source.one((0, 0, own(source, port))))


def answer(source, port):
    """To an open request mostly."""
    open_ones = sorted(source.snoop.requests)
    kind = source.one((OFFER, ACKNOWLEDGEMENT, ACKNOWLEDGEMENT, ACKNOWLEDGEMENT, ACKNOWLEDGEMENT, ACKNOWLEDGEMENT, REFUSAL))
    if not open_ones or source.happens(8):
        return answering(source, port, source.draw(1000), MACS[1], any_address(source), kind)
    source.vlan, transaction, mac = source.one(open_ones)
    return answering(source, port, transaction, mac, any_address(source), kind)


def giving_up(source, port):
    return given_up(source, port, own(source, port))


def given_up(source, port, address):
    if source.draw(2):
        return asking(source, port, source.draw(1000), MACS[port], RELEASE, address)
    return asking(source, port, source.draw(1000), MACS[port], DECLINE, 0, option(REQUESTED_ADDRESS, octets(address, 4)))


def resolution(source, port):
    """An ARP message, one in eight from an address at another station, one in eight of another form."""
    mac = source.mac(port)
    sender = 0 if source.happens(8) else own(source, port)
    false = source.one(tuple(MACS.values())) if source.happens(8) else None
    frame = arp(mac, sender, any_address(source), source.one((1, 1, 1, 2, 2)) if source.draw(12) else source.draw(4), false)
    if source.happens(8):
        at = 14 + source.draw(8)
        frame = frame[:at] + bytes([frame[at] ^ source.one((1, 2, 8))]) + frame[at + 1 :]
    return frame[: len(frame) - 1 - source.draw(14)] if source.happens(20) else padded(source, frame)


def own_packet(source, port):
    return packet(source, port, own(source, port))


def packet(source, port, address):
    """Of ICMP, TCP or UDP, some of them to the ports of DHCPv4 or behind options."""
    protocol, body = source.one((1, 6, 17, 17)), bytes(source.draw(30))
    if protocol == 17 and source.draw(3):
        ports = octets(source.one((53, 67, 68)), 2) + octets(source.one((53, 67, 68)), 2)
        body = (ports + octets(8 + len(body), 2) + bytes(2) + body)[: source.one((7, 8, 100))]
    mac = source.mac(port)
    return padded(source, data(mac, address, any_address(source), source.one(tuple(MACS.values())), protocol, body,
                                  **carrying(source)))


def misshapen(source, port):
    """A packet whose header can't be read, or only just."""
    frame = data(source.mac(port), own(source, port), body=bytes(4))
    kind = source.draw(5)
    if kind == 0:
        return frame[: 14 + source.draw(24)]
    if kind == 1:
        return frame[:14] + bytes([frame[14] & 0xF | source.draw(16) << 4]) + frame[15:]
    if kind == 2:
        return frame[:14] + bytes([0x40 | source.draw(8)]) + frame[15:]
    return frame[:16] + octets(source.one((0, 19, 20, 23, 24, 25, 28)), 2) + frame[18:]


# Kinds, their weights, and the ports where they come in.
KINDS = (
    (request, 12, ACCESS), (answer, 8, TRUSTED + (SERVER,)), (answer, 1, HOSTS), (giving_up, 2, ACCESS),
    (resolution, 8, ACCESS), (own_packet, 8, ACCESS), (misshapen, 2, ACCESS), (resolution, 1, TRUSTED),
    (own_packet, 1, TRUSTED), (misshapen, 1, TRUSTED), (request, 1, TRUSTED),
)
BY_WEIGHT = [row for row in KINDS for _ in range(row[1])]


# A follower comes to a moment, and answers a port and a frame.


def follow_binding(source):
    """Its host, or another one of its VLAN, sends from it, renews it or gives it up."""
    (source.vlan, address), binding = source.one(list(source.snoop.bindings.items()))
    source.wait_for(binding.until)
    port, other, kind = binding.port, source.one(source.mates(HOSTS)), source.draw(9)
    if kind < 3:
        return port, arp(binding.mac, address, any_address(source), source.one((1, 2)))
    if kind == 3:
        return source.one((port, other)), arp(MACS[other], address, any_address(source))
    if kind == 4:
        return port, asking(source, port, source.draw(1000), binding.mac, REQUEST, address)
    if kind == 5:
        return port, given_up(source, port, address)
    return (other if kind == 6 else port), data(MACS[port], address)


def follow_request(source):
    """An answer to it, or the same one again, at its port or another one."""
    (source.vlan, transaction, mac), (port, until) = source.one(list(source.snoop.requests.items()))
    source.wait_for(until)
    kind, other = source.draw(8), source.one(source.mates(HOSTS))
    if kind < 5:
        by = source.one(source.mates(TRUSTED)) if kind < 4 else SERVER
        address = source.one(held(source, port) or ADDRESSES) if source.happens(3) else any_address(source)
        return by, answering(source, by, transaction, mac, address)
    if kind == 5:
        return port, asking(source, port, source.draw(1000), mac)
    again = port if kind == 6 else other
    return again, asking(source, again, transaction, mac)


def crowd(source):
    """Another request at the port that has most of them, or an answer to one with another address."""
    ports = [port for port, _ in source.snoop.requests.values()]
    (source.vlan, transaction, mac), (port, _) = source.one(list(source.snoop.requests.items()))
    if source.happens(6):
        by = source.one(source.mates(TRUSTED))
        return by, answering(source, by, transaction, mac, source.one(ADDRESSES))
    port = max(ports, key=ports.count)
    source.now += source.draw(20)
    return port, asking(source, port, source.draw(1000), MACS[port])


def follow(source):
    """A port and a frame; or None where there is nothing yet. With one seed in three requests crowd."""
    kinds = [follow_binding] * 2 if source.snoop.bindings else []
    if source.snoop.requests:
        kinds += [follow_request] + [crowd] * 6 if source.seed % 3 == 0 else [follow_request] * 3
    return source.one(kinds)(source) if kinds else None
