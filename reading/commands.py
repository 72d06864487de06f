"""Control: the lines that it takes, and their replies (docs/FORMATS.md)."""
import re
from dataclasses import dataclass

from .plan import address_text, key_text, mac_text, read_address, read_key

LONGEST_LINE = 120

RULES = (
    "PortDown", "Malformed", "ReservedGroup", "SourceMac", "Tagged", "BadIpv6", "HiddenUpper", "UnknownNextHeader",
    "RouterAdvert", "FragmentedNd", "BadNd", "Redirect", "DhcpServer", "UnspecifiedSource", "OffLink", "NotAssigned",
    "PortFull", "WrongPort", "Unverified", "Contested", "NaTarget", "PendingFull", "DhcpContested",
)


@dataclass
class Line:
    stamp: int
    text: bytes


def lines(octets, is_cut=False):
    """The lines of control's input, and how it ends. A line is a stamp without a zero in front, a space, and a command."""
    found, at = [], 0
    while at < len(octets):
        end = octets.find(b"\n", at)
        line = octets[at : end if end >= 0 else len(octets)]
        if len(line) > LONGEST_LINE:
            return found, f"overlong {at}"
        if end < 0 and is_cut:
            return found, "failed"
        match = re.fullmatch(rb"(0|[1-9][0-9]*) (.*)", line, re.DOTALL)
        if not match or int(match[1]) >= 2**64:
            return found, f"malformed {at}"
        found.append(Line(int(match[1]), match[2]))
        at += len(line) + (end >= 0)
    return found, "failed" if is_cut else "end"


def read_port(word):
    return int(word) if re.fullmatch(rb"[1-9]|1[0-6]", word) else None


def read_word(word, read=read_address):
    try:
        return read(word.decode("ascii"))
    except UnicodeDecodeError:
        return None


def command(switch, line):
    """What a command does, as a function that does it and answers the lines of its reply."""
    words = line.split(b" ")
    shows = {b"bindings": show_bindings, b"ports": show_ports, b"counters": show_counters, b"stations": show_stations}
    if len(words) == 2 and words[0] == b"show" and words[1] in shows:
        return lambda: shows[words[1]](switch) + ["end"]
    forms = {(b"clear", 2): clear, (b"static", 3): static, (b"shut", 2): shut, (b"open", 2): reopen, (b"quit", 1): quit_}
    form = forms.get((words[0], len(words)))
    return lambda: [form(switch, *words[1:]) if form else "error: unknown command"]


def is_quit(line):
    return line == b"quit"


def quit_(switch):
    return "ok"


def clear(switch, word):
    key = read_word(word, read_key)
    if key is None or not switch.plan.members(key[0]):
        return "error: bad address"
    if switch.addresses.pop(key, None) is None:
        return "error: no binding"
    return "ok"


def static(switch, word, number):
    """The address is one of the port's VLAN."""
    address, port = read_word(word), read_port(number)
    if address is None:
        return "error: bad address"
    if port is None:
        return "error: bad port"
    if port not in switch.ports:
        return "error: no such port"
    if port in switch.trusted:
        return "error: trusted port"
    key = (switch.ports[port].vlan, address)
    if not switch.is_on_link(*key):
        return "error: off-link"
    state = switch.state(key)
    if not state.holds(port) and not switch.has_room(port):
        return "error: port full"
    state.fix(port)
    switch.keep(key, state)
    return "ok"


def set_shut(switch, number, is_shut):
    port = read_port(number)
    if port is None:
        return "error: bad port"
    if port not in switch.ports:
        return "error: no such port"
    (switch.shut.add if is_shut else switch.shut.discard)(port)
    return "ok"


def shut(switch, number):
    return set_shut(switch, number, True)


def reopen(switch, number):
    return set_shut(switch, number, False)


def moment_text(moment):
    return "-" if moment is None else str(moment)


def show_bindings(switch):
    rows = []
    for (vlan, address), state in sorted(switch.addresses.items()):
        name = key_text(vlan, address_text(address))
        if state.fixed is not None:
            rows.append(f"{name} {state.fixed} static - -")
        if state.bound:
            rows.append(f"{name} {state.bound[0]} bound - {moment_text(state.bound[1])}")
        end = state.first.end(switch.plan)
        if end is not None:
            claimant = moment_text(state.first.claimant)
            rows.append(f"{name} {state.first.port} {state.first.state} {claimant} {end}")
    return rows


def show_ports(switch):
    def row(n, port):
        requests = sum(key[1] == n for key in switch.requests)
        up = "down" if n in switch.shut else "up"
        return f"{n} {port.role} {up} {switch.held(n)} {requests} {len(switch.queues[n])}"

    return [row(n, port) for n, port in switch.ports.items()]


def show_counters(switch):
    return [f"{name} {switch.counts[name]}" for name in (*RULES, "Pass", "Cut", "Probes", "Lost")]


def show_stations(switch):
    live = sorted((*key, port, last) for key, (port, last) in switch.stations.items() if switch.is_live(key))
    return [f"{key_text(vlan, mac_text(mac))} {port} {last + switch.station_time}" for vlan, mac, port, last in live]
