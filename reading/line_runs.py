"""What crates/line_runs must print: what the lines of a journal say, one by one (docs/FORMATS.md, The journal)."""
import re

from .commands import RULES
from .journal import ENTRY, FORMS, read_set
from .plan import DEFAULT_VLAN, METHODS, ROLES, VLANS, PrefixPlan, mac_text, prefix_text, read_mac, read_prefix, read_vlans

# The ends of a number's field; of a frame's octets, and of a command's.
WORD, COUNT, FRAME, COMMAND = 2**64, 2**32, 1518, 120
PORTS = 16

# The passes and the reasons for which each may end.
REASONS = {
    "control": ("end", "quit", "malformed", "overlong", "failed", "unwritten", "paused"), "ticker": ("end", "paused"),
    "in": ("end", "malformed", "failed", "paused"), "out": ("end", "failed", "paused"),
}
SETTINGS = ("per_port", "depth", "entries", "bytes", "gap", "test", "binding", "end")


class NoLine(Exception):
    """A line that isn't one of its kind."""


def number(text, end=WORD):
    value = int(text)
    if value >= end or text != str(value):
        raise NoLine
    return value


def port(text):
    if not 1 <= number(text) <= PORTS:
        raise NoLine
    return f"Port {{ number: {text} }}"


def octets(text, most):
    digits = "" if text == "-" else text
    if len(digits) % 2 or len(digits) // 2 > most:
        raise NoLine
    return digits


def port_set(text):
    ports = read_set(text)
    if ports is None or any(n > PORTS for n in ports):
        raise NoLine
    return f"PortSet({sum(1 << (n - 1) for n in ports)})"


def verdict(text):
    word, _, rest = text.partition("-")
    if word == "drop":
        if rest not in RULES:
            raise NoLine
        return f"Some(Drop({rest}))"
    scope = {"all": "All", "trusted": "TrustedOnly"}.get(rest) or f"TrustedAnd({port(rest.partition('+')[2])})"
    return f"Some(Pass({scope}))"


def end(who, how):
    name, at = re.fullmatch("([a-z]+)([0-9]*)", who).groups()
    reason, _, place = how.partition(" ")
    if reason not in REASONS[name]:
        raise NoLine
    told = {"in": "Ingress", "out": "Egress", "control": "Control", "ticker": "Ticker"}[name]
    who = f"{told}({port(at)})" if at else told
    how = f"{reason.capitalize()}({number(place)})" if place else reason.capitalize()
    return f"End {{ who: {who}, how: {how} }}"


def numbers_of(words):
    """Probes and lost probes, which are the last fields."""
    return number(words[-2], COUNT), number(words[-1], COUNT)


def entry(line):
    """The number of an entry, a function from the place of its octets to the entry, and their digits. Raises NoLine."""
    match = ENTRY.fullmatch(line)
    words = FORMS[match[4]].fullmatch(match[5]) if match else None
    if not words:
        raise NoLine
    kind, words = match[4], words.groups()
    digits, judged, sets, probes = "", "None", ["PortSet(0)"] * 2, (0, 0)
    if kind == "D":
        act = f"Drain {{ port: {port(words[0])}, count: {number(words[1], COUNT)} }}"
    elif kind == "E":
        act = end(*words)
    else:
        probes = numbers_of(words)
    if kind in "FL":
        arrival = f"port: {port(words[0])}, stamp: {number(words[1])}"
        judged = verdict(words[3])
    if kind == "F":
        digits, sets = octets(words[2], FRAME), [port_set(words[4]), port_set(words[5])]
        act = f"Frame {{ {arrival}, at: PLACE, len: {len(digits) // 2} }}"
    elif kind == "L":
        act = f"Long {{ {arrival}, len: {number(words[2], COUNT)} }}"
    elif kind == "T":
        act = f"Tick {{ stamp: {number(words[0])} }}"
    elif kind == "C":
        digits = octets(words[1], COMMAND)
        act = f"Command {{ stamp: {number(words[0])}, at: PLACE, len: {len(digits) // 2} }}"
    text = (
        f"Entry {{ by: {number(match[2], COUNT)}, moment: {number(match[3])}, act: {act}, verdict: {judged}, outs: {sets[0]}, "
        f"cuts: {sets[1]}, probes: {probes[0]}, lost: {probes[1]} }}"
    )
    return number(match[1]), lambda at: text.replace("PLACE", str(at)), digits


def line(text):
    try:
        n, told, digits = entry(text)
    except NoLine:
        return ["  none"]
    return [f"  {n} {told(0)}", f"  octets [{digits}]", "  written again: true"]


def told_port(line, before):
    match = re.fullmatch("port ([1-9][0-9]?) ([a-z]+) (pcap|stream)( .*)?", line, re.ASCII)
    vlans = read_vlans(match[4] or "") if match else None
    if vlans is None or int(match[1]) > PORTS or match[2] not in ROLES or len(vlans.get("trunk", ())) > VLANS:
        return None
    last = re.fullmatch("port ([0-9]+) .*", before)
    if last and int(last[1]) >= int(match[1]):
        return None
    vlan = f"Trunk({list(vlans['trunk'])})" if "trunk" in vlans else f"Access({vlans.get('vlan', DEFAULT_VLAN)})"
    return f"({port(match[1])}, {match[2].capitalize()}, {match[3].capitalize()}, {vlan})"


def prefix_of(line):
    """The prefix of a line, where it is in its one spelling."""
    match = re.fullmatch("prefix ([^ ]+) ([a-z]+)( vlan .*)?", line, re.ASCII)
    prefix, vlans = (read_prefix(match[1]), read_vlans(match[3] or "")) if match else (None, None)
    if prefix is None or vlans is None or prefix_text(*prefix) != match[1] or match[2] not in METHODS:
        return None
    return PrefixPlan(vlans.get("vlan", DEFAULT_VLAN), *prefix, match[2])


def told_prefix(line, before):
    found, last = prefix_of(line), prefix_of(before)
    if found is None or last and (last.vlan, last.net + (1 << (128 - last.length))) > (found.vlan, found.net):
        return None
    return f"(Prefix {{ net: Addr({found.net}), len: {found.length} }}, {found.method.capitalize()}, {found.vlan})"


def told_mac(line):
    match = re.fullmatch("mac (.*)", line)
    mac = read_mac(match[1]) if match else None
    if mac is None or mac_text(mac) != match[1]:
        return None
    return f"Mac({list(mac.to_bytes(6, 'big'))})"


def told_setting(line, name):
    match = re.fullmatch(f"{name} (0|[1-9][0-9]*)", line, re.ASCII)
    return match[1] if match and int(match[1]) < WORD else None


def header(line, before):
    told = {
        "version": {"savi-journal 1": "One", "savi-journal 2": "Two"}.get(line), "mac": told_mac(line),
        "savi": {"savi on": "true", "savi off": "false"}.get(line),
        "unknown drop": {"unknown drop": "true", "unknown pass": "false"}.get(line),
    }
    told |= {name: told_setting(line, name) for name in SETTINGS}
    told |= {"port": told_port(line, before), "prefix": told_prefix(line, before), "begin": {"begin": "true"}.get(line)}
    return [f"  {name}: {value}" for name, value in told.items() if value is not None]


def history(lines, entries, octets):
    """The entries that find room, each in its line with the number that it has there, and what the history has."""
    printed, rows, held = [], [], 0
    for text in lines:
        _, told, digits = entry(text)
        size = len(digits) // 2
        if len(rows) == entries or held + size > octets:
            printed.append(f"  left out: {text}")
            continue
        printed.append(f'  "{len(rows)} {text.partition(" ")[2]}"')
        rows.append((told(held), digits))
        held += size
    printed.append(f"  entries: {len(rows)}, octets: {held}")
    for n, (told, digits) in enumerate(rows):
        printed += [f"  {n} {told}", f"  octets [{digits}]"]
    return printed + [f'  "end {len(rows)}\\n"']


def worked_out(given):
    """The lines that must be printed of those that are given."""
    printed, kept = [], []
    for given_line in given:
        word, _, rest = given_line.partition(" ")
        texts = [text.replace("\\n", "\n") for text in rest[1:-1].split("] [")]
        if word == "line":
            printed += [rest] + line(texts[0])
        elif word == "header":
            printed += [rest] + header(texts[-1], texts[0] if len(texts) == 2 else "")
        elif word == "keep":
            kept.append(texts[0])
        elif word == "history":
            printed += [given_line] + history(kept, *map(int, rest.split()))
            kept = []
    return printed
