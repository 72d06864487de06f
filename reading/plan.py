"""The configuration of a switch, and the texts of addresses (docs/CONFIGURATION.md)."""
import re
from dataclasses import dataclass, field
from typing import NamedTuple

from .toml_text import TomlFault, read_toml

# The longest configuration, in octets.
LONGEST = 65536

ROLES = ("host", "server", "trusted")
METHODS = ("fcfs", "dhcp", "mixed")

# The kinds of values: a text, a whole number, an array of these, an array of tables.
TEXT, WHOLE, WHOLES, TABLES = "text", "whole number", "whole numbers", "tables"

TOP_KEYS = {
    "mac": TEXT, "journal": TEXT, "control": TEXT, "control_out": TEXT, "savi": TEXT, "unknown": TEXT,
    "per_port": WHOLE, "depth": WHOLE, "entries": WHOLE, "bytes": WHOLE, "probe_gap_ms": WHOLE, "test_ms": WHOLE,
    "binding_s": WHOLE, "port": TABLES, "prefix": TABLES,
}
PORT_KEYS = {
    "number": WHOLE, "role": TEXT, "input": TEXT, "output": TEXT, "format": TEXT, "vlan": WHOLE, "trunk": WHOLES,
}
PREFIX_KEYS = {"prefix": TEXT, "method": TEXT, "vlan": WHOLE}

DEFAULTS = {
    "savi": "on", "unknown": "drop", "per_port": 32, "depth": 256, "entries": 262144, "bytes": 67108864,
    "probe_gap_ms": 250, "test_ms": 500, "binding_s": 300,
}

# The VLAN of a port or a prefix that names none (IEEE 802.1Q table 9-2), the last one, and how many a plan may have.
DEFAULT_VLAN, LAST_VLAN, VLANS = 1, 4094, 8

LINK_LOCAL = (0xFE80 << 112, 64)  # fe80::/64
MULTICAST = (0xFF << 120, 8)  # ff00::/8


class ConfigFault(Exception):
    """A configuration that is refused, with the line for standard error."""


@dataclass
class PortPlan:
    """A port is an access port of the VLAN `vlan`, or has the VLANs of `trunk`, which are in rising order."""

    number: int
    role: str
    input: str
    output: str
    format: str = "pcap"
    vlan: int = DEFAULT_VLAN
    trunk: tuple = ()

    @property
    def is_trusted(self):
        return self.role == "trusted"

    @property
    def vlans(self):
        """The VLANs that the port is a member of."""
        return self.trunk or (self.vlan,)

    def vlan_of(self, tag):
        """The VLAN of a frame that comes in here with a tag as in frame.py, or None where it has none."""
        if self.trunk:
            return tag if tag in self.trunk else None
        return self.vlan if tag is None else None


class PrefixPlan(NamedTuple):
    """In the order in which a plan has them."""

    vlan: int
    net: int
    length: int
    method: str


@dataclass
class Plan:
    """The times `gap`, `test` and `life` are in ms."""

    mac: int
    journal: str
    savi: bool
    drop_unknown: bool
    per_port: int
    depth: int
    entries: int
    bytes: int
    gap: int
    test: int
    life: int
    control: tuple | None = None
    ports: list = field(default_factory=list)
    prefixes: list = field(default_factory=list)

    def method(self, vlan, address):
        """The method of an address that is on-link in a VLAN, else None."""
        if lies_in(address, LINK_LOCAL):
            return "fcfs"
        found = (prefix.method for prefix in self.prefixes if prefix.vlan == vlan and lies_in(address, prefix[1:3]))
        return next(found, None)

    def members(self, vlan):
        """The numbers of the ports of a VLAN: its access ports, and the trunks that list it."""
        return [port.number for port in self.ports if vlan in port.vlans]


def lies_in(address, prefix):
    net, length = prefix
    return (address ^ net) >> (128 - length) == 0


def overlap(one, other):
    """Two prefixes overlap where the longer one lies in the shorter one."""
    short, long = sorted((one, other), key=lambda prefix: prefix[1])
    return lies_in(long[0], short)


def read_mac(text):
    if not re.fullmatch("[0-9a-fA-F]{2}(:[0-9a-fA-F]{2}){5}", text, re.ASCII):
        return None
    return int(text.replace(":", ""), 16)


def mac_text(mac):
    digits = f"{mac:012x}"
    return ":".join(digits[i : i + 2] for i in range(0, 12, 2))


def read_groups(text):
    """The groups of a text without `::`, or None."""
    groups = text.split(":") if text else []
    return groups if all(re.fullmatch("[0-9a-fA-F]{1,4}", group, re.ASCII) for group in groups) else None


def read_address(text):
    """RFC 4291 section 2.2, without dotted IPv4: eight groups, or fewer with one `::` for at least one."""
    head, double, tail = text.partition("::")
    front, back = read_groups(head), read_groups(tail)
    if front is None or back is None:
        return None
    missing = 8 - len(front) - len(back)
    if missing < 1 if double else missing != 0:
        return None
    value = 0
    for group in front + ["0"] * missing + back:
        value = value << 16 | int(group, 16)
    return value


def address_text(address):
    """RFC 5952 section 4: the first of the longest runs of two or more zero groups is `::`."""
    groups = [address >> shift & 0xFFFF for shift in range(112, -16, -16)]
    runs = [(length, -at) for at in range(8) for length in range(2, 9 - at) if not any(groups[at : at + length])]
    words = [f"{group:x}" for group in groups]
    if not runs:
        return ":".join(words)
    length, at = max(runs)
    return ":".join(words[:-at]) + "::" + ":".join(words[-at + length :])


def read_prefix(text):
    """An address, `/`, and a length from 1 to 128, with no bit set past the length."""
    address, slash, length = text.partition("/")
    net = read_address(address)
    if net is None or not slash or not re.fullmatch("[1-9][0-9]{0,2}", length, re.ASCII) or int(length) > 128:
        return None
    length = int(length)
    return None if net & ((1 << (128 - length)) - 1) else (net, length)


def prefix_text(net, length):
    return f"{address_text(net)}/{length}"


def key_text(vlan, text):
    """The text of an address or a MAC address of a VLAN."""
    return text if vlan == DEFAULT_VLAN else f"{text}@{vlan}"


def read_key(text, read=read_address):
    """The VLAN and the address of a key, or None; with `read_mac` those of a MAC address."""
    word, at, vlan = text.partition("@")
    found = read(word)
    if found is None or at and not (re.fullmatch("[1-9][0-9]{0,3}", vlan, re.ASCII) and 2 <= int(vlan) <= LAST_VLAN):
        return None
    return int(vlan) if at else DEFAULT_VLAN, found


def port_text(port):
    """What a journal says of a port's VLANs: nothing of an access port of the default one."""
    if port.trunk:
        return f" trunk {','.join(map(str, port.trunk))}"
    return vlan_text(port.vlan)


def vlan_text(vlan):
    return "" if vlan == DEFAULT_VLAN else f" vlan {vlan}"


def read_vlans(text):
    """What `port_text` or `vlan_text` writes, as keys and values of a configuration; None for any other text."""
    match = re.fullmatch(" (vlan|trunk) ([1-9][0-9]{0,3}(?:,[1-9][0-9]{0,3})*)", text, re.ASCII)
    if not match:
        return None if text else {}
    found = tuple(map(int, match[2].split(",")))
    if match[1] == "trunk":
        return {"trunk": found} if not is_no_trunk(found) and list(found) == sorted(found) else None
    is_told = len(found) == 1 and found[0] != DEFAULT_VLAN and not is_no_vlan(found[0])
    return {"vlan": found[0]} if is_told else None


def is_of_kind(value, kind):
    if kind == TEXT:
        return isinstance(value, str)
    if kind == WHOLE:
        return isinstance(value, int) and not isinstance(value, bool)
    if kind == WHOLES:
        return isinstance(value, list) and all(is_of_kind(item, WHOLE) for item in value)
    return isinstance(value, list) and all(isinstance(item, dict) for item in value)


def tables(document, key):
    """The tables under a key, also where it is one table or an array with other items."""
    value = document.get(key, [])
    items = value if isinstance(value, list) else [value]
    return [item for item in items if isinstance(item, dict)]


def all_tables(document):
    yield document, TOP_KEYS
    for table in tables(document, "port"):
        yield table, PORT_KEYS
    for table in tables(document, "prefix"):
        yield table, PREFIX_KEYS


def is_out(value, least, most):
    return not least <= value <= most


def lacks(table, *keys):
    return any(key not in table for key in keys)


def shape_fault(document):
    """Faults 2 to 4: keys, kinds, and what is missing."""
    if any(key not in keys for table, keys in all_tables(document) for key in table):
        return 2
    if any(not is_of_kind(value, keys[key]) for table, keys in all_tables(document) for key, value in table.items()):
        return 3
    if lacks(document, "mac", "journal", "port") or ("control" in document) != ("control_out" in document):
        return 4
    if any(lacks(port, "number", "role", "input", "output") for port in document["port"]):
        return 4
    if any(lacks(prefix, "prefix", "method") for prefix in document.get("prefix", [])):
        return 4
    return None


def key_fault(top):
    """Faults 5 to 12: the keys of the switch."""
    mac = read_mac(top["mac"])
    gap, test = top["probe_gap_ms"], top["test_ms"]
    tests = (
        (5, mac is None or mac >> 40 & 1),
        (6, top["savi"] not in ("on", "off")),
        (7, top["unknown"] not in ("drop", "pass")),
        (8, is_out(top["per_port"], 1, 64)),
        (9, is_out(top["depth"], 1, 256)),
        (10, is_out(top["entries"], 4131, 1000000)),
        (11, is_out(top["bytes"], 1518, 1073741824)),
        (12, is_out(gap, 1, 59999) or is_out(test, 2, 60000) or is_out(top["binding_s"], 1, 86400) or gap >= test),
    )
    return next((number for number, holds in tests if holds), None)


# What no prefix of a plan may have: link-local addresses, groups, `::` and `::1`.
RESERVED = (LINK_LOCAL, MULTICAST, (0, 128), (1, 128))


def is_clash(prefixes):
    """Two of one VLAN overlap, or one has an address that no prefix of a plan may have. A prefix begins by VLAN, address and
    length."""
    return any(overlap(prefix[1:3], other) for prefix in prefixes for other in RESERVED) or any(
        one[0] == other[0] and overlap(one[1:3], other[1:3])
        for at, one in enumerate(prefixes) for other in prefixes[at + 1 :]
    )


def is_no_vlan(vlan):
    return is_out(vlan, 1, LAST_VLAN)


def is_no_trunk(trunk):
    """No VLAN, one twice, or one that is none."""
    return not trunk or len(set(trunk)) < len(trunk) or any(map(is_no_vlan, trunk))


def vlans_of(ports):
    """The VLANs of all ports, as a configuration has these."""
    return {vlan for port in ports for vlan in port.get("trunk", (port.get("vlan", DEFAULT_VLAN),))}


def list_fault(ports, prefixes, streams=False):
    """Faults 13 to 24: ports and prefixes. `streams` permits ports that read them."""
    numbers = [port["number"] for port in ports]
    read = [read_prefix(prefix["prefix"]) for prefix in prefixes]
    vlans = [prefix.get("vlan", DEFAULT_VLAN) for prefix in prefixes]
    trunks = [port for port in ports if "trunk" in port]
    tests = (
        (13, lambda: is_out(len(ports), 1, 16)),
        (14, lambda: any(is_out(n, 1, 16) for n in numbers) or len(set(numbers)) < len(numbers)),
        (15, lambda: any(port["role"] not in ROLES for port in ports)),
        (16, lambda: any(port.get("format", "pcap") not in ("pcap", "stream") for port in ports)),
        (17, lambda: len(prefixes) > 32 or None in read),
        (18, lambda: is_clash([(vlan, *prefix) for vlan, prefix in zip(vlans, read)])),
        (19, lambda: any(prefix["method"] not in METHODS for prefix in prefixes)),
        (20, lambda: not streams and any(port.get("format") == "stream" for port in ports)),
        (22, lambda: any(map(is_no_vlan, vlans + [port.get("vlan", DEFAULT_VLAN) for port in ports]))
            or any("vlan" in port or is_no_trunk(port["trunk"]) for port in trunks)),
        (23, lambda: any(port["role"] != "trusted" for port in trunks)),
        (24, lambda: len(vlans_of(ports)) > VLANS),
    )
    return next((number for number, holds in tests if holds()), None)


def read_plan(octets, streams=False):
    """The plan of a configuration for `replay`, or where ports may read streams. Raises ConfigFault."""
    if len(octets) > LONGEST:
        raise ConfigFault("config fault 1")
    try:
        document = read_toml(octets)
    except TomlFault:
        raise ConfigFault("config is not TOML") from None
    top = DEFAULTS | document
    fault = shape_fault(document) or key_fault(top)
    fault = fault or list_fault(document["port"], document.get("prefix", []), streams)
    if fault:
        raise ConfigFault(f"config fault {fault}")
    return Plan(
        mac=read_mac(top["mac"]), journal=top["journal"], savi=top["savi"] == "on",
        drop_unknown=top["unknown"] == "drop", per_port=top["per_port"], depth=top["depth"], entries=top["entries"],
        bytes=top["bytes"], gap=top["probe_gap_ms"], test=top["test_ms"], life=1000 * top["binding_s"],
        control=(top["control"], top["control_out"]) if "control" in top else None,
        ports=planned_ports(document["port"]), prefixes=planned_prefixes(document.get("prefix", [])),
    )


def planned_ports(ports):
    """The ports of a plan, of those of a configuration without fault."""
    found = (PortPlan(**port | {"trunk": tuple(sorted(port.get("trunk", ())))}) for port in ports)
    return sorted(found, key=lambda port: port.number)


def planned_prefixes(prefixes):
    """The prefixes of a plan, likewise."""
    return sorted(
        PrefixPlan(prefix.get("vlan", DEFAULT_VLAN), *read_prefix(prefix["prefix"]), prefix["method"]) for prefix in prefixes
    )
