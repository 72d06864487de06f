"""The faults of a configuration in words: each that the program would give, by its number, with where it stands and what to
write instead (docs/CONFIGURATION.md, What is refused). reading/plan.py says which one the program gives."""
import difflib
import re
from dataclasses import dataclass

from reading import toml_text
from reading.plan import (
    DEFAULT_VLAN, DEFAULTS, LAST_VLAN, LINK_LOCAL, LONGEST, METHODS, MULTICAST, PORT_KEYS, PREFIX_KEYS, ROLES, TABLES, TEXT,
    TOP_KEYS, VLANS, WHOLE, WHOLES, is_no_vlan, is_of_kind, overlap, prefix_text, read_address, read_mac, read_prefix,
    tables,
)
from reading.toml_text import Table, TomlFault, read_toml

REQUIRED = {"top": ("mac", "journal", "port"), "port": ("number", "role", "input", "output"), "prefix": ("prefix", "method")}
KEYS = {"top": TOP_KEYS, "port": PORT_KEYS, "prefix": PREFIX_KEYS}
WHERE = {"top": "above the first table", "port": "in a [[port]]", "prefix": "in a [[prefix]]"}

# The least and the most of each whole number, and the number of its fault.
RANGES = {
    "per_port": (8, 1, 64), "depth": (9, 1, 256), "entries": (10, 4131, 1000000), "bytes": (11, 1518, 1073741824),
    "probe_gap_ms": (12, 1, 59999), "test_ms": (12, 2, 60000), "binding_s": (12, 1, 86400),
}
FORMATS = ("pcap", "stream")

# The words that a key may have, with the number of its fault.
WORDS = {
    "top": {"savi": (6, ("on", "off")), "unknown": (7, ("drop", "pass"))},
    "port": {"role": (15, ROLES), "format": (16, FORMATS)},
    "prefix": {"method": (19, METHODS)},
}

# What somebody may mean by another word.
MEANT = {
    "savi": {"true": "on", "yes": "on", "enabled": "on", "false": "off", "no": "off", "disabled": "off"},
    "unknown": {"allow": "pass", "accept": "pass", "permit": "pass", "deny": "drop", "discard": "drop", "block": "drop"},
    "role": {"router": "trusted", "switch": "trusted", "uplink": "trusted", "trust": "trusted", "guest": "host", "vm": "host",
             "client": "host", "untrusted": "host", "dhcp": "server", "dhcpv6": "server", "relay": "server"},
    "format": {"pcapng": "pcap", "capture": "pcap", "file": "pcap", "socket": "stream", "unix": "stream", "tap": "stream"},
    "method": {"slaac": "fcfs", "static": "fcfs", "auto": "fcfs", "dhcpv6": "dhcp", "stateful": "dhcp", "both": "mixed",
               "mix": "mixed"},
}
EXAMPLES = {
    "mac": '"02:00:00:00:00:01"', "journal": '"journal.txt"', "number": "1", "role": '"host"', "input": '"1.pcap"',
    "output": '"1.out"', "prefix": '"2001:db8:1::/64"', "method": '"fcfs"', "control": '"commands.txt"',
    "control_out": '"replies.txt"', "savi": '"on"', "unknown": '"drop"', "format": '"pcap"',
}
RESERVED = ((LINK_LOCAL, "link-local addresses (fe80::/64), which need no prefix"), (MULTICAST, "groups (ff00::/8)"),
            ((0, 128), "`::`"), ((1, 128), "`::1`"))


@dataclass
class Finding:
    """A fault by its number, or a warning, whose number is None, or a text that isn't TOML, whose number is 0. `place` is
    the line and the column, and `what` and `instead` are what is wrong and what to write. `value` is as it is written."""

    number: int | None
    place: tuple
    key: str
    value: str
    what: str
    instead: str

    @property
    def kind(self):
        return "warning" if self.number is None else f"config fault {self.number}" if self.number else "config is not TOML"


def shown(value):
    """A value as it may be written."""
    if isinstance(value, bool):
        return "true" if value else "false"
    if isinstance(value, toml_text.Moment) or not isinstance(value, (str, list, dict)):
        return str(value)
    if isinstance(value, str):
        text = "".join(char if char.isprintable() and char not in '"\\' else escaped(char) for char in value)
        return f'"{text if len(text) <= 60 else text[:57] + ".."}"'
    if isinstance(value, dict):
        return "{ .. }" if value else "{}"
    text = f"[{', '.join(map(shown, value))}]" if is_of_kind(value, WHOLES) else "[ .. ]"
    return text if len(text) <= 60 else "[ .. ]"


def escaped(char):
    return "\\" + char if char in '"\\' else f"\\u{ord(char):04X}" if ord(char) < 1 << 16 else f"\\U{ord(char):08X}"


def one_of(words, last="or"):
    return f" {last} ".join((", ".join(f'"{word}"' for word in words[:-1]), f'"{words[-1]}"'))


# A text that is too long, or isn't TOML.


def explain(octets, for_replay=True):
    """What is wrong with a configuration, as findings by their numbers and places, and the document, None where it can't be
    read. The program gives the number of the first finding."""
    if len(octets) > LONGEST:
        return [Finding(1, (1, 1), "", "", f"the text has more than {LONGEST:,} octets",
                        "Shorten it: leave out comments, and keys that have their default value. It isn't read at all.")], None
    try:
        document = read_toml(octets)
    except TomlFault as fault:
        return [toml_finding(octets, fault)], None
    found = sorted(document_findings(document, for_replay), key=lambda finding: (finding.number, finding.place))
    return found, document


ADVICE = {
    toml_text.NOT_UTF8: "Save the file in UTF-8: iconv -f LATIN1 -t UTF-8 OLD > NEW.",
    toml_text.KEY: 'A line is a key, `=` and a value, or a table\'s name in brackets, or a comment, which begins by "#".',
    toml_text.EQUALS: "Write the key, `=` and a value in one line.",
    toml_text.HEADER: "Write the table's name in double brackets: [[port]] or [[prefix]].",
    toml_text.HEADERS: "Write the table's name in double brackets: [[port]] or [[prefix]].",
    toml_text.LINE_END: 'Put each key into a line of its own, and begin a comment by "#".',
    toml_text.ARRAY: "Put `,` between two items, and `]` behind the last one.",
    toml_text.INLINE: "Put `,` between two keys, and `}` behind the last value.",
    toml_text.STRING: 'A text begins and ends by the same quotation mark, " or \', in one line.',
    toml_text.ESCAPE: "Write a backslash of a text twice, or the text between apostrophes: 'C:\\new'.",
    toml_text.VALUE: 'A value is a text in quotation marks, as "on", or a whole number, as 32.',
    toml_text.UNDERSCORE: "Write the digits alone.",
    toml_text.TOO_LARGE: "Write a smaller number.",
    toml_text.MOMENT: "No key has a date or a time.",
    toml_text.TWICE: "Leave one of the two out. A further port or prefix begins by a header of its own: [[port]], [[prefix]].",
    toml_text.EXTENDS: "Give each key one value. Ports and prefixes are tables: [[port]], [[prefix]].",
    toml_text.TOO_DEEP: "No value of a configuration needs this.",
}


def toml_finding(octets, fault):
    line = octets.decode("utf-8", "replace").split("\n")[fault.place[0] - 1]
    parts = re.match(r"\s*([A-Za-z0-9_-]+)\s*=[ \t]*([^#\r]*)", line)
    key, value = (parts[1], parts[2].strip()) if parts else ("", "")
    instead = ADVICE[fault.kind]
    kinds = TOP_KEYS | PORT_KEYS | PREFIX_KEYS
    if fault.kind in (toml_text.VALUE, toml_text.MOMENT, toml_text.UNDERSCORE, toml_text.TOO_LARGE, toml_text.LINE_END,
                      toml_text.KEY) and kinds.get(key) == TEXT and value and value[0] not in "\"'":
        instead = f'Put the text into quotation marks, which are straight: {key} = "{value.strip(chr(0x201c) + chr(0x201d))}"'
    elif fault.kind == toml_text.VALUE and kinds.get(key) == WHOLE:
        instead = f"Write a whole number, in digits: {key} = {DEFAULTS.get(key, 1)}"
    elif fault.kind == toml_text.ESCAPE and parts and value:
        instead = f"Write each backslash twice, or the text between apostrophes: {key} = {value.replace(chr(34), chr(39))}"
    return Finding(0, fault.place, key, value if len(value) <= 60 else f"{value[:57]}..", fault.what, instead)


# A document.


def all_tables(document):
    """Each table with its kind: the document, the ports and the prefixes."""
    yield "top", document
    for kind in ("port", "prefix"):
        for table in tables(document, kind):
            yield kind, table


def document_findings(document, for_replay):
    for kind, table in all_tables(document):
        yield from unknown_keys(kind, table)
        yield from wrong_kinds(kind, table)
        yield from missing_keys(kind, table)
        yield from wrong_words(kind, table)
    yield from lone_control(document)
    yield from wrong_switch(document)
    yield from wrong_ports(document, for_replay)
    yield from wrong_prefixes(document)


def finding(number, table, key, what, instead, at_key=False):
    place = (table.keys_at if at_key else table.values_at)[key]
    return Finding(number, place, key, shown(table[key]), what, instead)


def of_kind(table, keys, key):
    """The value of a key, where it is there and has its kind; else None."""
    value = table.get(key)
    return value if key in table and is_of_kind(value, keys[key]) else None


def unknown_keys(kind, table):
    for key in table:
        if key not in KEYS[kind]:
            yield finding(2, table, key, f"no key of this name may stand {WHERE[kind]}", known_key(kind, key), True)


def known_key(kind, key):
    homes = [other for other in KEYS if key in KEYS[other]]
    if homes:
        return f"Put it {WHERE[homes[0]]}."
    close = difflib.get_close_matches(key.lower(), KEYS[kind], 1, 0.6)
    if close:
        return f"Is `{close[0]}` meant?"
    others = [other for other in KEYS if difflib.get_close_matches(key.lower(), KEYS[other], 1, 0.75)]
    if others:
        return f"Is `{difflib.get_close_matches(key.lower(), KEYS[others[0]], 1)[0]}` meant? It stands {WHERE[others[0]]}."
    return f"The keys here are {', '.join(KEYS[kind])}."


def wrong_kinds(kind, table):
    for key, wanted in KEYS[kind].items():
        if key in table and not is_of_kind(table[key], wanted):
            yield finding(3, table, key, *kind_words(key, table[key], wanted))


def kind_words(key, value, wanted):
    """What is wrong with a value of another kind, and what to write."""
    if wanted == TABLES:
        double = f"Write the header in double brackets: [[{key}]]. Each {key} begins by one."
        is_one = isinstance(value, Table) and value.origin != toml_text.INLINED
        return f"one table `[{key}]`, and a plan has an array of them" if is_one else f"no array of tables `[[{key}]]`", double
    if wanted == WHOLES:
        written = value if isinstance(value, list) else re.findall("[0-9]{1,4}", str(value))
        numbers = [int(item) for item in written if re.fullmatch("[0-9]{1,4}", str(item))]
        return "no array of whole numbers", f"Write whole numbers in brackets: {key} = {trunk_text(numbers)}"
    if wanted == TEXT:
        example = shown(str(value) if not isinstance(value, (bool, list, dict)) else EXAMPLES[key].strip('"'))
        if isinstance(value, bool):
            example = MEANT.get(key, {}).get(shown(value), "") and f'"{MEANT[key][shown(value)]}"' or EXAMPLES[key]
        return "not a text", f"Write a text, in quotation marks: {key} = {example}"
    whole = re.fullmatch("[0-9]{1,10}", value.replace(",", "").replace("_", "").strip()) if isinstance(value, str) else None
    number = int(whole[0]) if whole else int(value) if isinstance(value, float) and abs(value) < 1 << 40 else DEFAULTS.get(key, 1)
    return "not a whole number", f"Write a whole number, without quotation marks and point: {key} = {number}"


def missing_keys(kind, table):
    for key in REQUIRED[kind]:
        if key not in table:
            place = table.place if kind != "top" else (1, 1)
            instead = f"Add a line {WHERE[kind] if kind == 'top' else 'to this table'}: {key} = {EXAMPLES.get(key)}"
            if key == "port":
                instead = "Add a table for each port: a line [[port]], and lines for number, role, input and output."
            yield Finding(4, place, key, "", "it is missing", instead)


def lone_control(document):
    pair = ("control", "control_out")
    for key, other in (pair, pair[::-1]):
        if of_kind(document, TOP_KEYS, key) is not None and other not in document:
            yield finding(4, document, key, f"it stands alone, and `{other}` is missing",
                          f"Add {other} = {EXAMPLES[other]}, or leave out both.", True)


def wrong_words(kind, table):
    for key, (number, words) in WORDS[kind].items():
        value = of_kind(table, KEYS[kind], key)
        if value is None or value in words:
            continue
        meant = value.strip().lower()
        close = [meant] if meant in words else difflib.get_close_matches(meant, words, 1, 0.6)
        word = MEANT[key].get(meant) or (close[0] if close else None)
        instead = f'Write {key} = "{word}"' if word else f"Write one of these, in lower case: {one_of(words)}"
        what = f"neither {one_of(words, 'nor')}" if len(words) == 2 else f"not {one_of(words)}"
        yield finding(number, table, key, what, instead)


# The keys of the switch.


def wrong_switch(document):
    mac = of_kind(document, TOP_KEYS, "mac")
    if mac is not None and (words := mac_words(mac)):
        yield finding(5, document, "mac", *words)
    for key, (number, least, most) in RANGES.items():
        value = of_kind(document, TOP_KEYS, key)
        if value is not None and not least <= value <= most:
            yield finding(number, document, key, f"not from {least:,} to {most:,}",
                          f"Write {key} = {min(max(value, least), most)}, or leave the line out, which is {DEFAULTS[key]}.")
    yield from wrong_times(document)


def mac_words(text):
    mac = read_mac(text)
    if mac is None:
        digits = re.sub("[^0-9a-fA-F]", "", text)
        is_other = len(digits) == 12 and re.fullmatch("[0-9a-fA-F:. -]+", text)
        pairs = ":".join(digits[at : at + 2] for at in range(0, 12, 2)) if is_other else "02:00:00:00:00:01"
        return "no MAC address", f'Write six pairs of hexadecimal digits with colons: mac = "{pairs}"'
    if mac >> 40 & 1:
        own = f"{int(text[:2], 16) & 0xFE | 2:02x}{text[2:]}"
        return "the address of a group: the lowest bit of its first pair is set", f'Make the second digit even: mac = "{own}"'
    return None


def wrong_times(document):
    times = {}
    for key in ("probe_gap_ms", "test_ms"):
        value = of_kind(document, TOP_KEYS, key)
        times[key] = DEFAULTS[key] if value is None else value
    gap, test = times.values()
    if gap < test:
        return
    key = "probe_gap_ms" if of_kind(document, TOP_KEYS, "probe_gap_ms") is not None else "test_ms"
    instead = (f"Write a shorter wait, as probe_gap_ms = {max(test // 2, 1)}" if key == "probe_gap_ms" or test > 2 else
               "Write a longer test, as test_ms = 500")
    yield finding(12, document, key, f"probe_gap_ms is {gap}, and has to be less than test_ms, which is {test}", instead)


# The ports and the prefixes.


def table_items(document, key):
    """The tables under a key, where it has an array of tables; else none."""
    return document[key] if of_kind(document, TOP_KEYS, key) is not None else []


def wrong_ports(document, for_replay):
    ports = table_items(document, "port")
    if "port" in document and is_of_kind(document["port"], TABLES) and not ports:
        yield finding(13, document, "port", "there is no port", "Add a table [[port]] for each port.")
    if len(ports) > 16:
        yield Finding(13, document["port"].places[16], "port", "", f"the 17th port of {len(ports)}, and a switch has 16 at most",
                      "Leave some out, or put them behind another switch at a trusted port.")
    yield from wrong_numbers(tables(document, "port"))
    yield from wrong_vlans(document)
    for port in tables(document, "port"):
        if for_replay and of_kind(port, PORT_KEYS, "format") == "stream":
            yield finding(20, port, "format", "a replay reads captures alone",
                          'Run `savi_switch serve` with this plan, or write format = "pcap" and the name of a capture.')


def wrong_numbers(ports):
    met = {}
    taken = {port.get("number") for port in ports if isinstance(port.get("number"), int)}
    free = [number for number in range(1, 17) if number not in taken]
    for port in ports:
        number = of_kind(port, PORT_KEYS, "number")
        if number is None:
            continue
        another = f"Write a number that no port has: number = {free[0]}" if free else "Leave the port out: each number is taken."
        if not 1 <= number <= 16:
            yield finding(14, port, "number", "not from 1 to 16", another)
        elif number in met:
            yield finding(14, port, "number", f"the port in line {met[number]} has this number", another)
        met.setdefault(number, port.values_at["number"][0])


def trunk_text(vlans):
    """These VLANs as a trunk's, in order; those of an example where there is none."""
    return str(sorted({vlan for vlan in vlans if not is_no_vlan(vlan)})[:VLANS] or [10, 20])


def wrong_vlans(document):
    """Faults 22 to 24."""
    for kind, table in all_tables(document):
        vlan = of_kind(table, KEYS[kind], "vlan") if kind != "top" else None
        if vlan is not None and is_no_vlan(vlan):
            yield finding(22, table, "vlan", f"not from 1 to {LAST_VLAN:,}",
                          f"Write vlan = {min(max(vlan, 1), LAST_VLAN)}, or leave the line out, which is {DEFAULT_VLAN}.")
    for port in tables(document, "port"):
        if (trunk := of_kind(port, PORT_KEYS, "trunk")) is not None:
            yield from wrong_trunk(port, trunk)
    yield from too_many_vlans(tables(document, "port"))


def wrong_trunk(port, trunk):
    if "vlan" in port:
        yield finding(22, port, "vlan", f"the port has `trunk` too, in line {port.keys_at['trunk'][0]}",
                      "Leave one of the two out: `vlan` is of a port without tags, `trunk` of one with them.", True)
    others = [vlan for vlan in trunk if is_no_vlan(vlan)]
    twice = [vlan for at, vlan in enumerate(trunk) if vlan in trunk[:at]]
    if not trunk or others or twice:
        what = f"VLAN {twice[0]} stands twice" if twice else "no VLAN"
        what = f"{others[0]} isn't from 1 to {LAST_VLAN:,}" if others else what
        yield finding(22, port, "trunk", what, f"List each VLAN of the trunk once: trunk = {trunk_text(trunk)}")
    if of_kind(port, PORT_KEYS, "role") in ("host", "server"):
        vlan = next((vlan for vlan in trunk if not is_no_vlan(vlan)), DEFAULT_VLAN)
        yield finding(23, port, "trunk", f"a trunk is a trusted port, and the role of this one is {shown(port['role'])}",
                      f'Write vlan = {vlan}, or role = "trusted" where a router or another switch is behind the port.')


def too_many_vlans(ports):
    """The port by which there is one VLAN more than a plan may have."""
    met = set()
    for port in ports:
        key = "trunk" if "trunk" in port else "vlan"
        found = port.get(key, DEFAULT_VLAN)
        met |= set(found if is_of_kind(found, WHOLES) else [found] if is_of_kind(found, WHOLE) else [])
        if len(met) > VLANS and key in port:
            yield finding(24, port, key, f"by it the ports have {len(met)} VLANs, and a switch has {VLANS} at most",
                          "Leave some out, or put them behind another switch.")
            return


def wrong_prefixes(document):
    prefixes = tables(document, "prefix")
    if len(prefixes) > 32:
        place = prefixes[32].place
        yield Finding(17, place, "prefix", "", f"the 33rd prefix of {len(prefixes)}, and a plan has 32 at most",
                      "Leave some out, or join neighbors to one shorter prefix.")
    met = []
    for table in prefixes:
        text = of_kind(table, PREFIX_KEYS, "prefix")
        if text is None:
            continue
        prefix = read_prefix(text)
        if prefix is None:
            yield finding(17, table, "prefix", *prefix_words(text))
            continue
        for reserved, name in RESERVED:
            if overlap(prefix, reserved):
                yield finding(18, table, "prefix", f"it has addresses that no prefix of a plan may have: {name}",
                              "Leave it out, or write the prefix of the hosts' global addresses.")
        # Where there are too many, the first 32 are compared.
        vlan = table.get("vlan", DEFAULT_VLAN)
        for other, line, of in met[:32]:
            if overlap(prefix, other) and vlan == of:
                yield finding(18, table, "prefix", f"it overlaps {prefix_text(*other)} in line {line}",
                              "Leave one of the two out, or put it in another VLAN: each address of a VLAN has one method.")
        met.append((prefix, table.values_at["prefix"][0], vlan))


def prefix_words(text):
    """What is wrong with the text of a prefix, and what to write."""
    address, slash, length = text.partition("/")
    net = read_address(address)
    if "." in address:
        return "an IPv4 address in it", 'Write eight groups of hexadecimal digits, or fewer and `::`: prefix = "2001:db8:1::/64"'
    if net is None:
        return "no IPv6 address in front of the slash", 'Write, for instance, prefix = "2001:db8:1::/64"'
    if not slash:
        return "no length", f'Write how many bits count: prefix = "{prefix_text(net >> 64 << 64, 64)}"'
    if not re.fullmatch("[1-9][0-9]{0,2}", length, re.ASCII) or int(length) > 128:
        return f"`{length}` isn't a length from 1 to 128", f'Write, for instance, prefix = "{prefix_text(net >> 64 << 64, 64)}"'
    kept = net >> 128 - int(length) << 128 - int(length)
    return f"a bit behind the first {length} is set", f'Write prefix = "{prefix_text(kept, int(length))}"'
