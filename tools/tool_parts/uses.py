"""What is no fault of a plan and what an operator doesn't want all the same: files that are named twice, captures that
aren't ones, folders that aren't there, sources that are validated by nothing. It looks at files and changes none."""
import os
import stat
from dataclasses import dataclass

from reading.plan import DEFAULT_VLAN, vlans_of
from reading.toml_text import Items

from .explaining import Finding, shown
from .kept import is_unkept_pipe

# The longest path of a socket, in octets (sun_path of unix(7), and its end).
PATH_MOST = 107

# The first octets of a classic capture, with the byte order of its other numbers.
CAPTURES = {b"\xd4\xc3\xb2\xa1": "little", b"\xa1\xb2\xc3\xd4": "big", b"\x4d\x3c\xb2\xa1": "little", b"\xa1\xb2\x3c\x4d": "big"}
HEADER, ETHERNET = 24, 1

PCAPNG = b"\x0a\x0d\x0d\x0a"
PACKED = {b"\x1f\x8b": ("gzip", "gunzip"), b"\x28\xb5\x2f\xfd": ("zstd", "unzstd"), b"\xfd7zXZ\x00": ("xz", "unxz"),
          b"BZh": ("bzip2", "bunzip2"), b"\x04\x22\x4d\x18": ("lz4", "unlz4")}
OTHERS = {b"\xa1\xb2\xcd\x34": "a capture of Kuznetzov's form", b"\x34\xcd\xb2\xa1": "a capture of Kuznetzov's form",
          b"snoop\x00": "a capture of snoop"}
# https://www.tcpdump.org/linktypes.html
LINKS = {0: "loopback of BSD", 12: "IP without Ethernet", 14: "IP without Ethernet", 101: "IP without Ethernet", 105: "Wi-Fi",
         108: "loopback of OpenBSD", 113: "Linux cooked, as of `-i any`", 127: "Wi-Fi with radiotap", 228: "IPv4 without Ethernet",
         229: "IPv6 without Ethernet", 276: "Linux cooked, as of `-i any`"}


@dataclass
class Use:
    """A name of a plan: the place of its value, whose it is in words, its key, and whether it is written, and a socket."""

    place: tuple
    owner: str
    key: str
    name: str
    is_written: bool
    is_socket: bool

    def warning(self, what, instead):
        return Finding(None, self.place, self.key, shown(self.name), what, instead)


def uses_of(document, is_live):
    """The names of a document without fault, in the order in which the program opens them."""
    found = []
    for port in sorted(document["port"], key=lambda port: port["number"]):
        is_socket, owner = port.get("format") == "stream", f"port {port['number']}"
        for key in ("input", "output"):
            found.append(Use(port.values_at[key], f"{owner}'s {key}", key, port[key], key == "output", is_socket))
    for key, words in (("control", "the commands"), ("control_out", "the replies")):
        if key in document:
            found.append(Use(document.values_at[key], words, key, document[key], key == "control_out", is_live))
    found.append(Use(document.values_at["journal"], "the journal", "journal", document["journal"], True, False))
    return found


def warnings(document, is_live, folder, plan_name=None):
    """The warnings of a document without fault by their places. Names are relative to `folder`; without one no file is
    looked at."""
    found = list(plan_warnings(document))
    uses = uses_of(document, is_live)
    found += twice_named(uses, folder or "", plan_name)
    for use in uses:
        if use.is_socket and len(os.fsencode(use.name)) > PATH_MOST:
            found.append(use.warning(f"a path of {len(os.fsencode(use.name))} octets, and that of a socket has {PATH_MOST} at most",
                                     "Start the switch in the folder of its sockets, and write the name alone."))
        elif folder is not None:
            found += use_warnings(use, folder)
    return sorted(found, key=lambda finding: finding.place)


# The plan itself.


def plan_warnings(document):
    vlans = sorted(vlans_of(document["port"]))
    for vlan in vlans:
        yield from vlan_warnings(document, vlan, f"VLAN {vlan}: " if vlans != [DEFAULT_VLAN] else "")
    for prefix in document.get("prefix", []):
        vlan = prefix.get("vlan", DEFAULT_VLAN)
        if vlan not in vlans:
            place = prefix.values_at.get("vlan", prefix.values_at["prefix"])
            yield Finding(None, place, "vlan", str(vlan), f"no port is in VLAN {vlan}, so the prefix has no effect",
                          f"Write one of {', '.join(map(str, vlans))}: each VLAN has prefixes of its own.")


def vlan_warnings(document, vlan, name):
    """What is said of the ports and prefixes of a VLAN, whose name stands in front where there are several."""
    ports = [port for port in document["port"] if vlan in vlans_of([port])]
    roles = {port["role"] for port in ports}
    is_on = document.get("savi", "on") == "on"
    methods = {prefix["method"] for prefix in document.get("prefix", []) if prefix.get("vlan", DEFAULT_VLAN) == vlan}
    place = document.values_at.get("savi", (1, 1))
    value = shown(document["savi"]) if "savi" in document else ""
    if is_on and not methods and roles != {"trusted"}:
        yield Finding(None, place, "savi", value, f"{name}sources are validated, and there is no prefix: hosts and servers "
                      "can send from link-local addresses alone",
                      'Add a [[prefix]] for each prefix of the link, or write savi = "off"')
    ports_at = document["port"].places[0] if isinstance(document["port"], Items) else document.values_at["port"]
    if "trusted" not in roles:
        yield Finding(None, ports_at, "role", "", f"{name}no port is trusted: no router can advertise, and what goes to "
                      "trusted ports alone goes nowhere",
                      'Write role = "trusted" for the port of the router or of the next switch.')
    if is_on and methods & {"dhcp", "mixed"} and not roles & {"server", "trusted"}:
        yield Finding(None, ports_at, "role", "", f"{name}a prefix has leases, and no port has a server",
                      'Write role = "server" for the port of the DHCPv6 server, or of its relay.')


# Files.


def twice_named(uses, folder, plan_name):
    """Files that are named twice: one that is written, or an input. Devices may be shared, and one peer both ways."""
    met = {}
    if plan_name is not None:
        met[identity(plan_name, "")] = Use((1, 1), "this configuration", "", plan_name, False, False)
    for use in uses:
        file = identity(use.name, folder)
        other = met.get(file)
        if file is None:
            continue
        if other is None:
            met[file] = use
        elif use.is_socket and other.is_socket:
            if use.owner.split("'")[0] != other.owner.split("'")[0] and {use.key, other.key} != {"control", "control_out"}:
                yield use.warning(f"the path of {other.owner} in line {other.place[0]} too, and a path takes one peer: the start "
                                  "is refused", "Give each port a path of its own.")
        elif use.is_written or other.is_written:
            yield use.warning(f"the file of {other.owner}{line_of(other)} too: the run would be refused, status 7",
                              "Give each file a name of its own.")
        else:
            yield use.warning(f"the file of {other.owner}{line_of(other)} too: what it says would be taken twice",
                              "Give each port a capture of its own.")


def line_of(use):
    return f" in line {use.place[0]}" if use.key else ""


def identity(name, folder):
    """What two names of one file have in common; None for devices and pipes, which may be shared."""
    path = os.path.join(folder, name)
    try:
        found = os.stat(path)
    except (OSError, ValueError):
        return os.path.realpath(path)
    is_shared = stat.S_ISCHR(found.st_mode) or stat.S_ISBLK(found.st_mode) or stat.S_ISFIFO(found.st_mode)
    return None if is_shared else (found.st_dev, found.st_ino)


def use_warnings(use, folder):
    path = os.path.normpath(os.path.join(folder, use.name))
    parent = os.path.dirname(path) or "."
    if not use.name or "\0" in use.name:
        return [use.warning("no name of a file", "Write the name of a file.")]
    if not os.path.isdir(parent):
        return [use.warning(f"the folder {parent} isn't there",
                            f"Make it: mkdir -p {parent}, or write another name. Names are relative to the folder in which the "
                            "program is started.")]
    if os.path.isdir(path):
        return [use.warning("a folder", "Write the name of a file.")]
    if use.is_socket:
        return socket_warnings(use, path, parent)
    if use.key == "journal" and is_unkept_pipe(path):
        return [use.warning("a pipe that savi-journal-keep doesn't read: the program waits until somebody reads it",
                            f"Start its reader first: savi-journal-keep keep {use.name} FOLDER")]
    if use.is_written:
        can = os.access(path if os.path.exists(path) else parent, os.W_OK)
        return [] if can else [use.warning("you may not write there", "Write a name in a folder of yours.")]
    return input_warnings(use, path)


def socket_warnings(use, path, parent):
    if os.path.exists(path) and not stat.S_ISSOCK(os.stat(path).st_mode):
        return [use.warning("another file is there, and the switch makes a socket at its path: the start is refused",
                            'Write another path, or format = "pcap" for a capture.')]
    if not os.access(parent, os.W_OK):
        return [use.warning("you may not make a socket there", "Write a path in a folder of yours.")]
    return []


def input_warnings(use, path):
    if not os.path.exists(path):
        return [use.warning("this file isn't there", "Record it first, or write another name. Names are relative to the folder in "
                            "which the program is started.")]
    if not os.path.isfile(path):
        return []
    try:
        with open(path, "rb") as file:
            head = file.read(HEADER)
    except OSError as error:
        return [use.warning(f"it can't be read: {error.strerror}", "Let the user of the program read it.")]
    words = capture_words(use.name, head) if use.key == "input" else None
    return [use.warning(*words)] if words else []


def capture_words(name, head):
    """What is wrong with a capture by its first octets, and what to do; None where a replay reads it."""
    first = head[:4]
    if not head:
        return "an empty file, which is no capture", "Record it again: tcpdump -U writes each frame as it comes."
    if first == PCAPNG:
        return ("a pcapng file, which a replay doesn't read", "Make a classic capture of each of its interfaces: savi_switch split "
                f"{name}, and name the one of this port, {name}.0.pcap for the first.")
    for magic, (form, unpack) in PACKED.items():
        if head.startswith(magic):
            return f"a file packed by {form}, which a replay doesn't read", f"Unpack it: {unpack} < {name} > {name}.unpacked"
    for magic, words in OTHERS.items():
        if head.startswith(magic):
            return f"{words}, which a replay doesn't read", f"Change it: editcap -F pcap {name} {name}.pcap"
    if first not in CAPTURES or len(head) < HEADER:
        return "no capture" if first not in CAPTURES else "a capture that is cut in its header", \
            "Write the name of a classic pcap file, as tcpdump -w makes it."
    order = CAPTURES[first]
    version = int.from_bytes(head[4:6], order), int.from_bytes(head[6:8], order)
    link = int.from_bytes(head[20:24], order)
    if version != (2, 4):
        return (f"a capture of version {version[0]}.{version[1]}, and a replay reads 2.4",
                f"Change it: editcap -F pcap {name} {name}.pcap")
    if link != ETHERNET:
        return (f"a capture of link type {link} ({LINKS[link]}), and a replay reads Ethernet, 1" if link in LINKS else
                f"a capture of link type {link}, and a replay reads Ethernet, 1",
                "Record at the interface that leads to the host, and not at `any`: tcpdump -i IFACE -Q in -w FILE.")
    return None
