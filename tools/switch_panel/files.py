"""The panel's own file beside the plan: who may be plugged in where, and who may give commands."""
import grp
import os
import pwd
import re
import tomllib
from dataclasses import dataclass

from reading.plan import LONGEST, Plan, read_plan
from tool_parts.explaining import explain
from tool_parts.names import port_names

# The longest path of a Unix socket (unix(7): sun_path has 108 octets, of which one ends it).
LONGEST_PATH = 107

WORDS = {str: "a text in quotation marks", int: "a whole number", bool: "true or false", dict: "a table", list: "[[port]]"}
RIGHTS_KEYS = {"owner": str, "group": str, "mode": str}
TOP_KEYS = {"qemu": str, "qemu_user": str, "sandbox": bool, "ask_s": int, "answer_s": int, "control": dict, "port": list}
CONTROL_KEYS = {"socket": str, **RIGHTS_KEYS}
PORT_KEYS = {"number": int, "name": str, "socket": str, "tap": str, "macvtap": str, "unused": bool, "direct": bool,
             **RIGHTS_KEYS}

# What a port may be plugged into: a socket for guests; an interface; nothing; a peer of its own, which the panel leaves
# alone.
KINDS = ("socket", "tap", "macvtap", "unused", "direct")
INTERFACES = ("tap", "macvtap")


class Fault(Exception):
    """Why there is no panel, in words that name the file or the argument."""


@dataclass
class Rights:
    """Whose a socket is; None leaves it as it comes, the panel's own."""

    owner: int | None = None
    group: int | None = None
    mode: int = 0o600


@dataclass
class Plug:
    """What a port of the plan is plugged into. `paths` are the switch's sockets, of input and output, and `place` is a path
    or an interface."""

    number: int
    name: str
    role: str
    paths: tuple
    kind: str
    place: str
    rights: Rights


@dataclass
class Panel:
    """Both files. `control` is the switch's control, input and output, or None, and `operators` the panel's socket for
    it."""

    plan: Plan
    plan_name: str
    plugs: list
    control: tuple | None
    operators: str | None
    operators_rights: Rights
    qemu: str
    qemu_user: int | None
    qemu_group: int | None
    sandbox: bool
    ask_s: int
    answer_s: int


class Text:
    """A TOML text, and where in it a key stands."""

    def __init__(self, name):
        self.name = name
        try:
            with open(name, "rb") as file:
                octets = file.read()
            self.text = octets.decode("utf-8-sig")
            self.document = tomllib.loads(self.text)
        except OSError as error:
            raise Fault(f"{name}: cannot be read: {error.strerror}") from None
        except UnicodeDecodeError as error:
            raise Fault(f"{name}: octet {error.start} is no UTF-8") from None
        except tomllib.TOMLDecodeError as error:
            raise Fault(f"{name}: no TOML: {error}") from None

    def line(self, key=None, header=None, at=0):
        """The line of a key, or of the at-th header like [[port]], from 1; None where it isn't found."""
        heads, inside = -1, header is None
        for number, line in enumerate(self.text.splitlines(), 1):
            if re.match(r"\s*\[", line):
                is_header = header is not None and re.match(rf"\s*\[\[?\s*{header}\s*\]", line)
                heads += bool(is_header)
                inside = bool(is_header) and heads == at
                if inside and key is None:
                    return number
            elif inside and key is not None and re.match(rf"\s*[\"']?{re.escape(key)}[\"']?\s*=", line):
                return number
        return None

    def fault(self, what, key=None, header=None, at=0):
        line = self.line(key, header, at) or self.line(None, header, at)
        return Fault(f"{self.name}{f', line {line}' if line else ''}: {what}")


def check_keys(text, table, keys, header=None, at=0):
    where = f" of [[port]] {at + 1}" if header == "port" else f" of [{header}]" if header else ""
    for key, value in table.items():
        if key not in keys:
            raise text.fault(f"the key '{key}'{where} isn't known; there are {', '.join(keys)}", key, header, at)
        if type(value) is not keys[key]:
            raise text.fault(f"'{key}'{where} must be {WORDS[keys[key]]}", key, header, at)


def read_id(text, table, key, find, header, at):
    """The number of a user or a group that a key names, or None."""
    if key not in table:
        return None
    name = table[key]
    try:
        return int(name) if name.isascii() and name.isdigit() else find(name)
    except KeyError:
        kind = "group" if key == "group" else "user"
        raise text.fault(f"'{key}': this machine has no {kind} '{name}'", key, header, at) from None


def read_rights(text, table, header, at=0):
    owner = read_id(text, table, "owner", lambda name: pwd.getpwnam(name).pw_uid, header, at)
    group = read_id(text, table, "group", lambda name: grp.getgrnam(name).gr_gid, header, at)
    mode = table.get("mode", "0600")
    if not re.fullmatch("0?[0-7]{3}", mode):
        raise text.fault(f"'mode' must be three octal digits as in \"0660\", not '{mode}'", "mode", header, at)
    return Rights(owner, group, int(mode, 8))


def check_path(text, path, header, at=0):
    if not path or len(os.fsencode(path)) > LONGEST_PATH:
        raise text.fault(f"the path '{path}' must have 1 to {LONGEST_PATH} octets", "socket", header, at)
    return path


def read_port(text, table, at, plan, names, folder):
    check_keys(text, table, PORT_KEYS, "port", at)
    if "number" not in table:
        raise text.fault(f"[[port]] {at + 1} has no 'number'", None, "port", at)
    number = table["number"]
    port = next((port for port in plan.ports if port.number == number), None)
    if port is None:
        raise text.fault(f"the plan has no port {number}", "number", "port", at)
    if port.format != "stream":
        raise text.fault(f"port {number} of the plan is no stream: it is a capture", "number", "port", at)
    kind, place = read_kind(text, table, at)
    if kind != "direct" and port.input != port.output:
        what = f"port {number} of the plan has two paths: give it one for 'input' and 'output'"
        raise text.fault(what, "number", "port", at)
    paths = tuple(os.path.join(folder, name) for name in (port.input, port.output))
    name = table.get("name") or names.get(number, "")
    return Plug(number, name, port.role, paths, kind, place, read_rights(text, table, "port", at))


def read_kind(text, table, at):
    """What a port is plugged into, and its path or interface."""
    number, kinds = table["number"], [kind for kind in KINDS if kind in table]
    if len(kinds) != 1 or table[kinds[0]] is False:
        raise text.fault(f"port {number} needs one of socket = \"..\", tap = \"..\", macvtap = \"..\", unused = true and "
                         "direct = true", "number", "port", at)
    kind = kinds[0]
    if kind != "socket" and (more := [key for key in RIGHTS_KEYS if key in table]):
        raise text.fault(f"'{more[0]}' is for a socket, and port {number} has none", more[0], "port", at)
    if kind == "socket":
        return kind, check_path(text, table["socket"], "port", at)
    return kind, table[kind] if kind in INTERFACES else ""


def read_plugs(text, plan, names, folder):
    tables = text.document.get("port", [])
    if not all(isinstance(table, dict) for table in tables):
        raise text.fault("'port' must be written as [[port]]", "port")
    plugs = [read_port(text, table, at, plan, names, folder) for at, table in enumerate(tables)]
    numbers, places = [plug.number for plug in plugs], [(plug.kind, plug.place) for plug in plugs if plug.place]
    for at, plug in enumerate(plugs):
        if plug.number in numbers[:at]:
            raise text.fault(f"port {plug.number} stands here twice", "number", "port", at)
        if plug.place and places.count((plug.kind, plug.place)) > 1:
            raise text.fault(f"two ports have one {plug.kind}, '{plug.place}'", plug.kind, "port", at)
    if lacking := [str(port.number) for port in plan.ports if port.format == "stream" and port.number not in numbers]:
        raise text.fault(f"port {', '.join(lacking)} of the plan has no [[port]] here")
    return sorted(plugs, key=lambda plug: plug.number)


def read_operators(text, plan, plugs):
    """The socket for operators and its rights, or None."""
    table = text.document.get("control")
    if table is None:
        return None, Rights()
    check_keys(text, table, CONTROL_KEYS, "control")
    if plan.control is None:
        raise text.fault("the plan has no 'control', so there is nothing to give commands to", None, "control")
    if "socket" not in table:
        raise text.fault("[control] has no 'socket'", None, "control")
    if any(plug.kind == "socket" and plug.place == table["socket"] for plug in plugs):
        raise text.fault(f"a port and [control] have one socket, '{table['socket']}'", "socket", "control")
    return check_path(text, table["socket"], "control"), read_rights(text, table, "control")


def read_seconds(text, key, least, usual):
    seconds = text.document.get(key, usual)
    if not least <= seconds <= 86400:
        raise text.fault(f"'{key}' must be {least} to 86400", key)
    return seconds


def read_plan_file(name):
    """The plan, and the names that its comments give its ports."""
    try:
        with open(name, "rb") as file:
            octets = file.read(LONGEST + 1)
    except OSError as error:
        raise Fault(f"{name}: cannot be read: {error.strerror}") from None
    found, document = explain(octets, False)
    if found:
        first = found[0]
        what = f"{first.key}: {first.what}" if first.key and first.number else first.what
        raise Fault(f"{name}, line {first.place[0]}: {first.kind}: {what}. savi-plan says what to write instead")
    return read_plan(octets, streams=True), port_names(octets.decode("utf-8-sig"), document)


def read_files(plan_name, panel_name, folder):
    """Both files. Names of sockets in the plan are relative to a folder."""
    plan, names = read_plan_file(plan_name)
    text = Text(panel_name)
    check_keys(text, text.document, TOP_KEYS)
    plugs = read_plugs(text, plan, names, folder)
    operators, rights = read_operators(text, plan, plugs)
    ask_s, answer_s = read_seconds(text, "ask_s", 0, 10), read_seconds(text, "answer_s", 1, 30)
    user = read_id(text, text.document, "qemu_user", lambda name: pwd.getpwnam(name).pw_uid, None, 0)
    try:
        group = None if user is None else pwd.getpwuid(user).pw_gid
    except KeyError:
        raise text.fault(f"'qemu_user': this machine has no user {user}", "qemu_user") from None
    control = plan.control and tuple(os.path.join(folder, name) for name in plan.control)
    return Panel(plan, plan_name, plugs, control, operators, rights, text.document.get("qemu", "qemu-system-x86_64"), user,
                 group, text.document.get("sandbox", True), ask_s, answer_s)
