"""What `savi-ctl` asks over the panel's socket, and what it reads in the replies (docs/COMMANDS.md)."""
import glob
import json
import os
import socket
import time

from .operators import LISTS

# Where the service has its sockets: one folder for each switch.
SOCKETS = "/run/savi_panel/{}/control.sock"

# How long a station is known after its last frame (docs/REPLAYS.md, Where a frame goes), in ms.
STATION_MS = 300_000

DEFAULT_VLAN = 1

BINDING, PORT, STATION = (("address", "port", "state", "claimant", "until"),
                          ("port", "role", "service", "held", "pending", "queued"), ("mac", "port", "until"))


class Fault(Exception):
    """Why there is no answer, in words."""


class Refused(Fault):
    """The switch answered a command with an error."""


def find_socket(given, switch):
    """The path of the panel's socket: the one that is named, that of a switch's name, or the only one of this machine."""
    if given:
        return given
    if switch:
        return SOCKETS.format(switch)
    if path := os.environ.get("SAVI_CONTROL"):
        return path
    found = sorted(glob.glob(SOCKETS.format("*")))
    if len(found) == 1:
        return found[0]
    names = ", ".join(path.split("/")[3] for path in found)
    raise Fault(f"several switches are here ({names}): name one by --switch" if found else
                f"no panel's socket is at {SOCKETS.format('*')}: name one by --socket")


class Client:
    """A connection to the panel. `panel` is what it tells of itself."""

    def __init__(self, path, seconds):
        if os.path.exists(f"{path}.lock"):
            raise Fault(f"{path} is the switch's own control, which takes one peer in a run: name the panel's socket")
        self.path, self.end = path, socket.socket(socket.AF_UNIX, socket.SOCK_STREAM)
        self.end.settimeout(seconds)
        try:
            self.end.connect(path)
        except OSError as error:
            raise Fault(f"{path}: cannot connect: {error.strerror or error}") from None
        self.lines = self.end.makefile("rb")
        try:
            self.panel = json.loads(self.ask("panel")[0])
        except ValueError:
            raise Fault(f"{path}: no panel answers there") from None
        self.names = {port["number"]: port["name"] for port in self.panel["ports"]}
        self.now = 0

    def line(self):
        try:
            line = self.lines.readline()
        except OSError as error:
            raise Fault(f"{self.path}: no answer: {error}") from None
        if not line.endswith(b"\n"):
            raise Fault(f"{self.path}: the panel ended")
        return line.decode("ascii", "replace").rstrip("\n")

    def ask(self, command):
        """The lines of the reply, with their `end`."""
        try:
            self.end.sendall(f"{command}\n".encode())
        except OSError as error:
            raise Fault(f"{self.path}: the panel ended: {error.strerror}") from None
        lines = [self.line()]
        if lines[0].startswith("error: "):
            raise Refused(lines[0])
        while command.encode() in LISTS and lines[-1] != "end":
            lines.append(self.line())
        self.now = time.time_ns() // 1_000_000
        return lines

    def rows(self, what):
        """The rows of a list, each by the names of its words."""
        lines = [line.split() for line in self.ask(f"show {what}")[:-1]]
        return {"bindings": self.bindings, "ports": self.ports, "stations": self.stations, "counters": counters}[what](lines)

    def left(self, until):
        return None if until == "-" else max(0, int(until) - self.now)

    def bindings(self, lines):
        rows = []
        for words in lines:
            row = dict(zip(BINDING, words))
            left, life = self.left(row["until"]), self.panel["binding_ms"]
            row |= {"vlan": vlan_of(row["address"]), "port": int(row["port"]),
                    "name": self.names.get(int(row["port"]), ""), "left_ms": left,
                    "claimant": None if row["claimant"] == "-" else int(row["claimant"]),
                    "until": None if left is None else int(row["until"]),
                    "heard_ms": max(0, life - left) if row["state"] == "valid" and left is not None else None}
            rows.append(row)
        return rows

    def ports(self, lines):
        about, rows = {port["number"]: port for port in self.panel["ports"]}, []
        for words in lines:
            row = dict(zip(PORT, words))
            row |= {key: int(row[key]) for key in ("port", "held", "pending", "queued")}
            told = about.get(row["port"], {})
            row |= {"name": told.get("name", ""), "plugged": told.get("kind", "-"), "place": told.get("place", ""),
                    "peer": told.get("state", "unknown"), "per_port": self.panel["per_port"], "depth": self.panel["depth"]}
            rows.append(row)
        return rows

    def stations(self, lines):
        rows = []
        for mac, port, until in lines:
            left = self.left(until)
            rows.append({"mac": mac, "vlan": vlan_of(mac), "port": int(port), "name": self.names.get(int(port), ""),
                         "until": int(until), "left_ms": left, "heard_ms": max(0, STATION_MS - left)})
        return rows

    def port_number(self, text):
        """A port's number from its number or its name."""
        if text.isascii() and text.isdigit():
            return int(text)
        numbers = [number for number, name in self.names.items() if name == text]
        if len(numbers) != 1:
            names = ", ".join(f"'{name}'" for name in self.names.values() if name) or "none"
            raise Fault(f"'{text}' is neither a number nor the name of one port; the names are {names}")
        return numbers[0]


def vlan_of(key):
    """The VLAN of an address or a MAC address: the one behind `@`, and else the default one."""
    return int(key.partition("@")[2] or DEFAULT_VLAN)


def counters(lines):
    return [{"counter": name, "count": int(count)} for name, count in lines]
