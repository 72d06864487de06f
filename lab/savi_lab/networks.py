"""What the stations' cables end in: a Linux bridge, an Open vSwitch, or a program with stream ports behind shims or a
panel."""
import json
import os
import shlex
import subprocess
import sys

from reading.plan import address_text

from . import namespaces
from .namespaces import PATIENCE, LabFault, Late, Namespace, call, wait_until
from .stations import LEASED_PREFIX, OWN_PREFIX, ROLES

HERE = os.path.dirname(os.path.dirname(os.path.abspath(__file__)))
RULES = os.path.join(HERE, "rules")
INTERFACES = [f"p{port}" for port in ROLES]

SWITCH_MAC = "02:00:00:00:00:01"

# How long a program may take to end once its inputs have ended, in s.
END = 20

# How long an address is tested, and the wait between both probes for it, in ms: longer than the switch's own values, so that
# a host answers in time on a busy machine too. Where it doesn't, its address goes to the port that claims it, as it must.
TEST, PROBE_GAP = 2000, 1000


def make_switch_space():
    """The namespace of the cables' other ends. Its own kernel speaks no IPv6, so that it sends nothing."""
    space = Namespace("switch")
    for name in ("all", "default"):
        space.set(f"{name}/disable_ipv6", 1)
    return space


class Network:
    """`journal` is the name of the file into which verdicts are written, or None. A peer is tried for its own sake: what it
    lets through, or stops, is no fault of the lab. `is_plain` says whether it forwards all frames, so that honest traffic can
    fail there only for the machine's sake. `joins_hosts` says whether hosts may speak to each other, and `goes_away` whether
    host 1's cable can be taken out and put in again."""

    journal, is_peer, is_plain, joins_hosts, goes_away = None, False, False, True, False

    def __init__(self, title, space, folder):
        self.title, self.space, self.folder, self.started = title, space, folder, []

    def up(self):
        for interface in INTERFACES:
            self.space.stop_offloads(interface)
            self.space.ip("link", "set", interface, "up")

    def start(self, *words, log):
        with open(os.path.join(self.folder, log), "w", encoding="utf-8") as opened:
            process = self.space.start(*words, stdout=opened, stderr=opened)
        self.started.append(process)
        return process

    def has_log(self, name):
        return os.path.exists(os.path.join(self.folder, name))

    def log(self, name):
        """What a program said."""
        with open(os.path.join(self.folder, name), encoding="utf-8", errors="replace") as opened:
            return opened.read().strip()

    def close(self):
        """Ends what was started, the last first. Answers what there is to say."""
        for process in reversed(self.started):
            namespaces.end(process)
        return []

    def check(self):
        """What is said of the journal, or None."""
        return None


class Bridge(Network):
    """A plain Linux bridge, with a set of rules of nftables where one is named."""

    def __init__(self, title, space, folder, rules=None):
        super().__init__(title, space, folder)
        self.rules, self.is_peer = rules, self.is_peer or rules is not None
        self.is_plain = not self.is_peer

    def up(self):
        self.space.ip("link", "add", "br0", "type", "bridge")
        self.space.ip("link", "set", "br0", "up")
        super().up()
        for interface in INTERFACES:
            self.space.ip("link", "set", interface, "master", "br0")
        if self.rules:
            call("ip", "netns", "exec", self.space.name, "nft", "-f", os.path.join(RULES, self.rules))


def filter_vlans(space, bridge, ports):
    """Lets a bridge keep VLANs apart: a port has the number of one, whose frames have no tag there, or those of several."""
    space.ip("link", "set", bridge, "type", "bridge", "vlan_filtering", "1", "vlan_default_pvid", "0")
    for port, vlans in ports.items():
        untagged = [] if isinstance(vlans, tuple) else ["pvid", "untagged"]
        for vlan in vlans if isinstance(vlans, tuple) else (vlans,):
            call("bridge", "-n", space.name, "vlan", "add", "dev", port, "vid", str(vlan), *untagged)


class IsolatedBridge(Bridge):
    """A bridge whose ports of hosts are isolated: what comes in at one goes to the router and to the server alone."""

    is_peer, joins_hosts = True, False

    def up(self):
        super().up()
        for port, role in ROLES.items():
            if role == "host":
                self.space.ip("link", "set", f"p{port}", "type", "bridge_slave", "isolated", "on")


class OpenVSwitch(Network):
    """Open vSwitch with its datapath in user space, and a set of flows."""

    is_peer = True

    def __init__(self, title, space, folder, flows=None, fragments=None):
        super().__init__(title, space, folder)
        self.flows, self.fragments = flows, fragments
        self.database = f"unix:{folder}/ovs.sock"

    def control(self, *words):
        call("ip", "netns", "exec", self.space.name, "env", f"OVS_RUNDIR={self.folder}", *words)

    def up(self):
        super().up()
        file = os.path.join(self.folder, "ovs.db")
        call("ovsdb-tool", "create", file, "/usr/share/openvswitch/vswitch.ovsschema")
        common = ["--no-chdir", f"--unixctl={self.folder}/%s.ctl"]
        env = ["env", f"OVS_RUNDIR={self.folder}"]
        self.start(*env, "ovsdb-server", file, f"--remote=p{self.database}", common[0], common[1] % "db", log="ovsdb.log")
        if not wait_until(lambda: os.path.exists(f"{self.folder}/ovs.sock"), PATIENCE):
            raise Late(f"ovsdb-server doesn't listen within {PATIENCE} s: {self.log('ovsdb.log')}")
        self.control("ovs-vsctl", f"--db={self.database}", "--no-wait", "init")
        self.start(*env, "ovs-vswitchd", self.database, common[0], common[1] % "switch", log="vswitchd.log")
        bridge = ["--", "add-br", "br0", "--", "set", "bridge", "br0", "datapath_type=netdev"]
        for interface in INTERFACES:
            bridge += ["--", "add-port", "br0", interface, "--", "set", "interface", interface,
                       f"ofport_request={interface[1:]}"]
        self.control("ovs-vsctl", f"--db={self.database}", "--timeout=20", *bridge[1:])
        if self.fragments:
            self.control("ovs-ofctl", "set-frags", "br0", self.fragments)
        if self.flows:
            self.control("ovs-ofctl", "add-flows", "br0", os.path.join(RULES, self.flows))


class Streams(Network):
    """A program with a stream port for each cable, and a shim between."""

    def __init__(self, title, space, folder):
        super().__init__(title, space, folder)
        self.shims = []

    def path(self, port):
        return os.path.join(self.folder, f"{port}.sock")

    def command(self):
        """The program's words."""
        raise NotImplementedError

    def up(self):
        super().up()
        program = self.start(*self.command(), log="program.log")
        self.wait_for([program], lambda: all(self.space.listens(self.path(port)) for port in ROLES), "doesn't listen")
        for port in ROLES:
            shim = [sys.executable, os.path.join(HERE, "shim"), f"p{port}", self.path(port)]
            self.shims.append(self.start(*shim, log=f"shim{port}.log"))
        # A path is removed once its peer has come.
        self.wait_for(self.started, lambda: not any(os.path.exists(self.path(port)) for port in ROLES), "isn't joined")

    def wait_for(self, needed, holds, lacks):
        """Waits until something holds, for which these processes are needed."""
        def ended():
            return any(process.poll() is not None for process in needed)

        there = wait_until(lambda: ended() or holds(), PATIENCE)
        if ended():
            said = self.said()
            raise LabFault(f"it ended before its time: {' '.join(filter(None, said)) or 'no word of it'}")
        if not there:
            raise Late(f"it {lacks} within {PATIENCE} s")

    def said(self):
        """What its processes said."""
        return [self.log(name) for name in ("program.log", *(f"shim{port}.log" for port in ROLES)) if self.has_log(name)]

    def close(self):
        """Lets the shims leave; the program, whose inputs end by that, must end of itself, and then the shims do."""
        for shim in self.shims:
            shim.terminate()
        program, told = self.started[0], []
        try:
            if program.wait(END) != 0:
                told.append(f"it ended with status {program.returncode}: {self.log('program.log')}")
        except subprocess.TimeoutExpired:
            told.append(f"it didn't end within {END} s after its inputs had ended: {self.log('program.log')}")
        if self.journal and not os.path.exists(self.journal):
            told.append("it wrote no journal")
            self.journal = None
        super().close()
        return told + [text for port in ROLES if (text := self.log(f"shim{port}.log"))]


class Relay(Streams):
    """The hub of bench/relay.c."""

    def command(self):
        program = os.path.join(self.folder, "relay")
        call("cc", "-O2", "-o", program, os.path.join(os.path.dirname(HERE), "bench", "relay.c"))
        return [program, *map(self.path, ROLES)]


class Switch(Streams):
    """A switch, by the words of its command, to which the name of the configuration is added."""

    def __init__(self, title, space, folder, command, checker):
        super().__init__(title, space, folder)
        self.words, self.checker = shlex.split(command), checker
        self.journal = os.path.join(folder, "journal.txt")

    def command(self):
        name = os.path.join(self.folder, "plan.toml")
        with open(name, "w", encoding="ascii") as plan:
            plan.write(self.plan())
        return [*self.words, name]

    def plan(self, *more):
        lines = [f'mac = "{SWITCH_MAC}"', f'journal = "{self.journal}"', f"test_ms = {TEST}", f"probe_gap_ms = {PROBE_GAP}"]
        lines += more
        for port, role in ROLES.items():
            lines += ["[[port]]", f"number = {port}", f'role = "{role}"', 'format = "stream"']
            lines += [f'input = "{self.path(port)}"', f'output = "{self.path(port)}"', *self.vlans(port)]
        for prefix, method, *more in self.prefixes():
            lines += ["[[prefix]]", f'prefix = "{address_text(prefix)}/64"', f'method = "{method}"', *more]
        return "".join(f"{line}\n" for line in lines)

    def vlans(self, _):
        """The lines of a port that name its VLANs."""
        return []

    def prefixes(self):
        """The prefixes of the link, with their methods."""
        return (OWN_PREFIX, "fcfs"), (LEASED_PREFIX, "dhcp")

    def check(self):
        if not self.checker or not self.journal:
            return None
        done = subprocess.run([*shlex.split(self.checker), self.journal], capture_output=True, text=True)
        return (done.stdout + done.stderr).strip()


# What the panel plugs the hosts' ports into: sockets, to which their cables are joined by shims.
GUESTS = [port for port, role in ROLES.items() if role == "host"]


class Panel(Switch):
    """The same switch behind a panel (tools/panel), which the lab starts for a switch that runs. Hosts come to the panel's
    sockets; the router's cable is joined to a tap by a small bridge, and the server's has a macvtap where it can be made."""

    goes_away = True

    def __init__(self, title, space, folder, command, checker):
        super().__init__(title, space, folder, command, checker)
        self.inner = os.path.join(folder, "switch")
        self.operators = os.path.join(folder, "operators.sock")

    def path(self, port):
        return os.path.join(self.inner, f"{port}.sock")

    def guest_path(self, port):
        return os.path.join(self.folder, f"guest{port}.sock")

    def plan(self):
        path = os.path.join(self.inner, "control.sock")
        return super().plan(f'control = "{path}"', f'control_out = "{path}"')

    def make_interfaces(self):
        """Answers what the panel's file says of the router's and the server's ports."""
        ip = self.space.ip
        for port in (port for port in ROLES if port not in GUESTS):
            try:
                if ROLES[port] == "trusted":
                    raise LabFault("the router's is a tap")
                ip("link", "add", "link", f"p{port}", "name", f"mv{port}", "type", "macvtap", "mode", "passthru")
                ip("link", "set", f"mv{port}", "up", "promisc", "on")
                if not wait_until(lambda: os.path.exists(f"/dev/tap{self.index(port)}"), 2):
                    ip("link", "del", f"mv{port}")
                    raise LabFault("there is no device of a macvtap here")
                yield port, f'macvtap = "mv{port}"'
            except LabFault:
                ip("tuntap", "add", "dev", f"tap{port}", "mode", "tap")
                ip("link", "add", f"br{port}", "type", "bridge", "mcast_snooping", "0")
                for name in (f"p{port}", f"tap{port}"):
                    ip("link", "set", name, "master", f"br{port}")
                for name in (f"br{port}", f"tap{port}"):
                    ip("link", "set", name, "up")
                yield port, f'tap = "tap{port}"'

    def index(self, port):
        return json.loads(self.space.ip("-j", "link", "show", f"mv{port}"))[0]["ifindex"]

    def panel_file(self):
        lines = ["[control]", f'socket = "{self.operators}"']
        plugs = {port: f'socket = "{self.guest_path(port)}"' for port in GUESTS} | dict(self.make_interfaces())
        for port, plug in sorted(plugs.items()):
            lines += ["[[port]]", f"number = {port}", f'name = "p{port}"', plug]
        return "".join(f"{line}\n" for line in lines)

    def up(self):
        Network.up(self)
        os.mkdir(self.inner, mode=0o700)
        name = os.path.join(self.folder, "panel.toml")
        with open(name, "w", encoding="ascii") as file:
            file.write(self.panel_file())
        program = self.start(*self.command(), log="program.log")
        words = [os.path.join(os.path.dirname(HERE), "tools", "panel"), os.path.join(self.folder, "plan.toml"), name]
        words += ["--folder", self.inner, "--wait", str(PATIENCE)]
        panel = self.start(sys.executable, *words, log="panel.log")
        self.wait_for([program, panel], lambda: "ready:" in self.log("panel.log"), "has no panel")
        for port in GUESTS:
            self.join(port)
        self.wait_for(self.started, lambda: self.guests() == len(GUESTS), "isn't joined")

    def said(self):
        return [self.log(name) for name in ("program.log", "panel.log") if self.has_log(name)]

    def guests(self):
        return self.log("panel.log").count("a guest came")

    def join(self, port):
        shim = [sys.executable, os.path.join(HERE, "shim"), f"p{port}", self.guest_path(port)]
        self.shims.append(self.start(*shim, log=f"shim{port}.log"))

    def ask(self, *words):
        """An operator comes, asks, and leaves. Answers what is shown."""
        tool = os.path.join(os.path.dirname(HERE), "tools", "ctl")
        return json.loads(call(sys.executable, tool, "--socket", self.operators, "--json", *words) or "null")

    def go_away(self):
        """Host 1's guest is killed, and comes again; two operators come one behind the other."""
        bound = {row["address"] for row in self.ask("show", "bindings") if row["port"] == GUESTS[0]}
        gone = self.shims[0]
        gone.kill()
        gone.wait()
        self.started.remove(gone)
        self.shims.remove(gone)
        if not wait_until(lambda: "(p1): a guest went away" in self.log("panel.log"), PATIENCE):
            raise Late(f"the panel notices no guest that goes within {PATIENCE} s")
        before = self.guests()
        self.join(GUESTS[0])
        self.wait_for(self.started, lambda: self.guests() > before, "isn't joined again")
        after = {row["address"] for row in self.ask("show", "bindings") if row["port"] == GUESTS[0]}
        if not bound or not bound <= after:
            raise LabFault(f"host 1 had {sorted(bound)}, and behind its return has {sorted(after)}")

    def close(self):
        """Stops the panel, by which the switch ends in order."""
        program, panel, told = *self.started[:2], []
        panel.terminate()
        for process, name in ((panel, "panel"), (program, "program")):
            try:
                if process.wait(END) != 0:
                    told.append(f"the {name} ended with status {process.returncode}: {self.log(f'{name}.log')}")
            except subprocess.TimeoutExpired:
                told.append(f"the {name} didn't end within {END} s behind SIGTERM: {self.log(f'{name}.log')}")
        if not os.path.exists(self.journal):
            told.append("it wrote no journal")
            self.journal = None
        Network.close(self)
        return told
