"""Network namespaces, what runs in them, and how they are removed again.

Each process of the lab names its namespaces and its folder by PREFIX and its own process id, so that several labs may run at
once, and what a killed one left is known as such."""
import contextlib
import ctypes
import fcntl
import json
import os
import re
import shutil
import signal
import socket
import struct
import subprocess
import tempfile
import time

PREFIX = "savilab-"
FOLDER = "/run/netns"

# How long is waited for what comes at once on a machine that isn't busy, in s.
PATIENCE = 20

# The signals by which the lab is ended, and cleans up.
SIGNALS = (signal.SIGINT, signal.SIGTERM, signal.SIGHUP, signal.SIGQUIT)

# The flag __SO_ACCEPTCON of <linux/net.h>, as the kernel shows it.
LISTENING = "00010000"

CLONE_NEWNET = 0x40000000
PR_SET_PDEATHSIG = 1

# <linux/ethtool.h>: scatter-gather, checksums, segmentation and joined segments, each to be switched off by its number.
SIOCETHTOOL = 0x8946
OFFLOADS = (0x17, 0x19, 0x1F, 0x24, 0x2C)

libc = ctypes.CDLL(None, use_errno=True)


class LabFault(Exception):
    """Why the lab can't go on."""


class Late(LabFault):
    """What wasn't ready within its time. A busy machine is enough for that, so that nothing follows of what is tried."""


def call(*words, text=None):
    """Runs a command that must succeed, and answers what it prints."""
    try:
        done = subprocess.run(words, input=text, capture_output=True, text=True)
    except OSError as error:
        raise LabFault(f"{words[0]}: {error.strerror}") from None
    if done.returncode != 0:
        raise LabFault(f"{' '.join(words)}: {done.stderr.strip() or f'status {done.returncode}'}")
    return done.stdout


def die_with_parent(number=signal.SIGKILL):
    """A child gets this signal when its parent ends, however that ends."""
    libc.prctl(PR_SET_PDEATHSIG, number)


@contextlib.contextmanager
def undisturbed():
    """Within, the signals that end the lab wait: what is cleaned up is cleaned up to its end."""
    before = signal.pthread_sigmask(signal.SIG_BLOCK, SIGNALS)
    try:
        yield
    finally:
        signal.pthread_sigmask(signal.SIG_SETMASK, before)


def own_name(name):
    return f"{PREFIX}{os.getpid()}-{name}"


class Ground:
    """The namespaces of a trial, by their `names`. However it ends they are removed, and what runs there with them."""

    names = ()

    def __enter__(self):
        return self

    def __exit__(self, *_):
        with undisturbed():
            for name in self.names:
                remove(own_name(name))


class Namespace:
    def __init__(self, name):
        self.name = own_name(name)
        call("ip", "netns", "add", self.name)
        self.ip("link", "set", "lo", "up")

    def ip(self, *words):
        return call("ip", "-n", self.name, *words)

    def shown(self, *words):
        """What `ip` shows, as JSON."""
        return json.loads(self.ip("-6", "-j", *words) or "[]")

    @contextlib.contextmanager
    def entered(self):
        """What this thread opens within is of the namespace, and stays so."""
        with open("/proc/thread-self/ns/net", "rb") as own, open(f"{FOLDER}/{self.name}", "rb") as other:
            enter(other)
            try:
                yield
            finally:
                enter(own)

    def set(self, key, value):
        """A setting of the kernel's IPv6, for instance `eth0/accept_ra`."""
        with self.entered(), open(f"/proc/sys/net/ipv6/conf/{key}", "w", encoding="ascii") as setting:
            setting.write(str(value))

    def listens(self, path):
        """Whether a Unix socket listens at a path (proc(5), `/proc/net/unix`): the path alone is there before."""
        with self.entered(), open("/proc/thread-self/net/unix", encoding="utf-8", errors="replace") as sockets:
            shown = (line.split() for line in sockets)
            return any(words[3] == LISTENING and words[7:] == [path] for words in shown)

    def stop_offloads(self, interface):
        """As `ethtool -K INTERFACE tx off sg off tso off gso off gro off`."""
        with self.entered(), socket.socket(socket.AF_INET6, socket.SOCK_DGRAM) as any_socket:
            for number in OFFLOADS:
                off = ctypes.create_string_buffer(struct.pack("=II", number, 0))
                asked = struct.pack("16sP", interface.encode(), ctypes.addressof(off))
                with contextlib.suppress(OSError):
                    fcntl.ioctl(any_socket, SIOCETHTOOL, asked)

    def start(self, *words, **streams):
        """A command that runs on in the namespace."""
        return subprocess.Popen(["ip", "netns", "exec", self.name, *words], stdin=subprocess.DEVNULL,
                                preexec_fn=die_with_parent, **streams)


def enter(opened):
    if libc.setns(opened.fileno(), CLONE_NEWNET) != 0:
        raise LabFault(f"setns: {os.strerror(ctypes.get_errno())}")


def remove(name):
    """Ends what runs in a namespace of the lab, and removes it."""
    listed = subprocess.run(["ip", "netns", "pids", name], capture_output=True, text=True).stdout.split()
    for process in map(int, listed):
        with contextlib.suppress(ProcessLookupError):
            os.kill(process, signal.SIGKILL)
    subprocess.run(["ip", "netns", "del", name], capture_output=True)


def is_running(process):
    try:
        os.kill(process, 0)
    except ProcessLookupError:
        return False
    except PermissionError:
        pass
    return True


def left_in(folder):
    """What stands in a folder of labs that are no more."""
    for name in sorted(os.listdir(folder)) if os.path.isdir(folder) else []:
        found = re.fullmatch(rf"{PREFIX}([0-9]+)-\w+", name)
        if found and not is_running(int(found[1])):
            yield name


def clean():
    """Removes what labs left that are no more. Answers the names."""
    spaces, folders = list(left_in(FOLDER)), list(left_in(tempfile.gettempdir()))
    for name in spaces:
        remove(name)
    for name in folders:
        shutil.rmtree(os.path.join(tempfile.gettempdir(), name), ignore_errors=True)
    return spaces + folders


def make_folder(is_kept):
    return tempfile.mkdtemp(prefix="lab-" if is_kept else f"{PREFIX}{os.getpid()}-")


def why_not():
    """Why no lab can be made here, or None."""
    if not shutil.which("ip"):
        return "there is no `ip` (iproute2)"
    if os.geteuid() != 0:
        return "it isn't run as root"
    if not os.path.isdir("/proc/sys/net/ipv6"):
        return "this kernel has no IPv6"
    lacks = "network namespaces"
    try:
        one, other = Namespace("try1"), Namespace("try2")
        lacks = "veth pairs"
        one.ip("link", "add", "eth0", "type", "veth", "peer", "name", "p1", "netns", other.name)
        lacks = "bridges"
        one.ip("link", "add", "br0", "type", "bridge")
        lacks = "settings below /proc/sys/net that can be written"
        one.set("eth0/accept_ra", 1)
        lacks = "packet sockets (AF_PACKET)"
        with one.entered():
            socket.socket(socket.AF_PACKET, socket.SOCK_RAW, 0).close()
    except (LabFault, OSError) as fault:
        return f"there are no {lacks} here: {str(fault).splitlines()[0]}"
    finally:
        with undisturbed():
            for name in ("try1", "try2"):
                remove(own_name(name))
    return None


def panel_lacks():
    """Why no panel can be tried here, or None."""
    if not shutil.which("qemu-system-x86_64"):
        return "there is no `qemu-system-x86_64` (7.2 or later) for the panel"
    if not os.path.exists("/dev/net/tun"):
        return "there is no /dev/net/tun for the panel's tap"
    return None


def wait_until(holds, seconds, pause=0.02):
    """Whether something holds within so many seconds."""
    deadline = time.monotonic() + seconds
    while not (value := holds()):
        if time.monotonic() > deadline:
            return value
        time.sleep(pause)
    return value


def end(process, seconds=5):
    """Ends a child: asks it, and then makes it."""
    if process.poll() is None:
        process.terminate()
    try:
        process.wait(seconds)
    except subprocess.TimeoutExpired:
        process.kill()
        process.wait()
