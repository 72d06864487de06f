"""A port: the panel's connection to the switch, and a QEMU between it and guests or an interface.

QEMU joins two of its network ends by a hub. One is the connection to the switch, the other listens for guests, of which one
at a time is joined, or is an interface. It gets all of them by descriptor, so that it needs no file. Each port has a process
of its own, which has nothing of another port, and waits for no other port's guest: QEMU 7.2 writes to a guest that doesn't
read until it does, and does nothing else meanwhile."""
import asyncio
import contextlib
import ctypes
import fcntl
import json
import os
import signal
import socket
import struct
import subprocess
import termios
import time

from .files import Fault

# Without a machine, and with nothing but what is named.
BARE = ("-M", "none", "-nodefaults", "-display", "none", "-monitor", "none", "-serial", "none", "-qmp", "stdio")
SANDBOX = ("-sandbox", "on,obsolete=deny,elevateprivileges=deny,spawn=deny,resourcecontrol=deny")

# What QEMU says of each hub that has no guest's network card.
IDLE_WORDS = ("with no nics",)

# <linux/prctl.h>
PR_SET_PDEATHSIG, PR_SET_NO_NEW_PRIVS, PR_CAP_AMBIENT, PR_CAP_AMBIENT_CLEAR_ALL = 1, 38, 47, 4

# How long QEMU may take to begin, and to answer then, in s. One that waits for its guest doesn't.
BEGIN, ANSWER = 30, 3

# The most octets that are read at once of what the switch still sends.
PIECE = 1 << 16

# How many comings and goings of a port are told at once, and how long it takes until a further one may be, in s: a guest that
# comes and goes without end fills no log.
TOLD, PAUSE = 20, 1

libc = ctypes.CDLL(None, use_errno=True)


def alone():
    """A QEMU ends when the panel does, and has no privilege."""
    libc.prctl(PR_SET_PDEATHSIG, signal.SIGKILL, 0, 0, 0)
    libc.prctl(PR_CAP_AMBIENT, PR_CAP_AMBIENT_CLEAR_ALL, 0, 0, 0)
    libc.prctl(PR_SET_NO_NEW_PRIVS, 1, 0, 0, 0)


def words_of(panel, plug, switch_fd, guest_fd):
    """The command line of a port's QEMU."""
    guest = f"stream,id=guest,server=on,addr.type=fd,addr.str={guest_fd}"
    if plug.kind != "socket":
        guest = f"tap,id=guest,fd={guest_fd}"
    words = [panel.qemu, *BARE, *(SANDBOX if panel.sandbox else ()), "-name", f"savi-panel-port-{plug.number}"]
    for name, end in (("switch", f"stream,id=switch,server=off,addr.type=fd,addr.str={switch_fd}"), ("guest", guest)):
        words += ["-netdev", end, "-netdev", f"hubport,id=hub-{name},hubid=0,netdev={name}"]
    return words


class Port:
    """`held` is the connection to the switch. QEMU reads and writes it while it runs, and the panel behind that, so that the
    switch's input ends where a frame ends, and nothing that the switch sends is left unread. `state` is `away` (no guest),
    `here`, `joined` (an interface), `unused`, or `lost`: its QEMU has ended, and the port is of no use in this run."""

    def __init__(self, panel, plug, held, end, tell):
        self.panel, self.plug, self.held, self.end, self.tell = panel, plug, held, end, tell
        self.state = {"socket": "away", "unused": "unused"}.get(plug.kind, "joined")
        self.process, self.is_leaving, self.asked, self.waiting, self.tasks = None, False, 0, {}, []
        self.reading, self.untold, self.may_tell, self.told_at = None, 0, TOLD, time.monotonic()

    @property
    def title(self):
        return f"port {self.plug.number}{f' ({self.plug.name})' if self.plug.name else ''}"

    def start_reading(self):
        """From now on the panel passes over what the switch sends."""
        if self.reading is None:
            self.reading = asyncio.create_task(self.pass_over())

    async def pass_over(self):
        loop = asyncio.get_running_loop()
        with contextlib.suppress(OSError):
            while await loop.sock_recv(self.held, PIECE):
                pass

    async def start(self):
        if self.plug.kind == "unused":
            self.start_reading()
            return
        end = self.end if isinstance(self.end, int) else self.end.fileno()
        more = {}
        if self.panel.qemu_user is not None:
            more = {"user": self.panel.qemu_user, "group": self.panel.qemu_group, "extra_groups": []}
        try:
            self.process = await asyncio.create_subprocess_exec(
                *words_of(self.panel, self.plug, self.held.fileno(), end), pass_fds=(self.held.fileno(), end),
                stdin=subprocess.PIPE, stdout=subprocess.PIPE, stderr=subprocess.PIPE, process_group=0,
                preexec_fn=alone, **more)
        except (OSError, subprocess.SubprocessError) as error:
            raise Fault(f"{self.title}: {self.panel.qemu} cannot be started: {error}") from None
        self.tasks += [asyncio.create_task(work) for work in (self.listen(), self.hear(), self.watch())]
        if await self.ask("qmp_capabilities", BEGIN) is None:
            raise Fault(f"{self.title}: {self.panel.qemu} doesn't answer")

    async def listen(self):
        """QEMU's answers and events."""
        while line := await self.process.stdout.readline():
            with contextlib.suppress(ValueError):
                self.take(json.loads(line))
        for waiting in self.waiting.values():
            if not waiting.done():
                waiting.set_result(None)

    def take(self, told):
        if (waiting := self.waiting.pop(told.get("id"), None)) and not waiting.done():
            waiting.set_result(told)
        if told.get("data", {}).get("netdev-id") == "guest" and not self.is_leaving:
            state = {"NETDEV_STREAM_CONNECTED": "here", "NETDEV_STREAM_DISCONNECTED": "away"}.get(told.get("event"))
            if state and state != self.state:
                self.state = state
                self.tell_guest("came" if state == "here" else "went away")

    def tell_guest(self, what):
        now = time.monotonic()
        self.may_tell, self.told_at = min(TOLD, self.may_tell + (now - self.told_at) / PAUSE), now
        if self.may_tell < 1:
            self.untold += 1
            return
        more = f" ({self.untold} more comings and goings weren't told)" if self.untold else ""
        self.may_tell, self.untold = self.may_tell - 1, 0
        self.tell(f"{self.title}: a guest {what}{more}")

    async def hear(self):
        """What QEMU says on standard error."""
        while line := await self.process.stderr.readline():
            text = line.decode(errors="replace").strip()
            if text and not any(words in text for words in IDLE_WORDS):
                self.tell(f"{self.title}: {text}")

    async def watch(self):
        """Where QEMU ends before its time the port's input is ended in order; the other ports go on."""
        status = await self.process.wait()
        if not self.is_leaving:
            self.state = "lost"
            self.tell(f"{self.title}: its QEMU ended with status {status}: the port is lost until the switch starts anew")
            self.close_end()
            self.shut()

    async def ask(self, command, seconds, **arguments):
        """QEMU's answer, or None where none comes in time."""
        self.asked += 1
        waiting = self.waiting[self.asked] = asyncio.get_running_loop().create_future()
        asked = {"execute": command, "id": self.asked, "arguments": arguments}
        try:
            self.process.stdin.write(f"{json.dumps(asked)}\n".encode())
            return await asyncio.wait_for(waiting, seconds)
        except (TimeoutError, asyncio.TimeoutError, OSError):
            return None

    def shut(self):
        """Ends the switch's input, and passes over what it still sends."""
        with contextlib.suppress(OSError):
            self.held.shutdown(socket.SHUT_WR)
        self.start_reading()

    async def cut(self):
        """Takes no more frames of guests, or of the interface; waits until the switch has read what was taken."""
        self.is_leaving = True
        if self.process is None or self.process.returncode is not None:
            return
        await self.ask("set_link", ANSWER, name="guest", up=False)
        for _ in range(50):
            if not unread(self.held):
                break
            await asyncio.sleep(0.02)

    async def leave(self):
        """Ends QEMU, which has nothing to keep and writes each frame by one call, and then the switch's input."""
        if self.process is not None:
            self.kill()
            await self.process.wait()
        if self.state != "lost":
            self.shut()

    def kill(self):
        if self.process is not None:
            with contextlib.suppress(ProcessLookupError):
                self.process.kill()

    def close(self):
        for task in [*self.tasks, *([self.reading] if self.reading else [])]:
            task.cancel()
        self.held.close()
        self.close_end()

    def close_end(self):
        """No guest comes any more; an interface has nobody behind it."""
        if isinstance(self.end, int):
            os.close(self.end)
        elif self.end is not None:
            self.end.close()
        self.end = None


def unread(connection):
    """How many octets of what was sent the other side hasn't read (unix(7): SIOCOUTQ)."""
    try:
        return struct.unpack("i", fcntl.ioctl(connection, termios.TIOCOUTQ, bytes(4)))[0]
    except OSError:
        return 0
