"""A panel from its start to its end."""
import asyncio
import contextlib
import grp
import os
import pwd
import select
import shutil
import signal
import stat
import sys
import time

from tool_parts.kept import is_unkept_pipe

from .files import INTERFACES, Fault
from .limits import descriptors, lacking_descriptors, threads
from .operators import Control, Ended
from .places import connect, interface_lacks, lacking_threads, limits_of, make_socket, open_interface, same_file, who_may_enter
from .qemu import Port
from .service import notify
from .watching import why_not_whole

# The statuses beside those of the switch, from <sysexits.h>: what is missing here, what isn't there yet, a file's faults.
UNAVAILABLE, NOT_YET, FILE_FAULT = 69, 75, 78

# How long the switch may take to start its threads, in s.
STARTING = 5


class Run:
    """One run of the switch. `start` is the program that the panel starts itself, or None."""

    def __init__(self, panel, folder, start, wait, tell):
        self.panel, self.folder, self.start_program, self.wait, self.tell = panel, folder, start, wait, tell
        self.ports, self.made, self.switch, self.stops = [], {}, None, 0
        self.control = Control(self.about) if panel.control else None
        self.began, self.is_stopping, self.why = time.time(), asyncio.Event(), ""
        self.tasks, self.poll, self.is_joined = [], None, False

    def about(self):
        """What is told to operators' programs."""
        plan = self.panel.plan
        return {"panel": 1, "plan": os.path.abspath(self.panel.plan_name), "began_ms": int(1000 * self.began),
                "journal": os.path.abspath(os.path.join(self.folder, plan.journal)), "binding_ms": plan.life,
                "per_port": plan.per_port, "depth": plan.depth, "ports": self.told_ports()}

    def told_ports(self):
        states = {port.plug.number: port.state for port in self.ports}
        return [{"number": plug.number, "name": plug.name, "role": plug.role, "kind": plug.kind, "place": plug.place,
                 "state": states.get(plug.number, "unknown")} for plug in self.panel.plugs]

    # The start.

    def make(self, path, rights):
        made = make_socket(path, rights)
        found = os.lstat(path)
        self.made[path] = (found.st_dev, found.st_ino)
        return made

    def open_ends(self):
        """What guests and operators meet. Nobody is answered before all is up."""
        ends = {}
        for plug in self.panel.plugs:
            if plug.kind == "socket":
                ends[plug.number] = self.make(plug.place, plug.rights)
            elif plug.kind in INTERFACES:
                ends[plug.number] = open_interface(plug.kind, plug.place)
                for lack in interface_lacks(plug.kind, plug.place):
                    self.tell(f"warning: port {plug.number}: {lack}")
        operators = self.make(self.panel.operators, self.panel.operators_rights) if self.panel.operators else None
        return ends, operators

    def look_at_folder(self):
        found = os.stat(self.folder)
        if who := who_may_enter(found, grp.getgrall(), pwd.getpwall()):
            self.tell(f"warning: {self.folder}: {who} may enter (mode {stat.S_IMODE(found.st_mode):04o}), and whoever comes to "
                      "a path of the switch before the panel is its peer: chmod 700")
        if is_unkept_pipe(journal := os.path.join(self.folder, self.panel.plan.journal)):
            self.tell(f"warning: {journal}: a pipe that savi-journal-keep doesn't read: the switch waits until somebody does")

    async def start_switch(self):
        if not self.start_program:
            return
        words = [self.start_program, "serve", os.path.abspath(self.panel.plan_name)]
        try:
            # A group of its own: what a terminal sends to the panel (SIGINT) does not end the switch.
            self.switch = await asyncio.create_subprocess_exec(*words, cwd=self.folder, stdin=asyncio.subprocess.DEVNULL,
                                                               umask=0o077, process_group=0)
        except OSError as error:
            raise Fault(f"{self.start_program}: the switch cannot be started: {error.strerror}") from None
        self.tasks.append(asyncio.create_task(self.wait_for_switch()))

    async def wait_for_switch(self):
        await self.switch.wait()
        self.stop("the switch ended")

    def has_ended(self):
        return self.switch is not None and self.switch.returncode is not None

    async def join_switch(self, ends):
        """Takes each path of the switch."""
        deadline = time.monotonic() + self.wait
        for plug in self.panel.plugs:
            if plug.kind == "direct":
                continue
            held = await connect(plug.paths[0], deadline, self.has_ended)
            self.ports.append(Port(self.panel, plug, held, ends.get(plug.number), self.tell))
        if self.control:
            into, out = self.panel.control
            first = await connect(into, deadline, self.has_ended)
            await self.control.join(first, first if into == out else await connect(out, deadline, self.has_ended))
        self.is_joined = True

    def look_at_descriptors(self):
        """Warns of a switch that may open fewer descriptors than it takes once each peer has come."""
        if self.ports and (lack := lacking_descriptors(limits_of(self.ports[0].held), descriptors(self.panel.plan))):
            self.tell(f"warning: {lack}")

    async def look_at_threads(self):
        """Warns of a switch with fewer threads than workers."""
        if self.ports and (lack := await lacking_threads(self.ports[0].held, threads(self.panel.plan), STARTING)):
            self.tell(f"warning: {lack}")

    def watch_switch(self):
        """The switch closes its connections when it ends, and not before."""
        self.poll = select.epoll()
        for port in self.ports:
            self.poll.register(port.held.fileno(), select.EPOLLRDHUP)

        def look():
            if self.poll.poll(0):
                asyncio.get_running_loop().remove_reader(self.poll.fileno())
                self.stop("the switch ended")

        asyncio.get_running_loop().add_reader(self.poll.fileno(), look)

    async def ask_on(self):
        """Asks the switch again and again whether it answers."""
        while not self.is_stopping.is_set():
            await asyncio.sleep(self.panel.ask_s)
            await self.ask_once()

    async def ask_once(self):
        try:
            await asyncio.wait_for(self.control.ask(b"show ports"), self.panel.answer_s)
        except Ended:
            self.stop("control ended")
        except (TimeoutError, asyncio.TimeoutError):
            self.control.is_over = True
            self.stop(f"the switch doesn't answer within {self.panel.answer_s} s")

    # The end.

    def stop(self, why):
        self.why = self.why or why
        self.is_stopping.set()

    def take_signal(self, number):
        self.stops += 1
        if self.stops > 1:
            self.tell("a second signal: ended at once; the switch ends by itself")
            self.drop()
            os._exit(128 + number)
        self.stop(signal.Signals(number).name)

    async def leave(self):
        """Ends all guests, then all inputs, and control; waits until the switch has ended, which has written its journal by
        then."""
        self.tell(f"{self.why}: ending in order")
        self.remove_paths()
        if not self.is_joined:
            return await self.leave_unjoined()
        await asyncio.gather(*(port.cut() for port in self.ports))
        await asyncio.gather(*(port.leave() for port in self.ports))
        if self.control and self.control.writer:
            await self.control.quit(self.panel.answer_s)
        await self.meet_unmet()
        if self.switch:
            return await self.status_of_switch()
        reads = [port.reading for port in self.ports]
        reads += [self.control.pass_over()] if self.control else []
        await asyncio.gather(*reads, return_exceptions=True)
        return self.look_at_journal()

    async def meet_unmet(self):
        """At a path of the switch that is still there nobody has come: the switch waits for a peer, who comes and leaves."""
        for path in {path for plug in self.panel.plugs if plug.kind == "direct" for path in plug.paths}:
            with contextlib.suppress(Fault):
                (await connect(path, 0, lambda: True)).close()

    async def leave_unjoined(self):
        """A switch whose paths weren't all taken has judged nothing, and would wait for the others."""
        for port in self.ports:
            port.shut()
        if not self.switch:
            return 0
        if self.switch.returncode is None:
            self.switch.terminate()
            await self.switch.wait()
            return 0
        return await self.status_of_switch()

    async def status_of_switch(self):
        status = await self.switch.wait()
        return status if status >= 0 else 128 - status

    def look_at_journal(self):
        """The status where the switch was started by another: whether its journal is whole, where it can be looked at."""
        path = os.path.join(self.folder, self.panel.plan.journal)
        if why := why_not_whole(path):
            self.tell(f"{path}: the journal isn't whole: {why}")
        return 1 if why else 0

    def remove_paths(self):
        for path, made in self.made.items():
            if same_file(path, made):
                with contextlib.suppress(OSError):
                    os.unlink(path)
        self.made = {}

    def drop(self):
        self.remove_paths()
        for port in self.ports:
            port.kill()

    # All of it.

    async def serve(self, operators):
        for port in self.ports:
            await port.start()
        self.watch_switch()
        if self.control:
            await self.ask_once()
            if self.panel.ask_s:
                self.tasks.append(asyncio.create_task(self.ask_on()))
            if operators:
                await self.control.listen(operators)
        if not self.is_stopping.is_set():
            self.tell(f"ready: {len(self.ports)} ports{', control' if self.control else ''}")
            notify("READY=1")
        await self.is_stopping.wait()

    async def go(self):
        loop = asyncio.get_running_loop()
        for number in (signal.SIGTERM, signal.SIGINT, signal.SIGHUP):
            loop.add_signal_handler(number, self.take_signal, number)
        if not shutil.which(self.panel.qemu) and any(plug.place for plug in self.panel.plugs):
            self.tell(f"{self.panel.qemu} isn't there: install it (Debian: qemu-system-x86), or name it by 'qemu'")
            return UNAVAILABLE
        status = 0
        try:
            self.look_at_folder()
            ends, operators = self.open_ends()
            await self.start_switch()
            work = asyncio.ensure_future(self.start_and_serve(ends, operators))
            stop = asyncio.ensure_future(self.is_stopping.wait())
            await asyncio.wait((work, stop), return_when=asyncio.FIRST_COMPLETED)
            if not work.done():
                work.cancel()
            with contextlib.suppress(asyncio.CancelledError):
                await work
        except Fault as fault:
            self.tell(str(fault))
            self.why, status = self.why or "it cannot be started", NOT_YET
        notify("STOPPING=1")
        left = await self.leave()
        for port in self.ports:
            port.close()
        return left if left or not status else status

    async def start_and_serve(self, ends, operators):
        await self.join_switch(ends)
        self.look_at_descriptors()
        self.tasks.append(asyncio.create_task(self.look_at_threads()))
        await self.serve(operators)


def tell(text):
    # Where nobody reads it any more, the run goes on.
    with contextlib.suppress(OSError, ValueError):
        print(f"savi-panel: {text}", file=sys.stderr, flush=True)
