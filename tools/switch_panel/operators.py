"""Control: the one connection to the switch, and operators, who come and go at a socket of the panel's own."""
import asyncio
import contextlib
import json

# The longest command (docs/COMMANDS.md), and the longest line that is looked at, in octets.
LONGEST, LONGEST_LINE = 120, 1 << 16

# The commands whose replies end with `end`; each other reply is one line.
LISTS = (b"show bindings", b"show ports", b"show counters", b"show stations")

# What an operator's program asks the panel itself: its reply is one line of JSON, and the switch isn't asked.
PANEL = b"panel"


class Ended(Exception):
    """Control has ended: the switch takes no further command."""


class Control:
    """`ask` gives one command at a time to the switch. `about` answers what the panel tells of itself."""

    def __init__(self, about):
        self.about = about
        self.reader = self.writer = self.replies = self.server = None
        self.turn, self.is_over = asyncio.Lock(), False

    async def join(self, to_switch, from_switch):
        """Takes over the connections to the switch's control, which may be one."""
        self.reader, self.writer = await asyncio.open_unix_connection(sock=to_switch, limit=LONGEST_LINE)
        if from_switch is not to_switch:
            self.reader, self.replies = await asyncio.open_unix_connection(sock=from_switch, limit=LONGEST_LINE)

    async def listen(self, made):
        self.server = await asyncio.start_unix_server(self.serve, sock=made, limit=LONGEST_LINE)

    async def line(self):
        line = await self.reader.readline()
        if not line.endswith(b"\n"):
            self.is_over = True
            raise Ended
        return line

    async def ask(self, command):
        """The lines of the reply. A reply that was begun is read to its end, whoever asked, so that the next is whole."""
        work = asyncio.ensure_future(self.ask_to_end(command))
        work.add_done_callback(lambda done: done.cancelled() or done.exception())
        return await asyncio.shield(work)

    async def ask_to_end(self, command):
        async with self.turn:
            if self.is_over:
                raise Ended
            try:
                self.writer.write(command + b"\n")
                lines = [await self.line()]
                while command in LISTS and lines[-1] != b"end\n" and not lines[0].startswith(b"error: "):
                    lines.append(await self.line())
            except OSError:
                self.is_over = True
                raise Ended from None
            return lines

    async def answer(self, command):
        """The reply to an operator's line. `quit` ends the operator's own session; the switch's control goes on."""
        if command == PANEL:
            return [json.dumps(self.about()).encode() + b"\n"]
        if len(command) > LONGEST:
            return [b"error: overlong line\n"]
        return await self.ask(command)

    async def serve(self, reader, writer):
        """An operator, until he leaves. Others are served beside him, each command in its turn."""
        with contextlib.suppress(OSError, ValueError, Ended):
            while line := await reader.readline():
                command = line.removesuffix(b"\n")
                if command == b"quit":
                    writer.write(b"ok\n")
                    break
                writer.writelines(await self.answer(command))
                await writer.drain()
        with contextlib.suppress(OSError):
            await writer.drain()
            writer.close()

    async def quit(self, seconds):
        """Takes no further operator, and ends control."""
        if self.server:
            self.server.close()
        if not self.is_over:
            with contextlib.suppress(Ended, TimeoutError, asyncio.TimeoutError):
                await asyncio.wait_for(self.ask(b"quit"), seconds)
        self.is_over = True
        with contextlib.suppress(OSError):
            self.writer.write_eof()

    async def pass_over(self):
        """Reads on until the switch closes control, which it does when it ends."""
        with contextlib.suppress(OSError):
            while await self.reader.read(LONGEST_LINE):
                pass
