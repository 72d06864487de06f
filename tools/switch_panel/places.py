"""Sockets with rights, interfaces, and connections to the switch."""
import asyncio
import errno
import fcntl
import os
import socket
import stat
import struct
import time

from .files import Fault

# <linux/if_tun.h>, <linux/sockios.h>, <linux/if.h>
TUNSETIFF, SIOCGIFFLAGS = 0x400454CA, 0x8913
IFF_TAP, IFF_NO_PI, IFF_UP, IFF_PROMISC = 0x0002, 0x1000, 0x1, 0x100

# How long is waited between two tries to connect, in s.
PAUSE = 0.05

# How many users are named of those who may enter a folder.
NAMED = 3


def who_may_enter(found, groups, users):
    """Who may enter a folder besides root, its owner and this process, in words, or None. `found` is what os.stat says of it;
    the groups and users are those of the machine (grp, pwd)."""
    if found.st_mode & stat.S_IXOTH:
        return "anyone"
    if not found.st_mode & stat.S_IXGRP:
        return None
    members = {user.pw_name for user in users if user.pw_gid == found.st_gid}
    members.update(name for group in groups if group.gr_gid == found.st_gid for name in group.gr_mem)
    names = sorted(members - {user.pw_name for user in users if user.pw_uid in (0, found.st_uid, os.geteuid())})
    return f"{', '.join(names[:NAMED])}{' and others' if names[NAMED:] else ''}" if names else None


def is_listened_at(path):
    """Whether a program listens at the path of a socket. One that waits there sees a connection that closes at once."""
    with socket.socket(socket.AF_UNIX, socket.SOCK_STREAM) as tried:
        tried.setblocking(False)
        try:
            tried.connect(path)
        except BlockingIOError:
            return True  # its line of those who wait is full
        except ConnectionRefusedError:
            return False
        return True


def free_path(path):
    """Takes away a socket at which nobody listens any more."""
    try:
        found = os.lstat(path)
    except FileNotFoundError:
        return
    if not stat.S_ISSOCK(found.st_mode):
        raise Fault(f"{path}: another file is there")
    if is_listened_at(path):
        raise Fault(f"{path}: another program listens there")
    os.unlink(path)


def bind(path, mode):
    made = socket.socket(socket.AF_UNIX, socket.SOCK_STREAM)
    before = os.umask(0o777 & ~mode)
    try:
        made.bind(path)
    finally:
        os.umask(before)
    return made


def make_socket(path, rights):
    """A socket that listens at a path. It listens once it has its owner, group and mode: nobody comes in before."""
    try:
        free_path(path)
        made = bind(path, rights.mode)
    except OSError as error:
        raise Fault(f"{path}: cannot be made: {error.strerror}") from None
    try:
        if rights.owner is not None or rights.group is not None:
            owner, group = (-1 if wanted is None else wanted for wanted in (rights.owner, rights.group))
            os.chown(path, owner, group, follow_symlinks=False)
        made.listen(1)
    except OSError as error:
        os.unlink(path)
        hint = ": it takes root, CAP_CHOWN, or a group of the panel's own" if error.errno == errno.EPERM else ""
        raise Fault(f"{path}: cannot get its owner and group: {error.strerror}{hint}") from None
    return made


def same_file(path, made):
    """What tells that a path is still the one that was made."""
    try:
        found = os.lstat(path)
    except OSError:
        return False
    return (found.st_dev, found.st_ino) == made


def interface_lacks(kind, name):
    """What an interface lacks to carry each frame, in words."""
    with socket.socket(socket.AF_UNIX, socket.SOCK_DGRAM) as asked:
        flags, = struct.unpack("16xH22x", fcntl.ioctl(asked, SIOCGIFFLAGS, struct.pack("16s24x", name.encode())))
    if not flags & IFF_UP:
        yield f"{kind} '{name}' isn't up: ip link set {name} up"
    if kind == "macvtap" and not flags & IFF_PROMISC:
        yield f"macvtap '{name}' leaves out frames for groups: ip link set {name} promisc on"


def open_interface(kind, name):
    """The descriptor of a tap, or of a macvtap, without headers of its own: the kernel then cuts segments and fills
    checksums in."""
    try:
        index = socket.if_nametoindex(name)
    except OSError:
        raise Fault(f"{kind} '{name}': there is no such interface: ip tuntap add dev {name} mode tap" if kind == "tap" else
                    f"{kind} '{name}': there is no such interface: ip link add link .. name {name} type macvtap") from None
    device = "/dev/net/tun" if kind == "tap" else f"/dev/tap{index}"
    opened = None
    try:
        opened = os.open(device, os.O_RDWR | os.O_NONBLOCK | os.O_CLOEXEC)
        fcntl.ioctl(opened, TUNSETIFF, struct.pack("16sH22x", name.encode(), IFF_TAP | IFF_NO_PI))
        return opened
    except OSError as error:
        if opened is not None:
            os.close(opened)
        why = {errno.EBUSY: "another program has it", errno.EPERM: "it is another user's",
               errno.EINVAL: f"it is no {kind}"}.get(error.errno, error.strerror)
        raise Fault(f"{kind} '{name}': {device} cannot be opened for it: {why}") from None


def process_of(end):
    """The process that a connection is to (SO_PEERCRED, unix(7))."""
    return struct.unpack("iII", end.getsockopt(socket.SOL_SOCKET, socket.SO_PEERCRED, 12))[0]


def limits_of(end):
    """The limits of a switch, found by a connection to it, as /proc/PID/limits has them; of one that can't be seen nothing."""
    try:
        with open(f"/proc/{process_of(end)}/limits", encoding="ascii") as file:
            return file.read()
    except OSError:
        return ""


async def lacking_threads(end, needed, seconds):
    """What a switch lacks that hasn't come to so many threads within this time, or None. It is found by a connection to it;
    of one that can't be seen nothing is known."""
    process = process_of(end)
    deadline = time.monotonic() + seconds
    while True:
        try:
            found = len(os.listdir(f"/proc/{process}/task"))
        except OSError:
            return None
        if found >= needed:
            return None
        if time.monotonic() > deadline:
            return (f"the switch has {found} threads, and takes {needed}: some of its ports wait until others are over "
                    "(ulimit -u, TasksMax=)")
        await asyncio.sleep(PAUSE)


async def connect(path, deadline, is_over):
    """A connection to a path of the switch, which may be there only after a while. `is_over` says that it will not come."""
    while True:
        made = socket.socket(socket.AF_UNIX, socket.SOCK_STREAM)
        made.setblocking(False)
        try:
            made.connect(path)
            return made
        except OSError as error:
            made.close()
            if error.errno not in (errno.ENOENT, errno.ECONNREFUSED, errno.EAGAIN):
                raise Fault(f"{path}: cannot connect to the switch: {error.strerror}") from None
            why = error.strerror
        if is_over():
            raise Fault(f"{path}: the switch ended before it listened there")
        if time.monotonic() > deadline:
            raise Fault(f"{path}: no switch listens there: {why}")
        await asyncio.sleep(PAUSE)
