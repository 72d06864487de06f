"""What a tool that serves tells the service manager."""
import contextlib
import os
import socket


def notify(text):
    """Tells the service manager (sd_notify(3)), where there is one."""
    name = os.environ.get("NOTIFY_SOCKET")
    if not name:
        return
    with contextlib.suppress(OSError), socket.socket(socket.AF_UNIX, socket.SOCK_DGRAM) as to:
        to.sendto(text.encode(), f"\0{name[1:]}" if name.startswith("@") else name)
