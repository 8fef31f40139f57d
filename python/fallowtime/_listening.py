"""Where a relay listens: an address of this machine, a socket in the file system, or what systemd has opened."""
from __future__ import annotations

import errno
import ipaddress
import os
import socket
import stat
from typing import Any, Callable, List, Optional, Tuple
from urllib.parse import quote

# The first file that systemd hands over, and the variables that say how many there are, for whom, and under what names.
FIRST_HANDED, COUNT, OWNER, NAMES = 3, "LISTEN_FDS", "LISTEN_PID", "LISTEN_FDNAMES"
# The variable that names the socket to which a service says that it has started.
NOTIFY = "NOTIFY_SOCKET"
# How many connections may wait to be taken.
WAITING = 128


def on_port(address: str, port: int) -> socket.socket:
    """A socket that listens on an address, or on the first one that a name stands for. `OSError` if it can't be had."""
    family, kind, protocol, _, place = socket.getaddrinfo(
        address, port, type=socket.SOCK_STREAM, flags=socket.AI_PASSIVE)[0]
    listener = socket.socket(family, kind, protocol)
    try:
        # A port whose last relay has ended just now can be had.
        listener.setsockopt(socket.SOL_SOCKET, socket.SO_REUSEADDR, 1)
        listener.bind(place)
        listener.listen(WAITING)
    except BaseException:
        listener.close()
        raise
    return listener


def is_answered(path: str) -> bool:
    """Whether somebody listens on the socket of a file."""
    with socket.socket(socket.AF_UNIX) as other:
        try:
            other.connect(path)
        except (ConnectionRefusedError, FileNotFoundError):
            return False
        except OSError:
            pass
        return True


def _identity(path: str) -> Optional[Tuple[int, int]]:
    try:
        found = os.lstat(path)
    except FileNotFoundError:
        return None
    return (found.st_dev, found.st_ino) if stat.S_ISSOCK(found.st_mode) else (0, 0)


def on_path(path: str) -> Tuple[socket.socket, Callable[[], None]]:
    """A socket that listens as a file, which none but the user may open, and what takes the file away again. A socket
    that an ended process has left there is replaced. `OSError` if something else is there."""
    found = _identity(path)
    if found is not None and (found == (0, 0) or is_answered(path)):
        raise OSError(errno.EADDRINUSE, os.strerror(errno.EADDRINUSE), path)
    if found is not None:
        _take_away(path)
    listener = socket.socket(socket.AF_UNIX)
    before = os.umask(0o177)
    try:
        listener.bind(path)
        listener.listen(WAITING)
    except BaseException:
        listener.close()
        raise
    finally:
        os.umask(before)
    made = _identity(path)

    def take_away() -> None:
        if _identity(path) == made:
            _take_away(path)

    return listener, take_away


def _take_away(path: str) -> None:
    try:
        os.unlink(path)
    except FileNotFoundError:
        pass


def handed_over() -> List[socket.socket]:
    """The sockets that systemd has opened for this process."""
    owner, count = os.environ.pop(OWNER, ""), os.environ.pop(COUNT, "")
    os.environ.pop(NAMES, None)
    if owner != str(os.getpid()) or not count.isdigit():
        return []
    listeners = [socket.socket(fileno=number) for number in range(FIRST_HANDED, FIRST_HANDED + int(count))]
    for listener in listeners:
        listener.set_inheritable(False)
    return listeners


def is_of_this_machine(listener: socket.socket) -> bool:
    """Whether none but processes of this machine can connect."""
    if listener.family == socket.AF_UNIX:
        return True
    return ipaddress.ip_address(listener.getsockname()[0]).is_loopback


def address_of(listener: socket.socket, database: str) -> str:
    """The address under which drivers find a database."""
    name: Any = listener.getsockname()
    if listener.family == socket.AF_UNIX:
        host = quote(name, safe="")
    elif listener.family == socket.AF_INET6:
        host = f"[{name[0]}]:{name[1]}"
    else:
        host = f"{name[0]}:{name[1]}"
    return f"mongodb://{host}/{quote(database, safe='')}"


def notify(state: str) -> None:
    """Says to systemd, if it has started this process and asks for that, how far this is."""
    path = os.environ.get(NOTIFY)
    if path:
        with socket.socket(socket.AF_UNIX, socket.SOCK_DGRAM) as to:
            to.connect("\0" + path[1:] if path.startswith("@") else path)
            to.sendall(state.encode())
