"""A store for MongoDB's drivers: `python -m fallowtime.serve shop.db --port 27017`.

Messages of many connections go whole, one after the other, to one program `fallowtime FILE --messages`, which reads and
answers them; of what is in them nothing is looked at here.

Nobody is asked who they are: whoever can connect can read and change the whole file. So it listens on 127.0.0.1, or on
a socket in the file system that only its user can open, unless it is told otherwise.
"""
from __future__ import annotations

import argparse
import os
import pathlib
import resource
import signal
import socket
import subprocess
import sys
from typing import Callable, List

from . import _listening
from ._connection import READ
from ._errors import FallowtimeError
from ._program import PARENT, find_program
from ._relay import Limits, Relay, say

# Where it listens if it isn't told otherwise, and the word by which the program answers messages.
LOOPBACK, MESSAGES = "127.0.0.1", "--messages"
# How the path of a socket ends, by which drivers know it from the name of a machine.
SOCKET_END = ".sock"
# The connections and the seconds without a question, if it isn't told otherwise. Drivers have up to 100 connections
# each, and open a new one when one of theirs was closed.
CONNECTIONS, IDLE = 1000, 3600.0
# The files that this process has open beside connections, at most.
OTHER_FILES = 64
# The status if it can't begin.
NOT_BEGUN = 1


def read_words(words: List[str]) -> argparse.Namespace:
    parser = argparse.ArgumentParser(
        prog="python -m fallowtime.serve", description="A store for MongoDB's drivers. There is no authentication: "
        "whoever can connect can read and change the whole file.")
    parser.add_argument("file", metavar="FILE", help="the file of the store, which is made if it isn't there")
    where = parser.add_mutually_exclusive_group()
    where.add_argument("--port", type=int, metavar="N", help=f"listens on {LOOPBACK}; 0 is a free port")
    where.add_argument("--socket", metavar="PATH",
                       help="listens on a socket in the file system, which only its user can open")
    parser.add_argument("--bind", metavar="ADDRESS", help=f"listens there with its port, in the place of {LOOPBACK}")
    parser.add_argument("--connections", type=int, default=CONNECTIONS, metavar="N",
                        help=f"how many there may be at once ({CONNECTIONS})")
    parser.add_argument("--idle", type=float, default=IDLE, metavar="SECONDS",
                        help=f"closes a connection that asks for nothing so long ({IDLE:.0f})")
    given = parser.parse_args(words)
    if given.bind is not None and given.port is None:
        parser.error("--bind wants a --port")
    if given.port is not None and not 0 <= given.port < 1 << 16:
        parser.error("a port is a number from 0 to 65535")
    if given.socket is not None and not given.socket.endswith(SOCKET_END):
        parser.error(f"the path of a socket ends with {SOCKET_END}, by which drivers know it")
    if given.connections < 1 or not given.idle > 0:
        parser.error("--connections and --idle are numbers over 0")
    given.parser = parser
    return given


def database_of(file: str) -> str:
    """The database that a file is, as the program names it too: the file's name up to its first dot."""
    return pathlib.Path(file).name.partition(".")[0] or "test"


class Service:
    """A relay, where it listens, and the signals that end it."""

    def __init__(self, given: argparse.Namespace) -> None:
        self._database = database_of(given.file)
        self._has_begun = False
        self._listeners: List[socket.socket] = []
        self._take_away: Callable[[], None] = lambda: None
        self._listen(given)
        try:
            process = subprocess.Popen(
                [find_program(), os.path.abspath(given.file), MESSAGES], stdin=subprocess.PIPE, stdout=subprocess.PIPE,
                bufsize=0, env={**os.environ, PARENT: str(os.getpid())}, start_new_session=True, restore_signals=False)
        except BaseException:
            self._take_away()
            raise
        self._relay = Relay(process, Limits(given.connections, given.idle), self._begin)

    def _listen(self, given: argparse.Namespace) -> None:
        """Opens what it listens on. Nothing is taken from there before the program has opened the file."""
        if given.port is not None:
            self._listeners = [_listening.on_port(given.bind or LOOPBACK, given.port)]
        elif given.socket is not None:
            listener, self._take_away = _listening.on_path(given.socket)
            self._listeners = [listener]
        else:
            self._listeners = _listening.handed_over()
        if not self._listeners:
            given.parser.error("one of --port and --socket is wanted")
        for listener in self._listeners:
            if not _listening.is_of_this_machine(listener):
                say("warning: other machines can connect, and nobody is asked who they are: whoever connects can read "
                    "and change the whole file")

    def _begin(self) -> None:
        """The program has opened the file: connections are taken."""
        self._has_begun = True
        for listener in self._listeners:
            self._relay.listen(listener)
        print(*(_listening.address_of(listener, self._database) for listener in self._listeners), flush=True)
        _listening.notify("READY=1")

    def _heed_signals(self) -> None:
        """Ends the relay by SIGINT, SIGTERM and SIGHUP, unless this process ignores them. They are looked at between
        two turns."""
        told, tell = socket.socketpair()
        told.setblocking(False)
        tell.setblocking(False)
        signal.set_wakeup_fd(tell.fileno(), warn_on_full_buffer=False)
        for number in (signal.SIGINT, signal.SIGTERM, signal.SIGHUP):
            if signal.getsignal(number) is not signal.SIG_IGN:
                signal.signal(number, lambda *_: None)
        self._signals = (told, tell)

        def stop(events: int) -> None:
            # All that have come by now count as one.
            told.recv(1 << 12)
            _listening.notify("STOPPING=1")
            self._relay.stop()

        self._relay.watch(told, READ, stop)

    def run(self) -> int:
        """Passes messages on until the program ends, and returns its status."""
        try:
            self._heed_signals()
            status = self._relay.run()
        finally:
            self._take_away()
        if status and not self._has_begun:
            say(f"the program ended with status {status} before it answered a message by {MESSAGES}")
        return status


def allow_files(connections: int) -> None:
    """Lets this process have as many files open as connections need, as far as it may."""
    soft, hard = resource.getrlimit(resource.RLIMIT_NOFILE)
    wanted = connections + OTHER_FILES
    if soft != resource.RLIM_INFINITY and soft < wanted:
        allowed = wanted if hard == resource.RLIM_INFINITY else min(wanted, hard)
        resource.setrlimit(resource.RLIMIT_NOFILE, (allowed, hard))
        if allowed < wanted:
            say(f"warning: this process may have {allowed} files open, too few for {connections} connections")


def main() -> int:
    """Serves the file that the words name, and returns the program's status when that ends."""
    given = read_words(sys.argv[1:])
    try:
        allow_files(given.connections)
        return Service(given).run()
    except (FallowtimeError, OSError) as error:
        say(str(error))
        return NOT_BEGUN


if __name__ == "__main__":
    sys.exit(main())
