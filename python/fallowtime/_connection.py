"""A driver's connection to the relay."""
from __future__ import annotations

import selectors
import socket
import time
from typing import TYPE_CHECKING, Tuple

from ._messages import Bytes, Inbox, NoMessage

if TYPE_CHECKING:
    from ._relay import Relay

READ, WRITE = selectors.EVENT_READ, selectors.EVENT_WRITE
# How much is read at a time, in bytes: what a pipe holds, and of a message that is longer.
PIECE, LONG_PIECE = 1 << 16, 1 << 20
NOTHING = memoryview(b"")


class Connection:
    """One connection. At most one message of it is with the program or on the way there. The next one is taken when
    that is answered, so that each connection gets its turn."""

    def __init__(self, relay: "Relay", opened: socket.socket) -> None:
        self._relay = relay
        self._socket = opened
        self._inbox = Inbox()
        # Its message, until the program has that, and what isn't written yet of the answer.
        self.message: Bytes = b""
        self._unsent = NOTHING
        # The room that a long message has, in bytes: its whole length from its beginning on, so that it can be ended.
        self._room = 0
        # Whether a message of it isn't answered, whether a long one waits for room, and whether it is closed.
        self._is_asking = self.is_put_off = self._is_closed = False
        # When a byte came or went the last time, and when a long message got its room.
        self._moved = self._begun = time.monotonic()
        # How many bytes the relay has counted that are kept for it, of messages and of answers.
        self.counted = (0, 0)

    @property
    def kept(self) -> Tuple[int, int]:
        """How many bytes are kept for it, of messages and of answers."""
        return max(self._room, len(self._inbox)) + len(self.message), len(self._unsent)

    @property
    def is_writing(self) -> bool:
        """Whether a part of an answer isn't written yet."""
        return bool(self._unsent)

    def _watch(self, events: int) -> None:
        self._relay.watch(self._socket, events, self.ready)

    def ready(self, events: int) -> None:
        """Reads or writes, when the system says that it can be done."""
        if self._is_closed:
            return
        if self._unsent:
            self._write()
        elif self._is_asking:
            # What it says before it is answered has to wait, and so has its end.
            self._watch(0)
        else:
            self._read()

    def _read(self) -> None:
        missing = self._inbox.missing()
        if missing > PIECE and not self._room and not self._has_room(missing):
            self.is_put_off = True
            self._watch(0)
            return
        try:
            piece = self._socket.recv(min(missing, LONG_PIECE) if missing > PIECE else PIECE)
        except (BlockingIOError, InterruptedError):
            return
        except OSError:
            piece = b""
        if not piece:
            self.close()
            return
        self._moved = time.monotonic()
        self._inbox.add(piece)
        self._relay.has_heard(self)

    def _has_room(self, missing: int) -> bool:
        """Takes room for a long message, and returns whether there is any."""
        if self._relay.is_short_of_room:
            return False
        self._room, self._begun = len(self._inbox) + missing, time.monotonic()
        self._relay.count(self)
        return True

    def go_on(self) -> None:
        """Reads on, as there is room again."""
        self.is_put_off = False
        self._moved = time.monotonic()
        self._watch(READ)

    def take(self) -> bool:
        """Takes its next message, and returns whether there was one. What can't be one ends the connection."""
        if self._is_asking or self._is_closed:
            return False
        try:
            message = self._inbox.take()
        except NoMessage:
            self.close()
            return False
        if message is not None:
            self.message, self._room = message, 0
            self._is_asking = True
        self._relay.count(self)
        return self._is_asking

    def passed_on(self, is_awaited: bool) -> None:
        """The program has its message, and an answer is awaited or isn't."""
        self.message = b""
        self._relay.count(self)
        if not is_awaited:
            self._listen()

    def answer(self, answer: Bytes) -> None:
        if not self._is_closed:
            self._unsent = memoryview(answer)
            self._write()

    def _write(self) -> None:
        try:
            self._unsent = self._unsent[self._socket.send(self._unsent):]
            self._moved = time.monotonic()
        except (BlockingIOError, InterruptedError):
            pass
        except OSError:
            self.close()
            return
        self._relay.count(self)
        if self._unsent:
            self._watch(WRITE)
        else:
            self._listen()

    def _listen(self) -> None:
        """Waits for the next message, which may be here already."""
        self._is_asking = False
        if self._relay.is_stopping:
            self.close()
        elif not self._is_closed:
            self._watch(READ)
            if self._inbox:
                self._relay.has_heard(self)

    def is_late(self, now: float, idle: float, still: float, whole: float) -> bool:
        """Whether it is closed for it: it has nothing to ask for `idle` seconds, or stands still within a message or an
        answer for `still` seconds, or its long message isn't whole after `whole` seconds."""
        if self.is_put_off or self._is_asking and not self._unsent:
            return False
        if self._room and now - self._begun > whole:
            return True
        return now - self._moved > (min(still, idle) if self._unsent or self._inbox else idle)

    def close(self) -> None:
        if not self._is_closed:
            self._is_closed = True
            self._watch(0)
            self._inbox, self.message, self._unsent, self._room = Inbox(), b"", NOTHING, 0
            self._relay.forget(self)
            self._socket.close()
