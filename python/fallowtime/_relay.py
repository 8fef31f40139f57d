"""The relay: whole messages of many connections go to one program, one after the other, and each answer goes back.

One thread does it all and waits for nobody. What can't be written yet is kept, and there is a limit to that.
"""
from __future__ import annotations

import collections
import fcntl
import math
import os
import selectors
import socket
import subprocess
import sys
import time
from typing import Any, Callable, Deque, Dict, List, NamedTuple, Optional, Set, Union

from ._connection import LONG_PIECE, NOTHING, PIECE, READ, WRITE, Connection
from ._messages import Bytes, Inbox, NoMessage, answered_number_of, number_of, ping, wants_answer

# How many messages the program has at most that it didn't answer yet: enough that it never waits for this process.
MOST_ASKED = 8
# How many bytes are kept for all connections together, of messages and of answers, before the others wait for room.
MOST_KEPT = 256_000_000
# For how many seconds a connection may stand still within a message or an answer; and while others wait for room, and
# how long a long message may take then.
STILL, STILL_IN_NEED, WHOLE_IN_NEED = 60.0, 5.0, 60.0
# For how many seconds answers are written behind the end of the program.
LAST_GRACE = 5.0
# How often it is looked for what is late, in seconds.
TICK = 1.0
# Linux's call that changes what a pipe holds, in bytes. With more, long messages go over in fewer pieces.
SET_PIPE_SIZE = 1031
# The status if the program answered otherwise than it may.
FAULT = 1


class Limits(NamedTuple):
    """How many connections there may be at once, and for how many seconds one may have nothing to ask."""

    connections: int
    idle: float


def say(text: str) -> None:
    print(f"fallowtime.serve: {text}", file=sys.stderr, flush=True)


class Ping:
    """A message of the relay's own. Its answer says that the program is behind all that it was passed before: at first,
    that it has opened the file."""

    def __init__(self, number: int, answered: Callable[[], None] = lambda: None) -> None:
        self.message: Bytes = ping(number)
        self._answered = answered

    def passed_on(self, is_awaited: bool) -> None:
        pass

    def answer(self, answer: Bytes) -> None:
        self._answered()


Asker = Union[Connection, Ping]


class Asked(NamedTuple):
    """A message that the program has: its number, and who gets the answer. With None it wants no answer, and has one
    only if it is damaged; a `Ping` is behind it."""

    number: int
    asker: Optional[Asker]


class Program:
    """The two ends of the program: what it is to read, and what it answers."""

    def __init__(self, process: "subprocess.Popen[bytes]") -> None:
        assert process.stdin is not None and process.stdout is not None
        self.process = process
        self.input, self.output = process.stdin, process.stdout
        for end in (self.input, self.output):
            os.set_blocking(end.fileno(), False)
            try:
                fcntl.fcntl(end, SET_PIPE_SIZE, LONG_PIECE)
            except OSError:
                # The system has given out as much as it may. It goes with less.
                pass
        self.inbox = Inbox()
        self._unsent = NOTHING

    def begin(self, message: Bytes) -> None:
        """The message is written next."""
        self._unsent = memoryview(message)

    def write(self) -> bool:
        """Writes what the program takes of the message, and returns whether that is all. What is for a program that has
        ended is let go."""
        try:
            self._unsent = self._unsent[os.write(self.input.fileno(), self._unsent):]
        except BlockingIOError:
            pass
        except BrokenPipeError:
            self._unsent = NOTHING
        return not self._unsent

    def read(self) -> bool:
        """Reads what it has answered, and returns whether there may be more."""
        try:
            piece = os.read(self.output.fileno(), LONG_PIECE if self.inbox.missing() > PIECE else PIECE)
        except BlockingIOError:
            return True
        self.inbox.add(piece)
        return bool(piece)

    def wait(self) -> int:
        """The status with which it ends: by a signal, 128 and that one's number, as shells have it."""
        self.input.close()
        status = self.process.wait()
        self.output.close()
        return status if status >= 0 else 128 - status


class Relay:
    """Connections, the program, and the messages between them."""

    def __init__(self, process: "subprocess.Popen[bytes]", limits: Limits, opened: Callable[[], None]) -> None:
        """`opened` is called when the program has opened the file."""
        self._program = Program(process)
        self._limits = limits
        self._selector = selectors.DefaultSelector()
        self._watched: Dict[Any, int] = {}
        self._listeners: List[socket.socket] = []
        self._connections: Set[Connection] = set()
        # Those of which something came that wasn't looked at yet.
        self._heard: Deque[Connection] = collections.deque()
        # Whose messages the program gets next, and whose one is being written.
        self._queue: Deque[Asker] = collections.deque([Ping(1, opened)])
        self._writer: Optional[Asker] = None
        self._asked: Deque[Asked] = collections.deque()
        # How many bytes are kept, of messages and of answers.
        self._kept_messages = self._kept_answers = 0
        self._is_full = self._is_ended = self._is_faulty = False
        self.is_stopping = False
        self._ticked = time.monotonic()
        self.watch(self._program.output, READ, self._hand_out)

    # What is watched, and what is kept.

    def watch(self, what: Any, events: int, ready: Callable[[int], None]) -> None:
        """Has `ready` called with the events that are there, of those that are named; with 0 no more."""
        before = self._watched.get(what, 0)
        if events == before:
            return
        if not events:
            self._selector.unregister(what)
            del self._watched[what]
            return
        (self._selector.modify if before else self._selector.register)(what, events, ready)
        self._watched[what] = events

    def count(self, connection: Connection) -> None:
        """Counts anew what is kept for a connection."""
        messages, answers = connection.counted
        connection.counted = connection.kept
        self._kept_messages += connection.counted[0] - messages
        self._kept_answers += connection.counted[1] - answers

    @property
    def is_short_of_room(self) -> bool:
        """Whether so much is kept of messages, or will be, that other long ones have to wait."""
        return self._kept_messages >= MOST_KEPT

    # Connections come and go.

    def listen(self, listener: socket.socket) -> None:
        """Takes connections from a socket that listens."""
        listener.setblocking(False)
        self._listeners.append(listener)
        self.watch(listener, READ, lambda events: self._accept(listener))

    def _accept(self, listener: socket.socket) -> None:
        try:
            opened, _ = listener.accept()
        except OSError as error:
            if not isinstance(error, (BlockingIOError, InterruptedError, ConnectionError)):
                # There is no room for one more in the system: it is tried again with the next tick.
                self.watch(listener, 0, lambda events: None)
            return
        if len(self._connections) >= self._limits.connections:
            if not self._is_full:
                say(f"there are {self._limits.connections} connections: more are closed")
            self._is_full = True
            opened.close()
            return
        opened.setblocking(False)
        if opened.family != socket.AF_UNIX:
            opened.setsockopt(socket.IPPROTO_TCP, socket.TCP_NODELAY, 1)
        connection = Connection(self, opened)
        self._connections.add(connection)
        self.watch(opened, READ, connection.ready)

    def forget(self, connection: Connection) -> None:
        """A connection is closed."""
        self.count(connection)
        self._connections.discard(connection)
        self._is_full = False

    # Messages go to the program, and answers come from there.

    def has_heard(self, connection: Connection) -> None:
        """Something came of a connection."""
        self._heard.append(connection)

    def _work(self) -> None:
        """Takes the messages that are whole, and passes them on as far as that can be done now."""
        self._pass_on()
        while self._heard:
            connection = self._heard.popleft()
            if connection.take():
                self._queue.append(connection)
                self._pass_on()
        if self.is_stopping and self._writer is None:
            # What was passed on is done. Behind it the program sees the end of its input, and closes the file.
            self._program.input.close()

    def _pass_on(self, events: int = 0) -> None:
        """Writes messages as far as the program takes them."""
        while self._writer is not None or self._begin():
            if not self._program.write():
                self.watch(self._program.input, WRITE, self._pass_on)
                return
            asker, self._writer = self._writer, None
            assert asker is not None
            asker.passed_on(wants_answer(asker.message))
        self.watch(self._program.input, 0, self._pass_on)

    def _begin(self) -> bool:
        """Begins with the next message, if there is one and the program may have it."""
        if not self._queue or len(self._asked) >= MOST_ASKED or self._kept_answers >= MOST_KEPT:
            return False
        asker = self._writer = self._queue.popleft()
        number = number_of(asker.message)
        if wants_answer(asker.message):
            self._asked.append(Asked(number, asker))
        else:
            # The answer to a ping of another number says whether this one was answered all the same.
            self._asked.append(Asked(number, None))
            self._queue.appendleft(Ping(2 if number == 1 else 1))
        self._program.begin(asker.message)
        return True

    def _hand_out(self, events: int) -> None:
        """Reads what the program has answered, and hands the answers out."""
        is_open = self._program.read()
        try:
            while True:
                answer = self._program.inbox.take()
                if answer is None:
                    break
                self._hand_one_out(answer)
        except NoMessage as error:
            say(f"what the program answers is none: {error}")
            self._is_faulty, is_open = True, False
        if not is_open:
            self.watch(self._program.output, 0, self._hand_out)
            self._is_ended = True

    def _hand_one_out(self, answer: Bytes) -> None:
        """Hands an answer to whoever has asked. `NoMessage` if it answers another message, as nobody's is known then."""
        number = answered_number_of(answer)
        while self._asked:
            asked = self._asked.popleft()
            if asked.number == number:
                if asked.asker is not None:
                    asked.asker.answer(answer)
                return
            if asked.asker is not None:
                raise NoMessage(f"an answer to {number}, where {asked.number} waits")
        raise NoMessage(f"an answer to {number}, for which nobody waits")

    # Time passes, and all ends.

    def _tick(self) -> None:
        """Closes what is late, and lets go on what waited."""
        now = time.monotonic()
        if now - self._ticked < TICK:
            return
        self._ticked = now
        is_in_need = self.is_short_of_room or self._kept_answers >= MOST_KEPT
        still, whole = (STILL_IN_NEED, WHOLE_IN_NEED) if is_in_need else (STILL, math.inf)
        for connection in list(self._connections):
            if connection.is_late(now, self._limits.idle, still, whole):
                connection.close()
            elif connection.is_put_off and not self.is_short_of_room:
                connection.go_on()
        for listener in self._listeners:
            self.watch(listener, READ, lambda events, listener=listener: self._accept(listener))

    def stop(self) -> None:
        """Takes nothing more, and ends when what the program has is answered. If it is called again, the program is
        ended: what it was at isn't done then, or is, and what was answered stays."""
        if self.is_stopping:
            self._program.process.terminate()
            return
        self.is_stopping = True
        self._close_listeners()
        self._queue.clear()
        self._heard.clear()
        under_way = {self._writer, *(asked.asker for asked in self._asked)}
        for connection in self._connections - under_way:
            if not connection.is_writing:
                connection.close()

    def _close_listeners(self) -> None:
        for listener in self._listeners:
            self.watch(listener, 0, self._hand_out)
            listener.close()
        self._listeners.clear()

    def _turn(self) -> None:
        """Does what can be done now, and waits for that at most until the next tick."""
        for key, events in self._selector.select(TICK):
            key.data(events)
        self._work()
        self._tick()

    def run(self) -> int:
        """Passes messages on until the program ends, and returns its status."""
        while not self._is_ended:
            self._turn()
        self._close_listeners()
        self._queue.clear()
        last = time.monotonic() + LAST_GRACE
        self.is_stopping = True
        for connection in list(self._connections):
            if not connection.is_writing:
                connection.close()
        while self._connections and time.monotonic() < last:
            for key, events in self._selector.select(TICK):
                key.data(events)
        for connection in list(self._connections):
            connection.close()
        if self._is_faulty:
            self._program.process.terminate()
        status = self._program.wait()
        return FAULT if self._is_faulty else status
