"""Messages of MongoDB's wire protocol, as far as a relay has to know them: where each one ends, its number, and whether
it wants an answer. What is in them is the program's business."""
from __future__ import annotations

import struct
from typing import Optional, Union

Bytes = Union[bytes, bytearray]

# The header of a message: its length, its number, that of the message that it answers, and its operation.
HEADER = struct.Struct("<iiii")
LENGTH = struct.Struct("<i")
# The longest message, in bytes, as MongoDB and the program have it.
LONGEST = 48_000_000
# The operation of nearly all messages, where its four bytes of flags end, and the flag by which no answer is wanted.
OP_MSG, FLAGS_END, MORE_TO_COME = 2013, 20, 2
# The document {ping: 1, $db: "admin"}.
_PING = b"\x1e\0\0\0\x10ping\0\x01\0\0\0\x02$db\0\x06\0\0\0admin\0\0"


class NoMessage(Exception):
    """What came can't be a message, so where the next one begins isn't known."""


def number_of(message: Bytes) -> int:
    return HEADER.unpack_from(message)[1]


def answered_number_of(message: Bytes) -> int:
    """The number of the message that this one answers."""
    return HEADER.unpack_from(message)[2]


def ping(number: int) -> bytes:
    """A message of the relay's own, which asks for nothing but an answer."""
    return HEADER.pack(FLAGS_END + 1 + len(_PING), number, 0, OP_MSG) + bytes(5) + _PING


def wants_answer(message: Bytes) -> bool:
    """Whether a message wants an answer: all but an OP_MSG that says that it doesn't."""
    return not (len(message) >= FLAGS_END and HEADER.unpack_from(message)[3] == OP_MSG
                and message[HEADER.size] & MORE_TO_COME)


class Inbox:
    """What has come of a stream of messages and isn't taken yet."""

    def __init__(self) -> None:
        self._bytes = bytearray()

    def __len__(self) -> int:
        return len(self._bytes)

    def add(self, piece: bytes) -> None:
        self._bytes += piece

    def missing(self) -> int:
        """How many bytes the first message wants yet, as far as its length has come."""
        if len(self._bytes) < LENGTH.size:
            return LENGTH.size - len(self._bytes)
        return max(0, LENGTH.unpack_from(self._bytes)[0] - len(self._bytes))

    def take(self) -> Optional[Bytes]:
        """The first message, if it is whole. `NoMessage` if its length is none."""
        held = self._bytes
        if len(held) < LENGTH.size:
            return None
        length = LENGTH.unpack_from(held)[0]
        if not HEADER.size <= length <= LONGEST:
            raise NoMessage(f"a message of {length} bytes")
        if len(held) < length:
            return None
        if len(held) == length:
            self._bytes = bytearray()
            return held
        message = bytes(memoryview(held)[:length])
        del held[:length]
        return message
