"""For tests/relay.py: messages of MongoDB's wire protocol as bytes, and relays that are started and ended."""
import atexit
import contextlib
import fcntl
import os
import pathlib
import re
import shutil
import signal
import socket
import struct
import subprocess
import sys
import tempfile
import termios
import time

import bson

ROOT = pathlib.Path(__file__).resolve().parent.parent
HEADER = struct.Struct("<iiii")
OP_QUERY, OP_MSG, MORE_TO_COME = 2004, 2013, 2
LONGEST = 48_000_000
# The longest that anything may take here, in seconds: the machine may be busy.
LONG = 600
STAND_IN = ROOT / "tests/drivers/stand_in.py"


def fail(text):
    sys.exit(f"relay.py: {text}")


def holds(step, found, wanted):
    if found != wanted:
        fail(f"{step}: {found!r}"[:1500] + f" in place of {wanted!r}"[:1500])


def message(number, document, flags=0, **lists):
    """An OP_MSG, with lists of documents beside its document."""
    body = struct.pack("<IB", flags, 0) + bson.encode(document)
    for name, documents in lists.items():
        part = name.encode() + b"\0" + b"".join(map(bson.encode, documents))
        body += struct.pack("<Bi", 1, 4 + len(part)) + part
    return HEADER.pack(HEADER.size + len(body), number, 0, OP_MSG) + body


def hello(number):
    """The OP_QUERY by which a driver greets."""
    body = struct.pack("<i", 0) + b"admin.$cmd\0" + struct.pack("<ii", 0, -1) + bson.encode({"ismaster": 1})
    return HEADER.pack(HEADER.size + len(body), number, 0, OP_QUERY) + body


class Line:
    """A connection that sends and receives bytes."""

    def __init__(self, relay):
        if relay.path:
            self.socket = socket.socket(socket.AF_UNIX)
            self.socket.connect(relay.path)
        else:
            self.socket = socket.create_connection(("127.0.0.1", relay.port))
            self.socket.setsockopt(socket.IPPROTO_TCP, socket.TCP_NODELAY, 1)
        self.socket.settimeout(LONG)
        self.number = 0

    def send(self, held):
        self.socket.sendall(held)

    def receive(self, count):
        held = bytearray()
        while len(held) < count:
            piece = self.socket.recv(min(count - len(held), 1 << 20))
            if not piece:
                raise EOFError
            held += piece
        return bytes(held)

    def answer(self):
        """The number that the next answer is to, and its document."""
        length, _, number, operation = HEADER.unpack(self.receive(HEADER.size))
        held = self.receive(length - HEADER.size)
        return number, bson.decode(held[5:] if operation == OP_MSG else held[20:])

    def ask(self, document, **lists):
        self.number += 1
        self.send(message(self.number, document, **lists))
        number, answer = self.answer()
        holds("the number of an answer", number, self.number)
        return answer

    def is_closed(self):
        """Whether the other side closes it, without a byte more."""
        try:
            return self.socket.recv(1) == b""
        except ConnectionError:
            return True

    def close(self):
        self.socket.close()


class Relay:
    """A relay over a program, and what it says."""

    def __init__(self, program, file, *words, path=None, changed="", is_awaited=True):
        """`changed` is Python that changes constants of the relay first, and `path` a socket in the place of a port."""
        self.path, self.port = path, None
        self.said = tempfile.TemporaryFile()
        where = ["--socket", path] if path else [] if "--port" in words else ["--port", "0"]
        environment = {**os.environ, "FALLOWTIME": str(program), "PYTHONPATH": str(ROOT / "python")}
        begin = ["-c", f"import sys, fallowtime._relay as relay, fallowtime.serve as serve; {changed}; sys.exit(serve.main())"]
        self.process = subprocess.Popen(
            [sys.executable, "-B", *(begin if changed else ["-m", "fallowtime.serve"]), str(file), *where, *map(str, words)],
            stdout=subprocess.PIPE, stderr=self.said, env=environment)
        atexit.register(self.process.kill)
        if is_awaited:
            self.address = self.process.stdout.readline().decode().strip()
            if not self.address:
                fail(f"the relay doesn't begin: {self.end(None)} {self.errors()}")
            found = re.search(r":(\d+)/", self.address)
            self.port = int(found[1]) if found and not path else None

    @property
    def program(self):
        """The process of the program."""
        return children_of(self.process.pid)[0]

    def errors(self):
        self.said.seek(0)
        return self.said.read().decode()

    def line(self):
        return Line(self)

    def tell(self, number):
        self.process.send_signal(number)

    def end(self, number=signal.SIGTERM):
        """Its status, after a signal."""
        if number is not None:
            self.tell(number)
        try:
            return self.process.wait(LONG)
        finally:
            self.process.stdout.close()


def wait_for(what, test):
    """Waits until a test holds, as long as anything may take."""
    last = time.monotonic() + LONG
    while not test():
        if time.monotonic() > last:
            fail(f"{what}: it doesn't come")
        time.sleep(0.02)


def is_gone(process):
    """Whether a process has ended."""
    try:
        return pathlib.Path(f"/proc/{process}/stat").read_text().rpartition(")")[2].split()[0] in "ZX"
    except (FileNotFoundError, ProcessLookupError):
        return True


def end_for_sure(process):
    """Ends a process that was started here and may be stopped still."""
    if not is_gone(process):
        os.kill(process, signal.SIGKILL)


def unread_of(process):
    """How many bytes a process has to read yet on its standard input."""
    held = bytearray(4)
    with open(os.open(f"/proc/{process}/fd/0", os.O_RDONLY | os.O_NONBLOCK), "rb", buffering=0) as opened:
        fcntl.ioctl(opened, termios.FIONREAD, held)
    return int.from_bytes(held, sys.byteorder)


def has_got(process, number):
    """Whether a process that is stopped has got a signal, or has ended by it."""
    if is_gone(process):
        return True
    with contextlib.suppress(FileNotFoundError, ProcessLookupError):
        status = pathlib.Path(f"/proc/{process}/status").read_text()
        return bool(int(re.search(r"^ShdPnd:\s*(\w+)", status, re.M)[1], 16) >> number - 1 & 1)
    return True


def children_of(process):
    """The processes that a process started."""
    return [int(child) for child in pathlib.Path(f"/proc/{process}/task/{process}/children").read_text().split()]


def seconds_of(process):
    """The processor time of a process, in seconds."""
    words = pathlib.Path(f"/proc/{process}/stat").read_text().rpartition(")")[2].split()
    return (int(words[11]) + int(words[12])) / os.sysconf("SC_CLK_TCK")


def has_messages(program):
    """Whether the program answers messages yet."""
    with tempfile.TemporaryDirectory() as folder:
        given = message(1, {"ping": 1, "$db": "admin"})
        done = subprocess.run([program, pathlib.Path(folder) / "some.db", "--messages"], input=given, capture_output=True, timeout=LONG)
    return done.returncode == 0 and len(done.stdout) > HEADER.size


def program_of(words):
    """The program that the words of a test name, or what stands in for it, and a folder for its name."""
    if len(words) < 2 or not os.access(words[1], os.X_OK):
        fail("the words are PROGRAM [STEP ..]")
    folder = pathlib.Path(tempfile.mkdtemp(prefix="relay-"))
    # The name under which the program is started says which one it is.
    program = folder / "fallowtime"
    program.symlink_to(os.path.abspath(words[1]))
    if has_messages(program):
        return program, folder
    print(f"relay.py: {words[1]} doesn't answer messages yet: the relay is tried over {STAND_IN.relative_to(ROOT)}")
    return STAND_IN, folder


def compiled(folder):
    """The program of drivers/driver.c."""
    flags = subprocess.run(["pkg-config", "--cflags", "--libs", "libmongoc-1.0"], capture_output=True, text=True, check=True).stdout.split()
    made = folder / "driver"
    subprocess.run([shutil.which("gcc") or "cc", "-Wall", "-Werror", "-o", made, ROOT / "tests/drivers/driver.c", *flags], check=True)
    return made
