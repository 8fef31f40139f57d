#!/usr/bin/python3
"""Answers each message of a driver with a constant, the quickest server that Python can be: what tests/relay.py measures beside. Prints
its address, and serves each connection in a process of its own until that connection ends."""
import os
import signal
import socket
import struct

import bson

HEADER = struct.Struct("<iiii")
OP_REPLY, OP_MSG = 1, 2013
ITEM = {"_id": 1, "name": "n1", "tags": ["a", "b"], "at": 1.5}
FOUND = bytes(5) + bson.encode({"cursor": {"id": bson.Int64(0), "ns": "shop.items", "firstBatch": [ITEM]}, "ok": 1.0})
GREETING = bson.encode({"ismaster": True, "minWireVersion": 0, "maxWireVersion": 9, "ok": 1.0})


def serve(opened):
    opened.setsockopt(socket.IPPROTO_TCP, socket.TCP_NODELAY, 1)
    while True:
        held = opened.recv(1 << 16)
        if not held:
            return
        _, number, _, operation = HEADER.unpack_from(held)
        body = FOUND if b"find" in held else bytes(5) + GREETING
        if operation != OP_MSG:
            body, operation = struct.pack("<iqii", 8, 0, 0, 1) + GREETING, OP_REPLY
        opened.sendall(HEADER.pack(HEADER.size + len(body), 0, number, operation) + body)


def main():
    signal.signal(signal.SIGCHLD, signal.SIG_IGN)
    with socket.create_server(("127.0.0.1", 0)) as listener:
        print("mongodb://127.0.0.1:%d/shop" % listener.getsockname()[1], flush=True)
        while True:
            opened, _ = listener.accept()
            with opened:
                if not os.fork():
                    listener.close()
                    serve(opened)
                    os._exit(0)


if __name__ == "__main__":
    main()
