"""Reads a document from standard input, decodes it, and writes it encoded again."""

import sys

import bson

sys.stdout.buffer.write(bson.encode(bson.decode(sys.stdin.buffer.read())))
