#!/usr/bin/env python3
"""readers_writers.py PORT   a writer and three readers at ./tucson serve PORT < examples/net/readers_writers.conf

The writer is the first agent. Whoever reads under the lock finds both parts of one text, and never half of the next.
"""

import sys
from concurrent.futures import ThreadPoolExecutor
from pathlib import Path

sys.path.insert(0, str(Path(__file__).resolve().parents[2] / "clients/python"))

import tucson
from tucson import ANY, Var, term

TIMES = 20


def read(port):
    """How often it has read the same number in both parts."""
    with tucson.connect("127.0.0.1", port) as reader:
        same = 0
        for _ in range(TIMES):
            reader.in_("desk", "read_lock")
            parts = [reader.rd("desk", term(part, Var("N"))) for part in ("left", "right")]
            reader.out("desk", "read_lock")
            same += parts[0].bindings == parts[1].bindings
        return same


port = int(sys.argv[1])
with tucson.connect("127.0.0.1", port) as writer, ThreadPoolExecutor(3) as threads:
    writer.in_("desk", "write_lock")
    reading = [threads.submit(read, port) for _ in range(3)]
    writer.out("desk", "write_lock")
    for number in range(1, TIMES + 1):
        writer.in_("desk", "write_lock")
        for part in ("left", "right"):
            writer.in_("desk", term(part, ANY))
            writer.out("desk", term(part, number))
        writer.out("desk", "write_lock")
    for one in reading:
        print(f"a reader: {one.result()} of {TIMES} times the parts were of one text")
