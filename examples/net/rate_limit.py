#!/usr/bin/env python3
"""rate_limit.py PORT   a clock and a caller at ./tucson serve PORT < examples/net/rate_limit.conf

The clock is the first agent. It ticks every 20 milliseconds, from the time at which the bucket is empty.
"""

import sys
import time
from pathlib import Path
from threading import Event, Thread

sys.path.insert(0, str(Path(__file__).resolve().parents[2] / "clients/python"))

import tucson

TICK = 0.02
over = Event()


def run(clock):
    while not over.wait(TICK):
        clock.out("door", "tick")


def burst(ada):
    """How many calls go through until one would have to wait."""
    count = 0
    while ada.inp("door", "permit"):
        count += 1
    return count


port = int(sys.argv[1])
with tucson.connect("127.0.0.1", port) as clock:
    clock.out("door", "tick")
    with tucson.connect("127.0.0.1", port) as ada:
        print(f"at once: {burst(ada)} calls")
        ticking = Thread(target=run, args=[clock])
        began = time.monotonic()
        ticking.start()
        for _ in range(5):
            ada.in_("door", "permit")
        print("five more, a tick each:", time.monotonic() - began >= 5 * TICK)
        over.set()
        ticking.join()
        for _ in range(5):
            clock.out("door", "tick")
        print(f"after a pause: {burst(ada)} calls")
