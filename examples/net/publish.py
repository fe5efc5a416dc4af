#!/usr/bin/env python3
"""publish.py PORT   a publisher and two subscribers at ./tucson serve PORT < examples/net/publish.conf

The publisher is the first agent, anna. Ben subscribes before there is any weather, and carl
behind the first.
"""

import sys
from concurrent.futures import ThreadPoolExecutor
from pathlib import Path

sys.path.insert(0, str(Path(__file__).resolve().parents[2] / "clients/python"))

import tucson
from tucson import Var, term


class Subscriber:
    """A subscription to a topic, from now on."""

    def __init__(self, port, topic):
        self.session, self.topic = tucson.connect("127.0.0.1", port), topic
        self.next = self.session.rd("press", term("next", topic, Var("N"))).bindings["N"]

    def read(self, count):
        """The next so many items; it waits for each."""
        items = []
        for number in range(self.next, self.next + count):
            item = self.session.rd("press", term("item", self.topic, number, Var("What")))
            items.append(item.bindings["What"])
        self.next += count
        return items


port = int(sys.argv[1])
with tucson.connect("127.0.0.1", port) as anna, ThreadPoolExecutor() as threads:
    anna.out("press", term("news", "sport", "a draw"))
    ben = Subscriber(port, "weather")
    of_ben = threads.submit(ben.read, 3)
    anna.out("press", term("news", "weather", "rain"))
    carl = Subscriber(port, "weather")
    of_carl = threads.submit(carl.read, 2)
    for what in ("wind", "sun"):
        anna.out("press", term("news", "weather", what))
    print("ben reads", *of_ben.result())
    print("carl reads", *of_carl.result())
    ben.session.quit()
    carl.session.quit()
