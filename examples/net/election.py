#!/usr/bin/env python3
"""election.py PORT   four citizens at ./tucson serve PORT < examples/net/election.conf

All stand at once. Each waits until it leads, looks whether anybody else does, and resigns.
"""

import sys
from concurrent.futures import ThreadPoolExecutor
from pathlib import Path

sys.path.insert(0, str(Path(__file__).resolve().parents[2] / "clients/python"))

import tucson
from tucson import Var, term

leading = []


def stand(port):
    """Its name, and how many lead while it does."""
    with tucson.connect("127.0.0.1", port) as session:
        name = session.in_("town", term("me", Var("Name"))).bindings["Name"]
        session.out("town", "stand")
        session.rd("town", term("leader", name))
        leading.append(name)
        count = len(leading)
        leading.remove(name)
        session.out("town", "resign")
        return name, count


with ThreadPoolExecutor(4) as threads:
    for name, count in sorted(threads.map(stand, [int(sys.argv[1])] * 4)):
        print(f"{name} has led, {count} at a time")
