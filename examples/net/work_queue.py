#!/usr/bin/env python3
"""work_queue.py PORT   a boss and two workers at ./tucson serve PORT < examples/net/work_queue.conf

The boss is the first agent, anna. Ben takes a job and vanishes; what he had is given back, and carl does it.
"""

import sys
from pathlib import Path
from threading import Thread

sys.path.insert(0, str(Path(__file__).resolve().parents[2] / "clients/python"))

import tucson
from tucson import ANY, Var, term

PORT = int(sys.argv[1])
JOB = term("job", Var("N"), Var("What"))


def work():
    """Does jobs until it is told to stop, and reports each."""
    with tucson.connect("127.0.0.1", PORT) as carl:
        for found in carl.take("jobs", JOB, until=term("job", ANY, "stop")):
            carl.out("jobs", term("done", found.bindings["N"], "by carl"))


with tucson.connect("127.0.0.1", PORT) as anna:
    for number, what in enumerate(["sort", "print", "bind"], 1):
        anna.out("jobs", term("job", number, what))
    ben = tucson.connect("127.0.0.1", PORT)
    print("ben takes", ben.in_("jobs", JOB).tuple)
    ben.close()
    working = Thread(target=work)
    working.start()
    for number in (2, 3):
        print(anna.in_("jobs", term("result", number, ANY)).tuple)
    while lost := anna.inp("jobs", term("doing", Var("Job"), "ben")):
        print("ben's", lost.bindings["Job"], "is given back")
    print(anna.in_("jobs", term("result", 1, ANY)).tuple)
    anna.out("jobs", term("job", 4, "stop"))
    working.join()
