#!/usr/bin/env python3
"""auction.py PORT   a host and three guests at ./tucson serve PORT < examples/net/auction.conf

Ada and bob bid. Eve bids in ada's name, says what is best and what is sold, closes, and would take the best bid.
"""

import sys
from concurrent.futures import ThreadPoolExecutor
from pathlib import Path

sys.path.insert(0, str(Path(__file__).resolve().parents[2] / "clients/python"))

import tucson
from tucson import Var, term

BEST, SOLD = (term(word, Var("Who"), Var("N")) for word in ("best", "sold"))
PUTS = {
    "host": [],
    "ada": [term("bid", "ada", 30), term("bid", "ada", 50)],
    "bob": [term("bid", "bob", 40)],
    "eve": [term("bid", "ada", 99), term("best", "eve", 1), term("sold", "eve", 1), "close"],
}


def enter(port):
    """The next agent's session: it has had a reply before another connects."""
    session = tucson.connect("127.0.0.1", port)
    session.rd("hall", BEST)
    return session


def put_all(name):
    for what in PUTS[name]:
        sessions[name].out("hall", what)


sessions = {name: enter(int(sys.argv[1])) for name in PUTS}
with ThreadPoolExecutor() as threads:
    list(threads.map(put_all, PUTS))
try:
    sessions["eve"].in_("hall", BEST)
except tucson.Refused as why:
    print("eve would take the best bid:", why)
sessions["host"].out("hall", "close")
for name, session in sessions.items():
    print(name, "reads", session.rd("hall", SOLD).tuple)
    session.quit()
