#!/usr/bin/env python3
"""philosophers.py PORT   the philosophers at ./tucson serve PORT < examples/net/philosophers.conf

Each eats three times, and what its neighbours have in hand is looked at.
"""

import sys
from concurrent.futures import ThreadPoolExecutor
from pathlib import Path

sys.path.insert(0, str(Path(__file__).resolve().parents[2] / "clients/python"))

import tucson
from tucson import Var, term

in_hand = []


def dine(port):
    """Takes a seat, and eats: the number of the seat, and how often both chopsticks were its own."""
    with tucson.connect("127.0.0.1", port) as session:
        seat = session.in_("table", term("seat", Var("N"), Var("Left"), Var("Right"))).bindings
        mine, meals = [seat["Left"], seat["Right"]], 0
        for _ in range(3):
            session.in_("table", term("chops", *mine))
            in_hand.extend(mine)
            meals += all(in_hand.count(chop) == 1 for chop in mine)
            for chop in mine:
                in_hand.remove(chop)
            session.out("table", term("chops", *mine))
        return seat["N"], meals


with ThreadPoolExecutor(5) as threads:
    for number, meals in sorted(threads.map(dine, [int(sys.argv[1])] * 5)):
        print(f"seat {number}: {meals} meals")
