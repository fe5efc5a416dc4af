#!/usr/bin/env python3
"""jobs.py PORT   a boss and a worker at ./tucson serve PORT < examples/net/jobs.conf

The boss is the first agent, anna, and the worker the second, ben. The boss puts three jobs and a
last one that tells the worker to stop, and waits until a reaction has counted three results.
"""

import asyncio
import sys
from pathlib import Path

sys.path.insert(0, str(Path(__file__).resolve().parents[1]))

import tucson.aio
from tucson import Var, request, term

JOB = term("job", Var("N"), Var("What"))


async def work(ben):
    """Does jobs until it is told to stop."""
    async for found in ben.take("jobs", JOB, until=term("job", 0, "stop")):
        number, what = found.bindings["N"], found.bindings["What"]
        print(f"ben does job {number}, {what}")
        await ben.out("jobs", term("result", number, what))


async def main(port):
    anna = await tucson.aio.connect("127.0.0.1", port)
    jobs = [term("job", 1, "sort"), term("job", 2, "print it"), term("job", 3, "rest")]
    await anna.gather(request.out("jobs", job) for job in [*jobs, term("job", 0, "stop")])
    ben = await tucson.aio.connect("127.0.0.1", port)
    async with anna, ben:
        working = asyncio.ensure_future(work(ben))
        finished = await anna.rd("jobs", term("finished", 3))
        print(f"anna reads {finished.tuple}")
        await working


asyncio.run(main(int(sys.argv[1]) if len(sys.argv) > 1 else 7000))
