#!/usr/bin/env python3
"""Whole configurations of 1, 4 and 16 MB: how long a run takes, and how much memory.

bench/runs.py           measures ./tucson, which is to be built
bench/runs.py PROGRAM   measures another build of the program

A configuration of 16 MB has 64 centres and roles, 28,672 grants, 1,000 reactions at one of the centres, 1,024
agents with 100,000 items of scripts, and opening tuples for the rest of its bytes; a smaller one has as much less
of each, but all centres and roles. Further rows are of shapes that a run could be slow at, with 100,000 items.

Seconds are processor time, the best of three runs; megabytes are the most that was resident at once.
"""
import itertools
import os
import pathlib
import subprocess
import sys
import tempfile

TOP = pathlib.Path(__file__).resolve().parent.parent
MEGABYTE = 1 << 20
PRIMITIVES = ("out", "in", "rd", "inp", "rdp", "set_spec", "get_spec")
CENTRES = ROLES = 64
GRANTS = ROLES * CENTRES * len(PRIMITIVES)
CLAUSES = 1000
AGENTS = 1024
ITEMS = 100_000
# A script is a list, and a term is at most 1,000 deep.
ITEMS_OF_SCRIPT = 500
RUNS = 3


def grants(count):
    """So many grants, those of the first role first."""
    for number in range(count):
        place, primitive = divmod(number, len(PRIMITIVES))
        role, centre = divmod(place, CENTRES)
        yield f"grant(r{role},c{centre},{PRIMITIVES[primitive]})."


def reactions(count):
    """So many reactions of the first centre, each to a tuple of a name of its own, which it replaces."""
    for number in range(count):
        yield f"spec(c0,reaction(out(job{number}(X)),(in_r(job{number}(X)),Y is X + 1,out_r(made{number}(Y)))))."


def tuples(left):
    """Opening tuples, dealt out to the centres, of at most so many bytes."""
    for number in itertools.count():
        line = f"tuple(c{number % CENTRES},row({number},{number % 97}))."
        left -= len(line) + 1
        if left < 0:
            return
        yield line


def scripts(agent, items):
    """An agent's scripts of these items."""
    for first in range(0, len(items), ITEMS_OF_SCRIPT):
        yield f"script(a{agent},[{','.join(items[first:first + ITEMS_OF_SCRIPT])}])."


def worker(agent, count, clauses):
    """So many items: a job for the first centre, what was made of it, and a tuple put and taken at some centre.

    They are fewer than 100, so a script of them has fewer than 256 variables.
    """
    items = []
    for place in range(0, count, 4):
        job, centre = (agent + place) % clauses, (agent + place // 4) % CENTRES
        items += [f"c0 ? out(job{job}({place}))", f"c0 ? inp(made{job}(N{place}))",
                  f"c{centre} ? out(t({agent},{place}))", f"c{centre} ? in(t(A{place},P{place}))"]
    return items[:count]


def declared(share):
    """This share of the most of everything but tuples; all centres and roles."""
    yield from (f"centre(c{number})." for number in range(CENTRES))
    yield from (f"role(r{number})." for number in range(ROLES))
    yield from grants(int(GRANTS * share))
    clauses, agents = int(CLAUSES * share), int(AGENTS * share)
    yield from reactions(clauses)
    yield from (f"agent(a{number},r0)." for number in range(agents))
    for number in range(agents):
        count = ITEMS // AGENTS + (number < ITEMS * share % agents)
        yield from scripts(number, worker(number, count, clauses))


def mixed(share):
    """The same, and opening tuples up to this share of 16 MB."""
    left = 16 * MEGABYTE * share
    for line in declared(share):
        left -= len(line) + 1
        yield line
    yield from tuples(left)


def small(agents):
    """One centre with a tuple, a role that may do all, and so many agents."""
    yield from ("centre(c0).", "tuple(c0,lock).", "role(r0).", *grants(len(PRIMITIVES)))
    yield from (f"agent(a{number},r0)." for number in range(agents))


def one_agent():
    """One agent has all items."""
    yield from small(1)
    yield from scripts(0, ["c0 ? out(p)", "c0 ? inp(p)"] * (ITEMS // 2))


def others_wait():
    """One agent goes on while all others wait."""
    yield from small(AGENTS)
    yield from (f"script(a{number},[c0 ? in(never({number}))])." for number in range(1, AGENTS))
    yield from scripts(0, ["c0 ? out(p)", "c0 ? inp(p)"] * ((ITEMS - AGENTS) // 2))


def one_tuple():
    """All agents want one tuple, and put it back."""
    yield from small(AGENTS)
    for number in range(AGENTS):
        yield from scripts(number, ["c0 ? in(lock)", "c0 ? out(lock)"] * (ITEMS // AGENTS // 2))


def measured(program, configuration):
    """Bytes read and written, seconds and megabytes, of the best of three runs.

    What is resident here counts for the program that is started, so no configuration is kept in memory.
    """
    best = None
    with tempfile.TemporaryFile() as given, tempfile.TemporaryFile() as written:
        for line in configuration:
            given.write(line.encode() + b"\n")
        given.flush()
        for _ in range(RUNS):
            given.seek(0)
            written.seek(0)
            written.truncate()
            run = subprocess.Popen([program, "run", "--workers", "1"], stdin=given, stdout=written)
            _, status, used = os.wait4(run.pid, 0)
            run.returncode = os.waitstatus_to_exitcode(status)
            if run.returncode not in (0, 3):
                sys.exit(f"{program} ended with status {run.returncode}")
            seconds, text = used.ru_utime + used.ru_stime, os.fstat(written.fileno()).st_size
            if best is None or seconds < best[2]:
                best = os.fstat(given.fileno()).st_size, text, seconds, used.ru_maxrss / 1024
    return best


def main():
    program = sys.argv[1] if len(sys.argv) > 1 else str(TOP / "tucson")
    shapes = [(f"{size} MB", mixed(size / 16)) for size in (1, 4, 16)]
    shapes += [("one agent has all items", one_agent()), ("one agent goes on, 1,023 wait", others_wait()),
               ("1,024 agents want one tuple", one_tuple())]
    print("| configuration | bytes | text, bytes | seconds | peak memory, MB |\n|---|---|---|---|---|")
    for name, configuration in shapes:
        read, text, seconds, megabytes = measured(program, configuration)
        print(f"| {name} | {read:,} | {text:,} | {seconds:.2f} | {megabytes:.0f} |", flush=True)


if __name__ == "__main__":
    main()
