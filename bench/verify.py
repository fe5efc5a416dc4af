#!/usr/bin/env python3
"""What `verify` takes beside the run that wrote the text, what reading takes, and whether hostile texts stay linear.

    verify.py [RUNNER [AUDITOR]] [--only WORD] [--scale X]
    verify.py [RUNNER [AUDITOR]] --configurations            the same of the texts of hostile.py's configurations

RUNNER is the program of `run` and `verify`, and AUDITOR that of `audit`: where they aren't given, those of the
repository, which are proved and built first (./tucson build). It prints the tables of docs/SPEED.md; with a word only
the rows whose names have it, and with a scale below 1 hostile texts are so much smaller.

Seconds are of processor time, the least of three runs, or of fewer where they are long. Memory is the most that was
resident, less that of an empty text; below some 20 MB it is this script's own. A work's growth is the ratio of times
over that of texts, beside its smallest text. Hostile texts are measured at a quarter, at a half and at the whole of
their sizes, and their growth is told as in hostile.py.
"""
import argparse
import dataclasses
import os
import shutil
import tempfile

import hostile
from hostile import SHARES, TOP, row_of, scripts, small, written_apart
from hostile_texts import HOSTILE, called, text_of

RUNS = 3
# What took so many seconds is not measured again.
LONG = 2.0
WORD = "x" * 600


# ---- works, by how many calls they make ----

def put_and_take(calls):
    """Tuples of few bytes are put and taken."""
    yield from small()
    yield from scripts(f"{op}(p({k}))" for k in range(calls // 2) for op in ("out", "inp"))


def put_and_take_wide(calls):
    """The same with tuples of some 600 bytes."""
    yield from small()
    yield f"tuple(c,w({WORD}))."
    for first in range(0, calls // 2, 200):
        numbers = range(first, min(first + 200, calls // 2))
        yield from scripts(["rdp(w(W))"] + [item for k in numbers for item in (f"out(p({k},W))", f"inp(p({k},_))")])


def counter(calls, word="w"):
    """A reaction counts the calls."""
    yield from small()
    yield f"tuple(c,count(0,{word}))."
    yield "spec(c,reaction(out(go),(in_r(count(N,W)),M is N+1,out_r(count(M,W)),in_r(go))))."
    yield from scripts(["out(go)"] * calls)


def counter_wide(calls):
    yield from counter(calls, WORD[:250])


def cascades(calls):
    """Each call leads to 1,000 reactions, each to the one before."""
    yield from small()
    yield "spec(c,reaction(out(n(N)),out_r(m(N))))."
    yield "spec(c,reaction(out_r(m(N)),(in_r(m(N)),N > 0,M is N-1,out_r(m(M)))))."
    yield from scripts(["out(n(998))"] * calls)


def waiting(calls):
    """A thousand agents wait, and one answers them one after another; so often."""
    rounds = calls // 2000
    yield from small(1001)
    for agent in range(1000):
        yield from scripts([f"in(p({agent},_))"] * rounds, agent, 200)
    yield from scripts((f"out(p({agent},{k}))" for k in range(rounds) for agent in range(1000)), 1000)


def full_of_reactions(calls):
    """A centre is full of reactions, and all else is refused."""
    yield from hostile.full_centre(calls / 99_000)


def full_of_requests(calls):
    """The same where it is full since 399 agents wait."""
    yield from small(400, 10_000)
    yield from (f"script(a{agent},[c ? in(never)])." for agent in range(1, 400))
    yield from scripts(["rdp(p)"] * calls)


@dataclasses.dataclass
class Work:
    """Configurations of one kind; `lines` makes the one of a number of calls."""
    name: str
    lines: object
    sizes: tuple
    agents: int = 1


WORKS = [
    Work("put and take", put_and_take, (18_000, 100_000)),
    Work("put and take, 600 bytes each", put_and_take_wide, (1_000, 8_500, 68_000)),
    Work("a counter", counter, (11_000, 100_000)),
    Work("a counter of 250 bytes", counter_wide, (1_100, 9_000, 72_000)),
    Work("cascades of 1,000", cascades, (30, 240, 1_850)),
    Work("1,000 agents that wait", waiting, (14_000, 98_000), 1001),
    Work("a centre full of 4,000,000 reactions", full_of_reactions, (1_000, 99_000)),
    Work("a centre full of 399 requests", full_of_requests, (10_000, 99_000), 400),
]
# The configurations of hostile.py, by their shares.
OF_HOSTILE = [Work(family.name, family.lines, (0.25, 1.0), 0)
              for family in hostile.FAMILIES if 2 not in family.statuses]


# ---- texts that are read to the end, and are none ----

def tree(depth):
    return f"f({tree(depth - 1)},{tree(depth - 1)})" if depth else "a"


TERMS = [
    ("trees of 511 nodes", tree(8)),
    ("compounds in each other, 199 deep", "f(" * 199 + "a" + ")" * 199),
    ("lists in each other, 199 deep", "[" * 199 + "]" * 199),
    ("lists of 990 digits", "[" + ",".join(["1"] * 990) + "]"),
]
READ = 16_000_000


def puts_of(term):
    """A text of puts of one term, without its last line."""
    yield from small()
    yield from ("%%", "tucson 2", "centre c")
    yield from called([f"out({term}) = done"] * (READ // (len(term) + 28)))
    yield "agent a0"


# ---- measures ----

def ran(program, words, given, written):
    """The run of the least time, and how what it wrote begins."""
    hostile.PROGRAM = program
    best = None
    for _ in range(RUNS):
        run = hostile.ran(given, written, words)
        if best is None or run.seconds < best.seconds:
            best = run
        if run.seconds > LONG:
            break
    written.seek(0)
    return best, written.read(200).decode().strip()


def judged(word, told, given, said):
    """A judgement, and a note where it isn't the one that is due."""
    run, line = ran(AUDITOR if word == "audit" else RUNNER, (word,), given, said)
    return run, "" if line.startswith(told) else f" **({line or run.status}, not {told})**"


def joined(both, conf, text):
    """Puts a configuration, the line that parts, and a text into a file."""
    both.seek(0)
    both.truncate()
    for file, mark in (conf, b"%%\n"), (text, b""):
        file.seek(0)
        shutil.copyfileobj(file, both)
        both.write(mark)
    both.flush()


def cut(file):
    """Takes its last line from a text."""
    size = file.seek(-20, os.SEEK_END) + 20
    last = file.read()[:-1].rindex(b"\n") + 1
    file.truncate(size - 20 + last)


def reading(work, text, both, said):
    """The megabytes a second at which a text is read that lacks its last line, where its names alone are declared."""
    with tempfile.TemporaryFile() as conf:
        written_apart(conf, small(work.agents))
        joined(both, conf, text)
    cut(both)
    run, note = judged("verify", "no text", both, said)
    return f"{os.fstat(text.fileno()).st_size / 1e6 / run.seconds:.0f}{note}"


def row_beside(work, calls, empty, first):
    """The row of a work, and its times and bytes, which are beside those of its first row."""
    with (tempfile.TemporaryFile() as conf, tempfile.TemporaryFile() as text, tempfile.TemporaryFile() as both,
          tempfile.TemporaryFile() as said):
        written_apart(conf, work.lines(calls))
        run, _ = ran(RUNNER, ("run", "--workers", "1"), conf, text)
        joined(both, conf, text)
        verify, note = judged("verify", "yes", both, said)
        read = reading(work, text, both, said) if work.agents else "-"
    size = run.written / 1e6
    first = first or (verify.seconds, size)
    growth = (verify.seconds / first[0]) / (size / first[1])
    memory = (verify.megabytes - empty) * hostile.MEGABYTE / run.written
    print(f"| {work.name}: {calls:,}{note} | {size:.1f} | {run.seconds:.2f} | {verify.seconds:.2f} "
          f"| {verify.seconds / max(run.seconds, 1e-3):.2f} | {memory:.0f} | {growth:.2f} | {read} |", flush=True)
    return first


def table_beside(works, only_word):
    """Works beside their runs."""
    with tempfile.TemporaryFile() as both, tempfile.TemporaryFile() as said:
        written_apart(both, [*small(), *text_of([])])
        empty = judged("verify", "yes", both, said)[0].megabytes
    print("| work | text, MB | run, s | verify, s | verify of run | memory, bytes a byte | growth | reading, MB/s |\n"
          "|---|---|---|---|---|---|---|---|", flush=True)
    for work in works:
        first = None
        for calls in work.sizes if only_word in work.name else ():
            first = row_beside(work, calls, empty, first)


def table_read(only_word):
    """Texts of dense terms, read."""
    print("\n| text of 16 MB | reading, s | MB/s | memory, bytes a byte |\n|---|---|---|---|", flush=True)
    for name, term in TERMS:
        if only_word in name:
            with tempfile.TemporaryFile() as given, tempfile.TemporaryFile() as said:
                written_apart(given, puts_of(term))
                run, note = judged("verify", "no text", given, said)
            print(f"| {name}{note} | {run.seconds:.2f} | {run.read / 1e6 / run.seconds:.0f} "
                  f"| {run.megabytes * hostile.MEGABYTE / run.read:.0f} |", flush=True)


def measured(family, share):
    with tempfile.TemporaryFile() as given, tempfile.TemporaryFile() as said:
        written_apart(given, family.lines(share))
        return judged(family.word, family.told, given, said)


def table_hostile(only_word, scale):
    """Hostile texts."""
    print("\n| text | bytes read | bytes written | a quarter, s | a half, s | the whole, s | peak memory, MB | growth |"
          "\n|---|---|---|---|---|---|---|---|", flush=True)
    for family in HOSTILE:
        if only_word in family.name:
            measures = [measured(family, share * scale) for share in SHARES]
            runs = [run for run, _ in measures]
            print(row_of(family.name, runs, [run.read for run in runs]) + measures[-1][1], flush=True)


def main():
    global RUNNER, AUDITOR
    words = argparse.ArgumentParser(description=__doc__, formatter_class=argparse.RawDescriptionHelpFormatter)
    words.add_argument("runner", nargs="?", default=TOP / "crates/tucson_run/out/tucson_run")
    words.add_argument("auditor", nargs="?", default=TOP / "crates/tucson_audit/out/tucson_audit")
    words.add_argument("--only", default="")
    words.add_argument("--scale", type=float, default=1.0)
    words.add_argument("--configurations", action="store_true")
    given = words.parse_args()
    RUNNER, AUDITOR = given.runner, given.auditor
    if given.configurations:
        table_beside(OF_HOSTILE, given.only)
    else:
        table_beside(WORKS, given.only)
        table_read(given.only)
        table_hostile(given.only, given.scale)


if __name__ == "__main__":
    main()
