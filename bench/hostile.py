#!/usr/bin/env python3
"""Hostile inputs: how long they take, how much memory, and whether the time grows faster than they do.

    hostile.py [--only WORD] [--scale X]   measures each family of inputs, and prints the table of docs/SPEED.md; with
                                           a scale below 1 all sizes are so much smaller
    hostile.py --garbage N [--seed S]      runs N garbage inputs, and tells what was not as it should be

The program is named by TUCSON; where it isn't, it is ./tucson, which is to be built.

A family is measured at a quarter, at a half and at the whole of its size. Its size is the bytes read and written and
the reactions that its budgets allow. Seconds are processor time, the best of two runs, or of one where that is long;
megabytes are the most that was resident at once, and some 19 where it was less. The growth is the ratio of times over
the ratio of sizes, of the whole beside the quarter: 1 where the time grows as the size, 4 where as its square. Above
1.3 it is marked. A time below 0.1 says little.
"""
import argparse
import collections
import concurrent.futures
import dataclasses
import os
import pathlib
import random
import re
import socket
import subprocess
import sys
import tempfile
import threading
import time

import hostile_sessions as sessions
from runs import declared

TOP = pathlib.Path(__file__).resolve().parent.parent
MEGABYTE = 1 << 20
PRIMITIVES = ("out", "in", "rd", "inp", "rdp", "set_spec", "get_spec")
# A script is a list, and a term is at most 1,000 deep and has at most 65,535 bytes of names.
ITEMS_OF_SCRIPT = 900
MOST_NAMES = 60_000
SHARES = (0.25, 0.5, 1.0)
TOO_FAST = 1.3
# The least of so many runs counts; one that takes longer than so many seconds is made once.
RUNS = 2
LONG = 0.5


@dataclasses.dataclass
class Family:
    """Inputs of one kind; `lines` makes the one of a share, and `tried` says how many reactions it may try."""
    name: str
    lines: object
    tried: object = lambda share: 0
    workers: str = "1"
    statuses: tuple = (0,)


def small(agents=1, budget=None):
    """One centre, a role that may do all, and so many agents."""
    yield f"centre(c,{budget})." if budget else "centre(c)."
    yield "role(r). " + " ".join(f"grant(r,c,{primitive})." for primitive in PRIMITIVES)
    yield from (f"agent(a{number},r)." for number in range(agents))


def scripts(items, agent=0, most=ITEMS_OF_SCRIPT):
    """An agent's scripts of these operations at the one centre."""
    script, names = [], 0
    for item in items:
        if script and (len(script) == most or names + len(item) > MOST_NAMES):
            yield f"script(a{agent},[{','.join(script)}])."
            script, names = [], 0
        script.append("c ? " + item)
        names += len(item) + 2
    if script:
        yield f"script(a{agent},[{','.join(script)}])."


def times(most, share):
    return max(1, int(most * share))


# ---- what is read ----

def filled(clause):
    """16 MB of one clause, which gets its number."""
    def lines(share):
        yield from small()
        left = int(16 * MEGABYTE * share) - 400
        number = 0
        while True:
            line = clause(number)
            left -= len(line) + 1
            if left < 0:
                return
            yield line
            number += 1
    return lines


def brackets(number):
    return "tuple(c," + "(" * 199 + "a" + ")" * 199 + ")."


def compounds(number):
    return "tuple(c," + "f(" * 199 + "a" + ")" * 199 + ")."


def long_name(number):
    return "tuple(c," + "".join(chr(97 + (number >> (4 * k)) % 16) for k in range(6)) + "a" * 65_517 + ")."


def quoted_name(number):
    return "tuple(c,'" + "\\'" * 65_500 + "')."


def deep_list(number):
    return "tuple(c,[" + ",".join(["1"] * 990) + "])."


def operators(number):
    return "tuple(c," + "-".join(["1"] * 990) + ")."


def long_variable(number):
    return f"spec(c,reaction(out(p{number}({'V' * 65_000})),true))." if number < 1000 else "role(r)."


def comment_lines(share):
    return text_of(share, "% a comment of a line, and nothing else ( ' \" /*\n")


def comment_blocks(share):
    return text_of(share, "/* a comment / * of / * / a block */ \t \n")


def one_comment(share):
    yield "/*" + " *" * int(8 * MEGABYTE * share - 4) + "*/"


def layout(share):
    return text_of(share, " \t\n\r   ")


def text_of(share, piece):
    yield piece * (int(16 * MEGABYTE * share) // len(piece))


def no_end(piece, front="tuple(c,"):
    """16 MB of one clause that has no end, or is too big, which is told."""
    def lines(share):
        yield from small()
        yield front + piece * (int(16 * MEGABYTE * share - 400) // len(piece))
    return lines


def one_script(share):
    """16 MB of 100,000 items of one agent."""
    yield from small()
    yield from scripts(f"out({'x' * 55}({k},{'y' * 60}))" if k % 2 == 0 else
                       f"inp({'x' * 55}({k - 1},{'y' * 60}))" for k in range(times(100_000, share)))


def one_clause(share):
    """One script, in 16 MB: between its items stands layout."""
    yield from small()
    items = ["c ? rdp(p)"] * 900
    yield "script(a0,[" + ("," + " " * int(18_000 * share)).join(items) + "])."


def everything(share):
    """64 centres, 64 roles, all grants, 1,000 reactions, 1,024 agents, 100,000 items."""
    yield from declared(share)


# ---- what is called ----

def variables(share):
    """Reactions with 256 variables each, of which each call triggers one."""
    yield from small()
    names = [f"V{k}" for k in range(256)]
    count = times(1000, share)
    for number in range(count):
        yield (f"spec(c,reaction(out(p{number}({','.join(names[:255])})),"
               f"(in_r(p{number}({','.join(names[:255])})),W is 1)))."
               ).replace("W is", "V255 is")
    yield from scripts((f"out(p{k % count}({','.join(['1'] * 255)}))" for k in range(4 * count)), most=30)


def many_triggered(share):
    """1,000 reactions, each of which each call triggers; the centre is full at last."""
    yield from small()
    yield from ["spec(c,reaction(out(p(X)),true))."] * 1000
    yield from scripts(f"out(p({k}))" for k in range(times(3900, share)))


def many_failing(share):
    """The same, and each puts a tuple and then fails."""
    yield from small()
    yield from ["spec(c,reaction(out(p(X)),(out_r(q(X)),in_r(none))))."] * 1000
    yield from scripts(f"out(p({k}))" for k in range(times(2000, share)))


def over_budget(share):
    """A loop of reactions, which is over its budget of 10,000 and is undone, at each call."""
    yield from small(budget=10_000)
    yield "spec(c,reaction(out(a),out_r(a))). spec(c,reaction(out_r(a),out_r(a)))."
    yield from scripts(["out(a)"] * times(390, share))


def over_budget_taking(share):
    """The same, among 100,000 tuples of which it takes and puts back."""
    yield from small(budget=10_000)
    yield "spec(c,reaction(out(a),out_r(a))). spec(c,reaction(out_r(a),(in_r(p(X)),in_r(a),out_r(p(X)),out_r(a))))."
    yield from (f"tuple(c,p({k}))." for k in range(times(100_000, share)))
    yield from scripts(["out(a)"] * times(200, share))


def long_bodies(share):
    """Bodies of 64 goals, each of which takes or puts, at each call."""
    yield from small()
    yield "spec(c,reaction(out(a(X)),(" + ",".join(["out_r(b(X))", "in_r(b(X))"] * 32) + ")))."
    yield from scripts(f"out(a({k}))" for k in range(times(20_000, share)))


def full_centre(share):
    """A centre that is full, where all else is refused."""
    yield from small(budget=10_000)
    yield "spec(c,reaction(out(a),out_r(a))). spec(c,reaction(out_r(a),out_r(a)))."
    yield from scripts(["out(a)"] * 400 + ["rdp(p)"] * times(99_000, share))


# ---- equations ----

def chain(name, count):
    """`count` variables, each the term of two of the one before."""
    return [f"{name}{k + 1} = f({name}{k},{name}{k})" for k in range(count)]


def reaction_calls(body, head="out(go)", call="out(go)", count=20_000):
    """Calls that trigger a reaction of this body."""
    def lines(share):
        yield from small()
        yield f"spec(c,reaction({head},({','.join(body)})))."
        yield from scripts([call] * times(count, share))
    return lines


def template_chain(name, count):
    """Arguments that make a chain of doubled terms of two lists of arguments."""
    return [part for k in range(count) for part in (f"f({name}{k},{name}{k})", f"{name}{k + 1}")]


def head_chain(name, count):
    return [f"{name}{k}" for k in range(1, count + 1) for _ in range(2)]


def head_bomb(share):
    """A head and a template by which two chains of 60 doubled terms are made equal."""
    yield from small()
    head = head_chain("X", 60) + head_chain("Y", 60) + ["X60", "Y60"]
    yield f"spec(c,reaction(inp(p({','.join(head)})),true))."
    template = template_chain("A", 60) + template_chain("B", 60) + ["A60", "B60"]
    yield from scripts((f"inp(p({','.join(template)}))" for _ in range(times(2000, share))), most=1)


def script_bomb(share):
    """Scripts whose terms double at each step, until they are too big."""
    yield from small()
    items = ["out(t(a))"]
    for k in range(14):
        items += [f"inp(t(X{k}))", f"out(t(f(X{k},X{k})))"]
    for _ in range(times(400, share)):
        yield from scripts(items)


def cascade_bomb(share):
    """A cascade whose tuple doubles at each reaction, until it is too big."""
    yield from small()
    yield "spec(c,reaction(out(t(X)),(in_r(t(X)),out_r(t(f(X,X))))))."
    yield "spec(c,reaction(out_r(t(X)),(in_r(t(X)),out_r(t(f(X,X))))))."
    yield from scripts(["out(t(a))", "inp(t(_))"] * times(500, share), most=200)


# ---- searches ----

def young_end(tuples, calls, items, spec=None):
    """Calls among tuples that differ from what each looks for."""
    def lines(share):
        yield from small()
        if spec:
            yield spec
        count = times(tuples, share)
        yield from (f"tuple(c,{items[0](k, count)})." for k in range(count))
        yield from scripts((items[1](k, count) for k in range(times(calls, share))), most=250)
    return lines


def waiting(share, agents=1024):
    """All agents wait but one, which goes on."""
    yield from small(agents)
    yield from (f"script(a{number},[c ? in(never({number}))])." for number in range(1, agents))
    yield from scripts(["out(p)", "inp(p)"] * times(49_000, share))


def few_waiting(share):
    """The agents that wait grow in number, and what the one does doesn't."""
    yield from waiting_for(times(1023, share), 20_000)


def waiting_for(agents, calls):
    yield from small(agents + 1)
    yield from (f"script(a{number},[c ? in(never({number}))])." for number in range(1, agents + 1))
    yield from scripts(["out(p)", "inp(p)"] * (calls // 2))


def young_requests(share):
    """1,023 requests wait for tuples of one functor and first argument, and each tuple is another."""
    yield from small(1024)
    yield from (f"script(a{number},[c ? in(p(k,{number},X))])." for number in range(1, 1024))
    yield from scripts(f"out(p(k,0,{k}))" for k in range(times(20_000, share)))


# ---- texts of reactions ----

def spec_texts(share):
    """set_spec of 1,000 clauses, each time written out."""
    yield from small()
    text = "reaction(out(a),true). " * 1000
    yield from scripts([f"set_spec('{text}')"] * times(700, share), most=2)


def spec_again(share):
    """set_spec of 1,000 clauses that a variable holds."""
    yield from small()
    text = "reaction(out(a),true). " * 1000
    yield f"tuple(c,'{text}')."
    for _ in range(times(8, share)):
        yield from scripts(["rdp(X)"] + ["set_spec(X)"] * 250)


def spec_told(share):
    """get_spec of 1,000 clauses."""
    yield from small()
    yield from ["spec(c,reaction(out(a),true))."] * 1000
    yield from scripts(["get_spec"] * times(2000, share))


def big_tuple(share):
    """A tuple of 65,000 bytes is read again and again."""
    yield from small()
    yield "tuple(c," + "a" * 65_000 + ")."
    yield from scripts(["rdp(_)"] * times(1000, share), most=250)


def long_entry(share):
    """One call whose reactions read a tuple of 65,000 bytes 62 times each."""
    yield from small(budget=times(100, share))
    yield "tuple(c,big(" + "a" * 65_000 + "))."
    yield "spec(c,reaction(out(go),out_r(go)))."
    yield "spec(c,reaction(out_r(go),(" + ",".join(["rd_r(big(X))"] * 62) + ",out_r(go))))."
    yield from scripts(["out(go)"])


KEYED = "spec(c,reaction(out(get(K)),(in_r(get(K)),rd_r(p(K,V)))))."

FAMILIES = [
    Family("199 brackets round an atom", filled(brackets)),
    Family("199 compounds in each other", filled(compounds)),
    Family("names of 65,523 bytes", filled(long_name)),
    Family("quoted names of 65,500 quotes", filled(quoted_name)),
    Family("lists of 990", filled(deep_list)),
    Family("990 operators in a row", filled(operators)),
    Family("comments of a line", comment_lines),
    Family("comments in blocks", comment_blocks),
    Family("one comment", one_comment),
    Family("blanks and line ends", layout),
    Family("brackets without an end", no_end("("), statuses=(2,)),
    Family("a list without an end", no_end("a,", "tuple(c,["), statuses=(2,)),
    Family("a quoted name without an end", no_end("a", "tuple(c,'"), statuses=(2,)),
    Family("digits without an end", no_end("7"), statuses=(2,)),
    Family("one variable's name", no_end("A"), statuses=(2,)),
    Family("variables without an end", no_end("A,_,"), statuses=(2,)),
    Family("minus signs without an end", no_end("- "), statuses=(2,)),
    Family("one agent's 100,000 items", one_script),
    Family("one script with layout in it", one_clause),
    Family("64 centres, 64 roles, all grants, 1,024 agents", everything),
    Family("256 variables in each of 1,000 reactions", variables, lambda share: times(4000, share)),
    Family("1,000 reactions to each call", many_triggered, lambda share: 1000 * times(3900, share)),
    Family("1,000 reactions to each call, which fail", many_failing, lambda share: 1000 * times(2000, share)),
    Family("a budget of 10,000 runs out at each call", over_budget, lambda share: 10_000 * times(390, share)),
    Family("the same, among 100,000 tuples", over_budget_taking, lambda share: 10_000 * times(200, share)),
    Family("64 goals that put and take", long_bodies, lambda share: 64 * times(20_000, share)),
    Family("calls at a full centre", full_centre, lambda share: 4_000_000),
    Family("a chain of 60 doubled terms", reaction_calls(chain("X", 60) + ["out_r(X60)"])),
    Family("two chains made equal",
           reaction_calls(chain("X", 30) + chain("Y", 30) + ["X0 = Y0", "X30 = Y30"])),
    Family("two chains that can't be equal",
           reaction_calls(chain("X", 30) + chain("Y", 30) + ["X0 = a", "Y0 = b", "X30 = Y30"])),
    Family("two chains held apart",
           reaction_calls(chain("X", 30) + chain("Y", 30) + ["X0 = Y0", "X30 \\= Y30"])),
    Family("a chain in itself", reaction_calls(chain("X", 60) + ["X0 = X60"])),
    Family("a chain of 60 doubled sums",
           reaction_calls([g.replace("f(", "'+'(") for g in chain("X", 60)] + ["X0 = 0", "R is X60"], count=2000)),
    Family("a chain looked for", reaction_calls(chain("X", 60) + ["no_r(p(X60))"])),
    Family("a head that makes two chains equal", head_bomb, lambda share: times(2000, share)),
    Family("scripts whose terms double", script_bomb),
    Family("a cascade whose tuple doubles", cascade_bomb, lambda share: 15 * times(500, share)),
    Family("equal tuples, and a template of their key", young_end(
        10_000, 1000, (lambda k, n: "p(k,1)", lambda k, n: "inp(p(k,2))"))),
    Family("tuples of one key and first argument, the youngest taken", young_end(
        10_000, 1000, (lambda k, n: f"p(k,{k})", lambda k, n: f"inp(p(k,{n - 1 - k}))"))),
    Family("tuples whose first argument differs, the youngest taken", young_end(
        10_000, 1000, (lambda k, n: f"p({k},k)", lambda k, n: f"inp(p({n - 1 - k},_))"))),
    Family("tuples by their second argument, the youngest taken", young_end(
        10_000, 1000, (lambda k, n: f"p({k},{k})", lambda k, n: f"inp(p(_,{n - 1 - k}))"))),
    Family("tuples of two arguments that differ, and p(X,X)", young_end(
        10_000, 1000, (lambda k, n: f"p({k},{k + 1})", lambda k, n: "inp(p(X,X))"))),
    Family("a reaction that looks a tuple up by what its head has", young_end(
        10_000, 1000, (lambda k, n: f"p({k},{k})", lambda k, n: f"out(get({n - 1 - k}))"), KEYED),
        lambda share: times(1000, share)),
    Family("the oldest half taken, then any tuple", young_end(
        100_000, 99_000, (lambda k, n: f"p({k})", lambda k, n: f"inp(p({k}))" if k < n // 2 - 2 else "rdp(_)"))),
    Family("each second tuple taken, then the others", young_end(
        99_000, 99_000, (lambda k, n: f"p({k})",
                         lambda k, n: f"inp(p({2 * k if 2 * k < n else n - 1 - (2 * k - n)}))"))),
    Family("1,023 agents wait, one goes on", waiting, statuses=(3,)),
    Family("1,023 agents wait, one goes on, 4 workers", waiting, workers="4", statuses=(3,)),
    Family("more agents wait, one makes 20,000 calls", few_waiting, statuses=(3,)),
    Family("more agents wait, one makes 20,000 calls, 4 workers", few_waiting, workers="4", statuses=(3,)),
    Family("1,023 requests of one key, and tuples of it", young_requests, statuses=(3,)),
    Family("set_spec of 1,000 clauses", spec_texts),
    Family("set_spec of 1,000 clauses that a variable holds", spec_again),
    Family("get_spec of 1,000 clauses", spec_told),
    Family("rdp of a tuple of 65,000 bytes", big_tuple),
    Family("one call whose reactions read it 6,200 times", long_entry),
]


class Run:
    """What a run took: its bytes, its status, its seconds and its megabytes."""

    def __init__(self, read, written, status, seconds, megabytes):
        self.read, self.written, self.status = read, written, status
        self.seconds, self.megabytes = seconds, megabytes


def measured(family, share):
    """The best of some runs, or one where that is long."""
    best = None
    with tempfile.TemporaryFile() as given, tempfile.TemporaryFile() as written:
        written_apart(given, family.lines(share))
        for _ in range(RUNS):
            run = ran(given, written, ("run", "--workers", family.workers))
            if best is None or run.seconds < best.seconds:
                best = run
            if run.seconds > LONG:
                break
    return best


def written_apart(file, lines):
    """Writes lines to a file, in a process of its own: what is resident here would count for the program's memory."""
    writer = os.fork()
    if not writer:
        for line in lines:
            file.write(line.encode() + b"\n")
        file.flush()
        os._exit(0)
    os.waitpid(writer, 0)


def ran(given, written, words):
    """One run on an open file."""
    for file in (given, written):
        file.seek(0)
    written.truncate()
    run = subprocess.Popen([PROGRAM, *words], stdin=given, stdout=written)
    _, status, used = os.wait4(run.pid, 0)
    run.returncode = os.waitstatus_to_exitcode(status)
    return Run(os.fstat(given.fileno()).st_size, os.fstat(written.fileno()).st_size, run.returncode,
               used.ru_utime + used.ru_stime, used.ru_maxrss / 1024)


def row_of(name, runs, sizes):
    """A row of the table."""
    growth = (runs[-1].seconds / max(runs[0].seconds, 1e-3)) / (sizes[-1] / sizes[0])
    told = f"**{growth:.2f}**" if growth > TOO_FAST else f"{growth:.2f}"
    seconds = " | ".join(f"{run.seconds:.2f}" for run in runs)
    return (f"| {name} | {runs[-1].read:,} | {runs[-1].written:,} | {seconds} | {runs[-1].megabytes:.0f} "
            f"| {told} |")


def measure(family):
    shares = [share * SCALE for share in SHARES]
    runs = [measured(family, share) for share in shares]
    sizes = [run.read + run.written + family.tried(share) for run, share in zip(runs, shares)]
    wrong = {run.status for run in runs} - set(family.statuses)
    return row_of(family.name, runs, sizes) + (f" status {wrong}, not {family.statuses}" if wrong else "")


# ---- standard input that is too long ----

def too_long(share):
    """400 MB of garbage through a pipe; what the program has taken of it when it ends."""
    piece = random.Random(7).randbytes(MEGABYTE)
    run = subprocess.Popen([PROGRAM, "run"], stdin=subprocess.PIPE, stdout=subprocess.PIPE)
    taken = 0
    try:
        for _ in range(times(400, share)):
            run.stdin.write(piece)
            taken += len(piece)
        run.stdin.close()
    except BrokenPipeError:
        pass
    said = run.stdout.read()
    _, status, used = os.wait4(run.pid, 0)
    run.returncode = os.waitstatus_to_exitcode(status)
    right = said == b"configuration refused: clause 0: length\n"
    return Run(taken, len(said), run.returncode if right else said, used.ru_utime + used.ru_stime,
               used.ru_maxrss / 1024)


# ---- sessions ----

def session_flood(line, most, front=b""):
    """So many of one line, sent by one connection."""
    def one(share):
        server = sessions.Server(1)
        connection = server.dial()
        count = times(most, share)
        got = []
        reader = threading.Thread(target=lambda: got.append(replied(connection)))
        reader.start()
        try:
            connection.sendall(front)
            left = count
            while left:
                batch = min(left, max(1, MEGABYTE // len(line)))
                connection.sendall(line * batch)
                left -= batch
            connection.shutdown(socket.SHUT_WR)
        except OSError:
            pass
        reader.join()
        return ended(server, len(line) * count, got[0])
    return one


def replied(connection):
    """How many bytes come until the peer ends."""
    count = 0
    try:
        while piece := connection.recv(1 << 16):
            count += len(piece)
    except OSError:
        pass
    return count


def byte_a_second(share):
    """1,000 connections that send a byte a second, for half a minute."""
    agents = times(1000, share)
    server = sessions.Server(agents)
    connections = [server.dial() for _ in range(agents)]
    line = b"c ? out(p(1))\nc ? inp(p(X)) \n"
    for place in range(30):
        until = time.monotonic() + 1
        for connection in connections:
            connection.sendall(line[place:place + 1])
        time.sleep(max(0.0, until - time.monotonic()))
    for connection in connections:
        connection.close()
    return ended(server, agents * 30, 0)


def ended(server, sent, got):
    _, status, used = os.wait4(server.process.pid, 0)
    server.process.returncode = os.waitstatus_to_exitcode(status)
    server.reader.join()
    return Run(sent, got + len(server.text), server.process.returncode, used.ru_utime + used.ru_stime,
               used.ru_maxrss / 1024)


OTHERS = [
    ("400 MB of garbage on standard input", too_long, 2),
    ("a session's empty lines", session_flood(b"\n", 4_000_000), 0),
    ("polls while nothing is pending", session_flood(b"poll\n", 4_000_000), 0),
    ("polls while a call is pending", session_flood(b"poll\n", 1_000_000, b"c ? in(x)\n"), 3),
    ("lines of 131,072 bytes: blanks", session_flood(b"poll" + b" " * 131_068 + b"\n", 1000), 0),
    ("lines of 131,072 bytes: brackets", session_flood(b"(" * 131_072 + b"\n", 1000), 0),
    ("lines of 131,072 bytes: a list", session_flood(b"c ? out([" + b"1," * 65_530 + b"1])\n", 1000), 0),
    ("lines of 65,530 bytes of a name, put", session_flood(b"c ? out(" + b"x" * 65_522 + b")\n", 2000), 0),
    ("calls of one session", session_flood(b"c ? out(p(1))\nc ? inp(p(X))\n", 300_000), 0),
    ("1,000 connections, a byte a second", byte_a_second, 0),
]


def measure_other(name, one, status):
    runs = []
    for share in SHARES:
        best = None
        for _ in range(1 if name.endswith("a second") else 2):
            run = one(share * SCALE)
            if best is None or run.seconds < best.seconds:
                best = run
        runs.append(best)
    wrong = {run.status for run in runs} - {status}
    return row_of(name, runs, [run.read + run.written for run in runs]) + (f" {wrong}" if wrong else "")


def table(only):
    print("| input | bytes read | bytes written | a quarter, s | a half, s | the whole, s | peak memory, MB | growth |"
          "\n|---|---|---|---|---|---|---|---|", flush=True)
    for family in FAMILIES:
        if only in family.name:
            print(measure(family), flush=True)
    for name, one, status in OTHERS:
        if only in name:
            print(measure_other(name, one, status), flush=True)


# ---- garbage ----

CAUSES = ("syntax", "size", "shape", "reaction", "unknown centre", "unknown role", "unknown agent", "twice",
          "not ground", "count", "length")
REFUSED = re.compile(rb"configuration refused: clause \d+: (%s)\n" % "|".join(CAUSES).encode())
TOKENS = ("(", ")", "[", "]", ",", ".", "|", "?", "'", "\\", "/*", "*/", "%", "_", "X", "a", "0", "-1", "- ", "--",
          "9223372036854775807", "9223372036854775808", "-9223372036854775808", "''", "'\\n'", "\0", "\xff", "\t", "\r",
          " is ", " \\= ", "=:=", " mod ", "//", "centre(c).", "centre(c,1).", "agent(a,r).", "tuple(c,p(1)).",
          "reaction(out(a),out_r(a))", "script(a,[c ? get_spec]).", "spec(c,reaction(out_r(X),out_r(X))).")
SECONDS = 10


def seeds():
    """Every example, and each row of the table of whole runs."""
    texts = [path.read_bytes() for path in sorted((TOP / "examples").rglob("*.conf"))]
    lines = (TOP / "crates/test_worked_runs/stdin").read_bytes().split(b"\n")
    row = []
    for line in lines:
        if line.startswith(b"%% "):
            texts.append(b"\n".join(row))
            row = []
        elif not re.match(rb"%(words|also|logs|read|write|link|refuse|show|repeat)\b", line):
            row.append(line)
    texts.append(b"\n".join(row))
    return [text for text in texts if text]


def piece_of(draw, text):
    first = draw.randrange(len(text) + 1)
    return first, min(len(text), first + draw.choice((1, 2, 5, 20, 100, 1000)))


def harmed(draw, text, others):
    """The text with a harm: flipped bits, a cut, a piece that is dropped, doubled, of another text, or elsewhere."""
    way = draw.randrange(14)
    first, last = piece_of(draw, text)
    if way >= 11:
        return exchanged(draw, text, rb"[A-Za-z_]\w*|-?\d+|'[^'\n]*'")
    if way >= 8:
        return exchanged(draw, text, rb"[^\n]*\n|[a-z]+\([^\n]*?\)\.? ")
    if way == 0 and text:
        flipped = bytearray(text)
        for _ in range(draw.choice((1, 1, 2, 8))):
            flipped[draw.randrange(len(text))] ^= 1 << draw.randrange(8)
        return bytes(flipped)
    if way == 1:
        return text[:first]
    if way == 2:
        return text[:first] + text[last:]
    if way == 3:
        place = draw.randrange(len(text) + 1)
        return text[:place] + text[first:last] * draw.choice((1, 1, 2, 300)) + text[place:]
    if way == 4:
        other = draw.choice(others)
        start, end = piece_of(draw, other)
        return text[:first] + other[start:end] + text[last:]
    if way == 5:
        return text[:first] + draw.choice(TOKENS).encode("latin1") + text[first:]
    if way == 6:
        return text[:first] + draw.choice(TOKENS).encode("latin1") + text[last:]
    return text[first:] + text[:first]


def exchanged(draw, text, parts):
    """The text with one of its words, or of its lines or clauses, in the place of another, or before it."""
    found = list(re.finditer(parts, text))
    if not found:
        return text
    one, other = draw.choice(found), draw.choice(found)
    behind = one.end() if draw.random() < 0.7 else one.start()
    return text[:one.start()] + other[0] + text[behind:]


def garbage(draw, texts):
    """Bytes at random, or a text that was harmed a few times."""
    if draw.random() < 0.05:
        return draw.randbytes(draw.choice((1, 10, 100, 1000, 100_000)))
    text = draw.choice(texts)
    for _ in range(draw.choice((1, 1, 1, 2, 4))):
        text = harmed(draw, text, texts)
    return text


def wrong_end(status, text, told):
    """What isn't as it should be at the end of a run, or None."""
    if status == 2:
        return None if REFUSED.fullmatch(text) and not told else "another line under 2"
    if status not in (0, 3):
        return f"status {status}"
    end = b"end ended\n" if status == 0 else b"end blocked\n"
    if not text.startswith(b"tucson 2\n") or not text.endswith(b"\n" + end):
        return "no whole text"
    return None


def surely(run):
    """The run, made once more where it had no end in time: on a busy machine all may have to wait."""
    status, told = run(SECONDS)
    return run(6 * SECONDS) if status == "none" else (status, told)


def ran_on(text, seconds):
    """A run of garbage: its status, and what was wrong."""
    run = subprocess.Popen([PROGRAM, "run", "--workers", "2"], stdin=subprocess.PIPE, stdout=subprocess.PIPE,
                           stderr=subprocess.PIPE)
    try:
        written, told = run.communicate(text, seconds)
    except subprocess.TimeoutExpired:
        run.kill()
        run.communicate()
        return "none", f"no end within {seconds} s"
    return run.returncode, wrong_end(run.returncode, written, told) or (told and f"it says {told[:80]!r}" or None)


def lines_of(text, draw, texts):
    """What a session sends: the items of the text's scripts, some of them harmed."""
    lines = re.findall(rb"[a-z]\w* \? [^\n]*?\)(?=[,\]])", text) + [b"poll", b"get_spec"]
    return b"\n".join(harmed(draw, line, texts) if draw.random() < 0.3 else line for line in lines) + b"\nquit\n"


def served_on(text, sent, seconds):
    """A service of garbage, with one session of garbage; its other agents come and go."""
    with socket.socket() as probe:
        probe.bind(("127.0.0.1", 0))
        port = probe.getsockname()[1]
    run = subprocess.Popen([PROGRAM, "serve", str(port)], stdin=subprocess.PIPE, stdout=subprocess.PIPE,
                           stderr=subprocess.DEVNULL)
    ended = threading.Event()
    peers = threading.Thread(target=come_and_go, args=(port, sent, ended))
    peers.start()
    try:
        written, _ = run.communicate(text, seconds)
        return run.returncode, wrong_end(run.returncode, written, b"")
    except subprocess.TimeoutExpired:
        run.kill()
        run.communicate()
        return "none", f"no end within {seconds} s"
    finally:
        ended.set()
        peers.join()


def come_and_go(port, sent, ended):
    """The first connection sends, the others close at once, until the service has ended."""
    is_first = True
    while not ended.is_set():
        try:
            with socket.create_connection(("127.0.0.1", port)) as peer:
                peer.settimeout(SECONDS)
                if is_first:
                    is_first = False
                    sessions.talk(peer, sent.replace(b"\nwait\n", b"\npoll\n"))
        except OSError:
            time.sleep(0.005)


def garbage_runs(count, seed):
    """Runs on garbage, each fiftieth a service; each by its number, so that one can be made again."""
    texts = seeds()
    ends, wrong = collections.Counter(), []

    def one(number):
        draw = random.Random(f"{seed} {number}")
        text = garbage(draw, texts)
        if number % 50 == 0:
            sent = lines_of(text, draw, texts)
            status, told = surely(lambda seconds: served_on(text, sent, seconds))
            return number, f"serve {status}", told, text
        status, told = surely(lambda seconds: ran_on(text, seconds))
        return number, f"run {status}", told, text

    with concurrent.futures.ThreadPoolExecutor(4) as pool:
        for number, end, told, text in pool.map(one, range(count)):
            ends[end] += 1
            if told:
                wrong.append(number)
                print(f"input {number} of seed {seed}, {end}: {told}: {text[:200]!r}", flush=True)
    print(f"{count} inputs of {len(texts)} texts: " + ", ".join(f"{end}: {n}" for end, n in sorted(ends.items()))
          + f"; {len(wrong)} not as they should be")
    return bool(wrong)


def main():
    global PROGRAM, SCALE
    words = argparse.ArgumentParser(description=__doc__, formatter_class=argparse.RawDescriptionHelpFormatter)
    words.add_argument("--only", default="")
    words.add_argument("--scale", type=float, default=1.0)
    words.add_argument("--garbage", type=int)
    words.add_argument("--seed", type=int, default=1)
    given = words.parse_args()
    PROGRAM = sessions.PROGRAM = os.environ.get("TUCSON", str(TOP / "tucson"))
    SCALE = given.scale
    if given.garbage:
        sys.exit(garbage_runs(given.garbage, given.seed))
    table(given.only)


if __name__ == "__main__":
    main()
