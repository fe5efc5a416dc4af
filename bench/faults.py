#!/usr/bin/env python3
"""The program, with each allocation and each call of the system failing in turn.

    faults.py [--only WORD]

The program is named by TUCSON; where it isn't, it is ./tucson, which is to be built (the script ./tucson itself can't
be tried so: give crates/tucson_run/out/tucson_run, or another build). faults.c stands before the C library's calls; it
is compiled into a temporary folder by cc.

A case is a run of the program. A fault is one call that fails, the k-th, for every k up to 3,000, then every 7th and
49th; or all calls from the k-th on, for every k up to 300, then every 7th and 49th. In the last case, which takes long,
it is a tenth of these. What is due is in DUE: the statuses, whether the text is that of a run without a
fault, or a beginning of it, or nothing. With two workers the calls' order isn't fixed: there a text is held against the
texts of many runs without a fault, and otherwise by its lines. One line is printed for each case and fault: how many k,
and how many ended with which status; and one for each difference.
"""
import argparse
import collections
import errno
import os
import pathlib
import re
import signal
import socket
import subprocess
import sys
import tempfile
import threading
import time

TOP = pathlib.Path(__file__).resolve().parent.parent
HERE = pathlib.Path(__file__).resolve().parent
GIVEN_UP = 20.0
EVERY = 3000
FOR_EVER = 1 << 60
GRANTS = "".join(f"grant(r,c,{p}). " for p in ("out", "in", "rd", "inp", "rdp", "set_spec", "get_spec"))

# Lines of a text; a text that was cut may end amid the last one.
LINE = re.compile(rb"^(tucson \d|centre .+|agent \S+|(call|look) \S+ \d+ .+ = .+|give \S+ \d+ = .+"
                  rb"|  \d+ (fired|failed) \d+.*|\d+ \S+ .+|end (ended|blocked))$")


class Fault:
    """A call that fails: its name, how, whether all later ones fail too, and what is due."""

    def __init__(self, name, call, how, due, lasting=False):
        self.name, self.call, self.how, self.due, self.lasting = name, call, how, due, lasting


class Outcome:
    def __init__(self, status, text, replies=()):
        self.status, self.text, self.replies = status, text, replies


# ---- what is due: it gives what is wrong, or None ----

def the_same(case, end):
    if end.status != case.plain.status:
        return f"status {end.status}, not {case.plain.status}"
    return None if case.is_whole(end) else "another text"


def no_text(status):
    def due(case, end):
        if end.status != status:
            return f"status {end.status}, not {status}"
        return "a text" if end.text else None
    return due


def beginning(status):
    def due(case, end):
        if end.status != status:
            return f"status {end.status}, not {status}"
        return None if case.is_beginning(end) else "no beginning of the text"
    return due


def no_memory(case, end):
    """Either want of memory is told, or nothing was changed by it."""
    if end.status == 6:
        return None if case.is_beginning(end) else "no beginning of the text"
    if case.is_service and end.status in (0, 3):
        return None if case.is_whole(end) else "another text"
    return the_same(case, end)


def no_port_or_the_same(case, end):
    """The first option is the port's, the others are connections'."""
    return None if end.status == 8 and not end.text else the_same(case, end)


def no_door(case, end):
    """The text of the sessions that there were."""
    if end.status != 8:
        return f"status {end.status}, not 8"
    return None if case.is_whole(end) else "another text"


def no_port_or_no_door(case, end):
    """The first is the listener's, the others are connections'."""
    return None if end.status == 8 and not end.text else no_door(case, end)


def session_ends(case, end):
    """A session has ended early, and the text is whole."""
    if end.status not in (0, 3):
        return f"status {end.status}, not 0 or 3"
    return None if case.is_whole(end) else "another text"


INPUT = [Fault("read, EIO", "read", errno.EIO, no_text(5)),
         Fault("read, EISDIR", "read", errno.EISDIR, no_text(5)),
         Fault("read, EINTR", "read", errno.EINTR, the_same),
         Fault("read, one byte", "read", 0, the_same),
         Fault("reads, one byte each", "read", 0, the_same, True)]
OUTPUT = [Fault("write, ENOSPC", "write", errno.ENOSPC, beginning(1)),
          Fault("write, EPIPE", "write", errno.EPIPE, beginning(1)),
          Fault("write, EIO", "write", errno.EIO, beginning(1)),
          Fault("writes, ENOSPC from then on", "write", errno.ENOSPC, beginning(1), True),
          Fault("write, EINTR", "write", errno.EINTR, the_same),
          Fault("write, one byte", "write", 0, the_same),
          Fault("writes, one byte each", "write", 0, the_same, True)]
MEMORY = [Fault("an allocation", "memory", 1, no_memory),
          Fault("allocations from then on", "memory", 1, no_memory, True)]
THREADS = [Fault("a thread, EAGAIN", "thread", errno.EAGAIN, the_same),
           Fault("threads from then on", "thread", errno.EAGAIN, the_same, True)]
# Without a thread a session is served before the next is accepted, which may be late for who waits for it.
NO_THREAD = [Fault("a thread, EAGAIN", "thread", errno.EAGAIN, session_ends),
             Fault("threads from then on", "thread", errno.EAGAIN, session_ends, True)]
NET = [Fault("socket, EMFILE", "socket", errno.EMFILE, no_text(8)),
       Fault("bind, EADDRINUSE", "bind", errno.EADDRINUSE, no_text(8)),
       Fault("listen, EADDRINUSE", "listen", errno.EADDRINUSE, no_text(8)),
       Fault("accept, EMFILE", "accept", errno.EMFILE, no_door),
       Fault("accept, EINTR", "accept", errno.EINTR, the_same),
       Fault("accept, ECONNABORTED", "accept", errno.ECONNABORTED, the_same),
       Fault("recv, ECONNRESET", "recv", errno.ECONNRESET, session_ends),
       Fault("recv, EINTR", "recv", errno.EINTR, the_same),
       Fault("recv, one byte", "recv", 0, the_same),
       Fault("recv, one byte each", "recv", 0, the_same, True),
       Fault("send, EPIPE", "send", errno.EPIPE, session_ends),
       Fault("send, EINTR", "send", errno.EINTR, the_same),
       Fault("send, one byte", "send", 0, the_same),
       Fault("send, one byte each", "send", 0, the_same, True),
       Fault("epoll_create, EMFILE", "poll", errno.EMFILE, no_text(8)),
       Fault("epoll_ctl, ENOSPC", "watch", errno.ENOSPC, no_port_or_no_door),
       Fault("epoll_wait, EINTR", "rest", errno.EINTR, the_same),
       Fault("what is told, EIO", "tell", errno.EIO, the_same),
       Fault("what is told, one byte", "tell", 0, the_same),
       Fault("setsockopt, EINVAL", "option", errno.EINVAL, no_port_or_the_same),
       Fault("shutdown, ENOTCONN", "shutdown", errno.ENOTCONN, the_same)]


# ---- the cases ----

class Case:
    """A run whose input and words are fixed."""
    is_service = False

    def __init__(self, name, words, given=b"", ordered=True, faults=None, every=EVERY):
        self.name, self.words, self.given, self.ordered, self.every = name, words, given, ordered, every
        self.faults = INPUT + OUTPUT + MEMORY + THREADS if faults is None else faults
        self.texts = set()

    def prepare(self):
        for _ in range(1 if self.ordered else 200):
            self.plain = self.run({})
            self.texts.add(self.plain.text)

    def run(self, fault):
        run = subprocess.Popen([PROGRAM, *self.words], stdin=subprocess.PIPE, stdout=subprocess.PIPE,
                               stderr=subprocess.DEVNULL, env=environment(fault))
        try:
            text, _ = run.communicate(self.given, GIVEN_UP)
        except subprocess.TimeoutExpired:
            run.kill()
            run.communicate()
            return Outcome("none: it hangs", b"")
        return Outcome(run.returncode, text)

    def is_whole(self, end):
        if end.text in self.texts:
            return True
        return not self.ordered and end.text.endswith((b"end ended\n", b"end blocked\n")) and has_lines(end.text)

    def is_beginning(self, end):
        if any(text.startswith(end.text) for text in self.texts):
            return True
        return not self.ordered and has_lines(end.text)


class Service(Case):
    """`serve` with jobs.conf and both of its programs, as jobs.sh leads them, line by line."""
    is_service = True
    LINES = [("anna", "jobs ? out(job(1,sort))"), ("ben", "jobs ? in(job(N,What))"),
             ("ben", "jobs ? out(result(1,sorted))"), ("ben", "jobs ? in(job(N,What))"), ("ben", "poll"),
             ("anna", "jobs ? out(job(2,print))"), ("ben", "wait"), ("ben", "jobs ? out(result(2,printed))"),
             ("ben", "jobs ? rd(finished(N))"), ("ben", "quit"), ("anna", "jobs ? rd(finished(2))"),
             ("anna", "quit")]

    def __init__(self, given):
        super().__init__("serve, two sessions of jobs.conf", (), given, True,
                         INPUT + OUTPUT + MEMORY + NO_THREAD + NET)

    def run(self, fault):
        with socket.socket() as probe:
            probe.bind(("127.0.0.1", 0))
            port = probe.getsockname()[1]
        run = subprocess.Popen([PROGRAM, "serve", str(port)], stdin=subprocess.PIPE, stdout=subprocess.PIPE,
                               stderr=subprocess.DEVNULL, env=environment(fault))
        replies = {"anna": [], "ben": []}
        leader = threading.Thread(target=self.lead, args=(run, port, replies))
        leader.start()
        try:
            text, _ = run.communicate(self.given, GIVEN_UP)
        except subprocess.TimeoutExpired:
            run.kill()
            run.communicate()
            leader.join()
            return Outcome("none: it hangs", b"", replies)
        leader.join()
        return Outcome(run.returncode, text, replies)

    def lead(self, run, port, replies):
        """Sends the lines in order; who has no reply says nothing more."""
        peers = {}
        if not listens(run, port):
            return
        try:
            for agent, line in self.LINES:
                if agent not in peers:
                    peers[agent] = socket.create_connection(("127.0.0.1", port))
                    peers[agent].settimeout(GIVEN_UP / 2)
                if peers[agent] is None:
                    continue
                if line == "wait" and replies["anna"][-1:] != [b"done\n"]:
                    line = "poll"
                reply = asked(peers[agent], line)
                replies[agent].append(reply)
                if not reply.endswith(b"\n") or reply.startswith(b"error no memory"):
                    peers[agent].close()
                    peers[agent] = None
        except OSError:
            pass
        for peer in peers.values():
            if peer:
                peer.close()

    def is_whole(self, end):
        """The plain text where all was replied; else one whose logs are what was replied."""
        if end.text == self.plain.text:
            return True
        return end.text.endswith((b"end ended\n", b"end blocked\n")) and has_lines(end.text) and self.agrees(end)

    def is_beginning(self, end):
        return end.text == b"" or has_lines(end.text) and (not end.text.endswith((b"ended\n", b"blocked\n"))
                                                           or self.agrees(end))

    def agrees(self, end):
        """Whether each reply to a call has its row, in order; a row more is a reply that didn't come."""
        logs = end.text.split(b"\nagent ")[1:]
        for agent, log in zip(("anna", "ben"), logs):
            rows = [row.split(b" ", 2)[2] for row in log.split(b"\n")[1:] if re.match(rb"\d+ ", row)]
            said = [reply[:-1] for reply in end.replies[agent] if reply.endswith(b"\n")
                    and not reply.startswith((b"bye", b"error"))]
            kept = [row.removeprefix(b"poll ") for row in rows]
            # The reply to a wait stands in the row of the call, in place of `pending`.
            place = 0
            for reply in said:
                while place < len(kept) and kept[place] != reply and reply != b"pending":
                    place += 1
                if reply != b"pending" and place == len(kept) and reply not in kept:
                    return False
        return True


def asked(peer, line):
    try:
        peer.sendall(line.encode() + b"\n")
        reply = b""
        while not reply.endswith(b"\n"):
            piece = peer.recv(4096)
            if not piece:
                break
            reply += piece
        return reply
    except OSError:
        return b""


def listens(run, port):
    here = f"0100007F:{port:04X}"
    until = time.monotonic() + GIVEN_UP
    while time.monotonic() < until and run.poll() is None:
        for row in open("/proc/net/tcp"):
            words = row.split()
            if words[1] == here and words[3] == "0A":
                return True
        time.sleep(0.001)
    return False


def has_lines(text):
    lines = text.split(b"\n")
    return all(LINE.match(line) for line in lines[:-1])


def environment(fault):
    return {"LD_PRELOAD": SHIM, **fault}


def counts(case):
    """How often the case makes each call."""
    file = os.path.join(ROOM, "counts")
    case.run({"FAULT_COUNTS": file})
    return {line.split()[0]: int(line.split()[1]) for line in open(file)}


def numbers(count, every):
    """Every k up to so many, then every 7th, and every 49th."""
    yield from range(1, min(count, every) + 1)
    yield from range(every + 1, min(count, 3 * every) + 1, 7)
    yield from range(3 * every + 1, count + 1, 49)


def tried(case, fault, count):
    """Has the call fail at each k, and tells."""
    ends, wrong = collections.Counter(), []
    for k in numbers(count, case.every // 10 if fault.lasting else case.every):
        last = FOR_EVER if fault.lasting else k
        end = case.run({"FAULT_CALL": fault.call, "FAULT_FIRST": str(k), "FAULT_LAST": str(last),
                        "FAULT_HOW": str(fault.how)})
        ends[end.status] += 1
        told = fault.due(case, end)
        if isinstance(end.status, int) and end.status < 0:
            told = f"signal {signal.Signals(-end.status).name}"
        if told:
            wrong.append((k, told, end))
    total = sum(ends.values())
    if total:
        said = ", ".join(f"{number} with {status}" for status, number in sorted(ends.items(), key=str))
        print(f"{case.name}: {fault.name}: {total} k of {count}: {said}"
              + (f"; {len(wrong)} DIFFERENCES" if wrong else ""), flush=True)
    for k, told, end in wrong[:5]:
        print(f"  k = {k}: {told}; {len(end.text)} bytes ending {end.text[-60:]!r}; replies {end.replies or ''}",
              flush=True)
    return len(wrong)


def long_spec():
    """A run with a set_spec of a long text, whose input and output are longer than a piece."""
    text = " ".join(f"reaction(out(t{k}(X)),(in_r(t{k}(X)),Y is X + 1,out_r(u{k}(Y))))." for k in range(400))
    return (f"centre(c). role(r). {GRANTS} agent(a,r).\n" + f"script(a,[c ? set_spec('{text}')]).\n" * 4
            + "script(a,[c ? get_spec, c ? out(t7(1)), c ? inp(u7(X)), c ? set_spec('reaction(out(p),q).')]).\n")


def cases():
    examples = TOP / "examples"
    for name in ("counter", "auction"):
        given = (examples / f"{name}.conf").read_bytes()
        yield Case(f"{name}.conf", ("run", "--workers", "1"), given)
        yield Case(f"{name}.conf, two workers", ("run", "--workers", "2"), given, False)
    yield Case("load 2 1", ("load", "2", "1"), faults=OUTPUT + MEMORY + THREADS)
    yield Case("a refused configuration", ("run",), b"centre(c). role(r). grant(r,d,out). agent(a,r).\n")
    yield Service((examples / "net" / "jobs.conf").read_bytes())
    yield Case("set_spec of a long text", ("run", "--workers", "1"), long_spec().encode(), every=EVERY // 10)


def main():
    global PROGRAM, SHIM, ROOM
    words = argparse.ArgumentParser(description=__doc__, formatter_class=argparse.RawDescriptionHelpFormatter)
    words.add_argument("--only", default="", help="cases and faults whose line has this word")
    given = words.parse_args()
    PROGRAM = os.environ.get("TUCSON", str(TOP / "crates/tucson_run/out/tucson_run"))
    wrong = 0
    with tempfile.TemporaryDirectory() as ROOM:
        SHIM = os.path.join(ROOM, "faults.so")
        subprocess.run(["cc", "-O2", "-Wall", "-shared", "-fPIC", "-o", SHIM, str(HERE / "faults.c")], check=True)
        for case in cases():
            if not any(given.only in f"{case.name}: {fault.name}" for fault in case.faults):
                continue
            case.prepare()
            count = counts(case)
            for fault in case.faults:
                if given.only in f"{case.name}: {fault.name}":
                    wrong += tried(case, fault, count[fault.call])
    print(f"{wrong} differences")
    sys.exit(wrong > 0)


if __name__ == "__main__":
    main()
