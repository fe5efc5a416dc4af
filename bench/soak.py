#!/usr/bin/env python3
"""A long run of `serve`: agents that call at random, vanish, half-close, stall and flood.

    soak.py MINUTES AGENTS [PROGRAM] [--seed N] [--picture FILE] [--judge PROGRAM] [--rest SECONDS]

The first agent takes and puts tuples at one centre after another, so that who waits for one, or until none is left, is
served, and is the last to go. A third of the others are there from
the beginning, the rest come while time passes; a third stay to the end. Once a second the program's resident memory,
descriptors and threads are looked at, and drawn beside the replies so far: FILE, or soak.svg.

An agent rests between two acts, for half a second as a rule or for --rest. The judge reads 268,435,456 bytes at most:
half an hour with 500 agents is a text of 356 MB, and with --rest 0.8 one that it reads.

At the end the text is looked through: each line is one of docs/FORMATS.md's, the replies of each session stand in its
log in order, each served row has an entry in its centre's history, numbers of calls rise there for each agent, and what
is pending is what waits. It is judged by the program of `audit`, where that is built, or by PROGRAM. What
isn't so is told, the text is kept, and the status is 1.
"""
import argparse, asyncio, collections, os, random, re, signal, socket, struct, subprocess, sys, tempfile, time

HERE = os.path.dirname(os.path.abspath(__file__))
PRIMITIVES = ['out', 'in', 'rd', 'inp', 'rdp', 'set_spec', 'get_spec', 'no', 'nop']
CENTRES = [f'c{k}' for k in range(8)]
KEYS = range(10)
SPEC = 'reaction(out(q(K)),(in_r(n(N)),M is N + 1,out_r(n(M)))). reaction(in(p(K)),(pre,rd_r(q(K)))). ' \
       'reaction(out(loop),(in_r(loop),out_r(loop))). reaction(out_r(loop),(in_r(loop),out_r(loop))).'
LONGEST_WAIT = 120


# ---- the server ----

def configuration(agents, primitives):
    yield 'role(r).'
    for centre in CENTRES:
        yield f'centre({centre},20). tuple({centre},n(0)).'
        yield from (f'spec({centre},{clause}).' for clause in SPEC.removesuffix('.').split('. '))
        yield from (f'grant(r,{centre},{primitive}).' for primitive in primitives)
    yield from (f'agent(a{k},r).' for k in range(agents))


def known_primitives(program):
    """Those that the program knows."""
    def is_known(primitive):
        tried = f'centre(c). role(r). grant(r,c,{primitive}).'
        return subprocess.run([program, 'run'], input=tried.encode(), capture_output=True).returncode == 0
    return [primitive for primitive in PRIMITIVES if is_known(primitive)]


class Server:
    """The program, which listens, and writes its text into a file."""

    def __init__(self, program, agents, primitives):
        with socket.socket() as s:
            s.bind(('127.0.0.1', 0))
            self.port = s.getsockname()[1]
        self.text = tempfile.NamedTemporaryFile(prefix='soak', suffix='.text', delete=False)
        self.process = subprocess.Popen([program, 'serve', str(self.port)], stdin=subprocess.PIPE, stdout=self.text,
                                        stderr=subprocess.DEVNULL)
        self.configuration = '\n'.join(configuration(agents, primitives)).encode() + b'\n'
        self.process.stdin.write(self.configuration)
        self.process.stdin.close()
        here = '0100007F:%04X' % self.port
        while not any(row.split()[1] == here and row.split()[3] == '0A' for row in open('/proc/net/tcp')):
            if self.process.poll() is not None:
                sys.exit(f'soak.py: the server has ended with status {self.process.returncode}')
            time.sleep(0.01)

    def seen(self):
        """Its resident memory in MB, descriptors and threads."""
        if self.process.poll() is not None:
            raise ConnectionError('the server has ended')
        told = open(f'/proc/{self.process.pid}/status').read()
        memory, threads = (int(re.search(rf'{word}:\s*(\d+)', told)[1]) for word in ('VmRSS', 'Threads'))
        return memory / 1024, len(os.listdir(f'/proc/{self.process.pid}/fd')), threads


# ---- a session ----

LINE_FAULTS = ('error line', 'error idle', 'error no memory', 'bye')


class Peer:
    """An agent's session: what it has asked and not been told yet, and the rows that the replies allow."""

    def __init__(self, number, link, seed, primitives):
        self.name, self.link, self.primitives = f'a{number}', link, primitives
        self.draw = random.Random(f'{seed} {number}')
        self.asked = collections.deque()
        self.rows, self.held, self.pending = bytearray(), [], None
        self.buffer, self.told, self.last, self.is_over, self.ended_by = b'', 0, '', False, None

    async def sends(self, lines, rest=b''):
        """Sends the lines, and bytes that are none."""
        self.asked.extend(lines)
        ends = b''.join(line.encode() + self.draw.choice((b'\n', b'\n', b'\r\n')) for line in lines)
        await asyncio.get_running_loop().sock_sendall(self.link, ends + rest)

    async def reads(self, until=lambda self: not self.asked):
        """Reads replies until this holds, or the server has ended the session."""
        while not until(self) and not self.is_over:
            receiving = asyncio.get_running_loop().sock_recv(self.link, 1 << 16)
            data = await asyncio.wait_for(receiving, LONGEST_WAIT)
            self.is_over = not data
            *whole, self.buffer = (self.buffer + data).split(b'\n')
            for reply in whole:
                self.takes(reply.decode())

    def takes(self, reply):
        """Takes in the reply to the first line that has none."""
        line = self.asked.popleft()
        self.told += 1
        self.last = reply
        if reply.startswith(LINE_FAULTS):
            return
        if line in ('poll', 'wait') and self.pending:
            if line == 'poll':
                self.held.append(f'{self.pending} {"" if reply.startswith("error") else "poll "}{plain(reply)}')
            if reply != 'pending' and not reply.startswith('error'):
                self.held[0] = f'{self.pending} {reply}'
                self.settle()
            return
        centre = line.split(' ')[0]
        self.held.append(f'{centre} {"?" if reply == "pending" else plain(reply)}')
        if reply == 'pending':
            self.pending = centre
        elif not self.pending:
            self.settle()

    def settle(self):
        """Nothing is pending any more, or the session is over."""
        self.rows += ''.join(row + '\n' for row in self.held).encode()
        self.held, self.pending = [], None

    def line(self):
        """Something to ask."""
        draw = self.draw
        if self.pending and draw.random() < 0.8:
            return draw.choice(('poll', 'poll', 'wait'))
        chance = draw.random()
        if chance < 0.05:
            return draw.choice(('', 'poll', 'wait', 'x(', 'c0 ? foo', 'nowhere ? out(x)', 'c0 ? out(X)',
                                'c1 ? out(loop)', 'c2 ? get_spec', f"c3 ? set_spec('{SPEC}')",
                                "c3 ? set_spec('reaction(x,y).')"))
        words = [word for word in self.primitives if not word.endswith('_spec')]
        word = draw.choice(words + ['out', 'out', 'inp', 'inp', 'rdp'])
        key = draw.choice(KEYS) if word == 'out' or draw.random() < 0.5 else 'X'
        return f'{draw.choice(CENTRES)} ? {word}({draw.choice("pq")}({key}))'


def plain(reply):
    """The reply as a row of a log has it."""
    return reply.removeprefix('error ')


# ---- what agents do ----

async def ask(peer):
    await peer.sends([peer.line()])
    await peer.reads()


async def ask_several(peer):
    await peer.sends([peer.line() for _ in range(peer.draw.randint(2, 10))])
    await peer.reads()


async def stall(peer):
    """Stops amid a line."""
    line = peer.line()
    cut = peer.draw.randint(0, len(line))
    await peer.sends([], line[:cut].encode())
    await asyncio.sleep(peer.draw.uniform(1, 10))
    peer.asked.append(line)
    await peer.sends([], line[cut:].encode() + b'\n')
    await peer.reads()


def many_lines(peer, most):
    """Few of them ask for a call, and none waits."""
    draw = peer.draw
    lines = [draw.choice(('poll', '', 'x(')) for _ in range(draw.randint(1000, most))]
    lines[::20] = [peer.line().replace('wait', 'poll') for _ in lines[::20]]
    return lines


async def flood(peer):
    """Sends a great many lines, and reads nothing for a while."""
    sending = asyncio.ensure_future(peer.sends(many_lines(peer, 20_000)))
    await asyncio.sleep(peer.draw.uniform(0, 3))
    await peer.reads()
    await sending


async def end_by_quit(peer):
    await peer.sends(['quit'])
    await peer.reads(lambda peer: False)


async def end_by_closing(peer):
    peer.link.close()


async def end_by_reset(peer):
    """Asks for more, and vanishes."""
    await peer.sends([peer.line() for _ in range(peer.draw.randint(0, 3))])
    await asyncio.sleep(peer.draw.choice((0, 0, 0.01)))
    peer.link.setsockopt(socket.SOL_SOCKET, socket.SO_LINGER, struct.pack('ii', 1, 0))
    peer.link.close()


async def end_by_reset_amid_a_flood(peer):
    sending = asyncio.ensure_future(peer.sends(many_lines(peer, 50_000)))
    await asyncio.sleep(peer.draw.uniform(0, 0.2))
    sending.cancel()
    await asyncio.gather(sending, return_exceptions=True)
    await end_by_reset(peer)


async def end_by_half_closing(peer):
    await peer.sends([peer.line() for _ in range(peer.draw.randint(0, 3))])
    peer.link.shutdown(socket.SHUT_WR)
    await peer.reads(lambda peer: False)


async def end_amid_a_line(peer):
    peer.asked.append('c0 ? out(')
    await peer.sends([], b'c0 ? out(')
    peer.link.shutdown(socket.SHUT_WR)
    await peer.reads(lambda peer: False)


ACTS = {ask: 100, ask_several: 30, stall: 3, flood: 0.5}
ENDS = [end_by_quit, end_by_closing, end_by_reset, end_by_reset_amid_a_flood, end_by_half_closing, end_amid_a_line]


async def live(peer, until, rest, faults):
    """Acts until this time, resting so long between two acts as a rule, and ends in one of the ways."""
    end = peer.draw.choice(ENDS)
    try:
        while time.monotonic() < until:
            await asyncio.sleep(peer.draw.expovariate(1 / rest))
            await peer.draw.choices(list(ACTS), list(ACTS.values()))[0](peer)
        await end(peer)
        if peer.is_over and peer.asked:
            faults.append(f'{peer.name}: the server has ended it, and {len(peer.asked)} lines have no reply')
    except (OSError, asyncio.TimeoutError, IndexError, ValueError) as fault:
        faults.append(f'{peer.name}: {fault!r}, pending at {peer.pending}, {len(peer.asked)} lines without a reply')
    peer.settle()
    peer.ended_by = end.__name__.replace('_', ' ')
    peer.link.close()


async def serve_all_at(host, centre, name):
    """Takes all tuples of this name, so that who waits for their absence is told, and then puts one of each."""
    host.last = 'tuple'
    while host.last.startswith('tuple'):
        await host.sends([f'{centre} ? inp({name}(X))'])
        await host.reads()
    await host.sends([f'{centre} ? out({name}({key}))' for key in KEYS])
    await host.reads()


async def supply(host, until, server):
    """Serves who waits, at one centre after another, until this time, and then until no other session is left."""
    while time.monotonic() < until:
        await serve_all_at(host, host.draw.choice(CENTRES), host.draw.choice('pq'))
        await asyncio.sleep(0.2)
    while server.seen()[1] > server.descriptors + 1:
        await serve_all_at(host, host.draw.choice(CENTRES), host.draw.choice('pq'))
        await asyncio.sleep(0.001)
    await end_by_quit(host)
    host.ended_by = 'end by quit'


async def connect(server, number, seed, primitives):
    """The next agent's session, once it has had a reply."""
    loop, link = asyncio.get_running_loop(), socket.socket()
    link.setblocking(False)
    link.setsockopt(socket.IPPROTO_TCP, socket.TCP_NODELAY, 1)
    await loop.sock_connect(link, ('127.0.0.1', server.port))
    peer = Peer(number, link, seed, primitives)
    await peer.sends(['poll'])
    await peer.reads()
    return peer


async def look(server, peers, seen):
    """Looks at the server once a second."""
    begun = time.monotonic()
    while True:
        seen.append((time.monotonic() - begun, *server.seen(), sum(peer.told for peer in peers)))
        await asyncio.sleep(1)


async def soak(server, seconds, agents, seed, primitives, rest):
    """The peers, what was seen once a second, and what went wrong meanwhile."""
    draw, begun = random.Random(seed), time.monotonic()
    server.descriptors = server.seen()[1]
    peers, seen, faults = [await connect(server, 0, seed, primitives)], [], []
    looking = asyncio.ensure_future(look(server, peers, seen))
    supplying, living = asyncio.ensure_future(supply(peers[0], begun + seconds, server)), []
    arrivals = sorted(draw.choice((0, draw.uniform(0, 0.9), draw.uniform(0, 0.9))) for _ in range(agents - 1))
    for arrival in arrivals:
        await asyncio.sleep(max(0, begun + arrival * seconds - time.monotonic()))
        peers.append(await connect(server, len(peers), seed, primitives))
        stays = draw.choice((seconds, draw.uniform(0, seconds / 2), draw.uniform(0, seconds / 4)))
        until = min(time.monotonic() + stays, begun + seconds)
        living.append(asyncio.ensure_future(live(peers[-1], until, rest, faults)))
    await asyncio.gather(*living)
    await asyncio.wait_for(supplying, LONGEST_WAIT)
    looking.cancel()
    return peers, seen, faults


# ---- the text ----

NAME = r"(?:[a-z]\w*|\[\]|'(?:[^'\\]|\\.)*')"
LEAF = rf'(?:-?\d+|_\d+|{NAME})'
TERM = rf'(?:{NAME}\({LEAF}(?:,{LEAF})*\)|{LEAF})'
OPERATION = rf'(?:(?:out|inp?|rdp?|nop?|set_spec)\({TERM}\)|get_spec)'
RESULT = rf'(?:done|pending|none|absent|(?:tuple|found) {TERM}|spec {NAME}|over pre|over post(?: {TERM})?)'
REFUSAL = r'(?:denied|too big|not ground|unknown centre|waiting|turns spent|bad spec \d+ \w+|full \d+ \d+)'
EFFECTS = rf'(?: (?:put|took|read) {TERM})*'
ENTRIES = {kind: re.compile(rf'{kind} ({NAME}) (\d+) {form}= ({RESULT})')
           for kind, form in (('call', OPERATION + ' '), ('look', r'\d+ '), ('give', ''))}
TRIED = re.compile(rf'  1 (?:fired \d+|failed \d+ at \d+){EFFECTS}')
ROW = re.compile(rf'(\d+) (({NAME}) (?:((?:poll )?{RESULT})|{REFUSAL}))')


class Text:
    """The text, looked through line by line."""

    def __init__(self):
        self.faults, self.entries, self.waiting, self.end = [], 0, set(), None
        self.part, self.agent, self.last, self.logs = None, None, {}, {}
        self.served, self.left = collections.Counter(), 0

    def looks_at(self, line):
        if line.startswith(('centre ', 'agent ', 'end ')) and line.count(' ') == 1:
            self.begins(*line.split(' '))
        elif self.agent:
            self.looks_at_row(line)
        elif line.startswith(' '):
            self.holds(TRIED.fullmatch(line), line)
        else:
            self.looks_at_entry(line, line.split(' ')[0])

    def begins(self, word, name):
        """A history, a log or the end."""
        self.part, self.last = name, {}
        self.agent = name if word == 'agent' else None
        if self.agent:
            self.logs[name] = []
        elif word == 'end':
            self.end = name

    def looks_at_row(self, line):
        """Rows are numbered from 1. One that was served has an entry in its centre's history; a pending one waits."""
        row, log = ROW.fullmatch(line), self.logs[self.agent]
        self.holds(row and int(row[1]) == len(log) + 1, line)
        log.append(row[2] if row else line)
        if row and row[4]:
            self.served[row[3], self.agent] -= 1
        if row and row[4] == 'pending':
            self.left += 1
            self.holds((row[3], self.agent, len(log)) in self.waiting, line)

    def looks_at_entry(self, line, kind):
        """Numbers of calls rise for each agent; what is given was waited for."""
        self.entries += 1
        entry = kind in ENTRIES and ENTRIES[kind].fullmatch(line)
        self.holds(entry, line)
        if not entry:
            return
        agent, number, result = entry.groups()
        call = self.part, agent, int(number)
        if kind == 'give':
            self.holds(call in self.waiting, line)
            self.waiting.discard(call)
            return
        self.holds(call[2] > self.last.get(agent, 0), line)
        self.last[agent] = call[2]
        self.served[self.part, agent] += 1
        if kind == 'call' and result == 'pending':
            self.waiting.add(call)

    def holds(self, is_so, line):
        if not is_so:
            self.faults.append(f'{self.part}: {line}')


def held_against(text, peers, status):
    """What of the text isn't as it should be."""
    yield from text.faults
    if (text.end, bool(text.waiting), status) not in (('ended', False, 0), ('blocked', True, 3)):
        yield f'status {status}, end {text.end}, and {len(text.waiting)} calls that wait'
    if text.left != len(text.waiting):
        yield f'{text.left} rows are pending, and {len(text.waiting)} calls wait'
    for (centre, agent), count in text.served.items():
        if count:
            yield f'{agent}: {abs(count)} calls at {centre} stand in its {"history" if count > 0 else "log"} alone'
    for peer in peers:
        due, rows = peer.rows.decode().split('\n')[:-1], text.logs.get(peer.name, [])
        if not len(due) <= len(rows) <= len(due) + len(peer.asked):
            yield f'{peer.name}: {len(rows)} rows, {len(due)} by the replies, and {len(peer.asked)} lines without one'
        for row, told in zip(rows, due):
            if row != told and not (told.endswith('?') and row.startswith(told[:-1])):
                yield f'{peer.name}: {row}, not {told}'


def read_text(name):
    text = Text()
    with open(name, encoding='latin1') as lines:
        text.holds(next(lines) == 'tucson 2\n', 'the first line')
        for line in lines:
            text.looks_at(line.removesuffix('\n'))
    text.holds(text.end is not None, 'the last line')
    return text


# ---- the picture ----

def picture(seen, title):
    """The columns over time, one below the other, as SVG."""
    width, height, left, gap = 640, 110, 70, 50
    names = ['resident memory, MB', 'descriptors', 'threads', 'replies so far']
    last = max(seen[-1][0], 1)
    parts = [f'<svg xmlns="http://www.w3.org/2000/svg" width="{left + width + 30}" height="{(height + gap) * 4 + 50}" '
             f'font-family="sans-serif" font-size="12"><rect width="100%" height="100%" fill="white"/>'
             f'<text x="{left}" y="20" font-size="14">{title}</text>']
    for k, name in enumerate(names, 1):
        top, most = 50 + (k - 1) * (height + gap), max(max(row[k] for row in seen), 1)
        points = ' '.join(f'{left + row[0] / last * width:.1f},{top + height - row[k] / most * height:.1f}'
                          for row in seen)
        parts.append(f'<text x="{left}" y="{top - 6}">{name}</text>'
                     f'<path d="M{left},{top} v{height} h{width}" fill="none" stroke="#888"/>'
                     f'<text x="{left - 6}" y="{top + 8}" text-anchor="end">{most:,.0f}</text>'
                     f'<text x="{left - 6}" y="{top + height}" text-anchor="end">0</text>'
                     f'<polyline points="{points}" fill="none" stroke="#1f5f9f" stroke-width="1.5"/>')
    parts.append(f'<text x="{left + width}" y="{(height + gap) * 4 + 24}" text-anchor="end">'
                 f'{last / 60:.1f} minutes</text></svg>')
    return '\n'.join(parts) + '\n'


def tell(peers, seen, text, status):
    ways = collections.Counter(peer.ended_by for peer in peers)
    print(f'{len(peers)} sessions in {seen[-1][0] / 60:.1f} minutes: ' +
          ', '.join(f'{ways[way]} {way}' for way in sorted(ways)))
    print(f'{seen[-1][4]:,} replies; a text with {text.entries:,} entries, {sum(map(len, text.logs.values())):,} rows, '
          f'status {status}; {seen[-1][1] * 2**20 / max(text.entries, 1):.0f} bytes of memory for each entry')
    for k, name in ((1, 'MB'), (2, 'descriptors'), (3, 'threads')):
        quarters = [seen[(len(seen) - 1) * q // 4][k] for q in range(5)]
        print(f'{name}, by quarters: ' + ', '.join(f'{value:,.0f}' for value in quarters) +
              f'; at most {max(row[k] for row in seen):,.0f}')


def verdict(judge, configuration, text):
    """The verdict on the histories of the text."""
    with tempfile.TemporaryFile() as both:
        with open(text, 'rb') as told:
            both.write(configuration + b'%%\n' + told.read())
        both.seek(0)
        return subprocess.run([judge, 'audit'], stdin=both, capture_output=True).stdout.decode().strip()


def main():
    words = argparse.ArgumentParser(prog='soak.py', description=__doc__.split('\n')[0])
    words.add_argument('minutes', type=float)
    words.add_argument('agents', type=int)
    words.add_argument('program', nargs='?', default=os.path.join(HERE, '../crates/tucson_run/out/tucson_run'))
    words.add_argument('--seed', type=int, default=1)
    words.add_argument('--rest', type=float, default=0.5, help='seconds that an agent rests between two acts, as a rule')
    words.add_argument('--picture', default='soak.svg')
    words.add_argument('--judge', default=os.path.join(HERE, '../crates/tucson_audit/out/tucson_audit'))
    given = words.parse_args()
    signal.signal(signal.SIGPIPE, signal.SIG_IGN)
    primitives = known_primitives(given.program)
    server = Server(given.program, given.agents, primitives)
    try:
        peers, seen, faults = asyncio.run(soak(server, given.minutes * 60, given.agents, given.seed, primitives,
                                               given.rest))
        status = server.process.wait(LONGEST_WAIT)
    except (OSError, asyncio.TimeoutError, subprocess.TimeoutExpired) as fault:
        sys.exit(f'SURPRISE: {fault!r}; the status of the server is {server.process.poll()}, None if it runs on')
    finally:
        server.process.kill()
    text = read_text(server.text.name)
    faults += held_against(text, peers, status)
    tell(peers, seen, text, status)
    if os.path.exists(given.judge):
        told = verdict(given.judge, server.configuration, server.text.name)
        print(f'audit: {told}')
        faults += [] if told == 'yes' else [f'the verdict on the histories is {told}']
    with open(given.picture, 'w') as file:
        file.write(picture(seen, f'serve, {given.agents} agents, seed {given.seed}'))
    for fault in faults[:20]:
        print('SURPRISE:', fault)
    print(f'{len(faults)} surprises; the text is in {server.text.name}' if faults else 'the text is as it should be')
    if not faults:
        os.remove(server.text.name)
    sys.exit(bool(faults))


if __name__ == '__main__':
    main()
