#!/usr/bin/env python3
"""Sessions as no friend would lead them, against `serve`: what is replied is held against the text at the end.

    hostile_sessions.py [PROGRAM] [--only WORD]

Each try says what it found. A try is as it should be where the program ends with the status that is due, and the
text is one that its replies allow: each line that asks has the row that its reply says, each served call stands once
in its centre's history, and the history, played again from its beginning, gives the same results.
"""
import os, random, re, signal, socket, struct, subprocess, sys, threading, time

HERE = os.path.dirname(os.path.abspath(__file__))
GRANTS = ''.join(f'grant(r,c,{p}). ' for p in ('out', 'in', 'rd', 'inp', 'rdp', 'set_spec', 'get_spec'))
MOST_LINE = 131_072


def configuration(agents):
    return f'centre(c). role(r). {GRANTS}\n' + ''.join(f'agent(a{k},r).\n' for k in range(agents))


class Server:
    """The program, which listens."""

    def __init__(self, agents, limits=''):
        with socket.socket() as s:
            s.bind(('127.0.0.1', 0))
            self.port = s.getsockname()[1]
        words = f'{limits} exec "$0" serve {self.port}'
        self.process = subprocess.Popen(['bash', '-c', words, PROGRAM],
                                        stdin=subprocess.PIPE, stdout=subprocess.PIPE)
        self.process.stdin.write(configuration(agents).encode())
        self.process.stdin.close()
        self.text = None
        self.reader = threading.Thread(target=self.read)
        self.reader.start()
        here = '0100007F:%04X' % self.port
        while not any(row.split()[1] == here and row.split()[3] == '0A' for row in open('/proc/net/tcp')):
            if self.process.poll() is not None:
                break
            time.sleep(0.01)

    def read(self):
        self.text = self.process.stdout.read().decode('latin1')

    def dial(self):
        s = socket.create_connection(('127.0.0.1', self.port))
        s.settimeout(60)
        return s

    def end(self, seconds=60):
        """Its status and its text; where it doesn't end it is ended."""
        try:
            status = self.process.wait(seconds)
        except subprocess.TimeoutExpired:
            self.process.kill()
            status = 'none: it runs on'
            self.process.wait()
        self.reader.join()
        return status, self.text

    def resident(self):
        """Its resident memory in MB."""
        return int(re.search(r'VmRSS:\s*(\d+)', open(f'/proc/{self.process.pid}/status').read())[1]) / 1024

    def processor(self):
        """Its processor time in seconds."""
        tasks = f'/proc/{self.process.pid}/task'
        return sum(int(open(f'{tasks}/{t}/schedstat').read().split()[0]) for t in os.listdir(tasks)) / 1e9


def replies(s):
    """All that comes until the peer ends."""
    got = b''
    try:
        while True:
            piece = s.recv(1 << 16)
            if not piece:
                return got
            got += piece
    except ConnectionResetError:
        return got


def reset(s):
    s.setsockopt(socket.SOL_SOCKET, socket.SO_LINGER, struct.pack('ii', 1, 0))
    s.close()


def talk(s, data):
    """Sends all, says that no more comes, and gives the replies."""
    try:
        s.sendall(data)
        s.shutdown(socket.SHUT_WR)
    except OSError:
        pass
    return replies(s)


LINE_FAULTS = ('error line', 'error idle', 'error no memory', 'error turns spent', 'bye')


def rows_of(sent, got):
    """The rows that the replies allow, each as a tuple of the results that it may have. Lines that were sent but not
    answered may have a row or none: they are told by a last None."""
    lines = sent.split(b'\n')[:-1]
    answers = got.decode().split('\n')[:-1]
    rows, pending = [], None
    for line, answer in zip(lines, answers):
        line = line.rstrip(b'\r').decode('latin1')
        if line == 'quit':
            break
        if answer.startswith(LINE_FAULTS):
            continue
        if line == 'poll':
            rows.append((f'c poll {answer}',))
            if answer != 'pending':
                rows[pending] = (f'c {answer}',)
        elif line == 'wait':
            rows[pending] = (f'c {answer}',)
        elif answer == 'pending':
            pending = len(rows)
            rows.append(('c pending', 'c tuple ', 'c over '))
        else:
            rows.append((f'{line.split(" ")[0]} {answer.removeprefix("error ")}',))
    return rows, len(lines) > len(answers)


def logs_of(text):
    """The rows of each agent, in order, without their numbers, which have to count from 1."""
    logs = []
    for line in text.split('\n'):
        if line.startswith('agent '):
            logs.append([])
        elif logs and line and not line.startswith('end '):
            number, row = line.split(' ', 1)
            assert int(number) == len(logs[-1]) + 1, f'row {number}'
            logs[-1].append(row)
    return logs


def matches(template, tuple_):
    """Whether terms without compound arguments match."""
    parts = [re.split(r'[(),]', t) for t in (template, tuple_)]
    if len(parts[0]) != len(parts[1]):
        return False
    values = {}
    return all(x == y or (x.startswith('_') and values.setdefault(x, y) == y) for x, y in zip(*parts))


def play_again(text):
    """Plays the history again: each result has to be the one that the oldest tuple or request gives."""
    tuples, waiting, calls = [], [], {}
    for line in text.split('\n'):
        entry = re.match(r'^(call|give|look) (\w+) (\d+) (.*)$', line)
        if not entry:
            continue
        kind, agent, number, rest = entry.groups()
        said, result = rest.rsplit(' = ', 1) if kind != 'give' else ('', rest[2:])
        if kind == 'give':
            op, template = waiting.pop(next(i for i, w in enumerate(waiting) if w[0] == (agent, number)))[1:]
            oldest = next(t for t in tuples if matches(template, t))
            assert result == f'tuple {oldest}', line
            if op == 'in':
                tuples.remove(oldest)
            calls[agent, number] = result
            continue
        assert not any(matches(w[2], t) for w in waiting for t in tuples), f'before {line} a request could be answered'
        if kind == 'look':
            assert calls[agent, said] == result and (agent, number) not in calls, line
            calls[agent, number] = f'poll {result}'
            continue
        assert (agent, number) not in calls, line
        calls[agent, number] = result
        op, operand = re.match(r'^(\w+)(?:\((.*)\))?$', said).groups()
        if op == 'out':
            assert result == 'done', line
            tuples.append(operand)
        elif op in ('in', 'rd'):
            assert result == 'pending', line
            waiting.append(((agent, number), op, operand))
        elif op in ('inp', 'rdp'):
            oldest = next((t for t in tuples if matches(operand, t)), None)
            assert result == (f'tuple {oldest}' if oldest else 'none'), line
            if oldest and op == 'inp':
                tuples.remove(oldest)
    return calls


def held_against(text, sessions):
    """Holds the text against what was sent and what was replied in each session."""
    assert text.startswith('tucson 2\ncentre c\n') and '\ncentre ' not in text[18:], 'another beginning'
    logs, calls = logs_of(text), play_again(text)
    assert len(logs) >= len(sessions), 'an agent is missing'
    for k, (sent, got) in enumerate(sessions):
        rows, more = rows_of(sent, got)
        assert len(logs[k]) >= len(rows) and (more or len(logs[k]) == len(rows)), \
            f'agent {k}: {len(logs[k])} rows, and {len(rows)} by the replies'
        for row, may in zip(logs[k], rows):
            fits = any(row == m or (m.endswith(' ') and row.startswith(m)) for m in may)
            assert fits, f'agent {k}: {row}, not {may[0]}'
        for number, row in enumerate(logs[k], 1):
            told = calls.get((f'a{k}', str(number)))
            served = row.startswith(('c done', 'c tuple', 'c none', 'c pending', 'c poll', 'c spec', 'c over'))
            assert row == f'c {told}' if served else told is None, f'agent {k}: {row}, and {told} in the history'
    for log in logs[len(sessions):]:
        assert not log, 'a row of an agent without a session'


def due(server, sessions, status=0, seconds=60):
    got, text = server.end(seconds)
    assert got == status, f'status {got}'
    held_against(text, sessions)


# ---- the tries ----

SESSION = b'c ? out(p(1))\nc ? inp(p(X))\nc ? in(q)\npoll\nquit\n'


def each_prefix_with_an_end():
    for n in range(len(SESSION) + 1):
        server = Server(1)
        got = talk(server.dial(), SESSION[:n])
        due(server, [(SESSION[:n], got)], 3 if n >= SESSION.index(b'poll') else 0)
    return f'{len(SESSION) + 1} sessions'


def each_prefix_with_a_reset():
    for n in range(len(SESSION) + 1):
        server = Server(1)
        s = server.dial()
        s.sendall(SESSION[:n])
        time.sleep(random.choice((0, 0.001, 0.01)))
        reset(s)
        status, text = server.end()
        assert status in (0, 3), f'status {status} after {n} bytes'
        held_against(text, [(SESSION[:n], b'')])
    return f'{len(SESSION) + 1} sessions'


def bytes_one_by_one():
    data = b'c ? out(p(1))\r\nc ? in(p(X))\nwait\npoll\n' * 20
    server = Server(1)
    s = server.dial()
    s.setsockopt(socket.IPPROTO_TCP, socket.TCP_NODELAY, 1)
    for k in range(len(data)):
        s.sendall(data[k:k + 1])
    s.shutdown(socket.SHUT_WR)
    due(server, [(data, replies(s))])


def lines_at_the_limit():
    blanks = lambda n: b'poll' + b' ' * (n - 4)
    tries = [
        (blanks(MOST_LINE) + b'\n', b'error idle\n'),
        (blanks(MOST_LINE + 1) + b'\n', b'error line too long\n'),
        (blanks(MOST_LINE - 1) + b'\r\n', b'error idle\n'),
        (blanks(MOST_LINE) + b'\r\n', b'error line too long\n'),
        (b'x' * MOST_LINE, b'error line cut\n'),
        (b'x' * (MOST_LINE + 1), b'error line too long\n'),
        (b'x' * MOST_LINE + b'\n', b'error line size\n'),
        (b'c ? out(' + b'x' * 65_500 + b')\n', b'done\n'),
        (b'\n', b'error line syntax\n'),
        (b'\r\n', b'error line syntax\n'),
        (b'poll\r\r\n', b'error idle\n'),
        (b'poll\rquit\r', b'error line cut\n'),
    ]
    for data, want in tries:
        server = Server(1)
        got = talk(server.dial(), data)
        assert got == want, f'{len(data)} bytes {data[:20]}: {got}'
        assert server.end()[0] == 0
    return f'{len(tries)} lines'


def zeros():
    server = Server(2)
    a, b = server.dial(), server.dial()
    got = talk(a, b'c ? out(\0)\n\0\n\'\0\'\n% \0\nquit\n')
    assert got == b'error line syntax\n' * 4 + b'bye\n', got
    got = talk(b, b'\0' * 8_000_000)
    assert got in (b'error line too long\n', b''), got
    status, _ = server.end()
    assert status == 0, f'status {status}'
    return '8 MB of zeros got ' + (got.decode().strip() or 'a reset before the reply')


def strange_bytes():
    for data in (b'GET / HTTP/1.1\r\nHost: x\r\n\r\n', b'*1\r\n$4\r\nPING\r\n', b'\x16\x03\x01\x02\x00\x01\n',
                 b'\xff\xfb\x01\xff\xfd\x03\r\n', b'\xef\xbb\xbfpoll\n', bytes(range(256)) + b'\n',
                 b'c ? out(\xc3\xa9)\n', b"c ? out('\xff')\n"):
        server = Server(1)
        got = talk(server.dial(), data)
        lines = got.split(b'\n')[:-1]
        assert len(lines) == data.count(b'\n') + (not data.endswith(b'\n')), (data, got)
        assert all(x.startswith(b'error line') for x in lines) or b"'" in data, (data, got)
        assert server.end()[0] == 0


def floods():
    found = []
    for line, want in ((b'\n', b'error line syntax\n'), (b'poll\n', b'error idle\n'), (b'wait\n', b'error idle\n'),
                       (b'c ? inp(x)\n', b'none\n'), (b'c ? foo\n', b'error line shape\n')):
        count = 100_000
        server = Server(1)
        s = server.dial()
        start, got = time.monotonic(), []
        reader = threading.Thread(target=lambda: got.append(replies(s)))
        reader.start()
        s.sendall(line * count)
        s.shutdown(socket.SHUT_WR)
        reader.join()
        assert got[0] == want * count, f'{line}: {len(got[0])} bytes'
        found.append(f'{line.decode().strip() or "LF"} {count / (time.monotonic() - start):,.0f}/s')
        assert server.end()[0] == 0
    return ', '.join(found)


def idle_lines_behind_a_long_log():
    server = Server(1)
    s = server.dial()
    reader = s.makefile('rb')
    times = []
    for _ in range(3):
        for line in (b'wait\n', b'poll\n'):
            before = server.processor()
            s.sendall(line * 1000)
            assert all(reader.readline() == b'error idle\n' for _ in range(1000))
            times.append((server.processor() - before) * 1e3)
        for _ in range(20):
            s.sendall(b'c ? rdp(x)\n' * 1000)
            assert all(reader.readline() == b'none\n' for _ in range(1000))
    reader.close()
    s.close()
    assert server.end()[0] == 0
    told = f'an idle wait takes {times[0]:.1f} us without rows, and {times[4]:.1f} us behind 40,000'
    assert max(times[4:]) < 10 * max(times[0], 0.5), told
    return told


def a_peer_that_never_reads():
    server = Server(2)
    a, b = server.dial(), server.dial()
    clauses = ' '.join(f'reaction(out(t{k}),true).' for k in range(1000))
    assert talk_line(b, f"c ? set_spec('{clauses}')\n".encode()) == b'done\n'
    before = server.resident()
    a.setblocking(False)
    sent = 0
    try:
        while sent < 2_000_000:
            sent += a.send(b'c ? get_spec\n' * 1000)
    except BlockingIOError:
        pass
    time.sleep(1)
    grown = server.resident() - before
    worst = 0
    for _ in range(100):
        start = time.monotonic()
        assert talk_line(b, b'c ? rdp(x)\n') == b'none\n'
        worst = max(worst, time.monotonic() - start)
    reset(a)
    b.close()
    status, _ = server.end()
    assert status == 0, f'status {status}'
    assert grown < 40, f'{grown:.0f} MB more'
    return f'{sent:,} bytes sent, {grown:.1f} MB more; the other agent waited {worst * 1e3:.1f} ms at most'


def talk_line(s, line):
    s.sendall(line)
    got = b''
    while not got.endswith(b'\n'):
        got += s.recv(1 << 16)
    return got


def a_reader_that_is_slow():
    server = Server(1)
    s = server.dial()
    count = 1_000_000
    writer = threading.Thread(target=lambda: (s.sendall(b'c ? rdp(x)\n' * count), s.shutdown(socket.SHUT_WR)))
    writer.start()
    got, pieces = 0, 0
    while piece := s.recv(65536):
        got += len(piece)
        pieces += 1
        if pieces < 100:
            time.sleep(0.02)
    writer.join()
    assert got == len(b'none\n') * count, got
    assert server.end()[0] == 0


def a_peer_that_goes_on_behind_quit():
    server = Server(1)
    s = server.dial()
    s.sendall(b'quit\n')
    assert s.recv(100) == b'bye\n'
    start = time.monotonic()
    while server.process.poll() is None and time.monotonic() - start < 30:
        try:
            s.sendall(b'x')
        except OSError:
            break
        time.sleep(0.15)
    status, _ = server.end(5)
    took = time.monotonic() - start
    assert status == 0 and took < 15, f'status {status} after {took:.1f} s'
    return f'it ends after {took:.1f} s'


def memory_ends():
    server = Server(2, 'ulimit -v 200000;')
    a, b = server.dial(), server.dial()
    got, line, sent = [], b'c ? out(' + b'x' * 1000 + b')\n', 0
    reader = threading.Thread(target=lambda: got.append(replies(a)))
    reader.start()
    try:
        while sent < 1_000_000:
            a.sendall(line * 60)
            sent += 60
    except OSError:
        pass
    reader.join()
    other = talk(b, b'quit\n')
    assert got[0].endswith(b'done\nerror no memory\n') or got[0].endswith(b'done\n'), got[0][-40:]
    status, text = server.end()
    assert status == 6, f'status {status}'
    # Where there is no memory for all of the text it breaks off.
    if '\nend ' in text:
        held_against(text, [(line * sent, got[0])])
    return f'status 6 behind {got[0].count(b"done")} calls, a text of {len(text)} bytes; the other agent got {other}'


def a_full_device():
    server = Server(1, 'exec >/dev/full;')
    assert talk(server.dial(), b'quit\n') == b'bye\n'
    status, _ = server.end()
    assert status == 1, f'status {status}'


def a_peer_that_shuts_its_reading_half():
    server = Server(1)
    s = server.dial()
    s.shutdown(socket.SHUT_RD)
    try:
        for _ in range(2000):
            s.sendall(b'c ? rdp(x)\n' * 100)
    except OSError:
        pass
    s.close()
    status, text = server.end()
    assert status == 0, f'status {status}'
    held_against(text, [(b'c ? rdp(x)\n' * 200_000, b'')])


def more_connections_than_agents():
    server = Server(2)
    conns = [server.dial() for _ in range(6)]
    for s in conns:
        s.sendall(b'c ? out(p(1))\n')
    time.sleep(0.5)
    for s in conns[2:]:
        s.settimeout(0.2)
        try:
            assert not s.recv(10), 'a connection beyond the agents got a reply'
        except TimeoutError:
            pass
    got = [talk(s, b'quit\n') for s in conns[:2]]
    status, text = server.end()
    assert status == 0, f'status {status}'
    held_against(text, [(b'c ? out(p(1))\nquit\n', g) for g in got])
    ends = []
    for s in conns[2:]:
        try:
            ends.append('end' if s.recv(10) == b'' else 'bytes')
        except ConnectionResetError:
            ends.append('reset')
        except TimeoutError:
            ends.append('nothing')
    return 'those beyond the agents got: ' + ' '.join(ends)


def nobody_says_anything():
    server = Server(50)
    for _ in range(50):
        server.dial().close()
    due(server, [(b'', b'')] * 50)


def a_wait_that_is_reset():
    server = Server(2)
    a, b = server.dial(), server.dial()
    a.sendall(b'c ? in(x)\nwait\n')
    assert a.recv(100) == b'pending\n'
    reset(a)
    time.sleep(0.2)
    got = talk(b, b'c ? out(x)\nc ? rdp(x)\n')
    assert got == b'done\nnone\n', got
    due(server, [(b'c ? in(x)\nwait\n', b'pending\n'), (b'c ? out(x)\nc ? rdp(x)\n', got)])
    return 'the tuple was taken by the agent that had gone'


def a_wait_that_nobody_answers():
    server = Server(2)
    a, b = server.dial(), server.dial()
    a.sendall(b'c ? in(x)\nwait\n')
    assert a.recv(100) == b'pending\n'
    reset(a)
    b.close()
    status, _ = server.end(3)
    assert status == 'none: it runs on', f'status {status}'
    return 'it runs on, since the wait goes on'


def pending_comes_before_the_wait():
    server = Server(2)
    a, b = server.dial(), server.dial()
    data = b'c ? out(z)\nc ? in(x)\nwait\nc ? inp(z)\n'
    a.sendall(data)
    got = b''
    while got.count(b'\n') < 2:
        got += a.recv(100)
    assert got == b'done\npending\n', got
    other = talk(b, b'c ? out(x)\n')
    got += talk(a, b'')
    assert got == b'done\npending\ntuple x\ntuple z\n', got
    due(server, [(data, got), (b'c ? out(x)\n', other)])


def a_thousand_slow_peers():
    server = Server(1001)
    start = time.monotonic()
    conns = [server.dial() for _ in range(1001)]
    quick = conns.pop()
    connected = time.monotonic() - start
    line, worst = b'c ? out(p(1))\nquit\n', 0
    for k in range(len(line)):
        for s in conns:
            s.sendall(line[k:k + 1])
        begun = time.monotonic()
        assert talk_line(quick, b'c ? rdp(x)\n') == b'none\n'
        worst = max(worst, time.monotonic() - begun)
        time.sleep(0.5)
    got = [replies(s) for s in conns]
    memory = server.resident()
    last = talk(quick, b'quit\n')
    due(server, [(line, g) for g in got] + [(b'c ? rdp(x)\n' * len(line) + b'quit\n', b'none\n' * len(line) + last)])
    return f'connected in {connected:.1f} s; another agent waited {worst * 1e3:.0f} ms at most; {memory:.0f} MB'


def a_thousand_lines_without_an_end():
    server = Server(1000)
    conns = [server.dial() for _ in range(1000)]
    for s in conns:
        s.setblocking(False)
    left = {s: MOST_LINE for s in conns}
    until = time.monotonic() + 60
    while left and time.monotonic() < until:
        for s in list(left):
            try:
                left[s] -= s.send(b'x' * min(left[s], 1 << 16))
            except BlockingIOError:
                continue
            if not left[s]:
                del left[s]
        time.sleep(0.01)
    time.sleep(1)
    held = server.resident()
    for s in conns:
        s.close()
    status, _ = server.end()
    assert status == 0 and not left, f'status {status}, {len(left)} left'
    assert held < 250, f'{held:.0f} MB'
    return f'{held:.0f} MB while they are held'


def few_descriptors():
    server = Server(50, 'ulimit -n 20;')
    conns, sent = [], b'c ? out(p(1))\n'
    for _ in range(40):
        conns.append(server.dial())
    got = []
    for s in conns:
        s.settimeout(5)
        try:
            got.append(talk(s, sent))
        except (TimeoutError, OSError):
            got.append(b'')
    served = [g for g in got if g]
    status, text = server.end()
    assert status == 8, f'status {status}'
    held_against(text, [(sent, g) for g in served])
    return f'{len(served)} of 40 were served'


def little_memory():
    server = Server(8, 'ulimit -v 60000;')
    got = []
    for _ in range(8):
        got.append(talk(server.dial(), SESSION[:14]))
    due(server, [(SESSION[:14], g) for g in got])
    return 'threads are refused, and the sessions served one after the other'


def random_sessions():
    for seed in range(60):
        draw = random.Random(seed)
        agents = draw.randint(1, 4)
        server = Server(agents)
        conns = [server.dial() for _ in range(agents)]
        sent, got = [b''] * agents, [b''] * agents

        def lead(k):
            mine = random.Random(seed * 100 + k)
            lines = []
            for _ in range(mine.randint(0, 60)):
                t = f'{mine.choice("pq")}({mine.choice(["1", "2", "X"])})'
                lines.append(mine.choice(['c ? out(%s)' % t.replace('X', '3'), f'c ? inp({t})', f'c ? rdp({t})',
                                          f'c ? in({t})', f'c ? rd({t})', 'poll', 'poll', f'c ? out({t})', 'c ? foo',
                                          'x(', '', 'd ? out(x)']))
            data = ''.join(x + mine.choice(['\n', '\n', '\r\n']) for x in lines).encode()
            if mine.random() < 0.3:
                data = data[:mine.randint(0, len(data))]
            elif mine.random() < 0.5:
                data += b'quit\nc ? out(p(9))\n'
            sent[k], at = data, 0
            while at < len(data):
                n = mine.choice((1, 2, 7, 50, 4096))
                conns[k].sendall(data[at:at + n])
                at += n
                if mine.random() < 0.2:
                    time.sleep(0.001)
            got[k] = talk(conns[k], b'')

        threads = [threading.Thread(target=lead, args=(k,)) for k in range(agents)]
        for t in threads:
            t.start()
        for t in threads:
            t.join()
        status, text = server.end()
        assert status == (3 if re.search(r'^end blocked', text, re.M) else 0), f'seed {seed}: status {status}'
        try:
            held_against(text, list(zip(sent, got)))
        except AssertionError as e:
            raise AssertionError(f'seed {seed}: {e}') from e
    return '60 seeds'


TRIES = [each_prefix_with_an_end, each_prefix_with_a_reset, bytes_one_by_one, lines_at_the_limit, zeros,
         strange_bytes, floods, idle_lines_behind_a_long_log, a_peer_that_never_reads, a_reader_that_is_slow,
         a_peer_that_shuts_its_reading_half, a_peer_that_goes_on_behind_quit, more_connections_than_agents,
         nobody_says_anything, a_wait_that_is_reset, a_wait_that_nobody_answers, pending_comes_before_the_wait,
         a_thousand_slow_peers, a_thousand_lines_without_an_end, few_descriptors, little_memory, memory_ends,
         a_full_device, random_sessions]


def main():
    global PROGRAM
    words = sys.argv[1:]
    only = words.pop(words.index('--only') + 1) if '--only' in words else ''
    words = [w for w in words if w != '--only']
    PROGRAM = os.path.abspath(words[0]) if words else os.path.join(HERE, '../crates/tucson_run/out/tucson_run')
    signal.signal(signal.SIGPIPE, signal.SIG_IGN)
    wrong = 0
    for one in TRIES:
        if only not in one.__name__:
            continue
        start = time.monotonic()
        try:
            told = one()
            told = 'as it should be' + (f' ({told})' if told else '')
        except (AssertionError, OSError, StopIteration) as e:
            told, wrong = f'SURPRISE: {e}', 1
        print(f'{one.__name__.replace("_", " ")}: {told}, {time.monotonic() - start:.1f} s', flush=True)
    sys.exit(wrong)


if __name__ == '__main__':
    main()
