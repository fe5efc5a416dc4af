#!/usr/bin/env python3
"""bench/page_check.py [FOLDER]   opens pages of `./tucson page` in headless Chromium, and looks at what stands on them

Pages of three examples, of a text with bytes that do harm where they aren't escaped, of a run of some 10,000 entries and
of a text of 25,000: their counts, rows, bars, reactions, refusals, searches and keys; how many rows the browser has, and
that nothing was asked of the outside. Before that, without a browser, the pages of all examples: that their data tell the
histories line by line, and count what they have. With FOLDER, pictures are written there, in the light and the dark
scheme. Needs Debian's chromium: apt-get install chromium. docs/page.png is the picture of philosophers.
"""
import glob
import json
import os
import random
import re
import subprocess
import sys
import tempfile

from chromium import Browser

TOP = os.path.dirname(os.path.dirname(os.path.abspath(__file__)))
ROWS = "document.querySelectorAll('.row').length"
wrong = 0


def told(what, got, want):
    """Says whether something is as it should be."""
    global wrong
    if got == want:
        print(f"as it should be: {what}")
    else:
        wrong += 1
        print(f"WRONG: {what}\n  is   {got!r}\n  want {want!r}")


def tucson(words, text):
    return subprocess.run([f"{TOP}/tucson", *words], input=text, capture_output=True)


def text_of(path):
    with open(f"{TOP}/{path}", "rb") as file:
        return file.read()


def counted(text, agent=None):
    """Calls, polls, refusals, reactions that fired and that failed, by the lines of a text with plain names."""
    lines = text.decode().splitlines()
    name = agent or r"\S+"
    refusals = ("denied", "too big", "not ground", "bad spec", "full", "unknown centre", "waiting", "turns spent")
    log, refused = None, 0
    for line in lines:
        log = line[6:] if line.startswith("agent ") else log
        row = re.match(r"\d+ \S+ (.*)", line)
        refused += bool(row and log and agent in (None, log) and row[1].startswith(refusals))
    calls = sum(bool(re.match(f"call {name} ", line)) for line in lines)
    looks = sum(bool(re.match(f"look {name} ", line)) for line in lines)
    fired = sum(bool(re.match(r"  \d+ fired", line)) for line in lines)
    failed = sum(bool(re.match(r"  \d+ failed", line)) for line in lines)
    return calls, looks, refused, fired, failed


def lines_of(row, agents):
    """The lines of a history that a row of a page's data tells."""
    kind, _, _, agent, number, what, result, _, reactions = row
    word = ["call", "give", "look"][kind]
    lines = [f"{word} {agents[agent]} {number}{'' if kind == 1 else f' {what}'} = {result}"]
    for fired, clause, goal, *effects in reactions:
        how = f"fired {clause}" if fired else f"failed {clause} at {goal}"
        words = [f" {dict(zip('+-=', ('put', 'took', 'read')))[effect[0]]} {effect[1:]}" for effect in effects]
        lines.append(f"  1 {how}{''.join(words)}")
    return lines


def look_at_all():
    """The data of the pages of all examples, beside their texts."""
    for path in sorted(glob.glob(f"{TOP}/examples/*.out") + glob.glob(f"{TOP}/examples/net/*.out")):
        name, text = os.path.basename(path), text_of(os.path.relpath(path, TOP))
        made = tucson(["page"], text)
        if not text.startswith(b"tucson"):
            told(f"{name}: a refused configuration is no text", (made.returncode, made.stdout), (2, b""))
            continue
        data = json.loads(re.search(rb'application/json">\n(.*?)</script>', made.stdout, re.S)[1])
        lines = ["tucson 2"]
        for centre, heading in enumerate(data["centres"]):
            lines.append(f"centre {heading}")
            for row in data["rows"]:
                if row[0] < 3 and row[2] == centre:
                    lines += lines_of(row, data["agents"])
        want = text.decode().splitlines()
        told(f"{name}: histories", lines, want[:next(n for n, line in enumerate(want) if line.startswith("agent "))])
        sums = [sum(count[place] for count in data["centreCounts"]) for place in (0, 2, 6, 7, 8)]
        told(f"{name}: counts", tuple(sums), counted(text))


class Page:
    """The page of a text, opened."""

    def __init__(self, browser, room, name, text, address=""):
        made = tucson(["page"], text)
        told(f"{name}: status 0", made.returncode, 0)
        self.browser, self.name, self.path = browser, name, f"{room}/{name}.html"
        with open(self.path, "wb") as file:
            file.write(made.stdout)
        browser.visit(f"file://{self.path}{address}")

    def value(self, expression):
        return self.browser.value(expression)

    def is_(self, what, expression, want):
        told(f"{self.name}: {what}", self.value(expression), want)

    def cells(self, table, line):
        """The cells of a line of a table of counts."""
        lines = self.value(f"[...document.querySelectorAll('#{table} tbody tr')]"
                           ".map(line => [...line.cells].map(cell => cell.textContent))")
        return lines[line]

    def columns(self):
        """What stands in the rows that are there: agent, call, result, centre, reactions."""
        return self.value("[...document.querySelectorAll('.row .main')].map(row => [...row.children].slice(1)"
                          ".map(part => part.textContent.trim()))")

    def ask(self, words="", show="all"):
        self.value(f"at('words').value = {words!r}; at('words').dispatchEvent(new Event('input'));"
                   f"at('show').value = {show!r}; at('show').dispatchEvent(new Event('change')); 0")
        self.browser.draw()

    def counts(self, text, agents):
        calls, looks, refused, fired, failed = counted(text)
        sums = self.cells("centre-counts", -1)
        told(f"{self.name}: counts of all centres", [sums[place] for place in (1, 5, 6, 7, 8)],
             [f"{n:,}" for n in (calls, looks, refused, fired, failed)])
        for agent in agents:
            place = self.value("agents").index(agent)
            calls, looks, refused, _, _ = counted(text, agent)
            cells = self.cells("agent-counts", place)
            told(f"{self.name}: counts of {agent}", [cells[n] for n in (0, 1, 5, 6)],
                 [agent] + [f"{n:,}" for n in (calls, looks, refused)])

    def end(self, folder):
        told(f"{self.name}: nothing was asked of the outside", self.browser.asked_outside(), [])
        told(f"{self.name}: nothing was thrown", self.browser.faults(), [])
        self.value("document.activeElement.blur()")
        if folder:
            self.browser.picture(f"{folder}/{self.name}.png")
            self.browser.picture(f"{folder}/{self.name}-dark.png", dark=True)


def look_at_philosophers(browser, room, folder):
    text = text_of("examples/philosophers.out")
    page = Page(browser, room, "philosophers", text)
    page.is_("title", "document.title", "A run of 1 centre and 2 agents")
    page.counts(text, ["ada", "bob"])
    told("philosophers: rows", page.columns(), [
        ["ada", "in(chops(c1,c2))", "pending", "table", "2 fired 1 failed"],
        ["ada", "in(chops(c1,c2))", "tuple chops(c1,c2)", "table", "1 fired 1 failed"],
        ["bob", "in(chops(c2,c3))", "pendingfor 1 entry", "table", "1 fired 2 failed"],
        ["ada", "out(chops(c1,c2))", "done", "table", "2 fired 3 failed"],
        ["bob", "in(chops(c2,c3))", "tuple chops(c2,c3)after 1 entry", "table", "1 fired 1 failed"],
        ["bob", "out(chops(c2,c3))", "done", "table", "1 fired 4 failed"]])
    page.is_("two bars of waits, one of them brief",
             "[...document.querySelectorAll('svg .wait')].map(bar => bar.getAttribute('class').trim())", ["wait brief", "wait"])
    page.value("at('rows').focus(); 0")
    for key in ("ArrowDown", "End", "ArrowUp", "ArrowUp", "Enter"):
        browser.press(key)
    page.is_("reactions unfold by keys", "[...document.querySelectorAll('.more li')].map(line => line.textContent)", [
        "clause 4 fired took chops(c1,c2) put chop(c1) put chop(c2)", "clause 5 failed at goal 1",
        "clause 6 failed at goal 1", "clause 5 fired read required(c2,c3) took chop(c2) took chop(c3) put chops(c2,c3)",
        "clause 6 failed at goal 1"])
    page.end(folder)
    page.value("at('rows').focus(); 0")
    browser.press("Enter")
    page.is_("they fold", "document.querySelectorAll('.more').length", 0)
    browser.press("ArrowUp")
    browser.press("p", "p")
    page.is_("p goes to the answer", "document.querySelector('.current').id", "row-4")
    browser.press("/", "/")
    for letter in "required(c2":
        browser.press(letter, letter)
    page.is_("typed words are searched in effects", "at('found').textContent", "3 of 6 rows")
    page.is_("the address tells them", "location.hash", "#words=required%28c2")


def look_at_rate_limit(browser, room, folder):
    text = text_of("examples/rate_limit.out")
    page = Page(browser, room, "rate_limit", text)
    page.is_("it is blocked", "at('ended').textContent.slice(0, 27)", "Blocked: 1 call still waits")
    agents = page.value("agents")
    page.counts(text, agents)
    page.ask(show="still")
    page.is_("the call that still waits", "at('found').textContent.split(' ')[0]", "1")
    page.is_("its bar goes to the end", "document.querySelectorAll('svg .wait.still').length", 1)
    page.ask()
    page.value(f"at('agent').value = 0; at('agent').dispatchEvent(new Event('change')); 0")
    told("rate_limit: only one agent is listed", {row[0] for row in page.columns()}, {agents[0]})
    page.value("at('clear').click(); 0")
    page.end(folder)


def look_at_jobs(browser, room, folder):
    text = text_of("examples/net/jobs.out")
    page = Page(browser, room, "jobs", text, "#show=refused")
    told("jobs: what was refused, with its cause", page.columns(), [["ben", "call 6", "refused: denied", "jobs", ""]])
    page.value("document.querySelector('.row').click(); 0")
    page.is_("the cause in words", "document.querySelector('.more').lastElementChild.previousElementSibling.textContent",
             "denied: no grant of the agent's role permits it")
    page.value("at('clear').click(); 0")
    page.counts(text, ["anna", "ben"])
    page.is_("a poll", "document.querySelectorAll('.look').length", 1)
    page.ask("print")
    told("jobs: words", [row[:3] for row in page.columns()], [
        ["anna", "out(job(2,print))", "done"], ["ben", "in(job(_0,_1))", "tuple job(2,print)after 2 entries"],
        ["ben", "out(result(2,printed))", "done"]])
    page.ask()
    page.end(folder)


def look_at_harm(browser, room, folder):
    page = Page(browser, room, "harm", text_of("crates/tucson_page/stdin"))
    page.is_("agents", "agents", ["ada", "bob </script>", "zo\u00eb"])
    told("harm: bytes that are no letters", page.columns()[0][1], "out(job('caf\\xff'))")
    page.is_("nothing of the text is HTML", "document.querySelectorAll('b b, #rows script, .term *').length", 0)
    told("harm: counts", [page.cells("centre-counts", place)[1:12] for place in (0, 1)], [
        ["9", "0", "0", "0", "0", "1", "4", "4", "0", "0", "+2"], ["5", "2", "0", "2", "1", "1", "4", "0", "1", "+1", "+1"]])
    page.is_("the fullest centre", "document.querySelector('#centre-counts tbody td').textContent", "shop (fullest)")
    page.ask("<B>&")
    page.is_("words of any letters", "at('found').textContent", "2 of 21 rows")
    page.ask()
    page.end(folder)


def configuration(calls, agents=20, centres=4):
    """A configuration of so many calls, drawn from a fixed start."""
    draw = random.Random(1)
    parts = ["role(r)."]
    for c in range(centres):
        parts += [f"centre(c{c}).", f"tuple(c{c},count(0))."]
        parts += [f"spec(c{c},reaction(out(inc),(in_r(inc),in_r(count(N)),M is N + 1,out_r(count(M)))))."]
        parts += [f"grant(r,c{c},{word})." for word in ("out", "rd", "inp", "rdp")]
    parts += [f"agent(a{a},r)." for a in range(agents)]
    for a in range(agents):
        ops = ["out(inc)", "out(inc)", f"out(job({a}))", "inp(job(_))", "rdp(count(_))", "rd(count(_))", "nop(job(_))"]
        items = [f"c{draw.randrange(centres)} ? {draw.choice(ops)}" for _ in range(calls // agents)]
        parts += [f"script(a{a},[{','.join(items[n:n + 100])}])." for n in range(0, len(items), 100)]
    return "\n".join(parts).encode() + b"\n"


def milliseconds(page, expression, times):
    """The processor time of an expression with the place `n`, in ms, where it is worked out so many times."""
    begun = page.browser.busy()
    page.value(f"(() => {{ for (let n = 0; n < {times}; n++) {{ {expression}; }} }})()")
    return 1000 * (page.browser.busy() - begun) / times


def frame(page, step):
    """The processor time of a frame that scrolls by so much."""
    return milliseconds(page, f"scrollTo(0, 500 + n * {step}); show(); document.body.offsetHeight", 200)


def look_at_many(browser, room, folder):
    run = tucson(["run", "--workers", "1"], configuration(8700))
    told("many: the configuration runs", run.returncode, 0)
    page = Page(browser, room, "many", run.stdout)
    page.counts(run.stdout, ["a0", "a19"])
    count = page.value("rows.length")
    page.is_("all rows are on the page", "listed.length <= PART && tops.length - 1", count)
    page.is_("few of them are in the document", f"{ROWS} < 60 && {ROWS} > 10", True)
    page.value("scrollTo(0, document.body.scrollHeight)")
    browser.draw()
    page.is_("the last one is there at the end", f"!!document.getElementById('row-{count - 1}')", True)
    page.is_("and few are", f"{ROWS} < 60", True)
    search = milliseconds(page, "ask({ words: ['job(7'] })", 1)
    page.value("ask({ words: [] })")
    wheel, jump = frame(page, 100), frame(page, 1000)
    print(f"many: {count} rows; ms: {wheel:.1f} for a frame of slow scrolling, {jump:.1f} of fast, {search:.0f} for a search")
    told("many: a frame of slow scrolling takes less than 16 ms", wheel < 16, True)
    page.value("scrollTo(0, 60000)")
    browser.draw()
    page.end(folder)


def look_at_more(browser, room):
    calls = b"".join(b"call a %d out(p(%d)) = done\n" % (n, n) for n in range(1, 25001))
    page = Page(browser, room, "more", b"tucson 2\ncentre c\n" + calls + b"agent a\nend ended\n")
    page.is_("the first part", "at('found').textContent", "25,000 rows; here 1 to 10,000")
    page.value("[...document.querySelectorAll('#parts button')].find(made => made.textContent === 'Next').click()")
    page.is_("the next part", "at('found').textContent", "25,000 rows; here 10,001 to 20,000")
    page.value("(wanted => { wanted.value = 24000; wanted.dispatchEvent(new Event('change')); })"
               "(document.querySelector('#parts input'))")
    page.is_("the part that was asked for", "at('found').textContent", "25,000 rows; here 24,000 to 25,000")
    page.is_("its first row", "document.querySelector('.row .term').textContent", "out(p(24000))")
    page.ask("p(20123)")
    page.is_("a search of all parts", "at('found').textContent", "1 of 25,000 rows")
    page.end(None)


def main():
    folder = sys.argv[1] if len(sys.argv) > 1 else None
    if folder:
        os.makedirs(folder, exist_ok=True)
    refused = tucson(["page"], text_of("examples/philosophers.out").replace(b"= done", b"= dona", 1))
    told("a text that is none", (refused.returncode, refused.stdout, refused.stderr.splitlines()[-1]),
         (2, b"", b"line 14 is no line of the text"))
    look_at_all()
    browser = Browser()
    with tempfile.TemporaryDirectory() as room:
        for look_at in (look_at_philosophers, look_at_rate_limit, look_at_jobs, look_at_harm, look_at_many):
            look_at(browser, room, folder)
        look_at_more(browser, room)
    browser.close()
    print("all is as it should be" if wrong == 0 else f"{wrong} things are wrong")
    sys.exit(wrong > 0)


main()
