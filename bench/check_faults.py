#!/usr/bin/env python3
"""bench/check_faults.py [--show] [--seed N] [PROGRAM ..]

Makes 130 typing errors in the examples, as they stand or with their long clauses on several lines, one at a time, runs
`./tucson check` (or PROGRAM) on each, and says which of them are shown at their line. --show prints what is said of
each, so that it can be looked at.

Which errors are made is drawn from a number, so each run with that number makes the same ones. An error's line is that
on which it was typed; of a grant that was left out it is that of the first item of a script that wants it. A name that
is misspelt where it is declared counts as shown where the advice names that line. The status is 0 where all are shown.
"""
import pathlib
import random
import re
import subprocess
import sys

TOP = pathlib.Path(__file__).resolve().parent.parent
SEED = 7
WORDS = {"centre", "tuple", "spec", "role", "grant", "agent", "script"}
GOALS = {"out_r", "in_r", "rd_r", "no_r", "current_agent", "current_op", "current_tuple", "success", "failure"}
PRIMITIVES = {"out", "in", "rd", "inp", "rdp", "no", "nop", "set_spec", "get_spec"}
TOKEN = re.compile(r"%[^\n]*|'(?:''|\\.|[^'\n])*'|[a-z][A-Za-z0-9_]*|[A-Z_][A-Za-z0-9_]*|\d+|\.(?=\s|$|%)|\S")


def spread(text):
    """The text with its longer clauses on several lines, as people write them."""
    lines = []
    for line in text.splitlines():
        is_long = len(line) > 60 and line.startswith(("spec", "script"))
        made, depth = "", 0
        for match in TOKEN.finditer(line):
            token = match.group()
            depth += (token in "([") - (token in ")]")
            if is_long and token == "," and 1 <= depth <= 3:
                made += ",\n" + "    " * depth
            else:
                made += token + (" " if line.startswith(" ", match.end()) else "")
        lines.append(made)
    return "\n".join(lines) + "\n"


class Text:
    """An example with its tokens and clauses, as it stands or on more lines."""

    def __init__(self, path, change=str):
        self.name = str(path.relative_to(TOP)) + (" (spread)" if change is spread else "")
        self.text = change(path.read_text())
        self.tokens = [(m.start(), m.group()) for m in TOKEN.finditer(self.text)]
        self.code = [t for t in self.tokens if not t[1].startswith("%")]
        self.clauses, clause = [], []
        for token in self.code:
            clause.append(token)
            if token[1] == ".":
                self.clauses.append(clause)
                clause = []

    def line(self, place):
        return self.text.count("\n", 0, place) + 1


class Fault:
    """A text with an error in it: what was done, and on which line."""

    def __init__(self, kind, example, done, text, line):
        self.kind, self.example, self.done, self.text, self.line = kind, example, done, text, line


def replaced(kind, example, place, old, new, done):
    assert example.text.startswith(old, place), (example.name, old)
    text = example.text[:place] + new + example.text[place + len(old):]
    return Fault(kind, example, done, text, example.line(place))


def missing_dot(example, draw):
    place, _ = draw.choice([c[-1] for c in example.clauses])
    return replaced("dot", example, place, ".", "", "a full stop left out")


def comma_for_dot(example, draw):
    place, _ = draw.choice([c[-1] for c in example.clauses[:-1]])
    return replaced("dot", example, place, ".", ",", "a comma for a full stop")


def missing_bracket(example, draw):
    place, bracket = draw.choice([t for t in example.code if t[1] in "()[]"])
    return replaced("bracket", example, place, bracket, "", f"a {bracket} left out")


def extra_bracket(example, draw):
    place, bracket = draw.choice([t for t in example.code if t[1] in "()[]"])
    return replaced("bracket", example, place, bracket, bracket * 2, f"a {bracket} twice")


def misspelt(word, draw):
    place = draw.randrange(len(word))
    way = draw.choice(["swap", "drop", "double", "other"])
    if way == "swap" and len(word) > 1:
        place = min(place, len(word) - 2)
        made = word[:place] + word[place + 1] + word[place] + word[place + 2:]
    elif way == "drop" and len(word) > 2:
        made = word[:place] + word[place + 1:]
    elif way == "double":
        made = word[:place] + word[place] + word[place:]
    else:
        made = word[:place] + draw.choice("abcdefghijklmnopqrstuvwxyz") + word[place + 1:]
    return made if made != word and made not in PRIMITIVES | GOALS | WORDS and re.match(r"[a-z]\w*$", made) else None


def names_of(example):
    """The names that are used and declared: centres, roles, agents, and the words of the language."""
    declared = {c[2][1] for c in example.clauses if c[0][1] in ("centre", "role", "agent")}
    tokens = [t[1] for t in example.code]
    declared = {name for name in declared if tokens.count(name) > 1}
    found = []
    for clause in example.clauses:
        word = clause[0][1]
        for number, (place, token) in enumerate(clause):
            before = clause[number - 1][1] if number else ""
            behind = clause[number + 1][1] if number + 1 < len(clause) else ""
            if number == 0 or (token in GOALS and word == "spec"):
                found.append((place, token))
            elif token in PRIMITIVES and (before == "?" or word == "grant"):
                found.append((place, token))
            elif token in declared and (behind == "?" or (before == "(" and number == 2) or word in ("grant", "agent")):
                found.append((place, token))
            elif before == "(" and clause[number - 2][1] == "reaction":
                found.append((place, token))
    return found


def misspelt_name(example, draw):
    place, token = draw.choice(names_of(example))
    made = misspelt(token, draw)
    if made is None:
        return None
    return replaced("name", example, place, token, made, f"{made} for {token}")


def capital(example, draw):
    names = names_of(example)
    names += [c[4] for c in example.clauses if c[0][1] == "tuple" and c[4][1][0].islower()]
    place, token = draw.choice(names)
    made = token[0].upper() + token[1:]
    return replaced("capital", example, place, token, made, f"{made} for {token}")


def comment(example, draw):
    sign = draw.choice(["#", "//", "--", ";"])
    comments = [t for t in example.tokens if t[1].startswith("%")]
    if draw.random() < 0.5 and comments:
        place, text = draw.choice(comments)
        return replaced("comment", example, place, "%", sign, f"{sign} for %")
    place, _ = draw.choice([t for t in example.code if example.text.startswith("\n", t[0] + len(t[1]))])
    end = example.text.index("\n", place)
    return replaced("comment", example, end, "\n", f"   {sign} this one is new\n", f"a comment behind {sign}")


def missing_grant(example, draw):
    grants = [c for c in example.clauses if c[0][1] == "grant"]
    if not grants:
        return None
    clause = draw.choice(grants)
    start, end = clause[0][0], clause[-1][0] + 1
    role, centre, primitive = clause[2][1], clause[4][1], clause[6][1]
    agents = {c[2][1] for c in example.clauses if c[0][1] == "agent" and c[4][1] == role}
    for script in example.clauses:
        if script[0][1] == "script" and script[2][1] in agents:
            for i in range(len(script) - 2):
                if [t[1] for t in script[i:i + 3]] == [centre, "?", primitive]:
                    text = example.text[:start] + example.text[end:]
                    line = example.line(script[i][0])
                    return Fault("grant", example, f"grant({role},{centre},{primitive}). left out", text, line)
    return None


def missing_comma(example, draw):
    place, _ = draw.choice([t for t in example.code if t[1] == ","])
    if re.match(r"\w\w", example.text[place - 1] + example.text[place + 1]):
        return None
    return replaced("comma", example, place, ",", "", "a comma left out")


def missing_quote(example, draw):
    quoted = [t for t in example.code if t[1].startswith("'")]
    if not quoted:
        return None
    place, token = draw.choice(quoted)
    if draw.random() < 0.5:
        place += len(token) - 1
    return replaced("quote", example, place, "'", "", "a quote left out")


WANTED = [(missing_dot, 18), (comma_for_dot, 4), (missing_bracket, 24), (extra_bracket, 10), (misspelt_name, 24),
          (capital, 18), (comment, 14), (missing_grant, 8), (missing_comma, 6), (missing_quote, 4)]


def make_faults(seed=SEED):
    paths = sorted((TOP / "examples").glob("*.conf")) + sorted((TOP / "examples" / "net").glob("*.conf"))
    paths = [p for p in paths if p.name not in ("unknown.conf", "read_only.conf") and p.parent.name + p.name != "examplesauction.conf"]
    examples = [Text(path, change) for path in paths for change in (str, spread)]
    draw, faults, seen = random.Random(seed), [], set()
    for make, count in WANTED:
        made = 0
        while made < count:
            fault = make(draw.choice(examples), draw)
            if fault is None or fault.text in seen:
                continue
            seen.add(fault.text)
            faults.append(fault)
            made += 1
    return faults


def shown_lines(said):
    lines = [int(n) for n in re.findall(r"^ +\^+ line (\d+), column \d+$", said, re.M)]
    return lines or [int(n) for n in re.findall(r"^clause \d+, line (\d+): warning", said, re.M)]


def main():
    words = sys.argv[1:]
    show = "--show" in words
    seed = int(words[words.index("--seed") + 1]) if "--seed" in words else SEED
    program = [w for w in words if w not in ("--show", "--seed", str(seed))] or [str(TOP / "tucson"), "check"]
    right = 0
    faults = make_faults(seed)
    for number, fault in enumerate(faults, 1):
        run = subprocess.run(program, input=fault.text.encode(), stdout=subprocess.PIPE, stderr=subprocess.DEVNULL)
        said = run.stdout.decode()
        lines = shown_lines(said)
        is_right = fault.line in lines or f", line {fault.line})" in said
        is_right = is_right and run.returncode == (0 if fault.kind == "grant" else 2)
        right += is_right
        mark = "right" if is_right else "WRONG"
        print(f"{number:3} {mark} {fault.kind:8} {fault.example.name}, line {fault.line}: {fault.done}")
        if show or not is_right:
            print("".join(f"      | {line}\n" for line in said.splitlines()), end="")
            if not is_right:
                print(f"      typed: {fault.text.splitlines()[fault.line - 1]}")
    print(f"{right} of {len(faults)} are shown at their line")
    return 0 if right == len(faults) else 1


if __name__ == "__main__":
    sys.exit(main())
