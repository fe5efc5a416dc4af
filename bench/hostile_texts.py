"""Texts for `verify` and `audit` that are made to be slow or large, as verify.py measures them.

Most have no rows: an audit goes through all histories, and then tells the first entry without a row.
"""
import dataclasses

from hostile import scripts, small, times


def called(calls, first=1):
    """Entries of the first agent: its calls, with numbers; other lines are as they should be."""
    for call in calls:
        if call.startswith(("give ", "look ", "  ")):
            yield call
        else:
            yield f"call a0 {first} {call}"
            first += 1


def text_of(calls, rows=()):
    """The text of one centre and one agent."""
    yield from ("%%", "tucson 2", "centre c")
    yield from called(calls)
    yield "agent a0"
    yield from rows
    yield "end ended"


def only(calls, most):
    """Inputs that are these calls of one agent, of which there are so many."""
    def lines(share):
        yield from small()
        yield from text_of(calls(times(most, share)))
    return lines


def puts_and_takes(count):
    for k in range(count // 2):
        yield f"out(p({k})) = done"
        yield f"inp(p({k})) = tuple p({k})"


def more_than_rows(share):
    """Ten times as many entries as an agent has rows."""
    rows = times(100_000, share)
    yield from small()
    yield from scripts(["rdp(p)"] * rows)
    yield from text_of(["rdp(p) = none"] * (10 * rows), (f"{k + 1} c none" for k in range(rows)))


def among_equal(share):
    """Equal tuples, of which calls take half."""
    count = times(1_000_000, share)
    yield from small()
    yield from ("tuple(c,p)." for _ in range(count))
    yield from text_of("inp(p) = tuple p" for _ in range(count // 2))


def youngest_first(count):
    """Tuples of one name and first argument, of which the youngest is taken each time."""
    yield from (f"out(p(k,{k})) = done" for k in range(count))
    yield from (f"inp(p(k,_0)) = tuple p(k,{k})" for k in reversed(range(count)))


def answered(order):
    """Calls wait, and are answered in this order."""
    def calls(count):
        yield from (f"in(p({k})) = pending" for k in range(count))
        for k in order(range(count)):
            yield f"out(p({k})) = done"
            yield f"give a0 {k + 1} = tuple p({k})"
    return calls


def of_one_key(count):
    """Calls wait for tuples of one name and first argument, and each that comes is another."""
    yield from (f"in(p(k,{k},_0)) = pending" for k in range(count))
    yield from (f"out(p(k,x,{k})) = done" for k in range(count))


def for_absence(count):
    """Calls wait until tuples of one name and first argument are gone, and others of them go."""
    yield from (f"out(p(k,{k},0)) = done" for k in range(count))
    yield from (f"no(p(k,{k},_0)) = pending" for k in range(count))
    yield from (call for k in range(count) for call in (f"out(p(k,x,{k})) = done",
                                                        f"inp(p(k,x,{k})) = tuple p(k,x,{k})"))


def given_none(count):
    """Behind calls that wait, an answer to none of them."""
    yield from (f"in(p({k})) = pending" for k in range(count))
    yield f"give a0 {count + 1} = tuple p"


def looked_back(count):
    """Looks at calls, the oldest last."""
    yield from (f"out(p({k})) = done" for k in range(count))
    yield from (f"look a0 {2 * count - k} {k + 1} = done" for k in reversed(range(count)))


def full_at_many(share):
    """One agent is served at a full centre, and another is told at each row how full it was."""
    count = times(49_000, share)
    yield from small(400, 10_000)
    yield from (f"script(a{agent},[c ? in(never)])." for agent in range(2, 400))
    for agent in range(2):
        yield from scripts(["rdp(p)"] * count, agent)
    yield from ("%%", "tucson 2", "centre c")
    yield from (f"call a{agent} 1 in(never) = pending" for agent in range(2, 400))
    yield from called(["rdp(p) = none"] * count)
    yield from ("agent a0", *(f"{k + 1} c none" for k in range(count)))
    yield from ("agent a1", *(f"{k + 1} c full {398 + count - k} 398" for k in range(count)))
    yield from (line for agent in range(2, 400) for line in (f"agent a{agent}", "1 c pending"))
    yield "end blocked"


def of_no_centre(share):
    """Rows of which 64 centres have no entry, but others of the same agent."""
    rows = times(100_000, share)
    yield from (f"centre(c{centre})." for centre in range(64))
    yield "role(r). agent(a0,r)."
    yield from (line.replace("c ?", "c0 ?") for line in scripts(["rdp(p)"] * rows))
    yield from ("%%", "tucson 2")
    for centre in range(64):
        yield f"centre c{centre}"
        yield from called(["rdp(p) = none"] * times(1_000, share), 200_000)
    yield from ("agent a0", *(f"{k + 1} c0 denied" for k in range(rows)), "end ended")


def picked_last(share):
    """Reactions to one call, of which the youngest is picked each time and triggers 64."""
    budget = times(10_000, share)
    puts = ",".join(["out_r(b)"] * 64)
    yield from small(1, budget)
    yield f"spec(c,reaction(out(a),({puts}))). spec(c,reaction(out_r(b),({puts})))."
    yield from text_of(["out(a) = over post",
                        *(f"  {1 + 63 * k} fired {min(k, 1) + 1}" + " put b" * 64 for k in range(budget))])


def long_centre(share):
    """Calls at a centre with a long name."""
    name = "c" * 65_000
    yield f"centre({name}). role(r). agent(a0,r)."
    yield from ("%%", "tucson 2", f"centre {name}")
    yield from called(["rdp(p) = none"] * times(300_000, share))
    yield from ("agent a0", "end ended")


def long_line(piece, count, front, back=""):
    """A text with one long line."""
    def lines(share):
        yield from small()
        yield from text_of([front + piece * times(count, share) + back])
    return lines


def spec_each_time(count):
    """The reactions are replaced by 1,000 others at each call."""
    spec = "\\n".join(["reaction(out(a),true)."] * 1000) + "\\n"
    yield from (f"set_spec('{spec}') = done" for _ in range(count))


@dataclasses.dataclass
class Hostile:
    """Inputs of one kind; `lines` makes the one of a share, and `told` begins what is said of it."""
    name: str
    lines: object
    told: str = "no agent a0 1"
    word: str = "audit"


HOSTILE = [
    Hostile("1,000,000 calls of one agent", only(puts_and_takes, 1_000_000)),
    Hostile("the same, of whom 100,000 have rows", more_than_rows, "no agent a0 100001", "verify"),
    Hostile("half of 1,000,000 equal tuples taken", among_equal),
    Hostile("of tuples of one name and first argument the youngest taken", only(youngest_first, 4_000)),
    Hostile("calls that wait, the oldest answered first", only(answered(iter), 40_000)),
    Hostile("calls that wait, the youngest answered first", only(answered(reversed), 40_000)),
    Hostile("calls that wait for tuples of one name and first argument", only(of_one_key, 3_000)),
    Hostile("calls that wait for the absence of such", only(for_absence, 2_000)),
    Hostile("an answer to none of 500,000 calls that wait", only(given_none, 500_000), "no entry c"),
    Hostile("looks at each of 500,000 calls", only(looked_back, 500_000)),
    Hostile("rows that tell at which of 49,000 places a centre was full", full_at_many, "yes", "verify"),
    Hostile("rows of which none of 64 centres has an entry", of_no_centre, "no agent a0 100001", "verify"),
    Hostile("reactions of which the youngest is picked each time", picked_last),
    Hostile("calls at a centre with a long name", long_centre),
    Hostile("set_spec of 1,000 clauses", only(spec_each_time, 600)),
    Hostile("a reaction with 4,000,000 effects", long_line(" put p", 4_000_000, "  1 fired 1"), "no text 3"),
    Hostile("a call with 1,000,000 reactions", long_line("\n  1 fired 1", 1_000_000, "out(p) = done"), "no entry c 1"),
    Hostile("compounds without an end", long_line("f(", 8_000_000, "out("), "no text 3"),
    Hostile("a list without an end", long_line("a,", 8_000_000, "out(["), "no text 3"),
    Hostile("a quoted text without an end", long_line("\\\\", 8_000_000, "set_spec('"), "no text 3"),
    Hostile("digits without an end", long_line("7", 16_000_000, "out("), "no text 3"),
]
