#!/usr/bin/env python3
"""What the gate costs, crate by crate: processor seconds of proof, of tests and of must-fail edits.

bench/gate.py            runs the gate on a clean clone of what is committed, and prints the table of docs/GATE.md
bench/gate.py NAME ..    the same of these crates and those below them

Nothing is kept from an earlier run: where this kit's `rt ci` would take over what it has passed, it is told
`--anew`. What it says goes to standard error. Every prover that it starts is looked at twice a second, so times
are exact to a second for each start of a prover. A run that is interrupted, or that `kill` ends, prints the
table of what it has seen so far.
"""
import os
import pathlib
import re
import shutil
import signal
import subprocess
import sys
import tempfile
import time

TOP = pathlib.Path(__file__).resolve().parent.parent
KINDS = ("proof", "tests", "edits")
TICKS = os.sysconf("SC_CLK_TCK")


def processes():
    """Each process: its parent, the processor time that it has used, in seconds, and when it began."""
    found = {}
    for entry in os.listdir("/proc"):
        if not entry.isdigit():
            continue
        try:
            fields = pathlib.Path(f"/proc/{entry}/stat").read_text().rpartition(")")[2].split()
        except OSError:
            continue
        found[int(entry)] = int(fields[1]), (int(fields[11]) + int(fields[12])) / TICKS, int(fields[19])
    return found


def work_of(process):
    """The crate and the kind of work of a prover, or None for any other process."""
    try:
        words = pathlib.Path(f"/proc/{process}/cmdline").read_bytes().decode(errors="replace").split("\0")
        folder = os.readlink(f"/proc/{process}/cwd")
    except OSError:
        return None
    if "--crate-name" not in words:
        return None
    crate = words[words.index("--crate-name") + 1]
    if "/rt-edit-" in folder:
        return crate, "edits"
    return crate, "tests" if "--test" in words else "proof"


def add_sample(root, kinds, used):
    """Notes what the provers below this process have used so far. Numbers of processes come again."""
    alive = processes()
    for process, (parent, seconds, began) in alive.items():
        above = process
        while above in alive and above != root:
            above = alive[above][0]
        if above != root:
            continue
        one = process, began
        if one not in kinds:
            kinds[one] = work_of(process) or kinds.get((parent, alive[parent][2]))
        if kinds[one]:
            used[one] = kinds[one], seconds


def crates_in_order():
    lines = (TOP / "crates.txt").read_text().splitlines()
    return [re.match(r"\w+", line).group() for line in lines if re.match(r"\w", line)]


def counts_of(crate):
    sources = "".join(path.read_text() for path in (TOP / "crates" / crate).glob("src/**/*.rt"))
    edits = list((TOP / "crates" / crate / "must-fail").glob("*.edit"))
    return sources.count("#[test]"), len(edits)


def seconds_of(used):
    """What each kind of work has cost, by crate and kind."""
    seconds = {}
    for work, spent in used.values():
        seconds[work] = seconds.get(work, 0) + spent
    return seconds


def print_table(seconds, wall):
    print("| crate | proof, s | tests, s | their number | edits, s | their number | whole, s |")
    print("|---|---|---|---|---|---|---|")
    sums = dict.fromkeys(KINDS, 0)
    for crate in crates_in_order():
        spent = [seconds.get((crate, kind), 0) for kind in KINDS]
        if not any(spent):
            continue
        tests, edits = counts_of(crate)
        print(f"| {crate} | {spent[0]:.0f} | {spent[1]:.0f} | {tests} | {spent[2]:.0f} | {edits} | {sum(spent):.0f} |")
        for kind, spent_on in zip(KINDS, spent):
            sums[kind] += spent_on
    print(f"| all | {sums['proof']:.0f} | {sums['tests']:.0f} | | {sums['edits']:.0f} | | {sum(sums.values()):.0f} |")
    print(f"\nWall time {wall / 60:.1f} minutes on {os.cpu_count()} processors.")


def with_those_below(names, uses):
    """These crates, and all that they stand on."""
    found, waiting = set(), list(names)
    while waiting:
        name = waiting.pop()
        if name in uses and name not in found:
            found.add(name)
            waiting += uses[name]
    return found


def leave_out_others(folder, names):
    """Leaves in a clone these crates and those below them alone."""
    lines = [re.match(r"(\w+)[^:#]*:(.*)", line) for line in (folder / "crates.txt").read_text().splitlines()]
    lines = [line for line in lines if line]
    wanted = with_those_below(names, {line[1]: line[2].split() for line in lines})
    (folder / "crates.txt").write_text("".join(line[0] + "\n" for line in lines if line[1] in wanted))
    for crate in (folder / "crates").iterdir():
        if crate.name not in wanted:
            shutil.rmtree(crate)


def gate_command():
    """The command of the gate, from nothing."""
    told = subprocess.run(["rt", "help"], capture_output=True, text=True)
    return ["rt", "ci", *(["--anew"] if "--anew" in told.stdout + told.stderr else [])]


def watch(run, kinds, used):
    """Looks at the provers until the run has ended, or somebody ends it."""
    signal.signal(signal.SIGTERM, signal.default_int_handler)
    try:
        while run.poll() is None:
            add_sample(run.pid, kinds, used)
            time.sleep(0.5)
    except KeyboardInterrupt:
        run.terminate()
        run.wait()


def main():
    with tempfile.TemporaryDirectory(prefix="gate-") as room:
        clone = pathlib.Path(room) / "clone"
        subprocess.run(["git", "clone", "--quiet", TOP, clone], check=True)
        if sys.argv[1:]:
            leave_out_others(clone, sys.argv[1:])
        began = time.monotonic()
        run = subprocess.Popen(gate_command(), cwd=clone, stdin=subprocess.DEVNULL, stdout=sys.stderr)
        kinds, used = {}, {}
        watch(run, kinds, used)
        print_table(seconds_of(used), time.monotonic() - began)
    sys.exit(run.returncode)


if __name__ == "__main__":
    main()
