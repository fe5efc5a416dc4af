#!/usr/bin/env python3
"""bench/edges.py [PROGRAM]   inputs of the last right length and of the first wrong one, as long as the gate's rows can't be

Runs PROGRAM, or ./tucson, on each input, and says where the status or the first line isn't the one that is due, and how
many megabytes were resident at most. The status is 0 where all are as they should be.
"""
import os
import pathlib
import resource
import subprocess
import sys
import tempfile

TOP = pathlib.Path(__file__).resolve().parent.parent
MOST_INPUT, MOST_CONFIGURATION = 268_435_456, 16_777_216
REFUSED = "configuration refused: clause 0: length"
CONF = (TOP / "examples/counter.conf").read_bytes()
TEXT = (TOP / "examples/counter.out").read_bytes()
BEHIND = f"no text {TEXT.count(bytes([10])) + 1}"


def padded(text, size):
    """A configuration of so many bytes that says what this one says."""
    return text + b"%" + b" " * (size - len(text) - 2) + b"\n"


def filled(text, size):
    """The text, and zero bytes behind it up to this size."""
    return text + bytes(size - len(text))


def beside(configuration, text):
    return configuration + b"%%\n" + text


# What is done, the words, the input, and the status and the first line that are due.
EDGES = [
    ("run, the largest configuration", ["run"], lambda: padded(CONF, MOST_CONFIGURATION), 0, "tucson 2"),
    ("run, a byte more", ["run"], lambda: padded(CONF, MOST_CONFIGURATION + 1), 2, REFUSED),
    ("verify, the largest configuration", ["verify"], lambda: beside(padded(CONF, MOST_CONFIGURATION), TEXT), 0, "yes"),
    ("verify, one of a byte more", ["verify"], lambda: beside(padded(CONF, MOST_CONFIGURATION + 1), TEXT), 2, REFUSED),
    ("verify, the largest input", ["verify"], lambda: filled(beside(CONF, TEXT), MOST_INPUT), 4, BEHIND),
    ("verify, a byte more", ["verify"], lambda: filled(beside(CONF, TEXT), MOST_INPUT + 1), 2, REFUSED),
    ("verify, far more", ["verify"], lambda: bytes(2 * MOST_INPUT), 2, REFUSED),
    ("load, the fewest agents", ["load", "1", "0"], lambda: b"", 0, None),
    ("load, none", ["load", "0", "0"], lambda: b"", 7, None),
    ("load, the most", ["load", "1000", "18446744073709551615"], lambda: b"", 0, None),
    ("load, one more", ["load", "1001", "0"], lambda: b"", 7, None),
    ("load, a seed past 64 bits", ["load", "1", "18446744073709551616"], lambda: b"", 7, None),
    ("run, the most workers", ["run", "--workers", "64"], lambda: CONF, 0, "tucson 2"),
    ("run, one more", ["run", "--workers", "65"], lambda: CONF, 7, None),
    ("serve, a port past the last", ["serve", "65536"], lambda: CONF, 7, None),
]


def ends(program, words, given):
    """The status and the first line of a run."""
    with tempfile.TemporaryFile() as file:
        file.write(given)
        file.seek(0)
        run = subprocess.run([program, *words], stdin=file, capture_output=True)
    return run.returncode, run.stdout.split(b"\n", 1)[0].decode()


def main():
    program = os.path.abspath(sys.argv[1]) if len(sys.argv) > 1 else str(TOP / "tucson")
    wrong = 0
    for name, words, given, status, line in EDGES:
        got = ends(program, words, given())
        is_due = got[0] == status and line in (None, got[1])
        wrong += not is_due
        print(f"{'as it should be' if is_due else 'WRONG'}: {name}: status {got[0]}, {got[1] or 'nothing'}", flush=True)
    most = resource.getrusage(resource.RUSAGE_CHILDREN).ru_maxrss / 1024
    print(f"{len(EDGES) - wrong} of {len(EDGES)}; {most:.0f} MB were resident at most")
    sys.exit(wrong > 0)


if __name__ == "__main__":
    main()
