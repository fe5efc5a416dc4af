"""Terms that are drawn by chance."""

from tucson import Atom, Var, cell, term
from tucson.terms import LARGEST_NUMBER, LEAST_NUMBER

BYTES = [b"\n", b"\t"] + [bytes([byte]) for byte in range(32, 256)]
WORDS = ["is", "mod", "+", "-", ",", "|", "[]", ".", "?", "", "a", "aB_9", "A", "_", "-1", "0", "'"]


def name(draw):
    """A name: a word that could mislead, or any bytes."""
    if draw.random() < 0.5:
        return Atom(draw.choice(WORDS))
    return Atom.from_bytes(b"".join(draw.choices(BYTES, k=draw.randint(0, 8))))


def number(draw):
    if draw.random() < 0.3:
        return draw.choice([LEAST_NUMBER, LARGEST_NUMBER, 0, -1])
    return draw.randint(-1000, 1000)


def leaf(draw, variables):
    if variables and draw.random() < 0.3:
        return Var(draw.choice(variables))
    if draw.random() < 0.2:
        return []
    return number(draw) if draw.random() < 0.5 else term(name(draw))


def value(draw, depth=5, variables=()):
    """A term of at most this depth; without variables it is a tuple."""
    if depth == 0 or draw.random() < 0.3:
        return leaf(draw, variables)
    parts = [value(draw, depth - 1, variables) for _ in range(draw.randint(1, 4))]
    if draw.random() < 0.4:
        return parts
    if draw.random() < 0.2:
        return cell(parts[0], parts[-1])
    return term(name(draw), *parts)
