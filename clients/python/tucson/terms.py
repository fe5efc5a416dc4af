"""Terms as values of Python, and the text of each.

| Term     | Value                                                                 |
|----------|-----------------------------------------------------------------------|
| number   | `int`, of 64 bits with a sign                                         |
| atom     | `Atom`, which is a `str`; any `str` is taken for the atom of that name |
| list     | `list`; the atom `[]` is the empty one                                |
| variable | `Var`                                                                 |
| compound | `Compound`, made by `term`                                            |

A list with another tail than a list, as `[1|T]`, is a `Compound` of the name `.`; `cell` makes it,
as `cell(1, Var("T"))`.

Names are bytes. A `str` stands for its UTF-8; bytes that aren't UTF-8 are surrogates in it, as
`os.fsdecode` makes them, so that each name has a `str` of its own.
"""

from __future__ import annotations

import re
from dataclasses import dataclass
from typing import Any, Iterator, List, Tuple, Union

from .errors import BadTerm

LEAST_NUMBER = -(2**63)
LARGEST_NUMBER = 2**63 - 1

_PLAIN_NAME = re.compile(r"[a-z][A-Za-z0-9_]*")
_VARIABLE_NAME = re.compile(r"[A-Z_][A-Za-z0-9_]*")
# Bytes below 32 stand in no name, but for LF and tab; nor do surrogates that stand for no byte.
_NO_NAME = re.compile("[\x00-\x08\x0b-\x1f\ud800-\udc7f\udd00-\udfff]")
_ESCAPES = {ord("'"): "\\'", ord("\\"): "\\\\", ord("\n"): "\\n", ord("\t"): "\\t"}


class Atom(str):
    """An atom. It is equal to the `str` of its name."""

    __slots__ = ()

    @classmethod
    def from_bytes(cls, name: bytes) -> Atom:
        """The atom of this name, whatever bytes it has."""
        return cls(name.decode("utf-8", "surrogateescape"))

    def __bytes__(self) -> bytes:
        return self.encode("utf-8", "surrogateescape")

    def __repr__(self) -> str:
        return f"Atom({str.__repr__(self)})"


@dataclass(frozen=True)
class Var:
    """A variable, by its name: a capital or `_`, then letters, digits and `_`."""

    name: str

    def __post_init__(self) -> None:
        if not _VARIABLE_NAME.fullmatch(self.name):
            raise BadTerm(f"no variable has the name {self.name!r}")


ANY = Var("_")
"""The variable `_`: it stands for anything, and for something else at each place."""


@dataclass(frozen=True, eq=False, repr=False)
class Compound:
    """A name with one or more arguments. Make it by `term`, as `term("job", 1, "sort")`.

    Two are equal where they are written the same.
    """

    name: str
    args: Tuple[Term, ...]

    def __eq__(self, other: object) -> bool:
        if not isinstance(other, Compound):
            return NotImplemented
        return text_of(self) == text_of(other)

    def __hash__(self) -> int:
        return hash(text_of(self))

    def __str__(self) -> str:
        return text_of(self)

    def __repr__(self) -> str:
        return f"read_term({text_of(self)!r})"


Term = Union[int, str, List[Any], Var, Compound]


def term(name: str, *args: Term) -> Term:
    """The compound of this name and these arguments; without any, the atom."""
    if not args:
        return [] if name == "[]" else Atom(name)
    if name == "." and len(args) == 2:
        return cell(*args)
    return Compound(name, args)


def cell(head: Term, tail: Term) -> Term:
    """The list that begins with this element and goes on with this tail."""
    if isinstance(tail, list):
        return [head, *tail]
    return Compound(".", (head, tail))


def is_cell(value: Term) -> bool:
    """Whether the value is a list that isn't empty, whatever its tail is."""
    if isinstance(value, Compound):
        return value.name == "." and len(value.args) == 2
    return isinstance(value, list) and value != []


def head_and_tail(value: Any) -> Tuple[Term, Term]:
    """The first element of a list that isn't empty, and what follows."""
    if isinstance(value, Compound):
        return value.args[0], value.args[1]
    return value[0], value[1:]


def quote(name: str) -> str:
    """The name in quotes."""
    if _NO_NAME.search(name):
        raise BadTerm(f"no name has such a character: {name!r}")
    return "'" + name.translate(_ESCAPES) + "'"


def text_of_name(name: str) -> str:
    """The name as a compound's stands before its bracket: in quotes where it has to be."""
    return name if _PLAIN_NAME.fullmatch(name) else quote(name)


class _Mark(str):
    """A piece of text that stands between terms, and is no atom."""


def text_of(value: Term) -> str:
    """The text of a term, as the server prints it; variables keep their names."""
    parts: List[str] = []
    todo: List[Any] = [value]
    while todo:
        item = todo.pop()
        if isinstance(item, _Mark):
            parts.append(item)
        elif isinstance(item, Compound) or is_cell(item):
            todo.extend(reversed(list(_parts_of(item))))
        else:
            parts.append(_text_of_leaf(item))
    return "".join(parts)


def _text_of_leaf(value: Any) -> str:
    if isinstance(value, str):
        return "[]" if value == "[]" else text_of_name(value)
    if isinstance(value, int) and not isinstance(value, bool):
        if LEAST_NUMBER <= value <= LARGEST_NUMBER:
            return str(int(value))
        raise BadTerm(f"the number {value} has more than 64 bits")
    if isinstance(value, Var):
        return value.name
    if isinstance(value, list):
        return "[]"
    raise BadTerm(f"a {type(value).__name__} is no term: {value!r}")


def _parts_of(value: Any) -> Iterator[Any]:
    """The marks and the terms that a compound or a list is written by, in order."""
    if is_cell(value):
        yield from _parts_of_list(value)
        return
    if not value.args:
        raise BadTerm(f"the compound {value.name!r} has no arguments")
    before = text_of_name(value.name) + "("
    for argument in value.args:
        yield _Mark(before)
        yield argument
        before = ","
    yield _Mark(")")


def _parts_of_list(value: Any) -> Iterator[Any]:
    before = "["
    while isinstance(value, Compound) and is_cell(value):
        yield _Mark(before)
        yield value.args[0]
        before, value = ",", value.args[1]
    if isinstance(value, list):
        for element in value:
            yield _Mark(before)
            yield element
            before = ","
    elif value != "[]":
        yield _Mark("|")
        yield value
    yield _Mark("]")
