"""What the server replies, a type for each reply of docs/SERVER.md.

Those that say no are errors: `tucson.errors.Refused` and `tucson.errors.OverBudget`.
"""

from __future__ import annotations

from dataclasses import dataclass, field
from typing import Any, Dict, Literal, Type, TypeVar, Union, overload

from .errors import BadReply, BadTerm, NotServed, OverBudget, Refused
from .reading import read_term, unquote
from .terms import Term


@dataclass(frozen=True)
class Done:
    """An `out` or a `set_spec` was served."""


@dataclass(frozen=True)
class Found:
    """A tuple, and the values that it gives to the variables of the template, by their names.

    The bindings are empty where the template isn't known: where a raw line has asked. To a `nop`
    it says that this tuple matches, and stays.
    """

    tuple: Term
    bindings: Dict[str, Term] = field(default_factory=dict)


@dataclass(frozen=True)
class NoTuple:
    """No tuple matches. It is false."""

    def __bool__(self) -> Literal[False]:
        return False


@dataclass(frozen=True)
class Absent:
    """No tuple matches, which is what a `no` or a `nop` has asked."""


@dataclass(frozen=True)
class Pending:
    """It isn't so yet; `wait` waits for it, `poll` looks again. It is false."""

    def __bool__(self) -> Literal[False]:
        return False


@dataclass(frozen=True)
class Spec:
    """The reactions of a centre, as a text."""

    text: str


@dataclass(frozen=True)
class Bye:
    """The session has ended, as was asked."""


Reply = Union[Done, Found, NoTuple, Absent, Pending, Spec, Bye, Refused, OverBudget]

_WORDS: Dict[str, Reply] = {
    "done": Done(),
    "none": NoTuple(),
    "absent": Absent(),
    "pending": Pending(),
    "bye": Bye(),
}
_PHASES = ("pre", "post")


def read_reply(line: str) -> Reply:
    """The reply of this line. A line that is none raises `BadReply`."""
    if line in _WORDS:
        return _WORDS[line]
    word, _, rest = line.partition(" ")
    try:
        if word in ("tuple", "found"):
            return Found(read_term(rest))
        if word == "spec":
            return Spec(unquote(rest))
    except BadTerm as fault:
        raise BadReply(f"no reply: {line[:80]!r}") from fault
    if word == "over" and rest in _PHASES:
        return OverBudget(rest)
    if word == "error" and rest:
        return Refused(rest)
    raise BadReply(f"no reply: {line[:80]!r}")


R = TypeVar("R")
S = TypeVar("S")
T = TypeVar("T")


@overload
def expect(reply: Reply, kind: Type[R]) -> R: ...


@overload
def expect(reply: Reply, kind: Type[R], other: Type[S]) -> Union[R, S]: ...


@overload
def expect(reply: Reply, kind: Type[R], other: Type[S], third: Type[T]) -> Union[R, S, T]: ...


def expect(reply: Reply, *kinds: Any) -> Any:
    """The reply, which has to be of one of these kinds. One that says no is raised."""
    if isinstance(reply, NotServed):
        raise reply
    if isinstance(reply, kinds):
        return reply
    raise BadReply(f"another reply than was asked for: {reply!r}")
