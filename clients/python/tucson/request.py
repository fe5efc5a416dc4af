"""What a session asks, as values, for `gather`.

`gather([request.out("c", 1), request.in_("c", Var("X")), request.WAIT])` sends three lines at once.
"""

from __future__ import annotations

import re
from dataclasses import dataclass
from typing import Optional

from .errors import BadTerm
from .terms import Term, quote, text_of

_NO_LINE = re.compile("[\n\ud800-\udc7f\udd00-\udfff]")


@dataclass(frozen=True)
class Request:
    """A line, and the template that its reply's tuple matches, where it is known.

    `looks` says that the line asks for the reply of the call that is pending.
    """

    line: str
    template: Optional[Term] = None
    looks: bool = False

    def __post_init__(self) -> None:
        if _NO_LINE.search(self.line):
            raise BadTerm("a line holds no line's end, and no surrogate that stands for no byte")


POLL = Request("poll", looks=True)
WAIT = Request("wait", looks=True)
QUIT = Request("quit")


def out(centre: str, tuple: Term) -> Request:
    """Puts the tuple."""
    return _call(centre, f"out({text_of(tuple)})")


def in_(centre: str, template: Term) -> Request:
    """Takes the oldest tuple that matches; its reply is `Pending` where there is none yet."""
    return _call(centre, f"in({text_of(template)})", template)


def rd(centre: str, template: Term) -> Request:
    """Reads the oldest tuple that matches; its reply is `Pending` where there is none yet."""
    return _call(centre, f"rd({text_of(template)})", template)


def inp(centre: str, template: Term) -> Request:
    """Takes the oldest tuple that matches, if there is one."""
    return _call(centre, f"inp({text_of(template)})", template)


def rdp(centre: str, template: Term) -> Request:
    """Reads the oldest tuple that matches, if there is one."""
    return _call(centre, f"rdp({text_of(template)})", template)


def no(centre: str, template: Term) -> Request:
    """Asks that no tuple matches; its reply is `Pending` while one does."""
    return _call(centre, f"no({text_of(template)})", template)


def nop(centre: str, template: Term) -> Request:
    """Asks whether no tuple matches; its reply is the oldest that does, if there is one."""
    return _call(centre, f"nop({text_of(template)})", template)


def set_spec(centre: str, text: str) -> Request:
    """Replaces the centre's reactions by those of the text."""
    return _call(centre, f"set_spec({quote(text)})")


def get_spec(centre: str) -> Request:
    """Asks for the centre's reactions."""
    return _call(centre, "get_spec")


def _call(centre: str, operation: str, template: Optional[Term] = None) -> Request:
    return Request(f"{text_of(centre)} ? {operation}", template)
