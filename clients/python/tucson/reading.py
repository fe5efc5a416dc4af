"""The texts of terms, as the server prints them, read back.

That is canonical text, as docs/FORMATS.md says: operators stand in front as plain names, no blanks
stand between tokens, and only lists have a form of their own.
"""

from __future__ import annotations

import re
from typing import List, Match, Optional

from .errors import BadTerm
from .terms import LARGEST_NUMBER, LEAST_NUMBER, Term, Var, cell, term

_TOKEN = re.compile(
    r"""(?P<name>[a-z][A-Za-z0-9_]*)
    | '(?P<quoted>[^'\\]*(?:\\['\\nt][^'\\]*)*)'
    | (?P<number>-?[0-9]+)
    | (?P<variable>[A-Z_][A-Za-z0-9_]*)
    | (?P<empty>\[\])
    | (?P<list>\[)""",
    re.VERBOSE,
)
_ESCAPE = re.compile(r"\\(.)")
_MEANT = {"n": "\n", "t": "\t"}


def read_term(text: str) -> Term:
    """The term of this text. A text that is none raises `BadTerm`."""
    return _Reader(text).term()


def unquote(text: str) -> str:
    """The name that stands in these quotes."""
    token = _TOKEN.fullmatch(text)
    if token is None or token.lastgroup != "quoted":
        raise BadTerm(f"no name in quotes: {text[:80]!r}")
    return _meaning(token["quoted"])


def _meaning(inside: str) -> str:
    return _ESCAPE.sub(lambda escape: _MEANT.get(escape[1], escape[1]), inside)


class _Open:
    """A bracket that isn't closed yet: of a compound of this name, or of a list, without one."""

    def __init__(self, name: Optional[str]) -> None:
        self.name = name
        self.parts: List[Term] = []
        self.has_bar = False

    def goes_on(self, mark: str) -> bool:
        """Whether another part stands behind this mark."""
        if mark == "|" and self.name is None and not self.has_bar:
            self.has_bar = True
            return True
        return mark == "," and not self.has_bar

    def is_closed_by(self, mark: str) -> bool:
        return mark == ("]" if self.name is None else ")")

    def closed(self) -> Term:
        if self.name is not None:
            return term(self.name, *self.parts)
        tail: Term = self.parts.pop() if self.has_bar else []
        if isinstance(tail, list):
            return self.parts + tail
        for part in reversed(self.parts):
            tail = cell(part, tail)
        return tail


class _Reader:
    """A text, the place up to which it is read, and the brackets that are open there.

    Terms may be a thousand deep, so nothing here calls itself.
    """

    def __init__(self, text: str) -> None:
        self.text = text
        self.at = 0
        self.open: List[_Open] = []

    def term(self) -> Term:
        while True:
            value = self.leaf()
            while value is not None:
                if not self.open:
                    return self.whole(value)
                value = self.behind(value)

    def leaf(self) -> Optional[Term]:
        """What stands here; None where it has opened a bracket."""
        token = _TOKEN.match(self.text, self.at)
        if token is None:
            raise self.fault()
        self.at = token.end()
        if token.lastgroup == "list":
            self.open.append(_Open(None))
            return None
        if token.lastgroup in ("name", "quoted"):
            return self.named(token)
        return self.value(token)

    def named(self, token: Match[str]) -> Optional[Term]:
        name = token["name"] if token["quoted"] is None else _meaning(token["quoted"])
        if not self.text.startswith("(", self.at):
            return term(name)
        self.at += 1
        self.open.append(_Open(name))
        return None

    def value(self, token: Match[str]) -> Term:
        if token.lastgroup == "number":
            number = int(token["number"]) if len(token["number"]) <= 20 else LARGEST_NUMBER + 1
            if not LEAST_NUMBER <= number <= LARGEST_NUMBER:
                raise self.fault()
            return number
        return Var(token["variable"]) if token.lastgroup == "variable" else []

    def behind(self, value: Term) -> Optional[Term]:
        """What the bracket is that ends behind this part; None where another part follows."""
        inner = self.open[-1]
        inner.parts.append(value)
        mark = self.text[self.at : self.at + 1]
        self.at += 1
        if inner.goes_on(mark):
            return None
        if not inner.is_closed_by(mark):
            raise self.fault()
        return self.open.pop().closed()

    def whole(self, value: Term) -> Term:
        if self.at != len(self.text):
            raise self.fault()
        return value

    def fault(self) -> BadTerm:
        return BadTerm(f"no text of a term, at {self.at}: {self.text[self.at:self.at + 80]!r}")
