"""What goes wrong, by name. Each is a `TucsonError`."""

from __future__ import annotations

from typing import Any, Sequence


class TucsonError(Exception):
    """Any of the errors of this package."""


class BadTerm(TucsonError, ValueError):
    """A value that no term of the language is, or a text that isn't the text of a term."""


class BadReply(TucsonError):
    """The server has sent a line that is no reply to what was asked. The session is closed."""


class ConnectionEnded(TucsonError, ConnectionError):
    """The connection ended before the reply came.

    `replies` are those of the same piece that came before.
    """

    def __init__(self, words: str, replies: Sequence[Any] = ()) -> None:
        super().__init__(words)
        self.replies = list(replies)


class NotServed(TucsonError):
    """A reply that says no: `Refused` or `OverBudget`.

    The calls of a session raise it. `ask` and `gather` hand it back among the other replies.
    """

    def __eq__(self, other: object) -> bool:
        return type(self) is type(other) and self.args == getattr(other, "args", None)

    def __hash__(self) -> int:
        return hash((type(self), self.args))


class Refused(NotServed):
    """`error WORDS`: nothing was done. The words are those of docs/SERVER.md, as `denied`.

    Behind `line too long`, `line cut` and `no memory` the server ends the session.
    """

    def __init__(self, words: str) -> None:
        super().__init__(words)
        self.words = words


class OverBudget(NotServed):
    """`over PHASE`: the reactions went over the centre's budget, and the phase was undone.

    The phase is `pre`, the request of an `in` or a `rd`, or `post`, all else.
    """

    def __init__(self, phase: str) -> None:
        super().__init__(phase)
        self.phase = phase
