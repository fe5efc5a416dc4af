"""A client of the tuple centres that `./tucson serve` serves.

    with tucson.connect("127.0.0.1", 7000) as session:
        session.out("jobs", term("job", 1, "sort"))
        print(session.in_("jobs", term("finished", Var("N"))).bindings["N"])

The same in asyncio is `tucson.aio`. docs/SERVER.md says what the server does.
"""

from . import request
from .errors import (
    BadReply,
    BadTerm,
    ConnectionEnded,
    NotServed,
    OverBudget,
    Refused,
    TucsonError,
)
from .matching import match
from .reading import read_term
from .replies import Absent, Bye, Done, Found, NoTuple, Pending, Reply, Spec
from .request import Request
from .session import Session, connect
from .terms import ANY, Atom, Compound, Term, Var, cell, term, text_of

__all__ = [
    "ANY",
    "Absent",
    "Atom",
    "BadReply",
    "BadTerm",
    "Bye",
    "Compound",
    "ConnectionEnded",
    "Done",
    "Found",
    "NoTuple",
    "NotServed",
    "OverBudget",
    "Pending",
    "Refused",
    "Reply",
    "Request",
    "Session",
    "Spec",
    "Term",
    "TucsonError",
    "Var",
    "cell",
    "connect",
    "match",
    "read_term",
    "request",
    "term",
    "text_of",
]
