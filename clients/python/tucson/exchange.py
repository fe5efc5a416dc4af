"""Requests as bytes and bytes as replies. Nothing here knows what is connected, or how."""

from __future__ import annotations

from collections import deque
from dataclasses import replace
from typing import Deque, Iterable, Iterator, List, Optional

from .errors import BadReply
from .matching import match
from .replies import Found, Pending, Reply, read_reply
from .request import Request
from .terms import Term

MOST_PIECE = 16_384
"""How many bytes of several lines are sent before their replies are read.

So many find room on the way though the server reads none of them before its replies are read.
"""


def pieces(requests: Iterable[Request]) -> Iterator[List[Request]]:
    """The requests in order, as many together as may be sent at once."""
    piece: List[Request] = []
    size = 0
    for request in requests:
        length = len(line_of(request))
        if piece and size + length > MOST_PIECE:
            yield piece
            piece, size = [], 0
        piece.append(request)
        size += length
    if piece:
        yield piece


def line_of(request: Request) -> bytes:
    """The bytes that are sent."""
    return request.line.encode("utf-8", "surrogateescape") + b"\n"


class Exchange:
    """The requests whose replies are still due, and the bytes that came and aren't used yet."""

    def __init__(self) -> None:
        self._due: Deque[Request] = deque()
        self._held = bytearray()
        self._searched = 0
        self._pending: Optional[Term] = None

    def sends(self, requests: Iterable[Request]) -> bytes:
        """The bytes of these requests, whose replies are due from now on."""
        requests = list(requests)
        self._due.extend(requests)
        return b"".join(map(line_of, requests))

    def receives(self, data: bytes) -> None:
        """Takes in bytes that have come."""
        self._held += data

    def next_reply(self) -> Optional[Reply]:
        """The next reply; None where it hasn't come as a whole."""
        end = self._held.find(b"\n", self._searched)
        if end < 0:
            self._searched = len(self._held)
            return None
        line = bytes(self._held[:end]).decode("utf-8", "surrogateescape")
        del self._held[: end + 1]
        self._searched = 0
        return self._bound(self._due.popleft(), read_reply(line))

    def _bound(self, request: Request, reply: Reply) -> Reply:
        """The reply with the bindings of the template that was asked for."""
        template = self._pending if request.looks else request.template
        if isinstance(reply, Pending):
            self._pending = template
        if not isinstance(reply, Found) or template is None:
            return reply
        bindings = match(template, reply.tuple)
        if bindings is None:
            raise BadReply(f"the tuple doesn't match what was asked for: {reply.tuple}")
        return replace(reply, bindings=bindings)
