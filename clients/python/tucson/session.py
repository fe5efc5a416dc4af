"""Sessions over blocking sockets."""

from __future__ import annotations

import socket
from types import TracebackType
from typing import Iterable, Iterator, List, Literal, Optional, Type, Union, overload

from . import request
from .errors import ConnectionEnded
from .exchange import Exchange, pieces
from .matching import match
from .replies import Absent, Bye, Done, Found, NoTuple, Pending, R, Reply, Spec, expect
from .request import Request
from .terms import Term

_MOST_READ = 65_536


def connect(host: str, port: int, timeout: Optional[float] = None) -> Session:
    """Opens a connection, as the next agent of the server's configuration.

    The timeout, in seconds, is that of connecting alone. A connection beyond the last agent is
    opened too, but nothing is replied to it.
    """
    link = socket.create_connection((host, port), timeout)
    if link.getsockname() == link.getpeername():
        link.close()
        raise ConnectionRefusedError(f"nobody listens at {host}:{port}")
    link.settimeout(None)
    link.setsockopt(socket.IPPROTO_TCP, socket.TCP_NODELAY, 1)
    return Session(link)


class Session:
    """An agent's session. It is for one thread at a time.

    As a context manager it ends with `quit`. What interrupts a call closes it, since the reply
    that is due would be taken for that of the next call.
    """

    def __init__(self, link: socket.socket) -> None:
        self._link = link
        self._exchange = Exchange()
        self.closed = False

    def __enter__(self) -> Session:
        return self

    def __exit__(
        self,
        kind: Optional[Type[BaseException]],
        fault: Optional[BaseException],
        trace: Optional[TracebackType],
    ) -> None:
        try:
            if kind is None and not self.closed:
                self.quit()
        except ConnectionEnded:
            pass
        finally:
            self.close()

    def close(self) -> None:
        """Closes the connection, without a word."""
        self.closed = True
        self._link.close()

    # What an agent asks.

    def out(self, centre: str, tuple: Term) -> Done:
        """Puts the tuple."""
        return expect(self._ask(request.out(centre, tuple)), Done)

    @overload
    def in_(self, centre: str, template: Term, wait: Literal[True] = True) -> Found: ...

    @overload
    def in_(self, centre: str, template: Term, wait: bool) -> Union[Found, Pending]: ...

    def in_(self, centre: str, template: Term, wait: bool = True) -> Union[Found, Pending]:
        """Takes the oldest tuple that matches, and waits for one; without `wait` it may be pending.

        Where it is, no other call is served before `poll` or `wait` has told its tuple.
        """
        return self._finish(request.in_(centre, template), wait, Found)

    @overload
    def rd(self, centre: str, template: Term, wait: Literal[True] = True) -> Found: ...

    @overload
    def rd(self, centre: str, template: Term, wait: bool) -> Union[Found, Pending]: ...

    def rd(self, centre: str, template: Term, wait: bool = True) -> Union[Found, Pending]:
        """Reads the oldest tuple that matches, as `in_` takes it."""
        return self._finish(request.rd(centre, template), wait, Found)

    def inp(self, centre: str, template: Term) -> Union[Found, NoTuple]:
        """Takes the oldest tuple that matches, if there is one."""
        return expect(self._ask(request.inp(centre, template)), Found, NoTuple)

    def rdp(self, centre: str, template: Term) -> Union[Found, NoTuple]:
        """Reads the oldest tuple that matches, if there is one."""
        return expect(self._ask(request.rdp(centre, template)), Found, NoTuple)

    @overload
    def no(self, centre: str, template: Term, wait: Literal[True] = True) -> Absent: ...

    @overload
    def no(self, centre: str, template: Term, wait: bool) -> Union[Absent, Pending]: ...

    def no(self, centre: str, template: Term, wait: bool = True) -> Union[Absent, Pending]:
        """Waits until no tuple matches; without `wait` it may be pending, as `in_`."""
        return self._finish(request.no(centre, template), wait, Absent)

    def nop(self, centre: str, template: Term) -> Union[Absent, Found]:
        """Whether no tuple matches: `Absent`, or the oldest that does, which stays."""
        return expect(self._ask(request.nop(centre, template)), Absent, Found)

    def set_spec(self, centre: str, text: str) -> Done:
        """Replaces the centre's reactions by those of the text."""
        return expect(self._ask(request.set_spec(centre, text)), Done)

    def get_spec(self, centre: str) -> Spec:
        """The centre's reactions, as a text."""
        return expect(self._ask(request.get_spec(centre)), Spec)

    def poll(self) -> Union[Found, Absent, Pending]:
        """The reply of the call that is pending, if it has come."""
        return expect(self._ask(request.POLL), Found, Absent, Pending)

    def wait(self) -> Union[Found, Absent]:
        """The reply of the call that is pending, when it comes."""
        return expect(self._ask(request.WAIT), Found, Absent)

    def quit(self) -> Bye:
        """Ends the session."""
        bye = expect(self._ask(request.QUIT), Bye)
        self.close()
        return bye

    def take(
        self, centre: str, template: Term, until: Optional[Term] = None
    ) -> Iterator[Found]:
        """Takes tuples that match the template, one after another, and waits for each.

        It ends when it has taken one that matches `until`, and doesn't hand out that one.
        """
        while True:
            found = self.in_(centre, template)
            if until is not None and match(until, found.tuple) is not None:
                return
            yield found

    # Lines.

    def ask(self, line: str) -> Reply:
        """The reply to a line as it stands. One that says no is handed back, not raised."""
        return self._ask(Request(line))

    def gather(self, requests: Iterable[Request]) -> List[Reply]:
        """The replies to several requests in order, which are sent in one piece.

        More than 16 KB are sent in several. Replies that say no are handed back, not raised.
        """
        cut = list(pieces(requests))
        replies: List[Reply] = []
        try:
            for piece in cut:
                self._send(self._exchange.sends(piece))
                for _ in piece:
                    replies.append(self._next_reply())
        except ConnectionEnded as end:
            self.close()
            raise ConnectionEnded(str(end), replies) from end
        except BaseException:
            self.close()
            raise
        return replies

    def _ask(self, asked: Request) -> Reply:
        return self.gather([asked])[0]

    def _finish(self, asked: Request, wait: bool, kind: Type[R]) -> Union[R, Pending]:
        reply = expect(self._ask(asked), kind, Pending)
        if wait and isinstance(reply, Pending):
            return expect(self._ask(request.WAIT), kind)
        return reply

    def _send(self, data: bytes) -> None:
        if self.closed:
            raise ConnectionEnded("the session is closed")
        try:
            self._link.sendall(data)
        except (BrokenPipeError, ConnectionResetError):
            pass  # The server has ended the session. What it has replied before may say why.

    def _next_reply(self) -> Reply:
        reply = self._exchange.next_reply()
        while reply is None:
            self._receive()
            reply = self._exchange.next_reply()
        return reply

    def _receive(self) -> None:
        try:
            data = self._link.recv(_MOST_READ)
        except ConnectionResetError:
            data = b""
        if not data:
            raise ConnectionEnded("the server has ended the connection")
        self._exchange.receives(data)
