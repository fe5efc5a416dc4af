"""Sessions in asyncio.

What interrupts a call, as `asyncio.wait_for` does, closes the session, since the reply that is due
would be taken for that of the next call. Tasks that share a session take turns: one that waits for
a tuple holds the others up, as an agent makes one call at a time.
"""

from __future__ import annotations

import asyncio
import socket
from types import TracebackType
from typing import AsyncIterator, Iterable, List, Literal, Optional, Type, Union, overload

from . import request
from .errors import ConnectionEnded
from .exchange import Exchange, pieces
from .matching import match
from .replies import Absent, Bye, Done, Found, NoTuple, Pending, R, Reply, Spec, expect
from .request import Request
from .terms import Term

_MOST_READ = 65_536


async def connect(host: str, port: int) -> Session:
    """Opens a connection, as the next agent of the server's configuration."""
    reader, writer = await asyncio.open_connection(host, port)
    link = writer.get_extra_info("socket")
    if link.getsockname() == link.getpeername():
        writer.close()
        raise ConnectionRefusedError(f"nobody listens at {host}:{port}")
    link.setsockopt(socket.IPPROTO_TCP, socket.TCP_NODELAY, 1)
    return Session(reader, writer)


class Session:
    """An agent's session. As a context manager it ends with `quit`.

    Each call is that of `tucson.Session`, to be awaited.
    """

    def __init__(self, reader: asyncio.StreamReader, writer: asyncio.StreamWriter) -> None:
        self._reader = reader
        self._writer = writer
        self._exchange = Exchange()
        self._turn = asyncio.Lock()
        self.closed = False

    async def __aenter__(self) -> Session:
        return self

    async def __aexit__(
        self,
        kind: Optional[Type[BaseException]],
        fault: Optional[BaseException],
        trace: Optional[TracebackType],
    ) -> None:
        try:
            if kind is None and not self.closed:
                await self.quit()
        except ConnectionEnded:
            pass
        finally:
            self.close()
            await self._closing()

    def close(self) -> None:
        """Closes the connection, without a word."""
        self.closed = True
        self._writer.close()

    async def _closing(self) -> None:
        """Waits until the connection is closed."""
        try:
            await self._writer.wait_closed()
        except OSError:
            pass

    # What an agent asks.

    async def out(self, centre: str, tuple: Term) -> Done:
        """Puts the tuple."""
        return expect(await self._ask(request.out(centre, tuple)), Done)

    @overload
    async def in_(self, centre: str, template: Term, wait: Literal[True] = True) -> Found: ...

    @overload
    async def in_(self, centre: str, template: Term, wait: bool) -> Union[Found, Pending]: ...

    async def in_(self, centre: str, template: Term, wait: bool = True) -> Union[Found, Pending]:
        """Takes the oldest tuple that matches, and waits for one; without `wait` it may be pending.

        Where it is, no other call is served before `poll` or `wait` has told its tuple.
        """
        return await self._finish(request.in_(centre, template), wait, Found)

    @overload
    async def rd(self, centre: str, template: Term, wait: Literal[True] = True) -> Found: ...

    @overload
    async def rd(self, centre: str, template: Term, wait: bool) -> Union[Found, Pending]: ...

    async def rd(self, centre: str, template: Term, wait: bool = True) -> Union[Found, Pending]:
        """Reads the oldest tuple that matches, as `in_` takes it."""
        return await self._finish(request.rd(centre, template), wait, Found)

    async def inp(self, centre: str, template: Term) -> Union[Found, NoTuple]:
        """Takes the oldest tuple that matches, if there is one."""
        return expect(await self._ask(request.inp(centre, template)), Found, NoTuple)

    async def rdp(self, centre: str, template: Term) -> Union[Found, NoTuple]:
        """Reads the oldest tuple that matches, if there is one."""
        return expect(await self._ask(request.rdp(centre, template)), Found, NoTuple)

    @overload
    async def no(self, centre: str, template: Term, wait: Literal[True] = True) -> Absent: ...

    @overload
    async def no(self, centre: str, template: Term, wait: bool) -> Union[Absent, Pending]: ...

    async def no(self, centre: str, template: Term, wait: bool = True) -> Union[Absent, Pending]:
        """Waits until no tuple matches; without `wait` it may be pending, as `in_`."""
        return await self._finish(request.no(centre, template), wait, Absent)

    async def nop(self, centre: str, template: Term) -> Union[Absent, Found]:
        """Whether no tuple matches: `Absent`, or the oldest that does, which stays."""
        return expect(await self._ask(request.nop(centre, template)), Absent, Found)

    async def set_spec(self, centre: str, text: str) -> Done:
        """Replaces the centre's reactions by those of the text."""
        return expect(await self._ask(request.set_spec(centre, text)), Done)

    async def get_spec(self, centre: str) -> Spec:
        """The centre's reactions, as a text."""
        return expect(await self._ask(request.get_spec(centre)), Spec)

    async def poll(self) -> Union[Found, Absent, Pending]:
        """The reply of the call that is pending, if it has come."""
        return expect(await self._ask(request.POLL), Found, Absent, Pending)

    async def wait(self) -> Union[Found, Absent]:
        """The reply of the call that is pending, when it comes."""
        return expect(await self._ask(request.WAIT), Found, Absent)

    async def quit(self) -> Bye:
        """Ends the session."""
        bye = expect(await self._ask(request.QUIT), Bye)
        self.close()
        return bye

    async def take(
        self, centre: str, template: Term, until: Optional[Term] = None
    ) -> AsyncIterator[Found]:
        """Takes tuples that match the template, one after another, and waits for each.

        It ends when it has taken one that matches `until`, and doesn't hand out that one.
        """
        while True:
            found = await self.in_(centre, template)
            if until is not None and match(until, found.tuple) is not None:
                return
            yield found

    # Lines.

    async def ask(self, line: str) -> Reply:
        """The reply to a line as it stands. One that says no is handed back, not raised."""
        return await self._ask(Request(line))

    async def gather(self, requests: Iterable[Request]) -> List[Reply]:
        """The replies to several requests in order, which are sent in one piece.

        More than 16 KB are sent in several. Replies that say no are handed back, not raised.
        """
        cut = list(pieces(requests))
        async with self._turn:
            return await self._gather(cut)

    async def _ask(self, asked: Request) -> Reply:
        return (await self.gather([asked]))[0]

    async def _finish(self, asked: Request, wait: bool, kind: Type[R]) -> Union[R, Pending]:
        """Asks, and waits in the same turn, so that no other task's call comes between."""
        async with self._turn:
            replies = await self._gather([[asked]])
            if wait and isinstance(replies[0], Pending):
                replies = await self._gather([[request.WAIT]])
        return expect(replies[0], kind, Pending)

    async def _gather(self, cut: List[List[Request]]) -> List[Reply]:
        replies: List[Reply] = []
        try:
            for piece in cut:
                await self._send(self._exchange.sends(piece))
                for _ in piece:
                    replies.append(await self._next_reply())
        except ConnectionEnded as end:
            self.close()
            raise ConnectionEnded(str(end), replies) from end
        except BaseException:
            self.close()
            raise
        return replies

    async def _send(self, data: bytes) -> None:
        if self.closed:
            raise ConnectionEnded("the session is closed")
        try:
            self._writer.write(data)
            await self._writer.drain()
        except (BrokenPipeError, ConnectionResetError):
            pass  # The server has ended the session. What it has replied before may say why.

    async def _next_reply(self) -> Reply:
        reply = self._exchange.next_reply()
        while reply is None:
            await self._receive()
            reply = self._exchange.next_reply()
        return reply

    async def _receive(self) -> None:
        try:
            data = await self._reader.read(_MOST_READ)
        except ConnectionResetError:
            data = b""
        if not data:
            raise ConnectionEnded("the server has ended the connection")
        self._exchange.receives(data)
