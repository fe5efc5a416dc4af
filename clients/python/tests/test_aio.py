"""Sessions in asyncio, at a server."""

import asyncio
import unittest

import tucson.aio
from tests.server import Server
from tucson import Var, request, term
from tucson.errors import BadReply, ConnectionEnded, OverBudget, Refused
from tucson.replies import Absent, Bye, Done, Found, NoTuple, Pending, Spec

X = Var("X")


class AtAServer(unittest.IsolatedAsyncioTestCase):
    async def asyncSetUp(self):
        asyncio.get_running_loop().slow_callback_duration = 60  # So long it says nothing of it.

    async def serve(self, agents, more=""):
        server = Server(agents, more)
        await asyncio.to_thread(server.__enter__)
        self.addCleanup(server.__exit__)
        return server

    async def connect(self, server):
        session = await tucson.aio.connect("127.0.0.1", server.port)
        self.addCleanup(session.close)
        return session

    async def test_each_call_has_a_reply_of_its_own(self):
        loop = "spec(c,reaction(out(a),out_r(a))). spec(c,reaction(out_r(a),out_r(a)))."
        server = await self.serve(1, loop)
        session = await self.connect(server)
        self.assertEqual(await session.out("c", term("p", 1)), Done())
        self.assertEqual(await session.rd("c", term("p", X)), Found(term("p", 1), {"X": 1}))
        self.assertEqual(await session.rdp("c", term("p", X)), Found(term("p", 1), {"X": 1}))
        self.assertEqual(await session.in_("c", term("p", X)), Found(term("p", 1), {"X": 1}))
        self.assertEqual(await session.inp("c", X), NoTuple())
        with self.assertRaises(OverBudget):
            await session.out("c", "a")
        self.assertEqual(await session.set_spec("c", ""), Done())
        self.assertEqual(await session.no("c", term("q", X)), Absent())
        self.assertEqual(await session.nop("c", term("q", X)), Absent())
        self.assertEqual(await session.get_spec("c"), Spec(""))
        self.assertEqual(await session.ask("c ? out("), Refused("line syntax"))
        with self.assertRaises(Refused):
            await session.wait()
        self.assertEqual(await session.rd("c", X, wait=False), Pending())
        self.assertEqual(await session.poll(), Pending())
        self.assertEqual(await session.quit(), Bye())
        self.assertEqual((await asyncio.to_thread(server.wait))[0], 3)

    async def test_a_pending_in_is_answered_by_another_session(self):
        server = await self.serve(2)
        async with await self.connect(server) as first, await self.connect(server) as second:
            waiting = asyncio.ensure_future(first.in_("c", term("p", X)))
            await asyncio.sleep(0.1)
            self.assertFalse(waiting.done())
            await second.out("c", term("p", 1))
            self.assertEqual(await waiting, Found(term("p", 1), {"X": 1}))
        self.assertEqual((await asyncio.to_thread(server.wait))[0], 0)

    async def test_tuples_are_taken_until_told(self):
        server = await self.serve(2)
        async with await self.connect(server) as first, await self.connect(server) as second:
            jobs = [request.out("c", term("job", n)) for n in (0, 1, 2, "stop")]
            self.assertEqual(await second.gather(jobs), [Done()] * 4)
            taken = first.take("c", term("job", X), until=term("job", "stop"))
            self.assertEqual([found.bindings["X"] async for found in taken], [0, 1, 2])

    async def test_tasks_that_share_a_session_take_turns(self):
        server = await self.serve(1)
        async with await self.connect(server) as session:
            async def put_and_take(number):
                await session.out("c", term("p", number))
                return (await session.in_("c", term("p", number))).tuple

            taken = await asyncio.gather(*map(put_and_take, range(50)))
            self.assertEqual(taken, [term("p", number) for number in range(50)])

    async def test_sixteen_requests_in_one_piece(self):
        server = await self.serve(1)
        async with await self.connect(server) as session:
            asked = [request.out("c", number) for number in range(8)]
            asked += [request.inp("c", X) for _ in range(8)]
            replies = await session.gather(asked)
            self.assertEqual(replies, [Done()] * 8 + [Found(n, {"X": n}) for n in range(8)])

    async def test_long_lines(self):
        server = await self.serve(1)
        session = await self.connect(server)
        name = "'" * 65_000
        await session.out("c", name)
        self.assertEqual((await session.in_("c", X)).tuple, name)
        self.assertEqual(await session.ask("poll".ljust(131_073)), Refused("line too long"))
        with self.assertRaises(ConnectionEnded):
            await session.poll()

    async def test_a_call_that_is_given_up_closes_the_session(self):
        server = await self.serve(1)
        session = await self.connect(server)
        with self.assertRaises(asyncio.TimeoutError):
            await asyncio.wait_for(session.in_("c", 1), 0.1)
        with self.assertRaises(ConnectionEnded):
            await session.out("c", 1)

    async def test_the_server_ends_while_a_call_waits(self):
        server = await self.serve(1)
        session = await self.connect(server)
        waiting = asyncio.ensure_future(session.in_("c", 1))
        await asyncio.sleep(0.1)
        await asyncio.to_thread(server.stop)
        with self.assertRaises(ConnectionEnded):
            await waiting
        with self.assertRaises(ConnectionRefusedError):
            await self.connect(server)

    async def test_a_server_of_another_kind(self):
        async def reply(reader, writer):
            writer.write(b"+OK\r\n")
            await reader.read()
            writer.close()

        listener = await asyncio.start_server(reply, "127.0.0.1", 0)
        self.addCleanup(listener.close)
        port = listener.sockets[0].getsockname()[1]
        session = await tucson.aio.connect("127.0.0.1", port)
        with self.assertRaises(BadReply):
            await session.out("c", 1)
        self.assertTrue(session.closed)
        listener.close()
        await session._closing()


if __name__ == "__main__":
    unittest.main()
