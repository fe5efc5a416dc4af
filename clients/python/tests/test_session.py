"""Blocking sessions, at a server."""

import random
import threading
import unittest

import tucson
from tests import drawn
from tests.server import Server
from tucson import ANY, Atom, Var, cell, request, term, text_of
from tucson.errors import BadTerm, ConnectionEnded, OverBudget, Refused
from tucson.exchange import pieces
from tucson.replies import Absent, Bye, Done, Found, NoTuple, Pending, Spec

X, Y = Var("X"), Var("Y")
MOST_LINE = 131_072
MOST_NAME = 65_535 - len("?cout")
"""The names of a line come to 65,535 bytes at most, those that stand round a tuple too."""

NAMES = [
    "two words", "it's", '"', "back\\slash", "\\n", "\\", "line\nend", "a\ttab", "\n", "\t",
    "Zürich", "日本", "\x7f", "\x85\u2028", Atom.from_bytes(b"\xff\x80\xfe"), "", "[]", ".", "'",
    "''", "Capital", "_", "is", "mod", ",", "|", "-", "-1", "1", "?", "poll", "% no comment",
    "/* none */", " ",
]


class AtAServer(unittest.TestCase):
    """Tests at a server of their own, with so many agents."""

    agents = 1
    more = ""

    def setUp(self):
        self.server = Server(self.agents, self.more)
        self.server.__enter__()
        self.addCleanup(self.server.__exit__)

    def connect(self):
        session = self.server.connect()
        self.addCleanup(session.close)
        return session


class Calls(AtAServer):
    def setUp(self):
        super().setUp()
        self.session = self.connect()

    def test_each_call_has_a_reply_of_its_own(self):
        session = self.session
        self.assertEqual(session.out("c", term("p", 1)), Done())
        self.assertEqual(session.rd("c", term("p", X)), Found(term("p", 1), {"X": 1}))
        self.assertEqual(session.rdp("c", term("p", X)), Found(term("p", 1), {"X": 1}))
        self.assertEqual(session.in_("c", term("p", X)), Found(term("p", 1), {"X": 1}))
        self.assertEqual(session.inp("c", term("p", X)), NoTuple())
        self.assertEqual(session.rdp("c", ANY), NoTuple())
        self.assertEqual(session.rd("c", ANY, wait=False), Pending())
        self.assertEqual(session.poll(), Pending())
        self.assertEqual(session.quit(), Bye())
        self.assertEqual(self.server.wait()[0], 3)

    def test_absence_is_asked_and_waited_for(self):
        session = self.session
        self.assertEqual(session.nop("c", term("p", X)), Absent())
        self.assertEqual(session.no("c", term("p", X)), Absent())
        session.out("c", term("p", 1))
        self.assertEqual(session.nop("c", term("p", X)), Found(term("p", 1), {"X": 1}))
        self.assertEqual(session.inp("c", ANY), Found(term("p", 1)))
        session.out("c", term("p", 2))
        self.assertEqual(session.no("c", term("p", X), wait=False), Pending())
        self.assertEqual(session.poll(), Pending())

    def test_reactions_are_set_and_told(self):
        text = "reaction(out(p(X)),(Y is X + 1,out_r('it\\'s'(Y)))).\n\treaction(rd(q),true)."
        self.assertEqual(self.session.set_spec("c", text), Done())
        self.session.out("c", term("p", 1))
        self.assertEqual(self.session.inp("c", term("it's", X)).bindings, {"X": 2})
        told = self.session.get_spec("c")
        self.assertIsInstance(told, Spec)
        self.assertEqual(
            told.text,
            "reaction(out(p(_0)),','(is(_1,'+'(_0,1)),out_r('it\\'s'(_1)))).\n"
            "reaction(rd(q),true).\n",
        )
        self.assertEqual(self.session.set_spec("c", told.text), Done())
        self.assertEqual(self.session.get_spec("c"), told)

    def test_a_reply_may_be_longer_than_a_line(self):
        clause = "reaction(out(a),(" + ",".join(["1=1"] * 60) + ")).\n"
        self.session.set_spec("c", clause * 240)
        told = self.session.get_spec("c")
        self.assertEqual(told.text.count("reaction(out(a),"), 240)
        self.assertGreater(len(told.text), MOST_LINE)

    def test_what_is_refused_is_raised_in_its_words(self):
        session = self.session
        for call, words in [
            (lambda: session.out("d", 1), "unknown centre"),
            (lambda: session.out("c", X), "not ground"),
            (lambda: session.set_spec("c", "reaction(in(X),foo)."), "bad spec 1 goal"),
            (lambda: session.set_spec("c", "no text"), "bad spec 1 syntax"),
            (session.poll, "idle"),
            (session.wait, "idle"),
            (lambda: session.out("c", "x" * (MOST_NAME + 1)), "line size"),
        ]:
            with self.assertRaises(Refused) as caught:
                call()
            self.assertEqual(caught.exception.words, words)
        self.assertEqual(session.out("c", 1), Done())

    def test_while_a_call_is_pending_no_other_is_served(self):
        session = self.session
        self.assertEqual(session.in_("c", 1, wait=False), Pending())
        with self.assertRaises(Refused) as caught:
            session.out("c", 1)
        self.assertEqual(caught.exception.words, "waiting")

    def test_raw_lines_and_wrong_ones(self):
        for line, reply in [
            ("c ? out( p( 1 + 2 ) ) % a comment", Done()),
            ("c ? inp(p(What))", Found(term("p", term("+", 1, 2)))),
            ("c ? out(", Refused("line syntax")),
            ("", Refused("line syntax")),
            ("\0", Refused("line syntax")),
            ("c ? out(Zürich)", Refused("line syntax")),
            ("c ? out(9223372036854775808)", Refused("line size")),
            ("c ? out(" + "f(" * 200 + "1" + ")" * 201, Refused("line size")),
            ("c ? foo(1)", Refused("line shape")),
            ("c", Refused("line shape")),
            ("poll", Refused("idle")),
            ("c ? inp(p(What))\r", NoTuple()),
            ("c ? set_spec(1)", Refused("bad spec 0 shape")),
        ]:
            self.assertEqual(self.session.ask(line), reply, line)
        with self.assertRaises(BadTerm):
            self.session.ask("poll\nquit")
        self.assertEqual(self.session.ask("quit"), Bye())

    def test_sixteen_requests_in_one_piece(self):
        asked = [request.out("c", term("p", number)) for number in range(8)]
        asked += [request.inp("c", term("p", X)) for _ in range(7)] + [request.get_spec("nowhere")]
        self.assertEqual(list(pieces(asked)), [asked])
        replies = self.session.gather(asked)
        self.assertEqual(replies[:8], [Done()] * 8)
        self.assertEqual([reply.bindings["X"] for reply in replies[8:15]], list(range(7)))
        self.assertEqual(replies[15], Refused("unknown centre"))
        self.assertEqual(self.session.gather([]), [])

    def test_a_piece_that_cannot_be_written_is_not_sent(self):
        with self.assertRaises(BadTerm):
            self.session.gather(request.out("c", value) for value in (1, 1.5))
        self.assertEqual(self.session.inp("c", X), NoTuple())

    def test_a_piece_may_have_any_size(self):
        tuple_ = term("p", "x" * 10_000)
        asked = [request.out("c", tuple_)] * 500 + [request.inp("c", tuple_)] * 500
        self.assertEqual(self.session.gather(asked), [Done()] * 500 + [Found(tuple_)] * 500)

    def test_in_and_wait_in_one_piece(self):
        self.session.out("c", 1)
        replies = self.session.gather([request.in_("c", X), request.WAIT])
        self.assertEqual(replies, [Found(1, {"X": 1}), Refused("idle")])


class Budget(AtAServer):
    more = """
        spec(c,reaction(out(a),out_r(a))).
        spec(c,reaction(out_r(a),out_r(a))).
        spec(c,reaction(in(b),(pre,out_r(a)))).
    """

    def test_over_the_budget(self):
        session = self.connect()
        for call, phase in [
            (lambda: session.out("c", "a"), "post"),
            (lambda: session.in_("c", "b"), "pre"),
        ]:
            with self.assertRaises(OverBudget) as caught:
                call()
            self.assertEqual(caught.exception.phase, phase)
        self.assertEqual(session.inp("c", "a"), NoTuple())


class Terms(AtAServer):
    def round_trip(self, session, values):
        """Puts each and takes it by a variable, in as few pieces as there may be."""
        asked = [r for value in values for r in (request.out("c", value), request.in_("c", X))]
        replies = session.gather(asked)
        for value, put, taken in zip(values, replies[::2], replies[1::2]):
            self.assertEqual(put, Done(), text_of(value))
            self.assertEqual(text_of(taken.tuple), text_of(value))
            self.assertEqual(taken.bindings["X"], taken.tuple)

    def test_terms_come_back_from_the_server_as_they_were(self):
        session = self.connect()
        self.round_trip(session, [Atom(name) for name in NAMES])
        self.round_trip(session, [term(name, 1, [name], cell(name, 2)) for name in NAMES])
        self.round_trip(session, [0, -1, 1, 2**63 - 1, -(2**63), [-(2**63)], term("-", -1)])
        self.round_trip(session, [[], [[]], [[], [1, [2, [3]]]], list(range(500))])
        self.round_trip(session, [cell(1, cell(2, 3)), term(".", 1, 2), term("[]", [], 1)])
        draw = random.Random(3)
        self.round_trip(session, [drawn.value(draw) for _ in range(1000)])
        self.assertEqual(session.quit(), Bye())
        status, text = self.server.wait()
        self.assertEqual(status, 0)
        self.assertIn("call a0 1 out('two words') = done\n", text)

    def test_names_stay_the_same_as_values(self):
        session = self.connect()
        for name in NAMES:
            session.out("c", term("p", name))
            self.assertEqual(session.in_("c", term("p", name)).tuple, term("p", name))
            session.out("c", name)
            value = session.in_("c", X).bindings["X"]
            self.assertEqual(value, [] if name == "[]" else name)

    def test_templates_with_variables_lists_and_tails(self):
        session = self.connect()
        for template, tuple_, bindings in [
            (term("p", X, Y, X), term("p", 1, "a b", 1), {"X": 1, "Y": "a b"}),
            (cell(X, Y), [1, 2, 3], {"X": 1, "Y": [2, 3]}),
            (cell(X, Y), [1], {"X": 1, "Y": []}),
            (term("p", [X, ANY]), term("p", [[], 5]), {"X": []}),
            (term("p", Var("_"), Var("Long_name9")), term("p", 1, 2), {"Long_name9": 2}),
        ]:
            session.out("c", tuple_)
            self.assertEqual(session.in_("c", template), Found(tuple_, bindings))

    def test_a_term_that_reactions_have_made_deep(self):
        session = self.connect()
        session.set_spec("c", "reaction(out(wrap),(in_r(t(X)),out_r(t(f(X)))))." )
        session.out("c", term("t", 0))
        session.gather([request.out("c", "wrap")] * 900)
        value = session.in_("c", term("t", X)).bindings["X"]
        self.assertEqual(text_of(value), "f(" * 900 + "0" + ")" * 900)

    def test_a_centre_may_have_any_name(self):
        more = "".join(
            f"centre({text_of(name)}). grant(r,{text_of(name)},out). grant(r,{text_of(name)},inp). "
            for name in NAMES
        )
        with Server(1, more) as server, server.connect() as session:
            for name in NAMES:
                session.out(name, 1)
                self.assertEqual(session.inp(name, X), Found(1, {"X": 1}))


class Limits(AtAServer):
    def test_a_line_of_the_most_bytes(self):
        session = self.connect()
        self.assertEqual(session.ask("poll".ljust(MOST_LINE)), Refused("idle"))
        name = "'" * 65_000
        session.out("c", name)
        self.assertEqual(session.in_("c", X).tuple, name)
        name = "x" * MOST_NAME
        session.out("c", name)
        self.assertEqual(session.in_("c", X).tuple, name)
        self.assertEqual(session.quit(), Bye())

    def test_a_line_of_a_byte_more_ends_the_session(self):
        session = self.connect()
        self.assertEqual(session.ask("poll".ljust(MOST_LINE + 1)), Refused("line too long"))
        with self.assertRaises(ConnectionEnded):
            session.poll()
        self.assertTrue(session.closed)
        self.assertEqual(self.server.wait()[0], 0)

    def test_a_line_much_too_long(self):
        session = self.connect()
        with self.assertRaises((Refused, ConnectionEnded)):
            session.out("c", "x" * 10_000_000)

    def test_what_came_before_the_end_is_told(self):
        session = self.connect()
        with self.assertRaises(ConnectionEnded) as caught:
            session.gather([request.out("c", 1), request.QUIT, request.POLL])
        self.assertEqual(caught.exception.replies, [Done(), Bye()])


class Several(AtAServer):
    agents = 2

    def test_a_pending_in_is_answered_by_another_session(self):
        first, second = self.connect(), self.connect()
        self.assertEqual(first.in_("c", term("p", X), wait=False), Pending())
        self.assertEqual(first.poll(), Pending())
        second.out("c", term("p", 1))
        self.assertEqual(first.poll(), Found(term("p", 1), {"X": 1}))
        self.assertEqual(first.in_("c", term("p", X), wait=False), Pending())
        second.out("c", term("p", 2))
        self.assertEqual(first.wait(), Found(term("p", 2), {"X": 2}))
        first.quit()
        second.quit()
        self.assertEqual(self.server.wait()[0], 0)

    def test_in_waits(self):
        first, second = self.connect(), self.connect()
        put = threading.Timer(0.2, second.out, ("c", term("p", 1)))
        put.start()
        self.assertEqual(first.in_("c", term("p", X)), Found(term("p", 1), {"X": 1}))
        put.join()
        put = threading.Timer(0.2, second.out, ("c", term("p", 2)))
        put.start()
        self.assertEqual(first.rd("c", term("p", X)), Found(term("p", 2), {"X": 2}))
        put.join()

    def test_tuples_are_taken_until_told(self):
        first, second = self.connect(), self.connect()
        jobs = [request.out("c", term("job", number)) for number in range(5)]
        jobs.append(request.out("c", term("job", "stop")))
        put = threading.Timer(0.2, second.gather, (jobs,))
        put.start()
        taken = first.take("c", term("job", X), until=term("job", "stop"))
        self.assertEqual([found.bindings["X"] for found in taken], [0, 1, 2, 3, 4])
        put.join()
        self.assertEqual(first.inp("c", term("job", X)), NoTuple())

    def test_more_connections_than_agents(self):
        first, second, third = self.connect(), self.connect(), self.connect()
        told = []

        def ask():
            try:
                told.append(third.out("c", 1))
            except ConnectionEnded as end:
                told.append(end)

        asking = threading.Thread(target=ask)
        asking.start()
        first.out("c", 1)
        second.out("c", 2)
        asking.join(0.3)
        self.assertTrue(asking.is_alive(), "nobody serves it")
        first.quit()
        second.quit()
        asking.join(30)
        self.assertIsInstance(told[0], ConnectionEnded)
        self.assertEqual(self.server.wait()[0], 0)

    def test_the_server_ends_while_a_call_waits(self):
        session = self.connect()
        stop = threading.Timer(0.2, self.server.stop)
        stop.start()
        with self.assertRaises(ConnectionEnded):
            session.in_("c", 1)
        stop.join()
        with self.assertRaises(ConnectionEnded):
            session.out("c", 1)
        with self.assertRaises(ConnectionRefusedError):
            self.server.connect()


class Leaving(AtAServer):
    def test_a_context_ends_with_quit(self):
        with self.server.connect() as session:
            session.out("c", 1)
        self.assertTrue(session.closed)
        status, text = self.server.wait()
        self.assertEqual(status, 0)
        self.assertTrue(text.endswith("agent a0\n1 c done\nend ended\n"))

    def test_a_context_may_end_by_quit_or_by_an_error(self):
        with self.server.connect() as session:
            session.quit()
        with Server(1) as server:
            with self.assertRaises(KeyError):
                with server.connect() as session:
                    raise KeyError
            self.assertTrue(session.closed)
            self.assertEqual(server.wait()[0], 0)

    def test_a_call_that_is_interrupted_closes_the_session(self):
        session = self.connect()
        session._link.settimeout(0.1)
        with self.assertRaises(OSError):
            session.in_("c", 1)
        with self.assertRaises(ConnectionEnded):
            session.out("c", 1)


class Elsewhere(unittest.TestCase):
    def test_a_server_of_another_kind(self):
        import socket

        with socket.create_server(("127.0.0.1", 0)) as listener:
            session = tucson.connect("127.0.0.1", listener.getsockname()[1])
            peer, _ = listener.accept()
            with peer:
                peer.sendall(b"+OK\r\n")
                with self.assertRaises(tucson.BadReply):
                    session.out("c", 1)
            self.assertTrue(session.closed)


if __name__ == "__main__":
    unittest.main()
