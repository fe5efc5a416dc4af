"""Bindings, and replies as values, without a server."""

import random
import unittest

from tests import drawn
from tucson import ANY, Atom, BadReply, BadTerm, Var, cell, match, request, term
from tucson.errors import OverBudget, Refused
from tucson.exchange import MOST_PIECE, Exchange, pieces
from tucson.replies import Bye, Done, Found, NoTuple, Pending, Spec, expect, read_reply

X, Y = Var("X"), Var("Y")


class Matching(unittest.TestCase):
    def test_variables_have_the_values_that_stand_in_their_places(self):
        self.assertEqual(match(term("job", X, Y), term("job", 1, "a")), {"X": 1, "Y": "a"})
        self.assertEqual(list(match(term("job", X, Y), term("job", 1, "a"))), ["X", "Y"])
        self.assertEqual(match(X, [1, 2]), {"X": [1, 2]})
        self.assertEqual(match([1, X], [1, [2]]), {"X": [2]})
        self.assertEqual(match(5, 5), {})

    def test_a_tail_is_what_is_left_of_a_list(self):
        self.assertEqual(match(cell(X, Y), [1, 2, 3]), {"X": 1, "Y": [2, 3]})
        self.assertEqual(match(cell(X, Y), [1]), {"X": 1, "Y": []})
        self.assertEqual(match(cell(1, cell(X, Y)), cell(1, cell(2, 3))), {"X": 2, "Y": 3})
        self.assertIsNone(match(cell(X, Y), []))
        self.assertIsNone(match([X], cell(1, 2)))

    def test_a_variable_has_one_value_and_any_has_none(self):
        self.assertEqual(match(term("p", X, X), term("p", [1], [1])), {"X": [1]})
        self.assertIsNone(match(term("p", X, X), term("p", 1, "1")))
        self.assertEqual(match(term("p", ANY, ANY), term("p", 1, 2)), {})

    def test_what_differs_does_not_match(self):
        for template, value in [
            (1, 2), (1, "1"), ("a", "b"), (term("p", X), term("q", 1)), ([], "a"), (X, 1)[::-1],
            (term("p", X), term("p", 1, 2)), ([X], [1, 2]), (term("p", X), "p"), ("p", [1]),
            (term("p", 1, X), term("p", 2, 3)),
        ]:
            self.assertIsNone(match(template, value), (template, value))

    def test_drawn_terms_match_what_they_become(self):
        draw = random.Random(2)
        for _ in range(2000):
            value = drawn.value(draw)
            self.assertEqual(match(value, value), {})
            self.assertEqual(match(term("p", X, value), term("p", value, value)), {"X": value})


class Replies(unittest.TestCase):
    def test_each_line_is_its_reply(self):
        for line, reply in [
            ("done", Done()),
            ("none", NoTuple()),
            ("pending", Pending()),
            ("bye", Bye()),
            ("tuple job(1,sort)", Found(term("job", 1, "sort"))),
            ("tuple ''", Found(Atom(""))),
            ("spec ''", Spec("")),
            (r"spec 'reaction(out(\'a b\'),true).\n'", Spec("reaction(out('a b'),true).\n")),
            ("over pre", OverBudget("pre")),
            ("over post", OverBudget("post")),
            ("error bad spec 2 goal", Refused("bad spec 2 goal")),
        ]:
            self.assertEqual(read_reply(line), reply)

    def test_a_line_that_is_no_reply_is_told(self):
        for line in (
            "", "Done", "done ", "tuple", "tuple ", "tuple a b", "spec", "spec a", "spec 'a",
            "spec [1]", "over", "over all", "error", "error ", "+OK", "HTTP/1.1 400",
        ):
            with self.assertRaises(BadReply, msg=line):
                read_reply(line)

    def test_only_a_tuple_and_a_yes_are_true(self):
        self.assertFalse(NoTuple())
        self.assertFalse(Pending())
        self.assertTrue(Found(0))
        self.assertTrue(Done())

    def test_a_no_is_raised_where_a_reply_is_expected(self):
        with self.assertRaises(Refused) as caught:
            expect(Refused("denied"), Done)
        self.assertEqual(caught.exception.words, "denied")
        with self.assertRaises(BadReply):
            expect(Done(), Found, NoTuple)


class Exchanging(unittest.TestCase):
    def test_replies_may_come_in_any_pieces(self):
        exchange = Exchange()
        asked = [request.out("c", 1), request.in_("c", X), request.WAIT]
        self.assertEqual(exchange.sends(asked), b"c ? out(1)\nc ? in(X)\nwait\n")
        replies = []
        for byte in b"done\npending\ntuple 7\n":
            exchange.receives(bytes([byte]))
            reply = exchange.next_reply()
            if reply is not None:
                replies.append(reply)
        self.assertEqual(replies, [Done(), Pending(), Found(7, {"X": 7})])

    def test_a_tuple_that_was_not_asked_for_is_told(self):
        exchange = Exchange()
        exchange.sends([request.inp("c", term("p", X))])
        exchange.receives(b"tuple q(1)\n")
        with self.assertRaises(BadReply):
            exchange.next_reply()

    def test_pieces_are_small_and_in_order(self):
        asked = [request.out("c", "x" * length) for length in (10, 8000, 8000, 8000, 99999, 1, 2)]
        cut = list(pieces(asked))
        self.assertEqual([one for piece in cut for one in piece], asked)
        for piece in cut:
            size = sum(len(one.line) + 1 for one in piece)
            self.assertTrue(len(piece) == 1 or size <= MOST_PIECE)
        self.assertEqual([len(piece) for piece in cut], [3, 1, 1, 2])
        self.assertEqual(list(pieces([])), [])

    def test_a_request_is_one_line(self):
        with self.assertRaises(BadTerm):
            request.Request("poll\nquit")
        with self.assertRaises(BadTerm):
            request.Request("poll\ud800")
        self.assertEqual(request.out("two words", "a\nb").line, r"'two words' ? out('a\nb')")
        self.assertEqual(request.get_spec("c").line, "c ? get_spec")
        self.assertEqual(request.set_spec("c", "it's").line, r"c ? set_spec('it\'s')")


if __name__ == "__main__":
    unittest.main()
