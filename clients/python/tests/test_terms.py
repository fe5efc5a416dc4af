"""Terms as text and back, without a server."""

import random
import unittest

from tests import drawn
from tucson import ANY, Atom, BadTerm, Compound, Var, cell, read_term, term, text_of

LEAST, LARGEST = -9223372036854775808, 9223372036854775807

# Each term, and how the server prints it.
TEXTS = [
    (0, "0"),
    (-7, "-7"),
    (LEAST, "-9223372036854775808"),
    (LARGEST, "9223372036854775807"),
    (Atom("a"), "a"),
    (Atom("red_Door9"), "red_Door9"),
    (Atom("two words"), "'two words'"),
    (Atom("Capital"), "'Capital'"),
    (Atom("_x"), "'_x'"),
    (Atom("9x"), "'9x'"),
    (Atom("-1"), "'-1'"),
    (Atom("it's"), r"'it\'s'"),
    (Atom("back\\slash"), r"'back\\slash'"),
    (Atom("line\nend"), r"'line\nend'"),
    (Atom("a\ttab"), r"'a\ttab'"),
    (Atom("Zürich"), "'Zürich'"),
    (Atom("zürich"), "'zürich'"),
    (Atom(""), "''"),
    (Atom("+"), "'+'"),
    (Atom("is"), "is"),
    ([], "[]"),
    ([1, [2, []], Atom("b c")], "[1,[2,[]],'b c']"),
    (cell(1, cell(2, Var("T"))), "[1,2|T]"),
    (cell(1, 2), "[1|2]"),
    (term("job", 1, Atom("sort")), "job(1,sort)"),
    (term("-", 1), "'-'(1)"),
    (term("+", 1, 2), "'+'(1,2)"),
    (term(",", Atom("a"), Atom("b")), "','(a,b)"),
    (term("[]", 1), "'[]'(1)"),
    (term("", 1), "''(1)"),
    (term(".", 1), "'.'(1)"),
    (Var("X"), "X"),
    (ANY, "_"),
    (term("p", Var("_0"), Var("Who"), ANY), "p(_0,Who,_)"),
]

NO_TEXTS = [
    "", " ", "a ", " a", "a b", "a(", "a()", "a(b", "a(b,)", "a(,b)", "a(b))", "a(b]", "[a", "[a)",
    "[,]", "[a,]", "[|a]", "[a|]", "[a|b,c]", "[a|b|c]", "a(b|c)", "'a", "'a\\", r"'\x'", "'a''",
    "9223372036854775808", "-9223372036854775809", "1a", "-", "--1", "+1", "1.5", "é", "a.", "a|b",
    "9" * 5000, "\xb2", "\u0663",
]


class Text(unittest.TestCase):
    def test_each_term_is_written_as_the_server_prints_it(self):
        for value, text in TEXTS:
            self.assertEqual(text_of(value), text)

    def test_each_text_is_read_back(self):
        for value, text in TEXTS:
            self.assertEqual(read_term(text), value)
            self.assertIs(type(read_term(text)), type(value))

    def test_what_is_no_text_of_a_term_is_told(self):
        for text in NO_TEXTS:
            with self.assertRaises(BadTerm, msg=text):
                read_term(text)

    def test_drawn_terms_are_read_back(self):
        draw = random.Random(1)
        for _ in range(2000):
            value = drawn.value(draw, variables=("X", "_0", "Abc"))
            text = text_of(value)
            self.assertEqual(text_of(read_term(text)), text)
            self.assertEqual(read_term(text), value)

    def test_terms_may_be_very_deep(self):
        value = nested = 0
        for _ in range(5000):
            value, nested = term("f", value), [nested]
        self.assertEqual(read_term(text_of(value)), value)
        self.assertEqual(hash(read_term(text_of(value))), hash(value))
        self.assertEqual(text_of(read_term(text_of(nested))), text_of(nested))


class Values(unittest.TestCase):
    def test_a_str_is_an_atom(self):
        self.assertEqual(text_of(term("job", "two words", ["x"])), "job('two words',[x])")
        self.assertEqual(read_term("a"), "a")

    def test_names_are_any_bytes_that_the_language_permits(self):
        permitted = bytes([9, 10, *range(32, 256)])
        atom = Atom.from_bytes(permitted)
        self.assertEqual(bytes(atom), permitted)
        self.assertEqual(bytes(read_term(text_of(atom))), permitted)
        for byte in set(range(32)) - {9, 10}:
            with self.assertRaises(BadTerm):
                text_of(Atom.from_bytes(bytes([byte])))

    def test_a_surrogate_that_stands_for_no_byte_is_told(self):
        for name in ("\ud800", "\udc7f", "\udfff"):
            with self.assertRaises(BadTerm):
                text_of(name)

    def test_what_is_no_term_is_told(self):
        for value in (None, True, 1.5, b"bytes", (1, 2), {}, LARGEST + 1, LEAST - 1, [None]):
            with self.assertRaises(BadTerm, msg=value):
                text_of(value)
        with self.assertRaises(BadTerm):
            text_of(Compound("f", ()))
        for name in ("x", "", "1", "A b", "Ä"):
            with self.assertRaises(BadTerm, msg=name):
                Var(name)

    def test_terms_that_are_the_same_have_one_value(self):
        self.assertEqual(term("[]"), [])
        self.assertEqual(term("a"), Atom("a"))
        self.assertEqual(term(".", 1, []), [1])
        self.assertEqual(term(".", 1, [2]), [1, 2])
        self.assertEqual(read_term("[1|[2]]"), [1, 2])
        self.assertEqual(text_of(Atom("[]")), text_of([]))

    def test_compounds_are_equal_where_they_are_written_the_same(self):
        self.assertEqual(term("f", 1, "a"), term("f", 1, Atom("a")))
        self.assertNotEqual(term("f", 1), term("f", "1"))
        self.assertNotEqual(term("f", "X"), term("f", Var("X")))
        self.assertEqual({term("f", 1): 2}[read_term("f(1)")], 2)
        self.assertEqual(str(term("f", "A")), "f('A')")
        self.assertEqual(eval(repr(term("f", "it's", [1]))), term("f", "it's", [1]))


if __name__ == "__main__":
    unittest.main()
