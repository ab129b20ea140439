"""Exact decimals, which numbers are unless whole ones are asked for. Expected values are by hand, of texts by RFC 8785
section 3.2.2.3, of floats as json has them, and of seeded programs by hostile/plain.py, which evaluates without jp."""
import functools
import json
import os
import pickle
import sys
import threading
import unittest
from decimal import Decimal
from unittest import mock

import jsonpath_jp as jp
from jsonpath_jp import _engine
from runs import first_runs

BINDINGS = os.path.dirname(os.path.dirname(os.path.dirname(os.path.realpath(__file__))))
sys.path.insert(0, os.path.join(os.path.dirname(BINDINGS), "hostile"))

import plain  # noqa: E402

# RFC 9535 section 1.5, figure 1.
STORE = {
    "store": {
        "book": [
            {"category": "reference", "author": "Nigel Rees", "title": "Sayings of the Century", "price": 8.95},
            {"category": "fiction", "author": "Evelyn Waugh", "title": "Sword of Honour", "price": 12.99},
            {"category": "fiction", "author": "Herman Melville", "title": "Moby Dick", "isbn": "0-553-21311-3",
             "price": 8.99},
            {"category": "fiction", "author": "J. R. R. Tolkien", "title": "The Lord of the Rings",
             "isbn": "0-395-19395-8", "price": 22.99},
        ],
        "bicycle": {"color": "red", "price": 399},
    }
}
CHEAP = "$..book[?@.price<10].title"
TITLES = ["Sayings of the Century", "Moby Dick"]
DIGITS_38 = "12345678901234567890123456789012345678"

# A number as it stands in a document, its text, and its value: by `json.loads` where that is a float.
NUMBERS = [
    ("8.950", "8.95", 8.95), ("1e2", "100", 100), ("1.0", "1", 1), ("-0.0", "0", 0), ("-0", "0", 0),
    ("0.0000001", "1e-7", 1e-7), ("0.000001", "0.000001", 1e-6), ("1E400", "1e+400", float("inf")),
    ("1e308", "1e+308", 10**308), ("1e309", "1e+309", float("inf")), ("-1e-400", "-1e-400", -0.0),
    ("9007199254740992.5", "9007199254740992.5", 9007199254740992.0),
    ("9007199254740993", "9007199254740993", 2**53 + 1),
    ("100000000000000000000", "100000000000000000000", 10**20), ("1" + "0" * 21, "1e+21", 10**21),
    ("1.5e+22", "1.5e+22", 15 * 10**21), ("-1.5e22", "-1.5e+22", -15 * 10**21),
    ("1234567890123456789012.5", "1.2345678901234567890125e+21", 1234567890123456789012.5),
    (DIGITS_38, f"1.{DIGITS_38[1:]}e+37", int(DIGITS_38)), ("0.1e1", "1", 1), ("12.5e-1", "1.25", 1.25),
]


def ways(query, document, **how):
    """What each call for values gives."""
    kept, read = jp.compile(query), jp.Document(document)
    yield jp.values(query, document, **how)
    yield kept.values(document, **how)
    yield read.values(query, **how)
    for find in (jp.find, jp.finditer):
        yield [match.value for match in find(query, document, **how)]
        yield [match.value for match in find(kept, read, **how)]
    for find in (kept.find, kept.finditer):
        yield [match.value for match in find(document, **how)]
    for find in (read.find, read.finditer):
        yield [match.value for match in find(query, **how)]
    yield [match.value for match in jp.find_many([query], document, **how)[0]]
    yield [match.value for match in jp.find_many([kept], read, **how)[0]]


class Values(unittest.TestCase):
    def assert_same(self, given, wanted):
        """That the values are equal and of the same types."""
        self.assertEqual([(type(it), it) for it in given], [(type(it), it) for it in wanted])

    def test_prices(self):
        for document in (STORE, json.dumps(STORE), jp.Document(STORE)):
            self.assertEqual(jp.values(CHEAP, document), TITLES)
            self.assertEqual(jp.values("$..book[?@.price==8.990].title", document), TITLES[1:])
            self.assert_same(jp.values("$..price", document), [399, 8.95, 12.99, 8.99, 22.99])
        self.assertEqual(jp.values("$", STORE), [STORE])

    def test_numbers(self):
        for written, text, value in NUMBERS:
            with self.subTest(written=written):
                self.assertEqual(jp.find("$[0]", f"[{written}]")[0].text, text)
                for given in ways("$[*]", f"[{written}]"):
                    self.assert_same(given, [value])
                # The values of many are made together.
                for given in ways("$[*]", "[" + ",".join(100 * [written]) + "]"):
                    self.assert_same(given, 100 * [value])
        document = "[" + ",".join(written for written, _, _ in NUMBERS) + "]"
        wanted = [value for _, _, value in NUMBERS]
        for given in ways("$[*]", document):
            self.assert_same(given, wanted)
        for (given,) in ways("$", document):
            self.assert_same(given, wanted)

    def test_what_decimals_makes(self):
        document = "[" + ",".join(written for written, _, _ in NUMBERS) + "]"
        exact = [Decimal(text) for _, text, _ in NUMBERS]
        for make in (Decimal, str, lambda text: [text]):
            wanted = [value if isinstance(value, int) else make(text) for _, text, value in NUMBERS]
            for given in ways("$[*]", document, decimals=make):
                self.assert_same(given, wanted)
            for (given,) in ways("$", document, decimals=make):
                self.assert_same(given, wanted)
        for given in ways("$[*]", document, decimals=Decimal):
            self.assertEqual(given, exact)
        first = functools.partial(jp.find_one, "$.a", '{"a":8.950}')
        self.assert_same([first().value, first(decimals=Decimal).value], [8.95, Decimal("8.95")])
        self.assert_same([jp.compile("$.a").find_one({"a": 0.5}, decimals=Decimal).value], [Decimal("0.5")])
        self.assert_same([jp.Document({"a": 0.5}).find_one("$.a", decimals=str).value], ["0.5"])

    def test_texts_that_look_like_numbers(self):
        document = {"1e+21": "1e+22", "a": ["1.5e+22,1e+5", 0.5, "\\\"1e+2"]}
        for given in ways("$", document):
            self.assertEqual(given, [document])

    def test_an_error_of_decimals(self):
        def fails(text):
            raise ZeroDivisionError(text)

        for number in ("0.5", "1e+400"):
            match = jp.find("$[*]", f"[{number}]", decimals=fails)[0]
            for _ in range(2):
                with self.assertRaisesRegex(ZeroDivisionError, f"^{number}$".replace("+", r"\+")):
                    print(match.value)
            self.assertEqual(match.text, number)
            with self.assertRaises(ZeroDivisionError):
                jp.values("$[*]", f"[{number}]", decimals=fails)

    def test_pickled(self):
        for count in (1, 100):
            matches = jp.find("$[*]", "[" + ",".join(count * ["8.950"]) + "]", decimals=Decimal)
            last = matches[-1]
            copied = pickle.loads(pickle.dumps(last))
            for match in (copied, last, pickle.loads(pickle.dumps(last))):
                self.assertEqual((match, match.value, type(match.value)), (last, Decimal("8.95"), Decimal))
        self.assertEqual(pickle.loads(pickle.dumps(jp.find("$", "0.5")[0])).value, 0.5)
        self.assertEqual(jp.Match("$", "0.5", str).value, "0.5")


class Numbers(unittest.TestCase):
    def test_what_floats_do_not_tell_apart(self):
        document = "[9007199254740993,9007199254740992.5,9007199254740992]"
        self.assertEqual(jp.paths("$[?@>9007199254740992]", document), ["$[0]", "$[1]"])
        self.assertEqual(jp.paths("$[?@==0.1]", "[0.1,0.10,1e-1,0.11,0.1000000000000000055]"), ["$[0]", "$[1]", "$[2]"])
        self.assertFalse(jp.exists("$[?@==0.3]", [0.1 + 0.2]))
        self.assertTrue(jp.exists("$[?@==0.3]", [Decimal("0.1") + Decimal("0.2")]))

    def test_queries(self):
        self.assertEqual(jp.canonical("$[?@.price<8.950]"), "$[?@['price']<8.95]")
        for call in (jp.check, jp.compile, jp.canonical, lambda query, **how: jp.find(query, "[]", **how)):
            for query, numbers, kind, place in [
                ("$[?@==0.1]", "whole", "NotWhole", 6), (f"$[?@<{DIGITS_38}9]", "decimal", "NumberRange", 5),
                ("$[?distinct(@.*)]", "decimal", "UnknownFunction", 3),
            ]:
                with self.assertRaises(jp.QueryError) as caught:
                    call(query, numbers=numbers)
                self.assertEqual((caught.exception.kind, caught.exception.place), (kind, place))
        query = jp.compile("$[?count(distinct(@[0,0]))==1]", extended=True)
        self.assertEqual((query.numbers, query.paths("[[0.5],[]]")), ("decimal", ["$[0]"]))
        self.assertEqual(pickle.loads(pickle.dumps(query)), query)
        self.assertEqual(jp.Document("[[0.5],[]]").paths(query.text, extended=True), ["$[0]"])

    def test_a_document_that_is_refused(self):
        document = f'{{"a":[1,\n{DIGITS_38}9]}}'
        calls = [jp.find, jp.find_one, jp.finditer, jp.paths, jp.values, jp.exists]
        calls += [lambda _, document: jp.Document(document), lambda query, document: jp.find_many([query], document),
                  lambda query, document: jp.compile(query).find(document)]
        for call in calls:
            for query in ("$", "$..*", "$.b"):
                with self.assertRaises(jp.DocumentError) as caught:
                    call(query, document)
                fault = caught.exception
                self.assertEqual((fault.kind, fault.path, fault.reason), ("NumberRange", "$['a'][1]", "BeyondDecimal"))
                self.assertEqual((fault.offset, fault.line, fault.column), (9, 2, 1))
        for text in ("NaN", "Infinity", "-Infinity", ".5", "1.", "+1", "01", "0x1", "1e", "1e+", "--1"):
            for numbers in ("decimal", "whole"):
                with self.assertRaises(jp.DocumentError) as caught:
                    jp.find("$", text, numbers=numbers)
                self.assertEqual(caught.exception.kind, "NotJson")

    def test_whole_numbers(self):
        document = '{"a":[1,8.95]}'
        calls = [lambda: jp.find("$.a", document, numbers="whole"), lambda: jp.Document(document, numbers="whole"),
                 lambda: jp.compile("$", numbers="whole").values(document),
                 lambda: jp.find(jp.compile("$", numbers="whole"), document),
                 lambda: jp.find_many([jp.compile("$", numbers="whole")], document)]
        for call in calls:
            with self.assertRaises(jp.DocumentError) as caught:
                call()
            self.assertEqual((caught.exception.kind, caught.exception.path), ("NotWhole", "$['a'][1]"))
        query, kept = jp.compile("$[?@<2]", numbers="whole"), jp.Document([1, 2], numbers="whole")
        self.assertEqual((query.numbers, kept.numbers, jp.Document([]).numbers), ("whole", "whole", "decimal"))
        for again in (kept, pickle.loads(pickle.dumps(kept))):
            self.assertEqual((again.values("$[?@<2]"), again.values(query), query.values(again)), ([1], [1], [1]))
            self.assertEqual(jp.values("$[?@<2]", again, numbers="whole"), [1])
            self.assertEqual(again.paths("$[?distinct(@)]", extended=True), ["$[0]", "$[1]"])
        self.assertEqual(jp.find_many(["$[?@<1.5]", query], [1, 2]), [[jp.Match("$[0]", "1")]] * 2)

    def test_documents_with_other_numbers(self):
        documents = {numbers: jp.Document("[1]", numbers=numbers) for numbers in ("decimal", "whole")}
        for numbers, other in (("decimal", "whole"), ("whole", "decimal")):
            query, kept = jp.compile("$[*]", numbers=numbers), documents[other]
            calls = [lambda call=call, asked=asked: call(asked, kept, numbers=numbers)
                     for call in (jp.find, jp.find_one, jp.paths, jp.values, jp.exists) for asked in ("$[*]", query)]
            calls += [lambda: query.find(kept), lambda: query.find_one(kept), lambda: query.exists(kept),
                      lambda: next(query.finditer(kept)), lambda: kept.values(query), lambda: kept.paths(query),
                      lambda: next(kept.finditer(query)), lambda: jp.find_many([query], kept),
                      lambda: jp.find_many(["$[*]"], kept, numbers=numbers)]
            for call in calls:
                with self.assertRaises(ValueError) as caught:
                    call()
                self.assertEqual(
                    (type(caught.exception), str(caught.exception)),
                    (ValueError, f"the document is kept with numbers='{other}', and the query has "
                     f"numbers='{numbers}': give both the same"),
                )
            self.assertEqual((kept.values("$[*]"), query.values(documents[numbers])), ([1], [1]))
            with first_runs(1), self.assertRaises(ValueError):
                query.find(kept)


class Runs(unittest.TestCase):
    DOCUMENT = [at + 0.25 for at in range(1000)]

    def test_runs_of_ever_more_steps(self):
        with first_runs(3), mock.patch.object(_engine, "_LEAST_RUN", 1):
            for document in (self.DOCUMENT, jp.Document(self.DOCUMENT)):
                self.assertEqual(jp.values("$[?@<10.3]", document), self.DOCUMENT[:11])
                (answer,) = jp.find_many(["$[?@<10.3]"], document, decimals=Decimal)
                self.assertEqual([match.value for match in answer], [Decimal(it) for it in self.DOCUMENT[:11]])
                self.assertEqual([it.value for it in jp.finditer("$[?@<2]", document)], [0.25, 1.25])
                with self.assertRaises(jp.StepsUsedUp):
                    jp.find("$[?@<10.3]", document, limit=100)
                with self.assertRaises(jp.TooManyNodes):
                    jp.find("$[?@<10.3]", document, max_nodes=10)

    def test_threads_with_little_stack(self):
        query = "$" + "[?@.a||@&&!@" * 128 + "]" * 128
        document, wrong = "[" * 126 + "0.5" + "]" * 126, []
        wanted = jp.paths(query, document)

        def ask():
            kept = jp.Document(document)
            for given in (jp.paths(query, document), kept.paths(query), jp.compile(query).paths(kept)):
                if given != wanted:
                    wrong.append(given)
            if kept.values("$" + "[0]" * 126) != [0.5]:
                wrong.append(kept)

        for size in (64 << 10, 256 << 10, 1 << 20):
            before = threading.stack_size(size)
            try:
                threads = [threading.Thread(target=ask) for _ in range(2)]
                for thread in threads:
                    thread.start()
            finally:
                threading.stack_size(before)
            for thread in threads:
                thread.join()
            self.assertEqual(wrong, [])


# A coefficient and an exponent: near each other, near whole numbers, and at the ends of whole numbers of 64 bits, of
# floats and of decimals.
HELD = [(0, 0), (1, 0), (2, 0), (-1, 0), (1, -1), (-1, -1), (3, -1), (30000000000000004, -17), (895, -2), (899, -2),
        (9007199254740992, 0), (9007199254740993, 0), (90071992547409925, -1), (2**64 - 1, 0), (2**64, 0),
        (-(2**63), 0), (-(2**63) - 1, 0), (5, -324), (17976931348623157, 292), (1, 400), (1, 20), (1, 21), (1, -6),
        (1, -7), (10**38 - 1, 0), (10**38 - 2, 0), (10**38 - 1, -38), (1, 1_000_000), (1, -1_000_000)]


class SeededDecimals(plain.Seeded):
    """Documents and queries with decimals, from one seed."""

    def number(self):
        """One of the numbers, as Python's decimals write it or with an exponent of its own."""
        coefficient, exponent = self.random.choice(HELD)
        zeros = self.random.choice([0, 0, 1, 3])
        number = Decimal(f"{coefficient}{zeros * '0'}E{exponent - zeros}")
        if self.random.random() < 0.5:
            return plain.Written(str(number))
        return plain.Written(f"{coefficient}{zeros * '0'}e{exponent - zeros}" if coefficient else "-0.00")

    def leaf(self):
        return self.number() if self.random.random() < 0.8 else self.random.choice([True, None, *plain.TEXTS])

    def literal(self):
        return self.number() if self.random.random() < 0.8 else self.random.choice([1, 2, False, *plain.TEXTS])


class Programs(unittest.TestCase):
    COUNT = 5000

    def test_a_plain_evaluation(self):
        """Each program over its documents as texts, as objects with decimals, and as kept ones."""
        seeded, answered, compared = SeededDecimals(8259), 0, 0
        for _ in range(self.COUNT // plain.DOCUMENTS):
            query, documents, found = seeded.asked()
            text = plain.query_text(query)
            kept = jp.compile(text, extended=True)
            for document, nodes in zip(documents, found):
                wanted = [(plain.path_text(location), plain.value_text(value)) for location, value in nodes]
                with self.subTest(query=text, document=plain.json_text(document)):
                    self.assert_answers(kept, document, wanted, nodes)
                answered += bool(wanted)
            compared += len(documents) * ("?" in text and any(it in text for it in "<>="))
        self.assertGreater(answered, self.COUNT // 3)
        self.assertGreater(compared, self.COUNT // 5)

    def assert_answers(self, query, document, wanted, nodes):
        written = plain.json_text(document)
        read = jp.Document(written)
        # A text is none of Python's objects, but JSON.
        document = written if isinstance(document, str) else document
        for given in (written, document, read):
            self.assertEqual([(match.path, match.text) for match in query.find(given)], wanted)
        self.assertEqual([(it.path, it.text) for it in jp.find(query.text, document, extended=True)], wanted)
        self.assertEqual([(it.path, it.text) for it in read.finditer(query)], wanted)
        self.assertEqual(query.values(document, decimals=Decimal), [value for _, value in nodes])


if __name__ == "__main__":
    unittest.main()
