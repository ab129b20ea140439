"""Python objects as documents, and arguments that are refused. Expected values are by hand."""
import collections
import dataclasses
import datetime
import decimal
import enum
import fractions
import io
import math
import os
import pathlib
import random
import struct
import sys
import tempfile
import types
import unittest
import uuid
from unittest import mock

import jsonpath_jp as jp
from jsonpath_jp import _orjson

BINDINGS = os.path.dirname(os.path.dirname(os.path.dirname(os.path.realpath(__file__))))
sys.path.insert(0, BINDINGS)

import rows  # noqa: E402


class Number(enum.IntEnum):
    ONE = 1


class Named(enum.Enum):
    TEXT = "text"


@dataclasses.dataclass
class Record:
    name: str = "a"


Point = collections.namedtuple("Point", "x y")

# What orjson writes and json.dumps refuses.
OF_ORJSON = [
    uuid.UUID(int=0), Named.TEXT, Record(), datetime.datetime(2020, 1, 1), datetime.date(2020, 1, 1), datetime.time(1),
]

# What `find` and the others are called with, and the words of the TypeError.
WRONG_TYPES = [
    (({"a": 1}, "$.a"), "a query is a str, and no dict; it comes before the document"),
    ((b"$.a", "{}"), "a query is a str, and no bytes; it comes before the document"),
    ((None, "{}"), "a query is a str, and no NoneType; it comes before the document"),
    (("$", "[]", 5), "extended is True or False, and no int"),
    (("$", "[]", False, "5"), "a limit is a number of steps, and no str"),
    (("$", "[]", False, 1.5), "a limit is a number of steps, and no float"),
    (("$", {"a": [fractions.Fraction(1)]}),
     "no JSON is made of a Fraction, as at $['a'][0]: give default=, as to json.dumps"),
    (("$", [0, {1, 2}]), "no JSON is made of a set, as at $[1]: give default=, as to json.dumps"),
    (("$", [b"x"]), "no JSON is made of a bytes, as at $[0]: give default=, as to json.dumps"),
    (("$", {"a": {(1, 2): 3}}), "a key is a str, int, float, bool or None, and no tuple, as at $['a']"),
]

# Objects that are no document, with the path and the sentence.
NO_JSON = [
    ([0, float("nan")], "$[1]", "NaN is no JSON number."),
    ({"a": float("inf")}, "$['a']", "Infinity is no JSON number."),
    (float("-inf"), "$", "-Infinity is no JSON number."),
    ([decimal.Decimal(1), {"a": decimal.Decimal("NaN")}], "$[1]['a']", "NaN is no JSON number."),
    ([0.5, decimal.Decimal("-Infinity")], "$[1]", "-Infinity is no JSON number."),
    (decimal.Decimal("sNaN"), "$", "sNaN is no JSON number."),
    ([0.5, [1.5, float("nan")]], "$[1][1]", "NaN is no JSON number."),
    ({float("nan"): 0}, "$", "The key NaN is no JSON number."),
    ([{1: "a", "1": "b"}], "$[0]", "The keys 1 and '1' have one name in JSON, \"1\"."),
    ({"true": 0, True: 1}, "$", "The keys 'true' and True have one name in JSON, \"true\"."),
    ({"a": {None: 0, "null": 1}}, "$['a']", "The keys None and 'null' have one name in JSON, \"null\"."),
    ({"1.5": 0, 1.5: 1}, "$", "The keys '1.5' and 1.5 have one name in JSON, \"1.5\"."),
]


class Objects(unittest.TestCase):
    def test_objects_that_are_written(self):
        for document, text in [
            ({"b": [True, None, "é"], "a": (1, 2)}, '{"a":[1,2],"b":[true,null,"é"]}'),
            ({1: 2}, '{"1":2}'),
            ({None: 1, 2: 3, True: 4}, '{"2":3,"null":1,"true":4}'),
            ([Number.ONE, Point(1, 2)], "[1,[1,2]]"),
            (collections.OrderedDict(b=1), '{"b":1}'),
        ]:
            (match,) = jp.find("$", document)
            self.assertEqual(match.text, text)

    def test_mappings_and_sequences_of_other_types(self):
        for document, text in [
            (types.MappingProxyType({"b": 1, "a": {2: 3}}), '{"a":{"2":3},"b":1}'),
            ({"a": collections.UserDict(b=range(3))}, '{"a":{"b":[0,1,2]}}'),
            ([collections.deque([1, None]), collections.ChainMap({"a": 1}, {"b": 2})], '[[1,null],{"a":1,"b":2}]'),
        ]:
            self.assertEqual(jp.find("$", document)[0].text, text)
        # What is given as default= is asked before.
        self.assertEqual(jp.values("$[0]", [range(3)], default=str), ["range(0, 3)"])
        for document, name in [
            ([bytearray(b"a")], "bytearray"), ([memoryview(b"a")], "memoryview"), ([collections.UserString("a")], "UserString"),
        ]:
            with self.assertRaisesRegex(TypeError, rf"no JSON is made of a {name}, as at \$\[0\]"):
                jp.find("$", document)
        with self.assertRaises(jp.DocumentError) as caught:
            jp.find("$", collections.UserDict(a=[float("nan")]))
        self.assertEqual(caught.exception.path, "$['a'][0]")

    def test_types_that_orjson_writes(self):
        for value in OF_ORJSON:
            for document in (value, [None, value], {"a": (value,)}):
                with self.assertRaisesRegex(TypeError, f"no JSON is made of a {type(value).__name__}, as at "):
                    jp.find("$", document)
                self.assertIn('"other"', jp.find("$", document, default=lambda it: "other")[0].text)

    def test_default(self):
        document = {"a": decimal.Decimal("1.5"), "b": [{3}]}

        def default(it):
            return sorted(it) if isinstance(it, set) else str(it)

        text = '{"a":"1.5","b":[[3]]}'
        query = jp.compile("$")
        self.assertEqual(jp.find("$", document, default=default)[0].text, text)
        self.assertEqual(query.find(document, default=default)[0].text, text)
        self.assertEqual(query.find_one(document, default=default).text, text)
        self.assertEqual(jp.Document(document, default=default).text, text.encode())
        self.assertEqual(jp.find_many(["$"], document, default=default)[0][0].text, text)
        self.assertEqual(jp.find("$", {2: decimal.Decimal(1), None: 0}, default=str)[0].text, '{"2":"1","null":0}')
        with self.assertRaises(jp.DocumentError) as caught:
            jp.find("$", [{3}], default=lambda it: {"1": 0, 1: 0})
        self.assertEqual(caught.exception.path, "$[0]")
        with self.assertRaisesRegex(ZeroDivisionError, "division"):
            jp.find("$", [{3}], default=lambda it: 1 // 0)

    def test_objects_that_are_no_json(self):
        for document, path, sentence in NO_JSON:
            for call in (jp.find, jp.compile("$").find, lambda *words: jp.Document(words[-1])):
                words = ("$", document) if call is jp.find else (document,)
                with self.subTest(document=str(document)):
                    with self.assertRaises(jp.DocumentError) as caught:
                        call(*words)
                    fault = caught.exception
                    self.assertEqual((fault.kind, fault.path, fault.sentence), ("NotJson", path, sentence))
                    self.assertEqual((fault.offset, fault.line, fault.column, fault.reason), (None,) * 4)
                    self.assertEqual(str(fault), f"document refused: NotJson at {path}\n{sentence}")

    def test_objects_that_are_too_deep(self):
        document = []
        for _ in range(100_000):
            document = [document]
        self.assert_too_deep(document)
        while document:
            document = document[0]
        # Keys of two kinds are not sorted.
        document = {1: 0, "a": 0}
        for _ in range(126):
            document = [document]
        self.assertEqual(jp.paths("$..a", document), ["$" + "[0]" * 126 + "['a']"])
        self.assert_too_deep([document])

    def assert_too_deep(self, document, **words):
        with self.assertRaises(jp.DocumentError) as caught:
            jp.find("$", document, **words)
        self.assertEqual((caught.exception.kind, caught.exception.reason), ("NotJson", "TooManyLevels"))

    def test_objects_that_stand_inside_themselves(self):
        round_list, round_dict, many = [0], {}, [1]
        round_list.append({"a": round_list})
        round_dict["b"] = (round_dict,)
        many.extend([many] * 200)
        for document, path, name in [
            (round_list, "$[1]['a']", "list"),
            (round_dict, "$['b'][0]", "dict"),
            ({"c": many}, "$['c'][1]", "list"),
        ]:
            with self.assertRaises(jp.Error) as caught:
                jp.find("$", document)
            fault = caught.exception
            self.assertEqual((type(fault), fault.kind, fault.path), (jp.DocumentError, "NotJson", path))
            self.assertEqual(fault.sentence, f"A {name} stands inside itself.")
        with self.assertRaisesRegex(jp.DocumentError, "A set stands inside itself"):
            jp.find("$", [{1}], default=lambda it: [it])
        self.assert_too_deep([{1}], default=lambda it: set(it))
        lists = [[] for _ in range(200)]
        for above, below in zip(lists, lists[1:] + lists[:1]):
            above.extend([below, below])
        self.assert_too_deep(lists)
        # What stands there twice stands not inside itself.
        twice = [1]
        self.assertEqual(jp.values("$", {1: twice, "a": [twice, twice]}), [{"1": [1], "a": [[1], [1]]}])

    def test_numbers_of_more_digits_than_python_writes(self):
        for exponent in (4299, 5000):
            self.assertEqual(jp.find("$", [0, -(10**exponent)])[0].text, f"[0,-1e+{exponent}]")
            self.assertEqual(jp.find("$", {10**exponent: None})[0].text, f'{{"1{exponent * "0"}":null}}')
            for number, numbers, kind, path, reason in [
                (10**exponent, "whole", "NotJson", None, "BeyondFloat"),
                (10**exponent + 1, "decimal", "NumberRange", "$[1]", "BeyondDecimal"),
            ]:
                with self.assertRaises(jp.DocumentError) as caught:
                    jp.find("$", [0, number], numbers=numbers)
                fault = caught.exception
                self.assertEqual((fault.kind, fault.path, fault.reason, fault.column), (kind, path, reason, 4))
                if reason == "BeyondFloat":
                    self.assertEqual(fault.sentence, rows.sentences("Document")[reason])

    def test_numbers_are_written_exactly(self):
        class Price(float):
            def __repr__(self):
                return "a price"

        class Exact(decimal.Decimal):
            def __str__(self):
                return "an exact one"

        for number, text in [
            (8.95, "8.95"), (0.1, "0.1"), (0.1 + 0.2, "0.30000000000000004"), (1e16, "1e+16"), (1e-7, "1e-07"),
            (-0.0, "-0.0"), (5e-324, "5e-324"), (1.7976931348623157e308, "1.7976931348623157e+308"),
            (Price(2.5), "2.5"),
            (decimal.Decimal("8.950"), "8.950"), (decimal.Decimal("1E+400"), "1E+400"),
            (decimal.Decimal("0E-8"), "0E-8"), (decimal.Decimal("-0.1"), "-0.1"), (Exact("7.50"), "7.50"),
            (decimal.Decimal(10) ** 20, "100000000000000000000"),
            (decimal.Decimal("1234567890123456789.0123456789012345678"), "1234567890123456789.0123456789012345678"),
        ]:
            with self.subTest(text=text):
                self.assertEqual(jp.Document(number).text, text.encode())
                self.assertEqual(jp.Document([None, {"a": (number,)}]).text, f'[null,{{"a":[{text}]}}]'.encode())
                self.assertEqual(jp.values("$.a", {"a": number}, decimals=decimal.Decimal), [decimal.Decimal(text)])
        with self.assertRaises(jp.DocumentError) as caught:
            jp.find("$", [0, decimal.Decimal("9" * 39)])
        self.assertEqual((caught.exception.kind, caught.exception.path), ("NumberRange", "$[1]"))

    def test_decimals_and_default(self):
        one = decimal.Decimal("1.50")
        for default, text in [
            (None, '{"a":[1.50,true]}'), (str, '{"a":["1.50",true]}'), (float, '{"a":[1.5,true]}'),
            (lambda it: it, '{"a":[1.50,true]}'),
        ]:
            self.assertEqual(jp.Document({"a": [one, True]}, default=default).text, text.encode())
        self.assertEqual(jp.Document([{1}, one], default=lambda it: it if it is one else list(it)).text, b"[[1],1.50]")
        deep = one
        for _ in range(127):
            deep = [deep]
        self.assertEqual(jp.values("$" + "[0]" * 127, deep), [1.5])
        self.assert_too_deep([deep])

    def test_halves_of_surrogate_pairs_are_printed(self):
        for call in (lambda: jp.check("$.\ud800"), lambda: jp.find("$", {"\udfff": float("nan")}),
                     lambda: jp.find("$", {"\udfff": {1}}), lambda: jp.find("$", {"\udfff": {(): 1}})):
            with self.assertRaises((jp.Error, TypeError)) as caught:
                call()
            self.assertIn("\ufffd", str(caught.exception).encode().decode())
        with self.assertRaises(jp.QueryError) as caught:
            jp.check("$.\ud800")
        self.assertEqual(str(caught.exception), "query refused: Syntax at 2\n$.\ufffd\n  ^")
        self.assertEqual(caught.exception.query, "$.\ud800")


class ObjectsWithoutOrjson(Objects):
    def setUp(self):
        hidden = mock.patch.object(_orjson, "orjson", None)
        hidden.start()
        self.addCleanup(hidden.stop)

    def test_that_it_is_hidden(self):
        self.assertIsNone(_orjson.bytes_by_orjson([1]))


@unittest.skipIf(_orjson.orjson is None, "orjson is not installed")
class ByOrjson(unittest.TestCase):
    def test_what_it_writes(self):
        characters = "".join(map(chr, [*range(0x100), 0x2028, 0xfeff, 0xffff, 0x1f600]))
        for document, text in [
            ({"b": [True, False, 0], "a": ["é😀"]}, '{"a":["é😀"],"b":[true,false,0]}'),
            ([2**64 - 1, -(2**63), 2**53 + 1], "[18446744073709551615,-9223372036854775808,9007199254740993]"),
            ([None, {"null": None}], '[null,{"null":null}]'),
            ((1, ()), "[1,[]]"),
            ({"\uffff": 1, "\U0001f600": 2}, '{"\uffff":1,"\U0001f600":2}'),
            ([8.95, -0.0, 1e15, 1e-4, 0.1 + 0.2], "[8.95,-0.0,1000000000000000.0,0.0001,0.30000000000000004]"),
            ({"a": 9999999999999998.0}, '{"a":9999999999999998.0}'),
        ]:
            self.assertEqual(_orjson.bytes_by_orjson(document), text.encode())
            self.assertEqual(jp.Document(document).text, text.encode())
        for document in ({characters: characters}, [characters[::-1]]):
            by_json = self.text_by_json(document)
            self.assertEqual(_orjson.bytes_by_orjson(document), by_json)
            self.assertEqual(jp.values("$", document), [document])
        chances = random.Random(8259)
        floats = [struct.unpack("d", struct.pack("Q", chances.getrandbits(64)))[0] for _ in range(20_000)]
        floats += [chances.choice([1, -1]) * 10 ** chances.uniform(-6, 18) for _ in range(20_000)]
        floats += [round(chances.uniform(0, 1000), chances.randrange(1, 5)) for _ in range(20_000)]
        for number in filter(math.isfinite, floats):
            if _orjson.bytes_by_orjson([number]) is not None:
                self.assertEqual(_orjson.bytes_by_orjson([number]), f"[{number!r}]".encode())

    def text_by_json(self, document):
        with mock.patch.object(_orjson, "orjson", None):
            return jp.Document(document).text

    def test_what_is_left_to_json(self):
        nested, inside = (), []
        for _ in range(3000):
            nested = (nested,)
        inside.append((inside,))
        for document in (
            [float("nan")], [float("inf"), None], [2**64], {1: 2}, ["\ud800"], {"\udfff": 0}, nested, inside,
            [Number.ONE], collections.OrderedDict(a=1), *OF_ORJSON, [{1}], [b"a"], [1e16], [1e-5],
            [decimal.Decimal(1)],
        ):
            self.assertIsNone(_orjson.bytes_by_orjson(document), type(document))


class Files(unittest.TestCase):
    def test_files_and_paths(self):
        with tempfile.TemporaryDirectory() as folder:
            path = pathlib.Path(folder, "é.json")
            path.write_bytes('{"é":[1]}'.encode())
            for call in (lambda it: jp.paths("$.é[0]", it), lambda it: jp.compile("$.é[0]").paths(it),
                         lambda it: jp.Document(it).paths("$.é[0]"), lambda it: jp.find_many(["$.é[0]"], it)[0][0].path,
                         lambda it: [match.path for match in jp.finditer("$.é[0]", it)]):
                with open(path, "rb") as binary, open(path, encoding="utf-8") as text:
                    for document in (path, binary, text):
                        self.assertIn("$['é'][0]", call(document))
            with self.assertRaises(FileNotFoundError):
                jp.find("$", pathlib.Path(folder, "none"))
            with self.assertRaises(IsADirectoryError):
                jp.find("$", pathlib.Path(folder))

    def test_files_that_are_no_document(self):
        for file, reason in [
            (io.BytesIO('["é"]'.encode("latin-1")), "NotUtf8"),
            (io.BytesIO("[]".encode("utf-16")), "Utf16"),
            (io.StringIO("\ufeff[]"), "ByteOrderMark"),
            (io.BytesIO(b""), "Empty"),
        ]:
            with self.assertRaises(jp.DocumentError) as caught:
                jp.find("$", file)
            self.assertEqual(caught.exception.reason, reason)
        with self.assertRaisesRegex(TypeError, "gives str or bytes, and no NoneType"):
            jp.find("$", mock.Mock(read=lambda: None))


class Arguments(unittest.TestCase):
    def test_wrong_types(self):
        for words, sentence in WRONG_TYPES:
            for call in (jp.find, jp.find_one, jp.finditer, jp.paths, jp.values, jp.exists):
                with self.subTest(words=str(words), call=call.__name__):
                    with self.assertRaises(TypeError) as caught:
                        call(*words)
                    self.assertEqual(str(caught.exception), sentence)

    def test_numbers_and_decimals(self):
        query, kept = jp.compile("$"), jp.Document("[]")
        calls = (jp.find, jp.find_one, jp.finditer, jp.paths, jp.values, jp.exists)
        many = [lambda numbers, call=call, asked=asked: call(asked, "[]", numbers=numbers)
                for call in calls for asked in ("$", query)]
        many += [lambda numbers, call=call: call("$", numbers=numbers)
                 for call in (jp.compile, jp.parse, jp.Query, jp.canonical, jp.check)]
        many += [lambda numbers: jp.Document("[]", numbers=numbers),
                 lambda numbers: jp.find_many([], "[]", numbers=numbers)]
        for call in many:
            with self.assertRaisesRegex(ValueError, "^numbers is 'decimal' or 'whole', and not 'float'$"):
                call("float")
            for wrong in (float, None, []):
                name = type(wrong).__name__
                with self.assertRaisesRegex(TypeError, f"^numbers is 'decimal' or 'whole', and no {name}$"):
                    call(wrong)
        sentence = "^decimals is a function of a number's text, as json.loads has parse_float, and no str$"
        for name in ("find", "find_one", "finditer", "values"):
            for of, asked in [(jp, ("$", "[]")), (query, ("[]",)), (kept, ("$",))]:
                with self.assertRaisesRegex(TypeError, sentence):
                    getattr(of, name)(*asked, decimals="float")
        for call in (lambda: jp.find_many(["$"], "[]", decimals="float"), lambda: jp.Match("$", "1", "float")):
            with self.assertRaisesRegex(TypeError, sentence):
                call()

    def test_a_document_before_the_query(self):
        for document in ("$.a", b"$.a"):
            for call in (jp.find, jp.find_one, jp.finditer, jp.paths, jp.values, jp.exists):
                with self.assertRaises(jp.QueryError) as caught:
                    call("[1]", document)
                self.assertTrue(str(caught.exception).endswith(" The query comes before the document."))
        with self.assertRaises(jp.QueryError) as caught:
            jp.find("$[", "$")
        self.assertNotIn("comes before", caught.exception.sentence)

    def test_a_default_that_is_no_function(self):
        kept, query = jp.Document("[]"), jp.compile("$.a")
        calls = [jp.find, jp.find_one, jp.finditer, jp.paths, jp.values, jp.exists]
        own = [query.find, query.find_one, query.finditer, query.paths, query.values, query.exists]
        made = [lambda it, call=call, asked=asked, **words: call(asked, it, **words)
                for call in calls for asked in ("$.a", query)]
        made += [*own, jp.Document, lambda it, **words: jp.find_many(["$.a"], it, **words)]
        for call in made:
            for document in ("{}", {}, kept):
                with self.assertRaises(TypeError) as caught:
                    call(document, default="none")
                sentence = "default is a function for objects of other types, as json.dumps has it, and no str"
                self.assertEqual(str(caught.exception), sentence)

    def test_the_query_first(self):
        for call in (jp.find, jp.find_one, jp.finditer, jp.paths, jp.values, jp.exists):
            with self.assertRaises(jp.QueryError):
                call("$[", [float("nan")])

    def test_wrong_types_of_other_calls(self):
        kept = jp.Document([])
        for call in (jp.compile, jp.parse, jp.check, jp.canonical, kept.find, kept.exists):
            with self.assertRaisesRegex(TypeError, "a query is a str, and no dict"):
                call({})
        for wrong in ("$.a", jp.compile("$.a")):
            with self.assertRaisesRegex(TypeError, "many queries"):
                jp.find_many(wrong, "{}")
        with self.assertRaisesRegex(TypeError, "and no dict"):
            jp.find_many(["$", {}], "{}")
        with self.assertRaisesRegex(TypeError, "no JSON is made of a Query"):
            jp.find("$", jp.compile("$"))
        with self.assertRaisesRegex(TypeError, "a limit is a number"):
            jp.compile("$").find([], limit="1")
        with self.assertRaises(ValueError):
            kept.find("$", limit=0)

    def test_a_limit_as_whole_numbers_are(self):
        self.assertEqual(jp.values("$", [1], limit=Number.ONE), [[1]])


if __name__ == "__main__":
    unittest.main()
