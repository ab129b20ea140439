"""The names and indexes of normalized paths (RFC 9535, section 2.7), and JSON Pointers. Expected values are by hand."""
import unittest

import jsonpath_jp as jp
from jsonpath_jp._paths import path_of, steps_of

PATHS = [
    ("$", []),
    ("$['a']", ["a"]),
    ("$[0]", [0]),
    ("$[1]['b'][20]", [1, "b", 20]),
    ("$['']", [""]),
    ("$['0']", ["0"]),
    (r"$['\'']", ["'"]),
    (r"$['\\']", ["\\"]),
    (r"$['\\u0041']", ["\\u0041"]),
    (r"$['\b\t\n\f\r']", ["\b\t\n\f\r"]),
    (r"$['\u0000\u000b\u000e\u001f']", ["\0\x0b\x0e\x1f"]),
    ("$['\"']", ['"']),
    ("$['\x7f\u2028é😀']", ["\x7f\u2028é😀"]),
    ("$['a][b']['$']", ["a][b", "$"]),
    ("$[9007199254740991]", [9007199254740991]),
]

NO_PATHS = [
    "", "a", "$.a", "$[", "$[]", "$['a'", "$['a", "$[a]", '$["a"]', "$[-1]", "$[01]", "$[00]", "$[1", "$[1] ",
    " $", "$ ['a']", "$['a']x", "$[1]\n", "$['\t']", "$['\n']", r"$['\u0009']", r"$['\u000A']", r"$['\u001F']",
    r"$['\u0041']", r"$['\/']", r"$['\"']", r"$['\x']", r"$['\u00']", r"$['\']", "$['a'b']", "$['\ud800']", "$[١]",
]

# Those of RFC 6901, section 5, and others by its section 3, each beside the normalized path.
POINTERS = [
    ("$", ""),
    ("$['foo']", "/foo"),
    ("$['foo'][0]", "/foo/0"),
    ("$['']", "/"),
    ("$['a/b']", "/a~1b"),
    ("$['c%d']", "/c%d"),
    ("$['e^f']", "/e^f"),
    ("$['g|h']", "/g|h"),
    (r"$['i\\j']", r"/i\j"),
    ("$['k\"l']", '/k"l'),
    ("$[' ']", "/ "),
    ("$['m~n']", "/m~0n"),
    ("$['~1']['/0']", "/~01/~10"),
    (r"$['\'']['\n\u0000']", "/'/\n\0"),
    ("$['é😀']['0'][10]", "/é😀/0/10"),
]


class Paths(unittest.TestCase):
    def test_steps(self):
        for path, steps in PATHS:
            with self.subTest(path=path):
                self.assertEqual(steps_of(path), steps)
                self.assertEqual(path_of(steps), path)
                self.assertEqual(jp.Match(path, "0").steps, steps)

    def test_pointers(self):
        for path, pointer in POINTERS:
            with self.subTest(path=path):
                self.assertEqual(jp.Match(path, "0").pointer, pointer)
        document = {"foo": ["bar", "baz"], "": 0, "a/b": 1, "i\\j": 5, "m~n": 8}
        pointers = [match.pointer for match in jp.find("$..*", document)]
        self.assertEqual(pointers, ["/", "/a~1b", "/foo", r"/i\j", "/m~0n", "/foo/0", "/foo/1"])

    def test_what_is_no_normalized_path(self):
        for path in NO_PATHS:
            with self.subTest(path=path):
                with self.assertRaisesRegex(ValueError, "no normalized path"):
                    steps_of(path)

    def test_each_character_as_the_engine_spells_it(self):
        for code in [*range(0x100), 0x2028, 0xD7FF, 0xE000, 0xFFFF, 0x10000, 0x10FFFF]:
            name = chr(code)
            (match,) = jp.find("$.*.*", {name: {"a" + name: 0}})
            self.assertEqual(match.steps, [name, "a" + name])
            self.assertEqual(path_of(match.steps), match.path)

    def test_steps_lead_to_the_value(self):
        document = {"a": [{"b'": [1, {"\n": 2}]}], "": [[]]}
        found = jp.find("$..*", document)
        self.assertEqual(len(found), 8)
        for match in found:
            at = document
            for step in match.steps:
                at = at[step]
            self.assertEqual(at, match.value)
            self.assertIs(match.steps, match.steps)


if __name__ == "__main__":
    unittest.main()
