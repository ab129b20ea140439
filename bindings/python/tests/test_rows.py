"""The rows of bindings/rows.jsonl, and seeded programs, by the calls of Python."""
import decimal
import json
import os
import subprocess
import sys
import unittest
from typing import NamedTuple

import jsonpath_jp as jp

BINDINGS = os.path.dirname(os.path.dirname(os.path.dirname(os.path.realpath(__file__))))
sys.path[:0] = [BINDINGS, os.path.join(os.path.dirname(BINDINGS), "hostile")]

import plain  # noqa: E402
import rows  # noqa: E402

# What the row asks; a query's error does not tell the name of its reason.
ASKED = {"from", "profile", "query", "document", "bytes", "not"}
# Each profile by the arguments of calls.
PROFILES = {
    "Standard": {"extended": False, "numbers": "whole"},
    "Extended": {"extended": True, "numbers": "whole"},
    "Decimal": {},
    "ExtendedDecimal": {"extended": True},
}


class Told(NamedTuple):
    path: str
    text: str


def by_kept_query(query, document, profile):
    return jp.compile(query, **profile).find(document)


def by_kept_document(query, document, profile):
    # A query that is refused is told of first.
    jp.compile(query, **profile)
    kept = jp.Document(document, numbers=profile.get("numbers", "decimal"))
    return list(kept.finditer(query, profile.get("extended", False)))


def by_find(query, document, profile):
    return jp.find(query, document, **profile)


def by_many(query, document, profile):
    (answer,) = jp.find_many([query], document, **profile)
    if isinstance(answer, jp.Error):
        raise answer
    return answer


def by_canonical(query, _, profile):
    return jp.canonical(query, **profile)


def by_check(query, _, profile):
    jp.check(query, **profile)
    return []


def by_text(query, document, profile):
    return jp.find(query, document.decode(), **profile)


def by_paths_and_values(query, document, profile):
    """The values are told as compact texts."""
    values = jp.values(query, document, decimals=decimal.Decimal, **profile)
    return list(map(Told, jp.paths(query, document, **profile), map(plain.value_text, map(with_decimals, values))))


def with_decimals(value):
    """The value with a decimal in place of each number."""
    if isinstance(value, list):
        return list(map(with_decimals, value))
    if isinstance(value, dict):
        return {name: with_decimals(part) for name, part in value.items()}
    is_whole = isinstance(value, int) and not isinstance(value, bool)
    return decimal.Decimal(value) if is_whole else value


def told(find, *words):
    """What a way to ask gives, in the fields of a row."""
    try:
        found = find(*words)
    except jp.QueryError as fault:
        return {"refused": "Query", "kind": fault.kind, "place": fault.place, "sentence": fault.sentence,
                "suggestion": fault.suggestion or ""}
    except jp.DocumentError as fault:
        return {"refused": "Document", "kind": fault.kind, "place": fault.offset, "line": fault.line,
                "column": fault.column, "at": fault.path or "", "reason": fault.reason, "sentence": fault.sentence}
    if isinstance(found, str):
        return {"canonical": found}
    return {"paths": [match.path for match in found], "values": [match.text for match in found]}


def expected(row):
    names = set(row) - ASKED - ({"reason"} if row.get("refused") == "Query" else set())
    return {name: row[name] for name in names}


class Rows(unittest.TestCase):
    maxDiff = None

    def test_each_row(self):
        head, all_rows = rows.read()
        ran = [self.assert_row(row) for row in all_rows if "python" not in row.get("not", ())]
        skipped = sum("python" in row.get("not", ()) for row in all_rows)
        self.assertEqual(len(ran) + skipped, head["rows"])
        print(f"{len(ran)} rows by Python, {skipped} not")

    def assert_row(self, row):
        """Each way to ask gives what the row says."""
        document = rows.document_of(row)
        ways = [] if document is None else [by_find, by_kept_query, by_kept_document, by_many, by_paths_and_values]
        if "document" in row:
            ways.append(by_text)
        if document is None or row.get("refused") == "Query":
            ways.append(by_canonical)
        if row.get("refused") == "Query":
            ways.append(by_check)
        for find in ways:
            with self.subTest(row=row, by=find.__name__):
                given = told(find, row["query"], document, PROFILES[row["profile"]])
                wanted = expected(row)
                self.assertEqual({name: given.get(name) for name in wanted}, wanted)


class Programs(unittest.TestCase):
    def test_what_is_kept_answers_as_find_does(self):
        words = [sys.executable, os.path.join(BINDINGS, "compare"), "--rows", "2000"]
        said = subprocess.run(words, capture_output=True, text=True, check=True).stdout
        count = 0
        for row in map(json.loads, said.splitlines()[1:]):
            for numbers in ("whole", "decimal"):
                profile = {**PROFILES[row["profile"]], "numbers": numbers}
                asked = row["query"], row["document"], profile
                with self.subTest(row=row, numbers=numbers):
                    wanted = told(by_find, *asked)
                    self.assertEqual(told(by_kept_query, *asked), wanted)
                    self.assertEqual(told(by_kept_document, *asked), wanted)
                    if "paths" in wanted:
                        self.assert_again(jp.compile(row["query"], **profile), row["document"], wanted)
                        count += 1
        self.assertGreater(count, 2000)

    def assert_again(self, query, document, wanted):
        """What a kept query answers does not go by what it was asked before."""
        for other in ("[]", '{"a":[1,{"b":"é"}],"b":{"a":2}}', "[1,", "[0.5]", f"[1{'0' * 38}1]"):
            told(query.find, other)
            self.assertEqual(told(query.find, document), wanted)
        first = query.find_one(document)
        nodes = list(zip(wanted["paths"], wanted["values"]))
        self.assertEqual([] if first is None else [(first.path, first.text)], nodes[:1])
        self.assertEqual(query.exists(document), nodes != [])
        self.assertEqual(query.paths(document), wanted["paths"])
        self.assertEqual(query.values(document), [json.loads(text) for text in wanted["values"]])


if __name__ == "__main__":
    unittest.main()
