#!/usr/bin/env python3
"""Measures what strangers can make a call take that has limits, and prints the rows of docs/EMBED.md's table: of each
the error or the nodes, the milliseconds of processor, the least of some calls, and how many megabytes the process grew.

    strangers.py [decimal|whole]    with numbers of that kind

It takes the library that bindings/build put into the package.
"""
import multiprocessing
import resource
import sys
import time

import jsonpath_jp as jp

NUMBERS = sys.argv[1] if sys.argv[1:] else "decimal"
LIMITS = {"limit": 1_000_000, "max_nodes": 10_000, "max_bytes": 1_000_000}
QUERY, DOCUMENT = 4_000, 1_000_000
TIMES = 3


def repeated(part, size=DOCUMENT):
    """A list of so many of these values that it has about so many bytes."""
    return "[" + ",".join([part] * (size // (len(part) + 1))) + "]"


def match(pattern):
    return f"$[?match(@,'{pattern}')]"


TEXT = f'["{"a" * (DOCUMENT - 4)}"]'
TEXTS = repeated('"' + "a" * 300 + '"')
BOOKS = repeated('{"title":"Sayings","price":8,"tags":["a","b"]}')
NAMES = "[[{" + ",".join(f'"{"n" * 15_000}{at:02}":[1,2]' for at in range(DOCUMENT // 15_020)) + "}]]"
# A name, a query and a document.
ROWS = [
    ("the first of many nodes", "$[0:100].title", BOOKS),
    ("too many nodes", "$..price", BOOKS),
    ("a document that is no JSON at its end", "$..price", BOOKS[:-1] + ",]"),
    ("one with a fraction at its end", "$..price", BOOKS[:-1] + ",0.5]"),
    ("127 lists in one another, and 1,000 segments", "$" + "..*" * 1_000, "[" * 127 + "]" * 127),
    ("300 filters, one behind another", "$" + "..[?@[*]]" * 300, "[" * 127 + "]" * 127),
    ("ways that are counted", "$[?count(" + "@" + "[*,*]" * 100 + ")>9]", repeated("[[[1],2],3]")),
    ("ways by names of 15 kB", "$[0" + ",0" * 299 + "][?count(@[*,*][*,*])>999]", NAMES),
    ("a text of 1 MB that is compared 400 times", "$[?" + "||".join(["@==$[1]"] * 400) + "]", "[" + TEXT[1:-1] + ",0]"),
    ("a pattern of 3,900 letters", match("a" * 3_900), TEXTS),
    ("one of 90,000, in one text of 1 MB", match("(a{300}){300}"), TEXT),
    ("one of 2,000 that may be left out", match("(a?){2000}"), TEXTS),
    ("one of 3,900 in 2,600 groups", match("((a|b)?c?){1300}"), TEXTS),
    ("one with 50 groups in one another", match("(" * 50 + "a*" + ")*" * 50), TEXTS),
    ("a text of 1 MB that is given 1,990 times", "$[" + ",".join("0" * 1_990) + "]", TEXT),
]


def measured(row):
    """What comes of a row, in a process of its own."""
    name, query, document = row
    assert len(query) <= QUERY and len(document) <= DOCUMENT + QUERY, (name, len(query), len(document))
    before, least = resource.getrusage(resource.RUSAGE_SELF).ru_maxrss, None
    for _ in range(TIMES):
        start = time.process_time()
        try:
            came = f"{len(jp.find(query, document, numbers=NUMBERS, **LIMITS)):,} nodes"
        except jp.Error as fault:
            came = f"`{getattr(fault, 'kind', type(fault).__name__)}`"
        taken = time.process_time() - start
        least = taken if least is None else min(least, taken)
    grown = resource.getrusage(resource.RUSAGE_SELF).ru_maxrss - before
    return f"| {name} | {came} | {least * 1e3:,.1f} | {grown / 1e3:,.0f} |"


if __name__ == "__main__":
    for it in ROWS:
        with multiprocessing.get_context("fork").Pool(1) as pool:
            print(pool.apply(measured, (it,)), flush=True)
