#!/usr/bin/env python3
"""Measures what keeping spares, and prints the rows of README.md's table, in microseconds: the least of many runs. Then
what decimals cost: of whole numbers as such, of the same as decimals, and of fractions.

It takes the library that bindings/build put into the package, and jsonpath-ng where it is installed.
"""
import json
import timeit
from decimal import Decimal

import jsonpath_jp as jp
from jsonpath_jp._documents import json_bytes

BOOKS = 20_000
RECORDS = 2_000


def book(number):
    return {"category": "fiction", "author": f"Author {number}", "title": f"Title {number}", "price": number % 100}


def store(count):
    return {"store": {"book": [book(number) for number in range(count)]}}


def least(calls):
    """The least time of each call, over many runs of a few milliseconds each, by turns."""
    counts = [max(1, int(0.002 / timeit.timeit(call, number=1))) for call in calls]
    rounds = [
        [timeit.timeit(call, number=count) / count for call, count in zip(calls, counts)] for _ in range(100)
    ]
    return [min(times) * 1e6 for times in zip(*rounds)]


def row(name, *calls):
    print(f"| {name} | " + " | ".join(f"{time:,.1f}" for time in least(calls)) + " |", flush=True)


def measure_queries():
    for count in (1, 10):
        text = json.dumps(store(count)).encode()
        for query in ("$.store.book[0].title", "$..price", "$.store.book[?@.price<5].title"):
            kept = jp.compile(query)
            name = f"`{query}`, {len(text)} bytes"
            row(name, lambda: jp.find(query, text), lambda: kept.find(text))


def measure_documents():
    whole = store(BOOKS)
    text = json.dumps(whole).encode()
    query = "$.store.book[3].title"
    kept, document = jp.compile(query), jp.Document(text)
    row(f"`{query}`, a text of {len(text)} bytes", lambda: jp.find(query, text), lambda: document.find(kept))
    row("the same as an object, and writing it", lambda: jp.find(query, whole), lambda: json_bytes(whole))
    try:
        import jsonpath_ng
    except ImportError:
        print("jsonpath-ng is not installed here")
        return
    parsed = jsonpath_ng.parse(query)
    row("jsonpath-ng, parsed before, on the object", lambda: parsed.find(whole))


def measure_values():
    document, query = jp.Document(store(BOOKS)), jp.compile("$..price")
    row(f"the values of {BOOKS} nodes, by values, and of matches", lambda: document.values(query),
        lambda: [match.value for match in document.find(query)])
    books = store(119)
    row(f"an object of {len(json_bytes(books))} bytes, and writing it", lambda: jp.values("$.store.book[3].title", books),
        lambda: json_bytes(books))


def records(prices):
    return [{"id": f"item {at}", "name": f"Item {at}", "price": price} for at, price in enumerate(prices)]


def measure_decimals():
    """Each call over records with whole prices, of which numbers are whole, over the same where they are decimals, and
    over such prices as 8.95."""
    whole = records(500 + at % 1000 for at in range(RECORDS))
    exact = records((500 + at % 1000) / 100 for at in range(RECORDS))
    asked = [(whole, 1000, "whole"), (whole, 1000, "decimal"), (exact, 10, "decimal")]
    texts = [json.dumps(it).encode() for it, _, _ in asked]
    queries = [jp.compile(f"$[?@.price<{most}].id", numbers=numbers) for _, most, numbers in asked]
    prices = [jp.compile("$[*].price", numbers=numbers) for _, _, numbers in asked]
    kept = [jp.Document(text, numbers=numbers) for text, (_, _, numbers) in zip(texts, asked)]
    assert len({len(query.find(text)) for query, text in zip(queries, texts)}) == 1
    for name, call in [
        ("json.loads of the text", lambda at: json.loads(texts[at])),
        ("`$[?@.price<10].id`, find in the text", lambda at: queries[at].find(texts[at])),
        ("the same of a kept document", lambda at: queries[at].find(kept[at])),
        ("`$[*].price`, values of the text", lambda at: prices[at].values(texts[at])),
        ("the same with decimals=Decimal", lambda at: prices[at].values(texts[at], decimals=Decimal)),
        ("`$[?@.price<10].id`, find in the objects", lambda at: queries[at].find(asked[at][0])),
    ]:
        row(f"{name}, {RECORDS} records", *(lambda at=at: call(at) for at in range(3)))
    priced = [{**it, "price": Decimal(str(it["price"]))} for it in exact]
    row("writing objects with floats, and with Decimals", lambda: json_bytes(exact), lambda: json_bytes(priced))


if __name__ == "__main__":
    measure_queries()
    measure_documents()
    measure_values()
    measure_decimals()
