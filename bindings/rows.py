#!/usr/bin/env python3
"""The rows of bindings/rows.jsonl, which the tests of each language run: the program prints them in the plain form, for
languages that have no reader of JSON at hand.

    bindings/rows.py [FILE]    prints the rows of that file, or of rows.jsonl

rows.jsonl has a row a line, an object, behind a head that counts them. A row says what is asked and what has to be
answered; what it does not say of the answer is not looked at.

    from        where it comes from
    profile     Standard or Extended, or of decimals Decimal or ExtendedDecimal
    query       the query's text
    document    the document's text, or where that is no UTF-8:
    bytes       the document in hexadecimal digits; without either only the query is read
    paths       of the nodes in their order, normalized
    values      of the same nodes, each as its compact text
    canonical   the canonical text of the query
    refused     Query or Document; then also, as far as the row says it:
    kind        the kind of the refusal
    place       the byte of the query, or of the document, from 0
    line        of the document, from 1
    column      of the document, in characters from 1
    at          the path of the number that is not whole, or empty
    reason      the name of the reason, in the engine's sources; of a document the engine tells it too
    sentence    the engine's sentence for that reason, as it is told to the callers of a library
    suggestion  a query that is accepted, or empty
    not         languages that can't run the row, each with the reason: c, go, java, node, page, python, rust

In the plain form a line has words with a blank between them, each a field's name, `=` and its text in hexadecimal
digits; of a field with several texts one word for each. `nodes` is the number of the nodes, before their paths and
values. The first line has the number of rows as `rows`.
"""
import json
import os
import sys

FILE = os.path.join(os.path.dirname(os.path.realpath(__file__)), "rows.jsonl")
FIELDS = (
    "from", "profile", "query", "document", "bytes", "paths", "values", "canonical", "refused", "kind",
    "place", "line", "column", "at", "reason", "sentence", "suggestion", "not",
)


def read(path=FILE):
    """The head, and the rows, which are as many as it says and have no other fields."""
    with open(path, encoding="utf-8") as file:
        head, *rows = map(json.loads, file)
    for row in rows:
        if not set(row) <= set(FIELDS):
            raise ValueError(f"a row has other fields: {sorted(set(row) - set(FIELDS))}")
    if head["rows"] != len(rows):
        raise ValueError(f"{path} has {len(rows)} rows, and its head says {head['rows']}")
    return head, rows


def document_of(row):
    """The bytes of the document, or None."""
    if "bytes" in row:
        return bytes.fromhex(row["bytes"])
    return row["document"].encode() if "document" in row else None


def sentences(refused):
    """The engine's sentences by their reasons, as rows have them: of what is refused, Query or Document."""
    return {row["reason"]: row["sentence"] for row in read()[1] if row.get("refused") == refused and "sentence" in row}


def _words(row):
    """The fields of the plain form with their texts."""
    yield "query", row["query"]
    yield "profile", row["profile"]
    document = document_of(row)
    if document is not None:
        yield "document", document
    if "paths" in row:
        yield "nodes", len(row["paths"])
    for name in ("paths", "values"):
        for text in row.get(name, ()):
            yield name.removesuffix("s"), text
    for name in FIELDS[FIELDS.index("canonical"):FIELDS.index("not")]:
        if name in row:
            yield name, row[name]
    for language in row.get("not", ()):
        yield "not", language


def plain(row):
    """A row in the plain form."""
    texts = ((name, text if isinstance(text, bytes) else str(text).encode()) for name, text in _words(row))
    return " ".join(f"{name}={text.hex()}" for name, text in texts)


def lines(rows, spelled):
    """A head and rows in lines, each row as it is spelled: by json.dumps or in the plain form."""
    head = {"rows": len(rows)}
    yield json.dumps(head) if spelled is json.dumps else f"rows={str(len(rows)).encode().hex()}"
    yield from map(spelled, rows)


if __name__ == "__main__":
    print("\n".join(lines(read(*sys.argv[1:])[1], plain)))
