"""JSONPath queries (RFC 9535) over JSON documents, by the proved engine jp.

    >>> import jsonpath_jp as jp
    >>> jp.values("$..price", '{"a":[{"price":8.95},{"price":12}]}')
    [8.95, 12]
    >>> jp.paths("$.a[-1]", {"a": [1, 2]})
    ["$['a'][1]"]
    >>> [(match.pointer, match.value) for match in jp.find("$.a[-1]", {"a": [1, 2]})]
    [('/a/1', 2)]

A query that is asked more than once is kept, and so is a document:

    >>> query, document = jp.compile("$..price"), jp.Document('{"a":[{"price":9},{"price":12}]}')
    >>> query.values({"price": 7}), query.values(document), document.exists("$.b")
    ([7], [9, 12], False)
    >>> query.find_one(document).steps
    ['a', 0, 'price']

A document is JSON text, as `str` or `bytes`, a file that is open or named by a path object, or a Python object,
which is written as JSON first. Its numbers, and those of the query, are exact decimals of at most 38 digits, so 0.1 is
0.10 and no other number; the text of a match has each exactly. A value is an `int` where it is whole, and else a `float`,
or what `decimals` makes of its text:

    >>> from decimal import Decimal
    >>> jp.values("$[?@>0.1]", "[0.1, 0.10, 0.25, 3.0]", decimals=Decimal)
    [Decimal('0.25'), 3]

With `numbers="whole"` all of them are whole numbers of 64 bits, as for the program `jp`, and a document with another
one is refused. `extended=True` lets a query call `distinct`, which RFC 9535 does not have.

Some queries take years over a document of a few bytes. `limit=1_000_000` lets a query make at most a
million steps over the document, and raises `StepsUsedUp` where it needs more. Without a limit a query
goes on until it is answered, or Ctrl-C is pressed. `max_nodes` and `max_bytes` bound the answer, and raise
`TooManyNodes` and `TooManyBytes`.

    >>> jp.values("$[?@>1]", [1, 2], limit=100, max_nodes=10)
    [2]

Any thread may make any call, at the same time as others; Python's lock is given up meanwhile.
"""
from ._errors import DocumentError, Error, QueryError, StepsUsedUp, TooManyBytes, TooManyNodes
from ._library import version
from ._queries import (
    Document,
    Match,
    Query,
    canonical,
    check,
    compile,
    exists,
    find,
    find_many,
    find_one,
    finditer,
    parse,
    paths,
    values,
)

__version__ = version()

__all__ = [
    "Document",
    "DocumentError",
    "Error",
    "Match",
    "Query",
    "QueryError",
    "StepsUsedUp",
    "TooManyBytes",
    "TooManyNodes",
    "canonical",
    "check",
    "compile",
    "exists",
    "find",
    "find_many",
    "find_one",
    "finditer",
    "parse",
    "paths",
    "values",
    "version",
]
