"""The errors of this package."""
import re
from typing import Optional

_HALF = re.compile("[\ud800-\udfff]")


def printable(text: str) -> str:
    """The text with U+FFFD in place of each half of a surrogate pair, which no terminal can be sent."""
    return _HALF.sub("\ufffd", text)


class Error(Exception):
    """What this package raises of its own: `QueryError`, `DocumentError`, `StepsUsedUp`, `TooManyNodes` or
    `TooManyBytes`."""


class QueryError(Error, ValueError):
    """A query that is refused.

    kind: the kind of refusal, as "Syntax". place: the byte of the query, in UTF-8, where it goes
    wrong, from 0. column: the same as an index of `query`. query: its text. sentence: why it is
    refused, in words; None of a query with half of a surrogate pair. suggestion: a query that is
    accepted, where it is plain what was meant, else None.
    """

    def __init__(
        self,
        kind: str,
        place: int,
        query: str,
        sentence: Optional[str] = None,
        suggestion: Optional[str] = None,
    ) -> None:
        super().__init__(kind, place, query, sentence, suggestion)
        self.kind = kind
        self.place = place
        self.query = query
        self.sentence = sentence
        self.suggestion = suggestion

    @property
    def column(self) -> int:
        before = self.query.encode("utf-8", "surrogatepass")[: self.place]
        return len(before.decode("utf-8", "surrogatepass"))

    def __str__(self) -> str:
        line = printable(self.query.replace("\n", " ").replace("\t", " ").replace("\r", " "))
        sentence = "" if self.sentence is None else f"\n{self.sentence}"
        suggestion = "" if self.suggestion is None else f"\nTry: {self.suggestion}"
        return f"query refused: {self.kind} at {self.place}\n{line}\n{' ' * self.column}^{sentence}{suggestion}"


class DocumentError(Error, ValueError):
    """A document that is refused.

    kind: what is wrong with it: "NotJson", "NumberRange", "NotWhole", "ListTooLong" or "DocumentTooLarge".
    path: of "NumberRange" the normalized path of the first number that is too much for a decimal, and of
    "NotWhole", where numbers are whole, of the first that is not a whole one of 64 bits; else None.
    offset: the byte of the document, in UTF-8, where it goes wrong, from 0. line and column: the same, in
    characters, both from 1. reason: the name of the reason, as "TrailingComma". sentence: the reason in
    words. These five are None of "DocumentTooLarge", of which nothing was read. suggestion: how a text is
    asked that looks like JSON Lines, else None.

    Of a Python object that can't be written as JSON, as one with NaN, kind is "NotJson" and sentence says
    why. path is that of the first such thing in it, unless that is too deep, and there is no text of which
    offset, line and column could tell.
    """

    def __init__(
        self,
        kind: str,
        path: Optional[str] = None,
        offset: Optional[int] = None,
        line: Optional[int] = None,
        column: Optional[int] = None,
        reason: Optional[str] = None,
        sentence: Optional[str] = None,
        suggestion: Optional[str] = None,
    ) -> None:
        super().__init__(kind, path, offset, line, column, reason, sentence, suggestion)
        self.kind = kind
        self.path = path
        self.offset = offset
        self.line = line
        self.column = column
        self.reason = reason
        self.sentence = sentence
        self.suggestion = suggestion

    def __str__(self) -> str:
        at = "" if self.path is None else f" at {printable(self.path)}"
        place = "" if self.line is None else f"line {self.line}, column {self.column}: "
        why = "" if self.sentence is None else f"\n{place}{self.sentence}"
        suggestion = "" if self.suggestion is None else f"\n{self.suggestion}"
        return f"document refused: {self.kind}{at}{why}{suggestion}"


class _BeyondLimit(Error):
    """A query that does or gives more over the document than its caller allows."""

    def __init__(self, limit: int, query: str) -> None:
        super().__init__(limit, query)
        self.limit = limit
        self.query = query


class StepsUsedUp(_BeyondLimit):
    """A query that needs more steps over the document than its caller allows.

    limit: how many are allowed. query: its text.
    """

    def __str__(self) -> str:
        return f"steps used up: the query needs more than {self.limit}"


class TooManyNodes(_BeyondLimit):
    """A query that selects more nodes of the document than its caller allows.

    limit: how many are allowed. query: its text.
    """

    def __str__(self) -> str:
        return f"too many nodes: the query selects more than {self.limit}"


class TooManyBytes(_BeyondLimit):
    """A query whose answer has more bytes than its caller allows.

    limit: how many are allowed. query: its text.
    """

    def __str__(self) -> str:
        return f"too many bytes: the answer has more than {self.limit}"


# What ends one of many queries, and none of the others.
QueryFault = (QueryError, _BeyondLimit)
