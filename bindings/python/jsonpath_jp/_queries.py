"""Queries over documents, as Python has them."""
import functools
import itertools
import operator
import os
from decimal import Decimal
from typing import Any, Iterable, Iterator, List, Mapping, Optional, Protocol, Sequence, Tuple, Union

from . import _engine, _numbers
from ._documents import Default, json_bytes
from ._errors import DocumentError, Error, QueryError, QueryFault
from ._kept import ALL, FIRST, Cursor, KeptDocument, KeptQuery, Span
from ._limits import ANY, Most
from ._paths import Step, pointer_of, steps_of
from ._profiles import Numbers, is_extended, numbers_of, profile_of
from ._values import Decimals, checked, value_of

# The values of so many matches are made together at most.
_LARGEST_PAGE = 64
# In characters: where lines are longer, what it takes to make values one by one is little beside the values.
_LONG_LINE = 1 << 10
# The values of so few matches take less one by one.
_FEW = 8


class Match:
    """A node that a query selects.

    path: its normalized path (RFC 9535, section 2.7). pointer: its JSON Pointer (RFC 6901). steps: the names and
    indexes of the path, from the root on. text: its value as compact JSON, in which each number is exact. value: its
    value as a Python object, made when it is first asked for, and kept: a whole number is an `int`, and another what
    `decimals` of the call makes of its text, or else a `float`.
    """

    # The path and the text are parted when one is asked for: most of what a call takes here is to make these.
    __slots__ = ("_line", "_page", "_at", "_steps", "_value")

    def __init__(self, path: str, text: str, decimals: Decimals = None) -> None:
        self._line = f"{path}\t{text}"
        self._page: Union[_Page, _Alone] = _alone(checked(decimals))

    @property
    def path(self) -> str:
        return self._line.partition("\t")[0]

    @property
    def text(self) -> str:
        return self._line.partition("\t")[2]

    @property
    def value(self) -> Any:
        try:
            return self._value
        except AttributeError:
            page = self._page
        self._value = page.value(self)
        # The texts of the page are no longer needed.
        self._page = page.alone
        return self._value

    @property
    def steps(self) -> List[Step]:
        try:
            return self._steps
        except AttributeError:
            self._steps = steps_of(self.path)
        return self._steps

    @property
    def pointer(self) -> str:
        return pointer_of(self.steps)

    @property
    def full_path(self) -> str:
        """The path, by the name that jsonpath-ng has for it."""
        return self.path

    def __repr__(self) -> str:
        return f"Match({self.path!r}, {self.text!r})"

    def __eq__(self, other: object) -> bool:
        if not isinstance(other, Match):
            return NotImplemented
        return self._line == other._line

    def __hash__(self) -> int:
        return hash(self._line)

    def __reduce__(self) -> Tuple[Any, ...]:
        return Match, (self.path, self.text, self._page.alone.decimals)


class _Page:
    """Some matches that stand beside one another in an answer. Their values are made together when the first of them is
    asked for."""

    __slots__ = ("alone", "_lines", "_values")

    def __init__(self, lines: List[str], alone: "_Alone") -> None:
        self.alone = alone
        self._lines = lines
        self._values: Optional[List[Any]] = None

    def value(self, match: Match) -> Any:
        if self._values is None:
            texts = [line.partition("\t")[2] for line in self._lines]
            self._values = value_of(f"[{','.join(texts)}]", self.alone.decimals)
        return self._values[match._at]


class _Alone:
    """In place of a page, where the value of a match is made by itself."""

    __slots__ = ("decimals",)

    def __init__(self, decimals: Decimals) -> None:
        self.decimals = decimals

    @property
    def alone(self) -> "_Alone":
        return self

    def value(self, match: Match) -> Any:
        return value_of(match.text, self.decimals)


_ALONE = _Alone(None)


def _alone(decimals: Decimals) -> _Alone:
    return _ALONE if decimals is None else _Alone(decimals)


class Query:
    """A query that is accepted, read once and kept by the engine. It can be asked of any number of documents,
    from any threads at once. Queries are equal where their texts are, whether they may call `distinct`, and which
    numbers they and their documents have.

    Each call takes a document, a limit of steps, what `json.dumps` takes as `default`, for a document that is a
    Python object, the most nodes and bytes of an answer, and where it gives values as `decimals` what `json.loads`
    takes as `parse_float`, for numbers that are not whole.
    """

    __slots__ = ("_kept", "__weakref__")

    def __init__(self, text: str, extended: bool = False, numbers: Numbers = "decimal") -> None:
        self._kept = KeptQuery(_query(text), profile_of(extended, numbers))

    @property
    def text(self) -> str:
        return self._kept.text

    @property
    def extended(self) -> bool:
        return is_extended(self._kept.profile)

    @property
    def numbers(self) -> Numbers:
        return numbers_of(self._kept.profile)

    def find(
        self, document: "Asked", limit: Optional[int] = None, default: Default = None,
        *, max_nodes: Optional[int] = None, max_bytes: Optional[int] = None, decimals: Decimals = None,
    ) -> List["Match"]:
        """The nodes that the query selects, in the order of RFC 9535; one that is selected twice stands
        there twice. Raises `DocumentError`, and where there is a limit and the query goes beyond it
        `StepsUsedUp`, `TooManyNodes` or `TooManyBytes`."""
        alone = _alone(checked(decimals))
        return _matches(self._asked(document, _numbers.BOTH, ALL, default, limit, max_nodes, max_bytes), alone)

    def find_one(
        self, document: "Asked", limit: Optional[int] = None, default: Default = None,
        *, max_nodes: Optional[int] = None, max_bytes: Optional[int] = None, decimals: Decimals = None,
    ) -> Optional["Match"]:
        """The first of the nodes that `find` gives, or None. The evaluation ends with it."""
        alone = _alone(checked(decimals))
        text = self._asked(document, _numbers.BOTH, FIRST, default, limit, max_nodes, max_bytes)
        return _match(text[:-1], alone) if text else None

    def finditer(
        self, document: "Asked", limit: Optional[int] = None, default: Default = None, *, decimals: Decimals = None
    ) -> Iterator["Match"]:
        """The nodes that `find` gives, looked for as they are asked for: the first is found without the others,
        in pages. The document is read at once, and kept as long as the iterator.
        Where all nodes need more steps than the limit some of the first may be given, and then `StepsUsedUp`
        is raised. There is no other limit."""
        most, default, alone = _most(limit, None, None), _default(default), _alone(checked(decimals))
        if isinstance(document, Document):
            return _each(self._kept, document._kept, most, alone)
        return _each(self._kept, KeptDocument(json_bytes(document, default), self._kept.profile), most, alone)

    def paths(
        self, document: "Asked", limit: Optional[int] = None, default: Default = None,
        *, max_nodes: Optional[int] = None, max_bytes: Optional[int] = None,
    ) -> List[str]:
        """The normalized paths of the nodes that `find` gives."""
        return _lines(self._asked(document, _numbers.PATHS, ALL, default, limit, max_nodes, max_bytes))

    def values(
        self, document: "Asked", limit: Optional[int] = None, default: Default = None,
        *, max_nodes: Optional[int] = None, max_bytes: Optional[int] = None, decimals: Decimals = None,
    ) -> List[Any]:
        """The values of the nodes that `find` gives, as Python objects."""
        decimals = checked(decimals)
        return _values(self._asked(document, _numbers.VALUES, ALL, default, limit, max_nodes, max_bytes), decimals)

    def exists(
        self, document: "Asked", limit: Optional[int] = None, default: Default = None,
        *, max_nodes: Optional[int] = None, max_bytes: Optional[int] = None,
    ) -> bool:
        """Whether the query selects a node. The evaluation ends with the first."""
        return self._asked(document, _numbers.PATHS, FIRST, default, limit, max_nodes, max_bytes) != ""

    def _asked(
        self, document: "Asked", form: int, span: Span, default: Default,
        limit: Optional[int], max_nodes: Optional[int], max_bytes: Optional[int],
    ) -> str:
        if limit is max_nodes is max_bytes is None:
            most = ANY
        else:
            most = _most(limit, max_nodes, max_bytes)
        if default is not None:
            default = _default(default)
        if isinstance(document, Document):
            return self._kept.ask(document._kept, form, span, most)
        return self._kept.ask(json_bytes(document, default), form, span, most)

    def __str__(self) -> str:
        return self.text

    def __repr__(self) -> str:
        return f"Query({self.text!r}, extended={self.extended}, numbers={self.numbers!r})"

    def __eq__(self, other: object) -> bool:
        if not isinstance(other, Query):
            return NotImplemented
        return (self.text, self._kept.profile) == (other.text, other._kept.profile)

    def __hash__(self) -> int:
        return hash((self.text, self._kept.profile))

    def __reduce__(self) -> Tuple[Any, ...]:
        return Query, (self.text, self.extended, self.numbers)


class Document:
    """A document that is read once and kept by the engine, with its text. Any number of queries can be asked
    of it, from any threads; of calls at once over one document each waits for the one before.

    Each call takes a `Query`, or a query's text, which has the numbers of the document, and of which the last 64 are
    kept with what was read of them. A `Query` with other numbers is a `ValueError`. Raises `DocumentError` where it
    is refused.
    """

    __slots__ = ("_kept", "__weakref__")

    def __init__(self, document: "Asked", default: Default = None, numbers: Numbers = "decimal") -> None:
        profile = profile_of(False, numbers)
        self._kept = KeptDocument(json_bytes(document, _default(default)), profile)

    @property
    def text(self) -> bytes:
        """The JSON text from which it was read, in UTF-8."""
        return self._kept.text

    @property
    def numbers(self) -> Numbers:
        return numbers_of(self._kept.profile)

    def find(
        self, query: "Asking", extended: bool = False, limit: Optional[int] = None,
        *, max_nodes: Optional[int] = None, max_bytes: Optional[int] = None, decimals: Decimals = None,
    ) -> List["Match"]:
        """What `Query.find` gives. Raises `QueryError`, where a text is refused, and the errors of its limits."""
        asked = self._asked_by(query, extended)
        return asked.find(self, limit, max_nodes=max_nodes, max_bytes=max_bytes, decimals=decimals)

    def find_one(
        self, query: "Asking", extended: bool = False, limit: Optional[int] = None,
        *, max_nodes: Optional[int] = None, max_bytes: Optional[int] = None, decimals: Decimals = None,
    ) -> Optional["Match"]:
        """What `Query.find_one` gives. Raises `QueryError`, where a text is refused, and the errors of its limits."""
        asked = self._asked_by(query, extended)
        return asked.find_one(self, limit, max_nodes=max_nodes, max_bytes=max_bytes, decimals=decimals)

    def finditer(
        self, query: "Asking", extended: bool = False, limit: Optional[int] = None, *, decimals: Decimals = None
    ) -> Iterator["Match"]:
        """What `Query.finditer` gives. Raises `QueryError`, where a text is refused, and `StepsUsedUp`."""
        return self._asked_by(query, extended).finditer(self, limit, decimals=decimals)

    def paths(
        self, query: "Asking", extended: bool = False, limit: Optional[int] = None,
        *, max_nodes: Optional[int] = None, max_bytes: Optional[int] = None,
    ) -> List[str]:
        """What `Query.paths` gives. Raises `QueryError`, where a text is refused, and the errors of its limits."""
        return self._asked_by(query, extended).paths(self, limit, max_nodes=max_nodes, max_bytes=max_bytes)

    def values(
        self, query: "Asking", extended: bool = False, limit: Optional[int] = None,
        *, max_nodes: Optional[int] = None, max_bytes: Optional[int] = None, decimals: Decimals = None,
    ) -> List[Any]:
        """What `Query.values` gives. Raises `QueryError`, where a text is refused, and the errors of its limits."""
        asked = self._asked_by(query, extended)
        return asked.values(self, limit, max_nodes=max_nodes, max_bytes=max_bytes, decimals=decimals)

    def exists(
        self, query: "Asking", extended: bool = False, limit: Optional[int] = None,
        *, max_nodes: Optional[int] = None, max_bytes: Optional[int] = None,
    ) -> bool:
        """What `Query.exists` gives. Raises `QueryError`, where a text is refused, and the errors of its limits."""
        return self._asked_by(query, extended).exists(self, limit, max_nodes=max_nodes, max_bytes=max_bytes)

    def _asked_by(self, query: "Asking", extended: bool) -> Query:
        return _compiled(query, profile_of(extended, self.numbers))

    def __repr__(self) -> str:
        return f"<Document of {len(self.text)} bytes>"

    def __reduce__(self) -> Tuple[Any, ...]:
        return Document, (self.text, None, self.numbers)


class _Readable(Protocol):
    def read(self) -> Any:
        """All of a file, as `str` or `bytes`."""


# A `str` or `bytes` is JSON text, a path object names a file, and what can be read is one; a `Document` is kept, and
# anything else is written as JSON.
Asked = Union[
    str, bytes, bytearray, memoryview, "os.PathLike[str]", "os.PathLike[bytes]", _Readable,
    Mapping[Any, Any], Sequence[Any], int, float, Decimal, None, Document,
]
Asking = Union[str, Query]


def compile(query: str, extended: bool = False, numbers: Numbers = "decimal") -> Query:
    """The query, to be asked of documents. Raises `QueryError` where it is not accepted."""
    return Query(query, extended, numbers)


def parse(query: str, extended: bool = False, numbers: Numbers = "decimal") -> Query:
    """What `compile` gives, by the name that jsonpath-ng has for it."""
    return Query(query, extended, numbers)


def find(
    query: Asking,
    document: Asked,
    extended: bool = False,
    limit: Optional[int] = None,
    default: Default = None,
    *,
    max_nodes: Optional[int] = None,
    max_bytes: Optional[int] = None,
    numbers: Numbers = "decimal",
    decimals: Decimals = None,
) -> List[Match]:
    """The nodes that the query selects, in the order of RFC 9535; one that is selected twice stands
    there twice. Raises `QueryError` or `DocumentError`, the query's first, and where there is a limit and
    the query goes beyond it `StepsUsedUp`, `TooManyNodes` or `TooManyBytes`.

    A `Query` has its own `extended` and `numbers`, whatever these are here. A `Document` is asked with the
    `numbers` with which it was read; else `ValueError` is raised."""
    profile, alone = profile_of(extended, numbers), _alone(checked(decimals))
    return _matches(_answer(query, document, _numbers.BOTH, profile, default, limit, max_nodes, max_bytes), alone)


def find_one(
    query: Asking,
    document: Asked,
    extended: bool = False,
    limit: Optional[int] = None,
    default: Default = None,
    *,
    max_nodes: Optional[int] = None,
    max_bytes: Optional[int] = None,
    numbers: Numbers = "decimal",
    decimals: Decimals = None,
) -> Optional[Match]:
    """The first of the nodes that `find` gives, or None. The evaluation ends with it."""
    kept = _new(query, document, profile_of(extended, numbers))
    return kept.find_one(document, limit, default, max_nodes=max_nodes, max_bytes=max_bytes, decimals=decimals)


def finditer(
    query: Asking,
    document: Asked,
    extended: bool = False,
    limit: Optional[int] = None,
    default: Default = None,
    *,
    numbers: Numbers = "decimal",
    decimals: Decimals = None,
) -> Iterator[Match]:
    """The nodes that `find` gives, looked for as they are asked for, as `Query.finditer` does."""
    kept = _new(query, document, profile_of(extended, numbers))
    return kept.finditer(document, limit, default, decimals=decimals)


def find_many(
    queries: Iterable[Asking],
    document: Asked,
    extended: bool = False,
    limit: Optional[int] = None,
    default: Default = None,
    *,
    max_nodes: Optional[int] = None,
    max_bytes: Optional[int] = None,
    numbers: Numbers = "decimal",
    decimals: Decimals = None,
) -> List[Union[List[Match], Error]]:
    """What `find` gives for each query, over one document, each with the whole limits. A query that is
    refused, or goes beyond a limit, has its error in the list, and ends nothing. Raises
    `DocumentError` where a query that is accepted is asked of what is no document, and where an object
    is none."""
    if isinstance(queries, (str, Query)):
        raise TypeError("find_many takes many queries, as a list, and not one: find(query, document)")
    profile, alone = profile_of(extended, numbers), _alone(checked(decimals))
    most, default = _most(limit, max_nodes, max_bytes), _default(default)
    if isinstance(document, Document):
        answers = [_lines_or_error(query, document._kept, profile, most) for query in queries]
    else:
        answers = _many_answers(list(queries), document, profile, default, most)
    return [_matches(answer, alone) if isinstance(answer, str) else answer for answer in answers]


def paths(
    query: Asking,
    document: Asked,
    extended: bool = False,
    limit: Optional[int] = None,
    default: Default = None,
    *,
    max_nodes: Optional[int] = None,
    max_bytes: Optional[int] = None,
    numbers: Numbers = "decimal",
) -> List[str]:
    """The normalized paths of the nodes that `find` gives."""
    profile = profile_of(extended, numbers)
    return _lines(_answer(query, document, _numbers.PATHS, profile, default, limit, max_nodes, max_bytes))


def values(
    query: Asking,
    document: Asked,
    extended: bool = False,
    limit: Optional[int] = None,
    default: Default = None,
    *,
    max_nodes: Optional[int] = None,
    max_bytes: Optional[int] = None,
    numbers: Numbers = "decimal",
    decimals: Decimals = None,
) -> List[Any]:
    """The values of the nodes that `find` gives, as Python objects."""
    profile, decimals = profile_of(extended, numbers), checked(decimals)
    return _values(_answer(query, document, _numbers.VALUES, profile, default, limit, max_nodes, max_bytes), decimals)


def exists(
    query: Asking,
    document: Asked,
    extended: bool = False,
    limit: Optional[int] = None,
    default: Default = None,
    *,
    max_nodes: Optional[int] = None,
    max_bytes: Optional[int] = None,
    numbers: Numbers = "decimal",
) -> bool:
    """Whether the query selects a node. The evaluation ends with the first."""
    kept = _new(query, document, profile_of(extended, numbers))
    return kept.exists(document, limit, default, max_nodes=max_nodes, max_bytes=max_bytes)


def canonical(query: str, extended: bool = False, numbers: Numbers = "decimal") -> str:
    """The canonical text of the query: equal for equal queries, however they are spelled. Raises
    `QueryError`."""
    return _engine.canonical(_query(query), profile_of(extended, numbers))


def check(query: str, extended: bool = False, numbers: Numbers = "decimal") -> None:
    """Raises `QueryError` where the query is not accepted."""
    _engine.check(_query(query), profile_of(extended, numbers))


def _answer(
    query: Asking, document: Asked, form: int, profile: int, default: Default,
    limit: Optional[int], max_nodes: Optional[int], max_bytes: Optional[int],
) -> str:
    """The lines of all nodes."""
    if isinstance(query, Query) or isinstance(document, Document):
        kept = _compiled(query, profile)
        return kept._asked(document, form, ALL, default, limit, max_nodes, max_bytes)
    most, text = _most(limit, max_nodes, max_bytes), _query(query)
    default = _default(default)
    try:
        return _engine.evaluate(text, json_bytes(document, default), form, profile, most)
    except DocumentError:
        # Of an object that is no JSON the engine was not asked, and the query is told of first.
        _engine.check(text, profile)
        raise
    except QueryError as fault:
        raise _in_order(fault, document) from None


def _in_order(fault: QueryError, document: Asked) -> QueryError:
    """The error, which says so where the document looks like the query."""
    start = {str: "$", bytes: b"$"}.get(type(document))
    if fault.place != 0 or start is None or not document.startswith(start):
        return fault
    sentence = f"{fault.sentence} The query comes before the document."
    return QueryError(fault.kind, fault.place, fault.query, sentence)


def _many_answers(
    queries: List[Asking], document: Asked, profile: int, default: Default, most: Most
) -> List[Union[str, Error]]:
    """The lines of each query over a document that is not kept, or its error."""
    alike = [_query(query) for query in queries if not _is_of_other(query, profile)]
    text = json_bytes(document, default)
    answers = iter(_engine.evaluate_many(alike, text, _numbers.BOTH, profile, most))
    return [
        _lines_or_error(query, text, profile, most) if _is_of_other(query, profile) else next(answers)
        for query in queries
    ]


def _is_of_other(query: Asking, profile: int) -> bool:
    """Whether the query is kept in another profile."""
    return isinstance(query, Query) and query._kept.profile != profile


def _lines_or_error(
    query: Asking, document: Union[bytes, KeptDocument], profile: int, most: Most
) -> Union[str, Error]:
    try:
        return _compiled(query, profile)._kept.ask(document, _numbers.BOTH, ALL, most)
    except QueryFault as fault:
        return fault


def _new(query: Asking, document: Asked, profile: int) -> Query:
    try:
        return query if isinstance(query, Query) else Query(query, is_extended(profile), numbers_of(profile))
    except QueryError as fault:
        raise _in_order(fault, document) from None


def _compiled(query: Asking, profile: int) -> Query:
    """The query, which may be kept of a call before."""
    return query if isinstance(query, Query) else _compiled_text(_query(query), profile)


@functools.lru_cache(maxsize=64)
def _compiled_text(text: str, profile: int) -> Query:
    return Query(text, is_extended(profile), numbers_of(profile))


def _match(line: str, alone: _Alone) -> Match:
    match = _bare(Match)
    match._line, match._page = line, alone
    return match


_bare = object.__new__


def _matches(text: str, alone: _Alone) -> List[Match]:
    lines = _lines(text)
    return list(_matches_of(lines, len(lines), len(text), alone))


def _matches_of(lines: Iterable[str], count: int, size: int, alone: _Alone) -> Iterator[Match]:
    """A match for each of so many lines of so many characters in all, which are taken as matches are asked for: by some
    at once, unless they are few or long."""
    if count <= _FEW or size > _LONG_LINE * count:
        yield from map(_match, lines, itertools.repeat(alone))
        return
    rest, most = iter(lines), 1
    # Who asks for the first value alone waits for that one.
    while page := list(itertools.islice(rest, most)):
        yield from _page_of(page, alone)
        most = min(2 * most, _LARGEST_PAGE)


def _page_of(lines: List[str], alone: _Alone) -> List[Match]:
    page, matches = _Page(lines, alone), []
    for at, line in enumerate(lines):
        # As `_match`, which would cost as much again to call.
        match = _bare(Match)
        match._line, match._page, match._at = line, page, at
        matches.append(match)
    return matches


def _lines(text: str) -> List[str]:
    # Each line ends with a newline, which no path and no value has inside.
    return text.split("\n")[:-1]


def _each(query: KeptQuery, document: KeptDocument, most: Most, alone: _Alone) -> Iterator[Match]:
    """The nodes, page by page."""
    cursor = Cursor()
    lines = query.ask(document, _numbers.BOTH, cursor, most)
    while lines:
        yield from _matches_of(_each_line(lines), lines.count("\n"), len(lines), alone)
        lines = query.ask(document, _numbers.BOTH, cursor, most)


def _each_line(text: str) -> Iterator[str]:
    start = 0
    while start < len(text):
        end = text.index("\n", start)
        yield text[start:end]
        start = end + 1


def _values(text: str, decimals: Decimals) -> List[Any]:
    values: List[Any] = value_of(f"[{text[:-1]}]".replace("\n", ","), decimals)
    return values


def _query(query: object) -> str:
    if isinstance(query, str):
        return query
    if isinstance(query, Query):
        return query.text
    raise TypeError(f"a query is a str, and no {type(query).__name__}; it comes before the document")


def _most(limit: Optional[int], max_nodes: Optional[int], max_bytes: Optional[int]) -> Most:
    if limit is max_nodes is max_bytes is None:
        return ANY
    return Most(_number(limit, "steps"), _number(max_nodes, "nodes"), _number(max_bytes, "bytes"))


def _number(limit: Optional[int], what: str) -> Optional[int]:
    if limit is None:
        return None
    try:
        number = operator.index(limit)
    except TypeError:
        raise TypeError(f"a limit is a number of {what}, and no {type(limit).__name__}") from None
    if not 0 < number < 1 << 64:
        raise ValueError(f"a limit is a number of {what}, from 1 to 2**64 - 1")
    return number


def _default(default: Default) -> Default:
    if default is not None and not callable(default):
        name = type(default).__name__
        raise TypeError(f"default is a function for objects of other types, as json.dumps has it, and no {name}")
    return default
