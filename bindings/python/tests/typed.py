"""What the types let through, and what they refuse. test_types.py has mypy check it, and nothing runs it."""
import pathlib
from decimal import Decimal
from typing import Any, Dict, Iterator, List, Mapping, Optional, Sequence, TypedDict, Union

import jsonpath_jp as jp


class Book(TypedDict):
    title: str
    price: int


def each_document(
    mapping: Mapping[str, object], sequence: Sequence[int], book: Book, objects: Dict[str, Any], books: List[Book]
) -> List[jp.Match]:
    with open("a.json", "rb") as binary, open("a.json", encoding="utf-8") as text:
        return [
            *jp.find("$", mapping), *jp.find("$", sequence), *jp.find("$", book), *jp.find("$", objects),
            *jp.find("$", books), *jp.find("$", "1"), *jp.find("$", b"1"), *jp.find("$", (1, None)), *jp.find("$", 1.5),
            *jp.find("$", True), *jp.find("$", None), *jp.find("$", pathlib.Path("a.json")), *jp.find("$", binary),
            *jp.find("$", text), *jp.find("$", jp.Document(book)), *jp.find("$", Decimal(1)), *jp.find("$", [Decimal(1)]),
        ]


def each_call(query: jp.Query, document: jp.Document, book: Book) -> None:
    found: List[jp.Match] = query.find(book, limit=1, max_nodes=2, max_bytes=3)
    first: Optional[jp.Match] = query.find_one(book)
    each: Iterator[jp.Match] = query.finditer(document)
    paths: List[str] = document.paths("$", extended=True)
    values: List[Any] = document.values(query)
    is_there: bool = document.exists(query)
    many: List[Union[List[jp.Match], jp.Error]] = jp.find_many(["$", query], book, default=str)
    texts: List[str] = [jp.canonical("$"), jp.version(), query.text, *(match.pointer for match in found)]
    steps: List[Union[str, int]] = found[0].steps
    print(first, each, paths, values, is_there, many, texts, steps)


def each_kind_of_numbers(book: Book) -> None:
    query, document = jp.compile("$", numbers="whole"), jp.Document(book, numbers="decimal")
    numbers: List[str] = [query.numbers, document.numbers]
    exact: List[Any] = [*jp.values("$", "8.95", decimals=Decimal), *document.values("$", decimals=float)]
    found: List[jp.Match] = jp.find("$", book, numbers="whole", decimals=lambda text: [text])
    first: Optional[jp.Match] = jp.find_one("$", book, numbers="decimal", decimals=str)
    each: Iterator[jp.Match] = query.finditer(book, decimals=Decimal)
    is_there: bool = jp.exists("$", book, numbers="whole")
    print(numbers, exact, found, first, each, is_there, jp.canonical("$", numbers="whole"))


def errors(fault: Exception) -> None:
    if isinstance(fault, jp.QueryError):
        place: int = fault.place
        suggestion: Optional[str] = fault.suggestion
        print(fault.kind, place, suggestion)
    elif isinstance(fault, jp.DocumentError):
        line: Optional[int] = fault.line
        told: Optional[str] = fault.suggestion
        print(fault.kind, line, told)


jp.find({"a": 1}, "$.a")  # type: ignore[arg-type]
jp.find("$", {1, 2})  # type: ignore[arg-type]
jp.find("$", "1", limit="1")  # type: ignore[arg-type]
jp.finditer("$", "1", max_nodes=1)  # type: ignore[call-arg]
jp.find("$", "1", numbers="float")  # type: ignore[arg-type]
jp.values("$", "1", decimals="float")  # type: ignore[arg-type]
jp.paths("$", "1", decimals=Decimal)  # type: ignore[call-arg]
jp.compile("$").text = "$"  # type: ignore[misc]
