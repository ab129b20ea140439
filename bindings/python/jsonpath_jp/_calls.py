"""What one call of libjp.so gives, in Python's words: a text, or an error."""
import ctypes
import functools
from typing import Any, Callable, Dict, List, Optional, Tuple, Union

from . import _numbers
from ._errors import DocumentError, QueryError, StepsUsedUp, TooManyBytes, TooManyNodes
from ._library import Place, Report, library
from ._limits import ANY, LARGEST_AT_ONCE, Most
from ._profiles import numbers_of
from ._threads import on_a_thread, waited_for

_NO_MEMORY_TEXT = "jp ran out of memory"
_FIRST_ROOM = 1 << 12
# What takes more bytes than these is not kept from call to call.
LARGEST_KEPT = 1 << 20


class NoStack(Exception):
    """A call that needs more stack than its thread has left, and has done nothing."""


def with_room(function: Callable[..., Any]) -> Callable[..., Any]:
    """The function, called once more on a thread that has room where a call in it needs more stack."""

    @functools.wraps(function)
    def on_either(*arguments):
        try:
            return function(*arguments)
        except NoStack:
            pass
        return on_a_thread(function, *arguments)

    return on_either


def reading(size: int, function: Callable[..., Any], *arguments: Any) -> Any:
    """What the function gives or raises, which reads texts of so many bytes together: called on a thread of its own
    where these are many, so that an interrupt does not wait for it."""
    if size > LARGEST_AT_ONCE:
        return waited_for(function, *arguments)
    return function(*arguments)


class Room:
    """What a call writes to."""

    def __init__(self, size: int) -> None:
        self.size = size
        self.buffer = ctypes.create_string_buffer(size)
        self.report = Report()
        self.arguments = (self.buffer, size, ctypes.byref(self.report))


# Rooms that no call uses. Taking one out and giving it back is one step each, so neither threads nor
# signals come between.
_spare_rooms: List[Room] = []


def take_room() -> Room:
    try:
        return _spare_rooms.pop()
    except IndexError:
        return Room(_FIRST_ROOM)


def give_back(room: Room) -> None:
    if room.size <= LARGEST_KEPT:
        _spare_rooms.append(room)


def told(call, *arguments) -> Tuple[Report, str]:
    """The report of a call, and the text that it writes. Where the buffer has too little room for the
    text the call is made again."""
    room = take_room()
    call(*arguments, *room.arguments)
    if room.report.length > room.size:
        room = Room(room.report.length)
        call(*arguments, *room.arguments)
    report = Report.from_buffer_copy(room.report)
    if report.status == _numbers.NO_STACK:
        raise NoStack
    text = ctypes.string_at(room.buffer, report.length).decode()
    give_back(room)
    return report, text


def answer_of(
    call, query: str, profile: int, *arguments, document: Optional[bytes] = None, most: Most = ANY
) -> Union[str, Exception]:
    """The text that a call writes, or the error in its place. Of a document that is refused that tells
    where and why, if it is given."""
    report, text = told(call, *arguments)
    fault = refusal(report, query, profile, text, document, most) if report.status else None
    return text if fault is None else fault


def raised(answer: Union[str, Exception]) -> str:
    """The text, or raises the error."""
    if isinstance(answer, Exception):
        raise answer
    return answer


def accepted(call, query: str, profile: int, *arguments) -> None:
    """Raises the error of a call that writes no text."""
    report = Report()
    call(*arguments, report)
    fault = refusal(report, query, profile, "")
    if fault is not None:
        raise fault


def refusal(
    report: Report, query: str, profile: int, text: str, document: Optional[bytes] = None, most: Most = ANY
) -> Optional[Exception]:
    """The error that a report tells of."""
    beyond = _BEYOND.get(report.status)
    if beyond is not None:
        fault, number = beyond
        return fault(most[number], query)
    if report.status == _numbers.QUERY_REFUSED:
        parts = (_part(query, profile, part) for part in (_numbers.SENTENCE, _numbers.SUGGESTION))
        return QueryError(_kind_name(_numbers.QUERY_REFUSED, report.kind), report.place, query, *parts)
    if report.status == _numbers.DOCUMENT_REFUSED:
        misreading = () if document is None else _misreading(document, profile)
        return DocumentError(
            _kind_name(_numbers.DOCUMENT_REFUSED, report.kind), text or None, *misreading
        )
    if report.status == _numbers.NO_MEMORY:
        return MemoryError(_NO_MEMORY_TEXT)
    if report.status == _numbers.NO_STACK:
        raise NoStack
    return _other_numbers(profile) if report.status == _numbers.OTHER_NUMBERS else None


def _other_numbers(profile: int) -> ValueError:
    """The error of a query of the profile over a document that was read with the other numbers."""
    asked = numbers_of(profile)
    read = "whole" if asked == "decimal" else "decimal"
    return ValueError(
        f"the document is kept with numbers={read!r}, and the query has numbers={asked!r}: give both the same"
    )


# The errors of a limit, each with where that stands among the others.
_BEYOND = {
    _numbers.STEPS_USED_UP: (StepsUsedUp, 0),
    _numbers.TOO_MANY_NODES: (TooManyNodes, 1),
    _numbers.TOO_MANY_BYTES: (TooManyBytes, 2),
}


@functools.lru_cache(maxsize=None)
def _kind_name(status: int, kind: int) -> str:
    report, name = told(library.jp_kind_name, status, kind)
    if report.status == _numbers.NO_MEMORY:
        raise MemoryError(_NO_MEMORY_TEXT)
    return name


def _part(query: str, profile: int, part: int) -> Optional[str]:
    """A part of why the query is refused, or None where nothing is told."""
    text = encoded(query)
    return told(library.jp_explain, text, len(text), profile, part)[1] or None


def _misreading(document: bytes, profile: int) -> Tuple[Any, ...]:
    """Where a document that is refused goes wrong, the name of the reason, the sentence for it, and a suggestion or
    None; nothing of one that is too large to be read."""
    place = Place()
    reason = _part_of_misreading(document, profile, _numbers.DOCUMENT_REASON, place)
    if reason is None:
        return ()
    # The sentence goes by the reason alone, so it is asked for once.
    if reason not in _sentences:
        _sentences[reason] = _part_of_misreading(document, profile, _numbers.DOCUMENT_SENTENCE, place)
    suggestion = _BY_LINES if reason == "AfterValue" and _is_of_lines(document[: place.offset]) else None
    return place.offset, place.line, place.column, reason, _sentences[reason], suggestion


_sentences: Dict[str, Optional[str]] = {}

_BY_LINES = "Where each line is a document (JSON Lines), ask one after another: for line in file: query.find(line)"


def _is_of_lines(before: bytes) -> bool:
    """Whether all that stands before what is wrong is a value on one line, and the end of that line."""
    return before.rstrip(b" \t").endswith(b"\n") and b"\n" not in before.strip()


def _part_of_misreading(document: bytes, profile: int, part: int, place: Place) -> Optional[str]:
    report, text = told(library.jp_explain_document, document, len(document), profile, part, place)
    if report.status == _numbers.NO_MEMORY:
        raise MemoryError(_NO_MEMORY_TEXT)
    return text if report.status == _numbers.DONE else None


def encoded(query: str) -> bytes:
    # Half of a surrogate pair becomes bytes that are no UTF-8, and so the query is refused there.
    return query.encode("utf-8", "surrogatepass")
