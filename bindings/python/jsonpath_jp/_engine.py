"""Queries that are read for one call."""
import ctypes
from typing import List, Sequence, Union

from . import _limits
from ._calls import Room, accepted, answer_of, encoded, give_back, raised, reading, refusal, take_room, with_room
from ._errors import Error, QueryFault
from ._kept import ALL, KeptDocument, KeptQuery
from ._library import Question, library
from ._limits import LARGEST_AT_ONCE, Most, Run, first_run, is_short, run_of
from ._threads import is_left, waited_for

# The least steps of the first runs of many queries, which have as many together as that of one. Of bytes each has
# so many times these.
_LEAST_RUN = 1 << 10
_BYTES_A_STEP = 64

Answers = List[Union[str, Error]]


def evaluate(query: str, document: bytes, form: int, profile: int, most: Most) -> str:
    """The lines of the nodes that the query selects in the document."""
    return reading(len(query) + len(document), _evaluate, query, document, form, profile, most)


@with_room
def _evaluate(query: str, document: bytes, form: int, profile: int, most: Most) -> str:
    if len(document) > LARGEST_AT_ONCE:
        return KeptQuery(query, profile).ask(document, form, ALL, most)
    text, run = encoded(query), run_of(most, _limits.FIRST_RUN, _limits.FIRST_BYTES)
    arguments = (text, len(text), document, len(document), form, profile, run.limit)
    answer = answer_of(library.jp_eval, query, profile, *arguments, document=document, most=run.most)
    if is_short(answer, most):
        answer = waited_for(_evaluate_longer, query, document, form, profile, most)
    return raised(answer)


def _evaluate_longer(query, document, form, profile, most) -> Union[str, Exception]:
    return KeptQuery(query, profile).go_on(document, form, ALL, most, _limits.FIRST_RUN)


def evaluate_many(queries: Sequence[str], document: bytes, form: int, profile: int, most: Most) -> Answers:
    """What `evaluate` answers for each query, with the error in place of the text of one that is
    refused or goes beyond a limit. The document's errors are raised."""
    # Steps count as bytes here: of either a call has as many on its caller's thread.
    size = len(document) + sum(len(query) + _LEAST_RUN for query in queries)
    return reading(size, _evaluate_many, queries, document, form, profile, most)


@with_room
def _evaluate_many(queries: Sequence[str], document: bytes, form: int, profile: int, most: Most) -> Answers:
    first = max(first_run(len(document)) // max(len(queries), 1), _LEAST_RUN)
    answers = _first_answers(queries, document, form, profile, run_of(most, first, _BYTES_A_STEP * first))
    if any(is_short(answer, most) for answer in answers):
        return waited_for(_answer_late, queries, answers, document, form, profile, most, first)
    return answers


def _answer_late(queries, answers, document, form, profile, most, made) -> Answers:
    """The answers, with those that need longer runs than these were."""
    kept = KeptDocument(document, profile)
    for at, query in enumerate(queries):
        if is_short(answers[at], most) and not is_left():
            answers[at] = KeptQuery(query, profile).go_on(kept, form, ALL, most, made)
    return answers


def _first_answers(queries: Sequence[str], document: bytes, form: int, profile: int, run: Run) -> Answers:
    """The answers of one run for each query."""
    texts = [encoded(query) for query in queries]
    questions = (Question * max(len(texts), 1))()
    start = 0
    for question, text in zip(questions, texts):
        question.start, question.size = start, len(text)
        start += len(text)
    arguments = (
        b"".join(texts), start, questions, len(texts), document, len(document), form, profile, run.limit
    )
    room = take_room()
    size = library.jp_eval_many(*arguments, room.buffer, room.size)
    if size > room.size:
        room = Room(size)
        size = library.jp_eval_many(*arguments, room.buffer, room.size)
    written = ctypes.string_at(room.buffer, size)
    give_back(room)
    return _answers(queries, document, profile, questions, written, run.most)


def _answers(
    queries: Sequence[str], document: bytes, profile: int, questions, written: bytes, most: Most
) -> Answers:
    answers: Answers = []
    start = 0
    for query, question in zip(queries, questions):
        end = start + question.report.length
        text = written[start:end].decode()
        start = end
        report = question.report
        fault = refusal(report, query, profile, text, document, most) if report.status else None
        if fault is not None and not isinstance(fault, QueryFault):
            raise fault
        answers.append(text if fault is None else fault)
    return answers


def canonical(query: str, profile: int) -> str:
    """The canonical text of the query."""
    return reading(len(query), _canonical, query, profile)


@with_room
def _canonical(query: str, profile: int) -> str:
    text = encoded(query)
    return raised(answer_of(library.jp_canon, query, profile, text, len(text), profile))


def check(query: str, profile: int) -> None:
    """Raises `QueryError` where the query is not accepted."""
    reading(len(query), _check, query, profile)


@with_room
def _check(query: str, profile: int) -> None:
    text = encoded(query)
    accepted(library.jp_check, query, profile, text, len(text), profile)
