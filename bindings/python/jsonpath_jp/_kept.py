"""Queries and documents that handles keep."""
import ctypes
import threading
from typing import List, Optional, Tuple, Union

from . import _limits
from ._calls import LARGEST_KEPT, NoStack, accepted, answer_of, encoded, raised, reading, refusal, with_room
from ._errors import Error
from ._library import Cursor, Handle, Report, Text, library
from ._limits import ANY, GROWTH, LARGEST_AT_ONCE, Most, Run, first_run, is_short, run_of
from ._threads import forks, is_left, on_a_thread, waited_for

# Which nodes are asked for: how many are passed over, and how many of the others are given, where 0 is all.
Span = Tuple[int, int]
ALL: Span = (0, 0)
FIRST: Span = (0, 1)
# Of a kept document also the next page of a cursor, which that goes on to.
Wanted = Union[Span, Cursor]
# How many handles of a query are kept that no call uses.
_MOST_SPARE = 16


class _Reading:
    """A document in a handle, and the lock that a call holds while it uses it."""

    __slots__ = ("handle", "lock", "forks")

    def __init__(self, text: bytes, profile: int) -> None:
        self.handle = Handle()
        self.lock = threading.Lock()
        self.forks = forks[0]
        arguments = (text, len(text), profile, self.handle)
        raised(answer_of(library.jp_document_new, "", profile, *arguments, document=text))

    def is_lost(self) -> bool:
        """Whether a thread used it when this process was forked, and so will never give it back."""
        if self.forks == forks[0]:
            return False
        # Whether it is locked has to be tried: a thread that waited for it has it before it says so.
        if not self.lock.acquire(False):
            return True
        # From here on whoever holds the lock is of this process.
        self.forks = forks[0]
        self.lock.release()
        return False


# What is lost is in the middle of a call for ever, and is never freed.
_lost: List[_Reading] = []


class KeptDocument:
    """A document in a handle, with its text, from which it is read again where the handle was left to
    another. Its numbers are those of the profile. Raises its error."""

    __slots__ = ("text", "profile", "_reading")

    def __init__(self, text: bytes, profile: int) -> None:
        self.text = text
        self.profile = profile
        self._reading: Optional[_Reading] = reading(len(text), with_room(_Reading), text, profile)

    def asked_by(self, asker: "_Asker", form: int, wanted: Wanted, run: Run) -> int:
        read = self._reading
        if read is not None and read.is_lost():
            _lost.append(read)
            read = None
        if read is None:
            read = self._reading = reading(len(self.text), _Reading, self.text, self.profile)
        handles, told = (asker.handle, read.handle), (asker.text, asker.report)
        with read.lock:
            if isinstance(wanted, Cursor):
                return library.jp_next_page(wanted, *handles, run.most.steps, *told)
            return library.jp_ask_document(*handles, form, *wanted, run.limit, *told)

    def leave(self) -> None:
        """Leaves the handle to a call that nobody waits for any longer, so that others don't wait for it."""
        self._reading = None


class _Asker:
    """A handle that keeps a query, and what its calls write to. One call at a time uses it."""

    __slots__ = ("handle", "text", "report")

    def __init__(self, query: "KeptQuery") -> None:
        self.handle, self.text, self.report = Handle(), Text(), Report()
        text = query.encoded
        arguments = (text, len(text), query.profile, self.handle)
        accepted(library.jp_query_new, query.text, query.profile, *arguments)


class KeptQuery:
    """A query that is accepted, in as many handles as calls ask it at once. Raises its error.

    Taking a handle out and giving it back is one step each, so neither threads nor signals come between,
    and a fork leaves behind only handles in use. One that is not given back is freed."""

    __slots__ = ("text", "encoded", "profile", "_spare")

    def __init__(self, text: str, profile: int) -> None:
        self.text = text
        self.encoded = encoded(text)
        self.profile = profile
        self._spare: List[_Asker] = [reading(len(self.encoded), with_room(_Asker), self)]

    def ask(self, document: Union[bytes, KeptDocument], form: int, wanted: Wanted, most: Most) -> str:
        """The lines of the nodes asked for that the query selects."""
        if isinstance(document, bytes) and len(document) > LARGEST_AT_ONCE:
            return raised(waited_for(self._ask_long, document, form, wanted, most))
        run = _limits.FIRST if most is ANY else run_of(most, _limits.FIRST_RUN, _limits.FIRST_BYTES)
        try:
            answer = self._once(document, form, wanted, run)
        except NoStack:
            answer = on_a_thread(self._once, document, form, wanted, run)
        if isinstance(answer, str):
            return answer
        if not is_short(answer, most):
            raise answer
        try:
            return raised(waited_for(self.go_on, document, form, wanted, most, _limits.FIRST_RUN))
        except (Error, MemoryError):
            raise
        except BaseException:
            if isinstance(document, KeptDocument):
                document.leave()
            raise

    @with_room
    def _ask_long(self, document: bytes, form: int, wanted: Wanted, most: Most) -> Union[str, Exception]:
        """What the query answers of a document of many bytes, on a thread with room."""
        first = first_run(len(document))
        answer = self._once(document, form, wanted, run_of(most, first))
        if is_short(answer, most) and not is_left():
            answer = self.go_on(document, form, wanted, most, first)
        return answer

    def go_on(
        self, document: Union[bytes, KeptDocument], form: int, wanted: Wanted, most: Most, made: int
    ) -> Union[str, Exception]:
        """What the query answers after a run of so many steps, in runs of ever more, on a thread with room. It ends
        with the run that is made when nobody waits for it any longer."""
        kept = document if isinstance(document, KeptDocument) else KeptDocument(document, self.profile)
        steps = max(GROWTH * made, first_run(len(kept.text)))
        while True:
            answer = self._once(kept, form, wanted, run_of(most, steps))
            if not is_short(answer, most) or is_left():
                return answer
            steps *= GROWTH

    def _once(
        self, document: Union[bytes, KeptDocument], form: int, wanted: Wanted, run: Run
    ) -> Union[str, Exception]:
        """What the query answers in one run."""
        try:
            asker = self._spare.pop()
        except IndexError:
            asker = _Asker(self)
        if isinstance(document, KeptDocument):
            status, size = document.asked_by(asker, form, wanted, run), 0
        else:
            size = len(document)
            status = library.jp_ask(
                asker.handle, document, size, form, *wanted, run.limit, asker.text, asker.report
            )
        text = asker.text
        length = text.length
        # Nothing is lent where there is no text.
        lent = ctypes.string_at(text.start, length).decode() if length else ""
        told = Report.from_buffer_copy(asker.report) if status else None
        if size <= LARGEST_KEPT and length <= LARGEST_KEPT and len(self._spare) < _MOST_SPARE:
            self._spare.append(asker)
        else:
            # An interrupt that came when it is dropped would be lost.
            library.jp_clear(asker.handle)
        if told is None:
            return lent
        bytes_of = document.text if isinstance(document, KeptDocument) else document
        return refusal(told, self.text, self.profile, lent, bytes_of, run.most) or lent
