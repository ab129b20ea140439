"""How much a call may do and give: what its caller allows, and what a run of it makes of that.

A call sees no signal. So what is run on its caller's thread ends after so many steps, and so many bytes of an answer,
that whoever presses Ctrl-C does not wait for it. Where these do not suffice the call is run again on a thread of its
own, with more.
"""
import ctypes
import functools
from typing import NamedTuple, Optional

from ._errors import StepsUsedUp, TooManyBytes
from ._library import Limit

# The steps of a run that is not made on a thread of its own: at 1.2 microseconds, the most that a step was seen to
# take, less than a third of a second.
FIRST_RUN = 1 << 18
# The bytes of its answer, which take some hundredths of a second to be written and read.
FIRST_BYTES = 1 << 24
# What has more bytes is read on a thread of its own. To start one takes less than a tenth of the time of reading these.
LARGEST_AT_ONCE = 1 << 18
# How many times the steps of a run the next one makes. So all runs before the last make fewer steps together than
# one and a half times what the query needs.
GROWTH = 4
# The least steps of a run on a thread of its own, for each byte of the document: a query that goes through it once
# mostly makes fewer.
_STEPS_A_BYTE = 2


class Most(NamedTuple):
    """The most steps that an evaluation makes, and the most nodes and bytes that it gives; None is any number."""

    steps: Optional[int] = None
    nodes: Optional[int] = None
    bytes: Optional[int] = None


ANY = Most()


class Run:
    """What a run may do and give, also as the engine is told, which takes 0 for any number."""

    __slots__ = ("most", "limit")

    def __init__(self, most: Most) -> None:
        self.most = most
        self.limit = ctypes.byref(Limit(most.steps or 0, most.nodes or 0, most.bytes or 0))


# The run on its caller's thread of what has no limit.
FIRST = Run(Most(FIRST_RUN, None, FIRST_BYTES))


@functools.lru_cache(maxsize=64)
def run_of(most: Most, steps: int, size: Optional[int] = None) -> Run:
    """A run of at most so many steps, and bytes if these are told, of what its caller allows."""
    return Run(Most(_less(steps, most.steps), most.nodes, _less(size, most.bytes)))


def _less(number: Optional[int], other: Optional[int]) -> Optional[int]:
    return other if number is None or (other is not None and other < number) else number


def first_run(size: int) -> int:
    """The steps of the first run over a document of so many bytes, which is read on a thread of its own where they
    are many."""
    return FIRST_RUN if size <= LARGEST_AT_ONCE else _STEPS_A_BYTE * size


def is_short(answer: object, most: Most) -> bool:
    """Whether a run ended for its own limits, and not for its caller's."""
    if isinstance(answer, StepsUsedUp):
        return answer.limit != most.steps
    return isinstance(answer, TooManyBytes) and answer.limit != most.bytes
