"""Threads that have room for each call, and what a fork does to what threads hold."""
import os
import threading
from typing import Any, Callable, Optional, Tuple

# The stack of a thread on which each call has room; Python's own frames are there too.
_STACK = 2 << 20

# How long a caller waits before it looks again whether a signal came, in seconds. One that comes just before the
# waiting begins would else be seen at its end.
_A_WHILE = 0.1

# The size of a stack is one for all threads that are started. Freeing a handle may start one meanwhile,
# on the very thread that holds this.
_starting = threading.RLock()

# How many forks this process stands behind, in each of which all threads but one were left behind.
forks = [0]


def _note_fork() -> None:
    forks[0] += 1
    _starting.release()


if hasattr(os, "register_at_fork"):
    os.register_at_fork(
        before=_starting.acquire, after_in_parent=_starting.release, after_in_child=_note_fork
    )


class NoThread(MemoryError):
    """There is no memory for another thread, or Python ends."""


class _Roomy(threading.Thread):
    """A thread with room for each call, which calls a function."""

    def __init__(self, function: Callable[..., Any], arguments: Tuple[Any, ...]) -> None:
        super().__init__(daemon=True)
        self.function = function
        self.arguments = arguments
        self.given: Any = None
        self.fault: Optional[BaseException] = None
        self.is_left = False

    def run(self) -> None:
        try:
            self.given = self.function(*self.arguments)
        except BaseException as fault:
            self.fault = fault


def on_a_thread(function: Callable[..., Any], *arguments: Any) -> Any:
    """What the function gives or raises, called on a thread that has room for each call: on this one, where
    it is such a thread. An interrupt does not wait for another."""
    if is_roomy():
        return function(*arguments)
    thread = _Roomy(function, arguments)
    try:
        _start(thread)
        while thread.is_alive():
            thread.join(_A_WHILE)
    except BaseException:
        thread.is_left = True
        raise
    if thread.fault is not None:
        raise thread.fault
    return thread.given


def waited_for(function: Callable[..., Any], *arguments: Any) -> Any:
    """What the function gives or raises, called on a thread of its own, so that an interrupt does not wait for it;
    or on this one, where no other can be started."""
    try:
        return on_a_thread(function, *arguments)
    except NoThread:
        pass
    return function(*arguments)


def _start(thread: _Roomy) -> None:
    with _starting:
        before = threading.stack_size(_STACK)
        try:
            thread.start()
        except RuntimeError:
            raise NoThread("jp found no memory for a thread with more stack") from None
        finally:
            threading.stack_size(before)


def is_roomy() -> bool:
    """Whether this thread was made to have room."""
    return isinstance(threading.current_thread(), _Roomy)


def is_left() -> bool:
    """Whether nobody waits any longer for what this thread does."""
    return getattr(threading.current_thread(), "is_left", False)
