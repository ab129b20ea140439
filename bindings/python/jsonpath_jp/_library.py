"""The calls of libjp.so, of which bindings/c/jp.h says what a caller owes, and the handles that they fill.

No pointer here is null: an empty `bytes` has the address of a zero byte, and a buffer has a byte at
least. What is written to belongs to one call at a time, and the bytes that are read are Python's own,
which nobody changes.
"""
import contextlib
import ctypes
import os

from ._threads import on_a_thread


class Report(ctypes.Structure):
    _fields_ = [
        ("status", ctypes.c_uint32),
        ("kind", ctypes.c_uint32),
        ("place", ctypes.c_size_t),
        ("length", ctypes.c_size_t),
        ("steps", ctypes.c_uint64),
    ]


class Limit(ctypes.Structure):
    """The most that a call may do and give; of each 0 is no limit."""

    _fields_ = [
        ("steps", ctypes.c_uint64),
        ("nodes", ctypes.c_uint64),
        ("bytes", ctypes.c_uint64),
    ]


class Question(ctypes.Structure):
    _fields_ = [
        ("start", ctypes.c_size_t),
        ("size", ctypes.c_size_t),
        ("report", Report),
    ]


class Place(ctypes.Structure):
    _fields_ = [
        ("offset", ctypes.c_size_t),
        ("line", ctypes.c_size_t),
        ("column", ctypes.c_size_t),
    ]


class Text(ctypes.Structure):
    """What a handle lends. Its start is a number here, since it may be none where the length is 0."""

    _fields_ = [
        ("start", ctypes.c_size_t),
        ("length", ctypes.c_size_t),
    ]


class Cursor(ctypes.Structure):
    """Where someone stands among the nodes of a kept document, at first before all of them."""

    _fields_ = [
        ("given", ctypes.c_uint64),
        ("asked", ctypes.c_uint64),
        # What is left of a page, which is nothing, since each is taken whole.
        ("lines", Text),
        ("steps", ctypes.c_uint64),
        ("known", ctypes.c_uint64),
        ("page", ctypes.c_uint64),
    ]


class Handle(ctypes.Structure):
    """Keeps nothing, or a query or a document, which is freed with it."""

    _fields_ = [
        ("at", ctypes.c_void_p),
        ("full", ctypes.c_ubyte),
        ("depth", ctypes.c_ubyte * 3),
    ]

    def __del__(self) -> None:
        library.jp_clear(self)
        if self.full:
            # There was too little stack for it. Where there can be no thread, what is kept stays.
            with contextlib.suppress(MemoryError):
                on_a_thread(library.jp_clear, self)


_MISSING = (
    "{0} is missing: `bindings/build` of jp's repository makes it, proved, and `bindings/build --unproved` without "
    "proofs, in two minutes"
)


def _opened() -> ctypes.CDLL:
    beside = os.path.join(os.path.dirname(os.path.abspath(__file__)), "libjp.so")
    if os.path.exists(beside):
        return ctypes.CDLL(beside)
    try:
        return ctypes.CDLL("libjp.so.0")
    except OSError as fault:
        raise ImportError(_MISSING.format(beside)) from fault


def _load() -> ctypes.CDLL:
    loaded = _opened()
    text = [ctypes.c_char_p, ctypes.c_size_t]
    report = [ctypes.POINTER(Report)]
    room = [ctypes.POINTER(ctypes.c_char), ctypes.c_size_t, *report]
    number = [ctypes.c_uint32]
    count = [ctypes.c_uint64]
    limit = [ctypes.POINTER(Limit)]
    handle = [ctypes.POINTER(Handle)]
    many = [ctypes.POINTER(Question), ctypes.c_size_t]
    lent = number + count + count + limit + [ctypes.POINTER(Text), *report]
    takes = {
        "version": [],
        "eval": text + text + number + number + limit + room,
        "canon": text + number + room,
        "check": text + number + report,
        "explain": text + number + number + room,
        "explain_document": text + number + number + [ctypes.POINTER(Place)] + room,
        "kind_name": number + number + room,
        "query_new": text + number + handle + report,
        "document_new": text + number + handle + room,
        "ask": handle + text + lent,
        "ask_document": handle + handle + lent,
        "next_page": [ctypes.POINTER(Cursor)] + handle + handle + count + lent[-2:],
    }
    for name, words in takes.items():
        call = getattr(loaded, f"jp_{name}")
        call.argtypes, call.restype = words, ctypes.c_uint32
    loaded.jp_eval_many.argtypes = text + many + text + number + number + limit + room[:2]
    loaded.jp_eval_many.restype = ctypes.c_size_t
    loaded.jp_clear.argtypes, loaded.jp_clear.restype = handle, None
    return loaded


library = _load()


def version() -> str:
    """The version of the engine, as "0.1.0"."""
    number = library.jp_version()
    return f"{number >> 16}.{number >> 8 & 255}.{number & 255}"
