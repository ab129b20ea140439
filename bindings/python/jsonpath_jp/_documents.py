"""Documents as they are given: texts, files, and objects that are written as JSON first."""
import collections
import contextlib
import json
import math
import os
from collections import abc
from decimal import Decimal
from typing import Any, Callable, Iterator, List, NoReturn, Optional, Tuple, Union

from ._errors import DocumentError, printable
from ._orjson import bytes_by_orjson
from ._paths import Step, path_of

Default = Optional[Callable[[Any], Any]]

# As deep as a document may nest.
_MOST_LEVELS = 127


def _writer(default: Default) -> Callable[[Any], str]:
    how = {"ensure_ascii": False, "separators": (",", ":"), "allow_nan": False}
    return json.JSONEncoder(default=default, sort_keys=True, **how).encode


def _plain(value: Any) -> Union[dict, list, Decimal, None]:
    """The dict or the list that a mapping or a sequence of another type is written as, and a decimal itself; None of
    what is none of these."""
    if isinstance(value, Decimal):
        return value
    if isinstance(value, abc.Mapping):
        return dict(value)
    is_text = isinstance(value, (bytes, bytearray, memoryview, collections.UserString))
    return list(value) if isinstance(value, abc.Sequence) and not is_text else None


def _plain_or_raised(value: Any) -> Any:
    plain = _plain(value)
    if plain is None or plain is value:
        raise TypeError
    return plain


_write = _writer(_plain_or_raised)


def json_bytes(document: Any, default: Default = None) -> bytes:
    """The bytes of a JSON text or a file, or of what an object is written as. Raises `DocumentError` or `TypeError`
    where an object is no document, with the path of the first thing in it that is none, and what reading a file
    raises."""
    if isinstance(document, bytes):
        return document
    if isinstance(document, (bytearray, memoryview)):
        return bytes(document)
    if not isinstance(document, str):
        return _bytes_of_other(document, default)
    # Half of a surrogate pair becomes bytes that are no UTF-8, and so the document is refused.
    return document.encode("utf-8", "surrogatepass")


def _bytes_of_other(document: Any, default: Default) -> bytes:
    if isinstance(document, os.PathLike):
        with open(document, "rb") as file:
            return file.read()
    if hasattr(document, "read"):
        return _read(document)
    # An object that is written so has no part that a `default` is called for.
    return bytes_by_orjson(document) or _written(document, default).encode("utf-8", "surrogatepass")


def _read(file: Any) -> bytes:
    text = file.read()
    if not isinstance(text, (str, bytes, bytearray, memoryview)):
        raise TypeError(f"a file that is read gives str or bytes, and no {type(text).__name__}")
    return json_bytes(text)


def _written(value: Any, default: Default) -> str:
    # Keys are sorted, which the engine does with them anyway, and which fails where a text and another kind
    # of key stand side by side. Only such may be written alike. It fails at a decimal too.
    with contextlib.suppress(TypeError, ValueError, RecursionError):
        return (_write if default is None else _writer(default))(value)
    try:
        return _text(value, default, [], ())
    except RecursionError:
        raise _too_deep() from None


_WORDS = {None: "null", True: "true", False: "false"}


def _text(value: Any, default: Default, steps: List[Step], above: Tuple[int, ...]) -> str:
    """The JSON text of the value at a path, with each number exact. Raises the error of the first thing in it that is
    no JSON, if there is any. Above it stand the objects of these identities."""
    if isinstance(value, str):
        return _write(value)
    if value is None or isinstance(value, bool):
        return _WORDS[value]
    if isinstance(value, int):
        return _digits(value)
    if isinstance(value, float):
        return _finite(float.__repr__(value), math.isfinite(value), steps)
    if id(value) in above:
        _raise_no_json(steps, f"A {type(value).__name__} stands inside itself.")
    return _text_of_parts(value, default, steps, (*above, id(value)))


def _text_of_parts(value: Any, default: Default, steps: List[Step], above: Tuple[int, ...]) -> str:
    if isinstance(value, (dict, list, tuple)) and len(steps) == _MOST_LEVELS:
        raise _too_deep()
    if isinstance(value, dict):
        return "{" + ",".join(_members(value, default, steps, above)) + "}"
    if isinstance(value, (list, tuple)):
        return "[" + ",".join([_text(item, default, [*steps, at], above) for at, item in enumerate(value)]) + "]"
    part = _plain(value) if default is None else default(value)
    if isinstance(part, Decimal) and part is value:
        return _finite(Decimal.__str__(part), Decimal.is_finite(part), steps)
    if part is None and default is None:
        name, path = type(value).__name__, printable(path_of(steps))
        raise TypeError(f"no JSON is made of a {name}, as at {path}: give default=, as to json.dumps")
    return _text(part, default, steps, above)


def _finite(number: str, is_finite: bool, steps: List[Step]) -> str:
    """The text of a number, which JSON has where it is finite."""
    if not is_finite:
        _raise_no_json(steps, f"{_NO_NUMBERS.get(number, number)} is no JSON number.")
    return number


# As JSON's writers spell them.
_NO_NUMBERS = {"nan": "NaN", "inf": "Infinity", "-inf": "-Infinity"}


def _digits(number: int) -> str:
    """All digits of a whole number."""
    try:
        return int.__repr__(number)
    except ValueError:
        # Of so many digits Python writes none, to spare time, which a decimal does not take.
        return Decimal.__str__(Decimal(number))


def _members(value: dict, default: Default, steps: List[Step], above: Tuple[int, ...]) -> Iterator[str]:
    keys = {}
    for key, item in value.items():
        name = _name_of(key, steps)
        if name in keys:
            both = f"The keys {keys[name]!r} and {key!r}"
            _raise_no_json(steps, f"{both} have one name in JSON, {json.dumps(name)}.")
        keys[name] = key
        yield f"{_write(name)}:{_text(item, default, [*steps, name], above)}"


def _name_of(key: Any, steps: List[Step]) -> str:
    """The name that a key is written as, as json.dumps has it."""
    if isinstance(key, str):
        return key
    if key is None or isinstance(key, bool):
        return json.dumps(key)
    if isinstance(key, int):
        return _digits(key)
    if not isinstance(key, float):
        name = type(key).__name__
        path = printable(path_of(steps))
        raise TypeError(f"a key is a str, int, float, bool or None, and no {name}, as at {path}")
    if not math.isfinite(key):
        _raise_no_json(steps, f"The key {json.dumps(key)} is no JSON number.")
    return float.__repr__(key)


def _raise_no_json(steps: List[Step], sentence: str) -> NoReturn:
    raise DocumentError("NotJson", path_of(steps), sentence=sentence) from None


def _too_deep() -> DocumentError:
    sentence = f"Lists and objects nest more than {_MOST_LEVELS} levels deep."
    return DocumentError("NotJson", reason="TooManyLevels", sentence=sentence)
