"""Profiles: which functions a query may call, and which numbers it and its documents have."""
from typing import Literal

from . import _numbers

Numbers = Literal["decimal", "whole"]

# Without `distinct`, and with it.
_PROFILES = {
    "decimal": (_numbers.DECIMAL, _numbers.EXTENDED_DECIMAL),
    "whole": (_numbers.STANDARD, _numbers.EXTENDED),
}


def profile_of(extended: bool, numbers: Numbers) -> int:
    """The profile of two arguments of a call. Raises `TypeError` or `ValueError` where one is none."""
    if not isinstance(extended, bool):
        raise TypeError(f"extended is True or False, and no {type(extended).__name__}")
    if not isinstance(numbers, str):
        raise TypeError(f"numbers is 'decimal' or 'whole', and no {type(numbers).__name__}")
    try:
        return _PROFILES[numbers][extended]
    except KeyError:
        raise ValueError(f"numbers is 'decimal' or 'whole', and not {numbers!r}") from None


def is_extended(profile: int) -> bool:
    """Whether a query of the profile may call `distinct`."""
    return profile in (_numbers.EXTENDED, _numbers.EXTENDED_DECIMAL)


def numbers_of(profile: int) -> Numbers:
    """Which numbers a query or a document of the profile has."""
    return "decimal" if profile in _PROFILES["decimal"] else "whole"
