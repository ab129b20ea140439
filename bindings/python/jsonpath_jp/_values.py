"""Values: Python objects of the JSON texts that the engine writes."""
import functools
import json
from typing import Any, Callable, Optional

# What makes a number that is not whole of its text, as `parse_float` of `json.loads` does; a float without it.
Decimals = Optional[Callable[[str], Any]]

# The exponents of floats end here. Beyond, a few bytes of text would be a whole number of very many.
_LARGEST_EXPONENT = 308


def value_of(text: str, decimals: Decimals) -> Any:
    """The value of a text."""
    # So whole numbers of more than 21 digits are written, which `json.loads` takes for floats.
    if "e+" in text:
        decimals = functools.partial(_whole_or, decimals or float)
    return json.loads(text, parse_float=decimals)


def _whole_or(decimals: Callable[[str], Any], text: str) -> Any:
    """The `int` of a number that is whole and no larger than floats are, and of others what the function makes of the
    text."""
    coefficient, _, exponent = text.partition("e+")
    if not exponent or int(exponent) > _LARGEST_EXPONENT:
        return decimals(text)
    whole, _, fraction = coefficient.partition(".")
    zeros = int(exponent) - len(fraction)
    return decimals(text) if zeros < 0 else int(whole + fraction + zeros * "0")


def checked(decimals: Decimals) -> Decimals:
    """The argument of a call. Raises `TypeError` where it is no function."""
    if decimals is not None and not callable(decimals):
        name = type(decimals).__name__
        raise TypeError(f"decimals is a function of a number's text, as json.loads has parse_float, and no {name}")
    return decimals
