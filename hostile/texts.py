"""Seeded texts of JSON, most of them with a byte too many, too few or another, and what Python's json tells of bytes: its
message, and the byte that this comes to."""
import json
import os
import random

BLANKS = " \t\n\r"
NAN = float("nan")
INFINITY = float("inf")
# What is put into texts, beside bytes that stand in them.
BYTES = b'{}[]",:0123456789-+.eEtrufalsn\\/ \n\t\'\x00\x1f\x7f\xc3\xa9\xff'

WORDS = ["a", "b", "", "x y", "\u00e9", "\U0001f600", "\\", "\"", "\n"]


def value(depth):
    """A value, at most so deep."""
    kind = random.randrange(9 if depth else 6)
    if kind == 0:
        return random.choice([None, True, False])
    if kind in (1, 2):
        return random.choice([0, 7, -1, 10**20, -(2**63), 2**64 - 1, 0.5, -2e30, 1e-5, NAN, -INFINITY])
    if kind in (3, 4, 5):
        return random.choice(WORDS)
    if kind in (6, 7):
        return [value(depth - 1) for _ in range(random.randrange(4))]
    return {random.choice(WORDS): value(depth - 1) for _ in range(random.randrange(4))}


def text():
    """The bytes of a JSON text."""
    separators = random.choice([(",", ":"), (", ", ": "), (" ,\n", "\t: ")])
    written = json.dumps(value(4), ensure_ascii=random.random() < 0.5, separators=separators)
    if random.random() < 0.1:
        written = "[" * random.choice([126, 127, 128]) + written
    if random.random() < 0.1:
        written = written.replace("30", "400", 1)
    return (random.choice(["", " ", "\n"]) + written + random.choice(["", " ", "\n"])).encode()


def case():
    """The bytes of a text cut or changed at a byte."""
    whole = text()
    place = random.randrange(len(whole) + 1)
    byte = bytes([random.choice(BYTES)])
    kind = random.randrange(4)
    if kind == 0:
        return whole[:place]
    if kind == 1:
        return whole[:place] + byte + whole[place + 1 :]
    if kind == 2:
        return whole[:place] + byte + whole[place:]
    return whole[:place] + whole[place + 1 :]


def front(data):
    """The longest front that is UTF-8, as a text."""
    try:
        return data.decode()
    except UnicodeDecodeError as fault:
        return data[: fault.start].decode()


def past(written, place, characters):
    """The place after those characters from there on."""
    while place < len(written) and written[place] in characters:
        place += 1
    return place


def word_end(written, place):
    """Where what begins like true, false or null goes on to none of them."""
    longest = place
    for word in ("true", "false", "null"):
        length = len(os.path.commonprefix([word, written[place:]]))
        longest = max(longest, place + length)
    return longest


def number_end(written, place):
    """Where a number that begins there goes on to none, by the grammar of RFC 8259 section 6."""
    digits = "0123456789"
    at = place + (written[place : place + 1] == "-")
    if written[at : at + 1] == "0":
        at += 1
    elif written[at : at + 1] in tuple(digits):
        at = past(written, at, digits)
    else:
        return at
    if written[at : at + 1] == ".":
        after = past(written, at + 1, digits)
        if after == at + 1:
            return after
        at = after
    if written[at : at + 1] in ("e", "E"):
        after = at + 1 + (written[at + 1 : at + 2] in ("+", "-"))
        return past(written, after, digits)
    return at


def escape_end(written, place):
    """Where the escape whose backslash is there goes on to none."""
    if written[place + 1 : place + 2] == "u":
        return min(past(written, place + 2, "0123456789abcdefABCDEF"), place + 6)
    return place + 1


def refuse(word):
    raise ValueError(word)


def python_place(written):
    """Python's message and the characters before the first that is wrong, by that message; the
    message alone where Python reads the text. Python tells the start of a string that does not end,
    of an escape, of a number and of a word, and the comma before a bracket."""
    try:
        json.loads(written, parse_constant=refuse)
        return "read", None
    except json.JSONDecodeError as fault:
        message, place = fault.msg.partition(":")[0], fault.pos
    except ValueError as constant:
        return f"constant {constant}", None
    if message == "Unterminated string starting at":
        return message, len(written)
    if message.startswith("Invalid control character"):
        return "Invalid control character at", place
    if message.startswith("Invalid \\escape") or message.startswith("Invalid \\uXXXX"):
        return message, escape_end(written, place if written[place : place + 1] == "\\" else place - 1)
    if message == "Illegal trailing comma before end of object":
        return message, past(written, place + 1, BLANKS)
    if message == "Illegal trailing comma before end of array":
        return message, past(written, place + 1, BLANKS)
    if message == "Expecting value":
        end = word_end(written, place)
        if end == place and written[place : place + 1] == "-":
            end = number_end(written, place)
        return ("Expecting value in a word or a number" if end > place else message), end
    return message, place


def number_place(written, place):
    """The place within a number that Python has read only in part, where Python's place is the end
    of such a part."""
    start = place
    while start > 0 and written[start - 1] in "0123456789+-.eE":
        start -= 1
    return number_end(written, start) if start < place else place


def expected(data):
    """Python's message, and the byte that it comes to; None where Python reads the bytes."""
    written = front(data)
    message, place = python_place(written)
    if place is not None:
        inside = number_place(written, place)
        if inside > place and not message.startswith(("Invalid", "Unterminated")):
            message, place = f"{message}, in a number", inside
        return message, len(written[:place].encode())
    return message, None
