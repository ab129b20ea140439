"""Normalized paths (RFC 9535, section 2.7), the names and indexes that they are made of, and JSON Pointers."""
import re
from typing import List, Sequence, Union

Step = Union[str, int]

# normal-index-segment: a name in single quotes, in which each character has one spelling, or an index.
_STEP = re.compile(
    r"\[(?:'(?P<name>(?:[^\x00-\x1f'\\\ud800-\udfff]|\\(?:[btnfr'\\]|u00(?:0[0-7bef]|1[0-9a-f])))*)'"
    r"|(?P<index>0|[1-9][0-9]*))\]"
)
_ESCAPE = re.compile(r"\\(?:u(?P<code>....)|(?P<letter>.))")
_MEANT = {"b": "\b", "t": "\t", "n": "\n", "f": "\f", "r": "\r"}
_SPELLED = {ord(character): f"\\{letter}" for letter, character in _MEANT.items()}
_SPELLED.update({ord(character): f"\\{character}" for character in "'\\"})
_SPELLED.update({code: f"\\u{code:04x}" for code in range(0x20) if code not in _SPELLED})


def steps_of(path: str) -> List[Step]:
    """The names and indexes of a normalized path, from the document's root on. Raises `ValueError` where it
    is none."""
    if path[:1] != "$":
        raise ValueError(f"no normalized path: {path!r}")
    steps: List[Step] = []
    at = 1
    while at < len(path):
        step = _STEP.match(path, at)
        if step is None:
            raise ValueError(f"no normalized path: {path!r}")
        name = step["name"]
        steps.append(int(step["index"]) if name is None else _ESCAPE.sub(_meant, name))
        at = step.end()
    return steps


def path_of(steps: Sequence[Step]) -> str:
    """The normalized path of names and indexes."""
    parts = (f"'{step.translate(_SPELLED)}'" if isinstance(step, str) else str(step) for step in steps)
    return "$" + "".join(f"[{part}]" for part in parts)


def pointer_of(steps: Sequence[Step]) -> str:
    """The JSON Pointer (RFC 6901) of names and indexes."""
    return "".join("/" + str(step).replace("~", "~0").replace("/", "~1") for step in steps)


def _meant(escape: "re.Match[str]") -> str:
    if escape["code"]:
        return chr(int(escape["code"], 16))
    return _MEANT.get(escape["letter"], escape["letter"])
