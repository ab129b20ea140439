"""Reads the tables of tests in Rattle: the constants of a file, as Python has texts, tuples and lists."""
import re

_CONSTANT = re.compile(r"^(?:pub )?const (\w+): (.*?) =\s+(.*?);$", re.DOTALL | re.MULTILINE)
_TOKEN = re.compile(
    r'(?P<is_raw_bytes>b?)r(?P<hashes>#*)"(?P<raw>.*?)"(?P=hashes)|(?P<is_bytes>b?)"(?P<text>(?:[^"\\]|\\.)*)"'
    r"|'(?P<character>\\u\{[0-9a-fA-F]+\}|\\.|[^'\\])'|(?P<name>\w+(?:::\w+)?)|(?P<mark>[()\[\],])"
    r"|(?P<none>&|\s+|//[^\n]*)",
    re.DOTALL,
)
_ESCAPE = re.compile(r"\\(?:u\{(?P<code>[0-9a-fA-F]+)\}|x(?P<byte>[0-9a-fA-F]{2})|(?P<line>\n\s*)|(?P<mark>.))", re.DOTALL)
_MARKS = {"n": "\n", "t": "\t", "r": "\r", "0": "\0"}


def _unescaped(escape):
    if escape["code"] or escape["byte"]:
        return chr(int(escape["code"] or escape["byte"], 16))
    if escape["line"]:
        return ""
    return _MARKS.get(escape["mark"], escape["mark"])


def _spelled(token):
    """A token, as Python spells it."""
    if token["raw"] is not None:
        text, is_bytes = token["raw"], token["is_raw_bytes"]
    elif token["text"] is not None:
        text, is_bytes = _ESCAPE.sub(_unescaped, token["text"]), token["is_bytes"]
    elif token["character"] is not None:
        text, is_bytes = _ESCAPE.sub(_unescaped, token["character"]), ""
    elif token["name"]:
        return token["name"].replace("::", ".").replace("true", "True").replace("false", "False")
    else:
        return token["mark"] or ""
    # A text of bytes has one character of ASCII, or one escape, for each.
    return repr(text.encode("latin-1")) if is_bytes else repr(text)


def _as_python(expression):
    parts, at = [], 0
    while at < len(expression):
        token = _TOKEN.match(expression, at)
        if token is None:
            raise ValueError(f"no token: {expression[at:at + 40]!r}")
        at = token.end()
        parts.append(_spelled(token))
    return "".join(parts)


class Named:
    """What has variants: each is its own name, as `Reason.Empty` is Empty, or a call of it is that with what it holds."""

    def __init__(self, is_call=False):
        self.is_call = is_call

    def __getattr__(self, name):
        return (lambda given: (name, given)) if self.is_call else name


def constants(files, names):
    """Of each constant of files, given by their texts, the file, the name, the type and the value. One may name those of
    other files. What else they name stands in `names`."""
    known, found = dict(names), []
    waiting = [(file, *it) for file, text in files.items() for it in _CONSTANT.findall(text)]
    while waiting:
        later = []
        for file, name, kind, expression in waiting:
            try:
                value = eval(_as_python(expression), {"__builtins__": {}}, known)
            except NameError:
                later.append((file, name, kind, expression))
                continue
            known.setdefault(name, value)
            found.append((file, name, kind, value))
        if len(later) == len(waiting):
            raise ValueError(f"constants that name no other: {[name for _, name, _, _ in later]}")
        waiting = later
    return found
