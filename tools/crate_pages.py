"""The page of each crate, crates/NAME/README.md: what each file is for, and who uses it.

.ci/house writes and checks the pages.
"""
import functools
import os
import pathlib
import re

from jp_tools import is_of_tests

ROOT = pathlib.Path(os.path.realpath(__file__)).parent.parent
CRATES = ROOT / "crates"
NAMED_BY_THEIR_FOLDER = {"Answers.antt", "Invariants.antt"}
LISTS_OF_MODULES = {"Lib.antt", "Private.antt"}
PARTS = (("Code", "src", ".rt"), ("Definitions", "specs", ".antt"), ("Proofs", "proofs", ".antt"))
# What may be changed in the files of a part.
MAY_CHANGE = {
    "src": "A function's contract is what its callers rest on; its body may be changed as long as it is proved. Of what a"
    " function without a contract gives, nothing is promised. What a test wants was found by hand, and not by a run; tests"
    " are not counted among the users where they go by the root of the crate.",
    "specs": "These say what is proved, so a change here is one of what jp does, or of how that is said. `Lib.antt` and"
    " `Private.antt` list the files, each new one too; what stands in `Private/` is cited by private functions, and by the"
    " invariants and conversions of types, which callers do not read.",
    "proofs": "A lemma says what the users behind it need; any proof of it that passes will do. A definition that"
    " stands here serves proofs alone, and may be changed as long as they pass. What an example of `Rows` or `Standard` says"
    " was found by hand: where one fails, a definition is wrong. `Lib.antt` lists the files, `pub` those that other crates name.",
}
# How many users of one kind are named.
MOST_NAMED = 6


class Nameless(Exception):
    """A file that begins with no line that says what it is for."""


def files_of(crate, folder, ending):
    return sorted((CRATES / crate / folder).rglob("*" + ending))


@functools.cache
def text_of(path):
    return path.read_text()


@functools.cache
def head(path):
    """The first sentence of the comment with which a file begins."""
    lines = []
    for line in text_of(path).splitlines():
        comment = re.match(r"(?://!|--) ?(.*)", line)
        if not comment or (lines and not comment[1]):
            break
        lines.append(comment[1].strip())
    return re.split(r"(?<=\.) (?=[A-Z`])", " ".join(lines))[0].rstrip(":")


@functools.cache
def all_files():
    """All files of the crates, each with its crate and its part."""
    found = []
    for crate in sorted(it.name for it in CRATES.iterdir() if it.is_dir()):
        found += [(crate, part, path) for _, part, ending in PARTS for path in files_of(crate, part, ending)]
    return found


def file_named(crate, part, words):
    """The file of definitions or proofs that an import names, whose last words may name what stands in it."""
    for length in range(len(words), 0, -1):
        path = CRATES / crate / part / ("/".join(words[:length]) + ".antt")
        if path.exists():
            return path
    return None


@functools.cache
def users_of_definitions():
    """For each file of definitions or proofs, the files that import it, or name it in a tactic."""
    users = {}
    for home, _, path in all_files():
        named = re.findall(r"use Rattle\.(\w+)\.(specs|proofs)\.([\w.-]+)", text_of(path))
        named += [(home, part, name) for part, name in re.findall(r"\bcrate::(specs|proofs)::([\w:-]+)", text_of(path))]
        for crate, part, name in named:
            found = file_named(crate, part, re.split(r"\.|::", name.strip(".:")))
            if found and found != path:
                users.setdefault(found, set()).add(path)
    return users


def module_of(crate, path):
    """The path of a module from its crate's root, as imports name it."""
    return list(path.relative_to(CRATES / crate / "src").with_suffix("").parts)


def imported(text, start):
    """What the imports of a text take from a module, where it is called so: words, also those in braces."""
    found = set()
    for match in re.finditer(rf"\b{start}::(\{{[^}}]*\}}|\w+)", text):
        found |= {*re.findall(r"\w+", match[1])}
    return found


@functools.cache
def handed_on(crate):
    """For each name that the crate's root file hands on, the module that has it."""
    root = CRATES / crate / "src" / "lib.rt"
    text = text_of(root) if root.exists() else ""
    pairs = re.findall(r"pub use (?:crate::)?([\w:]+?)::(\{[^}]*\}|\w+);", text)
    return {name: module.split("::") for module, names in pairs for name in re.findall(r"\w+", names)}


def uses_module(crate, other, module):
    """Whether a file of the same crate uses the module."""
    text, (*folder, last) = text_of(other), module
    if re.search(r"\bcrate::" + "::".join(module) + r"\b", text):
        return True
    if folder and last in imported(text, "crate::" + "::".join(folder)):
        return True
    at = module_of(crate, other)
    if at[:-1] == module and re.search(r"\bsuper::", text):
        return True
    is_above = at == folder
    if folder and is_above and re.search(rf"(?<![\w:]){last}::\w", text):
        return True
    is_near = at[:-1] == folder or is_above
    return is_near and bool(re.search(rf"\b(super|self)::{last}\b|^use {last}::", text, re.MULTILINE))


@functools.cache
def users_of_code(crate):
    """For each module of the crate, the files that use it."""
    names = {}
    for name, module in handed_on(crate).items():
        names.setdefault(tuple(module), set()).add(name)
    mine = files_of(crate, "src", ".rt")
    others = [path for home, part, path in all_files() if home != crate and part == "src"]
    taken = {path: imported(text_of(path), crate) for path in others}
    users = {}
    for path in mine:
        module = module_of(crate, path)
        inside = {other for other in mine if other != path and uses_module(crate, other, module)}
        public = {name for known, of in names.items() if [*known] == module[: len(known)] for name in of}
        if module[0] in ("laws", "lib", "main"):
            public = set()
        if module[0] == "laws":
            name = "::".join([crate, *module])
            inside |= {other for other in others if re.search(rf"\b{name}\b", text_of(other))}
        users[path] = inside | {other for other in others if taken[other] & public}
    return users


def methods_of(path):
    return {*re.findall(r"^    (?:pub\(crate\) |pub )fn (\w+)", text_of(path), re.MULTILINE)}


def users_of_methods(crate, path):
    """The files of the crate that call a method which stands in this file alone."""
    others = [other for other in files_of(crate, "src", ".rt") if other != path]
    known = set().union(*(methods_of(other) for other in others))
    calls = [rf"\.{name}\(" for name in sorted(methods_of(path) - known)]
    return {other for other in others if calls and re.search("|".join(calls), text_of(other))}


def is_named_by_its_folder(part, path):
    is_called_so = part == "proofs" and path.name in NAMED_BY_THEIR_FOLDER
    return is_called_so and (path.name != "Answers.antt" or ".Goals" in text_of(path))


def listed(names):
    names = sorted(names)
    more = len(names) - MOST_NAMED
    shown = ", ".join(names if more <= 0 else names[:MOST_NAMED])
    return shown + (f" and {more} more" if more > 0 else "")


def told_users(crate, users):
    """Who uses a file, in words: files of its crate by their names, then other crates."""
    here = CRATES / crate
    mine = [path for path in users if here in path.parents]
    parts = []
    for _, part, _ in PARTS:
        paths = [path for path in mine if here / part in path.parents]
        answers = {path.parent for path in paths if is_named_by_its_folder(part, path)}
        names = {f"`{path.relative_to(here / part)}`" for path in paths if path.parent not in answers}
        if names:
            parts.append(listed(names))
        if answers:
            parts.append("answers of " + listed(f"`{path.name}`" for path in answers))
    others = {path.relative_to(CRATES).parts[0] for path in users if here not in path.parents}
    if others:
        parts.append("crates " + listed(others) if len(others) > 1 else f"crate {listed(others)}")
    return "; ".join(parts)


def told_instead(crate, part, path):
    """What is told of a file that no other names."""
    words = path.relative_to(CRATES / crate / part).with_suffix("").parts
    if part == "src":
        if words[0] == "laws":
            return " Nothing calls it."
        return " Tests." if "tests" in words or (is_of_tests(crate) and words != ("lib",)) else ""
    if part == "proofs" and (words[-1].endswith("Rows") or {"Rows", "Standard"} & {*words}):
        return " Examples that the prover computes; nothing cites them."
    if path.name == "Proof.antt":
        return " Only the prover uses it."
    return f" It lists the files of `{path.stem}/`." if re.search(r"^pub mod ", text_of(path), re.MULTILINE) else ""


def item(crate, part, path):
    users = (users_of_code(crate) if part == "src" else users_of_definitions()).get(path, set())
    if part == "src" and not users:
        users = users_of_methods(crate, path)
    told = told_users(crate, users)
    if part == "src" and "no_mangle" in text_of(path):
        told = "; ".join([*filter(None, [told]), "callers in C, by the names and parameters that `bindings/c/jp.h` has, too"])
    name = path.relative_to(CRATES / crate / part)
    if not head(path):
        raise Nameless(path.relative_to(ROOT))
    return f"- [`{name}`]({part}/{name}): {head(path)}" + (f" Used by: {told}." if told else told_instead(crate, part, path))


def page(crate):
    """The lines of a crate's page."""
    top = next(path for path in files_of(crate, "src", ".rt") if path.name in ("lib.rt", "main.rt"))
    yield f"# {crate}\n\n{head(top)} [HOUSE](../../docs/HOUSE.md) has all crates."
    yield "\n`.ci/house --write` makes this page from the files. Behind what a file is for stands who uses it: files of"
    yield "the code, of definitions, of proofs, and answers of functions, with `;` between, then other crates."
    for title, part, ending in PARTS:
        paths = [path for path in files_of(crate, part, ending) if path.name not in LISTS_OF_MODULES]
        functions = {path.parent for path in paths if is_named_by_its_folder(part, path)}
        if paths:
            yield f"\n## {title}\n\n{MAY_CHANGE[part]}\n"
        yield from (item(crate, part, path) for path in paths if path.parent not in functions)
        if functions:
            folders = "1 folder" if len(functions) == 1 else f"{len(functions)} folders"
            yield (f"- {folders} of `Answers.antt` and `Invariants.antt`: `FILE/FUNCTION/` has what the prover needs to be told of"
                   " FUNCTION in `src/FILE.rt` (`FILE/TYPE/METHOD/`: of a method; `+NAME/`: of a cycle of functions), and only the"
                   " prover uses it. The goals that it imports are printed by `rt check --start FUNCTION --allow-holes`. Any answer"
                   " that passes will do; an invariant changes with the answers beside it, or freely where there are none.")
