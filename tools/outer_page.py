"""The page of all that stands around the crates, docs/OUTER.md: what each file is for, and who uses it.

.ci/house writes and checks the page.
"""
import functools
import os
import pathlib
import re
import subprocess

from crate_pages import Nameless, listed

ROOT = pathlib.Path(os.path.realpath(__file__)).parent.parent
# The folders, each with what its files have in common.
FOLDERS = {
    "bindings": "jp for other languages. `build` makes the library for C, on which Go, Python and Rust stand. In `numbers.json`"
    " are the numbers and names of statuses and refusals, from which `.ci/numbers --write` writes those of each language; in"
    " `rows.jsonl` the rows that the tests of each language run, which `.ci/rows --write` writes.",
    "bindings/c": "What is compiled beside the proved calls, or calls them. `stack.c` and `cursor.c` are trusted; what `jp.h`"
    " says of the calls is tested by the others.",
    "bindings/go": "The package for Go, over `libjp.a`. Its callers see the names that begin with a capital letter.",
    "bindings/node": "The package for Node, over the module that `page/build` makes. The page takes those of its files that"
    " need nothing of Node.",
    "bindings/python": "The package for Python, over `libjp.so`. Its callers see what `__init__.py` names; what begins with"
    " `_` may be changed as long as they see the same.",
    "bindings/java": "The archive for Java, over `libjp.a`. Its callers see what is `public`.",
    "bindings/rust": "The crate for Rust, over `libjp.a`. Its callers see what `lib.rs` names.",
    "bindings/wasm": "What the WebAssembly module has of C. It is trusted.",
    "page": "The page to try queries in. `join` puts it together of `src` and of modules of `bindings/node`; a browser runs"
    " its `tests`.",
    "hostile": "Runs of the built programs where memory, stack or streams fail, and beside plain programs that do the same.",
    "bench": "What measures time and memory; the gate runs none of it. [Its page](../bench/README.md) has the figures.",
    "packaging": "What puts a release together; what the Debian package is made of besides the programs and the library; and the"
    " tests of both.",
    "bin": "What is called by hand: the programs, and what proves, builds, tests, installs and packs them.",
    ".ci": "The gate, and what it checks besides the proofs.",
    "tools": "What scripts share.",
}
# Files that hold no comment, or none that says what they are for.
SILENT = {".json", ".jsonl", ".toml", ".lock", ".css", ".html", ".typed"}
SILENT_FILES = {"control", "copyright", "overrides", "CODEMIRROR-LICENCE"}
COMMENTS = re.compile(r'^ *"""[\s\S]*?"""|^ *(?://|#(?!include)).*|/\*[\s\S]*?\*/|`[^`\n]*`', re.MULTILINE)
HEAD = re.compile(r'"""([\s\S]*?)"""|/\*\*?([\s\S]*?)\*/|((?:(?:#|//!?|\.\\").*\n)+)')


@functools.cache
def all_files():
    """The files of these folders that git knows or would add, but for pages and pictures; and the Makefile."""
    words = ["git", "-C", str(ROOT), "ls-files", "--cached", "--others", "--exclude-standard", *FOLDERS, "Makefile"]
    told = subprocess.run(words, stdout=subprocess.PIPE, check=True).stdout.decode()
    paths = [pathlib.PurePosixPath(line) for line in sorted({*told.splitlines()})]
    return [path for path in paths if path.suffix not in (".md", ".png") and (ROOT / path).exists()]


@functools.cache
def text_of(path):
    return (ROOT / path).read_text()


@functools.cache
def folder_of(path):
    """The longest of the folders that the file stands in."""
    return max((name for name in FOLDERS if str(path).startswith(name + "/")), key=len, default="")


def head(path):
    """The first sentence of the comment with which a file begins."""
    # A file of Java names its package and what it imports before its first comment.
    block = HEAD.match(re.sub(r"^#!.*\n|^(?:(?:package|import) .*\n|\n)+", "", text_of(path)))
    lines = (block[1] or block[2] or block[3]).splitlines() if block else []
    bare = (re.sub(r'^\s*(\*|#|//!?|\.\\")(?= |$)', "", line).strip() for line in lines)
    joined = "\n".join(bare).strip().partition("\n\n")[0].replace("\n", " ")
    return re.split(r"(?<=\.) (?=[A-Z`])", joined)[0].rstrip(":")


@functools.cache
def code(path):
    """A file without comments and without what it writes between backticks."""
    return COMMENTS.sub("", text_of(path))


def is_test(path):
    return "tests" in path.parts or path.name.endswith("_test.go")


@functools.cache
def defined(path):
    """The functions and types that a file of Go defines for the others of its package, which name no files."""
    return {*re.findall(r"^(?:func|type) (\w+)", text_of(path), re.MULTILINE)}


@functools.cache
def imported(path):
    """The files that a file imports by the words of its language, and some that are none."""
    if path.suffix in (".mjs", ".mts", ".html"):
        return {os.path.normpath(path.parent / name) for name in re.findall(r'"(\.\.?/[\w./-]+)"', code(path))}
    if path.suffix == ".rs":
        return {f"{path.parent}/{name}.rs" for name in re.findall(r"\b(?:mod |crate::)(\w+)", code(path))}
    if path.suffix == ".go" and not is_test(path):
        words = {*re.findall(r"\w+", code(path))}
        near = [it for it in all_files() if it.parent == path.parent and it.suffix == ".go" and not is_test(it)]
        headers = re.findall(r'^// #include "(.*)"', text_of(path), re.MULTILINE)
        return {str(it) for it in near if words & defined(it)} | {f"{path.parent}/{name}" for name in headers}
    if path.suffix == ".java":
        near = {path.parent, pathlib.PurePosixPath("bindings/java/src/jsonpath/jp")}
        return {f"{folder}/{word}.java" for folder in near for word in re.findall(r"\b[A-Z]\w+", code(path))}
    lines = re.findall(r"^ *(?:from ([\w.]+) )?import ([^\n]*)", code(path), re.MULTILINE)
    words = {word for line in lines for part in line for word in re.findall(r"\w+", part)}
    near = {path.parent, path.parent.parent / "jsonpath_jp", pathlib.PurePosixPath("tools")}
    return {f"{folder}/{word}.py" for folder in near for word in words}


def spelled_out(text):
    """What `{a,b}.mjs`, and `$it.c` in a loop over some words, stand for in a script of the shell."""
    for names, ending in re.findall(r"\{([\w,]+)\}(\.\w+)", text):
        yield from (name + ending for name in names.split(","))
    for name, values in re.findall(r"\bfor (\w+) in ([\w -]+); do", text):
        for word in re.findall(rf'[^\s"]*\${name}\.\w+', text):
            yield from (word.replace("$" + name, it) for it in values.split())


@functools.cache
def named(path):
    """The paths and names of files that stand in a file's code, and words that are none."""
    text = code(path)
    joined = re.sub(r'" ?[,/] ?"', "/", text)
    words = re.findall(r"[\w.$/-]*\w", " ".join([text, joined, *spelled_out(text)]))
    return {re.sub(r"^(\$\w+/|\.\.?/)+", "", word) for word in words} | imported(path)


def is_used_by(path, other):
    """Whether a file names this one: by its path, or from near by by its name, of a file of C also without its ending."""
    if str(path) in named(other):
        return True
    is_near = folder_of(path).startswith(folder_of(other) or "/") and other.suffix != ".mjs" and not is_test(path)
    is_short = path.suffix == ".c" and re.search(rf'"{path.stem}"|\bcompile {path.stem}\b', code(other))
    return is_near and bool(path.suffix) and (path.name in named(other) or bool(is_short))


def item(folder, path):
    users = [other for other in all_files() if other != path and is_used_by(path, other)]
    is_silent = path.suffix in SILENT or path.name in SILENT_FILES
    told = "" if is_silent else head(path)
    if not told and not is_silent:
        raise Nameless(path)
    line = f"- [`{path.relative_to(folder)}`](../{path})" + (f": {told}" if told else "")
    line += "" if line.endswith(".") else "."
    names = {f"`{other.relative_to(folder) if folder_of(other) == folder else other}`" for other in users}
    if names:
        return f"{line} Used by: {listed(names)}."
    return line + (" Tests." if is_test(path) else "")


def page():
    """The lines of the page."""
    yield "# Around the crates"
    yield "\n`.ci/house --write` makes this page from the files. What stands here is not proved: it calls what is, builds it,"
    yield "tests it or measures it. [ARCHITECTURE](ARCHITECTURE.md#around-the-crates) draws how it stands around the crates,"
    yield "and [PROVED](PROVED.md#trusted) says what of it is trusted. Behind what a file is for stands who uses it: the files"
    yield "that name it in their code. What no other file names is called by hand, or found by its folder, as tests are."
    for folder, about in FOLDERS.items():
        yield f"\n## {folder}\n\n{about}\n"
        yield from (item(folder, path) for path in all_files() if folder_of(path) == folder)
