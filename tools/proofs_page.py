"""What a release says of itself: what is proved of it, by which kit, how to prove it again, and what it was made with."""
import os
import re
import shutil
import subprocess
import sys

from jp_tools import contents

EDITOR = os.path.join(os.environ.get("CODEMIRROR", "/usr/share/javascript/codemirror"), "lib", "codemirror.js")
# Besides the kit, what has a part in the bytes.
TOOLS = [("cc", "--version"), ("objcopy", "--version"), ("dpkg-deb", "--version"), ("javac", "-version"),
         ("wasm-opt", "--version")]
CHANGED = "Files of the repository differed from that commit.\n"
PROVED = """\
jp {version}, of the commit {commit} ({date}).
{changed}{left_out}
Proved: each function of the programs jp and jp-lines, and of the engine that all other parts call, meets its contract, by

    {kit}

Not proved but tested: the packages around the engine, the page, and what compilers and linkers make of proved code. What
is proved of each call, what is tested, and what is trusted: docs/PROVED.md of the repository.

To prove it again, in a clone of the repository with the kit's rt on the PATH:

    git checkout {commit}
    make prove            the programs: half an hour on four processors
    bindings/build        the engine for C, Go, Python, Rust and Java
    page/build            the engine for Node and the page
    packaging/release     this folder
    .ci/run               the gate: all crates, the wrong code that must be refused, and all tests: hours

Made with:
{tools}

To check the files:                    sha256sum --check SHA256SUMS
Parts, versions, licences and sums:    jp.spdx.json, in the form of SPDX 2.3
How each part is used:                 docs/RELEASE.md and docs/EMBED.md of the repository
"""
UNPROVED = """\
Nothing in this folder is proved, and it is no release: jp {version} of the commit {commit} ({date}), built without proofs
and with run-time checks. Each program and library has a mark inside that says so.
{changed}{left_out}
Sources of the kit:

    {kit}

Made with:
{tools}

make release puts a release together, of proved programs and libraries: docs/RELEASE.md of the repository.
"""


def editor_version():
    """The version of CodeMirror that page/join takes, or None without one."""
    return re.search(r'CodeMirror\.version = "([\d.]+)"', contents(EDITOR).decode())[1] if os.path.exists(EDITOR) else None


def _first_line(words):
    told = subprocess.run(words, stdout=subprocess.PIPE, stderr=subprocess.STDOUT, text=True, check=True)
    return told.stdout.splitlines()[0]


def _tools():
    lines = [_first_line(words) for words in TOOLS if shutil.which(words[0])]
    editor = editor_version()
    return [*lines, "Python " + sys.version.split()[0], *([f"CodeMirror {editor}"] if editor else [])]


def proofs_page(is_proved, version, commit, date, is_changed, kit, left_out):
    """The text of PROVED.txt, or of UNPROVED.txt."""
    return (PROVED if is_proved else UNPROVED).format(
        version=version, commit=commit, date=date, kit=kit, changed=CHANGED if is_changed else "",
        left_out="".join(f"Not in this folder, since a tool was not installed: {it}.\n" for it in left_out),
        tools="\n".join(f"    {it}" for it in _tools()))
