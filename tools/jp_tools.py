#!/usr/bin/env python3
"""What the scripts of this repository share: where things are, the crates, the kit, and which program is run.

Python scripts import it. A script of the shell asks it for one thing:

    tools/jp_tools.py proved CRATE    the proved program of a crate
    tools/jp_tools.py unproved CRATE  the one that is built without proofs
    tools/jp_tools.py refuse FILE..   nothing, and the status 1 where one was built without proofs
    tools/jp_tools.py is-unproved FILE
                                      nothing, and the status 0 where it was built without proofs, or else 1
    tools/jp_tools.py kit             the folder of the kit
    tools/jp_tools.py c-library FILE..
                                      the oldest version of the C library, as 2.34, over which these files run
"""
import os
import re
import shutil
import subprocess
import sys

ROOT = os.path.dirname(os.path.dirname(os.path.realpath(__file__)))
# What is built without proofs has these words inside, whatever it is called and wherever it is put.
MARK = b"jp: built without its proofs, of "
HOW_TO_PROVE = "bin/build {} or make prove proves it"


def script():
    """The script that runs, as a user names it."""
    path = os.path.realpath(sys.argv[0])
    return os.path.relpath(path, ROOT) if path.startswith(ROOT + os.sep) else os.path.basename(path)


def stop(text, status=1):
    """Ends the script with one line."""
    # Called by a script of the shell, this one is not what the user runs.
    print(text if __name__ == "__main__" else f"{script()}: {text}", file=sys.stderr)
    sys.exit(status)


def crate(name, root=ROOT):
    """The folder of a crate."""
    return os.path.join(root, "crates", name)


def crate_lines():
    """The lines of crates.txt, by the crates that they name."""
    with open(os.path.join(ROOT, "crates.txt"), encoding="utf-8") as file:
        lines = [line for line in file if line.partition("#")[0].strip()]
    return {line.partition(":")[0].split()[0]: line for line in lines}


def libraries_used():
    """The libraries that each crate uses, as crates.txt lists them."""
    lines = crate_lines()
    return {name: lines[name].partition("#")[0].partition(":")[2].split() for name in lines}


def below(name, used):
    """The libraries of the repository below a crate, each after those that it uses."""
    found = []
    for library in used[name]:
        if library in used:
            found += [it for it in [*below(library, used), library] if it not in found]
    return found


def sources(name):
    """The files of a crate's code."""
    found = []
    for folder, _, names in os.walk(os.path.join(crate(name), "src")):
        found += [os.path.join(folder, it) for it in names if it.endswith(".rt")]
    return sorted(found)


def contents(path):
    with open(path, "rb") as file:
        return file.read()


def is_of_tests(name):
    """Whether a crate has nothing but the tests of others."""
    return name.endswith("_tests")


def has_tests(name):
    return any(re.search(rb"^\s*#\[test\]", contents(path), re.MULTILINE) for path in sources(name))


def kit():
    """The folder of the Rattle kit."""
    if shutil.which("rt") is None:
        stop("rt is not on the PATH: install the Rattle kit, which README.md names")
    told = subprocess.run(["rt", "doc"], stdout=subprocess.PIPE, text=True, check=False)
    if told.returncode != 0 or not told.stdout.strip():
        stop("rt doc does not tell where the Rattle kit is")
    return os.path.dirname(told.stdout.splitlines()[0])


def most_at_once(memory):
    """How many jobs there are processors for, and memory, where each takes so many KiB."""
    with open("/proc/meminfo", encoding="ascii") as file:
        free = next(int(line.split()[1]) for line in file if line.startswith("MemAvailable:"))
    return max(1, min(len(os.sched_getaffinity(0)), free // memory))


def path_of_proved(name):
    """Where the kit leaves the program of a crate that it proved."""
    return os.path.join(crate(name), "out", name)


def path_of_unproved(name):
    """Where the program of a crate is built without proofs."""
    return os.path.join(ROOT, "out", "unproved", name)


def is_unproved(path):
    """Whether a file was built without proofs."""
    return MARK in contents(path)


def shown_as(path):
    """A path as it is told: below the repository from there on."""
    path = os.path.abspath(path)
    return os.path.relpath(path, ROOT) if path.startswith(ROOT + os.sep) else path


def refuse_unproved(paths):
    """Ends the script where a library or another file was built without proofs."""
    for path in paths:
        if is_unproved(path):
            maker = "page/build" if path.endswith((".wasm", ".html")) else "bindings/build"
            stop(f"{shown_as(path)} was built without its proofs: {maker} makes the proved one")


def proved(name):
    """The proved program of a crate; ends the script where there is none."""
    path = path_of_proved(name)
    shown = os.path.relpath(path, ROOT)
    if not os.access(path, os.X_OK):
        stop(f"{shown} is not there; {HOW_TO_PROVE.format(name)}")
    if is_unproved(path):
        stop(f"{shown} was built without its proofs: remove it; {HOW_TO_PROVE.format(name)}")
    return path


def unproved(name):
    """The program of a crate that is built without proofs; ends the script where there is none."""
    path = path_of_unproved(name)
    if not os.access(path, os.X_OK):
        stop(f"{os.path.relpath(path, ROOT)} is not there: bin/build --unproved {name} builds it")
    return path


def program(name, is_proved=True):
    """The program of a crate that a test runs, which the test says."""
    path = proved(name) if is_proved else unproved(name)
    shown = os.path.relpath(path, ROOT)
    print(f"{script()}: runs {shown}, which is " + ("proved" if is_proved else "built without proofs"), flush=True)
    return path


def c_library(paths):
    """The newest version of the C library that a symbol of programs and shared objects names, as "2.34"; ends the
    script where they need another library, or name none."""
    told = [subprocess.run(["objdump", "-p", it], stdout=subprocess.PIPE, text=True, check=True).stdout for it in paths]
    needed = {it for text in told for it in re.findall(r"^ *NEEDED +(\S+)$", text, re.MULTILINE)} - {"libc.so.6"}
    if needed:
        stop(f"no package is known here for {' '.join(sorted(needed))}")
    versions = {it for text in told for it in re.findall(r"\bGLIBC_([0-9][0-9.]*)", text)}
    if not versions:
        stop("no symbol names a version of the C library")
    return max(versions, key=lambda it: [int(part) for part in it.split(".")])


def is_proved_wanted():
    """Whether a script is to run the proved programs, as all do unless their first word is --unproved."""
    return sys.argv[1:2] != ["--unproved"]


def main(words):
    if len(words) == 2 and words[0] in ("proved", "unproved"):
        print(proved(words[1]) if words[0] == "proved" else unproved(words[1]))
    elif words[:1] == ["refuse"]:
        refuse_unproved(words[1:])
    elif len(words) == 2 and words[0] == "is-unproved":
        sys.exit(not is_unproved(words[1]))
    elif words == ["kit"]:
        print(kit())
    elif words[:1] == ["c-library"]:
        print(c_library(words[1:]))
    else:
        sys.exit(__doc__)


if __name__ == "__main__":
    main(sys.argv[1:])
