#!/usr/bin/env python3
"""Runs the examples of a page by programs, and compares what they print, on both outputs, with what stands there.

    tools/examples.py [--man] [--jp PROGRAM] [--jp-lines PROGRAM] [--status-of PROGRAM] [--without WORD].. PAGE

An example is a line that begins with "$ ", indented or in a fence; the lines after it there are what it prints. With
--man the page is one as `man` shows it, where an empty line ends an example and EXAMPLES stands before them. An
example names a program as `bin/jp`, or `jp`: it is run in a folder where that is the program given. With --status-of
each example also has to end with the status with which it ends where that program is `jp`. With --without those
examples are left out that have the word in them, or one of several.
"""
import os
import re
import shutil
import subprocess
import sys
import tempfile

MAN = re.compile(r"^EXAMPLES$(.*?)^[A-Z]", re.DOTALL | re.MULTILINE)


def of_page(text):
    """The examples of a page: each a command and what it prints."""
    found, is_open, is_fenced = [], False, False
    for line in text.splitlines():
        if line.startswith("```"):
            is_fenced, is_open = not is_fenced, False
            continue
        indent = "" if is_fenced else "    "
        is_begun = line.startswith(indent + "$ ")
        is_open = is_begun or (is_open and line.startswith(indent))
        if is_begun:
            found.append((line[len(indent) + 2 :], []))
        elif is_open:
            found[-1][1].append(line[len(indent) :])
    return [(command, "\n".join(printed)) for command, printed in found]


def of_man(text):
    """The examples of a page as `man` shows it."""
    found, is_open, indent = [], False, 0
    for line in MAN.search(text)[1].splitlines():
        is_begun = line.lstrip().startswith("$ ")
        is_open = is_begun or (is_open and line.strip() != "")
        if is_begun:
            indent = len(line) - len(line.lstrip())
            found.append((line[indent + 2 :], []))
        elif is_open:
            found[-1][1].append(line[indent:])
    return [(command, "\n".join(printed)) for command, printed in found]


def run(command, programs, folder):
    """What a command prints, and its status, in this folder, where bin/ has these programs by their names."""
    bin_folder = os.path.join(folder, "bin")
    shutil.rmtree(bin_folder, ignore_errors=True)
    os.mkdir(bin_folder)
    for name, path in programs.items():
        os.symlink(os.path.realpath(path), os.path.join(bin_folder, name))
    environment = {**os.environ, "PATH": f"{bin_folder}:{os.environ['PATH']}"}
    how = {"stdin": subprocess.DEVNULL, "stdout": subprocess.PIPE, "stderr": subprocess.STDOUT}
    done = subprocess.run(["bash", "-c", command], cwd=folder, env=environment, check=False, **how)
    return done.stdout.decode().rstrip("\n"), done.returncode


def faults_of(found, programs, status_of=None):
    """What is told of each example that prints something else, or ends otherwise than by another program. All of them
    are run in one folder, as by who reads the page: what one writes the next may read."""
    with tempfile.TemporaryDirectory() as folder:
        for command, expected in found:
            printed, status = run(command, programs, folder)
            if printed != expected:
                yield f"{command}\nprints:\n{printed}\nand not:\n{expected}"
            if status_of and run(command, {**programs, "jp": status_of}, folder)[1] != status:
                yield f"{command}\nends with another status than by {status_of}: {status}"


def main(words):
    programs, status_of, without, examples_of = {}, None, set(), of_page
    while len(words) > 1:
        word = words.pop(0)
        if word == "--man":
            examples_of = of_man
        elif word in ("--jp", "--jp-lines"):
            programs[word[2:]] = words.pop(0)
        elif word == "--status-of":
            status_of = words.pop(0)
        elif word == "--without":
            without.add(words.pop(0))
        else:
            sys.exit(__doc__)
    with open(words[0], encoding="utf-8") as file:
        found = [example for example in examples_of(file.read()) if without.isdisjoint(example[0].split())]
    faults = list(faults_of(found, programs, status_of))
    print("\n".join(faults), end="\n" if faults else "")
    print(f"examples of {os.path.basename(words[0])}: {len(found) - len(faults)} passed, {len(faults)} failed")
    sys.exit(bool(faults) or not found)


if __name__ == "__main__":
    main(sys.argv[1:] or [""])
