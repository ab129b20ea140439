"""What the hostile runs share: runs of a built program, with each request for memory, each read or each
write failing in turn, or with little stack; and their count."""
import os
import re
import shutil
import subprocess
import sys

ROOT = os.path.dirname(os.path.dirname(os.path.realpath(__file__)))
sys.path[:0] = [os.path.join(ROOT, "tools"), os.path.join(ROOT, "bindings")]

import jp_tools  # noqa: E402
import rows  # noqa: E402

# The sentences for what is refused, by their reasons.
OF_QUERIES, OF_DOCUMENTS = rows.sentences("Query"), rows.sentences("Document")

# How many bytes a document may have.
LARGEST = 16_777_216


def built(crate):
    """The program of a crate: the proved one, or with --unproved the one built without proofs."""
    return jp_tools.program(crate, jp_tools.is_proved_wanted())


class Runs:
    """Counts the runs that behaved and those that did not."""

    def __init__(self):
        self.passed = 0
        self.failed = 0

    def expect(self, holds, what):
        if holds:
            self.passed += 1
        else:
            self.failed += 1
            print(f"hostile: {what[:300]}")

    def end(self):
        """Prints the counts, and answers the status that they come to."""
        print(f"{self.passed} passed, {self.failed} failed")
        return 0 if self.failed == 0 and self.passed > 0 else 1


def run(program, words, document, environment=None, marks=None, stack=None, output=None):
    """The status of a run and what it printed on both streams, on the first if no other output is
    given."""
    # Nothing runs here between fork and exec, which would copy this process for each of thousands of runs.
    limited = [] if stack is None else ["prlimit", f"--stack={stack}"]
    marked = {} if marks is None else {"MARKS": str(marks)}
    done = subprocess.run(
        [*limited, program, *words],
        input=document.encode(),
        stdout=subprocess.PIPE if output is None else output,
        stderr=subprocess.PIPE,
        env={**(environment or {}), **marked},
        pass_fds=() if marks is None else (marks,),
        timeout=60,
        check=False,
    )
    return done.returncode, (done.stdout or b"").decode(), done.stderr.decode()


def in_shell(line):
    """The status of a line of the shell and what it printed on both streams."""
    done = subprocess.run(["bash", "-c", line], capture_output=True, timeout=60, check=False)
    return done.returncode, done.stdout, done.stderr


def build_library(folder, name):
    """A library that stands before a program's calls: `refuse`, which refuses one request for memory
    and counts what is held, or `calls`, which fails one read or one write and counts both."""
    library = os.path.join(folder, f"{name}.so")
    source = os.path.join(ROOT, "hostile", f"{name}.c")
    compiler = os.environ.get("CC", "cc")
    if shutil.which(compiler) is None:
        jp_tools.stop(f"there is no C compiler ({compiler}), which makes what refuses memory")
    subprocess.run([compiler, "-shared", "-fPIC", "-O1", "-o", library, source], check=True)
    return library


def refused_run(program, library, number, words, document, **environment):
    """Whether the request of this number came and was refused, and what the run gave."""
    inner, outer = os.pipe()
    environment |= {"LD_PRELOAD": library, "REFUSED_REQUEST": str(number)}
    given = run(program, words, document, environment, marks=outer)
    os.close(outer)
    came = os.read(inner, 1) != b""
    os.close(inner)
    return came, given


def told_by_library(program, library, words, document, what):
    """What a run gave, and the number that the library tells at its end."""
    inner, outer = os.pipe()
    given = run(program, words, document, {"LD_PRELOAD": library, what: "1"}, marks=outer)
    os.close(outer)
    told = os.read(inner, 20)
    os.close(inner)
    return given, int(told)


def held_at_most(program, library, words, document):
    """What a run gave, and how many bytes it held at most."""
    return told_by_library(program, library, words, document, "TELL_HELD")


def requests_of(program, library, words, document):
    """What a run gave, and how often it asked for memory."""
    return told_by_library(program, library, words, document, "TELL_REQUESTS")


def refuse_growths(runs, library, program, words, document, whole, less=(), closing="", **environment):
    """Refuses each request of a run, one a run: it gives what it gives with ample memory, `whole`, or
    status 4 with its line and a prefix of that on both streams; or one of `less`, which lack what a run
    can do without. What a run tells at its end all the same, the expression `closing` finds.
    The statuses of the refused runs."""
    statuses = []
    number = 1
    while True:
        came, given = refused_run(program, library, number, words, document, **environment)
        status, printed, line = given
        line = re.sub(f"(?:{closing})$", "", line)
        told = line.removesuffix("want of memory\n")
        is_prefix = whole[1].startswith(printed) and line != told and whole[2].startswith(told)
        stopped = came and status == 4 and is_prefix
        what = f"{words} with request {number} refused: {status} {printed!r} {line!r}"
        lacks = came and given in less
        runs.expect(given == whole or stopped or lacks, what)
        if not came:
            break
        statuses.append(status)
        again = run(program, words, document)
        runs.expect(again == whole, f"{words} after request {number}: {again}")
        number += 1
    what = " ".join([*words, document.strip()])
    print(f"hostile: {len(statuses)} growths refused of {what[:60]}")
    return statuses


# A text in lists, each of which but the first is one level deeper than the one before, so that a walk asks for memory
# between them; and the values by `$..*`, a few of which fill a buffer.
LONG = '"' + 10_000 * "a" + '"'
DEEPENING = "[7," + 60 * "[" + LONG + 60 * "]" + "]\n"
DEEPENING_VALUES = "7\n" + "".join(depth * "[" + LONG + depth * "]" + "\n" for depth in range(60, -1, -1))


def write_in_turn(runs, library, program, words, is_in_turn):
    """Whether a run has written the first values of `DEEPENING` where memory is refused later on."""
    given = run(program, words, DEEPENING)
    runs.expect(given == (0, DEEPENING_VALUES, ""), f"{words}: {given[0]} {given[2]}")
    came, number, lengths = True, 0, set()
    while came:
        number += 1
        came, (status, printed, _) = refused_run(program, library, number, words, DEEPENING)
        if status == 4:
            lengths.add(len(printed))
            runs.expect(DEEPENING_VALUES.startswith(printed), f"{words} with request {number} refused")
    runs.expect(0 in lengths and (len(lengths) > 1) == is_in_turn, f"{words}: {lengths} bytes are written")
    print(f"hostile: {number - 1} growths refused of {' '.join(words)} over nodes ever deeper")


def counted_run(program, calls, words, document, output=None, **environment):
    """What a run gave, and how many reads of its inputs and writes to its output it made."""
    inner, outer = os.pipe()
    environment |= {"LD_PRELOAD": calls, "TELL_CALLS": "1"}
    given = run(program, words, document, environment, marks=outer, output=output)
    os.close(outer)
    reads, writes = os.read(inner, 40).split()
    os.close(inner)
    return given, int(reads), int(writes)


def spoil_output(runs, calls, program, words, document, hung_up="write fault\n", closing=""):
    """Runs whose first write fails: on a full device, on a pipe that its reader has closed, where `hung_up` is
    told, and on a device that fails once. No run writes again. `closing` is told at the end of others."""
    ended = (5, "", "write fault\n" + closing)
    with open("/dev/full", "wb") as full:
        given = counted_run(program, calls, words, document, output=full)
    runs.expect((given[0], given[2]) == (ended, 1), f"{words} on a full device: {given}")
    inner, outer = os.pipe()
    os.close(inner)
    given = counted_run(program, calls, words, document, output=outer)
    os.close(outer)
    runs.expect((given[0], given[2]) == ((5, "", hung_up), 1), f"{words} on a closed pipe: {given}")
    given = counted_run(program, calls, words, document, FAILED_WRITE="1")
    runs.expect((given[0], given[2]) == (ended, 1), f"{words} on a device that fails once: {given}")


def fail_writes(runs, calls, program, words, document, ends):
    """Fails each write of a run, one a run, and no other: it is the last one. `ends` has what the run
    prints on both streams where it fails at its first write, at its second, and so on, and at none."""
    for number, (printed, told) in enumerate(ends, 1):
        given, _, writes = counted_run(program, calls, words, document, FAILED_WRITE=str(number))
        fails = number < len(ends)
        ended = (5, printed, told + "write fault\n") if fails else (given[0], printed, told)
        made = number if fails else number - 1
        what = f"{words} with write {number} failing: {given[0]} {given[1][:80]!r} {given[2]!r}"
        runs.expect(given == ended and writes == made, f"{what}, {writes} writes")
    print(f"hostile: {len(ends) - 1} writes failed of {' '.join(words)[:60]}")


def fail_reads(runs, calls, program, words, document, size, end_of):
    """Fails each read of a run, one a run, of which each gives so many bytes: it is the last one.
    `end_of` says what the run has printed on both streams after these bytes of the document."""
    given_bytes = document.encode()
    reads = len(given_bytes) // size + 1
    for number in range(1, reads + 1):
        given, made, _ = counted_run(
            program, calls, words, document, FAILED_READ=str(number), READ_AT_MOST=str(size)
        )
        printed, told = end_of(given_bytes[: (number - 1) * size])
        ended = (5, printed, told + "read fault\n")
        what = f"{words} with read {number} failing: {given[0]} {given[1][:80]!r} {given[2]!r}"
        runs.expect(given == ended and made == number, f"{what}, {made} reads")
    print(f"hostile: {reads} reads failed of {' '.join(words)[:60]}")
