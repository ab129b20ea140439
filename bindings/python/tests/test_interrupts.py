"""Ctrl-C during calls that would take long: how much processor each takes from the signal on until its exception."""
import subprocess
import sys
import unittest

# Asks again and again until the signal comes, which a timer sends. A run in the background of a shell ignores the
# signal, and so would the child.
PROGRAM = """
import json, os, signal, sys, threading, time
signal.signal(signal.SIGINT, signal.default_int_handler)
import jsonpath_jp as jp

def interrupt():
    global sent
    sent = time.process_time()
    os.kill(os.getpid(), signal.SIGINT)

exec(sys.argv[1])
call = compile(sys.argv[2], "call", "exec")
try:
    threading.Timer(float(sys.argv[3]), interrupt).start()
    while True:
        try:
            exec(call)
        except jp.Error:
            pass
except KeyboardInterrupt:
    print(time.process_time() - sent)
# Calls that follow do not wait.
jp.find("$[0]", "[1]"), query.find("[1]"), document.find("$[0]")
"""


def deep():
    """A query that takes years over a small document."""
    return "query, document = jp.compile('$' + '..*' * 20 + '.x'), jp.Document('[' * 100 + ']' * 100)"


def matched(pattern, size, count=1):
    """A query that asks so many texts of so many characters for a pattern."""
    return (
        f"query = jp.compile({f'$[?match(@,{chr(34)}{pattern}{chr(34)})]'!r})\n"
        f"document = jp.Document(['a' * {size}] * {count})"
    )


def written(text):
    """A document as a text, with queries that are not asked of it."""
    return f"query, document, text = jp.compile('$.x'), jp.Document('[[]]'), {text}"


# What is prepared, and what is asked.
ROWS = {
    "nodes": (deep(), "query.find(document)"),
    "nodes of a text": (deep(), "query.find(document.text)"),
    "both read for the call": (deep(), "jp.find(query.text, document.text)"),
    "one node after another": (deep(), "list(query.finditer(document))"),
    "whether there is a node": (deep(), "document.exists(query)"),
    "queries over a kept document": (deep(), "jp.find_many([query] * 5000, document)"),
    "many queries": (deep(), "jp.find_many([query] * 5000, document.text)"),
    "a long pattern": (matched("a{99999}", 100_000), "query.find(document)"),
    "a long pattern, read for the call": (matched("a{99999}", 100_000), "jp.find(query.text, document.text)"),
    "repeats of repeats": (matched("(a{300}){300}", 100_000, 10), "query.find(document)"),
    "a pattern of 2,000 positions": (matched("(a?){2000}", 100_000, 10), "query.find(document)"),
    "a pattern of as many that all move": (matched(".*a.{2000}", 100_000, 10), "query.find(document)"),
    "a class and a most": (matched("[^b]{0,4000}b", 100_000, 10), "query.find(document)"),
    "groups in one another": (matched("(" * 50 + "a*" + ")*" * 50, 100_000, 10), "query.find(document)"),
    "ways to a value": (
        "query = jp.compile('$[0' + ',0' * 999 + '][?count(@[*,*][*,*])>999]')\n"
        "document = jp.Document([[{'n' * 500000 + str(it): [1, 2, 3] for it in range(10)}]])",
        "query.find(document)",
    ),
    "a long answer": (
        "query, document = jp.compile('$[' + '0,' * 20000 + '0]'), jp.Document(['a' * 20000])",
        "query.find(document)",
    ),
    "a long answer of a text": (
        "query, document = jp.compile('$[' + '0,' * 20000 + '0]'), jp.Document(['a' * 20000])",
        "jp.find(query.text, document.text)",
    ),
    "a long document": (written("'[' + '1,' * 20000000 + '1]'"), "query.find(text)"),
    "one that is refused": (written("'[' + '1,' * 4000000 + ']'"), "query.find(text)"),
    "one with a fraction": (written("'[' + '1,' * 4000000 + '0.5]'"), "jp.find('$', text, numbers='whole')"),
    "one with too many digits": (written("'[' + '0.5,' * 2500000 + '9' * 39 + ']'"), "jp.find('$', text)"),
    "a long query": (written("'$' + '.a' * 4000000"), "jp.compile(text)"),
    "one for a call": (written("'$' + '.a' * 4000000"), "jp.find(text, '[]')"),
    "one to check": (written("'$' + '.a' * 4000000"), "jp.check(text)"),
    "one that is not accepted": (written("'$' + '.a' * 4000000 + '['"), "jp.canonical(text)"),
}
# This is interrupted the first time, since nothing is raised by what comes when a document is freed.
ONCE = {"one that is kept": (written("'[' + '1,' * 40000000 + '1]'"), "jp.Document(text)")}
SOON, LATE = 0.05, 1


class Interrupts(unittest.TestCase):
    # Seconds of processor.
    MOST = 1

    def test_within_a_second(self):
        rows = [(name, wait) for name in ROWS for wait in (SOON, LATE)] + [(name, SOON) for name in ONCE]
        for name, wait in rows:
            with self.subTest(row=name, wait=wait):
                took = self.interrupted(*{**ROWS, **ONCE}[name], wait)
                self.assertLess(took, self.MOST)

    def interrupted(self, prepared, call, wait):
        """How long a program takes that is interrupted after so many seconds."""
        words = [sys.executable, "-c", PROGRAM, prepared, call, str(wait)]
        run = subprocess.run(words, capture_output=True, text=True, timeout=60)
        self.assertEqual((run.returncode, run.stderr), (0, ""))
        return float(run.stdout)


if __name__ == "__main__":
    unittest.main()
