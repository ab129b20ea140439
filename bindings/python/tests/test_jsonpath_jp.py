"""What Python users see besides what bindings/rows.jsonl has. Expected values are by hand."""
import ctypes
import doctest
import json
import mmap
import pickle
import resource
import signal
import subprocess
import sys
import threading
import time
import unittest
from unittest import mock

import jsonpath_jp as jp
from jsonpath_jp import _calls, _engine, _library
from runs import first_runs

STORE = {
    "store": {
        "book": [
            {"category": "reference", "author": "Nigel Rees", "title": "Sayings", "price": 8},
            {"category": "fiction", "author": "Evelyn Waugh", "title": "Sword", "price": 12},
        ],
        "bicycle": {"color": "red", "price": 399},
    }
}


# One digit more than a decimal has.
DIGITS_39 = "123456789012345678901234567890123456789"


class Find(unittest.TestCase):
    def test_paths_and_values(self):
        found = jp.find("$.store.book[?@.price<10].title", STORE)
        self.assertEqual([match.path for match in found], ["$['store']['book'][0]['title']"])
        self.assertEqual([match.value for match in found], ["Sayings"])
        self.assertEqual(found[0].full_path, found[0].path)
        self.assertEqual(found[0].text, '"Sayings"')

    def test_many_queries(self):
        queries = ["$.a[*]", "$.a[01]", "$.é", "", "$.b", "$\0", "$.a"]
        answers = jp.find_many(queries, {"a": [1, "é" * 5000]})
        for query, answer in zip(queries, answers):
            try:
                self.assertEqual(answer, jp.find(query, {"a": [1, "é" * 5000]}))
            except jp.QueryError as refused:
                self.assertEqual(str(answer), str(refused))
        self.assertEqual([len(answers[at]) for at in (0, 2, 4, 6)], [2, 0, 0, 1])
        self.assertEqual([answers[at].place for at in (1, 3, 5)], [5, 0, 1])

    def test_many_queries_over_no_document(self):
        self.assertEqual(jp.find_many([], "["), [])
        self.assertEqual([error.kind for error in jp.find_many([""], "[")], ["Syntax"])
        with self.assertRaises(jp.DocumentError) as caught:
            jp.find_many(["", "$"], "[0,2.5]", numbers="whole")
        self.assertEqual(caught.exception.path, "$[1]")
        with self.assertRaises(jp.DocumentError) as caught:
            jp.find_many(["", "$"], f"[0,{DIGITS_39}]")
        self.assertEqual((caught.exception.kind, caught.exception.path), ("NumberRange", "$[1]"))

    def test_whole_numbers_are_exact(self):
        doubles = [2**53 - 1, 2**53, 2**53 + 1, 2**60, 2**63 - 1]
        for whole in [*doubles, *(-it for it in doubles), 2**63, -(2**63), 2**64 - 1]:
            for numbers in ("whole", "decimal"):
                for document in ([whole], jp.Document([whole], numbers=numbers)):
                    with self.subTest(whole=whole, document=repr(document), numbers=numbers):
                        self.assertEqual(jp.find_one("$[0]", document, numbers=numbers).text, str(whole))
                        self.assertEqual(jp.values("$[0]", document, numbers=numbers), [whole])

    def test_whole_numbers_beyond_64_bits(self):
        for whole in (2**64, -(2**63) - 1, 10**30):
            with self.assertRaises(jp.DocumentError) as caught:
                jp.find("$", [0, whole], numbers="whole")
            fault = caught.exception
            self.assertEqual((fault.kind, fault.path, fault.column), ("NotWhole", "$[1]", 4))
            self.assertEqual(fault.reason, "OutOfRange")

    def test_documents_as_text_bytes_and_objects(self):
        for document in ['{"é":[1]}', '{"é":[1]}'.encode(), bytearray('{"é":[1]}'.encode()), {"é": [1]}]:
            self.assertEqual(jp.paths("$.é[0]", document), ["$['é'][0]"])
        self.assertEqual(jp.values("$", None), [None])
        self.assertEqual(jp.values("$", True), [True])

    def test_texts_with_tabs_newlines_and_zero_bytes(self):
        names = {"a\tb\n\x00": "c\td\n\x00"}
        (match,) = jp.find("$.*", names)
        self.assertEqual(match.value, "c\td\n\x00")
        self.assertEqual(jp.values(match.path, names), [match.value])

    def test_a_text_longer_than_the_first_buffer(self):
        items = list(range(100_000))
        self.assertEqual(jp.values("$[*]", items), items)
        self.assertEqual(jp.values("$[0]", [["x" * 3_000_000]]), [["x" * 3_000_000]])


class Queries(unittest.TestCase):
    def test_check(self):
        self.assertIsNone(jp.check("$..a"))
        with self.assertRaises(jp.QueryError):
            jp.check("$..")

    def test_a_query_that_is_kept(self):
        query = jp.parse("$.a")
        self.assertEqual(query.values({"a": 1}), [1])
        self.assertEqual(query.paths({"a": 1}), ["$['a']"])
        self.assertEqual(query.find({"b": 1}), [])
        with self.assertRaises(jp.QueryError):
            jp.parse("a")


class Refusals(unittest.TestCase):
    def test_a_query_with_its_caret(self):
        with self.assertRaises(jp.QueryError) as refused:
            jp.find("$.a[01]", "[]")
        fault = refused.exception
        self.assertEqual((fault.kind, fault.place, fault.column), ("Syntax", 5, 5))
        text = f"query refused: Syntax at 5\n$.a[01]\n     ^\n{fault.sentence}\nTry: $.a[1]"
        self.assertEqual(str(fault), text)
        self.assertIsInstance(fault, ValueError)
        self.assertEqual(str(pickle.loads(pickle.dumps(fault))), text)

    def test_without_a_sentence(self):
        for call in (jp.check, jp.canonical, jp.parse, lambda it: jp.find(it, "[]")):
            with self.assertRaises(jp.QueryError) as refused:
                call("$.\ud800")
            fault = refused.exception
            self.assertEqual((fault.kind, fault.place), ("Syntax", 2))
            self.assertEqual((fault.sentence, fault.suggestion), (None, None))
        (answer,) = jp.find_many(["$.\ud800"], "[]")
        self.assertEqual((answer.sentence, answer.suggestion), (None, None))
        self.assertEqual(str(jp.QueryError("Syntax", 1, "$[")), "query refused: Syntax at 1\n$[\n ^")

    def test_the_caret_is_under_a_character(self):
        with self.assertRaises(jp.QueryError) as refused:
            jp.check("$.é[01]")
        self.assertEqual((refused.exception.place, refused.exception.column), (6, 5))
        self.assertEqual(str(refused.exception).split("\n")[2], "     ^")

    def test_documents_of_python(self):
        for document, kind, path, place, reason in [
            ('"\ud800"', "NotJson", None, (1, 1, 2), "NotUtf8"),
            ([1e400], "NotJson", "$[0]", (None, None, None), None),
            ([0.5], "NotWhole", "$[0]", (1, 1, 2), "HasFraction"),
        ]:
            how = {"numbers": "whole"}
            calls = (jp.find, jp.paths, jp.values, lambda it, document, **how: jp.find_many([it], document, **how))
            for query in ("$", "$.*"):
                for call in calls:
                    with self.subTest(document=str(document)[:20], query=query):
                        with self.assertRaises(jp.DocumentError) as refused:
                            call(query, document, **how)
                        fault = refused.exception
                        self.assertEqual((fault.kind, fault.path), (kind, path))
                        self.assertEqual((fault.offset, fault.line, fault.column), place)
                        self.assertEqual(fault.reason, reason)

    def test_what_a_document_error_says(self):
        for document, numbers, text in [
            ("[1,\n]", "decimal", "NotJson\nline 2, column 1: "),
            ("[-0]", "whole", "NotWhole at $[0]\nline 1, column 2: "),
            (f"[-0,\n-{DIGITS_39}]", "decimal", "NumberRange at $[1]\nline 2, column 1: "),
        ]:
            with self.assertRaises(jp.DocumentError) as refused:
                jp.find("$", document, numbers=numbers)
            fault = refused.exception
            self.assertEqual(str(fault), f"document refused: {text}{fault.sentence}")
            self.assertEqual(str(pickle.loads(pickle.dumps(fault))), str(fault))
        self.assertEqual(str(jp.DocumentError("NotWhole", "$[0]")), "document refused: NotWhole at $[0]")

    def test_lines_that_are_documents(self):
        for document, is_told in [
            ('{"a":1}\n{"a":2}\n', True),
            ("1\r\n\r\n 2", True),
            ("\n[1, 2] \n[3]", True),
            ("1 2", False),
            ("[1,\n2]\n3", False),
            ('{"a":1},\n{"a":2}', False),
            ("1\n]", True),
            ("[1]\n[2", True),
        ]:
            for given in (document, document.encode()):
                with self.assertRaises(jp.DocumentError) as refused:
                    jp.find("$", given)
                fault = refused.exception
                self.assertEqual(fault.reason, "AfterValue")
                self.assertEqual(fault.suggestion is not None, is_told, document)
                last = str(fault).split("\n")[-1]
                self.assertEqual("JSON Lines" in last and "for line in file" in last, is_told)
                self.assertEqual(pickle.loads(pickle.dumps(fault)).suggestion, fault.suggestion)
        with self.assertRaises(jp.DocumentError) as refused:
            jp.find("$", "1\n[2,]"[2:])
        self.assertIsNone(refused.exception.suggestion)

    def test_a_document_that_is_too_large(self):
        # So many bytes that are never read take no memory; the package copies what is no `bytes`.
        size = 1 << 32
        flags = mmap.MAP_PRIVATE | mmap.MAP_ANONYMOUS | getattr(mmap, "MAP_NORESERVE", 0x4000)
        with mmap.mmap(-1, size, flags=flags) as mapped:
            first = ctypes.c_char.from_buffer(mapped)
            document = ctypes.cast(ctypes.addressof(first), ctypes.c_char_p)
            for text in (b"$", b"$..a"):
                fault = _calls.answer_of(
                    _library.library.jp_eval, "$", 0, text, len(text), document, size, 0, 0, _library.Limit()
                )
                self.assertIsInstance(fault, jp.DocumentError)
                self.assertEqual((fault.kind, fault.path, fault.offset), ("DocumentTooLarge", None, None))
            del first


class Limits(unittest.TestCase):
    # A query, and how many steps it needs over the document: one for each value that is offered and for
    # the end, a segment's selectors and two more at each value that is gone into, and each comparison.
    NEEDED = [("$[*]", 7), ("$..*", 9), ("$[?@==2]", 9), ("$[0]", 0)]
    DOCUMENT = "[1,2]"

    def test_one_that_suffices_and_one_less(self):
        for query, steps in self.NEEDED:
            for call in (jp.find, jp.paths, jp.values):
                expected = call(query, self.DOCUMENT)
                self.assertEqual(call(query, self.DOCUMENT, limit=max(steps, 1)), expected)
                if steps > 1:
                    with self.assertRaises(jp.StepsUsedUp) as caught:
                        call(query, self.DOCUMENT, limit=steps - 1)
                    self.assertEqual((caught.exception.limit, caught.exception.query), (steps - 1, query))

    def test_a_query_that_is_kept(self):
        query = jp.parse("$..*")
        for call in (query.find, query.paths, query.values):
            self.assertEqual(len(call(self.DOCUMENT, limit=9)), 2)
            with self.assertRaises(jp.StepsUsedUp):
                call(self.DOCUMENT, limit=8)

    def test_each_of_many_queries_has_the_whole_limit(self):
        queries = ["$[*]", "$..*", "$[01]", "$[?@==2]", "$[*]"]
        answers = jp.find_many(queries, self.DOCUMENT, limit=8)
        self.assertEqual([type(answer) for answer in answers],
                         [list, jp.StepsUsedUp, jp.QueryError, jp.StepsUsedUp, list])
        self.assertEqual(answers[0], answers[4])
        self.assertEqual(answers[1].limit, 8)

    def test_what_a_limit_is(self):
        for limit in (0, -1, 1 << 64):
            with self.assertRaises(ValueError):
                jp.find("$", "[]", limit=limit)
        self.assertEqual(jp.paths("$.*", "[1]", limit=(1 << 64) - 1), ["$[0]"])
        self.assertEqual(str(jp.StepsUsedUp(8, "$..*")), "steps used up: the query needs more than 8")
        for error in (jp.QueryError, jp.DocumentError, jp.StepsUsedUp):
            self.assertTrue(issubclass(error, jp.Error))

    def test_runs_of_ever_more_steps(self):
        document = list(range(1000))
        queries = ["$..*", "$[0]", "$[?@<10]"]
        expected = jp.find_many(queries, document)
        with first_runs(3), mock.patch.object(_engine, "_LEAST_RUN", 1):
            self.assertEqual(jp.find_many(queries, document), expected)
            self.assertEqual([jp.find(query, document) for query in queries], expected)
            self.assertEqual(jp.find("$..*", document, limit=5000), expected[0])
            for limit in (1, 2, 3, 4, 100):
                with self.assertRaises(jp.StepsUsedUp) as caught:
                    jp.find("$..*", document, limit=limit)
                self.assertEqual(caught.exception.limit, limit)
                self.assertEqual(jp.find_many(["$..*"], document, limit=limit)[0].limit, limit)

    def test_ctrl_c(self):
        # A run in the background of a shell ignores the signal, and so would the child.
        script = (
            "import signal\n"
            "signal.signal(signal.SIGINT, signal.default_int_handler)\n"
            "import jsonpath_jp as jp\n"
            "print('begun', flush=True)\n"
            "jp.find('$' + '..*' * 20 + '.x', '[' * 100 + ']' * 100)\n"
        )
        words = [sys.executable, "-c", script]
        with subprocess.Popen(words, stdout=subprocess.PIPE, stderr=subprocess.PIPE, text=True) as asking:
            self.assertEqual(asking.stdout.readline(), "begun\n")
            time.sleep(0.2)
            start = time.monotonic()
            asking.send_signal(signal.SIGINT)
            try:
                _, said = asking.communicate(timeout=30)
            finally:
                asking.kill()
        self.assertIn("KeyboardInterrupt", said)
        self.assertLess(time.monotonic() - start, 10)


class Threads(unittest.TestCase):
    def test_calls_at_once(self):
        wrong = []

        def ask(number):
            document = json.dumps({"a": [number] * (number * 700 + 1)})
            for _ in range(200):
                if set(jp.values("$.a[*]", document)) != {number}:
                    wrong.append(number)

        threads = [threading.Thread(target=ask, args=[number]) for number in range(4)]
        for thread in threads:
            thread.start()
        for thread in threads:
            thread.join()
        self.assertEqual(wrong, [])

    DEEP = "$" + "[?@.a||@&&!@" * 128 + "]" * 128
    NESTED = "[" * 126 + "]" * 126

    def on_little_stack(self, size, function, *arguments):
        """What the function gives on a thread with so much stack."""
        given = []
        before = threading.stack_size(size)
        try:
            thread = threading.Thread(target=lambda: given.append(function(*arguments)))
            thread.start()
        finally:
            threading.stack_size(before)
        thread.join()
        self.assertEqual(len(given), 1)
        return given[0]

    def test_little_stack(self):
        for query, document in [
            ("$.a", {"a": 1}), (self.DEEP, self.NESTED), ("$" + "[?@" * 200, "[1]"), ("$", "[" * 200),
            ("$[?match('a',@)]", ["(" * 64 + "a" + ")" * 64]),
        ]:
            for function in (jp.find, jp.paths, jp.values, jp.canonical, jp.check, jp.find_many):
                arguments = [query] if function in (jp.canonical, jp.check) else [query, document]
                if function is jp.find_many:
                    arguments[0] = ["$", query]
                expected = self.given(function, *arguments)
                for size in (64 << 10, 128 << 10, 256 << 10, 512 << 10, 1 << 20):
                    with self.subTest(query=query[:20], function=function.__name__, size=size):
                        self.assertEqual(self.on_little_stack(size, self.given, function, *arguments), expected)

    def given(self, function, *arguments):
        """What the function gives, or the text of its error."""
        try:
            return str(function(*arguments))
        except jp.Error as fault:
            return str(fault)

    def test_little_stack_by_handles(self):
        document = list(range(1000))
        with first_runs(3), mock.patch.object(_engine, "_LEAST_RUN", 1):
            for query in ("$..*", self.DEEP):
                expected = jp.find_many([query, "$[0]"], document)
                given = self.on_little_stack(128 << 10, jp.find_many, [query, "$[0]"], document)
                self.assertEqual(given, expected)
                self.assertEqual(self.on_little_stack(128 << 10, jp.find, query, document), expected[0])

    def test_a_handle_is_cleared_on_little_stack(self):
        handle, report, text = _library.Handle(), _library.Report(), self.DEEP.encode()
        _library.library.jp_query_new(text, len(text), 0, handle, report)
        self.on_little_stack(64 << 10, _library.library.jp_clear, handle)
        self.assertEqual((report.status, handle.full != 0), (0, True))
        self.on_little_stack(64 << 10, handle.__del__)
        self.assertEqual(handle.full, 0)

    def test_an_interrupt_does_not_wait(self):
        # The main thread has as little stack as its limit says, which a child sets before it begins.
        script = (
            "import signal\n"
            "signal.signal(signal.SIGINT, signal.default_int_handler)\n"
            "import jsonpath_jp as jp\n"
            "print('begun', flush=True)\n"
            "jp.find('$' + '..*' * 20 + '[?(((((((((((((((@.x)))))))))))))))]', '[' * 100 + ']' * 100)\n"
        )
        words = [sys.executable, "-c", script]
        limit = (256 << 10, resource.getrlimit(resource.RLIMIT_STACK)[1])
        how = {"stdout": subprocess.PIPE, "stderr": subprocess.PIPE, "text": True}
        with subprocess.Popen(
            words, preexec_fn=lambda: resource.setrlimit(resource.RLIMIT_STACK, limit), **how
        ) as asking:
            self.assertEqual(asking.stdout.readline(), "begun\n")
            time.sleep(0.2)
            asking.send_signal(signal.SIGINT)
            try:
                _, said = asking.communicate(timeout=30)
            finally:
                asking.kill()
        self.assertIn("KeyboardInterrupt", said)


def load_tests(loader, tests, pattern):
    tests.addTests(doctest.DocTestSuite(jp))
    return tests


if __name__ == "__main__":
    unittest.main()
