"""Queries and documents that are kept. Expected values are by hand."""
import contextlib
import copy
import gc
import json
import os
import pickle
import signal
import threading
import unittest
from unittest import mock

import jsonpath_jp as jp
from jsonpath_jp import _kept
from runs import first_runs

STORE = {
    "book": [
        {"title": "Sayings", "price": 8},
        {"title": "Sword", "price": 12},
        {"title": "Moby Dick", "price": 9},
    ]
}
TEXT = (
    '{"book":[{"title":"Sayings","price":8},{"title":"Sword","price":12},{"title":"Moby Dick","price":9}]}'
)
CHEAP = "$.book[?@.price<10].title"
PATHS = ["$['book'][0]['title']", "$['book'][2]['title']"]
TITLES = ["Sayings", "Moby Dick"]


def documents():
    """The same document in each way in which one is given."""
    return [TEXT, TEXT.encode(), bytearray(TEXT.encode()), memoryview(TEXT.encode()), STORE, jp.Document(STORE)]


@contextlib.contextmanager
def steps_counted(name):
    """The steps that the calls of that name report, one after another."""
    call, counted = getattr(_kept.library, name), []

    def made(*arguments):
        status = call(*arguments)
        counted.append(arguments[-1].steps)
        return status

    with mock.patch.object(_kept.library, name, made):
        yield counted


class Queries(unittest.TestCase):
    def test_each_call(self):
        query, none = jp.compile(CHEAP), jp.compile("$.none")
        for document in documents():
            found = query.find(document)
            self.assertEqual([match.path for match in found], PATHS)
            self.assertEqual([match.value for match in found], TITLES)
            self.assertEqual(query.find_one(document), jp.Match(PATHS[0], '"Sayings"'))
            self.assertEqual(list(query.finditer(document)), found)
            self.assertEqual(query.paths(document), PATHS)
            self.assertEqual(query.values(document), TITLES)
            self.assertIs(query.exists(document), True)
            self.assertEqual((none.find(document), none.paths(document), none.values(document)), ([], [], []))
            self.assertEqual(list(none.finditer(document)), [])
            self.assertIsNone(none.find_one(document))
            self.assertIs(none.exists(document), False)

    def test_calls_of_the_module(self):
        for query in (CHEAP, jp.compile(CHEAP)):
            for document in documents():
                self.assertEqual([match.value for match in jp.find(query, document)], TITLES)
                self.assertEqual(jp.find_one(query, document).value, "Sayings")
                self.assertEqual([match.value for match in jp.finditer(query, document)], TITLES)
                self.assertEqual((jp.paths(query, document), jp.values(query, document)), (PATHS, TITLES))
                self.assertIs(jp.exists(query, document), True)
                (found,) = jp.find_many([query], document)
                self.assertEqual([match.value for match in found], TITLES)

    def test_the_empty_value_and_the_root(self):
        self.assertEqual(jp.compile("$").values('""'), [""])
        self.assertEqual(jp.compile("$").find("[]"), [jp.Match("$", "[]")])
        self.assertTrue(jp.compile("$").exists("null"))
        self.assertEqual(jp.compile("$['']").values({"": 0}), [0])

    def test_one_query_of_one_document_after_another(self):
        query = jp.compile("$..b")
        self.assertEqual(query.values({"b": 1}), [1])
        with self.assertRaises(jp.DocumentError) as caught:
            query.find('{"b":[0,' + "9" * 39 + "]}")
        self.assertEqual((caught.exception.path, caught.exception.offset), ("$['b'][1]", 8))
        with self.assertRaises(jp.DocumentError) as caught:
            query.find('{"b":}')
        self.assertEqual((caught.exception.path, caught.exception.offset), (None, 5))
        self.assertEqual(query.values([{"b": "é" * 5000}, {"a": {"b": None}}]), ["é" * 5000, None])
        with self.assertRaises(jp.StepsUsedUp) as caught:
            query.find({"b": 1}, limit=1)
        self.assertEqual((caught.exception.limit, caught.exception.query), (1, "$..b"))
        self.assertEqual(query.values({"b": 2}, limit=100), [2])

    def test_the_first_node_is_enough(self):
        query, numbers = jp.compile("$[*]"), list(range(1000))
        for document in (numbers, jp.Document(numbers)):
            with self.assertRaises(jp.StepsUsedUp):
                query.find(document, limit=100)
            self.assertEqual(query.find_one(document, limit=100), jp.Match("$[0]", "0"))
            self.assertTrue(query.exists(document, limit=100))

    def test_finditer_gives_what_find_does(self):
        query = jp.compile("$[*]")
        for size in (0, 1, 2, 3, 4, 6, 7, 8, 100):
            numbers = list(range(size))
            for document in (numbers, json.dumps(numbers), jp.Document(numbers)):
                self.assertEqual(list(query.finditer(document)), query.find(document))
        for twice in jp.finditer("$[0,0]", "[7]"), jp.Document("[7]").finditer("$[0,0]"):
            self.assertEqual([match.path for match in twice], ["$[0]", "$[0]"])
        self.assertEqual([match.path for match in jp.finditer("$.a[1]", '{"a":[7,8]}')], ["$['a'][1]"])

    def test_finditer_finds_the_first_of_a_million_alone(self):
        text = f"[{'0,' * 999_999}0]"
        with self.assertRaises(jp.StepsUsedUp):
            jp.find("$[*]", text, limit=1_000_000)
        each = jp.finditer("$[*]", text, limit=100)
        self.assertEqual([next(each).path for _ in range(15)], [f"$[{at}]" for at in range(15)])
        # The pages get longer, and each has the whole limit.
        with self.assertRaises(jp.StepsUsedUp):
            list(each)
        self.assertEqual(list(each), [])

    def test_finditer_takes_three_times_the_steps_of_find_at_most(self):
        ends = {"early": (0, 20), "late": (1800, 2000), "rare": (99, 2000, 100), "none": (0, 0), "all": (0, 2000)}
        for where, nodes in ends.items():
            hits = set(range(*nodes))
            document = jp.Document([int(at in hits) for at in range(2000)])
            with self.subTest(where=where):
                with steps_counted("jp_ask_document") as once, steps_counted("jp_next_page") as each:
                    self.assertEqual(document.find("$[?@==1]"), list(document.finditer("$[?@==1]")))
                self.assertLessEqual(sum(once), sum(each))
                self.assertLessEqual(sum(each), 3 * sum(once))

    def test_what_finditer_keeps_is_freed(self):
        freed = []

        class Counted(_kept.Handle):
            def __del__(self):
                super().__del__()
                freed.append(self)

        with mock.patch.object(_kept, "Handle", Counted):
            each = jp.compile("$[*]").finditer("[1,2,3,4]")
            self.assertEqual((next(each).value, next(each).value), (1, 2))
            self.assertEqual(freed, [])
            del each
            gc.collect()
            # That of the document and that of the query.
            self.assertEqual(len(freed), 2)

    def test_two_at_once(self):
        query, document = jp.compile("$..b"), jp.Document('[{"b":1},{"b":{"b":2}},{"b":3}]')
        pairs = zip(query.finditer(document), query.finditer('{"b":[{"b":4},5,{"b":6}]}'))
        self.assertEqual(
            [(one.text, other.text) for one, other in pairs],
            [("1", '[{"b":4},5,{"b":6}]'), ('{"b":2}', "4"), ("2", "6")],
        )

    def test_finditer_makes_values_when_asked(self):
        with mock.patch.object(json, "loads", side_effect=json.loads) as loads:
            each = jp.compile("$[*]").finditer("[1,[2],3]")
            self.assertEqual([next(each).value, next(each).value], [1, [2]])
            self.assertEqual(loads.call_count, 2)
        # What can be told at once is.
        with self.assertRaises(jp.DocumentError):
            jp.compile("$").finditer("[")
        with self.assertRaises(ValueError):
            jp.compile("$").finditer("[]", limit=0)
        with self.assertRaises(jp.QueryError):
            jp.finditer("$[", "[]")

    def test_a_value_is_made_once(self):
        (match,) = jp.find("$", [[1]])
        self.assertIs(match.value, match.value)
        self.assertEqual((match.value, match.text), ([[1]], "[[1]]"))
        self.assertEqual(pickle.loads(pickle.dumps(match)), match)

    def test_equal_queries(self):
        query = jp.compile("$.a")
        self.assertEqual((query.text, str(query), query.extended, query.numbers), ("$.a", "$.a", False, "decimal"))
        self.assertEqual(repr(query), "Query('$.a', extended=False, numbers='decimal')")
        same = [jp.parse("$.a"), jp.Query("$.a"), copy.copy(query), pickle.loads(pickle.dumps(query))]
        for other in same:
            self.assertEqual((other, hash(other)), (query, hash(query)))
            self.assertEqual(other.values({"a": 1}), [1])
        whole = jp.compile("$.a", numbers="whole")
        for other in (jp.compile("$['a']"), jp.compile("$.a", extended=True), whole, "$.a", None):
            self.assertNotEqual(query, other)
        self.assertEqual(len({query, *same, jp.compile("$.b")}), 2)

    def test_the_extended_profile(self):
        query = jp.compile("$[?distinct(@.*)]", extended=True)
        self.assertEqual(query.paths([{"a": 0}, {}]), ["$[0]"])
        self.assertEqual(pickle.loads(pickle.dumps(query)).paths([{"a": 0}, {}]), ["$[0]"])
        kept = jp.Document([{"a": 0}, {}])
        self.assertEqual(kept.paths("$[?distinct(@.*)]", extended=True), ["$[0]"])
        with self.assertRaises(jp.QueryError):
            kept.paths("$[?distinct(@.*)]")

    def test_what_takes_much_memory_is_not_kept(self):
        query = jp.compile("$[*]")
        query.find("[1]")
        self.assertEqual(len(query._kept._spare), 1)
        self.assertEqual(query.values(["x" * (1 << 20)]), ["x" * (1 << 20)])
        self.assertEqual(len(query._kept._spare), 0)
        self.assertEqual(query.values("[1]"), [1])
        self.assertEqual(len(query._kept._spare), 1)


class Documents(unittest.TestCase):
    def test_each_call(self):
        kept = jp.Document(TEXT)
        self.assertEqual(kept.text, TEXT.encode())
        for query in (CHEAP, jp.compile(CHEAP)):
            self.assertEqual([match.value for match in kept.find(query)], TITLES)
            self.assertEqual(kept.find_one(query).path, PATHS[0])
            self.assertEqual([match.path for match in kept.finditer(query)], PATHS)
            self.assertEqual((kept.paths(query), kept.values(query)), (PATHS, TITLES))
            self.assertTrue(kept.exists(query))
        self.assertFalse(kept.exists("$.none"))

    def test_refusals(self):
        for document, numbers, path in [
            ("[1,]", "whole", None), ("[1,]", "decimal", None), ("[0,2.5]", "whole", "$[1]"),
            (f"[0,{'9' * 39}]", "decimal", "$[1]"),
        ]:
            with self.assertRaises(jp.DocumentError) as caught:
                jp.Document(document, numbers=numbers)
            self.assertEqual((caught.exception.path, caught.exception.offset), (path, 3))
        kept = jp.Document(TEXT)
        with self.assertRaises(jp.QueryError) as caught:
            kept.find("$.a[01]")
        self.assertEqual(caught.exception.place, 5)
        with self.assertRaises(jp.StepsUsedUp):
            kept.find("$..*", limit=3)
        self.assertEqual(kept.values("$.book[1].price"), [12])

    def test_many_queries(self):
        answers = jp.find_many(["$[0]", "$[", "$..*"], jp.Document([5, 6]), limit=8)
        self.assertEqual([match.value for match in answers[0]], [5])
        self.assertEqual([type(answer) for answer in answers[1:]], [jp.QueryError, jp.StepsUsedUp])

    def test_pickled(self):
        kept = pickle.loads(pickle.dumps(jp.Document({"é": [1]})))
        self.assertEqual((kept.text, kept.values("$.é[0]")), ('{"é":[1]}'.encode(), [1]))

    def test_nested_as_deep_as_may_be(self):
        text = "[" * 127 + "]" * 127
        self.assertEqual(len(jp.Document(text).find("$..*")), 126)


class Runs(unittest.TestCase):
    def test_runs_of_ever_more_steps(self):
        numbers = list(range(1000))
        for document in (numbers, jp.Document(numbers)):
            for text, count in (("$..*", 1000), ("$[?@<10]", 10)):
                query = jp.compile(text)
                with first_runs(3):
                    self.assertEqual(query.values(document), numbers[:count])
                    self.assertEqual(query.find_one(document).value, 0)
                    self.assertEqual(query.values(document, limit=1 << 20), numbers[:count])
                    for limit in (1, 2, 3, 4, 100):
                        with self.assertRaises(jp.StepsUsedUp) as caught:
                            query.find(document, limit=limit)
                        self.assertEqual(caught.exception.limit, limit)

    def test_all_runs_together(self):
        query = jp.compile("$..*")
        for count in (2, 7, 30, 100, 1000, 3000):
            document = jp.Document(list(range(count)))
            with steps_counted("jp_ask_document") as once:
                query.find(document)
            with first_runs(3), steps_counted("jp_ask_document") as each:
                query.find(document)
            self.assertLess(1, len(each))
            self.assertLess(sum(each), 2.5 * sum(once))

    def test_what_is_left_behind_ends_with_its_run(self):
        document = jp.Document(list(range(1000)))
        with mock.patch.object(_kept, "is_left", return_value=True), first_runs(3):
            with steps_counted("jp_ask_document") as each, self.assertRaises(jp.StepsUsedUp):
                document.find("$..*")
        self.assertEqual(each, [3, 12])

    def test_where_no_thread_can_be_started(self):
        numbers = list(range(1000))
        no_thread = mock.patch.object(threading.Thread, "start", side_effect=RuntimeError)
        with no_thread as start, first_runs(3):
            for document in (numbers, jp.Document(numbers)):
                self.assertEqual(jp.compile("$[?@<3]").values(document), [0, 1, 2])
                self.assertEqual(jp.values("$[?@<3]", document), [0, 1, 2])
            self.assertEqual(start.call_count, 4)


class Threads(unittest.TestCase):
    def on_threads(self, count, function):
        """Calls the function with each number on a thread of its own, and gives the errors."""
        wrong = []

        def call(number):
            try:
                function(number)
            except BaseException as fault:
                wrong.append(fault)

        threads = [threading.Thread(target=call, args=[number]) for number in range(count)]
        for thread in threads:
            thread.start()
        for thread in threads:
            thread.join()
        return wrong

    def test_one_query_on_many_threads(self):
        query = jp.compile("$.a[*]")

        def ask(number):
            numbers = [number] * (number * 100 + 1)
            for _ in range(200):
                self.assertEqual(query.values({"a": numbers}), numbers)

        self.assertEqual(self.on_threads(8, ask), [])
        self.assertLessEqual(len(query._kept._spare), 16)

    def test_one_document_on_many_threads(self):
        kept = jp.Document(list(range(100)))
        query = jp.compile("$[::-1]")

        def ask(number):
            for _ in range(200):
                self.assertEqual(kept.values(f"$[{number}]"), [number])
                self.assertEqual(kept.values(query), list(range(99, -1, -1)))

        self.assertEqual(self.on_threads(8, ask), [])

    def test_little_stack(self):
        deep = "$" + "[?@.a||@&&!@" * 128 + "]" * 128
        nested = "[" * 126 + "]" * 126
        expected = jp.paths(deep, nested)
        wrong = []

        def ask():
            try:
                query, kept = jp.compile(deep), jp.Document(nested)
                for document in (nested, kept):
                    with first_runs(3):
                        self.assertEqual(query.paths(document), expected)
                    self.assertEqual(query.paths(document), expected)
                del query, kept
            except BaseException as fault:
                wrong.append(fault)

        for size in (64 << 10, 256 << 10, 1 << 20):
            before = threading.stack_size(size)
            try:
                thread = threading.Thread(target=ask)
                thread.start()
            finally:
                threading.stack_size(before)
            thread.join()
            self.assertEqual(wrong, [])


@unittest.skipUnless(hasattr(os, "fork"), "no fork")
class Forks(unittest.TestCase):
    def in_child(self, function):
        """The status of a forked child that calls the function, which has ten seconds."""
        child = os.fork()
        if child == 0:
            signal.alarm(10)
            status = 1
            try:
                status = 0 if function() else 2
            finally:
                os._exit(status)
        return os.waitpid(child, 0)[1]

    def test_in_a_child(self):
        query, kept = jp.compile(CHEAP), jp.Document(STORE)
        self.assertEqual(self.in_child(lambda: query.values(kept) == query.values(STORE) == TITLES), 0)
        self.assertEqual(self.in_child(lambda: kept.values(CHEAP) == TITLES), 0)

    def test_while_threads_ask(self):
        numbers = list(range(20_000))
        query, kept = jp.compile("$[?@<3]"), jp.Document(numbers)
        is_over = threading.Event()

        def ask():
            while not is_over.is_set():
                query.values(kept)
                query.values("[1,2,3]")

        threads = [threading.Thread(target=ask) for _ in range(2)]
        for thread in threads:
            thread.start()
        try:
            for _ in range(30):
                asked = self.in_child(lambda: query.values(kept) == query.values(numbers) == [0, 1, 2])
                self.assertEqual(asked, 0)
        finally:
            is_over.set()
            for thread in threads:
                thread.join()
        self.assertEqual(query.values(kept), [0, 1, 2])

    def test_what_a_thread_of_the_parent_held(self):
        kept = jp.Document([1])
        with kept._kept._reading.lock:
            def ask():
                was = kept._kept._reading
                return kept.values("$[0]") == [1] and kept._kept._reading is not was
            self.assertEqual(self.in_child(ask), 0)
        self.assertEqual(kept.values("$[0]"), [1])


def resident():
    """How many bytes of memory this process has."""
    gc.collect()
    with open("/proc/self/statm", encoding="ascii") as file:
        return int(file.read().split()[1]) * os.sysconf("SC_PAGE_SIZE")


@unittest.skipUnless(os.path.exists("/proc/self/statm"), "no /proc")
class Growth(unittest.TestCase):
    def grown(self, function, count):
        """By how many bytes the process grows with so many calls, after the first of them."""
        for _ in range(count // 10):
            function()
        before = resident()
        for _ in range(count):
            function()
        return resident() - before

    def refused(self, call, *arguments):
        with self.assertRaises(jp.Error):
            call(*arguments)

    def test_calls_and_objects(self):
        query, kept = jp.compile("$..price"), jp.Document(TEXT)
        for function, count in [
            (lambda: query.find(TEXT), 50_000),
            (lambda: kept.find_one(query), 50_000),
            (lambda: jp.compile(CHEAP), 20_000),
            (lambda: jp.Document(TEXT), 20_000),
            (lambda: self.refused(jp.compile, "$["), 2_000),
            (lambda: query.values("[1,2.5]", decimals=str), 20_000),
            (lambda: self.refused(query.find, "[1," + "9" * 39 + "]"), 2_000),
            (lambda: self.refused(jp.Document, "[1,"), 2_000),
        ]:
            self.assertLess(self.grown(function, count), 2 << 20)


if __name__ == "__main__":
    unittest.main()
