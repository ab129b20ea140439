"""The most nodes and bytes of an answer. Expected numbers are by hand: of the nodes, and of their lines."""
import pickle
import unittest

import jsonpath_jp as jp
from runs import first_runs

DOCUMENT = '{"a":[1,22,"é"],"b":3}'
# A call, a query, how many nodes it asks for, and the bytes of their lines: `$['a'][0]`, a tab, 1 and a newline are 12;
# é has two bytes.
CALLS = [
    ("find", "$.a[*]", 3, 12 + 13 + 15),
    ("paths", "$.a[*]", 3, 3 * 10),
    ("values", "$.a[*]", 3, 2 + 3 + 5),
    ("find_one", "$.a[*]", 1, 12),
    ("exists", "$.a[*]", 1, 10),
    # These name a location, so they are answered while the document is read, and make no steps.
    ("find", "$.a[2]", 1, 15),
    ("values", "$.a", 1, 12),
    ("paths", "$", 1, 2),
    ("exists", "$.b", 1, 7),
    # The nodes on the way don't count.
    ("values", "$..a[?@>1]", 1, 3),
]


def ways(name):
    """Each way to make a call, as a function of a query and limits."""
    kept = jp.Document(DOCUMENT)
    yield lambda query, **most: getattr(jp, name)(query, DOCUMENT, **most)
    yield lambda query, **most: getattr(jp, name)(query, kept, **most)
    yield lambda query, **most: getattr(jp, name)(jp.compile(query), DOCUMENT, **most)
    yield lambda query, **most: getattr(jp.compile(query), name)(DOCUMENT, **most)
    yield lambda query, **most: getattr(jp.compile(query), name)(kept, **most)
    yield lambda query, **most: getattr(kept, name)(query, **most)


class Most(unittest.TestCase):
    def refused(self, error, most, call, query, **limits):
        with self.assertRaises(error) as caught:
            call(query, **limits)
        fault = caught.exception
        self.assertIsInstance(fault, jp.Error)
        self.assertEqual((type(fault), fault.limit, fault.query), (error, most, query))

    def test_as_many_and_one_less(self):
        for name, query, nodes, size in CALLS:
            for number, call in enumerate(ways(name)):
                with self.subTest(name=name, query=query, way=number):
                    expected = call(query)
                    self.assertEqual(call(query, max_nodes=nodes), expected)
                    self.assertEqual(call(query, max_bytes=size), expected)
                    self.assertEqual(call(query, limit=100, max_nodes=nodes, max_bytes=size), expected)
                    self.refused(jp.TooManyBytes, size - 1, call, query, max_bytes=size - 1)
                    if nodes > 1:
                        self.refused(jp.TooManyNodes, nodes - 1, call, query, max_nodes=nodes - 1)
                    # The next call is not beyond a limit for the one before.
                    self.assertEqual(call(query), expected)

    def test_which_is_told(self):
        for call in ways("values"):
            # The second node comes after a line of two bytes, and the third after five.
            self.refused(jp.TooManyBytes, 1, call, "$.a[*]", max_nodes=1, max_bytes=1)
            self.refused(jp.TooManyNodes, 1, call, "$.a[*]", max_nodes=1, max_bytes=2)
            self.refused(jp.TooManyBytes, 4, call, "$.a[*]", max_nodes=2, max_bytes=4)
            self.refused(jp.TooManyNodes, 2, call, "$.a[*]", max_nodes=2, max_bytes=5)
            self.refused(jp.StepsUsedUp, 1, call, "$..*", limit=1, max_nodes=1, max_bytes=1)

    def test_many_queries(self):
        queries = ["$.a[*]", "$.b", "$[", "$..*", "$.a[0]"]
        for document in (DOCUMENT, jp.Document(DOCUMENT)):
            answers = jp.find_many(queries, document, max_nodes=2)
            kinds = [jp.TooManyNodes, list, jp.QueryError, jp.TooManyNodes, list]
            self.assertEqual([type(answer) for answer in answers], kinds)
            self.assertEqual((answers[0].limit, answers[0].query), (2, "$.a[*]"))
            self.assertEqual([match.value for match in answers[1] + answers[4]], [3, 1])
            answers = jp.find_many(queries, document, max_bytes=12)
            kinds = [jp.TooManyBytes, list, jp.QueryError, jp.TooManyBytes, list]
            self.assertEqual([type(answer) for answer in answers], kinds)

    def test_what_limits_are(self):
        for words in ({"max_nodes": 0}, {"max_bytes": 0}, {"max_nodes": -1}, {"max_bytes": 1 << 64}):
            with self.assertRaises(ValueError):
                jp.find("$", "[]", **words)
        for words in ({"max_nodes": "1"}, {"max_bytes": 1.5}):
            with self.assertRaises(TypeError):
                jp.find_many(["$"], "[]", **words)
        self.assertEqual(jp.values("$", "1", max_nodes=(1 << 64) - 1, max_bytes=(1 << 64) - 1), [1])
        nodes, size = jp.TooManyNodes(2, "$.*"), jp.TooManyBytes(9, "$.*")
        self.assertEqual(str(nodes), "too many nodes: the query selects more than 2")
        self.assertEqual(str(size), "too many bytes: the answer has more than 9")
        self.assertEqual(str(pickle.loads(pickle.dumps(size))), str(size))

    def test_one_node_after_another_has_steps_alone(self):
        for words in ({"max_nodes": 1}, {"max_bytes": 1}):
            with self.assertRaises(TypeError):
                jp.finditer("$", "[]", **words)

    def test_answers_that_are_longer_than_those_of_a_first_run(self):
        numbers = list(range(1000))
        size = sum(len(str(number)) + 1 for number in numbers)
        query = jp.compile("$[*]")
        with first_runs(size=100):
            for document in (numbers, jp.Document(numbers)):
                for call in (query.values, lambda *words, **most: jp.values("$[*]", *words, **most)):
                    self.assertEqual(call(document), numbers)
                    self.assertEqual(call(document, max_bytes=size), numbers)
                    for most in (1, 100, size - 1):
                        with self.assertRaises(jp.TooManyBytes) as caught:
                            call(document, max_bytes=most)
                        self.assertEqual(caught.exception.limit, most)
                    with self.assertRaises(jp.TooManyNodes):
                        call(document, max_nodes=999)
        # Those of many queries have as few bytes each as their first runs have steps.
        answers = jp.find_many(["$[*]", "$[0]"] * 200, numbers)
        self.assertEqual([len(answer) for answer in answers], [1000, 1] * 200)


if __name__ == "__main__":
    unittest.main()
