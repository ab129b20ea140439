"""A plain evaluation of queries, written after RFC 9535 section by section and without any shortcut, and seeded
queries and documents for it."""
import random
from decimal import Decimal
from json import dumps

DOCUMENTS = 4
# No nodelist on the way may be longer, so that the plain evaluation ends soon.
MOST_NODES = 1_000

NAMES = ["a", "b", "c"]
TEXTS = ["", "a", "ab", "b"]
PATTERNS = ["a", "a.*", "[ab]", "b|c", "("]


class Written(Decimal):
    """A number with the text that writes it (RFC 8259 section 6)."""

    def __new__(cls, text):
        number = super().__new__(cls, text)
        number.text = text
        return number


class TooMany(Exception):
    """A nodelist is longer than the plain evaluation may have."""


# ---- a plain evaluation: nodes are pairs of a location and a value


def children(node):
    """Section 1.1; members in the order of their names."""
    location, value = node
    if isinstance(value, dict):
        return [((*location, name), value[name]) for name in sorted(value)]
    if isinstance(value, list):
        return [((*location, index), item) for index, item in enumerate(value)]
    return []


def subtree(node):
    """Section 2.5.2.2."""
    return [node] + [below for child in children(node) for below in subtree(child)]


def selected(selector, node, root):
    """Section 2.3."""
    kind, value = selector[0], node[1]
    if kind == "wildcard":
        return children(node)
    if kind == "filter":
        return [child for child in children(node) if holds(selector[1], child, root)]
    if kind == "name":
        return [child for child in children(node) if isinstance(value, dict) and child[0][-1] == selector[1]]
    if not isinstance(value, list):
        return []
    items = children(node)
    if kind == "index":
        return [items[selector[1]]] if -len(items) <= selector[1] < len(items) else []
    start, end, step = selector[1:]
    return items[slice(start, end, step)] if step else []


def nodelist(query, current, root):
    """Section 2.1.2."""
    absolute, segments = query
    nodes = [root if absolute else current]
    for descendant, selectors in segments:
        visited = [each for node in nodes for each in (subtree(node) if descendant else [node])]
        nodes = [found for node in visited for selector in selectors for found in selected(selector, node, root)]
        if len(nodes) > MOST_NODES:
            raise TooMany
    return nodes


def holds(expr, current, root):
    """Section 2.3.5.2."""
    kind = expr[0]
    if kind == "||":
        return any(holds(part, current, root) for part in expr[1])
    if kind == "&&":
        return all(holds(part, current, root) for part in expr[1])
    if kind == "!":
        return not holds(expr[1], current, root)
    if kind == "test":
        return bool(argument_nodes(expr[1], current, root))
    if kind == "match":
        return matches(operand(expr[1], current, root), expr[2])
    return compared(expr[2], operand(expr[1], current, root), operand(expr[3], current, root))


def matches(text, pattern):
    """Section 2.4.6, of the few patterns that are asked here."""
    if not isinstance(text, str):
        return False
    answers = {"a": text == "a", "a.*": text[:1] == "a", "[ab]": text in ("a", "b"), "b|c": text in ("b", "c")}
    return answers.get(pattern, False)


NOTHING = object()


def argument_nodes(argument, current, root):
    """Section 2.4.3; `distinct` keeps each location where it is first."""
    kind, query = argument
    nodes = nodelist(query, current, root)
    return list(dict(nodes).items()) if kind == "distinct" else nodes


def operand(side, current, root):
    """Sections 2.3.5.2.2 and 2.4."""
    kind = side[0]
    if kind == "literal":
        return side[1]
    if kind == "length":
        value = operand(side[1], current, root)
        return len(value) if isinstance(value, (str, list, dict)) else NOTHING
    nodes = argument_nodes(side[1], current, root)
    if kind == "count":
        return len(nodes)
    return nodes[0][1] if len(nodes) == 1 else NOTHING


def type_of(value):
    """The types of JSON's values, of which a number has one however it is written."""
    return int if isinstance(value, Decimal) else type(value)


def equal(left, right):
    """Section 2.3.5.2.2: values of different types are never equal."""
    if isinstance(left, list) and isinstance(right, list):
        return len(left) == len(right) and all(map(equal, left, right))
    if isinstance(left, dict) and isinstance(right, dict):
        return left.keys() == right.keys() and all(equal(left[name], right[name]) for name in left)
    return left is right or (type_of(left) is type_of(right) and left == right)


def less(left, right):
    """Section 2.3.5.2.2."""
    return type_of(left) is type_of(right) and type_of(left) in (int, str) and left < right


def compared(operator, left, right):
    """Section 2.3.5.2.2."""
    return {
        "==": lambda: equal(left, right),
        "!=": lambda: not equal(left, right),
        "<": lambda: less(left, right),
        "<=": lambda: less(left, right) or equal(left, right),
        ">": lambda: less(right, left),
        ">=": lambda: less(right, left) or equal(left, right),
    }[operator]()


# ---- the texts of queries, paths and values


def query_text(query):
    absolute, segments = query
    return ("$" if absolute else "@") + "".join(map(segment_text, segments))


def segment_text(segment):
    descendant, selectors = segment
    return (".." if descendant else "") + "[" + ",".join(map(selector_text, selectors)) + "]"


def selector_text(selector):
    kind = selector[0]
    if kind == "wildcard":
        return "*"
    if kind == "name":
        return f"'{selector[1]}'"
    if kind == "index":
        return str(selector[1])
    if kind == "filter":
        return "?" + expr_text(selector[1])
    return ":".join("" if part is None else str(part) for part in selector[1:])


def expr_text(expr):
    kind = expr[0]
    if kind in ("||", "&&"):
        return kind.join("(" + expr_text(part) + ")" for part in expr[1])
    if kind == "!":
        return "!(" + expr_text(expr[1]) + ")"
    if kind == "test":
        return nodes_text(expr[1])
    if kind == "match":
        return f"match({operand_text(expr[1])},'{expr[2]}')"
    return operand_text(expr[1]) + expr[2] + operand_text(expr[3])


def nodes_text(argument):
    kind, query = argument
    return f"distinct({query_text(query)})" if kind == "distinct" else query_text(query)


def operand_text(side):
    kind = side[0]
    if kind == "literal":
        return json_text(side[1])
    if kind == "singular":
        return nodes_text(side[1])
    return f"{kind}({operand_text(side[1]) if kind == 'length' else nodes_text(side[1])})"


def path_text(location):
    return "$" + "".join(f"[{step}]" if isinstance(step, int) else f"['{step}']" for step in location)


def json_text(value):
    """A text of the value, in which each number is as it is written."""
    if isinstance(value, list):
        return "[" + ", ".join(map(json_text, value)) + "]"
    if isinstance(value, dict):
        return "{" + ", ".join(f"{dumps(name)}: {json_text(part)}" for name, part in value.items()) + "}"
    return value.text if isinstance(value, Written) else dumps(value)


def value_text(value):
    """The compact text, with members in the order of their names."""
    if isinstance(value, list):
        return "[" + ",".join(map(value_text, value)) + "]"
    if isinstance(value, dict):
        return "{" + ",".join(f"{value_text(name)}:{value_text(value[name])}" for name in sorted(value)) + "}"
    return number_text(value) if isinstance(value, Decimal) else dumps(value, ensure_ascii=False)


def number_text(number):
    """The layout of RFC 8785 section 3.2.2.3, which is that of ECMAScript's Number::toString, over all digits."""
    if number == 0:
        return "0"
    sign, parts, exponent = number.as_tuple()
    written = "".join(map(str, parts)).lstrip("0")
    digits = written.rstrip("0")
    point = len(written) + exponent
    rest = "." + digits[1:] if len(digits) > 1 else ""
    if len(digits) <= point <= 21:
        text = digits + (point - len(digits)) * "0"
    elif 0 < point <= 21:
        text = digits[:point] + "." + digits[point:]
    elif -6 < point <= 0:
        text = "0." + -point * "0" + digits
    else:
        text = f"{digits[0]}{rest}e{point - 1:+d}"
    return sign * "-" + text


# ---- seeded queries and documents


class Seeded:
    """Documents, and queries that fit them, from one seed."""

    def __init__(self, seed):
        self.random = random.Random(seed)

    def leaf(self):
        return self.random.choice([0, 1, 2, -1, True, False, None, *TEXTS])

    def literal(self):
        return self.random.choice([0, 1, 2, 3, True, None, *TEXTS])

    def document(self, levels):
        kind = self.random.random()
        if levels == 0 or kind < 0.15:
            return self.leaf()
        width = self.random.choice([1, 1, 2, 2, 3])
        if kind < 0.55:
            return [self.document(levels - 1) for _ in range(width)]
        return {name: self.document(levels - 1) for name in self.random.sample(NAMES, width)}

    def bound(self):
        return self.random.choice([None, None, 0, 1, 2, -1, -2])

    def selector(self, filters):
        kind = self.random.random()
        if kind < 0.3:
            return ("wildcard",)
        if kind < 0.5:
            return ("name", self.random.choice(NAMES))
        if kind < 0.7:
            return ("index", self.random.choice([0, 0, 1, -1]))
        if kind < 0.8 or not filters:
            return ("slice", self.bound(), self.bound(), self.random.choice([1, 1, 2, -1, 0]))
        return ("filter", self.expr(filters - 1))

    def segment(self, filters):
        count = self.random.choice([1, 1, 2, 2, 3])
        return (self.random.random() < 0.3, [self.selector(filters) for _ in range(count)])

    def query(self, absolute, filters):
        count = self.random.choice([0, 1, 1, 2, 2, 3])
        return (absolute, [self.segment(filters) for _ in range(count)])

    def singular(self):
        steps = [self.random.choice([("name", self.random.choice(NAMES)), ("index", self.random.choice([0, 1, -1]))])
                 for _ in range(self.random.choice([0, 1, 1, 2]))]
        return ("nodes", (self.random.random() < 0.3, [(False, [step]) for step in steps]))

    def nodes(self, filters):
        kind = "distinct" if self.random.random() < 0.15 else "nodes"
        return (kind, self.query(self.random.random() < 0.45, filters))

    def operand(self, filters):
        kind = self.random.random()
        if kind < 0.25:
            return ("literal", self.literal())
        if kind < 0.4:
            return ("singular", self.singular())
        if kind < 0.7:
            return ("count", self.nodes(filters))
        if kind < 0.9:
            return ("value", self.nodes(filters))
        return ("length", self.random.choice([("singular", self.singular()), ("value", self.nodes(filters))]))

    def expr(self, filters):
        kind = self.random.random()
        if kind < 0.1:
            return ("||", [self.expr(filters) for _ in range(2)])
        if kind < 0.2:
            return ("&&", [self.expr(filters) for _ in range(2)])
        if kind < 0.27:
            return ("!", self.expr(filters))
        if kind < 0.6:
            return ("test", self.nodes(filters))
        if kind < 0.65:
            side = self.random.choice([("singular", self.singular()), ("value", self.nodes(filters))])
            return ("match", side, self.random.choice(PATTERNS))
        operator = self.random.choice(["==", "==", "!=", "<", "<=", ">", ">="])
        return ("compare", self.operand(filters), operator, self.operand(filters))

    def asked(self):
        """A query, documents, and the nodes that it selects in each."""
        while True:
            query = (True, [self.segment(3) for _ in range(self.random.choice([1, 1, 2, 3]))])
            documents = [self.document(self.random.choice([2, 3, 4])) for _ in range(DOCUMENTS)]
            try:
                return query, documents, [nodelist(query, None, ((), document)) for document in documents]
            except TooMany:
                continue

    def case(self):
        """The text of a query, documents in lines, and the lines of the paths that it selects in them."""
        query, documents, found = self.asked()
        wanted = [f"{number}\t{path_text(location)}" for number, nodes in enumerate(found, 1) for location, _ in nodes]
        return query_text(query), "".join(json_text(document) + "\n" for document in documents), wanted
