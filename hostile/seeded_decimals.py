"""Seeded documents and queries whose numbers are decimals, written in many ways, with what a plain evaluation over
Python's decimals answers. Among the numbers are some that differ in the last of 17 to 38 digits, some that no double
tells apart, and some that are beyond each double.
"""
from plain import TEXTS, Seeded, TooMany, Written, json_text, nodelist, path_text, query_text, value_text

# A coefficient and an exponent: near each other, near whole numbers, at the ends of what a whole number and a double
# have room for, and of what can be held.
HELD = [(0, 0), (1, 0), (2, 0), (-1, 0), (1, -1), (-1, -1), (3, -1), (30000000000000004, -17), (895, -2), (899, -2),
        (1000000000000000055, -19), (9007199254740992, 0), (9007199254740993, 0), (90071992547409935, -1),
        (18446744073709551615, 0), (18446744073709551616, 0), (-9223372036854775808, 0), (-9223372036854775809, 0),
        (5, -324), (17976931348623157, 292), (1, 400), (-15, -10), (1, 20), (1, 21), (1, -6), (1, -7),
        (10**38 - 1, 0), (10**38 - 2, 0), (10**38 - 1, -38), (1, 1_000_000), (1, -1_000_000)]


class SeededDecimals(Seeded):
    """Documents and queries with decimals, from one seed."""

    def number(self):
        """One of the numbers, in one of the ways to write it (RFC 8259 section 6)."""
        coefficient, exponent = self.random.choice(HELD)
        zeros = self.random.choice([0, 0, 1, 3])
        digits, exponent = str(abs(coefficient)) + zeros * "0", exponent - zeros
        sign = "-" * (coefficient < 0 or coefficient == 0 and self.random.random() < 0.5)
        if coefficient == 0 or not -60 < exponent <= 0 or self.random.random() < 0.3:
            point = self.random.randint(1, len(digits)) if digits[0] != "0" else 1
            fraction = "." + digits[point:] if point < len(digits) else ""
            power = exponent + len(digits) - point
            mark = self.random.choice(["e", "E"]) + self.random.choice(["", "+"] if power >= 0 else [""])
            return Written(f"{sign}{digits[:point]}{fraction}{mark}{power}")
        if exponent == 0:
            return Written(sign + digits)
        digits = digits.rjust(1 - exponent, "0")
        return Written(f"{sign}{digits[:exponent]}.{digits[exponent:]}")

    def leaf(self):
        return self.number() if self.random.random() < 0.8 else self.random.choice([True, None, *TEXTS])

    def literal(self):
        return self.number() if self.random.random() < 0.8 else self.random.choice([1, 2, False, *TEXTS])

    def case(self):
        """A query, a document, and the nodes that it selects there."""
        while True:
            query = (True, [self.segment(3) for _ in range(self.random.choice([1, 1, 2, 3]))])
            document = self.document(self.random.choice([2, 3, 4]))
            try:
                return query, document, nodelist(query, None, ((), document))
            except TooMany:
                continue


def row_of(query, document, nodes):
    """The row, as bindings/rows.jsonl has them, of a query that selects these nodes."""
    text = query_text(query)
    return {"from": "plain decimals", "profile": "ExtendedDecimal" if "distinct(" in text else "Decimal", "query": text,
            "document": json_text(document), "paths": [path_text(location) for location, _ in nodes],
            "values": [value_text(value) for _, value in nodes]}
