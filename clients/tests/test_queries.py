"""What queries with a value reply, over documents of few shapes and of many, over tables and over components.

    python3 -m unittest clients/tests/test_queries.py

It runs the real program, as test_messages.py does. A program of few lines here tells the rows. Records of one shape are known to a query
by one of them, so documents of one shape differ in their values, and some of another shape stand between them.
"""

import json
import pathlib
import random
import sys
import unittest

sys.path.insert(0, str(pathlib.Path(__file__).resolve().parent))

from test_messages import Messages  # noqa: E402

NAMES = ["a", "b", "c", "user", "name", "", "\u00e9", "idea"]
INTEGERS = [0, 1, -1, 7, 255, 256, 2**31, -2**63, 2**63 - 1]
TEXTS = ["", "x", "y", "user 3", "\u00e9", "z" * 300]
FLUSH = {"op": "flush"}


def shape_of(choice, depth=0):
    """A maker of documents of one shape: of each value the kind stands, and the value is new each time."""
    members = {}
    for name in choice.sample(NAMES, choice.randint(1, 5)):
        kind = choice.randrange(8 if depth < 3 else 6)
        if kind == 0:
            members[name] = lambda: None
        elif kind == 1:
            members[name] = lambda: choice.random() < 0.5
        elif kind <= 3:
            members[name] = lambda: choice.choice(INTEGERS)
        elif kind <= 5:
            members[name] = lambda: choice.choice(TEXTS)
        elif kind == 6:
            inner = [shape_of(choice, depth + 1) for _ in range(choice.randrange(3))]
            members[name] = lambda inner=inner: [it() for it in inner]
        else:
            members[name] = shape_of(choice, depth + 1)
    return lambda: {name: make() for name, make in members.items()}


def same(one, other):
    """Whether two documents are the same, where a boolean is no number."""
    return json.dumps(one, sort_keys=True) == json.dumps(other, sort_keys=True)


def reached(path, value):
    if not path:
        return [value]
    hop, rest = path[0], path[1:]
    if isinstance(value, dict) and isinstance(hop, str):
        return reached(rest, value[hop]) if hop in value else []
    if isinstance(value, list) and hop is None:
        return [found for item in value for found in reached(rest, item)]
    if isinstance(value, list) and isinstance(hop, int) and 0 <= hop < len(value):
        return reached(rest, value[hop])
    return []


def places(value, path=()):
    """Each path to a value of a document, with the value."""
    yield path, value
    if isinstance(value, dict):
        for name, inner in value.items():
            yield from places(inner, (*path, name))
    elif isinstance(value, list):
        for place, inner in enumerate(value):
            yield from places(inner, (*path, place))


def rows(documents, path, wanted):
    found = {key: reached(path, document) for key, document in enumerate(documents)}
    return [{"id": key, "values": values} for key, values in found.items() if any(same(it, wanted) for it in values)]


class Queries(Messages):
    def test_queries_over_shapes(self):
        for seed, shapes in enumerate((1, 2, 5, 60)):
            choice = random.Random(seed)
            makers = [shape_of(choice) for _ in range(shapes)]
            documents = [choice.choice(makers)() for _ in range(150)]
            queries = []
            for _ in range(80):
                path, value = choice.choice(list(places(choice.choice(documents))))
                path = [*path, *choice.choices([[], ["a"], ["absent"], [None]], (6, 1, 1, 1))[0]]
                queries.append((path, choice.choice([value, value, value, None, True, 1, "x", [], {}])))
            asked = [{"op": "query", "path": path, "eq": wanted} for path, wanted in queries]
            upserts = [{"op": "upsert", "doc": {"id": key, **document}} for key, document in enumerate(documents)]
            parts = [upserts[:50], upserts[50:51], upserts[51:]]
            for name, written in (("tables", upserts), ("components", [it for part in parts for it in (*part, FLUSH)])):
                for partitions in ("1", "2"):
                    with self.subTest(shapes=shapes, over=name, partitions=partitions):
                        lines = b"".join(json.dumps(it).encode() + b"\n" for it in (*written, *asked))
                        words = ("run", "--partitions", partitions, "--memory", "16777216", "--merge", "8")
                        ended = self.run_program(f"{name} {shapes} {partitions}", *words, lines=lines)
                        self.assertEqual((ended.returncode, ended.stderr), (0, b""))
                        for (path, wanted), reply in zip(queries, ended.stdout.splitlines()[-len(asked):]):
                            self.assertTrue(same(json.loads(reply), {"rows": rows(documents, path, wanted)}), (path, wanted, reply))


if __name__ == "__main__":
    unittest.main()
