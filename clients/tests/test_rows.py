"""What gets and queries reply of documents with arrays of objects, byte for byte.

    python3 -m unittest clients/tests/test_rows.py

It runs the real program, as test_messages.py does. Objects of scalars that follow one another in an array and are alike are put another
way than those that are not, so arrays here have runs of both: alike but for a value, a name, the order of kinds, or something nested. A
program of few lines here tells the text.
"""

import json
import pathlib
import random
import sys
import unittest

sys.path.insert(0, str(pathlib.Path(__file__).resolve().parent))

from test_messages import Messages  # noqa: E402

FLUSH = {"op": "flush"}
# the longest name whose label is put together once, and one more; names with escapes and of more than one byte; the key's own
NAMES = ["a", "b", "at", "value", "unit", "ok", "id", "", "n" * 27, "n" * 28, "n" * 29, "n" * 30, "\u00e9", 'q"', "back\\slash", "line\n", "\u0001", "\U0001f40c"]
INTEGERS = [0, 1, -1, 9, 10, 99, 255, 256, 65535, 65536, 2**31, -2**63, 2**63 - 1]
TEXTS = ["", "x", "kelvin", "four", "\u00e9", 'a"b', "\\", "tab\t", "\u001f", "e" * 31, "e" * 32, "e" * 33, "p" * 255, "p" * 256, "p" * 257, "p" * 5000, "p" * 300 + '"']
SCALARS = [None, True, False, *INTEGERS, *TEXTS]


def like(choice, value):
    """Another value of the same kind."""
    if isinstance(value, bool):
        return choice.random() < 0.5
    if isinstance(value, int):
        return choice.choice(INTEGERS)
    return choice.choice(TEXTS) if isinstance(value, str) else None


def row(choice, most):
    """An object of up to so many scalars."""
    names = NAMES + [f"m{number:02}" for number in range(most)]
    return {name: choice.choice(SCALARS) for name in choice.sample(names, choice.randint(0, most))}


def items(choice):
    """Runs of objects that are alike, with others between them."""
    made = []
    for _ in range(choice.randint(1, 4)):
        first = row(choice, choice.choice([1, 3, 5, 15, 16, 17, 18]))
        for _ in range(choice.choice([1, 2, 3, 30])):
            other = {name: like(choice, value) for name, value in first.items()}
            if choice.random() < 0.1 and other:
                name = choice.choice(list(other))
                other[name] = choice.choice([*SCALARS, [], {}, [1], {"a": 1}])
            made.append(other)
        made.extend(choice.choice([[], [1], ["x"], [[]], [{}], [None], [[{"a": 1}, {"a": 2}, {"a": 3}]], [{"b": [{"a": 1}, {"a": 2}]}]]))
    return made


def ordered(value):
    """The same value, the members of each object in the byte order of their names."""
    if isinstance(value, dict):
        return {name: ordered(value[name]) for name in sorted(value, key=str.encode)}
    return [ordered(it) for it in value] if isinstance(value, list) else value


def text(value):
    return json.dumps(ordered(value), ensure_ascii=False, separators=(",", ":")).encode()


class Rows(Messages):
    def test_rows_of_arrays(self):
        for seed in range(6):
            choice = random.Random(seed)
            documents = [{"id": key, "rows": items(choice), "z": [items(choice), 1], "few": items(choice)[:3]} for key in range(40)]
            # more labels than are kept, in one array
            documents.append({"id": 40, "rows": [{f"m{k % 90:02}": k} for k in range(400)]})
            upserts = [{"op": "upsert", "doc": document} for document in documents]
            asked = [{"op": "get", "id": document["id"]} for document in documents]
            asked += [{"op": "query", "path": ["rows"]}, {"op": "query", "path": ["rows", None]}, {"op": "query", "path": []}]
            wanted = [text({"doc": document}) for document in documents]
            wanted.append(text({"rows": [{"id": document["id"], "values": [document["rows"]]} for document in documents]}))
            wanted.append(text({"rows": [{"id": document["id"], "values": document["rows"]} for document in documents]}))
            wanted.append(text({"rows": [{"id": document["id"], "values": [{name: it for name, it in document.items() if name != "id"}]} for document in documents]}))
            for name, written in (("tables", upserts), ("components", [*upserts[:20], FLUSH, *upserts[20:], FLUSH])):
                with self.subTest(seed=seed, over=name):
                    lines = b"".join(json.dumps(it).encode() + b"\n" for it in (*written, *asked))
                    ended = self.run_program(f"{name} {seed}", "run", "--partitions", "1", "--memory", "16777216", lines=lines)
                    self.assertEqual((ended.returncode, ended.stderr), (0, b""))
                    replies = ended.stdout.splitlines()[-len(asked):]
                    for line, reply, expected in zip(asked, replies, wanted):
                        self.assertEqual(reply, expected, line)


if __name__ == "__main__":
    unittest.main()
