"""Component files of version 1: a store that has them opens, answers, and is merged into files of version 2.

    python3 -m unittest clients/tests/test_versions.py

It runs the real program, as test_messages.py does. The folder version_1 is a store of two partitions as a program left it that
wrote version 1; what was asked of that program stands in WRITTEN, in its order, with --merge 8. No program writes it again.
"""

import json
import pathlib
import shutil
import struct
import sys
import unittest

sys.path.insert(0, str(pathlib.Path(__file__).resolve().parent))

from test_check import Check, place, right, wrong  # noqa: E402
from test_messages import log  # noqa: E402

FROZEN = pathlib.Path(__file__).resolve().parent / "version_1"
FIRST, SECOND = b"TCC1", b"TCC2"
FLUSH = {"op": "flush"}

# More names than a byte counts, so that the columns of numbers have more widths than one; texts of lengths of each width.
NAMES = {f"n{it}": it for it in range(260)}


def upsert(**document):
    return {"op": "upsert", "doc": document}


def delete(key):
    return {"op": "delete", "id": key}


WRITTEN = [
    upsert(id=1, name="Ada", langs=["en", "fr"], born={"year": 1815, "in": "London"}),
    upsert(id=2),
    upsert(id=3, name="Björk ☃", least=-(2**63), most=2**63 - 1, none=None, both=[True, False]),
    upsert(id=4, text="x" * 300, empty=""),
    upsert(id=5, deep=[[], {}, [1, [None, {"a": [["b"]]}]]]),
    upsert(id=6, **NAMES),
    upsert(id=7, name="replaced below"),
    upsert(id=8, name="deleted below"),
    FLUSH,
    upsert(id=7, name="replaced", n255="a name that is long known"),
    delete(8),
    upsert(id=9, n258=1, n259=["of the last names"]),
    upsert(id=10, name=None, langs=[]),
    FLUSH,
    upsert(id=10, name="replaced in the log"),
    upsert(id=11, name="in the log", fresh={"name": 1}),
    delete(2),
]


def documents():
    """The documents that it has, by key."""
    kept = {}
    for it in WRITTEN:
        if it["op"] == "upsert":
            kept[it["doc"]["id"]] = it["doc"]
        elif it["op"] == "delete":
            del kept[it["id"]]
    return kept


def lines(commands):
    return b"".join(json.dumps(it).encode() + b"\n" for it in commands)


class Versions(Check):
    ONE = ("--partitions", "2", "--merge")

    def setUp(self):
        super().setUp()
        shutil.copytree(FROZEN, self.folder / "data")

    def marks(self):
        """The mark of each component, by its partition and name."""
        return {f"{it.parent.name}/{it.name}": it.read_bytes()[1:5] for it in sorted((self.folder / "data").glob("p*/c-*"))}

    def asked(self, merge, commands):
        """What a run answers, with so many components to a merge."""
        ended = self.run_program("data", "run", *self.ONE, merge, lines=lines(commands))
        self.assertEqual((ended.returncode, ended.stderr), (0, b""))
        return [json.loads(it) for it in ended.stdout.splitlines()]

    def has_all(self, merge):
        """A run has each document, and no other one, by its key and by a query of all."""
        kept = documents()
        gets = [{"op": "get", "id": key} for key in range(13)]
        *found, rows = self.asked(merge, [*gets, {"op": "query", "path": []}])
        self.assertEqual(found, [{"doc": kept.get(key)} for key in range(13)])
        wanted = [{"id": key, "values": [{name: it[name] for name in it if name != "id"}]} for key, it in sorted(kept.items())]
        self.assertEqual(rows, {"rows": wanted})

    def is_right(self):
        keys = documents()
        self.assertEqual(self.said_of(), [right(sum(key % 2 == it for key in keys), it) for it in (0, 1)])

    def test_it_is_of_version_1(self):
        marks = self.marks()
        self.assertEqual((set(marks.values()), len(marks)), ({FIRST}, 4))
        self.is_right()
        # A component has a record of form 1 in front, and form 1 has whole bytes for each number.
        for name in marks:
            content = (self.folder / "data" / name).read_bytes()
            records, entries = struct.unpack_from(">QQ", content, 29)
            self.assertGreater(entries, 0)
            if records:
                self.assertEqual(content[61 + 4], 1)

    def test_it_is_read_and_stays(self):
        old = self.marks()
        self.has_all("8")
        # The log became a component of version 2 in each partition, and those of version 1 are as they were.
        marks = self.marks()
        self.assertEqual({it: marks[it] for it in old}, old)
        self.assertEqual({marks[it] for it in set(marks) - set(old)}, {SECOND})
        for name in old:
            self.assertEqual((self.folder / "data" / name).read_bytes(), (FROZEN / name).read_bytes())
        self.has_all("8")
        self.is_right()

    def test_it_is_merged_into_version_2(self):
        self.has_all("2")
        marks = self.marks()
        self.assertEqual((set(marks.values()), len(marks)), ({SECOND}, 2))
        self.is_right()
        self.has_all("2")
        self.asked("2", [upsert(id=12, name="later"), FLUSH, delete(12), FLUSH])
        self.has_all("8")
        self.is_right()
        self.assertEqual(set(self.marks().values()), {SECOND})

    def test_what_is_written_over_it(self):
        self.asked("8", [upsert(id=1, name="written by the new program"), delete(3), FLUSH])
        gets = [{"op": "get", "id": key} for key in (1, 3, 6)]
        wanted = [{"doc": {"id": 1, "name": "written by the new program"}}, {"doc": None}, {"doc": documents()[6]}]
        self.assertEqual(self.asked("8", gets), wanted)
        self.assertEqual(self.asked("2", gets), wanted)
        self.assertEqual(self.asked("2", gets), wanted)
        self.assertEqual(set(self.marks().values()), {SECOND})

    def damaged(self, merge, partition, name, at):
        """A record of another form than its file's is damage, to a query and to `check`."""
        file = self.folder / "data" / partition / name
        content = bytearray(file.read_bytes())
        content[at + 4] ^= 3
        file.write_bytes(content)
        ended = self.run_program("data", "run", *self.ONE, merge, lines=lines([{"op": "query", "path": []}]))
        number = int(partition[1:])
        self.assertEqual((ended.returncode, self.said(ended)[0]), (6, f"damaged file {name} in partition {number} at byte {at}"))
        self.assertIn(wrong(place(name, at), number), self.said_of())

    def test_a_record_of_form_2_in_a_file_of_version_1(self):
        self.damaged("8", "p1", "c-1-1", 61)

    def test_a_record_of_form_1_in_a_file_of_version_2(self):
        self.has_all("2")
        (name,) = (it.name for it in (self.folder / "data/p1").glob("c-*"))
        self.damaged("8", "p1", name, 61)

    def test_a_mark_does_not_make_a_version(self):
        # The mark of the other version over the same records: the file opens, and its records are damage.
        (self.folder / "data/p1/l-3").write_bytes(log(3, 1, 2))
        for name in ("c-1-1", "c-2-2"):
            file = self.folder / "data/p1" / name
            content = bytearray(file.read_bytes())
            content[4:5] = b"2"
            file.write_bytes(content)
        self.assertEqual(self.said_of()[1], wrong(place("c-1-1", 61), 1))


if __name__ == "__main__":
    unittest.main()
