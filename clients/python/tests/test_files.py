"""Components, logs and partitions, against files that were spelled by hand from docs/formats."""

from __future__ import annotations

import os
import struct

from tuple_store_client.components import names_in, schema_in
from tuple_store_client.dump import dump, keys
from tuple_store_client.errors import Damaged, FilesDiffer, NewerFormat, NoStore, PartitionsDiffer
from tuple_store_client.folder import file_name
from tuple_store_client.partition import partitions_of

from .support import StoreTest, component, log, spelled

# The component of generation 1 of partition 0 of 1 with {"a":true} at key 1, as docs/formats/component.md has it.
FIRST = """01 54434331 00000000 00000001 0000000000000001 0000000000000001
000000000000001c 0000000000000001 0000000000000009 000000000000001a
0000001c 01 00000003 00000001 00000000 00 00000001 01 060207 01 00
0000000000000001 0000001c
00000001 00000001 61
06 0000000000000001 00000001 00000000 02 0000000000000001"""
EMPTY = """01 54434331 00000000 00000001 0000000000000001 0000000000000001
0000000000000000 0000000000000000 0000000000000004 0000000000000001
00000000 00"""
# The log of generation 1 with the upsert of {"a":true} at key 1, as docs/formats/log.md has it.
LOG = """01 54434c31 00000000 00000001 0000000000000001
01 00000001 00000026 0000000000000001 01
0000001d 00 00000003 00000001 00000000 00 00000001 01 060207 01 01 61
00"""
TRUE = spelled("0000001c 01 00000003 00000001 00000000 00 00000001 01 060207 01 00")
PACKED_TRUE = spelled("0000001c 02 00000003 00000001 00000000 00 00000001 01 060207 01 00")
NAMED_TRUE = spelled("0000001d 00 00000003 00000001 00000000 00 00000001 01 060207 01 01 61")
NAMED_EMPTY = spelled("00000019 00 00000002 00000000 00000000 00 00000000 00 0607")


def schema(count: int) -> bytes:
    """The schema of so many documents {"a":true}."""
    return b"\6" + struct.pack(">QIIBQ", count, 1, 0, 2, count) if count else b"\0"


class Files(StoreTest):
    def store(self, **files: bytes) -> str:
        """A store of one partition with these files, whose names have _ for -."""
        for name, content in files.items():
            self.write(f"store/p0/{name.replace('_', '-')}", content)
        return "store"

    def documents(self) -> list:
        return list(dump("store"))

    def test_the_worked_component(self) -> None:
        self.assertEqual(component(1, 1, [(1, TRUE)], ["a"], schema(1)), spelled(FIRST))
        self.store(c_1_1=spelled(FIRST))
        self.assertEqual(self.documents(), [{"a": True, "id": 1}])
        (partition,) = partitions_of("store")
        text = {"count": 1, "fields": {"a": {"count": 1, "kind": "boolean"}}, "kind": "object"}
        self.assertEqual(partition.components[0].schema, text)

    def test_the_component_without_entries(self) -> None:
        self.store(c_1_1=spelled(EMPTY))
        self.assertEqual(self.documents(), [])

    def test_the_worked_log(self) -> None:
        self.assertEqual(log(1, [[(1, NAMED_TRUE)]]), spelled(LOG))
        self.store(l_1=spelled(LOG))
        self.assertEqual(self.documents(), [{"a": True, "id": 1}])

    def test_a_component_of_version_2(self) -> None:
        """It has another mark and records of form 2, and differs from the worked one in two bytes."""
        packed = bytearray(spelled(FIRST))
        packed[4], packed[65] = 0x32, 2
        self.assertEqual(component(1, 1, [(1, PACKED_TRUE)], ["a"], schema(1), b"TCC2"), bytes(packed))
        self.store(c_1_1=bytes(packed))
        self.assertEqual(self.documents(), [{"a": True, "id": 1}])

    def test_both_versions_and_logs_in_one_partition(self) -> None:
        self.store(
            c_1_2=component(1, 2, [(1, TRUE), (2, TRUE), (5, TRUE)], ["a"], schema(3)),
            c_3_3=component(3, 3, [(2, None), (3, PACKED_TRUE)], ["a", "b"], schema(3), b"TCC2"),
            l_4=log(4, [[(1, None), (4, NAMED_TRUE)], [(5, NAMED_EMPTY)]]),
            l_5=log(5, [[(6, NAMED_EMPTY), (6, None)], [(7, NAMED_EMPTY)]]),
        )
        expected = [{"a": True, "id": 3}, {"a": True, "id": 4}, {"id": 5}, {"id": 7}]
        self.assertEqual(self.documents(), expected)
        self.assertEqual(keys("store"), [3, 4, 5, 7])

    def test_records_are_of_the_form_of_their_file(self) -> None:
        self.store(c_1_1=component(1, 1, [(1, TRUE)], ["a"], schema(1), b"TCC2"))
        with self.assertRaises(Damaged) as damaged:
            self.documents()
        self.assertEqual((damaged.exception.file, damaged.exception.place), ("store/p0/c-1-1", 61))

    def test_what_does_not_count(self) -> None:
        """Closed files, components within others, logs that are covered, frames after a closed gate, files of other names."""
        closed = b"\0" + component(2, 2, [(9, TRUE)], ["a"], schema(1))[1:]
        torn = log(3, [[(2, NAMED_TRUE)], [(3, NAMED_TRUE)]])
        gate = len(log(3, [[(2, NAMED_TRUE)]])) - 1
        self.store(
            c_1_2=component(1, 2, [(1, TRUE)], ["a"], schema(1)),
            c_2_2=component(2, 2, [(8, TRUE)], ["a"], schema(1)),
            c_3_3=closed,
            l_1=log(1, [[(7, NAMED_TRUE)]]),
            l_3=torn[:gate] + b"\0" + torn[gate + 1 :],
            l_4=b"\1",
            c_01_2=b"\1 no file of a store",
            notes=b"\1",
        )
        self.assertEqual(self.documents(), [{"a": True, "id": 1}, {"a": True, "id": 2}])
        (partition,) = partitions_of("store")
        self.assertEqual([str(it.name) for it in partition.superseded], ["c-2-2", "l-1"])
        self.assertEqual([str(name) for name in partition.closed], ["c-3-3", "l-4"])

    def test_several_partitions(self) -> None:
        self.write("store/p0/c-1-1", component(1, 1, [(0, TRUE), (4, TRUE)], ["a"], schema(2), partition=(0, 2)))
        self.write("store/p1/l-1", log(1, [[(3, NAMED_TRUE), (1, NAMED_TRUE)]], partition=(1, 2)))
        self.assertEqual([it["id"] for it in dump("store")], [0, 1, 3, 4])


class Damage(StoreTest):
    def check(self, error: type, place: "int | None" = None, **files: bytes) -> None:
        for name, content in files.items():
            self.write(f"store/p0/{name.replace('_', '-')}", content)
        with self.assertRaises(error) as raised:
            list(dump("store"))
        if place is not None:
            self.assertEqual(raised.exception.place, place)
        for name in files:
            os.remove(f"store/p0/{name.replace('_', '-')}")

    def changed(self, content: bytes, place: int, byte: int) -> bytes:
        return content[:place] + bytes([byte]) + content[place + 1 :]

    def test_components(self) -> None:
        whole = spelled(FIRST)
        places = {
            "the mark": (2, 0x55, 1),
            "a generation": (20, 2, 1),
            "a length": (44, 2, 1),
            "the record": (61 + 26, 2, 61),
            "a key out of range": (89, 0x80, 89),
            "a length in the directory": (100, 0x1B, 89),
            "a name that is not UTF-8": (109, 0xFF, 101),
            "the number of names": (104, 2, 101),
            "the root of the schema": (110, 5, 110),
            "a counter of 0": (118, 0, 110),
            "the number of a name in the schema": (126, 1, 110),
        }
        for what, (place, byte, told) in places.items():
            with self.subTest(what):
                self.check(Damaged, told, c_1_1=self.changed(whole, place, byte))
        self.check(Damaged, 1, c_1_1=whole[:30])
        self.check(Damaged, 1, c_1_1=whole + b"\0")
        self.check(Damaged, 1, c_1_2=whole)

    def test_logs(self) -> None:
        whole = spelled(LOG)
        places = {
            "the mark": (1, 0x55, 1),
            "the generation": (20, 2, 1),
            "no write": (25, 0, 21),
            "a body that does not fit": (29, 0x28, 21),
            "a kind of write": (38, 3, 30),
            "the length of the record": (42, 0x1E, 30),
            "the record": (39 + 26, 2, 39),
        }
        for what, (place, byte, told) in places.items():
            with self.subTest(what):
                self.check(Damaged, told, l_1=self.changed(whole, place, byte))
        self.check(Damaged, 21, l_1=whole[:25])
        # A frame of two writes whose body has one.
        self.check(Damaged, 30, l_1=self.changed(whole, 25, 2))
        # What stands after a closed gate means nothing.
        self.write("store/p0/l-1", self.changed(whole, 21, 0x57))
        self.assertEqual(list(dump("store")), [])

    def test_newer_formats(self) -> None:
        self.check(NewerFormat, c_1_1=self.changed(spelled(FIRST), 4, ord("3")))
        self.check(NewerFormat, l_1=self.changed(spelled(LOG), 4, ord("2")))

    def test_files_that_do_not_fit_together(self) -> None:
        one, two = component(1, 1, [], [], schema(0)), component(2, 2, [], [], schema(0))
        three = component(3, 3, [], [], schema(0))
        self.check(FilesDiffer, c_2_2=two)
        self.check(FilesDiffer, c_1_1=one, c_3_3=three)
        self.check(FilesDiffer, c_1_2=component(1, 2, [], [], schema(0)), c_2_3=component(2, 3, [], [], schema(0)))
        self.check(FilesDiffer, c_1_1=one, l_3=log(3, []))
        self.check(FilesDiffer, l_1=log(1, []), l_3=log(3, []))

    def test_names_that_do_not_extend_the_older_ones(self) -> None:
        older, newer = component(1, 1, [], ["a", "b"], schema(0)), component(2, 2, [], ["a", "c"], schema(0))
        self.check(Damaged, 61, c_1_1=older, c_2_2=newer)

    def test_partitions(self) -> None:
        self.check(PartitionsDiffer, c_1_1=component(1, 1, [], [], schema(0), partition=(0, 2)))
        self.check(PartitionsDiffer, l_1=log(1, [], partition=(1, 1)))
        os.makedirs("store/p2")
        with self.assertRaises(PartitionsDiffer):
            list(dump("store"))

    def test_no_regular_file(self) -> None:
        os.makedirs("store/p0/c-1-1")
        with self.assertRaises(FilesDiffer):
            list(dump("store"))

    def test_no_store(self) -> None:
        os.makedirs("empty/px")
        self.write("file", b"")
        for folder in ("nowhere", "empty", "file", "file/below"):
            with self.assertRaises(NoStore):
                list(dump(folder))


class Sections(StoreTest):
    def test_names_of_files(self) -> None:
        last = str(2**63 - 1)
        self.assertEqual(str(file_name(f"c-1-{last}")), f"c-1-{last}")
        self.assertEqual(str(file_name(f"l-{last}")), f"l-{last}")
        for name in ("c-01-2", "c-2-1", "c-0-1", "l-0", "l-07", "L-7", "l-7 ", "c-1", "l-1-2", f"l-{2**63}", "l-+1", "l-١", ""):
            self.assertIsNone(file_name(name), name)

    def test_names(self) -> None:
        self.assertEqual(names_in(spelled("00000002 00000001 61 00000000")), ["a", ""])
        for section in ("", "00000001", "00000002 00000001 61", "00000002 00000001 61 00000001 61", "00000000 00", "00000001 00000001 ff"):
            with self.subTest(section), self.assertRaises(ValueError):
                names_in(spelled(section))

    def test_schemas(self) -> None:
        union = "06 0000000000000002 00000001 00000000 08 0000000000000002 02 03 0000000000000001 04 0000000000000001"
        kinds = [{"count": 1, "kind": "integer"}, {"count": 1, "kind": "text"}]
        place = {"count": 2, "kind": "union", "kinds": kinds}
        self.assertEqual(schema_in(spelled(union), ["a"]), {"count": 2, "fields": {"a": place}, "kind": "object"})
        arrays = "06 0000000000000001 00000002 00000000 05 0000000000000001 00 00000001 05 0000000000000001 01 01 0000000000000003"
        items = {"count": 1, "items": {"count": 3, "kind": "null"}, "kind": "array"}
        # Fields stand by number in the file, and by name in the text.
        fields = {"a": items, "b": {"count": 1, "items": None, "kind": "array"}}
        self.assertEqual(schema_in(spelled(arrays), ["b", "a"]), {"count": 1, "fields": fields, "kind": "object"})
        self.assertIsNone(schema_in(b"\0", []))

    def test_what_is_no_schema(self) -> None:
        no_schemas = {
            "nothing": "",
            "a scalar": "03 0000000000000001",
            "a byte more": "06 0000000000000001 00000000 00",
            "a counter of 0": "06 0000000000000000 00000000",
            "cut off": "06 0000000000000001 00000001",
            "a tag of 7": "06 0000000000000001 00000001 00000000 07 0000000000000001",
            "no such name": "06 0000000000000001 00000001 00000002 01 0000000000000001",
            "out of order": "06 0000000000000001 00000002 00000001 01 0000000000000001 00000000 01 0000000000000001",
            "items of 2": "06 0000000000000001 00000001 00000000 05 0000000000000001 02",
            "one kind": "06 0000000000000001 00000001 00000000 08 0000000000000001 01 01 0000000000000001",
            "two of a kind": "06 0000000000000002 00000001 00000000 08 0000000000000002 02 01 0000000000000001 01 0000000000000001",
            "a wrong sum": "06 0000000000000003 00000001 00000000 08 0000000000000003 02 01 0000000000000001 02 0000000000000001",
            "a union as a kind": "06 0000000000000002 00000001 00000000 08 0000000000000002 02 01 0000000000000001 08 0000000000000001",
        }
        for what, section in no_schemas.items():
            with self.subTest(what), self.assertRaises(ValueError):
                schema_in(spelled(section), ["a", "b"])
