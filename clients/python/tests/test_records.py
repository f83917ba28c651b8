"""Records of each form, against bytes that were worked by hand from docs/formats/record.md."""

from __future__ import annotations

import unittest

from tuple_store_client.records import NAMED, NUMBERED, PACKED, NotARecord, document_in

from .support import in_bytes, spelled

NESTED = {"v": [1, "x", [], {"b": None}]}
# Per row: the form, the names by number, the record, and the document that it spells.
ROWS = [
    (NAMED, [], "00000019 00 00000002 00000000 00000000 00 00000000 00 0607", {}),
    (NAMED, [], "0000001d 00 00000003 00000001 00000000 00 00000001 01 060207 01 01 61", {"a": True}),
    (NUMBERED, ["a"], "0000001c 01 00000003 00000001 00000000 00 00000001 01 060207 01 00", {"a": True}),
    (
        NAMED,
        [],
        "00000030 00 0000000b 00000008 00000001 01 00000002 01 0605030405070601070707 0000000000000001 01 78 0101 7662",
        NESTED,
    ),
    (
        NUMBERED,
        ["v", "b"],
        "0000002e 01 0000000b 00000008 00000001 01 00000002 01 0605030405070601070707 0000000000000001 01 78 0001",
        NESTED,
    ),
    (PACKED, ["a"], "0000001c 02 00000003 00000001 00000000 00 00000001 01 060207 01 00", {"a": True}),
    (
        PACKED,
        ["v", "b"],
        "0000002d 02 0000000b 00000008 00000001 01 00000002 01 0605030405070601070707 0000000000000001 80 78 40",
        NESTED,
    ),
    # Slots 5, 2 and 7 in three bits each: 101 010 111, and seven zeros.
    (
        PACKED,
        ["p", "q", "b", "r", "s", "a", "t", "c"],
        "0000001e 02 00000005 00000000 00000000 00 00000003 03 0601010107 ab80",
        {"a": None, "b": None, "c": None},
    ),
    # Lengths 1 and 5 in three bits each: 001 101, and two zeros. Slots 0 and 1 in one bit each.
    (
        PACKED,
        ["a", "b"],
        "00000023 02 00000004 00000000 00000002 03 00000002 01 06040407 34 7868656c6c6f 40",
        {"a": "x", "b": "hello"},
    ),
    # A length of 300 in nine bits: 100101100, and seven zeros.
    (PACKED, ["a"], "00000149 02 00000003 00000000 00000001 09 00000001 01 060407 9600" + "78" * 300 + "00", {"a": "x" * 300}),
    # The same in two bytes.
    (NUMBERED, ["a"], "00000149 01 00000003 00000000 00000001 02 00000001 01 060407 012c" + "78" * 300 + "00", {"a": "x" * 300}),
    # An integer is two's complement, and false is 0. The name é has two bytes, and stands after z.
    (
        NAMED,
        [],
        "00000029 00 00000004 00000009 00000000 00 00000002 01 06030207 fffffffffffffffe 00 0102 7ac3a9",
        {"z": -2, "é": False},
    ),
]
# Per row: what is wrong, the form, the names, and bytes that are no record of that form.
NO_RECORDS = [
    ("it is cut off", NUMBERED, ["a"], "0000001c 01 00000003 00000001 00000000 00 00000001 01 060207 01"),
    ("no header", NUMBERED, ["a"], "0000001c 01 00000003"),
    ("a byte more", NUMBERED, ["a"], "0000001d 01 00000003 00000001 00000000 00 00000001 01 060207 01 00 00"),
    ("another form", PACKED, ["a"], "0000001c 01 00000003 00000001 00000000 00 00000001 01 060207 01 00"),
    ("form 2 as form 1", NUMBERED, ["a"], "0000001c 02 00000003 00000001 00000000 00 00000001 01 060207 01 00"),
    ("no such name", NUMBERED, ["a"], "0000001c 01 00000003 00000001 00000000 00 00000001 01 060207 01 01"),
    ("a width that is not the least", NUMBERED, ["a"], "0000001d 01 00000003 00000001 00000000 00 00000001 02 060207 01 0000"),
    ("two bits where one is enough", PACKED, ["a"], "0000001c 02 00000003 00000001 00000000 00 00000001 02 060207 01 00"),
    ("33 bits", PACKED, ["a"], "00000020 02 00000003 00000001 00000000 00 00000001 21 060207 01 0000000000"),
    ("a width of an empty column", NUMBERED, [], "00000019 01 00000002 00000000 00000000 01 00000000 00 0607"),
    ("no width of a column", NUMBERED, ["a"], "0000001b 01 00000003 00000001 00000000 00 00000001 00 060207 01"),
    ("a width of 3 bytes", NUMBERED, ["a"], "0000001e 01 00000003 00000001 00000000 00 00000001 03 060207 01 000000"),
    ("a filling bit of 1", PACKED, ["a"], "0000001c 02 00000003 00000001 00000000 00 00000001 01 060207 01 01"),
    ("a boolean of 2", NUMBERED, ["a"], "0000001c 01 00000003 00000001 00000000 00 00000001 01 060207 02 00"),
    ("a tag of 8", NUMBERED, ["a"], "0000001b 01 00000003 00000000 00000000 00 00000001 01 060807 00"),
    ("an array outside", NUMBERED, [], "00000019 01 00000002 00000000 00000000 00 00000000 00 0507"),
    ("no tag", NUMBERED, [], "00000017 01 00000000 00000000 00000000 00 00000000 00"),
    ("not closed", NUMBERED, [], "00000018 01 00000001 00000000 00000000 00 00000000 00 06"),
    ("a tag after the close", NUMBERED, [], "0000001a 01 00000003 00000000 00000000 00 00000000 00 060707"),
    ("a fixed byte too many", NUMBERED, ["a"], "0000001d 01 00000003 00000002 00000000 00 00000001 01 060207 0101 00"),
    ("a fixed byte too few", NUMBERED, ["a"], "0000001c 01 00000003 00000001 00000000 00 00000001 01 060307 01 00"),
    ("a text too many", NUMBERED, [], "0000001b 01 00000002 00000000 00000001 01 00000000 00 0607 01 78"),
    ("a text too few", NUMBERED, ["a"], "0000001b 01 00000003 00000000 00000000 00 00000001 01 060407 00"),
    ("a slot too many", NUMBERED, ["a"], "0000001a 01 00000002 00000000 00000000 00 00000001 01 0607 00"),
    ("a slot too few", NUMBERED, ["a"], "0000001a 01 00000003 00000000 00000000 00 00000000 00 060107"),
    ("names do not ascend", NUMBERED, ["b", "a"], "0000001d 01 00000004 00000000 00000000 00 00000002 01 06010107 0001"),
    ("a name twice", NUMBERED, ["a"], "0000001d 01 00000004 00000000 00000000 00 00000002 01 06010107 0000"),
    ("a text is not UTF-8", NUMBERED, ["a"], "0000001d 01 00000003 00000000 00000001 01 00000001 01 060407 01 ff 00"),
    ("33 deep", NUMBERED, ["a"], "0000005a 01 00000042 00000000 00000000 00 00000001 01 06" + "05" * 32 + "07" * 33 + "00"),
]


class Records(unittest.TestCase):
    def test_worked_rows(self) -> None:
        for form, names, record, document in ROWS:
            with self.subTest(form=form, document=document):
                self.assertEqual(repr(document_in(spelled(record), form, names)), repr(document))

    def test_form_1_of_the_worked_rows(self) -> None:
        """The spelling of form 1 that other tests use gives the worked bytes."""
        expected = {spelled(record) for form, _, record, _ in ROWS if form == NUMBERED}
        made = {in_bytes(spelled(record)) for form, _, record, _ in ROWS if form == PACKED}
        self.assertEqual(len(expected), 3)
        self.assertLessEqual(expected, made)

    def test_32_deep_is_a_record(self) -> None:
        record = "00000058 01 00000040 00000000 00000000 00 00000001 01 06" + "05" * 31 + "07" * 32 + "00"
        document = document_in(spelled(record), NUMBERED, ["a"])
        depth, value = 1, document["a"]
        while isinstance(value, list):
            depth, value = depth + 1, value[0] if value else None
        self.assertEqual(depth, 32)

    def test_what_is_no_record(self) -> None:
        for what, form, names, record in NO_RECORDS:
            with self.subTest(what), self.assertRaises(NotARecord):
                document_in(spelled(record), form, names)
