"""What `check` says of the files of a store: of right ones, and of each kind of wrong ones.

    python3 -m unittest clients/tests/test_check.py

It runs the real program, as test_messages.py does. Each store is made by the program, and then a byte of a file is changed.
"""

import fcntl
import json
import os
import pathlib
import resource
import shutil
import struct
import sys

sys.path.insert(0, str(pathlib.Path(__file__).resolve().parent))

from test_messages import Messages, component  # noqa: E402

# The component of generation 1 of partition 0 of 1 with {"a":true} at key 1, as docs/formats/component.md has it.
FIRST = bytes.fromhex("""01 54434331 00000000 00000001 0000000000000001 0000000000000001
000000000000001c 0000000000000001 0000000000000009 000000000000001a
0000001c 01 00000003 00000001 00000000 00 00000001 01 060207 01 00
0000000000000001 0000001c
00000001 00000001 61
06 0000000000000001 00000001 00000000 02 0000000000000001""")


def right(documents, partition=0):
    return {"check": "right", "documents": documents, "partition": partition}


def wrong(why, partition=0):
    return {"check": "wrong", "partition": partition, "why": why}


def place(file, byte):
    return {"file": file, "place": byte}


def count(file, kind, path, kept, counted):
    return {"counted": counted, "file": file, "kept": kept, "kind": kind, "path": path}


def upsert(**document):
    return json.dumps({"op": "upsert", "doc": document}).encode() + b"\n"


def delete(key):
    return b'{"op":"delete","id":%d}\n' % key


FLUSH = b'{"op":"flush"}\n'


class Check(Messages):
    ONE = ("--partitions", "1", "--merge", "8")

    def said_of(self, *words, folder="data"):
        """The verdicts on the partitions of a folder. The lines are compact, their members ascend, and no file changes."""
        before = self.files()
        ended = self.run_program(folder, "check", *words)
        self.assertEqual((ended.returncode, ended.stderr), (0, b""))
        verdicts = [json.loads(it) for it in ended.stdout.splitlines()]
        spelled = [json.dumps(it, sort_keys=True, separators=(",", ":"), ensure_ascii=False) for it in verdicts]
        self.assertEqual(ended.stdout.decode(), "".join(it + "\n" for it in spelled))
        self.assertEqual(self.files(), before)
        return verdicts

    def is_one(self, verdict):
        """The verdict on a store of one partition."""
        self.assertEqual(self.said_of("--partitions", "1"), [verdict])

    def change(self, name, at, content, partition="p0"):
        """Other bytes at a place of a file."""
        path = self.folder / "data" / partition / name
        old = path.read_bytes()
        path.write_bytes(old[:at] + content + old[at + len(content) :])
        return old

    def sections(self, name):
        """Where the records, the directory, the names and the schema of a component begin."""
        content = (self.folder / "data/p0" / name).read_bytes()
        records, entries, names, _ = struct.unpack_from(">QQQQ", content, 29)
        return 61, 61 + records, 61 + records + 12 * entries, 61 + records + 12 * entries + names


class RightFiles(Check):
    def test_a_folder_that_is_missing_is_not_made(self):
        self.assertEqual(self.said_of(), [right(0, 0), right(0, 1)])
        self.assertEqual(self.said_of("--partitions=16"), [right(0, it) for it in range(16)])
        self.assertEqual(list(self.folder.iterdir()), [])
        (self.folder / "data").mkdir()
        self.assertEqual(self.said_of("--partitions", "3"), [right(0, 0), right(0, 1), right(0, 2)])
        self.assertEqual(list((self.folder / "data").iterdir()), [])

    def test_a_partition_whose_folder_is_missing_has_no_documents(self):
        self.make(lines=upsert(id=0) + upsert(id=1))
        shutil.rmtree(self.folder / "data/p0")
        self.assertEqual(self.said_of(), [right(0, 0), right(1, 1)])
        self.assertFalse((self.folder / "data/p0").exists())

    def test_a_store_in_memory(self):
        self.assertEqual(self.said_of(folder=":memory:"), [right(0, 0), right(0, 1)])
        self.assertEqual(list(self.folder.iterdir()), [])

    def test_the_worked_component(self):
        self.put(c_1_1=FIRST)
        self.is_one(right(1))

    def test_documents_are_those_after_the_logs(self):
        lines = upsert(id=1) + upsert(id=2) + FLUSH + upsert(id=2, a=[1]) + upsert(id=3) + FLUSH + delete(1) + upsert(id=4)
        self.make(*self.ONE, lines=lines)
        self.is_one(right(3))
        self.make(*self.ONE, lines=delete(2) + delete(3) + delete(4))
        self.is_one(right(0))

    def test_documents_of_few_shapes(self):
        # Shapes are known within a component, and one document takes the place of one of another shape, of the same, or none.
        shapes = [{"a": 1}, {"a": "b"}, {"a": {"b": [1, None]}}, {}]
        lines = b"".join(upsert(id=it, **shapes[it % 4]) for it in range(40)) + FLUSH
        lines += b"".join(upsert(id=it, **shapes[it // 2 % 4]) for it in range(30, 60)) + b"".join(map(delete, range(5))) + FLUSH
        lines += b"".join(upsert(id=it, **shapes[it % 4]) for it in range(20, 80, 3)) + FLUSH
        self.make(*self.ONE, lines=lines)
        self.is_one(right(55 + len(range(62, 80, 3))))

    def test_more_shapes_than_are_known(self):
        lines = b"".join(upsert(id=it, **{f"n{it % 3000}": it}) for it in range(6000)) + FLUSH
        self.make(*self.ONE, "--memory", "4194304", lines=lines)
        self.assertEqual([it.name for it in (self.folder / "data/p0").glob("c-*")], ["c-1-1"])
        self.is_one(right(6000))

    def test_a_demonstration(self):
        self.assertEqual(self.run_program("data", "demo", "2000").returncode, 0)
        verdicts = self.said_of()
        self.assertEqual([it["check"] for it in verdicts], ["right", "right"])
        schemas = json.loads(self.run_program("data", "run", lines=b'{"op":"schema"}\n').stdout)["schemas"]
        self.assertEqual([it["documents"] for it in verdicts], [it["count"] for it in schemas])

    def test_files_that_do_not_count_are_let_pass(self):
        self.make(*self.ONE, lines=upsert(id=1, a=1) + FLUSH)
        self.write("c-9-9", b"\0" + b"damaged")
        self.write("l-9", b"\1")
        self.write("notes", b"nobody's")
        self.is_one(right(1))
        # One that lies within another counts no more, whatever its records are.
        self.write("c-1-3", component(1, 3))
        self.write("c-2-2", component(2, 2)[:-1] + b"\7")
        (self.folder / "data/p0/l-2").unlink()
        self.is_one(right(0))


class WrongFiles(Check):
    def test_the_worked_component(self):
        for at, why in [(118, count("c-1-1", "object", [], 2, 1)), (135, count("c-1-1", "boolean", ["a"], 2, 1)),
                        (87, place("c-1-1", 61))]:
            with self.subTest(at=at):
                (self.folder / "data/p0").mkdir(parents=True, exist_ok=True)
                self.write("c-1-1", FIRST[:at] + b"\2" + FIRST[at + 1 :])
                self.is_one(wrong(why))

    def test_the_bytes_of_a_component(self):
        self.make(*self.ONE, lines=upsert(id=1, a=1) + upsert(id=2, a="b") + FLUSH)
        records, directory, names, schema = self.sections("c-1-1")
        # The mark, a generation and a length of the header; a key, a name, a kind; the form of the second record.
        second = int.from_bytes((self.folder / "data/p0/c-1-1").read_bytes()[61:65], "big")
        rows = [(1, b"X", 1), (20, b"\2", 1), (44, b"\7", 1), (directory, b"\xff", directory), (names + 3, b"\0", names),
                (schema, b"\7", schema), (records + second + 4, b"\7", records + second)]
        for at, content, found in rows:
            with self.subTest(at=at):
                old = self.change("c-1-1", at, content)
                self.is_one(wrong(place("c-1-1", found)))
                self.write("c-1-1", old)
        self.is_one(right(2))

    def test_a_schema_that_nests_too_deep(self):
        # The deepest document has 32 levels, and its schema a place more for what the innermost array holds.
        self.make(*self.ONE, lines=upsert(id=1, a=json.loads("[" * 31 + "1" + "]" * 31)) + FLUSH)
        self.is_one(right(1))
        restore = "data/p0/c-1-1 is not as it was written: restore data from a copy that is whole"
        for places in (34, 12_000, 400_000):
            with self.subTest(places=places):
                self.write("c-1-1", nested(places))
                self.is_one(wrong(place("c-1-1", 70)))
                self.check_refused(6, ["damaged file c-1-1 in partition 0 at byte 70", restore], "run", *self.ONE)

    def test_the_bytes_of_a_log(self):
        self.make(*self.ONE, lines=upsert(id=1, a=1))
        for at, found in [(1, 1), (9, None), (20, 1), (25, 30), (28, 21), (29, 30)]:
            with self.subTest(at=at):
                old = self.change("l-1", at, b"\7")
                why = place("l-1", found) if found else {"found": 0, "found_of": 7 << 24 | 1}
                self.is_one(wrong(why))
                self.write("l-1", old)
        # Behind a frame whose gate is closed stands nothing.
        self.change("l-1", 21, b"\0")
        self.is_one(right(0))

    def test_a_member_id(self):
        self.make(*self.ONE, lines=upsert(id=7, ix=1) + FLUSH)
        at = (self.folder / "data/p0/c-1-1").read_bytes().index(b"ix")
        self.change("c-1-1", at, b"id")
        self.is_one(wrong(place("c-1-1", 61)))
        # A run opens it all the same.
        self.assertEqual(self.run_program("data", "run", *self.ONE, lines=b'{"op":"get","id":1}\n').returncode, 0)

    def test_files_that_do_not_go_together(self):
        self.make(*self.ONE, lines=b"".join(upsert(id=it) + FLUSH for it in (1, 2, 3)))
        (self.folder / "data/p0/c-2-2").unlink()
        self.is_one(wrong({"files": ["c-1-1", "c-3-3", "l-4"]}))

    def test_a_layout(self):
        self.make(lines=upsert(id=0) + upsert(id=1))
        found = {"found_of": 2}
        self.assertEqual(self.said_of("--partitions", "3"),
            [wrong({"found": 0, **found}, 0), wrong({"found": 1, **found}, 1), right(0, 2)])
        self.assertEqual(self.said_of("--partitions", "1"), [wrong({"found": 0, **found}, 0)])
        self.change("l-1", 8, b"\1")
        self.assertEqual(self.said_of(), [wrong({"found": 1, **found}, 0), right(1, 1)])

    def test_each_counter(self):
        lines = upsert(id=1, a=[1, "x", None], b={"c": True}) + upsert(id=2, a=[], b=2) + upsert(id=3, b={"c": {}, "Ω\"": -1})
        self.make(*self.ONE, lines=lines + FLUSH)
        self.is_one(right(3))
        *_, schema = self.sections("c-1-1")
        content = (self.folder / "data/p0/c-1-1").read_bytes()
        for at, kind, path, kept, union in counters(content[schema:], names_of(content)):
            with self.subTest(kind=kind, path=path):
                changed = bytearray(content)
                for counter in (at, union):
                    if counter is not None:
                        (old,) = struct.unpack_from(">Q", content, schema + counter)
                        struct.pack_into(">Q", changed, schema + counter, old + 1)
                self.write("c-1-1", bytes(changed))
                self.is_one(wrong(count("c-1-1", kind, path, kept + 1, kept)))

    def test_the_first_difference_is_told(self):
        self.make(*self.ONE, lines=upsert(id=1, b=1, a=[True]) + FLUSH)
        *_, schema = self.sections("c-1-1")
        content = (self.folder / "data/p0/c-1-1").read_bytes()
        changed = bytearray(content)
        told = []
        # From the last place on: each one that is added stands before those that were changed.
        order = sorted(counters(content[schema:], names_of(content)), key=lambda it: [step or "" for step in it[2]])
        for at, _, _, kept, _ in reversed(order):
            struct.pack_into(">Q", changed, schema + at, kept + 1)
            self.write("c-1-1", bytes(changed))
            (verdict,) = self.said_of("--partitions", "1")
            told.append(verdict["why"]["path"])
        self.assertEqual(told, [["b"], ["a", None], ["a"], []])

    def test_the_oldest_component_is_told(self):
        self.make(*self.ONE, lines=upsert(id=1, a=1) + FLUSH + upsert(id=2, a=1) + FLUSH)
        for name in ("c-2-2", "c-1-1"):
            *_, schema = self.sections(name)
            (kept,) = struct.unpack_from(">Q", (self.folder / "data/p0" / name).read_bytes(), schema + 1)
            self.change(name, schema + 1, struct.pack(">Q", kept + 5))
            self.is_one(wrong(count(name, "object", [], kept + 5, kept)))

    def test_a_record_comes_before_a_counter(self):
        self.make(*self.ONE, lines=upsert(id=1, a=1) + FLUSH)
        *_, schema = self.sections("c-1-1")
        self.change("c-1-1", schema + 8, b"\7")
        self.change("c-1-1", 61 + 4, b"\7")
        self.is_one(wrong(place("c-1-1", 61)))

    def test_a_record_among_others_of_its_shape(self):
        self.make(*self.ONE, lines=b"".join(upsert(id=it, a="text", b=[it]) for it in range(9)) + FLUSH)
        content = (self.folder / "data/p0/c-1-1").read_bytes()
        records, *_ = self.sections("c-1-1")
        size = content.index(b"text", content.index(b"text") + 1) - content.index(b"text")
        for at in (0, 4, 8):
            with self.subTest(at=at):
                # No text in UTF-8, and a tag of another kind.
                for byte in (content.index(b"text") + size * at, records + size * at + 24):
                    self.change("c-1-1", byte, b"\xff")
                    self.is_one(wrong(place("c-1-1", records + size * at)))
                    self.write("c-1-1", content)
        # The numbers of two names change places: they do not ascend any more.
        at = content.rindex(b"a\0\0\0\1b")
        self.change("c-1-1", at, b"b\0\0\0\1a")
        self.is_one(wrong(place("c-1-1", records)))

    def test_a_partition_does_not_hide_the_next(self):
        self.make("--partitions", "2", "--merge", "8", lines=upsert(id=0) + upsert(id=1) + FLUSH)
        self.change("c-1-1", 1, b"X")
        self.assertEqual(self.said_of(), [wrong(place("c-1-1", 1)), right(1, 1)])


def nested(places):
    """A component without an entry in whose schema so many places stand one within another: an object, arrays, an integer."""
    schema = bytes.fromhex("06 0000000000000001 00000001 00000000")
    schema += bytes.fromhex("05 0000000000000001 01") * (places - 2) + bytes.fromhex("03 0000000000000001")
    header = b"\1TCC1" + struct.pack(">IIQQQQQQ", 0, 1, 1, 1, 0, 0, 9, len(schema))
    return header + bytes.fromhex("00000001 00000001 61") + schema


def names_of(content):
    """The names of a component."""
    records, entries = struct.unpack_from(">QQ", content, 29)
    at = 61 + records + 12 * entries
    (many,), at = struct.unpack_from(">I", content, at), at + 4
    names = []
    for _ in range(many):
        (length,) = struct.unpack_from(">I", content, at)
        names.append(content[at + 4 : at + 4 + length].decode())
        at += 4 + length
    return names


KINDS = {1: "null", 2: "boolean", 3: "integer", 4: "text", 5: "array", 6: "object"}


def counters(schema, names):
    """Each counter of a schema, but for those of unions: its place, kind, path and number, and the place of the counter of
    the union that it is in, or none."""
    found = []

    def node(at, path, union):
        tag, kept = schema[at], int.from_bytes(schema[at + 1 : at + 9], "big")
        if tag == 8:
            of_kind = at + 10
            for _ in range(schema[at + 9]):
                of_kind = node(of_kind, path, at + 1)
            return of_kind
        found.append((at + 1, KINDS[tag], path, kept, union))
        at += 9
        if tag == 5:
            return node(at + 1, path + [None], None) if schema[at] else at + 1
        if tag == 6:
            many, at = int.from_bytes(schema[at : at + 4], "big"), at + 4
            for _ in range(many):
                name = names[int.from_bytes(schema[at : at + 4], "big")]
                at = node(at + 4, path + [name], None)
        return at

    node(0, [], None)
    return found


class Ends(Check):
    ONE_CHECK = ("check", "--partitions", "1")

    def test_a_store_that_is_held(self):
        self.make("--partitions", "1", lines=upsert(id=1))
        folder = os.open(self.folder / "data/p0", os.O_RDONLY)
        self.addCleanup(os.close, folder)
        fcntl.flock(folder, fcntl.LOCK_EX)
        self.check_refused(5, ["disk fault in partition 0", "data/p0: another program holds it",
            "to see which one: fuser -v data/p0"], *self.ONE_CHECK)

    def test_it_holds_the_store_no_more(self):
        self.make("--partitions", "1", lines=upsert(id=1))
        for _ in range(2):
            self.is_one(right(1))
        self.check(0, [], "data", "run", "--partitions", "1")

    def test_a_link_that_leads_nowhere(self):
        (self.folder / "data").symlink_to("elsewhere")
        self.check(5, ["disk fault in partition 0", "data/p0: No such file or directory (os error 2)"], "data", *self.ONE_CHECK)
        (self.folder / "elsewhere").mkdir()
        self.is_one(right(0))

    def test_a_file_in_the_place_of_a_folder(self):
        (self.folder / "data").mkdir()
        (self.folder / "data/p0").write_bytes(b"")
        ended = self.run_program("data", *self.ONE_CHECK)
        self.assertEqual((ended.returncode, ended.stdout), (5, b""))
        (self.folder / "file").write_bytes(b"")
        self.check(5, ["disk fault in partition 0", "file is a file, where a folder has to be: Not a directory (os error 20)"],
            "file", *self.ONE_CHECK)

    def test_nothing_is_written_where_one_partition_has_no_verdict(self):
        self.make(lines=upsert(id=0) + upsert(id=1))
        shutil.rmtree(self.folder / "data/p1/")
        (self.folder / "data/p1").symlink_to("elsewhere")
        ended = self.check(5, ["disk fault in partition 1", "data/p1: No such file or directory (os error 2)"], "data", "check")
        self.assertEqual(ended.stdout, b"")

    def test_a_file_that_is_a_folder(self):
        (self.folder / "data/p0/l-1").mkdir(parents=True)
        self.check(5, ["disk fault in partition 0", "data/p0/l-1 is a folder, where a file has to be"], "data", *self.ONE_CHECK)

    def test_the_output_fails(self):
        self.make("--partitions", "1", lines=upsert(id=1))
        with open("/dev/full", "wb") as full:
            self.check(4, ["write fault after 0 bytes", "standard output: No space left on device (os error 28)"],
                "data", *self.ONE_CHECK, stdout=full)

    def test_no_memory(self):
        self.make("--partitions", "1", "--memory", "16777216",
            lines=b"".join(upsert(id=it, a="x" * 1000) for it in range(8000)))

        def limit():
            resource.setrlimit(resource.RLIMIT_AS, (12 << 20, 12 << 20))
        self.check_refused(7, ["no memory", "check keeps in memory the keys and names that the files of one partition have, "
            "and what its logs hold"], *self.ONE_CHECK, preexec_fn=limit)

    def test_the_input_is_not_read(self):
        read, write = os.pipe()
        self.addCleanup(os.close, write)
        with os.fdopen(read, "rb") as pipe:
            ended = self.run_program(":memory:", *self.ONE_CHECK, stdin=pipe)
        self.assertEqual((ended.returncode, json.loads(ended.stdout)), (0, right(0)))


if __name__ == "__main__":
    import unittest

    unittest.main()
