"""What a run meets that no program should have given it: files of which a byte was changed, and lines that are none.

    python3 -m unittest clients/tests/test_hostile.py

It runs the real program, as test_messages.py does. Whatever meets a record that was changed has to name its partition, its file and
its place, to answer no line of the window that met it, and to change neither the file nor another component of that partition.
"""

import json
import pathlib
import random
import shutil
import struct
import sys
import unittest

sys.path.insert(0, str(pathlib.Path(__file__).resolve().parent))

from test_check import FIRST  # noqa: E402
from test_messages import Messages  # noqa: E402

FLUSH = {"op": "flush"}
SCAN, COLLECT = {"op": "scan", "path": []}, {"op": "collect"}
# The log of generation 1 of partition 0 of 1 with {"a":true} at key 1, as docs/formats/log.md has it.
LOG = bytes.fromhex("""01 54434c31 00000000 00000001 0000000000000001
01 00000001 00000026 0000000000000001 01
0000001d 00 00000003 00000001 00000000 00 00000001 01 060207 01 01 61
00""")
# The component with the same, in both versions. Its record is as long in both, and a byte of its version and of its record's form differ.
COMPONENTS = {1: FIRST, 2: FIRST[:4] + b"2" + FIRST[5:65] + b"\2" + FIRST[66:]}
# Where the first record of a component and of a frame of a log begins, and its first tag; and where the body of the frame does.
RECORD, TAG, FRAME, BODY = 61, 23, 21, 30


def upsert(key, **document):
    return {"op": "upsert", "doc": {"id": key, "a": 1, **document}}


def get(key):
    return {"op": "get", "id": key}


def delete(key):
    return {"op": "delete", "id": key}


def lines(commands):
    return b"".join(json.dumps(it).encode() + b"\n" for it in commands)


class Damage(Messages):
    def make_store(self, partitions=2, behind=False):
        """Each partition gets three components with a document each, and a document in its log if there is one behind them."""
        self.words = ("--partitions", str(partitions), "--window", "1")
        rounds = [[upsert(at * partitions + it) for it in range(partitions)] for at in range(4)]
        written = [line for upserts in rounds[:3] for line in (*upserts, FLUSH)] + behind * rounds[3]
        self.make(*self.words, "--merge", "8", lines=lines(written))

    def change(self, partition, name, place, value=99):
        path = self.folder / f"data/p{partition}/{name}"
        content = bytearray(path.read_bytes())
        self.assertNotEqual(content[place], value)
        content[place] = value
        path.write_bytes(content)

    def break_record(self, partition, name="c-2-2"):
        self.change(partition, name, RECORD + TAG)
        return self.told(partition, name, RECORD)

    def told(self, partition, name, place):
        return [f"damaged file {name} in partition {partition} at byte {place}",
                f"data/p{partition}/{name} is not as it was written: restore data from a copy that is whole"]

    def lower_counter(self, partition, name):
        """The component says of one document alone that it has an `a`. Each has one, and that counter is what its file ends with."""
        self.change(partition, name, -1, 1)

    def misfit(self, partition, *names):
        return [f"files of partition {partition} do not fit together", f"data/p{partition} has {' '.join(names)}"]

    def components(self, partition):
        return {it.name: it.read_bytes() for it in (self.folder / f"data/p{partition}").glob("c-*")}

    def check_met(self, said, partition, commands, answered, merge=8):
        """A run over these commands ends with status 6, says just these lines, and has answered so many of the commands."""
        before = self.components(partition)
        ended = self.check(6, said, "data", "run", *self.words, "--merge", str(merge), lines=lines(commands))
        self.assertEqual(ended.stdout.count(b"\n"), answered, ended.stdout)
        after = self.components(partition)
        self.assertEqual({name: after.get(name) for name in before}, before)


class OneFile(Damage):
    """A partition with one file, which was cut, or of which a byte was changed."""

    ONE = ("run", "--partitions", "1")
    LIVE, NONE = b'{"doc":{"a":true,"id":1}}\n', b'{"doc":null}\n'

    def check_answer(self, name, content, answer):
        """A get over this file alone has this reply; or else it tells of damage at this place, or what else is told, and leaves the file
        as it is, and no other one but where it opened the store."""
        shutil.rmtree(self.folder / "data", ignore_errors=True)
        self.put(**{name: content})
        if isinstance(answer, bytes):
            self.assertEqual(self.check(0, [], "data", *self.ONE, lines=lines([get(1)])).stdout, answer)
            return
        status, said = answer if isinstance(answer, tuple) else (6, self.told(0, name, answer))
        self.assertEqual(self.check(status, said, "data", *self.ONE, lines=lines([get(1)])).stdout, b"")
        left = {it.name: bytes_of for it, bytes_of in self.files().items()}
        self.assertEqual(left.pop(name), content)
        self.assertEqual(list(left), ["l-2"] if answer == RECORD else [])

    def test_a_log_that_was_cut(self):
        self.assertEqual(len(LOG), 69)
        for length in range(len(LOG) + 1):
            # A file of one byte is closed, and so is a frame without its gate; the gate behind the last frame may be missing.
            closed = length in (0, 1, 21)
            answer = self.NONE if closed else 1 if length < 21 else FRAME if length < 68 else self.LIVE
            with self.subTest(length=length):
                self.check_answer("l-1", LOG[:length], answer)

    def test_a_component_that_was_changed(self):
        layout = (8, ["partition 0: found 1 of 1, asked 0 of 1", "data/p0/c-1-1 is damaged: no store has a partition 1 of 1"])
        # A partition, a generation, a length; a boolean, the number of its name; a key, a name, a counter; the gate.
        rows = [(8, 1, layout), (20, 2, 1), (36, 0x1d, 1), (87, 2, RECORD), (88, 1, RECORD), (89, 0x80, 89), (109, 0xff, 101),
                (135, 0, 110), (0, 2, self.NONE)]
        for version, content in COMPONENTS.items():
            self.assertEqual(len(content), 136)
            self.check_answer("c-1-1", content, self.LIVE)
            for at, value, answer in rows:
                with self.subTest(version=version, at=at):
                    self.check_answer("c-1-1", content[:at] + bytes([value]) + content[at + 1 :], answer)


class HostileLines(Messages):
    def test_lines_that_are_none(self):
        malformed = b'{"refused":"malformed"}'
        rows = [(b"[" * 200 + b"]" * 200, malformed), (b'{"op":"get","id":\xff}', malformed), (b"   ", malformed), (b"", malformed),
                (b'{"op":"get","id":1,"id":2}', b'{"doc":null}'), (b'{"op":"get","id":2,"id":1}', b'{"doc":{"id":1}}')]
        given = b"".join(line + b"\n" for line, _ in [(b'{"op":"upsert","doc":{"id":1}}', None), *rows])
        ended = self.check(0, [], ":memory:", "run", lines=given)
        self.assertEqual(ended.stdout.splitlines()[1:], [reply for _, reply in rows])


    def test_names_and_texts_of_each_length(self):
        # Short ones are kept in place: with characters of one to four bytes, around where they no longer are.
        words = [character * count + rest for character in ("k", "é", "€", "🌍") for count in (0, 1, 7, 10, 15, 29, 30, 31, 32, 100)
                 for rest in ("", "z", "\n")]
        documents = [{"id": key, word: word, "deep": [{word: [word]}]} for key, word in enumerate(words)]
        written = lines([{"op": "upsert", "doc": it} for it in documents])
        asked = lines([get(it["id"]) for it in documents])
        for flushed in b"", lines([FLUSH]):
            replies = self.check(0, [], ":memory:", "run", lines=written + flushed + asked).stdout.splitlines()[-len(documents):]
            self.assertEqual([json.loads(it)["doc"] for it in replies], documents)


    def test_a_schema_of_many_names(self):
        # They get their numbers in an order of chance, and stand in that of their bytes.
        names = [f"{character}{number}" for character in ("", "a", "Z", "\"", "\\", "\n", "é", "€", "🌍") for number in range(100)]
        chance = random.Random(8)
        chance.shuffle(names)
        counts = dict.fromkeys(names, 0)
        documents = []
        for key in range(60):
            some = chance.sample(names, 60)
            documents.append({"id": key, **dict.fromkeys(some, key)})
            for name in some:
                counts[name] += 1
        fields = {name: {"count": counts[name], "kind": "integer"} for name in sorted(names, key=str.encode) if counts[name]}
        told = json.dumps({"schemas": [{"count": 60, "fields": fields, "kind": "object"}]}, separators=(",", ":"), ensure_ascii=False)
        written = lines([*({"op": "upsert", "doc": it} for it in documents), {"op": "schema"}])
        ended = self.check(0, [], ":memory:", "run", "--partitions", "1", lines=written)
        self.assertEqual(ended.stdout.splitlines()[-1].decode(), told)


class DamageInARun(Damage):
    def test_a_get(self):
        self.make_store()
        said = self.break_record(1)
        self.check_met(said, 1, [get(2), get(1), get(3), get(2)], 2)

    def test_a_get_in_a_window_with_others(self):
        self.make_store()
        self.words = ("--partitions", "2", "--window", "4")
        said = self.break_record(1)
        self.check_met(said, 1, [get(0), get(1), get(2), get(4), upsert(6), get(3), get(2), get(4)], 4)

    def test_a_write_over_it(self):
        for write in (upsert(3, b=2), delete(3)):
            with self.subTest(write=write):
                self.make_store()
                said = self.break_record(1)
                self.check_met(said, 1, [get(2), write, get(2)], 1)
                shutil.rmtree(self.folder / "data")

    def test_a_query(self):
        for partitions, partition in (1, 0), (2, 0), (2, 1), (16, 13):
            with self.subTest(partitions=partitions, partition=partition):
                self.make_store(partitions)
                said = self.break_record(partition)
                self.check_met(said, partition, [get(0), {"op": "query", "path": ["a"], "eq": 1}, get(0)], 1)
                shutil.rmtree(self.folder / "data")

    def test_a_query_with_a_path_that_reaches_nothing(self):
        self.make_store()
        said = self.break_record(1)
        self.check_met(said, 1, [{"op": "query", "path": ["b"]}], 0)

    def test_a_query_over_records_of_one_shape(self):
        self.words = ("--partitions", "1", "--window", "1")
        written = lines([*(upsert(key, rows=[{"x": 1, "y": "text"}] * 5) for key in range(6)), FLUSH])
        query = {"op": "query", "path": ["a"]}
        self.make(*self.words, lines=written)
        content, places = (self.folder / "data/p0/c-1-1").read_bytes(), [RECORD]
        for _ in range(6):
            places.append(places[-1] + int.from_bytes(content[places[-1] : places[-1] + 4], "big"))
        whole = self.check(0, [], "data", "run", *self.words, lines=lines([query])).stdout
        self.assertEqual(json.loads(whole)["rows"], [{"id": key, "values": [1]} for key in range(6)])
        for at in (0, 1, 3, 5):
            # Twelve numbers of names have two bits each, and the last byte has those of x, y, x and y. Then names that do not ascend,
            # no text in UTF-8, and no tag.
            self.assertEqual(content[places[at + 1] - 1], 0b10111011)
            for place, value in (places[at + 1] - 1, 0b10111110), (content.index(b"text", places[at]), 0xFF), (places[at] + TAG + 3, 99):
                with self.subTest(at=at, value=value):
                    shutil.rmtree(self.folder / "data")
                    self.make(*self.words, lines=written)
                    self.change(0, "c-1-1", place, value)
                    self.check_met(self.told(0, "c-1-1", places[at]), 0, [query], 0)

    def test_a_scan_that_is_collected(self):
        self.make_store()
        said = self.break_record(1)
        self.check_met(said, 1, [SCAN, get(2), COLLECT, get(2)], 2)

    def test_a_scan_that_nobody_collects(self):
        self.make_store()
        said = self.break_record(1)
        self.check_met(said, 1, [SCAN, get(2), upsert(8)], 3)

    def test_a_merge_in_front_of_the_first_window(self):
        self.make_store()
        said = self.break_record(1)
        self.check_met(said, 1, [], 0, merge=2)

    def test_a_merge_between_windows(self):
        # The start leaves four components in each partition, and the flush makes a fifth.
        self.make_store()
        said = self.break_record(1)
        before = self.components(1)
        commands = [get(2), upsert(8), upsert(9), FLUSH, *[get(2)] * 1000]
        ended = self.check(6, said, "data", "run", *self.words, "--merge", "5", lines=lines(commands))
        self.assertGreaterEqual(ended.stdout.count(b"\n"), 3)
        self.assertEqual({name: self.components(1).get(name) for name in before}, before)

    def test_a_flush_of_more_than_is_counted(self):
        # The start leaves four components in each partition, the last of which has no document of its own.
        self.make_store()
        self.lower_counter(1, "c-3-3")
        self.check_met(self.misfit(1, "c-1-1", "c-2-2", "c-3-3", "c-4-4"), 1, [delete(1), delete(3), delete(5), FLUSH], 3)

    def test_the_least_partition_is_told(self):
        self.make_store(3)
        self.break_record(2, "c-1-1")
        said = self.break_record(1)
        self.check_met(said, 1, [{"op": "query", "path": []}], 0)


class DamageInAnOpening(Damage):
    def check_opening(self, said, partition):
        """The same, and no file of the partition changes."""
        place = self.folder / f"data/p{partition}"
        before = {it.name: it.read_bytes() for it in place.iterdir()}
        self.check_met(said, partition, [get(0)], 0)
        self.assertEqual({it.name: it.read_bytes() for it in place.iterdir()}, before)

    def test_a_record_of_a_frame(self):
        self.make_store(behind=True)
        self.change(1, "l-4", BODY + 9 + TAG)
        self.check_opening(self.told(1, "l-4", BODY), 1)

    def test_the_writes_of_a_frame(self):
        self.make_store(behind=True)
        self.change(1, "l-4", FRAME + 4, 2)
        self.check_opening(self.told(1, "l-4", BODY), 1)

    def test_the_length_of_a_frame(self):
        self.make_store(behind=True)
        self.change(1, "l-4", FRAME + 5, 1)
        self.check_opening(self.told(1, "l-4", FRAME), 1)

    def test_the_flush_of_more_than_is_counted(self):
        self.make_store()
        self.check(0, [], "data", "run", *self.words, "--merge", "8", lines=lines([delete(1), delete(3), delete(5)]))
        self.lower_counter(1, "c-4-4")
        self.check_opening(self.misfit(1, "c-1-1", "c-2-2", "c-3-3", "c-4-4", "l-5"), 1)

    def test_the_merge_of_an_opening(self):
        # Nine components are more than an opening leaves. Each is the first one, of another generation.
        self.make_store()
        place = self.folder / "data/p1"
        first = (place / "c-1-1").read_bytes()
        for it in place.iterdir():
            it.unlink()
        for last in range(1, 10):
            (place / f"c-{last}-{last}").write_bytes(first[:13] + struct.pack(">QQ", last, last) + first[29:])
        self.check(0, [], "data", "check", "--partitions", "2")
        said = self.break_record(1, "c-9-9")
        self.check_met(said, 1, [get(0)], 0)


if __name__ == "__main__":
    unittest.main()
