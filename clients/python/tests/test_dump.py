"""The readers of files against the program: what they print is what the program answers, byte for byte."""

from __future__ import annotations

import json
import os
import random
import shutil
from typing import Any, Dict, List, Tuple

from tuple_store_client import Delete, Refused, Store, Upsert
from tuple_store_client.partition import partitions_of
from tuple_store_client.stats import stats

from .support import PROGRAM, StoreTest, counted, of_version_1

KEYS = 200
SIGNS = 'ab"\\/\n\t\x00\x1f\x7fé漢\u2028😀'
NAMES = ["a", "b", "id", "ie", "ic", "", "é", "漢字", "z" * 300, "\n", *(f"n{i}" for i in range(40))]


def value(choice: random.Random, depth: int) -> Any:
    """A random value. Each kind and each edge of a column is likely."""
    kind = choice.randrange(8 if depth < 5 else 5)
    if kind == 0:
        return None
    if kind == 1:
        return choice.random() < 0.5
    if kind == 2:
        return choice.choice([0, 1, -1, 2**63 - 1, -(2**63), choice.randrange(-1000, 1000)])
    if kind in (3, 4):
        length = choice.choice([0, 1, 5, 260, 70_000] if choice.random() < 0.02 else [0, 1, 3, 9])
        return "".join(choice.choice(SIGNS) for _ in range(length))
    if kind == 5:
        return [value(choice, depth + 1) for _ in range(choice.randrange(4))]
    return {choice.choice(NAMES): value(choice, depth + 1) for _ in range(choice.randrange(5))}


def document(choice: random.Random) -> Dict[str, Any]:
    made = {choice.choice(NAMES): value(choice, 1) for _ in range(choice.randrange(6))}
    return {**made, "id": choice.randrange(KEYS)}


class Dumps(StoreTest):
    def fill(self, choice: random.Random, folder: str, plain: Dict[int, Any], count: int, **options: Any) -> None:
        """Writes and deletes over a store, and over a plain dict."""
        commands: List[Any] = []
        for _ in range(count):
            if choice.random() < 0.2:
                commands.append(Delete(choice.randrange(KEYS)))
                plain.pop(commands[-1].id, None)
            else:
                commands.append(Upsert(document(choice)))
                plain[commands[-1].doc["id"]] = commands[-1].doc
        with Store(folder, program=PROGRAM, window=256, **options) as store:
            self.assertFalse([it for it in store.batch(commands) if isinstance(it, Refused)])

    def compare(self, folder: str, plain: Dict[int, Any], partitions: int) -> None:
        rows = self.tuplectl(folder, "dump", "--rows")
        documents = self.tuplectl(folder, "dump")
        self.assertEqual((rows.status, rows.err, documents.status, documents.err), (0, "", 0, ""))
        dumped = [json.loads(line) for line in documents.out.split("\n")[:-1]]
        self.assertEqual(dumped, [plain[key] for key in sorted(plain)])
        self.assertEqual(self.tuplectl(folder, "keys").out, "".join(f"{key}\n" for key in sorted(plain)))
        self.assertEqual(self.tuplectl(folder, "count").out, f"{len(plain)}\n")
        words = ("--partitions", str(partitions))
        query = self.program(folder, ['{"op":"query","path":[]}'], *words)
        joined = '{"rows":[' + ",".join(rows.out.split("\n")[:-1]) + "]}\n"
        self.assertTrue(joined == query, "the rows are not those of the query")
        gets = self.program(folder, [f'{{"op":"get","id":{key}}}' for key in sorted(plain)], *words)
        replies = "".join(f'{{"doc":{line}}}\n' for line in documents.out.split("\n")[:-1])
        self.assertTrue(replies == gets, "the documents are not those of the gets")

    def test_random_stores(self) -> None:
        # Partitions, bytes of a table, components of a merge, and its limit: small ones flush and merge often.
        rows: List[Tuple[int, int, int, int]] = [
            (1, 4096, 2, 0),
            (1, 262144, 8, 0),
            (3, 4096, 4, 20000),
            (16, 4096, 8, 0),
            (2, 16777216, 4, 0),
        ]
        for number, (partitions, memory, merge, limit) in enumerate(rows):
            choice, plain, folder = random.Random(number), {}, f"store{number}"
            for _ in range(2):
                options = {"partitions": partitions, "memory": memory, "merge": merge, "limit": limit}
                self.fill(choice, folder, plain, 400, **options)
                with self.subTest(row=number):
                    self.compare(folder, plain, partitions)

    def test_files_of_each_kind_are_among_them(self) -> None:
        choice, plain = random.Random(9), {}
        for count in (400, 300, 20):
            self.fill(choice, "store", plain, count, partitions=1, memory=4096, merge=4, limit=40000)
        (report,) = stats("store")
        self.assertGreater(len(report["components"]), 1)
        self.assertGreater(report["writes_in_logs"], 0)
        self.assertTrue(any(it["gone"] for it in report["components"]))
        self.assertTrue(any(it["file"].split("-")[1] != it["file"].split("-")[2] for it in report["components"]))
        self.compare("store", plain, 1)

    def test_records_of_each_version(self) -> None:
        """Each of the components in turn, and then all, written as files of version 1, which the program reads and does not write."""
        choice = random.Random(7)
        plain: Dict[int, Any] = {}
        for count in (300, 200, 20):
            self.fill(choice, "store", plain, count, partitions=2, memory=4096, merge=8, limit=40000)
        paths = [f"{top}/{name}" for top, _, names in os.walk("store") for name in names if name.startswith("c-")]
        expected = self.tuplectl("store", "dump", "--rows").out
        self.assertGreater(len(paths), 4)
        for chosen in (*([path] for path in paths), paths):
            shutil.copytree("store", "copy")
            for path in chosen:
                with open(path, "rb") as file:
                    content = of_version_1(file.read())
                self.write(path.replace("store", "copy", 1), content)
            ran = self.tuplectl("copy", "dump", "--rows")
            self.assertEqual((ran.status, ran.err), (0, ""))
            self.assertTrue(ran.out == expected, "the rows differ")
            formats = [it["format"] for partition in stats("copy") for it in partition["components"]]
            self.assertEqual(formats.count("TCC1"), len(chosen))
            shutil.rmtree("copy")

    def test_nothing_is_written(self) -> None:
        self.fill(random.Random(3), "store", {}, 300, partitions=2, memory=4096)

        def look() -> List[Tuple[str, int, int]]:
            found = [os.path.join(top, name) for top, folders, files in os.walk("store") for name in folders + files]
            return sorted((path, os.stat(path).st_mtime_ns, os.stat(path).st_size) for path in found)

        before = look()
        for command in ("dump", "keys", "count", "stats"):
            self.assertEqual(self.tuplectl("store", command).status, 0)
        self.assertEqual(look(), before)

    def test_the_schema_in_the_files(self) -> None:
        plain: Dict[int, Any] = {}
        self.fill(random.Random(4), "store", plain, 300, partitions=2, memory=4096)
        with Store("store", program=PROGRAM, partitions=2) as store:
            schemas = store.schema()
        parts = [[plain[key] for key in sorted(plain) if key % 2 == number] for number in range(2)]
        self.assertEqual(schemas, [counted(part) for part in parts])
        self.assertEqual([it["documents_in_components"] for it in stats("store")], [len(part) for part in parts])

    def test_a_store_that_was_killed(self) -> None:
        with Store("store", program=PROGRAM, partitions=2, memory=4096) as store:
            with self.assertRaises(Exception):
                for reply in store.batch(Upsert({"id": key, "n": key}) for key in range(100_000)):
                    if reply.id == 1_500:
                        os.kill(store._process.pid, 9)
        dumped = self.tuplectl("store", "dump")
        self.assertEqual((dumped.status, dumped.err), (0, ""))
        keys = [json.loads(line)["id"] for line in dumped.out.splitlines()]
        self.assertLessEqual(set(range(1_501)), set(keys))
        answered = self.program("store", ['{"op":"query","path":["n"]}'], "--partitions", "2")
        self.assertEqual(keys, [row["id"] for row in json.loads(answered)["rows"]])

    def test_a_store_that_is_held(self) -> None:
        with Store("store", program=PROGRAM) as store:
            store.upsert({"id": 1, "a": 1})
            for command in ("dump", "keys", "count"):
                ran = self.tuplectl("store", command)
                self.assertEqual((ran.status, ran.out), (5, ""))
                self.assertIn("store/p0: another program holds it", ran.err)
            seen = self.tuplectl("store", "stats")
            self.assertEqual((seen.status, seen.err), (0, ""))
            self.assertIn("1 write in logs", seen.out)

    def test_a_log_is_as_it_was_when_it_was_read(self) -> None:
        with Store("store", program=PROGRAM, partitions=1) as store:
            store.upsert({"id": 1})
            (before,) = partitions_of("store")
            store.upsert({"id": 2})
            (after,) = partitions_of("store")
            for partition, count in (before, 1), (after, 2):
                self.assertEqual([len(frame) for log in partition.logs for frame in log.frames()], [1] * count)

    def test_stats_of_a_store_at_work(self) -> None:
        with Store("store", program=PROGRAM, partitions=1, memory=4096, merge=2) as store:
            for number, _ in enumerate(store.batch(Upsert({"id": key, "t": "x" * 50}) for key in range(4_000))):
                if number % 200 == 0:
                    (report,) = stats("store")
                    self.assertGreaterEqual(report["documents_in_components"] + report["writes_in_logs"], number)
