"""The command `tuplectl`: each command, its exit statuses, and stores that are not what is asked for."""

from __future__ import annotations

import errno
import filecmp
import json
import os
import signal
import subprocess
import sys
import time
from typing import IO
from unittest import mock

from tuple_store_client import Store, unwrap, wrap
from tuple_store_client.arguments import ABOUT
from tuple_store_client.check import verdict_lines
from tuple_store_client.folder import held, partition_folders
from tuple_store_client.paths import hops

from .support import CLIENT, PROGRAM, StoreTest, component, spelled
from .test_files import FIRST

ADA = '{"id":7,"name":"Ada","langs":["en","fr"],"born":{"year":1815,"in":"London"}}'
ADA_STORED = '{"born":{"in":"London","year":1815},"id":7,"langs":["en","fr"],"name":"Ada"}'
GRACE = '{"id":3,"langs":["en"],"name":"Grace"}'
READS = [["get", "1"], ["rm", "1"], ["count"], ["keys"], ["find", "a"], ["schema"], ["stats"], ["dump"], ["backup", "copy"]]


class Commands(StoreTest):
    def setUp(self) -> None:
        super().setUp()
        replies = '{"id":7,"replaced":false}\n{"id":3,"replaced":false}\n'
        self.assertEqual(self.tuplectl("people", "put", ADA, GRACE), (0, replies, ""))

    def test_put(self) -> None:
        again = self.tuplectl("people", "put", "-", stdin=GRACE + "\n" + ADA)
        self.assertEqual(again, (0, '{"id":3,"replaced":true}\n{"id":7,"replaced":true}\n', ""))
        refused = self.tuplectl("people", "put", '{"id":1,"p":[1.5]}', '{"id":2}', '{"id":')
        self.assertEqual((refused.status, refused.out), (1, '{"id":2,"replaced":false}\n'))
        self.assertIn("document 1:1: refused as not_whole: at p[0]: 1.5 is no whole number", refused.err)
        self.assertIn("document 3:1: refused as malformed: no JSON", refused.err)
        self.assertEqual(self.tuplectl("people", "put", '{"id":1,"p":[1.5]}', "--fractions", "wrap").status, 0)
        self.assertEqual(self.tuplectl("people", "get", "1").out, '{"id":1,"p":[{"$float":"1.5"}]}\n')

    def test_get(self) -> None:
        self.assertEqual(self.tuplectl("people", "get", "7", "3"), (0, f"{ADA_STORED}\n{GRACE}\n", ""))
        missing = self.tuplectl("people", "get", "8", "7")
        self.assertEqual(missing, (1, ADA_STORED + "\n", "tuplectl: no document has the key 8\n"))

    def test_rm(self) -> None:
        self.assertEqual(self.tuplectl("people", "rm", "7", "8"), (1, "", "tuplectl: no document has the key 8\n"))
        self.assertEqual(self.tuplectl("people", "rm", "3"), (0, "", ""))
        self.assertEqual(self.tuplectl("people", "count"), (0, "0\n", ""))

    def test_count_and_keys(self) -> None:
        self.assertEqual(self.tuplectl("people", "count"), (0, "2\n", ""))
        self.assertEqual(self.tuplectl("people", "keys"), (0, "3\n7\n", ""))

    def test_find(self) -> None:
        rows = {
            ("name",): '{"id":3,"values":["Grace"]}\n{"id":7,"values":["Ada"]}\n',
            ("langs[]", "--text", "fr"): '{"id":7,"values":["en","fr"]}\n',
            ("langs[]", "--eq", '"fr"', "--docs"): ADA_STORED + "\n",
            ("langs[1]",): '{"id":7,"values":["fr"]}\n',
            ("born.year", "--eq", "1815"): '{"id":7,"values":[1815]}\n',
            ("born.year", "--text", "1815"): "",
            ('["born","in"]',): '{"id":7,"values":["London"]}\n',
            (".", "--limit", "1"): '{"id":3,"values":[{"langs":["en"],"name":"Grace"}]}\n',
            ("name", "--limit", "0"): "",
        }
        for words, out in rows.items():
            self.assertEqual(self.tuplectl("people", "find", *words), (0, out, ""))
        self.assertEqual(self.tuplectl("people", "find", ".", "--docs").out, f"{GRACE}\n{ADA_STORED}\n")

    def test_finds_that_are_none(self) -> None:
        rows = {
            ("langs[]", "--eq", "fr"): "--eq fr is no JSON; for a text say --text fr",
            ("price", "--eq", "1.5"): "--fractions wrap looks for a fraction",
            ("a..b",): "is no path",
            ("a[x]",): "is no path",
            ("[1.5]",): "is no list of texts, whole numbers and nulls",
            ("[true]",): "is no list of texts, whole numbers and nulls",
            ("[",): "is no path",
        }
        for words, why in rows.items():
            ran = self.tuplectl("people", "find", *words)
            self.assertEqual((ran.status, ran.out), (2, ""))
            self.assertIn(why, ran.err)

    def test_dump_is_loaded_again(self) -> None:
        dumped = self.tuplectl("people", "dump")
        self.assertEqual(dumped, (0, f"{GRACE}\n{ADA_STORED}\n", ""))
        self.assertEqual(self.tuplectl("again", "load", "-", stdin=dumped.out).status, 0)
        self.assertEqual(self.tuplectl("again", "dump").out, dumped.out)

    def test_stats(self) -> None:
        (first, second) = json.loads(self.tuplectl("people", "stats", "--json").out)
        self.assertEqual((first["writes_in_logs"], second["writes_in_logs"], second["documents_in_components"]), (0, 2, 0))
        lines = self.tuplectl("people", "stats").out.splitlines()
        self.assertEqual(lines[0], "people/p0: 0 documents in components, 0 writes in logs, 0 names")
        size = os.path.getsize("people/p1/l-1")
        self.assertIn(f"  l-1         {size:>15,} bytes  log   2 writes in 2 frames", lines)

    def test_check(self) -> None:
        self.assertEqual(self.tuplectl("people", "check"), (0, "p0: right, 0 documents\np1: right, 2 documents\n", ""))
        os.remove("people/p1/l-1")
        self.assertEqual(self.tuplectl("people", "check"), (0, "p0: right, 0 documents\np1: right, 0 documents\n", ""))

    def test_a_check_that_finds_something(self) -> None:
        rows = [
            ({118: 2}, "c-1-1 counts 2 objects at the top, and its documents have 1"),
            ({135: 2}, "c-1-1 counts 2 booleans at a, and its documents have 1"),
            ({87: 2}, "c-1-1 is damaged at byte 61"),
            ({8: 1, 12: 2}, "a file is of partition 1 of 2"),
        ]
        for changes, why in rows:
            content = bytearray(spelled(FIRST))
            for place, byte in changes.items():
                content[place] = byte
            self.write("store/p0/c-1-1", bytes(content))
            self.assertEqual(self.tuplectl("store", "check"), (1, f"p0: wrong: {why}\n", ""))
        os.remove("store/p0/c-1-1")
        self.write("store/p0/c-2-2", component(2, 2, [], [], b"\0"))
        self.assertEqual(self.tuplectl("store", "check"), (1, "p0: wrong: the files c-2-2 do not fit together\n", ""))

    def test_verdicts_as_lines(self) -> None:
        deep = {"counted": 1000, "file": "c-1-9", "kept": 0, "kind": "null", "path": [None, "a", None, "b c"]}
        whys = [
            (deep, 'c-1-9 counts 0 null at [].a[]."b c", and its documents have 1,000'),
            ({"number": 4294967296, "over": "documents"}, "it has 4,294,967,296 documents, and no partition has so many"),
            ({"number": 4294967296, "over": "names"}, "it has 4,294,967,296 names, and no partition has so many"),
            ({"number": 1073741824, "over": "record_bytes"}, "a record in a log has 1,073,741,824 bytes"),
        ]
        for why, said in whys:
            lines = list(verdict_lines([{"check": "wrong", "partition": 3, "why": why}]))
            self.assertEqual(lines, [f"p3: wrong: {said}"])

    def test_backup(self) -> None:
        self.tuplectl("people", "words", "--memory", "8192")
        self.write("people/notes", "x")
        self.write("people/p0/notes", "x")
        copied = self.tuplectl("people", "backup", "copy")
        self.assertEqual((copied.status, copied.err), (0, "tuplectl: not the store's, and left out: notes, p0/notes\n"))
        self.assertRegex(copied.out, r"^2 files of [0-9]+ bytes copied to copy\n$")
        for name in (".tuplectl.json", "p0/l-1", "p1/l-1"):
            self.assertTrue(filecmp.cmp(f"people/{name}", f"copy/{name}", shallow=False))
        self.assertEqual(sorted(os.listdir()), ["copy", "people"])
        self.assertEqual(self.tuplectl("copy", "get", "7", "3").out, f"{ADA_STORED}\n{GRACE}\n")

    def test_backups_that_are_not_made(self) -> None:
        os.mkdir("there")
        os.symlink("nowhere", "link")
        for destination, why in (("there", "is there already"), ("link", "is there already"), ("people/copy", "is within people")):
            ran = self.tuplectl("people", "backup", destination)
            self.assertEqual((ran.status, ran.out), (5, ""))
            self.assertIn(why, ran.err)
        with Store("people", program=PROGRAM):
            ran = self.tuplectl("people", "backup", "copy")
        self.assertEqual(ran.status, 5)
        self.assertIn("another program holds it", ran.err)
        self.assertEqual(self.tuplectl("people", "backup", "nowhere/copy").status, 5)
        self.assertEqual(sorted(os.listdir()), ["link", "people", "there"])


    def test_a_copy_that_is_not_what_was_copied_is_no_backup(self) -> None:
        def copy_less(read: IO[bytes], written: IO[bytes], _: int) -> None:
            written.write(read.read()[:-1])

        with mock.patch("shutil.copyfileobj", copy_less):
            ran = self.tuplectl("people", "backup", "copy")
        self.assertEqual((ran.status, ran.out), (5, ""))
        self.assertIn("does not read as people does", ran.err)
        with mock.patch("shutil.copyfileobj", side_effect=OSError(errno.ENOSPC, "No space left on device")):
            ran = self.tuplectl("people", "backup", "copy")
            self.assertEqual(ran, (5, "", "tuplectl: copy: No space left on device\n"))
        self.assertEqual(os.listdir(), ["people"])
        os.mkdir("copy.unfinished")
        self.assertIn("of a backup that was stopped: remove it", self.tuplectl("people", "backup", "copy").err)
        self.assertEqual(sorted(os.listdir()), ["copy.unfinished", "people"])

    def test_readers_hold_the_store_together(self) -> None:
        with held(partition_folders("people")):
            self.assertEqual(self.tuplectl("people", "count").out, "2\n")
            ran = self.tuplectl("people", "get", "7")
            self.assertEqual((ran.status, ran.out), (5, ""))
            self.assertIn("another program holds it", ran.err)
        self.assertEqual(self.tuplectl("people", "get", "7").out, ADA_STORED + "\n")


class Words(StoreTest):
    def test_they_are_kept_and_each_run_gets_them(self) -> None:
        self.assertEqual(self.tuplectl("people", "words"), (0, "no options are kept\n", ""))
        self.assertFalse(os.path.exists("people"))
        kept = "--partitions 3 --names 1\n"
        self.assertEqual(self.tuplectl("people", "words", "--partitions", "3", "--names", "1"), (0, kept, ""))
        self.assertEqual(self.tuplectl("people", "words"), (0, kept, ""))
        refused = self.tuplectl("people", "put", '{"id":1,"a":1,"b":2}')
        self.assertIn("refused as names_full", refused.err)
        self.assertEqual(sorted(os.listdir("people")), [".tuplectl.json", "p0", "p1", "p2"])
        self.assertEqual(self.tuplectl("people", "words", "--forget", "names").out, "--partitions 3\n")
        self.assertEqual(self.tuplectl("people", "put", '{"id":1,"a":1,"b":2}').status, 0)

    def test_the_number_of_partitions_is_taken_from_what_is_there(self) -> None:
        Store("people", program=PROGRAM, partitions=5).close()
        self.assertEqual(self.tuplectl("people", "put", '{"id":1}').status, 0)
        self.assertEqual(self.tuplectl("people", "words", "--partitions", "4").status, 8)
        self.assertEqual(self.tuplectl("people", "words", "--partitions", "5").status, 0)
        self.write("people/.tuplectl.json", '{"partitions":4}')
        ran = self.tuplectl("people", "get", "1")
        self.assertEqual(ran.status, 8)
        self.assertIn("keeps the option --partitions 4, and its store has 5", ran.err)

    def test_options_that_are_none(self) -> None:
        options = {"--partitions": "17", "--memory": "1", "--window": "07x", "--docs": "-1", "--forget": "x", "--limit": "٣"}
        for option in options.items():
            self.assertEqual(self.tuplectl("people", "words", *option).status, 2)
        self.assertFalse(os.path.exists("people"))

    def test_a_file_of_kept_options_that_is_none(self) -> None:
        for content in ("", "[]", '{"x":1}', '{"memory":1}', '{"memory":"9"}', '{"memory":true}', "\xff"):
            self.write("people/.tuplectl.json", content)
            ran = self.tuplectl("people", "put", '{"id":1}')
            self.assertEqual((ran.status, ran.out), (2, ""))
            self.assertIn("people/.tuplectl.json", ran.err)
        self.assertEqual(os.listdir("people"), [".tuplectl.json"])


class Stores(StoreTest):
    def refuses(self, folder: str, status: int, why: str, commands: "list[list[str]]" = READS) -> None:
        for command in commands:
            with self.subTest(command):
                ran = self.tuplectl(folder, *command)
                self.assertEqual((ran.status, ran.out), (status, ""), ran.err)
                self.assertIn(why, ran.err)

    def test_a_folder_that_holds_no_store_is_not_made_one_by_reading(self) -> None:
        os.mkdir("empty")
        self.write("file", "")
        commands = [*READS, ["check"]]
        self.refuses("nowhere", 10, "nowhere is not there", commands)
        self.refuses("empty", 10, "empty holds no store: no folder p0 is in it", commands)
        self.refuses("file", 10, "file is no folder", commands)
        self.assertEqual(sorted(os.listdir()), ["empty", "file"])
        self.assertEqual(os.listdir("empty"), [])

    def test_a_partition_that_is_missing(self) -> None:
        self.tuplectl("people", "put", '{"id":1}')
        os.rename("people/p1", "elsewhere")
        commands = [*READS, ["put", '{"id":1}'], ["load", "-"]]
        self.refuses("people", 8, "people has the folders of 1 partition, and the files in p0 are of a store of 2", commands)
        os.rename("people/p0", "people/p1")
        self.refuses("people", 8, "people: the folder p0 of a partition is missing", commands)

    def test_a_store_that_is_held(self) -> None:
        with Store("people", program=PROGRAM):
            commands = [it for it in READS if it[0] != "stats"]
            self.refuses("people", 5, "another program holds it", [*commands, ["check"], ["put", '{"id":1}']])
            ran = self.tuplectl("people", "load", "-", stdin='{"id":1}')
            self.assertEqual((ran.status, ran.out), (5, ""))

    def test_a_store_of_a_newer_format(self) -> None:
        self.write("people/p0/c-1-1", component(1, 1, [], [], b"\0", b"TCC3"))
        by_reader = "people/p0/c-1-1: its format is TCC3, which this reader does not know: use a newer one"
        self.refuses("people", 6, by_reader, READS[2:4] + READS[6:])
        by_program = "the store ended with status 6: damaged file c-1-1 in partition 0 at byte 1"
        self.refuses("people", 6, by_program, READS[:2] + READS[4:6])

    def test_a_store_that_is_damaged(self) -> None:
        content = bytearray(spelled(FIRST))
        content[61 + 26] = 2
        self.write("people/p0/c-1-1", bytes(content))
        ran = self.tuplectl("people", "dump")
        self.assertEqual((ran.status, ran.out), (6, ""))
        why = "people/p0/c-1-1: damaged at byte 61: the record of the key 1 is damaged: a boolean is 2"
        self.assertEqual(ran.err, f"tuplectl: {why}\n")
        self.assertEqual(self.tuplectl("people", "get", "1").status, 6)
        os.rename("people/p0/c-1-1", "people/p0/c-2-2")
        self.refuses("people", 6, "c-2-2", [["dump"], ["stats"], ["keys"], ["backup", "copy"]])
        self.write("people/p0/c-2-2", component(2, 2, [], [], b"\0"))
        self.refuses("people", 6, "generation 1 is missing", [["dump"], ["stats"], ["keys"], ["backup", "copy"]])
        self.assertFalse(os.path.exists("copy"))

    def test_a_store_in_memory(self) -> None:
        self.refuses(":memory:", 2, "would be gone at the end", [["put", '{"id":1}'], ["load", "-"], ["check"]])
        self.assertEqual(self.tuplectl("./:memory:", "put", '{"id":1}').status, 0)

    def test_a_program_that_is_not_there(self) -> None:
        for words in (["--program", "./none", "people"], ["--program", self.top, "people"]):
            ran = self.tuplectl(*words, "put", '{"id":1}')
            self.assertEqual((ran.status, ran.out), (11, ""))
            self.assertIn("was not found", ran.err)


class Processes(StoreTest):
    """What only a process of its own shows."""

    def test_a_reader_that_goes_away(self) -> None:
        self.write("in", "".join(f'{{"id":{key},"t":"{"x" * 1000}"}}\n' for key in range(400)))
        self.assertEqual(self.tuplectl_process("people", "load", "in").status, 0)
        environment = {**os.environ, "PYTHONPATH": CLIENT}
        words = [sys.executable, "-m", "tuple_store_client", "people", "dump"]
        with subprocess.Popen(words, stdout=subprocess.PIPE, stderr=subprocess.PIPE, env=environment) as ran:
            assert ran.stdout and ran.stderr
            ran.stdout.readline()
            ran.stdout.close()
            self.assertEqual((ran.wait(), ran.stderr.read()), (4, b""))

    def test_put_stores_documents_as_they_come(self) -> None:
        words = [sys.executable, "-m", "tuple_store_client", "people", "put", "-"]
        environment = {**os.environ, "PYTHONPATH": CLIENT, "TUPLE_STORE": PROGRAM}
        pipe = subprocess.PIPE
        with subprocess.Popen(words, stdin=pipe, stdout=pipe, stderr=pipe, env=environment) as ran:
            assert ran.stdin and ran.stdout and ran.stderr
            for key in range(3):
                ran.stdin.write(b'{"id":%d}\n' % key)
                ran.stdin.flush()
                self.assertEqual(ran.stdout.readline(), b'{"id":%d,"replaced":false}\n' % key)
            ran.stdin.close()
            self.assertEqual((ran.wait(), ran.stderr.read()), (0, b""))

    def test_load_says_how_far_it_is_on_a_terminal_alone(self) -> None:
        self.write("in", "".join(f'{{"id":{key}}}\n' for key in range(3)))
        self.assertEqual(self.tuplectl_process("people", "load", "in"), (0, "3 documents: 3 new, 0 replaced, 0 refused\n", ""))
        main_end, other_end = os.openpty()
        words = [sys.executable, "-m", "tuple_store_client", "people", "load", "-"]
        environment = {**os.environ, "PYTHONPATH": CLIENT, "TUPLE_STORE": PROGRAM}
        with subprocess.Popen(words, stdin=subprocess.PIPE, stdout=subprocess.PIPE, stderr=other_end, env=environment) as ran:
            assert ran.stdin and ran.stdout
            os.close(other_end)
            shown, until = b"", time.monotonic() + 60
            os.set_blocking(main_end, False)
            key = 0
            while b"a second" not in shown and time.monotonic() < until:
                ran.stdin.write(b"".join(b'{"id":%d}\n' % (key + it) for it in range(3000)))
                key += 3000
                try:
                    shown += os.read(main_end, 4096)
                except BlockingIOError:
                    pass
            ran.stdin.close()
            self.assertRegex(shown.decode(), r"^\rstandard input: [0-9,]+ documents, [0-9,]+ a second, 0 refused")
            self.assertEqual(ran.stdout.read().decode(), f"{key:,} documents: {key - 3:,} new, 3 replaced, 0 refused\n")
        os.close(main_end)

    def test_a_load_that_is_stopped_says_what_is_stored(self) -> None:
        # A shell has what it runs in the background ignore this signal, and so would the command.
        before = signal.signal(signal.SIGINT, signal.default_int_handler)
        self.addCleanup(signal.signal, signal.SIGINT, before)
        environment = {**os.environ, "PYTHONPATH": CLIENT, "TUPLE_STORE": PROGRAM}
        words = [sys.executable, "-m", "tuple_store_client", "people", "load", "-"]
        for stop, status, said in ((signal.SIGINT, 130, "stopped"), (signal.SIGKILL, -9, "")):
            pipe = subprocess.PIPE
            with subprocess.Popen(words, stdin=pipe, stdout=pipe, stderr=pipe, env=environment) as ran:
                assert ran.stdin and ran.stderr
                ran.stdin.write(b"".join(b'{"id":%d}\n' % key for key in range(50_000)))
                ran.stdin.flush()
                ran.send_signal(stop)
                self.assertEqual(ran.wait(), status)
                told = ran.stderr.read().decode()
                self.assertTrue(told.startswith(said) and "Traceback" not in told, told)
            until = time.monotonic() + 30
            while self.tuplectl("people", "count").status == 5 and time.monotonic() < until:
                time.sleep(0.05)
            keys = self.tuplectl("people", "keys").out.split()
            self.assertEqual(keys, [str(key) for key in range(len(keys))])
            self.assertGreater(len(keys), 1000)

    def test_help_of_each_command(self) -> None:
        whole = self.tuplectl("--help")
        self.assertEqual(whole.status, 0)
        for status in (*range(9), 9, 10, 11, 130):
            self.assertRegex(whole.out, rf"\n  {status} ")
        for command in ABOUT:
            ran = self.tuplectl("people", command, "--help")
            self.assertEqual(ran.status, 0)
            self.assertIn("examples:\n  ", ran.out)
            self.assertIn(f"\n    {command} ", whole.out)

    def test_words_that_are_none(self) -> None:
        ends: "list[list[str]]" = [[], ["nothing"], ["get"], ["get", "x"], ["get", "-1"], ["get", str(2**63)]]
        for words in ([], *(["people", *end] for end in ends)):
            ran = self.tuplectl(*words)
            self.assertEqual((ran.status, ran.out), (2, ""))
            self.assertIn("usage: tuplectl", ran.err)


class Values(StoreTest):
    def test_paths(self) -> None:
        rows = {
            ".": [],
            "[]": [],
            "a": ["a"],
            "a.b": ["a", "b"],
            "a[].b": ["a", None, "b"],
            "a[][0][-1]": ["a", None, 0, -1],
            '"a.b"': ["a.b"],
            'a."\\"x\\u00e9"[]': ["a", '"xé', None],
            '["a",0,null]': ["a", 0, None],
            "漢字.é": ["漢字", "é"],
            '""': [""],
        }
        self.assertEqual({path: hops(path) for path in rows}, rows)
        for path in (".a", "a.", "a..b", "a[", "a]", "a b", 'a"b"', '"a', '"\\x"', "[a]", '{"a":1}', "a[1]b"):
            with self.subTest(path), self.assertRaises(ValueError):
                hops(path)

    def test_numbers_of_programs_are_wrapped_and_given_back(self) -> None:
        lines = [1.0, -0.0, 1e300, 5, True, None, "1.5"]
        document = {"id": 1, "p": 119.05, "lines": lines, "a": {"$float": "x"}, "b": {"$$float": 2.5}}
        wrapped = wrap(document)
        self.assertEqual(wrapped["p"], {"$float": "119.05"})
        self.assertEqual(wrapped["a"], {"$$float": "x"})
        self.assertEqual(repr(unwrap(wrapped)), repr(document))
        with Store("s", program=PROGRAM) as store:
            store.upsert(wrapped)
            self.assertEqual(unwrap(store.get(1)), document)
        for number in (float("nan"), float("inf")):
            with self.assertRaises(ValueError):
                wrap([number])
