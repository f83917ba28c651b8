"""The module for programs: each call, each refusal, batches, and runs that end."""

from __future__ import annotations

import os
import signal
import subprocess
import sys
import threading
import time

from tuple_store_client import (
    REFUSALS,
    Collected,
    Delete,
    Deleted,
    Get,
    Got,
    NoStore,
    ProgramNotFound,
    Refused,
    Row,
    Store,
    StoreFailed,
    Upsert,
    Upserted,
)
from tuple_store_client.words import BadWords

from .support import CLIENT, PROGRAM, StoreTest

ADA = {"id": 7, "name": "Ada", "langs": ["en", "fr"], "born": {"year": 1815, "in": "London"}}
GRACE = {"id": 3, "name": "Grace", "langs": ["en"], "born": {"year": 1906}}
NOBODY = {"id": 9, "name": None, "langs": []}


class Calls(StoreTest):
    def open(self, **options: object) -> Store:
        return Store("people", program=PROGRAM, **options)  # type: ignore[arg-type]

    def test_single_calls(self) -> None:
        with self.open() as store:
            self.assertIs(store.upsert(ADA), False)
            self.assertIs(store.upsert(ADA), True)
            self.assertEqual(store.get(7), ADA)
            self.assertIsNone(store.get(8))
            self.assertIs(store.delete(7), True)
            self.assertIs(store.delete(7), False)
            self.assertIsNone(store.get(7))

    def test_queries(self) -> None:
        rows = {
            ("name",): [Row(3, ["Grace"]), Row(7, ["Ada"]), Row(9, [None])],
            ("born", "year"): [Row(3, [1906]), Row(7, [1815])],
            ("langs", 0): [Row(3, ["en"]), Row(7, ["en"])],
            ("langs", None): [Row(3, ["en"]), Row(7, ["en", "fr"])],
            ("langs", -1): [],
        }
        with self.open(partitions=3) as store:
            for document in (ADA, GRACE, NOBODY):
                store.upsert(document)
            for path, expected in rows.items():
                self.assertEqual(store.query(path), expected)
            self.assertEqual(store.query(["langs", None], equal_to="fr"), [Row(7, ["en", "fr"])])
            self.assertEqual(store.query(["name"], equal_to=None), [Row(9, [None])])
            self.assertEqual(store.query(["born"], equal_to={"in": "London", "year": 1815}), [Row(7, [ADA["born"]])])

    def test_equality_has_types(self) -> None:
        with self.open() as store:
            for key, value in enumerate([True, 1, "1", False, 0]):
                store.upsert({"id": key, "v": value})
            for key, value in enumerate([True, 1, "1", False, 0]):
                (row,) = store.query(["v"], equal_to=value)
                self.assertEqual(row.id, key)
                self.assertIs(type(row.values[0]), type(value))

    def test_whole_numbers_of_64_bits_are_exact(self) -> None:
        numbers = [2**63 - 1, -(2**63), 2**53 + 1, 0, -1]
        with self.open() as store:
            store.upsert({"id": 2**63 - 1, "n": numbers})
            self.assertEqual(store.get(2**63 - 1), {"id": 2**63 - 1, "n": numbers})

    def test_schema_and_flush(self) -> None:
        with self.open(partitions=2) as store:
            store.upsert({"id": 2, "n": 1})
            store.flush()
            text = {"count": 1, "fields": {"n": {"count": 1, "kind": "integer"}}, "kind": "object"}
            self.assertEqual(store.schema(), [text, None])
        self.assertIn("c-1-1", os.listdir("people/p0"))

    def test_a_scan_goes_on_while_other_calls_are_made(self) -> None:
        with self.open(partitions=1) as store:
            store.upsert({"id": 1, "n": 1})
            store.scan(["n"])
            self.assertEqual(store.get(1), {"id": 1, "n": 1})
            with self.assertRaises(Refused) as busy:
                store.scan([])
            self.assertEqual(busy.exception.word, "busy")
            self.assertEqual(list(store.batch([Get(1), Get(2)])), [Got({"id": 1, "n": 1}), Got(None)])
            self.assertEqual(store.collect(), Collected([Row(1, [1])], [1]))
            with self.assertRaises(Refused) as none:
                store.collect()
            self.assertEqual(none.exception.word, "no_scan")
            store.scan(["n"], equal_to=2)
            self.assertEqual(store.collect(), Collected([], [1]))

    def test_a_scan_that_is_no_command_starts_none(self) -> None:
        with self.open() as store:
            with self.assertRaises(Refused) as unknown:
                store.scan([True])  # type: ignore[list-item]
            self.assertEqual(unknown.exception.word, "unknown")
            store.scan([])
            self.assertEqual(store.collect().rows, [])

    def test_each_refusal(self) -> None:
        deep: object = 1
        for _ in range(32):
            deep = [deep]
        with self.open(partitions=1, names=2, docs=1) as store:
            store.upsert({"id": 1, "a": 1, "b": 2})
            refused = {
                "oversized": lambda: store.upsert({"id": 1, "a": "x" * (1 << 20)}),
                "malformed": lambda: store.upsert({"id": 1, "a": "\ud800"}),
                "unknown": lambda: store.query([False]),  # type: ignore[list-item]
                "not_whole": lambda: store.upsert({"id": 1, "a": 1.5}),
                "too_deep": lambda: store.upsert({"id": 1, "a": deep}),
                "key": lambda: store.upsert({"a": 1}),
                "names_full": lambda: store.upsert({"id": 1, "c": 1}),
                "full": lambda: store.upsert({"id": 2, "a": 1}),
                "no_scan": store.collect,
            }
            for word, call in refused.items():
                with self.subTest(word), self.assertRaises(Refused) as raised:
                    call()
                self.assertEqual(raised.exception.word, word)
                self.assertIn(REFUSALS[word], str(raised.exception))
            self.assertEqual(store.get(1), {"id": 1, "a": 1, "b": 2})
        self.assertEqual({*refused, "busy"}, set(REFUSALS))

    def test_what_was_stored_is_there_in_the_next_run(self) -> None:
        with self.open(partitions=4) as store:
            store.upsert(ADA)
        with self.open(partitions=4, must_exist=True) as store:
            self.assertEqual(store.get(7), ADA)


class Batches(StoreTest):
    def test_replies_in_order_and_refusals_among_them(self) -> None:
        with Store("people", program=PROGRAM, window=2) as store:
            commands = [Upsert(ADA), Upsert({"id": 1, "n": 1.5}), Upsert(ADA), Get(7), Delete(7), Delete(7), Get(7)]
            replies = list(store.batch(commands))
        refused = replies.pop(1)
        self.assertIsInstance(refused, Refused)
        self.assertEqual(refused.word, "not_whole")
        expected = [Upserted(7, False), Upserted(7, True), Got(ADA), Deleted(7, True), Deleted(7, False), Got(None)]
        self.assertEqual(replies, expected)
        self.assertEqual([type(it) for it in replies], [type(it) for it in expected])

    def test_each_window_and_length(self) -> None:
        for window in (1, 3, 64):
            with Store(f"w{window}", program=PROGRAM, window=window) as store:
                for length in (0, 1, 2, 3, 4, 63, 64, 65, 200):
                    replies = list(store.batch(Upsert({"id": key}) for key in range(length)))
                    self.assertEqual([it.id for it in replies], list(range(length)))

    def test_large_lines_and_large_replies_at_once(self) -> None:
        """Each pipe is full many times over: whoever only writes, or only reads, waits forever."""
        text = "x" * 100_000
        with Store("large", program=PROGRAM, window=4096) as store:
            commands = (command for key in range(150) for command in (Upsert({"id": key, "t": text}), Get(key)))
            replies = list(store.batch(commands))
            self.assertEqual([len(it.doc["t"]) for it in replies[1::2]], [100_000] * 150)
            self.assertEqual(len(store.query(["t"])), 150)

    def test_who_stops_early_goes_on_with_other_calls(self) -> None:
        with Store("people", program=PROGRAM, window=8) as store:
            batch = store.batch(Upsert({"id": key, "t": "x" * 1000}) for key in range(10_000))
            self.assertEqual(next(batch), Upserted(0, False))
            with self.assertRaises(RuntimeError):
                store.get(0)
            batch.close()
            self.assertEqual(store.get(0), {"id": 0, "t": "x" * 1000})
            stored = [row.id for row in store.query(["t"])]
            self.assertEqual(stored, list(range(len(stored))))
            self.assertLess(len(stored), 10_000)

    def test_a_command_that_cannot_be_sent(self) -> None:
        with Store("people", program=PROGRAM) as store:
            with self.assertRaises(TypeError):
                list(store.batch([Upsert({"id": 1}), Upsert({"id": 2, "v": object()})]))
            with self.assertRaises(TypeError):
                list(store.batch([("upsert", 3)]))  # type: ignore[list-item]
            self.assertEqual(store.get(1), {"id": 1})
            self.assertIsNone(store.get(2))


class Ends(StoreTest):
    def test_a_store_that_is_held(self) -> None:
        with Store("people", program=PROGRAM) as store:
            with self.assertRaises(StoreFailed) as held:
                Store("people", program=PROGRAM)
            self.assertEqual(held.exception.status, 5)
            self.assertIn("another program holds it", held.exception.text)
            store.upsert(ADA)
        with Store("people", program=PROGRAM) as store:
            self.assertEqual(store.get(7), ADA)

    def test_another_number_of_partitions(self) -> None:
        Store("people", program=PROGRAM, partitions=2).close()
        with self.assertRaises(StoreFailed) as differ:
            Store("people", program=PROGRAM, partitions=4)
        self.assertEqual(differ.exception.status, 8)
        self.assertTrue(differ.exception.text.startswith("partition 0: found 0 of 2, asked 0 of 4"))

    def test_a_folder_that_is_not_there(self) -> None:
        with self.assertRaises(NoStore):
            Store("nowhere", program=PROGRAM, must_exist=True)
        self.assertFalse(os.path.exists("nowhere"))

    def test_a_program_that_is_not_there(self) -> None:
        with self.assertRaises(ProgramNotFound):
            Store("people", program="./no_program")
        self.assertFalse(os.path.exists("people"))

    def test_options_out_of_range(self) -> None:
        for options in ({"window": 0}, {"partitions": 17}, {"memory": 1}, {"merge": True}, {"limit": "0"}):
            with self.assertRaises(BadWords):
                Store("people", program=PROGRAM, **options)  # type: ignore[arg-type]
        self.assertFalse(os.path.exists("people"))

    def test_a_program_that_is_killed(self) -> None:
        store = Store("people", program=PROGRAM)
        store.upsert(ADA)
        os.kill(store._process.pid, signal.SIGKILL)
        for _ in range(2):
            with self.assertRaises(StoreFailed) as killed:
                store.get(7)
            self.assertEqual(killed.exception.status, -signal.SIGKILL)
            self.assertIn("SIGKILL", str(killed.exception))
        store.close()

    def test_a_program_that_is_killed_in_the_middle_of_a_batch(self) -> None:
        store = Store("people", program=PROGRAM, partitions=2, window=16, memory=4096)
        acknowledged = set()
        with self.assertRaises(StoreFailed):
            for reply in store.batch(Upsert({"id": key, "n": key}) for key in range(1_000_000)):
                acknowledged.add(reply.id)
                if len(acknowledged) == 2_000:
                    os.kill(store._process.pid, signal.SIGKILL)
        self.assertGreaterEqual(len(acknowledged), 2_000)
        with Store("people", program=PROGRAM, partitions=2) as store:
            stored = {row.id for row in store.query(["n"])}
        self.assertLessEqual(acknowledged, stored)
        self.assertLess(len(stored), 1_000_000)

    def test_an_error_within_the_with_is_not_hidden(self) -> None:
        with self.assertRaises(KeyError), Store("people", program=PROGRAM) as store:
            os.kill(store._process.pid, signal.SIGKILL)
            raise KeyError

    def test_a_call_that_is_broken_off_leaves_no_reply(self) -> None:
        # A shell has what it runs in the background ignore this signal.
        before = signal.signal(signal.SIGINT, signal.default_int_handler)
        self.addCleanup(signal.signal, signal.SIGINT, before)
        with Store("people", program=PROGRAM) as store:
            store.upsert(ADA)
            os.kill(store._process.pid, signal.SIGSTOP)
            with self.assertRaises(KeyboardInterrupt):
                threading.Timer(0.2, os.kill, (os.getpid(), signal.SIGINT)).start()
                store.get(7)
            os.kill(store._process.pid, signal.SIGCONT)
            self.assertIsNone(store.get(8))
            self.assertEqual(store.get(7), ADA)

    def test_ctrl_c_reaches_the_caller_alone(self) -> None:
        with Store("people", program=PROGRAM) as store:
            self.assertNotEqual(os.getpgid(store._process.pid), os.getpgid(0))

    def test_a_store_that_is_closed(self) -> None:
        store = Store("people", program=PROGRAM)
        batch = store.batch([Get(1)] * 3)
        next(batch)
        store.close()
        store.close()
        with self.assertRaises(RuntimeError):
            store.get(1)

    def test_a_caller_that_is_killed_leaves_no_program(self) -> None:
        script = (
            "import sys, time, tuple_store_client as t; s = t.Store('people', program=sys.argv[1]); "
            "print(1, flush=True); time.sleep(60)"
        )
        environment = {**os.environ, "PYTHONPATH": CLIENT}
        with subprocess.Popen([sys.executable, "-c", script, PROGRAM], stdout=subprocess.PIPE, env=environment) as caller:
            caller.stdout.readline()  # type: ignore[union-attr]
            caller.kill()
        until = time.monotonic() + 10
        while time.monotonic() < until:
            try:
                Store("people", program=PROGRAM).close()
                return
            except StoreFailed:
                time.sleep(0.05)
        self.fail("the store is still held")
