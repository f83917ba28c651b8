"""Loading: each format, each refusal with its place, the conventions for fractions, and all kinds of bad input."""

from __future__ import annotations

import json
import os
import re
import signal
from typing import Any, List

from tuple_store_client import Store
from tuple_store_client.inputs import Input
from tuple_store_client.load import Choices, Report, load

from .support import PROGRAM, StoreTest

FRACTIONS = '{"id":1,"price":119.05,"lines":[{"p":1.0},{"p":1e2},{"p":-0},{"p":9223372036854775808}],"n":5}'


class LoadTest(StoreTest):
    def load(self, content: "str | bytes", *options: str, name: str = "in.jsonl") -> Any:
        self.write(name, content)
        return self.tuplectl("store", "load", *options, name)

    def stored(self, *options: str) -> List[str]:
        return self.tuplectl("store", "dump", *options).out.splitlines()

    def check(self, ran: Any, status: int, first: str, *said: str) -> None:
        self.assertEqual((ran.status, ran.out), (status, first + "\n"), ran.err)
        for text in said:
            self.assertIn(text, ran.err)
        self.assertNotIn("Traceback", ran.err)


class Formats(LoadTest):
    DOCUMENTS = ['{"id":1,"n":[1,2]}', '{"id":2,"t":"é"}', '{"id":3}']

    def test_json_in_each_layout(self) -> None:
        one, two, three = self.DOCUMENTS
        values = [json.loads(it) for it in self.DOCUMENTS]
        layouts = {
            "lines": f"{one}\n{two}\n{three}\n",
            "no line feed at the end": f"{one}\n{two}\n{three}",
            "empty lines": f"\n{one}\n\n  \n{two}\n{three}\n\n",
            "carriage returns": f"{one}\r\n{two}\r\n{three}\r\n",
            "an array": f"[{one},{two},{three}]",
            "an array over lines": json.dumps(values, indent=2, ensure_ascii=False),
            "an array without indent": json.dumps(values, indent=0),
            "values over lines": "\n".join(json.dumps(it, indent=4) for it in values),
            "values on one line": f"{one}{two} {three}",
            "escapes": "\n".join(json.dumps(it) for it in values),
            "a byte order mark": f"\ufeff{one}\n{two}\n{three}\n",
            "a byte order mark and an array": f"\ufeff[{one},{two},{three}]",
        }
        for number, (layout, content) in enumerate(layouts.items()):
            with self.subTest(layout):
                self.write("in", content)
                ran = self.tuplectl(f"store{number}", "load", "in")
                self.check(ran, 0, "3 documents: 3 new, 0 replaced, 0 refused")
                self.assertEqual(ran.err, "")
                self.assertEqual(self.tuplectl(f"store{number}", "dump").out.splitlines(), self.DOCUMENTS)

    def test_standard_input_and_several_files(self) -> None:
        self.write("a", self.DOCUMENTS[0])
        self.write("b", self.DOCUMENTS[2])
        ran = self.tuplectl("store", "load", "a", "-", "b", stdin=self.DOCUMENTS[1])
        self.check(ran, 0, "3 documents: 3 new, 0 replaced, 0 refused")
        self.assertEqual(self.stored(), self.DOCUMENTS)

    def test_an_empty_file(self) -> None:
        for content in ("", "\n \n", "[]", "\ufeff"):
            self.check(self.load(content), 0, "0 documents: 0 new, 0 replaced, 0 refused")

    def test_csv(self) -> None:
        content = 'id,name,"a ""quoted"" name",zip\n1,Ada,"x, y\nz",01234\n2,,7,-5\n\n3,é,true,\n'
        self.check(self.load(content, name="in.csv"), 0, "3 documents: 3 new, 0 replaced, 0 refused")
        expected = [
            '{"a \\"quoted\\" name":"x, y\\nz","id":1,"name":"Ada","zip":"01234"}',
            '{"a \\"quoted\\" name":7,"id":2,"name":"","zip":-5}',
            '{"a \\"quoted\\" name":"true","id":3,"name":"é","zip":""}',
        ]
        self.assertEqual(self.stored(), expected)

    def test_csv_with_other_signs(self) -> None:
        for number, content in enumerate(("id;n\n1;2,3\n", "id\tn\n1\t2,3\n", "\ufeff\"id\",n\r\n1,\"2,3\"\r\n")):
            self.write("in", content)
            self.check(self.tuplectl(f"s{number}", "load", "in"), 0, "1 document: 1 new, 0 replaced, 0 refused")
            self.assertEqual(self.tuplectl(f"s{number}", "dump").out, '{"id":1,"n":"2,3"}\n')

    def test_csv_as_texts(self) -> None:
        ran = self.load("no,id,v\n1,A-1,5\n", "--texts", "--key", "no", "--old-id", "code", name="in.csv")
        self.check(ran, 0, "1 document: 1 new, 0 replaced, 0 refused")
        self.assertEqual(self.stored(), ['{"code":"A-1","id":1,"no":1,"v":"5"}'])

    def test_bad_rows_of_csv(self) -> None:
        content = b'id,a\n1,x\n2,x,y\n3\n4,"x"y\n5,1.5\n6,\xe9\n7,z\n'
        ran = self.load(content, "--show", "9", name="in.csv")
        said = (
            "in.csv:3: the row has 3 fields, and the first one 2",
            "in.csv:4: the row has 1 fields, and the first one 2",
            "in.csv:5: no CSV: ",
            "in.csv:6: at a: 1.5 is no whole number",
            "in.csv:7: not UTF-8: the byte e9",
        )
        self.check(ran, 1, "7 documents: 2 new, 0 replaced, 5 refused", *said)
        self.assertEqual(self.stored(), ['{"a":"x","id":1}', '{"a":"z","id":7}'])

    def test_a_field_of_csv_that_is_not_closed(self) -> None:
        ran = self.load('id,a\n1,x\n2,"y\n3,z\n', name="in.csv")
        self.check(ran, 1, "2 documents: 1 new, 0 replaced, 1 refused", "in.csv:3: no CSV: ", "(lines 3 to 4 were passed over)")

    def test_a_name_twice_in_the_first_row(self) -> None:
        ran = self.load("id,a,a\n1,2,3\n", name="in.csv")
        why = "not read: in.csv: its first row has the name 'a' twice"
        self.check(ran, 3, "0 documents: 0 new, 0 replaced, 0 refused", why)


class Refusals(LoadTest):
    def test_each_cause_with_its_place(self) -> None:
        lines = {
            '{"id":1,"lines":[{"p":1},{"p":119.05}]}': ("not_whole", "at lines[1].p: 119.05 is no whole number"),
            '{"id":2,"odd name":{"x":-0}}': ("not_whole", 'at "odd name".x: -0 is no'),
            '{"id":3,"n":-9223372036854775809}': ("not_whole", "at n: -9223372036854775809 is no"),
            '{"id":1.5}': ("not_whole", "at id: 1.5 is no"),
            '{"name":"Ada","x":1}': ("key", "the document has no id (its members are name, x)"),
            "{}": ("key", "the document has no id and no other member"),
            '{"id":"A-17"}': ("key", 'at id: "A-17" is no number'),
            '{"id":true}': ("key", "at id: true is no number"),
            '{"id":-4}': ("key", "at id: -4 is negative"),
            '{"id":5,"a":' + "[" * 32 + "]" * 32 + "}": ("too_deep", "at a" + "[0]" * 18 + "[0...: it nests more than 32 deep"),
            '"text"': ("unknown", 'a document has to be an object, and this is "text"'),
            "17": ("unknown", "and this is 17"),
            "null": ("unknown", "and this is null"),
            '{"id":6,"a":NaN}': ("malformed", "at a: NaN is no JSON"),
            '{"id":7,"a":[1e999]}': ("malformed", "at a[0]: 1e999 is beyond the range"),
            '{"id":8,"a":"\\ud800"}': ("malformed", 'at a: "\\ud800" has half a surrogate pair'),
            '{"id":9,"\\udc00":1}': ("malformed", 'the name "\\udc00" has half a surrogate pair'),
            '{"id":10,}': ("malformed", "no JSON: "),
            '{"id":11,"a":"x\ty"}': ("malformed", 'no JSON: invalid control character, at column 16 of {"id":11,"a":"x\ty"}'),
            '{"id":12,"big":"' + "x" * 2_000_000 + '"}': ("oversized", "the document has 2,000,018 bytes as a line"),
            '{"id":13,"a":' + "[" * 100_000: ("malformed", "it nests too deep to be read"),
            '{"id":14,"a":' + "[" * 900 + "]" * 900 + "}": ("malformed", "it nests more than 126 deep, which is not even read"),
        }
        ran = self.load('{"id":100}\n' + "\n".join(lines) + '\n{"id":101}\n', "--show", "99")
        count = len(lines)
        self.check(ran, 1, f"{count + 2} documents: 2 new, 0 replaced, {count} refused")
        for number, (word, why) in enumerate(lines.values(), 2):
            told = ran.err[ran.err.index(f"refused as {word}:") :]
            (line,) = [it for it in told.splitlines() if it.startswith(f"  in.jsonl:{number}: ")]
            self.assertIn(why, line)
        self.assertEqual(self.stored(), ['{"id":100}', '{"id":101}'])

    def test_ten_thousand_documents_with_fractions(self) -> None:
        prices = [f"{n}.{n % 100:02}" if n % 4 else str(n) for n in range(10_000)]
        ran = self.load("".join(f'{{"id":{n},"price":{price}}}\n' for n, price in enumerate(prices)))
        said = ("refused as not_whole: 7,500 (", "in.jsonl:2: at price: 1.01 is no whole number", "and 7,497 more")
        self.check(ran, 1, "10,000 documents: 2,500 new, 0 replaced, 7,500 refused", *said)
        self.assertEqual(self.tuplectl("store", "count").out, "2500\n")

    def test_limits_of_the_store(self) -> None:
        self.tuplectl("store", "words", "--partitions", "1", "--names", "1", "--docs", "2")
        ran = self.load('{"id":1,"a":1}\n{"id":2,"a":1,"b":1}\n{"id":3,"a":2}\n{"id":4,"a":3}\n')
        said = ("refused as names_full: 1", "in.jsonl:2:", "refused as full: 1", "in.jsonl:4:", "words --names", "words --docs")
        self.check(ran, 1, "4 documents: 2 new, 0 replaced, 2 refused", *said)

    def test_an_id_that_comes_twice(self) -> None:
        self.load('{"id":1}\n{"id":5,"v":0}\n')
        ran = self.load('{"id":5,"v":1}\n{"id":6}\n{"id":5,"v":2}\n')
        said = ("1 came twice in this load; the last one stands:", "in.jsonl:3: the id 5")
        self.check(ran, 0, "3 documents: 1 new, 2 replaced, 0 refused", *said)
        self.assertEqual(self.stored(), ['{"id":1}', '{"id":5,"v":2}', '{"id":6}'])


class Failures(LoadTest):
    def test_a_program_that_is_killed_during_a_load(self) -> None:
        self.write("in.jsonl", "".join(f'{{"id":{key}}}\n' for key in range(100_000)))
        store = Store("store", program=PROGRAM)

        def progress(_: Input, report: Report) -> None:
            if report.new == 1_000:
                os.kill(store._process.pid, signal.SIGKILL)

        report = load(lambda: store, ["in.jsonl", "in.jsonl"], Choices(), progress)
        first, failure, stored = report.lines()
        self.assertEqual((report.status, report.refused), (-signal.SIGKILL, {}))
        self.assertEqual(failure, "the store ended with signal SIGKILL")
        self.assertTrue(stored.startswith(f"what was answered is stored, up to in.jsonl:{report.new}; "), stored)
        self.assertGreaterEqual(int(self.tuplectl("store", "count").out), report.new)
        self.assertLess(report.new, 100_000)
        without = report.documents - report.new
        self.assertTrue(first.endswith(f": {report.new:,} new, 0 replaced, 0 refused, {without:,} without an answer"), first)


class Keys(LoadTest):
    def test_another_member_is_the_key(self) -> None:
        ran = self.load('{"number":7,"a":1}\n{"a":2}\n{"number":"x"}\n{"number":8,"id":"A-8"}\n', "--key", "number")
        said = ("in.jsonl:2: the document has no number (its members are a)", 'in.jsonl:3: at id: "x"', 'in.jsonl:4: at id: "A-8"', "--old-id NAME")
        self.check(ran, 1, "4 documents: 1 new, 0 replaced, 3 refused", *said)
        self.assertEqual(self.stored(), ['{"a":1,"id":7,"number":7}'])

    def test_another_name_without_another_key(self) -> None:
        self.assertEqual(self.load("{}", "--old-id", "code").status, 2)

    def test_values_of_one_line_have_numbers(self) -> None:
        ran = self.load('[{"id":1},{"id":-2},\n{"id":3},{"id":4},{"id":-5}]')
        said = ("in.jsonl:1, value 2 of the line: at id: -2", "in.jsonl:2, value 3 of the line: at id: -5")
        self.check(ran, 1, "5 documents: 3 new, 0 replaced, 2 refused", *said)

    def test_the_id_of_the_document_gets_another_name(self) -> None:
        ran = self.load('{"n":7,"id":"A-7"}\n{"n":8,"id":1,"code":2}\n', "--key", "n", "--old-id", "code")
        self.check(ran, 1, "2 documents: 1 new, 0 replaced, 1 refused", "refused as id_is_there: 1", "in.jsonl:2: at id: 1")
        self.assertEqual(self.stored(), ['{"code":"A-7","id":7,"n":7}'])


class Fractions(LoadTest):
    def test_they_are_refused(self) -> None:
        self.check(self.load(FRACTIONS), 1, "1 document: 0 new, 0 replaced, 1 refused", "at price: 119.05")

    def test_what_nests_deep_is_refused(self) -> None:
        for number in range(30, 1000, 97):
            deep = '{"id":1,"a":' + "[" * number + "1.5" + "]" * number + "}"
            for convention in ("refuse", "text", "wrap"):
                ran = self.load(deep, "--fractions", convention)
                stored = int(number <= 31 and convention == "text" or number <= 30 and convention == "wrap")
                self.check(ran, 1 - stored, f"1 document: {stored} new, 0 replaced, {1 - stored} refused")
                self.tuplectl("store", "rm", "1")

    def test_they_are_kept_as_texts(self) -> None:
        self.check(self.load(FRACTIONS, "--fractions", "text"), 0, "1 document: 1 new, 0 replaced, 0 refused")
        lines = '[{"p":"1.0"},{"p":"1e2"},{"p":"-0"},{"p":"9223372036854775808"}]'
        self.assertEqual(self.stored(), [f'{{"id":1,"lines":{lines},"n":5,"price":"119.05"}}'])

    def test_they_are_wrapped_and_given_back_as_they_stood(self) -> None:
        content = [
            FRACTIONS,
            '{"id":2,"a":{"$float":"1.5"},"b":{"$float":1.5},"c":{"$$float":[2.5]},"d":{"$float":1,"e":2}}',
            '{"id":3,"$float":"1.5"}',
            '{"id":4,"a":{"$float":"x"}}',
        ]
        self.check(self.load("\n".join(content), "--fractions", "wrap"), 0, "4 documents: 4 new, 0 replaced, 0 refused")
        wrapped = '{"$float":"9223372036854775808"}'
        lines = '[{"p":{"$float":"1.0"}},{"p":{"$float":"1e2"}},{"p":{"$float":"-0"}},{"p":' + wrapped + "}]"
        self.assertEqual(self.stored()[0], '{"id":1,"lines":' + lines + ',"n":5,"price":{"$float":"119.05"}}')
        # The same texts, with members in ascending order.
        expected = [
            '{"id":1,"lines":[{"p":1.0},{"p":1e2},{"p":-0},{"p":9223372036854775808}],"n":5,"price":119.05}',
            '{"a":{"$float":"1.5"},"b":{"$float":1.5},"c":{"$$float":[2.5]},"d":{"$float":1,"e":2},"id":2}',
            '{"$float":"1.5","id":3}',
            '{"a":{"$float":"x"},"id":4}',
        ]
        self.assertEqual(self.stored("--fractions", "wrap"), expected)
        self.assertEqual(self.tuplectl("store", "get", "1", "2", "3", "4", "--fractions", "wrap").out.splitlines(), expected)
        found = self.tuplectl("store", "find", "price", "--eq", "119.05", "--fractions", "wrap")
        self.assertEqual(found.out, '{"id":1,"values":[119.05]}\n')
        found = self.tuplectl("store", "find", ".", "--fractions", "wrap", "--limit", "3")
        self.assertEqual(found.out.splitlines()[2], '{"id":3,"values":[{"$float":"1.5"}]}')

    def test_a_key_is_not_wrapped(self) -> None:
        for convention in ("text", "wrap"):
            ran = self.load('{"id":1.5}\n{"id":2,"a":NaN}\n', "--fractions", convention)
            self.check(ran, 1, "2 documents: 0 new, 0 replaced, 2 refused", "at id: 1.5 is no whole number", "at a: NaN is no JSON")


class BadInput(LoadTest):
    def test_files_that_cannot_be_read(self) -> None:
        os.mkdir("folder")
        files = {
            "words": (b"once upon a time\n", "it is neither JSON objects nor CSV with a row of names: it begins with 'once upon"),
            "picture": (b"\x89PNG\r\n\x1a\n", "it is neither JSON objects nor CSV"),
            "utf16": ('{"id":1}'.encode("utf-16"), "its encoding is UTF-16, and not UTF-8: iconv -f UTF-16"),
            "utf16le": ('{"id":1}'.encode("utf-16-le"), "its encoding is UTF-16"),
            "utf16be": ('{"id":1}'.encode("utf-16-be"), "its encoding is UTF-16"),
            "utf32": ('{"id":1}'.encode("utf-32"), "its encoding is UTF-32"),
            "packed.gz": (b"\x1f\x8b\x08\0", "it is compressed: zcat packed.gz"),
        }
        for name, (content, why) in files.items():
            self.write(name, content)
        self.write("good", '{"id":1}')
        ran = self.tuplectl("store", "load", *files, "nowhere", "folder", "good")
        said = [f"not read: {name}: {why}" for name, (_, why) in files.items()]
        self.check(ran, 3, "1 document: 1 new, 0 replaced, 0 refused", *said)
        self.assertIn("not read: nowhere: No such file or directory", ran.err)
        self.assertIn("not read: folder: Is a directory", ran.err)
        self.assertEqual(self.stored(), ['{"id":1}'])

    def test_no_store_is_made_where_no_file_can_be_read(self) -> None:
        self.check(self.tuplectl("store", "load", "nowhere"), 3, "0 documents: 0 new, 0 replaced, 0 refused", "not read: nowhere")
        self.assertFalse(os.path.exists("store"))

    def test_a_line_in_another_encoding(self) -> None:
        ran = self.load(b'{"id":1}\n{"id":2,"a":"caf\xe9"}\n{"id":3}\n')
        self.check(ran, 1, "3 documents: 2 new, 0 replaced, 1 refused", "in.jsonl:2: not UTF-8: the byte e9", "iconv -f LATIN1")

    def test_lines_that_are_cut_off(self) -> None:
        lines = ['{"id":1}', '{"id":2,"a":[1,2', '{"id":3}', '{"id":4,"a":"x', '{"id":5}', '{"id":6,"a":', '{"id":7']
        lines += ['{"id":8}', '{"id":9,"a']
        ran = self.load("\n".join(lines))
        said = [f"in.jsonl:{number}: no JSON" for number in (2, 4, 6, 7, 9)]
        self.check(self.load("\n".join(lines), "--show", "9"), 1, "9 documents: 0 new, 4 replaced, 5 refused", *said)
        self.assertEqual(ran.out, "9 documents: 4 new, 0 replaced, 5 refused\n")
        self.assertEqual(self.stored(), [f'{{"id":{key}}}' for key in (1, 3, 5, 8)])

    def test_a_broken_value_among_values_over_lines(self) -> None:
        good = [json.dumps({"id": key, "in": {"id": 99, "v": [key, {"id": 98}]}}, indent=2) for key in (1, 2, 3)]
        broken = good[1].replace('"v": [', '"v": [,')
        ran = self.load("\n".join([good[0], broken, good[2]]))
        said = ("in.jsonl:13: no JSON", "(lines 13 to 24 were passed over)")
        self.check(ran, 1, "3 documents: 2 new, 0 replaced, 1 refused", *said)
        self.assertEqual([json.loads(it)["id"] for it in self.stored()], [1, 3])

    def test_a_broken_value_in_an_array_over_lines(self) -> None:
        content = json.dumps([{"id": key, "v": [{"id": 98}]} for key in (1, 2, 3)], indent=2).replace('"id": 2,', '"id": 2')
        ran = self.load(content)
        said = ("in.jsonl:10: no JSON", "(lines 10 to 17 were passed over)")
        self.check(ran, 1, "3 documents: 2 new, 0 replaced, 1 refused", *said)
        self.assertEqual([json.loads(it)["id"] for it in self.stored()], [1, 3])

    def test_arrays_that_are_broken(self) -> None:
        arrays = {
            '[{"id":1},{"id":2},': (2, "the array that begins here is not closed"),
            '[{"id":1},{"id":2},]': (2, "a value is missing after the last comma"),
            '[{"id":1} {"id":2}]': (2, "a comma is missing before this value"),
            '[{"id":1},{"id":2,"a":}]': (1, "no JSON: "),
            '[{"id":1},{"id":2}]]': (2, "no JSON"),
        }
        for number, (content, (count, why)) in enumerate(arrays.items()):
            with self.subTest(content):
                self.write("in", content)
                ran = self.tuplectl(f"s{number}", "load", "in")
                self.assertEqual(ran.status, 1)
                self.assertRegex(ran.err, f"  in:1(, value [0-9] of the line)?: {re.escape(why)}")
                self.assertEqual(self.tuplectl(f"s{number}", "count").out, f"{count}\n")

    def test_what_stands_after_a_value_on_its_line(self) -> None:
        """What looks like more members of the command is none."""
        ran = self.load('{"id":1},"doc":{"id":2}\n{"id":3}\n')
        self.check(ran, 1, "3 documents: 2 new, 0 replaced, 1 refused", "in.jsonl:1, value 2 of the line: no JSON")
        self.assertEqual(self.stored(), ['{"id":1}', '{"id":3}'])

    def test_a_line_of_two_million_bytes(self) -> None:
        for layout in ('{"id":2,"a":"%s"}\n' % ("x" * 2_000_000), json.dumps({"id": 2, "a": ["x" * 1000] * 2000}, indent=1)):
            ran = self.load('{"id":1}\n' + layout + '\n{"id":3}\n')
            self.assertEqual(ran.status, 1)
            self.assertIn("refused as oversized: 1", ran.err)
            self.assertIn("in.jsonl:2: the document has 2,0", ran.err)
        self.assertEqual(self.stored(), ['{"id":1}', '{"id":3}'])

    def test_white_space_does_not_count(self) -> None:
        """A document of 1,500,000 bytes over lines that is short when it is compact."""
        ran = self.load(json.dumps({"id": 1, "a": [[0] * 100] * 100}, indent=60))
        self.check(ran, 0, "1 document: 1 new, 0 replaced, 0 refused")

    def test_values_that_lie_across_pieces(self) -> None:
        documents = [{"id": key, "t": "é" * (key * 997 % 5000), "n": [key] * (key % 50)} for key in range(400)]
        lines = "\n".join(json.dumps(it, ensure_ascii=False) for it in documents)
        self.check(self.load(lines), 0, "400 documents: 400 new, 0 replaced, 0 refused")
        stored = self.stored()
        self.assertEqual([json.loads(it) for it in stored], documents)
        ran = self.load(json.dumps(documents, indent=3))
        self.check(ran, 0, "400 documents: 0 new, 400 replaced, 0 refused")
        self.assertEqual(self.stored(), stored)
