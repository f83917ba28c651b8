"""The views of a schema: the tree, what differs, JSON Schema, the page."""

from __future__ import annotations

import html.parser
import json
import random
import re
import unittest
from typing import Any, Dict, List, Tuple

from tuple_store_client.json_schema import json_schema
from tuple_store_client.page import page
from tuple_store_client.schemas import added, columns, differences, share, tree, whole

from .support import StoreTest, counted

ADA = {"id": 7, "name": "Ada", "langs": ["en", "fr"], "born": {"year": 1815, "in": "London"}}
GRACE = {"id": 3, "name": "Grace", "langs": ["en"], "born": {"year": 1906}}
NOBODY = {"id": 9, "name": None, "langs": []}
PEOPLE = [ADA, GRACE, NOBODY]

TREE = """\
documents   3  ██████████  100%           object
├─ born     2  ██████····  66.7%          object
│  ├─ in    1  █████·····  50.0%          text
│  └─ year  2  ██████████  100%           integer
├─ langs    3  ██████████  100%           array
│  └─ []    3              1.0 per array  text
└─ name     3  ██████████  100%           null 33.3% | text 66.7%
"""


def holds(schema: Any, value: Any) -> bool:
    """Whether JSON Schema holds for a value: a judge of its own, of the words that are used here."""
    if isinstance(schema, bool):
        return schema
    types = schema.get("type")
    if types is not None and not any(is_of(it, value) for it in ([types] if isinstance(types, str) else types)):
        return False
    if "anyOf" in schema and not any(holds(it, value) for it in schema["anyOf"]):
        return False
    if "not" in schema and holds(schema["not"], value):
        return False
    if isinstance(value, list) and not all(holds(schema.get("items", True), it) for it in value):
        return False
    if isinstance(value, dict):
        fields = schema.get("properties", {})
        rest = schema.get("additionalProperties", True)
        is_whole = all(it in value for it in schema.get("required", []))
        return is_whole and all(holds(fields.get(name, rest), it) for name, it in value.items())
    if is_of("integer", value):
        return bool(schema.get("minimum", value) <= value <= schema.get("maximum", value))
    return True


def is_of(kind: str, value: Any) -> bool:
    types = {"null": type(None), "boolean": bool, "integer": int, "string": str, "array": list, "object": dict}
    return type(value) is types[kind]


def random_value(choice: random.Random, depth: int) -> Any:
    kind = choice.randrange(6 if depth < 4 else 4)
    if kind < 4:
        return [None, True, choice.randrange(9), "x"][kind]
    if kind == 4:
        return [random_value(choice, depth + 1) for _ in range(choice.randrange(3))]
    return {choice.choice("abc"): random_value(choice, depth + 1) for _ in range(choice.randrange(3))}


def random_documents(choice: random.Random, count: int) -> List[Dict[str, Any]]:
    return [{"id": key, "v": random_value(choice, 1)} for key in range(count)]


class Views(unittest.TestCase):
    def test_partitions_are_added_up(self) -> None:
        for seed in range(20):
            documents = random_documents(random.Random(seed), 12)
            parts = [counted(documents[number::3]) for number in range(3)]
            self.assertEqual(whole(parts), counted(documents))
        self.assertEqual(added(None, counted(PEOPLE)), counted(PEOPLE))
        self.assertIsNone(whole([None, None]))

    def test_the_tree(self) -> None:
        self.assertEqual("\n".join(tree(counted(PEOPLE))) + "\n", TREE)
        self.assertEqual(list(tree(None)), ["no documents"])
        self.assertIn("array (always empty)", "\n".join(tree(counted([NOBODY]))))

    def test_shares_are_100_and_0_only_where_they_are(self) -> None:
        rows = {(3, 3): "100%", (1, 3): "33.3%", (1, 100_000): "<0.1%", (99_999, 100_000): ">99.9%", (1, 1000): "0.1%"}
        self.assertEqual({row: share(*row) for row in rows}, rows)

    def test_wide_names_stand_right(self) -> None:
        rows = {"abc": 3, "漢字": 4, "😀": 2, "é": 1, "e\u0301": 1, "ｶ": 1, "Ａ": 2, "한글": 4, "": 0}
        rows.update({"❤\ufe0f": 2, "👩\u200d": 2})
        self.assertEqual({name: columns(name) for name in rows}, rows)
        lines = list(tree(counted([{"id": 1, "漢字": 1, "a": {"😀 x": "t"}, "e\u0301": None}])))
        self.assertEqual({columns(line[: line.index("1  █")]) for line in lines}, {columns(lines[0].split("1")[0])})

    def test_differences(self) -> None:
        after = [{**GRACE, "name": 5}, NOBODY, {"id": 4, "langs": [[1]]}]
        rows = [
            ("~", "born", "object", 2, 1, "-1"),
            ("-", "born.in", "text", 1, 0, "-1"),
            ("~", "born.year", "integer", 2, 1, "-1"),
            ("~", "langs[]", "text", 3, 1, "-2"),
            ("+", "langs[]", "array", 0, 1, "+1"),
            ("+", "langs[][]", "integer", 0, 1, "+1"),
            ("+", "name", "integer", 0, 1, "+1"),
            ("-", "name", "text", 2, 0, "-2"),
        ]
        expected = [f"{mark} {path:11}{kind:9}{old:9} → {new:9}  ({by})" for mark, path, kind, old, new, by in rows]
        self.assertEqual(list(differences(counted(PEOPLE), counted(after))), expected)
        self.assertEqual(list(differences(counted(PEOPLE), counted(PEOPLE))), [])
        self.assertEqual(list(differences(None, counted([{"id": 1}]))), ["+ documents  object           0 →         1  (+1)"])

    def test_json_schema(self) -> None:
        text = {"type": "string"}
        born = {
            "type": "object",
            "properties": {"in": text, "year": {"type": "integer"}},
            "required": ["year"],
            "additionalProperties": False,
        }
        expected = {
            "$schema": "https://json-schema.org/draft/2020-12/schema",
            "$comment": "3 documents",
            "type": "object",
            "properties": {
                "id": {"type": "integer", "minimum": 0, "maximum": 9223372036854775807},
                "born": born,
                "langs": {"type": "array", "items": text},
                "name": {"type": ["null", "string"]},
            },
            "required": ["id", "langs", "name"],
            "additionalProperties": False,
        }
        self.assertEqual(json_schema(counted(PEOPLE)), expected)

    def test_json_schema_holds_for_the_documents_and_not_for_others(self) -> None:
        for seed in range(20):
            documents = random_documents(random.Random(seed), 8)
            schema = json_schema(counted(documents))
            self.assertTrue(all(holds(schema, it) for it in documents))
        schema = json_schema(counted(PEOPLE))
        others = [{**ADA, "x": 1}, {**ADA, "name": 1}, {**ADA, "langs": [1]}, {"id": 1, "name": "x"}, {**ADA, "born": {}}]
        others += [{**ADA, "id": -1}, {name: value for name, value in ADA.items() if name != "id"}]
        for other in others:
            self.assertFalse(holds(schema, other), other)
        self.assertFalse(holds(json_schema(None), ADA))
        self.assertFalse(holds(json_schema(counted([NOBODY])), {**NOBODY, "langs": [1]}))


class Reader(html.parser.HTMLParser):
    """What a page has: open elements that are not closed, boxes with their widths, and addresses that it would load."""

    def __init__(self) -> None:
        super().__init__()
        self.open: List[str] = []
        self.boxes: List[Tuple[int, str]] = []
        self.addresses: List[str] = []
        self.width = 0

    def handle_starttag(self, tag: str, attributes: List[Tuple[str, Any]]) -> None:
        said = dict(attributes)
        self.addresses += [value for name, value in attributes if name in ("src", "href")]
        if tag == "div" and said.get("class") == "place":
            self.width = int(said["style"].split(":")[1])
        if tag == "button":
            self.boxes.append((self.width, said["title"].split("\n")[0]))
        if tag != "meta":
            self.open.append(tag)

    def handle_endtag(self, tag: str) -> None:
        assert self.open.pop() == tag


class Pages(unittest.TestCase):
    def test_a_box_for_each_place_as_wide_as_its_count(self) -> None:
        reader = Reader()
        reader.feed(page(counted(PEOPLE), "People"))
        widths = [(3, "documents"), (2, "born"), (1, "born.in"), (2, "born.year"), (3, "langs"), (3, "langs[]"), (3, "name")]
        self.assertEqual(reader.boxes, widths)
        self.assertEqual((reader.open, reader.addresses), ([], []))

    def test_names_are_no_markup(self) -> None:
        name = "<script>alert(1)</script>\"'&"
        text = page(counted([{"id": 1, name: {name: 1}}]), name)
        self.assertEqual(len(re.findall("<script", text)), 1)
        reader = Reader()
        reader.feed(text)
        self.assertEqual(reader.open, [])
        self.assertEqual([path for _, path in reader.boxes][1], json.dumps(name))

    def test_no_documents(self) -> None:
        self.assertIn("no documents", page(None, "Empty"))


class Commands(StoreTest):
    def test_each_view(self) -> None:
        self.write("people.jsonl", "\n".join(json.dumps(it) for it in PEOPLE))
        self.tuplectl("people", "load", "people.jsonl")
        self.assertEqual(self.tuplectl("people", "schema"), (0, TREE, ""))
        raw = self.tuplectl("people", "schema", "--raw")
        self.assertEqual(raw.out, self.program("people", ['{"op":"schema"}']))
        self.write("old", raw.out)
        self.assertEqual(self.tuplectl("people", "schema", "--diff", "old"), (0, "no difference\n", ""))
        self.tuplectl("people", "rm", "9")
        differ = self.tuplectl("people", "schema", "--diff", "old")
        self.assertEqual((differ.status, len(differ.out.splitlines())), (1, 3))
        said = json.loads(self.tuplectl("people", "schema", "--json-schema").out)
        self.assertEqual(said, json_schema(counted([ADA, GRACE])))
        self.assertEqual(self.tuplectl("people", "schema", "--html", "people.html"), (0, "", ""))
        with open("people.html", encoding="utf-8") as file:
            self.assertEqual(file.read(), page(counted([ADA, GRACE]), "Schema of people"))

    def test_an_old_schema_that_is_none(self) -> None:
        self.tuplectl("people", "put", '{"id":1}')
        for content in ("", "[]", '{"schemas":3}', '{"schemas":[{}]}', "\xff"):
            self.write("old", content)
            ran = self.tuplectl("people", "schema", "--diff", "old")
            self.assertEqual((ran.status, ran.err), (3, "tuplectl: old: it is not what `tuplectl FOLDER schema --raw` prints\n"))
        self.assertEqual(self.tuplectl("people", "schema", "--diff", "nowhere").status, 3)
