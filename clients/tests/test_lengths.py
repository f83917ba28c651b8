"""What gets reply of documents whose texts and names have each length near those at which they are put another way, byte for byte.

    python3 -m unittest clients/tests/test_lengths.py

It runs the real program, as test_messages.py does. The text of a document is gathered in a room of 1,024 bytes; a piece of more than 256
goes by it, and one of up to 32 is written as a whole. So what stands before a piece fills the room by each length near its end.
"""

import json
import pathlib
import sys
import unittest

sys.path.insert(0, str(pathlib.Path(__file__).resolve().parent))

from test_messages import Messages  # noqa: E402
from test_rows import text  # noqa: E402

FLUSH = {"op": "flush"}
LENGTHS = [*range(36), *range(62, 66), *range(250, 262), *range(510, 515)]
LAST = [7, -2**63, True, None, "", "x", "k" * 33, "\u00e9", 'a"b', [], [1, "y"], {}, {"n": -1}]


def full_but_for(left, last):
    """A document that has put so many bytes less than the room when its last member begins."""
    ahead = {f"a{place}": "f" * 180 for place in range(5)}
    spent = len(text(ahead)) - 1 + len(',"b":""')
    return {**ahead, "b": "t" * (1024 - spent - left), "c": last}


def documents():
    """Texts, and names, of each length; and each kind of a member where the room is nearly full."""
    made = [{"t": "t" * length, "u": {"v": ["w" * length]}} for length in LENGTHS]
    made += [{"n" * length: length, "o": {"n" * length: "p" * length}} for length in LENGTHS if length]
    made += [full_but_for(left, last) for left in range(60) for last in LAST]
    made += [{"a": [full_but_for(left, last)], "z": [last, left]} for left in range(0, 60, 7) for last in LAST]
    return [{"id": key, **document} for key, document in enumerate(made)]


class Lengths(Messages):
    def test_pieces_of_each_length(self):
        given = documents()
        upserts = [{"op": "upsert", "doc": document} for document in given]
        asked = [{"op": "get", "id": document["id"]} for document in given]
        for name, written in (("table", upserts), ("component", [*upserts, FLUSH])):
            lines = b"".join(json.dumps(it).encode() + b"\n" for it in (*written, *asked))
            ended = self.run_program(name, "run", "--partitions", "1", "--memory", "16777216", lines=lines)
            self.assertEqual((ended.returncode, ended.stderr), (0, b""))
            for document, reply in zip(given, ended.stdout.splitlines()[-len(asked):]):
                self.assertEqual(reply, text({"doc": document}), name)


if __name__ == "__main__":
    unittest.main()
