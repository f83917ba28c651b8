"""What the program says on standard error, below the fixed first line of a fault.

    python3 -m unittest clients/tests/test_messages.py

It runs the real program: the one that $TUPLE_STORE names, or else crates/tuple_store/out/tuple_store. Where it is not there
the tests are skipped. Each test has a folder of its own, and looks at all that is said, line by line.
"""

import contextlib
import fcntl
import itertools
import os
import pathlib
import re
import resource
import shutil
import signal
import socket
import struct
import subprocess
import tempfile
import unittest

ROOT = pathlib.Path(__file__).resolve().parents[2]
PROGRAM = pathlib.Path(os.environ.get("TUPLE_STORE") or ROOT / "crates/tuple_store/out/tuple_store").resolve()
NOBODY = 65534

USAGE = "usage: tuple_store FOLDER run [OPTIONS], tuple_store FOLDER demo N or tuple_store FOLDER check [OPTIONS]"
OPTIONS = [
    "FOLDER keeps the documents, and is made where it is missing; :memory: keeps them in memory, until the end",
    "run answers commands on standard input, a line of JSON each: upsert, delete, get, query, scan, collect, schema, flush",
    "the options of run:",
    "  --partitions  1 to 16 (default 2)",
    "  --window      1 to 4,096 lines (default 64)",
    "  --memory      4,096 to 16,777,216 bytes (default 262,144)",
    "  --names       1 to 16,777,216 (default 1,000,000)",
    "  --docs        1 to 4,000,000,000 (default 4,000,000,000)",
    "  --merge       2 to 8 components (default 4)",
    "  --limit       0 to 1,099,511,627,776 bytes (default 0)",
    "demo N answers N commands of its own, 1 to 1,000,000",
    "check says whether the files of each partition are as a store leaves them, and changes nothing; it takes --partitions",
    "example: echo '{\"op\":\"upsert\",\"doc\":{\"id\":1,\"name\":\"Ada\"}}' | tuple_store store run",
]

# A line of each command, in an order in which none is refused.
COMMANDS = {
    "upsert": b'{"op":"upsert","doc":{"id":1}}',
    "delete": b'{"op":"delete","id":1}',
    "get": b'{"op":"get","id":1}',
    "query": b'{"op":"query","path":[]}',
    "scan": b'{"op":"scan","path":[]}',
    "collect": b'{"op":"collect"}',
    "schema": b'{"op":"schema"}',
    "flush": b'{"op":"flush"}',
}

# Words, and what is said of the first that does not fit.
UNFIT = [
    ([], "no word: FOLDER comes first, and then run, demo N or check"),
    (["data"], "data: a folder alone; run, demo N or check comes next"),
    (["run"], "run: a folder alone; run, demo N or check comes next"),
    (["data", "start"], "start: after the folder data comes run, demo N or check"),
    (["--window", "5", "run"], "5: after the folder --window comes run, demo N or check"),
    (["data", "--window", "5", "run"], "--window: after the folder data comes run, demo N or check"),
    (["data", "--", "run"], "--: after the folder data comes run, demo N or check"),
    (["data", ""], ": after the folder data comes run, demo N or check"),
    (["data", "run", "--window", "5000"], "--window 5000: 1 to 4,096"),
    (["data", "run", "--window=5000"], "--window=5000: 1 to 4,096"),
    (["data", "run", "--window", "0"], "--window 0: 1 to 4,096"),
    (["data", "run", "--window", "64k"], "--window 64k: 1 to 4,096, in digits alone"),
    (["data", "run", "--window", "-5"], "--window -5: 1 to 4,096, in digits alone"),
    (["data", "run", "--window", "-"], "--window -: 1 to 4,096, in digits alone"),
    (["data", "run", "--window", "1.5"], "--window 1.5: 1 to 4,096, in digits alone"),
    (["data", "run", "--window", "064"], "--window 064: 1 to 4,096, without a zero in front"),
    (["data", "run", "--memory", "262,144"], "--memory 262,144: 4,096 to 16,777,216, in digits alone"),
    (["data", "run", "--memory", "99999999999999999999999"],
     "--memory 99999999999999999999999: 4,096 to 16,777,216"),
    (["data", "run", "--limit", "1099511627777"], "--limit 1099511627777: 0 to 1,099,511,627,776"),
    (["data", "run", "--docs", "4000000001"], "--docs 4000000001: 1 to 4,000,000,000"),
    (["data", "run", "--window"], "--window: a number is missing, 1 to 4,096"),
    (["data", "run", "--window="], "--window: a number is missing, 1 to 4,096"),
    (["data", "run", "--window", ""], "--window: a number is missing, 1 to 4,096"),
    (["data", "run", "--window", "--merge", "3"], "--window: a number is missing, 1 to 4,096"),
    (["data", "run", "--window", "5", "--window", "6"], "--window: given twice"),
    (["data", "run", "--window=5", "--merge", "3", "--window", "5"], "--window: given twice"),
    (["data", "run", "--foo"], "--foo: no option of run"),
    (["data", "run", "--windows", "5"], "--windows: no option of run"),
    (["data", "run", "--windo", "5"], "--windo: no option of run"),
    (["data", "run", "5"], "5: no option of run"),
    (["data", "run", "--", "5"], "5: no option of run"),
    (["data", "run", "--merge", "3", "--foo", "--window", "5000"], "--foo: no option of run"),
    (["data", "run", "a\x1b[1mb\nc"], "a\\u{1b}[1mb\\u{a}c: no option of run"),
    (["data", "run", "größe"], "größe: no option of run"),
    (["data", "demo"], "demo: a number is missing, 1 to 1,000,000"),
    (["data", "demo", "0"], "demo 0: 1 to 1,000,000"),
    (["data", "demo", "1000001"], "demo 1000001: 1 to 1,000,000"),
    (["data", "demo", "ten"], "demo ten: 1 to 1,000,000, in digits alone"),
    (["data", "demo", "5", "6"], "6: demo takes one number, and nothing else"),
    (["data", "demo", "5", "--window", "6"], "--window: demo takes one number, and nothing else"),
    (["data", "demo", "--window", "6"], "--window: demo takes one number, and nothing else"),
    (["data", "check", "--partitions", "17"], "--partitions 17: 1 to 16"),
    (["data", "check", "--partitions=0"], "--partitions=0: 1 to 16"),
    (["data", "check", "--partitions"], "--partitions: a number is missing, 1 to 16"),
    (["data", "check", "--partitions", "2", "--partitions", "2"], "--partitions: given twice"),
    (["data", "check", "--window", "64"], "--window: no option of check"),
    (["data", "check", "2"], "2: no option of check"),
    (["data", "check", "--", "2"], "2: no option of check"),
    (["data", b"\xff"], "a word is not UTF-8"),
]

# Words that ask for help: nothing is wrong with them.
HELP = [["--help"], ["-h"], ["help"], ["data", "--help"], ["data", "-h"], ["data", "help"], ["data", "run", "--help"],
        ["data", "run", "-h"], ["data", "demo", "--help"], ["data", "check", "--help"], ["data", "run", "--window", "5", "--help"]]


def component(first, last, partition=0, count=1, mark=b"TCC1"):
    """A component without an entry."""
    return b"\1" + mark + struct.pack(">IIQQQQQQ", partition, count, first, last, 0, 0, 4, 1) + bytes(4) + b"\0"


def log(generation, partition=0, count=1, mark=b"TCL1"):
    """A log without a frame."""
    return b"\1" + mark + struct.pack(">IIQ", partition, count, generation) + b"\0"


class Messages(unittest.TestCase):
    maxDiff = None

    @classmethod
    def setUpClass(cls):
        if not PROGRAM.is_file():
            raise unittest.SkipTest(f"{PROGRAM} is not there")

    def setUp(self):
        folder = tempfile.TemporaryDirectory()
        self.addCleanup(folder.cleanup)
        self.folder = pathlib.Path(folder.name)

    def run_program(self, *words, lines=b"", **options):
        if "stdin" not in options:
            options["input"] = lines
        options.setdefault("stdout", subprocess.PIPE)
        return subprocess.run([PROGRAM, *words], stderr=subprocess.PIPE, cwd=self.folder, timeout=60, **options)

    def said(self, ended):
        return ended.stderr.decode().splitlines()

    def check(self, status, said, *words, **options):
        """The program ends with this status, and says just these lines."""
        ended = self.run_program(*words, **options)
        self.assertEqual((ended.returncode, self.said(ended)), (status, said))
        return ended

    def make(self, *words, lines):
        """A store in the folder data."""
        ended = self.run_program("data", "run", *words, lines=lines)
        self.assertEqual((ended.returncode, ended.stderr), (0, b""))

    def put(self, **files):
        """A partition's folder with just these files."""
        (self.folder / "data/p0").mkdir(parents=True)
        for name, content in files.items():
            self.write(name, content)

    def write(self, name, content, partition="p0"):
        (self.folder / "data" / partition / name.replace("_", "-")).write_bytes(content)

    def files(self):
        return {it.relative_to(self.folder): it.read_bytes() for it in self.folder.rglob("*") if it.is_file()}

    def check_refused(self, status, said, *words, **options):
        """The same, and no file of the store changes."""
        before = self.files()
        self.check(status, said, "data", *words, **options)
        self.assertEqual(self.files(), before)


class UsageMessages(Messages):
    def test_first_unfit_word(self):
        for words, line in UNFIT:
            with self.subTest(words=words):
                ended = self.check(2, [USAGE, line, *OPTIONS], *words)
                self.assertEqual(ended.stdout, b"")
        self.assertEqual(list(self.folder.iterdir()), [])

    def test_help_is_no_error_of_a_word(self):
        for words in HELP:
            with self.subTest(words=words):
                self.check(2, [USAGE, *OPTIONS], *words)

    def test_options_are_as_said(self):
        # Each option takes the least and the most number that is said, and neither neighbour.
        said = re.findall(r"^  (--\w+) +([\d,]+) to ([\d,]+)[^\n]* \(default ([\d,]+)\)$", "\n".join(OPTIONS), re.M)
        self.assertEqual(len(said), 7)
        for name, *numbers in said:
            least, most, default = (int(it.replace(",", "")) for it in numbers)
            with self.subTest(option=name):
                for number in (least, most, default):
                    self.check(0, [], ":memory:", "run", name, str(number))
                for number in (least - 1, most + 1):
                    ended = self.run_program(":memory:", "run", name, str(number))
                    self.assertEqual(ended.returncode, 2)
        # The most that a demonstration takes would run for a while.
        for number, status in (1, 0), (0, 2), (1_000_001, 2):
            self.assertEqual(self.run_program(":memory:", "demo", str(number)).returncode, status)

    def test_commands_are_as_said(self):
        said = [it.split(": ")[1].split(", ") for it in OPTIONS if it.startswith("run answers ")]
        self.assertEqual(said, [list(COMMANDS)])
        ended = self.check(0, [], ":memory:", "run", lines=b"\n".join(COMMANDS.values()))
        self.assertEqual((ended.stdout.count(b"\n"), ended.stdout.count(b"refused")), (len(COMMANDS), 0), ended.stdout)

    def test_example_runs(self):
        (self.folder / "bin").mkdir()
        (self.folder / "bin/tuple_store").symlink_to(PROGRAM)
        example = OPTIONS[-1].removeprefix("example: ")
        ended = subprocess.run(["sh", "-c", example], cwd=self.folder, capture_output=True, timeout=60,
            env={**os.environ, "PATH": f"{self.folder / 'bin'}:{os.environ['PATH']}"})
        self.assertEqual((ended.returncode, ended.stdout, ended.stderr), (0, b'{"id":1,"replaced":false}\n', b""))

    def test_each_refused_line_has_its_word(self):
        # A line is accepted in silence, or refused with a word that does not fit: no refusal is without one.
        alphabet = ["run", "demo", "check", "--window", "--window=5", "5", "0", "--", "-h"]
        for length in range(4):
            for words in itertools.product(alphabet, repeat=length):
                ended = self.run_program(":memory:", *words)
                said = self.said(ended)
                with self.subTest(words=words, said=said[:2]):
                    if ended.returncode == 0:
                        self.assertEqual(said, [])
                    else:
                        self.assertEqual((ended.returncode, said[0]), (2, USAGE))
                        self.assertEqual(len(said), 1 + len(OPTIONS) + (said[1] != OPTIONS[0]))
                        self.assertTrue(said[1] != OPTIONS[0] or "-h" in words)


class StreamMessages(Messages):
    LINE = b'{"op":"get","id":1}\n'

    def test_input_is_a_folder(self):
        folder = os.open("/", os.O_RDONLY)
        self.addCleanup(os.close, folder)
        self.check(3, ["read fault", "standard input: Is a directory (os error 21)"], ":memory:", "run", stdin=folder)

    def test_input_is_closed(self):
        for place in (":memory:", "data"):
            self.check(3, ["read fault", "standard input: Bad file descriptor (os error 9)"], place, "run",
                stdin=subprocess.DEVNULL, preexec_fn=lambda: os.close(0))

    def test_output_is_closed(self):
        said = ["write fault after 0 bytes", "standard output: Bad file descriptor (os error 9)"]
        self.check(4, said, ":memory:", "run", lines=self.LINE, preexec_fn=lambda: os.close(1))
        self.check(4, said, ":memory:", "demo", "4", preexec_fn=lambda: os.close(1))

    def test_output_is_full(self):
        with open("/dev/full", "wb") as full:
            self.check(4, ["write fault after 0 bytes", "standard output: No space left on device (os error 28)"],
                ":memory:", "run", lines=self.LINE, stdout=full)

    def test_output_ends(self):
        read, write = os.pipe()
        os.close(read)
        with os.fdopen(write, "wb") as pipe:
            self.check(4, ["write fault after 0 bytes", "standard output: Broken pipe (os error 32)"],
                ":memory:", "run", lines=self.LINE, stdout=pipe)

    def test_output_ends_in_a_reply(self):
        # A limit on the size of the file that is written, of which the first reply takes a part.
        def limit():
            signal.signal(signal.SIGXFSZ, signal.SIG_IGN)
            resource.setrlimit(resource.RLIMIT_FSIZE, (5, 5))
        with open(self.folder / "replies", "wb") as replies:
            self.check(4, ["write fault after 5 bytes", "standard output: File too large (os error 27)"],
                ":memory:", "run", lines=self.LINE, stdout=replies, preexec_fn=limit, restore_signals=False)


class DiskMessages(Messages):
    LINE = b'{"op":"upsert","doc":{"id":1,"a":1}}\n'
    ONE = ("run", "--partitions", "1")

    @contextlib.contextmanager
    def held(self, path):
        folder = os.open(path, os.O_RDONLY)
        try:
            fcntl.flock(folder, fcntl.LOCK_EX)
            yield
        finally:
            os.close(folder)

    def test_another_program_holds_it(self):
        self.make("--partitions", "1", lines=self.LINE)
        with self.held(self.folder / "data/p0"):
            self.check_refused(5, ["disk fault in partition 0", "data/p0: another program holds it",
                "to see which one: fuser -v data/p0"], *self.ONE)

    def test_the_command_shows_who_holds_it(self):
        place = self.folder / "my store's"
        self.assertEqual(self.run_program("my store's", *self.ONE, lines=self.LINE).returncode, 0)
        with self.held(place / "p0"):
            ended = self.check(5, ["disk fault in partition 0", "my store's/p0: another program holds it",
                "to see which one: fuser -v 'my store'\\''s/p0'"], "my store's", *self.ONE)
            if not shutil.which("fuser"):
                self.skipTest("fuser is not there")
            command = self.said(ended)[-1].removeprefix("to see which one: ")
            shown = subprocess.run(["sh", "-c", command], cwd=self.folder, capture_output=True, text=True, timeout=60)
            self.assertIn(str(os.getpid()), shown.stdout + shown.stderr)

    def test_the_command_takes_a_folder_that_begins_with_a_dash_for_none_of_its_options(self):
        for folder, shown in ("-x", "./-x/p0"), ("-my store", "./'-my store/p0'"):
            self.assertEqual(self.run_program(folder, *self.ONE, lines=self.LINE).returncode, 0)
            with self.held(self.folder / folder / "p0"):
                self.check(5, ["disk fault in partition 0", f"{folder}/p0: another program holds it",
                    f"to see which one: fuser -v {shown}"], folder, *self.ONE)

    def test_a_command_that_is_no_line_is_left_out(self):
        place = self.folder / "a\nb"
        self.assertEqual(self.run_program("a\nb", *self.ONE, lines=self.LINE).returncode, 0)
        with self.held(place / "p0"):
            self.check(5, ["disk fault in partition 0", "a\\u{a}b/p0: another program holds it"], "a\nb", *self.ONE)

    def test_the_second_partition_is_held(self):
        self.make(lines=self.LINE)
        with self.held(self.folder / "data/p1"):
            self.check(5, ["disk fault in partition 1", "data/p1: another program holds it",
                "to see which one: fuser -v data/p1"], "data", "run", "--partitions", "2")

    def test_another_thing_in_place_of_a_file(self):
        place = self.folder / "data/p0/l-7"
        places = {
            "a link": lambda: place.symlink_to("/dev/null"),
            "a folder": place.mkdir,
            "a pipe": lambda: os.mkfifo(place),
            "a socket": self.bind,
        }
        for kind, make in places.items():
            with self.subTest(kind=kind):
                self.put()
                make()
                self.check(5, ["disk fault in partition 0", f"data/p0/l-7 is {kind}, where a file has to be"],
                    "data", *self.ONE)
                shutil.rmtree(self.folder / "data")

    def bind(self):
        # The path of a socket is short.
        here = os.getcwd()
        os.chdir(self.folder / "data/p0")
        try:
            with socket.socket(socket.AF_UNIX) as it:
                it.bind("l-7")
        finally:
            os.chdir(here)

    def test_each_thing_in_place_of_a_file(self):
        self.put(l_1=log(1), notes=b"", l_02=b"")
        (self.folder / "data/p0/l-3").symlink_to("l-1")
        (self.folder / "data/p0/c-1-1").symlink_to("nowhere")
        self.check(5, ["disk fault in partition 0", "data/p0/c-1-1 is a link, where a file has to be",
            "data/p0/l-3 is a link, where a file has to be"], "data", *self.ONE)

    def test_a_file_in_place_of_a_folder(self):
        (self.folder / "data").write_bytes(b"")
        said = "data is a file, where a folder has to be: Not a directory (os error 20)"
        self.check(5, ["disk fault in partition 0", said], "data", *self.ONE)
        self.check(5, ["disk fault in partition 0", said], "data/a/b", *self.ONE)

    def test_a_file_in_place_of_a_partition(self):
        for make in (lambda it: it.write_bytes(b""), lambda it: it.symlink_to("nowhere")):
            (self.folder / "data").mkdir()
            make(self.folder / "data/p0")
            kind = "a link" if (self.folder / "data/p0").is_symlink() else "a file"
            self.check(5, ["disk fault in partition 0",
                f"data/p0 is {kind}, where a folder has to be: File exists (os error 17)"], "data", *self.ONE)
            shutil.rmtree(self.folder / "data")

    def test_folder_is_an_empty_word(self):
        self.check(5, ["disk fault in partition 0", "FOLDER is an empty word"], "", *self.ONE)

    def as_nobody(self, said, *words):
        """The program as somebody whom the system refuses what root may do."""
        shutil.copy(PROGRAM, self.folder / "tuple_store")
        self.folder.chmod(0o755)
        user = {"user": NOBODY, "group": NOBODY} if os.geteuid() == 0 else {}
        ended = subprocess.run([self.folder / "tuple_store", *words], input=self.LINE, capture_output=True,
            cwd=self.folder, timeout=60, **user)
        self.assertEqual((ended.returncode, self.said(ended)), (5, said))

    def test_a_folder_is_not_allowed(self):
        (self.folder / "closed").mkdir()
        (self.folder / "closed").chmod(0o555 if os.geteuid() else 0o700)
        self.addCleanup((self.folder / "closed").chmod, 0o700)
        said = ["disk fault in partition 0", "closed: Permission denied (os error 13)"]
        self.as_nobody(said, "closed", *self.ONE)
        self.as_nobody(said, "closed/a/b", *self.ONE)
        self.as_nobody([said[0], f"{self.folder}/closed: Permission denied (os error 13)"],
            f"{self.folder}/closed/a", *self.ONE)

    def test_the_folder_that_it_runs_in_is_not_allowed(self):
        if os.geteuid():
            self.folder.chmod(0o555)
            self.addCleanup(self.folder.chmod, 0o700)
        self.as_nobody(["disk fault in partition 0", ".: Permission denied (os error 13)"], "data", *self.ONE)

    def test_a_file_is_not_allowed(self):
        self.put(c_1_1=component(1, 1), l_2=log(2))
        for it in (self.folder / "data", self.folder / "data/p0"):
            it.chmod(0o777)
        (self.folder / "data/p0/c-1-1").chmod(0o444)
        (self.folder / "data/p0/l-2").chmod(0)
        self.as_nobody(["disk fault in partition 0", "data/p0/l-2: Permission denied (os error 13)"], "data", *self.ONE)

    def test_no_room(self):
        # A limit on the size of a file stands for a full disk.
        def limit():
            signal.signal(signal.SIGXFSZ, signal.SIG_IGN)
            resource.setrlimit(resource.RLIMIT_FSIZE, (30, 30))
        self.check(5, ["disk fault in partition 0", "data/p0: File too large (os error 27)"], "data", *self.ONE,
            lines=self.LINE, preexec_fn=limit, restore_signals=False)


class DamageMessages(Messages):
    ONE = ("run", "--partitions", "1", "--merge", "8")
    MISFIT = "files of partition 0 do not fit together"

    def make_three(self):
        lines = b"".join(b'{"op":"upsert","doc":{"id":%d,"a":1}}\n{"op":"flush"}\n' % it for it in (1, 2, 3))
        self.make(*self.ONE[1:], lines=lines)
        names = sorted(it.name for it in (self.folder / "data/p0").iterdir())
        self.assertEqual(names, ["c-1-1", "c-2-2", "c-3-3", "l-4"])

    def test_a_generation_is_missing(self):
        self.make_three()
        (self.folder / "data/p0/c-2-2").unlink()
        self.check_refused(6, [self.MISFIT, "data/p0 has c-1-1 c-3-3 l-4", "generation 2 is missing"], *self.ONE)
        (self.folder / "data/p0/c-3-3").unlink()
        self.check_refused(6, [self.MISFIT, "data/p0 has c-1-1 l-4", "generations 2 to 3 are missing"], *self.ONE)

    def test_a_file_that_does_not_count(self):
        self.make_three()
        self.write("c-2-2", b"\0" + (self.folder / "data/p0/c-2-2").read_bytes()[1:])
        self.check_refused(6, [self.MISFIT, "data/p0 has c-1-1 c-3-3 l-4", "generation 2 is missing",
            "c-2-2 is there, but was never finished, or its first byte was changed"], *self.ONE)

    def test_misfits_of_every_kind(self):
        # Names of components and logs, and what does not fit. A component is a pair of generations.
        rows = [
            ([(2, 2)], [], "generation 1 is missing"),
            ([(3, 4)], [], "generations 1 to 2 are missing"),
            ([], [2], "generation 1 is missing"),
            ([], [1, 3], "generation 2 is missing"),
            ([(1, 3), (2, 2), (5, 9)], [], "generation 4 is missing"),
            ([(1, 1), (1, 3), (3, 3)], [1, 3, 6], "generations 4 to 5 are missing"),
            ([(1, 2), (2, 3)], [], "c-1-2 and c-2-3 have generations in common, and neither has all of the other"),
            ([(1, 1), (1, 4), (2, 3), (4, 5)], [],
             "c-1-4 and c-4-5 have generations in common, and neither has all of the other"),
            ([(1, 2)], [3, 9223372036854775807], "generations 4 to 9223372036854775806 are missing"),
        ]
        for components, logs, line in rows:
            with self.subTest(components=components, logs=logs):
                files = {f"c-{first}-{last}": component(first, last) for first, last in components}
                files |= {f"l-{it}": log(it) for it in logs}
                self.put(**files)
                self.check_refused(6, [self.MISFIT, "data/p0 has " + " ".join(files), line], *self.ONE)
                shutil.rmtree(self.folder / "data")

    def test_names_that_fit_are_not_called_misfits(self):
        self.put(**{"c-1-1": component(1, 1), "c-1-3": component(1, 3), "c-2-3": component(2, 3), "l-1": log(1), "l-3": log(3),
            "l-4": log(4), "l-5": log(5)})
        self.check(0, [], "data", *self.ONE)

    def test_a_later_format(self):
        newer = "which this program does not know: use a newer one"
        rows = [("c-5-5", component(5, 5, mark=b"TCC3"), f"c-5-5 has format TCC3, {newer}"),
                ("c-5-5", component(5, 5, mark=b"TCC9"), f"c-5-5 has format TCC9, {newer}"),
                ("c-5-5", component(5, 5, mark=b"TCC8") + b"longer", f"c-5-5 has format TCC8, {newer}"),
                ("c-5-5", b"\1TCC4", f"c-5-5 has format TCC4, {newer}"),
                ("l-5", log(5, mark=b"TCL2"), f"l-5 has format TCL2, {newer}"),
                ("l-5", log(5, mark=b"TCL7"), f"l-5 has format TCL7, {newer}")]
        for name, content, line in rows:
            with self.subTest(name=name, content=content[:5]):
                self.put(**{name: content})
                self.check_refused(6, [f"damaged file {name} in partition 0 at byte 1", line], *self.ONE)
                shutil.rmtree(self.folder / "data")

    def test_no_later_format(self):
        restore = "is not as it was written: restore data from a copy that is whole"
        rows = [("c-5-5", component(5, 5, mark=b"TCC0")), ("c-5-5", component(5, 5, mark=b"TCCa")),
                ("c-5-5", component(5, 5, mark=b"TCL2")), ("l-5", log(5, mark=b"TCC2")), ("l-5", log(5, mark=b"tCL2")),
                ("c-5-5", component(4, 5)), ("l-5", log(6)), ("c-5-5", component(5, 5)[:40]), ("l-5", b"\1T"),
                ("c-5-5", component(4, 5, mark=b"TCC2")), ("c-5-5", component(5, 5, mark=b"TCC2")[:40])]
        for name, content in rows:
            with self.subTest(name=name, content=content[:5]):
                self.put(**{name: content})
                self.check_refused(6, [f"damaged file {name} in partition 0 at byte 1", f"data/p0/{name} {restore}"], *self.ONE)
                shutil.rmtree(self.folder / "data")

    def test_damage_behind_the_header(self):
        self.put(**{"c-1-1": component(1, 1)[:-1] + b"\7"})
        self.check_refused(6, ["damaged file c-1-1 in partition 0 at byte 65",
            "data/p0/c-1-1 is not as it was written: restore data from a copy that is whole"], *self.ONE)

    def break_record(self, partition):
        path = self.folder / f"data/p{partition}/c-2-2"
        content = bytearray(path.read_bytes())
        content[84] = 99  # the first tag of its record, which begins at byte 61
        path.write_bytes(content)
        return [f"damaged file c-2-2 in partition {partition} at byte 61",
            f"data/p{partition}/c-2-2 is not as it was written: restore data from a copy that is whole"]

    def test_damage_that_a_query_finds(self):
        self.make_three()
        said = self.break_record(0)
        self.check(6, said, "data", *self.ONE, lines=b'{"op":"query","path":[]}\n')

    def test_damage_that_a_merge_finds(self):
        self.make_three()
        said = self.break_record(0)
        self.check(6, said, "data", "run", "--partitions", "1", "--merge", "2")

    def test_damage_in_one_partition_of_two(self):
        # Odd ids are in partition 1, so its two components have one document each, and partition 0 has one component.
        two = ("--partitions", "2", "--merge", "8")
        lines = b"".join(b'{"op":"upsert","doc":{"id":%d,"a":1}}\n{"op":"flush"}\n' % it for it in (1, 2, 3))
        self.make(*two, lines=lines)
        said = self.break_record(1)
        self.check(0, [], "data", "run", *two, lines=b'{"op":"get","id":2}\n')
        self.check(6, said, "data", "run", *two, lines=b'{"op":"get","id":2}\n{"op":"get","id":3}\n')


class MemoryMessages(Messages):
    def test_no_memory(self):
        def limit():
            resource.setrlimit(resource.RLIMIT_AS, (12 << 20, 12 << 20))
        lines = b"".join(b'{"op":"upsert","doc":{"id":%d,"a":"%s"}}\n' % (it, b"x" * 1000) for it in range(20000))
        ended = self.run_program(":memory:", "run", "--memory", "16777216", lines=lines, preexec_fn=limit)
        self.assertEqual((ended.returncode, self.said(ended)), (7, ["no memory",
            "a smaller --memory or --window takes less memory; so does a store that is made with fewer --partitions",
            "the reply to a query or a collect is made in memory as a whole: ask for fewer documents at once"]))


class PartitionMessages(Messages):
    LINES = b'{"op":"upsert","doc":{"id":0,"a":1}}\n{"op":"upsert","doc":{"id":1,"a":1}}\n'

    def test_the_number_to_say(self):
        for count in (1, 2, 3, 16):
            with self.subTest(count=count):
                self.make("--partitions", str(count), lines=self.LINES)
                many = "1 partition" if count == 1 else f"{count} partitions"
                asked = 2 if count != 2 else 1
                said = [f"partition 0: found 0 of {count}, asked 0 of {asked}",
                        f"this store has {many}: --partitions {count}"]
                self.check_refused(8, said, "run", "--partitions", str(asked))
                if asked == 2:
                    self.check_refused(8, said, "run")
                words = said[1].split(": ")[1].split()
                self.check(0, [], "data", "run", *words)
                shutil.rmtree(self.folder / "data")

    def test_a_demonstration_takes_two(self):
        self.make("--partitions", "1", lines=self.LINES)
        self.check_refused(8, ["partition 0: found 0 of 1, asked 0 of 2",
            "this store has 1 partition, and demo takes 2: give it another folder"], "demo", "4")

    def test_a_partition_is_missing(self):
        self.make(lines=self.LINES)
        shutil.rmtree(self.folder / "data/p1")
        self.check_refused(8, ["partition 0: found 0 of 2, asked 0 of 1",
            "this store has 2 partitions, and data/p1 is missing: bring it back, since --partitions 2 makes an empty one"],
            "run", "--partitions", "1")

    def test_folders_that_changed_places(self):
        self.make(lines=self.LINES)
        data = self.folder / "data"
        (data / "p0").rename(data / "p")
        (data / "p1").rename(data / "p0")
        (data / "p").rename(data / "p1")
        self.check_refused(8, ["partition 0: found 1 of 2, asked 0 of 2",
            "data/p0/l-1 is of partition 1 of 2: its place is data/p1"], "run")

    def test_a_file_of_another_store(self):
        self.make(lines=self.LINES)
        self.write("l-1", log(1, partition=1, count=3), partition="p1")
        self.check(8, ["partition 1: found 1 of 3, asked 1 of 2",
            "data/p1/l-1 is of another store: of partition 1 of 3"], "data", "run")

    def test_a_file_of_another_store_in_the_first_partition(self):
        self.put(c_1_1=component(1, 1, count=3), l_2=log(2, count=2))
        self.check_refused(8, ["partition 0: found 0 of 3, asked 0 of 2",
            "data/p0/c-1-1 is of another store: of partition 0 of 3"], "run")

    def test_numbers_that_no_store_has(self):
        for partition, count in ((0, 0), (0, 17), (5, 2), (0, 4294967295)):
            with self.subTest(partition=partition, count=count):
                self.put(l_1=log(1, partition=partition, count=count))
                self.check_refused(8, [f"partition 0: found {partition} of {count}, asked 0 of 2",
                    f"data/p0/l-1 is damaged: no store has a partition {partition} of {count}"], "run")
                shutil.rmtree(self.folder / "data")


class NumberMessages(Messages):
    def test_no_generation_is_left(self):
        last = 9223372036854775807
        self.put(**{f"c-1-{last}": component(1, last)})
        self.check_refused(9, ["no number left", f"data/p0/c-1-{last} has the last generation that there is"],
            "run", "--partitions", "1")


class SilentMessages(Messages):
    def test_a_run_without_a_fault_says_nothing(self):
        for words in (["data", "run"], ["data", "run", "--window=5"], ["data", "run", "--"], ["other", "demo", "--", "5"],
                      [":memory:", "demo", "5"]):
            with self.subTest(words=words):
                self.check(0, [], *words, lines=b'{"op":"get","id":1}\n')

    def test_standard_error_may_be_closed(self):
        before = self.run_program("data", "run", "--partitions", "1", lines=b"").returncode
        ended = subprocess.run([PROGRAM, "data", "run"], input=b"", stdout=subprocess.PIPE, cwd=self.folder, timeout=60,
            preexec_fn=lambda: os.close(2))
        self.assertEqual((before, ended.returncode, ended.stdout), (0, 8, b""))


if __name__ == "__main__":
    unittest.main()
