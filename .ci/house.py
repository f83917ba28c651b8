#!/usr/bin/env python3
"""Looks at the order of the house: what a script can see of the rules in CONTRIBUTING.md. `.ci/run` ends with it.

    .ci/house.py      at the top of the repository, or anywhere

It is silent where all is in order. Else it prints a line for each finding, and closes with 'N passed, M failed', which
counts the looks below. It reads files alone, and proves nothing.
"""

import collections
import glob
import os
import re
import signal
import sys

PICTURE = "docs/architecture.md"
# The must-fail edits of one crate, and of all: the edits of a crate cost the gate another check of the whole crate.
MOST_EDITS, MOST_EDITS_OF_ALL = 3, 60
# A contract that can be read aloud has no more clauses and characters than these.
MOST_CLAUSES, MOST_CHARACTERS = 16, 2_500
# The public functions whose contracts are longer, by crate. None is today, and none is added.
LONG_CONTRACTS = {}
# A line of proofs/ is no longer than this. So many are longer today, and the number may only shrink.
LONGEST_LINE, LONG_LINES = 300, 37
# A statement with fewer words and signs than this may stand twice.
FEWEST_WORDS = 14
# In these files names are given by the goals that they answer, and nothing else cites them.
ANSWERS = ("Answers.antt", "Invariants.antt", "Proof.antt")
# In a file of proofs/ whose name ends so the checker computes rows of examples, which nothing cites.
ROWS = "Rows.antt"
# What the toolchain writes of each type, as that it may cross to a thread, is no file of proofs/, and may be cited.
WRITTEN = re.compile(r"\.(?:TheSendSync|TheLaws)\b")
# Definitions, and laws that no clause can state, which crates to come stand on. A name leaves this list once it is used.
AWAITED = {}


def read(path):
    with open(path, encoding="utf-8", errors="replace") as it:
        return it.read()


def without_comments(path, text):
    """The text with its comments blank: places stay the same."""
    mark = r"(?<![^\s(])--(?=\s|$)[^\n]*" if path.endswith(".antt") else r"(?<!:)//[^\n]*"
    return re.sub(mark, lambda it: " " * len(it[0]), text)


def line_of(text, place):
    return text.count("\n", 0, place) + 1


class House:
    """The files of the repository, read once."""

    def __init__(self):
        paths = sorted(glob.glob("crates/*/*/**/*", recursive=True))
        ours = [it for it in paths if it.split("/")[2] in ("src", "specs", "proofs") and it.endswith((".rt", ".antt"))]
        self.said = {it: read(it) for it in ours}
        self.text = {it: without_comments(it, whole) for it, whole in self.said.items()}
        self.stands, self.layers, self.lines, self.again = {}, {}, {}, []
        layer = None
        for number, line in enumerate(read("crates.txt").split("\n"), 1):
            head = re.match(r"# (\d) \w", line)
            layer = int(head[1]) if head else layer
            row = line.partition("#")[0].strip()
            if row:
                name, _, below = row.partition(":")
                name = name.split()[0]
                self.again += [(number, name)] if name in self.stands else []
                self.stands[name], self.layers[name], self.lines[name] = below.split(), layer, number

        self.by_crate = collections.defaultdict(dict)
        for path, text in self.text.items():
            self.by_crate[path.split("/")[1]][path] = text

    def of(self, crate):
        return self.by_crate[crate]


def crates_go_upward(house):
    """crates.txt goes upward: each crate stands only on crates listed before it, and the layers ascend."""
    for number, name in house.again:
        yield f"crates.txt:{number}: {name} stands on another line too"
    before, last = set(), 0
    for name, below in house.stands.items():
        at = f"crates.txt:{house.lines[name]}"
        if house.layers[name] is None:
            yield f"{at}: {name} stands in no layer"
        elif house.layers[name] < last:
            yield f"{at}: {name} is of layer {house.layers[name]} and stands behind layer {last}"
        last = max(last, house.layers[name] or 0)
        for it in below:
            if it in house.stands and it not in before:
                yield f"{at}: {name} stands on {it}, which is listed after it"
        before.add(name)


def crates_are_listed(house):
    """Each folder of crates/ is a crate of crates.txt."""
    for folder in sorted(glob.glob("crates/*/")):
        if folder.split("/")[1] not in house.stands:
            yield f"{folder}: crates.txt does not list it"


def crates_are_used(house):
    """Each name behind the colon in crates.txt is used by the crate."""
    for name, below in house.stands.items():
        body = "\n".join(house.of(name).values())
        for it in below:
            if not re.search(rf"\b{it}\b", body):
                yield f"crates.txt:{house.lines[name]}: nothing in {name} uses {it}"


def crates_are_in_the_picture(house):
    """Each crate stands in the picture of docs/architecture.md, at its layer, and in the table, and no other does."""
    text = read(PICTURE)
    picture = re.search(r"^```\n(.*?)^```", text, re.M | re.S)
    if not picture:
        yield f"{PICTURE}: it has no picture between lines of three back quotes"
        return
    drawn, layer = {}, None
    for row in picture[1].split("\n"):
        head = re.match(r" ?(\d) ", row)
        layer = int(head[1]) if head else layer
        drawn.update(dict.fromkeys(re.findall(r"\b[a-z]+(?:_[a-z]+)+\b", row), layer))
    told = dict(re.findall(r"^\| `(\w+)` \| (\d) ", text, re.M))
    for name, layer in house.layers.items():
        if drawn.get(name) != layer:
            yield f"{PICTURE}: {name} is not in the picture at layer {layer}"
        if told.get(name) != str(layer):
            yield f"{PICTURE}: {name} is not in the table at layer {layer}"
    for name in sorted({*drawn, *told} - set(house.layers)):
        yield f"{PICTURE}: {name} is no crate of crates.txt"


def tops_say_their_layer(house):
    """The first line of each lib.rt and main.rt says the crate's layer."""
    for name, layer in house.layers.items():
        for path in (f"crates/{name}/src/lib.rt", f"crates/{name}/src/main.rt"):
            if path in house.said and not house.said[path].startswith(f"//! Layer {layer}, "):
                yield f"{path}:1: it does not begin with '//! Layer {layer}, '"


def files_say_what_they_have(house):
    """Each file of code, definitions or lemmas begins with one line that says what is in it."""
    for path, text in house.said.items():
        mark = "//! " if path.endswith(".rt") else "-- "
        if not path.endswith((*ANSWERS, "Lib.antt")) and not text.startswith(mark):
            yield f"{path}:1: it does not begin with a line '{mark}..'"


def files_are_named(house):
    """Each file of code is named by a `mod`, and each file of definitions or lemmas by the Lib.antt beside it."""
    for path in house.said:
        crate, part, *inside = path.split("/")[1:]
        stem = inside[-1].rpartition(".")[0]
        if part == "src" and path not in (f"crates/{crate}/src/lib.rt", f"crates/{crate}/src/main.rt"):
            code = [text for it, text in house.of(crate).items() if "/src/" in it and it != path]
            if not any(re.search(rf"^\s*(?:pub(?:\(\w+\))? )?mod {stem}\b", text, re.M) for text in code):
                yield f"{path}: no `mod` names it"
        elif part != "src" and len(inside) == 1 and stem != "Lib":
            lib = house.text.get(f"crates/{crate}/{part}/Lib.antt", "")
            if not re.search(rf"^(?:pub )?mod {stem}\b", lib, re.M):
                yield f"{path}: crates/{crate}/{part}/Lib.antt does not name it"


def proofs_stay_private(house):
    """No crate imports a module of another's proofs/ that the Lib.antt there does not declare `pub mod`."""
    public = {it: set(re.findall(r"^pub mod (\w+)", house.text.get(f"crates/{it}/proofs/Lib.antt", ""), re.M)) for it in house.stands}
    for path, text in house.text.items():
        for it in re.finditer(r"\bRattle\.(\w+)\.proofs\.(\w+)((?:\.\w+)*)", text):
            if WRITTEN.search(it[3]):
                continue
            if it[1] in public and it[1] != path.split("/")[1] and it[2] not in public[it[1]]:
                yield f"{path}:{line_of(text, it.start())}: {it[0]} is private to {it[1]}"


def private_types(house, crate):
    """The types of a crate that its lib.rt does not hand on."""
    top = house.text.get(f"crates/{crate}/src/lib.rt", "")
    public = {name for it in re.findall(r"\bpub use ([^;]*);", top) for name in re.findall(r"\w+", it)}
    typed = re.compile(r"^(pub )?(?:pub\(\w+\) )?(?:struct|enum|trait) (\w+)", re.M)
    public.update(name for is_public, name in typed.findall(top) if is_public)
    code = [text for path, text in house.of(crate).items() if path.endswith(".rt") and "/src/tests" not in path]
    return {name for text in code for _, name in typed.findall(text)} - public


def lemmas_on_private_types_stay(house):
    """No crate imports a module of another's proofs/ that speaks of types which that crate keeps private."""
    private = {it: private_types(house, it) for it in house.stands}
    for path, text in house.text.items():
        for it in re.finditer(r"\bRattle\.(\w+)\.proofs\.(\w+)", text):
            if it[1] in private and it[1] != path.split("/")[1]:
                module = house.text.get(f"crates/{it[1]}/proofs/{it[2]}.antt", "")
                named = re.findall(rf"\bRattle\.{it[1]}\.specs\.declared\.([^\n]*)", module)
                found = {name for words in named for name in re.findall(r"\w+", words)} & private[it[1]]
                if found:
                    yield f"{path}:{line_of(text, it.start())}: {it[0]} speaks of {', '.join(sorted(found))}"


def contracts_cite_no_proofs(house):
    """No contract or definition cites a file of proofs/."""
    for path, text in house.text.items():
        if path.endswith(".rt") or "/specs/" in path:
            for it in re.finditer(r"\bRattle\.(\w+)\.proofs\.[\w.]*\w", text):
                if it[1] in house.stands:
                    yield f"{path}:{line_of(text, it.start())}: it cites {it[0]}"


WORD = re.compile(r"[A-Za-z_0-9][A-Za-z_0-9'/-]*")
NAME = re.compile(r"^( {0,4})(?:abbrev )?(?:pub )?(?:(?:record|data) ([A-Za-z_]\w*)|([A-Za-z_][\w'/-]*) :(?=\s))", re.M)
USE = re.compile(r"^ *(?:pub )?use [^\n]*(?:\n +[^\n]*\})?", re.M)
START = re.compile(r"(?:abbrev )?(?:pub )?(?:(record|data|ruleset) ([A-Za-z_]\w*)|(mutual|module)\b|([A-Za-z_◌][\w'/◌+≡×∷≤<^&|-]*) :(?=\s|$))")


def definitions(text, before=0):
    """The definitions of a file: line, the names that each gives, and its text. One of `mutual` gives several names."""
    lines = text.split("\n")
    starts = [(number, found) for number, line in enumerate(lines) if (found := START.match(line))]
    ends = [number for number, _ in starts[1:]] + [len(lines)]
    for (number, found), end in zip(starts, ends):
        body = "\n".join(lines[number:end])
        kind = found[1] or found[3]
        if kind == "module":
            inner = "\n".join(line.removeprefix("  ") for line in lines[number + 1 : end])
            yield from definitions(inner, before + number + 1)
            continue
        names = {it[2] or it[3] for it in NAME.finditer(body)} if kind in ("mutual", "record", "data") else set()
        yield before + number + 1, {*names, *(it for it in (found[2], found[4]) if it)}, body


def reached(words, left):
    """The words that words lead to through definitions, and the definitions that are not met on the way."""
    words, met = set(words), True
    while met:
        met, unmet = [], []
        for it in left:
            (met if it[2] & words else unmet).append(it)
        words.update(*(it[3] for it in met))
        left = unmet
    return words, left


def names_are_used(house):
    """Each name of specs/ and proofs/ is used: by code, by an answer to a goal, by a row of examples, or by what these
    use. Names in AWAITED need no use yet, and leave it once they have one."""
    used, left = set(), []
    for path, text in house.text.items():
        bare = USE.sub(lambda it: "\n" * it[0].count("\n"), text)
        if path.endswith((".rt", *ANSWERS)) or "/proofs/" in path and path.endswith(ROWS):
            used.update(WORD.findall(bare))
        elif not path.endswith("Lib.antt"):
            left += [(path, line, names, set(WORD.findall(body))) for line, names, body in definitions(bare)]
    used, left = reached(used, left)
    for crate, awaited in AWAITED.items():
        own = {name for path, _, names, _ in left if path.split("/")[1] == crate for name in names}
        for name in sorted(set(awaited) - own):
            yield f".ci/house.py: {name} of {crate} is used or gone, and so no longer awaited"
        used.update(awaited)
    for path, line, names, _ in reached(used, left)[1]:
        yield f"{path}:{line}: nothing uses {', '.join(sorted(names))}"


def steps_are_used(house):
    """Each function behind a `where` is used."""
    words = {path: collections.Counter(WORD.findall(text)) for path, text in house.text.items()}
    # one sum that grows: adding counters up makes a new one each time
    every = collections.Counter()
    for counted in words.values():
        every.update(counted)
    for path, text in house.text.items():
        if not path.endswith(".antt") or path.endswith((*ANSWERS, "Lib.antt")):
            continue
        lines = text.split("\n")
        for number, line in enumerate(lines):
            found = re.match(r"( +)([A-Za-z_][\w'/-]*) :(?=\s)", line)
            if not found:
                continue
            deep, name = len(found[1]), found[2]
            above = (it for it in reversed(lines[:number]) if it.strip() and len(it) - len(it.lstrip()) < deep)
            if next(above, "").strip() == "where":
                heads = re.findall(rf"^ {{{deep}}}{re.escape(name)}(?: :| [^\n]*=$| [^\n]* = )", text, re.M)
                if every[name] == words[path][name] <= len(heads):
                    yield f"{path}:{number + 1}: nothing uses {name}"


HEAD = re.compile(r"^( *)(?:abbrev )?(?:pub )?([A-Za-z_][\w'/◌+≡-]*) : (.*)$")


def statements(text):
    """The statements of a file: line, name, the whole on one line, and what follows up to an empty line."""
    lines = text.split("\n")
    for number, line in enumerate(lines):
        head = HEAD.match(line)
        if not head:
            continue
        whole, deep, rest = head[3], len(head[1]) + 2, number + 1
        for more in lines[rest:]:
            is_more = more.startswith(" " * deep) and more.strip() and not re.match(r"^ *(?:pub |abbrev )?[\w'-]+ .*=", more)
            if not is_more and not more.strip().startswith("→"):
                break
            whole, rest = f"{whole} {more.strip()}", rest + 1
        end = next((it for it in range(rest, len(lines)) if not lines[it].strip()), len(lines))
        yield number + 1, head[2], whole, " ".join(lines[rest:end])


BOUND = re.compile(r"[({]([a-zA-Z_][\w' ]*?) : *(Type)?|λ ([\w' ]+)\.")
TOKEN = re.compile(r"(?<=[\w')])\.[\w']+|[\w'-]+(?= = )|[\w'-]+|[^\w\s]")


def form_of(name, whole, body):
    """The words and signs of a statement, its variables numbered in the order in which they are bound. A law is told by
    what it says; what only has a type, a definition, by its equations too."""
    bound = {it: it_is[2] for it_is in BOUND.finditer(whole) for it in (it_is[1] or it_is[3]).split()}
    numbers = {it: f"${number}" for number, it in enumerate(bound)}
    form = []
    for it in TOKEN.finditer(whole):
        is_field = whole[it.end() : it.end() + 3] == " = "
        form.append(it[0] if is_field else numbers.get(it[0], it[0]))
    values = {numbers[it] for it, is_type in bound.items() if not is_type}
    result = form[len(form) - form[::-1].index("→") :] if "→" in form else form
    if {"≡", "⊥", "≤", "<", "↔"} & set(form) or values & set(result):
        return tuple(form)
    return (*form, *("itself" if it == name else it for it in re.findall(r"[\w'-]+|[^\w\s]", body)))


def statements_stand_once(house):
    """No statement of specs/ and proofs/ stands in two files, up to the names of variables."""
    said = collections.defaultdict(list)
    for path, text in house.text.items():
        if path.endswith(".antt") and not path.endswith(ANSWERS):
            for number, name, whole, body in statements(text):
                form = form_of(name, whole, body)
                if len(form) >= FEWEST_WORDS and ("→" in form or "≡" in form):
                    said[form].append((path, number, name))
    for places in said.values():
        if len({path for path, _, _ in places}) > 1:
            (path, number, name), *others = places
            yield f"{path}:{number}: {name} stands also as " + ", ".join(f"{it} at {at}:{n}" for at, n, it in others)


CONTRACT = re.compile(r"^\s*(?:ensures|requires)\b", re.M)


def contracts(text):
    """The public functions of a file of code: line, name, and the contract."""
    for it in re.finditer(r"^( *)pub (?:const |ghost )?fn (\w+)", text, re.M):
        rest = text[it.end() :]
        # The body's brace stands alone below a contract, and else behind the signature. A function of a trait may have no body.
        body = re.search(rf"^{it[1]}\{{|[{{;]\s*$", rest, re.M)
        head = rest[: body.start()] if body else ""
        clause = CONTRACT.search(head)
        yield line_of(text, it.start()), it[2], head[clause.start() :] if clause else ""


def contracts_can_be_read(house):
    """No contract of a public function has more than 16 clauses or 2,500 characters, save those that LONG_CONTRACTS names."""
    left = {(crate, name) for crate, names in LONG_CONTRACTS.items() for name in names}
    for path, text in house.text.items():
        if path.endswith(".rt") and "/src/tests" not in path:
            for line, name, contract in contracts(text):
                clauses, characters = len(CONTRACT.findall(contract)), len(" ".join(contract.split()))
                if clauses > MOST_CLAUSES or characters > MOST_CHARACTERS:
                    crate = path.split("/")[1]
                    left.discard((crate, name))
                    if name not in LONG_CONTRACTS.get(crate, ()):
                        yield f"{path}:{line}: the contract of {name} has {clauses} clauses and {characters:,} characters"
    for crate, name in sorted(left):
        yield f".ci/house.py: {name} of {crate} has a short contract or is gone, and so leaves LONG_CONTRACTS"


def lines_of_proofs_are_short(house):
    """No more lines of proofs/ than LONG_LINES have over 300 characters."""
    proofs = (text for path, text in house.said.items() if "/proofs/" in path)
    count = sum(len(line) > LONGEST_LINE for text in proofs for line in text.split("\n"))
    if count > LONG_LINES:
        yield f"crates/*/proofs: {count} lines of over {LONGEST_LINE} characters, and at most {LONG_LINES} may stand"


def nothing_is_said_once(house):
    """No definition has two cases `= Unit {0}`: one last case says of all others that nothing is said of them."""
    case = re.compile(r"^( *)(\S+) (?:[^=]* )?= Unit \{0\}$")
    for path, text in house.text.items():
        if path.endswith(".antt"):
            last = None
            for number, line in enumerate(text.split("\n"), 1):
                found = case.match(line.rstrip())
                if found and found.groups() == last:
                    yield f"{path}:{number}: {found[2]} says nothing in another case too"
                last = found.groups() if found else last if last and line.startswith(f"{last[0]}{last[1]} ") else None


def edits_are_few(house):
    """A crate has at most three must-fail edits, and all crates have at most 60."""
    counts = {name: len(glob.glob(f"crates/{name}/must-fail/*.edit")) for name in house.stands}
    for name, count in counts.items():
        if count > MOST_EDITS:
            yield f"crates/{name}/must-fail: {count} edits, and at most {MOST_EDITS} are wanted"
    if sum(counts.values()) > MOST_EDITS_OF_ALL:
        yield f"crates/*/must-fail: {sum(counts.values())} edits, and at most {MOST_EDITS_OF_ALL} are wanted"


def edits_apply(house):
    """Each must-fail edit changes a file of code at a text that stands there once."""
    for path in sorted(glob.glob("crates/*/must-fail/*.edit")):
        file, text = "", ""
        for number, line in enumerate(read(path).split("\n"), 1):
            if line.startswith("file: "):
                file = line[len("file: ") :].strip()
                text = house.said.get(f"crates/{path.split('/')[1]}/{file}", "")
                if not file.startswith("src/"):
                    yield f"{path}:{number}: it changes {file}, and not a file of src/"
            elif line.startswith("old: ") and text.count(line[len("old: ") :]) != 1:
                yield f"{path}:{number}: its text stands {text.count(line[len('old: ') :])} times in {file}"


def links_lead_somewhere(house):
    """Each document links only to files that stand."""
    for path in sorted(["README.md", "CONTRIBUTING.md", *glob.glob("docs/**/*.md", recursive=True)]):
        text = read(path)
        for it in re.finditer(r"\]\(([^)#:]+)(?:#[^)]*)?\)", text):
            if not os.path.exists(os.path.join(os.path.dirname(path), it[1])):
                yield f"{path}:{line_of(text, it.start())}: there is no {it[1]}"
        for it in re.finditer(r"`((?:crates|docs|bench|\.ci)/[\w./-]+\w)`", text):
            if not os.path.exists(it[1]) and "NAME" not in it[1] and "/out/" not in it[1]:
                yield f"{path}:{line_of(text, it.start())}: there is no {it[1]}"


LOOKS = (
    crates_go_upward,
    crates_are_listed,
    crates_are_used,
    crates_are_in_the_picture,
    tops_say_their_layer,
    files_say_what_they_have,
    files_are_named,
    proofs_stay_private,
    lemmas_on_private_types_stay,
    contracts_cite_no_proofs,
    names_are_used,
    steps_are_used,
    statements_stand_once,
    contracts_can_be_read,
    lines_of_proofs_are_short,
    nothing_is_said_once,
    edits_are_few,
    edits_apply,
    links_lead_somewhere,
)


def main():
    signal.signal(signal.SIGPIPE, signal.SIG_DFL)
    os.chdir(os.path.join(os.path.dirname(os.path.realpath(__file__)), ".."))
    house, failed = House(), 0
    for look in LOOKS:
        found = sorted(set(look(house)))
        failed += bool(found)
        if found:
            print(" ".join(look.__doc__.split()))
        for it in found:
            print(f"  {it}")
    if failed:
        print(f"{len(LOOKS) - failed} passed, {failed} failed")
    sys.exit(1 if failed else 0)


main()
