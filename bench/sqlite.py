"""SQLite's command line beside the store: the same lines, with its log and synced, so many of them a transaction."""

import json
import os
import resource
import shutil
import subprocess

from stores import removed

FRONT = '{"op":"upsert","doc":'

PRAGMAS = "pragma journal_mode = wal; pragma synchronous = full; create table docs (id integer primary key, doc text{});\n"

# Without it a check of the database looks at no document.
PARSED = " check (json_valid(doc))"


def statement(line):
    """The SQL of a line: its document is parsed as JSON, and kept as text."""
    key = line[line.index('"id":') + len('"id":'):].split(",")[0].rstrip("}\n")
    if line.startswith(FRONT):
        document = line[len(FRONT):-2].replace("'", "''")
        return f"insert or replace into docs values ({key}, json('{document}'));\n"
    return f"delete from docs where id = {key};\n" if '"op":"delete"' in line else f"select doc from docs where id = {key};\n"


def write_script(lines, path, window, constraint=""):
    """A script that writes the lines, so many a transaction, into a table of texts that meet a constraint."""
    with open(path, "w", encoding="utf-8") as script:
        script.write(PRAGMAS.format(constraint))
        for at, line in enumerate(lines):
            if at % window == 0:
                script.write("commit; begin;\n" if at else "begin;\n")
            script.write(statement(line))
        script.write("commit;\n")


def told(database, script, replies):
    """The processor seconds of the command line, which reads a statement a line."""
    before = resource.getrusage(resource.RUSAGE_CHILDREN)
    with open(script, "rb") as source, open(replies, "wb") as sink:
        subprocess.run(["sqlite3", "-batch", removed(database)], stdin=source, stdout=sink, check=True)
    after = resource.getrusage(resource.RUSAGE_CHILDREN)
    return after.ru_utime + after.ru_stime - before.ru_utime - before.ru_stime


def extraction(path):
    """A path without wildcards, as `json_extract` writes it."""
    return "$" + "".join(f'."{hop}"' if isinstance(hop, str) else f"[{hop}]" for hop in path)


def literal(value):
    return "'" + value.replace("'", "''") + "'" if isinstance(value, str) else str(value)


def query(hops, equal_to=None):
    """The SQL of what a query of the store asks: what a path reaches, by key."""
    if None in hops:
        at = hops.index(None)
        reached = f"json_extract(each.value, '{extraction(hops[at + 1:])}')" if hops[at + 1:] else "each.value"
        asked = f"select docs.id, {reached} from docs, json_each(docs.doc, '{extraction(hops[:at])}') as each"
        asked += "" if equal_to is None else f" where {reached} = {literal(equal_to)}"
    else:
        reached = f"json_extract(doc, '{extraction(hops)}')"
        asked = f"select id, {reached} from docs where {reached} "
        asked += "is not null" if equal_to is None else f"= {literal(equal_to)}"
    return f"{asked} order by docs.id;\n"


def write_queries(path, count, hops, equal_to=None):
    """A script that asks that so many times."""
    with open(path, "w", encoding="utf-8") as script:
        script.write(query(hops, equal_to) * count)


def write_index(path, hops):
    """A script that makes an index of what a path without wildcards reaches."""
    with open(path, "w", encoding="utf-8") as script:
        script.write(f"create index reached on docs (json_extract(doc, '{extraction(hops)}'));\n")


def write_checks(path, count):
    """A script that has the whole database judged so many times."""
    with open(path, "w", encoding="utf-8") as script:
        script.write("pragma integrity_check;\n" * count)


def asked(database, script, replies):
    """The processor seconds of the command line over a database that is there."""
    before = resource.getrusage(resource.RUSAGE_CHILDREN)
    with open(script, "rb") as source, open(replies, "wb") as sink:
        subprocess.run(["sqlite3", "-batch", database], stdin=source, stdout=sink, check=True)
    after = resource.getrusage(resource.RUSAGE_CHILDREN)
    return after.ru_utime + after.ru_stime - before.ru_utime - before.ru_stime


class Text:
    """SQLite's command line, asked as the other stores are: it parses the JSON that it keeps as text. Its whole process is counted."""

    name = "SQLite, text"

    def __init__(self, folder, window):
        self.here, self.window = shutil.which("sqlite3") is not None, window
        self.database, self.script, self.replies = (os.path.join(folder, it) for it in ("text-store", "text-script", "text-replies"))

    def load(self, source):
        with open(source, encoding="utf-8") as lines:
            write_script(lines, self.script, self.window)
        return told(self.database, self.script, self.replies)

    def flush(self, source):
        """Its log goes into its database at the end of each process."""

    def ask(self, source, window=None):
        with open(source, encoding="utf-8") as lines, open(self.script, "w", encoding="utf-8") as script:
            script.writelines(map(question, lines))
        return asked(self.database, self.script, self.replies)


def question(line):
    """The SQL of a line that asks for a document, or for those that have a value at a path."""
    command = json.loads(line)
    if command["op"] == "get":
        return f"select doc from docs where id = {command['id']};\n"
    return query(command["path"], command.get("eq"))
