#!/usr/bin/env python3
"""Changes each byte of a small store in turn, and compares what `check` says with a reader that shares no code with the store.

    bench/check.py [STORE] [VALUES]

STORE is the program, or else that of crates/tuple_store/out. The store has one partition, with three components and a log; one
of the components is written anew in version 1. Each byte of each file gets VALUES other values (3 if not
said), one after the other. Of each changed store three are asked: `check`; the reader of clients/python, which judges the files
by docs/formats, with the counters that plain recursion finds in the documents; and a run that is asked for all documents and the
schema.

`check` has to say exactly what the reader says, byte for byte, and to change no file. Where it says right, the run has to answer
the documents and the schema that the reader has. Where it says wrong for what a start judges, the run has to end with status 6
or 8, at the same file and place. Else what was changed is a record or a counter, and the run may answer or meet it: it only has
to end with a status of its own. How often each came is printed.

Then each call of a check on files fails in turn, or does half of what it was asked to, and each allocation is refused, by
bench/failing.c, which is built with cc. The check has to say what it says without that, or nothing at status 5 for files and 7
for memory, and to change no file. At last comes 'N changes and faults, M differ'.
"""
import collections
import errno
import itertools
import json
import os
import shutil
import subprocess
import sys
import tempfile

HERE = os.path.dirname(os.path.abspath(__file__))
TOP = os.path.dirname(HERE)
STORE = os.path.join(TOP, 'crates', 'tuple_store', 'out', 'tuple_store')
sys.path.insert(0, os.path.join(TOP, 'clients', 'python'))

from tests.support import counted, of_version_1  # noqa: E402
from tuple_store_client.errors import Damaged, FilesDiffer, NewerFormat, PartitionsDiffer  # noqa: E402
from tuple_store_client.partition import read_partition  # noqa: E402
from tuple_store_client.schemas import KINDS, kinds_of  # noqa: E402

ONE = ['--partitions', '1']
# The errors of a call on files, where 0 stands for half the bytes, and of an allocation; and the status where a check gives up.
ERRORS = {'files': [errno.EIO, errno.EACCES, errno.EINTR, 0], 'memory': [errno.ENOMEM]}
STATUS = {'files': 5, 'memory': 7}
# Documents of every kind, two and two of one shape, with a union, items, a key that is gone and one that is written again.
LINES = [
    {'op': 'upsert', 'doc': {'id': 1, 'a': 1, 'b': ['x', None, -7]}},
    {'op': 'upsert', 'doc': {'id': 2, 'a': 'é', 'c': {'a': False}}},
    {'op': 'upsert', 'doc': {'id': 6, 'a': 2, 'b': ['y', None, 8]}},
    {'op': 'upsert', 'doc': {'id': 7, 'a': 'z', 'c': {'a': True}}},
    {'op': 'upsert', 'doc': {'id': 300, 'b': []}},
    {'op': 'flush'},
    {'op': 'delete', 'id': 2},
    {'op': 'upsert', 'doc': {'id': 1, 'a': {'d': [[True]]}}},
    {'op': 'flush'},
    {'op': 'upsert', 'doc': {'id': 4, 'b': ['x' * 300], 'e': None}},
    {'op': 'flush'},
    {'op': 'upsert', 'doc': {'id': 5, 'a': 2}},
    {'op': 'delete', 'id': 300},
]


def asked(store, folder, words, lines=(), **told):
    """What the program answers: its status, and what it writes on both of its outputs."""
    given = ''.join(json.dumps(it) + '\n' for it in lines).encode()
    ran = subprocess.run([store, folder, *words], input=given, capture_output=True, timeout=60, env={**os.environ, **told})
    return ran.returncode, ran.stdout.decode(), ran.stderr.decode()


def bytes_of(folder):
    """The files of the partition."""
    return {it.name: open(it.path, 'rb').read() for it in os.scandir(f'{folder}/p0')}


def write(folder, files):
    """A partition with just these files."""
    shutil.rmtree(f'{folder}/p0')
    os.mkdir(f'{folder}/p0')
    for name, content in files.items():
        with open(f'{folder}/p0/{name}', 'wb') as file:
            file.write(content)


class Wrong(Exception):
    """What the reader finds first, as `check` tells it, and whether a start finds it too."""

    def __init__(self, why, at_start=False):
        super().__init__(why)
        self.why, self.at_start = why, at_start


def at(path, place):
    return {'file': os.path.basename(path), 'place': place}


def judged(folder):
    """All documents by their keys, without them, and their schema. Raises `Wrong` where the files are not what a store leaves."""
    try:
        partition = read_partition(f'{folder}/p0', 0, 1)
        for component in partition.components:
            list(component.entries())
        for log in partition.logs:
            judge_frames(log)
    except (Damaged, NewerFormat) as error:
        raise Wrong(at(error.file, getattr(error, 'place', 1)), True) from None
    except FilesDiffer as error:
        files = str(error).split(': the files ')[1].split(' do not fit together')[0].split(', ')
        raise Wrong({'files': files}, True) from None
    except PartitionsDiffer as error:
        found, of = str(error).split('a file of partition ')[1].split(',')[0].split(' of ')
        raise Wrong({'found': int(found), 'found_of': int(of)}, True) from None
    documents = {}
    for component in partition.components:
        judge_component(component, documents)
    for log in partition.logs:
        for write in log.writes():
            put(documents, write, log)
    return documents, counted(list(documents.values()))


def judge_frames(log):
    """The records of a log are judged with their frame, and told at its body."""
    frames = log.frames()
    body = 21
    for writes in frames:
        body += 9
        for write in writes:
            if write.length:
                try:
                    log.document(write)
                except Damaged:
                    raise Damaged(log.path, body, 'a record') from None
        last = writes[-1]
        body = last.place + last.length


def judge_component(component, documents):
    """Puts the documents of a component over those of older ones, and compares its schema with all that are there then."""
    for entry in component.entries():
        try:
            put(documents, entry, component)
        except Damaged as error:
            raise Wrong(at(error.file, error.place)) from None
    kept, found = dict(counters(component.schema)), dict(counters(counted(list(documents.values()))))
    differ = [key for key in {*kept, *found} if kept.get(key, 0) != found.get(key, 0)]
    if differ:
        path, kind = key = min(differ)
        raise Wrong({'counted': found.get(key, 0), 'file': str(component.name), 'kept': kept.get(key, 0), 'kind': KINDS[kind],
                     'path': [step[1].decode() if step else None for step in path]})


def put(documents, entry, file):
    if entry.length:
        documents[entry.key] = file.document(entry)
        if 'id' in documents[entry.key]:
            raise Damaged(file.path, entry.place, 'it has a member id')
    else:
        documents.pop(entry.key, None)


def counters(schema, path=()):
    """Each place and kind, as they are ordered, with its counter. A step is empty for all items, or has a name after an 1."""
    for kind, node in kinds_of(schema).items():
        yield (path, KINDS.index(kind)), node['count']
        if kind == 'array':
            yield from counters(node['items'], (*path, ()))
        if kind == 'object':
            for name, field in node['fields'].items():
                yield from counters(field, (*path, (1, name.encode())))


def text_of(value):
    return json.dumps(value, sort_keys=True, separators=(',', ':'), ensure_ascii=False)


def compare(store, folder, counts):
    """What differs between the three that are asked of a folder, or nothing."""
    before = bytes_of(folder)
    status, said, errors = asked(store, folder, ['check', *ONE])
    if changed(folder, before):
        return changed(folder, before)
    try:
        documents, schema = judged(folder)
        expected, wrong = {'check': 'right', 'documents': len(documents), 'partition': 0}, None
    except Wrong as error:
        expected, wrong = {'check': 'wrong', 'partition': 0, 'why': error.why}, error
    if (status, said, errors) != (0, text_of(expected) + '\n', ''):
        return f'check says {said or errors!r} with status {status}, and the reader {text_of(expected)}'
    status, said, errors = asked(store, folder, ['run', *ONE, '--merge', '8'], [{'op': 'query', 'path': []}, {'op': 'schema'}])
    counts[kind_of(expected), f'the run ended with status {status}'] += 1
    if wrong is None:
        rows = [{'id': key, 'values': [documents[key]]} for key in sorted(documents)]
        replies = text_of({'rows': rows}) + '\n' + text_of({'schemas': [schema]}) + '\n'
        return None if (status, said) == (0, replies) else f'the run answers {said!r} with status {status}'
    if wrong.at_start:
        return None if refuses(wrong.why, status, errors) else f'the run ends with status {status}: {errors!r}'
    return None if status in (0, 6, 7) else f'the run ends with status {status}: {errors!r}'


def kind_of(verdict):
    why = verdict.get('why')
    return 'right' if why is None else next(it for it in ('place', 'files', 'found', 'counted') if it in why)


def refuses(why, status, errors):
    """Whether a run ended for what `check` told."""
    first = errors.split('\n')[0]
    if 'found' in why:
        return (status, first) == (8, f"partition 0: found {why['found']} of {why['found_of']}, asked 0 of 1")
    if 'files' in why:
        return (status, first) == (6, 'files of partition 0 do not fit together')
    return (status, first) == (6, f"damaged file {why['file']} in partition 0 at byte {why['place']}")


def main():
    store = os.path.abspath(sys.argv[1]) if len(sys.argv) > 1 else STORE
    values = int(sys.argv[2]) if len(sys.argv) > 2 else 3
    place = '/dev/shm' if os.access('/dev/shm', os.W_OK) else None
    counts, tried, differ = collections.Counter(), 0, 0
    with tempfile.TemporaryDirectory(dir=place) as top:
        folder = os.path.join(top, 'store')
        status, _, errors = asked(store, folder, ['run', *ONE, '--merge', '8'], LINES)
        assert status == 0, errors
        files = bytes_of(folder)
        assert sorted(files) == ['c-1-1', 'c-2-2', 'c-3-3', 'l-4'], sorted(files)
        files['c-2-2'] = of_version_1(files['c-2-2'])
        rows = itertools.chain(with_changes(store, folder, files, values, counts), with_faults(store, top, files, counts))
        for what, found in rows:
            tried += 1
            if found:
                differ += 1
                print(f'{what}: {found}', flush=True)
    for (kind, end), times in sorted(counts.items()):
        print(f'{times:6,} times {kind}, and {end}')
    print(f'{tried:,} changes and faults, {differ:,} differ')
    return 1 if differ else 0


def with_changes(store, folder, files, values, counts):
    """Each change of a byte, and what is wrong with what is said of it, or none."""
    for name, byte, value in each_change(files, values):
        old = files[name]
        write(folder, {**files, name: old[:byte] + bytes([value]) + old[byte + 1:]})
        yield f'{name} with {value:02x} at byte {byte}', compare(store, folder, counts)
    write(folder, files)
    yield 'no change', compare(store, folder, counts)


def with_faults(store, top, files, counts):
    """Each call that fails, and what is wrong with the end of that check, or none."""
    folder, library, number = (os.path.join(top, it) for it in ('store', 'failing.so', 'calls'))
    subprocess.run(['cc', '-shared', '-fPIC', '-O1', '-o', library, os.path.join(HERE, 'failing.c'), '-ldl'], check=True)
    for calls, errors in ERRORS.items():
        write(folder, files)
        told = {'LD_PRELOAD': library, 'FAILING_CALLS': calls}
        whole = asked(store, folder, ['check', *ONE], FAILING_COUNT=number, **told)
        with open(number) as file:
            many = int(file.read())
        for error in errors:
            for call in range(1, many + 1):
                end = asked(store, folder, ['check', *ONE], FAILING_AT=str(call), FAILING_WITH=str(error), **told)
                gave_up = end[:2] == (STATUS[calls], '')
                counts[f'a fault of {calls}', f'the check ended with status {end[0]}'] += 1
                found = None if end == whole or gave_up else f'the check says {end[1] or end[2]!r} with status {end[0]}'
                yield f'call {call} of {calls} with error {error}', found or changed(folder, files)


def changed(folder, files):
    return None if bytes_of(folder) == files else 'check changed a file'


def each_change(files, values):
    """Each byte of each file with other values: those of one bit, and 0 and 255, as far as they are wanted."""
    for name, content in sorted(files.items()):
        for byte, old in enumerate(content):
            others = dict.fromkeys([old ^ 1, old ^ 0x80, 0, 0xff, old ^ 2, old ^ 0x20])
            for value in [it for it in others if it != old][:values]:
                yield name, byte, value


if __name__ == '__main__':
    sys.exit(main())
