#!/usr/bin/env python3
"""Cuts the power at random moments of recorded runs, and compares what is read back with what was acknowledged.

    bench/powercut.py [STORE] [CUTS] [SEED] [SYNC]

STORE is the program, or else that of crates/tuple_store/out. `strace` records what a run over a folder calls of the system:
its writes, syncs and removals, and when it read its lines and wrote its replies. At random moments of the record, a folder
is built as a power cut may leave it there by docs/disk-model.md, and nothing else:

- a write since the last sync of its file is whole, lost, torn within, zero, or other bytes, and they come in any order;
- a file whose first sync (of the file, and then of its folder) was not answered is there, or absent, or the removed one of
  its name; each file that the run removed is absent, or back;
- a folder whose name was not synced is there, or absent, also one that was made before the run.

Each image is held against the definition of the model. Then the program is started over the folder, and reads every key
and the schema. They have to be those of the windows that were answered by then, or of these and the next one as a whole.
Where one run is cut another one goes on, from one of the folders that were left, so openings are cut too, and what was
recovered has to stay. CUTS are made in all (2000 if not said).

With SYNC, `fsync` or `fdatasync`, records are read as if these calls had not been made: then a difference has to come. With
`each` as SYNC, one call at a time is left out of a record, of those that made something durable, and the moments behind it
are tried: so one sees how many of the syncs the cuts need.
"""
import collections
import json
import os
import random
import re
import shutil
import subprocess
import sys
import tempfile

HERE = os.path.dirname(os.path.abspath(__file__))
STORE = os.path.join(HERE, '..', 'crates', 'tuple_store', 'out', 'tuple_store')
KEYS = 60
CUTS_OF_A_RUN = 100
RUNS_OF_A_FOLDER = 6
# of each run with a sync left out: how many are, how many cuts are made then, and how many steps behind it
LEFT_OUT, CUTS_LEFT_OUT, STEPS_LEFT_OUT = 10, 100, 40
SECTOR = 512


class OutOfModel(Exception):
    """The program does what the model does not speak of."""


# ---- what a run is fed, and what it has to answer

Line = collections.namedtuple('Line', 'text key doc')
KINDS = ['null', 'boolean', 'integer', 'text', 'array', 'object']


def words_of(choice):
    """The words of a run: small memory tables make flushes and merges frequent."""
    return ['--memory', str(choice.choice([4096, 4096, 16384, 131072])), '--merge', str(choice.choice([2, 2, 3, 4])),
            '--limit', str(choice.choice([0, 0, 20000]))]


def line_of(choice, number, longest):
    """An upsert or a delete, or now and then a flush, which has no key."""
    if choice.random() < 0.01:
        return Line('{"op":"flush"}', None, None)
    key = choice.randrange(KEYS)
    if choice.random() < 0.25:
        return Line(json.dumps({'op': 'delete', 'id': key}), key, None)
    doc = {'id': key, 'n': number, 'text': 'x' * choice.randrange(longest),
           'list': [choice.randrange(1000) for _ in range(choice.randrange(5))]}
    if choice.random() < 0.3:
        doc['f%d' % choice.randrange(40)] = {'a': None, 'b': [True, number]}
    return Line(json.dumps({'op': 'upsert', 'doc': doc}), key, doc)


def windows_of(lines, size):
    """The lines cut into windows: a flush closes the one before it, and is one of its own."""
    windows = [[]]
    for line in lines:
        if windows[-1] and (line.key is None or windows[-1][0].key is None or len(windows[-1]) == size):
            windows.append([])
        windows[-1].append(line)
    return windows


def played(stored, windows):
    """The documents behind each number of windows, and the replies to all lines."""
    states, replies = [stored], []
    for window in windows:
        now = dict(states[-1])
        for line in window:
            if line.key is None:
                replies.append({'flush': 'done'})
            elif line.doc is None:
                replies.append({'found': now.pop(line.key, None) is not None, 'id': line.key})
            else:
                replies.append({'id': line.key, 'replaced': line.key in now})
                now[line.key] = line.doc
        states.append(now)
    return states, replies


def kind_of(value):
    kinds = {type(None): 'null', bool: 'boolean', int: 'integer', str: 'text', list: 'array', dict: 'object'}
    return kinds[type(value)]


def schema_of(values):
    """The counted schema of a list of values, by docs/schema.md."""
    nodes = []
    for kind in sorted({kind_of(value) for value in values}, key=KINDS.index):
        those = [value for value in values if kind_of(value) == kind]
        node = {'count': len(those), 'kind': kind}
        if kind == 'array':
            node['items'] = schema_of([item for value in those for item in value])
        if kind == 'object':
            names = {name for value in those for name in value}
            node['fields'] = {name: schema_of([value[name] for value in those if name in value]) for name in names}
        nodes.append(node)
    if len(nodes) > 1:
        return {'count': len(values), 'kind': 'union', 'kinds': nodes}
    return nodes[0] if nodes else None


def told(docs):
    """What a program has to answer that reads every key and the schema of these documents, as one text a line."""
    bare = [{name: value for name, value in doc.items() if name != 'id'} for doc in docs.values()]
    return [plain({'doc': docs.get(key)}) for key in range(KEYS)] + [plain({'schemas': [schema_of(bare)]})]


def plain(value):
    return json.dumps(value, sort_keys=True)


def read_back(store, folder, words):
    """What a program answers that is started over the folder, or why it answers nothing."""
    lines = [{'op': 'get', 'id': key} for key in range(KEYS)] + [{'op': 'schema'}]
    done = subprocess.run([store, folder, 'run', '--partitions', '1'] + words, stdout=subprocess.PIPE,
                          stderr=subprocess.PIPE, input=''.join(json.dumps(line) + '\n' for line in lines).encode())
    if done.returncode != 0 or done.stderr:
        return ['status %d: %s' % (done.returncode, done.stderr.decode())]
    return [plain(json.loads(line)) for line in done.stdout.decode().splitlines()]


# ---- the record of a run

Step = collections.namedtuple('Step', 'kind name at data thread', defaults=(None, 0, b'', None))
CALLS = ['read', 'openat', 'open', 'creat', 'pwrite64', 'write', 'writev', 'pwritev', 'pwritev2', 'fdatasync', 'fsync',
         'sync_file_range', 'ftruncate', 'truncate', 'fallocate', 'unlink', 'unlinkat', 'rename', 'renameat', 'renameat2',
         'link', 'linkat', 'symlink', 'symlinkat', 'mkdir', 'mkdirat', 'rmdir', 'copy_file_range', 'sendfile']
# what the model has of them; each other one that names something of the store ends the script
MODELLED = {'pwrite64': ['write'], 'fdatasync': ['sync begins', 'sync'], 'fsync': ['sync begins', 'sync'],
            'unlink': ['remove'], 'mkdir': ['folder'], 'openat': ['make']}
CALL = re.compile(r'(\w+)\((.*)\)\s+= (-?\d+)')
OVER = re.compile(r'(\d+)<((?:\\x[0-9a-f]{2})*)>')
TEXT = re.compile(r'"((?:\\x[0-9a-f]{2})*)"(\.*)')


def of_hex(text):
    return bytes.fromhex(text.replace('\\x', ''))


class Record:
    """The steps of a run, read from what `strace` wrote of it. `base` is the folder that the store's folder is in."""

    def __init__(self, base, path, forgotten):
        self.base, self.forgotten, self.steps = os.path.realpath(base) + '/', forgotten, []
        begun = {}
        with open(path) as file:
            for line in file:
                thread, call = line.split(None, 1)
                if call.rstrip().endswith('<unfinished ...>'):
                    # A sync may let go only of what was written before it began; all else is done as it begins.
                    begun[thread] = (call.rstrip()[:-len('<unfinished ...>')], len(self.steps))
                    self.steps.append(None)
                    continue
                place = None
                if call.startswith('<... '):
                    front, place = begun.pop(thread)
                    call = front + call[call.index('resumed>') + len('resumed>'):]
                self.add(thread, call, place)
        self.steps = [step for step in self.steps if step]

    def add(self, thread, call, place):
        found = CALL.match(call)
        steps = self.steps_of(found[1], found[2], int(found[3]), thread) if found else []
        if place is not None and steps:
            self.steps[place] = steps.pop(0)
        self.steps += steps

    def name_in(self, path):
        """The name of a path within the base, or None for one outside of it. The base itself is ''."""
        path = path.decode(errors='replace')
        return path[len(self.base):] if (path + '/').startswith(self.base) else None

    def steps_of(self, call, words, answer, thread):
        over, texts = OVER.match(words), [(of_hex(text), more) for text, more in TEXT.findall(words)]
        if call == 'read':
            return [Step('line')] if over and over[1] == '0' else []
        if call == 'write' and over and over[1] in '12':
            return [Step('reply', data=texts[0][0])] if over[1] == '1' else []
        names = [self.name_in(path) for path in ([of_hex(over[2])] if over else [text for text, _ in texts])]
        name = next((name for name in names if name is not None), None)
        is_read = call == 'openat' and not re.search('O_CREAT|O_TRUNC|O_APPEND', words)
        if name is None or is_read or (call == 'mkdir' and answer < 0):
            return []
        if answer < 0 or call not in MODELLED or (call == 'openat' and (over or 'O_CREAT|O_EXCL' not in words)):
            raise OutOfModel('%s(%s) = %d' % (call, words[:200], answer))
        if call == 'pwrite64':
            if answer != len(texts[0][0]) or texts[0][1]:
                raise OutOfModel('a write that is not whole in the record')
            return [Step('write', name, int(words.rsplit(',', 1)[1]), texts[0][0])]
        kinds = MODELLED[call] if call != self.forgotten else []
        return [Step(kind, name, thread=thread) for kind in kinds]


def recorded(store, folder, words, lines, base, forgotten):
    """Runs the program over the folder, and answers its steps and what it replied."""
    path = os.path.join(base, 'record')
    calls = 'trace=' + ','.join('?' + call for call in CALLS)
    words = ['strace', '-f', '-y', '-xx', '-s', '16777216', '-o', path, '-e', calls, store, folder] + words
    done = subprocess.run(words, input=''.join(line.text + '\n' for line in lines).encode(), stdout=subprocess.PIPE,
                          stderr=subprocess.PIPE)
    if done.returncode != 0 or done.stderr:
        sys.exit('status %d of a run that is recorded: %s' % (done.returncode, done.stderr.decode()))
    return Record(base, path, forgotten).steps, done.stdout


# ---- the model of the disk

class File:
    """A file that is there: what it holds, what is durable of it (None before its first sync), the writes since then, and
    what a removed file of its name held."""

    def __init__(self, content=None, before=None):
        self.content, self.synced, self.tried, self.before = bytearray(content or b''), content, [], before
        # until the name is durable: the content at the file's last sync, and how many writes that was
        self.sealed = None

    def write(self, at, data):
        if at > len(self.content):
            raise OutOfModel('a write behind the end of its file')
        self.content[at:at + len(data)] = data
        self.tried.append((at, data))

    def make_durable(self, content, count):
        self.synced, self.tried, self.before, self.sealed = content, self.tried[count:], None, None

    def is_settled(self):
        return self.synced is not None and not self.tried

    def furthest(self):
        return max([len(self.content)] + [at + len(data) for at, data in self.tried])

    def nearest(self):
        """One past the last place that was synced and that no write touched since."""
        free = self.touched()
        return 1 + max((place for place, touched in enumerate(free) if not touched), default=-1)

    def touched(self):
        free = bytearray(len(self.synced or b''))
        for at, data in self.tried:
            free[at:at + len(data)] = b'\1' * len(free[at:at + len(data)])
        return free

    def may_be(self, image):
        """Whether a stop may leave these bytes: the definition, place by place."""
        if len(image) > self.furthest():
            return False
        return all(touched or (place < len(image) and image[place] == self.synced[place])
                   for place, touched in enumerate(self.touched()))


class Disk:
    """What is on the disk after each step: files, files that were removed and may be back, and folders with whether their
    names are durable. At first all names are but the unsynced ones."""

    def __init__(self, picture, unsynced):
        self.files = {name: File(content) for name, content in picture.items() if content is not None}
        self.folders = {name: name not in unsynced for name, content in picture.items() if content is None}
        self.removed, self.begun, self.lines, self.has_begun = {}, {}, 0, False

    def step(self, step):
        if step.kind == 'reply':
            self.lines += step.data.count(b'\n')
        elif step.kind == 'line':
            self.has_begun = True
        elif step.kind == 'folder':
            self.folders[step.name] = False
        elif step.kind == 'make':
            if step.name in self.files:
                raise OutOfModel('a file is made that is there')
            self.files[step.name] = File(before=self.removed.pop(step.name, None))
        elif step.kind == 'write':
            self.files[step.name].write(step.at, step.data)
        elif step.kind == 'remove':
            file = self.files.pop(step.name)
            if not file.is_settled():
                raise OutOfModel('a file is removed with something pending')
            self.removed[step.name] = bytes(file.content)
        elif step.kind == 'sync begins':
            self.begun[step.thread] = self.durable_by(step.name)
        else:
            self.end_sync(step.name, self.begun.pop(step.thread))

    def durable_by(self, name):
        """What a sync that begins now makes durable."""
        if name in self.files:
            return bytes(self.files[name].content), len(self.files[name].tried)
        named = [it for it in self.files if os.path.dirname(it) == name and self.files[it].sealed]
        return named, [it for it in self.folders if os.path.dirname(it) == name]

    def end_sync(self, name, durable):
        file = self.files.get(name)
        if file and file.synced is None:
            file.sealed = durable
        elif file:
            file.make_durable(*durable)
        else:
            # Another thread's sync of the folder may have ended first, and made the name durable.
            for file in [self.files[it] for it in durable[0] if it in self.files]:
                if file.sealed:
                    file.make_durable(*file.sealed)
            self.folders.update({it: True for it in durable[1]})

    def is_pending(self, name):
        """Whether a sync of this file or folder would make something durable."""
        if name in self.files:
            return not self.files[name].is_settled()
        named, folders = self.durable_by(name)
        return bool(named) or not all(self.folders[it] for it in folders)

    def is_settled(self):
        return all(file.is_settled() for file in self.files.values()) and all(self.folders.values())


# ---- what a power cut leaves

WAYS = ['kept', 'lost', 'torn', 'torn by sectors', 'zero', 'other bytes']
# how often each way comes in one cut
MOODS = [[1, 0, 0, 0, 0, 0], [0, 1, 0, 0, 0, 0], [2, 2, 2, 1, 1, 1], [2, 1, 0, 0, 0, 0], [1, 0, 3, 2, 0, 0],
         [1, 0, 0, 0, 2, 4]]


def pieces(at, data, choice, way):
    """What is left of a write: pieces with their places."""
    if way == 'lost':
        return []
    if way == 'torn':
        end = choice.randrange(len(data) + 1)
        return [(at, data[:end - (at + end) % SECTOR if choice.random() < 0.5 and (at + end) % SECTOR <= end else end])]
    if way == 'torn by sectors':
        edges = [at] + list(range(at - at % SECTOR + SECTOR, at + len(data), SECTOR)) + [at + len(data)]
        return [(one, data[one - at:two - at]) for one, two in zip(edges, edges[1:]) if choice.random() < 0.5]
    if way == 'zero':
        return [(at, bytes(len(data)))]
    if way == 'other bytes':
        byte = choice.choice([1, 1, 255, None])
        return [(at, choice.randbytes(len(data)) if byte is None else bytes([byte]) * len(data))]
    return [(at, data)]


class Cut:
    """One power cut: it chooses what is left of each file, and counts what it chose."""

    def __init__(self, choice, seen):
        self.choice, self.seen, self.said, self.mood = choice, seen, [], choice.choice(MOODS)
        self.absent, self.back = choice.choice([0, 0.3, 1]), choice.choice([0, 0.5, 1])

    def image_of(self, file):
        """What is left under a file's name; None for nothing."""
        if file.is_settled():
            return bytes(file.content)
        if file.synced is None and self.choice.random() < self.absent:
            is_back = file.before is not None and self.choice.random() < self.back
            self.seen['files back in place of new ones' if is_back else 'files absent'] += 1
            return file.before if is_back else None
        image = bytearray(file.synced or b'')
        for at, data in self.choice.sample(file.tried, len(file.tried)):
            way = self.choice.choices(WAYS, self.mood)[0]
            self.seen['writes ' + way] += 1
            self.said.append('%d bytes at %d: %s' % (len(data), at, way))
            for place, piece in pieces(at, data, self.choice, way):
                image += bytes(max(0, place - len(image)))
                image[place:place + len(piece)] = piece
        if self.choice.random() < 0.1:
            self.seen['files of another length'] += 1
            length = self.choice.randint(file.nearest(), file.furthest())
            image = image[:length] + bytes(max(0, length - len(image)))
        if not file.may_be(image):
            raise OutOfModel('an image that a stop cannot leave')
        return bytes(image)

    def picture_of(self, disk):
        """The names with what is left under them, None for a folder."""
        left = {}
        for name, is_durable in sorted(disk.folders.items()):
            above = os.path.dirname(name)
            if (is_durable or self.choice.random() >= self.absent) and (not above or above in left):
                left[name] = None
        for name, file in sorted(disk.files.items()):
            image = self.image_of(file)
            if image is not None and os.path.dirname(name) in left:
                left[name] = image
        for name, content in sorted(disk.removed.items()):
            if self.choice.random() < self.back:
                self.seen['files back'] += 1
                left[name] = content
        return left


def lay_out(base, picture):
    """Makes the folder of a picture, in place of the one that was there."""
    shutil.rmtree(os.path.join(base, 'store'), ignore_errors=True)
    for name, content in sorted(picture.items()):
        path = os.path.join(base, name)
        if content is None:
            os.mkdir(path)
        else:
            with open(path, 'wb') as file:
                file.write(content)


# ---- runs, moments and comparisons

class Run:
    """A run over what a power cut left, its record, and what it has to leave."""

    def __init__(self, store, base, picture, unsynced, stored, choice, forgotten):
        self.choice, self.picture, self.unsynced = choice, picture, unsynced
        self.window = choice.choice([1, 1, 3, 7, 32])
        self.words = words_of(choice)
        longest = choice.choice([60, 60, 60, 4000])
        lines = [line_of(choice, number, longest) for number in range(choice.choice([5, 60, 120, 250]))]
        self.windows = windows_of(lines, self.window)
        self.states, replies = played(stored, self.windows)
        lay_out(base, picture)
        words = ['run', '--partitions', '1', '--window', str(self.window)] + self.words
        self.steps, output = recorded(store, os.path.join(base, 'store'), words, lines, base, forgotten)
        if [plain(json.loads(line)) for line in output.decode().splitlines()] != [plain(reply) for reply in replies]:
            sys.exit('the replies are not those of the lines; see ' + base)

    def moments(self, count):
        """Numbers of steps, in order. Those around a sync come often, and in every third run over files those of the
        opening."""
        opening = next(at for at, step in enumerate(self.steps) if step.kind == 'line')
        last = opening if self.picture and self.choice.random() < 0.3 else len(self.steps)
        near = ['sync' in ''.join(step.kind for step in self.steps[max(0, at - 1):at + 1]) for at in range(last + 1)]
        return sorted(self.choice.choices(range(last + 1), [4 if it else 1 for it in near], k=count))

    def without_a_sync(self):
        """The steps without one sync that made something durable, its place, and its name."""
        disk, places = Disk(self.picture, self.unsynced), []
        for at, step in enumerate(self.steps):
            if step.kind == 'sync' and disk.is_pending(step.name):
                places.append(at)
            disk.step(step)
        end = self.choice.choice(places)
        name, thread = self.steps[end].name, self.steps[end].thread
        begin = max(at for at in range(end) if self.steps[at] == Step('sync begins', name, thread=thread))
        return self.steps[:begin] + self.steps[begin + 1:end] + self.steps[end + 1:], begin, name

    def may_be_stored(self, lines):
        """The documents that may be there once so many reply lines were written."""
        ends = [0]
        for window in self.windows:
            ends.append(ends[-1] + len(window))
        answered = max(at for at, end in enumerate(ends) if end <= lines)
        first = answered if ends[answered] == lines else answered + 1
        return self.states[first:answered + 2]


def cuts_of(run, steps, moments, seen):
    """Cuts the power behind so many steps, for each of the moments: the moment, the disk then, the cut, and what it left."""
    disk, done = Disk(run.picture, run.unsynced), 0
    for moment in moments:
        for step in steps[done:moment]:
            disk.step(step)
        done = moment
        cut = Cut(run.choice, seen)
        yield moment, disk, cut, cut.picture_of(disk)


def compared(store, base, run, disk, picture, seen):
    """Reads a picture back, and answers the documents that it stores, or None if they are not what they have to be."""
    lay_out(base, picture)
    found = read_back(store, os.path.join(base, 'store'), words_of(run.choice))
    for more, docs in enumerate(run.may_be_stored(disk.lines)):
        if found == told(docs):
            seen['windows that were not answered'] += more
            return docs
    return None


def explained(base, run, moment, disk, cut, picture):
    """Keeps a picture that is not what it has to be, and says at which moment it was left."""
    lay_out(base, picture)
    print('what is read back is not what %d reply lines leave; see %s' % (disk.lines, base))
    print('window %d, %s, %d steps of %d:' % (run.window, ' '.join(run.words), moment, len(run.steps)))
    for step in run.steps[max(0, moment - 12):moment]:
        print('   ', step.kind, step.name or '', step.at, '%d bytes %s' % (len(step.data), step.data[:24].hex()))
    print('of the writes: ' + ', '.join(cut.said))
    print('left: ' + ', '.join('%s (%s)' % (name, 'folder' if it is None else '%d bytes' % len(it))
                               for name, it in sorted(picture.items())))
    sys.exit(1)


def cut_run(store, base, run, count, seen):
    """Cuts a run at so many moments. Answers one of the pictures, with the documents that it stores."""
    left = []
    for moment, disk, cut, picture in cuts_of(run, run.steps, run.moments(count), seen):
        seen['cuts'] += 1
        seen['cuts of openings'] += bool(run.picture) and not disk.has_begun
        seen['cuts with something pending'] += not disk.is_settled()
        docs = compared(store, base, run, disk, picture, seen)
        if docs is None:
            explained(base, run, moment, disk, cut, picture)
        left.append((picture, docs))
    return run.choice.choice(left)


def leave_out(store, base, run, syncs):
    """Leaves one sync out of the run, and notes for its kind whether a cut behind it shows that."""
    steps, begin, name = run.without_a_sync()
    places = range(begin, min(begin + STEPS_LEFT_OUT, len(steps)) + 1)
    moments = sorted(run.choice.choices(places, [8 if at < begin + 6 else 1 for at in places], k=CUTS_LEFT_OUT))
    kind = re.sub('[0-9]+', 'N', os.path.basename(name) or 'the folder above')
    written = [step for step in run.steps[:begin] if step.kind == 'write' and step.name == name]
    if written:
        at, data = written[-1].at, written[-1].data
        kind += ' behind a byte at 0' if at == 0 else ' behind a byte' if len(data) == 1 else ' behind more bytes'
    shown = False
    try:
        shown = any(compared(store, base, run, disk, picture, collections.Counter()) is None
                    for _, disk, _, picture in cuts_of(run, steps, moments, collections.Counter()))
    except OutOfModel:
        pass
    syncs[kind] = [syncs[kind][0] + shown, syncs[kind][1] + 1]


def main():
    store = os.path.abspath(sys.argv[1] if len(sys.argv) > 1 else STORE)
    cuts = int(sys.argv[2]) if len(sys.argv) > 2 else 2000
    choice = random.Random(int(sys.argv[3]) if len(sys.argv) > 3 else 1)
    left_out = sys.argv[4] if len(sys.argv) > 4 else None
    base = tempfile.mkdtemp(prefix='tuple_store_powercut_')
    seen, syncs, runs = collections.Counter(), collections.defaultdict(lambda: [0, 0]), 0
    while seen['cuts'] < cuts:
        unsynced = set()
        if runs % RUNS_OF_A_FOLDER == 0:
            # The program makes its folder, or somebody made it just before, whose name may still go.
            picture, stored = choice.choice([{}, {'store': None}]), {}
            unsynced = set(picture)
        run = Run(store, base, picture, unsynced, stored, choice, left_out)
        for _ in range(LEFT_OUT if left_out == 'each' else 0):
            leave_out(store, base, run, syncs)
        picture, stored = cut_run(store, base, run, min(CUTS_OF_A_RUN, cuts - seen['cuts']), seen)
        seen['steps'] += len(run.steps)
        runs += 1
    shutil.rmtree(base)
    print('%d runs: %s' % (runs, ', '.join('%d %s' % (many, what) for what, many in sorted(seen.items()))))
    for kind, (shown, tried) in sorted(syncs.items()):
        print('syncs of %s: %d left out, %d shown' % (kind, tried, shown))


if __name__ == '__main__':
    try:
        main()
    except OutOfModel as why:
        sys.exit('what the model does not speak of: %s' % why)
