#!/usr/bin/env python3
"""Asks two programs the same, and compares their replies byte for byte.

    bench/replies.py BEFORE AFTER [DOCUMENTS] [SEED]

Each round gives both programs the same lines, over a new folder each, and then opens both folders again and reads all that is
there. The lines upsert DOCUMENTS documents in all (20,000 if not said): those of bench/feeds.py; hostile ones, whose texts,
names, numbers and nesting are at every limit and in every spelling, right or wrong; and some of which each is the one before with
one thing changed, so that what is guessed from the last one is right, or wrong by little. Among them are deletes, flushes, schemas,
gets, and queries and scans by all the paths of the documents, with and without a value. Lines are also cut, doubled, changed at a
byte, and made as long as a line may be. Partitions, windows, the words for the memory and for merges change from round to round.

A scan is collected before the next write, since its rows depend on the moment otherwise. Compared are the replies, the messages
and the status of each run; how often each reply came is printed, and at last 'N documents, M lines, K differ'.
"""
import collections
import itertools
import json
import os
import random
import subprocess
import sys
import tempfile

HERE = os.path.dirname(os.path.abspath(__file__))
sys.path.insert(0, HERE)
import feeds  # noqa: E402

LONGEST = 1_048_576
ROUND = 500
NUMBERS = [
    '0', '1', '-1', '9', '10', '-0', '00', '01', '-01', '+1', '1.', '.5', '-', '1.0', '1.5', '1e2', '1E+2', '1e-2', '0e0', '-0.0', '1e', '1e400',
    '-1e400', '1e308', '0x1', '1_0', 'NaN', 'Infinity', '127', '128', '-128', '-129', '255', '256', '32767', '32768', '-32768', '-32769',
    '65535', '65536', '2147483647', '2147483648', '-2147483648', '-2147483649', '4294967295', '4294967296', '9007199254740993',
    '99999999999999999', '999999999999999999', '-999999999999999999', '1000000000000000000', '9223372036854775806', '9223372036854775807',
    '9223372036854775808', '-9223372036854775807', '-9223372036854775808', '-9223372036854775809', '18446744073709551615',
    '18446744073709551616', '99999999999999999999', '-99999999999999999999', '1' + '0' * 400, '0.' + '1' * 300,
]
GOOD_NUMBERS = [it for it in NUMBERS if it.lstrip('-').isdigit() and it == str(int(it)) and -2 ** 63 <= int(it) < 2 ** 63]
PIECES = [
    b'a', b'text', b' ', b'/', b"'", b'\\"', b'\\\\', b'\\/', b'\\b', b'\\f', b'\\n', b'\\r', b'\\t', b'\\u0000', b'\\u001f', b'\\u001F', b'\\u0020',
    b'\\u0022', b'\\u005c', b'\\u0061', b'\\u007f', b'\x7f', b'\\u0080', b'\\u07ff', b'\\u0800', b'\\u2028', b'\\ud7ff', b'\\ue000', b'\\uffff',
    b'\\ud83d\\ude00', b'\\uD800\\uDC00', b'\\udbff\\udfff', 'é'.encode(), '\u07ff\u0800\uffff'.encode(), '\U00010000\U0010ffff'.encode(),
    'e\u0301'.encode(), b'id', b'{', b'}', b'[', b']', b':', b',', b'0', b'null', b'x' * 15, b'x' * 16, b'x' * 31, b'x' * 64, b'x' * 300,
]
BAD_PIECES = [
    b'\\ud800', b'\\udc00', b'\\ude00\\ud83d', b'\\ud83dx', b'\\ud83d\\n', b'\\ud83d\\u0041', b'\\u12', b'\\u12g4', b'\\x41', b'\\', b'\\U0041', b'\x00',
    b'\x01', b'\x1f', b'\t', b'\r', b'\xff', b'\xc0\x80', b'\xc3', b'\xe2\x82', b'\xed\xa0\x80', b'\xf0\x80\x80\x80', b'\xf4\x90\x80\x80',
    b'\xf5\x80\x80\x80', b'\x80', b'"',
]
NAMES = [
    b'', b'a', b'b', b'c', b'i', b'I', b'ID', b'Id', b'ic', b'id', b'ie', b'id ', b'id\\u0000', b'\\u0069d', b'i\\u0064', b'ida', b'idz', b'hz',
    b'j', b'z', b'0',
    b'-1', b'null', b'\\u0000', b'\\u001f', b'\\n', b'\\"', b'\\\\', b'~', b'\x7f', 'é'.encode(), b'\\u00e9', 'ÿ'.encode(), b'\\uffff', b'\\ud83d\\ude00',
    '\U0010ffff'.encode(), b'n' * 255, b'n' * 256, b'n' * 300,
]
ODD = [b'', b'\r', b'null', b'[]', b'{}', b'"', b'{"op":"collect"}', b'\xef\xbb\xbf{}', b'{"op":"get","id":-1}', b'{"op":"get","id":1.0}']
BLANKS = [b'', b'', b'', b' ', b'\t', b'\r', b'  \t ']


class Hostile:
    """Documents, and lines, that a careful writer would not send. BAD is how often a part is one that no reader takes."""

    def __init__(self, choice, bad):
        self.choice, self.bad = choice, bad

    def blank(self):
        return self.choice.choice(BLANKS)

    def text(self):
        some = [self.choice.choice(PIECES) for _ in range(self.choice.choice([0, 1, 1, 2, 3, 8]))]
        if self.choice.random() < self.bad:
            some.insert(self.choice.randrange(len(some) + 1), self.choice.choice(BAD_PIECES))
        return b'"' + b''.join(some) + b'"'

    def name(self):
        return b'"' + self.choice.choice(NAMES) + b'"' if self.choice.random() < 0.8 else self.text()

    def number(self):
        some = NUMBERS if self.choice.random() < self.bad else GOOD_NUMBERS
        return self.choice.choice(some).encode() if self.choice.random() < 0.7 else str(self.choice.randrange(-2 ** 63, 2 ** 63)).encode()

    def value(self, levels):
        kind = self.choice.randrange(8 if levels else 5)
        if kind == 0:
            return self.choice.choice([b'null', b'true', b'false'])
        if kind < 3:
            return self.number()
        if kind < 5:
            return self.text()
        if kind < 6:
            return self.array(levels - 1)
        return self.object(levels - 1)

    def array(self, levels):
        items = [self.value(levels) for _ in range(self.choice.choice([0, 1, 2, 3, 7]))]
        return b'[' + (self.blank() + b',' + self.blank()).join(items) + b']'

    def members(self, levels):
        some = [(self.name(), self.value(levels)) for _ in range(self.choice.choice([0, 1, 2, 3, 9]))]
        if some and self.choice.random() < 0.3:
            some.append((self.choice.choice(some)[0], self.value(levels)))
        return some

    def object(self, levels, more=()):
        members = [*self.members(levels), *more]
        self.choice.shuffle(members)
        return b'{' + self.blank() + b','.join(name + self.blank() + b':' + self.blank() + value for name, value in members) + self.blank() + b'}'

    def nested(self, levels):
        """So many levels below the document, of arrays and objects in turn or of one of them."""
        kind, inner = self.choice.randrange(3), self.value(0)
        for level in range(levels):
            if kind == 0 or kind == 2 and level % 2:
                inner = b'[' + inner + (b',1' if self.choice.random() < 0.2 else b'') + b']'
            else:
                inner = b'{' + self.name() + b':' + inner + b'}'
        return inner

    def document(self, key):
        more = [(self.choice.choice([b'"id"', b'"id"', b'"\\u0069d"']), str(key).encode())]
        chance = self.choice.random()
        if chance < 0.1:
            more.append((self.name(), self.nested(self.choice.choice([29, 30, 31, 31, 31, 32, 33, 126, 127, 128][:10 if self.bad else 5]))))
        elif chance < 0.15 and self.bad:
            more.append((b'"id"', self.value(1)))
        elif chance < 0.2:
            more += [(f'"w{n:03}"'.encode(), self.value(1)) for n in range(self.choice.choice([30, 70, 300]))]
        return self.object(self.choice.choice([0, 1, 2, 3]), more)

    def line(self, key):
        """A line of an upsert, whose members stand in any order, and which may have others."""
        members = [(b'"op"', b'"upsert"'), (b'"doc"', self.document(key))]
        if self.choice.random() < self.bad:
            members.append(self.choice.choice([(b'"op"', b'"get"'), (b'"op"', b'"upsert"'), (b'"doc"', b'{}'), (b'"x"', b'1'), (b'"id"', b'1')]))
        self.choice.shuffle(members)
        line = self.blank() + b'{' + b','.join(name + b':' + value for name, value in members) + b'}' + self.blank()
        return changed(self.choice, line) if self.choice.random() < self.bad else line


# Names of which many have their first bytes in common, or are the front of another one, or stand beside the key.
ALIKE = [front + back for front in (b'', b'a', b'abcdefg', b'abcdefgh', b'abcdefghi', b'abcdefghabcdefg', b'abcdefghabcdefgh', b'i', b'id')
         for back in (b'', b'a', b'b', b'\x7f', 'é'.encode(), b'\\u0001', b'ab', b'zzzzzzzz')]


class Alike:
    """Documents of which each is the one before with one thing changed: a member more or less, twice, elsewhere, or of another name or value."""

    def __init__(self, choice):
        self.choice, self.members, self.place = choice, [], 0
        for _ in range(choice.choice([0, 1, 4, 12, 40])):
            self.add(self.members, 2)

    def value(self, levels):
        if levels and self.choice.random() < 0.3:
            members = []
            for _ in range(self.choice.choice([0, 1, 5])):
                self.add(members, levels - 1)
            return members
        return self.choice.choice([b'null', b'1', b'"x"', b'[{"abcdefgh":1},{"abcdefgh":2,"abcdefghi":3}]'])

    def add(self, members, levels):
        """A name that is not there yet goes anywhere."""
        some = [name for name in ALIKE if name != b'id' and name not in [it[0] for it in members]]
        if some:
            members.insert(self.choice.randrange(len(members) + 1), [self.choice.choice(some), self.value(levels)])

    def change(self, members, levels):
        inner = [it[1] for it in members if isinstance(it[1], list)]
        if inner and self.choice.random() < 0.4:
            return self.change(self.choice.choice(inner), levels - 1)
        kind, member = self.choice.randrange(5), self.choice.choice(members) if members else None
        if kind == 0 or not members:
            self.add(members, levels)
        elif kind == 1:
            members.remove(member)
        elif kind == 2:
            members.remove(member)
            members.insert(self.choice.randrange(len(members) + 1), member)
        elif kind == 3:
            member[1] = self.value(levels)
        else:
            members.remove(member)
            self.add(members, levels)

    def spelled(self, members):
        return b'{' + b','.join(b'"' + name + b'":' + (self.spelled(it) if isinstance(it, list) else it) for name, it in members) + b'}'

    def line(self, key):
        if self.choice.random() < 0.7:
            self.change(self.members, 2)
        if self.choice.random() < 0.1:
            self.place = self.choice.randrange(len(self.members) + 1)
        members = [*self.members]
        if members and self.choice.random() < 0.1:
            members.insert(self.choice.randrange(len(members) + 1), self.choice.choice(members))
        members.insert(self.place, [b'id', str(key).encode()])
        return b'{"op":"upsert","doc":' + self.spelled(members) + b'}'


def changed(choice, line):
    """The line with a byte taken out, put in, doubled or changed, or cut off."""
    at = choice.randrange(len(line))
    byte = bytes([choice.choice([choice.randrange(256), *b'"{}[],:\\0-e.'])])
    front, here, back = line[:at], line[at:at + 1], line[at + 1:]
    made = choice.choice([front + back, front + byte + here + back, front + here + here + back, front + byte + back, front])
    return made.replace(b'\n', b' ')


def long_line(choice, key):
    """An upsert of a line that is as long as one may be, a byte shorter, or a byte longer."""
    size = LONGEST + choice.choice([-1, 0, 0, 1])
    front, back = f'{{"op":"upsert","doc":{{"id":{key},"v":'.encode(), b'}}'
    kind, room = choice.randrange(5), size - len(front) - len(back)
    if kind == 0:
        inner = b'"' + b'x' * (room - 2) + b'"'
    elif kind == 1:
        inner = b'"' + b'\\n' * ((room - 2) // 2) + b'x' * (room % 2) + b'"'
    elif kind == 2:
        inner = b'[' + b'7,' * ((room - 3) // 2) + b'7' * (1 + (room - 3) % 2) + b']'
    elif kind == 3:
        names = b','.join(f'"m{n % 3000}":{n % 7}'.encode() for n in range(40_000))
        inner = b'{' + names + b'}' + b' ' * (room - 2 - len(names))
    else:
        inner = b'[' + b'"' + b'\\u0001' * ((room - 4) // 6) + b'x' * ((room - 4) % 6) + b'"' + b']'
    return front + inner + back


def path_in(choice, value):
    """A path that reaches something in the value, with what it reaches there."""
    path = []
    while value and isinstance(value, (dict, list)) and choice.random() < 0.8:
        hop = choice.choice(list(value)) if isinstance(value, dict) else choice.randrange(len(value))
        path.append(None if isinstance(value, list) and choice.random() < 0.4 else hop)
        value = value[hop]
    return path, value


def read(line):
    """The document of the line of an upsert, if Python reads it, without its key."""
    try:
        document = json.loads(line)['doc']
        document.pop('id', None)
        json.dumps(document, ensure_ascii=False).encode()
        return document
    except (ValueError, KeyError, TypeError, AttributeError, RecursionError):
        return None


def queries(choice, known, count):
    """Queries and scans, by paths of the documents and by others, with a value or without one."""
    some = [(), ('id',), (None,), (0,), (-1,), ('',), (2 ** 63 - 1,), ('none', None), (None, 'a'), ('a', 'b', 'c')]
    for _ in range(count):
        if known and choice.random() < 0.8:
            path, value = path_in(choice, choice.choice(known))
        else:
            path, value = choice.choice(some), choice.choice([1, 'x', None, {}, [], [1]])
        asked = {'path': list(path)}
        if choice.random() < 0.5:
            asked['eq'] = value
        line = json.dumps({'op': choice.choice(['query', 'query', 'scan']), **asked}, ensure_ascii=choice.random() < 0.5, separators=(',', ':')).encode()
        yield line
        if b'"op":"scan"' in line:
            yield from [b'{"op":"get","id":1}', b'{"op":"scan","path":[]}'][:choice.randrange(3)]
            yield b'{"op":"collect"}'


# A feed, or whatever has lines of its own.
KINDS = [feeds.message, feeds.profile, feeds.changing, feeds.readings, Hostile, Hostile, Hostile, Alike, Alike]


def lines_of(choice, count, kind):
    """The lines of a round: so many upserts of one kind, and what is asked between them. Tells the keys too."""
    known, lines = [], []
    own = Alike(choice) if kind is Alike else Hostile(choice, choice.choice([0, 0.02, 0.2]))
    keys = [choice.choice([choice.randrange(count), choice.randrange(2 ** 63), 0, 2 ** 63 - 1, 2 ** 63]) for _ in range(count // 8)]
    keys += range(count)
    for k in range(1, count + 1):
        key = choice.choice(keys)
        if not isinstance(kind, type):
            line = f'{{"op":"upsert","doc":{kind(choice.randrange(1_000_000), key)}}}'.encode()
        else:
            line = long_line(choice, key) if kind is Hostile and choice.random() < 0.002 else own.line(key)
        lines.append(line)
        document = read(line) if len(line) < 100_000 else None
        if document is not None:
            known.append(document)
        chance = choice.random()
        if chance < 0.3:
            lines.append(f'{{"op":"get","id":{choice.choice(keys)}}}'.encode())
        elif chance < 0.4:
            lines.append(f'{{"op":"delete","id":{choice.choice(keys)}}}'.encode())
        elif chance < 0.43:
            lines += queries(choice, known, 1)
        elif chance < 0.435:
            lines.append(b'{"op":"flush"}')
        elif chance < 0.44:
            lines.append(b'{"op":"schema"}')
        elif chance < 0.46:
            lines.append(choice.choice(ODD))
    return lines, keys, [*queries(choice, known, 40), b'{"op":"query","path":[]}', b'{"op":"schema"}', b'{"op":"scan","path":[]}', b'{"op":"collect"}']


def asked(program, folder, words, lines):
    """What the program answers, what it says, and its status."""
    ran = subprocess.run([program, folder, *words], input=b'\n'.join(lines), capture_output=True, timeout=600)
    return ran.stdout, ran.stderr, ran.returncode


def words_of(choice, number):
    partitions = [1, 2, 4, 16][number % 4]
    return ['run', '--partitions', str(partitions), '--memory', choice.choice(['4096', '4096', '16384', '262144', '16777216']),
            '--merge', choice.choice(['2', '4', '8']), '--limit', choice.choice(['0', '0', '20000']), '--window', choice.choice(['1', '7', '64', '4096'])]


def round_of(programs, choice, number, kind, count, came):
    """How many lines there were, and how many runs differed."""
    lines, keys, asking = lines_of(choice, count, kind)
    words, differ = words_of(choice, number), 0
    gets = [f'{{"op":"get","id":{key}}}'.encode() for key in sorted(set(keys))]
    runs = [[*lines, *asking], [*asking, *gets, *asking[:10]]]
    with tempfile.TemporaryDirectory(dir=os.environ.get('TMPDIR', '/dev/shm')) as folder:
        for run, given in enumerate(runs):
            answers = [asked(program, f'{folder}/{which}', words, given) for which, program in enumerate(programs)]
            for line in answers[0][0].splitlines():
                came[line[:10].decode(errors='replace')] += 1
            came[f'status {answers[0][2]}'] += 1
            if answers[0] != answers[1]:
                differ += 1
                tell(number, run, words, given, answers)
        for which, program in enumerate(programs):
            came[asked(program, f'{folder}/{which}', ['check', *words[1:3]], [])[0][:16].decode()] += 1
    return sum(map(len, runs)), differ


def tell(number, run, words, given, answers):
    """Where the two first differ. The lines stay in a file."""
    print(f'round {number}, run {run}, {" ".join(words)}: status {answers[0][2]} and {answers[1][2]}')
    kept = f'/tmp/replies-{number}-{run}'
    with open(kept, 'wb') as file:
        file.write(b'\n'.join(given))
    replies = [it[0].split(b'\n') for it in answers]
    for place, (one, other) in enumerate(zip(*replies)):
        if one != other:
            print(f'  line {place + 1} of {kept}: {given[place][:300]!r}\n    {one[:300]!r}\n    {other[:300]!r}')
            return
    print(f'  {len(replies[0])} and {len(replies[1])} replies of {kept}; messages {answers[0][1][:300]!r} and {answers[1][1][:300]!r}')


def main():
    programs = [os.path.abspath(it) for it in sys.argv[1:3]]
    documents = int(sys.argv[3]) if len(sys.argv) > 3 else 20_000
    seed = int(sys.argv[4]) if len(sys.argv) > 4 else 39
    came, all_lines, differ = collections.Counter(), 0, 0
    left = documents
    for number in itertools.count():
        if not left:
            break
        kind = KINDS[number % len(KINDS)]
        count = min(left, 50 if kind is feeds.readings else ROUND)
        lines, differs = round_of(programs, random.Random(seed * 1_000_003 + number), number, kind, count, came)
        all_lines, differ, left = all_lines + lines, differ + differs, left - count
        print(f'round {number}: {count} documents, {lines} lines, {differs} differ', flush=True)
    for reply, count in sorted(came.items()):
        print(f'{count:9} {reply}')
    print(f'{documents} documents, {all_lines} lines, {differ} differ')
    sys.exit(1 if differ else 0)


if __name__ == '__main__':
    main()
