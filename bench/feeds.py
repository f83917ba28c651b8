"""The inputs of the benchmark, one command a line. Integers only, and the same bytes in every run."""

import json
import random


def message(k, key):
    """A message as an application sends it: about 175 bytes with its command."""
    tags = [[], ["t1"], ["t1", "t2"]][k % 3]
    fields = [
        f'"id":{key}',
        f'"text":"message {k}: the text of a message as a user sends it, of a common length"',
        f'"user":{{"id":{k % 7},"name":"user {k % 7}"}}',
        '"tags":[' + ",".join(f'"{tag}"' for tag in tags) + "]",
    ]
    if k % 15 == 0:
        fields.append(f'"reply_to":{k - 1}')
    elif k % 5 == 0:
        fields.append(f'"reply_to":"m{k - 1}"')
    return "{" + ",".join(fields) + "}"


def readings(k, key):
    """A sensor's document: a hundred nested readings, about 6 KB."""
    rows = ",".join(f'{{"at":{k * 100 + i},"value":{(k * 31 + i * 17) % 1000},"unit":"kelvin","ok":true}}' for i in range(100))
    return f'{{"id":{key},"sensor":"s{k % 50}","readings":[{rows}]}}'


def profile(k, key):
    """A user's profile: thirty fields, about 1 KB."""
    words = {
        "name": f"user {k}", "login": f"user{k}", "mail": f"user{k}@mail.example", "phone": "+44 20 7946 0018",
        "street": "12 Long Acre", "city": "London", "country": "United Kingdom", "language": "en", "zone": "Europe/London",
        "company": "Example and Sons", "role": "engineer", "site": f"https://www.example/user{k}",
        "about": "Writes programs, reads proofs, and walks in the hills when the weather allows it. Has kept the same garden for "
        "twelve years and knows each of its trees by name. Answers letters on Sundays, mostly in the order in which they came, "
        "and is glad of a postcard from anywhere with a lighthouse.",
        "picture": f"https://pictures.example/users/{k}/portraits/large.png", "theme": "dark and quiet", "plan": "yearly",
    }
    numbers = {
        "born": 1975 + k % 30, "joined": 1_700_000_000 + k, "seen": 1_760_000_000 + k, "followers": k * 31 % 10_000,
        "following": k * 17 % 1_000, "posts": k % 5_000, "likes": k * 7 % 100_000, "level": k % 60,
    }
    switches = {"active": True, "verified": k % 2 == 0, "newsletter": False, "private": k % 3 == 0}
    languages = {"speaks": ["en", "fr", "de"]}
    return json.dumps({"id": key, **words, **numbers, **switches, **languages}, separators=(",", ":"))


# values of a field that is of another kind from write to write, some of them nested
VALUES = ["null", "true", "7", '"x"', "[]", "{}", '[1,"y",{"c":null}]', '{"d":{"e":[2]}}', "[[],[[3]]]", '[{"c":1,"d":{}},{"d":[]}]']


def changing(number, key):
    """A document with fields whose kinds, and one whose name, follow the number."""
    first, second, third = (VALUES[number // divisor % 10] for divisor in (1, 10, 100))
    return f'{{"id":{key},"a":{first},"b":[{second}],"n{number % 8}":{third}}}'


def churn(count, live=1000):
    """Writes over few keys: three upserts for each delete, so that most of them replace or take out a document."""
    numbers = random.Random(75)
    for _ in range(count):
        key = numbers.randrange(live)
        if numbers.randrange(4) == 0:
            yield f'{{"op":"delete","id":{key}}}\n'
        else:
            yield f'{{"op":"upsert","doc":{changing(numbers.randrange(1_000_000), key)}}}\n'


def keys(count, order):
    """Keys from 1 to count, ascending or in a random order that is always the same."""
    numbers = list(range(1, count + 1))
    if order == "random":
        random.Random(75).shuffle(numbers)
    return numbers


def upserts(count, order, document):
    for k, key in enumerate(keys(count, order), 1):
        yield f'{{"op":"upsert","doc":{document(k, key)}}}\n'


def schemas(count):
    for _ in range(count):
        yield '{"op":"schema"}\n'


def gets(count, order):
    return gets_of(keys(count, order))


def gets_of(numbers):
    for key in numbers:
        yield f'{{"op":"get","id":{key}}}\n'


def living(lines):
    """The keys of the documents that are there behind these lines, in a random order that is always the same."""
    numbers = set()
    for line in map(json.loads, lines):
        if line["op"] == "upsert":
            numbers.add(line["doc"]["id"])
        else:
            numbers.discard(line["id"])
    return random.Random(75).sample(sorted(numbers), len(numbers))


def queries(count, path, equal_to=None):
    """The same query, so many times."""
    asked = {"op": "query", "path": path} if equal_to is None else {"op": "query", "path": path, "eq": equal_to}
    for _ in range(count):
        yield json.dumps(asked, separators=(",", ":")) + "\n"
