#!/usr/bin/env python3
"""Simulates flushes and merges, and prints how many bytes merges rewrite for each byte that is ingested. No store is run.

    bench/policies.py                                        the default words, and others
    bench/policies.py [--memory N] [--merge K] [--limit N]   these words

All writes are of new keys, so that a component has the bytes of all tables in it, and a merge rewrites each byte that it
reads. A merge takes no time: it ends before the next flush. The words are those of docs/commands.md, and a run is picked
as `Policy::pick` of tc_list does.
"""

import argparse

MIB = 1 << 20
STORES = (60_000_000, 200_000_000, 600_000_000, 2_000_000_000, 6_000_000_000)
MEMORY, MERGE, LIMIT = 262_144, 4, 0
# each option with its least and its greatest value, and its default
OPTIONS = (("--memory", 4_096, 16 * MIB, MEMORY), ("--merge", 2, 8, MERGE), ("--limit", 0, 1 << 40, LIMIT))
WORDS = (
    (MEMORY, MERGE, LIMIT),
    (MEMORY, 8, LIMIT),
    (MEMORY, 8, 16 * MIB),
    (16 * MIB, MERGE, LIMIT),
    (16 * MIB, 8, LIMIT),
    (16 * MIB, 8, 64 * MIB),
    (16 * MIB, 8, 256 * MIB),
    (16 * MIB, 8, 1024 * MIB),
)


def longest_within(sizes, limit):
    """Where the longest suffix of two or more begins that has at most so many bytes, or None."""
    first, together = len(sizes), 0
    while first > 0 and together + sizes[first - 1] <= limit:
        first -= 1
        together += sizes[first]
    return first if len(sizes) - first >= 2 else None


def pick(sizes, k, limit):
    """Where the run begins that is merged, which ends with the newest, or None. A limit of 0 is the constant policy."""
    if len(sizes) < max(k, 2):
        return None
    return (longest_within(sizes, limit) or 0) if limit else 0


def rewritten(memory, k, limit, stores):
    """The bytes that merges rewrite for each byte ingested, by the sizes of the store, which ascend."""
    sizes, ingested, merged, shares = [], 0, 0, []
    for store in stores:
        while ingested + memory <= store:
            ingested += memory
            sizes.append(memory)
            while (first := pick(sizes, k, limit)) is not None:
                together = sum(sizes[first:])
                merged += together
                sizes[first:] = [together]
        shares.append(merged / ingested if ingested else 0.0)
    return shares


def shown(share):
    """Two digits, or all that stand before the point."""
    return f"{share:,.0f}" if share >= 10 else f"{share:.1f}"


def named(size):
    return f"{size / 1e9:g} GB" if size >= 1e9 else f"{size / 1e6:g} MB"


def written(words):
    """The words, without those that are the defaults."""
    own = [f"{name} {number}" for (name, _, _, default), number in zip(OPTIONS, words) if number != default]
    return f"`{' '.join(own)}`" if own else "the defaults"


def row(words):
    return f"| {written(words)} | " + " | ".join(shown(it) for it in rewritten(*words, STORES)) + " |"


def given():
    """The words of the command line, or none."""
    parser = argparse.ArgumentParser(description=__doc__, formatter_class=argparse.RawDescriptionHelpFormatter)
    for name, _, _, _ in OPTIONS:
        parser.add_argument(name, type=int)
    numbers = list(vars(parser.parse_args()).values())
    if all(it is None for it in numbers):
        return None
    words = tuple(default if it is None else it for it, (_, _, _, default) in zip(numbers, OPTIONS))
    for (name, least, most, _), number in zip(OPTIONS, words):
        if not least <= number <= most:
            parser.error(f"{name} is from {least} to {most}")
    return words


def main():
    words = given()
    print("| words | " + " | ".join(named(it) for it in STORES) + " |")
    print("|---|" + "--:|" * len(STORES))
    for it in [words] if words else WORDS:
        print(row(it))


main()
