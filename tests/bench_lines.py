#!/usr/bin/env python3
"""The lines of benchmarks that tests and documents have, compared with those of a plain store: bench_lines.py [SEED WORKERS COUNT]

The script of a benchmark is made here anew, from crates/workload/README.md, and served by the plain store of
tests/plain_runs.py: no two workers of a benchmark share an anchor, so each has a store of its own. Compared are the
lines in test_program, in tests/real_files.sh and in docs/OPERATING.md, but those of runs in which a call of the disk
fails: they have other answers. With three numbers the line of that benchmark is printed. This stands outside the gate.
Its status is 0 where all agree.
"""
import collections
import re
import sys

sys.dont_write_bytecode = True
from changed_files import ROOT, anchor_of, key_of  # noqa: E402
from plain_runs import Body, Store  # noqa: E402

KINDS = "HIT MISS STORED PURGED NONE".split()


def url_of(number):
    return b"http://bench/%d" % number


def shares_of(workers):
    """The workers that have a URL, each with the numbers of its URLs."""
    homes = [1 + anchor_of(key_of(url_of(number)), 16 * workers) // 16 for number in range(64 * workers)]
    shares = [(worker, [number for number, home in enumerate(homes) if home == worker]) for worker in range(1, workers + 1)]
    return [(worker, urls) for worker, urls in shares if urls]


def drawn(number):
    """The upper halves of the numbers behind this one."""
    while True:
        number = (number * 6364136223846793005 + 1442695040888963407) % 2**64
        yield number >> 32


def lines_of(seed, workers, count):
    """The lines of a benchmark: the worker, and the words behind it."""
    numbers, shares = drawn(seed), shares_of(workers)
    for worker, urls in shares * count:
        first, second, third = (next(numbers) for _ in range(3))
        name = ["get", "get", "get", "get", "put", "put", "save", "purge"][second % 8]
        body = [Body(f"#{third % 1301}:{third % 26}")] if name in ("put", "save") else []
        yield worker, [name, url_of(urls[first % len(urls)]), *body]


def line_of(seed, workers, count):
    """The line of a benchmark."""
    empty = [bytes(512)] * (64 * workers)
    stores = {worker: Store(empty, 16 * workers, collections.Counter()) for worker in range(1, workers + 1)}
    kinds, given = collections.Counter(), 0
    for worker, words in lines_of(seed, workers, count):
        kind, *rest = stores[worker].serve(words).split()
        kinds[kind] += 1
        given += int(rest[1]) if kind == "HIT" else 0
    told = [kinds[kind] for kind in KINDS]
    requests = sum(kinds.values())
    names = "requests hits misses stored purged none other bytes".split()
    return " ".join(f"{name}={n}" for name, n in zip(names, [requests, *told, requests - sum(told), given]))


def read(name):
    with open(f"{ROOT}/{name}", encoding="utf-8") as file:
        return file.read()


def told():
    """The benchmarks that tests and documents have, with their lines: of each file some."""
    stories = r"\nbench db (\d+) (\d+) (\d+)\n(?:<.*\n)?> bench (.* other=0 .*)\n"
    rows = re.sub(r"\n *counts='(requests.*)'\n *benched \"\$counts\"", r"\n benched '\1'", read("tests/real_files.sh"))
    found = {
        "test_program": re.findall(stories, read("crates/test_program/src/tests/benching.rt")),
        "OPERATING.md": re.findall(r"\$ rock bench \S+ (\d+) (\d+) (\d+)\n *bench (.*)\n", read("docs/OPERATING.md")),
        "real_files.sh": [(*row[1:], row[0]) for row in re.findall(r"benched '(.*)' (\d+) (\d+) (\d+)\n", rows)],
    }
    for name, lines in found.items():
        if not lines:
            sys.exit(f"FAILED: {name} has no line of a benchmark")
    return sorted({(tuple(map(int, numbers)), line) for lines in found.values() for *numbers, line in lines})


def main():
    if len(sys.argv) == 4:
        print("bench", line_of(*map(int, sys.argv[1:])))
        return
    wrong = 0
    for numbers, line in told():
        if (wanted := line_of(*numbers)) != line:
            wrong += 1
            print(f"FAILED: bench {numbers} prints {wanted}, and not {line}")
    print(f"{len(told())} lines of benchmarks, {wrong} of them wrong")
    sys.exit(1 if wrong else 0)


if __name__ == "__main__":
    main()
