"""Times runs of several workers beside a plain program that makes the same system calls: workers.py [FOLDER [PROGRAM]]

The requests are those of `rock bench`, served by `rock bench` itself; the same with each `save` as a `put`, served by
`rock run`; and the same with bodies of 100,000 bytes. `strace` tells once which calls the program makes on each thread.
bench/helpers/plain_workers.c makes these calls in the same order on as many threads, with an MD5 of the URL's key for each
request, and nothing of a store. That it makes them is seen by `strace` too.

Both run by turns, each on a file like the first, with what they read in the page cache and the output thrown away. The
time is that of the whole program. In turns of their own bench/helpers/served_time.c tells how long requests were served, without
the reading of the script and the printing of the answers. Needs strace and a C compiler. The files are made in FOLDER
(default: a new folder under /tmp, removed at the end).
"""
import os
import re
import shutil
import statistics
import struct
import subprocess
import sys
from collections import namedtuple

import run

HERE = run.HERE
HEADER_AREA = 16384
SEED = 7
MOST_LINES = 4096
ROUNDS = 10000
# Of bodies of 100,000 bytes a script may have 671.
LONG = 100000
LONG_LINES = 1600
GETS = 4095
TRACED = "read,write,pread64,pwrite64,fsync,fdatasync,open,openat,ftruncate,stat,newfstatat,statx,fstat,close,clone,clone3"
KINDS = {"pread64": "g", "pwrite64": "p", "fdatasync": "d", "fsync": "y", "ftruncate": "t", "close": "c", "fstat": "f"}

# A request: the worker, the number of the URL, what is asked, the length of the body and its first letter.
Request = namedtuple("Request", "worker url kind length letter")
# A call of a thread: kind, open file, number of bytes, place.
Call = namedtuple("Call", "kind file count at")
# What is timed: its name, how many requests, the words of the program, its script, the file that it begins with, or None.
Case = namedtuple("Case", "name requests words script empty")


def url_of(number):
    return b"http://bench/%d" % number


def anchor_of(url, anchors):
    return sum(struct.unpack("<QQ", run.key_of(url))) % 2**64 % anchors


def requests(workers, rounds, saves=True, length=None):
    """The requests of `bench`, without saves where none are wanted, and with bodies of a length where one is given."""
    anchors = 16 * workers
    urls = [[] for _ in range(workers)]
    for number in range(64 * workers):
        urls[anchor_of(url_of(number), anchors) // 16].append(number)
    drawn = SEED

    def draw():
        nonlocal drawn
        drawn = (drawn * 6364136223846793005 + 1442695040888963407) % 2**64
        return drawn >> 32

    for _ in range(rounds):
        for worker, own in enumerate(urls):
            if own:
                url, kind, body = own[draw() % len(own)], draw() % 8, draw()
                named = ("get", "get", "get", "get", "put", "put", "save" if saves else "put", "purge")[kind]
                yield Request(worker, url, named, body % 1301 if length is None else length, body % 26)


def line_of(asked):
    body = b" #%d:%d" % (asked.length, asked.letter) if asked.kind in ("put", "save") else b""
    return b"%d %s %s%s\n" % (asked.worker + 1, asked.kind.encode(), url_of(asked.url), body)


def steps_of(asked, anchors, slot):
    """For each worker its requests in order: the URL, and the kinds of the calls that it takes on the file."""
    steps, held = {}, {}
    for it in asked:
        url = url_of(it.url)
        anchor = anchor_of(url, anchors)
        calls = ""
        if it.kind == "get" and held.get(anchor, (0, 0))[0] == url:
            calls = "g" * held[anchor][1]
        elif it.kind in ("put", "save"):
            slots = -(-(32 + len(url) + it.length) // (slot - 40))
            held[anchor] = url, slots
            calls = ("p" if it.kind == "put" else "pd") * slots
        elif it.kind == "purge" and held.get(anchor, (0, 0))[0] == url:
            del held[anchor]
        steps.setdefault(it.worker, []).append((it.url, calls))
    return steps


def call_of(made, words, answer, name):
    """A call on the file, on standard input or output, or that starts a thread; None for another."""
    if made in ("clone", "clone3"):
        return Call("T", 0, 0, answer)
    if made in ("open", "openat"):
        if f'"{name}"' not in words or answer < 0:
            return None
        given = words[2] if made == "openat" else words[1]
        return Call("e", answer, 0, 0) if "O_CREAT" in given else Call("o", answer, 0, int("O_RDWR" in given))
    if made in ("stat", "newfstatat", "statx") and f'"{name}"' in words:
        return Call("s", 0, 0, 0)
    if not words[0].isdigit():
        return None
    file = int(words[0])
    if made in ("read", "write"):
        kind = {("read", 0): "r", ("write", 1): "w"}.get((made, file))
        return kind and Call(kind, file, int(words[2]), answer)
    kind = KINDS.get(made, "f")
    count = int(words[2]) if kind in "gp" else 0
    return Call(kind, file, count, int(words[-1]) if kind in "gpt" else 0)


def traced(words, script, name):
    """The calls of each thread in order, those of the first thread first, and of each before those that it starts."""
    log = name + ".calls"
    with open(script or os.devnull, "rb") as given:
        watched = ["strace", "-f", "-s", "0", "-o", log, "-e", "trace=" + TRACED, *words]
        subprocess.run(watched, stdin=given, stdout=subprocess.DEVNULL, check=True)
    threads, begun, files = {}, {}, set()
    for line in open(log):
        thread, text = line.split(maxsplit=1)
        thread = int(thread)
        if "<unfinished" in text:
            begun[thread] = text.split("<unfinished")[0].rstrip()
            continue
        text = re.sub(r"<\.\.\. \w+ resumed>", lambda _: begun.pop(thread), text, count=1)
        made = re.match(r"(\w+)\((.*)\) += (-?\d+)", text)
        call = made and call_of(made[1], re.split(", *", made[2]), int(made[3]), name)
        # Files that are not the store are those of the loader and of the list, and are closed before the store is opened.
        if not call or (call.kind in "gpdyctf" and call.file not in files):
            continue
        if call.kind in "eo":
            files.add(call.file)
        elif call.kind == "c":
            files.remove(call.file)
        threads.setdefault(thread, []).append(call)
    os.remove(log)
    return numbered(threads)


def numbered(threads):
    """The calls of the threads in the order in which they are started, which are told by their numbers in it."""
    order = [next(iter(threads))]
    for thread in order:
        order.extend(call.at for call in threads[thread] if call.kind == "T")
    return [
        [call._replace(at=order.index(call.at)) if call.kind == "T" else call for call in threads[thread]]
        for thread in order
    ]


def with_sums(calls, steps, urls):
    """The calls of a thread while it serves, with an MD5 before those of each request; None where they are others."""
    made, left = [], iter(calls)
    for url, kinds in steps:
        at, length = urls[url]
        made.append(Call("m", 0, length, at))
        for kind in kinds:
            call = next(left, None)
            if call is None or call.kind != kind:
                return None
            made.append(call)
    return made if next(left, None) is None else None


def served_part(calls, is_first):
    """Where the calls of a thread begin in which it serves, and where they end."""
    begin = max((place for place, call in enumerate(calls) if call.kind in "oT"), default=-1) + 1
    while is_first and calls[begin].kind in "sf":
        begin += 1
    end = next(place for place in range(begin, len(calls)) if calls[place].kind == "c") if is_first else len(calls)
    return begin, end


def plan(threads, steps, urls):
    """The calls of all threads, with an MD5 for each request."""
    left, planned = dict(steps), []
    for number, calls in enumerate(threads):
        begin, end = served_part(calls, number == 0)
        own = ((it, with_sums(calls[begin:end], left[it], urls)) for it in left)
        found = next(((it, made) for it, made in own if made is not None), None)
        if found is None:
            sys.exit("the calls of a thread are not those of a worker")
        del left[found[0]]
        joins = [call._replace(kind="J") for call in reversed(calls) if call.kind == "T"]
        planned.append(calls[:begin] + found[1] + joins + calls[end:])
    if left:
        sys.exit("a worker was served by no thread")
    return planned


def write_list(name, threads, steps):
    """The list of the plain program: with the MD5s, and the places of the URLs that these need."""
    numbers = sorted({url for own in steps.values() for url, _ in own})
    count = sum(map(len, threads)) + sum(map(len, steps.values())) + len(threads) - 1
    first = 8 + 16 * len(threads)
    at, urls = first + 16 * count, {}
    for number in numbers:
        urls[number] = at, len(url_of(number))
        at += len(url_of(number))
    planned = plan(threads, steps, urls)
    with open(name, "wb") as file:
        most = max(call.count for calls in planned for call in calls)
        file.write(struct.pack("<Q", max(most, 16)))
        at = first
        for calls in planned:
            file.write(struct.pack("<QQ", at, at + 16 * len(calls)))
            at += 16 * len(calls)
        for calls in planned:
            file.writelines(struct.pack("<HHIQ", ord(it.kind), it.file, it.count, it.at) for it in calls)
        file.writelines(url_of(number) for number in numbers)


def build(folder, name, *flags):
    made = f"{folder}/{name}"
    compiler = [os.environ.get("CC", "cc"), "-O2", *flags, "-o", made, f"{HERE}/helpers/{name}.c"]
    subprocess.run(compiler, check=True)
    return made


def begin_anew(case, name):
    """The file as the program is to find it: none, or the one that it begins with, which is on the disk."""
    if case.empty is None:
        if os.path.exists(name):
            os.remove(name)
        return
    shutil.copyfile(case.empty, name)
    with open(name, "rb") as file:
        os.fsync(file.fileno())


def plain_for(case, asked, anchors, slot, plain, name):
    """The words of the plain program that makes the calls of a case."""
    begin_anew(case, name)
    threads = traced(case.words, case.script, name)
    listed = f"{os.path.dirname(name)}/{case.name.replace(' ', '-')}.list"
    write_list(listed, threads, steps_of(asked, anchors, slot))
    words = [plain, listed, name]
    begin_anew(case, name)
    if traced(words, case.script, name) != threads:
        sys.exit(f"{case.name}: the plain program makes other calls")
    return words


def by_turns(case, others, turns, name, measure=run.measured):
    """What is measured in each turn, of the program and of others. The first turn does not count."""
    taken = [[] for _ in (case.words, *others)]
    for turn in range(turns + 1):
        for words, took in zip((case.words, *others), taken):
            begin_anew(case, name)
            measured = measure(words, case.script or os.devnull)
            if turn > 0:
                took.append(measured)
    return taken


def served(words, script):
    """How many seconds a program served requests; no number where it lets nothing be loaded before it."""
    folder = os.path.dirname(words[2])
    env = {**os.environ, "LD_PRELOAD": f"{folder}/served_time", "SERVED": f"{folder}/served"}
    with open(env["SERVED"], "w") as told:
        told.write("nan")
    with open(script, "rb") as given:
        subprocess.run(words, stdin=given, stdout=subprocess.DEVNULL, env=env, check=True)
    with open(env["SERVED"]) as told:
        return float(told.read())


def told(case, taken, served_taken):
    """Prints the figures of the program and of the plain one, and answers the ratio by the least seconds."""
    rows = []
    for took, serving in zip(taken, served_taken):
        seconds, processor, _ = zip(*took)
        times = [min(seconds), statistics.median(seconds), min(serving), statistics.median(serving)]
        each = [1e6 * it / case.requests for it in (min(processor), statistics.median(processor))]
        rows.append([case.requests / it for it in times] + each)
    ratios = [ours / theirs for ours, theirs in zip(*rows)]
    for name, row, place in (("rock", rows[0], 0), ("plain", rows[1], 0), ("ratio", ratios, 2)):
        told_row(case.name, name, *(f"{it:.{place}f}" for it in row[:4]), *(f"{it:.2f}" for it in row[4:]))
    return ratios[0]


def told_row(*cells):
    """A row of a table, as docs/PERFORMANCE.md has it."""
    print("| " + " | ".join(cells) + " |", flush=True)


def promised(text, holds):
    print(f"{text}: {'kept' if holds else 'NOT KEPT'}", flush=True)


def made_script(folder, name, lines):
    script = f"{folder}/{name.replace(' ', '-')}.script"
    with open(script, "wb") as file:
        file.writelines(lines)
    return script


def made_file(folder, slot, slots):
    empty = f"{folder}/empty-{slot}-{slots}"
    with open(empty, "wb") as file:
        file.write(bytes(HEADER_AREA + slot * slots))
    return empty


def bench_case(folder, rock, name, workers):
    asked = list(requests(workers, ROUNDS))
    words = [rock, "bench", name, str(SEED), str(workers), str(ROUNDS)]
    return Case(f"bench {workers}", len(asked), words, None, None), asked, 512


def run_case(folder, rock, name, workers, saves, length):
    lines, slot, slots = (LONG_LINES, 16384, 128) if length else (MOST_LINES, 512, 64)
    asked = list(requests(workers, lines // workers, saves, length))
    title = f"run {workers}{' long' if length else ''}{'' if saves else ' no saves'}"
    script = made_script(folder, title, map(line_of, asked))
    words = [rock, "run", name, str(slot), str(16 * workers), str(workers)]
    return Case(title, len(asked), words, script, made_file(folder, slot, slots * workers)), asked, slot


def time_case(rock, plain, name, made, workers, turns, least=None):
    case, asked, slot = made
    others = [plain_for(case, asked, 16 * workers, slot, plain, name)]
    taken = by_turns(case, others, turns, name)
    ratio = told(case, taken, by_turns(case, others, turns // 2, name, served))
    if least:
        promised(f"{case.name}: at least {least} of the plain program's requests a second", ratio >= least)


def time_gets(folder, rock, plain, name, length):
    """What a `get` of one slot takes of the processor beside the system call and the MD5.

    A script stores a body once and gets it 4,095 times; another has lines in place of the gets that ask nothing of the
    store. By what the one takes more each get is told, less what the plain program takes more for its reads and MD5s.
    """
    cases, plains = [], []
    url = url_of(1)
    for title, line in (("gets", b"1 get %s\n" % url), ("lines", b"1 close 0\n")):
        asked = [Request(0, 1, "put", length, 0)] + [Request(0, 1, "get", 0, 0)] * (GETS if title == "gets" else 0)
        script = made_script(folder, title, [line_of(asked[0])] + [line] * GETS)
        words = [rock, "run", name, "512", "64", "1"]
        case = Case(title, GETS, words, script, made_file(folder, 512, 64))
        cases.append(case)
        plains.append(plain_for(case, asked, 64, 512, plain, name))
    least = []
    for case, words in zip(cases, plains):
        least.append([min(it for _, it, _ in took) for took in by_turns(case, [words], 41, name)])
    rock_each, plain_each = (1e6 * (gets - lines) / GETS for gets, lines in zip(*least))
    told_row(f"a get, body of {length}", *(f"{it:.2f}" for it in (rock_each, plain_each, rock_each - plain_each)))
    return rock_each - plain_each


def main(folder, rock):
    name, plain = f"{folder}/db", build(folder, "plain_workers", "-pthread")
    build(folder, "served_time", "-shared", "-fPIC")
    head = ("requests a second, most", "median", "served a second, most", "median", "us, least", "median")
    told_row("run", "program", *head)
    for workers in (1, 2, 4):
        time_case(rock, plain, name, bench_case(folder, rock, name, workers), workers, 14, 0.9)
    for workers in (1, 2, 4):
        made = run_case(folder, rock, name, workers, False, None)
        time_case(rock, plain, name, made, workers, 40, 0.6 if workers != 2 else None)
    for saves in (True, False):
        for workers in (1, 2, 4):
            made = run_case(folder, rock, name, workers, saves, LONG)
            time_case(rock, plain, name, made, workers, 6 if saves else 14)
    told_row("us of the processor", "run", "plain", "beside that")
    took = [time_gets(folder, rock, plain, name, length) for length in (1, 430)]
    promised("a get of one slot takes at most 2 us of the processor beside the call and the MD5", max(took) <= 2)


if __name__ == "__main__":
    run.with_program(main, "workers-")
