#!/usr/bin/env python3
"""The bodies that tools/entry.py writes, compared with those that are known of files: entry.py

Files are taken, or made by hand: one entry, chains in any order, several entries of one URL, an entry without a body,
and slots that are nearly entries. Then come changed and random files, whose entries are those of another reading of the
definitions. Each entry is asked for by its slot and by its URL, and slots and URLs that have none are too. Where there is
a program, the one that the variable ROCK names or the one that is built, the tool compares all that it finds with
`rock list`, and entries that a run stored are asked for too; the lines of a stand-in for it are compared in any case.
Then words and files are tried that the tool refuses. It stands outside the gate. Its status is 0 where all is as it
should be.
"""
import os
import random
import subprocess
import sys
import tempfile

sys.dont_write_bytecode = True
import changed_files as reading  # noqa: E402
from made_files import HEADER_AREA, ROCK, ROOT, ROOM, SLOT, end, entry, holds, image, item, key_of  # noqa: E402
from made_files import metadata, module, of_wrong_size, record, write_file  # noqa: E402

TOOL = f"{ROOT}/tools/entry.py"
ONE = f"{ROOT}/crates/rock_main/data/db"
B, C = b"http://a/b", b"http://a/c"


def run_tool(*words, rock=ROCK or "", stdout=subprocess.PIPE):
    """Runs the tool with this program, or with the one that is built."""
    return subprocess.run([TOOL, *words], stdout=stdout, stderr=subprocess.PIPE, env={**os.environ, "ROCK": rock})


def has(name, word, body, slot=str(SLOT)):
    """The entry with a slot's number or a URL is there, with this body."""
    ran = run_tool(name, slot, word)
    holds(f"{word!r} of {name}: {ran}", (ran.returncode, ran.stdout, ran.stderr) == (0, body, b""))


def refused(status, said, *words, **how):
    """Nothing is written, and one line on standard error says why."""
    ran = run_tool(*words, **how)
    is_one_line = ran.stderr.startswith(b"entry.py: ") and ran.stderr.count(b"\n") == 1 and said in ran.stderr
    holds(f"{words} has status {status}: {ran}", ran.returncode == status and not ran.stdout and is_one_line)


def has_not(name, *words):
    for word in words:
        refused(1, b"no complete entry", name, str(SLOT), word)


# Files that are known.
def one_entry():
    has(ONE, "0", b"hello")
    has(ONE, "http://a/b", b"hello")
    has_not(ONE, "1", "http://a/c", "http://a/b/", "-", "99999999999")


def chains(folder):
    """An entry in slots 2, 6 and 0, older ones of its URL in slots 7 and 8, two of one version, and one with no body."""
    name, body = f"{folder}/chains", bytes(index % 251 for index in range(1000))
    images = entry(B, body, 7, [2, 6, 0]) | entry(B, b"old", 2, [7]) | entry(B, b"older", 1, [8])
    images |= entry(C, b"front", 3, [1]) | entry(C, b"behind", 3, [4]) | entry(b"-", b"", 9, [5])
    images[9] = of_wrong_size(b"http://a/d", 4, 9)
    write_file(name, 11, images)
    for word, wanted in {"2": body, "7": b"old", "8": b"older", "1": b"front", "4": b"behind", "5": b""}.items():
        has(name, word, wanted)
    has(name, "http://a/b", body)
    has(name, "http://a/c", b"front")
    has(name, "-", b"")
    has_not(name, "0", "3", "6", "9", "10", "11", "http://a/d")


def newest_behind(folder):
    """The entry of greatest version is not the first one."""
    name = f"{folder}/newest"
    write_file(name, 4, entry(B, b"old", 5, [0]) | entry(B, b"x" * 600, 4294901760, [3, 1]))
    has(name, "http://a/b", b"x" * 600)
    has(name, "0", b"old")


def full_slots(folder):
    """Bodies that end where a slot does, and a byte behind that."""
    name, front = f"{folder}/full", ROOM - len(metadata(item(3, key_of(B)), item(4, B + b"\0")))
    bodies = [b"a" * front, b"b" * (front + 1), b"c" * (front + ROOM), b"d" * (front + ROOM + 1)]
    chains = [[0], [2, 1], [3, 4], [7, 6, 5]]
    images = {}
    for version, (body, chain) in enumerate(zip(bodies, chains), 1):
        images |= entry(B, body, version, chain)
    write_file(name, 8, images)
    for body, chain in zip(bodies, chains):
        has(name, str(chain[0]), body)


def nearly_entries(folder):
    """Slot 0 is an entry with items of a foreign type, and a body behind them. All others are wrong in one way."""
    name, key, url = f"{folder}/nearly", item(3, key_of(B)), item(4, B + b"\0")
    contents = [
        metadata(key, item(9, b""), item(9, b"x"), url) + b"body",
        metadata(key, key, url),
        metadata(url),
        metadata(key),
        metadata(key, item(4, B)),
        metadata(item(3, key_of(C)), url),
        metadata(key, item(4, C + b"\0")),
        metadata(key, url)[:-1],
    ]
    images = {place: image(B, len(content), content, 1, place, -1) for place, content in enumerate(contents)}
    content = metadata(key, url) + b"x" * 600
    images |= {8: image(B, 0, content[:471], 1, 8, 9), 9: image(B, len(content), content[471:], 1, 8, -1)}
    images |= {10: image(B, 0, content[:472], 1, 10, 11), 11: image(B, 0, b"x" * 472, 1, 10, 10)}
    images |= {12: image(B, 0, content[:472], 1, 12, 13), 13: image(B, len(content), content[472:], 2, 12, -1)}
    write_file(name, 14, images)
    has(name, "0", b"body")
    has(name, "http://a/b", b"body")
    has_not(name, *map(str, range(1, 14)), "http://a/c")


def changed_and_random_files(folder):
    """Each entry of another reading is found by its slot and by its URL, with its body, and no other one is."""
    tool, chance, several = module(TOOL), random.Random(1), 0
    files = [*reading.changed_files(), *(reading.random_file(chance) for _ in range(1000))]
    for place, images in enumerate(files):
        several += agree(tool, f"{folder}/{place}", images)
    holds(f"some files have several entries of a URL: {several}", several > 100)


def agree(tool, name, images):
    """Compares all entries of a file, and says of how many URLs it has several."""
    write_file(name, len(images), dict(enumerate(images)))
    headers = [reading.Header(slot, len(images)) for slot in images]
    entries = [found for start in range(len(images)) if (found := reading.entry_at(images, headers, start))]
    contents = [b"".join(images[slot][40 : 40 + headers[slot].size] for slot in entry[5]) for entry in entries]
    bodies = [content[len(content) - entry[4] :] for content, entry in zip(contents, entries)]
    of_urls = {url: [entry for entry in entries if entry[3] == url] for url in {entry[3] for entry in entries}}
    with tool.SlotFile(name, SLOT) as file:
        found = [entry for start in range(len(images)) for entry in tool.found_by(file, str(start))]
        holds(f"the entries of {name}", b"".join(entry.line() for entry in found) == reading.listing(entries))
        holds(f"the bodies of {name}", [b"".join(tool.body_of(file, entry)) for entry in found] == bodies)
        for url, wanted in of_urls.items():
            lines = b"".join(entry.line() for entry in tool.found_by(file, url.decode()))
            holds(f"{url} of {name}", lines == reading.listing(wanted))
    os.remove(name)
    return sum(len(wanted) > 1 for wanted in of_urls.values())


def recorded(folder):
    """The header area tells the size of a slot, to `-` and to a number; and a file that has other slots is refused."""
    name = f"{folder}/recorded"
    write_file(name, 4, entry(B, b"hello", 7, [2]), b"rest")
    refused(2, b"does not record the size of its slots", name, "-", "2")
    record(name, 512, 4)
    for slot in ("-", "512"):
        has(name, "2", b"hello", slot)
        has(name, "http://a/b", b"hello", slot)
    refused(2, b"records slots of 512 bytes, and not of 1024", name, "1024", "2")
    for slot, slots in ((512, 3), (512, 5), (512, 0), (513, 4), (0, 4), (33280, 4)):
        record(name, slot, slots)
        for given in ("-", "512", "1024"):
            refused(2, b"records %d slots of %d bytes, which it has not" % (slots, slot), name, given, "2")


# What the program says.
def stand_in(folder, text, status=0):
    """A program that prints this, whatever it is asked."""
    name = f"{folder}/stand-in"
    with open(name, "w") as file:
        file.write(f"#!/bin/sh\nprintf '{text}'\nexit {status}\n")
    os.chmod(name, 0o755)
    return name


def compared(folder):
    """The lines of the program are compared with what was found, and nothing is written where they differ."""
    line = "ENTRY 0 7 1 5 http://a/b"
    for other in ("ENTRY 1 7 1 5 http://a/c", "ENTRY 10 7 1 5 http://a/b/"):
        ran = run_tool(ONE, str(SLOT), "0", rock=stand_in(folder, f"{line}\\n{other}\\n"))
        holds(f"a listing that has the line: {ran}", (ran.returncode, ran.stdout, ran.stderr) == (0, b"hello", b""))
    for word in ("0", "http://a/b"):
        for text in ("", "ENTRY 0 6 1 5 http://a/b\\n", "ENTRY 0 7 1 4 http://a/b\\n", f"{line}\\n{line}\\n"):
            refused(3, b"rock list", ONE, str(SLOT), word, rock=stand_in(folder, text))
        refused(3, b"ended with status 6", ONE, str(SLOT), word, rock=stand_in(folder, f"{line}\\n", 6))
        refused(3, b"could not be run", ONE, str(SLOT), word, rock=f"{folder}/gone")
    refused(3, b"rock list", ONE, str(SLOT), "1", rock=stand_in(folder, "ENTRY 1 7 1 5 http://a/b\\n"))
    refused(3, b"rock list", ONE, str(SLOT), "http://a/c", rock=stand_in(folder, "ENTRY 1 7 1 5 http://a/c\\n"))


def stored_by_a_run(folder):
    """What a run stored is found, with the bodies of its script; so it is of a file whose name begins with a hyphen."""
    if not ROCK:
        print("SKIPPED: there is no program to store entries")
        return
    name, letters = f"{folder}/run", bytes(0x61 + index % 26 for index in range(100000))
    script = b"1 put http://a/b =hello\n1 put http://a/c #100000:0\n1 put http://a/d -\n1 put http://a/b =again\n"
    rock = os.path.abspath(ROCK)
    subprocess.run([rock, "create", name, "512", "256"], check=True)
    subprocess.run([rock, "run", name, "512", "256", "1"], input=script, check=True, stdout=subprocess.DEVNULL)
    for url, body in {"http://a/b": b"again", "http://a/c": letters, "http://a/d": b""}.items():
        has(name, url, body)
    os.rename(name, f"{folder}/-run")
    ran = subprocess.run([TOOL, "-run", "512", "http://a/b"], cwd=folder, capture_output=True, env={**os.environ, "ROCK": rock})
    holds(f"a name with a hyphen in front: {ran}", (ran.returncode, ran.stdout) == (0, b"again"))


# What is refused.
def refusals(folder):
    short = f"{folder}/short"
    with open(short, "wb") as file:
        file.truncate(HEADER_AREA + SLOT - 1)
    refused(2, b"No such file", f"{folder}/none", "512", "0")
    refused(2, b"no regular file", folder, "512", "0")
    refused(2, b"shorter than the header area and one slot", short, "512", "0")
    refused(2, b"the slot size 500 is no multiple", ONE, "500", "0")
    refused(2, b"0512 is no number", ONE, "0512", "0")
    refused(2, b"00 is no number", ONE, "512", "00")
    with open(short, "wb") as file:
        file.truncate(HEADER_AREA - 1)
    refused(2, b"shorter than the header area", short, "-", "0")
    refused(2, b"-- is no number", ONE, "--", "0")
    for words in ([], [ONE], [ONE, "512"], [ONE, "512", "0", "0"], ["--help", "0"]):
        refused(2, b"--help says more", *words)
    with open("/dev/full", "wb") as full:
        ran = run_tool(ONE, "512", "0", stdout=full)
    holds(f"a full output: {ran}", ran.returncode == 2 and ran.stderr.count(b"\n") == 1)
    ran = run_tool("--help")
    holds("the help tells each status", ran.returncode == 0 and all(f"\n  {n}  ".encode() in ran.stdout for n in range(4)))


def main():
    with tempfile.TemporaryDirectory() as folder:
        one_entry()
        chains(folder)
        newest_behind(folder)
        full_slots(folder)
        nearly_entries(folder)
        recorded(folder)
        changed_and_random_files(folder)
        compared(folder)
        stored_by_a_run(folder)
        refusals(folder)
    end(f"of {'bodies and of lines of the program' if ROCK else 'bodies alone, since the program is not built'}")


main()
