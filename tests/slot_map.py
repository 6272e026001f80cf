#!/usr/bin/env python3
"""The numbers that tools/slot_map.py draws, compared with those that are known of files: slot_map.py

Files are made, or taken, of which the numbers are known: one entry, entries with chains beside damaged and blank
slots, slots that are nearly entries, many slots, and the greatest file. Of each the map's legend, its cells and their
titles are compared with what is known. Where there is a program, the one that the variable ROCK names or the one that
is built, the line of `rock check` and the lines of `rock list` are compared too. Then the numbers of changed and random
files are compared with those of another reading of the definitions, and words and files are tried that the tool
refuses. It stands outside the gate. Its status is 0 where all is
as it should be.
"""
import argparse
import os
import random
import resource
import subprocess
import sys
import tempfile
import xml.etree.ElementTree as ElementTree

sys.dont_write_bytecode = True
from made_files import HEADER_AREA, ROCK, ROOM, ROOT, SLOT, anchor_of, end, entry, holds, image, item  # noqa: E402
from made_files import key_of, metadata, module, of_wrong_size, record, write_file  # noqa: E402

TOOL = f"{ROOT}/tools/slot_map.py"
SVG = "{http://www.w3.org/2000/svg}"
MOST_SLOTS = 1048576
B, C = b"http://a/b", b"http://a/c"


# The reader of maps.
def run_tool(*words):
    return subprocess.run([TOOL, *words], capture_output=True)


def map_of(name, anchors):
    ran = run_tool("--anchors", str(anchors), name, str(SLOT))
    holds(f"a map of {name} has status 0, and nothing on standard error", ran.returncode == 0 and not ran.stderr)
    return ElementTree.fromstring(ran.stdout)


def told(svg, mark):
    """The text of the legend that has a mark."""
    return svg.find(f".//{SVG}text[@id='{mark}']").text


def titles(element):
    return [title.text for title in element.iter(f"{SVG}title")]


def compare(name, anchors, check, entries, kinds):
    """Compares a map with the line of `rock check`, the number of entries and the counts of slots of each kind."""
    row = f"{os.path.basename(name)} by {anchors} anchors"
    svg = map_of(name, anchors)
    holds(f"{row}: {told(svg, 'check')}", told(svg, "check") == check)
    holds(f"{row}: {told(svg, 'list')}", told(svg, "list") == f"complete entries: {entries}")
    counts = [int(told(svg, f"kind-{kind}").split()[0]) for kind in (3, 2, 1, 0)]
    holds(f"{row}: kept, not kept, damaged and blank are {counts}", counts == kinds)
    if ROCK:
        holds(f"{row}: rock check", rock("check", name, str(SLOT), str(anchors)) == check + "\n")
        holds(f"{row}: rock list", rock("list", name, str(SLOT)).count("\n") == entries)
    return svg


def rock(*words):
    return subprocess.run([ROCK, *words], capture_output=True, check=True, text=True).stdout


# The files.
def one_entry():
    name = f"{ROOT}/crates/rock_main/data/db"
    svg = compare(name, 1, "slots=1 kept=1 used=1 free=0 version=7", 1, [1, 0, 0, 0])
    lines = ["slot 0: place 1 of 1, no next slot", "entry at slot 0, version 7, kept at anchor 0"]
    holds("the title of one entry", titles(svg) == ["\n".join([*lines, "5 bytes of body", "http://a/b"])])


def chains_and_damage(folder):
    """An entry in slots 2, 6 and 0, one in slot 1, an older one in slot 7, and slots of none.

    Slot 3 was never written, and slot 4 has a payload that is too long. Slot 5 begins an entry that goes on in slot
    0, which belongs to another.
    """
    name = f"{folder}/chains"
    images = entry(B, b"x" * 1000, 7, [2, 6, 0]) | entry(C, b"y", 3, [1]) | entry(B, b"z", 2, [7])
    images |= {4: image(C, 473, b"w" * 473, 4, 4, -1)[:SLOT], 5: image(C, 0, b"v" * ROOM, 9, 5, 0)}
    write_file(name, 8, images)
    # By one anchor all three have the same. By eight the two URLs have anchors 1 and 2.
    compare(name, 1, "slots=8 kept=1 used=3 free=5 version=9", 3, [3, 2, 1, 2])
    svg = compare(name, 8, "slots=8 kept=2 used=4 free=4 version=9", 3, [4, 1, 1, 2])
    chain = svg.find(f".//{SVG}g[@id='entry-2']")
    kept = "entry at slot 2, version 7, kept at anchor 1\n1000 bytes of body\nhttp://a/b"
    holds(
        "the titles of a chain, in its order",
        titles(chain)
        == [
            f"slot 2: place 1 of 3, next slot 6\n{kept}",
            f"slot 6: place 2 of 3, next slot 0\n{kept}",
            f"slot 0: place 3 of 3, no next slot\n{kept}",
        ],
    )
    holds("the line of a chain", chain.find(f"{SVG}polyline").get("points") == middles(chain))
    rest = titles(svg)
    holds("an entry that is not kept", any("slot 7," in title and "not kept at anchor 1" in title for title in rest))
    damaged = "slot 5: damaged, part of no complete entry\nversion 9, first slot 5, next slot 0"
    holds("slots of no entry", {damaged, "slot 3: blank", "slot 4: blank"} <= set(rest) and len(rest) == 8)
    colours = {group.find(f"{SVG}rect").get("fill") for group in svg.iter(f"{SVG}g") if group.get("id")}
    holds("each entry has a colour of its own", len(colours) == 3)


def middles(group):
    """The middles of the cells of a group, as the points of a line."""
    cells = [{side: int(cell.get(side)) for side in ("x", "y", "width", "height")} for cell in group.iter(f"{SVG}rect")]
    return " ".join(f"{cell['x'] + cell['width'] // 2},{cell['y'] + cell['height'] // 2}" for cell in cells)


def long_name(folder):
    """Of a name that is too long for the width of a map its end is drawn."""
    name = f"{folder}/{'/'.join(['long'] * 20)}/db"
    os.makedirs(os.path.dirname(name))
    write_file(name, 1, {})
    drawn = told(compare(name, 1, "slots=1 kept=0 used=0 free=1 version=0", 0, [0, 0, 0, 1]), "name")
    holds(f"the end of a long name: {drawn}", drawn == "Slots of ..." + name[-77:])


def nearly_entries(folder):
    """Slot 0 is an entry with items of a foreign type. All others are damaged, each entry in one way."""
    name, key, url = f"{folder}/nearly", item(3, key_of(B)), item(4, B + b"\0")
    contents = [
        metadata(key, item(9, b""), item(9, b"x"), url),
        metadata(key, key, url),
        metadata(key, url, url),
        metadata(url),
        metadata(key),
        metadata(key, item(4, B)),
        metadata(key, item(4, b"")),
        metadata(item(3, key_of(C)), url),
        metadata(key, item(4, C + b"\0")),
        metadata(key, url)[:-1],
        metadata(key, url, b"\x09"),
    ]
    images = {place: image(B, len(content), content, 1, place, -1) for place, content in enumerate(contents)}
    spaced = b"http://a/ "
    images[11] = image(spaced, 42, metadata(item(3, key_of(spaced)), item(4, spaced + b"\0")), 1, 11, -1)
    # The first payload of a chain does not fill its slot, a chain comes back to its first slot, and one goes on in
    # a slot of another version.
    content = metadata(key, url) + b"x" * 600
    images |= {12: image(B, 0, content[:471], 1, 12, 13), 13: image(B, len(content), content[471:], 1, 12, -1)}
    images |= {14: image(B, 0, content[:472], 1, 14, 15), 15: image(B, 0, b"x" * 472, 1, 14, 14)}
    images |= {16: image(B, 0, content[:472], 1, 16, 17), 17: image(B, len(content), content[472:], 2, 16, -1)}
    write_file(name, 18, images)
    compare(name, 18, "slots=18 kept=1 used=1 free=17 version=2", 1, [1, 0, 17, 0])


def many_slots(folder):
    """Of each ten slots three are an entry, one is an entry and one is damaged. The last 4,000 slots are blank."""
    name, images, versions = f"{folder}/many", {}, {}
    for ten in range(1600):
        long, short, at = b"http://long/%d" % ten, b"http://short/%d" % ten, 10 * ten
        images |= entry(long, b"x" * 1200, 2 * ten + 1, [at + 2, at, at + 1])
        images |= entry(short, b"x", 2 * ten + 2, [at + 3]) | {at + 4: of_wrong_size(long, 1, at + 4)}
        versions |= {long: (2 * ten + 1, 3), short: (2 * ten + 2, 1)}
    write_file(name, 20000, images)
    for anchors in (1, 20000):
        best = {}
        for url, found in versions.items():
            anchor = anchor_of(url, anchors)
            best[anchor] = max(best.get(anchor, found), found)
        used = sum(slots for _, slots in best.values())
        check = f"slots=20000 kept={len(best)} used={used} free={20000 - used} version=3200"
        kinds = [used, 6400 - used, 1600, 12000]
        averages(compare(name, anchors, check, 3200, kinds), kinds, 20000, 8)


def averages(svg, kinds, count, run):
    """Whether the cells of a map by averages stand for all slots, a run each, and for so many of each kind."""
    cells = [cell for cell in svg.iter(f"{SVG}rect") if cell.get("class") == "run"]
    holds("as many cells as runs, and some thousands at most", len(cells) == -(-count // run) <= 4096)
    sums, expected = [0, 0, 0, 0], 0
    for cell in cells:
        slots, counts = titles(cell)[0].split(": ")
        front, behind = int(slots.split()[1]), int(slots.split()[3]) + 1
        counts = [int(part.split()[0]) for part in counts.split(", ")]
        length = min(run, count - front)
        holds(f"the run at slot {front}", front == expected and behind - front == sum(counts) == length)
        holds(f"the border at slot {front}", (cell.get("stroke") == "#333333") == (counts[2] > 0))
        sums, expected = [a + b for a, b in zip(sums, counts)], behind
    holds("the runs are all slots", sums == kinds and expected == count)
    holds("blank slots have their colour", cells[-1].get("fill") == "#e8e8e8" != cells[0].get("fill"))


def greatest_file(folder):
    """An entry at both ends of as many slots as there may be, and behind them a slot and a rest that are ignored."""
    name, last = f"{folder}/greatest", MOST_SLOTS - 1
    images = entry(B, b"x" * 1000, 5, [last, 0, 1]) | entry(C, b"y", 4, [2])
    images[MOST_SLOTS] = entry(C, b"z", 6, [MOST_SLOTS])[MOST_SLOTS]
    write_file(name, MOST_SLOTS + 1, images, b"rest")
    check = f"slots={MOST_SLOTS} kept=2 used=4 free={MOST_SLOTS - 4} version=5"
    kinds = [4, 0, 0, MOST_SLOTS - 4]
    before = resource.getrusage(resource.RUSAGE_CHILDREN).ru_maxrss
    svg = compare(name, 8, check, 2, kinds)
    after = resource.getrusage(resource.RUSAGE_CHILDREN).ru_maxrss
    holds(f"the greatest file takes at most 256 MiB: {before} and {after} KiB", after <= max(before, 256 * 1024))
    cells = [cell for cell in svg.iter(f"{SVG}rect") if cell.get("class") == "run"]
    ends = [titles(cells[0])[0], titles(cells[-1])[0]]
    front = "slots 0 to 255: 3 kept, 0 not kept, 0 damaged, 253 blank"
    back = f"slots {last - 255} to {last}: 1 kept, 0 not kept, 0 damaged, 255 blank"
    holds("the ends of the greatest file", ends == [front, back])


def recorded(folder):
    """A file that records its slots has the same map by `-` as by their size."""
    name = f"{folder}/recorded"
    write_file(name, 4, entry(B, b"x" * 1000, 7, [2, 0, 3]))
    record(name, 512, 4)
    compare(name, 2, "slots=4 kept=1 used=3 free=1 version=7", 1, [3, 0, 0, 1])
    maps = [run_tool("--anchors", "2", name, slot) for slot in ("-", "512")]
    holds(f"the map by -: {maps[0].stderr}", maps[0].returncode == 0 and maps[0].stdout == maps[1].stdout)
    return name


def refusals(folder):
    """Each is one line on standard error, nothing on standard output, and status 1."""
    one, short = f"{ROOT}/crates/rock_main/data/db", f"{folder}/short"
    with open(short, "wb") as file:
        file.truncate(HEADER_AREA + SLOT - 1)
    rows = [
        ([f"{folder}/none", "512"], b"No such file"),
        ([folder, "512"], b"no regular file"),
        ([short, "512"], b"shorter than the header area and one slot"),
        ([one, "500"], b"the slot size 500 is no multiple of 512 from 512 to 32768"),
        ([one, "0512"], b"0512 is no number"),
        ([one, "-"], b"does not record the size of its slots"),
        ([recorded(folder), "1024"], b"records slots of 512 bytes, and not of 1024"),
        ([one], b"SLOT"),
        ([one, "512", "1"], b"unrecognized"),
        ([one, "512", "--anchors", "0"], b"the number of anchors 0 is not from 1 to 1"),
        ([one, "512", "--anchors", "2"], b"the number of anchors 2 is not from 1 to 1"),
    ]
    for words, said in rows:
        ran = run_tool(*words)
        is_one_line = ran.stderr.startswith(b"slot_map.py: ") and ran.stderr.count(b"\n") == 1 and said in ran.stderr
        holds(f"{words} is refused: {ran.stderr}", ran.returncode == 1 and not ran.stdout and is_one_line)
    with open("/dev/full", "wb") as full:
        ran = subprocess.run([TOOL, one, "512"], stdout=full, stderr=subprocess.PIPE)
    holds("a full output", ran.returncode == 1 and ran.stderr.count(b"\n") == 1)


def changed_and_random_files(folder):
    """Files of tests/changed_files.py, whose numbers are those of the reading that stands there."""
    reading, tool = module(f"{ROOT}/tests/changed_files.py"), module(TOOL)
    chance, name = random.Random(1), f"{folder}/changed"
    files = [*reading.changed_files(), *(reading.random_file(chance) for _ in range(1000))]
    for place, images in enumerate(files):
        write_file(name, len(images), dict(enumerate(images)))
        headers = [reading.Header(slot, len(images)) for slot in images]
        entries = [found for start in range(len(images)) if (found := reading.entry_at(images, headers, start))]
        for anchors in {1, len(images)}:
            drawn = tool.map_of(argparse.Namespace(file=name, slot=SLOT, anchors=anchors))
            check = reading.summary(images, headers, entries, anchors).decode().rstrip("\n")
            agrees = (drawn.check_line(), drawn.entries) == (check, len(entries))
            holds(f"changed or random file {place} by {anchors} anchors", agrees)


def main():
    with tempfile.TemporaryDirectory() as folder:
        one_entry()
        chains_and_damage(folder)
        long_name(folder)
        nearly_entries(folder)
        many_slots(folder)
        greatest_file(folder)
        changed_and_random_files(folder)
        refusals(folder)
    end(f"with known numbers {'and with the program' if ROCK else 'alone, since the program is not built'}")


main()
