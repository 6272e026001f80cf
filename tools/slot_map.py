#!/usr/bin/env python3
"""Draws the slots of a database file as an SVG on standard output.

    tools/slot_map.py --anchors 64 cache.db 16384 >map.svg

Each slot is a cell, and each complete entry has a colour. In a browser, point at a cell to read what it holds and to
see the chain of its entry. A file of more than 4,096 slots is drawn by averages, one cell for a run of slots.

The line above the map is the one that `rock check FILE SLOT N` prints. Below it stands how many complete entries there
are, which is how many lines `rock list FILE SLOT` prints.

The file is read by tools/slot_file.py. This is no part of what is proved. It changes no file, reads no byte of
a file twice, and keeps about 100 bytes of each slot at most. Its status is 0, or 1 with one line on standard error.
"""
import argparse
import colorsys
import html
import struct
import sys
from array import array

sys.dont_write_bytecode = True
from slot_file import NO_SLOT, Refused, SlotFile, decimal, readable, slot_size  # noqa: E402

# A file of more slots than this is drawn by averages.
MOST_CELLS = 4096

# What a slot is. `rock check` counts the kept ones as used, and all others as free.
BLANK, DAMAGED, NOT_KEPT, KEPT = range(4)
WORDS = {KEPT: "kept", NOT_KEPT: "not kept", DAMAGED: "damaged", BLANK: "blank"}
MEANINGS = {
    KEPT: "used, by entries that a store with so many anchors keeps",
    NOT_KEPT: "free, in complete entries that give way to another one at their anchor",
    DAMAGED: "free, with a sane header, but part of no complete entry (or left of an older one)",
    BLANK: "free, without a sane header",
}
COLOURS = {BLANK: (0.91, 0.91, 0.91), DAMAGED: (0.2, 0.2, 0.2), NOT_KEPT: (0.98, 0.78, 0.4), KEPT: (0.12, 0.42, 0.75)}


# Reading the file.
class Slots:
    """What the headers of a file say: a column for each field. A slot without a sane header has version 0."""

    def __init__(self, count, slot, room):
        self.count, self.slot, self.room = count, slot, room
        self.keys = bytearray(16 * count)
        self.entry_sizes = array("Q", [0]) * count
        self.payload_sizes = array("I", [0]) * count
        self.versions = array("I", [0]) * count
        self.firsts = array("i", [0]) * count
        self.nexts = array("i", [0]) * count
        # Whether the slot begins an entry by its own header and metadata.
        self.begins = bytearray(count)
        # The names of these, where each slot has a cell to tell them.
        self.names = {}

    def key(self, number):
        return bytes(self.keys[16 * number : 16 * number + 16])

    def belongs(self, number, start):
        """Whether a slot belongs to another one, which is sane."""
        return (
            self.versions[number] == self.versions[start]
            and self.firsts[number] == start
            and self.key(number) == self.key(start)
        )


def read_file(name, slot):
    """Reads the header of each slot, and the payload of each slot that may begin an entry."""
    with SlotFile(name, slot) as file:
        slots = Slots(file.count, file.slot, file.room)
        for number in range(slots.count):
            read_slot(file, slots, number)
    return slots


def read_slot(file, slots, number):
    """Puts what one slot says into the columns, where its header is sane."""
    header = file.header(number)
    if header is None:
        return
    slots.keys[16 * number : 16 * number + 16] = header.key
    slots.entry_sizes[number] = header.entry_size
    slots.payload_sizes[number] = header.size
    slots.versions[number] = header.version
    slots.firsts[number] = header.first
    slots.nexts[number] = header.following
    name = file.name_at(number, header)
    if name is not None:
        slots.begins[number] = 1
        if slots.count <= MOST_CELLS:
            slots.names[number] = name


# What the slots are.
class Chains:
    """The chains of the complete entries: of each slot the entry's first slot and its own place in the chain.

    At an entry's first slot stands how many slots the entry has, and elsewhere 0.
    """

    def __init__(self, slots):
        self.firsts = array("i", [NO_SLOT]) * slots.count
        self.places = array("I", [0]) * slots.count
        self.lengths = array("I", [0]) * slots.count
        visited = bytearray(slots.count)
        for start in range(slots.count):
            if slots.begins[start]:
                self.put(chain_at(slots, start, visited))

    def put(self, chain):
        if chain:
            self.lengths[chain[0]] = len(chain)
        for place, number in enumerate(chain):
            self.firsts[number] = chain[0]
            self.places[number] = place

    def entries(self):
        """The first slots of all complete entries, in order."""
        return (number for number, length in enumerate(self.lengths) if length)


def chain_at(slots, start, visited):
    """The chain of the complete entry at a slot that begins one, or no slot where the entry is not complete.

    A slot belongs to one other at most, so one that was visited already was visited from this same start.
    """
    chain, whole, at = [], 0, start
    while slots.belongs(at, start) and not visited[at]:
        visited[at] = 1
        chain.append(at)
        whole += slots.payload_sizes[at]
        if slots.nexts[at] == NO_SLOT:
            return chain if slots.entry_sizes[at] == whole else []
        if slots.payload_sizes[at] != slots.room:
            return []
        at = slots.nexts[at]
    return []


def anchor_of(key, anchors):
    front, back = struct.unpack("<QQ", key)
    return (front + back) % 2**64 % anchors


def winners(slots, chains, anchors):
    """At each anchor the first slot of the entry that a rebuild keeps there, or NO_SLOT."""
    best = array("i", [NO_SLOT]) * anchors
    for first in chains.entries():
        anchor = anchor_of(slots.key(first), anchors)
        if best[anchor] == NO_SLOT or slots.versions[best[anchor]] < slots.versions[first]:
            best[anchor] = first
    return best


class Map:
    """All that is drawn: the slots, their chains, what each slot is, and the numbers of it all."""

    def __init__(self, name, anchors, slots):
        self.name, self.anchors, self.slots = name, anchors, slots
        self.chains = Chains(slots)
        best = winners(slots, self.chains, anchors)
        is_kept = bytearray(slots.count)
        for first in best:
            if first != NO_SLOT:
                is_kept[first] = 1
        self.kinds = bytearray(self.kind_of(number, is_kept) for number in range(slots.count))
        self.kept = sum(is_kept)
        self.entries = sum(1 for _ in self.chains.entries())

    def kind_of(self, number, is_kept):
        first = self.chains.firsts[number]
        if first != NO_SLOT:
            return KEPT if is_kept[first] else NOT_KEPT
        return DAMAGED if self.slots.versions[number] else BLANK

    def check_line(self):
        """The line of `rock check`."""
        used = self.kinds.count(KEPT)
        numbers = (self.slots.count, self.kept, used, self.slots.count - used, max(self.slots.versions))
        return "slots=%d kept=%d used=%d free=%d version=%d" % numbers


# Drawing. Colours and places are attributes, so that a viewer that reads no style sheet draws the same cells.
STEP, CELL = 14, 12
LEFT, TOP, LINE = 70, 196, 20
LEAST_WIDTH = 800
MOST_LETTERS = 80
STYLE = """
.entry circle, .entry polyline { pointer-events: none }
.entry:hover rect { stroke: #000; stroke-width: 2 }
.entry:hover polyline { visibility: visible }
.entries:hover .entry:not(:hover) { opacity: 0.3 }
"""


def run_of(count):
    """How many slots a cell stands for: the least power of two that leaves no more cells than there may be."""
    run = 1
    while count > run * MOST_CELLS:
        run *= 2
    return run


def columns_of(cells):
    return 16 if cells <= 256 else 32 if cells <= 1024 else 64


def hexadecimal(colour):
    return "#" + "".join("%02x" % round(255 * part) for part in colour)


def colour_of(index):
    """The colour of an entry by its index: hues that follow each other are far apart, and none of them is grey."""
    return hexadecimal(colorsys.hls_to_rgb(index * 0.618034 % 1, (0.45, 0.58, 0.7)[index % 3], 0.7))


def text(x, y, content, mark=""):
    return f'<text x="{x}" y="{y}"{mark}>{html.escape(content)}</text>'


def cell(x, y, mark, title=""):
    """A cell at its place, with attributes for its looks and a title that is read by pointing at it."""
    inner = f"<title>{html.escape(title)}</title>" if title else ""
    return f'<rect x="{x}" y="{y}" width="{CELL}" height="{CELL}"{mark}>{inner}</rect>'


def looks(kind, colour):
    """The attributes of a cell in the colour of its entry, which is pale where the entry is not kept."""
    return f' fill="{colour}" stroke="{colour}" fill-opacity="{0.25 if kind == NOT_KEPT else 1}"'


def plain(kind):
    """The attributes of a cell in the colour of its kind."""
    return f' fill="{hexadecimal(COLOURS[kind])}"'


class Grid:
    """Where each cell stands."""

    def __init__(self, cells):
        self.cells, self.columns = cells, columns_of(cells)

    def at(self, number):
        return LEFT + number % self.columns * STEP, TOP + number // self.columns * STEP

    def middle(self, number):
        x, y = self.at(number)
        return x + CELL // 2, y + CELL // 2

    def size(self):
        rows = (self.cells + self.columns - 1) // self.columns
        return max(LEAST_WIDTH, LEFT + self.columns * STEP + STEP), TOP + rows * STEP + 2 * LINE

    def labels(self, run):
        """The number of the first slot of each row."""
        for number in range(0, self.cells, self.columns):
            x, y = self.at(number)
            yield text(x - 6, y + CELL - 2, str(number * run), ' text-anchor="end" font-size="10" fill="#777"')


def describe_slot(drawn, number):
    """What a cell tells of a slot, but for its entry."""
    slots, chains, kind = drawn.slots, drawn.chains, drawn.kinds[number]
    if kind == BLANK:
        return f"slot {number}: blank"
    following = "no next slot" if slots.nexts[number] == NO_SLOT else f"next slot {slots.nexts[number]}"
    if kind == DAMAGED:
        header = f"version {slots.versions[number]}, first slot {slots.firsts[number]}, {following}"
        return f"slot {number}: damaged, part of no complete entry\n{header}"
    length = chains.lengths[chains.firsts[number]]
    return f"slot {number}: place {chains.places[number] + 1} of {length}, {following}"


def describe_entry(drawn, chain):
    """What each cell of an entry tells of the entry."""
    slots, first = drawn.slots, chain[0]
    kept = "kept" if drawn.kinds[first] == KEPT else "not kept"
    anchor = anchor_of(slots.key(first), drawn.anchors)
    name = slots.names[first]
    body = slots.entry_sizes[chain[-1]] - name.length
    entry = f"entry at slot {first}, version {slots.versions[first]}, {kept} at anchor {anchor}"
    return f"{entry}\n{body} bytes of body\n{name.url.decode('ascii')}"


def chain_of(drawn, first):
    """The chain of a complete entry."""
    chain = [first]
    while drawn.slots.nexts[chain[-1]] != NO_SLOT:
        chain.append(drawn.slots.nexts[chain[-1]])
    return chain


def draw_slots(drawn, grid):
    """A cell for each slot. The cells of an entry are a group, which has its chain as a line from first to last."""
    for number, kind in enumerate(drawn.kinds):
        if kind in (BLANK, DAMAGED):
            yield cell(*grid.at(number), plain(kind), describe_slot(drawn, number))
    yield '<g class="entries">'
    for index, first in enumerate(drawn.chains.entries()):
        yield from draw_entry(drawn, grid, chain_of(drawn, first), colour_of(index))
    yield "</g>"


def draw_entry(drawn, grid, chain, colour):
    """The group of one entry. A dot is on its first slot, and the line is seen while one points at the entry."""
    entry = describe_entry(drawn, chain)
    yield f'<g class="entry" id="entry-{chain[0]}">'
    for number in chain:
        title = f"{describe_slot(drawn, number)}\n{entry}"
        yield cell(*grid.at(number), looks(drawn.kinds[number], colour), title)
    points = " ".join("%d,%d" % grid.middle(number) for number in chain)
    yield f'<polyline points="{points}" fill="none" stroke="#000" stroke-width="2" visibility="hidden"/>'
    yield '<circle cx="%d" cy="%d" r="2" fill="#fff" stroke="#222"/>' % grid.middle(chain[0])
    yield "</g>"


def draw_averages(drawn, grid, run):
    """A cell for each run of slots, in the average of their colours, with a dark border where a slot is damaged."""
    for number in range(grid.cells):
        front, behind = number * run, min((number + 1) * run, drawn.slots.count)
        counts = {kind: drawn.kinds.count(kind, front, behind) for kind in WORDS}
        colour = average(counts)
        border = hexadecimal(COLOURS[DAMAGED]) if counts[DAMAGED] else colour
        told = ", ".join(f"{counts[kind]} {word}" for kind, word in WORDS.items())
        mark = f' class="run" fill="{colour}" stroke="{border}"'
        yield cell(*grid.at(number), mark, f"slots {front} to {behind - 1}: {told}")


def average(counts):
    """The average colour of so many slots of each kind."""
    parts = [sum(count * COLOURS[kind][part] for kind, count in counts.items()) for part in range(3)]
    return hexadecimal([part / sum(counts.values()) for part in parts])


def draw_legend(drawn, run):
    """The numbers of the file, and what the colours mean."""
    yield text(LEFT, 26, f"Slots of {shortened(readable(drawn.name))}", ' font-weight="bold" id="name"')
    scale = "one cell a slot, one colour an entry, pale where it is not kept, a dot on its first slot"
    if run > 1:
        scale = f"one cell for {run} slots, in the average of their colours, with a dark border where one is damaged"
    yield text(LEFT, 46, f"slot size {drawn.slots.slot}, anchors {drawn.anchors}; {scale}")
    yield text(LEFT, 68, drawn.check_line(), ' font-family="monospace" id="check"')
    yield text(LEFT, 88, f"complete entries: {drawn.entries}", ' font-family="monospace" id="list"')
    for place, (kind, meaning) in enumerate(MEANINGS.items()):
        y = 102 + LINE * place
        yield cell(LEFT, y, looks(kind, colour_of(0)) if run == 1 and kind in (KEPT, NOT_KEPT) else plain(kind))
        yield text(LEFT + 22, y + 10, f"{drawn.kinds.count(kind)} {WORDS[kind]}: {meaning}", f' id="kind-{kind}"')


def shortened(name):
    """A name, without its front where it is too long for the least width."""
    return name if len(name) <= MOST_LETTERS else "..." + name[3 - MOST_LETTERS :]


def draw(drawn):
    """The lines of the SVG."""
    run = run_of(drawn.slots.count)
    grid = Grid((drawn.slots.count + run - 1) // run)
    width, height = grid.size()
    font = 'font-family="sans-serif" font-size="13" fill="#222"'
    yield f'<svg xmlns="http://www.w3.org/2000/svg" width="{width}" height="{height}" {font}>'
    yield f"<style>{STYLE}</style>"
    yield f'<rect width="{width}" height="{height}" fill="#fff"/>'
    yield from draw_legend(drawn, run)
    yield from grid.labels(run)
    yield from draw_slots(drawn, grid) if run == 1 else draw_averages(drawn, grid, run)
    yield text(LEFT, height - LINE // 2, "Drawn by tools/slot_map.py, which is no part of what is proved.")
    yield "</svg>"


# The command line.
class Parser(argparse.ArgumentParser):
    """A parser that refuses in one line."""

    def error(self, message):
        raise Refused(message)


def read_words():
    parser = Parser(prog="slot_map.py", allow_abbrev=False, description="Draws the slots of a database file as an SVG.")
    parser.add_argument("file", metavar="FILE", help="the database file")
    parser.add_argument("slot", metavar="SLOT", type=slot_size, help="bytes a slot, or - where the header area records them")
    parser.add_argument("--anchors", metavar="N", type=decimal, default=1, help="anchors of the store (default: 1)")
    return parser.parse_args()


def map_of(asked):
    """The map of a file, or why there is none."""
    slots = read_file(asked.file, asked.slot)
    if not 1 <= asked.anchors <= slots.count:
        raise Refused(f"the number of anchors {asked.anchors} is not from 1 to {slots.count}, the number of slots")
    return Map(asked.file, asked.anchors, slots)


def write(lines):
    """Writes the lines to standard output, which may be closed or full."""
    with open(1, "wb", closefd=False) as output:
        for line in lines:
            output.write(line.encode("utf-8", "replace") + b"\n")


def main():
    try:
        write(draw(map_of(read_words())))
    except (Refused, OSError) as cause:
        sys.exit(f"slot_map.py: {readable(str(cause))}")


if __name__ == "__main__":
    main()
