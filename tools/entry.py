#!/usr/bin/env python3
"""Writes the body of one complete entry of a database file to standard output.

    tools/entry.py FILE SLOT SLOT-NUMBER
    tools/entry.py FILE SLOT URL
    tools/entry.py --help

FILE is the database file and SLOT the bytes of a slot, or - where the header area records them, as for
`rock list FILE SLOT`. A word of digits alone is the number of the entry's first slot, with which its line begins there.
Any other word is a URL. Of several entries with this URL the one of greatest version is written, and of those with that
version the one that begins at the least slot.

The entry is found by docs/FORMATS.md alone. Where there is a program, the one that the variable ROCK names or the one that
is built, the entries with this number or URL are compared with the lines of `rock list` first. This is no part of what is
proved, and changes no file.

Exit status:
  0  the body was written
  1  there is no such complete entry
  2  the words are wrong, the file can't be read, or standard output did not take the body
  3  `rock list` has other lines, or failed; nothing was written
At any but 0 one line on standard error says why, at 3 behind what `rock list` said itself.
"""
import os
import subprocess
import sys
from typing import NamedTuple

sys.dont_write_bytecode = True
from slot_file import NO_SLOT, Refused, SlotFile, decimal, key_of, readable, slot_size  # noqa: E402

ROOT = os.path.dirname(os.path.dirname(os.path.realpath(__file__)))
BUILT = f"{ROOT}/crates/rock_main/out/rock_main"
NONE, WRONG, DIFFERENT = 1, 2, 3


class Ended(Exception):
    """A status, and why, in words for the user."""

    def __init__(self, status, why):
        super().__init__(why)
        self.status = status


class Entry(NamedTuple):
    """A complete entry: its chain with the header of each slot, its URL, and how many bytes of metadata it has."""

    chain: list
    url: bytes
    metadata: int

    def version(self):
        return self.chain[0][1].version

    def length(self):
        return sum(header.size for _, header in self.chain) - self.metadata

    def line(self):
        """The line of `rock list`."""
        numbers = (self.chain[0][0], self.version(), len(self.chain), self.length())
        return b"ENTRY %d %d %d %d %s\n" % (*numbers, self.url)


# Finding the entry.
def chain_at(file, start, head):
    """The chain at a slot, each slot with its header, or None where there is none."""
    chain, visited, number = [], set(), start
    while number != NO_SLOT:
        header = file.header(number)
        if header is None or number in visited:
            return None
        if (header.key, header.version, header.first) != (head.key, head.version, start):
            return None
        visited.add(number)
        chain.append((number, header))
        number = header.following
    return chain


def entry_at(file, start):
    """The complete entry that begins at a slot, or None."""
    head = file.header(start)
    name = head and file.name_at(start, head)
    chain = name and chain_at(file, start, head)
    if not chain or any(header.size != file.room for _, header in chain[:-1]):
        return None
    if chain[-1][1].entry_size != sum(header.size for _, header in chain):
        return None
    return Entry(chain, name.url, name.length)


def starts(file, key):
    """The slots with a key, at which its entries begin."""
    for number in range(file.count):
        header = file.header(number)
        if header is not None and header.key == key:
            yield number


def is_number(word):
    return word.isascii() and word.isdigit()


def found_by(file, word):
    """The complete entries with a number or a URL, in order of first slot."""
    if is_number(word):
        number = decimal(word)
        numbers = [number] if number < file.count else []
    else:
        numbers = starts(file, key_of(os.fsencode(word)))
    entries = [entry for number in numbers if (entry := entry_at(file, number))]
    # Two URLs may have one key.
    return [entry for entry in entries if is_number(word) or entry.url == os.fsencode(word)]


# What `rock list` says.
def listed_by(program, name, given, word):
    """The lines of `rock list` with a number or a URL."""
    slot = "-" if given is None else str(given)
    field = 1 if is_number(word) else 5
    file = f"./{name}" if name.startswith("-") else name
    try:
        with subprocess.Popen([program, "list", file, slot], stdout=subprocess.PIPE) as ran:
            lines = [line for line in ran.stdout if line.split()[field : field + 1] == [os.fsencode(word)]]
    except OSError as cause:
        raise Ended(DIFFERENT, f"rock list could not be run: {cause}") from cause
    if ran.returncode:
        raise Ended(DIFFERENT, f"rock list ended with status {ran.returncode}")
    return lines


def compare(entries, name, slot, word):
    """Compares what was found with what the program lists, where there is one."""
    program = os.environ.get("ROCK") or (BUILT if os.path.exists(BUILT) else None)
    if program is None:
        return
    found, listed = [entry.line() for entry in entries], listed_by(program, name, slot, word)
    if found != listed:
        raise Ended(DIFFERENT, f"rock list has other lines of {word}: {len(listed)}, where {len(found)} entries were found")


# Writing the body.
def body_of(file, entry):
    """The body, slot by slot."""
    front = entry.metadata
    for number, header in entry.chain:
        yield file.payload(number, header)[front:]
        front = 0


def write_entry(name, slot, word):
    with SlotFile(name, slot) as file:
        entries = found_by(file, word)
        compare(entries, name, slot, word)
        if not entries:
            raise Ended(NONE, f"{name} has no complete entry {'at slot' if is_number(word) else 'of'} {word}")
        with open(1, "wb", closefd=False) as output:
            # Of the first one of the greatest version.
            output.writelines(body_of(file, max(entries, key=Entry.version)))


def main():
    words = sys.argv[1:]
    if words == ["--help"]:
        print(__doc__.strip())
        return
    try:
        if len(words) != 3:
            raise Refused("the words are FILE, SLOT, and a slot's number or a URL; --help says more")
        write_entry(words[0], slot_size(words[1]), words[2])
    except (Ended, Refused, OSError, UnicodeError) as cause:
        print(f"entry.py: {readable(str(cause))}", file=sys.stderr)
        sys.exit(cause.status if isinstance(cause, Ended) else WRONG)


if __name__ == "__main__":
    main()
