"""A database file as docs/FORMATS.md says it, for the tools that read one: its slots, their headers and their metadata.

This is a reading of its own. It is no part of what is proved, and changes no file.
"""
import hashlib
import os
import stat
import struct
from typing import NamedTuple

HEADER_AREA = 16384
MOST_SLOTS = 1048576
GREATEST_VERSION = 4294901760
LONGEST_URL = 2048
HEADER = struct.Struct("<16sQIIii")
RECORD, MARK = struct.Struct("<8sII"), b"RockSMP2"
NO_SLOT = -1


class Refused(Exception):
    """Why a tool gives no answer, in words for the user."""


class Header(NamedTuple):
    """The header of a slot."""

    key: bytes
    entry_size: int
    size: int
    version: int
    first: int
    following: int


class Name(NamedTuple):
    """What the metadata of an entry says, and how many bytes it has."""

    key: bytes
    url: bytes
    length: int


class SlotFile:
    """A file that is open for reading, and its slots. Their size is given, or None where the header area is to tell it."""

    def __init__(self, name, given):
        status = os.stat(name)
        if not stat.S_ISREG(status.st_mode):
            raise Refused(f"{name} is no regular file")
        if status.st_size < HEADER_AREA:
            raise Refused(f"{name} is shorter than the header area")
        self.name, self.file = name, open(name, "rb", buffering=0)
        try:
            slot = found_size(name, os.pread(self.file.fileno(), RECORD.size, 0), status.st_size, given)
            if status.st_size < HEADER_AREA + slot:
                raise Refused(f"{name} is shorter than the header area and one slot")
        except Refused:
            self.file.close()
            raise
        self.slot, self.room = slot, slot - HEADER.size
        self.count = slots_of(status.st_size, slot)

    def __enter__(self):
        return self

    def __exit__(self, *cause):
        self.file.close()

    def header(self, number):
        """The header of a slot, or None where it is not sane."""
        header = Header._make(HEADER.unpack(self.read(number, 0, HEADER.size)))
        if not (0 <= header.first < self.count and NO_SLOT <= header.following < self.count):
            return None
        if not (1 <= header.version <= GREATEST_VERSION and 1 <= header.size <= self.room):
            return None
        return header

    def payload(self, number, header):
        return self.read(number, HEADER.size, header.size)

    def name_at(self, number, header):
        """The name of the entry that begins at a slot, by the slot's own header and metadata, or None."""
        if header.first != number:
            return None
        name = read_name(self.payload(number, header))
        return name if name is not None and is_named(header.key, name) else None

    def read(self, number, place, count):
        found = os.pread(self.file.fileno(), count, HEADER_AREA + number * self.slot + place)
        if len(found) < count:
            raise Refused(f"{self.name} was cut short while it was read")
        return found


# The size of a slot.
def may_be_size(slot):
    return slot % 512 == 0 and 512 <= slot <= 32768


def slots_of(size, slot):
    """How many slots a file of so many bytes has."""
    return min((size - HEADER_AREA) // slot, MOST_SLOTS)


def found_size(name, front, size, given):
    """The size that the front of a header area records, where it fits the file; or where it records none, the given one."""
    mark, slot, slots = RECORD.unpack(front)
    if mark != MARK:
        if given is None:
            raise Refused(f"{name} does not record the size of its slots; give it as a number")
        return given
    if not may_be_size(slot) or slots < 1 or slots != slots_of(size, slot):
        raise Refused(f"{name} records {slots} slots of {slot} bytes, which it has not")
    if given not in (None, slot):
        raise Refused(f"{name} records slots of {slot} bytes, and not of {given}")
    return slot


def read_name(payload):
    """The name in the metadata at the front of a payload, or None where that is no metadata."""
    if len(payload) < 5 or payload[0] != 3:
        return None
    (whole,) = struct.unpack_from("<I", payload, 1)
    if not 5 <= whole <= len(payload):
        return None
    values = read_items(payload[5:whole])
    if values is None or len(values.get(3, b"")) != 16 or values.get(4, b"")[-1:] != b"\0":
        return None
    return Name(values[3], values[4][:-1], whole)


def read_items(items):
    """The values of types 3 and 4, or None where an item is cut or one of these types comes twice."""
    values, at = {}, 0
    while at < len(items):
        if len(items) - at < 5:
            return None
        kind, size = struct.unpack_from("<BI", items, at)
        value = items[at + 5 : at + 5 + size]
        if len(value) < size or kind in values:
            return None
        if kind in (3, 4):
            values[kind] = value
        at += 5 + size
    return values


def is_url(url):
    return 1 <= len(url) <= LONGEST_URL and all(0x21 <= byte <= 0x7E for byte in url)


def key_of(url):
    return hashlib.md5(b"\x01" + url).digest()


def is_named(key, name):
    """Whether a name goes with the key of its header: by the same key, which is that of a URL as may be."""
    return is_url(name.url) and name.key == key == key_of(name.url)


# What tools are given, and what they say.
def decimal(word):
    """A number as Rock reads it: digits, with no sign and no leading zero."""
    if not (word.isascii() and word.isdigit()) or (word[0] == "0" and word != "0"):
        raise Refused(f"{word} is no number")
    return int(word)


def slot_size(word):
    """The size of a slot that is given, or None for `-`."""
    if word == "-":
        return None
    slot = decimal(word)
    if not may_be_size(slot):
        raise Refused(f"the slot size {slot} is no multiple of 512 from 512 to 32768")
    return slot


def readable(content):
    """A text without what may not stand in a line or in XML."""
    return "".join(letter if letter.isprintable() else "?" for letter in content)
