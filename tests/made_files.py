"""What the tests of the tools share: files made by hand, with slots of 512 bytes; the program; and how a test is judged."""
import hashlib
import importlib.util
import os
import struct
import sys

ROOT = os.path.dirname(os.path.dirname(os.path.abspath(__file__)))
HEADER_AREA, SLOT, ROOM = 16384, 512, 472

# The program that the variable ROCK names; or ./rock where it is built, which builds it anew where it is out of date; or none.
IS_BUILT = os.path.exists(f"{ROOT}/crates/rock_main/out/rock_main")
ROCK = os.environ.get("ROCK") or (f"{ROOT}/rock" if IS_BUILT else None)

failed = []


def holds(what, is_so):
    if not is_so:
        failed.append(what)
        print(f"FAILED: {what}")


def end(what):
    """Says how many comparisons failed, and ends with the status."""
    print(f"{len(failed)} comparisons failed, {what}")
    sys.exit(1 if failed else 0)


def module(path):
    """A program of this repository as a module."""
    sys.path.insert(0, os.path.dirname(path))
    found = importlib.util.spec_from_file_location(os.path.basename(path).removesuffix(".py"), path)
    made = importlib.util.module_from_spec(found)
    found.loader.exec_module(made)
    return made


# The writer of files.
def key_of(url):
    return hashlib.md5(b"\x01" + url).digest()


def anchor_of(url, anchors):
    return sum(struct.unpack("<QQ", key_of(url))) % 2**64 % anchors


def image(url, entry_size, payload, version, first, following):
    head = key_of(url) + struct.pack("<QIIii", entry_size, len(payload), version, first, following)
    return (head + payload).ljust(SLOT, b"\0")


def item(kind, value):
    return bytes([kind]) + struct.pack("<I", len(value)) + value


def metadata(*items):
    joined = b"".join(items)
    return b"\x03" + struct.pack("<I", 5 + len(joined)) + joined


def entry(url, body, version, chain):
    """The slots of an entry by their numbers."""
    content = metadata(item(3, key_of(url)), item(4, url + b"\0")) + body
    made = {}
    for place, number in enumerate(chain):
        is_last = place + 1 == len(chain)
        payload = content[place * ROOM :] if is_last else content[place * ROOM : (place + 1) * ROOM]
        following = -1 if is_last else chain[place + 1]
        made[number] = image(url, len(content) if is_last else 0, payload, version, chain[0], following)
    return made


def of_wrong_size(url, version, number):
    """The slot of an entry that would be complete, were its size not one more."""
    made = bytearray(entry(url, b"x", version, [number])[number])
    made[16] += 1
    return bytes(made)


def write_file(name, count, images, rest=b""):
    """A file of so many slots, of which those without an image are gaps."""
    with open(name, "wb") as file:
        file.truncate(HEADER_AREA + count * SLOT)
        for number, made in images.items():
            file.seek(HEADER_AREA + number * SLOT)
            file.write(made)
        file.seek(0, os.SEEK_END)
        file.write(rest)


def record(name, slot, slots):
    """Makes the header area of a file one that records these numbers."""
    with open(name, "r+b") as file:
        file.write(b"RockSMP2" + struct.pack("<II", slot, slots))
