#!/usr/bin/env python3
"""Reports of files whose bytes were changed, compared with a reading of their own: changed_files.py [SEED]

Files of four slots are made, among them one for each byte of headers and metadata that is changed, and of each
the output of `rock list` and of `rock check` with 1 and 4 anchors is compared with what the definitions of
docs/FORMATS.md give, worked out here from the bytes, slot by slot. Then random files of up to 24 slots are
compared so. The program was proved to print what the definitions say; this shows that both readings of them
agree. It stands outside the gate. ROCK is the path of a program that is built; without it the program is built first
where it is out of date. Its status is 0 where all agree.
"""
import hashlib
import os
import random
import struct
import subprocess
import sys
import tempfile

ROOT = os.path.dirname(os.path.dirname(os.path.abspath(__file__)))
ROCK = os.environ.get("ROCK") or f"{ROOT}/crates/rock_main/out/rock_main"
HEADER_AREA, SLOT, GREATEST_VERSION = 16384, 512, 4294901760
URLS = [b"http://a/b", b"http://a/c", b"http://a/ ", b"http://host.example/long/" + b"x" * 200]


def key_of(url):
    return hashlib.md5(b"\x01" + url).digest()


def meta(url, key):
    items = b"\x03\x10\0\0\0" + key + b"\x04" + struct.pack("<I", len(url) + 1) + url + b"\0"
    return b"\x03" + struct.pack("<I", 5 + len(items)) + items


def image(key, entry_size, payload_size, version, first, following, payload):
    head = key + struct.pack("<QIIii", entry_size, payload_size, version, first, following)
    return (head + payload).ljust(SLOT, b"\0")[:SLOT]


def four_slots():
    """One entry in slots 2 and 0, one in slot 1, and a slot that was never written."""
    b, c = key_of(URLS[0]), key_of(URLS[1])
    front, alone = meta(URLS[0], b), meta(URLS[1], c) + b"hello"
    return [
        image(b, 477, 5, 7, 2, -1, b""),
        image(c, len(alone), len(alone), 3, 1, -1, alone),
        image(b, 0, 472, 7, 2, 0, front),
        bytes(SLOT),
    ]


# What the definitions say, worked out anew.
class Header:
    def __init__(self, bytes_of_slot, slots):
        self.key = bytes_of_slot[:16]
        self.entry_size, self.size, self.version, self.first, self.next = struct.unpack("<QIIii", bytes_of_slot[16:40])
        self.is_sane = (
            0 <= self.first < slots
            and -1 <= self.next < slots
            and 1 <= self.version <= GREATEST_VERSION
            and 1 <= self.size <= SLOT - 40
        )


def meta_of(payload):
    """The key, the URL and the length of the metadata in front of a payload, or None."""
    if len(payload) < 5 or payload[0] != 3:
        return None
    length = struct.unpack("<I", payload[1:5])[0]
    if not 5 <= length <= len(payload):
        return None
    at, found = 5, {}
    while at < length:
        if length - at < 5:
            return None
        kind, size = payload[at], struct.unpack("<I", payload[at + 1 : at + 5])[0]
        value = payload[at + 5 : at + 5 + size]
        if at + 5 + size > length or (kind in (3, 4) and kind in found):
            return None
        found[kind] = value
        at += 5 + size
    key, url = found.get(3), found.get(4)
    if key is None or url is None or len(key) != 16 or not url or url[-1] != 0:
        return None
    return key, url[:-1], length


def is_url(url):
    return 1 <= len(url) <= 2048 and all(33 <= byte <= 126 for byte in url)


def entry_at(images, headers, start):
    """First slot, version, key, URL, length of the body and chain of the complete entry at a slot, or None."""
    head = headers[start]
    chain, at = [], start
    while True:
        slot = headers[at]
        same = slot.key == head.key and slot.version == head.version and slot.first == start
        if not slot.is_sane or not same or at in chain:
            return None
        chain.append(at)
        if slot.next == -1:
            break
        if slot.size != SLOT - 40:
            return None
        at = slot.next
    whole = sum(headers[s].size for s in chain)
    told = meta_of(images[start][40 : 40 + head.size])
    if headers[chain[-1]].entry_size != whole or told is None:
        return None
    key, url, length = told
    if key != head.key or key != key_of(url) or not is_url(url):
        return None
    return start, head.version, key, url, whole - length, chain


def anchor_of(key, anchors):
    front, back = struct.unpack("<QQ", key)
    return (front + back) % 2**64 % anchors


def listing(entries):
    return b"".join(b"ENTRY %d %d %d %d %s\n" % (e[0], e[1], len(e[5]), e[4], e[3]) for e in entries)


def summary(images, headers, entries, anchors):
    kept = {}
    for entry in entries:
        anchor = anchor_of(entry[2], anchors)
        if anchor not in kept or kept[anchor][1] < entry[1]:
            kept[anchor] = entry
    used = sum(len(entry[5]) for entry in kept.values())
    greatest = max((header.version for header in headers if header.is_sane), default=0)
    numbers = (len(images), len(kept), used, len(images) - used, greatest)
    return b"slots=%d kept=%d used=%d free=%d version=%d\n" % numbers


def build():
    """Builds the program, where none is named."""
    if not os.environ.get("ROCK"):
        subprocess.run([f"{ROOT}/rock", "--version"], check=True, stdout=subprocess.DEVNULL)


def printed(*words):
    return subprocess.run([ROCK, *words], capture_output=True, check=True).stdout


def agrees(name, images):
    with open(name, "wb") as file:
        file.write(bytes(HEADER_AREA) + b"".join(images))
    headers = [Header(slot, len(images)) for slot in images]
    entries = [e for s in range(len(images)) if (e := entry_at(images, headers, s))]
    if printed("list", name, str(SLOT)) != listing(entries):
        return False
    counts = {1, len(images)}
    return all(printed("check", name, str(SLOT), str(n)) == summary(images, headers, entries, n) for n in counts)


def changed_files():
    """Each byte of headers and metadata changed in three ways, and chosen fields at their limits."""
    whole = b"".join(four_slots())
    for at in range(len(whole)):
        if at % SLOT > 82:
            continue
        for change in (0x01, 0x80, 0xFF):
            bytes_of_file = bytearray(whole)
            bytes_of_file[at] ^= change
            yield [bytes(bytes_of_file[s * SLOT : (s + 1) * SLOT]) for s in range(4)]


def random_file(chance):
    """Entries in slots chosen at random, some of them spoiled in one field."""
    slots = chance.randint(1, 24)
    images, free = [bytes(SLOT)] * slots, list(range(slots))
    chance.shuffle(free)
    while free:
        length = min(chance.choice([1, 1, 1, 2, 3, 5]), len(free))
        chain, free = free[:length], free[length:]
        if chance.random() < 0.2:
            continue
        url = chance.choice(URLS) + b"%d" % chance.randint(0, 5)
        key, version = key_of(url), chance.randint(1, 9)
        front = meta(url, key)
        last = chance.randint(1 if length > 1 else len(front), SLOT - 40)
        whole = (SLOT - 40) * (length - 1) + last
        for place, s in enumerate(chain):
            ends = place + 1 == length
            size, following = (last, -1) if ends else (SLOT - 40, chain[place + 1])
            fields = [whole if ends else 0, size, version, chain[0], following]
            if chance.random() < 0.06:
                fields[chance.randint(0, 4)] += chance.choice([-1, 1])
            entry_size, size, told, first, following = (max(field, -1) for field in fields)
            body = front if place == 0 else bytes([65 + place]) * size
            images[s] = image(key, max(entry_size, 0), max(size, 0), max(told, 0), first, following, body)
    return images


def main():
    build()
    seed = int(sys.argv[1]) if len(sys.argv) > 1 else 1
    chance, wrong, count = random.Random(seed), 0, 0
    with tempfile.TemporaryDirectory() as folder:
        name = f"{folder}/db"
        files = [("changed", images) for images in changed_files()]
        files += [("random", random_file(chance)) for _ in range(1000)]
        for kind, images in files:
            count += 1
            if not agrees(name, images):
                wrong += 1
                print(f"FAILED: a {kind} file, number {count}, seed {seed}")
    print(f"{count - wrong} files agree, {wrong} do not")
    sys.exit(1 if wrong else 0)


if __name__ == "__main__":
    main()
