"""Makes a database file: make_file.py NAME MIB SLOT KIND

KIND is `entries`, complete entries of 1 to 8 slots that fill the file, every second one with its
chain from back to front, or `one-slot`, where each slot is a complete entry, or a file that holds no
complete entry and is made to keep a scan busy:
`one-tail`, where each slot begins an entry that goes on in the last slot, `chain`, one chain of all
slots whose size is another, and `ring`, all slots in a ring that names slot 0 first.
"""
import hashlib
import struct
import sys

HEADER_AREA = 16384
MOST_SLOTS = 1048576


def meta(url):
    key = hashlib.md5(b"\x01" + url).digest()
    items = b"\x03\x10\0\0\0" + key + b"\x04" + struct.pack("<I", len(url) + 1) + url + b"\0"
    return key, b"\x03" + struct.pack("<I", 5 + len(items)) + items


def image(slot, key, entry_size, payload, version, first, following):
    header = key + struct.pack("<QIIii", entry_size, payload[0], version, first, following)
    return (header + payload[1]).ljust(slot, b"\x55" if payload[0] + 40 == slot else b"\0")[:slot]


def entries(slot, slots, most):
    room = slot - 40
    at, number = 0, 0
    while at < slots:
        length = min(number % most + 1, slots - at)
        key, front = meta(b"http://bench.example/objects/%08d" % number)
        chain = list(range(at, at + length))
        if number % 2:
            chain.reverse()
        last = max(1, room // 2) if length > 1 else room
        total = room * (length - 1) + last
        made = {}
        for place, s in enumerate(chain):
            size = room if place + 1 < length else last
            following = chain[place + 1] if place + 1 < length else -1
            body = front if place == 0 else b""
            made[s] = image(slot, key, total, (size, body), number + 1, chain[0], following)
        for s in range(at, at + length):
            yield made[s]
        at += length
        number += 1


def hostile(kind, slot, slots):
    key, front = meta(b"http://bench.example/")
    room = slot - 40
    for s in range(slots):
        first, following = {
            "one-tail": (s, slots - 1 if s + 1 < slots else -1),
            "chain": (0, s + 1 if s + 1 < slots else -1),
            "ring": (0, (s + 1) % slots),
        }[kind]
        yield image(slot, key, 0, (room, front if first == s else b""), 1, first, following)


def main():
    name, mib, slot, kind = sys.argv[1], int(sys.argv[2]), int(sys.argv[3]), sys.argv[4]
    slots = min(mib * 1048576 // slot, MOST_SLOTS)
    with open(name, "wb", buffering=1 << 20) as file:
        file.write(bytes(HEADER_AREA))
        most = {"entries": 8, "one-slot": 1}.get(kind)
        for made in entries(slot, slots, most) if most else hostile(kind, slot, slots):
            file.write(made)


main()
