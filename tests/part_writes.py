#!/usr/bin/env python3
"""Whether a kill leaves a part of a slot in a file of the system: part_writes.py [FOLDER [KILLS]]

A program writes slots of one size over one another, as a run does, each slot in one call and filled with one byte. It is
killed after a short time that is drawn, and a slot that then has two different bytes was written in part. For each size it
prints how many kills left such a slot, of 100 or of as many as are given. The file is made in FOLDER, or in the folder for
files of a moment, and removed.

Rock takes for granted that no slot is left so (docs/CRASHES.md). Slots of at most a page of memory, mostly 4,096 bytes, are
written whole by Linux. This reads no file of Rock and needs no program. Its status is 1 where a slot of at most 4,096 bytes
was left in part, and otherwise 0.
"""
import os
import random
import signal
import sys
import tempfile
import time

SIZES = [512, 4096, 8192, 16384, 32768]
HEADER = 16384
SLOTS = 64


def write_until_killed(file, size, told):
    try:
        blocks = [bytes([byte]) * size for byte in range(251)]
        os.write(told, b"x")
        number = 0
        while True:
            os.pwrite(file, blocks[number % 251], HEADER + number % SLOTS * size)
            number += 1
    finally:
        os._exit(1)


def is_left_in_part(path, size):
    """Kills a writer of such slots, and looks for one that is not of one byte."""
    file = os.open(path, os.O_RDWR | os.O_CREAT, 0o600)
    os.ftruncate(file, HEADER + SLOTS * size)
    heard, told = os.pipe()
    writer = os.fork()
    if writer == 0:
        write_until_killed(file, size, told)
    os.read(heard, 1)
    time.sleep(0.0003 + random.random() * 0.002)
    os.kill(writer, signal.SIGKILL)
    if not os.WIFSIGNALED(os.waitpid(writer, 0)[1]):
        sys.exit("the writer failed: is there room in the folder?")
    found = any(len(set(os.pread(file, size, HEADER + slot * size))) > 1 for slot in range(SLOTS))
    for end in (file, heard, told):
        os.close(end)
    return found


def main():
    parent = sys.argv[1] if len(sys.argv) > 1 else None
    kills = int(sys.argv[2]) if len(sys.argv) > 2 else 100
    wrong = False
    with tempfile.TemporaryDirectory(dir=parent) as folder:
        for size in SIZES:
            left = sum(is_left_in_part(f"{folder}/slots", size) for _ in range(kills))
            print(f"{size} bytes a slot: {left} of {kills} kills left one in part", flush=True)
            wrong = wrong or (left > 0 and size <= 4096)
    sys.exit(1 if wrong else 0)


main()
