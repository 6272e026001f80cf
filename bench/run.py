"""Times `rock run` beside a plain program that makes the same system calls: run.py [FOLDER [PROGRAM]]

A script of 4,096 lines for one worker, about half of them `put` and the others `get`, with bodies of at most 1,300
bytes, is run over a file of 64 empty slots of 16,384 bytes, by 64 anchors. There are 64 URLs, one at each anchor, so a
`get` is a hit once its URL was put. `strace` tells which calls `rock run` makes on the script, on the file and on
standard output. bench/helpers/plain_run.c makes these calls in the same order with the same bytes, and nothing else. That the
bytes are the same is seen by its output and by the file that it leaves.

Both run by turns, each over a file like the first, with the script and the file in the page cache and the output thrown
away. Needs strace and a C compiler. The files are made in FOLDER (default: a new folder under /tmp, removed at the
end).
"""
import filecmp
import hashlib
import os
import re
import shutil
import statistics
import struct
import subprocess
import sys
import tempfile
import time

LINES = 4096
SLOT = 16384
SLOTS = 64
HEADER_AREA = 16384
LONGEST = 1300
TURNS = 31
MOST = 1.5
HERE = os.path.dirname(os.path.abspath(__file__))
TRACED = "read,pread64,pwrite64,write,open,openat,stat,lstat,newfstatat,statx,fstat,close"


def key_of(url):
    return hashlib.md5(b"\x01" + url).digest()


def anchor_of(url):
    return sum(struct.unpack("<QQ", key_of(url))) % 2**64 % SLOTS


def one_at_each_anchor():
    """The first URLs, in order of their numbers, that have an anchor each."""
    found, number = {}, 0
    while len(found) < SLOTS:
        url = b"http://bench/%d" % number
        found.setdefault(anchor_of(url), url)
        number += 1
    return [found[anchor] for anchor in range(SLOTS)]


def requests():
    """For each line its URL, and for a `put` the length of its body and the place of its first letter."""
    urls, number = one_at_each_anchor(), 1

    def draw():
        nonlocal number
        number = (number * 6364136223846793005 + 1442695040888963407) % 2**64
        return number >> 32

    for _ in range(LINES):
        url, is_put, body = urls[draw() % SLOTS], draw() % 2 == 0, draw()
        yield url, (body % (LONGEST + 1), body % 26) if is_put else None


def line_of(url, body):
    return b"1 put %s #%d:%d\n" % (url, *body) if body else b"1 get %s\n" % url


def image_of(url, body, version, slot):
    """The bytes of a slot with the whole entry, without the zeros at its end."""
    length, place = body
    key = key_of(url)
    items = b"\x03\x10\0\0\0" + key + b"\x04" + struct.pack("<I", len(url) + 1) + url + b"\0"
    letters = bytes(0x61 + (place + i) % 26 for i in range(length))
    payload = b"\x03" + struct.pack("<I", 5 + len(items)) + items + letters
    return key + struct.pack("<QIIii", len(payload), len(payload), version, slot, -1) + payload


def traced_calls(words, script, output, name):
    """The calls on the script, on the file and on standard output, in order: kind, number of bytes, place."""
    log = name + ".calls"
    with open(script, "rb") as given, open(output, "wb") as taken:
        traced = ["strace", "-f", "-s", "0", "-o", log, "-e", "trace=" + TRACED, *words]
        subprocess.run(traced, stdin=given, stdout=taken, check=True)
    calls, files, began = [], set(), False
    for line in open(log):
        if "<unfinished" in line or "resumed>" in line:
            sys.exit(f"two threads made calls at once: {line}")
        made = re.match(r"\d+ +(\w+)\((.*)\) += (-?\d+)", line)
        if not made:
            continue
        call, words, answer = made[1], made[2].split(", "), int(made[3])
        # What the loader of the program reads comes before the script.
        began = began or (call == "read" and words[0] == "0")
        if not began:
            continue
        if call == "read" and words[0] == "0":
            calls.append(("r", int(words[2]), answer))
        elif call == "write" and words[0] == "1":
            calls.append(("w", int(words[2]), answer))
        elif call in ("open", "openat") and f'"{name}"' in words and answer >= 0:
            files.add(answer)
            calls.append(("o", 1 if "O_RDWR" in made[2] else 0, 0))
        elif call in ("stat", "lstat", "newfstatat", "statx") and f'"{name}"' in words:
            calls.append(("s", 0, 0))
        elif words[0].isdigit() and int(words[0]) in files:
            if call in ("pread64", "pwrite64"):
                calls.append(("g" if call == "pread64" else "p", int(words[2]), int(words[3])))
            elif call in ("fstat", "newfstatat", "statx"):
                calls.append(("f", 0, 0))
            elif call == "close":
                files.remove(int(words[0]))
                calls.append(("c", 0, 0))
            else:
                sys.exit(f"a call that the plain program does not know: {line}")
    os.remove(log)
    return calls


def build_plain(folder, calls, lines, answers):
    """Writes the list of calls and the bytes of the slots into files, and a program that has them and the answers."""
    puts = [(url, body) for url, body in lines if body]
    with open(f"{folder}/calls.bin", "wb") as listed, open(f"{folder}/images.bin", "wb") as images:
        version = 0
        for kind, count, at in calls:
            if kind == "p":
                url, body = puts[version]
                version += 1
                image = image_of(url, body, version, (at - HEADER_AREA) // SLOT)
                images.write(image)
                count = len(image)
            listed.write(struct.pack("<IIQ", ord(kind), count, at))
    if version != len(puts):
        sys.exit(f"{version} slots were written for {len(puts)} puts")
    words = [os.environ.get("CC", "cc"), "-O2", f"-DFOLDER=\"{folder}\"", f"-DANSWERS=\"{answers}\""]
    subprocess.run([*words, "-o", f"{folder}/plain_run", f"{HERE}/helpers/plain_run.c"], check=True)
    return f"{folder}/plain_run"


def measured(words, script):
    """The seconds that a program takes from its start to its end, those of the processor, and its peak of memory in KiB."""
    actions = [
        (os.POSIX_SPAWN_OPEN, 0, script, os.O_RDONLY, 0),
        (os.POSIX_SPAWN_OPEN, 1, "/dev/null", os.O_WRONLY, 0),
    ]
    began = time.perf_counter()
    child = os.posix_spawn(words[0], words, os.environ, file_actions=actions)
    _, status, used = os.wait4(child, 0)
    ended = time.perf_counter()
    if status:
        sys.exit(f"{words[0]} ended with status {os.waitstatus_to_exitcode(status)}")
    return ended - began, used.ru_utime + used.ru_stime, used.ru_maxrss


def told(name, taken):
    seconds, processor, _ = zip(*taken)
    figures = min(seconds), statistics.median(seconds), min(processor), statistics.median(processor)
    print(f"{name:<10}" + "".join(f"{at:>11.4f}" for at in figures))
    return figures


def main(folder, program):
    empty, db, script, answers = (f"{folder}/{it}" for it in ("empty", "db", "script", "answers"))
    lines = list(requests())
    with open(script, "wb") as file:
        file.writelines(line_of(url, body) for url, body in lines)
    with open(empty, "wb") as file:
        file.write(bytes(HEADER_AREA + SLOTS * SLOT))
    rock = [program, "run", db, str(SLOT), str(SLOTS), "1"]

    shutil.copyfile(empty, db)
    calls = traced_calls(rock, script, answers, db)
    shutil.copyfile(db, f"{folder}/after")
    plain = [build_plain(folder, calls, lines, answers), db]
    shutil.copyfile(empty, db)
    with open(script, "rb") as given, open(f"{folder}/plain.answers", "wb") as taken:
        subprocess.run(plain, stdin=given, stdout=taken, check=True)
    for one, other in ((db, f"{folder}/after"), (answers, f"{folder}/plain.answers")):
        if not filecmp.cmp(one, other, shallow=False):
            sys.exit(f"{one} and {other} differ")

    kinds = [line.split()[2].decode() for line in open(answers, "rb")]
    counts = ", ".join(f"{kinds.count(kind)} {kind}" for kind in sorted(set(kinds)))
    made = ", ".join(f"{sum(it[0] == kind for it in calls)} {name}" for kind, name in NAMES.items())
    print(f"{len(lines)} lines, {os.path.getsize(script)} bytes: {counts}, {os.path.getsize(answers)} bytes")
    print(f"calls: {made}")

    taken = {"rock run": [], "plain": []}
    for turn in range(TURNS):
        for name, words in (("rock run", rock), ("plain", plain)):
            shutil.copyfile(empty, db)
            took = measured(words, script)
            if turn > 0:
                taken[name].append(took)
    print(f"{'seconds':<10}" + "".join(f"{it:>11}" for it in ("least", "median", "cpu least", "cpu median")))
    ours, theirs = (told(name, taken[name]) for name in taken)
    print(f"{'ratio':<10}" + "".join(f"{a / b:>11.2f}" for a, b in zip(ours, theirs)))
    print(f"by the least seconds at most {MOST} is promised: {'kept' if ours[0] <= MOST * theirs[0] else 'NOT KEPT'}")


NAMES = {
    "r": "read of the script",
    "s": "stat",
    "o": "open",
    "f": "fstat",
    "g": "pread of slots",
    "p": "pwrite of a slot",
    "c": "close",
    "w": "write of answers",
}

def with_program(call, prefix):
    """Calls with the folder and the program of the command line: a new folder and the built program where they are not named."""
    root = os.path.dirname(HERE)
    wanted = sys.argv[2] if len(sys.argv) > 2 else f"{root}/crates/rock_main/out/rock_main"
    if len(sys.argv) < 3:
        subprocess.run([f"{root}/rock", "--version"], stdout=subprocess.DEVNULL, check=True)
    if len(sys.argv) > 1:
        os.makedirs(sys.argv[1], exist_ok=True)
        call(os.path.abspath(sys.argv[1]), os.path.abspath(wanted))
    else:
        with tempfile.TemporaryDirectory(prefix=prefix) as made_folder:
            call(made_folder, wanted)


if __name__ == "__main__":
    with_program(main, "run-")
