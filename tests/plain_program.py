#!/usr/bin/env python3
"""The answers of the crate plain_store to random scripts, compared with those of tests/plain_runs.py:
plain_program.py [SEED]

The scripts are those of one worker on new stores with slots of 512 bytes. A program that prints what `answers_of`
gives, tests/plain_runs/main.txt, is added to a copy of the crates, and run on all of them by `rt try`, which proves
nothing and runs the sources as they stand. What it prints is compared, byte for byte, with the answers of the plain
store in Python. The crate was proved to answer as plain_model defines, so this shows that these definitions and
docs/SERVING.md agree. It stands outside the gate; the kit's command rt must be on the path. The status is 0 where all
agree.
"""
import collections
import os
import random
import shutil
import subprocess
import sys
import tempfile

sys.dont_write_bytecode = True
from plain_runs import ROOT, SLOT, Store, script_for, setting_for, slots_for, tell_difference  # noqa: E402

NEEDS = "rock_io store_key lock_word rebuild_model entry_cut script_text answer_text plain_model plain_store"
# A program that rt try runs may print 1,048,576 bytes.
MOST_PRINTED = 1000000


def make_case(chance):
    """The line that begins a case, a script, and its answers."""
    slots = slots_for(chance)
    anchors, urls = setting_for(chance, slots)
    lines, expected = script_for(chance, Store([bytes(SLOT)] * slots, anchors, collections.Counter()), urls)
    return f"case {slots} {anchors}\n", lines, expected


def copy_crates(folder):
    """A copy of the crates with the program among them; its folder."""
    names = subprocess.run(["git", "ls-files", "-z", "crates", "HANDLES"], cwd=ROOT, capture_output=True, check=True)
    for name in names.stdout.decode().split("\0")[:-1]:
        os.makedirs(os.path.dirname(f"{folder}/{name}"), exist_ok=True)
        shutil.copyfile(f"{ROOT}/{name}", f"{folder}/{name}")
    with open(f"{ROOT}/crates.txt") as told, open(f"{folder}/crates.txt", "w") as file:
        file.write(f"{told.read()}plain_main: {NEEDS}\n")
    os.makedirs(f"{folder}/crates/plain_main/src")
    shutil.copyfile(f"{ROOT}/tests/plain_runs/main.txt", f"{folder}/crates/plain_main/src/main.rt")
    return f"{folder}/crates/plain_main"


def printed_by(folder, script):
    """What the program prints of each case."""
    ran = subprocess.run(["rt", "try"], cwd=folder, input=script.encode(), capture_output=True)
    if ran.returncode:
        sys.exit(f"rt try has status {ran.returncode}: {ran.stderr.decode()[-2000:]}")
    return [part.splitlines(keepends=True) for part in ran.stdout.decode().split("case\n")[1:]]


def make_cases(seed):
    """As many cases as may be answered in one run."""
    cases, room = [], MOST_PRINTED
    while room > 0:
        cases.append(make_case(random.Random(f"{seed} {len(cases)}")))
        room -= sum(map(len, cases[-1][2])) + len("case\n")
    return cases[:-1]


def main():
    seed = int(sys.argv[1]) if len(sys.argv) > 1 else 1
    cases = make_cases(seed)
    count = len(cases)
    with tempfile.TemporaryDirectory() as folder:
        told = printed_by(copy_crates(folder), "".join(head + "".join(lines) for head, lines, _ in cases))
    failed = abs(len(told) - count)
    for number, ((_, lines, expected), answers) in enumerate(zip(cases, told)):
        if answers != expected:
            failed += 1
            tell_difference(lines, expected, answers)
            print(f"FAILED: script {number}, seed {seed}")
    print(f"{failed} comparisons failed, of {count} scripts with {sum(len(lines) for _, lines, _ in cases)} lines")
    sys.exit(1 if failed else 0)


if __name__ == "__main__":
    main()
