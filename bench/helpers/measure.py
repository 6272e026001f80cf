"""Prints one line of measures of the file FOLDER/db: measure.py FOLDER PROGRAM MIB SLOT KIND

The plain programs, `rock list` and `rock check` with as many anchors as slots run by turns, once to warm the file
and then seven times each. The least seconds and the greatest peaks of memory are told, and the peaks for each slot
above the peak of the same command on a file of one slot, which has the program's pages and fixed buffers in it.
"""
import os
import subprocess
import sys

folder, program, mib, slot, kind = sys.argv[1:6]
name = f"{folder}/db"
one_slot = f"{folder}/one-slot"


def measured(*words):
    told = subprocess.run([f"{folder}/run_once", *words], capture_output=True, check=True)
    seconds, peak, _ = told.stdout.split()
    return float(seconds), int(peak)


def base_of(*words):
    """The peak that a command has whatever the number of slots."""
    return max(measured(program, *words)[1] for _ in range(8))


slots = min((os.path.getsize(name) - 16384) // int(slot), 1048576)
listing = subprocess.run([program, "list", name, slot], capture_output=True, check=True).stdout
plain, rock, check, sums = [], [], [], []
for _ in range(8):
    plain.append(measured(f"{folder}/plain_read", name, slot))
    rock.append(measured(program, "list", name, slot))
    check.append(measured(program, "check", name, slot, str(slots)))
    sums.append(measured(f"{folder}/plain_sums", name, slot))
with open(one_slot, "wb") as file:
    file.truncate(16384 + int(slot))
base, check_base = base_of("list", one_slot, slot), base_of("check", one_slot, slot, "1")
os.remove(one_slot)
plain_seconds = min(seconds for seconds, _ in plain[1:])
seconds = min(seconds for seconds, _ in rock[1:])
peak = max(peak for _, peak in rock)
check_seconds = min(seconds for seconds, _ in check[1:])
check_peak = max(peak for _, peak in check)
sums_seconds = min(seconds for seconds, _ in sums[1:])
told = listing.count(b"\n")
print(
    f"{mib:>5} {slot:>6} {kind:<10} {told:>9} {plain_seconds:>9.3f} {seconds:>7.3f}"
    f" {slots * int(slot) / 1e6 / seconds:>8.0f} {seconds / plain_seconds:>7.2f}"
    f" {peak / 1024:>10.1f} {(peak - base) * 1024 / slots:>9.1f}"
    f" {check_seconds:>7.3f} {check_seconds / seconds:>7.2f} {(check_peak - check_base) * 1024 / slots:>9.1f}"
    f" {sums_seconds:>7.3f} {sums_seconds / check_seconds:>7.2f}"
)
