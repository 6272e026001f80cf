"""Tells the memory of runs, and times a run over a large file beside `rock check`: memory.py [FOLDER [PROGRAM]]

A peak is the greatest that the system tells of seven runs. What a run keeps while it serves is the middle of what the
system tells of it from its first write to its end. The files are made in FOLDER (default: a new folder under /tmp, removed
at the end), which takes 1.1 GiB. Needs a C compiler.
"""
import os
import statistics
import subprocess
import sys
import time

import run
import workers

SLOTS = 1048576
SLOT = 512
TURNS = 7
MOST_OF_WORKERS = 1000000
MOST_OF_SLOT = 100
MOST_OF_CHECK = 1.1


def sparse(folder, name, slot, slots):
    """A file of empty slots that takes no room on the disk."""
    name = f"{folder}/{name}"
    with open(name, "wb") as file:
        file.truncate(workers.HEADER_AREA + slot * slots)
    return name


def measured(folder, words, script=os.devnull):
    """The seconds, the peak in bytes and the processor seconds of a program, by one that takes little memory itself."""
    with open(script, "rb") as given:
        told = subprocess.run([f"{folder}/run_once", *words], stdin=given, capture_output=True, check=True)
    seconds, peak, processor = told.stdout.split()
    return float(seconds), int(peak) * 1024, float(processor)


def peak(folder, words, script=os.devnull):
    return max(measured(folder, words, script)[1] for _ in range(TURNS))


def kept(words, script, name):
    """What a run over a new file keeps while it serves."""
    seen = []
    with open(script, "rb") as given:
        child = subprocess.Popen(words, stdin=given, stdout=subprocess.DEVNULL)
    while child.poll() is None:
        if os.stat(name).st_blocks > 0:
            with open(f"/proc/{child.pid}/statm") as told:
                seen.append(int(told.read().split()[1]) * os.sysconf("SC_PAGE_SIZE"))
        time.sleep(0.001)
    seen = [it for it in seen if it > 0]
    if child.returncode or len(seen) < 20:
        sys.exit(f"{words}: it served too fast to be looked at, or failed")
    return statistics.median(seen)


def three_workers(folder, rock):
    """The worked run of three workers, and what it takes more than a run that asks for nothing."""
    name = sparse(folder, "three", 16384, 64)
    script = f"{os.path.dirname(run.HERE)}/examples/three_workers.script"
    taken = peak(folder, [rock, "run", name, "16384", "64", "3"], script)
    empty = peak(folder, [rock, "run", sparse(folder, "one", 512, 1), "512", "1", "1"])
    version = peak(folder, [rock, "--version"])
    print(f"three workers over 64 slots of 16,384 bytes: {taken} bytes")
    print(f"  a run of no line by one worker over one slot of 512 bytes: {empty}, so {taken - empty} more")
    print(f"  --version: {version}, so {taken - version} more")
    workers.promised(f"  less than {MOST_OF_WORKERS} bytes more than a run of no line", taken - empty < MOST_OF_WORKERS)


def large_tables(folder, rock):
    """What a slot and an anchor take over a large file of empty slots: peaks, and what is kept while lines are served."""
    lines = (b"1 save http://bench/%d -\n" % it for it in range(workers.MOST_LINES))
    saves = workers.made_script(folder, "saves", lines)
    name = f"{folder}/large"

    def taken(call, words, more):
        figures = []
        for slots, anchors in ((1, 1), (SLOTS, 1), (SLOTS, SLOTS)):
            sparse(folder, "large", SLOT, slots)
            figures.append(call([rock, *words, name, str(SLOT), str(anchors), *more]))
        slot, anchor = ((after - before) / SLOTS for before, after in zip(figures, figures[1:]))
        return slot, anchor

    workers.told_row("bytes", "a slot", "an anchor", "both")
    for title, call, words, more in (
        ("check, peak", lambda words: peak(folder, words), ["check"], []),
        ("run, peak", lambda words: peak(folder, words), ["run"], ["1"]),
        ("run, kept", lambda words: kept(words, saves, name), ["run"], ["1"]),
    ):
        slot, anchor = taken(call, words, more)
        workers.told_row(title, *(f"{it:.1f}" for it in (slot, anchor, slot + anchor)))
    workers.promised(f"  the table takes at most {MOST_OF_SLOT} bytes a slot with its anchor", slot + anchor <= MOST_OF_SLOT)
    os.remove(name)


def warm_run(folder, rock, kind, anchors):
    """A run of one line beside `check`, by turns."""
    name = f"{folder}/{kind}"
    script = workers.made_script(folder, "one line", [b"1 get http://bench/0\n"])
    taken = [], []
    for turn in range(TURNS + 1):
        for command, took in zip((["run", name, str(SLOT), anchors, "1"], ["check", name, str(SLOT), anchors]), taken):
            figures = measured(folder, [rock, *command], script)
            if turn > 0:
                took.append(figures)
    least = [[min(it) for it in zip(*took)] for took in taken]
    for title, took in zip(("run", "check"), taken):
        seconds, peaks, processor = zip(*took)
        times = min(seconds), statistics.median(seconds), min(processor)
        workers.told_row(kind, anchors, title, *(f"{it:.3f}" for it in times), f"{max(peaks) / SLOTS:.1f}")
    ratio = least[0][0] / least[1][0]
    workers.promised(f"  {ratio:.2f} times check, at most {MOST_OF_CHECK}", ratio <= MOST_OF_CHECK)


def main(folder, rock):
    compiler = os.environ.get("CC", "cc")
    subprocess.run([compiler, "-O2", "-o", f"{folder}/run_once", f"{run.HERE}/helpers/run_once.c"], check=True)
    three_workers(folder, rock)
    large_tables(folder, rock)
    workers.told_row("file", "anchors", "command", "s, least", "median", "s of the processor", "peak, bytes a slot")
    for kind in ("empty", "entries", "one-slot"):
        if kind == "empty":
            sparse(folder, kind, SLOT, SLOTS)
        else:
            words = [f"{folder}/{kind}", str(SLOTS * SLOT >> 20), str(SLOT), kind]
            subprocess.run([sys.executable, f"{run.HERE}/helpers/make_file.py", *words], check=True)
        for anchors in (16384, SLOTS):
            warm_run(folder, rock, kind, str(anchors))
        os.remove(f"{folder}/{kind}")


if __name__ == "__main__":
    run.with_program(main, "memory-")
