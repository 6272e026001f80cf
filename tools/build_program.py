#!/usr/bin/env python3
"""Builds the program, or the library of a crate: build_program.py [CRATE]

Building proves each crate that the program stands on. Crates between which nothing stands are proved side by side, as
many as there are processors and memory. rt keeps all crates below the one that it works in to itself, so each crate is
proved in a room of its own: a folder outside the repository with the crates that it stands on and their libraries. (A
room below the repository would be in the gate's way, which allows no second crates.txt there.) What is done is put
into crates/NAME/out, where rt finds it too, and is not done again. Rooms lie in $XDG_CACHE_HOME/rock, or ~/.cache/rock.

Where the gate, `rt ci`, made the program of the files that stand here, that program is taken as it is.

All that is said goes to standard error: after each crate how many are done and left, and about how long that takes. The
status is 0 where the program is built, else 1.
"""
import collections
import errno
import fcntl
import hashlib
import os
import re
import shutil
import signal
import subprocess
import sys
import time

ROOT = os.path.dirname(os.path.dirname(os.path.realpath(__file__)))
PROGRAM = "rock_main"
# The logic by which the crates are proved. Kits of one logic may differ in other things.
LOGIC = "dac8208d650f15bf"
PARTS = ("src", "specs", "proofs")
# What a check of a crate takes at most of memory, in bytes, and what each further job of it takes more.
NEEDED, NEEDED_MORE = 3 << 30, 3 << 29
# rt gives a check no more jobs than these.
MOST_JOBS = 4
# Seconds of a processor for a line, by which the time is told until a crate is done.
FIRST_GUESS = 0.05

Crate = collections.namedtuple("Crate", "name line below lines")
Run = collections.namedtuple("Run", "crate process log jobs begun")


class Refused(Exception):
    """One sentence for whoever wants the program."""


class Told:
    """What is said while crates are proved: on a terminal one line, written over, and else a line for each."""

    def __init__(self):
        self.is_over = sys.stderr.isatty()

    def say(self, text):
        if self.is_over:
            columns = shutil.get_terminal_size().columns - 1
            sys.stderr.write("\r\x1b[K" + f"rock: {text}"[:columns])
        else:
            sys.stderr.write(f"rock: {text}\n")
        sys.stderr.flush()

    def end(self):
        if self.is_over:
            sys.stderr.write("\r\x1b[K")


def crates_of(top):
    """The crates of the repository that one stands on, each behind those below it, and last itself."""
    listed = {}
    with open(f"{ROOT}/crates.txt", encoding="utf-8") as file:
        for line in file:
            line = line.split("#")[0].strip()
            if ":" in line:
                listed[line.split(":")[0].split()[0]] = line
    found = {}

    def visit(name):
        if name in found:
            return
        near = [it for it in listed[name].split(":")[1].split() if it in listed]
        for it in near:
            visit(it)
        below = list(dict.fromkeys(other for it in near for other in [*found[it].below, it]))
        found[name] = Crate(name, listed[name], below, lines_of(name))

    if top not in listed:
        raise Refused(f"crates.txt names no crate {top}")
    visit(top)
    return found


def files_of(name):
    """The files of a crate that a check reads, in order."""
    for part in PARTS:
        for at, folders, files in os.walk(f"{ROOT}/crates/{name}/{part}"):
            folders.sort()
            for it in sorted(files):
                yield f"{at}/{it}"


def lines_of(name):
    count = 0
    for path in files_of(name):
        with open(path, "rb") as file:
            count += file.read().count(b"\n")
    return count


def keys_of(crates, kit):
    """For each crate a sum of all that its library is made from."""
    keys = {}
    for crate in crates.values():
        made = hashlib.sha256(f"{kit}\n{crate.line}\n".encode())
        for path in files_of(crate.name):
            with open(path, "rb") as file:
                made.update(repr((os.path.relpath(path, ROOT), file.read())).encode())
        made.update(repr([keys[it] for it in crate.below]).encode())
        keys[crate.name] = made.hexdigest()
    return keys


def out_of(name):
    return f"{ROOT}/crates/{name}/out"


def text_of(path):
    try:
        with open(path, encoding="utf-8") as file:
            return file.read()
    except OSError:
        return None


def is_done(name, key):
    """Whether the library or the program was made from these files. rt removes the key with the library that it makes anew,
    and leaves a program behind that is newer than the key."""
    if name == PROGRAM:
        made, noted = f"{out_of(name)}/{name}", f"{out_of(name)}/key"
        return text_of(noted) == key and os.path.exists(made) and os.stat(made).st_mtime_ns <= os.stat(noted).st_mtime_ns
    return text_of(f"{out_of(name)}/rlib/key") == key and os.path.exists(f"{out_of(name)}/rlib/stamp")


def is_of_the_gate(crates):
    """Whether the gate made the program of the files that stand here: all of them are older than its beginning, and the
    program is not. It takes away the older program when it begins, and makes one once all below it is proved."""
    try:
        begun = os.stat(f"{ROOT}/.git/rt-ci.lock").st_mtime_ns
        made = os.stat(f"{out_of(PROGRAM)}/{PROGRAM}").st_mtime_ns
        read = [f"{ROOT}/crates.txt", *(path for name in crates for path in files_of(name))]
        return made > begun and all(os.lstat(path).st_mtime_ns < begun for path in read)
    except OSError:
        return False


def link_or_copy(source, target):
    try:
        os.link(source, target)
    except OSError as error:
        if error.errno in (errno.ENOSPC, errno.EDQUOT):
            raise
        shutil.copy2(source, target)
    return target


def copy_tree(source, target):
    """Files are linked where that can be: rt writes no library and no source twice at one place."""
    shutil.rmtree(target, ignore_errors=True)
    shutil.copytree(source, target, copy_function=link_or_copy)


def move_tree(source, target):
    """A folder takes the place of another. Nobody finds half of it."""
    os.makedirs(os.path.dirname(target), exist_ok=True)
    beside = f"{target}.new"
    shutil.rmtree(beside, ignore_errors=True)
    shutil.move(source, beside)
    shutil.rmtree(target, ignore_errors=True)
    os.rename(beside, target)


def make_room(room, crate, crates):
    """A folder with a crate and those below it, and the libraries that there are: rt makes one anew that is of other files.
    What an interrupted check kept stays."""
    os.makedirs(f"{room}/crates", exist_ok=True)
    names = [*crate.below, crate.name]
    for name in names:
        for part in PARTS:
            if os.path.isdir(f"{ROOT}/crates/{name}/{part}"):
                copy_tree(f"{ROOT}/crates/{name}/{part}", f"{room}/crates/{name}/{part}")
            else:
                shutil.rmtree(f"{room}/crates/{name}/{part}", ignore_errors=True)
    for name in names:
        if os.path.isdir(f"{out_of(name)}/rlib"):
            copy_tree(f"{out_of(name)}/rlib", f"{room}/crates/{name}/out/rlib")
    for gone in set(os.listdir(f"{room}/crates")) - set(names):
        shutil.rmtree(f"{room}/crates/{gone}")
    own = f"{room}/crates/{crate.name}/out/incremental"
    if not os.path.isdir(own) and os.path.isdir(f"{out_of(crate.name)}/incremental"):
        shutil.copytree(f"{out_of(crate.name)}/incremental", own)
    shutil.copy2(f"{ROOT}/HANDLES", room)
    with open(f"{room}/crates.txt", "w", encoding="utf-8") as file:
        file.writelines(crates[name].line + "\n" for name in names)


def begin(room, crate, crates, jobs):
    make_room(room, crate, crates)
    words = ["lib", "--jobs", str(jobs)]
    if crate.name == PROGRAM:
        words = ["run", PROGRAM, "--jobs", str(jobs), "--", "--version"]
    with open(f"{room}/log", "wb") as log:
        process = subprocess.Popen(
            ["rt", *words],
            cwd=f"{room}/crates/{crate.name}",
            stdin=subprocess.DEVNULL,
            stdout=log,
            stderr=log,
            start_new_session=True,
        )
    return Run(crate, process, f"{room}/log", jobs, time.monotonic())


def keep(room, crate, key):
    """Puts what was made where it belongs, and removes the room."""
    made = f"{room}/crates/{crate.name}/out"
    if crate.name == PROGRAM:
        os.makedirs(out_of(PROGRAM), exist_ok=True)
        shutil.copy2(f"{made}/{PROGRAM}", f"{out_of(PROGRAM)}/{PROGRAM}.new")
        os.replace(f"{out_of(PROGRAM)}/{PROGRAM}.new", f"{out_of(PROGRAM)}/{PROGRAM}")
        with open(f"{out_of(PROGRAM)}/key", "w", encoding="utf-8") as file:
            file.write(key)
    else:
        with open(f"{made}/rlib/key", "w", encoding="utf-8") as file:
            file.write(key)
        move_tree(f"{made}/rlib", f"{out_of(crate.name)}/rlib")
    if os.path.isdir(f"{made}/incremental"):
        move_tree(f"{made}/incremental", f"{out_of(crate.name)}/incremental")
    shutil.rmtree(room, ignore_errors=True)


def end(run):
    """Ends a check, and what it started."""
    try:
        os.killpg(run.process.pid, signal.SIGTERM)
        run.process.wait(10)
    except subprocess.TimeoutExpired:
        os.killpg(run.process.pid, signal.SIGKILL)
        run.process.wait()
    except ProcessLookupError:
        run.process.wait()


def why_failed(run):
    """The sentence for a check that failed, whose log is told in front of it where it says why."""
    with open(run.log, encoding="utf-8", errors="replace") as file:
        text = file.read()
    if "No space left on device" in text or "Disk quota exceeded" in text:
        return full()
    if run.process.returncode in (-signal.SIGKILL, 128 + signal.SIGKILL) or re.search("MemoryError|annot allocate memory", text):
        return f"memory was wanting while {run.crate.name} was proved: give it 8 GB, or fewer processors by taskset"
    sys.stderr.write("".join(text.splitlines(True)[-20:]))
    return f"{run.crate.name} was not proved"


def full():
    return "the disk is full: the build takes up to 2 GB for each processor while it runs"


def free_memory():
    for line in (text_of("/proc/meminfo") or "").splitlines():
        if line.startswith("MemAvailable:"):
            return int(line.split()[1]) << 10
    return NEEDED


class Build:
    """Crates that are left, those that are being proved, and how long it took."""

    def __init__(self, crates, keys, rooms, told):
        self.crates, self.keys, self.rooms, self.told = crates, keys, rooms, told
        self.done = {it for it in crates if is_done(it, keys[it])}
        self.runs, self.again = [], set()
        self.lanes, self.memory = len(os.sched_getaffinity(0)), free_memory()
        self.spent, self.proved = 0.0, 0
        # The lines of the longest row of crates from each one up: what stands below most is proved first.
        self.row = {it: crates[it].lines for it in crates}
        for name in reversed(list(crates)):
            for below in crates[name].below:
                self.row[below] = max(self.row[below], crates[below].lines + self.row[name])

    def ready(self):
        busy = {it.crate.name for it in self.runs}
        free = [it for it in self.crates.values() if it.name not in self.done and it.name not in busy]
        free = [it for it in free if all(below in self.done for below in it.below)]
        return sorted(free, key=lambda it: -self.row[it.name])

    def taken(self):
        jobs = sum(it.jobs for it in self.runs)
        return jobs, len(self.runs) * NEEDED + (jobs - len(self.runs)) * NEEDED_MORE

    def start(self):
        """Begins as many checks as processors and memory allow. A crate that was killed runs alone."""
        ready = self.ready()
        for place, crate in enumerate(ready):
            jobs, memory = self.taken()
            if self.runs and (jobs >= self.lanes or memory + NEEDED > self.memory or crate.name in self.again):
                break
            room = int((self.memory - memory - NEEDED) / NEEDED_MORE)
            jobs = max(1, min(MOST_JOBS, (self.lanes - jobs) // (len(ready) - place), 1 + room))
            self.runs.append(begin(f"{self.rooms}/{crate.name}", crate, self.crates, 1 if crate.name in self.again else jobs))
            if crate.name in self.again:
                break

    def collect(self):
        """Takes what has ended, once at least one check has."""
        while not any(it.process.poll() is not None for it in self.runs):
            time.sleep(0.2)
        for run in [it for it in self.runs if it.process.poll() is not None]:
            self.runs.remove(run)
            name = run.crate.name
            if run.process.returncode:
                was_killed = run.process.returncode in (-signal.SIGKILL, 128 + signal.SIGKILL)
                if not was_killed or name in self.again:
                    raise Refused(why_failed(run))
                self.again.add(name)
                continue
            keep(f"{self.rooms}/{name}", run.crate, self.keys[name])
            self.done.add(name)
            self.spent += (time.monotonic() - run.begun) * run.jobs**0.5
            self.proved += run.crate.lines
            self.tell(name)

    def tell(self, name=None):
        left = [it for it in self.crates.values() if it.name not in self.done]
        each = self.spent / self.proved if self.proved else FIRST_GUESS
        lines = max(sum(it.lines for it in left) / self.lanes, max((self.row[it.name] for it in left), default=0) / 2)
        minutes = round(each * lines / 60)
        about = "less than a minute" if minutes < 1 else "about 1 minute" if minutes == 1 else f"about {minutes} minutes"
        what = f"{name} is proved" if name else "the program is built, and its crates are proved first"
        self.told.say(f"{what}: {len(self.done)} of {len(self.crates)} crates done, {len(left)} left, {about}")

    def run(self):
        if len(self.done) < len(self.crates):
            self.tell()
        try:
            while len(self.done) < len(self.crates):
                self.start()
                self.collect()
        finally:
            for it in self.runs:
                end(it)


def kit_on_path():
    """What the kit says it is, where the crates are proved by its logic."""
    if not shutil.which("rt"):
        raise Refused("the kit's command rt is not on the path")
    ran = subprocess.run(["rt", "version"], stdin=subprocess.DEVNULL, stdout=subprocess.PIPE, stderr=subprocess.STDOUT, errors="replace")
    kit = ran.stdout.strip()
    if ran.returncode or not kit.endswith(f"logic {LOGIC}"):
        raise Refused(f"the kit on the path is another one: one of the logic {LOGIC} is wanted, and rt version says {kit or 'nothing'}")
    return kit


def rooms_of_repository():
    cache = os.environ.get("XDG_CACHE_HOME") or os.path.expanduser("~/.cache")
    return f"{cache}/rock/{hashlib.sha256(ROOT.encode()).hexdigest()[:16]}"


def build(top, told):
    kit = kit_on_path()
    crates = crates_of(top)
    rooms = rooms_of_repository()
    os.makedirs(rooms, exist_ok=True)
    with open(f"{rooms}/lock", "w") as lock:
        try:
            fcntl.flock(lock, fcntl.LOCK_EX | fcntl.LOCK_NB)
        except BlockingIOError:
            told.say("another build is at work here, and this one waits for it")
            fcntl.flock(lock, fcntl.LOCK_EX)
        if top == PROGRAM and is_of_the_gate(crates):
            told.say("the gate has built the program of these files: it is taken as it is")
            return
        Build(crates, keys_of(crates, kit), rooms, told).run()


def main(top=PROGRAM):
    for it in (signal.SIGTERM, signal.SIGHUP):
        signal.signal(it, lambda number, _: sys.exit(128 + number))
    told = Told()
    try:
        build(top, told)
        told.end()
        return 0
    except Refused as why:
        text = str(why)
    except KeyboardInterrupt:
        told.end()
        sys.stderr.write("rock: stopped: what was proved is kept, and the next build goes on from there\n")
        return 130
    except OSError as error:
        text = full() if error.errno in (errno.ENOSPC, errno.EDQUOT) else str(error)
    except MemoryError:
        text = "memory was wanting"
    told.end()
    sys.stderr.write(f"rock: {text}\n")
    return 1


if __name__ == "__main__":
    sys.exit(main(*sys.argv[1:]))
