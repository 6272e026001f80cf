#!/usr/bin/env python3
"""The scripts that tools/log_script.py makes, compared with those that are known of logs: log_script.py

A small log that was written by hand has each kind of line that is taken, and each cause for which one is left out. Logs
at the limits of a script come after it: its lines, its bodies, and its URLs. Where there is a program, the one that the
variable ROCK names or the one that is built, it reads each script, and serves the first one: its answers are those that
the rules of docs/SERVING.md give. It stands outside the gate. Its status is 0 where all is as it should be.
"""
import subprocess
import sys
import tempfile

sys.dont_write_bytecode = True
from made_files import ROCK, ROOT, end, holds  # noqa: E402

TOOL = f"{ROOT}/tools/log_script.py"

# In front of a line of the log stands what becomes of it: the lines of the script for two workers, or a word for the cause.
LOG = r"""
1 get http://a/b, 1 put http://a/b #411:0 | 1286536308.779    180 192.0.2.1 TCP_MISS/200 411 GET http://a/b - HIER_DIRECT/198.51.100.1 text/html
1 get http://a/b | 1286536309.001      2 192.0.2.2 TCP_MEM_HIT/200 415 GET http://a/b - HIER_NONE/- text/html
2 get http://a/c, 2 put http://a/c #0:0 | 1286536309.100     60 192.0.2.1 TCP_MISS/200 0 GET http://a/c joe HIER_DIRECT/198.51.100.1 -
result | 1286536309.101      0 192.0.2.3 TCP_DENIED/403 1400 GET http://a/b - HIER_NONE/- text/html
method | 1286536309.200   1200 192.0.2.3 TCP_TUNNEL/200 3902 CONNECT host.example:443 - HIER_DIRECT/198.51.100.1 -
method | 1286536309.300     20 192.0.2.3 TCP_MISS/200 311 HEAD http://a/b - HIER_DIRECT/198.51.100.1 text/html
2 get http://a/c | 1286536309.400      3 192.0.2.1 TCP_HIT/200 320 GET http://a/c - HIER_NONE/- text/html
1 get http://a/e | 1286536309.500      3 2001:db8::1 TCP_REFRESH_UNMODIFIED/200 320 GET http://a/e - HIER_DIRECT/198.51.100.1 text/css
1 get http://a/b, 1 put http://a/b #412:1 | 1286536310.000     90 192.0.2.1 TCP_REFRESH_MODIFIED/200 412 GET http://a/b - HIER_DIRECT/198.51.100.1 text/html
result | 1286536310.100      1 192.0.2.1 TCP_IMS_HIT/304 270 GET http://a/b - HIER_NONE/- text/html
result | 1286536310.200    900 192.0.2.1 TCP_MISS_ABORTED/200 1024 GET http://a/f - HIER_DIRECT/198.51.100.1 video/mp4
result | 1286536310.300     40 192.0.2.1 TCP_MISS/404 512 GET http://a/g - HIER_DIRECT/198.51.100.1 text/html
result | 1286536310.400      0 192.0.2.1 NONE/200 0 GET http://a/g - HIER_NONE/- -
1 purge http://a/b | 1286536311.000      1 192.0.2.9 TCP_HIT/200 140 PURGE http://a/b - HIER_NONE/- -
1 get http://a/b | 1286536311.100      3 192.0.2.1 TCP_REFRESH_FAIL_OLD/200 320 GET http://a/b - HIER_NONE/- text/html
result | 1286536311.200      0 192.0.2.9 TCP_DENIED/403 1400 PURGE http://a/b - HIER_NONE/- -
url | 1286536311.300     40 192.0.2.1 TCP_MISS/200 512 GET http://a/é - HIER_DIRECT/198.51.100.1 text/html
format | a line by somebody else
format | 
format | 192.0.2.1 - - [08/Oct/2010:11:11:48 +0000] "GET http://a/b HTTP/1.1" 200 411 TCP_MISS:HIER_DIRECT
""".strip("\n")

CAUSES = {
    "format": "it has not the native format",
    "method": "its method is neither GET nor PURGE",
    "result": "it tells of no whole response with status 200 that was a hit or a miss",
    "url": "its URL is not of 1 to 2048 bytes from 0x21 to 0x7e",
    "body": "its body has more than 4194304 bytes",
    "bodies": "with it all bodies have more than 67108864 bytes",
    "room": "with it the script has more than 4096 lines",
}

# What one worker is answered on a new file of eight slots and eight anchors, where these URLs have anchors of their own,
# with no slot of what is replaced or purged being wanted. The entry of http://a/e is not there.
ANSWERS = "MISS STORED HIT MISS STORED HIT MISS HIT STORED PURGED MISS".split()


def run_tool(log, *words, **how):
    return subprocess.run([TOOL, *words], input=log, stdout=how.get("stdout", subprocess.PIPE), stderr=subprocess.PIPE)


def compare(name, log, workers, script, counts):
    """Compares the script of a log, and what is said of what it leaves out: how many lines by each cause."""
    ran, read = run_tool(log, str(workers)), log.count(b"\n")
    lines = [f"of {read} lines of the log {read - sum(counts.values())} are in the script, as {len(script)} lines for {workers} workers"]
    lines += [f"left out {counts[cause]}: {sentence}" for cause, sentence in CAUSES.items() if cause in counts]
    holds(f"{name} has status 0: {ran.returncode}", ran.returncode == 0)
    holds(f"{name} has its script: {ran.stdout[:2000]}", ran.stdout.decode() == "".join(f"{line}\n" for line in script))
    holds(f"{name} says what is left out: {ran.stderr}", ran.stderr.decode() == "".join(f"log_script.py: {line}\n" for line in lines))
    if ROCK:
        # A script that is good is followed by what is wrong with the file.
        read = subprocess.run([ROCK, "run", "gone", "512", "1", str(workers)], input=ran.stdout, capture_output=True)
        holds(f"{name} is a good script: {read.stderr}", read.returncode == 8 and read.stderr.startswith(b"rock: Missing: "))
    return ran.stdout


def small_log():
    """Each kind of line, for two workers, and for one and for 32."""
    rows = [line.split("|", 1) for line in LOG.split("\n")]
    told, log = [row[0].strip() for row in rows], "".join(f"{row[1][1:]}\n" for row in rows).encode()
    counts = {cause: told.count(cause) for cause in CAUSES if cause in told}
    script = [line for lines in told if lines not in CAUSES for line in lines.split(", ")]
    holds("the small log has each kind of line", counts == {"format": 3, "method": 2, "result": 6, "url": 1} and len(script) == 11)
    compare("the small log", log, 2, script, counts)
    compare("the small log without its last line feed and with others", log.replace(b"\n", b"\r\n"), 2, script, counts)
    third = [line.replace("1", "3", 1) if line.endswith("/e") else line for line in script]
    compare("the small log for 32 workers", log, 32, third, counts)
    serve(compare("the small log for one worker", log, 1, ["1" + line[1:] for line in script], counts))
    compare("an empty log", b"", 7, [], {})


def serve(script):
    """Serves the script of the small log on a new file."""
    if not ROCK:
        print("SKIPPED: there is no program to serve the script")
        return
    with tempfile.TemporaryDirectory() as folder:
        subprocess.run([ROCK, "create", f"{folder}/db", "512", "8"], check=True)
        words = ["run", f"{folder}/db", "512", "8", "1"]
        printed = subprocess.run([ROCK, *words], input=script, check=True, capture_output=True).stdout.decode()
    answers = [line.split() for line in printed.splitlines()]
    holds(f"the answers of the small log: {printed}", [answer[2] for answer in answers] == ANSWERS)
    hits = [(int(answer[4]), answer[5][:2]) for answer in answers if answer[2] == "HIT"]
    holds(f"the bodies of the small log: {hits}", hits == [(411, "61"), (0, "-"), (411, "61")])


def line_of(url, size, result="TCP_MISS/200"):
    return f"1286536308.779    180 192.0.2.1 {result} {size} GET {url} - HIER_DIRECT/198.51.100.1 text/html\n".encode()


def asked(url, size, worker=1, shift=0):
    return [f"{worker} get {url}", f"{worker} put {url} #{size}:{shift}"]


def limits():
    """The longest URL, the longest body, all bodies together and all lines of a script, and what goes past each."""
    urls = ["http://a/" + "u" * length for length in (2039, 2040)]
    compare("the longest URL", b"".join(line_of(url, 1) for url in urls), 1, asked(urls[0], 1), {"url": 1})
    log = line_of("http://a/b", 4194304) + line_of("http://a/c", 4194305) + line_of("http://a/c", 4194305, "TCP_HIT/200")
    compare("the longest body", log, 1, [*asked("http://a/b", 4194304), "1 get http://a/c"], {"body": 1})
    urls = [f"http://a/{number}" for number in range(16)]
    full = [line for url in urls for line in asked(url, 4194304)]
    log = b"".join(line_of(url, 4194304) for url in urls) + line_of("http://a/16", 1) + line_of("http://a/16", 0)
    compare("all bodies", log, 1, full + asked("http://a/16", 0), {"bodies": 1})
    log, lines = b"", []
    for number in range(2047):
        log += line_of("http://a/b", 1)
        lines += asked("http://a/b", 1, 1, number % 26)
    log += line_of("http://a/c", 1, "TCP_HIT/200") + line_of("http://a/d", 1) + line_of("http://a/e", 1, "TCP_HIT/200")
    lines += ["2 get http://a/c", "1 get http://a/e"]
    log += line_of("http://a/f", 1, "TCP_HIT/200") + line_of("http://a/b", 1)
    compare("all lines", log, 2, lines, {"room": 3})


def refusals():
    for words in ([], ["0"], ["33"], ["01"], ["two"], ["1", "1"], ["--help", "1"], [""]):
        ran = run_tool(b"", *words)
        is_told = ran.stderr == b"log_script.py: the only word is the number of workers, from 1 to 32; --help says more\n"
        holds(f"{words} is refused: {ran}", ran.returncode == 2 and not ran.stdout and is_told)
    ran = run_tool(b"", "--help")
    holds("the help tells each status", ran.returncode == 0 and all(f"\n  {n}  ".encode() in ran.stdout for n in range(3)))
    with open("/dev/full", "wb") as full:
        ran = run_tool(line_of("http://a/b", 1), "1", stdout=full)
    holds(f"a full output: {ran}", ran.returncode == 1 and ran.stderr.count(b"\n") == 1)
    ran = subprocess.run(["bash", "-c", '"$0" 1 <&-', TOOL], capture_output=True)
    holds(f"a closed input: {ran}", ran.returncode == 1 and not ran.stdout and ran.stderr.count(b"\n") == 1)


def main():
    small_log()
    limits()
    refusals()
    end(f"of scripts {'and of what the program makes of them' if ROCK else 'alone, since the program is not built'}")


main()
