#!/usr/bin/env python3
"""Makes a script for `rock run` from the access log of a proxy.

    tools/log_script.py WORKERS <access.log >script
    rock run cache.db 16384 1024 WORKERS <script
    tools/log_script.py --help

The log comes on standard input, in the native format of Squid: time, elapsed, client, result/status, bytes, method, URL,
user, peer and type, with spaces between them. Of each line of the log the script asks what the proxy asked its store:

  GET that was a hit       get URL
  GET that was a miss      get URL, and then put URL with so many bytes as the proxy sent
  PURGE                    purge URL

A hit has HIT, REFRESH_UNMODIFIED or REFRESH_FAIL_OLD in its result, and a miss has MISS or REFRESH_MODIFIED. The bytes of
the log count the header of the reply too. The bodies are letters, which begin with another one each time that a URL is
stored anew. The URLs go to the workers in turn, in the order in which they come first, and all lines of a URL to the same
worker, so that they keep their order. What the proxy had before the log begins is a miss in the run.

What a script may not have, and what is no use of a store, is left out. Standard error has a line on how much of the log is
in the script, and one for each cause for which lines were left out, with how many these are.

Exit status:
  0  the script was written, whatever was left out
  1  standard input could not be read, or standard output did not take the script
  2  the words are wrong
"""
import re
import sys

MOST_LINES, MOST_URL, MOST_BODY, MOST_BODIES = 4096, 2048, 4194304, 67108864
LINE = re.compile(rb"\d+\.\d+ +-?\d+ \S+ (\w+)/(\d{3}) (\d+) (\S+) (\S+) \S+ \S+ \S+")

# Why a line of the log is left out: the first of these that it has.
FORMAT = "it has not the native format"
METHOD = "its method is neither GET nor PURGE"
RESULT = "it tells of no whole response with status 200 that was a hit or a miss"
URL = f"its URL is not of 1 to {MOST_URL} bytes from 0x21 to 0x7e"
BODY = f"its body has more than {MOST_BODY} bytes"
BODIES = f"with it all bodies have more than {MOST_BODIES} bytes"
ROOM = f"with it the script has more than {MOST_LINES} lines"
CAUSES = (FORMAT, METHOD, RESULT, URL, BODY, BODIES, ROOM)


class LeftOut(Exception):
    """Why a line of the log is left out."""


class Script:
    """The lines of a script for so many workers, and what was left out of it."""

    def __init__(self, workers):
        self.workers, self.lines, self.bodies = workers, [], 0
        # Of each URL the worker, and how often it is stored.
        self.worker_of, self.stored = {}, {}
        self.taken, self.left_out = 0, dict.fromkeys(CAUSES, 0)

    def take(self, line):
        """Puts what a line of the log asks for into the script, or counts why not."""
        try:
            self.ask(*read_line(line))
            self.taken += 1
        except LeftOut as cause:
            self.left_out[cause.args[0]] += 1

    def ask(self, requests, url, size):
        """Puts the requests of a line of the log behind the others, where they have room."""
        body = size if "put" in requests else 0
        if body > MOST_BODY:
            raise LeftOut(BODY)
        if self.bodies + body > MOST_BODIES:
            raise LeftOut(BODIES)
        if len(self.lines) + len(requests) > MOST_LINES:
            raise LeftOut(ROOM)
        self.bodies += body
        worker = self.worker_of.setdefault(url, 1 + len(self.worker_of) % self.workers)
        for request in requests:
            self.lines.append(f"{worker} {request} {url}{self.body_of(url, size) if request == 'put' else ''}\n")

    def body_of(self, url, size):
        """The body of a response, as the last word of a line."""
        before = self.stored.get(url, 0)
        self.stored[url] = before + 1
        return f" #{size}:{before % 26}"

    def summary(self):
        """What is said on standard error, line by line."""
        read = self.taken + sum(self.left_out.values())
        yield f"of {read} lines of the log {self.taken} are in the script, as {len(self.lines)} lines for {self.workers} workers"
        for cause, count in self.left_out.items():
            if count:
                yield f"left out {count}: {cause}"


def read_line(line):
    """The requests, the URL and the bytes of a line of the log."""
    fields = LINE.fullmatch(line.rstrip(b"\r\n"))
    if not fields:
        raise LeftOut(FORMAT)
    result, status, size, method, url = fields.groups()
    requests = requests_of(result.decode(), status, method)
    if len(url) > MOST_URL or re.search(rb"[^\x21-\x7e]", url):
        raise LeftOut(URL)
    return requests, url.decode(), int(size)


def requests_of(result, status, method):
    if method not in (b"GET", b"PURGE"):
        raise LeftOut(METHOD)
    if method == b"PURGE" and "DENIED" not in result:
        return ["purge"]
    if method == b"PURGE" or status != b"200" or re.search("ABORTED|TIMEDOUT|DENIED", result):
        raise LeftOut(RESULT)
    if re.search("HIT|REFRESH_UNMODIFIED|REFRESH_FAIL_OLD", result):
        return ["get"]
    if re.search("MISS|REFRESH_MODIFIED", result):
        return ["get", "put"]
    raise LeftOut(RESULT)


def say(text):
    print(f"log_script.py: {text}", file=sys.stderr)


def main():
    words = sys.argv[1:]
    if words == ["--help"]:
        print(__doc__.strip())
        return 0
    if len(words) != 1 or not re.fullmatch("[1-9]|[12][0-9]|3[0-2]", words[0]):
        say("the only word is the number of workers, from 1 to 32; --help says more")
        return 2
    script = Script(int(words[0]))
    try:
        with open(0, "rb", closefd=False) as log:
            for line in log:
                script.take(line)
        with open(1, "w", encoding="ascii", closefd=False) as output:
            output.writelines(script.lines)
    except OSError as cause:
        say(cause)
        return 1
    for text in script.summary():
        say(text)
    return 0


if __name__ == "__main__":
    sys.exit(main())
