#!/usr/bin/env python3
"""What the documents say of the crates and of the program's messages, compared with the sources: documents.py

The layers in README.md and the table of docs/CRATES.md have each crate of crates.txt once, and no other. A crate stands
on crates of its own layer and of those below it alone. crates.txt has the layers of README.md, each under its heading,
the lowest first, and a crate stands there after all that it lists and lists only what its files use. A lemma that another
crate cites stands on the list in the README of its own crate, and what stands on such a list is a lemma of the crate.
crates.txt has no more ways than the tools can walk in time. README.md tells rightly which crates the program does
without, and how many it takes. The way of a line names crates alone. docs/OPERATING.md has each line that the program
says on standard error, with its code, and no other; a test of test_help and a row of tests/real_files.sh have each too.
docs/FORMATS.md and docs/rock.1 have the codes. docs/ANSWERS.md has each answer of the table in docs/SCRIPT.md once, with
what it means and what to do, and no other. docs/SCRIPT.md lists each file of the crates' sources and definitions that names
a request. docs/WRONG-BODIES.md names tests that there are. The READMEs of tests, tools and bench have each program, and no
other. Each link of a document leads to a file and a heading that are there. Names in backquotes, in the READMEs of crates and
in the pages on how Rock is built, occur in the sources. README.md is below 1,500 words, and DECISIONS.md has at most 80
entries. This reads files alone, and stands outside the gate. Its status is 0 where all is so.
"""
import glob
import os
import re
import sys

ROOT = os.path.dirname(os.path.dirname(os.path.abspath(__file__)))

failed = []


def holds(what, is_so):
    if not is_so:
        failed.append(what)
        print(f"FAILED: {what}")


def read(name):
    with open(f"{ROOT}/{name}", encoding="utf-8") as file:
        return file.read()


def crates():
    """Of each crate those of the repository that it stands on, by crates.txt."""
    lines = [line.split(":") for line in re.sub("#.*", "", read("crates.txt")).splitlines() if ":" in line]
    listed = {head.split()[0]: below.split() for head, below in lines}
    return {name: [crate for crate in below if crate in listed] for name, below in listed.items()}


def needed(below, name):
    """A crate and all that it stands on."""
    found, left = set(), [name]
    while left:
        crate = left.pop()
        if crate not in found:
            found.add(crate)
            left += below[crate]
    return found


def compare(where, below, names):
    """Whether a list has each crate once, and no other name."""
    holds(f"{where} has each crate once: {sorted(set(names) ^ set(below))}", sorted(names) == sorted(below))


def ordered(where, below, places, is_lower):
    """Whether each crate stands on crates of lower places alone."""
    for name in places:
        wrong = [crate for crate in below.get(name, []) if not is_lower(places.get(crate), places[name])]
        holds(f"{where}: {name} stands on {wrong}", not wrong)


def layers(below, program, picture):
    """The layers of README.md, from the last one up."""
    rows = [row for row in re.split(r"(?m)^\+-.*$", picture) if row.strip()]
    found = [(number, *pair) for number, row in enumerate(rows) for pair in re.findall(r"(\(?)(\w+)", row)]
    compare("the layers of README.md", below, [name for _, _, name in found])
    places = {name: -number for number, _, name in found}
    ordered("the layers of README.md", below, places, lambda lower, upper: lower is not None and lower <= upper)
    for _, bracket, name in found:
        holds(f"the layers of README.md: {name} is in brackets or not", bool(bracket) == (name not in program))


def files_of(name):
    """The sources, definitions and proofs of a crate, without comments that are lines of their own."""
    found = [path for part in ("src", "specs", "proofs") for path in glob.glob(f"{ROOT}/crates/{name}/{part}/**/*.*", recursive=True)]
    texts = [open(path, encoding="utf-8").read() for path in found]
    return re.sub(r"(?m)^ *(//|--).*$", "", "\n".join(texts))


def listing(picture):
    """crates.txt has the layers of README.md from the lowest up, each crate after all that it lists and uses."""
    text = read("crates.txt")
    titles = re.findall(r"(?m)^\+-- (.*?) -+\+$", picture)
    rows = [set(re.findall(r"\w+", row)) for row in re.split(r"(?m)^\+-.*$", picture) if row.strip()]
    parts = re.split(r"(?m)^\n# (.*)\n", text)[1:]
    names = [re.findall(r"(?m)^(\w+)[^:\n]*:", part) for part in parts[1::2]]
    holds("crates.txt has the headings of README.md", parts[0::2] == titles[::-1])
    holds("crates.txt has each layer of README.md", [set(layer) for layer in names] == rows[::-1])
    seen = set()
    for name, below in re.findall(r"(?m)^(\w+)[^:\n]*:(.*)$", text):
        source = files_of(name)
        for crate in below.split():
            holds(f"crates.txt: {name} stands after {crate}", crate in seen or not os.path.exists(f"{ROOT}/crates/{crate}"))
            is_used = re.search(rf"\bRattle\.{crate}\.|\b{crate}::|\buse {crate}\b", source)
            holds(f"crates.txt: {name} uses {crate}", is_used)
        seen.add(name)


def cited():
    """Of each crate the lemmas that others cite, by their files: "" where a file is cited as a whole."""
    found = {}
    for path in glob.glob(f"{ROOT}/crates/*/**/*.antt", recursive=True) + glob.glob(f"{ROOT}/crates/*/src/**/*.rt", recursive=True):
        user = os.path.relpath(path, f"{ROOT}/crates").split("/")
        if "out" in user:
            continue
        with open(path, encoding="utf-8") as file:
            text = file.read()
        uses = re.findall(r"(?m)^ *(?:ghost )?use Rattle\.(\w+)\.proofs\.(\w+)(?:\.\{(.*)\})?(?: as \w+)?;?$", text)
        for crate, name, lemmas in uses:
            if crate != user[0]:
                found.setdefault(crate, {}).setdefault(name, set()).update(lemma.split(" as ")[0] for lemma in lemmas.split(", "))
    return found


def listed(name):
    """The lemmas on the list of a crate's README, by their files: "" where a file is listed as a whole."""
    section = re.search(r"(?s)\n## What other crates stand on\n(.*?)(?=\n## |\Z)", read(f"crates/{name}/README.md"))
    found, file = {}, ""
    for row in re.findall(r"(?m)^\| (`.*?) \|", section.group(1) if section else ""):
        for word in re.findall(r"`(.*?)`", row):
            file, _, lemma = (file + word).partition(".") if word.startswith(".") else word.partition(".")
            found.setdefault(file, set()).add(lemma)
    return found


def ways(below):
    """How many ways down crates.txt has, over all crates. The tools walk each of them, so the gate's time grows with them."""
    counted = {}

    def of(name):
        if name not in counted:
            counted[name] = 1 + sum(of(crate) for crate in below[name])
        return counted[name]

    total = sum(of(name) for name in below)
    holds(f"crates.txt has at most 850,000 ways: {total}", total <= 850_000)


def lending(below):
    """What a crate lends, and what it says of that."""
    uses = cited()
    for name in below:
        said = listed(name)
        for file, lemmas in uses.get(name, {}).items():
            missing = set() if "" in said.get(file, ()) else lemmas - said.get(file, set())
            holds(f"crates/{name}/README.md lists what others cite of {file}: {sorted(missing)}", not missing)
        for file, lemmas in said.items():
            path = f"crates/{name}/proofs/{file}.antt"
            there = read(path) if os.path.exists(f"{ROOT}/{path}") else None
            holds(f"crates/{name}/README.md lists a file that is there: {file}", there is not None)
            strange = [lemma for lemma in lemmas if lemma and not re.search(rf"(?m)^ *(?:abbrev |unfoldable )?pub (?:record |data )?{re.escape(lemma)} ", there or "")]
            holds(f"crates/{name}/README.md lists lemmas of {file}: {strange}", not strange)


def readme(below):
    program, text = needed(below, "rock_main"), read("README.md")
    picture, way = re.findall(r"(?s)```text\n(.*?)```", text)
    layers(below, program, picture)
    listing(picture)
    strange = set(re.findall(r"[a-z]+_[a-z]+", way)) - set(below)
    holds(f"the way of a line names crates alone: {sorted(strange)}", not strange)
    holds(f"README.md: the program takes {len(program)} crates", f"builds the {len(program)} crates" in text)


def table(below):
    """The table of docs/CRATES.md."""
    program, text = needed(below, "rock_main"), read("docs/CRATES.md")
    rows = re.findall(r"(?m)^\| \[`(\w+)`\]\(\.\./crates/\1/README.md\) \| (yes|no) \|", text)
    compare("the table of docs/CRATES.md", below, [name for name, _ in rows])
    for name, word in rows:
        holds(f"the table of docs/CRATES.md: {name} is in the program", (word == "yes") == (name in program))


def spelled(sentence):
    """The form of a sentence, with a word in capitals for each that is put into it."""
    return "[A-Z]+".join(map(re.escape, re.split(r"\{\w*\}", sentence)))


def arms(function, front):
    """The arms of a function of rock_help that tells sentences: the word behind what stands in front of each, and the
    sentences, of which an arm may have two."""
    source = re.search(rf"(?s)\nfn {function}\(.*?\n}}\n", read("crates/rock_help/src/message.rt")).group()
    found = re.split(rf"\n        {front}(?=\w)", source)[1:]
    return [(re.match(r"\w+", arm).group(), re.findall(r'"([^"\n]+)"', arm)) for arm in found]


def sentences():
    """The sentences of rock_help: the status, its field or none, and the sentence."""
    told = [(name, None, text) for name, texts in arms("explanation", "Status::") for text in texts]
    told += [("DeviceFault", None, text) for _, texts in arms("failed_disk", "DiskCause::") for text in texts]
    fields = arms("outside_limits", "")
    # The slot size has the field that is left, and nothing is said where all was done.
    told += [("BadGeometry", field.replace("_", "1"), text) for field, texts in fields for text in texts]
    return [line for line in told if line[0] != "Done"]


def statuses():
    """Of each status the code, and its text with a word in capitals for each number, by rock_status."""
    source = read("crates/rock_status/src/status.rt")
    codes = {name: code for names, code in re.findall(r"(?m)^ {12}(Status::.*) => (\d+),$", source)
             for name in re.findall(r"Status::(\w+)", names)}
    texts = dict(re.findall(r'Status::(\w+)[^"\n]*"(\w[^"]*)"', source))
    return codes, {name: spelled(text) for name, text in texts.items()}


def unfolded(text):
    """A script, with the text of each variable that is set to quoted words in a line of its own, and without these
    lines."""
    setting = r"(?m)^(\w+)=(['\"])([^'\"$\n]*)\2$"
    rows = re.sub(setting, "", text)
    for name, _, words in re.findall(setting, text):
        rows = re.sub(rf"\${name}\b", lambda _: words, rows)
    return rows


def messages():
    """The lines on standard error, by the sentences of rock_help, stand in docs/OPERATING.md with their codes, and no
    others. A test of test_help and a row of tests/real_files.sh have each line too."""
    told, tests = read("docs/OPERATING.md"), read("crates/test_help/src/lines.rt")
    rows = unfolded(read("tests/real_files.sh"))
    lines = sentences()
    codes, texts = statuses()
    causes = re.findall(r'(?m)^ +(\d|_) => "([^"\n]+)"', read("crates/rock_help/src/message.rt"))
    holds("the sentences are found", len(lines) == 19 and len(causes) == 9)
    holds("the statuses are found", len(codes) == 11 and set(codes) == set(texts))
    holds("each status has a sentence", {name for name, _, _ in lines} == set(codes) - {"Done"})
    listed = re.findall(r"(?m)^\| (\d+) \| `(rock: .*?)` \|", told)
    holds("docs/OPERATING.md has a line for each sentence alone", len(listed) == len(lines))
    for status, field, sentence in lines:
        form = f"rock: {texts[status].replace('[A-Z]+', field or '[A-Z]+')}: {spelled(sentence)}"
        found = [code for code, line in listed if re.fullmatch(form, line)]
        holds(f"docs/OPERATING.md has the line once, with its code: {status}: {sentence}", found == [codes[status]])
        seen = form.replace("[A-Z]+", r"(?:\$\(.*?\)|[^ ])+")
        holds(f"tests/real_files.sh has the line: {status}: {sentence}", re.search(seen, rows))
        read_form = form.replace("[A-Z]+", '[^"\n]+')
        holds(f"a test of test_help reads: {status}: {sentence}", re.search(f'(?m); {read_form}(";)?$', tests))
    wrong, behind = next(sentence for status, _, sentence in lines if status == "BadScript").split("{}")
    for cause, sentence in causes:
        number = cause.replace("_", "9")
        holds(f"docs/OPERATING.md has cause {number}", f"\n| {number} | `{sentence}` |" in told)
        front = spelled(f"rock: BadScript line={{line}} cause={number}: {wrong}").replace("[A-Z]+", r"\d+")
        whole = f'(?m); {front}{re.escape(sentence + behind)}(";)?$'
        holds(f"a test of test_help reads cause {number}", re.search(whole, tests))
        holds(f"tests/real_files.sh has cause {number}", re.search(rf"(?m)^bad \d+ {number} ", rows))
    named = re.findall(r"(?m)^\| (\d+) \| ([A-Z]\w+(?:, [A-Z]\w+)*) \|", read("docs/FORMATS.md"))
    pairs = {name: code for code, names in named for name in names.split(", ")}
    holds("docs/FORMATS.md has each status with its code", pairs == codes)
    manual = re.findall(r"(?m)^\.B (\d+)$", read("docs/rock.1"))
    holds("docs/rock.1 has each code once", sorted(manual) == sorted(set(codes.values())))


def answers_of_scripts():
    """The texts of all answers, by the table in docs/SCRIPT.md."""
    table = re.search(r"(?s)\n\| answer \| text \|\n(.*?)\n\n", read("docs/SCRIPT.md")).group(1)
    rows = [re.findall("`(.*?)`", row.split(" | ")[1]) for row in table.splitlines()[1:]]
    # One row tells its answers by those of the row before.
    same = rows.index(["NONE", "MISS"])
    rows[same] = [text.replace("MISS", "NONE") for text in rows[same - 1]]
    return [text for row in rows for text in row]


def answers():
    """docs/ANSWERS.md has each answer once, and no other, with one sentence or two on each side."""
    texts = answers_of_scripts()
    holds(f"the answers of docs/SCRIPT.md are found: {len(texts)}", len(texts) == 37 and texts.count("NONE other epoch KEY") == 1)
    rows = re.findall(r"(?m)^\| `([A-Z].*?)` \| (.*?) \| (.*?) \|$", read("docs/ANSWERS.md"))
    told = [text for text, _, _ in rows]
    wrong = {text for text in texts + told if texts.count(text) != told.count(text)}
    holds(f"docs/ANSWERS.md has each answer of docs/SCRIPT.md once: {sorted(wrong)}", not wrong)
    for text, *sides in rows:
        counts = [len(re.findall(r"[^.]\.(?= |$)", side)) for side in sides]
        holds(f"docs/ANSWERS.md says in a sentence or two what {text} means, and what to do: {counts}", set(counts) <= {1, 2})


def pages():
    """All documents, by their paths."""
    found = glob.glob(f"{ROOT}/*.md") + glob.glob(f"{ROOT}/*/*.md") + glob.glob(f"{ROOT}/crates/*/*.md")
    return sorted(os.path.relpath(path, ROOT) for path in found)


def headings(page):
    """The anchors of a document's headings, as the sites make them that show it."""
    text = re.sub(r"(?ms)^```.*?^```$", "", read(page))
    return {re.sub(r"[^\w -]", "", line.lower()).replace(" ", "-") for line in re.findall(r"(?m)^#+ (.*)$", text)}


def links():
    """Each link that leads to a file of the repository leads to one that is there, and to one of its headings."""
    for page in pages():
        for target in re.findall(r"\]\(([^)\s]+)\)", read(page)):
            path, _, heading = target.partition("#")
            if "://" in path:
                continue
            to = os.path.normpath(os.path.join(os.path.dirname(page), path)) if path else page
            there = os.path.exists(f"{ROOT}/{to}")
            holds(f"{page}: the link {target} leads to a file", there)
            if heading and there:
                holds(f"{page}: the link {target} leads to a heading", heading in headings(to))


def sizes():
    """README.md stays short, and so does DECISIONS.md."""
    text, decisions = read("README.md"), read("docs/DECISIONS.md")
    holds(f"README.md has fewer than 1,500 words: {len(text.split())}", len(text.split()) < 1500)
    long = [line[:40] for line in text.splitlines() if len(line) > 200 and not line.startswith("|")]
    holds(f"README.md has no line of more than 200 characters but in tables: {long}", not long)
    entries = len(re.findall(r"(?m)^- \*\*", decisions))
    holds(f"docs/DECISIONS.md has at most 80 entries: {entries}", 0 < entries <= 80)


def requests():
    """docs/SCRIPT.md lists each file of sources and definitions that names requests, those of the crates of tests aside."""
    section = re.search(r"(?s)\n## To add a request\n(.*?)(?=\n## |\Z)", read("docs/SCRIPT.md")).group(1)
    table, crate = set(), ""
    for first, files in re.findall(r"(?m)^\|(?: (`\w+`))? \| (`.*?) \| .*\|$", section):
        crate = first.strip("`") or crate
        table |= {f"{crate}/{file}" for file in re.findall(r"`([\w./]+)`", files)}
    holds("docs/SCRIPT.md has a table of files to add a request", len(table) > 20)
    for file in table:
        holds(f"docs/SCRIPT.md: {file} is there", os.path.exists(f"{ROOT}/crates/{file}"))
    for path in glob.glob(f"{ROOT}/crates/*/s*/**/*.*", recursive=True):
        file = os.path.relpath(path, f"{ROOT}/crates")
        if re.match(r"(?!test_)\w+/(src|specs)/", file):
            with open(path, encoding="utf-8") as source:
                names = re.search(r"\b(CloseTab|DropTab|Purge)\b", source.read())
            holds(f"docs/SCRIPT.md: {file} is in the table of files to add a request", not names or file in table)


def wrong_bodies():
    """docs/WRONG-BODIES.md names tests of the crates that it says, and functions of the crates in which bodies were planted."""
    rows = re.findall(r"(?m)^\| (.*?) \| (.*?) \| (.*) \|$", read("docs/WRONG-BODIES.md"))[2:]
    holds("docs/WRONG-BODIES.md has a table", len(rows) > 10)
    for what, planted, fails in rows:
        crate = ""
        for name in re.findall(r"`(\w+)`", fails):
            crate = name if name.startswith("test_") else crate
            holds(f"docs/WRONG-BODIES.md: {what}: {name}", name == crate or crate and re.search(rf"\bfn {name}\b", files_of(crate)))
        for name, crate in re.findall(r"`(\w+)` of `(\w+)`", planted):
            holds(f"docs/WRONG-BODIES.md: {name} of {crate}", re.search(rf"\bfn {name}\b", files_of(crate)))


def programs():
    """The READMEs of tests, tools and bench name each program beside them, and no program that is not there."""
    for folder in ("tests", "tools", "bench"):
        text = read(f"{folder}/README.md")
        found = glob.glob(f"{ROOT}/{folder}/*.*") + glob.glob(f"{ROOT}/{folder}/helpers/*.*")
        there = {os.path.basename(path) for path in found if not path.endswith(".md")}
        told = set(re.findall(r"`(\w+\.(?:py|sh|c|h))\b", text))
        holds(f"{folder}/README.md names each program: {sorted(there - told)}", not there - told)
        holds(f"{folder}/README.md names programs that are there: {sorted(told - there)}", not told - there)


def source_words():
    """The words of the sources, definitions and proofs of all crates, with the names of crates, files and edits."""
    found = set(os.listdir(f"{ROOT}/crates"))
    for part in ("src", "specs", "proofs"):
        for path in glob.glob(f"{ROOT}/crates/*/{part}/**/*.*", recursive=True):
            with open(path, encoding="utf-8") as file:
                found |= set(re.findall(r"\w+", file.read()))
            found.add(os.path.splitext(os.path.basename(path))[0])
    edits = glob.glob(f"{ROOT}/tests/edits/*/*") + glob.glob(f"{ROOT}/crates/*/must-fail/*")
    return found | {os.path.splitext(os.path.basename(path))[0] for path in edits}


def is_path(page, name):
    """Whether a path stands in the repository, in crates/, beside the page, or in some crate."""
    roots = [ROOT, f"{ROOT}/crates", f"{ROOT}/{os.path.dirname(page)}", f"{ROOT}/crates/*"]
    return any(glob.glob(f"{root}/{name}") or glob.glob(f"{root}/{name}.antt") for root in roots)


def names():
    """Names in backquotes occur in the sources, and paths are there. Commands of the shell and the like are left out."""
    known = source_words()
    built = ["DECISIONS", "CRASHES", "STATE-MACHINE", "SERVING", "WRONG-BODIES", "CRATES"]
    for page in ["README.md"] + [f"docs/{name}.md" for name in built] + [page for page in pages() if page.startswith("crates/")]:
        wrong = set()
        for name in re.findall(r"`([^`\n]+)`", read(page)):
            if "/" in name and re.fullmatch(r"[\w./-]+", name):
                wrong |= set() if is_path(page, name) else {name}
            elif re.fullmatch(r"\.?[A-Za-z]\w*((::|\.)[A-Za-z_]\w*)*", name) and name not in ("crates.txt", "diff"):
                wrong |= {name} if set(re.findall(r"\w+", name)) - known else set()
        holds(f"{page}: names in backquotes occur in the sources: {sorted(wrong)}", not wrong)


def main():
    below = crates()
    readme(below)
    table(below)
    ways(below)
    lending(below)
    messages()
    answers()
    links()
    sizes()
    requests()
    wrong_bodies()
    programs()
    names()
    print(f"{len(failed)} comparisons failed")
    sys.exit(1 if failed else 0)


main()
