#!/usr/bin/env python3
"""Checks the pages: their set, their claims, links, examples, language, and the sentences at public calls.

    tests/documents.py           at the top of the repository; its last line is 'N passed, M failed'
    tests/documents.py --long    and the sentences of pages that have more than 25 words
It proves nothing, and takes some seconds. It looks at these:
- The pages are those of PAGES, and one of each library and binding. No line of a page, source or definition is wider
  than 120 columns.
- In a table of docs/PROOFS.md or README.md whose heads are 'Claim' and 'Carried by', each row names public calls of
  the crates in the heading above (of a program also those below it; in README.md of any) and, after a colon, clauses
  that these calls have. The clauses in the glossary of docs/PROOFS.md are those of some call.
- Each public call of a library has a sentence and stands in out/proved.md, which tools/pages.py writes here.
- Each link leads to a file that is there, and to a heading that it has; each path and each name of a file in backquotes
  is there. A name in backquotes, of several words put together, stands in some file that is no page.
- Each block of Rust is a part of a program or caller that the gate runs; each edit shown is one that is there. (Lines
  and their replies are played by tests/program.py, the pages of the crates by tests/calling.py, blocks of Python by
  tests/bindings_python.py, those of a console by tests/packages.py.)
- Dates and hashes stand in CHANGELOG.md and docs/PERFORMANCE.md alone, and each hash is of a commit that leads to this
  one: so a clone of this branch alone has it. (In a shallow clone, which has no history, hashes are not looked at.) The
  picture there is drawn from its tables.
- docs/TESTING.md has a row for each part of ./test, in its order.
- Sentences: in README.md and docs/TOUR.md the mean has at most 20 words; in each page at most one in ten has more than
  25, and none more than 40; none begins with what it denies.
"""
import os
import re
import subprocess
import sys
from glob import glob

import cases
import pages

WIDTH, MEAN, LONG, LONGEST, PART = 120, 20, 25, 40, 0.1
PAGES = ["README.md", "docs/INSTALL.md", "docs/LANGUAGE.md", "docs/TOUR.md", "docs/PROOFS.md", "docs/TESTING.md",
         "CONTRIBUTING.md", "docs/DECISIONS.md", "docs/PERFORMANCE.md", "CHANGELOG.md", "tests/wrong/table.md", "docs/USES.md"]
SHORT = ("README.md", "docs/TOUR.md")
DATED = ("CHANGELOG.md", "docs/PERFORMANCE.md")
MONTHS = "January|February|March|April|May|June|July|August|September|October|November|December"
DATE = re.compile(rf"\b20\d\d-\d\d-\d\d\b|\b(?:{MONTHS}) \d")
HASH = re.compile(r"\b(?=[0-9a-f]*[a-f])(?=[0-9a-f]*\d)[0-9a-f]{7,40}\b")
DENIES = re.compile(r"(?:No|Not|Neither|Nor|Never|Nothing|None|Nobody|Nowhere)\b")
# Names as `NodeArena` or `find_place`, and those of the kit.
NAME = re.compile(r"\b(?:[A-Z]+[a-z]\w*[A-Z]\w*|[A-Za-z]\w*_\w*[A-Za-z])\b")
OF_THE_KIT = {"also_shares"}
FILE = re.compile(r"`((?:src/|specs/|proofs/)?[\w/]+\.(?:rt|antt|py|edits|lines|c|rs))`")
PATH = re.compile(r"(?:\.ci|bindings|crates|docs|perf|tests|tools)/[\w./-]+|[A-Z]+\.md|crates\.txt|proved\.txt|\./\w+")


def files():
    words = ["git", "ls-files", "-co", "--exclude-standard"]
    found = subprocess.run(words, capture_output=True, text=True, check=True).stdout.splitlines()
    return [it for it in found if os.path.exists(it)]


def without_blocks(page):
    return re.sub(r"(?ms)^```.*?^```", "", pages.read(page))


def lines_in(numbers):
    return ", ".join(map(str, numbers[:8]))


def of_set(found):
    for page in sorted({*PAGES} - {*found}):
        yield page, "it is not there"
    for crate in pages.crates():
        if os.path.exists(f"crates/{crate}/src/lib.rt"):
            has = f"crates/{crate}/README.md" in found
            yield f"crates/{crate}/README.md", "" if has else "the library has no page"
    for page in found:
        is_known = page in PAGES or re.fullmatch(r"(crates|bindings)/\w+/README\.md", page)
        yield page, "" if is_known else "it is no page of the set"


def of_width():
    for path in files():
        if path.endswith((".md", ".rt")) or (path.endswith(".antt") and "/specs/" in path):
            # (rt fmt writes a line of #![tactic(..)] whole, however long it is)
            lines = enumerate(pages.read(path).split("\n"), 1)
            wide = [at for at, line in lines if len(line) > WIDTH and not line.startswith("#![tactic(")]
            yield path, f"wider than {WIDTH} columns: lines {lines_in(wide)}" if wide else ""


# Claims.


def cells_of(line):
    return [it.strip() for it in re.split(r"(?<!\\)\|", line.strip())[1:-1]]


def claims(page):
    """The rows of a page's tables of claims: the words in backquotes of the heading above, which are crates and types
    whose methods stand by their own names; the claim; and what carries it."""
    heads, is_claims = [], False
    for line in pages.read(page).split("\n"):
        if line.startswith("#"):
            heads = re.findall(r"`(\w+)`", line)
        cells = cells_of(line) if line.startswith("|") else []
        if not cells:
            is_claims = False
        elif cells == ["Claim", "Carried by"]:
            is_claims = True
        elif is_claims and not set(cells[0]) <= {"-", ":"}:
            yield heads, cells[0], cells[-1]


def below(crates):
    """These crates; of a program also the libraries that it stands on, since it has no face of its own."""
    stands_on = dict(re.findall(r"(?m)^([\w-]+)(?: [^:#\n]*)?: (.*)", pages.read("crates.txt")))
    of_program = [it for crate in crates if not exported(crate) for it in stands_on[crate].split()]
    return crates + [it for it in of_program if os.path.isdir(f"crates/{it}")]


def of_claims(page, known):
    """Each part of 'Carried by', parted by ';', is `Call`, `Call`: clause, clause."""
    rows = list(claims(page))
    yield f"{page}, its claims", "" if rows else "it has no table of claims"
    for heads, claim, carried in rows:
        names = {}
        for crate in known if page == "README.md" else below([it for it in heads if it in known]):
            for name, has in known[crate].items():
                short = name.split("::")[1:] if name.split("::")[0] in heads else []
                for it in [name, *short]:
                    names[it] = names.get(it, set()) | has
        faults = [] if names else [f"its heading names no crate that is here: {heads}"]
        for part in carried.split(";") if names else []:
            called, _, clauses = part.partition(": ")
            named = re.findall(r"`([\w:]+)`", called)
            faults += [f"no public call {it}" for it in named if it not in names] + ["it names none"] * (not named)
            has = set().union(*(names[it] for it in named if it in names), set())
            faults += [f"no clause {it} of {called.strip()}" for it in re.findall(r"\w+", clauses) if it not in has]
        yield f"{page}: {claim}", "; ".join(faults)


def of_glossary(known):
    """The clauses that docs/PROOFS.md explains by their names are there."""
    every = {it for calls in known.values() for has in calls.values() for it in has}
    table = pages.read("docs/PROOFS.md").split("| Clause | What it says |\n")[1].split("\n\n")[0]
    for line in table.split("\n")[1:]:
        lacking = [it for it in re.findall(r"`(\w+)`", cells_of(line)[0]) if it not in every]
        yield f"docs/PROOFS.md: {cells_of(line)[0]}", f"no call has a clause {', '.join(lacking)}" if lacking else ""


def of_calls(every):
    """Each public call has a sentence, and a row in the page that is made."""
    made = pages.read("out/proved.md")
    for crate, calls in every.items():
        for it in calls:
            if it.public and exported(crate):
                lacks = "it has no sentence" if not it.sentence() else ""
                yield f"{crate}: {it.name}", lacks or ("" if f"- `{it.name}` (" in made else "it has no row")


def exported(crate):
    return os.path.exists(f"crates/{crate}/src/lib.rt")


# Links and examples.


def anchors(page):
    heads = re.findall(r"(?m)^#+ (.*)", without_blocks(page))
    return {re.sub(r"[^\w\- ]", "", it.lower()).replace(" ", "-") for it in heads}


def of_links(page):
    text, folder = pages.read(page), os.path.dirname(page)
    for target in re.findall(r"\]\(([^)\s]+)\)", without_blocks(page)):
        path, _, anchor = target.partition("#")
        if re.match(r"\w+:", target):
            continue
        to = os.path.normpath(os.path.join(folder, path)) if path else page
        why = "" if os.path.exists(to) else "it is not there"
        if not why and anchor and anchor not in anchors(to):
            why = f"{to} has no heading {anchor}"
        yield f"{page}: link to {target}", why
    for path in sorted({*PATH.findall(" ".join(re.findall(r"`([^`\n]+)`", text)))}):
        if not re.search(r"NAME|PART|FILE|\bX\b|\*|SOURCE|/out\b|CRATE|\./artmap", path) and page not in DATED:
            yield f"{page}: {path}", "" if os.path.exists(path.rstrip(".")) else "it is not there"


def of_names(page):
    """Names of files, and paths below a crate, in backquotes."""
    known = files()
    for name in sorted({*FILE.findall(pages.read(page))}):
        if not re.search(r"NAME|PART|SOURCE|FUNCTION|\bX\b|\ba/b\b", name):
            is_there = any(f"/{it}".endswith(f"/{name}") for it in known)
            yield f"{page}: {name}", "" if is_there else "no file has that name"


def words_of_files():
    """The words of all files but pages, and this one."""
    found = set()
    for path in files():
        if not path.endswith((".md", ".svg", "tests/documents.py")):
            with open(path, encoding="utf-8", errors="replace") as file:
                found.update(re.findall(r"\w+", file.read()))
    return found


def of_words(page, known):
    """Names of types and functions in backquotes: what was renamed is so found."""
    told = " ".join(re.findall(r"`([^`\n]+)`", without_blocks(page)))
    lacking = sorted({*NAME.findall(told)} - known - OF_THE_KIT)
    yield f"{page}: names", f"no file has {', '.join(lacking)}" if lacking else ""


def blocks(kind, page):
    return re.findall(rf"(?m)^```{kind}\n((?:.*\n)*?)```$", pages.read(page))


def of_examples(page):
    """Rust is of a caller or of a program that is run; tests/newcomer.py runs that of README.md."""
    played = glob("crates/callers/src/*.rt") + glob("crates/use_*/src/main.rt") + glob("bindings/rust/examples/*.rs")
    texts = [pages.read(it) for it in played]
    kept = [pages.read(it) for it in glob("crates/*/edits/**/*.edits", recursive=True)]
    for block in blocks("rust", page):
        is_there = page == "README.md" or any(block in it for it in texts)
        yield f"{page}: {block[:50]!r}", "" if is_there else "no caller and no program has this text"
    of_c = [pages.read(it) for it in glob("bindings/c/*")]
    for block in blocks("c", page):
        is_there = any(block in it for it in of_c)
        yield f"{page}: {block[:50]!r}", "" if is_there else "no program in C has this text"
    for block in blocks("edit", page):
        is_there = any(block in it for it in kept)
        yield f"{page}: {block[:50]!r}", "" if is_there else "no file of edits has this text"
    for block in re.findall(r"(?m)^```(\w*)\n", pages.read(page))[::2]:
        why = "" if block in ("", "rust", "edit", "text", "sh", "c", "python", "console") else "a block of this kind is played by none"
        yield f"{page}: block {block}", why


def of_plot():
    how = {"stdin": subprocess.DEVNULL, "capture_output": True, "text": True}
    ran = subprocess.run([sys.executable, "-B", "tools/plot.py", "--check"], **how)
    yield "docs/performance.svg", ran.stderr.strip() if ran.returncode else ""


def of_parts():
    parts = re.findall(r'(?m)^    "(\w+)": \["tests/', pages.read("test"))
    told = re.findall(r"(?m)^\| `(\w+)` \|", pages.read("docs/TESTING.md"))
    yield "docs/TESTING.md: the parts of ./test", "" if told == parts else f"it has {told}, and ./test {parts}"


def of_commits(page):
    """Each commit that a page names is this one or leads to it."""
    asks = lambda *words: subprocess.run(["git", *words], capture_output=True, text=True)
    if asks("rev-parse", "--is-shallow-repository").stdout.strip() == "true":
        return
    for name in sorted({*HASH.findall(without_blocks(page))}):
        is_known = asks("cat-file", "-e", f"{name}^{{commit}}").returncode == 0
        leads = is_known and asks("merge-base", "--is-ancestor", name, "HEAD").returncode == 0
        why = "it doesn't lead to this commit" if is_known else "there is no such commit"
        yield f"{page}: commit {name}", "" if leads else why


# Language.


def prose(page):
    """The text of a page without its blocks, tables, headings and marks."""
    text = re.sub(r"(?ms)^```.*?^```\n", "\n\n", pages.read(page))
    kept = []
    for line in text.split("\n"):
        is_apart = re.match(r"\s*(#|\||!\[|    \S)", line) and not re.match(r"\s*[-*0-9]", line)
        begins = re.match(r"\s*(?:[-*]|\d+\.) +", line)
        kept += ["", "" if is_apart else line[begins.end() :]] if begins or is_apart else [line]
    text = re.sub(r"\[([^\]]*)\]\([^)]*\)", r"\1", "\n".join(kept))
    return re.sub(r"`[^`]*`", lambda it: it[0].replace(". ", "._").replace(" ", "_"), text.replace("**", ""))


def sentences(page):
    for part in re.split(r"\n\s*\n", prose(page)):
        for it in re.split(r"(?<=[.?!])[\"')]?\s+", " ".join(part.split())):
            if it:
                yield it


def of_language(page):
    told = list(sentences(page))
    sizes = [len(it.split()) for it in told]
    if page not in DATED:
        text = without_blocks(page)
        found = DATE.findall(text) + HASH.findall(text)
        yield f"{page}: dates and hashes", f"it has {', '.join(found[:4])}" if found else ""
    if page in SHORT:
        mean = sum(sizes) / len(sizes)
        yield f"{page}: mean sentence", f"{mean:.1f} words, of {MEAN}" if mean > MEAN else ""
    long = [it for it in told if len(it.split()) > LONG]
    is_fine = len(long) <= PART * len(told)
    yield f"{page}: long sentences", "" if is_fine else f"{len(long)} of {len(told)}: {long[0][:80]}"
    longest = [it for it in told if len(it.split()) > LONGEST]
    yield f"{page}: longest sentence", f"over {LONGEST} words: {longest[0][:80]}" if longest else ""
    denies = [it for it in told if DENIES.match(it)]
    yield f"{page}: what it says first", f"it begins with what it denies: {denies[0][:80]}" if denies else ""


def main():
    found = sorted(it for it in files() if it.endswith(".md"))
    if "--long" in cases.given(__doc__, "--long", words=0):
        for page in found:
            told = [it for it in sentences(page) if len(it.split()) > LONG]
            sizes = [len(it.split()) for it in sentences(page)]
            mean = sum(sizes) / max(1, len(sizes))
            print(f"{page}: {mean:.1f} words a sentence, {len(told)} of {len(sizes)} are long")
            print("".join(f"    {len(it.split())}: {it}\n" for it in told), end="")
        return
    pages.write()
    every = {crate: list(pages.calls(crate)) for crate in pages.crates()}
    known = {crate: {} for crate in every}
    for crate, calls in every.items():
        for it in calls:
            if it.public:
                known[crate].setdefault(it.name, set()).update(it.names())
    rows = [*of_set(found), *of_width(), *of_calls(every), *of_parts(), *of_plot()]
    rows += of_glossary(known)
    for page in ("README.md", "docs/PROOFS.md"):
        rows += of_claims(page, known) if page in found else []
    words = words_of_files()
    for page in found:
        rows += [*of_words(page, words), *of_links(page), *of_names(page), *of_examples(page), *of_commits(page), *of_language(page)]
    told = cases.Tally()
    for name, why in rows:
        told.count(name, why, is_shown=False)
    told.end()


main()
