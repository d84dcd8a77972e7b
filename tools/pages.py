#!/usr/bin/env python3
"""Pages that a program can print, made from the sources of crates/.

    tools/pages.py               at the top of the repository; writes these, and prints their names
      out/proved.md              each public call: its sentence, and the clauses of its contract
      out/definitions.md         each definition of specs/, with the sentence above it
      out/rooms.md               each file of src/, specs/ and proofs/, with its first sentence
      out/wrong_bodies.md        each wrong body: where it stands, what it changes, which runs try it
    tools/pages.py CRATE         prints the calls of one crate as they stand in out/proved.md
tests/documents.py imports what stands here, and has the pages written at each run of ./test.
"""
import os
import re
import sys
from glob import glob

TOP = os.path.dirname(os.path.dirname(os.path.realpath(__file__)))
HEAD = re.compile(r"(?:pub )?(?:unsafe )?(impl|trait)\b")
FUNCTION = re.compile(
    r"(\s*)(pub )?(?:pub\(\w+\) )?(?:final )?(?:const )?(?:unsafe )?(?:extern \"C\" )?fn (\w+)"
)
CLAUSE = re.compile(r"\s*(?:(?:requires|ensures)\*?\s+(\w+)?|(passed)\b)")
# A crate that is no part of the product.
CALLERS = "callers"


def read(path):
    with open(path, encoding="utf-8") as file:
        return file.read()


def crates():
    """The names of crates.txt, lowest first, without that of callers."""
    names = re.findall(r"(?m)^([\w-]+)(?: [^:#\n]*)?:", read("crates.txt"))
    return [it for it in names if it != CALLERS]


def is_for_c(crate):
    """Whether it is a static library, whose face are its exports."""
    return re.search(rf"(?m)^{crate} [^:#\n]*staticlib", read("crates.txt")) is not None


# Calls and contracts.


def owner_of(head):
    """The type or trait that an `impl` or `trait` gives methods to, and whether they are public by the head alone."""
    head = re.sub(r"<[^<>]*>", "", re.sub(r"<[^<>]*>", "", re.sub(r"<[^<>]*>", "", head)))
    if words := re.match(r"pub (?:unsafe )?trait (\w+)", head):
        return words[1], True
    if " for " in head:
        return None, False
    words = re.match(r"impl\s*(\w+)", head)
    return (words[1] if words else None), False


def calls_of_file(path):
    """Gives, for each public function: its owner or '', its name, its doc comment, its clauses as (name, text)."""
    lines = read(path).split("\n")
    owner, by_trait, comment, at = "", False, [], 0
    while at < len(lines):
        line = lines[at]
        if line.startswith("}"):
            owner, by_trait = "", False
        if HEAD.match(line):
            head = line
            while "{" not in head:
                at += 1
                head += " " + lines[at].strip()
            owner, by_trait = owner_of(head)
        if line.strip().startswith("///"):
            comment.append(line.strip()[3:].removeprefix(" "))
        found = FUNCTION.match(line)
        if found and owner is not None and (found[2] or by_trait):
            clauses, depth = [], 0
            while True:
                word = line.strip()
                named = CLAUSE.match(line) if depth == 0 else None
                if named:
                    clauses.append((named[1] or named[2] or "", [word]))
                elif depth:
                    clauses[-1][1].append(word)
                if depth == 0 and not named and word.endswith((";", "{", "{}")):
                    break
                if named or depth:
                    depth += line.count("{") - line.count("}")
                    if depth == 0 and word.endswith(";"):
                        break
                at += 1
                line = lines[at]
            yield owner, found[3], "\n".join(comment), [(name, " ".join(text)) for name, text in clauses]
        if line.strip() and not line.strip().startswith(("///", "#[")):
            comment = []
        at += 1


def exported(crate):
    """The names that the root file of a library lends and its public modules, or None for a program."""
    root = f"crates/{crate}/src/lib.rt"
    if not os.path.exists(root):
        return None
    text = read(root)
    names = {it for use in re.findall(r"pub use ([^;]*);", text) for it in re.findall(r"\w+", use)}
    return names, set(re.findall(r"pub mod (\w+);", text))


class Call:
    """A public call: its name as pages write it, its doc comment, its clauses as (name, text), whether it is lent."""

    def __init__(self, name, path, comment, clauses, public):
        self.name, self.path, self.comment, self.clauses, self.public = name, path, comment, clauses, public

    def sentence(self):
        """The doc comment up to its first example or heading, on one line."""
        text = re.split(r"\n\s*\n\s*(?:```|#)|\n?```", self.comment)[0]
        return " ".join(text.split())

    def names(self):
        return {name for name, _ in self.clauses if name}


def calls(crate):
    """Each public call of a crate, in the order of its files."""
    face, for_c = exported(crate), is_for_c(crate)
    for path in sorted(glob(f"crates/{crate}/src/**/*.rt", recursive=True)):
        if "tests" in path.split("/") or path.endswith(("/tests.rt", "/calling.rt")):
            continue
        module = os.path.basename(path)[:-3]
        for owner, name, comment, clauses in calls_of_file(path):
            public = face is None or (owner or name) in face[0] or module in face[1]
            public = bool(re.search(rf'pub extern "C" fn {name}\b', read(path))) if for_c else public
            in_module = not owner and face is not None and name not in face[0] and not for_c
            shown = f"{owner}::{name}" if owner else f"{module}::{name}" if in_module or module == "laws" else name
            yield Call(shown, path, comment, clauses, public)


def proved(names):
    yield "# What is proved, call by call"
    yield ""
    yield "Each public call with its sentence, and the clauses of its contract. `requires` is what a caller must meet."
    yield "Beside its contract each function is proved safe and total: no index out of range, no sum that wraps, no use"
    yield "after free, and it returns. `./run --prove` and `./test` prove it."
    for crate in names:
        rows = [it for it in calls(crate) if it.public]
        if rows:
            yield from ["", f"## {crate}", ""]
        for it in rows:
            yield f"- `{it.name}` ({os.path.relpath(it.path, f'crates/{crate}/src')}): {it.sentence()}"
            for _, text in it.clauses:
                yield f"  - `{' '.join(text.split())}`"


# Definitions.


def first_comment(path, mark):
    """The comment that a file begins with, up to its first empty line, on one line."""
    found = []
    for line in read(path).split("\n"):
        if line.startswith("#![") and not found:
            continue
        if not line.startswith(mark) or line.strip() == mark:
            break
        found.append(line[len(mark) :].strip())
    return " ".join(found)


def definitions_of(path):
    """Gives each definition of a file: its name, its sentence, its first lines up to its type, its fields or cases."""
    comment, last, lines = [], None, read(path).split("\n")
    for at, line in enumerate(lines):
        bare, indent = line.strip(), len(line) - len(line.lstrip())
        if bare.startswith("--"):
            comment.append(bare[2:].strip())
            continue
        made = re.match(r"(?:(?:abbrev|unfoldable|opaque|private|pub) )*((?:record|data) )?(\S+)", bare)
        marks = bare.split(" ")[:3]
        is_head = {"pub", "abbrev", "record", "data"} & {*marks} and " : " in f"{bare} " and "use" not in marks[:1]
        if is_head and not (last and last[4] is not None and indent > last[4]):
            head = bare
            while not re.search(r" (: |where$)", f"{head} ") and at + 1 < len(lines):
                at += 1
                head += " " + lines[at].strip()
            last = (made[2], " ".join(comment), head, [], indent if made[1] else None)
            yield last[:4]
        elif bare and last and last[4] is not None:
            if indent > last[4] and (field := re.match(r"(?:pub )?(\S+) :", bare)):
                last[3].append(field[1])
        comment = [] if bare else comment


def told_of(parts):
    return f", of {', '.join(parts)}" if parts else ""


def definitions(names):
    yield "# Definitions"
    yield ""
    yield "What contracts name, file by file, each with the sentence above it. Who believes the proofs believes these."
    for crate in names:
        paths = sorted(glob(f"crates/{crate}/specs/**/*.antt", recursive=True))
        paths = [it for it in paths if "/specs/inner" not in it]
        rows = [(path, list(definitions_of(path))) for path in paths]
        if any(found for _, found in rows):
            yield from ["", f"## {crate}"]
        for path, found in rows:
            if found:
                yield from ["", f"### {os.path.relpath(path, f'crates/{crate}')}", "", first_comment(path, "--"), ""]
            for name, sentence, head, parts in found:
                yield f"- `{name}`{f': {sentence}' if sentence else ''}"
                yield f"  `{' '.join(head.split())}`{told_of(parts)}"


# Rooms.


def rooms(names):
    yield "# The rooms"
    yield ""
    yield "Each file with its first sentence: sources, then what contracts cite, then lemmas."
    for crate in names:
        yield from ["", f"## {crate}"]
        for part, kind, mark in (("src", "rt", "//!"), ("specs", "antt", "--"), ("proofs", "antt", "--")):
            paths = sorted(glob(f"crates/{crate}/{part}/**/*.{kind}", recursive=True))
            # (a folder below proofs/ is of one function, and has its answers)
            paths = [it for it in paths if part != "proofs" or not it.endswith("/Answers.antt")]
            told = [(os.path.relpath(it, f"crates/{crate}"), first_comment(it, mark)) for it in paths]
            told = [(path, text) for path, text in told if text]
            if told:
                yield ""
            for path, text in told:
                yield f"- `{path}`: {text}"


# Wrong bodies.


def wrong_bodies(names):
    sys.path.insert(0, f"{TOP}/tests")
    import edits

    by_run = {}
    for line in filter(str.strip, read("tests/wrong/programs.lines").split("\n")):
        if line[0] != "#":
            title, program, run, word = line.split(maxsplit=3)
            by_run.setdefault(title, []).append(f"{program} fails {run} {word}")
    yield "# Wrong bodies"
    yield ""
    yield "Each body is refused. (gate): each `./test` tries it; (ci): `rt ci` does; the others: `./test --long`."
    for crate in names:
        every = [(it, "ci") for it in map(edits.old_form, sorted(glob(f"crates/{crate}/must-fail/*.edit")))]
        every += [(it, "gate" if it.gate else "") for it in edits.of_crate(f"crates/{crate}")]
        if every:
            yield from ["", f"## {crate}: {len(every)}", ""]
        for it, how in every:
            yield f"- `{it.name}`{f' ({how})' if how else ''}, in `{it.function or 'no single function'}`"
            for path, old, new in it.pairs:
                yield f"  - {path}: `{old.strip()}` becomes `{new.strip()}`"
            for told in by_run.get(it.title(), []):
                yield f"  - {told}"


PAGES = {"proved": proved, "definitions": definitions, "rooms": rooms, "wrong_bodies": wrong_bodies}


def write():
    """Writes all pages, and gives their paths."""
    names = crates()
    os.makedirs("out", exist_ok=True)
    for name, lines in PAGES.items():
        with open(f"out/{name}.md", "w", encoding="utf-8") as file:
            file.writelines(f"{it}\n" for it in lines(names))
    return [f"out/{name}.md" for name in PAGES]


def main():
    os.chdir(TOP)
    if len(sys.argv) == 2 and sys.argv[1] in crates():
        print("\n".join(list(proved([sys.argv[1]]))[6:]))
    elif len(sys.argv) > 1:
        sys.exit(__doc__)
    else:
        print("\n".join(write()))


if __name__ == "__main__":
    main()
