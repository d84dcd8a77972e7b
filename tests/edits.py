#!/usr/bin/env python3
"""Wrong bodies: their form, and whether each still applies to the sources. It proves nothing, and takes a second.

    tests/edits.py                    at the top of the repository; the last line is 'N passed, M failed'
    tests/edits.py --take FILE..      moves edits crates/NAME/must-fail/X.edit or more-edits/X.edit into the form below,
                                      marked for the gate; with --take-more instead, without that mark
The wrong bodies of crates/NAME/src/a/b.rt stand in crates/NAME/edits/a/b.edits: text in blocks, each begun by its name,
which no other edit of the crate has. A line that begins with # is for the reader.

    edit append_moves_until_refused gate
    in: map::joins::TreeMap::append
    old:         self.reserve_insertions(other.len())?;
    new:         self.reserve_insertions(0)?;

`gate` marks those that each ./test tries (tests/must_fail.py); ./test --long tries all. `in:` is the function that must
be refused by an open goal of its own, by rattle's name after the crate's. Then come pairs of lines: each old text
stands in the file exactly once, once the pairs before it are carried out. A line `file: src/c.rt` (or a file below
specs/ or proofs/) among them says that the pairs after it are of that file.
Edits of crates/NAME that are proved, or that no function's goal refuses, stand in tests/wrong/NAME.edits: a run of the
gate fails by each (tests/wrong.py), so they need no `in:`. Few edits stand as files crates/NAME/must-fail/X.edit, which
rt ci tries itself: lines `file:`, `old:` and `new:` alone.
tests/wrong/table.md lists the wrong bodies that users must be spared: each of its rows names edits that are there, by
whom they are tried, and the function that they stand in.
"""
import os
import re
import sys
from glob import glob

import cases

AT_MOST = 2
TABLE = "tests/wrong/table.md"
FOLDERS = ("src/", "specs/", "proofs/")
FUNCTION = re.compile(
    r"(?m)^[ \t]*(?:pub(?:\([\w:]+\))? )?(?:final )?(?:const )?(?:unsafe )?(?:fn (\$?\w+)|const (\w+): \w+ =)"
)


class Edit:
    """A wrong body: its crate's folder, its name, the function that must be refused, its pairs of texts by file."""

    def __init__(self, crate, name, place, gate=False):
        self.crate, self.name, self.place, self.gate = crate, name, place, gate
        self.function, self.pairs = None, []

    def title(self):
        return f"{os.path.basename(self.crate)}/{self.name}"

    def carried_out(self, texts, root=None):
        """Gives the texts by path with this edit in them, on top of those given, or raises ValueError."""
        texts = dict(texts)
        for path, old, new in self.pairs:
            file = f"{root or self.crate}/{path}"
            if path not in texts and not os.path.isfile(file):
                raise ValueError(f"there is no file {path}")
            text = texts[path] if path in texts else open(file, encoding="utf-8").read()
            if text.count(old) != 1:
                raise ValueError(f"its text stands {text.count(old)} times in {path}, and not once: {old.strip()[:80]}")
            if old == new:
                raise ValueError(f"it changes nothing: {old.strip()[:80]}")
            texts[path] = text.replace(old, new)
        if not self.pairs:
            raise ValueError("it has no pair of lines 'old: TEXT' and 'new: TEXT'")
        return texts

    def places(self):
        """Gives the functions that its texts stand in, as (path, name, where it begins), of the sources as they are."""
        found = []
        for path, old, _ in self.pairs:
            text = open(f"{self.crate}/{path}", encoding="utf-8").read()
            if old in text:
                at = text.index(old)
                above = [it for it in FUNCTION.finditer(text) if it.start() < at + len(old)]
                found += [(path, it[1] or it[2], it.start()) for it in above[-1:]]
        return found


def read(file, crate, path):
    """Gives the edits of a file whose pairs are of `path`, or raises ValueError at a line that is out of place."""
    found, at, old = [], path, None
    for number, line in enumerate(open(file, encoding="utf-8").read().split("\n"), 1):
        word, _, rest = line.partition(" ")
        if not line.strip() or line[0] == "#":
            continue
        made = re.fullmatch(r"edit ([\w.-]+)( gate)?", line)
        if made and old is None:
            found.append(Edit(crate, made[1], f"{file}:{number}", bool(made[2])))
            at = path
        elif word == "in:" and found and not found[-1].pairs and old is None:
            found[-1].function = rest.strip()
        elif word == "file:" and found and old is None and rest.startswith(FOLDERS) and os.path.normpath(rest) == rest:
            at = rest
        elif word == "old:" and found and at and old is None and rest:
            old = rest
        elif word == "new:" and old is not None:
            found[-1].pairs.append((at, old, rest))
            old = None
        else:
            raise ValueError(f"line {number} is out of place: {line[:80]}")
    if old is not None:
        raise ValueError("its last pair has no line 'new: TEXT'")
    return found


def files_of(crate):
    """The files of a crate's edits, each with the source that its pairs are of."""
    top = f"{crate}/edits/"
    for file in sorted(glob(f"{top}**/*", recursive=True)):
        if os.path.isfile(file):
            yield file, f"src/{file[len(top):].removesuffix('.edits')}.rt"
    file = f"tests/wrong/{os.path.basename(crate)}.edits"
    if os.path.isfile(file):
        yield file, None


def of_crate(crate):
    """The edits of a crate, those of tests/wrong last. Raises ValueError where a file cannot be read."""
    return [edit for file, path in files_of(crate) for edit in read(file, crate, path)]


def named(title):
    """The edit with that name, as CRATE/NAME."""
    crate, _, name = title.partition("/")
    found = [it for it in of_crate(f"crates/{crate}") if it.name == name]
    if not found:
        raise ValueError(f"no edit has that name: {title}")
    return found[0]


def old_form(file):
    """The edit of a file of its own, `file:`, `old:` and `new:` alone."""
    crate, lines = os.path.dirname(os.path.dirname(file)), open(file, encoding="utf-8").read().split("\n")
    made, path, old = Edit(crate, os.path.basename(file).removesuffix(".edit"), file), None, None
    for line in filter(str.strip, lines):
        word, _, rest = line.partition(" ")
        if word == "file:" and old is None and rest.startswith(FOLDERS):
            path = rest.strip()
        elif word == "old:" and path and old is None and rest:
            old = rest
        elif word == "new:" and old is not None:
            made.pairs.append((path, old, rest))
            old = None
        else:
            raise ValueError(f"this line is out of place: {line[:80]}")
    if old is not None:
        raise ValueError("its last pair has no line 'new: TEXT'")
    return made


def part_of_name(kind, parameters):
    """A type as rattle writes it in a function's name: capitals, and what is no parameter of the impl after it."""
    kind = re.sub(r"^(?:dyn |\*(?:const|mut) )", "", kind.strip())
    if kind in parameters or kind.startswith("'") or not kind:
        return ""
    if kind.startswith("&"):
        return f"Ref{part_of_name(re.sub(r'^&(?:mut )?', '', re.sub(chr(39) + r'[a-z_]+ ?', '', kind)), parameters)}"
    if kind.startswith("["):
        return f"Array{part_of_name(kind[1:-1].partition(';')[0], parameters)}"
    if kind.startswith("("):
        return f"Tuple{len(split_types(kind[1:-1]))}" if kind != "()" else "Unit"
    head, _, rest = kind.partition("<")
    word = head.split("::")[-1]
    return word[:1].upper() + word[1:] + "".join(part_of_name(it, parameters) for it in split_types(rest[:-1]))


def split_types(text):
    """Splits at the commas that stand in no bracket."""
    found, depth = [""], 0
    for it in text:
        depth += (it in "<([") - (it in ">)]")
        found[-1] += it
        if it == "," and depth == 0:
            found[-1] = found[-1][:-1]
            found.append("")
    return [it.strip() for it in found if it.strip()]


def owner_at(text, at):
    """The trait around a place of a source, or the impl, as rattle names it; or, of an impl of no trait, the type as it
    is written, and whether its arguments are the impl's parameters."""
    heads = [it for it in re.finditer(r"(?m)^(?:pub )?(?:unsafe )?(?:impl|trait)\b[^{]*", text) if it.start() < at]
    if not heads or re.search(r"(?m)^\}", text[heads[-1].end() : at]):
        return "", False
    head = " ".join(heads[-1][0].split()).replace("->", "")
    if made := re.search(r"\btrait (\w+)", head):
        return made[1], False
    head, parameters = head.partition("impl")[2].strip(), []
    if head.startswith("<"):
        end = next(i for i in range(len(head)) if head[: i + 1].count("<") == head[: i + 1].count(">"))
        parameters = [re.sub(r"^const ", "", it).partition(":")[0].strip() for it in split_types(head[1:end])]
        head = head[end + 1 :].strip()
    trait, _, kind = re.split(r"\bwhere\b", head)[0].strip().rpartition(" for ")
    if trait:
        trait, _, given = trait.partition("<")
        plain = [re.sub(r"'\w+|[\s,]", "", it) for it in (given[:-1], kind)]
        given = "" if plain[0] == plain[1] else given
        return part_of_name(kind, parameters) + part_of_name(f"{trait}<{given}" if given else trait, parameters), False
    return kind, all(it in parameters for it in split_types(kind.partition("<")[2][:-1]))


def of_a_type(crate, path, kind, plain):
    """The module and the name that rattle gives the methods of a type: those of the type itself, or, where it has more
    parameters than arguments, or others, those of the impl, with each argument after a +."""
    word = re.match(r"\w+", kind)[0]
    for file in glob(f"{crate}/src/**/*.rt", recursive=True):
        found = re.search(rf"\b(?:struct|enum) {word}\b(<[^{{;]*)?", open(file, encoding="utf-8").read())
        if found and plain:
            head = (found[1] or "").strip()
            end = next((i for i in range(len(head)) if head[: i + 1].count("<") == head[: i + 1].count(">")), 0)
            if len(split_types(head[1:end])) == len(split_types(kind.partition("<")[2][:-1])):
                return file[len(crate) + 1 :], word
    return path, "+".join(it for it in re.findall(r"'?\w+", kind) if it[0] != "'")


def function_of(edit):
    """The function that an edit stands in, as rattle most likely names it after the crate's name."""
    for path, name, at in edit.places()[::-1]:
        if path.startswith("src/"):
            owner, plain = owner_at(open(f"{edit.crate}/{path}", encoding="utf-8").read(), at)
            if owner and (plain or "<" in owner):
                path, owner = of_a_type(edit.crate, path, owner, plain)
            module = re.sub(r"^src/|(/?lib|/?main|/mod)?\.rt$", "", path).replace("/", "::")
            return "::".join(filter(None, [module, owner, name]))
    return ""


def take(files, gate):
    """Moves edits that stand as files of their own to those of their source."""
    for file in files:
        edit = old_form(file)
        function = function_of(edit)
        first = edit.pairs[-1][0]
        to = f"{edit.crate}/edits/{first.removeprefix('src/').removesuffix('.rt')}.edits"
        lines = ["", f"edit {edit.name}{' gate' if gate else ''}", f"in: {function}"]
        at = first
        for path, old, new in edit.pairs:
            lines += [f"file: {path}"] if path != at else []
            lines += [f"old: {old}", f"new: {new}"]
            at = path
        os.makedirs(os.path.dirname(to), exist_ok=True)
        is_new = not os.path.exists(to)
        with open(to, "a", encoding="utf-8") as out:
            out.write("\n".join(lines[is_new:]) + "\n")
        os.remove(file)
        print(f"{file}: taken to {to}, in {function or 'no function that was found: write it'}")


def fault_of(edit):
    try:
        edit.carried_out({})
    except (ValueError, OSError) as why:
        return str(why)
    if edit.function is None or edit.place.startswith("tests/wrong/"):
        return None
    names = [name for _, name, _ in edit.places() if name and name[0] != "$"]
    last = edit.function.split("::")[-1]
    return f"it stands in {' and '.join(names)}, and not in {last}" if names and last not in names else None


def of_one(crate):
    """Gives each edit of a crate with what is wrong with it, None for nothing; and what is wrong with its files."""
    every, name = [], os.path.basename(crate)
    for file, path in files_of(crate):
        try:
            found = read(file, crate, path)
            every += found
            lacking = "it has no line 'in: FUNCTION'" if path else None
            yield from ((it.title(), fault_of(it) or (None if it.function else lacking)) for it in found)
            if not file.endswith(".edits") or path and not os.path.isfile(f"{crate}/{path}"):
                yield file, f"it is of no source: {path}"
        except ValueError as why:
            yield file, str(why)
    of_rt = sorted(it for it in glob(f"{crate}/must-fail/*") if not it.endswith(".md"))
    for file in of_rt:
        try:
            every.append(old_form(file))
            yield file, fault_of(every[-1]) if file.endswith(".edit") else "its name does not end in .edit"
        except ValueError as why:
            yield file, str(why)
    names = [it.name for it in every]
    yield from ((f"crates/{name}", f"two edits are named {it}") for it in sorted({*names}) if names.count(it) > 1)
    for it in every:
        same = [at.name for at in every if at.pairs == it.pairs and at is not it]
        yield from [(it.title(), f"it is the same as {', '.join(same)}")] * bool(same)
    if len(of_rt) > AT_MOST:
        told = f"{len(of_rt)} edits stand in must-fail/, which cost rt ci a check each: {AT_MOST} at most should"
        yield f"crates/{name}", told
    if glob(f"{crate}/more-edits/*"):
        yield f"crates/{name}", "it has a folder more-edits/: tests/edits.py --take moves its edits"
    if every:
        gate = sum(it.gate for it in every)
        print(f"{name}: {len(of_rt)} edits for rt ci, {gate} more in the gate, {len(every) - len(of_rt) - gate} others")


def of_programs():
    """Gives each row of tests/wrong/programs.lines with what is wrong with it, and the edits of no row."""
    rows = [line.split() for line in open("tests/wrong/programs.lines", encoding="utf-8")]
    rows = [it for it in rows if it and it[0] != "#"]
    for title in (it[0] for it in rows):
        try:
            named(title)
            yield title, None
        except ValueError as why:
            yield title, str(why)
    for file in sorted(glob("tests/wrong/*.edits")):
        crate = os.path.basename(file).removesuffix(".edits")
        for edit in read(file, f"crates/{crate}", None):
            if edit.title() not in [it[0] for it in rows]:
                yield edit.title(), "no row of tests/wrong/programs.lines names it"


def tries():
    """Gives each edit's name with how it is tried, `gate`, `ci`, `long` or `run`, and the functions that it stands in."""
    ran = {line.split()[0] for line in open("tests/wrong/programs.lines", encoding="utf-8") if line[:1] not in "#\n"}
    for crate in sorted(glob("crates/*")):
        of_rt = [old_form(it) for it in sorted(glob(f"{crate}/must-fail/*.edit"))]
        for edit in of_rt + of_crate(crate):
            try:
                where = {name for _, name, _ in edit.places()} | {(edit.function or "").split("::")[-1]}
            except OSError:
                where = set()
            by_proof = "ci" if edit in of_rt else "gate" if edit.gate else "long" if edit.function else None
            for how in filter(None, [by_proof, "run" if edit.title() in ran else None]):
                yield edit.name, how, where


def of_table():
    """Gives each row of the table with what is wrong with it."""
    known = list(tries())
    for line in open(TABLE, encoding="utf-8"):
        cells = [it.strip() for it in line.strip().strip("|").split("|")]
        names = re.findall(r"`([\w.-]+)`", cells[1]) if line[0] == "|" and len(cells) == 4 else []
        for name in names:
            for how in cells[2].split(", "):
                places = [where for it, by, where in known if (it, by) == (name, how)]
                is_there = any(cells[3].strip("`") in where for where in places)
                lacking = f"no edit of that name is tried by {how}" if not places else f"it isn't in {cells[3]}"
                yield f"{TABLE}: {name}", None if is_there else lacking


def main():
    words = sys.argv[1:]
    if words[:1] in (["--take"], ["--take-more"]) and words[1:]:
        return take(words[1:], words[0] == "--take")
    if words:
        sys.exit(__doc__)
    told = cases.Tally()
    for found in [*map(of_one, sorted(glob("crates/*"))), of_programs(), of_table()]:
        for name, why in found:
            told.count(name, why, is_shown=False)
    told.end()


if __name__ == "__main__":
    main()
