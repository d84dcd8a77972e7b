"""Reads what a crate shows: the contracts of its src/*.rt, and the definitions of specs/*.antt that they name.

tests/believed.py says what is counted. Nothing here knows Rattle's grammar: items are told apart by their first words
and by how far they are indented, blocks by braces, and names by the lines that import them.
"""
import os
import re
from glob import glob

MARKS = "pub abbrev unfoldable opaque private".split()
NOT_A_NAME = re.compile(r"[\s(){};,@\"⟦⟧]+")
PROOFS = re.compile(r"Rattle\.art_\w+\.proofs\.\S+?\.\{([^}]*)\}\s*;?$")
IMPORT = re.compile(r"Rattle\.(\w+)\.specs\.(\S+?)(?:\.\{([^}]*)\}| as (\S+)|)\s*;?$", re.S)


def counted(lines):
    """The lines that are neither blank nor comment, and their words."""
    kept = [it for it in lines if it.strip() and not it.strip().startswith(("--", "//"))]
    return len(kept), sum(len(it.split()) for it in kept)


def imports_of(text, names, aliases, hidden):
    """Reads one import: names to (crate, module, name), aliases of modules to (crate, module). What comes from proofs/
    is hidden: no definition may rest on it, since nobody would count it."""
    away = PROOFS.search(" ".join(text.split()))
    if away:
        hidden.update(it.strip() for it in away[1].split(","))
    found = IMPORT.search(" ".join(text.split()))
    if not found:
        return
    crate, module, braced, alias = found.groups()
    if alias:
        aliases[alias] = crate, module
    for it in (braced or "").split(","):
        name, _, other = it.strip().partition(" as ")
        if name:
            names[other.strip() or name] = crate, module, name


class Spec:
    """A file of specs/: its definitions with their lines, and what it imports."""

    def __init__(self, crate, file):
        self.key = crate, os.path.relpath(file, f"crates/{crate}/specs")[: -len(".antt")].replace("/", ".")
        self.names, self.aliases, self.lines, self.owner, self.is_lemma = {}, {}, {}, {}, set()
        self.hidden = set()
        text = re.sub(r"\{-.*?-\}", "", open(file, encoding="utf-8").read(), flags=re.S)
        rooms, piece, opening, last = [(0, None)], [], [], None
        for line in [*text.split("\n"), "end"]:
            bare = line.strip()
            if not bare or bare.startswith("--"):
                continue
            indent = len(line) - len(line.lstrip())
            if piece and indent <= rooms[-1][0]:
                last = self.take(piece, rooms, last)
                piece = []
            while indent < rooms[-1][0]:
                rooms.pop()
            if opening or re.match(r"module\b|((abbrev|unfoldable|pub) )*mutual$", bare):
                opening.append(line)
                if bare.endswith(("where", "mutual")):
                    # (what stands in a module is read under its head, so that this is to be believed too)
                    head = f"{opening[0].strip()} at {len(self.lines)}"
                    self.lines[head] = opening if not bare.endswith("mutual") else []
                    self.owner[head] = rooms[-1][1]
                    rooms.append((len(opening[0]) - len(opening[0].lstrip()) + 2, head))
                    opening = []
            elif piece or indent == rooms[-1][0]:
                piece.append(line)
            else:
                raise SystemExit(f"believed: a line of {self.key} stands in nothing: {line}\n0 passed, 1 failed")

    def take(self, piece, rooms, last):
        """Adds a piece that begins at a room's indent: an import, a definition or a clause of one. Returns its name."""
        words = piece[0].split()
        marks = []
        while words[0] in MARKS:
            marks.append(words.pop(0))
        if words[0] == "use":
            imports_of("\n".join(piece), self.names, self.aliases, self.hidden)
            return last
        if words[0] in ("record", "data"):
            name = words[1]
        elif marks or re.match(r"\S+( \S+)* :( |$)", " ".join(words)) and "=" not in words[: words.index(":")]:
            name = words[0]
            marks += (rooms[-1][1] or "").split()
            self.is_lemma |= {name} if not {"abbrev", "unfoldable"} & {*marks} else set()
        elif words[0] in ("infix", "infixl", "infixr", "mod", "ruleset"):
            return last
        else:
            name = words[0] if words[0] in self.lines else last
            if name is None:
                raise SystemExit(f"believed: {self.key} begins with what is no definition: {piece[0]}")
            self.lines[name] += piece
            return name
        self.lines[name], self.owner[name] = list(piece), rooms[-1][1]
        if words[0] in ("data", "record"):
            for line in piece[1:]:
                made = re.match(r"\s+(?:pub )?(\S+) :", line)
                if made and words[0] == "data":
                    self.owner.setdefault(made[1], name)
        return name

    def resolve(self, token):
        """The definition that a word of this file names, as (crate, module, name), or None."""
        if token in self.lines or token in self.owner:
            return (*self.key, token if token in self.lines else self.owner[token])
        return resolve(token, self.names, self.aliases)


def resolve(token, names, aliases):
    if token in names:
        return names[token]
    alias, _, name = token.partition(".")
    return (*aliases[alias], name) if name and alias in aliases else names.get(alias)


def words_in(text):
    """The words of a text that may be names; an operator is named with its places, ◌, and `do` stands for >>=."""
    words = [">>=" if it == "do" else it for it in NOT_A_NAME.split(text) if it]
    return words + [f"◌{it}◌" for it in words]


def since_mark(text, end):
    """What stands before a place, from the last `;` or brace on."""
    return text[max(text.rfind(it, 0, end) for it in ";{}") + 1 : end]


SPECS, CRATES = {}, []


def read_specs():
    """Reads the definitions of all crates of crates.txt, but for that of callers."""
    names = re.findall(r"(?m)^(\w+)[^#\n]*:", open("crates.txt", encoding="utf-8").read())
    CRATES.extend(it for it in names if it != "callers")
    for crate in CRATES:
        for path in glob(f"crates/{crate}/specs/**/*.antt", recursive=True):
            spec = Spec(crate, path)
            SPECS[spec.key] = spec


def refuse_hidden(where, text, hidden):
    """Ends the count where a definition or a clause names what stands in proofs/."""
    found = sorted(hidden & {*words_in(text)})
    if found:
        raise SystemExit(f"believed: {where} rests on {found[0]}, which stands in proofs/\n0 passed, 1 failed")


def closure(found, tied):
    """All definitions that these name in turn, with those that a law ties to others read as the others. A name that is
    imported and stands nowhere stops the count."""
    todo, reached = list(found), set()
    while todo:
        crate, module, name = todo.pop()
        crate, module, name = tied.get((crate, module, name), (crate, module, name))
        spec = SPECS.get((crate, module))
        if spec is None:
            if crate in CRATES and not re.match(r"(declared|contracts)\b", module):
                raise SystemExit(f"believed: no file of specs/ is {crate}.{module}\n0 passed, 1 failed")
            continue
        name = name if name in spec.lines else spec.owner.get(name, name)
        if name not in spec.lines:
            name, target = name.split(".")[0], spec.names.get(name)
            if target:
                todo.append(target)
                continue
            if name not in spec.lines:
                raise SystemExit(f"believed: {crate}.{module} has no {name}\n0 passed, 1 failed")
        key = crate, module, name
        if key in reached or name in spec.is_lemma:
            continue
        reached.add(key)
        text = "\n".join(it.partition(" --")[0] for it in spec.lines[name])
        refuse_hidden(f"{crate}.{module}.{name}", text, spec.hidden)
        todo += [it for it in map(spec.resolve, words_in(text)) if it]
        if spec.owner.get(name):
            todo.append((crate, module, spec.owner[name]))
    return reached


class Source:
    """A crate's src/: what it shows, and the contracts of that."""

    def __init__(self, crate):
        self.crate, self.shown, self.contracts = crate, set(), []
        top = f"crates/{crate}/src/lib.rt"
        self.files = {it: self.blanked(it) for it in sorted(glob(f"crates/{crate}/src/**/*.rt", recursive=True))}
        self.is_program = top not in self.files
        every = "\n".join(self.files.values())
        self.types, self.traits = {*re.findall(r"\b(?:struct|enum|trait|type) (\w+)", every)}, {}
        for file, text in self.files.items():
            for is_pub, name in re.findall(r"(\bpub (?:unsafe )?)?\btrait (\w+)", text):
                self.traits.setdefault(name, []).append((file, bool(is_pub)))
        self.open = set()
        if self.is_program:
            self.shown = {*re.findall(r"\w+", " ".join(self.files.values()))}
        else:
            self.show(top, "")
        for file, text in self.files.items():
            self.read(file, text)

    @staticmethod
    def blanked(file):
        """The text without comments and strings, each as long as it was."""
        text = open(file, encoding="utf-8").read()
        tokens = r"//[^\n]*|\"(?:[^\"\\]|\\.)*\"|b?'(?:[^'\\]|\\.)'"
        return re.sub(tokens, lambda it: re.sub(r"[^\n]", " ", it[0]), text, flags=re.S)

    def show(self, file, path):
        """Notes what a public module shows: what it exports by name, and its public modules in turn."""
        text = self.files[file]
        self.open.add(file)
        for it in re.findall(r"\bpub use ([^;]+);", text):
            self.shown |= {*re.findall(r"\w+", it.partition("{")[2] or it.rpartition("::")[2])}
        folder = os.path.dirname(file) if not path else file[: -len(".rt")]
        for name in re.findall(r"\bpub mod (\w+);", text):
            self.show(f"{folder}/{name}.rt", f"{path}::{name}")

    def is_shown(self, file, name):
        return file in self.open or name in self.shown

    def read(self, file, text):
        pairs, stack = {}, []
        for at, it in enumerate(text):
            if it == "{":
                stack.append(at)
            elif it == "}" and stack:
                pairs[stack.pop()] = at
        self.blocks = [(a, b, since_mark(text, a).strip()) for a, b in sorted(pairs.items())]
        # (an import holds in the blocks that it stands in)
        inside = lambda at: [(a, b) for a, b, _ in self.blocks if a < at < b]
        uses = [(inside(it.start()), it[0]) for it in re.finditer(r"\bghost use [^;]+;", text)]
        clause = r"\b(?:requires|ensures|invariant)\b[\s*]*\w*\s*(?=\{)|\bghost(?: \w+)?\s*[:=]\s*(?=\{)"
        for it in re.finditer(clause, text):
            around = [(a, b, h) for a, b, h in self.blocks if a < it.start() < b]
            owner = self.owner(file, text, it, around)
            if owner:
                names, aliases, hidden = {}, {}, set()
                for blocks, use in uses:
                    if all(a < it.start() < b for a, b in blocks):
                        imports_of(use, names, aliases, hidden)
                body = text[it.start() : pairs[it.end()] + 1]
                refuse_hidden(f"{file}, {owner}", body, hidden)
                found = {at for at in (resolve(w, names, aliases) for w in words_in(body)) if at}
                self.contracts.append((file, owner, body.split("\n"), found))

    def owner(self, file, text, clause, around):
        """What shows the clause: the name of a function, trait or type, or None where nothing public does."""
        heads = [re.sub(r"#!?\[[^]]*\]", "", h).strip() for _, _, h in around]
        item = r"(?:pub(?:\([^)]*\))? )?(?:unsafe )?(impl|trait|struct|enum|mod)\b"
        if any(not re.match(item, h) or "pub(" in h for h in heads):
            return None
        start = around[-1][0] + 1 if around else 0
        function, kind, type_name = None, "", ""
        if not clause[0].startswith("ghost"):
            fns = [it for it in re.finditer(r"\bfn (\w+)", text[start : clause.start()])]
            if not fns:
                return None
            before = since_mark(text, start + fns[-1].start())
            function, is_pub = fns[-1][1], bool(re.search(r"\bpub (?!\()", f"{before} "))
        if heads:
            kind = re.match(item, heads[-1])[1]
            of = re.sub(r"<[^<>]*>", "", re.sub(r"<[^<>]*>", "", re.sub(r"<[^<>]*>", "", heads[-1])))
            names = re.findall(r"[A-Z]\w*|\b[a-z]\w+\b", of.partition(" where ")[0].rpartition(f"{kind} ")[2])
            names = [it for it in names if it not in ("for", "mut", "dyn")]
            type_name = names[-1] if names else ""
            if kind == "trait":
                type_name = re.search(r"trait (\w+)", heads[-1])[1]
                return type_name if heads[-1].startswith("pub") and self.is_shown(file, type_name) else None
            shown = not type_name[:1].isupper() or self.is_shown(file, type_name) or self.of_kit(type_name)
            if kind == "impl" and " for " not in of and function and not is_pub:
                return None
            if kind == "impl" and " for " in of and self.is_private_trait(of.partition(" for ")[0]):
                return None
            return f"{type_name}::{function}" if shown and function else type_name if shown else None
        return function if function and is_pub and self.is_shown(file, function) else None

    def is_private_trait(self, words):
        """Whether the last of these words is a trait of the crate that it doesn't show."""
        name = re.findall(r"[A-Z]\w*", words)[-1]
        return any(not is_pub or not self.is_shown(file, name) for file, is_pub in self.traits.get(name, ()))

    def of_kit(self, name):
        """A type that no file of the crate declares."""
        return name not in self.types
