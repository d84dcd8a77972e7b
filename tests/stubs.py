"""Bodies that are left out: of a function that is taken as proved, only what it states is used. So where wrong bodies
are tried, its own body is `unreachable!()`, and rattle neither reads it nor what it calls.
"""
import re
from glob import glob

import cases
import edits

HEAD = re.compile(r"(?m)^( *)(?:pub(?:\([\w:]+\))? )?(?:final )?(?:unsafe )?(?:extern \"C\" )?fn (\w+)")
STUB = "unreachable!()"


def body_of(lines, at, indent):
    """The lines between the braces of the body of a function whose head begins at a line, or None where it has none
    that stands on lines of its own."""
    begun = None
    for number in range(at, len(lines)):
        line = lines[number]
        own = line.startswith(indent) and line[len(indent) : len(indent) + 1] not in (" ", "")
        if begun is None and own and line.endswith("{") and not re.match(r" *(requires|ensures|ghost)\b", line):
            begun = number + 1
        elif begun is None and (line.endswith(";") or own and line.endswith("}")):
            return None
        elif begun is not None and line == f"{indent}}}":
            return begun, number
    return None


def names_of(crate):
    """Of each function of a crate that has a head of its own: its file, its name there, and how rattle most likely
    names it."""
    found = {}
    for file in glob(f"{crate}/src/**/*.rt", recursive=True):
        text, path = open(file, encoding="utf-8").read(), file[len(crate) + 1 :]
        for it in HEAD.finditer(text):
            owner, plain = edits.owner_at(text, it.start() + len(it[1]) + 1)
            is_of_type = owner and (plain or "<" in owner)
            place, of = edits.of_a_type(crate, path, owner, plain) if is_of_type else (path, owner)
            module = re.sub(r"^src/|(/?lib|/?main|/mod)?\.rt$", "", place).replace("/", "::")
            found.setdefault((path, it[2]), set()).add("::".join(filter(None, [module, of, it[2]])))
    return found


def stubbed(text, is_left_out):
    """A source in which the bodies are left out of the functions for whose names this holds; not those in macros, nor
    of those whose type the body tells."""
    lines, macro = text.split("\n"), False
    for number, line in reversed([*enumerate(lines)]):
        macro = line == "}" and "macro_rules!" in text or macro and not line.startswith("macro_rules!")
        made = HEAD.match(line)
        body = body_of(lines, number, made[1]) if made and not macro and is_left_out(made[2]) else None
        if body and "-> impl" not in " ".join(lines[number : body[0]]):
            lines[slice(*body)] = [f"{made[1]}    {STUB}"]
    return "\n".join(lines)


def at_line(text, line):
    """The function whose head stands last above a line."""
    found = [it[2] for it in HEAD.finditer(text) if text[: it.start()].count("\n") < line]
    return found[-1] if found else None


class Bodies:
    """The bodies that may be left out of a copy of a crate: those of all functions that are taken as proved, but for
    those without which the front end finds an error."""

    def __init__(self, crate, room, taken):
        self.room, self.names, self.is_looked_at = room, names_of(crate), False
        self.left_out = {it for it, names in self.names.items() if names <= {*taken}}

    def stay(self, functions):
        """Of these functions the bodies stay."""
        self.left_out = {it for it in self.left_out if not self.names[it] & functions}

    def left_out_of(self, texts, chosen):
        """The sources without the bodies, these texts of edits among them. What an edit touches stays."""
        touched = {(path, name) for edit in chosen for path, name, _ in edit.places()}
        touched |= {it for it, names in self.names.items() if names & {edit.function for edit in chosen}}
        made = dict(texts)
        for path in {path for path, _ in self.left_out}:
            text = texts[path] if path in texts else cases.read(f"{self.room}/{path}")
            made[path] = stubbed(text, lambda name: (path, name) in self.left_out - touched)
        return made

    def must_stay(self, rattle):
        """Where a check came to no verdict: whether bodies were left out that must stay. (With no function named, rattle
        tells in seconds what is wrong before a proof.)"""
        had = self.left_out
        while self.left_out and not self.is_looked_at:
            texts = self.left_out_of({}, ())
            ran = rattle(texts, ["--only", ""])[0]
            errors = re.findall(r"(?m)^(?:\./)?(src/\S+?):(\d+):\d+: error", ran.stdout)
            self.is_looked_at = not errors and bool(re.search(r"(?m)^only=\d+ ", ran.stdout))
            found = {(path, at_line(texts.get(path, ""), int(line))) for path, line in errors} & self.left_out
            if not self.is_looked_at:
                self.left_out = self.left_out - found if found else set()
        return self.left_out != had
