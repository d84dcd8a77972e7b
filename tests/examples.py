#!/usr/bin/env python3
"""Runs the examples of the doc comments, and tells which public call has none.

    tests/examples.py [--quick]   at the top of the repository; the last line is 'N passed, M failed'; --quick: without
                                  the address sanitizer
    tests/examples.py --list      prints the calls that need an example, each with the number that it has
    tests/examples.py --show      prints the module that is made of the examples
An example is a fenced block of code in a doc comment. It is the body of a test:

    fn example(rt: HostRuntime) -> Result<(), Fail> { .. Ok(()) }

So `rt.alloc()` is the allocator, `assert_eq!(rt; a, b)` compares, and `?` passes on any error. A name that one of the
repository's libraries exports is imported if an example uses it. Traits whose methods it calls, and names of std, it
imports itself, by lines `use`.

The examples become tests of the crate that tests/trials.py builds, without proofs and under the address sanitizer. Each
runs in a process of its own. An example fails that doesn't compile, that returns an error, or whose assertion is false.
So does a call that needs an example and has none. Controls show that each of these is told.
"""
import collections
import os
import re
import shutil
import tempfile

import cases
import quick
import trials

TOP = os.path.dirname(os.path.dirname(os.path.abspath(__file__)))
# Libraries that a user reaches through those above them: their calls need no example. Those of all others do, so far as
# the crate's root exports them, by themselves or with their type. A law, whose comment begins so, needs none.
INNER = ("art_nodes", "art_arena", "art_operations")
# Of these only the calls of some types do, '' for functions; the map makes the other calls.
TYPES = {"art_walks": ("MapReader", "WellFormedChecker", "WellFormedTreeStats", "")}
# How often the examples are built again, without those that did not compile.
ROUNDS = 3
MODULE = """#[cfg(test)]
mod e{number} {{
{uses}    use std::test::Fail;

    #[test]
    fn example(rt: HostRuntime) -> Result<(), Fail> {{
{code}
        Ok(())
    }}
}}
"""
WRONG = "let sum = 1 + 1;\nassert_eq!(rt; sum, 3);"
NOT_RATTLE = "let sum = 1 + nothing;\nassert_eq!(rt; sum, 3);"
EXAMPLE = re.compile(r"(?:\w+::)?e\d+::example")
NO_EXAMPLE = """pub use table::Table;

impl<K: Drop> Table<K> {
    /// It has no example.
    pub fn bare(&self) {}

    /// It has one.
    ///
    /// ```
    /// assert!(rt; true);
    /// ```
    #[inline]
    pub fn shown(&self) {}

    fn private(&self) {}
}

impl<K: Drop> Inner<K> {
    pub fn unseen(&self) {}
}
"""


class Example:
    """The code of a block, the item whose comment it stands in, and its place."""

    def __init__(self, crate, item, code, place=""):
        self.crate, self.item, self.code, self.place = crate, item, code, place


def without_generics(head):
    """The words of the head of an item, without what stands in angle brackets."""
    head, before = head.replace("->", ""), None
    while before != head:
        before, head = head, re.sub(r"<[^<>]*>", "", head)
    return head


def owner_of(head):
    """The type whose `impl` block begins with this line, or None where the block is a trait's."""
    head = without_generics(head)
    found = re.match(r"impl\s+(\w+)\s*(?:\{|where|$)", head)
    return found and found[1]


def items_of(path):
    """Gives what a file's doc comments stand above, and the file itself: the owner of a call, the head, the comment as
    pairs of a line's number and its text."""
    lines = open(path, encoding="utf-8").read().split("\n")
    owner, comment, inner = None, [], []
    for number, line in enumerate(lines, 1):
        word = line.strip()
        if word.startswith("//!"):
            inner.append((number, word[3:]))
        elif word.startswith("///"):
            comment.append((number, word[3:]))
        elif line.startswith("}"):
            owner, comment = None, []
        elif word and not word.startswith("#["):
            if line.startswith("impl"):
                head, at = line, number
                while "{" not in without_generics(head) and at < len(lines):
                    head += " " + lines[at].strip()
                    at += 1
                owner = owner_of(head)
            yield owner, word, comment
            comment = []
    yield None, "", inner


def blocks_of(comment):
    """The code of each fenced block of a comment, with the number of its first line; not those of another language."""
    code, first, of_rattle = None, 0, True
    for number, text in comment:
        fence = text.strip().startswith("```")
        if fence and code is None:
            code, first, of_rattle = [], number + 1, text.strip()[3:] in ("", "rattle")
        elif fence:
            if of_rattle:
                yield first, "\n".join(it[1:] if it.startswith(" ") else it for it in code)
            code = None
        elif code is not None:
            code.append(text)
    if code is not None:
        yield first, "the block is not closed"


def read(top, crate):
    """The examples of a crate of a repository, and how many each of its public calls has, by owner and name."""
    examples, calls = [], {}
    for folder, below, files in sorted(os.walk(f"{top}/crates/{crate}/src")):
        below.sort()
        for file in sorted(files):
            path = f"{folder}/{file}"
            for owner, head, comment in items_of(path) if file.endswith(".rt") else ():
                found = [
                    Example(crate, head, code, f"{os.path.relpath(path, top)}:{first}")
                    for first, code in blocks_of(comment)
                ]
                call = re.match(r"pub (?:final )?(?:const )?(?:unsafe )?fn (\w+)", head)
                named = re.match(r"(?:pub )?(?:struct|enum|trait|type|fn|const) (\w+)", head)
                name = call[1] if call else named[1] if named else without_generics(head)[:60].rstrip(" {")
                for it in found:
                    it.item = "::".join(filter(None, (crate, owner, name or f"{file}")))
                examples += found
                is_law = comment and comment[0][1].startswith(" A law")
                if call and not is_law:
                    calls[owner or "", call[1]] = calls.get((owner or "", call[1]), 0) + len(found)
    return examples, calls


def needed(crate, calls, exports):
    """The calls of a crate that need an example, each with the number that it has."""
    types, names = TYPES.get(crate), exports[crate]
    wanted = [it for it in calls if (it[0] or it[1]) in names and (types is None or it[0] in types)]
    return {"::".join(filter(None, (crate, *it))): calls[it] for it in wanted}


def libraries():
    """The libraries of the repository, lowest first: all but that of callers, and those for another language."""
    with open(f"{TOP}/crates.txt", encoding="utf-8") as file:
        names = [it.split("#")[0].partition(":")[0].strip() for it in file]
    return [it for it in names if os.path.isfile(f"{TOP}/crates/{it}/src/lib.rt") and it != "callers"]


def exported(top, crate):
    """The names that a library exports."""
    with open(f"{top}/crates/{crate}/src/lib.rt", encoding="utf-8") as file:
        text = file.read()
    return [
        name
        for words in re.findall(r"(?m)^pub use ([^;]+);", text)
        for name in re.findall(r"(\w+)\s*(?=[,}]|$)", words)
    ]


def uses_of(example, exports):
    """The lines that import the libraries' names that an example uses: those of its own crate, else of the highest."""
    text = re.sub(r'"(?:\\.|[^"\\])*"', '""', example.code)
    own = set(re.findall(r"\w+", " ".join(re.findall(r"(?m)^\s*use [^;]+;", text))))
    used = [it for it in dict.fromkeys(re.findall(r"(?<![\w.:])\w+", text)) if it not in own]
    order = [example.crate, *reversed(exports)]
    found = {name: next((crate for crate in order if name in exports.get(crate, ())), None) for name in used}
    return "".join(f"    use {crate}::{name};\n" for name, crate in found.items() if crate)


def module_of(examples, exports):
    """The text of a module with these examples as tests, and of which example each of its lines is."""
    lines, owners = [], []
    for number, example in examples.items():
        code = "\n".join(" " * 8 + it if it.strip() else "" for it in example.code.split("\n"))
        made = MODULE.format(number=number, uses=uses_of(example, exports), code=code).split("\n")[:-1]
        lines += made
        owners += [number] * len(made)
    return "\n".join(lines) + "\n", owners


def tried(name, uses, text):
    """What is said of a crate of this text, in a scratch repository over the libraries as they stand."""
    with tempfile.TemporaryDirectory() as room:
        with open(f"{TOP}/crates.txt", encoding="utf-8") as file:
            rows = [it.strip() for it in file if it.split(":")[0] in uses]
        for it in uses:
            shutil.copytree(f"{TOP}/crates/{it}/src", f"{room}/crates/{it}/src")
        cases.write(f"{room}/crates.txt", "\n".join([*rows, f"{name}: {' '.join(uses)}"]) + "\n")
        cases.write(f"{room}/crates/{name}/src/lib.rt", text)
        return quick.tested(room, name)


def ran(name, uses, examples, exports, said=None):
    """Why each example failed, by its number: '' where it passed. What doesn't compile is left out of a next round.
    `said` is what was said of them in a crate that has them with others, if they were tried in one."""
    left, why, rounds = dict(examples), {}, ROUNDS
    while left:
        text, owners = module_of(left, exports)
        said, file = (said, trials.EXAMPLES) if said is not None else (tried(name, uses, text), "lib")
        wrong = collections.defaultdict(list)
        for line, reason in re.findall(rf"(?m)^src/{file}\.rt:(\d+):\d+: (error.*)", said):
            wrong[owners[int(line) - 1]].append(reason)
        why |= {it: "; ".join(reasons) for it, reasons in wrong.items()}
        left = {it: left[it] for it in left if it not in wrong}
        found = {re.sub(r"\D", "", name): it for name, it in trials.by_name(said).items() if EXAMPLE.fullmatch(name)}
        # (the others of that crate may not have compiled, too)
        if rounds == 0 or not wrong and (found or file == "lib"):
            break
        said, rounds = None, rounds - 1
    for it in left:
        word, rest = found.get(str(it), ("not run", f"\n{said[-600:]}"))
        why[it] = "" if word == "ok" else f"{word}: {' '.join(rest.split())}"
    return why


def of_libraries():
    """All libraries with the names that they export, the examples by numbers, and the counts of those of each call."""
    exports = {it: exported(TOP, it) for it in libraries()}
    found, counts = {}, {}
    for crate in exports:
        examples, calls = read(TOP, crate)
        found |= dict(enumerate(examples, len(found)))
        counts |= {} if crate in INNER else {crate: needed(crate, calls, exports)}
    return exports, found, counts


def with_control(found):
    """The examples, and one whose assertion is false, with its number."""
    control = len(found)
    return {**found, control: Example("control", "control", WRONG)}, control


def module():
    """The text of the module of all examples."""
    exports, found, _ = of_libraries()
    return module_of(with_control(found)[0], exports)[0]


def show_failures(told, why_wrong):
    """Shows that this script tells what is wrong: a false assertion, what doesn't compile, a call without an example."""
    told.count("control: a false assertion fails", "" if "left: 2" in why_wrong else f"it did not: {why_wrong}")
    why = ran("control", [], {0: Example("control", "control", NOT_RATTLE)}, {})[0]
    told.count("control: what doesn't compile fails", "" if "nothing" in why else f"it did not: {why}")
    with tempfile.TemporaryDirectory() as room:
        cases.write(f"{room}/crates/control/src/lib.rt", NO_EXAMPLE)
        needs = needed("control", read(room, "control")[1], {"control": exported(room, "control")})
    wrong = "" if needs == {"control::Table::bare": 0, "control::Table::shown": 1} else f"it needs {needs}"
    told.count("control: a call without an example is told", wrong)


def main():
    given = cases.given(__doc__, "--quick", "--list", "--show", words=0)
    exports, found, counts = of_libraries()
    if "--list" in given:
        for count in counts.values():
            print("\n".join(f"{number} {title}" for title, number in count.items()))
        return
    if "--show" in given:
        print(module(), end="")
        return
    told = cases.Tally()
    for crate, count in counts.items():
        for title in (it for it, number in count.items() if not number):
            told.count(f"an example of {title}", "there is none")
        print(f"   {crate}: {sum(map(bool, count.values()))} of {len(count)} calls that need an example have one")
    every, control = with_control(found)
    why = ran("examples", list(exports), every, exports, trials.said(module(), "--quick" in given))
    for number, it in found.items():
        told.count(f"{it.place} {it.item}", why[number])
    show_failures(told, why[control])
    told.end()


if __name__ == "__main__":
    main()
