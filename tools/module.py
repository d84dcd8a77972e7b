#!/usr/bin/env python3
"""The module that `rt try` has clang compile, edited so that it's compiled as a build of the proved program is.

    tools/module.py HINTS [--unchecked|--bare] MODULE    edits the text of an LLVM module in its place, for tools/quick.py
`rt try` compiles for the oldest processor, for the address sanitizer and with a frame pointer in each function, and it
leaves out what the sources ask of the compiler by `#[inline]`, `#[inline(always)]`, `#[inline(never)]` and `#[cold]`: so
a room on the stack that a call should give back stays there. All that is as in a proved build here. What is checked at
run time stays, but for --unchecked; for --bare, nothing stops the program by itself either, as in a proved build, where
no such place is reached. HINTS is a file that `write_hints` made of the sources.
"""
import os
import re
import sys

PROCESSOR = "x86-64-v2"
# What may stand over a function, and LLVM's word for it.
WORDS = {"inline": "inlinehint", "inline(always)": "alwaysinline", "inline(never)": "noinline", "cold": "cold"}
ASKED = re.compile(r"\s*#\[(inline|inline\(always\)|inline\(never\)|cold)\]")
FUNCTION = re.compile(r"\s*(?:pub(?:\([^)]*\))? )?(?:const |unsafe |extern \"C\" )*fn (\w+)")
DEFINED = re.compile(r'(define [^@]*@"([^"]+)"\(.*) (#\d+) \{\n')
CHECK = re.compile(r'define internal void @"rattle-llvm-checks::')
PASSES, FAILS = "icmp eq i8 0, 0", "icmp ne i8 %a0, 0"
# (each local is filled where it begins, so that a read of one that was not written shows)
FILLED = re.compile(r"\s*call void @llvm\.memset\.p0\.i64\(ptr %r[0-9]+, i8 -86, ")
STOPS = "  call void @llvm.trap()\n"


def module_of(crate, path):
    """The path of a file's module."""
    parts = path.removesuffix(".rt").split("/")
    return "::".join([crate, *(it for it in parts if it not in ("lib", "main", "mod"))])


def type_of(header):
    """The name of the type that an `impl` is for, or of a trait."""
    bare = header.partition("{")[0].partition(" where")[0]
    while bare != (bare := re.sub(r"<[^<>]*>", "", bare)):
        pass
    words = re.findall(r"\w+", bare)
    return words[-1] if words else ""


def hints_of(text):
    """What a file asks of the compiler: the type, or nothing, the name of the function, and LLVM's words."""
    found, asked, of, lines = [], [], "", text.split("\n")
    for at, line in enumerate(lines):
        if re.match(r"(pub )?(unsafe )?(impl|trait)\b", line):
            header = " ".join(lines[at : at + 8])
            of = type_of(header)
        elif line.startswith("}"):
            of = ""
        if it := ASKED.match(line):
            asked.append(WORDS[it[1]])
        elif it := FUNCTION.match(line):
            if asked:
                found.append((of, it[1], " ".join(asked)))
            asked = []
        elif not re.match(r"\s*(#\[|//|$)", line):
            asked = []
    return found


def write_hints(roots, to):
    """Writes what all files ask for below some roots: the folder of each crate's sources, by its name."""
    with open(to, "w", encoding="utf-8") as file:
        for crate, root in roots.items():
            for folder, _, names in os.walk(root):
                for name in sorted(it for it in names if it.endswith(".rt")):
                    path = f"{folder}/{name}"
                    with open(path, encoding="utf-8") as source:
                        hints = hints_of(source.read())
                    module = module_of(crate, os.path.relpath(path, root))
                    file.writelines(f"{module}::{function}\t{of}\t{words}\n" for of, function, words in hints)


def read_hints(path):
    """By a function's module and name: the types that it may be of, each with its words."""
    found = {}
    with open(path, encoding="utf-8") as file:
        for line in file:
            name, of, words = line.rstrip("\n").split("\t")
            found.setdefault(name, []).append((of, words))
    return found


def words_for(symbol, hints):
    """The words for a function of the module, by its symbol: of a method the last part but one has the type's name."""
    *module, function = re.sub(r"::<.*", "", symbol).split("::")
    for name, owner in (("::".join([*module, function]), ""), ("::".join([*module[:-1], function]), "".join(module[-1:]))):
        for of, words in hints.get(name, ()):
            if of == owner or (of and (owner.startswith(of) or of in owner.split("+"))):
                return words
    return ""


def edited(line, hints):
    """A line of the module as it's compiled."""
    if line.startswith("attributes "):
        line = line.replace('"frame-pointer"="all" ', "").replace('"target-cpu"="x86-64"', f'"target-cpu"="{PROCESSOR}"')
        return line if "sanitize_address" not in line else line.replace("nounwind ", "").replace("sanitize_address", "nounwind")
    if found := DEFINED.fullmatch(line):
        words = words_for(found[2], hints)
        return f"{found[1]} {words} {found[3]} {{\n" if words else line
    return line


def main():
    if len(sys.argv) < 3:
        sys.exit(__doc__)
    hints, *flags, path = sys.argv[1:]
    hints, is_check = read_hints(hints), False
    with open(path, encoding="utf-8") as file:
        lines = file.readlines()
    with open(path, "w", encoding="utf-8") as file:
        for line in lines:
            is_check = bool(CHECK.match(line)) or (is_check and line != "}\n")
            if (flags and FILLED.match(line)) or (line == STOPS and "--bare" in flags):
                continue
            file.write(line.replace(FAILS, PASSES) if flags and is_check else edited(line, hints))


if __name__ == "__main__":
    main()
