#!/usr/bin/env python3
"""What others install works where neither the toolchain nor the repository is: ./dist, ./lib --install.

    tests/packages.py [--quick] [WORD]   the cases whose names have the word; --quick: they are made once alone
What is proved here is packed, and else what is built without proofs: each artefact says which. They are made twice, and
are the same. Each block of docs/INSTALL.md is played in a folder with the artefacts
alone, in a mount space of its own in which empty folders hide the toolchain and the repository. Then what the library
needs of the C library is compared with bindings/c/needs.txt, and the manual page with the language.
"""
import os
import re
import shutil
import subprocess

import cases
import quick
from cases import TOP

import dist
import install
import library

PAGE, NEEDS = f"{TOP}/docs/INSTALL.md", f"{TOP}/bindings/c/needs.txt"
NEWEST_GLIBC = (2, 31)


def run(words, **how):
    return subprocess.run(words, stdin=subprocess.DEVNULL, stdout=subprocess.PIPE, stderr=subprocess.STDOUT, text=True,
                          check=False, **how)


def made(to):
    """Makes the artefacts, and copies them into a folder. (It starts no proof.)"""
    ran = run([f"{TOP}/dist", "--unproved"])
    assert ran.returncode == 0, ran.stdout[-3000:]
    shutil.copytree(f"{TOP}/{dist.MADE}", to)


def twice(first, second):
    """Two runs give the same bytes."""
    made(second)
    cases.wants(sorted(os.listdir(second)), sorted(os.listdir(first)))
    for it in os.listdir(first):
        with open(f"{first}/{it}", "rb") as one, open(f"{second}/{it}", "rb") as other:
            assert one.read() == other.read(), it


def sections():
    """The titles of the page that have blocks to play, and their lines."""
    parts = re.split(r"(?m)^## (.*)$", cases.read(PAGE))
    for title, text in zip(parts[1::2], parts[2::2]):
        blocks = re.findall(r"(?ms)^```console\n(.*?)^```$", text)
        if blocks:
            yield title, "".join(blocks).splitlines()


def steps(lines):
    """Commands, and what each prints."""
    found = []
    for line in lines:
        if line.startswith("$ "):
            found.append((line[2:], []))
        else:
            found[-1][1].append(line)
    return found


def hidden(script, folder):
    """Runs a script of bash where the toolchain and the repository are empty folders."""
    mounts = " && ".join(f"mount -t tmpfs none '{it}'" for it in (quick.kit(), TOP))
    env = {it: os.environ[it] for it in ("HOME", "LANG", "TERM") if it in os.environ}
    path = os.environ["PATH"].split(":")
    env |= {"PATH": ":".join(it for it in path if not it.startswith(quick.kit())), "MANPAGER": "cat", "PAGER": "cat"}
    words = ["unshare", "-m", "sh", "-c", f'{mounts} && exec bash -c "$1"', "sh", script]
    return run(words, cwd=folder, env=env, timeout=600)


def play(lines, artefacts):
    """Plays a section, and compares what each command prints."""
    with cases.folder() as room:
        for it in os.listdir(artefacts):
            shutil.copy(f"{artefacts}/{it}", room)
        script = "command -v rt && exit 9\n"
        for at, (command, _) in enumerate(steps(lines)):
            script += f"echo '@@ {at}'\n{command} || echo \"status $?\"\n"
        ran = hidden(script, room)
    parts = re.split(r"(?m)^@@ \d+\n", ran.stdout)[1:]
    cases.wants(len(parts), len(steps(lines)), ran.stdout[-2000:])
    for (command, want), got in zip(steps(lines), parts):
        cases.wants(got.splitlines(), want, command)


def needs(artefacts):
    """The library needs what is listed, of a C library as old as is told, and no other library."""
    with cases.folder() as room:
        name = next(it for it in os.listdir(artefacts) if it.endswith(".tar.gz"))
        shutil.unpack_archive(f"{artefacts}/{name}", room)
        path = f"{room}/{name[: -len('.tar.gz')]}/lib/libartmap.so"
        symbols = re.findall(r"\*UND\*\s+[0-9a-f]+\s+\((\S+)\)\s+(\S+)", run(["objdump", "-T", path]).stdout)
        libraries = re.findall(r"NEEDED\s+(\S+)", run(["objdump", "-p", path]).stdout)
    found = {(name, version) for version, name in symbols if name != "__cxa_finalize"}
    cases.wants(found, {tuple(it.split()) for it in cases.read(NEEDS).splitlines() if not it.startswith("#")})
    cases.wants(libraries, ["libc.so.6"])
    newest = max(tuple(map(int, it.removeprefix("GLIBC_").split("."))) for _, it in found)
    assert newest <= NEWEST_GLIBC, newest


def says_so(path):
    """An artefact says whether it is proved."""
    with cases.folder() as room:
        shutil.unpack_archive(path, room, "zip" if path.endswith(".whl") else "gztar")
        files = [f"{folder}/PROVED" for folder, _, files in os.walk(room) if "PROVED" in files]
        cases.wants(len(files), 1)
        text = cases.read(files[0])
    wanted = "proved: yes" if library.is_proved() and install.is_program_proved() else "proved: NO"
    assert wanted in text, text


def installs():
    """./lib --install and --uninstall: all is there, and then nothing is."""
    with cases.folder() as room:
        put = run([f"{TOP}/lib", "--install", f"{room}/at"])
        cases.wants(put.returncode, 0, put.stdout[-2000:])
        cases.wants(cases.ended([f"{room}/at/bin/art_index"], b"put 1 0a 61\n"), (b"new\n", b"", 0))
        gone = run([f"{TOP}/lib", "--uninstall", f"{room}/at"])
        cases.wants((gone.returncode, install.files_below(f"{room}/at")), (0, []), gone.stdout)
        cases.wants(run([f"{TOP}/lib", "--uninstall", f"{room}/at"]).returncode, 1)


def manual():
    """The manual page is well formed, fits a terminal, and has each word of the language."""
    ran = run(["groff", "-t", "-man", "-ww", "-Tutf8", f"{TOP}/{install.PAGE}"])
    assert ran.returncode == 0 and "warning" not in ran.stdout, ran.stdout[:500]
    words = set(re.findall(r"(?m)^\| `([a-z]+)(?: [^`]*)?` \|", cases.read(f"{TOP}/docs/LANGUAGE.md")))
    page = set(re.findall(r"(?m)^([a-z]+)(?: [a-z ]*)?\t", cases.read(f"{TOP}/{install.PAGE}")))
    assert words <= page, words - page


def other_target():
    """The crate says in one line that it has no library for another target."""
    with cases.folder() as room:
        built = run(["rustc", "--edition", "2021", "-o", f"{room}/build", f"{TOP}/bindings/rust/build.rs"])
        cases.wants(built.returncode, 0, built.stdout[-2000:])
        env = {"TARGET": "aarch64-unknown-linux-gnu", "CARGO_MANIFEST_DIR": room, "OUT_DIR": room}
        ran = subprocess.run([f"{room}/build"], env=env, capture_output=True, text=True, check=False)
        lines = ran.stderr.splitlines()
        assert ran.returncode == 1 and len(lines) == 1 and "aarch64" in lines[0], ran.stderr


def main():
    given = cases.given(__doc__, "--quick")
    told, is_quick = cases.Tally(given.word), "--quick" in given
    with cases.folder() as room:
        first = f"{room}/first"
        made(first)
        if not is_quick:
            told.case("twice the same bytes", twice, first, f"{room}/second")
        for title, lines in sections():
            told.case(f"docs/INSTALL.md, {title}", play, lines, first)
        told.case("what the library needs", needs, first)
        for it in sorted(os.listdir(first)):
            if it != "SHA256SUMS":
                told.case(f"{it} says whether it is proved", says_so, f"{first}/{it}")
    told.case("install and uninstall", installs)
    told.case("the manual page", manual)
    told.case("another target", other_target)
    told.end()


if __name__ == "__main__":
    main()
