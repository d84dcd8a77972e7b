#!/usr/bin/env python3
"""The library for C, as ./lib makes it: examples, scripts at random against a model, threads, names, and want of memory.

    tests/bindings_c.py [--of FOLDER] [--quick]   FOLDER: where libartmap.a, libartmap.so and artmap.h stand; else ./lib
                                                  makes them; --quick: beside no second library, which is to be proved
The examples are compiled with -Wall -Wextra -Werror, and run alone, under valgrind and with the address sanitizer. A line
for each case that fails; the last is 'N passed, M failed'.
"""
import ctypes
import mmap
import os
import re
import resource
import subprocess

import bindings_c_model as model
import cases
import quick
from bindings_c_model import CONFLICT, CUT_OFF, DONE, NO_MAP, NO_MEMORY, NOT_FOUND

TOP = cases.TOP
WARNINGS = ["-Wall", "-Wextra", "-Werror", "-g"]
EXAMPLES = ("films", "routes", "paths")
STEPS, SCRIPTS = 400, 40
CALLS = 56  # of tests/bindings_refused.c
TAKE_NO_MEMORY = {2, 14, 19, 24, 25, 26, 27, 28, 29, 30, 34, 37, 38, 39, 40, 41, 44, 45, 46, 48, 49, 50, 51, 52, 53, 54, 55}
OF_THE_OTHER_KIND = {37, 38, 39, 40, 41, 55}  # a handle has no map of the call's kind: nothing is done

COPY_A_KEY_IN_CONFLICT = {21, 23}  # where memory for it is refused, the conflict is told all the same
LAY_OUT = {10, 18, 35, 36}  # a map is frozen out of order, and keeps room, where memory for the rest is refused
# A library that is no part of this repository. It asks for memory, and gives it back.
SECOND = """//! A second static library of the toolchain.
#![tactic(auto)]

use std::alloc::Global;

/// The length of a copy of some bytes; 0 where there is no memory.
#[unsafe(no_mangle)]
pub extern "C" fn second_len(alloc: Global, bytes: &[u8]) -> u64 {
    match Vec::from_slice(alloc, bytes) {
        Ok(copy) => copy.len() as u64,
        Err(_) => 0,
    }
}
"""
TALLY = cases.Tally()


def told(name, is_right, why=""):
    TALLY.holds(name, is_right, why, is_shown=False)


def lengths(lib):
    """Lengths of 2^32: such a key or value is refused where the process may not have so much memory."""
    handle, huge, size = model.Handle(), 2 ** 32, ctypes.c_size_t
    at, told_of = ctypes.byref(handle), size(0)
    lib.artmap_bytes_new(at)
    lib.artmap_bytes_put(at, b"a", size(1), b"value", size(5))
    held = mmap.mmap(-1, huge, flags=mmap.MAP_PRIVATE | mmap.MAP_ANONYMOUS | 0x4000)
    view = (ctypes.c_uint8 * huge).from_buffer(held)
    pairs = (model.Pair * 2)((1, 1), (huge - 2, 0))
    view[0], view[1], view[2] = b"bxc"
    limits = resource.getrlimit(resource.RLIMIT_AS)
    used = int(open("/proc/self/statm", encoding="ascii").read().split()[0]) * mmap.PAGESIZE
    resource.setrlimit(resource.RLIMIT_AS, (used + 2 ** 30, limits[1]))
    told("a value of 2^32 bytes", lib.artmap_bytes_put(at, b"b", size(1), view, size(huge)) == NO_MEMORY)
    told("a key of 2^32 bytes", lib.artmap_bytes_put(at, view, size(huge), b"", size(0)) == NO_MEMORY)
    code = lib.artmap_bytes_load(at, view, size(huge), pairs, size(2), ctypes.byref(told_of))
    told("a load of 2^32 bytes", (code, told_of.value, lib.artmap_bytes_len(at)) == (NO_MEMORY, 1, 2), f"{code} {told_of}")
    resource.setrlimit(resource.RLIMIT_AS, limits)
    view[0] = b"a"[0]
    told("in conflict, of 2^32 bytes", lib.artmap_bytes_put(at, view, size(huge), b"", size(0)) == CONFLICT)
    view[0] = b"b"[0]
    for first, name in ((huge - 1, "one byte more than there are"), (2 ** 64 - 1, "a sum of lengths above 2^64")):
        pairs = (model.Pair * 2)((first, 2), (0, 0))
        code = lib.artmap_bytes_load(at, view, size(huge), pairs, size(1), ctypes.byref(told_of))
        told(name, (code, told_of.value, lib.artmap_bytes_len(at)) == (CUT_OFF, 0, 2), f"{code}")
    told("a key of 2^32 bytes is looked up", lib.artmap_bytes_remove(at, view, size(huge)) == NOT_FOUND)
    code = lib.artmap_bytes_get(at, b"a", size(1), view, size(huge), ctypes.byref(told_of))
    told("a room of 2^32 bytes", (code, told_of.value, bytes(view[:6])) == (DONE, 5, b"value\0"))
    code = lib.artmap_bytes_walk(at, ctypes.byref(model.Span()), view, size(huge), pairs, size(2), ctypes.byref(told_of))
    told("a walk into 2^32 bytes", (code, told_of.value, bytes(view[:8])) == (DONE, 2, b"avaluebx"), f"{code}")
    lib.artmap_bytes_free(at)


def around_thirty(lib):
    """Keys and values of 29 to 32 bytes: up to thirty stand in place, longer ones in a block."""
    handle, size, told_of = model.Handle(), ctypes.c_size_t, ctypes.c_size_t(0)
    at, room = ctypes.byref(handle), (ctypes.c_uint8 * 64)()
    lib.artmap_bytes_new(at)
    pairs = {bytes([n, m]) + b"k" * (n - 2): b"v" * (m - 1) + b"!" for n in range(29, 33) for m in range(29, 33)}
    codes = [lib.artmap_bytes_put(at, key, size(len(key)), value, size(len(value))) for key, value in pairs.items()]
    told("keys around thirty bytes go in", codes == [DONE] * 16, codes)
    copy = model.Handle()
    lib.artmap_bytes_clone(at, ctypes.byref(copy))
    for handle_of, name in ((at, "there"), (ctypes.byref(copy), "in a copy")):
        found = {}
        for key in pairs:
            lib.artmap_bytes_get(handle_of, key, size(len(key)), room, size(64), ctypes.byref(told_of))
            found[key] = bytes(room[: told_of.value])
        told(f"values around thirty bytes are {name}", found == pairs, found)
    codes = [lib.artmap_bytes_remove(at, key, size(len(key))) for key in pairs]
    told("keys around thirty bytes go out", codes == [DONE] * 16 and lib.artmap_bytes_len(at) == 0, codes)
    for it in (at, ctypes.byref(copy)):
        lib.artmap_bytes_free(it)


def texts(lib, of):
    """Each code has a text of its own, and the version is that of the header."""
    with open(f"{of}/artmap.h", encoding="utf-8") as file:
        header = file.read()
    codes = [int(it) for it in re.findall(r"ARTMAP_[A-Z_]+ = (\d+),? +/\*", header.split("typedef enum artmap_code")[1].split("}")[0])]
    found = {lib.artmap_code_text(it) for it in codes}
    told("texts of codes", codes == list(range(12)) and len(found) == 12, codes)
    told("the text of another number", lib.artmap_code_text(99) not in found)
    told("the version", f'ARTMAP_VERSION "{lib.artmap_version().decode()}"' in header)


def run(words, **how):
    return subprocess.run(words, capture_output=True, text=True, check=False, **how)


def compiled(source, to, of, *flags, language="c"):
    compiler = [os.environ.get("CC") or "cc", "-std=c11"] if language == "c" else ["c++", "-x", "c++", "-std=c++11"]
    before, after = ([], []) if language == "c" else ([], ["-x", "none"])
    ran = run([*compiler, *WARNINGS, *before, f"-I{of}", source, *after, f"{of}/libartmap.a", *flags, "-o", to])
    told(f"{source} compiles {' '.join(flags)}", ran.returncode == 0, ran.stderr[:2000])
    return ran.returncode == 0


def passes(name, source, of, room, *flags, language="c", **env):
    """A program of tests/ ends with status 0."""
    if compiled(f"{TOP}/tests/{source}.c", f"{room}/{source}", of, *flags, language=language):
        ran = run([f"{room}/{source}"], env={**os.environ, **env})
        told(name, ran.returncode == 0, f"status {ran.returncode}: {ran.stderr[:2000]}")


def example(name, of, room):
    """An example runs alone, under valgrind and with the address sanitizer."""
    source, to = f"{TOP}/bindings/c/{name}.c", f"{room}/{name}"
    with open(f"{TOP}/bindings/c/{name}.out", encoding="utf-8") as file:
        wanted = file.read()
    if compiled(source, to, of):
        ran = run([to])
        told(name, (ran.returncode, ran.stdout) == (0, wanted), ran.stdout)
        ran = run(["valgrind", "-q", "--error-exitcode=9", "--leak-check=full", "--show-leak-kinds=all", to])
        told(f"{name} under valgrind", (ran.returncode, ran.stdout) == (0, wanted), ran.stderr[:2000])
    if compiled(source, f"{to}.asan", of, "-fsanitize=address,undefined"):
        ran = run([f"{to}.asan"])
        told(f"{name} with the sanitizer", (ran.returncode, ran.stdout) == (0, wanted), ran.stderr[:2000])


def names(of, room, is_quick):
    """No other name is seen than those of the header, and none is missing; the library links beside others."""
    with open(f"{of}/artmap.h", encoding="utf-8") as file:
        wanted = sorted(set(re.findall(r"^(?:artmap_code|void|size_t|bool|const char \*) ?(artmap_\w+)\(", file.read(), re.M)))
    for words in (["nm", "-D", "--defined-only", f"{of}/libartmap.so"], ["nm", "-g", "--defined-only", f"{of}/libartmap.a"]):
        seen = sorted(it.split()[2] for it in run(words).stdout.splitlines() if len(it.split()) == 3)
        told(f"names of {words[-1]}", seen == wanted and len(wanted) > 60, f"{set(seen) ^ set(wanted)}")
    soname = re.findall(r"SONAME.*\[(.*)\]", run(["readelf", "-d", f"{of}/libartmap.so"]).stdout)
    told("the name in the shared library", soname == ["libartmap.so.0"], soname)
    passes("beside functions of the toolchain's names", "bindings_names", of, room)
    if not is_quick:
        beside = [second(f"{room}/second"), f"{quick.kit()}/c/liblibc_c.a"]
        passes("beside a second library of the toolchain", "bindings_names", of, room, "-DSECOND", *beside)


def second(top):
    """Makes a repository of one crate, has the toolchain prove it, and answers the library that it makes of it."""
    os.makedirs(f"{top}/crates/second/src")
    for path, text in (("crates.txt", "second staticlib:\n"), ("crates/second/src/lib.rt", SECOND)):
        with open(f"{top}/{path}", "w", encoding="utf-8") as file:
            file.write(text)
    ran = run(["rt", "lib"], cwd=f"{top}/crates/second")
    told("a second library of the toolchain", ran.returncode == 0, (ran.stdout + ran.stderr)[-2000:])
    return f"{top}/crates/second/out/libsecond.a"


def refused(of, room):
    """Memory is refused at each request of each call: the map is as it was, and the call does its work once more."""
    shim, exact = cases.shim("refuse.c"), {**os.environ, "GLIBC_TUNABLES": "glibc.malloc.tcache_count=0"}
    if not compiled(f"{TOP}/tests/bindings_refused.c", f"{room}/refused", of):
        return
    for call in range(CALLS):
        free = run([f"{room}/refused", str(call)], env=exact).stdout.strip()
        is_none = free.startswith(f"{NO_MAP} kept {NO_MAP} ")
        told(f"call {call}", is_none == (call in OF_THE_OTHER_KIND) and "leaks" not in free and "keeps" not in free, free)
        for rest in ("", "+"):
            number, is_right, why = 0, True, ""
            while is_right:
                number += 1
                traced = f"{room}/trace"
                with open(traced, "w+b") as trace:
                    env = {**exact, "LD_PRELOAD": shim, "REFUSE": f"{number}{rest}",
                           "REFUSE_TRACE": str(trace.fileno())}
                    ran = run([f"{room}/refused", str(call)], env=env, pass_fds=[trace.fileno()])
                    trace.seek(0)
                    marks = trace.read().decode()
                if "x" not in marks:
                    is_right = ran.stdout.strip() == free
                    why = f"free of refusal: {ran.stdout}"
                    break
                wanted = [f"{NO_MEMORY} kept {free}"] + ([free] if call in COPY_A_KEY_IN_CONFLICT | LAY_OUT else [])
                is_right = ran.returncode == 0 and ran.stdout.strip() in wanted
                why = f"request {number}{rest}: {ran.stdout} {ran.stderr}"
            is_right = is_right and (number == 1) == (call in TAKE_NO_MEMORY)
            told(f"call {call}, refused{rest}", is_right, f"{why}; {number - 1} requests")


def main():
    given = cases.given(__doc__, "--of=FOLDER", "--quick", words=0)
    of = cases.library(given)
    with cases.folder() as room:
        for name in EXAMPLES:
            example(name, of, room)
        passes("NULL with a length of 0", "bindings_null", of, room, "-fsanitize=address,undefined")
        passes("the header in C++", "bindings_names", of, room, language="c++")
        passes("eight threads on a frozen map", "bindings_threads", of, room, "-fsanitize=thread", "-pthread")
        passes("the last of two readers frees a map", "bindings_last", of, room, "-fsanitize=thread", "-pthread",
               TSAN_OPTIONS=f"suppressions={TOP}/bindings/c/tsan.supp")
        names(of, room, "--quick" in given)
        refused(of, room)
    lib = model.loaded(f"{of}/libartmap.so")
    texts(lib, of)
    model.scripts(lib, told, SCRIPTS, STEPS)
    around_thirty(lib)
    lengths(lib)
    TALLY.end()


if __name__ == "__main__":
    main()
