#!/usr/bin/env python3
"""The crate for Rust (bindings/rust) over the library that ./lib makes: its tests, its examples, and want of memory.

    tests/bindings_rust.py [--of FOLDER] [--quick] [PART ..]   FOLDER: where libartmap.a and artmap.h stand; else out,
                                                     where ./lib makes them if a source is newer; --quick: fewer calls
                                                     at random
The parts are the functions of this script, from `declared` to `without_library`; all, if none is named.
Cargo builds below out/cargo, without the network. A line for each case; the last is 'N passed, M failed'.
"""
import os
import re
import shutil
import subprocess
from glob import glob

import cases
from cases import TOP, read

CRATE = f"{TOP}/bindings/rust"
EXAMPLES = ("films", "paths", "sizes")
CALLS = 34  # of examples/refused.rs
TAKE_NO_MEMORY = {1, 5, 9, 18, 21, 33}  # (a stored key's value is set in its place)
NEVER_FAIL = {19, 20, 31}  # (a walk, a look-up in what is frozen, giving memory back: they go on in what they have)
SANITIZED = ("--lib", "--test", "differential", "--test", "panics", "--test", "map", "--test", "keys",
             "--test", "hostile", "--test", "faces")
SANITIZED_CALLS = 200_000  # of tests/differential.rs, with the sanitizer and in --quick; else it makes a million
TYPES = {"artmap_words *": "*mut Handle", "const void *": "*const u8", "void *": "*mut u8", "size_t *": "*mut usize",
         "size_t ": "usize", "uint8_t ": "u8", "uint32_t ": "u32", "uint64_t ": "u64", "uint64_t *": "*mut u64",
         "bool ": "bool", "const artmap_span *": "*const RawSpan", "const artmap_words_pair *": "*const Pair",
         "artmap_hint *": "*mut Hint"}
SERDE = ("serde", "serde_derive", "serde_json")
REGISTRY = "/usr/share/cargo/registry"  # of Debian's librust-serde-dev and librust-serde-json-dev
ANSWERS = {"artmap_code": "u32", "size_t": "usize", "void": "", "bool": "bool"}
STRUCTS = {"artmap_words": "Handle", "artmap_span": "RawSpan", "artmap_words_pair": "Pair", "artmap_hint": "Hint"}
TALLY = cases.Tally()
told = TALLY.holds


def run(words, env, **how):
    return subprocess.run(words, cwd=CRATE, env=env, stdin=subprocess.DEVNULL, capture_output=True, text=True,
                          check=False, **how)


def in_header(text):
    """The calls of artmap.h on words, the codes, and the fields of structs, with types as Rust has them."""
    text = re.sub(r"(?s)/\*.*?\*/", "", text)
    calls = {}
    for answer, name, words in re.findall(r"(?s)^(\w+) (artmap_words_\w+)\((.*?)\);", text, re.MULTILINE):
        kinds = [re.fullmatch(r"(.*?)\w+", " ".join(it.split()))[1] for it in words.split(",")]
        calls[name] = [TYPES.get(it, it) for it in kinds], ANSWERS[answer]
    structs = {}
    for name, fields in re.findall(r"(?s)typedef struct (artmap_\w+) \{(.*?)\}", text):
        kinds = re.findall(r"([\w ]+?[ *]+)(\w+(?:, \w+)*);", " ".join(fields.split()))
        structs[name] = [TYPES.get(kind.lstrip(), kind) for kind, names in kinds for _ in names.split(",")]
    return calls, dict(re.findall(r"ARTMAP_(\w+) = (\d+)", text)), structs


def in_crate(text):
    calls = {}
    extern = re.search(r'(?s)extern "C" \{(.*?)\n\}', text)[1]
    for name, words, answer in re.findall(r"(?s)fn (\w+)\((.*?)\)\s*(?:-> (\w+))?;", extern):
        calls[name] = [it.split(":")[1].strip() for it in words.split(",")], answer
    structs = {}
    for name, fields in re.findall(r"(?s)#\[repr\(C\)\].*?struct (\w+) \{(.*?)\}", text):
        structs[name] = [it.replace("c_void", "u8") for it in re.findall(r": ([^,]+),", fields)]
    return calls, dict(re.findall(r"(?m)^const (\w+): u32 = (\d+);", text)), structs


def declared(of):
    """What src/ffi.rs declares is as artmap.h has it; each of its blocks names a rule and a clause that are there."""
    text = read(f"{CRATE}/src/ffi.rs")
    (calls, codes, structs), (all_calls, all_codes, all_structs) = in_crate(text), in_header(read(f"{of}/artmap.h"))
    others = {it: (calls[it], all_calls.get(it)) for it in calls if calls[it] != all_calls.get(it)}
    told("the calls are those of artmap.h", len(calls) > 12 and not others, others)
    others = {it: (codes.get(it), all_codes[it]) for it in all_codes if codes.get(it) != all_codes[it]}
    told("the codes are those of artmap.h", len(codes) > 12 and codes.keys() == all_codes.keys() and not others, others)
    others = {it: (all_structs.get(it), structs.get(STRUCTS[it])) for it in STRUCTS}
    told("the structs are those of artmap.h", all(one and one == other for one, other in others.values()), others)
    files = glob(f"{TOP}/crates/art_c/specs/*.antt") + glob(f"{TOP}/crates/art_c/src/**/*.rt", recursive=True)
    clauses = "".join(read(it) for it in files)
    said = re.findall(r"(?s)// SAFETY: (.*?)\n\s*[^/\s]", text)
    blocks = len(re.findall(r"\bunsafe (?:\{|impl)", re.sub(r"//.*", "", text)))
    told("each unsafe block has its rules", blocks and len(said) == blocks, f"{blocks} blocks, {len(said)} reasons")
    for it in said:
        if it.startswith("no call, and no rule"):
            told("what a processor is told is no call", text.count(it) == 1, it)
            continue
        it = re.sub(r"\s*//\s*", " ", it)
        calls = re.findall(r"`artmap_(\w+)`", it)
        names = re.findall(r"\b((?:Is|Gets)[A-Z]\w+|len|kept|store_of)\b", it)
        is_there = calls and all(re.search(rf"fn {call}\(", clauses) for call in calls)
        is_there = is_there and all(re.search(rf"\b{name}\b", clauses) for name in names)
        told(f"the clause of {', '.join(calls)}", is_there and names and "ule" in it, it)
    others = [it for it in glob(f"{CRATE}/**/*.rs", recursive=True) if not it.endswith("/src/ffi.rs")]
    found = [it for it in others if re.search(r"\bunsafe\s*(?:\{|fn|impl|extern)", re.sub(r"//.*", "", read(it)))]
    told("no other file has unsafe", not found, found)


def tests(env):
    """Cargo's tests, and the examples of doc comments: a case each."""
    ran = run(["cargo", "test", "--offline", "--locked", "--no-fail-fast"], env)
    found = re.findall(r"(?m)^test (.+?)(?: - should panic| - compile fail)? \.\.\. (\w+)", ran.stdout)
    for name, ended in found:
        told(name, ended == "ok", ended)
    told("cargo test", ran.returncode == 0 and len(found) > 300, (ran.stdout + ran.stderr)[-6000:])


def tidy(env):
    """Neither the compiler, clippy, rustdoc nor rustfmt has a word to say; the oldest toolchain that is here builds it.

    Clippy has one (`incompatible_msrv`) where the crate calls what std doesn't have in the Rust that Cargo.toml names.
    """
    target = {**env, "CARGO_TARGET_DIR": f"{env['CARGO_TARGET_DIR']}/tidy"}
    for words in (["clippy", "--offline", "--locked", "--all-targets", "--", "-D", "warnings"],
                  ["fmt", "--check"], ["doc", "--offline", "--locked", "--no-deps"]):
        more = {"RUSTDOCFLAGS": "-D warnings"} if words[0] == "doc" else {}
        ran = run(["cargo", *words], {**target, **more})
        told(f"cargo {' '.join(words)}", ran.returncode == 0, (ran.stdout + ran.stderr)[-4000:])
    said = re.search(r'rust-version = "([\d.]+)"', read(f"{CRATE}/Cargo.toml"))[1]
    names = [it.split()[0] for it in run(["rustup", "toolchain", "list"], env).stdout.splitlines()]
    versions = {}
    for it in names:
        found = re.match(r"rustc (\d+)\.(\d+)", run(["rustc", f"+{it}", "--version"], env).stdout)
        if found:
            versions[int(found[1]), int(found[2])] = it
    if versions:
        least = min(versions)
        ran = run(["cargo", f"+{versions[least]}", "build", "--offline", "--locked", "--all-targets"], target)
        told(f"the oldest toolchain here, {least[0]}.{least[1]}", ran.returncode == 0, ran.stderr[-4000:])
        named = tuple(map(int, said.split(".")))
        told(f"the crate names one that is no newer, {said}", named <= least, least)


def sanitized(env):
    """Tests with the address sanitizer, where a nightly toolchain is here: of the crate, and of its calls of malloc."""
    names = [it.split()[0] for it in run(["rustup", "toolchain", "list"], env).stdout.splitlines()]
    nightly = next((it for it in names if it.startswith("nightly")), None)
    if not nightly:
        print("no nightly toolchain is here, so there is no run under the address sanitizer: skipped")
        return
    env = {**env, "CARGO_TARGET_DIR": f"{env['CARGO_TARGET_DIR']}/asan", "ARTMAP_CALLS": str(SANITIZED_CALLS),
           "RUSTFLAGS": "-Zsanitizer=address", "ASAN_OPTIONS": "detect_leaks=1"}
    target = "x86_64-unknown-linux-gnu"
    words = ["cargo", f"+{nightly}", "test", "--offline", "--locked", "--target", target, *SANITIZED]
    ran = run(words, env)
    found = re.findall(r"(?m)^test (.+?) \.\.\. (\w+)", ran.stdout)
    told(f"under the address sanitizer, {len(found)} tests", ran.returncode == 0 and len(found) > 40,
         (ran.stdout + ran.stderr)[-6000:])


def examples(env, made):
    """Each example writes what stands beside it, and under valgrind too."""
    for name in EXAMPLES:
        wanted = read(f"{CRATE}/examples/{name}.out")
        ran = run([f"{made}/{name}"], env)
        told(f"examples/{name}.rs", (ran.returncode, ran.stdout) == (0, wanted), ran.stdout + ran.stderr)
        words = ["valgrind", "-q", "--error-exitcode=9", "--leak-check=full", f"{made}/{name}"]
        ran = run(words, env) if shutil.which("valgrind") else None
        told(f"examples/{name}.rs under valgrind", ran and (ran.returncode, ran.stdout) == (0, wanted),
             ran.stderr[:2000] if ran else "there is no valgrind")


def refused(env, made, room):
    """Memory is refused at each request of each call: the map is as it was, and the call does its work once more."""
    shim = cases.shim("refuse.c")
    for call in range(CALLS):
        free = run([f"{made}/refused", str(call)], env).stdout.strip()
        told(f"call {call}, nothing refused", free.startswith("Ok("), free)
        for rest in ("", "+"):
            number, is_right, why, kept = 0, True, "", 0
            while is_right:
                number += 1
                with open(f"{room}/trace", "w+b") as trace:
                    more = {"LD_PRELOAD": shim, "REFUSE": f"{number}{rest}", "REFUSE_TRACE": str(trace.fileno())}
                    ran = run([f"{made}/refused", str(call)], {**env, **more}, pass_fds=[trace.fileno()])
                    trace.seek(0)
                    marks = trace.read().decode()
                if "x" not in marks:
                    is_right, why = "|" in marks and ran.stdout.strip() == free, f"free of refusal: {ran.stdout}"
                    break
                # (some calls may go on in the room that they have)
                is_right = ran.returncode == 0 and ran.stdout.strip() in (free, f"refused kept {free}")
                kept += ran.stdout.startswith("refused kept")
                why = f"request {number}{rest}: {ran.stdout} {ran.stderr}"
            is_right = is_right and (number == 1) == (call in TAKE_NO_MEMORY)
            is_right = is_right and (kept == 0) == (call in TAKE_NO_MEMORY | NEVER_FAIL)
            told(f"call {call}, {number - 1} requests refused{rest}", is_right, why or f"refused {kept}")


def alone(env, room):
    """With no registry in sight, a crate that depends on this one is built; here serde tells why it isn't."""
    env = {**env, "CARGO_HOME": f"{room}/home"}
    ran = run(["cargo", "build", "--offline", "--locked", "--features", "serde"], env)
    is_told = ran.returncode and "is for crates that depend on artmap" in ran.stderr
    told("the feature serde in the crate's own folder", is_told, ran.stderr[-2000:])
    os.makedirs(f"{room}/alone/src")
    with open(f"{room}/alone/Cargo.toml", "w", encoding="utf-8") as file:
        file.write(f'[package]\nname = "alone"\nedition = "2024"\n[dependencies]\nartmap.path = "{CRATE}"\n')
    with open(f"{room}/alone/src/main.rs", "w", encoding="utf-8") as file:
        file.write('fn main() {\n    println!("{:?}", artmap::ArtMap::from([("a", 1)]));\n}\n')
    ran = run(["cargo", "run", "-q", "--offline", "--manifest-path", f"{room}/alone/Cargo.toml"], env)
    told("a crate that depends on it", (ran.returncode, ran.stdout) == (0, '{"a": 1}\n'), ran.stdout + ran.stderr)


def with_serde(env, room):
    """The feature serde, by Debian's sources in the place of crates.io: a crate that has it, and what `tidy` asks."""
    if not all(glob(f"{REGISTRY}/{it}-1.*") for it in SERDE):
        print("Debian's librust-serde-dev and librust-serde-json-dev are not here: the feature serde is skipped")
        return
    at = f"{room}/rust"
    shutil.copytree(CRATE, at, ignore=shutil.ignore_patterns("target", "Cargo.lock"))
    with open(f"{at}/Cargo.toml", "w", encoding="utf-8") as file:
        # (without the place-holder: the crate itself asks for serde, too)
        file.write(re.sub(r"(?ms)^\[patch\.crates-io\]\n.*?\n\n", "", read(f"{CRATE}/Cargo.toml")))
    env = {**env, "CARGO_TARGET_DIR": f"{env['CARGO_TARGET_DIR']}/serde", "RUSTDOCFLAGS": "-D warnings"}
    source = ["--offline", "--config", 'source.crates-io.replace-with="debian"', "--config",
              f'source.debian.directory="{REGISTRY}"', "--manifest-path"]
    mine, user = f"{at}/Cargo.toml", f"{at}/with_serde/Cargo.toml"
    ran = run(["cargo", "test", *source, user], env)
    found = re.findall(r"(?m)^test (.+?) \.\.\. (\w+)", ran.stdout)
    for name, ended in found:
        told(name, ended == "ok", ended)
    told("with_serde: cargo test", ran.returncode == 0 and len(found) >= 5, (ran.stdout + ran.stderr)[-4000:])
    ran = run(["cargo", "run", "-q", *source, user], env)
    is_right = (ran.returncode, ran.stdout) == (0, read(f"{CRATE}/with_serde/main.out"))
    told("with_serde: its program", is_right, ran.stdout + ran.stderr)
    has_serde = ["--features", "serde"]
    for name, words in (("the crate's clippy", ["clippy", *source, mine, *has_serde, "--", "-D", "warnings"]),
                        ("the crate's pages", ["doc", *source, mine, *has_serde, "--no-deps"]),
                        ("clippy", ["clippy", *source, user, "--all-targets", "--", "-D", "warnings"]),
                        ("cargo fmt", ["fmt", "--check", "--manifest-path", user])):
        ran = run(["cargo", *words], env)
        told(f"with_serde: {name}", ran.returncode == 0, (ran.stdout + ran.stderr)[-4000:])


def without_library(env, room):
    """Where the library isn't there, the build says how to make it."""
    env = {**env, "CARGO_TARGET_DIR": f"{room}/cargo", "ARTMAP_LIB_DIR": f"{room}/nowhere"}
    ran = run(["cargo", "build", "--offline", "--locked"], env)
    said = "artmap: no libartmap.a for" in ran.stderr and "run ./lib in the repository" in ran.stderr
    told("without the library", ran.returncode != 0 and said, ran.stderr[-2000:])


def main():
    given = cases.given(__doc__, "--of=FOLDER", "--quick", words=1 << 20)
    if not shutil.which("cargo"):
        cases.cannot("cargo is not on the PATH: install Rust's toolchain")
    of, target = cases.library(given), f"{TOP}/out/cargo"
    env = {**os.environ, "ARTMAP_LIB_DIR": of, "CARGO_TARGET_DIR": target, "CARGO_TERM_COLOR": "never"}
    # (what only debuggers and later builds need is left out)
    env |= {"CARGO_PROFILE_DEV_DEBUG": "0", "CARGO_INCREMENTAL": "0"}
    env |= {"ARTMAP_CALLS": str(SANITIZED_CALLS)} if "--quick" in given else {}
    with cases.folder() as room:
        parts = {"declared": lambda: declared(of), "tests": lambda: tests(env), "tidy": lambda: tidy(env),
                 "examples": lambda: examples(env, f"{target}/debug/examples"),
                 "refused": lambda: refused(env, f"{target}/debug/examples", room),
                 "sanitized": lambda: sanitized(env), "alone": lambda: alone(env, room),
                 "with_serde": lambda: with_serde(env, room), "without_library": lambda: without_library(env, room)}
        for it in given.words or parts:
            parts[it]()
    TALLY.end()


if __name__ == "__main__":
    main()
