#!/usr/bin/env python3
"""Shows what ./test says where the gate itself is at fault: a wrong record of what was proved or none, an edit that no
longer applies or is let through, a crate that uses nothing of what it is to use, a part that is gone or ends without
its counts. Each must fail it, with a clear line.

    tests/gate_shown.py     at the top of the repository; the last line is 'N passed, M failed'
A tiny repository has ./test with the parts that tell of records and edits, and three that only say that they passed;
all others are left out. The gate must pass there, and fail once one thing is changed. The first failure of a part is
told at once. A word that is no form of ./test is refused.
"""
import os
import re
import shutil
import subprocess
import sys

import cases

SOURCE = """#![tactic(auto)]
//! A function whose wrong body is tried.

ghost use Rattle.std.specs.Prelude.{◌≤◌};

/// A number below two.
pub fn bit() -> u64
    ensures { result ≤ 1 }
{
    0
}
"""
EDIT = "edit larger gate\nin: bit\nold:     0\nnew:     2\n"
TABLE = "| Wrong body | Edits | Tried by | Function |\n|---|---|---|---|\n| a larger number | `larger` | gate | `bit` |\n"
PASSES = "print('1 passed, 0 failed')\n"
# It says what rt ci has proved, by which the wrong bodies are tried.
CI = f"import must_fail\nmust_fail.mark_tree()\n{PASSES}"
OWN = ("cases.py", "edits.py", "listed.py", "record.py", "must_fail.py", "verdicts.py", "stubs.py", "processes.py", "proofs.py")
OTHERS = ("words.py", "believed.py", "gate.py")
EDITS, PROVED, LIB, LISTED = "crates/tiny/edits/lib.edits", "proved.txt", "crates/tiny/src/lib.rt", "crates.txt"
ROWS, RUNS = "tests/wrong/table.md", "tests/wrong/programs.lines"
# What is changed: its name, the file, how its text becomes another (None for no file), the line that tells of it.
CASES = (
    ("nothing is wrong", PROVED, lambda text: text, None),
    ("a wrong record", PROVED, lambda text: re.sub("[0-9a-f]{64}", "0" * 64, text), "record: .* is of another text"),
    ("no record", PROVED, lambda _: None, "record: .*there is no proved.txt"),
    ("two records", PROVED, lambda text: text + text, "record: .* has not one line of a date and a sum"),
    ("a date to come", PROVED, lambda text: re.sub(r"\d{4}-", "9999-", text, 1), "record: .* has a date to come"),
    ("an edit that no longer applies", EDITS, lambda text: text.replace("    0", "    3"), "its text stands 0 times"),
    ("an edit that changes nothing", EDITS, lambda text: text.replace("    2", "    0"), "it changes nothing"),
    ("an edit of no form", EDITS, lambda text: text.replace("new:", "now:"), "line 4 is out of place"),
    ("the same edit twice", EDITS, lambda text: text + text.replace("larger", "more"), "it is the same as more"),
    ("an edit that is let through", EDITS, lambda text: text.replace("    2", "    1"), "LET THROUGH: .* has no open goal"),
    ("a row of an edit that is gone", ROWS, lambda text: text.replace("`larger`", "`lost`"), "no edit of that name"),
    ("a run of an edit that is gone", RUNS, lambda text: text + "tiny/lost tiny run.py\n", "no edit has that name: tiny/lost"),
    ("a crate of the kit that is not used", LISTED, lambda _: "tiny: slab\n", "tiny: FAILED: crates.txt lists slab for it"),
    ("a job of the kit done without it", LISTED, lambda text: text + "art_lines:\n", "art_lines: FAILED: it is to use hex"),
    ("an error that derives nothing", LIB, lambda text: f"{text}\npub struct BitFailed;\n", "derive: BitFailed"),
    ("a part that is gone", "tests/words.py", lambda _: None, "there is no tests/words.py"),
    ("a part without its counts", "tests/words.py", lambda _: "print('done')\n", "no last line of counts, but: done"),
    ("a part that ends badly", "tests/words.py", lambda text: text + "raise SystemExit(3)\n", r"\n\d+ passed, 1 failed\n$"),
)
# Words that are no form of ./test.
REFUSED = (["--fast"], ["--quick", "--fast"], ["--quick", "tiny"], ["nothing"], ["tiny", "nothing"], ["--help", "tiny"])


def make(top):
    """Writes the repository into a folder, with the record of it."""
    text = cases.read("test")
    for line, script in re.findall(r'(?m)^(    "\w+": \["tests/(\w+\.py)".*\n)', text):
        text = text if script in OWN + OTHERS else text.replace(line, "")
    for line, name in re.findall(r'(?m)^(    "(\w+)": \(\[.*\n)', text):
        text = text if f"{name}.py" in OWN + OTHERS else text.replace(line, "")
    cases.write(f"{top}/test", text)
    for it in OTHERS:
        cases.write(f"{top}/tests/{it}", CI if it == "gate.py" else PASSES)
    for it in OWN:
        shutil.copy(f"tests/{it}", f"{top}/tests/{it}")
    os.makedirs(f"{top}/tools")
    for it in ("quick.py", "module.py"):
        shutil.copy(f"tools/{it}", f"{top}/tools/{it}")
    files = {LISTED: "tiny:\n", "crates/tiny/src/lib.rt": SOURCE, EDITS: EDIT, ROWS: TABLE, RUNS: "# None.\n"}
    for path, text in files.items():
        cases.write(f"{top}/{path}", text)
    how = {"cwd": top, "stdin": subprocess.DEVNULL, "stdout": subprocess.DEVNULL, "check": True}
    subprocess.run([sys.executable, "-B", "tests/record.py", "--write"], **how)


def run(top, *words):
    how = {"cwd": top, "stdin": subprocess.DEVNULL, "stdout": subprocess.PIPE, "stderr": subprocess.PIPE}
    return subprocess.run([sys.executable, "-B", "test", *words], text=True, errors="replace", **how)


def is_told(top, path, change, wanted):
    """How ./test ends where the text of a file is changed: where a line is wanted it fails, has it, and tells the
    part's first failure before the end."""
    was = cases.read(f"{top}/{path}")
    text = change(was)
    if text is None:
        os.remove(f"{top}/{path}")
    else:
        cases.write(f"{top}/{path}", text)
    ran = run(top)
    cases.write(f"{top}/{path}", was)
    last = ([""] + ran.stdout.splitlines())[-1]
    if wanted is None:
        assert ran.returncode == 0 and last.endswith(" passed, 0 failed"), ran.stdout[-600:]
        assert "FAILED in" not in ran.stderr, ran.stderr
        return "./test passes"
    assert ran.returncode == 1 and not last.endswith(" 0 failed"), f"status {ran.returncode}, {last}"
    assert re.search(wanted, ran.stdout), f"no line has '{wanted}': {ran.stdout[-600:]}"
    if re.search(r"FAILED", ran.stdout):
        assert re.search(r"min: FAILED in \w+: ", ran.stderr), f"it was not told at once: {ran.stderr}"
    return f"./test fails, and says '{wanted}'"


def quick_says_that_nothing_is_proved(top):
    """It passes, also with a comment that no proof has seen, and fails by a part that fails."""
    cases.write(f"{top}/{LIB}", SOURCE.replace("//! A function", "//! No function"))
    ran = run(top, "--quick")
    assert re.search(r"\nNothing was proved here\. \./test proves all, .*\n\d+ passed, 0 failed\n$", ran.stdout), ran.stdout
    assert ran.returncode == 0 and "ci begins" not in ran.stderr, ran.stderr
    cases.write(f"{top}/{LIB}", SOURCE)
    cases.write(f"{top}/tests/words.py", "print('a row: FAILED: none and not new')\nprint('0 passed, 1 failed')\n")
    ran = run(top, "--quick")
    cases.write(f"{top}/tests/words.py", PASSES)
    assert ran.returncode == 1 and "\na row: FAILED" in ran.stdout and "FAILED in words: a row" in ran.stderr, ran.stdout


def a_crate_is_proved(top):
    """`./test CRATE` proves it and tries its wrong bodies; a body that is not proved fails it."""
    ran = run(top, "tiny")
    assert re.search(r"\nproofs: 1 passed, 0 failed\nmust_fail: 1 passed, 0 failed\n", ran.stdout), ran.stdout
    assert ran.returncode == 0 and "Only tiny and the libraries below" in ran.stdout, ran.stdout
    cases.write(f"{top}/{LIB}", SOURCE.replace("    0", "    2"))
    ran = run(top, "tiny")
    cases.write(f"{top}/{LIB}", SOURCE)
    assert ran.returncode == 1 and "proofs: 0 passed, 1 failed" in ran.stdout, ran.stdout
    assert "FAILED in proofs: tiny: FAILED: fn tiny::bit" in ran.stderr, ran.stderr


def is_refused(top, *words):
    """Words that are no form of ./test: one line, status 2, and nothing begins."""
    ran = run(top, *words)
    assert (ran.stdout, ran.returncode) == ("", 2), (ran.stdout[-300:], ran.returncode)
    assert re.fullmatch(r"test: .*--help.*\n", ran.stderr), ran.stderr
    return ran.stderr.strip()


def help_is_told(top):
    ran = run(top, "--help")
    forms = ("./test --quick", "./test CRATE..", "./test --long", "./test --soak", "./test --help")
    assert all(it in ran.stdout for it in forms) and (ran.stderr, ran.returncode) == ("", 0), (ran.stdout, ran.stderr)


def main():
    told = cases.Tally(cases.given(__doc__).word)
    with cases.folder() as top:
        make(top)
        for name, path, change, wanted in CASES:
            told.case(name, is_told, top, path, change, wanted)
        for words in REFUSED:
            told.case(f"./test {' '.join(words)}", is_refused, top, *words)
        told.case("./test --help", help_is_told, top)
        told.case("./test --quick", quick_says_that_nothing_is_proved, top)
        told.case("./test tiny", a_crate_is_proved, top)
    told.end()


if __name__ == "__main__":
    main()
