#!/usr/bin/env python3
"""Shows what tests/must_fail.py says of edits of each kind, on a tiny crate of its own: those that are let through, no
longer apply or compile, or are refused by a name alone must fail it, each with its line.

Some are tried once more, with goals of an earlier run that are looked at first, most of them wrong: each must come out
as in the first run.

    tests/must_fail_shown.py     at the top of the repository; the last line is 'N passed, M failed'
"""
import os
import re
import subprocess
import sys

import cases

SOURCE = """#![tactic(auto)]
//! Functions whose wrong bodies are tried.

ghost use Rattle.std.specs.Prelude.{◌≡◌, ◌≤◌};

/// The larger of two numbers.
pub fn larger(a: u64, b: u64) -> u64
    ensures above { a ≤ result }
{
    if a < b { b } else { a }
}

/// A number that is at least the first of three.
pub fn largest(a: u64, b: u64, c: u64) -> u64
    ensures above { a ≤ result }
{
    let _ = b;
    larger(a, c)
}

/// A number below two.
pub fn bit() -> u64
    ensures { result ≤ 1 }
{
    0
}

/// The number itself.
pub fn same(n: u64) -> u64
    ensures { result ≡ n }
{
    n
}

/// The number itself.
pub fn same_again(n: u64) -> u64
    ensures { result ≡ n }
{
    let m = same(n);
    same(m)
}

/// A number that is at most another.
pub fn at_most(n: u64) -> u64
    ensures { result ≤ n }
{
    let found = same(n);
    found
}

/// The number itself, which is not 0.
pub fn positive(k: u64) -> u64
    requires { 1 ≤ k }
    ensures { result ≡ k }
{
    k
}

/// The number 2.
pub fn two() -> u64
    ensures { result ≡ 2 }
{
    let start = same(2);
    let p = positive(start);
    p
}

/// The number, counted.
pub fn counted(n: u64) -> u64
    ensures { result ≡ n }
{
    let first = same(n);
    let mut at: u64 = 0;
    for it in 0..first {
        at = it + 1;
    }
    at
}
"""
ANSWERS = {
    "same_again/Answers": """use Rattle.std.proofs.Common.{◌∙◌}
use Rattle.tiny.proofs.same_again.Goals as goal

pub returns : goal.returns
returns c = c.same.ensures ∙ c.same-m.ensures
""",
    "at_most/Answers": """use Rattle.std.proofs.Common.{arith}
use Rattle.tiny.proofs.at_most.Goals as goal

pub returns : goal.returns
returns c = rw c.same-found.ensures (omega arith)
""",
    "two/Answers": """use Rattle.std.proofs.Common.{arith}
use Rattle.tiny.proofs.two.Goals as goal

pub positive-p-requires : goal.positive-p-requires
positive-p-requires c = omega (arith, c.same-start.ensures)
""",
    "counted/Answers": """use Rattle.std.proofs.Common.{arith}
use Rattle.tiny.proofs.counted.Goals as goal

pub returns : goal.returns
returns c = omega (arith, c.same-first.ensures)
""",
    "counted/Invariants": """use Rattle.std.proofs.Common.{◌≡◌}
use Rattle.tiny.proofs.counted.Given as goal

abbrev pub invariant-loop-it : goal.invariant-loop-it
invariant-loop-it l = l.at ≡ l.it
""",
}
# The text of a function, and what takes its place, so that an answer names what is gone.
FIRST = ("let first = same(n);", "let one = same(n); let first = one;")
# Goals that are looked at first. Of `new_way_out` both are so; of the others they are wrong: of edits that are let
# through, a goal that is none, and one that has an answer.
FIRST_GOALS = """tiny/new_way_out: returns-then-n-eq7 returns
tiny/equal_body: returns no_such_goal
tiny/equal_caller: returns returns
tiny/no_answer_fits: returns no_such_goal
tiny/smaller: no_such_goal returns-then-b-a
tiny/of_another: no_such_goal returns
tiny/not_there: returns no_such_goal
"""
# An edit's name, its function, the texts with what takes their place, and how its line goes on.
EDITS = (
    ("smaller", "larger", [("if a < b {", "if b < a {")], "refused: open, and false at some values: returns"),
    ("of_another", "same_again", [("same(m)", "same(m) / 2")], "refused: open without its answer, .*: returns"),
    ("no_answer_fits", "at_most", [("    found", "    0")], "FAILED: LET THROUGH: .* without the answers that no longer fit"),
    ("equal_body", "bit", [("    0", "    1")], "FAILED: LET THROUGH: the function has no open goal with it"),
    # (it calls `larger`, which another edit of its round breaks: it is tried again alone)
    ("equal_caller", "largest", [("larger(a, c)", "larger(a, b)")], "FAILED: LET THROUGH: the function has no open goal with it"),
    ("no_such_value", "same", [("    n", "    m")], "FAILED: IT DOES NOT COMPILE: src/lib.rt:32: .*`m`"),
    ("name_alone", "same_again", [("let m = same(n);", "let k = same(n); let m = k;")], "FAILED: REFUSED BY A NAME ALONE"),
    ("other_name", "two", [("let p =", "let q ="), ("    p\n", "    q\n")], "FAILED: REFUSED BY A NAME ALONE"),
    ("one_clause", "two", [("let start = same(2);", "let one = same(3); let start = one;")], "refused: open.*: returns"),
    ("of_a_loop", "counted", [FIRST, ("at = it + 1;", "at = it;")], "refused: open.*: loop-it-preserved"),
    ("new_way_out", "counted", [FIRST, ("at: u64 = 0;", "at: u64 = 0; if n == 7 { return 8; }")], "refused: open.*: returns"),
    ("no_function", "half::bit", [("    0", "    1")], "FAILED: NO SUCH FUNCTION"),
    ("gone", "same", [("    n + 0", "    n + 1")], "FAILED: IT NO LONGER APPLIES: its text stands 0 times"),
    ("stands_often", "same", [("same(", "other(")], "FAILED: IT NO LONGER APPLIES: its text stands 6 times"),
    ("elsewhere", "same", [("larger(a, c)", "larger(c, a)")], "FAILED: IT NO LONGER APPLIES: it stands in largest"),
)


def make(top):
    """Writes the crate with its edits into a folder."""
    lines = "# What is tried.\n"
    for name, function, pairs, _ in EDITS:
        lines += f"\nedit {name} gate\nin: {function}\n" + "".join(f"old: {old}\nnew: {new}\n" for old, new in pairs)
    files = {"crates.txt": "tiny:\n", "crates/tiny/src/lib.rt": SOURCE, "crates/tiny/edits/lib.edits": lines}
    files |= {f"crates/tiny/proofs/{name}.antt": text for name, text in ANSWERS.items()}
    for path, text in files.items():
        cases.write(f"{top}/{path}", text)


def line_of(said, name, wanted):
    """The line of an edit, where it is as it must be."""
    found = re.search(rf"(?m)^tiny/{name}: .*", said)
    assert found and re.match(f"tiny/{name}: {wanted}", found[0]), f"{found[0] if found else 'no line'}, and not {wanted}"
    return f"as it must be: {found[0]}"


def ends(ran):
    refused = sum(it[-1].startswith("refused") for it in EDITS)
    wanted = f"\n{refused} passed, {len(EDITS) - refused} failed\n"
    assert ran.stdout.endswith(wanted) and ran.returncode == 1, f"status {ran.returncode}, {ran.stdout[-300:]}"


def tried(top, *words):
    """What the script says of the crate, from nothing."""
    how = {"cwd": top, "stdin": subprocess.DEVNULL, "text": True, "errors": "replace"}
    words = [sys.executable, "-B", os.path.abspath("tests/must_fail.py"), "--anew", *words]
    return subprocess.run(words, stdout=subprocess.PIPE, stderr=subprocess.STDOUT, **how)


def comes_out_as(name, said, wanted):
    """Whether an edit comes out as before, by whichever goals."""
    found, before = (re.search(rf"(?m)^tiny/{name}: (refused|FAILED: [A-Z ]+).*", it) for it in (said, wanted))
    assert found and before and found[1] == before[1], f"{found and found[0]}, and before {before and before[0]}"
    return f"as it must be: {found[0]}"


def main():
    told = cases.Tally(cases.given(__doc__, words=0).word)
    with cases.folder() as top:
        make(top)
        ran = tried(top)
        names = re.findall(r"(?m)^tiny/(\w+)", FIRST_GOALS)[:-1]
        cases.write(f"{top}/tests/must_fail.goals", FIRST_GOALS)
        again = tried(top, *[f"tiny/{it}" for it in names])
    for name, *_, wanted in EDITS:
        told.case(name, line_of, ran.stdout, name, wanted)
    told.case("the end", ends, ran)
    for name in names:
        told.case(f"{name}, looked at first", comes_out_as, name, again.stdout, ran.stdout)
    told.end()


if __name__ == "__main__":
    main()
