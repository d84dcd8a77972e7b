#!/usr/bin/env python3
"""Refuses memory to each line of the scripts of the tree in turn: each request, alone and with all later ones.

    tests/operations_refused.py [--quick] [WORD]   at the top of the repository; WORD: only lines named by it; --quick: by
                                                   a player that is built soonest
Under tests/refuse.c, which says what a window is, play_operations plays each script of tests/operations but the long
ones, and six that are made at random, once for each line of it. The line stands twice, and is refused the first time: it
must answer a refusal that it may answer, the checker must find the tree as it was in between, and all else must be as if
it stood once. Where a slab then asks for less, and has it, or does without, the answers must be the model's, as where
nothing is refused.
What asks for no memory succeeds with every request refused. How many requests each call made at most, and in how many
runs one was refused, goes to
out/operations_refused.md.
"""
import itertools
import os
import resource

import cases
import operations
import players
import windows
from operations_model import Model, bytes_in, shown

SHIM = os.path.abspath("out/refuse-operations.so")
# For the names of nodes the player takes memory of its own.
PLAYERS_OWN = ("by_hand",)
# Calls that take out one leaf, and calls over the part with a prefix.
TAKING, PARTS = ("delete", "take_leaf", "delete_first", "delete_last"), ("cut", "leave")
# Of each call: its lines, those of no request, the most requests of one, and the runs in which one was refused.
seen_of = {}


def run(program, refuse, line, text):
    """Returns what the shim wrote of the window, and the answers."""
    status, seen, out, err = windows.run([program], SHIM, refuse, line, text)
    assert status == 0, f"REFUSE={refuse} {seen}: status {status}: {err[-300:]}"
    return seen, out.decode().splitlines()


def named_by(word):
    """The bytes that a word names; none where it is a word of another kind."""
    try:
        return bytes_in(word)
    except ValueError:
        return b""


def shrinks(keys, key):
    model = Model(0)
    model.pairs = dict.fromkeys(keys)
    return model.shrinks(key)


def left_by(keys, key):
    if key not in keys:
        return "absent key"
    return "a node gets smaller" if shrinks(keys, key) else "no node gets smaller"


def end_of(call, keys, word):
    """The key of the pair that a call takes out, if there is one."""
    return next(iter({"delete": [word], "take_leaf": [word], "delete_first": keys[:1], "delete_last": keys[-1:]}[call]), None)


def refusals(model, line):
    """All that a line may answer where it is refused."""
    call, *words = line.split(" ") + ["", ""]
    word, keys = named_by(words[0]), sorted(model.pairs)
    if call in ("key", "command", "rekey"):
        return {"no key"}
    if model.is_by_hand:
        return {"memory"} if call in ("leaf", "node", "copy", "grow", "shrink", "check", "clone") else set()
    of_site = model.refusals_of_site(call, *words[:2])
    if of_site is not None:
        return of_site
    if call in TAKING:
        key = end_of(call, keys, word)
        return {"memory"} if key in keys and shrinks(keys, key) else set()
    if call in PARTS:
        return {"memory"} if model.shrinks_without(word) and model.ready != word else set()
    back = f"memory {shown(word)} {int(words[1] or 0)}"
    if call == "insert_at_point" and model.pairs and model.blocked(word):
        return {"no key", back}  # (a copy of the bytes is made)
    if call not in operations.PUTS:
        return {"memory"} if call in ("clone", "reserve", "run", "check") else set()
    if word in keys or call != "put_over" and model.blocked(word):
        return {"no key"}
    return {"no key", back}


def case(model, line, has_room):
    """What tells lines of one call apart."""
    call, *words = line.split(" ") + ["", ""]
    word, keys = named_by(words[0]), sorted(model.pairs)
    if model.is_by_hand:
        return "nodes by hand"
    if call in operations.PUTS:
        told = "stored key" if word in keys else "key in conflict" if model.blocked(word) else "new key"
        return f"{told} that was kept, behind `reserve`" if has_room else told
    of_site = model.refusals_of_site(call, *words[:2])
    if of_site is not None:
        return "may be out of memory" if any(it.startswith("memory") for it in of_site) else "has what it needs"
    if call in PARTS and model.ready == word:
        return "behind `leave`"
    if call in PARTS:
        told = "a node gets smaller" if model.shrinks_without(word) else "no node gets smaller"
        return told if model.parted(word)[0] else "no key with the prefix"
    return left_by(keys, end_of(call, keys, word)) if call in TAKING else ""


def is_refused(model, line, told):
    """Whether this is a refusal of a line. In a list of commands a refused one counts as not made."""
    refused = {at for at, it in enumerate(told.split(", ")) if it == "Memory"}
    if line != "run" or not refused:
        return told in refusals(model, line)
    model = model.again()
    model.refused = refused
    return told in model.answers(line)


def agrees(allowed, told):
    return len(allowed) == len(told) and all(it in those for it, those in zip(told, allowed))


def one_line(program, lines, at):
    model, refused = Model(4), 0
    for line in lines[:at]:
        model.answers(line)
    # (after a list of commands another tree stands, and nodes by hand need be none)
    looks = [] if model.is_by_hand or lines[at] == "run" else ["check"]
    once = [*lines[:at], *looks, *lines[at:]]
    twice = [*lines[: at + 1], *looks, *lines[at:]]
    of_once, of_twice = operations.wanted(4, once), operations.wanted(4, twice)
    text = "".join(f"{it}\n" for it in ["tree 4", *twice]).encode()
    for rest in ("", "+"):
        for number in itertools.count(1):
            seen, told = run(program, f"{number}{rest}", at + 2, text)
            label = f"REFUSE={number}{rest} {seen}"
            if "x" not in seen:
                assert agrees(of_twice, told), f"{label}: other answers than the model's"
                break
            if agrees(of_twice, told):
                continue  # (it asked to have more than it needs, and did without)
            refused += 1
            if "l" in seen:
                less, granted = run(program, f"{number}-", at + 2, text)
                assert agrees(of_twice, granted), f"{label}, and {less} where it has less: other answers than the model's"
            assert is_refused(model, lines[at], told[at]), f"{label}: it answers {told[at][:300]}"
            assert agrees(of_once, told[:at] + told[at + 1 :]), f"{label}: else as it stood once"
    has_room = [it.split(" ")[0] for it in lines[max(0, at - 2) : at]] == ["key", "reserve"]
    count = seen_of.setdefault((lines[at].split(" ")[0], case(model, lines[at], has_room)), [0, 0, 0, 0])
    requests = seen.count(".")
    count[:] = [count[0] + 1, count[1] + (requests == 0), max(count[2], requests), count[3] + refused]


def main():
    given = cases.given(__doc__, "--quick")
    told = cases.Tally(given.word)
    resource.setrlimit(resource.RLIMIT_CORE, (0, 0))
    os.makedirs("out", exist_ok=True)
    windows.build(SHIM)
    program = players.program(operations.PLAYER, "--quick" in given)
    for name, lines in operations.scripts(4, 6, 60, 1):
        if name.startswith("long_"):
            continue
        lines = lines[:180]
        for at, line in enumerate(lines):
            if line not in PLAYERS_OWN:
                told.case(f"{operations.PLAYER} {name}, line {at + 1}, {line[:40]}", one_line, program, lines, at)
    with open("out/operations_refused.md", "w", encoding="utf-8") as file:
        for (call, what), numbers in sorted(seen_of.items()):
            file.write(f"| `{call}` | {what} | {' | '.join(map(str, numbers))} |\n")
    told.end()


main()
