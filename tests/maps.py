#!/usr/bin/env python3
"""Plays scripts of calls of maps and sets through play_map, and holds what it prints against a model (map_model.py,
set_model.py) made from the contracts.

    tests/maps.py [--quick] [WORD]    at the top of the repository; WORD: only scripts that have it in a name; --quick: by a
                                      player that is built soonest
    tests/maps.py --show FILE         prints what the model answers to a script
The scripts of tests/maps/ are worked rows; others are made at random from fixed seeds, or go through all small maps.
Each is played over three lengths of stored prefixes, or over the one in its name, by the player that tests/players.py
builds. Under it tests/held.c counts the bytes that are held, for the lines that ask how many are.
"""
import functools
import itertools
import os
import random
import subprocess
from glob import glob

import cases
import players
from map_model import Counts, Model
from map_words import FILLING, PREFIX_FILLING
from set_model import SetModel

PLAYER = "play_map"
PREFIX_LENS = (0, 4, 16)
KINDS = ("free", "ended", "set")
# All keys of two bytes over three letters; what bounds and prefixes are made of: none, one or two of these letters, one
# between them, one more byte.
SMALL_KEYS = [f"{first}{second}" for first in ("01", "03", "05") for second in ("01", "03", "05")]
WORDS = ["-", "01", "02", "03", "05", "06", *SMALL_KEYS, "0302", "010300", "030303", "050505"]
BOUNDS = [f"{sign}{word}" for word in WORDS for sign in "[("] + ["*"]


SET_CALLS = {
    "len": "", "contains": "s", "get": "s", "first": "", "last": "", "iter": "e", "range": "bbe", "insert": "k",
    "try_insert": "k", "replace": "k", "clear": "", "take": "s", "remove": "s", "pop_first": "", "pop_last": "",
    "retain": "", "extract_if": "bbe", "difference": "", "symmetric_difference": "", "intersection": "", "union": "",
    "is_disjoint": "", "is_subset": "", "is_superset": "", "compare": "", "swap": "", "append": "", "extend": "",
    "from_vec": "", "from_iter": "", "split_off": "s", "clone": "", "into_iter": "e", "and": "", "or": "", "xor": "",
    "compact": "", "minus": "", "hash": "", "debug": "", "extend_from_refs": "",
}  # fmt: skip
CALLS = {
    "len": "", "is_empty": "", "first_key_value": "", "last_key_value": "", "check": "", "audit": "", "clear": "",
    "pop_first": "", "pop_last": "", "get": "k", "get_key_value": "k", "contains_key": "k", "index": "s",
    "prefix_get": "k", "prefix_get_key_value": "k", "prefix_get_key_value_mut": "kn", "get_mut": "kn",
    "prefix_get_mut": "kn", "try_insert": "kn", "put_at": "kn", "prefix_insert": "kn", "remove": "s",
    "remove_entry": "s", "iter": "e", "keys": "e", "values": "e", "range": "bbe", "prefix": "ke", "range_mut": "bbxn",
    "prefix_mut": "knx", "iter_mut": "xn", "values_mut": "en", "extraction": "bbx", "extract_if": "bben", "retain": "n",
    "remove_prefix": "p", "apply_prefix": "p", "prepare_prefix": "p", "read_get": "s", "read_prefix_get": "s",
    "read_prefix": "p", "read_range": "s", "compact": "",
}  # fmt: skip
FREE = {"try_entry": "kn", "prefix_entry": "k", "prefix_insert_entry": "kn", "prefix_keys": "k"}
INNER = ("occupied_insert", "occupied_insert_entry", "inner_insert", "inner_insert_entry", "occupied_shown")
INNER += ("inner_get_mut", "inner_pair_mut", "inner_lone_pair", "inner_iter_mut")
FREE |= {it: "kn" for it in (*PREFIX_FILLING, *INNER)}
ENDED = ["insert", *FILLING, *(f"{it}_entry" for it in FILLING), "insert_entry", "and_modify", "entry_insert"]
ENDED += ["entry_remove", "entry_remove_entry", "into_mut", "into_key", "vacant_insert_entry", "replace_entry"]
ENDED_CALLS = {it: "kn" for it in ENDED}
ENDED_CALLS |= {"swap": "", "split_off": "s", "into_iter": "e", "into_keys": "e", "into_values": "e"}
ENDED_CALLS |= {"remove_from_both": "p"}
ENDED_CALLS |= {"append": "", "extend": "", "from_vec": "", "from_iter": "", "clone": "", "compare": ""}
ENDED_CALLS |= {"hash": "", "debug": "", "extend_from_refs": ""}
# Calls of a map that tell how many nodes are read; so many stand at the end of a script.
COUNTS, COUNTED = {"count_get": "s", "count_prefix": "p", "count_range": "bb", "count_cut": "p"}, 12
# Calls that are given a bag of pairs, which is filled before.
FROM_BAG = ("extend", "from_vec", "from_iter")
# Calls that make a map larger, and smaller: by turns the ones are made often, and the others.
PUTTING = ("try_insert", "insert", "insert_entry", "replace")
TAKING = ("remove", "remove_entry", "pop_last", "take", "entry_remove", "entry_remove_entry", "pop_first")
SELDOM = ("clear", "retain", "extraction", "extract_if", "prefix_insert", "prefix_insert_entry", *PREFIX_FILLING)
SELDOM += INNER[:4]
SELDOM += ("remove_prefix", "apply_prefix", "remove_from_both", "compact")
SELDOM += ("split_off", "into_iter", "into_keys", "into_values", "append", "clone", *FROM_BAG)
SELDOM += ("and", "or", "xor", "minus", "debug", "extend_from_refs")


def model_of(kind):
    return SetModel() if kind == "set" else Model(kind == "ended")


def script(seed, kind, length):
    """Lines at random, over keys that branch at a width drawn once, after a front that is drawn once."""
    of = random.Random(seed)
    front = of.choice(("", "", "aa.", "aa*3.", "aa*17.", "aa*40."))
    wide = of.choice((2, 4, 6, 17, 18, 33, 34, 49, 50, 120))
    alphabet = of.sample(range(1, 256), wide)
    model = model_of(kind)

    def word(kind):
        stored = model.keys if isinstance(model, SetModel) else model.pairs
        if kind == "s" and stored and of.random() < 0.8:
            return of.choice(sorted(stored)).hex() or "-"
        if kind == "p" and stored and of.random() < 0.8:
            # a front of a stored key, now and then none of it or all
            key = of.choice(sorted(stored))
            return key[: of.randint(0, len(key))].hex() or "-"
        if kind in "ksp":
            size = max(of.randint(0, 2 + (wide < 9)) for _ in range(3))
            tag = f"#{of.randint(1, 9)}" * (kind == "k" and of.random() < 0.5)
            return front + (bytes(of.choices(alphabet, k=size)).hex() or "-") + tag
        if kind == "b":
            return of.choice("[[((*") + word("k")
        if kind == "n":
            return str(of.randrange(40))
        return "".join(of.choices("fb" if kind == "e" else "fbpq", k=of.randint(1, 9)))

    calls = SET_CALLS if kind == "set" else {**CALLS, **(ENDED_CALLS if kind == "ended" else FREE)}
    often = of.choice((9, 30))
    weights = [
        [often if it in many else 120 / length if it in SELDOM else 0.3 if it in few else 1 for it in calls]
        for many, few in ((PUTTING, TAKING), (TAKING, PUTTING))
    ]
    lines = []
    for number in range(length):
        call = of.choices(list(calls), weights[number * 8 // length % 4 // 3])[0]
        for line in ["drain"] * (call in FROM_BAG) + [" ".join([call, *map(word, calls[call])]).rstrip()]:
            lines.append(line)
            model.answer(line)
    if kind == "set":
        return lines + ["iter " + "f" * (len(model.keys) + 1)]
    for call in of.choices(list(COUNTS), k=COUNTED):
        lines.append(" ".join([call, *map(word, COUNTS[call])]))
        model.answer(lines[-1])
    return lines + ["check", "iter " + "f" * (len(model.pairs) + 1)]


def wanted(kind, lines):
    """What the model answers to a script, for each length of stored prefixes."""
    return answered(kind, tuple(lines))


@functools.lru_cache(maxsize=1)
def answered(kind, lines):
    model = model_of(kind)
    answers = [model.answer(line) for line in lines]
    return {size: "".join(f"{it.of(size) if isinstance(it, Counts) else it}\n" for it in answers) for size in PREFIX_LENS}


def sizes(name):
    """The lengths of prefixes over which a script is played: that one which stands in its name, if one does."""
    return [int(it) for it in name.split(".")[1:] if it.isdigit()] or PREFIX_LENS


def rows(file):
    """A worked row: what was written down for it is what the model answers too."""
    kind, lines = file.split(".")[-2], open(file).read().splitlines()
    written, model = open(file[: -len("lines")] + "replies").read(), wanted(kind, lines)
    for size in sizes(os.path.basename(file)):
        assert written == model[size], f"{file}: the model answers {model[size]}"
    return kind, lines


def play(program, prefix_len, kind, lines, model):
    text = "".join(f"{line}\n" for line in [f"map {prefix_len} {kind}", *lines])
    # (which counts the bytes that are held)
    env = {"LD_PRELOAD": cases.shim("held.c")}
    ran = subprocess.run([program], input=text, capture_output=True, text=True, timeout=120, env=env)
    assert (ran.returncode, ran.stderr) == (0, ""), f"status {ran.returncode}: {ran.stderr[-300:]}"
    if ran.stdout != model:
        told, model = ran.stdout.split("\n"), model.split("\n")
        at = next((n for n, (a, b) in enumerate(zip(told, model)) if a != b), -1)
        raise AssertionError(f"row {at + 1}: {told[at][:200]} and not {model[at][:200]}")


def mixtures(count, letters="fb"):
    """Every mixture of so many steps at the ends, and then one at each."""
    return ["".join(it) + "fb" for it in itertools.product(letters, repeat=count)]


def small_maps(kind):
    """Walks in every mixture of both ends over each map of at most four of nine keys; between bounds, of which some
    pairs are drawn, and over what is taken out, in mixtures that are drawn. All keys with each prefix are removed."""
    of, put = random.Random(kind), "try_insert" if kind == "free" else "insert"
    for keys in itertools.chain(*(itertools.combinations(SMALL_KEYS, size) for size in range(5))):
        fill = ["clear"] + [f"{put} {key} {of.randrange(9)}" for key in keys]
        every, drawn = mixtures(len(keys)), lambda letters="fb": of.choice(mixtures(len(keys), letters))
        yield from fill
        for ends in every:
            if kind != "free":
                walks = ("into_iter",) if kind == "set" else ("into_iter", "into_keys", "into_values")
                yield from itertools.chain(*([f"{walk} {ends}", *fill] for walk in walks))
            yield from (f"{walk} {ends}" for walk in ("iter", *("keys", "values") * (kind != "set")))
            if kind == "free":
                yield from (f"{walk} {ends} 1" for walk in ("iter_mut", "values_mut"))
        for word in WORDS if kind == "free" else ():
            found = sum(word == "-" or key.startswith(word) for key in keys)
            yield from (f"prefix {word} {ends}" for ends in mixtures(found))
            yield f"prefix_mut {word} 3 {drawn('fbpq')}"
            yield from (f"{of.choice(('remove', 'apply'))}_prefix {word}", "check", "iter fffff", *fill)
        for start, end in itertools.product(BOUNDS, BOUNDS):
            if of.random() < 0.08:
                yield f"range {start} {end} {drawn()}"
                yield from [f"range_mut {start} {end} {drawn('fbpq')} 5"] * (kind != "set")
            if of.random() < 0.02:
                taking = "".join(of.choices("f" if kind == "set" else "fb", k=len(keys) + 1))
                yield f"extract_if {start} {end} {taking} {of.randrange(9)}"
                yield from ("iter ffff", *["check"] * (kind != "set"), *fill)
    if kind == "free":
        yield from extractions()


def extractions():
    """Five of seven keys, each taken out or passed at either end, in every mixture."""
    fill = ["clear"] + [f"try_insert {key} 7" for key in ("0101", "0103", "0301", "0303", "0305", "0501", "0505")]
    for steps in mixtures(5, "fbpq"):
        yield from (*fill, f"extraction (0102 [0501 {steps}", "check", "iter fffffff")


def scripts(word="", is_wanted=lambda name, lines: True):
    """Each script that has the word in its name: its name, the kind of its keys, and its lines; but for long ones. Rows
    that are not wanted are left out."""
    for file in sorted(it for it in glob("tests/maps/*.lines") if word in os.path.basename(it)):
        if is_wanted(os.path.basename(file), cases.read(file).splitlines()):
            yield os.path.basename(file), *rows(file)
    for seed in (it for it in range(60) if word in f"random {it}"):
        kind = KINDS[seed % 3]
        yield f"random {seed}", kind, script(seed, kind, 600)


def long_scripts(word):
    for kind in KINDS if word in "small maps" else ():
        yield "small maps", kind, list(small_maps(kind))
    for seed in (it for it in range(60, 75) if word in f"random {it}, long"):
        kind = KINDS[seed % 3]
        yield f"random {seed}, long", kind, script(seed, kind, 20_000)


def main():
    given = cases.given(__doc__, "--quick", "--show=FILE")
    if "--show" in given:
        file = given["--show"]
        print(wanted(file.split(".")[-2], cases.read(file).splitlines())[sizes(os.path.basename(file))[0]], end="")
        return
    told, played, program = cases.Tally(), 0, players.program(PLAYER, "--quick" in given)
    for name, kind, lines in itertools.chain(scripts(given.word), long_scripts(given.word)):
        model = wanted(kind, lines)
        for size in sizes(name):
            title = f"{PLAYER} {name}, {kind} keys, prefixes of {size}"
            told.case(title, play, program, size, kind, lines, model[size])
            played += len(lines)
    print(f"{played} lines played")
    told.end()


if __name__ == "__main__":
    main()
