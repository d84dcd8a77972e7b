#!/usr/bin/env python3
"""Plays scripts of calls of the tree and its nodes through play_operations, and holds what it prints against a model
(operations_model.py) made from the contracts.

    tests/operations.py [--quick] [WORD]    at the top of the repository; WORD: only scripts with it in a name; --quick: by
                                            a player that is built soonest
    tests/operations.py --show N FILE       prints what the model answers to a script, where N bytes of a prefix are stored
The scripts of tests/operations/ are worked rows; others are made at random from fixed seeds, and two have a tree as deep
as its keys are long. Each is played over three lengths of stored prefixes, by the player that tests/players.py builds,
under a stack of 256 KiB.
"""
import itertools
import os
import random
import resource
import subprocess
import sys
from collections import Counter
from glob import glob

import cases
import players
from operations_model import bytes_in, hold_tree, Inner, Model, overlap, tree_of

PREFIX_LENS = (0, 4, 16)
PLAYER = "play_operations"
STACK = 256 << 10
PUTS = ("insert", "insert_placed", "insert_at_point", "put_over")
# What each line names: `k` a key, `s` one that is stored if it can be, `n` a number, `b` a bound, `c` a command.
CALLS = {
    "insert": "kn", "insert_placed": "kn", "insert_at_point": "kn", "put_over": "kn", "delete": "s", "take_leaf": "s",
    "delete_first": "", "delete_last": "", "cut": "s", "leave": "s",
    "reserve": "n", "clone": "", "key": "k", "command": "c", "forget": "", "run": "", "free": "",
    "free_apart": "", "check": "", "search": "s", "prefix_search": "k", "minimum": "", "maximum": "", "path": "s",
    "start": "b", "end": "b", "range": "bb", "segment": "k",
}  # fmt: skip
# Calls that tell how many nodes a look-up reads; so many stand together, each so many lines.
COUNTS = {"count_start": "b", "count_end": "b", "count_range": "bb", "count_segment": "k"}
TOGETHER, APART = 4, 25
OFTEN = {"insert": 10, "insert_placed": 10, "insert_at_point": 8, "command": 4, "put_over": 1.4}
OFTEN |= {"free": 0.05, "free_apart": 0.05, "run": 0.1, "forget": 0.3, "key": 0.5}


class Writer:
    """Lines at random, over keys that branch at a width drawn once, after a front that is drawn once."""

    def __init__(self, seed, prefix_len):
        self.of, self.model, self.lines = random.Random(seed), Model(prefix_len), []
        self.front = self.of.choice(("", "", "aa.", "aa*3.", "aa*5.", "aa*17.", "aa*40."))
        self.wide = self.of.choice((2, 4, 6, 17, 18, 33, 34, 49, 50, 120))
        self.alphabet = self.of.sample(range(256), self.wide)

    def add(self, *words):
        self.lines.append(" ".join(map(str, words)))
        return self.model.answers(self.lines[-1])

    def tail(self):
        return bytes(self.of.choices(self.alphabet, k=self.of.randint(0, 2 + (self.wide < 9))))

    def word(self, kind):
        if kind == "s" and self.model.pairs and self.of.random() < 0.8:
            return self.of.choice(sorted(self.model.pairs)).hex() or "-"
        if kind in "ks":
            return self.front + (self.tail().hex() or "-")
        if kind == "b":
            sign = self.of.choice("[[((*")
            return sign if sign == "*" else sign + self.word("k")
        if kind == "n":
            return str(self.of.randrange(40))
        call = self.of.choice(("insert",) * 6 + ("prefix_insert", "delete", "delete", "clone"))
        return call if call == "clone" else f"{call} {self.word('k')} {self.word('n')}"

    def count(self):
        """Counts what look-ups read. What is drawn after these lines is what would be drawn without them."""
        state = self.of.getstate()
        for _ in range(TOGETHER):
            call = self.of.choice(list(COUNTS))
            self.add(call, *map(self.word, COUNTS[call]))
        self.of.setstate(state)

    def play_tree(self, length):
        weights = [OFTEN.get(it, 1) for it in CALLS]
        for number in range(length):
            if number % APART == APART - 1:
                self.count()
            call = self.of.choices(list(CALLS), weights)[0]
            words = list(map(self.word, CALLS[call]))
            if call == "key":
                # (what is put in next has the bytes of the key that is kept, also where it is made anew)
                self.add(call, *words)
                self.add(self.of.choice(PUTS), words[0], self.word("n"))
                continue
            self.add(call, *words)

    def behind_last(self):
        """A word for a key that goes after the last one, or any, if there is none or it has no greater byte."""
        last = max(self.model.pairs, default=b"")
        places = [at for at, byte in enumerate(last) if byte < 255]
        if not places or self.of.random() < 0.2:
            return self.word("k")
        at = self.of.choice(places)
        return (last[:at] + bytes([self.of.randint(last[at] + 1, 255)]) + self.tail()).hex()

    def build_on(self):
        """The tree is opened at its last leaf, takes pairs after that, and is closed."""
        if self.of.random() < 0.5:
            self.add("room", len(self.model.pairs) + self.of.randint(0, 3))
        self.add("reopen")
        for _ in range(self.of.randint(1, 6)):
            for call in ("reserve_push", "reserve"):
                if self.of.random() < 0.3:
                    self.add(call, self.of.randint(1, 3))
            self.add("push", self.behind_last(), self.word("n"))
        self.add("finish")
        self.add("check")

    def list_leaves(self):
        """The leaves stand in a list, into which pairs are put, or out of which the last ones move; and a tree again."""
        is_start, pairs = self.of.random() < 0.5, self.model.pairs
        self.add("list", "start" if is_start else "end")
        keys = [bytes_in(self.word("s")) for _ in range(8)] if is_start else []
        for key in sorted(set(keys)):
            if not any(overlap(key, it) for it in pairs if it != key):
                self.add("list_put", key.hex() or "-", self.word("n"))
        for _ in range(self.of.randint(0, 2) * (not is_start)):
            self.add(self.of.choice(("list_remove", f"list_move {self.of.randint(0, len(pairs))}")))
        self.add("room", len(pairs) + self.of.randint(0, 2))
        self.add("rebuild")
        self.add("check")

    def sites(self):
        """What is drawn after these lines is what would be drawn without them."""
        state = self.of.getstate()
        for call in (self.build_on, self.list_leaves, self.build_on, self.list_leaves):
            call()
        self.of.setstate(state)

    # Nodes by hand.
    def pairs(self):
        front, pairs = bytes_in(self.front), {}
        for _ in range(self.of.choice((1, 2, 3, 5, 9, 20, 40, 70))):
            key = front + self.tail()
            if not any(overlap(key, it) for it in pairs):
                pairs[key] = self.of.randrange(99)
        return sorted(pairs.items())

    def build(self):
        """A tree by hand, node by node, in place of all that the arena has."""
        self.add("clear")
        nodes = []
        tree = tree_of(self.pairs())
        hold_tree(nodes, tree, self.model.prefix_len)
        prefixes, waiting = [], [tree]
        for it in waiting:
            prefixes.append(it.prefix if isinstance(it, Inner) else b"")
            waiting += [it.children[byte] for byte in sorted(it.children)] if isinstance(it, Inner) else []
        for node, prefix in zip(nodes, prefixes):
            if node.kind:
                self.add("node", node.kind, prefix.hex() or "-", len(prefix))
            else:
                self.add("leaf", node.key.hex() or "-", node.value)
        for at, node in enumerate(nodes):
            for byte, child in self.of.sample(sorted(node.children.items()), len(node.children)):
                self.add("write", at, byte, child)
            if node.kind == 0:
                self.add("link", at, *("-" if it is None else it for it in node.links))
        self.add("root", 0)

    def some(self, is_inner=None):
        """The number of a node, of an inner one, or of a leaf."""
        nodes = self.model.nodes
        fit = [at for at, it in enumerate(nodes) if is_inner is None or bool(it.kind) == is_inner]
        return self.of.choice(fit or range(len(nodes)))

    def repoint(self, at, to):
        """What named one node names another."""
        if self.model.root == at:
            self.add("root", to)
        for parent, node in enumerate(self.model.nodes):
            for byte, child in sorted(node.children.items()):
                if child == at and node.held:
                    self.add("write", parent, byte, to)

    def harmless(self):
        """Edits that leave a tree what it was, or one of the same keys."""
        nodes, of = self.model.nodes, self.of
        at = self.some(of.random() < 0.5)
        node = nodes[at]
        if node.kind == 0:
            if of.random() < 0.5:
                return self.add("link", at, *("-" if it is None else it for it in node.links))
            return self.add("rekey", at, node.key.hex() or "-", of.randrange(99))
        if of.random() < 0.3 and node.children:
            byte = of.choice(sorted(node.children))
            return self.add("write", at, byte, node.children[byte])
        if of.random() < 0.3:
            return self.add("clone")
        copy = len(nodes)
        if self.add("copy", at, node.kind) != {"no"}:
            self.repoint(at, copy)

    def damage(self):
        of, nodes = self.of, self.model.nodes
        what = of.choice(("write", "write", "remove", "prefix", "link", "rekey", "copy", "grow", "shrink", "root"))
        inner, leaf = self.some(True), self.some(False)
        if what == "write":
            child = self.some()
            if of.random() < 0.1:
                child = len(nodes)
                self.add("raw", of.choice(("4", "16", "32", "48", "256", "leaf")), 1_000_000 + child)
            held = sorted(nodes[inner].children)
            self.add("write", inner, of.choice(held) if held and of.random() < 0.7 else of.randrange(256), child)
        elif what == "remove":
            self.add("remove", inner, of.choice(sorted(nodes[inner].children) or [0]))
        elif what == "prefix":
            stored, size = bytearray(nodes[inner].stored), nodes[inner].prefix_len
            if stored and of.random() < 0.6:
                stored[of.randrange(len(stored))] ^= of.choice((0, 1, 255))
            else:
                size = max(0, size + of.choice((-1, 1, 3)))
                stored = (stored + bytes(20))[: min(size, 20)]
            self.add("prefix", inner, stored.hex() or "-", size)
        elif what == "link":
            links = [*nodes[leaf].links, None, self.some(False)]
            self.add("link", leaf, *("-" if it is None else it for it in of.sample(links, 2)))
        elif what == "rekey":
            key = bytearray(nodes[leaf].key)
            if key and of.random() < 0.7:
                key[of.randrange(len(key))] ^= of.choice((0, 1, 255))
            elif of.random() < 0.5:
                key = key[:-1] if of.random() < 0.5 else key + b"\0"
            self.add("rekey", leaf, key.hex() or "-", of.randrange(99))
        elif what == "root":
            self.add("root", self.some() if of.random() < 0.9 else "-")
        else:
            copy, kind = len(nodes), of.choice((4, 16, 32, 48, 256))
            if self.add(what, inner, *([kind] if what == "copy" else [])) != {"no"}:
                self.repoint(inner, copy)

    def check(self):
        self.add("tell")
        self.add("check", sum(node.held and node.kind == 0 for node in self.model.nodes))

    def play_nodes(self, rounds):
        self.add("by_hand")
        self.add("names")
        self.check()
        for _ in range(rounds):
            if self.of.random() < 0.7 or not self.model.nodes:
                self.build()
            for _ in range(self.of.choice((0, 0, 1, 2))):
                self.harmless()
            if self.of.random() < 0.3:
                self.check()
            for _ in range(self.of.choice((0, 1, 1, 1, 2, 3))):
                self.damage()
            self.check()
            # (a name that is free may be given again: so these come last before all is cleared)
            if self.of.random() < 0.3:
                for _ in range(self.of.randint(1, 2)):
                    self.add("free", self.some())
                self.check()
                self.build()


def script(seed, prefix_len, length, rounds):
    writer = Writer(seed, prefix_len)
    writer.play_tree(length)
    writer.sites()
    writer.add("check")
    writer.play_nodes(rounds)
    return writer.lines


def replay(seed, number):
    """A list of commands of all four kinds over keys that share long fronts, in turn more insertions and more deletions;
    and the nodes that are left, with their links."""
    of = random.Random(seed)
    fronts, tails = ("", "07*5.", "07*20.", "07*40."), ((1, 4), (2, 4), (3, 4), (2, 256), (2, 256), (2, 256))
    keys = [word[:-1] for word in fronts[1:]]
    for _ in range(600):
        size, values = of.choice(tails)
        keys.append(of.choice(fronts) + bytes(of.randrange(values) for _ in range(size)).hex())
    lines = []
    for at in range(number):
        weights = (0.5, 10, 65 if at // 800 % 2 else 30, 35 if at // 800 % 2 else 60)
        call = of.choices(("clone", "prefix_insert", "insert", "delete"), weights)[0]
        lines.append("command clone" if call == "clone" else f"command {call} {of.choice(keys)} {at}")
        if at % 5000 == 4999:
            lines += ["run", "check", "minimum", "maximum"]
    return [*lines, "by_hand", "names"]


def deep_commands(depth):
    """Commands that make a tree with a branch at each of so many bytes; it is cloned, freed, and freed by parts."""
    lines = [f"command insert 00*{zeros}.01 {zeros}" for zeros in range(depth + 1)]
    return [*lines, "run", "clone", "free", "check", "run", "free_apart", "check"]


def deep_nodes(depth):
    """Such a tree by hand, from its lowest leaf on: it is checked, and again when that leaf gives way to the root."""
    lines = ["by_hand", "names", f"leaf 00*{depth} 0"]
    below, last = 0, 0
    for zeros in range(depth - 1, -1, -1):
        leaf, node = 2 * (depth - zeros) - 1, 2 * (depth - zeros)
        lines += [f"leaf 00*{zeros}.01 {zeros}", "node 4 - 0", f"write {node} 0 {below}", f"write {node} 1 {leaf}"]
        before = "-" if last == 0 else last - 2 if last > 1 else 0
        lines.append(f"link {last} {before} {leaf}")
        below, last = node, leaf
    return [*lines, f"link {last} {last - 2} -", f"root {below}", f"check {depth + 1}", f"write 2 0 {below}", f"check {depth + 1}"]


def wanted(prefix_len, lines):
    """All that the model allows of each line's answer."""
    model = Model(prefix_len)
    return [model.answers(line) for line in lines]


def limit():
    resource.setrlimit(resource.RLIMIT_STACK, (STACK, STACK))


def play(program, prefix_len, lines, allowed):
    text = "".join(f"{line}\n" for line in [f"tree {prefix_len}", *lines])
    how = {"capture_output": True, "text": True, "timeout": 120, "preexec_fn": limit}
    ran = subprocess.run([program], input=text, **how)
    assert (ran.returncode, ran.stderr) == (0, ""), f"status {ran.returncode}: {ran.stderr[-300:]}"
    told = ran.stdout.splitlines()
    for number, (line, answer, those) in enumerate(zip(lines, told, allowed)):
        assert answer in those, f"row {number + 1}, {line[:60]}: {answer[:200]} and not {sorted(those)[0][:200]}"
    assert len(told) == len(lines), f"{len(told)} answers to {len(lines)} lines"


def rows(file, prefix_len):
    """A worked row: what was written down for it is what the model answers too."""
    lines, written = open(file).read().splitlines(), open(file[: -len("lines")] + "replies").read().splitlines()
    model = wanted(prefix_len, lines)
    assert len(model) == len(written), f"{file}: {len(written)} answers to {len(model)} lines"
    for line, answer, those in zip(lines, written, model):
        assert answer in those, f"{file}, {line}: {answer}, but the model answers {sorted(those)}"
    return lines


def scripts(prefix_len, number=60, length=250, rounds=12, word=""):
    """Each script that has the word in its name: its name and its lines. A row with a number in its name is one of that
    length of prefixes."""
    for file in sorted(glob("tests/operations/*.lines")):
        name, *stored, _ = os.path.basename(file).split(".")
        if word in name and (not stored or int(stored[0]) == prefix_len):
            yield name, rows(file, prefix_len)
    for seed in (it for it in range(number) if word in f"random {it}"):
        yield f"random {seed}", script(seed, prefix_len, length, rounds)


def long_scripts(word):
    made = {"replay": (replay, 1, 20_000), "deep commands": (deep_commands, 3000)}
    made["deep nodes by hand"] = deep_nodes, 2400
    yield from ((name, make(*of)) for name, (make, *of) in made.items() if word in name)


def main():
    given = cases.given(__doc__, "--quick", "--show=N")
    if "--show" in given:
        lines = cases.read(given.word).splitlines()
        print("\n".join(" or ".join(sorted(it)) for it in wanted(int(given["--show"]), lines)))
        return
    sys.setrecursionlimit(50_000)
    told, faults, program = cases.Tally(), Counter(), players.program(PLAYER, "--quick" in given)
    for prefix_len in PREFIX_LENS:
        for name, lines in itertools.chain(scripts(prefix_len, word=given.word), long_scripts(given.word)):
            allowed = wanted(prefix_len, lines)
            for line, those in zip(lines, allowed):
                faults.update(those if line.startswith("check") and not any("leaves" in it for it in those) else ())
            told.case(f"{PLAYER} {name}, prefixes of {prefix_len}", play, program, prefix_len, lines, allowed)
    print("faults that stood at a check: " + ", ".join(f"{it} {number}" for it, number in sorted(faults.items())))
    told.end()


if __name__ == "__main__":
    main()
