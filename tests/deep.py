#!/usr/bin/env python3
"""Plays each call of maps and sets over trees with a branch at each byte, by play_map, under a stack of 256 KiB.

    tests/deep.py [--quick] [WORD]      at the top of the repository; WORD: only runs that have it in their name; --quick: by
                                        a player that is built soonest
The keys are so many bytes 01 and then 00, for each number up to one below 100,000: an inner node at each byte of the
longest, each below the one before. A call that goes down by calling itself would need more stack than there is. The
keys share their bytes (`tails`), else they would take gigabytes. Each call of the tables of tests/maps.py is made with
keys that are stored, absent, in conflict, and go on after one, near the root, halfway and at the last branch, and its
answer is held against the model's; after a call that changes keys the checker counts the nodes of a map, of the
deepest after some. The player is built without checks at run time, as a proved build is (tests/players.py).
"""
import functools
import itertools
import resource
import subprocess
from bisect import bisect_left, bisect_right

import cases
import map_entries
import map_model
import map_words
import maps
import players
import set_model
from map_words import Pairs

STACK = 256 << 10
DEEP, SMALL, LEAST = 99_999, 4_999, 999
# How many bytes but one the longest key has, and how many bytes of a prefix a node stores.
RUNS = (DEEP, 0), (DEEP, 4), (DEEP, 16), (SMALL, 4), (LEAST, 4)
# Where so many keys at most are gone or new they are put back one by one.
FEW = 120
ENDS, STEPS = "fbfb", "fbpq"
# Calls with a front of many keys, where none prints them all.
COUNTED = ("prefix_insert", "prefix_get", "prefix_get_key_value", "get", "remove", "contains_key", "try_insert")
COUNTED += ("put_at",)
# Calls that leave a map without most of its keys, and calls that use both maps, between which the keys are parted.
EMPTYING = ("clear", "retain", "into_iter", "into_keys", "into_values", "remove_prefix", "apply_prefix")
EMPTYING += ("remove_from_both",)
WITH_OTHER = ("append", "swap", "extend", "extend_from_refs")
# Calls before which the other one has all keys but two, and calls before which it has these two.
WITH_MORE = ("difference", "symmetric_difference", "xor", "minus", "compare", "is_subset", "is_superset", "is_disjoint")
WITH_TWO = ("intersection", "and")
OPERATORS = ("and", "or", "xor", "minus")
# Calls after which the checker counts the nodes of the deepest maps too.
CHECKED = ("try_insert", "prefix_insert", "remove", "extraction", "remove_prefix", "split_off", "append", "from_vec")


class Key(tuple):
    """Bytes that begin with so many of 01, in an order as that of the bytes."""

    @staticmethod
    def of(ones, rest=b""):
        while rest[:1] == b"\1":
            ones, rest = ones + 1, rest[1:]
        # (where a zero or no byte follows, more of 01 come later, and else earlier)
        return Key((0, ones, *rest) if rest[:1] < b"\1" else (1, -ones, *rest))

    @staticmethod
    def spelled(word):
        parts = [part.partition("*") for part in word.lstrip("[(").split(".") if part[:1] not in ("", "-")]
        ones = 0
        while parts and parts[0][0] == "01":
            ones += int(parts.pop(0)[2] or 1)
        return Key.of(ones, b"".join(bytes.fromhex(digits) * int(times or 1) for digits, _, times in parts))

    @property
    def ones(self):
        return abs(tuple.__getitem__(self, 1))

    @property
    def rest(self):
        return bytes(tuple.__getitem__(self, slice(2, None)))

    def __len__(self):
        return self.ones + len(self.rest)

    def __contains__(self, byte):
        return byte in self.rest or byte == 1 and self.ones > 0

    def __getitem__(self, at):
        return 1 if at < self.ones else self.rest[at - self.ones]

    def __add__(self, more):
        return Key.of(self.ones, self.rest + more)

    def startswith(self, front):
        return self.ones == front.ones and self.rest.startswith(front.rest) or self.ones > front.ones and not front.rest

    def hex(self):
        return ".".join([f"01*{self.ones}"] * (self.ones > 0) + [self.rest.hex()] * (self.rest != b"")) or "-"

    def tails(self):
        yield from (Key.of(self.ones - at, self.rest) for at in range(self.ones))
        yield from (Key.of(0, self.rest[at:]) for at in range(len(self.rest)))


def shown(key):
    return f"[{('1, ' * key.ones + ', '.join(map(str, key.rest))).removesuffix(', ')}]"


def common(one, other):
    if one.ones != other.ones:
        return Key.of(min(one.ones, other.ones))
    return Key.of(one.ones, map_words.common(one.rest, other.rest))


class Map(map_model.Model):
    def call_tails(self, word, *_):
        given = {key: at % 7 for at, key in enumerate(self.key(word).tails())}
        new = len(given.keys() - self.pairs.keys())
        self.pairs = Pairs({**self.pairs, **given})
        return str(new)

    def extract(self, key):
        return self.take(key)

    def call_retain(self, least, *_):
        raised, calls = {key: value + 1 for key, value in self.pairs.items()}, len(self.pairs)
        self.pairs = Pairs({key: value for key, value in raised.items() if value >= int(least)})
        return f"done {calls}"

    def front_of(self, query):
        # (no stored key is a front of another, so one that is a front of the query has no other between them)
        at = bisect_right(self.pairs.keys_in_order, query) - 1
        found = self.pairs.keys_in_order[at] if at >= 0 else None
        return found if found is not None and query.startswith(found) else None

    def overlapped(self, key):
        front, keys = self.front_of(key), self.pairs.keys_in_order
        low = high = bisect_left(keys, key)
        while high < len(keys) and keys[high].startswith(key):
            high += 1
        return [front] * (front is not None and front != key) + keys[low:high]


class Set(set_model.SetModel):
    def call_tails(self, word, *_):
        given = set((Key.spelled(word) + b"\0").tails())
        new = len(given - self.keys)
        self.keys |= given
        return str(new)

    def call_retain(self, *_):
        self.keys = {key for key in self.keys if key[0] % 2 == 0}
        return "done"

    def taken(self, key):
        self.keys.discard(key)
        return shown(key)


class Script:
    def __init__(self, kind, size):
        self.kind, self.lines, self.told = kind, [], []
        self.model = Set() if kind == "set" else Map(kind == "ended")
        self.zero = "" if kind == "free" else ".00"
        self.put = {"set": "insert", "ended": "insert", "free": "try_insert"}[kind]
        self.filling = ["clear", f"tails 01*{size}" + ".00" * (kind == "free")]
        self.fill()
        self.full = dict.fromkeys(self.model.keys, 0) if kind == "set" else dict(self.model.pairs)
        self.in_order = sorted(self.full)

    def play(self, line):
        self.lines.append(line)
        self.told.append(self.model.answer(line))

    def fill(self):
        for line in self.filling:
            self.play(line)

    def stored(self):
        return self.model.keys if self.kind == "set" else self.model.pairs.keys()

    def handed(self, key):
        """The word for a key that is handed in: a zero at the end goes without saying."""
        return (Key.of(key.ones, key.rest[:-1]) if self.zero else key).hex()

    def ready(self):
        """A tree of all keys, where some are gone or new: those put back, the other one, or one that is filled."""
        if self.kind != "set" and self.model.pairs.keys_in_order == self.in_order:
            return
        gone, new = self.full.keys() - self.stored(), self.stored() - self.full.keys()
        if len(gone) + len(new) <= FEW:
            for key in sorted(new):
                self.play(f"remove {key.hex()}")
            for key in sorted(gone):
                self.play(f"{self.put} {self.handed(key)} {self.full[key]}")
        elif self.model.other and not self.full.keys() - set(self.model.other):
            self.play("swap")
        else:
            self.fill()


def tables(kind):
    """The calls of a kind, with the kinds of their words."""
    if kind == "set":
        return maps.SET_CALLS
    return {**maps.CALLS, **(maps.ENDED_CALLS if kind == "ended" else maps.FREE)}


def words_for(script, call, size):
    """The words that a call is made with, by the kinds that its table names."""
    kinds, zero = tables(script.kind)[call], script.zero
    # (a query names all bytes of a stored key, the zero at its end too; a key that is handed in does not)
    places = [f"01*{size}", f"01*{size - 1}", f"01*{size // 2}", "01"]
    absent = [f"01*{size}.03", f"01*{size - 1}.07", f"01*{size // 2}.07", "07"]
    fronts, behind = [f"01*{size}", f"01*{size - 40}"], [f"01*{size}.00.07", f"01*{size // 2}.00.07"]
    wide = [f"01*{size // 2}", "-"] if call in COUNTED and not zero else []
    handed = [f"{it}.00" for it in places] + fronts + behind + wide if not zero else places
    queried = [f"{it}.00" for it in places] + absent + fronts + behind
    prefixes = [f"01*{size // 2}", f"01*{size - 40}", f"01*{size}.00", "07"]
    bounds = [f"[01*{size - 500} *", f"* (01*{size - 40}", f"(01*{size}.00 [01*{size}.02"]
    bounds += [f"[01*{size}.00 (01*{size - 1}.00"]
    if call == "split_off":
        return [f"01*{size - 40}.00", f"01*{size}"]
    if call == "retain" and script.kind != "set":
        return ["9"]
    last = {"n": "5", "e": ENDS, "x": STEPS}
    if kinds.startswith("bb"):
        return [" ".join([it, *(last[kind] for kind in kinds[2:])]) for it in bounds]
    if call == "union":
        return ["count"]
    first = {"k": handed + absent, "s": queried, "p": prefixes}.get(kinds[:1], [last.get(kinds[:1], "")])
    return [" ".join([it, *(last[kind] for kind in kinds[1:])]) for it in first]


def before(script, call, size):
    """The lines before a call that uses both trees, or the bag, or empties one."""
    part, two = f"split_off 01*{size - 40}.00", ["clone", "pop_last", f"remove 01*{size // 2}.00", "swap"]
    if call in WITH_OTHER:
        return [part, "drain"] if call == "extend" else [part]
    if call in maps.FROM_BAG:
        return ["clone", "drain b"]
    if call in WITH_MORE and script.kind != "free":
        return two
    if call in WITH_TWO:
        return [*two, "xor"]
    if call in ("or", "union"):
        return [part]
    return ["clone"] * (call in EMPTYING and script.kind != "free")


@functools.lru_cache(maxsize=1)
def script_of(kind, size):
    """Every call of a kind, with a tree of all keys before it, and the checker after what first changes keys."""
    script = Script(kind, size)
    for call in tables(kind):
        checked = kind == "set" or size == DEEP and call not in CHECKED
        for words in words_for(script, call, size):
            script.ready()
            for line in before(script, call, size):
                script.play(line)
            stored = len(script.stored())
            script.play(f"{call} {words}".rstrip())
            if not checked and len(script.stored()) != stored:
                script.play("check")
                checked = True
            for line in ["swap", "len", "iter fb"] * (call in OPERATORS):
                script.play(line)
    return script.lines, "".join(f"{it}\n" for it in script.told)


def limit():
    resource.setrlimit(resource.RLIMIT_STACK, (STACK, STACK))


def play(program, kind, size, prefix_len):
    lines, wanted = script_of(kind, size)
    text = "".join(f"{line}\n" for line in [f"map {prefix_len} {kind}", *lines])
    how = {"capture_output": True, "text": True, "timeout": 600, "preexec_fn": limit}
    ran = subprocess.run([program], input=text, **how)
    assert (ran.returncode, ran.stderr) == (0, ""), f"status {ran.returncode}: {ran.stderr[-300:]}"
    if ran.stdout != wanted:
        told, model = ran.stdout.split("\n"), wanted.split("\n")
        at = next((n for n, (a, b) in enumerate(zip(told, model)) if a != b), -1)
        raise AssertionError(f"row {at + 1}: {told[at][-200:]} and not {model[at][-200:]}")
    return f"{len(lines)} lines"


def main():
    for module in (map_model, map_entries, set_model):
        module.bytes_in, module.shown, module.common = Key.spelled, shown, common
    map_words.shown = shown
    given = cases.given(__doc__, "--quick")
    told, program = cases.Tally(given.word), players.program(maps.PLAYER, "--quick" in given)
    resource.setrlimit(resource.RLIMIT_CORE, (0, 0))
    for kind, (size, prefix_len) in itertools.product(maps.KINDS, RUNS):
        name = f"{maps.PLAYER} {kind} keys of {size + 1} bytes, prefixes of {prefix_len}"
        told.case(name, play, program, kind, size, prefix_len)
    told.end()


if __name__ == "__main__":
    main()
