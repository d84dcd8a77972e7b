#!/usr/bin/env python3
"""Calls of the maps of artmap to which a runner refuses memory (tests/bindings_python.py, tests/refuse.c).

    tests/bindings_python_calls.py NAME     makes a map, and then this call in a window; artmap is on PYTHONPATH
"""
import copy
import os
import sys
from collections.abc import Iterator

from artmap import Art, ArtSet, Ended

LONG = b"x" * 3000  # a key for which each room must grow
NEW = b"af" + b"x" * 40  # a key that has a block of its own: up to thirty bytes stand in their entry
# Below `a` there is a node for five: a loss makes a smaller one, for which no room is spare.
PAIRS = {key.encode(): [key] for key in ("aa", "ab", "ac", "ad", "ae", "b0", "b1", "c0", "c1", "d0")}
PAIRS |= {b"e" + LONG: None}
TEXTS = {"a": 1, "abc" * 40: 2, "\0": 3}
CALLS = {
    "Art()": lambda it: Art(),
    "Art(pairs)": lambda it: Art(PAIRS),
    "Art of a map": lambda it: Art(it),
    "put a new pair": lambda it: it.__setitem__(NEW, b"new"),
    "put a short key": lambda it: it.__setitem__(b"af", b"new"),
    "put a long key": lambda it: it.__setitem__(b"f" + LONG, b"new"),
    "put a buffer": lambda it: it.__setitem__(bytearray(NEW), b"new"),
    "replace": lambda it: it.__setitem__(b"aa", b"other"),
    "conflict": lambda it: it.__setitem__(b"aab", b"x"),
    "setdefault": lambda it: it.setdefault(NEW, b"new"),
    "setdefault of a stored one": lambda it: it.setdefault(b"aa", b"new"),
    "get": lambda it: it.get(b"aa"),
    "contains": lambda it: b"d1" in it,
    "len": len,
    "longest_prefix": lambda it: it.longest_prefix(b"d0x"),
    "first": lambda it: it.first(),
    "last": lambda it: it.last(),
    "next": lambda it: it.next(b"d0"),
    "previous": lambda it: it.previous(b"d2"),
    "peekitem": lambda it: it.peekitem(3),
    "range": lambda it: [*it.range(b"b", b"d5")],
    "prefix downwards": lambda it: [*it.prefix(b"d", reverse=True)],
    "items": lambda it: [*it.items()],
    "irange to a long key": lambda it: [*it.irange(b"b", b"e" + LONG)],
    "del": lambda it: it.__delitem__(b"ab"),
    "pop": lambda it: it.pop(b"ac"),
    "popitem": lambda it: it.popitem(),
    "popitem in the middle": lambda it: it.popitem(index=2),
    "load one": lambda it: it.load([(b"f", b"new")]),
    "update by one": lambda it: it.update({b"aa": b"other"}),
    "remove_prefix": lambda it: it.remove_prefix(b"ac"),
    "clear": lambda it: it.clear(),
    "compact": lambda it: it.compact(),
    "copy": lambda it: it.copy(),
    "equality": lambda it: it == PAIRS,
    "merge": lambda it: it | {b"f": 1},
    "repr": repr,
    "keys in both": lambda it: it.keys() & {b"aa", b"zz"},
    "getsizeof": lambda it: sys.getsizeof(it) > 0,
    "texts": lambda it: [*Art(TEXTS, key=str).prefix("a")],
    "longest of texts": lambda it: Art(TEXTS, key=str).longest_prefix("abc" * 41),
    "prefixes": lambda it: it.prefixes(b"d0x"),
    "prefixes of texts": lambda it: Art(TEXTS, key=str).prefixes("abc" * 41),
    "bytes that begin others": lambda it: [*Art({b"a" * size: size for size in (0, 1, 300)}, key=Ended)],
    "places": lambda it: [it.keys()[2:9:3], it.keys()[-2], it.index(b"b0"), it.bisect(b"c")],
    "del of places": lambda it: it.keys().__delitem__(slice(None, None, 9)),
    "islice": lambda it: [*it.islice(1, -1, reverse=True)],
    "a walk's copy": lambda it: [[*copy.copy(iter(it))], iter(it.items()).__reduce__()[1]],
    "numbers": lambda it: [*Art({5: 1, -5: 2}, key=int)],
    "a set": lambda it: [*ArtSet([b"b", b"a"])],
}
# (These ask malloc for memory in any case, so that the runs refuse something.)
TAKE_MEMORY = {"Art(pairs)", "Art of a map", "put a new pair", "put a long key", "put a buffer", "setdefault", "last",
               "items", "irange to a long key", "load one", "compact", "copy", "merge", "texts",
               "bytes that begin others", "numbers", "a set", "popitem"}  # fmt: skip


def outcome(call, *words):
    """What a call returns, a walk as a list; or the name of what it raises."""
    try:
        found = call(*words)
        return [*found] if isinstance(found, Iterator) else found
    except (ArithmeticError, LookupError, MemoryError, RuntimeError, TypeError, ValueError) as why:
        return type(why).__name__


def one_call(name):
    """A call in a window, and once more where it finds no memory. Prints whether the map is as it was, if it finds
    none, and then what the last call returns and leaves."""
    call, held = CALLS[name], Art(PAIRS)
    outcome(call, Art(PAIRS))  # (Python makes here what it makes at a first call alone)
    os.write(2, b"refuse\n")
    first = outcome(call, held)
    os.write(2, b"told\n")
    is_refused = first == "MemoryError"
    kept = "kept" if is_refused and dict(held) == PAIRS else "changed" if is_refused else ""
    last = outcome(call, held) if is_refused else first
    print(kept, repr((last, dict(held)))[:4000])


if __name__ == "__main__":
    one_call(sys.argv[1])
