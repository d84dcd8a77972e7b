#!/usr/bin/env python3
"""Code that runs in the midst of a call of artmap, where Python lets it in, and changes the map that the call reads.

    PYTHONMALLOC=debug tests/bindings_python_hostile.py [WORD]   artmap is on PYTHONPATH
It comes by a handler of errors that is registered for texts with lone surrogates, and by finalizers that the collector
calls at each object that it counts. Each call of the maps and sets is tried with each change. It prints a line for each
case, and the last is 'N passed, M failed'.
"""
import codecs
import copy
import faulthandler
import gc
import pickle
import sys

from artmap import Art, ArtSet
from bindings_python_hold import is_whole, run

# Texts whose UTF-8 no decoder takes without a handler, and others; some take the long way into an object and out.
TEXTS = [
    *(chr(0xD800 + at) * (1 + at % 3) + tail for at in range(30) for tail in ("", "a", "é\udfff", "\0\1\ud900")),
    *(f"{at:03}" + "\udc80" * (at * 9) for at in range(12)), "plain", "", "\ud7ff\ue000", "\U0010ffff\ud800",
]  # fmt: skip


def calls_of(it):
    """Calls of a map that make keys, or objects that the collector counts, each by its name."""
    keys, items, low = it.keys(), it.items(), "\ud801"
    of_set = ArtSet(TEXTS[:9], key=str)
    return {
        "keys": lambda: [*it], "values": lambda: [*it.values()], "items": lambda: [*items],
        "reversed": lambda: [*reversed(it)], "reversed items": lambda: [*reversed(items)],
        "half a walk": lambda: [pair for pair, _ in zip(items, range(20))],
        "range": lambda: [*it.range(low, "\ud810")], "irange": lambda: [*it.irange(low, None, reverse=True)],
        "prefix": lambda: [*it.prefix("\ud80a")], "prefix downwards": lambda: [*it.prefix("", reverse=True)],
        "first": it.first, "last": it.last, "next": lambda: it.next(low), "previous": lambda: it.previous(low),
        "longest_prefix": lambda: it.longest_prefix("\ud803\ud803a\ud804"),
        "prefixes": lambda: it.prefixes("\ud800\ud801a"),
        "the longest of many": lambda: it.longest_prefix("\ud800a" * 50),
        "peekitem": lambda: it and it.peekitem(0), "peekitem in the middle": lambda: len(it) > 50 and it.peekitem(50),
        "popitem": lambda: it and it.popitem(), "popitem at the start": lambda: it and it.popitem(index=0),
        "popitem in the middle": lambda: len(it) > 50 and it.popitem(index=50),
        "get": lambda: it.get("\ud805"), "put": lambda: it.__setitem__("\ud805z", 1),
        "pop": lambda: it.pop("\ud805", 0), "setdefault": lambda: it.setdefault("\ud805y", []),
        "remove_prefix": lambda: it.remove_prefix("\ud806"),
        "update": lambda: it.update([(text, 1) for text in TEXTS[3:40]]),
        "update by itself": lambda: it.update(it.copy()),
        "load": lambda: it.load([("\U0010fffe\ud800", 1), ("\U0010fffe\ud801", 2)])
        if it.get("\U0010fffe\ud800") else 0,
        "copy": it.copy, "copy.copy": lambda: copy.copy(it), "deepcopy": lambda: copy.deepcopy(it),
        "pickle": lambda: pickle.loads(pickle.dumps(it)), "repr": lambda: repr(it), "repr of keys": lambda: repr(keys),
        "equality": lambda: it == dict.fromkeys(TEXTS, 1), "equality of maps": lambda: it == it.copy(),
        "merge": lambda: it | {"\ud807x": 1}, "keys in both": lambda: keys & TEXTS, "other keys": lambda: keys ^ TEXTS,
        "items in both": lambda: items & {("\ud805", 1)}, "order of sets": lambda: keys <= {*TEXTS},
        "a place": lambda: len(keys) > 50 and keys[50], "places": lambda: keys[-3:2:-5],
        "islice": lambda: [*it.islice(4, 90)], "bisect": lambda: it.bisect("\ud80a"),
        "index": lambda: "\ud80a" in it and it.index("\ud80a"),
        "del of places": lambda: keys.__delitem__(slice(3, 60, 7)), "a walk's copy": lambda: [*copy.copy(iter(items))],
        "a walk's list": lambda: iter(items).__reduce__()[1], "a set's places": lambda: of_set[2:5],
        "compact": it.compact, "clear": lambda: it.clear() if len(it) < 5 else 0, "Art": lambda: Art(it),
        "a set": lambda: ArtSet(it, key=str), "a union": lambda: of_set | ArtSet(it, key=str),
        "a set's keys": lambda: [*of_set], "a set's ends": lambda: (of_set.first(), of_set.last(), of_set.next(low)),
    }  # fmt: skip


def touches(it):
    """What the code that comes in does to the map."""
    return {
        "it empties the map": it.clear, "it puts keys in": lambda: it.update({f"\ud7ff{at}": at for at in range(300)}),
        "it takes an end out": lambda: it and it.popitem(), "it takes a prefix out": lambda: it.remove_prefix("\ud80a"),
        "it puts the nodes in order": it.compact, "it walks": lambda: [*it.items()],
        "it makes the map another one": lambda: (it.clear(), it.__init__({1: 2}, key=int), it.clear(),
                                                 it.__init__(key=str)),
    }  # fmt: skip


def filled():
    return Art(((text, [at]) for at, text in enumerate(TEXTS)), key=str)


def outcome(call):
    try:
        return call()
    except (IndexError, KeyError):
        return None


def handlers():
    """No call asks a handler of errors, whatever is registered, and each returns what it does without one. (A pickle
    asks one by itself, where it writes a text.)"""
    count = 0
    for name in calls_of(filled()).keys() - {"pickle"}:
        wanted = repr(outcome(calls_of(filled())[name]))
        for touch in touches(filled()):
            it, asked = filled(), []

            def handle(why):
                asked.append(why)
                touches(it)[touch]()
                return "?", why.end

            call, old = calls_of(it)[name], {}
            for error in ("surrogatepass", "strict"):
                old[error] = codecs.lookup_error(error)
                codecs.register_error(error, handle)
            try:
                found = outcome(call)
            finally:
                for error, was in old.items():
                    codecs.register_error(error, was)
            assert not asked, f"{name} asks a handler: {asked[0]!r}"
            assert repr(found) == wanted, f"{name}, {touch}: {found!a:.300}, and not {wanted!a:.300}"
            count += 1
    return f"{count} calls"


class Ends:
    """Garbage, of which the collector calls the finalizer."""

    def __init__(self, call):
        self.call, self.me = call, self

    def __del__(self):
        self.call()

    def __reduce__(self):
        return list, ()


def collector():
    """Each call, while the collector runs at each object that it counts, and calls a finalizer that changes the map."""
    old, count, ran = gc.get_threshold(), 0, [0]
    for name in calls_of(filled()):
        for touch in touches(filled()):
            it = filled()
            call, change = calls_of(it)[name], touches(it)[touch]

            def touched():
                ran[0] += 1
                change()

            gc.collect()
            gc.disable()
            for _ in range(3):
                Ends(touched)
            gc.set_threshold(1)
            gc.enable()
            try:
                outcome(call)
            finally:
                gc.set_threshold(*old)
                gc.enable()
            gc.collect()
            assert is_whole(it), (name, touch)
            count += 1
    assert ran[0] == 3 * count, ran
    return f"{count} calls, {ran[0]} finalizers"


def let_go():
    """The finalizer of each value that a call lets go of changes the map."""
    count = 0
    for name in calls_of(filled()):
        for touch in touches(filled()):
            it, is_over = filled(), []
            change = touches(it)[touch]
            for text in TEXTS[::7]:
                it[text] = Ends(lambda: is_over or change())
                it[text].me = None
            outcome(calls_of(it)[name])
            assert is_whole(it), (name, touch)
            is_over.append(True)
            count += 1
    return f"{count} calls"


if __name__ == "__main__":
    faulthandler.dump_traceback_later(240, exit=True)
    run([handlers, collector, let_go], __doc__)
