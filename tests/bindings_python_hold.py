#!/usr/bin/env python3
"""Maps of artmap that are touched at any moment: by finalizers, comparisons, conversions and the collector.

    PYTHONMALLOC=debug tests/bindings_python_hold.py [WORD]   artmap is on PYTHONPATH
It prints a line for each case, and the last is 'N passed, M failed'.
"""
import faulthandler
import gc
import itertools
import random
import traceback
import weakref

import cases
from artmap import Art, ArtSet


class Counted:
    """An object that is counted while it lives."""

    alive = 0

    def __init__(self, at_end=None):
        type(self).alive += 1
        self.at_end = at_end

    def __del__(self):
        Counted.alive -= 1
        if self.at_end:
            self.at_end()


def is_whole(it):
    """Whether a map is in order, and all of its calls agree."""
    keys = list(it)
    assert keys == sorted(keys) and len(it) == len(keys), (len(it), keys[:9])
    assert list(reversed(it)) == keys[::-1] and [key for key, _ in it.items()] == keys
    assert all(key in it for key in keys[:50]) and it == dict(it.items())
    return True


def filled(count=40, kind=bytes, value=lambda at: at):
    of = {bytes: lambda at: b"%05d" % (at * 7), str: lambda at: f"{at * 7:05}", int: lambda at: at * 7}[kind]
    return Art(((of(at), value(at)) for at in range(count)), key=kind)


def touches(it):
    """What a finalizer may do to a map: each of these in turn, and often nothing is as before."""
    key = itertools.count()
    yield lambda: it.clear()
    yield lambda: it.update({b"%05d" % (at * 3): at for at in range(100)})
    yield lambda: it.__setitem__(b"x%d" % next(key), Counted())
    yield lambda: it and it.popitem()
    yield lambda: it.remove_prefix(b"00")
    yield lambda: [*it.items()]
    yield lambda: it.compact()
    yield lambda: it and it.__delitem__(it.first()[0])
    yield lambda: Art(it)


LETS_GO = {
    "a value is replaced": lambda it: it.__setitem__(b"00035", 0),
    "a pair is taken out": lambda it: it.pop(b"00035", 0),
    "del": lambda it: it.__delitem__(b"00035"),
    "the last pair is taken out": lambda it: it.popitem(),
    "the map is emptied": lambda it: it.clear(),
    "a prefix goes": lambda it: it.remove_prefix(b"000"),
    "an update": lambda it: it.update([(b"%05d" % (at * 7), at) for at in range(40)]),
    "an update by a dict": lambda it: it.update({b"%05d" % (at * 7): at for at in range(40)}),
    "a union": lambda it: it.__ior__([(b"00035", 1), (b"99", 1)]),
    "__init__": lambda it: it.__init__({b"00035": 1, b"99": 1}),
}


def finalizers():
    for name, call in LETS_GO.items():
        for at in range(8):
            it = filled()
            for key in list(it):
                it[key] = Counted([*touches(it)][at])
            call(it)
            assert is_whole(it), name
            for key, value in it.items():
                if isinstance(value, Counted):
                    value.at_end = None
            it.clear()
    gc.collect()
    assert Counted.alive == 0, Counted.alive


def weak_references():
    it, other = filled(), []
    for key in list(it):
        it[key] = value = Counted()
        other.append(weakref.ref(value, lambda _: it.update({b"z": 1, b"y": 2})))
        del value
    it.remove_prefix(b"0000")
    it.clear()
    assert is_whole(it) and b"z" in it
    seen = []
    there = weakref.ref(it, seen.append)
    del it
    gc.collect()
    assert seen == [there]


def comparisons():
    for at in range(8):
        it, other = filled(), {}

        class Equal:
            def __eq__(self, other):
                self.end()
                return True

        for key in list(it):
            it[key] = value = Equal()
            value.end = [*touches(it)][at]
            other[key] = Equal()
            other[key].end = value.end
        for compare in (lambda: it == other, lambda: it == it.copy(), lambda: (b"00007", Equal) in it.items(),
                        lambda: 5 in it.values(), lambda: it.items() == set(), lambda: it != Art(other)):
            compare()
        assert is_whole(Art((key, 0) for key in it))
        it.clear()


def conversions():
    for at in range(8):
        it = filled(kind=int)

        class Index:
            def __index__(self):
                [*numbers(it)][at]()
                return 35

        def numbers(it):
            yield it.clear
            yield lambda: it.update({key: key for key in range(100)})
            yield lambda: it and it.popitem()
            yield lambda: [*it.items()]
            yield lambda: it and it.pop(it.first()[0])
            yield lambda: it.__setitem__(35, 1)
            yield lambda: it.pop(35, None)
            yield lambda: it.load([(1000, 1), (1001, 1)]) if 1000 not in it else None

        key = Index()
        for call in (lambda: it.get(key), lambda: it.__setitem__(key, 1), lambda: it.pop(key, 0), lambda: key in it,
                     lambda: it.setdefault(key, 1), lambda: it.next(key), lambda: [*it.range(key, key)],
                     lambda: it.update([(key, 1)] * 5), lambda: it.update({key: 1}), lambda: it.keys() & [1, 2],
                     lambda: it.peekitem(0) and it.popitem(index=0) if it else 0):
            call()
            assert is_whole(it)


def codecs():
    """The type of a map's keys changes while a key is made, which only code of Python's can do."""

    def calls_of(it, key):
        yield lambda: it.get(key)
        yield lambda: it.setdefault(key, 1)
        yield lambda: it.__setitem__(key, 1)
        yield lambda: it.update([(key, 1), (key, 2)])
        yield lambda: it.update({key: 1})
        yield lambda: it.load([(key, 1)])
        yield lambda: it.pop(key, 1)
        yield lambda: it.next(key)
        yield lambda: [*it.irange(key, key)]
        yield lambda: key in it.keys() or (key, 1) in it.items()

    for at in range(10):
        for kind in (bytes, str):
            it = filled(kind=int)

            class Index:
                def __index__(self):
                    it.clear()
                    it.__init__(key=kind)
                    it["a" if kind is str else b"a"] = 1
                    return 35

            try:
                [*calls_of(it, Index())][at]()
            except RuntimeError as why:
                assert "the type of the map's keys changed" in str(why)
            except TypeError as why:  # (the second bound is of the new type)
                assert at == 8, why
            assert is_whole(it) and it.key is kind and len(it) == 1, it


def sequences():
    it = filled()

    class Odd:
        def __init__(self, pairs):
            self.pairs = pairs

        def __iter__(self):
            it.clear()
            return iter(self.pairs)

    it.update([Odd((b"a", 1)), Odd((b"b", 1))])
    assert dict(it) == {b"b": 1}
    many = [(b"%05d" % at, at) for at in range(1000)]

    def shrinking():
        for at, pair in enumerate(many):
            if at % 100 == 99:
                it.clear()
            yield pair

    it.load(shrinking())
    it.update(shrinking())
    pairs = [(b"k%05d" % at, at) for at in range(1000)]
    pairs[500] = Odd((b"x", 1))
    it.update(pairs)
    it.update(it.items())
    it.update(it)
    assert is_whole(it)
    grown = {b"%05d" % at: Counted() for at in range(600)}
    grown[b"00300"] = 1
    it.update(grown)
    for key in list(it):
        if isinstance(it[key], Counted):
            it[key].at_end = lambda: grown.update({b"q%d" % len(grown): 1})
    try:
        it.update({b"%05d" % at: 1 for at in range(600)})
        it.update(grown)
    except RuntimeError as why:
        assert "changed its size" in str(why)
    assert is_whole(it)
    it.clear()


def collector():
    """The collector runs at each allocation that it counts, and finds garbage whose finalizers touch the map."""
    it, rng, calls = filled(), random.Random(5), [0]

    def touch():
        calls[0] += 1
        rng.choice([*touches(it)])()

    def garbage():
        one, other = Counted(touch), Counted()
        one.other, other.other = other, one

    old = gc.get_threshold()
    gc.set_threshold(1)
    try:
        for _ in range(300):
            garbage()
            call = rng.choice([
                lambda: [*it.items()], lambda: it and it.popitem(), lambda: it.first(), lambda: it.copy(),
                               lambda: repr(it),
                lambda: it.update({b"%05d" % rng.randrange(500): [1] for _ in range(5)}),
                               lambda: it.peekitem(0) if it else 0,
                lambda: it.next(b"0"), lambda: [*it.prefix(b"0")], lambda: it.keys() & [b"00007"],
                               lambda: it == it.copy(),
                lambda: it | {b"n": 1}, lambda: [*reversed(it.items())],
            ])  # fmt: skip
            try:
                call()
            except (IndexError, KeyError):
                pass
            assert list(it) == sorted(it)
    finally:
        gc.set_threshold(*old)
    gc.collect()
    assert calls[0] > 50, calls
    for key in list(it):
        it[key] = 0
    it.clear()
    gc.collect()
    assert Counted.alive == 0, Counted.alive


def cycles():
    base = Counted.alive
    for kind in (bytes, str, int):
        it = filled(kind=kind)
        for number, key in enumerate(list(it)):
            it[key] = [it, Counted(), it.items(), iter(it), it.values(),
                       it.prefix(key) if kind is not int else 0][number % 6]
        walk = it.items().__iter__()
        next(walk)
        it[next(iter(it))] = walk
        del it, walk
    holder = ArtSet([b"a"])
    holder.me = holder
    holder.other = Counted()
    del holder
    gc.collect()
    assert Counted.alive == base, Counted.alive


def nested():
    it = Art()
    for _ in range(200_000):
        it = Art({b"in": it})
    del it
    it, end = [], Counted()
    for _ in range(100_000):
        it = Art({b"in": [it]})
    it = Art({b"in": it, b"x": end})
    del end
    gc.collect()
    del it
    gc.collect()
    assert Counted.alive == 0, Counted.alive


def walks():
    it = filled()
    walk = it.items()
    steps = iter(it)
    del it
    assert len(walk) == 40 and next(steps) == b"00000" and len([*steps]) == 39 and [*steps] == []
    it = filled(1000)
    for key in it:
        del it[key]
    assert not it
    it = filled(1000)
    seen = []
    for key in it:
        it[key] = 5
        seen.append(key)
        if key < b"3":
            it[b"9" + key] = 1
    assert len(seen) == 1000 + sum(key < b"3" for key in filled(1000)), len(seen)
    walk = iter(it)
    [next(walk) for _ in range(5)]
    it.clear()
    assert [*walk] == []
    it[b"zzz"] = 1
    assert [*walk] == []
    it = filled(10)
    walk = iter(it)
    [next(walk) for _ in range(10)]
    it[b"99"] = 1
    assert [*walk] == [b"99"]


CASES = [finalizers, weak_references, comparisons, conversions, codecs, sequences, collector, cycles, nested, walks]


def run(calls, text):
    """Runs cases, those with the word in their names, tells each, and ends. (They may raise anything.)"""
    told = cases.Tally(cases.given(text).word)
    for call in filter(lambda it: told.wants(it.__name__), calls):
        try:
            said = call()
        except Exception:
            told.count(call.__name__, traceback.format_exc()[-1500:])
        else:
            told.count(call.__name__, told=f"ok, {said}" if said else "ok")
    told.end()


if __name__ == "__main__":
    faulthandler.dump_traceback_later(240, exit=True)
    run(CASES, __doc__)
