"""Written cases of what artmap shows in order: walks, views, places and sets."""
import bisect
import copy
import gc
import pickle
import random
import weakref
from collections.abc import ItemsView, KeysView, Mapping, ValuesView
from types import MappingProxyType

from artmap import Art, ArtSet
from bindings_python_calls import outcome


def walks(told):
    it, seen = Art({b"a": 1, b"c": 2, b"e": 3, b"g": 4}), []
    for key in it:
        seen.append(key)
        if key == b"c":
            del it[b"a"], it[b"c"], it[b"e"]
            it.update({b"b": 0, b"c": 0, b"d": 0, b"f": 0})
    told("a walk while the map changes", seen == [b"a", b"c", b"d", b"f", b"g"], repr(seen))
    told("all that is walked is taken out", [it.pop(key) for key in it] == [0] * 4 + [4] and not it, repr(it))
    it.update({bytes([number]): 0 for number in range(200)})
    down = [it.remove_prefix(key) for key, _ in reversed(it.items())]
    told("and downwards", down == [1] * 200 and not it, repr(down))
    long = {b"%03d" % at + b"x" * (at % 50 * 8): at for at in range(300)}
    it.load(long)
    told("300 pairs of all lengths", [*it.items()] == [*long.items()] and [*reversed(it)] == [*reversed(long)])
    fits = all([*it.range(b"%03d" % at, b"%03d" % (at + 70))] == [*long.items()][at : at + 70] for at in range(231))
    told("ranges of 70 of them", fits)
    seen, wanted = [], [key for at, key in enumerate(long) if at % 7 != 3]
    for at, key in enumerate(it):
        seen.append(key)
        if int(key[:3]) % 7 == 2:
            it.pop([*it.prefix(b"%03d" % (int(key[:3]) + 1))][0][0])  # (it may be copied out already)
    told("a walk that takes out what is ahead", seen == wanted == [*it], repr(seen))
    values = []
    for key, value in it.items():
        values.append(value)
        it[it.last()[0]] = "new"
    told("a value is that of its moment", values[-1] == "new" and values[:-1] == [it[key] for key in wanted[:-1]])
    walk = iter(Art({b"%d" % at: at for at in range(9)}))
    told("what is left is told", [walk.__length_hint__(), next(walk), walk.__length_hint__()] == [9, b"0", 8])


def views(told):
    keys = {bytes([number]) for number in range(9)}
    of = Art(dict.fromkeys(keys, 0))
    told("views are sets", of.keys() & {b"\0", b"x", 5} == {b"\0"} and of.keys() == keys and (b"\1", 0) in of.items())
    kinds = [isinstance(of.keys(), KeysView), isinstance(of.items(), ItemsView), isinstance(of.values(), ValuesView),
             isinstance(of, Mapping)]
    told("of the kinds of collections.abc", all(kinds), repr(kinds))
    ops = [of.keys() - keys == set(), keys - of.keys() == set(), of.keys() | {5} == keys | {5},
           of.keys() ^ keys == set(),
           of.keys() < keys | {b"x"}, keys | {b"x"} > of.keys(), of.keys() <= of.keys(), of.items() >= {(b"\1", 0)},
           of.keys().isdisjoint([5, "a"]), not of.keys().isdisjoint(of), of.keys() == dict(of).keys(),
           dict(of).keys() == of.keys(),
           of.items() == dict(of).items(), of.keys().mapping == of.items().mapping == of.values().mapping == of,
           of.items() & {(b"\1", 0), 5, (1, 2, 3)} == {(b"\1", 0)}]  # fmt: skip
    told("operations", all(ops), repr(ops))
    foreign = [5 in of.keys(), 5 in of.items(), (5, 0) in of.items(), 5 in of.values(), of.keys() == 5,
               of.items() == [], (b"\1", 5) in of.items()]
    told("of foreign types", not any(foreign), repr(foreign))
    told("what is no set", {outcome(lambda: of.keys() & 5), outcome(lambda: of.items() | None),
                            outcome(lambda: 5 - of.keys())} == {"TypeError"})
    shown = of.keys().mapping
    told("the map of a view can't be written through it", isinstance(shown, MappingProxyType) and shown[b"\1"] == 0
         and not any(hasattr(shown, call) for call in ("__setitem__", "__delitem__", "clear", "update", "pop")))
    named = Art({"b": 2, "a": [1]}, key=str)
    told("texts of views", [repr(named.keys()), repr(named.values()), repr(named.items())] ==
         ["artmap.keys(['a', 'b'])", "artmap.values([[1], 2])", "artmap.items([('a', [1]), ('b', 2)])"],
         repr(named.items()))  # fmt: skip


def places(told):
    """Places in the order, beside those of a list."""
    rng, low = random.Random(4), 40
    keys = [*range(0, 3 * low, 3)]
    it, of = Art(dict.fromkeys(keys, 0), key=int), ArtSet(keys, key=int)
    views, wrong = (it.keys(), of), []

    def any_place():
        return rng.choice([None, rng.randint(-low - 9, low + 9)])

    for _ in range(1500):
        start, stop, key, at = any_place(), any_place(), rng.randint(-3, 3 * low), rng.randint(-low - 3, low + 3)
        part = slice(start, stop, rng.choice([None, 1, 2, 7, -1, -3]))
        ends = [start or 0, low if stop is None else stop]
        rows = [[outcome(lambda: one[part]), outcome(lambda: one[at]), outcome(lambda: one.index(key)),
                 outcome(lambda: one.index(key, *ends)), outcome(lambda: one.count(key))] for one in (keys, *views)]
        walks = [[*keys[start:stop]], keys[start:stop][::-1]]
        rows += [[[*one.islice(start, stop)], [*one.islice(start, stop, reverse=True)]] for one in (it, *views)]
        sides = [bisect.bisect_left(keys, key), bisect.bisect_right(keys, key)]
        rows += [[one.bisect_left(key), one.bisect_right(key), one.bisect(key)] for one in (it, *views)]
        if rows != [rows[0]] * 3 + [walks] * 3 + [[*sides, sides[1]]] * 3:
            wrong.append((part, key, at, rows))
    told("places are those of a list", not wrong, repr(wrong[:1]))
    for _ in range(60):
        part = rng.choice([slice(any_place(), any_place(), rng.choice([None, 2, -3])), rng.randint(-low, low - 1)])
        left, ones = [*keys], [Art(it), ArtSet(of)]
        del left[part], ones[0].keys()[part], ones[1][part]
        if [*ones[0]] != left or [*ones[1]] != left:
            told("what stands at places goes", False, f"{part}: {ones}, and not {left}")
    big = 1 << 70
    told("beyond 64 bits", [of.bisect(-big), of.bisect_left(big), outcome(of.index, big)] == [0, low, "ValueError"])
    told("values and pairs have places, too", it.items()[-1] == (117, 0) and it.values()[:2] == [0, 0]
         and it.popitem(0) == (0, 0) and it.popitem(-1) == (117, 0) and it.popitem(index=1) == (6, 0))
    texts_of = ArtSet("hello world", key=str)
    told("of texts", texts_of[1:4] == ["d", "e", "h"] and texts_of.index("l") == 4 and texts_of.bisect("m") == 5)
    calls = [lambda: of["a"], lambda: of.index("a"), lambda: of.bisect("a"), lambda: it.islice("a"),
             lambda: it.keys().__setitem__(0, 1), lambda: it.keys()[1.5], lambda: of.index(5), lambda: of[99],
             lambda: of.__delitem__(99), lambda: it.index(3, 5), lambda: it.keys()[::0]]
    seen = [outcome(call) for call in calls]
    told("wrong places", seen == ["TypeError", "ValueError", *["TypeError"] * 4, "ValueError", *["IndexError"] * 2,
                                  *["ValueError"] * 2], repr(seen))
    walk = it.islice(5, 30)
    for key in it.islice(2, 9):
        del it[key]
    told("a slice is walked while the map changes", len([*walk]) == 25 and len(it) == 30, repr(it))


def walks_go_on(told):
    """Walks are copied and pickled with what is left of them."""
    it = Art(((number, [number]) for number in range(300)), key=int)
    of = ArtSet(it, key=int)
    makes = {
        "keys": lambda: iter(it), "items": lambda: iter(it.items()), "values": lambda: iter(it.values()),
        "reversed": lambda: reversed(it), "range": lambda: it.range(20, 250), "irange": lambda: it.irange(None, 99),
        "islice": lambda: it.islice(3, 200), "down": lambda: it.islice(3, 200, reverse=True), "a set": lambda: iter(of),
        "a set's irange": lambda: of.irange(5, 250, reverse=True), "none": lambda: it.irange(5, 4),
        "from a key": lambda: it.irange(20), "down from a key": lambda: it.irange(None, 250, reverse=True),
    }  # fmt: skip
    for name, make in makes.items():
        for steps in (0, 1, 11, 12, 13, 60, 500):
            walk, wanted = make(), [*make()][steps:]
            [next(walk, None) for _ in range(steps)]
            others = [copy.copy(walk), copy.deepcopy(walk), *(pickle.loads(pickle.dumps(walk, protocol))
                                                              for protocol in range(pickle.HIGHEST_PROTOCOL + 1))]
            found = [[*other] for other in (*others, walk)]
            if found != [wanted] * len(found):
                told(f"a walk is copied, {name}", False, f"after {steps}: {found}")
    texts_of = ArtSet(["a\0", "a", "b"], key=str)
    walk = texts_of.prefix("a")
    next(walk)
    other = copy.copy(walk)
    texts_of.add("ab")
    told("a copy of a walk goes along the map", [*other] == [*walk] == ["a\0", "ab"])
    told("and a pickle has what was left", [*pickle.loads(pickle.dumps(texts_of.prefix("a")))] == ["a", "a\0", "ab"])


class Given(ArtSet):
    """A set whose __new__ and __init__ take more than keys, and which counts its ends."""

    made = ended = 0

    def __new__(cls, keys, more):
        Given.made += 1
        return super().__new__(cls)

    def __init__(self, keys, more):
        super().__init__(keys, key=str)
        self.more = more

    def __del__(self):
        Given.ended += 1


def sets(told):
    it = Given("ab", 5)
    told("one set is made, and none ends", (Given.made, Given.ended) == (1, 0), f"{Given.made} {Given.ended}")
    it.__init__("xyz", 6)
    it.symmetric_difference_update("z")
    told("nor by another __init__", (Given.made, Given.ended, [*it], it.more) == (1, 0, ["x", "y"], 6), repr(it))
    ones = [it | {"z"}, it - {"x"}, it & {"x"}, it ^ {"q"}, {"q"} | it, it.union("q"), it.copy(), copy.copy(it)]
    told("others are of the class", {type(one) for one in ones} == {Given} and ones[-1].more == 6 and Given.made == 1)
    told("an __init__ that fails leaves it", outcome(it.__init__, [5], 7) == "TypeError" and [*it] == ["x", "y"])
    del ones
    gc.collect()
    Given.ended = 0
    for make in (iter, reversed, lambda it: it.range("a"), lambda it: it.irange("a"), lambda it: it.prefix(""),
                 lambda it: it.islice(0, 2)):
        one = Given("ab", 5)
        walk, there = make(one), weakref.ref(one)
        del one
        gc.collect()
        is_kept = there() is not None and Given.ended == 0
        told("a walk keeps its set", is_kept and len([*walk]) == 2 and there() is None and Given.ended == 1,
             f"{there()} {Given.ended}")
        Given.ended = 0


def as_sorted_dict(told):
    """What the pages of sortedcontainers show of SortedDict and SortedSet, in their like."""
    it = Art({"alpha": 1, "beta": 2, "gamma": 3, "delta": 4}, key=str)
    rows = [
        (lambda: list(it), ["alpha", "beta", "delta", "gamma"]), (lambda: it.peekitem(), ("gamma", 3)),
        (lambda: it.peekitem(0), ("alpha", 1)), (lambda: it.peekitem(index=-2), ("delta", 4)),
        (lambda: it.peekitem(9), "IndexError"), (lambda: it.peekitem(-5), "IndexError"),
        (lambda: list(it.irange("b", "e")), ["beta", "delta"]),
            (lambda: list(it.irange("beta", "delta", (False, True))), ["delta"]),
        (lambda: list(it.irange(maximum="delta", inclusive=(True, False), reverse=True)), ["beta", "alpha"]),
        (lambda: it.setdefault("eta"), None), (lambda: it.pop("eta", 5), None),
            (lambda: it.popitem(index=0), ("alpha", 1)),
        (lambda: it.popitem(), ("gamma", 3)), (lambda: it.popitem(index=1), ("delta", 4)),
            (lambda: it.popitem(index=5), "IndexError"),
        (lambda: dict(it), {"beta": 2}), (lambda: it.popitem(), ("beta", 2)), (lambda: it.popitem(), "KeyError"),
        (lambda: it.peekitem(), "IndexError"), (lambda: list(Art({"b": 1}, key=str) | {"a": 2}), ["a", "b"]),
    ]  # fmt: skip
    for at, (call, wanted) in enumerate(rows):
        got = outcome(call)
        told(f"as SortedDict, row {at}", got == wanted, f"{got!r}, and not {wanted!r}")
    of = ArtSet([3, 1, 2, 5, 4], key=int)
    rows = [
        (lambda: list(of), [1, 2, 3, 4, 5]), (lambda: list(of.irange(2, 4)), [2, 3, 4]), (lambda: of.pop(), 5),
            (lambda: of.pop(0), 1),
        (lambda: of.add(9), None), (lambda: of.discard(2), None), (lambda: of.discard("x"), None),
            (lambda: of.remove(2), "KeyError"),
        (lambda: list(of | {7}), [3, 4, 7, 9]), (lambda: list(of & [4]), "TypeError"),
            (lambda: list(of.intersection([4, 4])), [4]),
        (lambda: list(of.union([1], {2})), [1, 2, 3, 4, 9]), (lambda: of.next(4), 9), (lambda: of.previous(4), 3),
        (lambda: of.first(), 3), (lambda: of.last(), 9), (lambda: of == {3, 4, 9}, True),
            (lambda: of <= {3, 4, 9, 1}, True),
        (lambda: list(reversed(of)), [9, 4, 3]), (lambda: repr(of), "ArtSet([3, 4, 9], key=int)"),
            (lambda: 4 in of, True),
        (lambda: of.symmetric_difference([4, 5]), {3, 5, 9}), (lambda: of.difference([4]), {3, 9}),
            (lambda: hash(of), "TypeError"),
    ]  # fmt: skip
    for at, (call, wanted) in enumerate(rows):
        got = outcome(call)
        told(f"as SortedSet, row {at}", got == wanted, f"{got!r}, and not {wanted!r}")
    words = ArtSet([b"10.1.", b"10.2."])
    told("a set of bytes", outcome(words.add, b"10.") == "ConflictError"
         and words.find(b"10.1.7") == b"10.1." and words.remove_prefix(b"10.1") == 1)

    class Marked(ArtSet):
        pass

    marked = Marked(["b", "a"], key=str)
    marked.mark = ["x"]
    for how, made in (("copy", marked.copy()), ("copy.copy", copy.copy(marked)), ("deepcopy", copy.deepcopy(marked))):
        made.add("c")
        told(f"{how} of a set", type(made) is Marked and list(made) == ["a", "b", "c"]
             and made.mark == ["x"] and len(marked) == 2)
    told("a set is pickled", all(pickle.loads(pickle.dumps(of, it)) == of for it in range(pickle.HIGHEST_PROTOCOL + 1)))


def in_order(told):
    for part in (walks, views, places, walks_go_on, sets, as_sorted_dict):
        part(told)
