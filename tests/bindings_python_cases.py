"""Written cases of the maps of artmap: words of all kinds, errors, texts, nested bytes, numbers, bulk and copies."""
import copy
import ipaddress
import pickle
import random
import sys
from collections import OrderedDict, UserDict
from collections.abc import MutableMapping, MutableSet

from artmap import Art, ArtSet, ConflictError, Ended, NotAboveError
from bindings_python_calls import outcome


class Lying(bytes):
    """Bytes that tell a wrong length."""

    def __len__(self):
        return 1000

    def __eq__(self, other):
        return True

    __hash__ = bytes.__hash__


class Text(str):
    pass


class Number(int):
    pass


class Index:
    def __index__(self):
        return 7


def words_of_all_kinds(told):
    it, none = Art({b"a": 1}), (None, "a", 5, 5.0, [1], object())
    takes = [it.get, it.__getitem__, it.__delitem__, it.pop, it.longest_prefix, it.next, it.previous, it.prefix,
             it.remove_prefix, lambda word: it.__setitem__(word, b""), it.setdefault, lambda word: it.update({word: 1}),
             lambda word: it.load([(word, 1)])]  # fmt: skip
    seen = {outcome(call, word) for call in takes for word in none}
    seen |= {outcome(call, word) for call in (it.range, lambda word: it.range(b"", word), it.irange)
             for word in none[1:]}
    told("what is no key is refused", seen == {"TypeError"} and dict(it) == {b"a": 1}, f"{seen} {it}")
    told("and is nowhere", not any(word in place for word in none if word != [1]
                                   for place in (it, it.keys(), it.items(), it.values(), ArtSet(it))))
    seen = [outcome(lambda: word in place) for word in ([1], {}, [[]])
            for place in (it, it.keys(), ArtSet(it), Art(key=str), Art(key=int).keys())]
    seen += [outcome(lambda: ([], 1) in it.items()), outcome(ArtSet().discard, []),
             outcome(ArtSet(it).isdisjoint, [[]]), outcome(lambda: it.keys() & [[]]),
             outcome(it.keys().count, []), outcome(it.index, [])]
    told("what no dict can have is refused, as there", {*seen} == {"TypeError"}, repr(seen))
    told("but a set, as by a set", {1} not in ArtSet(it) and frozenset() not in it and [] not in it.values())
    for kind in (bytearray, memoryview, Lying, lambda word: memoryview(word[::-1])[::-1]):
        it[kind(b"key")] = 5
        is_right = type(it.last()[0]) is bytes and it.pop(kind(b"key")) == 5 and dict(it) == {b"a": 1}
        told(f"{getattr(kind, '__name__', 'a view')} as a key", is_right, repr(it))
    told("no key before others", outcome(it.__setitem__, b"", 0) == "ConflictError" and len(it) == 1)
    found = [it.find(b""), it.next(b"")[0], it.previous(b""), [*it.prefix(b"")], [*it.range(b"", b"")], b"" in it]
    told("an empty query", found == [None, b"a", None, [(b"a", 1)], [], False], repr(found))
    told("an empty prefix begins all", (it.remove_prefix(b""), len(it), it.remove_prefix(b"")) == (1, 0, 0))
    it[b""] = None
    told("an empty key stands alone", outcome(it.__setitem__, b"x", 0) == "ConflictError" and dict(it) == {b"": None})
    found = [it.first(), it.last(), it.find(b"any"), it.find(b""), it.next(b""), it.previous(b"a"), it.pop(b"", 0)]
    told("and is found", found == [(b"", None)] * 4 + [None, (b"", None), None], repr(found))
    long = Art({b"x" * size + b"\0": size for size in (0, 1, 263, 264, 265, 5000, 100_000)})
    told("long keys", [*long.values()] == [0, 1, 263, 264, 265, 5000, 100_000], repr([*long.values()]))
    is_right = all(long[key] == len(key) - 1 and long.find(key + b"y") == (key, len(key) - 1) for key in long)
    told("long keys are found", is_right and long.popitem()[1] == 100_000 and long.peekitem(0)[1] == 0,
         repr([*long.values()]))


def errors(told):
    it = Art({b"cat": 1, b"car": 2})
    for key, text, stored in ((b"ca", "b'ca' begins the stored key b'car'", b"car"),
                              (b"cats", "the stored key b'cat' begins b'cats'", b"cat")):
        try:
            it[key] = 1
        except ConflictError as why:
            told(f"a conflict of {key}", (str(why), why.key, why.stored) == (text, key, stored), str(why))
    for call, want in ((lambda: it[b"dog"], (b"dog",)), (lambda: it.pop(b"dog"), (b"dog",)),
                       (lambda: it.__delitem__(b"dog"), (b"dog",))):
        try:
            call()
        except KeyError as why:
            told("a key that lacks is named", why.args == want, repr(why))
    try:
        it.load([(b"b", 1), (b"b", 1)])
    except NotAboveError as why:
        told("and one that is not above", str(why) == "b'b' is not above the key before it" and why.key == b"b",
             str(why))
    try:
        it["text"] = 1
    except TypeError as why:
        told("and one of another type", str(why) == "keys of this map are bytes or another buffer, not str: 'text'",
             str(why))
    for call in (lambda: it.range(b"a", stop=b"b", start=b"c"), lambda: it.range(1, 2, 3), lambda: it.prefix(),
                 lambda: it.next(b"a", other=1), lambda: it.range(inclusive=True), lambda: it.range(inclusive=(1,)),
                 lambda: it.get(), lambda: it.get(b"a", 1, 2), lambda: Art(1), lambda: Art([], []),
                 lambda: Art(key=float),
                 lambda: Art({1: 1}, key=str), lambda: it.popitem("a"), lambda: it.peekitem("a"),
                 lambda: it.update(a=1), lambda: hash(it), lambda: it < it, lambda: it | 5, lambda: it + it,
                 lambda: type(iter(it))(),
                 lambda: type(it.keys())(), lambda: it.prefix(b"a", reverse=Art), lambda: ArtSet([1])):
        told("what is called wrongly", outcome(call) == "TypeError"
             or outcome(call) == [*it.prefix(b"a", reverse=True)],
             repr(outcome(call)))
    told("a codec stays while there are keys", outcome(lambda: it.__init__(key=str)) == "ValueError" and b"cat" in it)


def texts(told):
    rng, letters = random.Random(3), ["", "\0", "\1", "\2", "a", "b", "é", "€", "\ud800", "\udfff", "\ue000",
                                      "\uffff", "\U00010000",
                                      "\U0010ffff"]  # fmt: skip
    model = {"".join(rng.choices(letters, k=rng.randint(0, 6))): at for at in range(2000)}
    it = Art(model, key=str)
    told("texts ascend by their code points", [*it] == sorted(model) and it == model)
    told("and are found", all(it[text] == at for text, at in model.items()))
    for _ in range(300):
        query = "".join(rng.choices(letters, k=8))
        longest = max((text for text in model if query.startswith(text)), key=len, default=None)
        pair = it.longest_prefix(query)
        if (pair and pair[0]) != longest:
            told("the longest prefix of a text", False, f"{query!a}: {pair!a}, not {longest!a}")
    front = [text for text in sorted(model) if text.startswith("a\0")]
    told("a prefix of texts", [key for key, _ in it.prefix("a\0")] == front and it.remove_prefix("a\0") == len(front))
    it = Art({"Town": 1}, key=str, hull=2, key_=3)
    told("defaults by name", it.get("x", default=1) == it.pop("x", default=1) == it.get(key="Town", default=5) == 1)
    told("names", dict(it) == {"Town": 1, "hull": 2, "key_": 3} and it.key is str, repr(it))
    it[Text("york")] = 4
    told("the very type comes out", [type(key) for key in it] == [str] * 4 and it[Text("york")] == 4)
    told("bytes are no texts", outcome(it.get, b"Town") == "TypeError"
         and b"Town" not in it and it != Art({b"Town": 1}))
    told("long texts", Art({"é" * 3000: 1, "x" * 65: 2}, key=str).first() == ("x" * 65, 2))


def nested(told):
    """Keys of bytes that begin one another: blocks of addresses, routes, and any bytes at random."""
    rng = random.Random(9)
    model = {bytes(rng.choices([0, 1, 2, 255], k=rng.randint(0, 7))): at for at in range(3000)}
    it = Art(model, key=Ended)
    told("bytes that begin others ascend", [*it] == sorted(model) and it == model and it.key is Ended, repr(it)[:300])
    told("and are found", all(it[key] == at for key, at in model.items()) and {type(key) for key in it} == {bytes})
    for _ in range(300):
        query = bytes(rng.choices([0, 1, 2, 255], k=9))
        wanted = [(key, model[key]) for key in sorted(model) if query.startswith(key)]
        found = it.prefixes(query)
        if found != wanted or it.longest_prefix(query) != max(wanted, default=None):
            told("the prefixes of bytes", False, f"{query}: {found}, not {wanted}")
    front = [key for key in sorted(model) if key.startswith(b"\1\0")]
    told("a prefix of them", [key for key, _ in it.prefix(b"\1\0")] == front
         and it.remove_prefix(b"\1\0") == len(front))
    few = Art({b"/": 1, b"/api": 2, b"": 0}, key=Ended)
    told("they are shown", eval(repr(few)) == few and repr(few) == "Art({b'': 0, b'/': 1, b'/api': 2}, key=Ended)",
         repr(few))
    told("and pickled", all(pickle.loads(pickle.dumps(few, protocol)).key is Ended
                            for protocol in range(pickle.HIGHEST_PROTOCOL + 1)) and copy.deepcopy(few) == few)
    told("a map of others is the same", few != Art({b"/": 1}) and Art({b"/": 1}, key=Ended) == Art({b"/": 1}))
    told("a long key", Art([(b"\0" * 400, 1), (bytearray(b"\1") * 263, 2)], key=Ended).first() == (b"\0" * 400, 1))
    of = ArtSet([b"/", b"/api/v1", b"/api"], key=Ended)
    told("a set of them", repr(of) == "ArtSet([b'/', b'/api', b'/api/v1'], key=Ended)"
         and of.prefixes(b"/api/v2") == [b"/", b"/api"] and of.longest_prefix(b"/api/v2") == b"/api", repr(of))
    told("texts are no bytes", outcome(few.get, "/") == outcome(few.prefixes, "/") == "TypeError")
    told("of others there is one prefix", Art({b"ab": 1, b"b": 2}).prefixes(b"abc") == [(b"ab", 1)]
         and Art().prefixes(b"") == [] and outcome(Art(key=int).prefixes, 5) == "TypeError")
    named = Art({"": 0, "é": 1, "é\0": 2, "é\0\ud800": 3}, key=str)
    told("prefixes of texts", named.prefixes("é\0\ud800x") == [*named.items()] and named.prefixes("x") == [("", 0)])


def blocks(told):
    """Blocks of addresses, with a byte for each bit of them."""
    def bits(block):
        net = ipaddress.ip_network(block)
        return bytes(int(net.network_address) >> (31 - at) & 1 for at in range(net.prefixlen))

    names = ["10.0.0.0/8", "10.32.0.0/11", "10.40.0.0/13", "10.40.0.0/16", "0.0.0.0/0"]
    it = Art({bits(block): block for block in names}, key=Ended)
    found = [it.longest_prefix(bits(f"{address}/32"))[1] for address in ("10.41.1.1", "10.40.9.9", "10.1.1.1", "9.9.9.9")]
    told("the block of an address", found == ["10.40.0.0/13", "10.40.0.0/16", "10.0.0.0/8", "0.0.0.0/0"], repr(found))
    told("and all of its blocks", [block for _, block in it.prefixes(bits("10.41.1.1/32"))] ==
         ["0.0.0.0/0", "10.0.0.0/8", "10.32.0.0/11", "10.40.0.0/13"])


def numbers(told):
    ends = [-(1 << 63), -1, 0, 1, (1 << 63) - 1]
    it = Art(((number, str(number)) for number in reversed(ends)), key=int)
    told("numbers ascend", [*it] == ends and [*reversed(it)] == ends[::-1] and it.first() == (ends[0], str(ends[0])))
    told("beyond 64 bits", outcome(it.__setitem__, 1 << 63, 0) == outcome(it.setdefault,
                                                                          -1 << 80) == "OverflowError" and len(it) == 5)
    told("is stored nowhere", (1 << 63 in it, it.get(1 << 70, 5), outcome(it.pop, 1 << 70),
                               outcome(it.__getitem__, -1 << 64)) ==
         (False, 5, "KeyError", "KeyError"))  # fmt: skip
    big = 1 << 90
    told("but bounds may be", [[*it.irange(-big, big)], [*it.irange(big)], [*it.irange(None, -big)],
                               [*it.range(big, -big)]] ==
         [ends, [], [], []] and it.next(-big) == it.first() and it.next(big) is None
         and it.previous(big) == it.last())  # fmt: skip
    it[True], it[Number(5)], it[Index()] = "yes", "five", "seven"
    told("the very type comes out", [type(key) for key in it] == [int] * 7
         and it[1] == "yes" and it.pop(Index()) == "seven")
    told("no floats, no prefixes", {outcome(it.get, 1.0), outcome(it.prefix, 1), outcome(it.find, 1)} == {"TypeError"})


def bulk(told):
    it, pairs = Art(), [(b"%05d" % at, at) for at in range(1500)]
    it.load(iter(pairs))
    told("1500 pairs from an iterator", [*it.items()] == pairs)
    it.load([(b"%05d" % at, -at) for at in range(0, 3000, 3)])
    wanted = {**dict(pairs), **{b"%05d" % at: -at for at in range(0, 3000, 3)}}
    told("a load between what is there", dict(it) == wanted and [*it] == sorted(wanted))
    for name, more, why, left in (
        ("a key that is not above", [(b"a", 0), (b"c", 0), (b"b", 0)], "NotAboveError", [b"a", b"c"]),
        ("the same key twice", [(b"a", 0), (b"a", 1)], "NotAboveError", [b"a"]),
        ("a conflict", [(b"a", 0), (b"b", 0), (b"ba", 0), (b"c", 0)], "ConflictError", [b"a", b"b"]),
        ("no bytes", [(b"a", 0), (b"b", 0), ("c", 0), (b"d", 0)], "TypeError", [b"a", b"b"]),
        ("no pair", [(b"a", 0), (b"b", 0), 5, (b"d", 0)], "TypeError", [b"a", b"b"]),
        ("three things", [(b"a", 0), (b"b", 0), (b"c", 0, 1), (b"d", 0)], "ValueError", [b"a", b"b"]),
    ):
        for call in ("load", "update"):
            it.clear()
            if why == "NotAboveError" and call == "update":
                continue
            told(f"{call}, {name}", outcome(getattr(it, call), more) == why and [*it] == left, repr(it))
    it.clear()
    it.update([(b"b", 1), (b"a", 2), (b"b", 3)])
    told("an update in any order", dict(it) == {b"a": 2, b"b": 3}, repr(it))
    it.update((key, it.get(b"a") + 1) for key in [b"a", b"c", b"a"])
    told("an update that reads the map", dict(it) == {b"a": 4, b"b": 3, b"c": 4}, repr(it))
    it.update(it)
    it.update(it.items())
    it.update(UserDict({b"d": 1}))
    it.update(Art({b"e": 1}))
    told("updates by maps", dict(it) == {b"a": 4, b"b": 3, b"c": 4, b"d": 1, b"e": 1}, repr(it))

    def broken():
        yield b"x", 1
        yield b"y", 2
        raise KeyError

    told("an iterator that fails", outcome(it.load, broken()) == "KeyError" and b"y" in it, repr(it))
    keys = [b"%05d" % at for at in range(20_000)]
    random.Random(1).shuffle(keys)
    it = Art((key, None) for key in keys)
    told("many in any order", [*it] == sorted(keys))
    told("most of them go", it.remove_prefix(b"0") == 10_000 and it.remove_prefix(b"1") == 10_000 and not it)


class Names(Art):
    """A subclass with attributes, of which one lies in a slot."""

    __slots__ = ("slot", "__dict__")

    def __init__(self, *pairs, **names):
        super().__init__(*pairs, key=str, **names)
        self.made = "by __init__"

    def __missing__(self, key):
        return key.upper()


def copies(told):
    it = Art({b"a": [1], b"b": [2]})
    other = it.copy()
    other[b"c"] = 3
    told("a copy is a map of its own", len(it) == 2 and len(other) == 3 and it[b"a"] is other[b"a"])
    deep = copy.deepcopy(it)
    told("a deep one has values of its own", deep == it and deep[b"a"] is not it[b"a"])
    names = Names(york=1, hull=[2])
    names.more, names.slot = {"x": 1}, "slot"
    for how, made in [("copy", names.copy()), ("copy.copy", copy.copy(names)), ("deepcopy", copy.deepcopy(names)),
                      *((f"pickle {it}", pickle.loads(pickle.dumps(names, it)))
                        for it in range(pickle.HIGHEST_PROTOCOL + 1))]:
        is_right = type(made) is Names and made == names and made.key is str
        is_right = is_right and made.more == {"x": 1} and made.slot == "slot"
        told(f"{how} of a subclass", is_right and made.made == "by __init__" and made["zz"] == "ZZ", repr(made))
    told("a deep copy of an attribute", copy.deepcopy(names).more is not names.more
         and copy.copy(names).more is names.more)
    loop = Art()
    loop[b"me"] = loop
    again = pickle.loads(pickle.dumps(loop))
    deep = copy.deepcopy(loop)
    told("a map in itself", again[b"me"] is again and deep[b"me"] is deep and repr(loop) == "Art({b'me': Art(...)})",
         repr(loop))
    for made in (Art({1: 2}, key=int), Art({"a": 1}, key=str), Art(key=str), Art(), Art({b"a": None})):
        told(f"{made!r} can be read", eval(repr(made)) == made and eval(repr(made)).key is made.key)
    told("a map of a map has its codec", Art(names).key is str and Art(names) == names and Art(names, key=str) == names)
    told("fromkeys", Names.fromkeys(["a"], 1) == {"a": 1} and Art.fromkeys([2, 1], key=int) == {1: None, 2: None})
    left, right = Art({b"a": 1, b"b": 1}), {b"b": 2, b"c": 2}
    told("unions", left | right == {b"a": 1, b"b": 2, b"c": 2}
         and right | left == {b"a": 1, b"b": 1, b"c": 2} and type(right | left) is Art)
    told("and of others", left | UserDict(right) == left | right
         and (left | OrderedDict(right)).key is bytes and len(left) == 2)
    left |= [(b"z", 1)]
    told("in place", left == {b"a": 1, b"b": 1, b"z": 1})
    pairs = {b"%d" % at: at for at in range(10, 99)}
    is_equal = [Art(pairs) == pairs, pairs == Art(pairs), Art(pairs) == UserDict(pairs), Art(pairs) == Art(pairs),
                Art() == Art(key=str), Art() == {}]  # fmt: skip
    is_other = [Art(pairs) == {**pairs, b"10": 0}, Art(pairs) == {}, Art(pairs) == 5,
                Art(pairs) == {b"x%d" % at: 1 for at in range(89)},
                Art({"a": 1}, key=str) == Art({b"a": 1})]  # fmt: skip
    told("equality", all(is_equal) and not any(is_other), f"{is_equal} {is_other}")
    sizes = [sys.getsizeof(Art((b"%09d" % at, None) for at in range(count))) for count in (0, 1000, 10_000)]
    told("sizes", 50 < sizes[0] < 500 and 20_000 < sizes[1] < 300_000 and 9 * sizes[1] < 1.5 * sizes[2], repr(sizes))
    told("types", Art[bytes, int].__args__ == (bytes, int) and issubclass(Art, MutableMapping)
         and issubclass(ArtSet, MutableSet))


def cases(told):
    for part in (words_of_all_kinds, errors, texts, nested, blocks, numbers, bulk, copies):
        part(told)
