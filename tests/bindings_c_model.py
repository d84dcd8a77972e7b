"""What the calls of artmap.h do, over a dictionary, and calls at random beside it (tests/bindings_c.py)."""
import ctypes
import os
import random

(DONE, REPLACED, NOT_FOUND, CONFLICT, NO_ROOM, NO_MEMORY, NO_MAP, NOT_ABOVE, CUT_OFF, MORE, FROZEN, SHARED) = range(12)
FROM_END, FROM_KEY, AFTER_KEY = range(3)
TO_END, TO_KEY, BEFORE_KEY, WITH_PREFIX = range(4)
FILL, UNTOLD = 0xEE, 12345
ENDS = ("first", "last", "first_with_prefix", "last_with_prefix", "next", "previous", "at_or_after", "at_or_before")
WORDS = {"first_with_prefix": "first_word_with_prefix", "last_with_prefix": "last_word_with_prefix",
         "at_or_after": "word_at_or_after", "at_or_before": "word_at_or_before"}  # calls that tell a word alone


class Handle(ctypes.Structure):
    _fields_ = [("held", ctypes.c_void_p), ("is_made", ctypes.c_bool)]


class Nodes(ctypes.Structure):
    _fields_ = [(it, ctypes.c_size_t) for it in ("nodes4", "nodes16", "nodes32", "nodes48", "nodes256", "leaves")]


class Pair(ctypes.Structure):
    _fields_ = [("key_len", ctypes.c_size_t), ("told", ctypes.c_uint64)]


class Span(ctypes.Structure):
    _fields_ = [("back", ctypes.c_bool), ("start", ctypes.c_uint32), ("to", ctypes.c_uint32),
                ("from_key", ctypes.c_char_p), ("from_len", ctypes.c_size_t),
                ("to_key", ctypes.c_char_p), ("to_len", ctypes.c_size_t)]


class Hint(ctypes.Structure):
    _fields_ = [("first", ctypes.c_size_t), ("last", ctypes.c_size_t)]


HINTS = []  # some of those that walks were given


def nodes_of(keys):
    """How many nodes of each kind the tree of these keys has: one for each front that neighbours share at most."""
    keys, fronts = sorted(keys), set()
    for one, other in zip(keys, keys[1:]):
        fronts.add(os.path.commonprefix([one, other]))
    counts = [0] * 5
    for front in fronts:
        children = len({it[len(front)] for it in keys if it.startswith(front)})
        counts[sum(children > most for most in (4, 16, 32, 48))] += 1
    return [*counts, len(keys)]


def loaded(path):
    """The library, with what its calls return."""
    lib = ctypes.CDLL(path)
    for kind in ("words", "bytes"):
        getattr(lib, f"artmap_{kind}_len").restype = ctypes.c_size_t
        getattr(lib, f"artmap_{kind}_free").restype = None
        for call in ("contains", "is_frozen"):
            getattr(lib, f"artmap_{kind}_{call}").restype = ctypes.c_bool
    lib.artmap_code_text.restype = lib.artmap_version.restype = ctypes.c_char_p
    return lib


class Room:
    """A room for bytes, with a length; each byte of it stands there before a call."""

    def __init__(self, size):
        self.size = size
        self.held = (ctypes.c_uint8 * max(size, 1))(*[FILL] * max(size, 1))
        self.len = ctypes.c_size_t(UNTOLD)

    def args(self):
        return self.held, ctypes.c_size_t(self.size), ctypes.byref(self.len)

    def seen(self):
        return bytes(self.held[:self.size]), self.len.value


def out(room, part, is_copied):
    """What a room and its length are to be after a call that found this part, or nothing."""
    if part is None:
        return bytes([FILL] * room), UNTOLD
    rest = bytes([FILL] * room)
    return (part + rest[len(part):] if is_copied else rest), len(part)


def text(value):
    """What of a value stands after its key in a buffer, and what tells it there."""
    return value if isinstance(value, bytes) else b""


def told_of(key, value):
    return len(key), len(value) if isinstance(value, bytes) else value


class Model:
    """What the calls do, over a dictionary."""

    def __init__(self, pairs=()):
        self.pairs, self.is_frozen = dict(pairs), False

    def blocks(self, key):
        return any(it != key and (it.startswith(key) or key.startswith(it)) for it in self.pairs)

    def load(self, pairs, size):
        """Of pairs that lie in so many bytes: the code, and how many were taken."""
        for at, (key, value) in enumerate(pairs):
            size -= len(key) + len(text(value))
            code = CUT_OFF if size < 0 else NOT_ABOVE if at and key <= pairs[at - 1][0] else DONE
            if code == DONE and self.blocks(key):
                code = CONFLICT
            if code != DONE:
                return code, at
            self.pairs[key] = value
        return DONE, len(pairs)

    def met(self, span):
        """The pairs of a span, in order."""
        is_back, start, from_key, to, to_key = span
        found = sorted(self.pairs.items(), reverse=is_back)
        if start == FROM_END and to >= WITH_PREFIX:
            found = [it for it in found if it[0].startswith(to_key)]
        after = (lambda a, b: a < b) if is_back else (lambda a, b: a > b)
        if start != FROM_END:
            found = [it for it in found if after(it[0], from_key) or it[0] == from_key and start == FROM_KEY]
        ended = {TO_END: lambda key: False, TO_KEY: lambda key: after(key, to_key),
                 BEFORE_KEY: lambda key: not after(to_key, key)}.get(to, lambda key: not key.startswith(to_key))
        met = []
        for it in found:
            if ended(it[0]):
                break
            met.append(it)
        return met

    def walk(self, span, room, places):
        """The code, the pairs that are copied out, and the first that does not go in."""
        met, given = self.met(span), []
        while len(given) < min(places, len(met)):
            key, value = met[len(given)]
            room -= len(key) + len(text(value))
            if room < 0:
                break
            given.append((key, value))
        first = met[:1] if not given else []
        code = (MORE if len(met) > len(given) else DONE) if given else NO_ROOM if first else NOT_FOUND
        return code, given, first

    def marked(self, query, mark):
        """The pairs whose keys are some first bytes of the query and the mark, the longest first."""
        keys = [it for it in self.pairs if it and it[-1] == mark and query.startswith(it[:-1])]
        return [(it, self.pairs[it]) for it in sorted(keys, key=len, reverse=True)]

    def found(self, name, key):
        keys = sorted(self.pairs)
        keys = {"find": lambda: [it for it in keys if key.startswith(it)],
                "first_with_prefix": lambda: [it for it in keys if it.startswith(key)],
                "last_with_prefix": lambda: [it for it in keys if it.startswith(key)],
                "next": lambda: [it for it in keys if it > key],
                "at_or_after": lambda: [it for it in keys if it >= key],
                "at_or_before": lambda: [it for it in keys if it <= key],
                "previous": lambda: [it for it in keys if it < key]}.get(name, lambda: keys)()
        at = -1 if name in ("last", "last_with_prefix", "previous", "at_or_before") else 0
        return (keys[at], self.pairs[keys[at]]) if keys else None


def some_bytes(rng, most):
    return bytes(rng.choice(b"\x00\x01ab\xff") for _ in range(rng.randint(0, most)))


def arg(key):
    return key, ctypes.c_size_t(len(key))


class Beside:
    """A map of one kind beside its model; each method makes a call at random, and returns what is answered and what is to be."""

    def __init__(self, lib, kind, rng):
        self.lib, self.kind, self.rng, self.handle, self.model = lib, kind, rng, Handle(), None

    def call(self, name, *words):
        return getattr(self.lib, f"artmap_{self.kind}_{name}")(ctypes.byref(self.handle), *words)

    def some_value(self):
        return self.rng.getrandbits(64) if self.kind == "words" else some_bytes(self.rng, 10)

    def some_key(self):
        if self.model and self.model.pairs and self.rng.random() < 0.4:
            return self.rng.choice(sorted(self.model.pairs))
        return some_bytes(self.rng, 6)

    def code(self, is_change=False):
        """What is answered where nothing is done, or None."""
        return NO_MAP if self.model is None else FROZEN if is_change and self.model.is_frozen else None

    def new(self):
        is_freed = self.rng.random() < 0.3
        self.model = None if is_freed else Model()
        return self.call("free" if is_freed else "new"), None if is_freed else DONE

    def put(self):
        key, value, refused = some_bytes(self.rng, 6), self.some_value(), self.code(True)
        old = ctypes.c_uint64(UNTOLD)
        words = [ctypes.c_uint64(value), ctypes.byref(old)] if self.kind == "words" else arg(value)
        code = self.call("put", *arg(key), *words)
        if refused is None and self.model.blocks(key):
            refused = CONFLICT
        if refused is not None:
            return (code, old.value), (refused, UNTOLD)
        was = self.model.pairs.get(key)
        self.model.pairs[key] = value
        return (code, old.value), (DONE if was is None else REPLACED, was if self.kind == "words" and was is not None else UNTOLD)

    def get(self):
        key = self.some_key()
        value = self.model.pairs.get(key) if self.model else None
        code = self.code() if self.code() is not None else NOT_FOUND if value is None else DONE
        if self.kind == "words":
            word = ctypes.c_uint64(UNTOLD)
            got = self.call("get", *arg(key), ctypes.byref(word)), word.value
            return (got, self.call("contains", *arg(key))), ((code, UNTOLD if value is None else value), value is not None)
        room = Room(self.rng.choice([0, 2, 12, 12]))
        got = self.call("get", *arg(key), *room.args()), room.seen(), self.call("contains", *arg(key))
        if value is not None and len(value) > room.size:
            code = NO_ROOM
        return got, (code, out(room.size, value, code == DONE), value is not None)

    def remove(self):
        key, word, refused = self.some_key(), ctypes.c_uint64(UNTOLD), self.code(True)
        code = self.call("remove", *arg(key), *([ctypes.byref(word)] if self.kind == "words" else []))
        if refused is not None:
            return (code, word.value), (refused, UNTOLD)
        was = self.model.pairs.pop(key, None)
        return (code, word.value), (NOT_FOUND if was is None else DONE, was if self.kind == "words" and was is not None else UNTOLD)

    def pop(self):
        if self.kind == "bytes" or self.rng.random() < 0.5:
            return self.remove()
        is_back, word, refused = self.rng.random() < 0.5, ctypes.c_uint64(UNTOLD), self.code(True)
        code = self.call("pop", ctypes.c_bool(is_back), ctypes.byref(word))
        if refused is not None or not self.model.pairs:
            return (code, word.value), (NOT_FOUND if refused is None else refused, UNTOLD)
        return (code, word.value), (DONE, self.model.pairs.pop((max if is_back else min)(self.model.pairs)))

    def remove_prefix(self):
        key, count = some_bytes(self.rng, 6)[:self.rng.randint(1, 3)], ctypes.c_size_t(UNTOLD)
        refused, got = self.code(True), (self.call("remove_prefix", *arg(key), ctypes.byref(count)), count)
        if refused is not None:
            return (got[0], count.value), (refused, UNTOLD)
        gone = [it for it in self.model.pairs if it.startswith(key)]
        for it in gone:
            del self.model.pairs[it]
        return (got[0], count.value), (DONE, len(gone))

    def take_prefix(self):
        if self.kind == "bytes":
            return self.remove_prefix()
        key, places, count = some_bytes(self.rng, 6)[:self.rng.randint(0, 2)], self.rng.choice([0, 1, 2, 5, 20]), ctypes.c_size_t(UNTOLD)
        words, refused = (ctypes.c_uint64 * 20)(*[UNTOLD] * 20), self.code(True)
        code = self.call("take_prefix", *arg(key), words, ctypes.c_size_t(places), ctypes.byref(count))
        if refused is not None:
            return (code, count.value, words[:]), (refused, UNTOLD, [UNTOLD] * 20)
        with_it = sorted(it for it in self.model.pairs if it.startswith(key))
        told = [self.model.pairs.pop(it) for it in with_it[:places]]
        wanted = (MORE if len(with_it) > places else DONE) if told else NO_ROOM if with_it else NOT_FOUND
        return (code, count.value, words[:]), (wanted, len(told), told + [UNTOLD] * (20 - len(told)))

    def get_many(self):
        """Some keys are looked up, in any order; at times the bytes end too early."""
        if self.kind == "bytes":
            return self.get()
        keys = [self.some_key() for _ in range(self.rng.choice([0, 1, 3, 6]))]
        held = b"".join(keys)
        held = held[:self.rng.randint(0, len(held))] if self.rng.random() < 0.2 else held + b"more" * self.rng.randint(0, 1)
        asked = [(len(it), UNTOLD) for it in keys] + [(777, 888)]
        items, flags, told = (Pair * len(asked))(*asked), (ctypes.c_uint8 * 7)(*[FILL] * 7), ctypes.c_size_t(UNTOLD)
        code = self.call("get_many", *arg(held), items, flags, ctypes.c_size_t(len(keys)), ctypes.byref(told))
        got = code, told.value, [(it.key_len, it.told) for it in items], flags[:]
        if self.model is None:
            return got, (NO_MAP, UNTOLD, asked, [FILL] * 7)
        whole = [at for at in range(len(keys)) if len(b"".join(keys[:at + 1])) <= len(held)]
        words = [self.model.pairs.get(keys[at]) for at in whole]
        found = [(len(keys[at]), UNTOLD if word is None else word) for at, word in zip(whole, words)]
        return got, (DONE if len(whole) == len(keys) else CUT_OFF, len(whole), found + asked[len(whole):],
                     [word is not None for word in words] + [FILL] * (7 - len(whole)))

    def ends(self):
        name, key = self.rng.choice([*ENDS, "find"]), self.some_key()
        if name.endswith("prefix"):
            key = key[:self.rng.randint(0, 3)]
        words = [] if name in ("first", "last") else arg(key)
        pair = self.model.found(name, key) if self.model else None
        code = self.code() if self.code() is not None else DONE if pair else NOT_FOUND
        key_room = Room(self.rng.choice([0, 2, 8, 8]))
        if self.kind == "bytes":
            value_room = Room(self.rng.choice([0, 2, 12, 12]))
            got = self.call(name, *words, *key_room.args(), *value_room.args()), key_room.seen(), value_room.seen()
            if pair and (len(pair[0]) > key_room.size or len(pair[1]) > value_room.size):
                code = NO_ROOM
            parts = pair or (None, None)
            return got, (code, out(key_room.size, parts[0], code == DONE), out(value_room.size, parts[1], code == DONE))
        word, alone = ctypes.c_uint64(UNTOLD), ctypes.c_uint64(UNTOLD)
        wanted = pair[1] if pair else UNTOLD
        if name == "find":
            got = self.call(name, *words, ctypes.byref(key_room.len), ctypes.byref(word)), key_room.len.value, word.value
            return got, (code, len(pair[0]) if pair else UNTOLD, wanted)
        told = self.call(WORDS.get(name, f"{name}_word"), *words, ctypes.byref(alone)), alone.value
        got = self.call(name, *words, *key_room.args(), ctypes.byref(word)), key_room.seen(), word.value
        copied = NO_ROOM if pair and len(pair[0]) > key_room.size else code
        return (told, got), ((code, wanted), (copied, out(key_room.size, pair and pair[0], copied == DONE), wanted))

    def marked(self):
        """The longest key of some first bytes of a query and a mark, or all that are."""
        if self.kind != "words":
            return None, None
        query, mark = self.some_key()[:self.rng.randint(0, 7)] + some_bytes(self.rng, 3), self.rng.choice(b"\x00\x01a")
        if self.rng.random() < 0.5:
            return self.prefixes(query, mark)
        pair = next(iter(self.model.marked(query, mark)), None) if self.model else None
        code = self.code() if self.code() is not None else DONE if pair else NOT_FOUND
        key_len, word = ctypes.c_size_t(UNTOLD), ctypes.c_uint64(UNTOLD)
        got = self.call("find_marked", *arg(query), ctypes.c_uint8(mark), ctypes.byref(key_len), ctypes.byref(word))
        return (got, key_len.value, word.value), (code, len(pair[0]) if pair else UNTOLD, pair[1] if pair else UNTOLD)

    def prefixes(self, query, mark):
        places, count = self.rng.choice([0, 1, 2, 5]), ctypes.c_size_t(UNTOLD)
        pairs = (Pair * 5)(*[(777, 888)] * 5)
        code = self.call("prefixes", *arg(query), ctypes.c_uint8(mark), pairs, ctypes.c_size_t(places), ctypes.byref(count))
        got = code, count.value, [(it.key_len, it.told) for it in pairs]
        if self.model is None:
            return got, (NO_MAP, UNTOLD, [(777, 888)] * 5)
        found = self.model.marked(query, mark)
        told = [(len(key), word) for key, word in found[:places]]
        wanted = (MORE if len(found) > places else DONE) if told else NO_ROOM if found else NOT_FOUND
        return got, (wanted, len(told), told + [(777, 888)] * (5 - len(told)))

    def some_span(self):
        rng = self.rng
        span = (rng.random() < 0.5, rng.choice([0, 0, 1, 2, 2, 7, 2 ** 32 - 1]), self.some_key(), rng.choice([0, 1, 2, 3, 3, 9]),
                self.some_key())
        return span if span[3] < 3 else (*span[:4], span[4][:rng.randint(0, 3)])

    def hinted(self, name, given):
        """A walk's name and first arguments: with a hint or without, and by one that a walk of this map or another has left
        some calls ago, or that nobody has left."""
        if self.kind == "bytes" or self.rng.random() < 0.3:
            return name, given
        low, high = self.rng.randint(0, 12), self.rng.choice([0, 2 ** 63, 2 ** 64 - 1, self.rng.randrange(2 ** 64)])
        HINTS.append(Hint(*self.rng.choice([(0, 0), (low, 0), (low, high), (high, low)])))
        if len(HINTS) > 8:
            HINTS.pop(self.rng.randrange(9))
        return f"{name}_on", given, self.rng.choice([None, *map(ctypes.byref, HINTS)])

    def walk(self):
        span, room, places = self.some_span(), Room(self.rng.choice([0, 3, 20, 60, 200])), self.rng.choice([0, 1, 2, 5, 20])
        pairs = (Pair * 20)(*[(777, 888)] * 20)
        given = ctypes.byref(Span(span[0], span[1], span[3], span[2], len(span[2]), span[4], len(span[4])))
        code = self.call(*self.hinted("walk", given), room.held, ctypes.c_size_t(room.size), pairs, ctypes.c_size_t(places),
                         ctypes.byref(room.len))
        got = code, *room.seen(), [(it.key_len, it.told) for it in pairs]
        if self.model is None:
            return got, (NO_MAP, *out(room.size, None, False), [(777, 888)] * 20)
        wanted, copied, first = self.model.walk(span, room.size, places)
        held, told = b"".join(key + text(value) for key, value in copied), [told_of(*it) for it in copied + first][:places]
        return got, (wanted, held + bytes([FILL] * (room.size - len(held))), len(copied), told + [(777, 888)] * (20 - len(told)))

    def walk_words(self):
        if self.kind == "bytes":
            return self.walk()
        span, places, count = self.some_span(), self.rng.choice([0, 1, 2, 5, 20]), ctypes.c_size_t(UNTOLD)
        words = (ctypes.c_uint64 * 20)(*[UNTOLD] * 20)
        given = ctypes.byref(Span(span[0], span[1], span[3], span[2], len(span[2]), span[4], len(span[4])))
        code = self.call(*self.hinted("walk_words", given), words, ctypes.c_size_t(places), ctypes.byref(count))
        if self.model is None:
            return (code, count.value, words[:]), (NO_MAP, UNTOLD, [UNTOLD] * 20)
        wanted, copied, _ = self.model.walk(span, 10 ** 6, places)
        told = [value for _, value in copied]
        return (code, count.value, words[:]), (wanted, len(told), told + [UNTOLD] * (20 - len(told)))

    def load(self):
        """Some pairs are loaded, mostly ascending."""
        rng = self.rng
        pairs = sorted((some_bytes(rng, 5) + b"..", self.some_value()) for _ in range(rng.choice([0, 1, 3, 6])))
        if rng.random() < 0.7:
            pairs = sorted(dict(pairs).items())
        if rng.random() < 0.2:
            rng.shuffle(pairs)
        held = b"".join(key + text(value) for key, value in pairs)
        held = held[:rng.randint(0, len(held))] if rng.random() < 0.1 else held + b"more" * rng.randint(0, 1)
        items, taken = (Pair * max(1, len(pairs)))(*[told_of(*it) for it in pairs]), ctypes.c_size_t(UNTOLD)
        code, refused = self.call("load", *arg(held), items, ctypes.c_size_t(len(pairs)), ctypes.byref(taken)), self.code(True)
        return (code, taken.value), (refused, UNTOLD) if refused is not None else self.model.load(pairs, len(held))

    def audit(self):
        nodes = Nodes(*[UNTOLD] * 6)
        got = self.call("audit", ctypes.byref(nodes)), [getattr(nodes, it) for it, _ in Nodes._fields_]
        return got, (NO_MAP, [UNTOLD] * 6) if self.model is None else (DONE, nodes_of(self.model.pairs))

    def room(self):
        """Memory is asked for, or given back, or all pairs go."""
        name, refused = self.rng.choice(["reserve", "shrink", "compact", "clear"]), self.code(True)
        code = self.call(name, *([ctypes.c_size_t(2)] if name == "reserve" else []))
        if refused is None and name == "clear":
            self.model.pairs.clear()
        return code, DONE if refused is None else refused

    def copy(self):
        """The map goes on as its copy."""
        other = Handle()
        code = self.call("clone", ctypes.byref(other))
        if self.model is None:
            return code, NO_MAP
        self.call("free")
        self.handle, self.model = other, Model(self.model.pairs)
        return code, DONE

    def part(self):
        """The pairs from a key on leave the map, and one of the two is looked at further."""
        key, other, refused = self.some_key(), Handle(), self.code(True)
        code = self.call("split_off", *arg(key), ctypes.byref(other))
        if refused is not None:
            return code, refused
        parts = {it: value for it, value in self.model.pairs.items() if it < key}, {
            it: value for it, value in self.model.pairs.items() if it >= key}
        counts = self.call("len"), getattr(self.lib, f"artmap_{self.kind}_len")(ctypes.byref(other))
        goes_on = self.rng.randrange(2)
        if goes_on:
            self.handle, other = other, self.handle
        self.model = Model(parts[goes_on])
        getattr(self.lib, f"artmap_{self.kind}_free")(ctypes.byref(other))
        return (code, counts), (DONE, tuple(map(len, parts)))

    def contents(self):
        """All pairs, by a walk."""
        room, pairs, count = (ctypes.c_uint8 * 4096)(), (Pair * 64)(), ctypes.c_size_t(0)
        self.call("walk", ctypes.byref(Span()), room, ctypes.c_size_t(4096), pairs, ctypes.c_size_t(64), ctypes.byref(count))
        found, at = [], 0
        for it in pairs[:count.value]:
            key, at = bytes(room[at:at + it.key_len]), at + it.key_len
            size = 0 if self.kind == "words" else it.told
            found.append((key, bytes(room[at:at + size]) if self.kind == "bytes" else it.told))
            at += size
        return found

    def append(self):
        """The pairs of another map move into it, up to the first that is refused; at times there is none, or it is frozen."""
        other = Beside(self.lib, self.kind, self.rng)
        if self.rng.random() < 0.9:
            other.call("new")
            other.model = Model()
            for _ in range(self.rng.choice([0, 1, 4, 9])):
                other.put()
            other.model.is_frozen = self.rng.random() < 0.1 and other.call("freeze") == DONE
        code, pairs = self.call("append", ctypes.byref(other.handle)), sorted(other.model.pairs.items()) if other.model else []
        wanted = self.code(True) if self.code(True) is not None else other.code(True)
        if wanted is None:
            wanted, moved = self.model.load(pairs, 10 ** 6)
            pairs = pairs[moved:]
        left = other.contents()
        other.call("free")
        return (code, left), (wanted, pairs)

    def freeze(self):
        """The map is frozen, shared, read by the other handle, and mostly thawed again."""
        other, code = Handle(), self.call("freeze")
        if self.model is None:
            return code, NO_MAP
        told = (code, self.call("is_frozen"), self.call("share", ctypes.byref(other)), self.call("thaw"))
        count = getattr(self.lib, f"artmap_{self.kind}_len")(ctypes.byref(other))
        getattr(self.lib, f"artmap_{self.kind}_free")(ctypes.byref(other))
        self.model.is_frozen = self.rng.random() < 0.3
        thawed = DONE if self.model.is_frozen else self.call("thaw")
        return (*told, count, thawed), (DONE, True, DONE, SHARED, len(self.model.pairs), DONE)

    def thaw(self):
        other = Handle()
        if self.model is None:
            return self.call("thaw"), NO_MAP
        was, self.model.is_frozen = self.model.is_frozen, False
        got = self.call("thaw"), self.call("is_frozen"), self.call("share", ctypes.byref(other))
        return (*got, was), (DONE, False, NOT_FOUND, was)

    def step(self):
        """One call at random, and what is wrong with it, if anything is."""
        name = self.rng.choice(["put"] * 8 + ["get", "get", "ends", "ends", "ends", "marked", "remove", "pop", "remove_prefix",
                                              "take_prefix", "get_many", "append", "audit", "load", "walk", "walk", "walk_words", "room", "copy", "part", "freeze",
                                              "thaw", "thaw", "new"])
        if name == "new" and self.rng.random() < 0.9:
            name = "put"
        got, wanted = getattr(self, name)()
        count = self.call("len")
        if got != wanted or count != len(self.model.pairs if self.model else ()):
            return f"{name}: {got}, wanted {wanted}; {count} pairs"
        return None


def scripts(lib, told, count, steps):
    """Calls at random beside the model; the number of pairs is looked at after each."""
    for kind in ("words", "bytes"):
        for seed in range(count):
            one = Beside(lib, kind, random.Random(seed))
            wrong = next((f"call {number}, {it}" for number in range(steps) for it in [one.step()] if it), None)
            told(f"script {seed} of {kind}", wrong is None, wrong)
            one.call("free")
