"""A sorted set over Art."""
from collections.abc import MutableSet, Set

from ._artmap import Art, _keeping
from ._state import copy_state


def _key(pair):
    return None if pair is None else pair[0]


def _put(map_, keys):
    """Puts keys into a map. Where one fails, those before it stay."""
    if isinstance(keys, (list, tuple, set, frozenset, dict, ArtSet)):
        map_.update([(key, None) for key in keys])
    else:
        for key in keys:
            map_[key] = None


def _with_keys(it):
    """What tells membership: the iterable itself if it does, else a set of it, which refuses what no set can have."""
    return it if isinstance(it, (Set, Art, dict)) else frozenset(it)


class ArtSet(MutableSet):
    """ArtSet(keys=(), /, *, key=bytes): a sorted set of bytes, of texts (key=str) or of numbers of 64 bits (key=int).

    With key=Ended it has bytes that may begin one another.

    >>> from artmap import ArtSet
    >>> words = ArtSet(["tea", "to", "ten"], key=str)
    >>> words, list(words.prefix("te")), words.next("ten"), words | {"at"}
    (ArtSet(['tea', 'ten', 'to'], key=str), ['tea', 'ten'], 'to', ArtSet(['at', 'tea', 'ten', 'to'], key=str))

    No key of bytes begins another one: ConflictError refuses it, as Art does.
    """

    __hash__ = None

    def __new__(cls, *_, **__):
        self = super().__new__(cls)
        self._map = Art()
        return self

    def __init__(self, keys=(), /, *, key=None):
        if key is None:
            key = keys._map.key if isinstance(keys, ArtSet) else self._map.key
        made = Art(key=key)
        _put(made, keys)
        self._map = made

    def _new(self, keys=()):
        """A set of this class, with keys of this type, made without its __new__ and __init__."""
        made = ArtSet.__new__(type(self))
        made._map = Art(key=self._map.key)
        _put(made._map, keys)
        return made

    @property
    def key(self):
        """The type of the keys: bytes, Ended, str or int."""
        return self._map.key

    # One key.

    def __contains__(self, key):
        return key in self._map

    def add(self, key):
        """Puts a key in, if it is not there."""
        self._map[key] = None

    def discard(self, key):
        """Takes a key out, if it is there."""
        if key in self._map:
            self._map.pop(key, None)

    def count(self, key):
        """1 if a key is there, or else 0."""
        return int(key in self._map)

    def remove(self, key):
        """Takes a key out. KeyError: it is not there."""
        del self._map[key]

    def pop(self, index=-1):
        """Takes out the last key, or that at a place, and returns it. KeyError: the set is empty."""
        if not self._map:
            raise KeyError("pop: the set is empty")
        return self._map.popitem(index=index)[0]

    # All keys.

    def __len__(self):
        return len(self._map)

    # (A walk keeps the set, as one of a set does.)

    def __iter__(self):
        return _keeping(iter(self._map), self)

    def __reversed__(self):
        return _keeping(reversed(self._map), self)

    def __repr__(self):
        kind = "" if self._map.key is bytes else f"key={self._map.key.__name__}"
        parts = ([repr(list(self))] if self._map else []) + ([kind] if kind else [])
        return f"{type(self).__name__}({', '.join(parts)})"

    def clear(self):
        """Takes all keys out."""
        self._map.clear()

    def copy(self):
        """A set of the same class with the same keys and attributes."""
        made = ArtSet.__new__(type(self))
        copy_state(self, made)
        made._map = self._map.copy()
        return made

    __copy__ = copy

    def __sizeof__(self):
        return object.__sizeof__(self) + self._map.__sizeof__()

    # The order.

    def first(self):
        """The least key, or None."""
        return _key(self._map.first())

    def last(self):
        """The greatest key, or None."""
        return _key(self._map.last())

    def next(self, key, *, inclusive=False):
        """The least key above a key, which need not be there, or None. With inclusive, the key itself if it is."""
        return _key(self._map.next(key, inclusive=inclusive))

    def previous(self, key, *, inclusive=False):
        """The greatest key below a key, which need not be there, or None. With inclusive, the key itself if it is."""
        return _key(self._map.previous(key, inclusive=inclusive))

    def longest_prefix(self, query):
        """The longest key that begins a query, or equals it, or None."""
        return _key(self._map.longest_prefix(query))

    find = longest_prefix

    def prefixes(self, query):
        """The keys that begin a query, or equal it, in a list: the shortest first."""
        return [key for key, _ in self._map.prefixes(query)]

    def range(self, start=None, stop=None, *, inclusive=(True, False), reverse=False):
        """Walks along the keys from start on and below stop, or as inclusive tells of the two bounds."""
        return self.irange(start, stop, inclusive, reverse)

    def irange(self, minimum=None, maximum=None, inclusive=(True, True), reverse=False):
        """Walks along the keys between two bounds, as that of sortedcontainers.SortedSet."""
        return _keeping(self._map.irange(minimum, maximum, inclusive, reverse), self)

    # Places in the order. (No node counts the keys below it: each of these walks.)

    def __getitem__(self, index):
        """The key at a place, or a list of those at the places of a slice. It walks to them from the nearer end."""
        return self._map.keys()[index]

    def __delitem__(self, index):
        """Takes out the key at a place, or those at the places of a slice, one after the other."""
        del self._map.keys()[index]

    def bisect_left(self, key):
        """How many keys are below a key, which need not be there. It walks along them."""
        return self._map.bisect_left(key)

    def bisect_right(self, key):
        """How many keys are not above a key, which need not be there. It walks along them."""
        return self._map.bisect_right(key)

    bisect = bisect_right

    def index(self, key, start=None, stop=None):
        """The place of a key, from start on and before stop; else ValueError. It walks along the keys below it."""
        return self._map.index(key, start, stop)

    def islice(self, start=None, stop=None, reverse=False):
        """Walks along the keys at the places of a slice. To the first of them it walks from an end."""
        return _keeping(self._map.islice(start, stop, reverse), self)

    # Prefixes, and many keys.

    def prefix(self, prefix, *, reverse=False):
        """Walks along the keys that begin with a prefix."""
        return _keeping(self._map._prefix_keys(prefix, reverse=reverse), self)

    def remove_prefix(self, prefix):
        """Takes out all keys that begin with a prefix, and returns how many."""
        return self._map.remove_prefix(prefix)

    def load(self, keys):
        """Puts in keys that ascend, many at a time, as Art.load does."""
        self._map.load((key, None) for key in keys)

    def compact(self):
        """Puts the nodes in the order of the keys, as Art.compact does."""
        self._map.compact()

    # As a set.

    def _from_iterable(self, keys):  # (what MutableSet makes its results by)
        return self._new(keys)

    def update(self, *others):
        """Puts in the keys of other iterables. Where one fails, those before it stay."""
        for other in others:
            _put(self._map, other)

    def union(self, *others):
        """A set of the keys that are here or in another."""
        made = self.copy()
        made.update(*others)
        return made

    def intersection_update(self, *others):
        """Leaves the keys that are in all others, too."""
        others = [_with_keys(it) for it in others]
        for key in [key for key in self if not all(key in it for it in others)]:
            self.discard(key)

    def intersection(self, *others):
        """A set of the keys that are in all others, too."""
        others = [_with_keys(it) for it in others]
        return self._new([key for key in self if all(key in it for it in others)])

    def difference_update(self, *others):
        """Takes out the keys that are in another."""
        for other in others:
            for key in [*other]:
                self.discard(key)

    def difference(self, *others):
        """A set of the keys that are in no other."""
        others = [_with_keys(it) for it in others]
        return self._new([key for key in self if not any(key in it for it in others)])

    def symmetric_difference_update(self, other):
        """Takes out the keys that are in the other, and puts in those that it has beside them."""
        both = Art(key=self._map.key)
        _put(both, other)
        for key in both:
            if key in self._map:
                self.discard(key)
            else:
                self._map[key] = None

    def symmetric_difference(self, other):
        """A set of the keys that are in one of both."""
        made = self.copy()
        made.symmetric_difference_update(other)
        return made

    def issubset(self, other):
        """Whether all keys are in the other."""
        return all(key in it for it in [_with_keys(other)] for key in self)

    def issuperset(self, other):
        """Whether all of the other are here."""
        return all(key in self._map for key in other)

    def isdisjoint(self, other):
        """Whether no key is in both."""
        return not any(key in self._map for key in other)

    def _of_sets(call):
        """An operator, which takes sets alone, as those of set do."""
        return lambda self, other: call(self, other) if isinstance(other, Set) else NotImplemented

    def _changes(call):
        """An operator that changes the set."""

        def change(self, other):
            if not isinstance(other, Set):
                return NotImplemented
            call(self, other)
            return self

        return change

    __or__ = __ror__ = _of_sets(union)
    __and__ = __rand__ = _of_sets(intersection)
    __sub__ = _of_sets(difference)
    __rsub__ = _of_sets(lambda self, other: self._new([key for key in other if key not in self._map]))
    __xor__ = __rxor__ = _of_sets(symmetric_difference)
    __ior__ = _changes(update)
    __iand__ = _changes(intersection_update)
    __isub__ = _changes(difference_update)
    __ixor__ = _changes(symmetric_difference_update)
    del _of_sets, _changes
