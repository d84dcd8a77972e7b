"""What the maps of artmap do, by a dictionary that knows no tree; and models that are wrong."""
from artmap import ConflictError, NotAboveError


class Model(dict):
    """What a map does whose keys are of a type, over a dictionary."""

    def __init__(self, kind=bytes):
        super().__init__()
        self.kind = kind

    def begins(self, front, key):
        return self.kind is not int and key.startswith(front)

    def __setitem__(self, key, value):
        if self.kind is bytes and any(it != key and (self.begins(it, key) or self.begins(key, it)) for it in self):
            raise ConflictError
        super().__setitem__(key, value)

    def setdefault(self, key, default=None):
        if key not in self:
            self[key] = default
        return self[key]

    def popped(self, key):
        return key, self.pop(key)

    def peekitem(self, index=-1):
        return self.range()[index]

    def popitem(self, index=-1):
        if not self:
            raise KeyError
        return self.popped(self.peekitem(index)[0])

    def update(self, pairs):
        for key, value in pairs:
            self[key] = value

    def load(self, pairs):
        for at, (key, value) in enumerate(pairs):
            if at and key <= pairs[at - 1][0]:
                raise NotAboveError
            self[key] = value

    def copy(self):
        return dict(self)

    def range(self, start=None, stop=None, inclusive=(True, False), reverse=False):
        low, high = inclusive
        found = [it for it in sorted(self) if start is None or it > start or (low and it == start)]
        found = [it for it in found if stop is None or it < stop or (high and it == stop)]
        return [(it, self[it]) for it in (reversed(found) if reverse else found)]

    def irange(self, minimum=None, maximum=None, inclusive=(True, True), reverse=False):
        return [key for key, _ in self.range(minimum, maximum, inclusive, reverse)]

    def prefix(self, prefix, reverse=False):
        return [pair for pair in self.range(reverse=reverse) if self.begins(prefix, pair[0])]

    def longest_prefix(self, query):
        return max((pair for pair in self.range() if self.begins(pair[0], query)), key=lambda it: len(it[0]),
                   default=None)

    def prefixes(self, query):
        return [pair for pair in self.range() if self.begins(pair[0], query)]

    def first(self):
        return next(iter(self.range()), None)

    def last(self):
        return next(iter(self.range(reverse=True)), None)

    def next(self, key, inclusive=False):
        return next(iter(self.range(key, None, (inclusive, True))), None)

    def previous(self, key, inclusive=False):
        return next(iter(self.range(None, key, (True, inclusive), True)), None)

    def remove_prefix(self, prefix):
        return len([self.popped(key) for key, _ in self.prefix(prefix)])

    def compact(self):
        """No pair changes."""

    def walked(self, name, is_reversed):
        found = {"keys": lambda it: it[0], "values": lambda it: it[1], "items": lambda it: it}[name]
        return [found(it) for it in self.range(reverse=is_reversed)]


class Wrong:
    """Models that are wrong in one thing each: the scripts must tell them from the map."""

    class Conflict(Model):
        def __setitem__(self, key, value):
            if self.kind is bytes and any(it != key and key.startswith(it) for it in self):
                raise ConflictError
            dict.__setitem__(self, key, value)

    class Next(Model):
        def next(self, key, inclusive=False):
            return super().next(key, True)

    class Previous(Model):
        def previous(self, key, inclusive=False):
            return super().previous(key)

    class Range(Model):
        def range(self, start=None, stop=None, inclusive=(True, False), reverse=False):
            return super().range(start, stop, (True, inclusive[1]), reverse)

    class Longest(Model):
        def longest_prefix(self, query):
            return next((pair for pair in self.range() if self.begins(pair[0], query)), None)

    class Prefixes(Model):
        def prefixes(self, query):
            return super().prefixes(query)[::-1]

    class Load(Model):
        def load(self, pairs):
            for key, value in pairs:
                self[key] = value

    class Popitem(Model):
        def popitem(self, index=-1):
            return super().popitem(0)

    class RemovePrefix(Model):
        def remove_prefix(self, prefix):
            return len([self.popped(key) for key, _ in self.prefix(prefix)[1:]])

    class Kept(Model):
        def __setitem__(self, key, value):
            super().__setitem__(key, self.get(key, value))
