r"""A sorted map and a sorted set of bytes, texts or numbers, in an adaptive radix tree that is proved.

The calls of Art, which has all those of a dict, too:

    Art(pairs=(), /, *, key=bytes)          key: bytes, Ended, str or int, the type of the keys
    first()  last()                         the pair at an end, or None
    next(key, *, inclusive=False)           the pair above a key, or None
    previous(key, *, inclusive=False)       the pair below a key, or None
    longest_prefix(query)                   the pair with the longest key that begins the query, or None; also find
    prefixes(query)                         all pairs whose keys begin the query, the shortest first, in a list
    range(start, stop, *, inclusive=(True, False), reverse=False)    pairs
    irange(minimum, maximum, inclusive=(True, True), reverse=False)  keys
    prefix(prefix, *, reverse=False)        the pairs whose keys begin so
    remove_prefix(prefix)                   takes these out, and returns how many
    peekitem(index=-1)  popitem(index=-1)
    bisect_left(key)  bisect_right(key)  index(key)  islice(start, stop)  keys()[i]    by a walk
    load(pairs)                             puts in pairs whose keys ascend, many at a time
    compact()                               puts the nodes in the order of the keys: a walk over all is faster then

ArtSet has the calls of a set, and these with keys in the place of pairs; also s[i], s[i:j] and del s[i].

>>> from artmap import Art, Ended
>>> towns = Art({"York": 1, "Leeds": 2, "Yarm": 3}, key=str)
>>> towns["Hull"] = [4]
>>> list(towns), list(towns.prefix("Y")), towns.next("Leeds")
(['Hull', 'Leeds', 'Yarm', 'York'], [('Yarm', 3), ('York', 1)], ('Yarm', 3))

Keys ascend as bytes compare: texts by their code points, numbers by their size. What comes out is always of the very
type bytes, str or int. For a key of bytes anything with a buffer is taken, and copied. Numbers are those of 64 bits
with a sign. Values are any objects.

No key of bytes begins another one: a key that would is refused by ConflictError, which names both. With key=Ended keys
of bytes may begin one another: each is stored with an end mark, and each byte 00 or 01 in it takes two. Texts and
numbers have no conflicts, either.

>>> blocks = Art({bytes([10]): "all", bytes([10, 0, 7]): "lab"}, key=Ended)
>>> blocks.longest_prefix(bytes([10, 0, 7, 1])), blocks.longest_prefix(bytes([10, 0, 8, 1]))
((b'\n\x00\x07', 'lab'), (b'\n', 'all'))

What raises changes nothing, but for update and load: there the pairs before the one that failed stay.

A map may change while a walk goes along it (for, items, range, prefix). The walk goes on from the key that it told
last: what is put in ahead of it is told, what is taken out ahead is not, and no key is told twice. A value is that of
the moment when it is told. So a loop that puts in keys ahead of itself doesn't end by itself.

Any thread may call a map: each call is one, and waits for no lock but Python's own. A call may also come from a
finalizer, from a signal handler or after a fork.
"""
from collections.abc import ItemsView, KeysView, MutableMapping, ValuesView

try:
    from ._artmap import Art, ConflictError, Ended, Items, Keys, NotAboveError, Values, is_proved, library_version
except ModuleNotFoundError as why:
    if why.name != f"{__name__}._artmap":
        raise
    told = "are the sources: 'pip install ./bindings/python' builds them; import artmap elsewhere"
    raise ImportError(f"{__path__[0]} {told}") from why
from ._set import ArtSet

__all__ = ["Art", "ArtSet", "ConflictError", "Ended", "NotAboveError", "is_proved", "library_version"]
__version__ = library_version

MutableMapping.register(Art)
KeysView.register(Keys)
ItemsView.register(Items)
ValuesView.register(Values)
