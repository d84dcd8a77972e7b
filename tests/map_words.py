"""What the models of play_map's maps and sets share: bytes as a script writes them, and pairs in order."""
from bisect import bisect_left, insort

SHRINKING = {5, 17, 33, 49}
CLASSES = ((2, 4), (5, 16), (17, 32), (33, 48), (49, 256))
# Calls that put in one pair or key, and need no memory where there is room for it.
SINGLE = {"insert", "try_insert", "replace", "replace_entry"}
FILLING = ("or_insert", "or_default", "or_insert_with", "or_insert_with_key")
PREFIX_FILLING = [f"prefix_{it}{entry}" for it in FILLING for entry in ("", "_entry")]
BOTH = 0xFFFF_FFFF_FFFF_FFFF


class Tagged(bytes):
    """The bytes of a key with a tag, which is no part of its value."""

    def __new__(cls, key, tag):
        made = super().__new__(cls, key)
        made.tag = tag
        return made


def with_tag(key, word):
    """The key with the tag that a word has, if it has one."""
    return Tagged(key, int(word.partition("#")[2])) if "#" in word else key


def untagged(key):
    return bytes(key) if isinstance(key, Tagged) else key


def bytes_in(word):
    word = word.partition("#")[0]
    parts = (part.partition("*") for part in word.lstrip("[(").split(".") if part[:1] not in ("", "-"))
    return b"".join(bytes.fromhex(digits) * int(times or 1) for digits, _, times in parts)


def shown(key):
    tag = getattr(key, "tag", 0)
    return f"{list(key)}#{tag}" if tag else str(list(key))


def text(key):
    """A key as its text shows it: the bytes, or how many there are."""
    return shown(key) if len(key) <= 16 else f"{len(key)} bytes"


def hashed(writes):
    """What the hasher of play_map makes of what it is fed with, from the lengths and first bytes alone."""
    state = 0
    for write in writes:
        state = (state * 31 + len(write)) * 31 + (write[0] if len(write) else 0) & BOTH
    return str(state)


def number(value):
    """The bytes that a hasher is fed with for a number of 64 bits."""
    return value.to_bytes(8, "little")


def option(value):
    return "None" if value is None else f"Some({value})"


def common(one, other):
    at = 0
    while at < min(len(one), len(other)) and one[at] == other[at]:
        at += 1
    return one[:at]


class Pairs(dict):
    """Pairs, and their keys in the order of their bytes."""

    def __init__(self, pairs=()):
        super().__init__(pairs)
        self.keys_in_order = sorted(self)

    def __setitem__(self, key, value):
        if key not in self:
            insort(self.keys_in_order, key)
        super().__setitem__(key, value)

    def __delitem__(self, key):
        super().__delitem__(key)
        del self.keys_in_order[bisect_left(self.keys_in_order, key)]

    def pop(self, key, default=None):
        value = self.get(key, default)
        if key in self:
            del self[key]
        return value

    def put(self, key, value):
        """Stores a pair in the place of one with an equal key, which goes with its value."""
        self.pop(key)
        self[key] = value

    def kept(self, key):
        """The key that is stored of those that equal this one, or else this one."""
        at = bisect_left(self.keys_in_order, key)
        return self.keys_in_order[at] if key in self else key


def room_behind(room, call, word):
    """For how many pairs there is room after a line: `reserve` makes it, an insertion of one uses it up, `clear` keeps
    it. Of any other call nothing is said."""
    if call == "reserve":
        return int(word)
    return room if call == "clear" else max(0, room - 1) if call in SINGLE else 0


class Refused(Exception):
    """A removal that finds no memory."""
