"""The line language as it is defined, over plain dictionaries: what each line is answered, and what is held then.

Nothing here is taken from the program. `Reference.reply` answers one line; `may_refuse` tells whether the definition
allows that it is answered `memory`, which changes nothing.
"""
import re

LINE = 4096
# The words of the language: each with the kinds of its fields.
WORDS = {
    "put": "tkv",
    "over": "tkv",
    "get": "tk",
    "find": "tk",
    "del": "tk",
    "list": "tk",
    "span": "tkk",
    "nput": "tnv",
    "nget": "tn",
    "ndel": "tn",
    "nspan": "tnn",
    "drop": "t",
    "dump": "",
    "audit": "",
}
TENANT = re.compile(rb"0|[1-9][0-9]*")
NUMBER = re.compile(rb"0|-?[1-9][0-9]*")
DIGITS = re.compile(rb"(?:[0-9a-fA-F]{2})+")
# A removal may find no memory where so many bytes follow the longest front that its key shares.
SHRINKING = {5, 17, 33, 49}
CLASSES = ((2, 4), (5, 16), (17, 32), (33, 48), (49, 256))


def tenant_in(field):
    return int(field) if TENANT.fullmatch(field) and int(field) < 1 << 32 else None


def number_in(field):
    return int(field) if NUMBER.fullmatch(field) and -(1 << 63) <= int(field) < 1 << 63 else None


def bytes_in(field):
    return b"" if field == b"-" else bytes.fromhex(field.decode()) if DIGITS.fullmatch(field) else None


READERS = {"t": tenant_in, "n": number_in, "k": bytes_in, "v": bytes_in}


def parsed(line):
    """The word and the fields of the command that a line spells, or None."""
    if len(line) > LINE:
        return None
    word, *fields = line.split(b" ")
    kinds = WORDS.get(word.decode("latin1"))
    if kinds is None or len(fields) != len(kinds):
        return None
    read = [READERS[kind](field) for kind, field in zip(kinds, fields)]
    return None if None in read else (word.decode(), read)


def shown(text):
    return text.hex().encode() or b"-"


def conflicts(one, other):
    return one != other and (one.startswith(other) or other.startswith(one))


def full(tenant, key):
    """The full key of a tenant's key of bytes, or of its number."""
    behind = key if isinstance(key, bytes) else (key + (1 << 63)).to_bytes(8, "big")
    return tenant.to_bytes(4, "big") + behind


def common(one, other):
    at = 0
    while at < min(len(one), len(other)) and one[at] == other[at]:
        at += 1
    return one[:at]


def counts(keys):
    """How many full keys there are, and how many longest common fronts of neighbours with each class of width."""
    keys = sorted(keys)
    fronts = {common(*pair) for pair in zip(keys, keys[1:])}
    widths = [len({key[len(front)] for key in keys if key.startswith(front)}) for front in fronts]
    return [len(keys)] + [sum(least <= width <= most for width in widths) for least, most in CLASSES]


def shrinks(keys, key):
    """Whether the longest front that a full key shares with another one has a width at which a node gets smaller."""
    front = max((common(key, other) for other in keys if other != key), key=len, default=None)
    if front is None:
        return False
    return len({it[len(front)] for it in keys if it.startswith(front)}) in SHRINKING


def shrinks_without(keys, front):
    """Whether the longest front that full keys with a front share with others has such a width, if there are both."""
    others = [key for key in keys if not key.startswith(front)]
    if len(others) in (0, len(keys)):
        return False
    shared = max((common(front, it) for it in others), key=len)
    return len({it[len(shared)] for it in keys if it.startswith(shared)}) in SHRINKING


class Reference:
    """Records: a value under each tenant's key and under each tenant's number."""

    def __init__(self):
        self.keys, self.numbers = {}, {}

    def held(self, tenant):
        return sorted(key for owner, key in self.keys if owner == tenant)

    def full_keys(self, records):
        return [full(*it) for it in records]

    def may_refuse(self, line):
        match parsed(line):
            case ("put" | "over" | "nput" | "audit", _):
                return True
            case ("del", [tenant, key]):
                return (tenant, key) in self.keys and shrinks(self.full_keys(self.keys), full(tenant, key))
            case ("ndel", [tenant, number]):
                return (tenant, number) in self.numbers and shrinks(self.full_keys(self.numbers), full(tenant, number))
            case ("drop", [tenant]):
                front = full(tenant, b"")
                return any(shrinks_without(self.full_keys(it), front) for it in (self.keys, self.numbers))
        return False

    def reply(self, line):
        """Carries out a line and returns its whole reply."""
        found = parsed(line)
        if found is None:
            return b"bad\n"
        word, fields = found
        return b"".join(it + b"\n" for it in getattr(self, word)(*fields))

    def put(self, tenant, key, value):
        old = self.keys.get((tenant, key))
        if old is None and any(conflicts(key, it) for it in self.held(tenant)):
            return [b"conflict"]
        self.keys[tenant, key] = value
        return [b"new" if old is None else b"old " + shown(old)]

    def over(self, tenant, key, value):
        gone = [it for it in self.held(tenant) if it == key or conflicts(key, it)]
        for it in gone:
            del self.keys[tenant, it]
        self.keys[tenant, key] = value
        return [b"over %d" % len(gone)]

    def get(self, tenant, key):
        value = self.keys.get((tenant, key))
        return [b"none" if value is None else b"is " + shown(value)]

    def find(self, tenant, key):
        for it in self.held(tenant):
            if key.startswith(it):
                return [b"at %b %b" % (shown(it), shown(self.keys[tenant, it]))]
        return [b"none"]

    def delete(self, records, at):
        value = records.pop(at, None)
        return [b"none" if value is None else b"gone " + shown(value)]

    def list(self, tenant, front):
        return self.listed(tenant, [it for it in self.held(tenant) if it.startswith(front)])

    def span(self, tenant, low, high):
        if low > high:
            return [b"bounds"]
        return self.listed(tenant, [it for it in self.held(tenant) if low <= it < high])

    def listed(self, tenant, keys):
        return [b"%b %b" % (shown(it), shown(self.keys[tenant, it])) for it in keys] + [b"end %d" % len(keys)]

    def nput(self, tenant, number, value):
        old = self.numbers.get((tenant, number))
        self.numbers[tenant, number] = value
        return [b"new" if old is None else b"old " + shown(old)]

    def nget(self, tenant, number):
        value = self.numbers.get((tenant, number))
        return [b"none" if value is None else b"is " + shown(value)]

    def ndel(self, tenant, number):
        return self.delete(self.numbers, (tenant, number))

    def nspan(self, tenant, low, high):
        if low > high:
            return [b"bounds"]
        numbers = sorted(it for owner, it in self.numbers if owner == tenant and low <= it <= high)
        return [b"%d %b" % (it, shown(self.numbers[tenant, it])) for it in numbers] + [b"end %d" % len(numbers)]

    def drop(self, tenant):
        held = len(self.keys) + len(self.numbers)
        self.keys, self.numbers = (
            {at: value for at, value in it.items() if at[0] != tenant} for it in (self.keys, self.numbers)
        )
        return [b"dropped %d" % (held - len(self.keys) - len(self.numbers))]

    def dump(self):
        lines = [b"put %d %b %b" % (t, shown(k), shown(value)) for (t, k), value in sorted(self.keys.items())]
        lines += [b"nput %d %d %b" % (t, n, shown(value)) for (t, n), value in sorted(self.numbers.items())]
        return lines + [b"end %d" % len(lines)]

    def audit(self):
        named = ((b"bytes", self.keys), (b"numbers", self.numbers))
        return [b"%b %b" % (name, b" ".join(b"%d" % it for it in counts(self.full_keys(held)))) for name, held in named]


setattr(Reference, "del", lambda self, tenant, key: self.delete(self.keys, (tenant, key)))
