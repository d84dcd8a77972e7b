"""The same over a set: two sets of keys with a zero at the end, of which the first is asked."""
from map_model import Model
from map_words import Refused, bytes_in, hashed, number, room_behind, shown, text, with_tag


class SetModel:
    """Two sets of keys with a zero at the end, of which the first is asked; `refuse` and `room` as in the model of a
    map."""

    def __init__(self, keys=(), other=(), bag=(), refuse=None, room=0):
        self.keys, self.other, self.bag, self.refuse, self.changes = set(keys), set(other), list(bag), refuse, 0
        self.room = room

    def again(self):
        return SetModel(self.keys, self.other, self.bag, room=self.room)

    def size(self):
        return len(self.keys) + len(self.other) + len(self.bag)

    def answer(self, line):
        call, *words = line.split(" ")
        told = getattr(self, "call_" + call)(*words, *[""] * (4 - len(words)))
        self.room = room_behind(self.room, call, words[0] if words else "")
        return told

    def call_len(self, *_):
        return f"{len(self.keys)} {str(not self.keys).lower()}"

    def kept(self, key):
        """The key that is stored of those that equal this one."""
        return next(it for it in self.keys if it == key)

    def put_key(self, keys, key):
        """Stores a key in the place of an equal one."""
        keys.discard(key)
        keys.add(key)

    def call_contains(self, word, *_):
        return str(bytes_in(word) in self.keys).lower()

    def call_get(self, word, *_):
        return shown(self.kept(bytes_in(word))) if bytes_in(word) in self.keys else "None"

    def call_first(self, *_):
        return shown(min(self.keys)) if self.keys else "None"

    def call_last(self, *_):
        return shown(max(self.keys)) if self.keys else "None"

    def told(self, keys, letters, tells_len):
        keys, told = sorted(keys), ""
        for letter in letters:
            told += f"{len(keys)} " * tells_len
            told += (shown(keys.pop(-1 if letter == "b" else 0)) if keys else "None") + ", "
        return told + "end"

    def call_iter(self, letters, *_):
        return self.told(self.keys, letters, True)

    def between(self, start, end):
        return Model(True, dict.fromkeys(self.keys)).between(start, end)

    def call_range(self, start, end, letters, *_):
        keys = self.between(start, end)
        return "invalid" if keys is None else self.told(keys, letters, False)

    def put(self, word):
        key = bytes_in(word)
        if 0 in key:
            return None, None
        key = with_tag(key + b"\0", word)
        old = self.kept(key) if key in self.keys else None
        self.put_key(self.keys, key)
        return key, old

    def call_insert(self, word, *_):
        key, old = self.put(word)
        return "no key" if key is None else str(old is None).lower()

    call_try_insert = call_insert

    def call_replace(self, word, *_):
        key, old = self.put(word)
        return "no key" if key is None else "None" if old is None else shown(old)

    def taken(self, key):
        """A key that leaves the set, where the removal of it is not the one that finds no memory."""
        model = Model(True, dict.fromkeys(self.keys), refuse=self.refuse)
        model.changes = self.changes
        try:
            model.extract(key)
        finally:
            self.changes = model.changes
        told = shown(self.kept(key))
        self.keys.discard(key)
        return told

    def call_clear(self, *_):
        self.keys = set()
        return "done"

    def call_reserve(self, *_):
        return "done"

    call_shrink = call_compact = call_reserve
    call_held, call_less, call_more, call_in_order = Model.call_held, Model.call_less, Model.call_more, Model.call_in_order

    def call_take(self, word, *_):
        key = bytes_in(word)
        if key not in self.keys:
            return "None"
        told = shown(self.kept(key))
        self.keys.discard(key)
        return told

    def call_remove(self, word, *_):
        return "false" if self.call_take(word) == "None" else "true"

    def call_pop_first(self, *_):
        return self.call_take(min(self.keys).hex()) if self.keys else "None"

    def call_pop_last(self, *_):
        return self.call_take(max(self.keys).hex()) if self.keys else "None"

    def call_retain(self, *_):
        for key in sorted(self.keys):
            try:
                if key[0] % 2:
                    self.taken(key)
            except Refused:
                return "memory"
        return "done"

    def call_extract_if(self, start, end, letters, *_):
        keys, told = self.between(start, end), []
        if keys is None:
            return "invalid"
        keys = [key for key in keys if key[0] % 2 == 0]
        for _ in letters:
            try:
                told.append(self.taken(keys.pop(0)) if keys else "None")
            except Refused:
                told.append("memory")
                keys = []
        return "\n".join(told + ["end"])

    def comparisons(self):
        """How many comparisons a merge of both sets needs: one for each key that isn't after all of the other set."""
        if not self.keys or not self.other:
            return 0
        end = min(max(self.keys), max(self.other))
        return sum(key <= end for key in self.keys | (self.other - self.keys))

    def merged(self, keys, word):
        told = f"{len(keys)} " if word == "count" else "".join(f"{shown(key)}, " for key in sorted(keys))
        return f"{told}{self.comparisons()}"

    def common(self):
        """The keys of the first set that equal one of the second."""
        return {key for key in self.keys if key in self.other}

    def call_difference(self, word, *_):
        return self.merged(self.keys - self.other, word)

    def call_symmetric_difference(self, word, *_):
        return self.merged(self.keys ^ self.other, word)

    def call_intersection(self, word, *_):
        return self.merged(self.common(), word)

    def call_union(self, word, *_):
        return self.merged(self.keys | (self.other - self.keys), word)

    def call_is_disjoint(self, *_):
        return str(self.keys.isdisjoint(self.other)).lower()

    def call_is_subset(self, *_):
        return str(self.keys <= self.other).lower()

    def call_is_superset(self, *_):
        return str(self.keys >= self.other).lower()

    def call_into_iter(self, letters, *_):
        told = self.call_iter(letters)
        self.keys = set()
        return told

    def call_hash(self, *_):
        return hashed([number(len(self.keys)), *sorted(self.keys)])

    def call_debug(self, *_):
        return "{" + ", ".join(map(text, sorted(self.keys))) + "}"

    def call_extend_from_refs(self, *_):
        return "{" + ", ".join(map(text, sorted(self.keys | (self.other - self.keys)))) + "}"

    def call_compare(self, *_):
        mine, others = sorted(self.keys), sorted(self.other)
        return f"{'less' if mine < others else 'greater' if mine > others else 'equal'} {str(mine == others).lower()}"

    def made(self, keys, other):
        self.keys, self.other = keys, other
        return "done"

    def call_swap(self, *_):
        return self.made(self.other, self.keys)

    def call_append(self, *_):
        return self.made((self.keys - self.other) | self.other, set())

    def call_drain(self, end="", *_):
        self.bag += sorted(self.other, reverse=end == "b")
        return self.made(self.keys, set())

    def put_bag(self, keys, room=0):
        given, self.bag = self.bag, []
        for at, key in enumerate(given):
            may_ask = at >= room and key not in keys
            self.changes += may_ask
            if may_ask and self.changes == self.refuse:
                return f"memory {shown(key)}"
            self.put_key(keys, key)
        return "done"

    def call_extend(self, *_):
        return self.put_bag(self.keys, self.room)

    def call_from_vec(self, *_):
        made = set()
        told = self.put_bag(made)
        self.keys = made if told == "done" else self.keys
        return told

    call_from_iter = call_from_vec

    def call_split_off(self, word, *_):
        at = bytes_in(word)
        off = {key for key in self.keys if key >= at}
        return self.made(self.keys - off, off)

    def call_clone(self, *_):
        return self.made(self.keys, set(self.keys))

    def call_and(self, *_):
        return self.made(self.keys, self.common())

    def call_or(self, *_):
        return self.made(self.keys, self.keys | (self.other - self.keys))

    def call_xor(self, *_):
        return self.made(self.keys, self.keys ^ self.other)

    def call_minus(self, *_):
        return self.made(self.keys, self.keys - self.other)
