"""What play_map has to answer to a line over a map, by a model made from the contracts. It knows no tree, but where
nodes are counted: a map is a sorted list."""
import itertools
from bisect import bisect_left, bisect_right
from collections import Counter

import operations_tree
from map_entries import Entries
from map_words import BOTH, CLASSES, FILLING, PREFIX_FILLING, SHRINKING, Pairs, Refused, bytes_in, common, hashed
from map_words import number, option, room_behind, shown, text, untagged, with_tag


class Counts(str):
    """An answer that follows from how many bytes of a prefix a node stores; of itself it is that for four."""

    def __new__(cls, answer):
        made = super().__new__(cls, answer(4))
        made.of = answer
        return made


def bound_of(word):
    """The bound that a word tells."""
    return None if word[0] == "*" else operations_tree.Bound(word[0] == "[", bytes_in(word))


class Model(Entries):
    """Pairs in the order of their keys' bytes. A method for each call, of the words after its name. Where `refuse` is
    a number, the removal by an extraction with this number, of those that make a node smaller, finds no memory, and so
    does the insertion with this number of a call that makes several, of those of new keys. For the first `room` pairs
    that the next line puts in there is room that was made, so that they are not counted."""

    def __init__(self, is_ended, pairs=(), other=(), bag=(), refuse=None, room=0):
        self.pairs, self.other, self.bag = Pairs(pairs), Pairs(other), list(bag)
        self.is_ended, self.refuse, self.changes, self.room = is_ended, refuse, 0, room

    def again(self):
        """The same pairs, with memory."""
        return Model(self.is_ended, self.pairs, self.other, self.bag, room=self.room)

    def size(self):
        return len(self.pairs) + len(self.other) + len(self.bag)

    def key(self, word):
        """A key that is handed in, or None where there is none of these bytes."""
        key = bytes_in(word)
        if not self.is_ended:
            return with_tag(key, word)
        return None if 0 in key else with_tag(key + b"\0", word)

    def sorted(self):
        return list(self.pairs.keys_in_order)

    def item(self, key):
        return "None" if key is None else f"{shown(self.pairs.kept(key))} {self.pairs[key]}"

    def front_of(self, query):
        return next((query[:n] for n in range(len(query) + 1) if query[:n] in self.pairs), None)

    def overlapped(self, key):
        """The keys that a key equals, begins or goes on after, in order."""
        keys = self.pairs.keys_in_order
        behind = itertools.takewhile(lambda it: it.startswith(key), keys[bisect_left(keys, key) :])
        return [key[:n] for n in range(len(key)) if key[:n] in self.pairs] + list(behind)

    def answer(self, line):
        call, *words = line.split(" ")
        words += [""] * (4 - len(words))
        name = "call_" + call
        if call in FILLING or call.endswith("_entry") and call[:-6] in FILLING:
            name, words = "fill", [call, *words]
        if call in PREFIX_FILLING:
            name, words = "fill_prefix", [call, *words]
        told = getattr(self, name)(*words)
        self.room = room_behind(self.room, call, words[0])
        return told

    # Look-ups.
    def call_len(self, *_):
        return str(len(self.pairs))

    def call_is_empty(self, *_):
        return str(not self.pairs).lower()

    def call_get(self, word, *_):
        return option(self.pairs.get(bytes_in(word)))

    def call_get_key_value(self, word, *_):
        return self.item(bytes_in(word) if bytes_in(word) in self.pairs else None)

    def call_contains_key(self, word, *_):
        return str(bytes_in(word) in self.pairs).lower()

    def call_index(self, word, *_):
        return str(self.pairs.get(bytes_in(word), "not understood"))

    def call_prefix_get(self, word, *_):
        key = self.front_of(bytes_in(word))
        return option(None if key is None else self.pairs[key])

    def call_prefix_get_key_value(self, word, *_):
        return self.item(self.front_of(bytes_in(word)))

    def call_first_key_value(self, *_):
        return self.item(next(iter(self.sorted()), None))

    def call_last_key_value(self, *_):
        return self.item(next(iter(self.sorted()[::-1]), None))

    def write(self, key, number):
        old = self.pairs.get(key)
        if old is not None:
            self.pairs[key] = int(number or 0)
        return "None" if old is None else str(old)

    def call_get_mut(self, word, number, *_):
        return self.write(bytes_in(word), number)

    def call_prefix_get_mut(self, word, number, *_):
        return self.write(self.front_of(bytes_in(word)), number)

    def call_prefix_get_key_value_mut(self, word, number, *_):
        key = self.front_of(bytes_in(word))
        self.write(key, number)
        return "None" if key is None else shown(self.pairs.kept(key))

    def call_check(self, *_):
        keys = self.sorted()
        # Neighbours part once for each byte but the first that follows their common front.
        widths = [1 + times for times in Counter(common(*pair) for pair in zip(keys, keys[1:])).values()]
        kinds = [str(sum(least <= width <= most for width in widths)) for least, most in CLASSES]
        return f"{len(keys)} leaves, nodes {' '.join(kinds)}"

    call_audit = call_check

    # Look-ups that count the nodes that are read.
    def read(self, key):
        """A pair, and how many nodes stand on its path: one where its key parts from any other, and its leaf."""
        if key is None or key not in self.pairs:
            return "None"
        parts = {len(common(key, it)) for it in self.pairs.keys_in_order if it != key}
        return f"{self.item(key)} {len(parts) + 1}"

    def call_read_get(self, word, *_):
        return self.read(bytes_in(word))

    def call_read_prefix_get(self, word, *_):
        return self.read(self.front_of(bytes_in(word)))

    def first_three(self, keys):
        return "".join(f"{self.item(key)}, " for key in [*keys[:3], None, None, None][:3]) + "true"

    def call_read_prefix(self, word, *_):
        return self.first_three(self.behind(word))

    def call_read_range(self, word, *_):
        keys = self.pairs.keys_in_order
        return self.first_three(keys[bisect_right(keys, bytes_in(word)) :])

    def tree(self):
        pairs = [(untagged(key), self.pairs[key]) for key in self.pairs.keys_in_order]
        return operations_tree.tree_of(pairs) if pairs else None

    def call_count_get(self, word, *_):
        tree, key = self.tree(), bytes_in(word)
        return Counts(lambda stored: f"{len(operations_tree.look_up(tree, key, stored)) if tree else 0} read")

    def call_count_prefix(self, word, *_):
        tree, front = self.tree(), bytes_in(word)
        return Counts(lambda stored: f"{operations_tree.part_of(tree, front, stored)[0] if tree else 0} read")

    def call_count_range(self, start, end, *_):
        if self.between(start, end) is None:
            return "invalid"
        tree, keys, ends = self.tree(), list(self.pairs.keys_in_order), (bound_of(start), bound_of(end))
        return Counts(lambda stored: f"{operations_tree.range_reads(tree, keys, *ends, stored) if tree else 0} read")

    def call_count_cut(self, word, *_):
        """The pairs that leave, and the nodes that were read to find them or were freed."""
        tree, front = self.tree(), bytes_in(word)
        gone = self.behind(word)
        for key in gone:
            del self.pairs[key]

        def answer(stored):
            reads, part = operations_tree.part_of(tree, front, stored) if tree else (0, None)
            return f"{len(gone)} {reads + (operations_tree.count_nodes(part) if part else 0)}"

        return Counts(answer)

    # Changes.
    def call_try_insert(self, word, number, *_):
        key = self.key(word)
        if key is None:
            return "no key"
        if self.overlapped(key) not in ([], [key]):
            return f"prefix {shown(key)} {int(number or 0)}, {shown(untagged(key))}"
        old = self.pairs.get(key)
        self.pairs.put(key, int(number or 0))
        return option(old)

    call_insert = call_try_insert

    def call_put_at(self, word, number, *_):
        told = self.call_try_insert(word, number)
        return f"prefix {shown(self.key(word))}" if told.startswith("prefix") else told

    def call_replace_entry(self, word, number, *_):
        key = self.key(word)
        old = self.item(key if key in self.pairs else None)
        if key is not None:
            self.pairs.put(key, int(number or 0))
        return "no key" if key is None else old

    def put_over(self, key, number):
        gone = self.overlapped(key)
        is_stored = key in self.pairs
        for it in gone:
            del self.pairs[it]
        self.pairs[key] = int(number or 0)
        return 1 if is_stored else len(gone)

    def call_prefix_insert(self, word, number, *_):
        key = self.key(word)
        return "no key" if key is None else str(self.put_over(key, number))

    def call_clear(self, *_):
        self.pairs = Pairs()
        return "done"

    def call_reserve(self, *_):
        return "done"

    call_shrink = call_compact = call_reserve

    # It is asked of a map that was compacted.
    def call_in_order(self, *_):
        return "true"

    # How many bytes are held is counted by tests/held.c: so it answers what the line says.
    def call_held(self, name, *_):
        return f"held {name}"

    def call_less(self, name, *_):
        return f"less {name}"

    def call_more(self, name, *_):
        return f"more {name}"

    def take(self, key):
        return f"{shown(self.pairs.kept(key))} {self.pairs.pop(key)}" if key in self.pairs else "None"

    def call_remove(self, word, *_):
        return option(self.pairs.pop(bytes_in(word), None))

    def call_remove_entry(self, word, *_):
        return self.take(bytes_in(word))

    def call_pop_first(self, *_):
        return self.take(next(iter(self.sorted()), None))

    def call_pop_last(self, *_):
        return self.take(next(iter(self.sorted()[::-1]), None))

    # Two maps.
    def call_swap(self, *_):
        self.pairs, self.other = self.other, self.pairs
        return "done"

    def call_split_off(self, word, *_):
        at = bytes_in(word)
        self.other = Pairs({key: value for key, value in self.pairs.items() if key >= at})
        self.pairs = Pairs({key: value for key, value in self.pairs.items() if key < at})
        return "done"

    def call_into_iter(self, letters, *_):
        told = self.call_iter(letters)
        self.pairs = Pairs()
        return told

    def call_into_keys(self, letters, *_):
        told = self.call_keys(letters)
        self.pairs = Pairs()
        return told

    def call_into_values(self, letters, *_):
        told = self.call_values(letters)
        self.pairs = Pairs()
        return told

    def call_append(self, *_):
        for key, value in self.other.items():
            self.pairs.put(key, value)
        self.other = Pairs()
        return "done"

    # A bag of pairs, out of which several are put in by one call.
    def call_drain(self, end="", *_):
        self.bag += sorted(self.other.items(), reverse=end == "b")
        self.other = Pairs()
        return "done"

    def put_bag(self, pairs, room=0):
        """Puts the bag's pairs into these, one by one, and tells which found no memory if one did: one with a new key,
        after so many for which there is room."""
        given, self.bag = self.bag, []
        for at, (key, value) in enumerate(given):
            may_ask = at >= room and key not in pairs
            self.changes += may_ask
            if may_ask and self.changes == self.refuse:
                return f"memory {shown(key)} {value}"
            pairs.put(key, value)
        return "done"

    def call_extend(self, *_):
        return self.put_bag(self.pairs, self.room)

    def call_from_vec(self, *_):
        made = Pairs()
        told = self.put_bag(made)
        self.pairs = made if told == "done" else self.pairs
        return told

    call_from_iter = call_from_vec

    def call_clone(self, *_):
        self.other = Pairs(self.pairs)
        return "done"

    def call_hash(self, *_):
        pairs = ((key, number(self.pairs[key])) for key in self.pairs.keys_in_order)
        return hashed([number(len(self.pairs)), *itertools.chain(*pairs)])

    def call_debug(self, *_):
        return "{" + ", ".join(f"{text(key)}: {self.pairs[key]}" for key in self.pairs.keys_in_order) + "}"

    def call_extend_from_refs(self, *_):
        """The text of the pairs of both, those of the first in the place of others."""
        both = {key: self.pairs[key] for key in self.pairs.keys_in_order}
        both |= {key: value for key, value in self.other.items() if key not in both}
        return "{" + ", ".join(f"{text(key)}: {both[key]}" for key in sorted(both)) + "}"

    def call_compare(self, *_):
        mine, others = sorted(self.pairs.items()), sorted(self.other.items())
        return f"{'less' if mine < others else 'greater' if mine > others else 'equal'} {str(mine == others).lower()}"

    # Walks.
    def taken(self, keys, letters, back="b"):
        keys = list(keys)
        for letter in letters:
            yield len(keys), keys.pop(-1 if letter in back else 0) if keys else None

    def call_iter(self, letters, *_):
        return "".join(f"{left} {self.item(key)}, " for left, key in self.taken(self.sorted(), letters)) + "end"

    def call_keys(self, letters, *_):
        told = self.taken(self.sorted(), letters)
        return "".join("None, " if key is None else f"{left - 1} {shown(key)}, " for left, key in told) + "end"

    def call_values(self, letters, *_):
        told = self.taken(self.sorted(), letters)
        return "".join(f"{max(0, left - 1)} {option(self.pairs.get(key))}, " for left, key in told) + "end"

    def between(self, start, end):
        """The keys between two bounds, or None where the bounds are not valid, unless there is no key at all."""
        if not self.pairs:
            return []
        low, high = bytes_in(start) if start[0] != "*" else b"", bytes_in(end) if end[0] != "*" else b""
        both = start[0] != "*" and end[0] != "*"
        if both and (low > high or low == high and start[0] == end[0] == "("):
            return None
        is_in = {"*": lambda *_: True, "[": lambda one, other: one <= other, "(": lambda one, other: one < other}
        return [key for key in self.sorted() if is_in[start[0]](low, key) and is_in[end[0]](key, high)]

    def call_range(self, start, end, letters, *_):
        keys = self.between(start, end)
        if keys is None:
            return "invalid"
        return "".join(f"{self.item(key)}, " for _, key in self.taken(keys, letters)) + "end"

    def call_prefix(self, word, letters, *_):
        return "".join(f"{self.item(key)}, " for _, key in self.taken(self.behind(word), letters)) + "end"

    def raised(self, keys, letters, number, tells_len):
        told = []
        for letter, (left, key) in zip(letters, self.taken(keys, letters, "bq")):
            named = "" if key is None or letter in "fb" else f"{shown(key)} "
            told.append(f"{left} " * tells_len + ("None" if key is None else f"{named}{self.pairs[key]}") + ", ")
            if key is not None:
                self.pairs[key] = self.pairs[key] + int(number or 0) & BOTH
        return "".join(told) + "end"

    def call_range_mut(self, start, end, letters, number):
        keys = self.between(start, end)
        return "invalid" if keys is None else self.raised(keys, letters, number, False)

    def call_prefix_mut(self, word, number, letters, *_):
        return self.raised(self.behind(word), letters, number, False)

    def call_iter_mut(self, letters, number, *_):
        return self.raised(self.sorted(), letters, number, True)

    call_values_mut = call_iter_mut

    # Extraction.
    def shrinks(self, key):
        """Whether a removal leaves a node that gets a smaller one."""
        keys, at = self.pairs.keys_in_order, bisect_left(self.pairs.keys_in_order, key)
        beside = [common(key, it) for it in keys[max(at - 1, 0) : at] + keys[at + 1 : at + 2]]
        front = max(beside, key=len, default=None)
        behind = itertools.takewhile(lambda it: it.startswith(front), keys[bisect_left(keys, front or b"") :])
        return front is not None and len({it[len(front)] for it in behind}) in SHRINKING

    def extract(self, key):
        if self.shrinks(key):
            self.changes += 1
            if self.changes == self.refuse:
                raise Refused
        return self.take(key)

    def call_extraction(self, start, end, letters, *_):
        keys = self.between(start, end)
        if keys is None:
            return "invalid"
        told = ""
        for letter in letters:
            if not keys:
                told += "None, "
                continue
            key = keys.pop(-1 if letter in "bq" else 0)
            self.pairs[key] = self.pairs[key] + 1 & BOTH
            told += f"{shown(key)}: "
            try:
                told += "passed, " if letter in "pq" else self.extract(key) + "\n"
            except Refused:
                told, keys = told + "memory\n", []
        return told + "end"

    def call_extract_if(self, start, end, letters, least):
        keys = self.between(start, end)
        if keys is None:
            return "invalid"
        told, calls = [], 0
        for letter in letters:
            found = None
            while keys and found is None:
                calls += 1
                key = keys.pop(-1 if letter == "b" else 0)
                self.pairs[key] = self.pairs[key] + 1 & BOTH
                found = key if self.pairs[key] >= int(least or 0) else None
            try:
                told.append("None" if found is None else self.extract(found))
            except Refused:
                told.append("memory")
                keys = []
        return "\n".join(told + [f"end {calls}"])

    # Removals of all keys with a prefix.
    def behind(self, word):
        front = bytes_in(word)
        keys = self.pairs.keys_in_order
        return list(itertools.takewhile(lambda it: it.startswith(front), keys[bisect_left(keys, front) :]))

    def cut_shrinks(self, word):
        """Whether the loss of all keys with a prefix leaves a node that gets a smaller one."""
        front, keys = bytes_in(word), self.pairs.keys_in_order
        beside = [common(front, it) for it in keys if not it.startswith(front)]
        if not beside or not self.behind(word):
            return False
        crossing = max(beside, key=len)
        return len({it[len(crossing)] for it in keys if it.startswith(crossing)}) in SHRINKING

    def call_remove_prefix(self, word, *_):
        gone = self.behind(word)
        for key in gone:
            del self.pairs[key]
        return f"{len(gone)} true"

    call_apply_prefix = call_remove_prefix

    def call_prepare_prefix(self, *_):
        return "ready"

    def call_remove_from_both(self, word, *_):
        told = []
        for _ in range(2):
            told.append(self.call_remove_prefix(word))
            self.call_swap()
        return "\n".join(told)

    def call_retain(self, least, *_):
        calls = 0
        for key in self.sorted():
            calls += 1
            self.pairs[key] = self.pairs[key] + 1 & BOTH
            if self.pairs[key] < int(least or 0):
                try:
                    self.extract(key)
                except Refused:
                    return f"memory {calls}"
        return f"done {calls}"
