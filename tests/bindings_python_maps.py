"""Scripts of calls of maps (tests/maps), played by a map of artmap beside the model of those scripts.

A line that the map has no call for changes it to what the model holds.
"""
import os
import re
from glob import glob

import map_model
import maps
from artmap import Art, ConflictError
from map_words import bytes_in, option, shown

MAP_SCRIPTS, MAP_STEPS = 8, 300


class Player:
    """Answers lines of scripts of maps by the class, as map_model.Model does: a method for each call that it has."""

    def __init__(self, is_ended):
        self.map, self.is_ended = Art(), is_ended

    def answer(self, line):
        """The answer, or None where the class has no such call."""
        call, *words = line.split(" ")
        method = getattr(self, "call_" + call, None)
        return method and method(*words)

    def take_on(self, pairs):
        """Changes the map to these pairs."""
        pairs = {bytes(key): b"%d" % value for key, value in pairs.items()}
        for key in [it for it in self.map if it not in pairs]:
            del self.map[key]
        self.map.update(it for it in pairs.items() if self.map.get(it[0]) != it[1])

    def item(self, pair):
        return "None" if pair is None else f"{shown(pair[0])} {pair[1].decode()}"

    def value(self, value):
        return option(None if value is None else value.decode())

    def call_len(self, *_):
        return str(len(self.map))

    def call_is_empty(self, *_):
        return str(not self.map).lower()

    def call_get(self, word, *_):
        return self.value(self.map.get(bytes_in(word)))

    def call_contains_key(self, word, *_):
        return str(bytes_in(word) in self.map).lower()

    def call_get_key_value(self, word, *_):
        key = bytes_in(word)
        return self.item((key, self.map[key]) if key in self.map else None)

    def call_prefix_get(self, word, *_):
        pair = self.map.find(bytes_in(word))
        return self.value(pair and pair[1])

    def call_prefix_get_key_value(self, word, *_):
        return self.item(self.map.find(bytes_in(word)))

    def call_first_key_value(self, *_):
        return self.item(self.map.first())

    def call_last_key_value(self, *_):
        return self.item(self.map.last())

    def call_try_insert(self, word, number="0", *_):
        key = bytes_in(word)
        if self.is_ended and 0 in key:
            return "no key"
        key += b"\0" * self.is_ended
        old = self.map.get(key)
        try:
            self.map[key] = number.encode()
        except ConflictError:
            return f"prefix {shown(key)} {number}, {shown(key)}"
        return self.value(old)

    call_insert = call_try_insert

    def call_remove(self, word, *_):
        return self.value(self.map.pop(bytes_in(word), None))

    def call_pop_first(self, *_):
        return self.item(self.map.popitem(index=0) if self.map else None)

    def call_clear(self, *_):
        self.map.clear()
        return "done"

    def call_compact(self, *_):
        self.map.compact()
        return "done"

    def call_remove_prefix(self, word, *_):
        return f"{self.map.remove_prefix(bytes_in(word))} true"

    def ends(self, letters, forth, back, left):
        """What steps at both ends of a walk give: how many pairs are left, and a pair if one is."""
        for letter in letters:
            yield left, next(back if letter == "b" else forth) if left else None
            left -= left > 0

    def every(self, letters):
        items = self.map.items()
        return self.ends(letters, iter(items), reversed(items), len(self.map))

    def call_iter(self, letters, *_):
        return "".join(f"{left} {self.item(pair)}, " for left, pair in self.every(letters)) + "end"

    def call_keys(self, letters, *_):
        told_of = self.every(letters)
        return "".join("None, " if pair is None else f"{left - 1} {shown(pair[0])}, " for left, pair in told_of) + "end"

    def call_values(self, letters, *_):
        told_of = self.every(letters)
        return "".join(f"{max(0, left - 1)} {self.value(pair and pair[1])}, " for left, pair in told_of) + "end"

    def some(self, letters, walk):
        """Steps at both ends of a walk that `walk` makes, downwards too."""
        steps = self.ends(letters, walk(), walk(reverse=True), sum(1 for _ in walk()))
        return "".join(f"{self.item(pair)}, " for _, pair in steps) + "end"

    def call_range(self, start, end, letters, *_):
        low = None if start[0] == "*" else bytes_in(start)
        high = None if end[0] == "*" else bytes_in(end)
        inclusive = start[0] != "(", end[0] == "["
        return self.some(letters, lambda **how: self.map.range(low, high, inclusive=inclusive, **how))

    def call_prefix(self, word, letters, *_):
        return self.some(letters, lambda **how: self.map.prefix(bytes_in(word), **how))


def one_of_maps(kind, lines):
    """Plays a script of maps, and returns what is wrong, if anything is, and how many lines had a call."""
    model, player, count = map_model.Model(kind == "ended"), Player(kind == "ended"), 0
    for at, line in enumerate(re.sub(r"#\d+", "", it) for it in lines):
        wanted, got = model.answer(line), player.answer(line)
        count += got is not None
        if got is None:
            player.take_on(model.pairs)
        elif wanted not in ("invalid", got):
            return f"line {at + 1}, {line}: {got}, and not {wanted}", count
        keys = model.pairs.keys_in_order
        if len(player.map) != len(keys) or (at % 25 == 0 or at == len(lines) - 1) and [*player.map] != keys:
            return f"line {at + 1}, {line} leaves {player.map!r}", count
    return "", count


def of_maps(told):
    """Plays all scripts; `told` counts each."""
    found = [(os.path.basename(it), *maps.rows(it)) for it in sorted(glob("tests/maps/*.lines")) if ".set." not in it]
    found += [(f"random {seed} of {kind} keys", kind, maps.script(seed, kind, MAP_STEPS))
              for seed in range(MAP_SCRIPTS) for kind in ("free", "ended")]  # fmt: skip
    sum_of = 0
    for name, kind, lines in found:
        why, count = one_of_maps(kind, lines)
        sum_of += count
        told(f"{name}, {count} of {len(lines)} lines", not why, why)
    told("lines of the scripts of maps that the class has calls for", sum_of > 1000, f"only {sum_of}")
