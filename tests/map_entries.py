"""What the model of a map answers to calls of entries and of prefix entries."""
from map_words import BOTH, option, shown


class Entries:
    def fill(self, call, word, number, *_):
        key, number = self.key(word), int(number or 0)
        if key is None:
            return "no key"
        made = 0 if "default" in call else len(key) if "with_key" in call else number
        value = self.pairs.get(key, made)
        self.pairs[key] = number + 1 & BOTH
        return f"{shown(self.pairs.kept(key))} {value}" if call.endswith("_entry") else str(value)

    def call_insert_entry(self, word, number, *_):
        key = self.key(word)
        if key is None:
            return "no key"
        self.pairs[key] = int(number or 0) + 1
        return f"{shown(self.pairs.kept(key))} {int(number or 0)}"

    def call_and_modify(self, word, number, *_):
        key = self.key(word)
        if key in self.pairs:
            self.pairs[key] = self.pairs[key] + int(number or 0) & BOTH
        return "no key" if key is None else shown(self.pairs.kept(key))

    def call_entry_insert(self, word, number, *_):
        key = self.key(word)
        if key is None:
            return "no key"
        old = self.pairs.get(key, int(number or 0))
        self.pairs[key] = int(number or 0)
        return str(old)

    def occupied(self, word, use):
        key = self.key(word)
        return "no key" if key is None else use(key) if key in self.pairs else f"vacant {shown(key)}"

    def call_entry_remove(self, word, *_):
        return self.occupied(word, lambda key: str(self.pairs.pop(key)))

    def call_entry_remove_entry(self, word, *_):
        return self.occupied(word, self.take)

    def call_into_mut(self, word, number, *_):
        return self.occupied(word, lambda key: self.write(key, number))

    def call_into_key(self, word, *_):
        key = self.key(word)
        return "no key" if key is None else "occupied " * (key in self.pairs) + shown(self.pairs.kept(key))

    def call_vacant_insert_entry(self, word, number, *_):
        told = self.call_into_key(word)
        if told[0] == "[":
            self.pairs[self.key(word)] = int(number or 0)
        return told + f" {int(number or 0)}" * (told[0] == "[")

    def call_try_entry(self, word, number, *_):
        key = self.key(word)
        if key is None:
            return "no key"
        if self.overlapped(key) not in ([], [key]):
            return f"prefix {shown(key)}"
        self.pairs[key] = int(number or 0)
        return self.item(key)

    def call_prefix_entry(self, word, *_):
        key = self.key(word)
        if key is None:
            return "no key"
        over = self.overlapped(key)
        if not over:
            return f"vacant {shown(key)}"
        if over == [key]:
            return f"leaf {self.item(over[0])}"
        return "".join(f"{self.item(it)}, " for it in over) + "end"

    def fill_prefix(self, call, word, number, *_):
        key = self.key(word)
        if key is None:
            return "no key"
        if key not in self.pairs:
            made = "0" if "default" in call else len(key) if "with_key" in call else number
            self.put_over(key, made)
        value, self.pairs[key] = self.pairs[key], int(number or 0) + 1 & BOTH
        return f"{shown(self.pairs.kept(key))} {value}" if call.endswith("_entry") else str(value)

    def write_over(self, key, number):
        """The value of an entry: of a stored key, which stays, or else of its own in the place of what it overlaps."""
        if key in self.pairs:
            self.pairs[key] = int(number or 0)
        else:
            self.put_over(key, number)

    def call_occupied_insert(self, word, number, *_):
        key = self.key(word)
        if not self.overlapped(key):
            return "vacant"
        self.write_over(key, int(number or 0) + 1)
        return str(int(number or 0))

    def call_occupied_insert_entry(self, word, number, *_):
        told = self.call_occupied_insert(word, number)
        return told if told == "vacant" else f"{shown(self.pairs.kept(self.key(word)))} {told}"

    def inner(self, word, use):
        over = self.overlapped(self.key(word))
        return "vacant" if not over else "leaf" if over == [self.key(word)] else use(over)

    def call_inner_insert(self, word, number, *_):
        return self.inner(word, lambda _: self.call_occupied_insert(word, number))

    def call_inner_insert_entry(self, word, number, *_):
        return self.inner(word, lambda _: self.call_occupied_insert_entry(word, number))

    def call_inner_get_mut(self, word, number, *_):
        return self.inner(word, lambda over: self.written_lone(over, number))

    def written_lone(self, over, number):
        if len(over) > 1:
            return "None\nNone"
        return f"{shown(self.pairs.kept(over[0]))}\n{self.write(over[0], number)}"

    def call_inner_pair_mut(self, word, number, *_):
        return self.inner(word, lambda over: self.written_lone(over, number).split("\n")[0])

    def call_inner_lone_pair(self, word, number, *_):
        told = self.call_inner_pair_mut(word, number)
        return told if told in ("vacant", "leaf") else f"{shown(self.key(word))}\n{told}"

    def call_inner_iter_mut(self, word, number, *_):
        def use(over):
            # one from the back and two from the front, of which the last may be none
            return self.raised(over, "bff", number, False)[: -len("end")] + str(len(over) <= 3).lower()

        return self.inner(word, use)

    def call_prefix_keys(self, word, *_):
        key = self.key(word)
        over = self.overlapped(key)
        stored = shown(self.pairs.kept(over[0] if over else key)) if len(over) < 2 else "None"
        return f"{shown(self.pairs.kept(key))}\n{stored}"

    def call_occupied_shown(self, word, number, *_):
        over = self.overlapped(self.key(word))
        if not over:
            return "vacant"
        told = self.call_prefix_keys(word)
        if len(over) > 1:
            return f"{told}\nNone\nNone"
        return f"{told}\n{option(self.pairs[over[0]])}\n{self.write(over[0], number)}"

    def call_prefix_insert_entry(self, word, number, *_):
        key = self.key(word)
        if key is None:
            return "no key"
        self.write_over(key, number)
        return self.item(key)
