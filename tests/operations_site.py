"""What play_operations has to answer to the lines of a site, and which of them may be refused: while it is open, the
pairs are those of a tree that is built at its last leaf, or of a list with a cursor in it."""


# What has to be open for a line: a builder, a list, or nothing.
NEEDS = {"push": "builder", "reserve_push": "builder", "reopen": None, "list": None}
NEEDS |= {it: "list" for it in ("list_put", "list_insert", "list_remove", "list_move")}


def shown(key):
    return str(list(key))


class Site:
    """Lines of a site, of a model that has `pairs`. `spine_room` is the number of leaves that `room` was for, `pushes`
    that of pairs that a builder has room for, their leaves aside, and `leaf_room` that of leaves."""

    site, at, last, spine_room, pushes, leaf_room = None, None, None, 0, 0, 0

    def rooms(self):
        """What is copied with a model."""
        return {it: getattr(self, it) for it in ("site", "at", "last", "spine_room", "pushes", "leaf_room")}

    def call_reserve(self, count, *_):
        self.leaf_room = max(self.leaf_room, int(count)) if self.site else 0
        return "done"

    def call_room(self, leaves, *_):
        self.spine_room = int(leaves)
        return "done"

    def call_reopen(self, *_):
        self.site, self.pushes, self.leaf_room = "builder", 0, 0
        self.spine_room *= not self.pairs
        return "open"

    def goes_behind(self, key):
        """Whether a key parts from the last one, and goes on by a greater byte."""
        last = max(self.pairs, default=None)
        return last is None or key > last and not key.startswith(last)

    def call_push(self, word, number, *_):
        key = self.bytes_in(word)
        if not self.goes_behind(key):
            return f"not after {shown(key)} {int(number or 0)}"
        self.pushes = max(0, self.pushes - bool(self.pairs))
        self.store(key, number)
        return "taken"

    def call_reserve_push(self, count, *_):
        self.pushes = max(self.pushes, int(count))
        return "done"

    def call_finish(self, *_):
        if self.site != "builder" and self.spine_room < len(self.pairs):
            return "no room"
        if not self.site:
            return "not understood"
        self.spine_room *= self.site == "builder"
        self.site = None
        return self.told_root()

    call_rebuild = call_finish

    def told_root(self):
        return f"root {self.tree().name}" if self.pairs else "no root"

    def store(self, key, number):
        self.leaf_room = max(0, self.leaf_room - 1)
        self.pairs[key] = int(number or 0)

    def call_list(self, where, *_):
        self.leaf_room = 0
        self.site, self.at = "list", None if where == "start" else max(self.pairs, default=None)
        self.last = self.at
        return "listed"

    def call_list_put(self, word, number, *_):
        key = self.bytes_in(word)
        if self.last is not None and key <= self.last:
            return "no"
        self.at = self.last = key
        if key in self.pairs:
            was, self.pairs[key] = self.pairs[key], int(number or 0)
            return f"was {shown(key)} {was}"
        self.store(key, number)
        return "stored"

    call_list_insert = call_list_put

    def call_list_remove(self, *_):
        if self.at is None:
            return "None"
        key, self.at = self.at, max((it for it in self.pairs if it < self.at), default=None)
        return f"was {shown(key)} {self.pairs.pop(key)}"

    def call_list_move(self, count, *_):
        """The cursor stands after the last leaf."""
        if int(count) > len(self.pairs):
            return "no"
        moved = sorted(self.pairs)[len(self.pairs) - int(count) :]
        told = "".join(f"{shown(key)} {self.pairs[key]}, " for key in moved)
        there = {key: self.pairs.pop(key) for key in moved}
        self.at = max(self.pairs, default=None)
        return told + (f"root {self.tree_of(there).name}" if there else "no root")

    def refusals_of_site(self, call, word, number):
        """All that a line may answer where it is refused; None of a line that is none of a site."""
        key, back = self.bytes_in(word) if call.startswith(("push", "list_put", "list_insert")) else b"", set()
        if call in ("room", "reserve_push"):
            return set() if call == "reserve_push" and int(word) <= self.pushes else {"memory"}
        if call == "list_move":
            return {"memory"}
        if call == "reopen":
            return set() if self.site or len(self.pairs) < 2 or self.spine_room >= len(self.pairs) else {"memory"}
        if call == "push":
            has_room = self.leaf_room and (self.pushes or not self.pairs)
            back = set() if has_room or not self.goes_behind(key) else {f"memory {shown(key)} {int(number or 0)}"}
        elif call in ("list_put", "list_insert"):
            has_room = self.leaf_room or key in self.pairs or self.last is not None and key <= self.last
            back = set() if has_room else {f"memory {shown(key)} {int(number or 0)}"}
        else:
            return set() if call in ("list", "list_remove", "finish", "rebuild") else None
        return {"no key", *back}
