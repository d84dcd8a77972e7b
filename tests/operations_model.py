"""What play_operations has to answer to a line, by a model made from the contracts. It keeps sorted pairs, and makes
the tree that they should have from its definition; after the line `by_hand` it keeps nodes as they were made by hand,
damaged at random or not, and tells by the definition whether they are a tree, and which faults stand."""
from collections import Counter

import operations_tree
from operations_site import NEEDS, Site, shown
from operations_tree import Bound, Inner, KINDS, Leaf, common, tree_of, way

# What takes a node out of the room of its kind asks for a smaller one.
SHRINKING = {5, 17, 33, 49}
# What changes a node that has a number.
CHANGES = ("write", "remove", "prefix", "link", "free")
LARGER, SMALLER = {4: 16, 16: 32, 32: 48, 48: 256}, {16: 4, 32: 16, 48: 32, 256: 48}


def bytes_in(word):
    parts = (part.partition("*") for part in word.lstrip("[(").split(".") if part[:1] not in ("", "-"))
    return b"".join(bytes.fromhex(digits) * int(times or 1) for digits, _, times in parts)


def bound_of(word):
    """The bound that a word tells."""
    return None if word[0] == "*" else Bound(word[0] == "[", bytes_in(word))


def overlap(one, other):
    return one.startswith(other) or other.startswith(one)


def told_stats(leaves, kinds):
    return f"{leaves} leaves, nodes {' '.join(str(kinds[it]) for it in KINDS)}"


class Node:
    """A node by hand: a leaf where `kind` is 0. Others are named by their numbers."""

    def __init__(self, kind, key=b"", value=0, stored=b"", prefix_len=0):
        self.kind, self.held, self.key, self.value, self.links = kind, True, key, value, (None, None)
        self.stored, self.prefix_len, self.children = stored, prefix_len, {}

    def again(self):
        it = Node(self.kind, self.key, self.value, self.stored, self.prefix_len)
        it.held, it.links, it.children = self.held, self.links, dict(self.children)
        return it


def hold_tree(nodes, tree, prefix_len):
    """Names the nodes of a tree, level by level, and links its leaves."""
    waiting, leaves = [tree] if tree else [], []
    for at, it in enumerate(waiting):
        if isinstance(it, Leaf):
            nodes.append(Node(0, it.key, it.value))
            leaves.append(at)
            continue
        nodes.append(Node(it.kind, stored=it.prefix[:prefix_len], prefix_len=len(it.prefix)))
        for byte in sorted(it.children):
            nodes[-1].children[byte] = len(waiting)
            waiting.append(it.children[byte])
    leaves.sort(key=lambda at: nodes[at].key)
    for at, before, behind in zip(leaves, [None, *leaves], [*leaves[1:], None]):
        nodes[at].links = before, behind


def means(nodes, at, tree, prefix_len):
    """Whether a held node is this tree, links aside."""
    node = nodes[at]
    if isinstance(tree, Leaf):
        return node.kind == 0 and (node.key, node.value) == (tree.key, tree.value)
    header = (tree.kind, len(tree.prefix), tree.prefix[:prefix_len], set(tree.children))
    if header != (node.kind, node.prefix_len, node.stored, set(node.children)):
        return False
    return all(means(nodes, node.children[byte], part, prefix_len) for byte, part in tree.children.items())


def is_tree(leaves):
    """Whether these are pairs of which there is a tree: the keys ascend, and none is a front of the next one."""
    return all(one < other and not other.startswith(one) for (one, _), (other, _) in zip(leaves, leaves[1:]))


def verdict(nodes, root, prefix_len):
    """What the checker may answer of the nodes below a name: the counts of a tree, or one of the faults that stand."""
    met, faults, leaves, waiting = [], set(), [], [root]
    while waiting:
        at = waiting.pop()
        if at in met:
            faults.add("LoopFound")
            continue
        met.append(at)
        if not nodes[at].held:
            faults.add("DeadName")
            continue
        node = nodes[at]
        if node.kind == 0:
            leaves.append(at)
            continue
        least, most = KINDS[node.kind]
        if not least <= len(node.children) <= most:
            faults.add("WrongChildrenCount")
        waiting += [node.children[byte] for byte in sorted(node.children, reverse=True)]
    if faults:
        return faults
    pairs = [(nodes[at].key, nodes[at].value) for at in leaves]
    if not is_tree(pairs) or not means(nodes, root, tree_of(pairs), prefix_len):
        return {"PrefixMismatch"}
    wanted = list(zip([None, *leaves], [*leaves[1:], None]))
    if [nodes[at].links for at in leaves] != wanted:
        faults.add("WrongSiblingLinks")
        after = [(at, nodes[at].links[1]) for at in leaves if nodes[at].links[1] in leaves]
        if any(nodes[other].key <= nodes[at].key for at, other in after):
            faults.add("LeafSiblingWrongOrder")
        return faults
    return {told_stats(len(leaves), Counter(nodes[at].kind for at in met))}


class Model(Site):
    """Pairs in the order of their keys' bytes, and after `by_hand` nodes by hand. `answers` gives all that a line may
    answer. In a list of commands those whose numbers stand in `refused` find no memory."""

    def __init__(self, prefix_len):
        self.prefix_len, self.pairs, self.commands, self.refused = prefix_len, {}, [], ()
        self.nodes, self.root, self.is_by_hand = [], None, False
        # The front of the part that was left: so there is room for its cut.
        self.ready = None

    def again(self):
        it = Model(self.prefix_len)
        it.pairs, it.commands = dict(self.pairs), list(self.commands)
        it.nodes, it.root, it.is_by_hand = [node.again() for node in self.nodes], self.root, self.is_by_hand
        it.__dict__.update(self.rooms())
        return it

    bytes_in = staticmethod(bytes_in)
    tree_of = staticmethod(lambda pairs: tree_of(sorted(pairs.items())))

    def answers(self, line):
        call, *words = line.split(" ")
        words += [""] * (4 - len(words))
        if self.is_by_hand and call in CHANGES and int(words[0]) >= len(self.nodes):
            return {"not understood"}
        if not self.is_by_hand and NEEDS.get(call, self.site) != self.site:
            return {"not understood"}
        told = getattr(self, ("hand_" if self.is_by_hand else "call_") + call)(*words)
        if call != "check":
            self.ready = bytes_in(words[0]) if told == "left" else None
        return told if isinstance(told, set) else {told}

    def tree(self):
        return self.tree_of(self.pairs) if self.pairs else None

    def item(self, key):
        return "None" if key is None else f"{shown(key)} {self.pairs[key]}"

    def blocked(self, key):
        return any(overlap(key, it) for it in self.pairs if it != key)

    # Insertions.
    def placed(self, key, was, is_over=False):
        """The pair that had the key, the kind of the root, and the parent that a new leaf has got."""
        tree = self.tree()
        _, steps = way(tree, key)
        parent = "" if was != "None" or is_over or not steps else ", parent {} {}".format(*steps[-1])
        return f"{was}, root {tree.name}{parent}"

    def put(self, key, number):
        was = self.item(key if key in self.pairs else None)
        self.pairs[key] = int(number or 0)
        return self.placed(key, was)

    def call_insert(self, word, number, *_):
        key = bytes_in(word)
        if self.blocked(key):
            return f"conflict {shown(key)} {int(number or 0)}"
        return self.put(key, number)

    call_insert_placed = call_insert
    call_insert_at_point = call_insert

    def call_put_over(self, word, number, *_):
        key = bytes_in(word)
        over = [it for it in sorted(self.pairs) if overlap(key, it)]
        was = self.item(over[0] if len(over) == 1 else None)
        for it in over:
            del self.pairs[it]
        self.pairs[key] = int(number or 0)
        return f"{len(over)} {len(over) if len(over) > 1 else 0} {self.placed(key, was, bool(over))}"

    # Deletions.
    def take(self, key):
        was = self.item(key)
        self.pairs.pop(key, None)
        return f"{was}, root {self.tree().name}" if self.pairs else f"{was}, no root"

    def call_delete(self, word, *_):
        return self.take(bytes_in(word) if bytes_in(word) in self.pairs else None)

    call_take_leaf = call_delete

    def call_delete_first(self, *_):
        return self.take(min(self.pairs, default=None))

    def call_delete_last(self, *_):
        return self.take(max(self.pairs, default=None))

    def shrinks(self, key):
        front = max((common(key, it) for it in self.pairs if it != key), key=len, default=None)
        return front is not None and len({it[len(front)] for it in self.pairs if it.startswith(front)}) in SHRINKING

    # The part with a prefix.
    def parted(self, front):
        """The pairs whose keys begin with these bytes, and the others, each in order."""
        pairs = sorted(self.pairs.items())
        return [it for it in pairs if it[0].startswith(front)], [it for it in pairs if not it[0].startswith(front)]

    def shrinks_without(self, front):
        """Whether a node gets smaller where all keys that begin with these bytes are lost."""
        part, others = self.parted(front)
        if not part or not others:
            return False
        keys = [key for key, _ in (*part, *others)]
        shared = max((common(part[0][0], key) for key, _ in others), key=len)
        return len({key[len(shared)] for key in keys if key.startswith(shared)}) in SHRINKING

    def call_leave(self, word, *_):
        return "left" if self.parted(bytes_in(word))[0] else "None"

    def call_cut(self, word, *_):
        part, others = self.parted(bytes_in(word))
        told = f"{len(part)} leaves, {operations_tree.count_nodes(tree_of(part))} nodes" if part else "None"
        self.pairs = dict(others)
        return f"{told}, root {self.tree().name}" if others else f"{told}, no root"

    # The tree as a whole.
    def call_clone(self, *_):
        return "done"

    def call_key(self, *_):
        return "kept"

    def call_command(self, *words):
        self.commands.append(words)
        return "kept"

    def call_forget(self, *_):
        self.commands = []
        return "done"

    def may_refuse(self, call, key):
        """Whether a command that isn't refused for a conflict may find no memory."""
        return call != "delete" and (call != "clone" or self.pairs) or key in self.pairs and self.shrinks(key)

    def carried_out(self, number, call, word, value):
        key = bytes_in(word)
        if call == "insert" and self.blocked(key):
            return "Prefix"
        if number in self.refused:
            return "Memory" if self.may_refuse(call, key) else "never refused"
        if call == "clone":
            return "Done(0)"
        over = [it for it in self.pairs if (overlap(key, it) if call == "prefix_insert" else key == it)]
        for it in over:
            del self.pairs[it]
        if call != "delete":
            self.pairs[key] = int(value or 0)
        return f"Done({len(over)})"

    def call_run(self, *_):
        self.pairs = {}
        told = [self.carried_out(number, *words[:3]) for number, words in enumerate(self.commands)]
        return "".join(f"{it}, " for it in told) + "end"

    def call_free(self, *_):
        count, self.pairs = len(self.pairs), {}
        return str(count)

    def call_free_apart(self, *_):
        self.pairs = {}
        return "0"

    def call_check(self, *_):
        if self.site:
            return f"{len(self.pairs)} leaves in the making"
        kinds, leaves, waiting = Counter(), 0, [self.tree()] if self.pairs else []
        for it in waiting:
            if isinstance(it, Leaf):
                leaves += 1
            else:
                kinds[it.kind] += 1
                waiting += it.children.values()
        return told_stats(leaves, kinds)

    # Look-ups.
    def read(self, key, found):
        if not self.pairs:
            return "no tree"
        return f"{self.item(found)}, {len(operations_tree.look_up(self.tree(), key, self.prefix_len))} read"

    def call_search(self, word, *_):
        key = bytes_in(word)
        return self.read(key, key if key in self.pairs else None)

    def call_prefix_search(self, word, *_):
        key = bytes_in(word)
        return self.read(key, next((it for it in self.pairs if key.startswith(it)), None))

    def call_minimum(self, *_):
        key = min(self.pairs, default=b"")
        return self.read(key, key)

    def call_maximum(self, *_):
        key = max(self.pairs, default=b"")
        return self.read(key, key)

    def call_path(self, word, *_):
        key = bytes_in(word)
        if not self.pairs:
            return "no tree"
        _, steps = way(self.tree(), key)
        last = " ".join(f"{name} {byte}" for name, byte in steps[-2:]) or "root"
        nodes = operations_tree.look_up(self.tree(), key, self.prefix_len)
        return f"{last if key in self.pairs else None}, {len(nodes)} read"

    def inside(self, start, end):
        low, high = bytes_in(start), bytes_in(end)
        is_in = {"*": lambda *_: True, "[": lambda one, other: one <= other, "(": lambda one, other: one < other}
        return [it for it in sorted(self.pairs) if is_in[start[0]](low, it) and is_in[end[0]](it, high)]

    def call_start(self, bound, *_):
        return self.item(next(iter(self.inside(bound, "*")), None))

    def call_end(self, bound, *_):
        return self.item(next(iter(self.inside("*", bound)[::-1]), None))

    def ends(self, keys):
        return f"{self.item(keys[0])} to {self.item(keys[-1])}" if keys else "None"

    def call_range(self, start, end, *_):
        return self.ends(self.inside(start, end))

    def call_segment(self, word, *_):
        return self.ends([it for it in sorted(self.pairs) if it.startswith(bytes_in(word))])

    # How many nodes those look-ups read.
    def counted(self, count):
        return f"{count(self.tree())} read" if self.pairs else "no tree"

    def call_count_start(self, bound, *_):
        return self.counted(lambda tree: operations_tree.bound_reads(tree, bound_of(bound), True, self.prefix_len))

    def call_count_end(self, bound, *_):
        return self.counted(lambda tree: operations_tree.bound_reads(tree, bound_of(bound), False, self.prefix_len))

    def call_count_range(self, start, end, *_):
        bounds, keys = (bound_of(start), bound_of(end)), sorted(self.pairs)
        return self.counted(lambda tree: operations_tree.range_reads(tree, keys, *bounds, self.prefix_len))

    def call_count_segment(self, word, *_):
        return self.counted(lambda tree: operations_tree.part_of(tree, bytes_in(word), self.prefix_len)[0])

    # Nodes by hand.
    def call_by_hand(self, *_):
        self.is_by_hand = True
        hold_tree(self.nodes, self.tree(), self.prefix_len)
        self.root = 0 if self.nodes else None
        return "done"

    def hand_tell(self, *_):
        told = []
        for node in self.nodes:
            if not node.held:
                told.append("dead")
            elif node.kind:
                children = "".join(f" {byte} {child}" for byte, child in sorted(node.children.items()))
                told.append(f"Node{node.kind} {node.prefix_len} {shown(node.stored)}{children}")
            else:
                links = " ".join("-" if it is None else str(it) for it in node.links)
                told.append(f"{shown(node.key)} {node.value} {links}")
        return "".join(f"{it}, " for it in told) + "end"

    # (it stands once, right after `by_hand`, and so names what the model has named)
    hand_names = hand_tell

    def named(self, node):
        self.nodes.append(node)
        return f"name {len(self.nodes) - 1}"

    def hand_leaf(self, word, number, *_):
        return self.named(Node(0, bytes_in(word), int(number or 0)))

    def hand_node(self, kind, word, size, *_):
        stored = min(int(size), self.prefix_len)
        if stored > len(bytes_in(word)):
            return "no"
        return self.named(Node(int(kind), stored=bytes_in(word)[:stored], prefix_len=int(size)))

    def hand_raw(self, kind, *_):
        node = Node(0 if kind == "leaf" else int(kind))
        node.held = False
        return self.named(node)

    def inner(self, at):
        node = self.nodes[int(at)] if int(at) < len(self.nodes) else None
        return node if node and node.held and node.kind else None

    def hand_copy(self, at, kind, *_):
        node = self.inner(at)
        if node is None:
            return "no"
        copy, (_, most) = Node(int(kind), stored=node.stored, prefix_len=node.prefix_len), KINDS[int(kind)]
        copy.children = dict(sorted(node.children.items())[:most])
        return self.named(copy)

    def hand_grow(self, at, *_):
        node = self.inner(at)
        if node is None or node.kind == 256 or len(node.children) < KINDS[node.kind][1]:
            return "no"
        return self.hand_copy(at, LARGER[node.kind])

    def hand_shrink(self, at, *_):
        node = self.inner(at)
        if node is None or node.kind == 4 or len(node.children) > KINDS[SMALLER[node.kind]][1]:
            return "no"
        return self.hand_copy(at, SMALLER[node.kind])

    def hand_write(self, at, byte, child, *_):
        node = self.inner(at)
        if node is None or len(node.children) == KINDS[node.kind][1] and int(byte) not in node.children:
            return "no"
        node.children[int(byte)] = int(child)
        return "done"

    def hand_remove(self, at, byte, *_):
        node = self.inner(at)
        if node is None:
            return "no"
        node.children.pop(int(byte), None)
        return "done"

    def hand_prefix(self, at, word, size, *_):
        node, stored = self.inner(at), min(int(size), self.prefix_len)
        if node is None or stored > len(bytes_in(word)):
            return "no"
        node.stored, node.prefix_len = bytes_in(word)[:stored], int(size)
        return "done"

    def hand_link(self, at, before, behind, *_):
        node = self.nodes[int(at)]
        if not node.held or node.kind:
            return "no"
        leaves = (None if it == "-" or self.nodes[int(it)].kind else int(it) for it in (before, behind))
        node.links = tuple(leaves)
        return "done"

    def hand_rekey(self, at, word, number, *_):
        node = self.nodes[int(at)]
        if not node.held or node.kind:
            return "no"
        node.key, node.value = bytes_in(word), int(number or 0)
        return "done"

    def hand_free(self, at, *_):
        node = self.nodes[int(at)]
        was, node.held = node.held, False
        return "done" if was else "no"

    def hand_root(self, at, *_):
        self.root = None if at == "-" else int(at)
        return "done"

    def hand_clone(self, *_):
        return "done"

    def hand_clear(self, *_):
        self.nodes, self.root = [], None
        return "done"

    def hand_check(self, size, *_):
        if self.root is None:
            return "EmptyTreeWithLen" if int(size) else told_stats(0, Counter())
        return verdict(self.nodes, self.root, self.prefix_len)
