"""The tree that pairs should have, made from its definition, and how many nodes of it a call reads. A header stores the
first `stored` bytes of its node's prefix. What is read of a longer one is a guide: the first leaf below the node."""
import os
from collections import namedtuple

# The fewest and the most children of each kind of inner node.
KINDS = {4: (2, 4), 16: (5, 16), 32: (17, 32), 48: (33, 48), 256: (49, 256)}
# A bound: whether it takes its key itself, and the key. None is no bound.
Bound = namedtuple("Bound", "takes_it, key")


def common(one, other):
    return os.path.commonprefix([one, other])


class Leaf:
    def __init__(self, key, value):
        self.key, self.value, self.name = key, value, "Leaf"


class Inner:
    def __init__(self, prefix, children):
        self.prefix, self.children = prefix, children
        self.kind = next(it for it, (least, most) in KINDS.items() if least <= len(children) <= most)
        self.name = f"Node{self.kind}"


def tree_of(pairs, depth=0):
    """The canonical tree of ascending pairs none of whose keys is a front of another, after so many bytes."""
    if len(pairs) == 1:
        return Leaf(*pairs[0])
    front = len(common(pairs[0][0], pairs[-1][0]))
    parts = {}
    for key, value in pairs:
        parts.setdefault(key[front], []).append((key, value))
    return Inner(pairs[0][0][depth:front], {byte: tree_of(part, front + 1) for byte, part in parts.items()})


def way(tree, key):
    """The nodes to which a key leads, whatever the bytes of the prefixes are, and the steps between them."""
    nodes, steps, depth = [tree], [], 0
    while isinstance(tree, Inner):
        depth += len(tree.prefix)
        if depth >= len(key) or key[depth] not in tree.children:
            break
        steps.append((tree.name, key[depth]))
        tree = tree.children[key[depth]]
        depth += 1
        nodes.append(tree)
    return nodes, steps


def look_up(tree, key, stored):
    """The nodes that a look-up of a key reads: those to which it leads, up to one with whose prefix, as it is stored, it
    doesn't go on."""
    nodes, _ = way(tree, key)
    depth = 0
    for at, node in enumerate(nodes[:-1]):
        if not key.startswith(node.prefix[:stored], depth):
            return nodes[: at + 1]
        depth += len(node.prefix) + 1
    return nodes


def to_end(tree, end):
    """How many nodes there are from one down to its first leaf, by `min`, or to its last one, by `max`."""
    count = 1
    while isinstance(tree, Inner):
        tree, count = tree.children[end(tree.children)], count + 1
    return count


def end_leaf(tree):
    """The first leaf."""
    while isinstance(tree, Inner):
        tree = tree.children[min(tree.children)]
    return tree


def place(tree, key, stored):
    """Goes down for a key by whole prefixes. How many nodes are read until its place is found; the node where that is,
    and what is left of the key there."""
    reads, guided = 1, False
    while isinstance(tree, Inner):
        if len(tree.prefix) > stored and not guided:
            # (the guide is looked for once: along the key's bytes as far as they lead, and on to the first leaf)
            nodes, _ = way(tree, key)
            reads, guided = reads + len(nodes) - 2 + to_end(nodes[-1], min), True
        rest = key[len(tree.prefix) :]
        if not key.startswith(tree.prefix) or not rest or rest[0] not in tree.children:
            break
        tree, key, reads = tree.children[rest[0]], rest[1:], reads + 1
    # (where that ends, the node is read once more, with its whole prefix)
    is_cut = isinstance(tree, Inner) and len(tree.prefix) > stored
    return reads + (to_end(tree, min) if is_cut else 1), tree, key


def beside(node, rest):
    """How many nodes are read from the place of a key, after which so much is left of it, to a leaf beside it."""
    if isinstance(node, Leaf):
        return 1
    if node.prefix.startswith(rest):
        return to_end(node, min)
    if not rest.startswith(node.prefix):
        return to_end(node, min if rest < node.prefix else max)
    above = [byte for byte in node.children if byte > rest[len(node.prefix)]]
    return 1 + (to_end(node.children[min(above)], min) if above else to_end(node, max))


def bound_reads(tree, bound, is_start, stored):
    """How many nodes are read where the leaf at a bound is looked for."""
    if bound is None:
        return to_end(tree, min if is_start else max)
    reads, node, rest = place(tree, bound.key, stored)
    # (and that leaf once more, for its neighbour)
    return reads + beside(node, rest) + 1


def range_reads(tree, keys, start, end, stored):
    """How many nodes are read where both ends of a range of ascending keys are looked for: the first is compared with
    the end, which is looked for only if it isn't past."""
    reads = bound_reads(tree, start, True, stored)
    first = next((key for key in keys if start is None or key > start.key or start.takes_it and key == start.key), None)
    if first is None:
        return reads
    is_past = end is not None and (first > end.key or first == end.key and not end.takes_it)
    return reads + 1 + (0 if is_past else bound_reads(tree, end, False, stored))


def part_of(tree, front, stored):
    """How many nodes are read where the part of the keys with a front is looked for; and its root, if there is one."""
    reads, node, _ = place(tree, front, stored)
    first = end_leaf(node).key
    if first == front:
        return reads, node
    if first.startswith(front):
        return reads + to_end(node, min) + to_end(node, max), node
    return reads + to_end(node, min) * front.startswith(first), None


def count_nodes(tree):
    """How many nodes it has."""
    return 1 + sum(map(count_nodes, tree.children.values())) if isinstance(tree, Inner) else 1
