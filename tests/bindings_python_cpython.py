#!/usr/bin/env python3
"""CPython's own tests of dicts, of their views and of sets, played with the maps and sets of artmap.

    tests/bindings_python_cpython.py     artmap is on PYTHONPATH, and Python's package `test` is there
In a text of tests each display of a dict, and each `dict`, becomes a map whose keys are of the type of its first one.
Each test of a class is run. CANNOT names those that can't pass, each under its reason: one that passes fails here. It
prints a line for each test, and the last is 'N passed, M failed'.
"""
import ast
import inspect
import re
import signal
import sys
import unittest

try:
    from test import mapping_tests, test_dict, test_dictviews, test_set
except ImportError as missing:
    print(f"CPython's tests: ok, not tried, since its package test is not there ({missing})\n1 passed, 0 failed")
    sys.exit()

import cases
from artmap import Art, ArtSet


class Map(Art):
    """A map whose keys are of the type of the first one that it meets while it is empty."""

    def __init__(self, pairs=(), /, **names):
        super().__init__()
        self.update(pairs, **names)

    def meet(self, keys):
        for key in keys:
            kind = next((it for it in (str, int) if isinstance(key, it)), bytes)
            if not self and kind is not self.key:
                Art.__init__(self, key=kind)
            break

    def update(self, pairs=(), /, **names):
        if not hasattr(pairs, "keys"):
            pairs = [*pairs]
            self.meet(it[0] for it in pairs)
        elif isinstance(pairs, (dict, Art)):
            self.meet(pairs)
        else:
            self.meet([*pairs.keys()])
        super().update(pairs)
        self.meet(names)
        super().update(names)

    def __or__(self, other):
        return NotImplemented if not isinstance(other, (dict,
                                                        Art)) else self.copy() if not other else super().__or__(other)

    def __repr__(self):
        text = super().__repr__()
        return "{...}" if text == "Map(...)" else text[4:-1].split(", key=")[0] if self else "{}"


def meeting(name):
    """A call of Art by its key, whose type the map takes on."""
    call = getattr(Art, name)

    def met(self, *words):
        self.meet(words[:1])
        return call(self, *words)

    return met


for each in ("__getitem__", "__setitem__", "__delitem__", "get", "setdefault", "pop"):
    setattr(Map, each, meeting(each))


class Displays(ast.NodeTransformer):
    """Makes maps of displays of dicts, and of the name `dict`."""

    def visit_Dict(self, node):
        self.generic_visit(node)
        pairs = [ast.Tuple([key, value], ast.Load()) for key, value in zip(node.keys, node.values)]
        return ast.Call(ast.Name("Map", ast.Load()), [ast.List(pairs, ast.Load())], [])

    def visit_DictComp(self, node):
        self.generic_visit(node)
        pairs = ast.GeneratorExp(ast.Tuple([node.key, node.value], ast.Load()), node.generators)
        return ast.Call(ast.Name("Map", ast.Load()), [pairs], [])

    def visit_Name(self, node):
        return ast.Name("Map", node.ctx) if node.id == "dict" else node


def with_maps(module):
    """The names of a module of tests whose text has maps in the place of dicts."""
    text = re.sub(r"\bdict_(keys|values|items)\(\[", r"artmap.\1([", inspect.getsource(module))
    tree = ast.fix_missing_locations(Displays().visit(ast.parse(text)))
    made = type(module)(f"{module.__name__}_of_maps")
    made.__dict__["Map"] = Map
    sys.modules[made.__name__] = made
    exec(compile(tree, module.__file__, "exec"), made.__dict__)
    return made


class OfTexts(mapping_tests.TestMappingProtocol):
    """The tests of mappings as they are: texts and numbers as keys."""

    type2test = Map


class OfPlainTexts(mapping_tests.BasicTestMappingProtocol):
    """Those of them that use texts alone, without any class between."""

    type2test = Art

    def _empty_mapping(self):
        return Art(key=str)


class Letters(ArtSet):
    def __init__(self, keys=(), /):
        super().__init__(keys, key=str)


class OfSets(test_set.TestSet):
    thetype = basetype = Letters


# The tests that can't pass, under their reasons. (One that a version of Python lacks is none of it.)
CANNOT = {
    "it has keys of a class of its own, whose comparison or hash it plays with; keys are bytes, texts or numbers": """
        OfSets.badcmp OfSets.deepcopy OfSets.do_not_rehash_dict_keys OfSets.cyclical_repr OfSets.cyclical_print
        DictTest.bad_key DictTest.container_iterator DictTest.copy_maintains_tracking DictTest.eq
        DictTest.equal_operator_modifying_operand DictTest.getitem DictTest.init_use_after_free
        DictTest.merge_and_mutate DictTest.mutating_lookup DictTest.pop DictTest.resize2 DictTest.setdefault
        DictTest.setdefault_atomic DictTest.setitem_atomic_at_resize DictTest.str_nonstr DictSetTest.compare_error""",
    "it has tuples, sets or None as keys": """
        OfSets.contains OfSets.discard OfSets.remove OfSets.setOfFrozensets OfSets.remove_keyerror_unpacking
        DictTest.dict_items_result_gc DictTest.dict_items_result_gc_reversed DictTest.tuple_keyerror
        DictSetTest.dict_mixed_keys_items""",
    "it has texts and numbers as keys of one map or set": """
        OfSets.constructor_identity OfSets.remove_keyerror_set OfSets.union
        DictTest.copy_fuzz DictTest.fromkeys DictTest.object_set_item_single_instance_non_str_key DictSetTest.copy
        DictSetTest.dict_items DictSetTest.dict_keys DictSetTest.dict_repr DictSetTest.dict_values
        DictSetTest.pickle""",
    "it asks for the order of insertion": "DictTest.dict_copy_order DictTest.splittable_update",
    "it asks for RuntimeError where a map changes during a walk, which goes on here": """
        DictTest.mutating_iteration DictTest.mutating_iteration_delete
        DictTest.mutating_iteration_delete_over_items DictTest.mutating_iteration_delete_over_values
        DictTest.oob_indexing_dictiter_iternextitem""",
    "it gives popitem a word, which is a place here, as of SortedDict": "OfTexts.popitem OfPlainTexts.popitem",
    "it asks which dicts the collector leaves out": "DictTest.track_dynamic DictTest.track_literals",
    "it makes a map the __dict__ of an object, which must be a dict": "DictTest.store_evilattr",
}
WHY = {f"{place}.test_{name}": why for why, names in CANNOT.items()
       for place, _, name in (it.partition(".") for it in names.split())}
PLACES = [OfTexts, OfPlainTexts, OfSets, with_maps(test_dict).DictTest, with_maps(test_dictviews).DictSetTest]
SECONDS = 4


class Endless(BaseException):
    """A test that walks along what it puts in."""


def end(*_):
    raise Endless(f"it has not ended after {SECONDS} seconds")


def outcome(place, name):
    """Why a test fails, or '' where it passes."""
    found = unittest.TestResult()
    signal.setitimer(signal.ITIMER_VIRTUAL, SECONDS)
    try:
        place(name).run(found)
    except Endless as why:
        return str(why)
    finally:
        signal.setitimer(signal.ITIMER_VIRTUAL, 0)
    return "".join(text for _, text in found.errors + found.failures)


def main():
    told = cases.Tally()
    signal.signal(signal.SIGVTALRM, end)
    for place in PLACES:
        for name in unittest.TestLoader().getTestCaseNames(place):
            full = f"{place.__name__}.{name}"
            why, cannot = outcome(place, name), WHY.get(full)
            if cannot:
                told.count(full, "" if why else "it passes: CANNOT names it", told=f"ok, it can't pass: {cannot}")
            else:
                told.count(full, why)
    told.end()


if __name__ == "__main__":
    main()
