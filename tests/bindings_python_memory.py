#!/usr/bin/env python3
"""What the maps of artmap leave, whether their memory comes back, and each allocation of Python's refused.

    tests/bindings_python_memory.py [WORD]   artmap is on PYTHONPATH
It prints a line for each case, and the last is 'N passed, M failed'.
"""
import gc
import sys
import threading

from artmap import Art
from bindings_python_calls import CALLS, PAIRS, outcome
from bindings_python_hold import run


def leaks():
    """What many calls leave: no objects, and no blocks of memory."""
    marker = object()
    pairs = {key: marker for key in PAIRS}

    def all_calls():
        for call in CALLS.values():
            outcome(call, Art(pairs))
        texts = Art({"a": marker}, key=str)
        outcome(texts.__setitem__, 5, marker)
        outcome(texts.update, [("b", marker), 5])
        outcome(texts.load, [("b", marker), ("a", marker)])
        outcome(Art(pairs).range, 5)
        outcome(Art(pairs).prefix, "a")
        outcome(Art(pairs).update, ((key, marker) for key in [b"x", b"xy"]))
        outcome(lambda: texts.popitem(index=70))
        [*zip(texts.items(), Art(pairs).values())]
        next(iter(Art(pairs).items()))

    all_calls()
    gc.collect()
    held, grown = sys.getrefcount(marker), []
    while len(grown) < 40 and min(grown, default=9) > 2:  # (what Python keeps for later use grows at first)
        blocks = sys.getallocatedblocks()
        for _ in range(50):
            all_calls()
        gc.collect()
        grown.append(sys.getallocatedblocks() - blocks)
        assert sys.getrefcount(marker) == held, (sys.getrefcount(marker), held)
    assert grown[-1] <= 2, grown
    return f"after {50 * len(grown)} rounds nothing more is kept"


def memory_goes():
    """The memory of a map that is emptied, or let go of, is given back."""

    def used():
        with open("/proc/self/statm", encoding="ascii") as file:
            return int(file.read().split()[1]) * 4096

    def fill():
        return Art((b"%09d" % at, None) for at in range(100_000))

    del [fill()][0:]
    before = used()
    for _ in range(5):
        it = fill()
        it.clear()
        it = fill()
        del it
    grown = used() - before
    assert grown < 20_000_000, f"{grown} bytes more"


def no_room():
    """A map that is made of pairs in order has no more memory than a compacted one."""
    for size in (8, 64, 1000, 10_000):
        pairs = [(b"%09d" % at, None) for at in range(size)]
        tight, made, updated, loaded = Art(pairs), Art(pairs), Art(), Art()
        tight.compact()
        updated.update(dict(pairs))
        loaded.load(pairs)
        most = 1.05 * sys.getsizeof(tight)
        assert all(sys.getsizeof(it) <= most for it in (made, updated, loaded)), size


def refused():
    """Each allocation of Python's in each call fails once: the map is then as it was, or as the call leaves it."""
    try:
        import _testcapi
    except ImportError:
        return "not tried: there is no _testcapi"
    count = 0
    for name, call in CALLS.items():
        held, number, last = Art(PAIRS), 0, 0
        try:
            call(held)
        except ValueError:
            pass
        after = dict(held)
        while number < last + 25:
            held, why = Art(PAIRS), ""
            try:
                _testcapi.set_nomemory(number, number + 1)
                try:
                    call(held)
                finally:
                    _testcapi.remove_mem_hooks()
            except (MemoryError, ValueError) as told:
                why = type(told).__name__
            if why == "MemoryError":
                last, count = number, count + 1
            now = dict(held)
            assert now in (PAIRS, after) and len(held) == len(now), (name, number, why, now)
            number += 1
    assert count > 100, count
    return f"{count} refusals"


def interpreters():
    try:
        from _testcapi import run_in_subinterp
    except ImportError:
        return "not tried: there is no _testcapi"
    for _ in range(3):
        text = "import artmap; it = artmap.Art({b'a': []}); it[b'b'] = it; it | {b'c': 1}; assert [*it] == [b'a', b'b']"
        assert run_in_subinterp(text) == 0
    if sys.version_info < (3, 12):
        return "with locks of their own: not tried, Python has them from 3.12 on"
    made = __import__("_interpreters" if sys.version_info >= (3, 13) else "_xxsubinterpreters")
    each = [made.create() for _ in range(4)]
    text = """if True:
        import artmap, gc
        for number in range(200):
            it = artmap.Art({b"%03d" % at: [] for at in range(300)})
            it[b"me"], of = it, artmap.ArtSet(map(str, range(50)), key=str)
            for _ in range(60):
                it = artmap.Art({b"in": it})
            assert len(of) == 50 and of[0] == "0"
        gc.collect()"""
    threads = [threading.Thread(target=made.run_string, args=(one, text)) for one in each]
    for thread in threads:
        thread.start()
    for thread in threads:
        thread.join(120)
    for one in each:
        made.run_string(one, "assert len(of) == 50")
        made.destroy(one)
    return f"{len(each)} with locks of their own"


if __name__ == "__main__":
    run([leaks, memory_goes, no_room, refused, interpreters], __doc__)
