#!/usr/bin/env python3
"""Maps of artmap that other threads, signals and forks touch at any moment.

    PYTHONMALLOC=debug tests/bindings_python_threads.py [WORD]   artmap is on PYTHONPATH
It prints a line for each case, and the last is 'N passed, M failed'.
"""
import faulthandler
import os
import random
import signal
import sys
import threading
import time
import traceback

from artmap import Art
from bindings_python_hold import filled, is_whole, run


def threads():
    it, ends, errors = Art(), [], []
    old = sys.getswitchinterval()
    sys.setswitchinterval(1e-5)

    def work(number):
        rng = random.Random(number)
        try:
            for at in range(1500):
                key = b"%d,%04d" % (number, rng.randrange(300))
                it[key] = at
                assert it[key] == at and it.longest_prefix(key + b"..") == (key, at)
                if at % 3 == 0:
                    assert it.pop(key) == at
                if at % 200 == 0:
                    it.update([(b"%d,%04d" % (number, step), step) for step in range(300)])
                    keys = [key for key, _ in it.prefix(b"%d," % number)]
                    assert len(keys) == 300 and keys == sorted(keys)
                    all_keys = list(it)
                    assert all_keys == sorted(set(all_keys))
                    it.remove_prefix(b"%d,02" % number)
            ends.append(number)
        except BaseException:
            errors.append(traceback.format_exc())

    began = [threading.Thread(target=work, args=[number]) for number in range(6)]
    for each in began:
        each.start()
    for each in began:
        each.join(120)
    sys.setswitchinterval(old)
    assert sorted(ends) == [*range(6)] and is_whole(it), errors[:1]
    shared = iter(Art({b"%05d" % at: at for at in range(20000)}).items())
    told = []

    def take():
        told.extend(shared)

    began = [threading.Thread(target=take) for _ in range(4)]
    for each in began:
        each.start()
    for each in began:
        each.join(60)
    assert sorted(told) == [(b"%05d" % at, at) for at in range(20000)], len(told)


def others_run():
    """During long calls other threads get their turns."""
    pairs = [(b"%07d" % at, [at]) for at in range(300_000)]
    turns, is_over = [0], [False]

    def count():
        while not is_over[0]:
            turns[0] += 1
            time.sleep(0)

    old = sys.getswitchinterval()
    sys.setswitchinterval(1e-4)
    other = threading.Thread(target=count)
    other.start()
    try:
        it = Art()
        for name, call in (
            ("load", lambda: it.load(pairs)), ("update", lambda: Art().update(pairs)), ("a walk", lambda: list(it)),
            ("a comparison", lambda: it == it.copy()), ("clear", it.clear),
        ):  # fmt: skip
            before = turns[0]
            call()
            assert turns[0] > before + 1, (name, turns[0] - before)
    finally:
        is_over[0] = True
        other.join(30)
        sys.setswitchinterval(old)


def fork():
    it, is_over = filled(500), [False]

    def work():
        while not is_over[0]:
            it[b"%05d" % random.randrange(9999)] = it.copy()
            it.pop(it.first()[0], None)

    other = threading.Thread(target=work)
    other.start()
    try:
        for _ in range(20):
            child = os.fork()
            if not child:
                status = 1
                try:
                    it[b"child"] = 1
                    status = not (is_whole(Art((key, 1) for key in it)) and it.pop(b"child") == 1)
                    it.clear()
                finally:
                    os._exit(status)
            for _ in range(3000):
                done, status = os.waitpid(child, os.WNOHANG)
                if done:
                    break
                time.sleep(0.01)
            else:
                os.kill(child, signal.SIGKILL)
                os.waitpid(child, 0)
                raise AssertionError("the child hangs")
            assert status == 0, status
    finally:
        is_over[0] = True
        other.join(30)


def signals():
    it, calls = filled(), [0]

    def handle(*_):
        calls[0] += 1
        it[b"s%05d" % calls[0]] = calls[0]
        if calls[0] % 5 == 0:
            it.clear()

    old = signal.signal(signal.SIGALRM, handle)
    signal.setitimer(signal.ITIMER_REAL, 0.001, 0.001)
    try:
        end = time.monotonic() + 1.5
        while time.monotonic() < end:
            it.update({b"%05d" % at: at for at in range(200)})
            [*it.items()]
            it.remove_prefix(b"000")
            for key in it:
                it.pop(key, None)
    finally:
        signal.setitimer(signal.ITIMER_REAL, 0)
        signal.signal(signal.SIGALRM, old)
    assert calls[0] > 20 and is_whole(it), calls

    class Stop(Exception):
        pass

    def stop(*_):
        raise Stop

    pairs = [(b"%07d" % at, at) for at in range(400_000)]
    it = Art()
    old = signal.signal(signal.SIGALRM, stop)
    signal.setitimer(signal.ITIMER_REAL, 0.02)
    try:
        it.load(pairs)
        is_stopped = False
    except Stop:
        is_stopped = True
    finally:
        signal.setitimer(signal.ITIMER_REAL, 0)
        signal.signal(signal.SIGALRM, old)
    assert is_stopped and 0 < len(it) < len(pairs) and list(it) == [key for key, _ in pairs[: len(it)]], len(it)


CASES = [threads, others_run, fork, signals]

if __name__ == "__main__":
    faulthandler.dump_traceback_later(240, exit=True)
    run(CASES, __doc__)
