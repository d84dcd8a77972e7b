#!/usr/bin/env python3
"""Refuses memory to calls of the libraries and lines of the program: each request, alone and with all later ones.

    tests/refusals.py [--program PATH | --quick] [--of NAME] [WORD]   WORD: only what has it in its name; NAME: only
                                                                      what the program of that name plays
art_index is that which rt ci has built, by both compilers; with --program that at PATH, with --quick one without
proofs. Under tests/refuse.c, which says what a window is, it runs
- the player `refusals` (tests/players.py), which must write tests/refusals.scenarios, and each scenario of it, a line
  'scenario NAME' and those after it,
- art_index over tests/refusals.lines with nothing refused: it must answer tests/refusals.replies, in which no line is
  refused, by the program as both compilers make it,
- each of these lines: the line stands twice, and is refused the first time. It must answer `memory` then, and all else
  must be as if it stood once. Only lines that may be refused by the definition may ask for memory.
- each script of tests/maps, and the first lines of six that are made at random, line by line likewise, by play_map;
  and of all scripts that are made at random the lines whose calls are rare, while the maps are small. After each
  refused line both maps are looked at by the checker, and gone along from both ends. A call may do without what it is
  refused, and succeed: one that builds, say, or one whose slab asks for more than it needs. Tables tell how many
  requests each call and each line of the program made, how often it was refused, and how often a call did without; they
  go to out/refusals.md.
"""
import collections
import itertools
import os
import re
import resource

import cases
import map_model
import map_words
import maps
import players
import quick
import reference
import windows

SCENARIOS, TOLD = "refusals", "tests/refusals.scenarios"
REFUSED, CONFLICT = b"memory\n", b"conflict\n"
# A scenario whose name ends so must ask for nothing in its window, and each other must ask for something.
NO_MEMORY = "takes_no_memory"
# Calls of the map that take out or put in several pairs, one by one, and calls that take no memory.
SEVERAL = {"retain", "extract_if", "extraction", "extend", "from_vec", "from_iter"}
# Calls that build along the last leaf, and insert where there is no memory to build: a request may be refused, and they
# succeed. One of them has to: it puts in no more pairs than there is room for.
BUILDING = {"extend", "extend_from_refs", "from_vec", "from_iter", "and", "or", "xor", "minus"}
WITH_ROOM = "extend with room"
# Calls that must be seen to do without what they are refused: those, one that gives memory back, one that does so at its
# end, and one that inserts where there is no memory to merge.
SPARING = BUILDING | {"shrink", "compact", "append"}
# Calls that are given a key, and calls that take out one pair.
REMOVALS = {"remove", "remove_entry", "pop_first", "pop_last", "take", "entry_remove", "entry_remove_entry"}
# Calls that take out all keys with a prefix, or make ready for it.
CUTS = {"remove_prefix", "apply_prefix", "prepare_prefix", "remove_from_both", "count_cut"}
GIVEN_KEY = {"try_insert", "put_at", "prefix_insert", "replace", *maps.ENDED, *maps.FREE} - REMOVALS
# Of these the first are given a key, and ask for no memory else.
KEY_ALONE = {"prefix_entry", "prefix_keys", "and_modify", "into_mut", "into_key", *(it for it in maps.INNER[4:])}
# The player takes memory of its own to fill its bag.
PLAYERS_OWN = {"drain"}
# Calls that are seldom in a script: each is refused in every script, where so many pairs are held at most, and in so
# many runs at least; any other call that may ask for memory in one.
RARE = {"append", "split_off", "clone", "retain", "extend", "from_vec", "from_iter", "and", "or", "xor", "minus"}
MOST, LEAST = 60, {**{it: 2 if it == "retain" else 20 for it in RARE}, WITH_ROOM: 0}
# Each such call does without what it is refused in so many runs at least. (Of pairs that are lent the player puts in
# the last first, so that few are built.)
WITHOUT = {it: 2 if it in ("extend_from_refs", "shrink", "compact") else 40 for it in SPARING | {WITH_ROOM}}
TAKE_NONE = {"len", "is_empty", "get", "get_key_value", "contains_key", "index", "prefix_get", "prefix_get_key_value"}
TAKE_NONE |= {"first_key_value", "last_key_value", "get_mut", "prefix_get_mut", "prefix_get_key_value_mut", "clear"}
TAKE_NONE |= {"iter", "keys", "values", "range", "prefix", "range_mut", "prefix_mut", "iter_mut", "values_mut", "swap"}
TAKE_NONE |= {"compare", "into_iter", "into_keys", "into_values", "contains", "first", "last", "difference", "union"}
TAKE_NONE |= {"symmetric_difference", "intersection", "is_disjoint", "is_subset", "is_superset", "hash", "debug"}
TAKE_NONE |= {"read_get", "read_prefix_get", "read_prefix", "read_range", "count_get", "count_prefix",
              "count_range"}
TAKE_NONE |= {"shrink", "held", "less", "more", "in_order"}
# First words of replies that list nothing.
REPLIES = {"new", "old", "conflict", "over", "is", "none", "at", "gone", "bounds", "bytes", "dropped", "bad"}
SHIM = os.path.abspath("out/refuse.so")
given = cases.given(__doc__, "--program=PATH", "--quick", "--of=NAME")
tally, runs, requests = cases.Tally(given.word), 0, 0
# Of each call and kind of keys, and of each word of the program and reply: its lines, those that made no request, the
# most requests that one made, and the runs in which one was refused.
told, told_lines = (collections.defaultdict(lambda: [0, 0, 0, 0]) for _ in range(2))
# Of each call that builds, and kind of keys: the runs in which a request was refused, and it succeeded.
without = collections.Counter()


def player(name):
    return players.program(name, "--quick" in given)


def run(words, refuse, line=None, given=b"", statuses=(0,)):
    """Returns what the shim wrote of the windows, and what the program wrote to its two outputs."""
    global runs
    runs += 1
    ended, seen, out, err = windows.run(words, SHIM, refuse, line, given)
    why = f"REFUSE={refuse} {seen}: status {ended}: {out[-300:]} {err[-300:]}"
    assert ended in (statuses if "x" in seen else (0,)), why
    return seen, out, err


def each_refusal(words, kinds=("", "+"), **how):
    """Gives what each run wrote, each request refused in turn, with those for less in its place and with all later ones,
    until none is met."""
    global requests
    for rest in kinds:
        for number in itertools.count(1):
            seen, out, err = run(words, f"{number}{rest}", **how)
            if "x" not in seen:
                requests = seen.count(".")
                break
            yield f"REFUSE={number}{rest} {seen}", out, err, said(seen)


def said(seen):
    """Returns what the standard error must have: each window answers a refusal, and nothing else, by 'refused'."""
    return b"".join(b"refuse\nrefused\n" if "x" in it else b"refuse\nok\n" for it in seen.split("|")[1:])


def states(out):
    """Returns the lines that stand under each first word."""
    lines = [it.partition(" ") for it in out.decode().splitlines()]
    return {when: [rest for it, _, rest in lines if it == when] for when, _, _ in lines}


def scenario(name, wanted):
    """A call in a window: it prints what stands before it, and what is left."""
    words = [player(SCENARIOS), name]
    seen, free, err = run(words, "0")
    assert free == wanted, f"it writes {free}"
    assert err == said(seen) and seen.count("|") == 1, f"windows {seen} say {err}"
    assert ("." not in seen) == name.endswith(NO_MEMORY), f"the calls make {seen.count('.')} requests"
    for label, out, err, wanted in each_refusal(words):
        assert err == wanted, f"{label}: it says {err}"
        was, now = states(free), states(out)
        assert now["before"] == was["before"], f"{label}: another state before: {out}"
        assert now["after"] == now["before"], f"{label}: the refused call changed the state: {out}"
        assert now.get("again") == was["after"], f"{label}: the second call left another state: {out}"


def one_line(words, lines, at):
    """The line stands twice, and is refused the first time: all else must be as if it stood once."""
    before, free = (run(words, "0", given=b"".join(it))[1] for it in (lines[:at], lines))
    wanted = before + REFUSED + free[len(before) :]
    assert free.startswith(before), "the answers to the lines before differ"
    model = reference.Reference()
    for line in lines[:at]:
        model.reply(line[:-1])
    may_refuse = model.may_refuse(lines[at][:-1]) and not free.startswith(before + CONFLICT)
    twice = b"".join(lines[: at + 1] + lines[at:])
    seen = run(words, "0", line=at + 1, given=twice)[0]
    assert may_refuse or "." not in seen, f"a line that takes no memory makes {seen.count('.')} requests"
    refused = 0
    for label, out, *_ in each_refusal(words, line=at + 1, given=twice):
        assert out == wanted, f"{label}: it answers {out[-300:]}, and not {wanted[-300:]}"
        refused += 1
    found, reply = reference.parsed(lines[at][:-1]), free[len(before) :].split()[0].decode()
    add(told_lines[found[0] if found else "anything else", reply if reply in REPLIES else "a listing"], refused)


def add(row, refused):
    """One line more, of which so many runs were refused."""
    row[:] = [row[0] + 1, row[1] + (requests == 0), max(row[2], requests), row[3] + refused]


def free_run(words, lines, wanted):
    """With nothing refused the replies are those that were written down, and so none is `memory`."""
    out = run(words, "0", given=b"".join(lines))[1]
    assert out == wanted, f"it answers {out[-300:]}, and not {wanted[-300:]}"


def start(words, lines, replies):
    """Refused before it reads its first line, the program counts its arguments as wrong, and has answered nothing. For
    its replies a smaller room serves where one is refused; without any they leave one by one."""
    ends = [(b"", b"art_index: takes no arguments\n"), (replies, b"")]
    met = set()
    for label, out, err, _ in each_refusal(words, ("-", "+"), line=0, given=b"".join(lines), statuses=(0, 2)):
        assert (out, err) in ends, f"{label}: it answers {out[-100:]} and says {err}"
        met.add(ends.index((out, err)))
    assert met == {0, 1}, f"only {met} of {ends}"


def case(kind, name, call, *words):
    had = runs

    def called():
        call(*words)
        return f"{runs - had} runs"

    tally.case(f"{kind} {name}", called)


def tells_all(wanted):
    out = run([player(SCENARIOS)], "0")[1]
    assert out == wanted, f"it writes {out[-300:]}"


def of_scenarios():
    with open(TOLD, "rb") as file:
        told = file.read()
    case(SCENARIOS, "all, with nothing refused", tells_all, told)
    for part in re.findall(rb"(?m)^scenario .+\n(?:(?!scenario ).*\n)*", told):
        name = part.splitlines()[0].decode().split()[1]
        case(SCENARIOS, name, scenario, name, part)


def of_program(program):
    with open("tests/refusals.lines", "rb") as script, open("tests/refusals.replies", "rb") as told:
        lines, replies = script.readlines(), told.read()
    name = cases.title(program)
    case(name, "free run", free_run, [program], lines, replies)
    case(name, "start", start, [program], lines, replies)
    for at, line in enumerate(lines):
        case(name, f"line {at + 1}, {line.decode().strip()[:60]}", one_line, [program], lines, at)


def played(model, lines):
    return "".join(f"{model.answer(it)}\n" for it in lines).encode()


def look(kind, model):
    """Lines that look at each map with the checker, and at its pairs from both ends."""
    ends = [f"iter {letter * (model.size() + 1)}" for letter in "fb"]
    one = ends if kind == "set" else ["check", *ends]
    return one if kind == "free" else [*one, "swap", *one, "swap"]


def takes_none(line, model, kind):
    """Whether a call takes no memory at these maps, that for its key aside: with an empty side, with a key that is
    stored, with room that was made, or where it takes out a pair that leaves no smaller node."""
    call, word = f"{line} ".split(" ")[:2]
    one = map_model.Model(True, dict.fromkeys(model.keys)) if kind == "set" else model
    if call in REMOVALS:
        ends = {"pop_first": one.sorted()[:1], "pop_last": one.sorted()[-1:]}
        key = one.key(word) if call.startswith("entry") else map_words.bytes_in(word)
        keys = ends.get(call, [key] if key in one.pairs else [])
        return not any(one.shrinks(key) for key in keys)
    if call == "compact":
        return not one.pairs
    if call == "append":
        return len(model.other) <= model.room or not one.pairs
    if call in CUTS:
        other = map_model.Model(True, model.other)
        return not (one.cut_shrinks(word) or call == "remove_from_both" and other.cut_shrinks(word))
    if call in map_words.SINGLE and model.room:
        return True
    return call in TAKE_NONE | KEY_ALONE or call in GIVEN_KEY and one.key(word) in one.pairs


def builds_all(call, model, kind):
    """Whether a call builds all that the bag has, from nothing: it ascends."""
    given = [it if kind == "set" else it[0] for it in model.bag]
    is_first = call in maps.FROM_BAG and not (call == "extend" and (model.keys if kind == "set" else model.pairs))
    return is_first and all(one < other for one, other in zip(given, given[1:]))


def one_call(kind, lines, at, model, before):
    """A line of a script stands twice, and is refused the first time. Both maps are looked at in between, and all must
    be as if the line stood once. Of a line that takes out or puts in several pairs, those before the refused one are
    gone, or stand there, and of a line that hands over a bag nothing is left in it. Where a line does without what it
    is refused, all must be as if it stood twice, and nothing was refused. If it was to build all, it has to: what it
    inserts instead finds memory, unless all later requests are refused, or it asks for less and is refused with it."""
    call, behind = lines[at].split(" ")[0], look(kind, model) + lines[at:]
    has_room = call == "extend" and 0 < len(model.bag) <= model.room
    title = WITH_ROOM if has_room else call, "set" if kind == "set" else "map"
    twice = "".join(f"{it}\n" for it in [f"map 4 {kind}", *lines[: at + 1], *behind]).encode()
    free, refused = played(model.again(), behind), 0
    whole = played(model.again(), [lines[at], *behind])
    for label, out, *_ in each_refusal([player(maps.PLAYER)], line=at + 2, given=twice):
        assert out.startswith(before), f"{label}: it answers {out[-300:]}"
        rest = out[len(before) :]
        if rest == whole:
            without[title] += 1
            continue
        answer, _, left = rest.partition(b"\n")
        if call in SEVERAL:
            answer = b"memory"
            assert any(is_cut(model, refuse, lines[at], behind, rest) for refuse in range(1, 999)), f"{label}: {rest}"
            need_not = "+ " in label or not builds_all(call, model, kind)
            inserts = need_not or "l" in label and run_alone(label, at, twice) == before + whole
            assert inserts, f"{label}: it doesn't insert what it can't build"
        else:
            assert left == free, f"{label}: behind {answer} {left[:300]}, and not {free[:300]}"
        assert re.match(rb"memory\b|no key", answer), f"{label}: it answers {answer}"
        assert answer == b"no key" or not takes_none(lines[at], model, kind), f"{label}: it asks for memory"
        refused += answer.startswith(b"memory")
    add(told[title], refused)


def run_alone(label, at, twice):
    """What is written where the refused request of a run is refused alone, and what asks for less is granted."""
    return run([player(maps.PLAYER)], f"{label.split()[0].partition('=')[2]}-", line=at + 2, given=twice)[1]


def is_cut(model, refuse, line, behind, rest):
    """Whether this is written where the request with this number is refused of those that a line makes in turn."""
    model = model.again()
    model.refuse = refuse
    answers = played(model, [line])
    return rest.startswith(answers) and b"memory" in answers and rest == answers + played(model.again(), behind)


def made_new(first):
    """A map or set with no pairs, or two, is made with every request refused."""
    seen = run([player(maps.PLAYER)], "1+", line=1, given=f"{first}\nlen\n".encode())[0]
    assert seen == "|", f"it makes requests: {seen}"


def title(name, at, line):
    return f"{name}, line {at + 1}, {line[:40]}"


def is_any_wanted(name, lines):
    return any(tally.wants(f"{maps.PLAYER} {title(name, at, line)}") for at, line in enumerate(lines))


def of_players():
    """The scripts of the map, and some more that are made at random."""
    for kind, size in itertools.product(maps.KINDS, maps.PREFIX_LENS):
        first = f"map {size} {kind}"
        case(maps.PLAYER, f"new, {first}", made_new, first)
    for name, kind, lines in maps.scripts("lines" if ".lines" in given.word else "", is_any_wanted):
        if 4 not in maps.sizes(name):
            continue
        at_random = name.startswith("random")
        first = len(lines) if not at_random else 60 if int(name.split()[1]) <= 5 else 0
        model, before = maps.model_of(kind), b""
        for at, line in enumerate(lines):
            call = line.split(" ")[0]
            if call not in PLAYERS_OWN and (at < first or call in RARE and model.size() <= MOST):
                some = lines[: at + 20]
                case(maps.PLAYER, title(name, at, line), one_call, kind, some, at, model.again(), before)
            before += played(model, [line])


def enough(refused, least):
    assert refused >= least, f"{refused} refused, and not {least}"


def table():
    """How often each call of the scripts was refused. One that may be must have been so often enough."""
    with open("out/refusals.md", "w", encoding="utf-8") as file:
        for (call, of), row in sorted(told.items(), key=lambda it: (it[0][1], it[0][0])):
            file.write(f"| `{call}` | {of} | {' | '.join(map(str, [*row, without[call, of]]))} |\n")
        file.write("\n")
        for (name, reply), row in sorted(told_lines.items()):
            file.write(f"| `{name}` | `{reply}` | {' | '.join(map(str, row))} |\n")
    print(open("out/refusals.md", encoding="utf-8").read(), end="")
    every = {"map": [*maps.CALLS, *maps.FREE, *maps.ENDED_CALLS, "reserve", WITH_ROOM], "set": maps.SET_CALLS}
    for of, calls_of in every.items():
        missing = [it for it in calls_of if (it, of) not in told]
        case(maps.PLAYER, f"each call of a {of} has a line that is refused", enough, -len(missing), 0)
    for call, of in sorted(told):
        if call not in TAKE_NONE | KEY_ALONE:
            case(maps.PLAYER, f"refusals of {call} of a {of}", enough, told[call, of][3], LEAST.get(call, 1))
        if call in WITHOUT:
            case(maps.PLAYER, f"{call} of a {of} that does without", enough, without[call, of], WITHOUT[call])


resource.setrlimit(resource.RLIMIT_CORE, (0, 0))
os.makedirs("out", exist_ok=True)
windows.build(SHIM)
PARTS = {
    SCENARIOS: of_scenarios,
    quick.PROGRAM: lambda: [of_program(it) for it in cases.programs(given)],
    maps.PLAYER: of_players,
}
for part in [given["--of"]] if "--of" in given else PARTS:
    PARTS[part]()
table()
tally.end()
