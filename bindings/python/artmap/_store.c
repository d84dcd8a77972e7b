/* The tree of a map, and the values that its words stand for. But for store_drop and let_go, no function here runs code
 * of Python's: each finds the map whole and leaves it whole. */
#include "_artmap.h"

enum { LONG = 1 << 14, NESTED = 40, FEW = 264, SOME = 128 };

/* Takes the value of a word out of its slot, which is free then. */
static PyObject *taken_out(Store *store, uint64_t word) {
    PyObject *value = store->slots[word];
    store->slots[word] = (PyObject *)(void *)((uintptr_t)store->free << 1 | 1);
    store->free = (size_t)word + 1;
    return value;
}

/* Makes room for so many values from `used` on. */
static bool has_room(Store *store, size_t more) {
    if (store->places - store->used >= more) return true;
    if (more > PY_SSIZE_T_MAX / 32 || store->used > PY_SSIZE_T_MAX / 32) return false;
    size_t places = store->used + more;
    places += places / 4 + 3;
    PyObject **slots = PyMem_Realloc(store->slots, places * sizeof(PyObject *));
    if (slots) store->slots = slots, store->places = places;
    return slots;
}

/* A tree where there is none yet. */
static bool is_ready(Store *store) { return store->tree.is_made || artmap_words_new(&store->tree) == ARTMAP_DONE; }

/* Frees a tree, whose bytes are no longer counted. */
static void free_tree(Store *store) {
    artmap_words_free(&store->tree);
    memory_taken();
}

/* Counts the bytes of a tree that changed. */
static void measure(Store *store) { store->bytes += memory_taken(); }

/* After a removal: where nothing is left, the memory of what was is given back. */
static void tidy(Store *store) {
    measure(store);
    if (store->places <= SOME || artmap_words_len(&store->tree)) return;
    free_tree(store);
    PyMem_Free(store->slots);
    *store = STORE_EMPTY;
}

size_t store_len(Art *map) {
    size_t len;
    ALONE(map)
    len = artmap_words_len(&map->store.tree);
    END_ALONE
    return len;
}

/* The value of a key, or NULL where it is not stored. */
PyObject *store_get(Art *map, const Key *key) {
    uint64_t word;
    PyObject *value = NULL;
    ALONE(map)
    if (key->codec == map->codec && artmap_words_get(&map->store.tree, key->bytes, key->len, &word) == ARTMAP_DONE)
        value = kept(map->store.slots[word]);
    END_ALONE
    return value;
}

/* Puts a pair in. Where its key is stored, this asks for no memory: the word stays that of the key, so that walks
 * needn't look again, and the value takes the place of `old`, which is the caller's then. */
artmap_code store_put(Art *map, const Key *key, PyObject *value, PyObject **old) {
    artmap_code code = ARTMAP_NO_MEMORY;
    uint64_t word;
    *old = NULL;
    ALONE(map)
    Store *store = &map->store;
    if (key->codec != map->codec) code = OTHER_KEYS;
    else if (artmap_words_get(&store->tree, key->bytes, key->len, &word) == ARTMAP_DONE) {
        code = ARTMAP_REPLACED;
        *old = store->slots[word];
        store->slots[word] = kept(value);
    } else if (is_ready(store) && (store->free || has_room(store, 1))) {
        word = store->free ? store->free - 1 : store->used;
        code = artmap_words_put(&store->tree, key->bytes, key->len, word, NULL);
        if (code == ARTMAP_DONE) {
            if (store->free) store->free = (uintptr_t)store->slots[word] >> 1;
            else store->used++;
            store->slots[word] = kept(value);
            map->changes++;
        }
        measure(store);
    }
    END_ALONE
    return code;
}

/* Takes the pair of a key out. Its value is the caller's then. */
artmap_code store_take(Art *map, const Key *key, PyObject **value) {
    uint64_t word;
    artmap_code code = ARTMAP_NOT_FOUND;
    ALONE(map)
    if (key->codec == map->codec) code = artmap_words_remove(&map->store.tree, key->bytes, key->len, &word);
    if (code == ARTMAP_DONE) {
        *value = taken_out(&map->store, word);
        map->changes++;
    }
    tidy(&map->store);
    END_ALONE
    return code;
}

/* Puts in pairs whose keys ascend and are above all that are stored: else ARTMAP_NOT_ABOVE, and none goes in. `taken`
 * tells how many went in. Their values were the caller's, and are the map's then. */
artmap_code store_load(Art *map, Codec codec, const uint8_t *keys, size_t len, artmap_words_pair *pairs,
                       PyObject **values, size_t count, size_t *taken) {
    artmap_code code = ARTMAP_NO_MEMORY;
    *taken = 0;
    ALONE(map)
    Store *store = &map->store;
    uint64_t word;
    size_t found;
    artmap_span from = {false, ARTMAP_FROM_KEY, ARTMAP_TO_END, keys, pairs[0].key_len, NULL, 0};
    if (codec != map->codec) code = OTHER_KEYS;
    else if (is_ready(store) && has_room(store, count)) {
        code = artmap_words_walk_words(&store->tree, &from, &word, 1, &found);
        if (code != ARTMAP_NOT_FOUND) code = ARTMAP_NOT_ABOVE;
        else {
            for (size_t at = 0; at < count; at++) pairs[at].word = store->used + at;
            code = artmap_words_load(&store->tree, keys, len, pairs, count, taken);
            if (*taken) memcpy(store->slots + store->used, values, *taken * sizeof *values);
            store->used += *taken;
            map->changes += *taken > 0;
        }
    }
    measure(store);
    END_ALONE
    return code;
}

/* Gives back what memory no pair uses. */
void store_fit(Art *map) {
    ALONE(map)
    Store *store = &map->store;
    artmap_words_shrink(&store->tree);
    PyObject **slots = store->used ? PyMem_Realloc(store->slots, store->used * sizeof *slots) : NULL;
    if (slots) store->slots = slots, store->places = store->used;
    measure(store);
    END_ALONE
}

/* A room for a key of so many bytes, or NULL with the exception set. `few` serves where it is large enough. */
static uint8_t *larger(uint8_t *room, uint8_t *few, size_t size) {
    if (room != few) PyMem_Free(room);
    room = size <= FEW ? few : PyMem_Malloc(size);
    if (!room) PyErr_NoMemory();
    return room;
}

/* The first pair of a span, with its key in `room`, which grows. Returns as store_first does. */
static int first_key(Store *store, const artmap_span *span, uint8_t **room, uint8_t *few, artmap_words_pair *pair) {
    size_t count, size = FEW;
    for (;;) {
        switch (artmap_words_walk(&store->tree, span, *room, size, pair, 1, &count)) {
        case ARTMAP_DONE:
        case ARTMAP_MORE: return 1;
        case ARTMAP_NO_ROOM:
            size = pair->key_len;
            if (!(*room = larger(*room, few, size))) return *room = few, -1;
            break;
        default: return 0;
        }
    }
}

/* The first pair of a span: 1, or 0 where there is none, or -1 with the exception set. */
int store_first(Art *map, const artmap_span *span, PyObject **key, PyObject **value) {
    uint8_t few[FEW], *room = few;
    artmap_words_pair pair;
    int found;
    ALONE(map)
    found = first_key(&map->store, span, &room, few, &pair);
    if (found > 0) {
        *key = key_object(map->codec, room, pair.key_len);
        if (*key) *value = kept(map->store.slots[pair.word]);
        else found = -1;
    }
    END_ALONE
    if (room != few) PyMem_Free(room);
    return found;
}

/* The first key, or the last, in `room`, which grows. Returns as store_first does. */
static int end_key(Store *store, bool is_last, uint8_t **room, uint8_t *few, size_t *len) {
    size_t size = FEW;
    for (;;) {
        switch ((is_last ? artmap_words_last : artmap_words_first)(&store->tree, *room, size, len, NULL)) {
        case ARTMAP_DONE: return 1;
        case ARTMAP_NO_ROOM:
            size = *len;
            if (!(*room = larger(*room, few, size))) return *room = few, -1;
            break;
        default: return 0;
        }
    }
}

/* Takes the first or the last pair out: 1, or 0 where there is none, or -1 with the exception set. Its key is made before,
 * which runs no code of Python's: so it is the key of the pair that goes. */
int store_take_end(Art *map, bool is_last, PyObject **key, PyObject **value) {
    uint8_t few[FEW], *room = few;
    uint64_t word;
    size_t len;
    int found;
    bool is_refused = false;
    *key = NULL;
    ALONE(map)
    found = end_key(&map->store, is_last, &room, few, &len);
    if (found > 0 && !(*key = key_object(map->codec, room, len))) found = -1;
    if (found > 0) {
        is_refused = artmap_words_pop(&map->store.tree, is_last, &word) != ARTMAP_DONE;
        if (!is_refused) {
            *value = taken_out(&map->store, word);
            map->changes++;
        }
        tidy(&map->store);
    }
    END_ALONE
    if (room != few) PyMem_Free(room);
    if (!is_refused) return found;
    Py_CLEAR(*key);
    return PyErr_NoMemory(), -1;
}

/* Whether there is a pair whose key begins the first `len` bytes of a query, or equals them, but for its end mark; the one
 * with the longest key. */
static bool find(Art *map, const Key *query, size_t len, Found *found) {
    artmap_words *tree = &map->store.tree;
    uint64_t word;
    if (query->codec != map->codec) return false;
    if (query->codec == OF_BYTES) {
        if (artmap_words_find(tree, query->bytes, len, &found->len, &word) != ARTMAP_DONE) return false;
    } else {
        if (artmap_words_find_marked(tree, query->bytes, len, 0, &found->len, &word) != ARTMAP_DONE) return false;
        found->len--;
    }
    found->value = kept(map->store.slots[word]);
    return true;
}

bool store_find(Art *map, const Key *query, Found *found) {
    bool is_found;
    ALONE(map)
    is_found = find(map, query, query->len, found);
    END_ALONE
    return is_found;
}

/* Makes place for one more. */
static bool has_place(Found **found, size_t count) {
    if (count & (count - 1)) return true;
    Found *more = PyMem_Realloc(*found, (count ? 2 * count : 1) * sizeof **found);
    if (more) *found = more;
    return more;
}

/* All pairs whose keys begin a query, or equal it, the longest first, in a block: 0, or -1 for want of memory, and then
 * there may be some, too. They are the caller's. */
int store_prefixes(Art *map, const Key *query, Found **found, size_t *count) {
    bool has_memory = true;
    *found = NULL, *count = 0;
    ALONE(map)
    for (size_t len = query->len; (has_memory = has_place(found, *count));) {
        if (!find(map, query, len, *found + *count)) break;
        len = (*found)[(*count)++].len;
        if (!len-- || query->codec == OF_BYTES) break;
    }
    END_ALONE
    return has_memory ? 0 : -1;
}

/* The words of all keys with a prefix, in `few`, which has SOME places, or in a block. NULL: no memory. */
static uint64_t *words_with(Store *store, const Key *prefix, uint64_t *few, size_t *count) {
    artmap_span span = {false, ARTMAP_FROM_END, ARTMAP_WITH_PREFIX, NULL, 0, prefix->bytes, prefix->len};
    artmap_code code = artmap_words_walk_words(&store->tree, &span, few, SOME, count);
    if (code == ARTMAP_DONE) return few;
    if (code != ARTMAP_MORE) return *count = 0, few;
    size_t len = artmap_words_len(&store->tree);
    uint64_t *words = len > PY_SSIZE_T_MAX / 16 ? NULL : PyMem_Malloc(len * sizeof(uint64_t));
    if (words) artmap_words_walk_words(&store->tree, &span, words, len, count);
    return words;
}

/* Takes out all pairs whose keys begin with a prefix, or none at all for want of memory. Their values stand in `gone`,
 * for let_go. */
artmap_code store_take_prefix(Art *map, const Key *prefix, PyObject ***gone, size_t *count) {
    artmap_code code = ARTMAP_NO_MEMORY;
    uint64_t few[SOME];
    *gone = NULL;
    ALONE(map)
    Store *store = &map->store;
    uint64_t *words = prefix->codec == map->codec ? words_with(store, prefix, few, count) : (*count = 0, few);
    if (words && !*count) code = ARTMAP_DONE;
    else if (words && (*gone = PyMem_Malloc(*count * sizeof(PyObject *)))) {
        code = artmap_words_remove_prefix(&store->tree, prefix->bytes, prefix->len, NULL);
        for (size_t at = 0; code == ARTMAP_DONE && at < *count; at++) (*gone)[at] = taken_out(store, words[at]);
        map->changes += code == ARTMAP_DONE;
    }
    tidy(store);
    if (words != few) PyMem_Free(words);
    END_ALONE
    if (code == ARTMAP_DONE) return code;
    PyMem_Free(*gone);
    *gone = NULL;
    return code;
}

/* Makes `to`, which is new and which nobody else has, a copy of a map, also with its codec. */
bool store_clone(Art *from, Art *to) {
    bool is_made = true;
    ALONE(from)
    const Store *store = &from->store;
    to->codec = from->codec;
    if (store->tree.is_made) {
        PyObject **slots = PyMem_Malloc((store->used + 1) * sizeof(PyObject *));
        is_made = slots && artmap_words_clone(&from->store.tree, &to->store.tree) == ARTMAP_DONE;
        if (is_made) {
            for (size_t at = 0; at < store->used; at++) {
                slots[at] = store->slots[at];
                if (!is_free(slots[at])) Py_INCREF(slots[at]);
            }
            to->store.slots = slots, to->store.used = store->used, to->store.places = store->used + 1;
            to->store.free = store->free, to->store.bytes = memory_taken();
        } else PyMem_Free(slots);
        memory_taken();
    }
    END_ALONE
    return is_made;
}

/* Puts the nodes of the tree in the order of the keys, and gives memory back that the map does not need. Words stay. */
bool store_compact(Art *map) {
    bool is_done;
    ALONE(map)
    Store *store = &map->store;
    is_done = !store->tree.is_made || artmap_words_compact(&store->tree) == ARTMAP_DONE;
    PyObject **slots = is_done && store->used ? PyMem_Realloc(store->slots, store->used * sizeof(PyObject *)) : NULL;
    if (slots) store->slots = slots, store->places = store->used;
    measure(store);
    END_ALONE
    return is_done;
}

/* Empties a map. What it had is the caller's. */
Store store_detach(Art *map) {
    Store store;
    ALONE(map)
    store = map->store;
    map->store = STORE_EMPTY;
    map->changes++;
    END_ALONE
    return store;
}

/* Lets go of values, which no map has any more, and lets other threads run now and then. */
static void let_go_of(PyObject **values, size_t count) {
    for (size_t at = 0; at < count; at++) {
        if (at % LONG == LONG - 1) {
            Py_BEGIN_ALLOW_THREADS
            Py_END_ALLOW_THREADS
        }
        if (!is_free(values[at])) Py_DECREF(values[at]);
    }
}

void let_go(PyObject **gone, size_t count) {
    if (gone) let_go_of(gone, count);
    PyMem_Free(gone);
}

static void drop(Store *store) {
    if (artmap_words_len(&store->tree) < LONG) free_tree(store);
    else {
        Py_BEGIN_ALLOW_THREADS
        free_tree(store);
        Py_END_ALLOW_THREADS
    }
    let_go_of(store->slots, store->used);
    PyMem_Free(store->slots);
}

/* Frees what no map has any more. Maps in maps in maps.. are freed one after the other, so that they don't need a stack
 * as deep as they are nested. (What waits is freed by the interpreter that has it, and no other, which a finalizer may
 * call.) */
void store_drop(Store store) {
    typedef struct Waiting {
        Store store;
        struct Waiting *next;
    } Waiting;
    static _Thread_local Waiting *waiting;
    static _Thread_local int nested;
    static _Thread_local PyInterpreterState *interpreter;
    if (!nested) interpreter = PyInterpreterState_Get();
    bool must_wait = nested >= NESTED && interpreter == PyInterpreterState_Get();
    Waiting *it = must_wait ? PyMem_Malloc(sizeof *it) : NULL;
    if (it) {
        *it = (Waiting){store, waiting};
        waiting = it;
        return;
    }
    nested++;
    drop(&store);
    while (nested == 1 && (it = waiting)) {
        waiting = it->next;
        drop(&it->store);
        PyMem_Free(it);
    }
    nested--;
}
