/* The class Art: what goes by the order of the keys. */
#include "_artmap.h"

/* Whether a word is given and true: 1 or 0, or -1 with the exception set. */
static int is_true(PyObject *word) { return word ? PyObject_IsTrue(word) : 0; }

/* Single pairs. */

/* A pair of what was found; None where nothing was. */
static PyObject *pair_or_none(int found, PyObject *key, PyObject *value) {
    if (!found) Py_RETURN_NONE;
    PyObject *pair = found > 0 ? PyTuple_Pack(2, key, value) : NULL;
    if (found > 0) Py_DECREF(key), Py_DECREF(value);
    return pair;
}

static PyObject *first_of(Art *map, const artmap_span *span) {
    PyObject *key, *value;
    int found = store_first(map, span, &key, &value);
    return pair_or_none(found, key, value);
}

static PyObject *art_first(PyObject *self, PyObject *none) {
    artmap_span span = {false, ARTMAP_FROM_END, ARTMAP_TO_END, NULL, 0, NULL, 0};
    (void)none;
    return first_of((Art *)self, &span);
}

static PyObject *art_last(PyObject *self, PyObject *none) {
    artmap_span span = {true, ARTMAP_FROM_END, ARTMAP_TO_END, NULL, 0, NULL, 0};
    (void)none;
    return first_of((Art *)self, &span);
}

/* The pair next to a key, which need not be stored. */
static PyObject *neighbour(const char *call, bool back, Art *map, PyObject *const *args, Py_ssize_t count,
                           PyObject *names) {
    static const char *const known[] = {"key", "inclusive", NULL};
    PyObject *words[2] = {NULL, NULL}, *found = NULL;
    if (!are_words(call, known, 1, 1, args, count, names, words)) return NULL;
    int inclusive = is_true(words[1]);
    Key key;
    Place place = inclusive < 0 ? FAILED : key_of(map->codec, words[0], &key);
    if (place != FAILED) {
        artmap_span span = {
            back, inclusive ? ARTMAP_FROM_KEY : ARTMAP_AFTER_KEY, ARTMAP_TO_END, key.bytes, key.len, NULL, 0};
        if (place != WITHIN) span.from = ARTMAP_FROM_END;
        found = place == (back ? BELOW : ABOVE) ? kept(Py_None) : first_of(map, &span);
    }
    if (inclusive >= 0) key_end(&key);
    return found;
}

static PyObject *art_next(PyObject *self, PyObject *const *args, Py_ssize_t count, PyObject *names) {
    return neighbour("next", false, (Art *)self, args, count, names);
}

static PyObject *art_previous(PyObject *self, PyObject *const *args, Py_ssize_t count, PyObject *names) {
    return neighbour("previous", true, (Art *)self, args, count, names);
}

/* The pair of what begins a query. It takes the value. */
static PyObject *pair_of(const Key *query, Found found) {
    PyObject *key = key_object(query->codec, query->bytes, found.len);
    PyObject *pair = key ? PyTuple_Pack(2, key, found.value) : NULL;
    Py_XDECREF(key);
    Py_DECREF(found.value);
    return pair;
}

static PyObject *art_find(PyObject *self, PyObject *query) {
    Art *map = (Art *)self;
    Key it;
    Found found;
    int is_found = prefix_of(map->codec, query, &it) == WITHIN ? store_find(map, &it, &found) : -1;
    PyObject *pair = is_found > 0 ? pair_of(&it, found) : is_found ? NULL : kept(Py_None);
    key_end(&it);
    return pair;
}

static PyObject *art_prefixes(PyObject *self, PyObject *query) {
    Art *map = (Art *)self;
    Key it;
    Found *found = NULL;
    size_t count = 0;
    int status = prefix_of(map->codec, query, &it) == WITHIN ? 0 : -1;
    if (!status && (status = store_prefixes(map, &it, &found, &count))) PyErr_NoMemory();
    PyObject *list = status ? NULL : PyList_New(0);
    while (count--) {
        PyObject *pair = list ? pair_of(&it, found[count]) : (Py_DECREF(found[count].value), NULL);
        if (list && (!pair || PyList_Append(list, pair))) Py_CLEAR(list);
        Py_XDECREF(pair);
    }
    PyMem_Free(found);
    key_end(&it);
    return list;
}

static PyObject *art_peekitem(PyObject *self, PyObject *const *args, Py_ssize_t count, PyObject *names) {
    static const char *const known[] = {"index", NULL};
    PyObject *word = NULL;
    Py_ssize_t place;
    if (!are_words("peekitem", known, 0, 1, args, count, names, &word) || !place_of(word, &place)) return NULL;
    return pair_at((Art *)self, place);
}

static PyObject *art_popitem(PyObject *self, PyObject *const *args, Py_ssize_t count, PyObject *names) {
    static const char *const known[] = {"index", NULL};
    PyObject *word = NULL, *key, *value, *pair;
    Py_ssize_t place;
    if (!are_words("popitem", known, 0, 1, args, count, names, &word) || !place_of(word, &place)) return NULL;
    if (place != 0 && place != -1 && store_len((Art *)self)) return take_at((Art *)self, place);
    /* (what is returned is there before the pair goes) */
    if (!(pair = PyTuple_New(2))) return NULL;
    int found = store_take_end((Art *)self, place != 0, &key, &value);
    if (found > 0) return PyTuple_SetItem(pair, 0, key), PyTuple_SetItem(pair, 1, value), pair;
    Py_DECREF(pair);
    if (!found) PyErr_SetString(PyExc_KeyError, "popitem: the map is empty");
    return NULL;
}

/* Ranges. */

/* Whether each bound belongs to the range: a pair of truths. */
static bool are_inclusive(PyObject *word, bool low, bool high, bool found[2]) {
    found[0] = low, found[1] = high;
    if (!word) return true;
    PyObject *both = PySequence_Check(word) ? PySequence_Tuple(word) : NULL;
    int first = -1, last = -1;
    if (both && PyTuple_Size(both) == 2) {
        first = PyObject_IsTrue(PyTuple_GetItem(both, 0));
        last = first < 0 ? -1 : PyObject_IsTrue(PyTuple_GetItem(both, 1));
    } else if (!PyErr_Occurred()) PyErr_SetString(PyExc_TypeError, "inclusive is a pair of truths, one for each bound");
    Py_XDECREF(both);
    found[0] = first > 0, found[1] = last > 0;
    return last >= 0;
}

/* A walk between two bounds, which are NULL or None where there is none. */
static PyObject *between(Art *map, Kind kind, PyObject *low, PyObject *high, const bool inclusive[2], bool back) {
    Key keys[2] = {{.held = NULL}, {.held = NULL}};
    PyObject *bounds[2] = {low == Py_None ? NULL : low, high == Py_None ? NULL : high}, *walk = NULL;
    Place places[2] = {BELOW, ABOVE};
    for (int at = 0; at < 2; at++)
        if (bounds[at]) places[at] = key_of(map->codec, bounds[at], &keys[at]);
    if (places[0] != FAILED && places[1] != FAILED) {
        int from = back, to = !back;
        artmap_span span = {back,           ARTMAP_FROM_END, ARTMAP_TO_END, keys[from].bytes,
                            keys[from].len, keys[to].bytes,  keys[to].len};
        if (places[from] == WITHIN) span.from = inclusive[from] ? ARTMAP_FROM_KEY : ARTMAP_AFTER_KEY;
        if (places[to] == WITHIN) span.to = inclusive[to] ? ARTMAP_TO_KEY : ARTMAP_BEFORE_KEY;
        walk = walk_new(map, kind, places[0] == ABOVE || places[1] == BELOW ? NULL : &span);
    }
    key_end(&keys[0]);
    key_end(&keys[1]);
    return walk;
}

static PyObject *art_range(PyObject *self, PyObject *const *args, Py_ssize_t count, PyObject *names) {
    static const char *const known[] = {"start", "stop", "inclusive", "reverse", NULL};
    PyObject *words[4] = {NULL, NULL, NULL, NULL};
    bool inclusive[2];
    if (!are_words("range", known, 0, 2, args, count, names, words) || !are_inclusive(words[2], true, false, inclusive))
        return NULL;
    int back = is_true(words[3]);
    return back < 0 ? NULL : between((Art *)self, ITEMS, words[0], words[1], inclusive, back);
}

static PyObject *art_irange(PyObject *self, PyObject *const *args, Py_ssize_t count, PyObject *names) {
    static const char *const known[] = {"minimum", "maximum", "inclusive", "reverse", NULL};
    PyObject *words[4] = {NULL, NULL, NULL, NULL};
    bool inclusive[2];
    if (!are_words("irange", known, 0, 4, args, count, names, words) || !are_inclusive(words[2], true, true, inclusive))
        return NULL;
    int back = is_true(words[3]);
    return back < 0 ? NULL : between((Art *)self, KEYS, words[0], words[1], inclusive, back);
}

static PyObject *with_prefix(Art *map, Kind kind, PyObject *const *args, Py_ssize_t count, PyObject *names) {
    static const char *const known[] = {"prefix", "reverse", NULL};
    PyObject *words[2] = {NULL, NULL}, *walk = NULL;
    if (!are_words("prefix", known, 1, 1, args, count, names, words)) return NULL;
    int back = is_true(words[1]);
    Key key = {.held = NULL};
    if (back >= 0 && prefix_of(map->codec, words[0], &key) == WITHIN) {
        artmap_span span = {back, ARTMAP_FROM_END, ARTMAP_WITH_PREFIX, NULL, 0, key.bytes, key.len};
        walk = walk_new(map, kind, &span);
    }
    key_end(&key);
    return walk;
}

static PyObject *art_prefix(PyObject *self, PyObject *const *args, Py_ssize_t count, PyObject *names) {
    return with_prefix((Art *)self, ITEMS, args, count, names);
}

/* (For ArtSet.) */
static PyObject *art_prefix_keys(PyObject *self, PyObject *const *args, Py_ssize_t count, PyObject *names) {
    return with_prefix((Art *)self, KEYS, args, count, names);
}

static PyObject *art_remove_prefix(PyObject *self, PyObject *prefix) {
    Art *map = (Art *)self;
    PyObject **gone = NULL, *told = NULL;
    size_t count = 0;
    Key key;
    Place place = prefix_of(map->codec, prefix, &key);
    artmap_code code = place == WITHIN ? store_take_prefix(map, &key, &gone, &count) : ARTMAP_DONE;
    key_end(&key);
    if (code == ARTMAP_NO_MEMORY) return PyErr_NoMemory();
    if (place == WITHIN) told = PyLong_FromSize_t(count);
    let_go(gone, count);
    return told;
}

static PyObject *art_compact(PyObject *self, PyObject *none) {
    (void)none;
    return store_compact((Art *)self) ? kept(Py_None) : PyErr_NoMemory();
}

#define DOC(words, text) PyDoc_STR(words "\n--\n\n" text)
#define BY_NAMES(call) (PyCFunction)(void (*)(void)) call, METH_FASTCALL | METH_KEYWORDS
PyMethodDef sorted_methods[] = {
    {"first", art_first, METH_NOARGS, DOC("first($self, /)", "The pair with the least key, or None.")},
    {"last", art_last, METH_NOARGS, DOC("last($self, /)", "The pair with the greatest key, or None.")},
    {"next", BY_NAMES(art_next),
     DOC("next($self, key, *, inclusive=False)",
         "The pair with the least key above a key, which need not be stored, or None. With inclusive, that of the key\n"
         "itself if it is stored.\n\n"
         ">>> pets = Art({b'ape': 1, b'cat': 2})\n"
         ">>> pets.next(b'ape'), pets.next(b'cat'), pets.next(b'cat', inclusive=True)\n"
         "((b'cat', 2), None, (b'cat', 2))\n")},
    {"previous", BY_NAMES(art_previous),
     DOC("previous($self, key, *, inclusive=False)",
         "The pair with the greatest key below a key, which need not be stored, or None. With inclusive, that of the\n"
         "key itself if it is stored.")},
    {"longest_prefix", art_find, METH_O,
     DOC("longest_prefix($self, query, /)",
         "The pair with the longest key that begins a query, or equals it, or None.\n\n"
         ">>> routes = Art({'10.': 'all', '10.2.': 'lab'}, key=str)\n"
         ">>> routes.longest_prefix('10.2.7.1'), routes.longest_prefix('10.3.0.1'), routes.longest_prefix('9')\n"
         "(('10.2.', 'lab'), ('10.', 'all'), None)\n")},
    {"find", art_find, METH_O, DOC("find($self, query, /)", "The same as longest_prefix.")},
    {"prefixes", art_prefixes, METH_O,
     DOC("prefixes($self, query, /)",
         "The pairs whose keys begin a query, or equal it, in a list: the shortest first. (Of keys of bytes that\n"
         "begin no other one it has at most one.)\n\n"
         ">>> routes = Art({b'/': 'home', b'/api': 'calls', b'/api/v1': 'old'}, key=Ended)\n"
         ">>> routes.prefixes(b'/api/v2')\n"
         "[(b'/', 'home'), (b'/api', 'calls')]\n")},
    {"peekitem", BY_NAMES(art_peekitem),
     DOC("peekitem($self, index=-1)",
         "The pair at a place, of which a negative one counts from the end; else IndexError. It walks to it from the\n"
         "nearer end.\n\n"
         ">>> Art({3: 'c', 1: 'a', 2: 'b'}, key=int).peekitem(1)\n"
         "(2, 'b')\n")},
    {"popitem", BY_NAMES(art_popitem),
     DOC("popitem($self, index=-1)",
         "Takes the last pair out, or that at a place, and returns it. KeyError: the map is empty.")},
    {"range", BY_NAMES(art_range),
     DOC("range($self, start=None, stop=None, *, inclusive=(True, False), reverse=False)",
         "Walks along the pairs from start on and below stop, or as inclusive tells of the two bounds.\n\n"
         ">>> pets = Art({b'ape': 1, b'bee': 2, b'cat': 3})\n"
         ">>> list(pets.range(b'ape', b'cat')), list(pets.range(b'b', reverse=True))\n"
         "([(b'ape', 1), (b'bee', 2)], [(b'cat', 3), (b'bee', 2)])\n")},
    {"irange", BY_NAMES(art_irange),
     DOC("irange($self, minimum=None, maximum=None, inclusive=(True, True), reverse=False)",
         "Walks along the keys between two bounds, as that of sortedcontainers.SortedDict.")},
    {"prefix", BY_NAMES(art_prefix),
     DOC("prefix($self, prefix, *, reverse=False)",
         "Walks along the pairs whose keys begin with a prefix.\n\n"
         ">>> list(Art({b'ape': 1, b'cat': 2, b'cow': 3}).prefix(b'c', reverse=True))\n"
         "[(b'cow', 3), (b'cat', 2)]\n")},
    {"_prefix_keys", BY_NAMES(art_prefix_keys), NULL},
    {"remove_prefix", art_remove_prefix, METH_O,
     DOC("remove_prefix($self, prefix, /)",
         "Takes out all pairs whose keys begin with a prefix, or none for want of memory, and returns how many.\n\n"
         ">>> pets = Art({b'ape': 1, b'cat': 2, b'cow': 3})\n"
         ">>> pets.remove_prefix(b'c'), pets\n"
         "(2, Art({b'ape': 1}))\n")},
    {"load", art_load, METH_O,
     DOC("load($self, pairs, /)",
         "Puts in pairs whose keys ascend, many at a time. It stops at the first that is refused: by NotAboveError,\n"
         "ConflictError or MemoryError. Those before it stay.\n\n"
         ">>> squares = Art(key=int)\n"
         ">>> squares.load((it, it * it) for it in range(1000))\n"
         ">>> len(squares), squares[12]\n"
         "(1000, 144)\n"
         ">>> squares.load([(2000, 1), (3000, 1), (2000, 1)])\n"
         "Traceback (most recent call last):\n"
         "artmap.NotAboveError: 2000 is not above the key before it\n"
         ">>> len(squares)\n"
         "1002\n")},
    {"compact", art_compact, METH_NOARGS,
     DOC("compact($self, /)",
         "Puts the nodes of the map in the order of its keys, so that a walk over all is faster, and gives memory\n"
         "back that it does not need. Meanwhile it needs memory for a second tree; MemoryError leaves all as it\n"
         "was.\n\n"
         ">>> pets = Art({b'cat': 2, b'ape': 1})\n"
         ">>> pets.compact()\n"
         ">>> pets\n"
         "Art({b'ape': 1, b'cat': 2})\n")},
    {NULL, NULL, 0, NULL},
};
