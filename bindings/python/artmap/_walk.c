/* A walk: the keys, values or pairs of a span, one by one.
 *
 * Pairs are copied out of the tree many at a time. Where a key came or went since, the walk looks again from the key
 * that it told last: so it tells what was put in ahead of it, and tells nothing that was taken out. No pair is told
 * twice. A value is that of the moment in which it is told. A walk that has ended stays at its end.
 */
#include "_artmap.h"

enum { FEW = 12, FEW_BYTES = 448, MANY = 256, MANY_BYTES = 1 << 14, LONG = 1 << 14, AHEAD = 8 };

struct Walk {
    PyObject_HEAD
    Art *map;        /* NULL at its end */
    PyObject *owner; /* what is kept beside the map, or NULL */
    Kind kind;
    artmap_span span; /* what is left; its keys stand in `from` and `to` */
    artmap_hint hint; /* where the tree has it, if nothing was changed there */
    uint8_t *from, *to;
    size_t from_places;
    size_t seen;          /* the changes of the map when the pairs were copied */
    size_t at, count;     /* of the pairs that were copied, how many are told */
    const uint8_t *next;  /* the key of the next one */
    size_t told;          /* in all */
    size_t left;          /* how many it may still tell; SIZE_MAX: all that there are */
    bool is_all, is_rest; /* whether the span is all pairs; whether no pair is left after those that were copied */
    uint8_t *room;
    artmap_words_pair *pairs;
    size_t room_len, places, wanted;
    artmap_words_pair few_pairs[FEW];
    uint8_t few_bytes[FEW_BYTES];
};

static uint8_t *copied(const void *bytes, size_t len) {
    uint8_t *copy = PyMem_Malloc(len + 1);
    if (copy && len) memcpy(copy, bytes, len);
    if (!copy) PyErr_NoMemory();
    return copy;
}

/* A walk of a type that is at its end. */
static Walk *walk_made(PyTypeObject *type) {
    Walk *it = (Walk *)((allocfunc)PyType_GetSlot(type, Py_tp_alloc))(type, 0);
    if (it) it->room = it->few_bytes, it->pairs = it->few_pairs;
    return it;
}

/* A walk along a span, whose keys are copied. NULL: one that is at its end. */
PyObject *walk_new(Art *map, Kind kind, const artmap_span *span) {
    Walk *it = walk_made(map->state->walk);
    if (!it || !span) return (PyObject *)it;
    it->kind = kind, it->span = *span, it->left = SIZE_MAX;
    it->room_len = FEW_BYTES, it->places = FEW, it->wanted = FEW;
    it->is_all = span->from == ARTMAP_FROM_END && span->to == ARTMAP_TO_END;
    if (it->is_all && store_len(map) > FEW) it->wanted = MANY;
    /* (of one from a key to the end of the map often the first pair alone is wanted) */
    if (span->from != ARTMAP_FROM_END && span->to == ARTMAP_TO_END) it->wanted = 1;
    if (span->from != ARTMAP_FROM_END) {
        if (!(it->from = copied(span->from_key, span->from_len))) return Py_DECREF(it), NULL;
        it->span.from_key = it->from, it->from_places = span->from_len + 1;
    }
    if (span->to != ARTMAP_TO_END) {
        if (!(it->to = copied(span->to_key, span->to_len))) return Py_DECREF(it), NULL;
        it->span.to_key = it->to;
    }
    it->map = (Art *)kept((PyObject *)map);
    return (PyObject *)it;
}

/* A walk along all pairs. */
PyObject *walk_all(Art *map, Kind kind, bool back) {
    artmap_span all = {back, ARTMAP_FROM_END, ARTMAP_TO_END, NULL, 0, NULL, 0};
    return walk_new(map, kind, &all);
}

/* Goes on after the pair that was told last, if one was. */
static bool step_on(Walk *it) {
    if (!it->at) return true;
    size_t len = it->pairs[it->at - 1].key_len;
    if (len + 1 > it->from_places) {
        size_t places = len + len / 2 + 32;
        uint8_t *from = PyMem_Realloc(it->from, places);
        if (!from) return false;
        it->from = from, it->from_places = places;
    }
    memcpy(it->from, it->next - len, len);
    it->span.from_key = it->from, it->span.from_len = len, it->span.from = ARTMAP_AFTER_KEY;
    it->at = it->count = 0;
    return true;
}

/* Makes the rooms so large. It loses what was copied. */
static bool grow(Walk *it, size_t places, size_t bytes) {
    if (bytes > it->room_len) {
        uint8_t *room = PyMem_Malloc(bytes);
        if (!room) return false;
        if (it->room != it->few_bytes) PyMem_Free(it->room);
        it->room = room, it->room_len = bytes;
    }
    if (places > it->places) {
        artmap_words_pair *pairs = PyMem_Malloc(places * sizeof *pairs);
        if (!pairs) return false;
        if (it->pairs != it->few_pairs) PyMem_Free(it->pairs);
        it->pairs = pairs, it->places = places;
    }
    return true;
}

/* Copies the next pairs out. Returns false for want of memory. Where there is none, `count` is 0. */
static bool fetch(Walk *it) {
    bool is_changed = it->count && it->seen != it->map->changes;
    if (!step_on(it)) return false;
    if (is_changed) it->wanted = 1;
    else if (it->told) it->wanted = it->wanted < FEW ? FEW : 4 * it->wanted;
    if (it->wanted > MANY) it->wanted = MANY;
    if (it->wanted > it->places) grow(it, it->wanted, it->wanted == MANY ? MANY_BYTES : it->wanted * 32);
    size_t places = it->wanted < it->places ? it->wanted : it->places;
    if (places > it->left) places = it->left;
    it->at = it->count = 0;
    artmap_code code;
    while ((code = artmap_words_walk_on(&it->map->store.tree, &it->span, &it->hint, it->room, it->room_len, it->pairs,
                                        places, &it->count)) == ARTMAP_NO_ROOM)
        if (!grow(it, 0, it->pairs->key_len)) return it->count = 0, false;
    if (code != ARTMAP_DONE && code != ARTMAP_MORE) it->count = 0;
    it->is_rest = code == ARTMAP_DONE;
    it->seen = it->map->changes, it->next = it->room;
    return true;
}

/* Whether a pair is there that can be told: 1; 0: the walk is at its end; -1: no memory. */
static int has_next(Walk *it) {
    bool is_same = it->seen == it->map->changes;
    if (!it->left) return 0;
    if (it->at < it->count && is_same) return 1;
    if (it->count && it->is_rest && is_same) return 0;
    if (!fetch(it)) return PyErr_NoMemory(), -1;
    return it->count > 0;
}

static void step(Walk *it) {
    it->next += it->pairs[it->at++].key_len;
    it->told++;
    if (it->left != SIZE_MAX) it->left--;
}

/* Asks for the values of pairs that are told soon: first for where they stand, and then for themselves. */
static void ask_ahead(const Walk *it) {
    PyObject *const *slots = it->map->store.slots;
    if (it->count - it->at > 2 * AHEAD) __builtin_prefetch(&slots[it->pairs[it->at + 2 * AHEAD].word]);
    if (it->count - it->at > AHEAD) __builtin_prefetch(slots[it->pairs[it->at + AHEAD].word]);
}

/* What is told of the next pair, and of a pair its two parts in `pair`. NULL: there is none, and `has_ended` is true,
 * or an exception is set. */
static PyObject *told_next(Walk *it, PyObject *pair, bool *has_ended) {
    int found = has_next(it);
    *has_ended = !found;
    if (found <= 0) return NULL;
    const artmap_words_pair *at = &it->pairs[it->at];
    PyObject *key = it->kind == VALUES ? NULL : key_object(it->map->codec, it->next, at->key_len);
    if (!key && it->kind != VALUES) return NULL;
    PyObject *value = it->kind == KEYS ? NULL : kept(it->map->store.slots[at->word]);
    if (value) ask_ahead(it);
    step(it);
    if (it->kind != ITEMS) return key ? key : value;
    PyTuple_SetItem(pair, 0, key);
    PyTuple_SetItem(pair, 1, value);
    return pair;
}

/* The map of a walk, or NULL at its end. */
static Art *map_of(Walk *it) {
    PyObject *map;
    ALONE(it)
    map = (PyObject *)it->map;
    Py_XINCREF(map);
    END_ALONE
    return (Art *)map;
}

/* (A long walk, as that of `list`, lets other threads run now and then.) */
static PyObject *walk_next(PyObject *self) {
    Walk *it = (Walk *)self;
    bool has_ended = true;
    if (it->told % LONG == LONG - 1) {
        Py_BEGIN_ALLOW_THREADS
        Py_END_ALLOW_THREADS
    }
    /* (the collector may run here, and in no line up to END_ALONE_2) */
    PyObject *told = NULL, *owner = NULL, *pair = it->kind == ITEMS ? PyTuple_New(2) : NULL;
    if (it->kind == ITEMS && !pair) return NULL;
    Art *map = map_of(it);
    if (!map) return Py_XDECREF(pair), NULL;
    ALONE_2(it, map)
    if (it->map) told = told_next(it, pair, &has_ended);
    if (has_ended && it->map) it->map = NULL, owner = it->owner, it->owner = NULL, Py_DECREF(map);
    END_ALONE_2
    if (!told) Py_XDECREF(pair);
    Py_DECREF(map);
    Py_XDECREF(owner);
    return told;
}

/* Passes by so many pairs, or as many as there are, and returns how many, or -1 for want of memory. It lets other
 * threads run now and then. */
Py_ssize_t walk_skip(PyObject *self, size_t count) {
    Walk *it = (Walk *)self;
    Art *map = map_of(it);
    size_t passed = 0;
    int found = map != NULL;
    while (found > 0 && passed < count) {
        size_t end = count - passed < LONG ? count : passed + LONG;
        ALONE_2(it, map)
        for (; passed < end && (found = it->map ? has_next(it) : 0) > 0; passed++) step(it);
        END_ALONE_2
        if (found <= 0 || passed == count) break;
        Py_BEGIN_ALLOW_THREADS
        Py_END_ALLOW_THREADS
    }
    Py_XDECREF((PyObject *)map);
    return found < 0 ? -1 : (Py_ssize_t)passed;
}

/* Lets a walk tell so many more at most. Nobody else has it. */
void walk_limit(PyObject *walk, size_t count) { ((Walk *)walk)->left = count; }

/* Lets a walk keep an object up to its end, beside its map. Nobody else has it. */
void walk_keep(PyObject *walk, PyObject *owner) {
    if (((Walk *)walk)->map && !((Walk *)walk)->owner) ((Walk *)walk)->owner = kept(owner);
}

/* What is left of a walk along a map, in a new one. */
static bool copy_rest(const Walk *it, Walk *to) {
    const artmap_words_pair *last = it->at ? &it->pairs[it->at - 1] : NULL;
    to->span = it->span;
    if (last) to->span.from = ARTMAP_AFTER_KEY, to->span.from_len = last->key_len;
    if (to->span.from != ARTMAP_FROM_END) {
        to->from = copied(last ? it->next - last->key_len : it->from, to->span.from_len);
        to->span.from_key = to->from, to->from_places = to->span.from_len + 1;
    }
    if (it->to) to->span.to_key = to->to = copied(it->to, it->span.to_len);
    to->kind = it->kind, to->is_all = it->is_all, to->told = it->told, to->left = it->left;
    to->room_len = FEW_BYTES, to->places = FEW, to->wanted = FEW;
    if ((it->to && !to->to) || (to->span.from != ARTMAP_FROM_END && !to->from)) return false;
    to->map = (Art *)kept((PyObject *)it->map), to->owner = it->owner;
    Py_XINCREF(to->owner);
    return true;
}

static PyObject *walk_copy(PyObject *self, PyObject *none) {
    Walk *it = (Walk *)self, *to = walk_made(Py_TYPE(self));
    bool is_made = true;
    (void)none;
    if (!to) return NULL;
    ALONE(it)
    if (it->map) is_made = copy_rest(it, to);
    END_ALONE
    if (!is_made) Py_CLEAR(to);
    return (PyObject *)to;
}

/* As the iterators of a dict are pickled: a list of what is left, and `iter`. */
static PyObject *walk_reduce(PyObject *self, PyObject *none) {
    PyObject *copy = walk_copy(self, none), *list = copy ? PySequence_List(copy) : NULL;
    PyObject *module = list ? PyImport_ImportModule("builtins") : NULL;
    PyObject *make = module ? PyObject_GetAttrString(module, "iter") : NULL;
    PyObject *found = make ? Py_BuildValue("O(O)", make, list) : NULL;
    Py_XDECREF(copy);
    Py_XDECREF(list);
    Py_XDECREF(module);
    Py_XDECREF(make);
    return found;
}

/* Of all pairs, those that are left as the map is now; of others, those that are copied. */
static PyObject *walk_hint(PyObject *self, PyObject *none) {
    Walk *it = (Walk *)self;
    (void)none;
    Art *map = map_of(it);
    if (!map) return PyLong_FromLong(0);
    size_t len = store_len(map), hint = !it->is_all ? it->count - it->at : len > it->told ? len - it->told : 0;
    Py_DECREF(map);
    return PyLong_FromSize_t(hint < it->left ? hint : it->left);
}

static int walk_traverse(PyObject *self, visitproc visit, void *arg) {
    Py_VISIT(Py_TYPE(self));
    Py_VISIT((PyObject *)((Walk *)self)->map);
    Py_VISIT(((Walk *)self)->owner);
    return 0;
}

static int walk_clear(PyObject *self) {
    Art *map = ((Walk *)self)->map;
    PyObject *owner = ((Walk *)self)->owner;
    ((Walk *)self)->map = NULL, ((Walk *)self)->owner = NULL;
    Py_XDECREF(map);
    Py_XDECREF(owner);
    return 0;
}

static void walk_dealloc(PyObject *self) {
    Walk *it = (Walk *)self;
    PyTypeObject *type = Py_TYPE(self);
    freefunc release = (freefunc)PyType_GetSlot(type, Py_tp_free);
    PyObject_GC_UnTrack(self);
    walk_clear(self);
    if (it->room != it->few_bytes) PyMem_Free(it->room);
    if (it->pairs != it->few_pairs) PyMem_Free(it->pairs);
    PyMem_Free(it->from);
    PyMem_Free(it->to);
    release(self);
    Py_DECREF(type);
}

static PyMethodDef methods[] = {
    {"__length_hint__", walk_hint, METH_NOARGS, NULL},
    {"__copy__", walk_copy, METH_NOARGS, NULL},
    {"__reduce__", walk_reduce, METH_NOARGS, NULL},
    {NULL, NULL, 0, NULL},
};

static PyObject *walk_no_new(PyTypeObject *type, PyObject *args, PyObject *names) {
    (void)args, (void)names;
    return PyErr_Format(PyExc_TypeError, "%R is made by the calls of a map", type);
}

static PyType_Slot slots[] = {
    {Py_tp_new, walk_no_new},
    {Py_tp_doc, "What is walked along: keys, values or pairs, one by one."},
    {Py_tp_iter, PyObject_SelfIter},
    {Py_tp_iternext, walk_next},
    {Py_tp_methods, methods},
    {Py_tp_traverse, walk_traverse},
    {Py_tp_clear, walk_clear},
    {Py_tp_dealloc, walk_dealloc},
    {0, NULL},
};
PyType_Spec walk_spec = {"artmap.Walk", sizeof(Walk), 0, Py_TPFLAGS_DEFAULT | Py_TPFLAGS_HAVE_GC, slots};
