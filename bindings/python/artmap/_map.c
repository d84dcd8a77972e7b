/* The class Art: what a dict does. (_sorted.c has what goes by the order.) */
#include "_artmap.h"

#include <stddef.h>
#include <structmember.h>

State *state_of_type(PyTypeObject *type) {
    for (; type; type = (PyTypeObject *)PyType_GetSlot(type, Py_tp_base)) {
        PyObject *module = PyType_GetModule(type);
        if (module && is_artmap(module)) return (State *)PyModule_GetState(module);
        PyErr_Clear();
    }
    return PyErr_SetString(PyExc_TypeError, "it is no class of artmap"), NULL;
}

bool is_art(State *state, PyObject *it) { return PyObject_TypeCheck(it, state->art); }

/* An Art that is walked as Art is, so that it can be read without its methods. */
bool is_plain_art(State *state, PyObject *it) {
    return is_art(state, it) && (Py_TYPE(it) == state->art ||
                                 PyType_GetSlot(Py_TYPE(it), Py_tp_iter) == PyType_GetSlot(state->art, Py_tp_iter));
}

/* Whether an object has an attribute: 1 or 0, or -1 with the exception set. */
int has_attr(PyObject *it, const char *name) {
    PyObject *found = PyObject_GetAttrString(it, name);
    if (!found && !PyErr_ExceptionMatches(PyExc_AttributeError)) return -1;
    PyErr_Clear();
    Py_XDECREF(found);
    return found != NULL;
}

/* Whether an object is a mapping: 1 or 0, or -1 with the exception set. */
static int is_mapping(State *state, PyObject *it) {
    if (PyDict_Check(it) || is_art(state, it)) return 1;
    return PyObject_IsInstance(it, state->mapping_kind);
}

/* Making, and its end. */

static PyObject *art_new(PyTypeObject *type, PyObject *args, PyObject *names) {
    (void)args, (void)names;
    State *state = state_of_type(type);
    Art *map = state ? (Art *)((allocfunc)PyType_GetSlot(type, Py_tp_alloc))(type, 0) : NULL;
    if (!map) return NULL;
    map->state = state, map->store = STORE_EMPTY;
    map->module = kept(PyType_GetModule(state->art));
    return (PyObject *)map;
}

/* A new map of a class, made without its __init__. */
Art *art_made(State *state, PyTypeObject *type, Codec codec) {
    PyObject *none = PyTuple_New(0);
    PyObject *map = none ? ((newfunc)PyType_GetSlot(type, Py_tp_new))(type, none, NULL) : NULL;
    Py_XDECREF(none);
    if (map && !is_art(state, map)) {
        PyErr_Format(PyExc_TypeError, "__new__ of %R returned no Art", type);
        return Py_DECREF(map), NULL;
    }
    if (map) ((Art *)map)->codec = codec;
    return (Art *)map;
}

/* Makes an empty map a copy of another. */
static int become_copy(Art *map, Art *of) {
    Art *copy = art_made(map->state, map->state->art, of->codec);
    if (!copy) return -1;
    bool is_made = store_clone(of, copy);
    if (is_made) {
        ALONE(map)
        Store old = map->store;
        map->store = copy->store, copy->store = old;
        map->codec = copy->codec, map->changes++;
        END_ALONE
    } else PyErr_NoMemory();
    Py_DECREF(copy);
    return is_made ? 0 : -1;
}

/* Sets the codec to what `key` names, or else to that of the map that is given. */
static int set_codec(Art *map, PyObject *key, PyObject *given) {
    Codec codec = given && is_art(map->state, given) && !store_len(map) ? ((Art *)given)->codec : map->codec;
    if (key && key != Py_None && codec_of(map->state, key, &codec)) return -1;
    if (codec != map->codec && store_len(map))
        return PyErr_SetString(PyExc_ValueError, "the map has keys of another type"), -1;
    map->codec = codec;
    return 0;
}

/* The words that are given by names, without `key`, which is told beside; NULL with the exception set. */
static PyObject *names_of(PyObject *words, PyObject **key) {
    PyObject *names = words ? PyDict_Copy(words) : PyDict_New(), *name = names ? PyUnicode_FromString("key") : NULL;
    *key = name ? PyDict_GetItemWithError(names, name) : NULL;
    Py_XINCREF(*key);
    if (!name || PyErr_Occurred() || (*key && PyDict_DelItem(names, name))) Py_CLEAR(names);
    Py_XDECREF(name);
    return names;
}

static int art_init(PyObject *self, PyObject *args, PyObject *words) {
    Art *map = (Art *)self;
    PyObject *given = NULL, *key = NULL, *names = NULL;
    if (!PyArg_UnpackTuple(args, "Art", 0, 1, &given) || (words && !(names = names_of(words, &key))))
        return Py_XDECREF(key), -1;
    int status = set_codec(map, key, given);
    bool is_copy = given && is_plain_art(map->state, given) && ((Art *)given)->codec == map->codec && !store_len(map);
    if (!status && is_copy) status = become_copy(map, (Art *)given);
    if (!status) status = update_by(map, is_copy ? NULL : given, names);
    Py_XDECREF(key);
    Py_XDECREF(names);
    return status;
}

static int art_traverse(PyObject *self, visitproc visit, void *arg) {
    Art *map = (Art *)self;
    Py_VISIT(Py_TYPE(self));
    Py_VISIT(map->module);
    for (size_t at = 0; at < map->store.used; at++)
        if (!is_free(map->store.slots[at])) Py_VISIT(map->store.slots[at]);
    return 0;
}

/* (The module stays: a map is used again where a finalizer keeps it.) */
static int art_clear_refs(PyObject *self) {
    store_drop(store_detach((Art *)self));
    return 0;
}

static void art_dealloc(PyObject *self) {
    Art *map = (Art *)self;
    PyTypeObject *type = Py_TYPE(self);
    freefunc release = (freefunc)PyType_GetSlot(type, Py_tp_free);
    PyObject_GC_UnTrack(self);
    if (map->weakrefs) PyObject_ClearWeakRefs(self);
    Store store = map->store;
    PyObject *module = map->module;
    release(self);
    store_drop(store);
    Py_XDECREF(module);
    Py_DECREF(type);
}

/* Single keys. */

static Py_ssize_t art_len(PyObject *self) { return (Py_ssize_t)store_len((Art *)self); }

/* The value of a key, or NULL: it is not stored, or an exception is set. A number beyond 64 bits is stored nowhere. */
static PyObject *value_of(Art *map, PyObject *it) {
    Key key;
    PyObject *value = key_of(map->codec, it, &key) == WITHIN ? store_get(map, &key) : NULL;
    key_end(&key);
    return value;
}

/* Takes the pair of a key out, and returns its value, or NULL: it is not stored, or an exception is set. */
static PyObject *taken_of(Art *map, PyObject *it) {
    Key key;
    PyObject *value = NULL;
    artmap_code code = key_of(map->codec, it, &key) == WITHIN ? store_take(map, &key, &value) : ARTMAP_NOT_FOUND;
    key_end(&key);
    if (code == ARTMAP_NO_MEMORY) PyErr_NoMemory();
    return value;
}

static PyObject *raise_missing(PyObject *it) {
    if (!PyErr_Occurred()) PyErr_SetObject(PyExc_KeyError, it);
    return NULL;
}

static PyObject *art_subscript(PyObject *self, PyObject *it) {
    Art *map = (Art *)self;
    PyObject *value = value_of(map, it);
    if (value || PyErr_Occurred()) return value;
    if (Py_TYPE(self) == map->state->art) return raise_missing(it);
    int has = has_attr((PyObject *)Py_TYPE(self), "__missing__");
    return has < 0 ? NULL : has ? PyObject_CallMethod(self, "__missing__", "(O)", it) : raise_missing(it);
}

static int art_ass_subscript(PyObject *self, PyObject *it, PyObject *value) {
    if (value) return put_object((Art *)self, it, value);
    PyObject *old = taken_of((Art *)self, it);
    if (!old) return raise_missing(it), -1;
    Py_DECREF(old);
    return 0;
}

/* What is no key is not in the map. */
static int art_contains(PyObject *self, PyObject *it) {
    PyObject *value = value_of((Art *)self, it);
    Py_XDECREF(value);
    if (value || !PyErr_Occurred()) return value != NULL;
    return is_foreign(it) ? 0 : -1;
}

/* The key and the default that a call is given, the default NULL where it is not. */
static bool are_key_and_default(const char *call, PyObject *const *args, Py_ssize_t count, PyObject *names,
                                PyObject *found[2]) {
    static const char *const known[] = {"key", "default", NULL};
    found[0] = found[1] = NULL;
    return are_words(call, known, 1, 2, args, count, names, found);
}

static PyObject *art_get(PyObject *self, PyObject *const *args, Py_ssize_t count, PyObject *names) {
    PyObject *words[2];
    if (!are_key_and_default("get", args, count, names, words)) return NULL;
    PyObject *value = value_of((Art *)self, words[0]);
    return value || PyErr_Occurred() ? value : kept(words[1] ? words[1] : Py_None);
}

static PyObject *art_setdefault(PyObject *self, PyObject *const *args, Py_ssize_t count, PyObject *names) {
    PyObject *words[2];
    if (!are_key_and_default("setdefault", args, count, names, words)) return NULL;
    return default_put((Art *)self, words[0], words[1] ? words[1] : Py_None);
}

static PyObject *art_pop(PyObject *self, PyObject *const *args, Py_ssize_t count, PyObject *names) {
    PyObject *words[2];
    if (!are_key_and_default("pop", args, count, names, words)) return NULL;
    PyObject *value = taken_of((Art *)self, words[0]);
    return value || PyErr_Occurred() ? value : words[1] ? kept(words[1]) : raise_missing(words[0]);
}

/* All pairs. */

static PyObject *art_iter(PyObject *self) { return walk_all((Art *)self, KEYS, false); }

static PyObject *art_reversed(PyObject *self, PyObject *none) {
    (void)none;
    return walk_all((Art *)self, KEYS, true);
}

static PyObject *art_keys(PyObject *self, PyObject *none) {
    (void)none;
    return view_new(((Art *)self)->state->keys, (Art *)self);
}

static PyObject *art_values(PyObject *self, PyObject *none) {
    (void)none;
    return view_new(((Art *)self)->state->values, (Art *)self);
}

static PyObject *art_items(PyObject *self, PyObject *none) {
    (void)none;
    return view_new(((Art *)self)->state->items, (Art *)self);
}

static PyObject *art_clear(PyObject *self, PyObject *none) {
    (void)none;
    store_drop(store_detach((Art *)self));
    Py_RETURN_NONE;
}

static PyObject *art_update(PyObject *self, PyObject *args, PyObject *names) {
    PyObject *given = NULL;
    if (!PyArg_UnpackTuple(args, "update", 0, 1, &given) || update_by((Art *)self, given, names)) return NULL;
    Py_RETURN_NONE;
}

static PyObject *art_fromkeys(PyObject *type, PyObject *args, PyObject *words) {
    static char *known[] = {"iterable", "value", "key", NULL};
    PyObject *given, *value = Py_None, *kind = NULL, *it;
    if (!PyArg_ParseTupleAndKeywords(args, words, "O|O$O:fromkeys", known, &given, &value, &kind)) return NULL;
    PyObject *none = PyTuple_New(0), *how = PyDict_New();
    bool is_ready = none && how && (!kind || kind == Py_None || !PyDict_SetItemString(how, "key", kind));
    PyObject *map = is_ready ? PyObject_Call(type, none, how) : NULL, *walk = map ? PyObject_GetIter(given) : NULL;
    Py_XDECREF(none);
    Py_XDECREF(how);
    for (int status = 0; walk && !status && (it = PyIter_Next(walk));) {
        status = PyObject_SetItem(map, it, value);
        Py_DECREF(it);
    }
    Py_XDECREF(walk);
    if (PyErr_Occurred()) Py_CLEAR(map);
    return map;
}

/* The pairs in a dict, in their order. */
static PyObject *dict_of(PyObject *self) {
    PyObject *dict = PyDict_New(), *walk = dict ? walk_all((Art *)self, ITEMS, false) : NULL;
    if (!walk || PyDict_MergeFromSeq2(dict, walk, 1)) Py_CLEAR(dict);
    Py_XDECREF(walk);
    return dict;
}

static PyObject *art_repr(PyObject *self) {
    Art *map = (Art *)self;
    PyObject *name = PyObject_GetAttrString((PyObject *)Py_TYPE(self), "__name__"), *text = NULL;
    int entered = name ? Py_ReprEnter(self) : -1;
    if (entered > 0) text = PyUnicode_FromFormat("%S(...)", name);
    if (entered == 0) {
        PyObject *dict = store_len(map) ? dict_of(self) : PyUnicode_FromString("");
        static const char *const kinds[] = {"", "key=Ended", "key=str", "key=int"};
        const char *kind = kinds[map->codec];
        const char *comma = store_len(map) && *kind ? ", " : "";
        if (dict && PyDict_Check(dict)) text = PyUnicode_FromFormat("%S(%R%s%s)", name, dict, comma, kind);
        else if (dict) text = PyUnicode_FromFormat("%S(%s)", name, kind);
        Py_XDECREF(dict);
        Py_ReprLeave(self);
    }
    Py_XDECREF(name);
    return text;
}

/* The value of a key in a dict, or NULL: it has none, or an exception is set. */
static PyObject *value_in(PyObject *dict, PyObject *key) {
#ifdef Py_GIL_DISABLED
    PyObject *found = NULL;
    PyDict_GetItemRef(dict, key, &found);
#else
    PyObject *found = PyDict_GetItemWithError(dict, key);
    Py_XINCREF(found);
#endif
    return found;
}

/* Whether a value is that of a key in a map or dict: 1 or 0, or -1 with the exception set. */
static int is_pair_of(Art *map, PyObject *other, PyObject *key, PyObject *value) {
    PyObject *found = is_art(map->state, other) ? value_of((Art *)other, key) : value_in(other, key);
    int is_same = found ? PyObject_RichCompareBool(value, found, Py_EQ) : PyErr_Occurred() ? -1 : 0;
    Py_XDECREF(found);
    return is_same;
}

/* Whether a dict or a map of the same keys has the same pairs: 1 or 0, or -1 with the exception set. */
static int has_same_pairs(Art *map, PyObject *other) {
    PyObject *walk = walk_all(map, ITEMS, false), *pair;
    int is_same = walk ? 1 : -1;
    while (is_same > 0 && (pair = PyIter_Next(walk))) {
        is_same = is_pair_of(map, other, PyTuple_GetItem(pair, 0), PyTuple_GetItem(pair, 1));
        Py_DECREF(pair);
    }
    Py_XDECREF(walk);
    return PyErr_Occurred() ? -1 : is_same;
}

static int is_equal(Art *map, PyObject *other) {
    Py_ssize_t len = PyObject_Size(other);
    if (len < 0) return -1;
    if ((size_t)len != store_len(map)) return 0;
    if (is_art(map->state, other)) {
        Codec codec = ((Art *)other)->codec;
        bool are_alike = codec == map->codec || (codec <= OF_ENDED && map->codec <= OF_ENDED);
        return !len || (are_alike && has_same_pairs(map, other) > 0);
    }
    if (PyDict_Check(other)) return has_same_pairs(map, other);
    PyObject *items = PyMapping_Items(other), *dict = items ? PyDict_New() : NULL;
    int is_same = dict && !PyDict_MergeFromSeq2(dict, items, 1) ? has_same_pairs(map, dict) : -1;
    Py_XDECREF(items);
    Py_XDECREF(dict);
    return is_same;
}

static PyObject *art_compare(PyObject *self, PyObject *other, int how) {
    Art *map = (Art *)self;
    int is_one = how == Py_EQ || how == Py_NE ? is_mapping(map->state, other) : 0;
    if (!is_one) return kept(Py_NotImplemented);
    int is_same = is_one < 0 ? -1 : is_equal(map, other);
    return is_same < 0 || PyErr_Occurred() ? NULL : PyBool_FromLong(is_same == (how == Py_EQ));
}

/* Copies. */

/* What artmap._state does. */
static PyObject *by_state(const char *call, PyObject *self, PyObject *other) {
    PyObject *module = PyImport_ImportModule("artmap._state");
    PyObject *found = module ? PyObject_CallMethod(module, call, other ? "OO" : "O", self, other) : NULL;
    Py_XDECREF(module);
    return found;
}

/* A map of the same class with the same pairs and attributes. */
static PyObject *art_copy(PyObject *self, PyObject *none) {
    Art *map = (Art *)self, *copy = art_made(map->state, Py_TYPE(self), map->codec);
    (void)none;
    if (!copy) return NULL;
    PyObject *done = NULL;
    if (become_copy(copy, map)) return Py_DECREF(copy), NULL;
    if (Py_TYPE(self) == map->state->art) return (PyObject *)copy;
    if (!(done = by_state("copy_state", self, (PyObject *)copy))) Py_CLEAR(copy);
    Py_XDECREF(done);
    return (PyObject *)copy;
}

static PyObject *art_reduce(PyObject *self, PyObject *none) {
    Art *map = (Art *)self;
    (void)none;
    PyObject *state = Py_TYPE(self) == map->state->art ? kept(Py_None) : by_state("state_of", self, NULL);
    PyObject *make = state ? PyObject_GetAttrString(map->module, "_rebuilt") : NULL;
    PyObject *kind = codec_type(map->state, map->codec), *found = NULL;
    PyObject *items = make ? walk_all(map, ITEMS, false) : NULL;
    if (items) found = Py_BuildValue("O(OO)OOO", make, Py_TYPE(self), kind, state, Py_None, items);
    Py_XDECREF(state);
    Py_XDECREF(make);
    Py_XDECREF(kind);
    Py_XDECREF(items);
    return found;
}

static PyObject *art_or(PyObject *left, PyObject *right) {
    State *state = state_of_type(Py_TYPE(left));
    if (!state) PyErr_Clear(), state = state_of_type(Py_TYPE(right));
    if (!state) return NULL;
    bool is_left = is_art(state, left);
    int is_one = is_mapping(state, is_left ? right : left);
    if (is_one <= 0) return is_one ? NULL : kept(Py_NotImplemented);
    Art *made = is_left ? (Art *)PyObject_CallMethod(left, "copy", NULL)
                        : art_made(state, Py_TYPE(right), ((Art *)right)->codec);
    if (made && !is_art(state, (PyObject *)made)) return (PyObject *)made;
    if (made && ((!is_left && update_by(made, left, NULL)) || update_by(made, right, NULL))) Py_CLEAR(made);
    return (PyObject *)made;
}

static PyObject *art_ior(PyObject *self, PyObject *other) {
    return update_by((Art *)self, other, NULL) ? NULL : kept(self);
}

/* The bytes of the map with its tree, as malloc gives them, and without what the values take. */
static PyObject *art_sizeof(PyObject *self, PyObject *none) {
    const Store *store = &((Art *)self)->store;
    (void)none;
    PyObject *size = PyObject_GetAttrString((PyObject *)Py_TYPE(self), "__basicsize__");
    Py_ssize_t base = size ? PyLong_AsSsize_t(size) : -1;
    Py_XDECREF(size);
    return base < 0 ? NULL : PyLong_FromSsize_t(base + store->bytes + (Py_ssize_t)(store->places * sizeof(PyObject *)));
}

static PyObject *art_key(PyObject *self, void *none) {
    (void)none;
    Art *map = (Art *)self;
    return codec_type(map->state, map->codec);
}

PyDoc_STRVAR(art_doc, "Art(pairs=(), /, *, key=bytes, **names): a sorted map from bytes to any objects, or from texts "
                      "(key=str), or from\n"
                      "numbers of 64 bits (key=int).\n\n"
                      ">>> from artmap import Art\n"
                      ">>> pets = Art({b'cat': 1, b'dog': 2, b'car': 3})\n"
                      ">>> list(pets), pets[b'dog'], list(pets.prefix(b'ca'))\n"
                      "([b'car', b'cat', b'dog'], 2, [(b'car', 3), (b'cat', 1)])\n");

#define DOC(words, text) PyDoc_STR(words "\n--\n\n" text)
static PyMethodDef methods[] = {
    {"get", (PyCFunction)(void (*)(void))art_get, METH_FASTCALL | METH_KEYWORDS,
     DOC("get($self, key, default=None)", "The value of a key, or else the default.")},
    {"setdefault", (PyCFunction)(void (*)(void))art_setdefault, METH_FASTCALL | METH_KEYWORDS,
     DOC("setdefault($self, key, default=None)",
         "The value of a key, which is put in with the default where it is not stored.")},
    {"pop", (PyCFunction)(void (*)(void))art_pop, METH_FASTCALL | METH_KEYWORDS,
     PyDoc_STR("pop(key[, default])\n\nTakes the pair of a key out, and returns its value; or else the default, or "
               "KeyError.")},
    {"keys", art_keys, METH_NOARGS, DOC("keys($self, /)", "A set-like view of the keys, ascending.")},
    {"values", art_values, METH_NOARGS, DOC("values($self, /)", "A view of the values, by ascending keys.")},
    {"items", art_items, METH_NOARGS, DOC("items($self, /)", "A set-like view of the pairs, by ascending keys.")},
    {"clear", art_clear, METH_NOARGS, DOC("clear($self, /)", "Takes all pairs out.")},
    {"update", (PyCFunction)(void (*)(void))art_update, METH_VARARGS | METH_KEYWORDS,
     PyDoc_STR("update([pairs], **names)\n\n"
               "Puts in the pairs of a mapping or of an iterable. Where one fails, those before it stay.")},
    {"fromkeys", (PyCFunction)(void (*)(void))art_fromkeys, METH_CLASS | METH_VARARGS | METH_KEYWORDS,
     DOC("fromkeys($type, iterable, value=None, *, key=None)",
         "A map of these keys, which all have one value; key is the type of the keys.")},
    {"copy", art_copy, METH_NOARGS,
     DOC("copy($self, /)", "A map of the same class with the same pairs and attributes.")},
    {"__copy__", art_copy, METH_NOARGS, NULL},
    {"__reduce__", art_reduce, METH_NOARGS, NULL},
    {"__reversed__", art_reversed, METH_NOARGS, DOC("__reversed__($self, /)", "Walks along the keys, descending.")},
    {"__sizeof__", art_sizeof, METH_NOARGS, DOC("__sizeof__($self, /)", "The bytes of the map, without its values.")},
    {"__class_getitem__", Py_GenericAlias, METH_O | METH_CLASS, NULL},
    {NULL, NULL, 0, NULL},
};

static PyGetSetDef parts[] = {
    {"key", art_key, NULL, PyDoc_STR("The type of the keys: bytes, Ended, str or int."), NULL},
    {NULL, NULL, NULL, NULL, NULL},
};

static PyMemberDef members[] = {
    {"__weaklistoffset__", T_PYSSIZET, offsetof(Art, weakrefs), READONLY, NULL},
    {NULL, 0, 0, 0, NULL},
};

static PyType_Slot slots[] = {
    {Py_tp_doc, (void *)art_doc},     {Py_tp_new, art_new},
    {Py_tp_init, art_init},           {Py_tp_dealloc, art_dealloc},
    {Py_tp_traverse, art_traverse},   {Py_tp_clear, art_clear_refs},
    {Py_tp_iter, art_iter},           {Py_tp_repr, art_repr},
    {Py_tp_richcompare, art_compare}, {Py_tp_hash, PyObject_HashNotImplemented},
    {Py_tp_methods, methods},         {Py_tp_getset, parts},
    {Py_tp_members, members},         {Py_mp_length, art_len},
    {Py_mp_subscript, art_subscript}, {Py_mp_ass_subscript, art_ass_subscript},
    {Py_sq_contains, art_contains},   {Py_nb_or, art_or},
    {Py_nb_inplace_or, art_ior},      {0, NULL},
};
PyType_Spec art_spec = {"artmap.Art", sizeof(Art), 0, Py_TPFLAGS_DEFAULT | Py_TPFLAGS_BASETYPE | Py_TPFLAGS_HAVE_GC,
                        slots};
