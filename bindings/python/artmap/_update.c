/* Many pairs go in. Where their keys ascend they are kept together, and go in by one call of the library where they are
 * above all that is stored. */
#include "_artmap.h"

/* So many pairs go in together, or as many as have so many bytes. (The first few of them are inserted, and so cost
 * more.) So often they do until other threads may run. */
enum { FIRST = 64, MANY = 4096, BYTES = 1 << 15, REST = 4 };

/* Pairs that ascend, which go in together: `most` have room. The first `before` bytes of `keys` are the key of the last
 * pair that went in, if `has_before` is. Where the map `is_first` filled so, no memory stays that no pair uses. */
typedef struct Bulk {
    Art *map;
    Codec codec;
    bool must_ascend, is_first, has_before;
    size_t count, most, before, len, places, flushed;
    uint8_t *keys;
    artmap_words_pair *pairs;
    PyObject **values;
} Bulk;

static int raise_with(PyObject *type, PyObject *text, PyObject *key, PyObject *stored) {
    PyObject *why = text ? PyObject_CallFunctionObjArgs(type, text, NULL) : NULL;
    if (why && !PyObject_SetAttrString(why, "key", key) && !PyObject_SetAttrString(why, "stored", stored))
        PyErr_SetObject(type, why);
    Py_XDECREF(why);
    Py_XDECREF(text);
    return -1;
}

/* Raises ConflictError, which names the stored key. (Only keys of bytes are in conflict.) */
static int raise_conflict(Art *map, PyObject *it) {
    Key key;
    Found front;
    PyObject *stored = NULL, *value = NULL, *text;
    if (key_of(OF_BYTES, it, &key) == WITHIN) {
        int found = store_find(map, &key, &front);
        bool is_front = found > 0;
        artmap_span with = {false, ARTMAP_FROM_END, ARTMAP_WITH_PREFIX, NULL, 0, key.bytes, key.len};
        if (!found) found = store_first(map, &with, &stored, &value);
        else if (is_front) value = front.value, stored = key_object(OF_BYTES, key.bytes, front.len);
        if (found >= 0 && (stored || !is_front)) {
            text = !found     ? PyUnicode_FromFormat("%R begins a stored key, or a stored key begins it", it)
                   : is_front ? PyUnicode_FromFormat("the stored key %R begins %R", stored, it)
                              : PyUnicode_FromFormat("%R begins the stored key %R", it, stored);
            raise_with(map->state->conflict_error, text, it, stored ? stored : Py_None);
        }
    }
    key_end(&key);
    Py_XDECREF(stored);
    Py_XDECREF(value);
    return -1;
}

static int raise_beyond(PyObject *it) {
    return PyErr_Format(PyExc_OverflowError, "keys of this map are of 64 bits: %R", it), -1;
}

/* Raises what refused a pair: 0 where nothing did. */
static int raise_code(Art *map, artmap_code code, PyObject *it) {
    if (code <= ARTMAP_REPLACED) return 0;
    if (code == ARTMAP_CONFLICT) return raise_conflict(map, it);
    if (code != OTHER_KEYS) return PyErr_NoMemory(), -1;
    return PyErr_SetString(PyExc_RuntimeError, "the type of the map's keys changed during the call"), -1;
}

/* Puts a pair in: 0, or -1 with the exception set. */
int put_object(Art *map, PyObject *it, PyObject *value) {
    Key key;
    PyObject *old = NULL;
    Place place = key_of(map->codec, it, &key);
    artmap_code code = place == WITHIN ? store_put(map, &key, value, &old) : ARTMAP_DONE;
    key_end(&key);
    Py_XDECREF(old);
    return place == WITHIN ? raise_code(map, code, it) : place == FAILED ? -1 : raise_beyond(it);
}

/* The value of a key, which is put in where it is not stored; NULL with the exception set. */
PyObject *default_put(Art *map, PyObject *it, PyObject *value) {
    Key key;
    PyObject *found = NULL, *old = NULL;
    Place place = key_of(map->codec, it, &key);
    artmap_code code = ARTMAP_DONE;
    if (place == WITHIN && !(found = store_get(map, &key))) {
        code = store_put(map, &key, value, &old);
        if (code <= ARTMAP_REPLACED) found = kept(value);
    }
    key_end(&key);
    Py_XDECREF(old);
    if (place > WITHIN) raise_beyond(it);
    raise_code(map, code, it);
    return found;
}

/* Raises what refused the pair whose key stands at `bytes`. */
static int raise_of(Bulk *bulk, artmap_code code, const uint8_t *bytes, size_t len) {
    PyObject *key = code == ARTMAP_CONFLICT ? key_object(bulk->codec, bytes, len) : kept(Py_None);
    if (key) raise_code(bulk->map, code, key);
    Py_XDECREF(key);
    return -1;
}

/* Puts pairs in one by one, from `taken` on, and tells how many are in. */
static artmap_code put_each(Bulk *bulk, const uint8_t *bytes, size_t *taken) {
    for (; *taken < bulk->count; ++*taken) {
        PyObject *old;
        Key key = {.codec = bulk->codec, .bytes = bytes, .len = bulk->pairs[*taken].key_len};
        artmap_code code = store_put(bulk->map, &key, bulk->values[*taken], &old);
        Py_XDECREF(old);
        if (code > ARTMAP_REPLACED) return code;
        bytes += key.len;
    }
    return ARTMAP_DONE;
}

/* Puts in what is kept: 0, or -1 with the exception set. Then nothing is kept, and the last key is the one before. */
static int flush(Bulk *bulk) {
    size_t count = bulk->count, taken = 0;
    const uint8_t *keys = bulk->keys + bulk->before, *at = keys;
    if (!count) return 0;
    artmap_code code =
        store_load(bulk->map, bulk->codec, keys, bulk->len - bulk->before, bulk->pairs, bulk->values, count, &taken);
    /* (the map has the values of those that went in) */
    size_t given = taken;
    if (code == ARTMAP_NOT_ABOVE && !taken) code = put_each(bulk, keys, &taken);
    for (size_t passed = 0; passed < taken; passed++) at += bulk->pairs[passed].key_len;
    int status = code == ARTMAP_DONE ? 0 : raise_of(bulk, code, at, bulk->pairs[taken].key_len);
    bulk->count = 0;
    size_t last = bulk->pairs[count - 1].key_len;
    memmove(bulk->keys, bulk->keys + bulk->len - last, last);
    bulk->before = bulk->len = last, bulk->has_before = true;
    for (size_t it = given; it < count; it++) Py_DECREF(bulk->values[it]);
    if (++bulk->flushed % REST == 0) {
        Py_BEGIN_ALLOW_THREADS
        Py_END_ALLOW_THREADS
    }
    return status ? status : PyErr_CheckSignals();
}

/* Whether a key is above the one before it. */
static bool is_above(const Bulk *bulk, const Key *key) {
    size_t before = bulk->count ? bulk->pairs[bulk->count - 1].key_len : bulk->before;
    if (!bulk->count && !bulk->has_before) return true;
    const uint8_t *one = bulk->keys + bulk->len - before, *other = key->bytes;
    size_t both = before < key->len ? before : key->len, at = 0;
    for (; both - at >= 8; at += 8) {
        uint64_t this = number_at(one + at), next = number_at(other + at);
        if (this != next) return this < next;
    }
    int order = at < both ? memcmp(one + at, other + at, both - at) : 0;
    return order < 0 || (order == 0 && before < key->len);
}

/* Makes room for more pairs. */
static bool is_larger(Bulk *bulk) {
    size_t most = bulk->most ? 2 * bulk->most : FIRST;
    artmap_words_pair *pairs = PyMem_Realloc(bulk->pairs, most * sizeof *pairs);
    if (pairs) bulk->pairs = pairs;
    PyObject **values = pairs ? PyMem_Realloc(bulk->values, most * sizeof *values) : NULL;
    if (values) bulk->values = values, bulk->most = most;
    return values;
}

static int keep(Bulk *bulk, const Key *key, PyObject *value) {
    if (bulk->count == bulk->most && !is_larger(bulk)) return PyErr_NoMemory(), -1;
    size_t len = bulk->len + key->len;
    if (len >= bulk->places) {
        uint8_t *keys = PyMem_Realloc(bulk->keys, len + len / 2 + 4096);
        if (!keys) return PyErr_NoMemory(), -1;
        bulk->keys = keys, bulk->places = len + len / 2 + 4096;
    }
    if (key->len) memcpy(bulk->keys + bulk->len, key->bytes, key->len);
    bulk->len = len;
    bulk->pairs[bulk->count] = (artmap_words_pair){key->len, 0};
    bulk->values[bulk->count++] = kept(value);
    return 0;
}

/* Whether no code of Python's runs where an object becomes a key. */
static bool is_plain_key(PyObject *it) {
    return PyBytes_CheckExact(it) || PyUnicode_CheckExact(it) || PyLong_CheckExact(it);
}

/* Adds a pair to those that are kept. They go in first where it is not above them, or there is no place, or code of
 * Python's is to run, which must find them in an update. */
static int add(Bulk *bulk, PyObject *it, PyObject *value) {
    Key key;
    int status = -1;
    if (!bulk->must_ascend && !is_plain_key(it) && flush(bulk)) return -1;
    Place place = key_of(bulk->codec, it, &key);
    if (place == WITHIN) {
        bool above = is_above(bulk, &key);
        if ((above && bulk->count < MANY && bulk->len < BYTES) || !(status = flush(bulk))) {
            status = above || !bulk->must_ascend
                         ? keep(bulk, &key, value)
                         : raise_with(bulk->map->state->not_above_error,
                                      PyUnicode_FromFormat("%R is not above the key before it", it), it, Py_None);
        }
    } else if (place != FAILED) raise_beyond(it);
    key_end(&key);
    return status;
}

/* Puts in what is kept, also where what came after it failed: then that is raised, if this is not. */
static int bulk_end(Bulk *bulk, int status) {
    PyObject *type = NULL, *why = NULL, *trace = NULL;
    if (status) PyErr_Fetch(&type, &why, &trace);
    if (flush(bulk)) {
        status = -1;
        Py_XDECREF(type);
        Py_XDECREF(why);
        Py_XDECREF(trace);
    } else if (status) PyErr_Restore(type, why, trace);
    if (bulk->is_first) store_fit(bulk->map);
    PyMem_Free(bulk->keys);
    PyMem_Free(bulk->pairs);
    PyMem_Free(bulk->values);
    return status;
}

/* The two parts of a pair of a sequence, as a tuple, in the place of the pair; NULL with the exception set. */
static PyObject *parts_of(PyObject *pair, size_t at) {
    PyObject *parts = pair;
    if (!PyTuple_CheckExact(pair)) {
        parts = PySequence_Tuple(pair);
        if (!parts && PyErr_ExceptionMatches(PyExc_TypeError))
            PyErr_Format(PyExc_TypeError, "element #%zu is no pair, and can't be made a sequence", at);
        Py_DECREF(pair);
    }
    if (!parts || PyTuple_Size(parts) == 2) return parts;
    PyErr_Format(PyExc_ValueError, "element #%zu has length %zd; 2 is required", at, PyTuple_Size(parts));
    Py_DECREF(parts);
    return NULL;
}

/* Puts in the pairs of an iterable. Without `bulk` each goes in before the next is asked for. */
static int add_pairs(Art *map, PyObject *pairs, Bulk *bulk) {
    PyObject *walk = PyObject_GetIter(pairs), *pair;
    int status = walk ? 0 : -1;
    for (size_t at = 0; !status && (pair = PyIter_Next(walk)); at++) {
        if (bulk && !bulk->must_ascend && !PyTuple_CheckExact(pair)) status = flush(bulk);
        if (status) Py_DECREF(pair);
        else if (!(pair = parts_of(pair, at))) status = -1;
        if (status) break;
        PyObject *key = PyTuple_GetItem(pair, 0), *value = PyTuple_GetItem(pair, 1);
        status = bulk ? add(bulk, key, value) : put_object(map, key, value);
        Py_DECREF(pair);
    }
    Py_XDECREF(walk);
    return status || PyErr_Occurred() ? -1 : 0;
}

static int add_dict(Bulk *bulk, PyObject *dict) {
    PyObject *key, *value;
    Py_ssize_t at = 0, size = PyDict_Size(dict);
    int status = 0;
    while (!status && PyDict_Next(dict, &at, &key, &value)) {
        Py_INCREF(key);
        Py_INCREF(value);
        status = add(bulk, key, value);
        Py_DECREF(key);
        Py_DECREF(value);
        if (!status && PyDict_Size(dict) != size) {
            PyErr_SetString(PyExc_RuntimeError, "the dict changed its size during the update");
            status = -1;
        }
    }
    return status;
}

/* Puts in the pairs of what has `keys`, one after the other. */
static int add_mapping(Art *map, PyObject *given) {
    PyObject *keys = PyObject_CallMethod(given, "keys", NULL), *walk = keys ? PyObject_GetIter(keys) : NULL, *key;
    int status = walk ? 0 : -1;
    Py_XDECREF(keys);
    while (!status && (key = PyIter_Next(walk))) {
        PyObject *value = PyObject_GetItem(given, key);
        status = value ? put_object(map, key, value) : -1;
        Py_DECREF(key);
        Py_XDECREF(value);
    }
    Py_XDECREF(walk);
    return status || PyErr_Occurred() ? -1 : 0;
}

/* Puts in the pairs of a mapping or of an iterable, and those of names: 0, or -1 with the exception set. */
int update_by(Art *map, PyObject *given, PyObject *names) {
    int status = 0;
    if (given && given != (PyObject *)map) {
        bool is_plain = IS_DICT_TO_WALK(given) || PyList_CheckExact(given) || PyTuple_CheckExact(given);
        if (is_plain || is_plain_art(map->state, given)) {
            Bulk bulk = {.map = map, .codec = map->codec, .is_first = !store_len(map)};
            PyObject *items = is_plain ? kept(given) : walk_all((Art *)given, ITEMS, false);
            status = !items ? -1 : PyDict_Check(given) ? add_dict(&bulk, given) : add_pairs(map, items, &bulk);
            Py_XDECREF(items);
            status = bulk_end(&bulk, status);
        } else {
            int has_keys = has_attr(given, "keys");
            status = has_keys < 0 ? -1 : has_keys ? add_mapping(map, given) : add_pairs(map, given, NULL);
        }
    }
    PyObject *name, *value;
    for (Py_ssize_t at = 0; !status && names && PyDict_Next(names, &at, &name, &value);) {
        Py_INCREF(name);
        Py_INCREF(value);
        status = put_object(map, name, value);
        Py_DECREF(name);
        Py_DECREF(value);
    }
    return status;
}

PyObject *art_load(PyObject *self, PyObject *pairs) {
    Art *map = (Art *)self;
    Bulk bulk = {.map = map, .codec = map->codec, .must_ascend = true, .is_first = !store_len(map)};
    int has_keys = has_attr(pairs, "keys");
    if (has_keys < 0) return NULL;
    PyObject *items = has_keys ? PyMapping_Items(pairs) : kept(pairs);
    int status = bulk_end(&bulk, items ? add_pairs(map, items, &bulk) : -1);
    Py_XDECREF(items);
    if (status) return NULL;
    Py_RETURN_NONE;
}
