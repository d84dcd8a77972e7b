/* Places in the order of the keys: what lists have, by walks. No node counts the keys below it, so each call here takes
 * time by the number of keys that it passes, from the nearer end where it can.
 */
#include "_artmap.h"

/* The place that a word tells, -1 where it is not given. */
bool place_of(PyObject *word, Py_ssize_t *place) {
    *place = word ? PyNumber_AsSsize_t(word, PyExc_IndexError) : -1;
    return *place != -1 || !PyErr_Occurred();
}

/* What is told of the pair at a place, of which a negative one counts from the end. */
static PyObject *told_at(Art *map, Kind kind, Py_ssize_t place) {
    Py_ssize_t len = (Py_ssize_t)store_len(map), from_start = place < 0 ? place + len : place;
    bool back = from_start > len / 2;
    PyObject *walk = NULL, *told = NULL;
    if (from_start >= 0 && from_start < len && (walk = walk_all(map, kind, back)))
        if (walk_skip(walk, (size_t)(back ? len - 1 - from_start : from_start)) >= 0) told = PyIter_Next(walk);
    if (!told && !PyErr_Occurred()) PyErr_Format(PyExc_IndexError, "there is no place %zd", place);
    Py_XDECREF(walk);
    return told;
}

PyObject *pair_at(Art *map, Py_ssize_t place) { return told_at(map, ITEMS, place); }

/* Takes the pair of a key out, and lets its value go: 1, 0 where it is not stored, or -1 with the exception set. */
static int drop_key(Art *map, PyObject *it) {
    Key key;
    PyObject *value = NULL;
    Place place = key_of(map->codec, it, &key);
    artmap_code code = place == WITHIN ? store_take(map, &key, &value) : ARTMAP_NOT_FOUND;
    key_end(&key);
    Py_XDECREF(value);
    if (code == ARTMAP_NO_MEMORY) PyErr_NoMemory();
    return code == ARTMAP_NO_MEMORY || place == FAILED ? -1 : code == ARTMAP_DONE;
}

/* Takes a pair out that is neither the first nor the last. */
PyObject *take_at(Art *map, Py_ssize_t place) {
    PyObject *pair = pair_at(map, place);
    int status = pair ? drop_key(map, PyTuple_GetItem(pair, 0)) : -1;
    if (!status) PyErr_SetObject(PyExc_KeyError, PyTuple_GetItem(pair, 0));
    if (status <= 0) Py_CLEAR(pair);
    return pair;
}

/* The places of a slice: how many they are, the least of them, and how far they are from one to the next. -1: the
 * exception is set. */
static Py_ssize_t places_of(Art *map, PyObject *slice, Py_ssize_t *least, Py_ssize_t *stride, bool *is_down) {
    Py_ssize_t start, stop, step;
    if (PySlice_Unpack(slice, &start, &stop, &step) < 0) return -1;
    Py_ssize_t count = PySlice_AdjustIndices((Py_ssize_t)store_len(map), &start, &stop, step);
    *is_down = step < 0, *stride = step < 0 ? -step : step;
    *least = *is_down && count ? start + (count - 1) * step : start;
    return count;
}

/* What stands at the places of a slice, in a list. */
static PyObject *slice_of(Art *map, Kind kind, PyObject *slice) {
    Py_ssize_t least, stride;
    bool is_down;
    Py_ssize_t count = places_of(map, slice, &least, &stride, &is_down);
    PyObject *list = count < 0 ? NULL : PyList_New(0), *it;
    if (!list || !count) return list;
    Py_ssize_t above = (Py_ssize_t)store_len(map) - 1 - (least + (count - 1) * stride);
    bool back = above < least;
    PyObject *walk = walk_all(map, kind, back);
    bool is_made = walk && walk_skip(walk, (size_t)(!back ? least : above > 0 ? above : 0)) >= 0;
    while (is_made && count-- && (it = PyIter_Next(walk))) {
        is_made = !PyList_Append(list, it) && (!count || walk_skip(walk, (size_t)stride - 1) >= 0);
        Py_DECREF(it);
    }
    Py_XDECREF(walk);
    if (!is_made || PyErr_Occurred() || (back != is_down && PyList_Reverse(list))) Py_CLEAR(list);
    return list;
}

/* What stands at a place, or at those of a slice. */
PyObject *at_place(Art *map, Kind kind, PyObject *word) {
    Py_ssize_t place;
    if (PySlice_Check(word)) return slice_of(map, kind, word);
    if (PyIndex_Check(word)) return place_of(word, &place) ? told_at(map, kind, place) : NULL;
    return PyErr_Format(PyExc_TypeError, "a place is a number or a slice, not %R", word);
}

/* Takes out what stands at a place, or at those of a slice: 0, or -1 with the exception set. */
int del_place(Art *map, PyObject *word) {
    PyObject *keys = at_place(map, KEYS, word);
    int status = keys ? 0 : -1;
    if (keys && !PySlice_Check(word)) status = drop_key(map, keys);
    for (Py_ssize_t at = 0; status >= 0 && PySlice_Check(word) && at < PyList_Size(keys); at++) {
        PyObject *it = kept(PyList_GetItem(keys, at));
        status = drop_key(map, it);
        Py_DECREF(it);
    }
    Py_XDECREF(keys);
    return status < 0 ? -1 : 0;
}

/* The map of a map, or of a view of its keys. */
static Art *map_of(PyObject *self) {
    State *state = state_of_type(Py_TYPE(self));
    return !state ? NULL : is_art(state, self) ? (Art *)self : view_map(self);
}

/* How many keys are below a key, and with `is_with` how many not above it; -1 with the exception set. */
static Py_ssize_t count_below(Art *map, PyObject *it, bool is_with) {
    Key key;
    Py_ssize_t count = -1;
    Place place = key_of(map->codec, it, &key);
    if (place == ABOVE) count = (Py_ssize_t)store_len(map);
    if (place == BELOW) count = 0;
    if (place == WITHIN) {
        uint32_t to = is_with ? ARTMAP_TO_KEY : ARTMAP_BEFORE_KEY;
        artmap_span span = {false, ARTMAP_FROM_END, to, NULL, 0, key.bytes, key.len};
        PyObject *walk = walk_new(map, KEYS, &span);
        count = walk ? walk_skip(walk, SIZE_MAX) : -1;
        Py_XDECREF(walk);
    }
    key_end(&key);
    return count;
}

static PyObject *bisected(PyObject *self, PyObject *key, bool is_with) {
    Art *map = map_of(self);
    Py_ssize_t count = map ? count_below(map, key, is_with) : -1;
    return count < 0 ? NULL : PyLong_FromSsize_t(count);
}

static PyObject *bisect_left(PyObject *self, PyObject *key) { return bisected(self, key, false); }
static PyObject *bisect_right(PyObject *self, PyObject *key) { return bisected(self, key, true); }

/* Whether a place lies between two others, of which each may be NULL or None: 1 or 0, or -1 with the exception set. */
static int is_between(Art *map, Py_ssize_t place, PyObject *start, PyObject *stop) {
    PyObject *slice = PySlice_New(start, stop, NULL);
    Py_ssize_t least, stride;
    bool is_down;
    Py_ssize_t count = slice ? places_of(map, slice, &least, &stride, &is_down) : -1;
    Py_XDECREF(slice);
    return count < 0 ? -1 : place >= least && place - least < count;
}

static PyObject *index_of(PyObject *self, PyObject *const *args, Py_ssize_t count, PyObject *names) {
    static const char *const known[] = {"key", "start", "stop", NULL};
    PyObject *words[3] = {NULL, NULL, NULL};
    Art *map = map_of(self);
    if (!map || !are_words("index", known, 1, 3, args, count, names, words)) return NULL;
    int is_there = PySequence_Contains((PyObject *)map, words[0]);
    Py_ssize_t place = is_there > 0 ? count_below(map, words[0], false) : -1;
    if (place >= 0) is_there = is_between(map, place, words[1], words[2]);
    if (!is_there) PyErr_Format(PyExc_ValueError, "%R is not there", words[0]);
    return PyErr_Occurred() ? NULL : PyLong_FromSsize_t(place);
}

static PyObject *islice(PyObject *self, PyObject *const *args, Py_ssize_t count, PyObject *names) {
    static const char *const known[] = {"start", "stop", "reverse", NULL};
    PyObject *words[3] = {NULL, NULL, NULL};
    Art *map = map_of(self);
    if (!map || !are_words("islice", known, 0, 3, args, count, names, words)) return NULL;
    int back = words[2] ? PyObject_IsTrue(words[2]) : 0;
    PyObject *slice = back < 0 ? NULL : PySlice_New(words[0], words[1], NULL);
    Py_ssize_t least, stride;
    bool is_down;
    Py_ssize_t places = slice ? places_of(map, slice, &least, &stride, &is_down) : -1;
    PyObject *walk = places < 0 ? NULL : walk_all(map, KEYS, back);
    Py_XDECREF(slice);
    if (!walk) return NULL;
    Py_ssize_t above = (Py_ssize_t)store_len(map) - least - places;
    if (places && walk_skip(walk, (size_t)(!back ? least : above > 0 ? above : 0)) < 0) Py_CLEAR(walk);
    else walk_limit(walk, (size_t)places);
    return walk;
}

#define DOC(words, text) PyDoc_STR(words "\n--\n\n" text)
#define BY_NAMES(call) (PyCFunction)(void (*)(void)) call, METH_FASTCALL | METH_KEYWORDS
PyMethodDef place_methods[] = {
    {"bisect_left", bisect_left, METH_O,
     DOC("bisect_left($self, key, /)",
         "How many keys are below a key, which need not be stored. It walks along them.")},
    {"bisect_right", bisect_right, METH_O,
     DOC("bisect_right($self, key, /)",
         "How many keys are not above a key, which need not be stored. It walks along them.")},
    {"bisect", bisect_right, METH_O, DOC("bisect($self, key, /)", "The same as bisect_right.")},
    {"index", BY_NAMES(index_of),
     DOC("index($self, key, start=None, stop=None)",
         "The place of a key, from start on and before stop; else ValueError. It walks along the keys below it.")},
    {"islice", BY_NAMES(islice),
     DOC("islice($self, start=None, stop=None, reverse=False)",
         "Walks along the keys at the places of a slice. To the first of them it walks from an end.\n\n"
         ">>> list(Art({1: 0, 2: 0, 5: 0, 7: 0}, key=int).islice(1, -1))\n"
         "[2, 5]\n")},
    {NULL, NULL, 0, NULL},
};
