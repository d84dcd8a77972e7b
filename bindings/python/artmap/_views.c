/* The views of a map: its keys and pairs, which are as sets, and its values. */
#include "_artmap.h"

typedef struct View {
    PyObject_HEAD
    Art *map;
} View;

static Art *map_of(PyObject *self) { return ((View *)self)->map; }

Art *view_map(PyObject *view) { return map_of(view); }

PyObject *view_new(PyTypeObject *type, Art *map) {
    View *view = (View *)((allocfunc)PyType_GetSlot(type, Py_tp_alloc))(type, 0);
    if (view) view->map = (Art *)kept((PyObject *)map);
    return (PyObject *)view;
}

static PyObject *no_new(PyTypeObject *type, PyObject *args, PyObject *names) {
    (void)args, (void)names;
    return PyErr_Format(PyExc_TypeError, "%R is made by the calls of a map", type);
}

static int view_traverse(PyObject *self, visitproc visit, void *arg) {
    Py_VISIT(Py_TYPE(self));
    Py_VISIT((PyObject *)map_of(self));
    return 0;
}

/* (A view keeps its map: a cycle through it is broken at the map.) */
static void view_dealloc(PyObject *self) {
    PyTypeObject *type = Py_TYPE(self);
    Art *map = map_of(self);
    PyObject_GC_UnTrack(self);
    ((freefunc)PyType_GetSlot(type, Py_tp_free))(self);
    Py_XDECREF(map);
    Py_DECREF(type);
}

static Py_ssize_t view_len(PyObject *self) { return (Py_ssize_t)store_len(map_of(self)); }

static Kind kind_of(PyObject *self) {
    State *state = map_of(self)->state;
    return Py_TYPE(self) == state->keys ? KEYS : Py_TYPE(self) == state->values ? VALUES : ITEMS;
}

static PyObject *view_iter(PyObject *self) { return walk_all(map_of(self), kind_of(self), false); }

static PyObject *view_reversed(PyObject *self, PyObject *none) {
    (void)none;
    return walk_all(map_of(self), kind_of(self), true);
}

static PyObject *view_repr(PyObject *self) {
    static const char *const names[] = {"keys", "values", "items"};
    int entered = Py_ReprEnter(self);
    if (entered) return entered > 0 ? PyUnicode_FromString("...") : NULL;
    PyObject *list = PySequence_List(self), *text = NULL;
    if (list) text = PyUnicode_FromFormat("artmap.%s(%R)", names[kind_of(self)], list);
    Py_XDECREF(list);
    Py_ReprLeave(self);
    return text;
}

static PyObject *view_mapping(PyObject *self, void *none) {
    (void)none;
    return PyDictProxy_New((PyObject *)map_of(self));
}

static PyObject *view_at(PyObject *self, PyObject *place) { return at_place(map_of(self), kind_of(self), place); }

static int keys_del(PyObject *self, PyObject *place, PyObject *value) {
    if (!value) return del_place(map_of(self), place);
    return PyErr_SetString(PyExc_TypeError, "no place of the keys can be assigned to"), -1;
}

static PyObject *keys_count(PyObject *self, PyObject *key) {
    int count = PySequence_Contains((PyObject *)map_of(self), key);
    return count < 0 ? NULL : PyLong_FromLong(count);
}

/* Membership, by the map: what is no key or no pair is not in it. */

static int keys_contains(PyObject *self, PyObject *it) { return PySequence_Contains((PyObject *)map_of(self), it); }

static int items_contains(PyObject *self, PyObject *it) {
    if (!PyTuple_Check(it) || PyTuple_Size(it) != 2) return 0;
    Key key;
    Art *map = map_of(self);
    Place place = key_of(map->codec, PyTuple_GetItem(it, 0), &key);
    PyObject *value = place == WITHIN ? store_get(map, &key) : NULL;
    key_end(&key);
    if (place == FAILED) return is_foreign(PyTuple_GetItem(it, 0)) ? 0 : -1;
    int is_same = value ? PyObject_RichCompareBool(value, PyTuple_GetItem(it, 1), Py_EQ) : 0;
    Py_XDECREF(value);
    return is_same;
}

/* As sets. */

/* Whether all of an iterable are in a container: 1 or 0, or -1 with the exception set. With `is_none`, whether none is.
 */
static int all_in(PyObject *some, PyObject *container, bool is_none) {
    PyObject *walk = PyObject_GetIter(some), *it;
    int are_in = walk ? 1 : -1;
    while (are_in > 0 && (it = PyIter_Next(walk))) {
        are_in = PySequence_Contains(container, it);
        if (is_none && are_in >= 0) are_in = !are_in;
        Py_DECREF(it);
    }
    Py_XDECREF(walk);
    return PyErr_Occurred() ? -1 : are_in;
}

static PyObject *view_compare(PyObject *self, PyObject *other, int how) {
    int is_set = PyAnySet_Check(other) ? 1 : PyObject_IsInstance(other, map_of(self)->state->set_kind);
    if (is_set <= 0) return is_set ? NULL : kept(Py_NotImplemented);
    Py_ssize_t len = view_len(self), others = PyObject_Size(other);
    if (others < 0) return NULL;
    int is_so = 0;
    switch (how) {
    case Py_EQ:
    case Py_NE: is_so = len == others ? all_in(self, other, false) : 0; break;
    case Py_LT: is_so = len < others ? all_in(self, other, false) : 0; break;
    case Py_LE: is_so = len <= others ? all_in(self, other, false) : 0; break;
    case Py_GT: is_so = len > others ? all_in(other, self, false) : 0; break;
    case Py_GE: is_so = len >= others ? all_in(other, self, false) : 0; break;
    }
    return is_so < 0 ? NULL : PyBool_FromLong(how == Py_NE ? !is_so : is_so);
}

static PyObject *view_isdisjoint(PyObject *self, PyObject *other) {
    int are_out = all_in(other, self, true);
    return are_out < 0 ? NULL : PyBool_FromLong(are_out);
}

/* What a method of `set` gives of the set of the left and the right. */
static PyObject *by_set(PyObject *left, const char *method, PyObject *right) {
    PyObject *set = PySet_New(left), *done = set ? PyObject_CallMethod(set, method, "(O)", right) : NULL;
    Py_XDECREF(done);
    if (!done) Py_CLEAR(set);
    return set;
}

/* Whether an operand can be walked along: 1 or 0, or -1 with the exception set. */
static int is_iterable(PyObject *it) {
    PyObject *walk = PyObject_GetIter(it);
    Py_XDECREF(walk);
    if (walk) return 1;
    if (!PyErr_ExceptionMatches(PyExc_TypeError)) return -1;
    PyErr_Clear();
    return 0;
}

static PyObject *of_both(PyObject *left, const char *method, PyObject *right) {
    int are_sets = is_iterable(left);
    if (are_sets > 0) are_sets = is_iterable(right);
    return are_sets < 0 ? NULL : are_sets ? by_set(left, method, right) : kept(Py_NotImplemented);
}

static PyObject *view_or(PyObject *left, PyObject *right) { return of_both(left, "update", right); }
static PyObject *view_sub(PyObject *left, PyObject *right) { return of_both(left, "difference_update", right); }
static PyObject *view_xor(PyObject *left, PyObject *right) {
    return of_both(left, "symmetric_difference_update", right);
}

/* What is in both. It asks the map, and does not walk along it. */
static PyObject *view_and(PyObject *left, PyObject *right) {
    State *state = state_of_type(Py_TYPE(left));
    PyErr_Clear();
    PyObject *view = state ? left : right, *other = state ? right : left, *it;
    int is_set = is_iterable(other);
    if (is_set <= 0) return is_set ? NULL : kept(Py_NotImplemented);
    PyObject *set = PySet_New(NULL), *walk = set ? PyObject_GetIter(other) : NULL;
    int is_in = walk ? 0 : -1;
    while (is_in >= 0 && (it = PyIter_Next(walk))) {
        is_in = PySequence_Contains(view, it);
        if (is_in > 0 && PySet_Add(set, it)) is_in = -1;
        Py_DECREF(it);
    }
    Py_XDECREF(walk);
    if (PyErr_Occurred()) Py_CLEAR(set);
    return set;
}

static PyMethodDef methods[] = {
    {"__reversed__", view_reversed, METH_NOARGS, NULL},
    {"isdisjoint", view_isdisjoint, METH_O, PyDoc_STR("Whether nothing is in both.")},
    {NULL, NULL, 0, NULL},
};
static PyMethodDef methods_of_values[] = {
    {"__reversed__", view_reversed, METH_NOARGS, NULL},
    {NULL, NULL, 0, NULL},
};
static PyMethodDef methods_of_keys[] = {
    {"__reversed__", view_reversed, METH_NOARGS, NULL},
    {"isdisjoint", view_isdisjoint, METH_O, PyDoc_STR("Whether nothing is in both.")},
    {"count", keys_count, METH_O, PyDoc_STR("count($self, key, /)\n--\n\n1 if a key is there, or else 0.")},
    {NULL, NULL, 0, NULL},
};
static PyGetSetDef parts[] = {
    {"mapping", view_mapping, NULL, PyDoc_STR("The map, to be read."), NULL},
    {NULL, NULL, NULL, NULL, NULL},
};

#define OF_EACH                                                                                                        \
    {Py_tp_new, no_new}, {Py_tp_iter, view_iter}, {Py_tp_repr, view_repr}, {Py_tp_getset, parts},                      \
        {Py_tp_traverse, view_traverse}, {Py_tp_dealloc, view_dealloc}, {Py_mp_subscript, view_at}, {                  \
        Py_sq_length, view_len                                                                                         \
    }
#define OF_SETS                                                                                                        \
    {Py_tp_richcompare, view_compare}, {Py_nb_and, view_and}, {Py_nb_or, view_or},                                     \
        {Py_nb_subtract, view_sub}, {Py_nb_xor, view_xor}, {                                                           \
        Py_tp_hash, PyObject_HashNotImplemented                                                                        \
    }

static PyType_Slot slots_of_keys[] = {
    OF_EACH,
    OF_SETS,
    {Py_tp_methods, methods_of_keys},
    {Py_sq_contains, keys_contains},
    {Py_mp_ass_subscript, keys_del},
    {0, NULL},
};
static PyType_Slot slots_of_items[] = {
    OF_EACH, OF_SETS, {Py_tp_methods, methods}, {Py_sq_contains, items_contains}, {0, NULL}};
static PyType_Slot slots_of_values[] = {OF_EACH, {Py_tp_methods, methods_of_values}, {0, NULL}};

enum { FLAGS = Py_TPFLAGS_DEFAULT | Py_TPFLAGS_HAVE_GC };
PyType_Spec keys_spec = {"artmap.Keys", sizeof(View), 0, FLAGS, slots_of_keys};
PyType_Spec items_spec = {"artmap.Items", sizeof(View), 0, FLAGS, slots_of_items};
PyType_Spec values_spec = {"artmap.Values", sizeof(View), 0, FLAGS, slots_of_values};
