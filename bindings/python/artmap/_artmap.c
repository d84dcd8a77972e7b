/* The module itself: its classes and exceptions, and what it is built of. */
#include "_artmap.h"

/* Whether the library was proved where it was made: 1 or 0, or -1 where that is not known. */
#ifndef ARTMAP_PROVED
#define ARTMAP_PROVED -1
#endif

/* A map of a class and with keys of a type, without its __init__: what a pickle begins with. */
static PyObject *rebuilt(PyObject *self, PyObject *args) {
    PyObject *type, *key;
    State *state;
    Codec codec;
    if (!PyArg_ParseTuple(args, "OO:_rebuilt", &type, &key)) return NULL;
    if (!(state = PyModule_GetState(self)) || codec_of(state, key, &codec)) return NULL;
    if (!PyType_Check(type) || !PyType_IsSubtype((PyTypeObject *)type, state->art))
        return PyErr_Format(PyExc_TypeError, "%R is no class of maps", type);
    return (PyObject *)art_made(state, (PyTypeObject *)type, codec);
}

/* Lets a walk, which is new, keep an object up to its end. Returns the walk. */
static PyObject *keeping(PyObject *self, PyObject *args) {
    State *state = PyModule_GetState(self);
    PyObject *walk, *owner;
    if (!state || !PyArg_ParseTuple(args, "O!O:_keeping", state->walk, &walk, &owner)) return NULL;
    walk_keep(walk, owner);
    return kept(walk);
}

static PyMethodDef functions[] = {
    {"_rebuilt", rebuilt, METH_VARARGS, NULL},
    {"_keeping", keeping, METH_VARARGS, NULL},
    {NULL, NULL, 0, NULL},
};

static PyObject *exception(PyObject *module, const char *name, const char *doc) {
    PyObject *parts = Py_BuildValue("{sOsO}", "key", Py_None, "stored", Py_None);
    PyObject *made = parts ? PyErr_NewExceptionWithDoc(name, doc, PyExc_ValueError, parts) : NULL;
    Py_XDECREF(parts);
    if (made && PyModule_AddObject(module, strrchr(name, '.') + 1, kept(made))) Py_DECREF(made);
    return made;
}

/* The class Ended, by which a map is told that its keys may begin one another. */
static PyObject *ended_type(PyObject *module) {
    static const char doc[] = "What stands for keys of bytes that may begin one another: Art(key=Ended), "
                              "ArtSet(key=Ended).\n\nA key is stored with an end mark, and comes out as bytes.";
    PyObject *made = PyObject_CallFunction((PyObject *)&PyType_Type, "s(O){s:s,s:s,s:()}", "Ended",
                                           (PyObject *)&PyBytes_Type, "__module__", "artmap", "__doc__", doc,
                                           "__slots__");
    if (made && PyModule_AddObject(module, "Ended", kept(made))) Py_DECREF(made);
    return made;
}

static PyTypeObject *type(PyObject *module, PyType_Spec *spec) {
    return (PyTypeObject *)PyType_FromModuleAndSpec(module, spec, NULL);
}

/* Puts methods of _sorted.c or _places.c into a class. */
static int add_methods(PyTypeObject *to, PyMethodDef *methods) {
    for (PyMethodDef *it = methods; it->ml_name; it++) {
        PyObject *method = PyDescr_NewMethod(to, it);
        int status = method ? PyObject_SetAttrString((PyObject *)to, it->ml_name, method) : -1;
        Py_XDECREF(method);
        if (status) return -1;
    }
    return 0;
}

static int execute(PyObject *module) {
    State *state = PyModule_GetState(module);
    PyObject *abc = PyImport_ImportModule("collections.abc");
    if (!abc) return -1;
    state->set_kind = PyObject_GetAttrString(abc, "Set"), state->mapping_kind = PyObject_GetAttrString(abc, "Mapping");
    Py_DECREF(abc);
    state->conflict_error = exception(
        module, "artmap.ConflictError",
        "The key begins a stored key, or a stored key begins it: they are `key` and `stored`. The map is as it was.");
    state->not_above_error =
        exception(module, "artmap.NotAboveError",
                  "The key, `key`, is not above the one before it. The pairs before it are in the map.");
    state->art = type(module, &art_spec), state->walk = type(module, &walk_spec);
    state->keys = type(module, &keys_spec), state->items = type(module, &items_spec);
    state->values = type(module, &values_spec), state->ended = ended_type(module);
    bool is_made = state->set_kind && state->mapping_kind && state->conflict_error && state->not_above_error &&
                   state->art && state->walk && state->keys && state->items && state->values && state->ended;
    if (!is_made || add_methods(state->art, sorted_methods) || add_methods(state->art, place_methods) ||
        add_methods(state->keys, place_methods))
        return -1;
    PyTypeObject *types[] = {state->art, state->keys, state->values, state->items};
    const char *names[] = {"Art", "Keys", "Values", "Items"};
    for (int at = 0; at < 4; at++)
        if (PyModule_AddObject(module, names[at], kept((PyObject *)types[at]))) return -1;
    if (PyModule_AddStringConstant(module, "library_version", artmap_version())) return -1;
    PyObject *proved = ARTMAP_PROVED < 0 ? kept(Py_None) : PyBool_FromLong(ARTMAP_PROVED);
    return PyModule_AddObject(module, "is_proved", proved);
}

static int traverse(PyObject *module, visitproc visit, void *arg) {
    State *state = PyModule_GetState(module);
    if (!state) return 0;
    Py_VISIT((PyObject *)state->art);
    Py_VISIT((PyObject *)state->walk);
    Py_VISIT((PyObject *)state->keys);
    Py_VISIT((PyObject *)state->values);
    Py_VISIT((PyObject *)state->items);
    Py_VISIT(state->conflict_error);
    Py_VISIT(state->not_above_error);
    Py_VISIT(state->ended);
    Py_VISIT(state->set_kind);
    Py_VISIT(state->mapping_kind);
    return 0;
}

/* (The types stay up to the end: maps that are freed late still use them.) */
static void release(void *it) {
    State *state = PyModule_GetState(it);
    if (!state) return;
    PyObject *all[] = {(PyObject *)state->art,    (PyObject *)state->walk,  (PyObject *)state->keys,
                       (PyObject *)state->values, (PyObject *)state->items, state->conflict_error,
                       state->not_above_error,    state->ended,             state->set_kind,
                       state->mapping_kind};
    *state = (State){0};
    for (size_t at = 0; at < sizeof all / sizeof *all; at++) Py_XDECREF(all[at]);
}

/* Each interpreter has its own types and maps, so that each may have a lock of its own: Python knows such a slot from
 * 3.12 on, and refuses it before. */
enum { MULTIPLE_INTERPRETERS = 3 };
#define OWN_LOCK ((void *)2)

static PyModuleDef_Slot slots_of_old[] = {
    {Py_mod_exec, execute},
    {0, NULL},
};
static PyModuleDef_Slot slots[] = {
    {Py_mod_exec, execute},
    {MULTIPLE_INTERPRETERS, OWN_LOCK},
    {0, NULL},
};

#define MODULE(slots)                                                                                                  \
    {PyModuleDef_HEAD_INIT, "artmap._artmap", "Sorted maps over libartmap.", sizeof(State), functions, slots,          \
     traverse, NULL, release}
static struct PyModuleDef module_of_old = MODULE(slots_of_old), module_of_today = MODULE(slots);

/* Whether a module is this one. */
bool is_artmap(PyObject *module) {
    PyModuleDef *it = PyModule_GetDef(module);
    return it == &module_of_old || it == &module_of_today;
}

PyMODINIT_FUNC PyInit__artmap(void) {
    const char *version = Py_GetVersion();
    bool is_old = !strncmp(version, "3.9.", 4) || !strncmp(version, "3.10.", 5) || !strncmp(version, "3.11.", 5);
    return PyModuleDef_Init(is_old ? &module_of_old : &module_of_today);
}
