/* The module artmap._artmap: a sorted map of Python's objects over libartmap (artmap.h).
 *
 * How it is safe against code that runs inside a call. Python's code may run wherever an object is made that the
 * collector knows (a tuple), converted, compared or let go. So each call has three parts: (1) arguments become C
 * values, and what is to be returned is allocated; (2) the map changes, in a function of _store.c, where no code of
 * Python's runs; (3) the objects that left the map are let go. Nothing that was read of a map in one part 2 is used in
 * another.
 *
 * A part 2 begins with the first word that is read of a tree, and ends with the last use of one. These are the calls
 * of Python's C interface in it, and why none runs code of Python's, nor the collector:
 *
 *   Py_INCREF                  counts, and nothing else; a Py_DECREF is only of a map that the call holds, too
 *   PyMem_Malloc, .._Realloc,  blocks, of which the collector knows nothing; NULL, with no exception set
 *   PyMem_Free
 *   PyBytes_FromStringAndSize, make objects of the very types bytes, int and str, which refer to no other object: the
 *   PyLong_FromLongLong,       collector doesn't count them, so it doesn't run
 *   PyUnicode_FromWideChar
 *   PyUnicode_DecodeUTF8       too; where bytes are no UTF-8 it asks a handler, and key_object gives it none of these:
 *                              it decodes lone surrogates by itself
 *   PyTuple_SetItem            puts into an empty place of a tuple that nobody else has yet
 *   PyErr_NoMemory             may make an exception, and so run the collector: it is the last call of a part 2 that
 *                              has failed, which uses no word after it; so is it where one of those above returns NULL
 *
 * Where objects are compared, hashed, shown, converted or called it is in parts 1 and 3; so are PyTuple_New and
 * tp_alloc, by which the collector may run. A walk holds copies of keys, and words: it uses them in one part 2 for each
 * step, in which it tells by the map's `changes` whether they still hold. The collector's tp_traverse reads the values
 * of a map, and finds them whole, since no part 2 is under way then. tests/bindings_python_hostile.py tries each call.
 *
 * Only the limited API of CPython 3.9 is used, but for METH_FASTCALL, which is in it from 3.10 on and which 3.9 has,
 * too.
 */
#ifndef ARTMAP_MODULE_H
#define ARTMAP_MODULE_H

#define PY_SSIZE_T_CLEAN
#include <Python.h>
#include <stdbool.h>
#include <stdint.h>
#include <string.h>

#include "artmap.h"

#ifndef METH_FASTCALL
#define METH_FASTCALL 0x0080
#endif

/* References are counted by calls of Python: None, small numbers and the types of its own belong to all interpreters,
 * each with a lock of its own from 3.12 on, and its headers of 3.11 and before would count these without any. */
#ifndef Py_GIL_DISABLED
#undef Py_INCREF
#undef Py_DECREF
#undef Py_XINCREF
#undef Py_XDECREF
#undef Py_RETURN_NONE
#define Py_INCREF(it) Py_IncRef((PyObject *)(it))
#define Py_DECREF(it) Py_DecRef((PyObject *)(it))
#define Py_XINCREF(it) Py_IncRef((PyObject *)(it))
#define Py_XDECREF(it) Py_DecRef((PyObject *)(it))
#define Py_RETURN_NONE return kept(Py_None)
#endif

/* Where Python runs without its lock, one thread at a time is in a map. Under the lock a call is one, anyway. */
#ifdef Py_GIL_DISABLED
#define ALONE(map) Py_BEGIN_CRITICAL_SECTION((PyObject *)(map));
#define ALONE_2(one, other) Py_BEGIN_CRITICAL_SECTION2((PyObject *)(one), (PyObject *)(other));
#define END_ALONE Py_END_CRITICAL_SECTION();
#define END_ALONE_2 Py_END_CRITICAL_SECTION2();
#define IS_DICT_TO_WALK(it) false
#else
#define ALONE(map) {
#define ALONE_2(one, other) {
#define END_ALONE }
#define END_ALONE_2 }
#define IS_DICT_TO_WALK(it) PyDict_CheckExact(it)
#endif

/* What keys a map has: bytes as they are; bytes that may begin one another, texts, and numbers of 64 bits, as bytes in
 * the same order (_keys.c). */
typedef enum Codec { OF_BYTES, OF_ENDED, OF_STR, OF_INT } Codec;

/* The types and exceptions of a module. It lives as long as the module, which each of its objects holds. */
typedef struct State {
    PyTypeObject *art, *walk, *keys, *values, *items;
    PyObject *conflict_error, *not_above_error, *ended, *set_kind, *mapping_kind;
} State;

/* The tree, whose words are the indices of the values in `slots`. `free` is the index of a free slot and 1, or 0 where
 * there is none. A free slot has the next of them in the same way, doubled, and 1: so it is odd, and no object. Slots
 * from `used` on were never taken. */
typedef struct Store {
    artmap_words tree;
    PyObject **slots;
    size_t used, places, free;
    Py_ssize_t bytes; /* of the tree */
} Store;

typedef struct Art {
    PyObject_HEAD
    State *state;
    PyObject *module, *weakrefs;
    Store store;
    size_t changes; /* how often a key came or went */
    Codec codec;
} Art;

/* The bytes of a key of a codec. They lie in the object that was given, in `held`, in `block` or in `room`. */
typedef struct Key {
    Codec codec;
    const uint8_t *bytes;
    size_t len;
    PyObject *held;
    uint8_t *block;
    uint8_t room[264];
} Key;

/* Where a key stands: a number beyond 64 bits is below or above all keys. */
typedef enum Place { FAILED = -1, WITHIN, BELOW, ABOVE } Place;

/* What a walk tells. */
typedef enum Kind { KEYS, VALUES, ITEMS } Kind;

static inline PyObject *kept(PyObject *it) {
    Py_INCREF(it);
    return it;
}

/* Eight bytes as a number, the most significant first. (The library is for x86-64.) */
static inline uint64_t number_at(const uint8_t *bytes) {
    uint64_t number;
    memcpy(&number, bytes, 8);
    return __builtin_bswap64(number);
}

/* _keys.c. A Key that was made is ended, whatever key_of returned. */
Place key_slowly(Codec codec, PyObject *it, bool is_prefix, Key *key);
PyObject *key_object(Codec codec, const uint8_t *bytes, size_t len);
int codec_of(State *state, PyObject *type, Codec *codec);
PyObject *codec_type(State *state, Codec codec);
Place prefix_of(Codec codec, PyObject *it, Key *key);
int is_foreign(PyObject *it);

static inline Place key_of(Codec codec, PyObject *it, Key *key) {
    if (codec != OF_BYTES || !PyBytes_CheckExact(it)) return key_slowly(codec, it, false, key);
    key->codec = codec, key->held = NULL, key->block = NULL;
    key->bytes = (const uint8_t *)PyBytes_AsString(it), key->len = (size_t)PyBytes_Size(it);
    return WITHIN;
}

static inline void key_end(Key *key) {
    Py_XDECREF(key->held);
    PyMem_Free(key->block);
}

/* _store.c: no code of Python's runs in these, but in store_drop and let_go. A key of another codec than the map's is
 * not stored, and a call that would put it in answers OTHER_KEYS: while it was made, code of Python's changed the
 * map's. */
#define OTHER_KEYS ARTMAP_FROZEN
#define STORE_EMPTY ((Store){{NULL, false}, NULL, 0, 0, 0, 0})
static inline bool is_free(PyObject *slot) { return ((uintptr_t)slot & 1) != 0; }
size_t store_len(Art *map);
PyObject *store_get(Art *map, const Key *key);
artmap_code store_put(Art *map, const Key *key, PyObject *value, PyObject **old);
artmap_code store_take(Art *map, const Key *key, PyObject **value);
artmap_code store_load(Art *map, Codec codec, const uint8_t *keys, size_t len, artmap_words_pair *pairs,
                       PyObject **values, size_t count, size_t *taken);
void store_fit(Art *map);
int store_first(Art *map, const artmap_span *span, PyObject **key, PyObject **value);
int store_take_end(Art *map, bool is_last, PyObject **key, PyObject **value);
/* A pair whose key, without its end mark, is the first `len` bytes of a query. The value is the caller's. */
typedef struct Found {
    size_t len;
    PyObject *value;
} Found;
bool store_find(Art *map, const Key *query, Found *found);
int store_prefixes(Art *map, const Key *query, Found **found, size_t *count);
artmap_code store_take_prefix(Art *map, const Key *prefix, PyObject ***gone, size_t *count);
bool store_clone(Art *from, Art *to);
bool store_compact(Art *map);
Store store_detach(Art *map);
void store_drop(Store store);
void let_go(PyObject **gone, size_t count);

/* _memory.c */
Py_ssize_t memory_taken(void);

/* _words.c */
bool are_words(const char *call, const char *const *known, Py_ssize_t least, Py_ssize_t by_place, PyObject *const *args,
               Py_ssize_t count, PyObject *names, PyObject **found);

/* _walk.c */
typedef struct Walk Walk;
PyObject *walk_new(Art *map, Kind kind, const artmap_span *span);
PyObject *walk_all(Art *map, Kind kind, bool back);
Py_ssize_t walk_skip(PyObject *walk, size_t count);
void walk_limit(PyObject *walk, size_t count);
void walk_keep(PyObject *walk, PyObject *owner);
extern PyType_Spec walk_spec;

/* _update.c */
int put_object(Art *map, PyObject *key, PyObject *value);
PyObject *default_put(Art *map, PyObject *key, PyObject *value);
int update_by(Art *map, PyObject *given, PyObject *names);
PyObject *art_load(PyObject *self, PyObject *pairs);

/* _places.c */
PyObject *pair_at(Art *map, Py_ssize_t place);
PyObject *at_place(Art *map, Kind kind, PyObject *place);
int del_place(Art *map, PyObject *place);
bool place_of(PyObject *word, Py_ssize_t *place);
PyObject *take_at(Art *map, Py_ssize_t place);
extern PyMethodDef place_methods[];

/* _map.c and _sorted.c */
extern PyType_Spec art_spec;
extern PyMethodDef sorted_methods[];
State *state_of_type(PyTypeObject *type);
Art *art_made(State *state, PyTypeObject *type, Codec codec);
bool is_art(State *state, PyObject *it);
bool is_plain_art(State *state, PyObject *it);
int has_attr(PyObject *it, const char *name);

/* _views.c */
extern PyType_Spec keys_spec, values_spec, items_spec;
PyObject *view_new(PyTypeObject *type, Art *map);
Art *view_map(PyObject *view);

/* _artmap.c */
bool is_artmap(PyObject *module);
#endif
