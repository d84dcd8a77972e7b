/* Keys as bytes, and back.
 *
 * A text is its UTF-8 and a zero: bytes that ascend as code points do. U+0000 and U+0001 become 01 01 and 01 02, so
 * that a zero is nowhere but at the end, and no text begins another. (A lone surrogate is written as UTF-8 would write
 * it.) Bytes that may begin one another are written in the same way: 00 and 01 as 01 01 and 01 02, and a zero after
 * all. A number is eight bytes, the most significant first, with its sign turned.
 */
#include "_artmap.h"

static const char *const NAMES[] = {"bytes or another buffer", "bytes or another buffer", "str", "int"};

/* The codec of the type `bytes`, `Ended`, `str` or `int`. */
int codec_of(State *state, PyObject *type, Codec *codec) {
    if (type == (PyObject *)&PyBytes_Type) *codec = OF_BYTES;
    else if (type == state->ended) *codec = OF_ENDED;
    else if (type == (PyObject *)&PyUnicode_Type) *codec = OF_STR;
    else if (type == (PyObject *)&PyLong_Type) *codec = OF_INT;
    else return PyErr_Format(PyExc_TypeError, "key must be bytes, Ended, str or int, not %R", type), -1;
    return 0;
}

PyObject *codec_type(State *state, Codec codec) {
    PyObject *types[] = {(PyObject *)&PyBytes_Type, state->ended, (PyObject *)&PyUnicode_Type,
                         (PyObject *)&PyLong_Type};
    return kept(types[codec]);
}

static Place refused(Codec codec, PyObject *it) {
    PyObject *type = PyObject_GetAttrString((PyObject *)Py_TYPE(it), "__name__");
    if (type) PyErr_Format(PyExc_TypeError, "keys of this map are %s, not %S: %.200R", NAMES[codec], type, it);
    Py_XDECREF(type);
    return FAILED;
}

/* Any buffer, copied into bytes. Where it is a class over bytes, its bytes are those of the buffer, whatever it tells.
 */
static Place bytes_key(PyObject *it, Key *key) {
    if (PyBytes_Check(it)) key->held = kept(it);
    else {
        PyObject *view = PyMemoryView_FromObject(it);
        if (!view) return PyErr_ExceptionMatches(PyExc_TypeError) ? PyErr_Clear(), refused(OF_BYTES, it) : FAILED;
        key->held = PyBytes_FromObject(view);
        Py_DECREF(view);
        if (!key->held) return FAILED;
    }
    key->bytes = (const uint8_t *)PyBytes_AsString(key->held), key->len = (size_t)PyBytes_Size(key->held);
    return WITHIN;
}

/* Bytes, with an end mark where they are no prefix. */
static Place ended_key(PyObject *it, bool is_prefix, Key *key) {
    if (bytes_key(it, key) != WITHIN) return FAILED;
    size_t marks = 0;
    for (size_t at = 0; at < key->len; at++) marks += key->bytes[at] < 2;
    uint8_t *to = key->room, *end;
    if (key->len + marks + 1 > sizeof key->room) to = key->block = PyMem_Malloc(key->len + marks + 1);
    if (!to) return PyErr_NoMemory(), FAILED;
    end = to;
    for (size_t at = 0; at < key->len; at++) {
        if (key->bytes[at] < 2) *end++ = 1, *end++ = (uint8_t)(key->bytes[at] + 1);
        else *end++ = key->bytes[at];
    }
    if (!is_prefix) *end++ = 0;
    key->bytes = to, key->len = (size_t)(end - to);
    return WITHIN;
}

/* The bytes of code points, without an end mark. Returns their end. */
static uint8_t *text_bytes(const Py_UCS4 *chars, size_t count, uint8_t *to) {
    for (const Py_UCS4 *at = chars, *end = chars + count; at < end; at++) {
        while (*at - 2 < 0x7E) { /* (most are one byte, as they are) */
            *to++ = (uint8_t)*at++;
            if (at == end) return to;
        }
        Py_UCS4 it = *at;
        if (it < 2) *to++ = 1, *to++ = (uint8_t)(it + 1);
        else if (it < 0x80) *to++ = (uint8_t)it;
        else {
            if (it < 0x800) *to++ = (uint8_t)(0xC0 | it >> 6);
            else {
                if (it < 0x10000) *to++ = (uint8_t)(0xE0 | it >> 12);
                else *to++ = (uint8_t)(0xF0 | it >> 18), *to++ = (uint8_t)(0x80 | (it >> 12 & 0x3F));
                *to++ = (uint8_t)(0x80 | (it >> 6 & 0x3F));
            }
            *to++ = (uint8_t)(0x80 | (it & 0x3F));
        }
    }
    return to;
}

static Place text_key(PyObject *it, bool is_prefix, Key *key) {
    Py_UCS4 few[64], *chars = few;
    if (!PyUnicode_Check(it)) return refused(OF_STR, it);
    Py_ssize_t count = PyUnicode_GetLength(it);
    if (count < 0) return FAILED;
    uint8_t *to = key->room;
    if (count > 64) {
        if (count > PY_SSIZE_T_MAX / 8) return PyErr_NoMemory(), FAILED;
        /* (four bytes for each, and the code points after them) */
        to = key->block = PyMem_Malloc((size_t)count * 8 + 8);
        if (!to) return PyErr_NoMemory(), FAILED;
        chars = (Py_UCS4 *)(void *)(to + (size_t)count * 4 + 4);
    }
    if (count && !PyUnicode_AsUCS4(it, chars, count, 0)) return FAILED;
    uint8_t *end = text_bytes(chars, (size_t)count, to);
    if (!is_prefix) *end++ = 0;
    key->bytes = to, key->len = (size_t)(end - to);
    return WITHIN;
}

static Place number_key(PyObject *it, Key *key) {
    int beyond = 0;
    bool is_number = PyLong_CheckExact(it);
    PyObject *number = is_number ? it : PyNumber_Index(it);
    if (!number) return PyErr_ExceptionMatches(PyExc_TypeError) ? PyErr_Clear(), refused(OF_INT, it) : FAILED;
    long long value = PyLong_AsLongLongAndOverflow(number, &beyond);
    if (!is_number) Py_DECREF(number);
    if (beyond) return beyond > 0 ? ABOVE : BELOW;
    if (value == -1 && PyErr_Occurred()) return FAILED;
    uint64_t bits = __builtin_bswap64((uint64_t)value ^ (uint64_t)1 << 63);
    memcpy(key->room, &bits, 8);
    key->bytes = key->room, key->len = 8;
    return WITHIN;
}

/* The bytes of an object as a key of the codec, or as a prefix. */
Place key_slowly(Codec codec, PyObject *it, bool is_prefix, Key *key) {
    key->codec = codec, key->held = NULL, key->block = NULL;
    switch (codec) {
    case OF_BYTES: return bytes_key(it, key);
    case OF_ENDED: return ended_key(it, is_prefix, key);
    case OF_STR: return text_key(it, is_prefix, key);
    default: return number_key(it, key);
    }
}

Place prefix_of(Codec codec, PyObject *it, Key *key) {
    key->codec = codec, key->held = NULL, key->block = NULL;
    if (codec != OF_INT) return key_slowly(codec, it, true, key);
    PyErr_SetString(PyExc_TypeError, "keys of this map are int, and a number has no prefix");
    return FAILED;
}

/* Whether an object that was refused as a key is merely of another type, so that it is not in the map, as no dict would
 * have it; then no exception is set. What can't be in any dict or set raises as it does there. */
int is_foreign(PyObject *it) {
    if (!PyErr_ExceptionMatches(PyExc_TypeError)) return 0;
    PyErr_Clear();
    return PyAnySet_Check(it) || PyObject_Hash(it) != -1;
}

_Static_assert(sizeof(wchar_t) == 4, "a wchar_t has a code point");

/* Whether bytes are the UTF-8 of a text as it is: no 01 is in them, which marks another, and no lone surrogate. */
static bool is_plain(const uint8_t *bytes, size_t len) {
    const uint8_t *end = bytes + len;
    if (memchr(bytes, 1, len)) return false;
    for (const uint8_t *at = bytes; (at = memchr(at, 0xED, (size_t)(end - at)));)
        if (++at < end && *at >= 0xA0) return false;
    return true;
}

/* The code point at `at`, which goes on to the next one. */
static wchar_t next_char(const uint8_t **at, const uint8_t *end) {
    uint32_t it = *(*at)++;
    if (it == 1 && *at < end) return (wchar_t)(*(*at)++ - 1);
    if (it < 0x80) return (wchar_t)it;
    int more = it < 0xE0 ? 1 : it < 0xF0 ? 2 : 3;
    for (it &= 0x3Fu >> more; more-- && *at < end;) it = it << 6 | (*(*at)++ & 0x3F);
    return (wchar_t)it;
}

/* A text of code points. (Python's decoder of UTF-8 asks a handler for each lone surrogate. Anybody may register one,
 * and what it is given is made anew, so that the collector may run.) */
static PyObject *text_of_chars(const uint8_t *bytes, size_t len) {
    wchar_t few[128] = {0}, *chars = len <= 128 ? few : PyMem_Malloc(len * sizeof *chars);
    if (!chars) return PyErr_NoMemory();
    Py_ssize_t count = 0;
    for (const uint8_t *at = bytes, *end = bytes + len; at < end;) chars[count++] = next_char(&at, end);
    PyObject *text = PyUnicode_FromWideChar(chars, count);
    if (chars != few) PyMem_Free(chars);
    return text;
}

/* Bytes that have marks in them. */
static PyObject *bytes_unmarked(const uint8_t *bytes, size_t len) {
    size_t marks = 0;
    for (size_t at = 0; at + 1 < len; at++)
        if (bytes[at] == 1) marks++, at++;
    PyObject *made = PyBytes_FromStringAndSize(NULL, (Py_ssize_t)(len - marks));
    char *to = made ? PyBytes_AsString(made) : NULL;
    for (size_t at = 0; made && at < len; at++)
        *to++ = (char)(bytes[at] == 1 && at + 1 < len ? bytes[++at] - 1 : bytes[at]);
    return made;
}

/* The object of a key, with its end mark or without: always of the very type `bytes`, `str` or `int`. No code of
 * Python's runs in this, but where it returns NULL: then nothing that was read of a map before is used any more. */
PyObject *key_object(Codec codec, const uint8_t *bytes, size_t len) {
    bool is_ended = codec == OF_ENDED || codec == OF_STR;
    if (is_ended && len && bytes[len - 1] == 0) len--;
    if (codec == OF_ENDED && memchr(bytes, 1, len)) return bytes_unmarked(bytes, len);
    if (codec <= OF_ENDED) return PyBytes_FromStringAndSize((const char *)bytes, (Py_ssize_t)len);
    if (codec == OF_STR) {
        if (!is_plain(bytes, len)) return text_of_chars(bytes, len);
        return PyUnicode_DecodeUTF8((const char *)bytes, (Py_ssize_t)len, NULL);
    }
    uint64_t bits = 0;
    for (size_t at = 0; at < len; at++) bits = bits << 8 | bytes[at];
    return PyLong_FromLongLong((long long)(bits ^ (uint64_t)1 << 63));
}
