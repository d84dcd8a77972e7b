/* What the calls are given: words by their places or by their names. */
#include "_artmap.h"

/* Puts what a call is given into `found`, by the names that are known, of which the first `by_place` may be given by
 * their places. What is not given stays NULL. */
bool are_words(const char *call, const char *const *known, Py_ssize_t least, Py_ssize_t by_place, PyObject *const *args,
               Py_ssize_t count, PyObject *names, PyObject **found) {
    if (count > by_place)
        return PyErr_Format(PyExc_TypeError, "%s takes at most %zd arguments by place, not %zd", call, by_place, count),
               false;
    for (Py_ssize_t at = 0; at < count; at++) found[at] = args[at];
    Py_ssize_t named = names ? PyTuple_Size(names) : 0;
    for (Py_ssize_t at = 0; at < named; at++) {
        PyObject *name = PyTuple_GetItem(names, at);
        size_t it = 0;
        while (known[it] && PyUnicode_CompareWithASCIIString(name, known[it])) it++;
        if (!known[it] || found[it])
            return PyErr_Format(PyExc_TypeError, "%s %s argument %R", call, known[it] ? "has twice the" : "takes no",
                                name),
                   false;
        found[it] = args[count + at];
    }
    for (Py_ssize_t at = 0; at < least; at++)
        if (!found[at]) return PyErr_Format(PyExc_TypeError, "%s lacks the argument '%s'", call, known[at]), false;
    return true;
}
