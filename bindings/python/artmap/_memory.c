/* The malloc, realloc and free of the library: those of C, with a count of what they took and gave back, so that a map
 * knows its size. The linker puts them into the place of the library's own (--wrap, backend.py). */
#include "_artmap.h"

#include <malloc.h>

void *__real_malloc(size_t size);
void *__real_realloc(void *block, size_t size);
void __real_free(void *block);
void *__wrap_malloc(size_t size);
void *__wrap_realloc(void *block, size_t size);
void __wrap_free(void *block);

static _Thread_local Py_ssize_t taken;

void *__wrap_malloc(size_t size) {
    void *block = __real_malloc(size);
    taken += (Py_ssize_t)malloc_usable_size(block);
    return block;
}

void *__wrap_realloc(void *block, size_t size) {
    Py_ssize_t had = (Py_ssize_t)malloc_usable_size(block);
    void *moved = __real_realloc(block, size);
    if (moved || !size) taken += (Py_ssize_t)malloc_usable_size(moved) - had;
    return moved;
}

void __wrap_free(void *block) {
    taken -= (Py_ssize_t)malloc_usable_size(block);
    __real_free(block);
}

/* How many bytes the library took on this thread since this was asked last, less those that it gave back. */
Py_ssize_t memory_taken(void) {
    Py_ssize_t told = taken;
    taken = 0;
    return told;
}
