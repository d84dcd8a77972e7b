/* A program with functions of the names that the toolchain's own have: none is called by the library, and none clashes.
 * With SECOND it has another library of the toolchain in their place, which comes with the toolchain's own functions
 * (tests/bindings_c.py). */
#include "artmap.h"

#include <stdlib.h>

#ifdef SECOND
uint64_t second_len(const uint8_t *bytes, size_t len);
#else
void *rattle_alloc(size_t size) { (void)size; abort(); }
void rattle_dealloc(void *at) { (void)at; abort(); }
void *rattle_realloc(void *at, size_t size) { (void)at, (void)size; abort(); }
int words_put(void) { abort(); }
int bytes_get(void) { abort(); }
#endif

int main(void) {
    artmap_words map = ARTMAP_WORDS_EMPTY;
    uint64_t word;
    if (artmap_words_new(&map) != ARTMAP_DONE || artmap_words_put(&map, "key", 3, 42, NULL) != ARTMAP_DONE) return 1;
#ifdef SECOND
    if (second_len((const uint8_t *)"bytes", 5) != 5) return 3;
#endif
    if (artmap_words_get(&map, "key", 3, &word) != ARTMAP_DONE || word != 42) return 2;
    artmap_words_free(&map);
    map = ARTMAP_WORDS_EMPTY;
    return map.is_made;
}
