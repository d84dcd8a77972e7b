/* Two threads read a frozen map, and the last of them frees it (tests/bindings_c.py). The thread sanitizer takes that for a
 * race of the other's reads, but for bindings/c/tsan.supp.
 */
#include "artmap.h"

#include <pthread.h>
#include <stdio.h>
#include <string.h>

enum { KEYS = 100, LEN = 150 };

static void write_key(char *key, int i) { snprintf(key, 9, "%08d", i); }

static void *read_it(void *at) {
    artmap_bytes *map = at;
    char key[9], value[LEN];
    size_t len, found = 0;
    for (int i = 0; i < KEYS; i++) {
        write_key(key, i);
        found += artmap_bytes_get(map, key, 8, value, LEN, &len) == ARTMAP_DONE && len == LEN && value[LEN - 1] == 'v';
    }
    artmap_bytes_free(map);
    return found == KEYS ? NULL : at;
}

int main(void) {
    artmap_bytes map = ARTMAP_BYTES_EMPTY;
    static artmap_bytes readers[2];
    pthread_t threads[2];
    char key[9], value[LEN];
    void *wrong, *all_wrong = NULL;
    memset(value, 'v', LEN);
    if (artmap_bytes_new(&map) != ARTMAP_DONE) return 1;
    for (int i = 0; i < KEYS; i++) {
        write_key(key, i);
        if (artmap_bytes_put(&map, key, 8, value, LEN) != ARTMAP_DONE) return 2;
    }
    if (artmap_bytes_freeze(&map) != ARTMAP_DONE) return 3;
    for (int i = 0; i < 2; i++)
        if (artmap_bytes_share(&map, &readers[i]) != ARTMAP_DONE) return 4;
    artmap_bytes_free(&map);
    for (int i = 0; i < 2; i++)
        if (pthread_create(&threads[i], NULL, read_it, &readers[i])) return 5;
    for (int i = 0; i < 2; i++) {
        pthread_join(threads[i], &wrong);
        if (wrong) all_wrong = wrong;
    }
    return all_wrong ? 6 : 0;
}
