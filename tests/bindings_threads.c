/* Eight threads read one frozen map at once, each by a handle of its own (tests/bindings_c.py).
 *
 * Its status is 0 where each thread finds all that is there, and nothing else. The handle moves to its thread, and comes
 * back; the map can be changed again as soon as no other handle has it.
 */
#include "artmap.h"

#include <pthread.h>
#include <stdio.h>
#include <string.h>

enum { THREADS = 8, KEYS = 2000, ROUNDS = 5, BATCH = 64 };

struct reader {
    artmap_words words;
    artmap_bytes bytes;
    unsigned number;
    int wrong;
};

static void write_key(char *key, unsigned i) { snprintf(key, 9, "%08u", i * 7919 % KEYS); }

static int read_points(struct reader *it) {
    char key[9], value[9];
    size_t len;
    uint64_t word;
    for (unsigned i = it->number; i < KEYS; i += THREADS) {
        write_key(key, i);
        if (artmap_words_get(&it->words, key, 8, &word) != ARTMAP_DONE || word != i) return 1;
        if (artmap_bytes_get(&it->bytes, key, 8, value, 9, &len) != ARTMAP_DONE || len != 8 || memcmp(key, value, 8)) return 2;
        if (artmap_words_get(&it->words, key, 7, &word) != ARTMAP_NOT_FOUND) return 3;
    }
    return artmap_words_put(&it->words, "x", 1, 1, NULL) == ARTMAP_FROZEN ? 0 : 4;
}

static int read_all(struct reader *it) {
    char room[BATCH * 8], last[8];
    artmap_words_pair pairs[BATCH];
    artmap_span span = {.back = it->number % 2};
    size_t count, all = 0;
    artmap_code code;
    do {
        code = artmap_words_walk(&it->words, &span, room, sizeof room, pairs, BATCH, &count);
        if (code != ARTMAP_MORE && code != ARTMAP_DONE) return 5;
        memcpy(last, room + (count - 1) * 8, 8);
        span.from = ARTMAP_AFTER_KEY, span.from_key = last, span.from_len = 8;
        all += count;
    } while (code == ARTMAP_MORE);
    return all == KEYS ? 0 : 6;
}

static void *read_it(void *at) {
    struct reader *it = at;
    for (int round = 0; round < ROUNDS && !it->wrong; round++) {
        it->wrong = read_points(it);
        if (!it->wrong) it->wrong = read_all(it);
    }
    artmap_bytes_free(&it->bytes);
    return NULL;
}

int main(void) {
    static struct reader readers[THREADS];
    artmap_words words = ARTMAP_WORDS_EMPTY;
    artmap_bytes bytes = ARTMAP_BYTES_EMPTY;
    pthread_t threads[THREADS];
    char key[9];
    if (artmap_words_new(&words) != ARTMAP_DONE || artmap_bytes_new(&bytes) != ARTMAP_DONE) return 10;
    for (unsigned i = 0; i < KEYS; i++) {
        write_key(key, i);
        if (artmap_words_put(&words, key, 8, i, NULL) != ARTMAP_DONE) return 11;
        if (artmap_bytes_put(&bytes, key, 8, key, 8) != ARTMAP_DONE) return 12;
    }
    if (artmap_words_freeze(&words) != ARTMAP_DONE || artmap_bytes_freeze(&bytes) != ARTMAP_DONE) return 13;
    for (unsigned i = 0; i < THREADS; i++) {
        readers[i].number = i;
        if (artmap_words_share(&words, &readers[i].words) != ARTMAP_DONE) return 14;
        if (artmap_bytes_share(&bytes, &readers[i].bytes) != ARTMAP_DONE) return 15;
        if (pthread_create(&threads[i], NULL, read_it, &readers[i])) return 16;
    }
    if (artmap_words_thaw(&words) != ARTMAP_SHARED) return 17;
    int wrong = 0;
    for (unsigned i = 0; i < THREADS; i++) {
        pthread_join(threads[i], NULL);
        wrong |= readers[i].wrong;
        artmap_words_free(&readers[i].words);
    }
    if (wrong) return wrong;
    if (artmap_words_thaw(&words) != ARTMAP_DONE || artmap_bytes_thaw(&bytes) != ARTMAP_DONE) return 18;
    if (artmap_words_put(&words, "x", 1, 1, NULL) != ARTMAP_DONE) return 19;
    artmap_words_free(&words);
    artmap_bytes_free(&bytes);
    return 0;
}
