/* The map of words for C after the calls that perf/peer/src/bin/through_c.rs times: art_bench.h, form A, and three
 * more.
 *
 * A walk copies keys and words out, many pairs in a call; those `by_next` have a pair in each call (artmap_words_next).
 */
#include "artmap.h"
#include "art_bench.h"

#include <stdlib.h>
#include <string.h>

enum { PLACES = 256, BYTES = 1 << 15, KEY = 4200 };

struct art_bench {
    artmap_words map;
};

/* What a walk has met: how many pairs, and the sum of their words and of the lengths of their keys. */
typedef struct met {
    size_t count;
    uint64_t sum;
} met;

static bool goes_on(const artmap_span *span, const uint8_t *key, size_t len) {
    size_t least = len < span->to_len ? len : span->to_len;
    int order = span->to == ARTMAP_TO_END ? 0 : memcmp(key, span->to_key, least);
    if (span->to == ARTMAP_WITH_PREFIX) return order == 0 && len >= span->to_len;
    return span->to == ARTMAP_TO_END || order < 0 || (order == 0 && len < span->to_len);
}

static met walk_by_next(artmap_words *map, artmap_span span) {
    static uint8_t key[2][KEY];
    met it = {0, 0};
    size_t len = span.from_len, found;
    uint64_t word;
    int now = 0;
    if (len) memcpy(key[0], span.from_key, len);
    artmap_code code = artmap_words_get(map, key[0], len, &word);
    if (code == ARTMAP_NOT_FOUND) {
        code = artmap_words_next(map, key[0], len, key[1], KEY, &found, &word);
        now = 1, len = found;
    }
    for (; code == ARTMAP_DONE && goes_on(&span, key[now], len); now = !now, len = found) {
        it.count++;
        it.sum += word + len;
        code = artmap_words_next(map, key[now], len, key[!now], KEY, &found, &word);
    }
    return it;
}

static met walk(artmap_words *map, artmap_span span, size_t places) {
    static uint8_t room[BYTES], last[KEY];
    artmap_words_pair pairs[PLACES];
    met it = {0, 0};
    size_t count;
    for (;;) {
        artmap_code code = artmap_words_walk(map, &span, room, BYTES, pairs, places, &count);
        size_t bytes = 0;
        for (size_t i = 0; i < count; i++) {
            it.sum += pairs[i].word + pairs[i].key_len;
            bytes += pairs[i].key_len;
        }
        it.count += count;
        if (code != ARTMAP_MORE) return it;
        span.from = ARTMAP_AFTER_KEY, span.from_key = last, span.from_len = pairs[count - 1].key_len;
        memcpy(last, room + bytes - span.from_len, span.from_len);
        places = PLACES;
    }
}

static artmap_words *of(const art_bench *m) { return (artmap_words *)&m->map; }

bool art_bench_new(art_bench **out) {
    *out = calloc(1, sizeof **out);
    return *out && artmap_words_new(&(*out)->map) == ARTMAP_DONE;
}

bool art_bench_insert(art_bench *m, const uint8_t *key, size_t len, uint64_t value) {
    return artmap_words_put(&m->map, key, len, value, NULL) <= ARTMAP_REPLACED;
}

bool art_bench_get(const art_bench *m, const uint8_t *key, size_t len, uint64_t *value) {
    return artmap_words_get(of(m), key, len, value) == ARTMAP_DONE;
}

bool art_bench_remove(art_bench *m, const uint8_t *key, size_t len, uint64_t *value) {
    return artmap_words_remove(&m->map, key, len, value) == ARTMAP_DONE;
}

size_t art_bench_len(const art_bench *m) { return artmap_words_len(of(m)); }

uint64_t art_bench_sum(const art_bench *m) { return walk(of(m), (artmap_span){0}, PLACES).sum; }

uint64_t art_bench_sum_by_next(const art_bench *m) { return walk_by_next(of(m), (artmap_span){0}).sum; }

static artmap_span with_prefix(const uint8_t *front, size_t len) {
    return (artmap_span){.from = ARTMAP_FROM_KEY, .from_key = front, .from_len = len,
                         .to = ARTMAP_WITH_PREFIX, .to_key = front, .to_len = len};
}

size_t art_bench_prefix(const art_bench *m, const uint8_t *front, size_t len) {
    return walk(of(m), with_prefix(front, len), 128).count;
}

size_t art_bench_prefix_by_next(const art_bench *m, const uint8_t *front, size_t len) {
    return walk_by_next(of(m), with_prefix(front, len)).count;
}

size_t art_bench_range(const art_bench *m, const uint8_t *lo, size_t lo_len, const uint8_t *hi, size_t hi_len) {
    artmap_span span = {.from = ARTMAP_FROM_KEY, .from_key = lo, .from_len = lo_len,
                        .to = ARTMAP_BEFORE_KEY, .to_key = hi, .to_len = hi_len};
    return walk(of(m), span, 16).count;
}

bool art_bench_load(art_bench *m, const uint8_t *keys, size_t len, const artmap_words_pair *pairs, size_t count) {
    size_t taken;
    return artmap_words_load(&m->map, keys, len, pairs, count, &taken) == ARTMAP_DONE;
}

bool art_bench_clone(const art_bench *m, art_bench **out) {
    return art_bench_new(out) && artmap_words_clone(of(m), &(*out)->map) == ARTMAP_DONE;
}

void art_bench_free(art_bench *m) {
    artmap_words_free(&m->map);
    free(m);
}
