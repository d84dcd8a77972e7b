/* Calls of the library for C in which a runner refuses memory (tests/bindings_c.py, tests/refuse.c).
 *
 *     bindings_refused N   makes two maps, and then call N in a window; prints the code, and then whether the maps are as
 *                          they were
 *
 * Where memory was refused the call is made once more, outside the window, and must do what it does in a free run. Of a
 * load, the map is to be as it was with those pairs put in that were told as taken; of an append, with those that have left
 * the other map. Where a handle has a map of the other kind, the maps are to be as they were, too. At the end all memory is
 * given back: what a handle held is freed where another map takes its place.
 */
#include "artmap.h"

#include <malloc.h>
#include <stdio.h>
#include <stdlib.h>
#include <string.h>
#include <unistd.h>

enum { PAIRS = 11, MOST = 64, PLACES = 4, LOADS = 20, APPENDS = 31 };

/* A call that gives memory back, and calls before which something else is done: a map is emptied or frozen, a long key is
 * put in, or nodes are reserved. */
enum { CLEAR = 29, EMPTY = 44, OVER_LONG = 49, COMPACT_NONE = 50, FROZEN = 51, AFTER_RESERVE = 46 };

/* A key and a value that take memory of their own, as those of thirty bytes or fewer do not. */
#define LONG(KEY) KEY "abcdefghijklmnopqrstuvwxyz0123"
#define LONG_KEY LONG("z")
#define LONG_VALUE "a value that takes memory of its own"

/* Below `a` there is a node for five, of which a loss makes one for four; the four others leave no spare one for that. */
static const char *const keys[PAIRS] = {"aa", "ab", "ac", "ad", "ae", "b0", "b1", "c0", "c1", "d0", "d1"};

/* What is loaded: all of it goes in; and the last is in conflict with the one before it. */
static const char *const loads[2][PLACES][2] = {
    {{"ae", "new"}, {LONG("af"), "other"}, {"e0", ""}, {"e1", "x"}},
    {{LONG("af"), "other"}, {"c0", "x"}, {"e0", "last"}, {LONG("e0"), "none"}},
};

struct maps {
    artmap_words words, other_words;
    artmap_bytes bytes, other_bytes;
};

static uint64_t word_of(const char *value) { return strlen(value) + (unsigned char)value[0]; }

static artmap_code put_both(struct maps *maps, const char *key, const char *value) {
    artmap_code code = artmap_words_put(&maps->words, key, strlen(key), word_of(value), NULL);
    return code > ARTMAP_REPLACED ? code : artmap_bytes_put(&maps->bytes, key, strlen(key), value, strlen(value));
}

/* The pairs of a load or of the other map of an append, and whether the call is one of words. */
static const char *const (*given(int which))[2] { return loads[which < APPENDS ? (which - LOADS) % 2 : 0]; }
static int is_of_words(int which) { return which < LOADS + 2 || which == APPENDS || which == EMPTY; }
static int is_append(int which) { return which == APPENDS || which == APPENDS + 1 || which == EMPTY || which == EMPTY + 1; }

/* What stands before a call, beside the pairs. */
static artmap_code prepare(struct maps *maps, int which) {
    artmap_code code = ARTMAP_DONE;
    if (which == EMPTY || which == EMPTY + 1 || which == COMPACT_NONE) {
        code = artmap_words_clear(&maps->words);
        if (code == ARTMAP_DONE) code = artmap_bytes_clear(&maps->bytes);
    }
    if (code == ARTMAP_DONE && which == OVER_LONG) code = artmap_words_put(&maps->words, LONG_KEY, strlen(LONG_KEY), 1, NULL);
    if (code == ARTMAP_DONE && which == FROZEN) code = artmap_words_freeze(&maps->words);
    if (code == ARTMAP_DONE && AFTER_RESERVE <= which && which < OVER_LONG) code = artmap_words_reserve(&maps->words, 3);
    return code;
}

static artmap_code put_given(artmap_words *words, artmap_bytes *bytes, int which, size_t i) {
    const char *const *pair = given(which)[i];
    return is_of_words(which) ? artmap_words_put(words, pair[0], strlen(pair[0]), word_of(pair[1]), NULL)
                              : artmap_bytes_put(bytes, pair[0], strlen(pair[0]), pair[1], strlen(pair[1]));
}

/* The sum of all pairs of two maps in order, by walks. */
static unsigned long sum_of(artmap_words *words_map, artmap_bytes *bytes_map) {
    unsigned char room[1024];
    artmap_words_pair words[MOST];
    artmap_bytes_pair bytes[MOST];
    artmap_span all = {0};
    size_t count = 0, more = 0, at = 0;
    unsigned long made = 17;
    artmap_words_walk(words_map, &all, room, sizeof room, words, MOST, &count);
    for (size_t i = 0; i < count; i++) {
        for (size_t end = at + words[i].key_len; at < end; at++) made = made * 31 + room[at];
        made = made * 37 + words[i].word;
    }
    at = 0;
    artmap_bytes_walk(bytes_map, &all, room, sizeof room, bytes, MOST, &more);
    for (size_t i = 0; i < more; i++)
        for (size_t end = at + bytes[i].key_len + bytes[i].value_len; at < end; at++) made = made * 41 + room[at];
    return made * 2 + artmap_words_is_frozen(words_map) + artmap_bytes_is_frozen(bytes_map) + count + more;
}

static unsigned long sum(struct maps *maps) {
    return sum_of(&maps->words, &maps->bytes) * 43 + sum_of(&maps->other_words, &maps->other_bytes);
}

static artmap_code load(struct maps *maps, int is_words, const char *const pairs[PLACES][2], size_t *taken) {
    char room[8 * MOST] = "";
    artmap_words_pair words[PLACES];
    artmap_bytes_pair bytes[PLACES];
    for (int i = 0; i < PLACES; i++) {
        words[i] = (artmap_words_pair){strlen(pairs[i][0]), word_of(pairs[i][1])};
        bytes[i] = (artmap_bytes_pair){strlen(pairs[i][0]), strlen(pairs[i][1])};
        strcat(strcat(room, pairs[i][0]), is_words ? "" : pairs[i][1]);
    }
    return is_words ? artmap_words_load(&maps->words, room, strlen(room), words, PLACES, taken)
                    : artmap_bytes_load(&maps->bytes, room, strlen(room), bytes, PLACES, taken);
}

static artmap_code append(struct maps *maps, int which, size_t *moved) {
    artmap_code code = is_of_words(which) ? artmap_words_append(&maps->words, &maps->other_words)
                                          : artmap_bytes_append(&maps->bytes, &maps->other_bytes);
    *moved = PLACES - artmap_words_len(&maps->other_words) - artmap_bytes_len(&maps->other_bytes);
    return code;
}

static artmap_code put_three(artmap_words *words) {
    static const char *const three[] = {"af", "e0", "b2"};
    for (int i = 0; i < 3; i++) {
        artmap_code code = artmap_words_put(words, three[i], 2, 1, NULL);
        if (code != ARTMAP_DONE) return code;
    }
    return ARTMAP_DONE;
}

static artmap_code call(struct maps *maps, int which, size_t *taken) {
    artmap_words *words = &maps->words;
    artmap_bytes *bytes = &maps->bytes;
    char room[MOST], other[MOST];
    artmap_words_pair pairs[PLACES];
    artmap_bytes_pair lens[PLACES];
    artmap_span span = {.from = ARTMAP_FROM_KEY, .from_key = "ab", .from_len = 2}, back = {.back = true};
    artmap_hint hint = {3, 1};
    artmap_nodes nodes;
    uint64_t many[PLACES];
    size_t len, count;
    switch (which) {
    case 0: return artmap_words_new(words);
    case 1: return artmap_words_put(words, LONG("af"), strlen(LONG("af")), 1, NULL);
    case 2: return artmap_words_put(words, "aab", 3, 1, NULL);
    case 3: return artmap_words_remove(words, "ab", 2, NULL);
    case 4: return artmap_words_remove_prefix(words, "ac", 2, &count);
    case 5: return artmap_words_remove_prefix(words, "ad", 2, &count);
    case 6: return artmap_words_audit(words, &nodes);
    case 7: return artmap_words_clone(words, &maps->other_words);
    case 8: return artmap_words_split_off(words, "b1", 2, &maps->other_words);
    case 9: return artmap_words_reserve(words, 3);
    case 10: return artmap_words_freeze(words);
    case 11: return artmap_bytes_new(bytes);
    case 12: return artmap_bytes_put(bytes, LONG("af"), strlen(LONG("af")), "new", 3);
    case 13: return artmap_bytes_put(bytes, "aa", 2, LONG_VALUE, strlen(LONG_VALUE));
    case 14: return artmap_bytes_put(bytes, "aab", 3, "x", 1);
    case 15: return artmap_bytes_remove(bytes, "ab", 2);
    case 16: return artmap_bytes_clone(bytes, &maps->other_bytes);
    case 17: return artmap_bytes_split_off(bytes, "b1", 2, &maps->other_bytes);
    case 18: return artmap_bytes_freeze(bytes);
    case 19: return artmap_words_put(words, "aa", 2, 1, NULL);
    case 20: case 21: case 22: case 23: return load(maps, is_of_words(which), given(which), taken);
    case 24: return artmap_words_walk(words, &span, room, MOST, pairs, PLACES, &count);
    case 25: return artmap_bytes_walk(bytes, &back, room, MOST, lens, PLACES, &count);
    case 26: return artmap_words_find(words, "aex", 3, &len, many);
    case 27: return artmap_bytes_last_with_prefix(bytes, "a", 1, room, MOST, &len, other, MOST, &count);
    case 28: return artmap_words_walk_words_on(words, &back, &hint, many, PLACES, &count);
    case 29: return artmap_words_clear(words);
    case 30: return artmap_words_thaw(words);
    case 31: case 32: return append(maps, which, taken);
    case 33: return artmap_words_take_prefix(words, "a", 1, many, PLACES, &count);
    case 34:
        pairs[0] = pairs[1] = (artmap_words_pair){2, 0};
        return artmap_words_get_many(words, "aaab", 4, pairs, (uint8_t *)room, 2, &count);
    case 35: return artmap_words_compact(words);
    case 36: return artmap_bytes_compact(bytes);
    /* on a handle of the other kind */
    case 37: return artmap_words_put((artmap_words *)bytes, "af", 2, 1, NULL);
    case 38: return artmap_words_append((artmap_words *)bytes, words);
    case 39: return artmap_words_append(words, (artmap_words *)bytes);
    case 40: return artmap_words_clone((artmap_words *)bytes, &maps->other_words);
    case 41: return artmap_bytes_split_off((artmap_bytes *)words, "b1", 2, &maps->other_bytes);
    case 42: return artmap_words_clone(words, (artmap_words *)bytes);
    case 43: return artmap_bytes_split_off(bytes, "b1", 2, (artmap_bytes *)words);
    /* to an empty map, after a reserve, over a stored key */
    case 44: return append(maps, which, taken);
    case 45: return append(maps, which, taken);
    case 46: return put_three(words);
    case 47: return artmap_words_put(words, LONG_KEY, strlen(LONG_KEY), 1, NULL);
    case 48: return artmap_words_remove(words, "ab", 2, NULL);
    case 49: return artmap_words_put(words, LONG_KEY, strlen(LONG_KEY), 2, NULL);
    case 50: return artmap_words_compact(words);
    case 51: return artmap_words_freeze(words);
    case 52: return artmap_words_prefixes(words, "aex", 3, 'a', pairs, PLACES, &count);
    case 53: return artmap_words_at_or_after(words, "abx", 3, room, MOST, &len, many);
    case 54: return artmap_bytes_at_or_before(bytes, "abx", 3, room, MOST, &len, other, MOST, &count);
    case 55: return artmap_words_word_at_or_before((artmap_words *)bytes, "ab", 2, many);
    default: exit(3);
    }
}

/* Both maps with the pairs, and the first of those that a load or an append puts in; the others of an append. */
static void make(struct maps *maps, int which, size_t taken) {
    if (artmap_words_new(&maps->words) != ARTMAP_DONE || artmap_bytes_new(&maps->bytes) != ARTMAP_DONE) exit(3);
    for (int i = 0; i < PAIRS; i++)
        if (put_both(maps, keys[i], "value") != ARTMAP_DONE) exit(3);
    if (prepare(maps, which) != ARTMAP_DONE) exit(3);
    for (size_t i = 0; i < taken; i++)
        if (put_given(&maps->words, &maps->bytes, which, i) > ARTMAP_REPLACED) exit(3);
    if (!is_append(which)) return;
    if ((is_of_words(which) ? artmap_words_new(&maps->other_words) : artmap_bytes_new(&maps->other_bytes)) != ARTMAP_DONE) exit(3);
    for (size_t i = taken; i < PLACES; i++)
        if (put_given(&maps->other_words, &maps->other_bytes, which, i) != ARTMAP_DONE) exit(3);
}

static void free_all(struct maps *maps) {
    artmap_words_free(&maps->words);
    artmap_words_free(&maps->other_words);
    artmap_bytes_free(&maps->bytes);
    artmap_bytes_free(&maps->other_bytes);
}

/* How much malloc has lent. It is exact where the runner has it keep no free blocks by thread. */
static size_t lent_now(void) { return mallinfo2().uordblks + mallinfo2().hblkhd; }

int main(int argc, char **argv) {
    static char printed[256];
    struct maps maps = {0}, wanted = {0};
    size_t taken = 0, all = 0;
    if (argc != 2) return 3;
    int which = atoi(argv[1]);
    setvbuf(stdout, printed, _IOFBF, sizeof printed);
    void *volatile first = malloc(1); /* (the first request has malloc make what it needs itself) */
    free(first);
    size_t lent = lent_now();
    make(&maps, which, 0);
    size_t full = lent_now();
    if (write(2, "refuse\n", 7) != 7) return 3;
    artmap_code code = call(&maps, which, &taken);
    if (write(2, "told\n", 5) != 5) return 3;
    all = taken;
    if (which == CLEAR && lent_now() >= full) printf("keeps its memory ");
    if (code == ARTMAP_NO_MEMORY || code == ARTMAP_NO_MAP) {
        make(&wanted, which, taken);
        printf("%d %s ", code, sum(&maps) == sum(&wanted) ? "kept" : "changed");
        if (code == ARTMAP_NO_MEMORY) code = call(&maps, which, &all);
    }
    printf("%d %zu %lu", code, all, artmap_words_len(&maps.other_words) + artmap_bytes_len(&maps.other_bytes));
    free_all(&maps);
    free_all(&wanted);
    printf("%s\n", lent_now() == lent ? "" : " leaks");
    return 0;
}
