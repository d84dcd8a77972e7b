/* NULL with a length of 0, and where a word or a length is not wanted (tests/bindings_c.py).
 *
 * Its status is 0 where each call answers as it does for no bytes, and else the number of the first that does not.
 */
#include "artmap.h"

#include <string.h>

static int words(void) {
    artmap_words map = ARTMAP_WORDS_EMPTY, other = ARTMAP_WORDS_EMPTY;
    artmap_words_pair pairs[2] = {{7, 7}, {7, 7}};
    artmap_span all = {0}, from_none = {.from = ARTMAP_FROM_KEY};
    uint64_t word = 9;
    uint8_t found[2] = {9, 9};
    size_t len = 9, count = 9;
    if (artmap_words_new(&map) != ARTMAP_DONE) return 1;
    if (artmap_words_put(&map, NULL, 0, 5, NULL) != ARTMAP_DONE || artmap_words_len(&map) != 1) return 2;
    if (artmap_words_put(&map, "a", 1, 6, &word) != ARTMAP_CONFLICT || word != 9) return 3;
    if (artmap_words_put(&map, NULL, 0, 6, &word) != ARTMAP_REPLACED || word != 5) return 4;
    if (artmap_words_get(&map, NULL, 0, &word) != ARTMAP_DONE || word != 6) return 5;
    if (artmap_words_get(&map, NULL, 0, NULL) != ARTMAP_DONE || !artmap_words_contains(&map, NULL, 0)) return 6;
    if (artmap_words_find(&map, "any", 3, &len, NULL) != ARTMAP_DONE || len != 0) return 7;
    if (artmap_words_next_word(&map, NULL, 0, &word) != ARTMAP_NOT_FOUND) return 8;
    if (artmap_words_find_marked(&map, NULL, 0, 0, &len, &word) != ARTMAP_NOT_FOUND || len != 0 || word != 6) return 48;
    if (artmap_words_prefixes(&map, NULL, 0, 0, NULL, 0, &count) != ARTMAP_NOT_FOUND || count != 0) return 51;
    if (artmap_words_word_at_or_after(&map, NULL, 0, &word) != ARTMAP_DONE || word != 6) return 52;
    if (artmap_words_at_or_before(&map, NULL, 0, NULL, 0, &len, NULL) != ARTMAP_DONE || len != 0) return 53;
    if (artmap_words_first(&map, NULL, 0, NULL, NULL) != ARTMAP_DONE) return 9;
    if (artmap_words_walk(&map, &from_none, NULL, 0, pairs, 2, &count) != ARTMAP_DONE || count != 1) return 10;
    if (pairs[0].key_len != 0 || pairs[0].word != 6 || pairs[1].key_len != 7) return 11;
    if (artmap_words_walk(&map, &all, NULL, 0, NULL, 0, &count) != ARTMAP_NO_ROOM || count != 0) return 12;
    if (artmap_words_walk_words(&map, &all, NULL, 0, NULL) != ARTMAP_NO_ROOM) return 13;
    if (artmap_words_walk_words_on(&map, &all, NULL, NULL, 0, NULL) != ARTMAP_NO_ROOM) return 49;
    if (artmap_words_walk_on(&map, &all, NULL, NULL, 0, NULL, 0, NULL) != ARTMAP_NO_ROOM) return 50;
    if (artmap_words_remove(&map, NULL, 0, NULL) != ARTMAP_DONE || artmap_words_len(&map) != 0) return 16;
    if (artmap_words_load(&map, NULL, 0, NULL, 0, &count) != ARTMAP_DONE || count != 0) return 17;
    if (artmap_words_remove_prefix(&map, NULL, 0, NULL) != ARTMAP_DONE) return 18;
    if (artmap_words_split_off(&map, NULL, 0, &other) != ARTMAP_DONE || artmap_words_len(&other) != 0) return 19;
    if (artmap_words_get_many(&map, NULL, 0, NULL, NULL, 0, &count) != ARTMAP_DONE || count != 0) return 41;
    if (artmap_words_take_prefix(&map, NULL, 0, NULL, 0, &count) != ARTMAP_NOT_FOUND || count != 0) return 42;
    if (artmap_words_put(&other, NULL, 0, 5, NULL) != ARTMAP_DONE) return 43;
    if (artmap_words_take_prefix(&other, NULL, 0, NULL, 0, NULL) != ARTMAP_NO_ROOM) return 44;
    if (artmap_words_append(&map, &other) != ARTMAP_DONE || artmap_words_len(&map) != 1) return 45;
    pairs[0] = pairs[1] = (artmap_words_pair){0, 7};
    if (artmap_words_get_many(&map, NULL, 0, pairs, found, 2, NULL) != ARTMAP_DONE || pairs[1].word != 5 || !found[1]) return 46;
    if (artmap_words_take_prefix(&map, NULL, 0, &word, 1, NULL) != ARTMAP_DONE || word != 5) return 47;
    if (artmap_words_put(&map, "", 1, 8, NULL) != ARTMAP_DONE) return 54;
    if (artmap_words_prefixes(&map, NULL, 0, 0, NULL, 0, NULL) != ARTMAP_NO_ROOM) return 55;
    if (artmap_words_prefixes(&map, NULL, 0, 0, pairs, 1, &count) != ARTMAP_DONE || pairs[0].word != 8) return 56;
    artmap_words_free(&other);
    artmap_words_free(&map);
    return artmap_words_get(&map, NULL, 0, &word) == ARTMAP_NO_MAP ? 0 : 20;
}

static int bytes(void) {
    artmap_bytes map = ARTMAP_BYTES_EMPTY;
    artmap_bytes_pair pairs[2] = {{7, 7}, {7, 7}};
    artmap_span all = {0}, back = {.back = true}, from_none = {.from = ARTMAP_FROM_KEY};
    char key[4] = "...", value[4] = "...";
    size_t key_len = 9, value_len = 9, count = 9;
    if (artmap_bytes_new(&map) != ARTMAP_DONE) return 21;
    if (artmap_bytes_put(&map, NULL, 0, NULL, 0) != ARTMAP_DONE || artmap_bytes_len(&map) != 1) return 22;
    if (artmap_bytes_put(&map, "a", 1, NULL, 0) != ARTMAP_CONFLICT) return 23;
    if (artmap_bytes_get(&map, NULL, 0, NULL, 0, &value_len) != ARTMAP_DONE || value_len != 0) return 24;
    if (artmap_bytes_find(&map, "any", 3, NULL, 0, &key_len, NULL, 0, NULL) != ARTMAP_DONE || key_len != 0) return 25;
    if (artmap_bytes_next(&map, NULL, 0, key, 4, &key_len, value, 4, &value_len) != ARTMAP_NOT_FOUND) return 26;
    if (artmap_bytes_at_or_after(&map, NULL, 0, NULL, 0, &key_len, NULL, 0, NULL) != ARTMAP_DONE || key_len != 0) return 57;
    if (artmap_bytes_at_or_before(&map, NULL, 0, NULL, 0, NULL, NULL, 0, NULL) != ARTMAP_DONE) return 58;
    if (artmap_bytes_walk(&map, &from_none, NULL, 0, pairs, 2, &count) != ARTMAP_DONE || count != 1) return 27;
    if (pairs[0].key_len != 0 || pairs[0].value_len != 0 || pairs[1].key_len != 7) return 28;
    if (artmap_bytes_walk(&map, &all, NULL, 0, pairs + 1, 0, &count) != ARTMAP_NO_ROOM || count != 0) return 29;
    if (pairs[1].key_len != 7) return 30;
    if (artmap_bytes_remove(&map, NULL, 0) != ARTMAP_DONE || artmap_bytes_len(&map) != 0) return 31;
    pairs[0] = pairs[1] = (artmap_bytes_pair){0, 0};
    if (artmap_bytes_load(&map, NULL, 0, pairs, 0, &count) != ARTMAP_DONE || count != 0) return 32;
    if (artmap_bytes_load(&map, NULL, 0, pairs, 1, &count) != ARTMAP_DONE || count != 1) return 33;
    if (artmap_bytes_load(&map, NULL, 0, pairs, 2, &count) != ARTMAP_NOT_ABOVE || count != 1) return 34;
    if (artmap_bytes_remove_prefix(&map, NULL, 0, &count) != ARTMAP_DONE || count != 1) return 35;
    if (artmap_bytes_put(&map, "key", 3, "val", 3) != ARTMAP_DONE) return 36;
    if (artmap_bytes_first(&map, NULL, 0, &key_len, NULL, 0, &value_len) != ARTMAP_NO_ROOM || key_len != 3) return 37;
    if (artmap_bytes_walk(&map, &back, NULL, 0, pairs, 1, &count) != ARTMAP_NO_ROOM || pairs[0].key_len != 3) return 38;
    if (strcmp(key, "...") != 0 || strcmp(value, "...") != 0) return 39;
    artmap_bytes_free(&map);
    return artmap_bytes_get(&map, NULL, 0, NULL, 0, NULL) == ARTMAP_NO_MAP ? 0 : 40;
}

int main(void) {
    int failed = words();
    return failed ? failed : bytes();
}
