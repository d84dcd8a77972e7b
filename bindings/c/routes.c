/* A routing table: blocks of addresses that don't nest, and the way that each goes.
 *
 * A block is a key, the bytes that its addresses begin with, so that artmap_words_find tells the block of an address. Its
 * word points to the name of the way. Blocks that would nest are refused. Prints what it does; its exit status is 0 where
 * all went as it should.
 */
#include "artmap.h"

#include <stdio.h>

enum { MOST = 16, PLACES = 2 };

/* Writes bytes as an address, with points between them. */
static void print_block(const uint8_t *bytes, size_t len) {
    for (size_t i = 0; i < len; i++) printf(i ? ".%d" : "%d", bytes[i]);
}

static const char *name_of(uint64_t word) { return (const char *)(uintptr_t)word; }

static artmap_code add(artmap_words *routes, const uint8_t *block, size_t len, const char *way) {
    artmap_code code = artmap_words_put(routes, block, len, (uintptr_t)way, NULL);
    printf("add ");
    print_block(block, len);
    printf(" to %s: %s\n", way, artmap_code_text(code));
    return code;
}

static artmap_code look_up(artmap_words *routes, const uint8_t *address) {
    size_t len;
    uint64_t way;
    artmap_code code = artmap_words_find(routes, address, 4, &len, &way);
    print_block(address, 4);
    if (code == ARTMAP_DONE) {
        printf(" is in ");
        print_block(address, len);
        printf(", and goes to %s\n", name_of(way));
    } else {
        printf(": %s\n", artmap_code_text(code));
    }
    return code;
}

/* All blocks in order, some in each call. */
static size_t list(artmap_words *routes) {
    uint8_t room[PLACES * MOST], last[MOST];
    artmap_words_pair pairs[PLACES];
    artmap_span span = {0};
    size_t count = 0, taken;
    artmap_code code;
    do {
        code = artmap_words_walk(routes, &span, room, sizeof room, pairs, PLACES, &taken);
        const uint8_t *block = room;
        for (size_t i = 0; i < taken; block += pairs[i++].key_len) {
            print_block(block, pairs[i].key_len);
            printf(" to %s\n", name_of(pairs[i].word));
            span.from_len = pairs[i].key_len;
            for (size_t at = 0; at < span.from_len; at++) last[at] = block[at];
        }
        span.from = ARTMAP_AFTER_KEY;
        span.from_key = last;
        count += taken;
    } while (code == ARTMAP_MORE);
    return count;
}

int main(void) {
    static const uint8_t office[] = {10, 1}, lab[] = {10, 2, 7}, floor[] = {10, 1, 4}, guests[] = {192, 168};
    static const uint8_t desk[] = {10, 1, 4, 9}, probe[] = {10, 2, 7, 1}, other[] = {10, 3, 0, 1}, ten[] = {10};
    artmap_words routes = ARTMAP_WORDS_EMPTY;
    size_t count = 0;
    int wrong = artmap_words_new(&routes) != ARTMAP_DONE;
    wrong |= add(&routes, office, sizeof office, "east") != ARTMAP_DONE;
    wrong |= add(&routes, lab, sizeof lab, "lab") != ARTMAP_DONE;
    wrong |= add(&routes, guests, sizeof guests, "out") != ARTMAP_DONE;
    wrong |= add(&routes, floor, sizeof floor, "west") != ARTMAP_CONFLICT;
    wrong |= add(&routes, office, sizeof office, "north") != ARTMAP_REPLACED;
    wrong |= look_up(&routes, desk) != ARTMAP_DONE;
    wrong |= look_up(&routes, probe) != ARTMAP_DONE;
    wrong |= look_up(&routes, other) != ARTMAP_NOT_FOUND;
    wrong |= list(&routes) != 3;
    wrong |= artmap_words_remove_prefix(&routes, ten, sizeof ten, &count) != ARTMAP_DONE || count != 2;
    printf("without those in 10: %zu\n", artmap_words_len(&routes));
    wrong |= artmap_words_len(&routes) != 1;
    artmap_words_free(&routes);
    wrong |= artmap_words_len(&routes) != 0 || look_up(&routes, desk) != ARTMAP_NO_MAP;
    return wrong;
}
