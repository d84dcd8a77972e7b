/* Pages under paths, of which some begin others: each path is stored with a zero after it, its mark.
 *
 * Tells which pages a path lies under, the longest first, some in each call, and the page at a path or after it. Its exit
 * status is 0 where all went as it should.
 */
#include "artmap.h"

#include <stdio.h>
#include <string.h>

enum { PLACES = 2 };

static artmap_code add(artmap_words *pages, const char *path, uint64_t page) {
    return artmap_words_put(pages, path, strlen(path) + 1, page, NULL);
}

/* The pages that a path lies under. Each path of a page is some first bytes of it. */
static size_t list(artmap_words *pages, const char *path) {
    artmap_words_pair told[PLACES];
    size_t len = strlen(path), count = 0, all = 0;
    artmap_code code;
    do {
        code = artmap_words_prefixes(pages, path, len, 0, told, PLACES, &count);
        for (size_t i = 0; i < count; i++)
            printf("%s is under %.*s: page %d\n", path, (int)told[i].key_len - 1, path, (int)told[i].word);
        all += count;
        if (code == ARTMAP_MORE) len = told[count - 1].key_len - 2;
    } while (code == ARTMAP_MORE);
    return all;
}

int main(void) {
    artmap_words pages = ARTMAP_WORDS_EMPTY;
    char path[40];
    size_t len;
    uint64_t page;
    int wrong = artmap_words_new(&pages) != ARTMAP_DONE;
    wrong |= add(&pages, "/", 1) || add(&pages, "/api", 2) || add(&pages, "/api/v1", 3) || add(&pages, "/help", 4);
    wrong |= list(&pages, "/api/v1/users") != 3;
    wrong |= list(&pages, "/about") != 1;
    wrong |= list(&pages, "about") != 0;
    wrong |= artmap_words_at_or_after(&pages, "/b", 3, path, sizeof path, &len, &page) != ARTMAP_DONE;
    printf("at /b or after it: %s, page %d\n", path, (int)page);
    wrong |= artmap_words_at_or_before(&pages, "/api", 5, path, sizeof path, &len, &page) != ARTMAP_DONE;
    printf("at /api or before it: %s, page %d\n", path, (int)page);
    artmap_words_free(&pages);
    return wrong;
}
