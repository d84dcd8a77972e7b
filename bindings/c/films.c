/* Titles of films and their stars. A title that begins another one is refused. */
#include "artmap.h"

#include <stdio.h>

int main(void) {
    artmap_words films = ARTMAP_WORDS_EMPTY;
    char title[40];
    size_t len;
    uint64_t stars;
    if (artmap_words_new(&films) != ARTMAP_DONE) return 1;
    artmap_words_put(&films, "Office Space", 12, 4, NULL);
    artmap_words_put(&films, "Brazil", 6, 5, NULL);
    artmap_code code = artmap_words_put(&films, "Office", 6, 2, NULL);
    printf("Office goes in: %s\n", code == ARTMAP_CONFLICT ? "no" : "yes");
    if (artmap_words_first(&films, title, sizeof title, &len, &stars) == ARTMAP_DONE)
        printf("%.*s: %d, of %zu\n", (int)len, title, (int)stars, artmap_words_len(&films));
    artmap_words_free(&films);
    return 0;
}
