// Titles of films and their stars, as words. A title that begins another one is refused.
#include "artmap.h"

#include <cstdint>
#include <iostream>
#include <string_view>

static artmap_code put(artmap_words &films, std::string_view title, std::uint64_t stars) {
    return artmap_words_put(&films, title.data(), title.size(), stars, nullptr);
}

int main() {
    artmap_words films = ARTMAP_WORDS_EMPTY;
    if (artmap_words_new(&films) != ARTMAP_DONE) return 1;
    put(films, "Office Space", 4);
    put(films, "Brazil", 5);
    std::cout << "Office goes in: " << (put(films, "Office", 2) == ARTMAP_CONFLICT ? "no" : "yes") << '\n';
    char title[40];
    std::size_t len;
    std::uint64_t stars;
    if (artmap_words_first(&films, title, sizeof title, &len, &stars) == ARTMAP_DONE)
        std::cout << std::string_view(title, len) << ": " << stars << ", of " << artmap_words_len(&films) << '\n';
    artmap_words_free(&films);
}
