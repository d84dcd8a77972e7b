/* The calls of artmap.h, each passed on to its proved export of crates/art_c. Three things are done here and nothing else:
 * a NULL becomes the address of something, a span is taken apart, and a code gets its text.
 *
 * An export has the name of its call without `artmap_`, and where that ends in `_on`, without this, too. It takes a slice
 * as a pointer that is not NULL and a length, and has no name outside the library. */
#include "artmap.h"

typedef uint32_t code;
typedef artmap_words words;
typedef artmap_bytes bytes;
typedef const uint8_t *in;
typedef uint8_t *out;

/* What is read or written at NULL: nothing, since its length is 0. Static bytes that nobody reads or writes; rooms get one
 * each, since two of them in a call are not to overlap. */
static const union { uint8_t byte; size_t number; uint64_t word; } no_bytes;
static union { uint8_t byte; size_t number; uint64_t word; } no_room, no_other_room;
#define IN(pointer) ((in)((pointer) ? (pointer) : &no_bytes))
#define OUT(pointer) ((out)((pointer) ? (void *)(pointer) : (void *)&no_room))
#define OTHER_OUT(pointer) ((out)((pointer) ? (void *)(pointer) : (void *)&no_other_room))
#define ITEMS(type, pointer) ((type *)((pointer) ? (const void *)(pointer) : (const void *)&no_bytes))
#define PLACES(type, pointer) ((type *)((pointer) ? (void *)(pointer) : (void *)&no_room))
/* Where a single number is told: a local where the caller does not want it. */
#define TOLD(pointer) ((pointer) ? (pointer) : &unwanted)
#define SPAN(span) (span)->back, (span)->from, IN((span)->from_key), (span)->from_len, (span)->to, IN((span)->to_key), (span)->to_len
#define SPAN_WORDS bool, uint32_t, in, size_t, uint32_t, in, size_t

const char *artmap_version(void) { return ARTMAP_VERSION; }

const char *artmap_code_text(artmap_code code) {
    switch (code) {
    case ARTMAP_DONE: return "done";
    case ARTMAP_REPLACED: return "the pair is in the place of the one with its key";
    case ARTMAP_NOT_FOUND: return "there is no such pair";
    case ARTMAP_CONFLICT: return "a stored key begins the key, or the key begins a stored one";
    case ARTMAP_NO_ROOM: return "a room is too small";
    case ARTMAP_NO_MEMORY: return "out of memory";
    case ARTMAP_NO_MAP: return "the handle has no map";
    case ARTMAP_NOT_ABOVE: return "the key is not above the one before it";
    case ARTMAP_CUT_OFF: return "the bytes end too early";
    case ARTMAP_MORE: return "done, and other pairs are left";
    case ARTMAP_FROZEN: return "the map is frozen";
    case ARTMAP_SHARED: return "another handle has the map, too";
    }
    return "no code of artmap";
}

/* What both kinds have. */
#define WHOLES(KIND)                                                                                                      \
    code KIND##_new(KIND *);                                                                                              \
    artmap_code artmap_##KIND##_new(KIND *map) { return KIND##_new(map); }                                                \
    void KIND##_free(KIND *);                                                                                             \
    void artmap_##KIND##_free(KIND *map) { KIND##_free(map); }                                                            \
    size_t KIND##_len(KIND *);                                                                                            \
    size_t artmap_##KIND##_len(KIND *map) { return KIND##_len(map); }                                                     \
    bool KIND##_contains(KIND *, in, size_t);                                                                             \
    bool artmap_##KIND##_contains(KIND *map, const void *key, size_t key_len) {                                           \
        return KIND##_contains(map, IN(key), key_len);                                                                    \
    }                                                                                                                     \
    code KIND##_remove_prefix(KIND *, in, size_t, size_t *);                                                              \
    artmap_code artmap_##KIND##_remove_prefix(KIND *map, const void *prefix, size_t prefix_len, size_t *count) {          \
        size_t unwanted;                                                                                                  \
        return KIND##_remove_prefix(map, IN(prefix), prefix_len, TOLD(count));                                            \
    }                                                                                                                     \
    code KIND##_clone(KIND *, KIND *);                                                                                    \
    artmap_code artmap_##KIND##_clone(KIND *map, KIND *to) { return KIND##_clone(map, to); }                              \
    code KIND##_split_off(KIND *, in, size_t, KIND *);                                                                    \
    artmap_code artmap_##KIND##_split_off(KIND *map, const void *key, size_t key_len, KIND *to) {                         \
        return KIND##_split_off(map, IN(key), key_len, to);                                                               \
    }                                                                                                                     \
    code KIND##_append(KIND *, KIND *);                                                                                   \
    artmap_code artmap_##KIND##_append(KIND *map, KIND *other) { return KIND##_append(map, other); }                      \
    code KIND##_reserve(KIND *, size_t);                                                                                  \
    artmap_code artmap_##KIND##_reserve(KIND *map, size_t additional) { return KIND##_reserve(map, additional); }         \
    code KIND##_shrink(KIND *);                                                                                           \
    artmap_code artmap_##KIND##_shrink(KIND *map) { return KIND##_shrink(map); }                                          \
    code KIND##_compact(KIND *);                                                                                          \
    artmap_code artmap_##KIND##_compact(KIND *map) { return KIND##_compact(map); }                                        \
    code KIND##_clear(KIND *);                                                                                            \
    artmap_code artmap_##KIND##_clear(KIND *map) { return KIND##_clear(map); }                                            \
    code KIND##_freeze(KIND *);                                                                                           \
    artmap_code artmap_##KIND##_freeze(KIND *map) { return KIND##_freeze(map); }                                          \
    code KIND##_share(KIND *, KIND *);                                                                                    \
    artmap_code artmap_##KIND##_share(KIND *map, KIND *to) { return KIND##_share(map, to); }                              \
    code KIND##_thaw(KIND *);                                                                                             \
    artmap_code artmap_##KIND##_thaw(KIND *map) { return KIND##_thaw(map); }                                              \
    bool KIND##_is_frozen(KIND *);                                                                                        \
    bool artmap_##KIND##_is_frozen(KIND *map) { return KIND##_is_frozen(map); }                                           \
    code KIND##_audit(KIND *, artmap_nodes *);                                                                            \
    artmap_code artmap_##KIND##_audit(KIND *map, artmap_nodes *told) { return KIND##_audit(map, told); }

WHOLES(words)
WHOLES(bytes)

/* Words. */

code words_put(words *, in, size_t, uint64_t, uint64_t *);
artmap_code artmap_words_put(words *map, const void *key, size_t key_len, uint64_t word, uint64_t *old) {
    uint64_t unwanted;
    return words_put(map, IN(key), key_len, word, TOLD(old));
}

code words_get(words *, in, size_t, uint64_t *);
artmap_code artmap_words_get(words *map, const void *key, size_t key_len, uint64_t *word) {
    uint64_t unwanted;
    return words_get(map, IN(key), key_len, TOLD(word));
}

code words_remove(words *, in, size_t, uint64_t *);
artmap_code artmap_words_remove(words *map, const void *key, size_t key_len, uint64_t *word) {
    uint64_t unwanted;
    return words_remove(map, IN(key), key_len, TOLD(word));
}

code words_pop(words *, bool, uint64_t *);
artmap_code artmap_words_pop(words *map, bool back, uint64_t *word) {
    uint64_t unwanted;
    return words_pop(map, back, TOLD(word));
}

code words_find(words *, in, size_t, size_t *, uint64_t *);
artmap_code artmap_words_find(words *map, const void *query, size_t query_len, size_t *key_len, uint64_t *word) {
    size_t no_len;
    uint64_t unwanted;
    return words_find(map, IN(query), query_len, key_len ? key_len : &no_len, TOLD(word));
}

code words_find_marked(words *, in, size_t, uint8_t, size_t *, uint64_t *);
artmap_code artmap_words_find_marked(words *map, const void *query, size_t query_len, uint8_t mark, size_t *key_len,
                                     uint64_t *word) {
    size_t no_len;
    uint64_t unwanted;
    return words_find_marked(map, IN(query), query_len, mark, key_len ? key_len : &no_len, TOLD(word));
}

#define WORDS_END(NAME, WORD)                                                                                             \
    code words_##NAME(words *, out, size_t, size_t *, uint64_t *);                                                        \
    artmap_code artmap_words_##NAME(words *map, void *room, size_t room_len, size_t *key_len, uint64_t *word) {           \
        size_t no_len;                                                                                                    \
        uint64_t unwanted;                                                                                                \
        return words_##NAME(map, OUT(room), room_len, key_len ? key_len : &no_len, TOLD(word));                           \
    }                                                                                                                     \
    code words_##WORD(words *, uint64_t *);                                                                               \
    artmap_code artmap_words_##WORD(words *map, uint64_t *word) {                                                         \
        uint64_t unwanted;                                                                                                \
        return words_##WORD(map, TOLD(word));                                                                             \
    }

WORDS_END(first, first_word)
WORDS_END(last, last_word)

#define WORDS_BESIDE(NAME, WORD)                                                                                          \
    code words_##NAME(words *, in, size_t, out, size_t, size_t *, uint64_t *);                                            \
    artmap_code artmap_words_##NAME(words *map, const void *key, size_t key_len, void *room, size_t room_len,             \
                                    size_t *found_len, uint64_t *word) {                                                  \
        size_t no_len;                                                                                                    \
        uint64_t unwanted;                                                                                                \
        return words_##NAME(map, IN(key), key_len, OUT(room), room_len, found_len ? found_len : &no_len, TOLD(word));     \
    }                                                                                                                     \
    code words_##WORD(words *, in, size_t, uint64_t *);                                                                   \
    artmap_code artmap_words_##WORD(words *map, const void *key, size_t key_len, uint64_t *word) {                        \
        uint64_t unwanted;                                                                                                \
        return words_##WORD(map, IN(key), key_len, TOLD(word));                                                           \
    }

WORDS_BESIDE(first_with_prefix, first_word_with_prefix)
WORDS_BESIDE(last_with_prefix, last_word_with_prefix)
WORDS_BESIDE(next, next_word)
WORDS_BESIDE(previous, previous_word)
WORDS_BESIDE(at_or_after, word_at_or_after)
WORDS_BESIDE(at_or_before, word_at_or_before)

code words_walk(words *, SPAN_WORDS, artmap_hint *, out, size_t, artmap_words_pair *, size_t, size_t *);
artmap_code artmap_words_walk_on(words *map, const artmap_span *span, artmap_hint *hint, void *room, size_t room_len,
                                 artmap_words_pair *pairs, size_t places, size_t *count) {
    artmap_hint none = {0, 0};
    size_t unwanted;
    return words_walk(map, SPAN(span), hint ? hint : &none, OUT(room), room_len,
                      pairs ? pairs : (artmap_words_pair *)&no_other_room, places, TOLD(count));
}
artmap_code artmap_words_walk(words *map, const artmap_span *span, void *room, size_t room_len, artmap_words_pair *pairs,
                              size_t places, size_t *count) {
    return artmap_words_walk_on(map, span, NULL, room, room_len, pairs, places, count);
}

code words_walk_words(words *, SPAN_WORDS, artmap_hint *, uint64_t *, size_t, size_t *);
artmap_code artmap_words_walk_words_on(words *map, const artmap_span *span, artmap_hint *hint, uint64_t *told, size_t places,
                                       size_t *count) {
    artmap_hint none = {0, 0};
    size_t unwanted;
    return words_walk_words(map, SPAN(span), hint ? hint : &none, PLACES(uint64_t, told), places, TOLD(count));
}
artmap_code artmap_words_walk_words(words *map, const artmap_span *span, uint64_t *told, size_t places, size_t *count) {
    return artmap_words_walk_words_on(map, span, NULL, told, places, count);
}

code words_prefixes(words *, in, size_t, uint8_t, artmap_words_pair *, size_t, size_t *);
artmap_code artmap_words_prefixes(words *map, const void *query, size_t query_len, uint8_t mark, artmap_words_pair *pairs,
                                  size_t places, size_t *count) {
    size_t unwanted;
    return words_prefixes(map, IN(query), query_len, mark, PLACES(artmap_words_pair, pairs), places, TOLD(count));
}

code words_load(words *, in, size_t, const artmap_words_pair *, size_t, size_t *);
artmap_code artmap_words_load(words *map, const void *keys, size_t keys_len, const artmap_words_pair *pairs, size_t count,
                              size_t *taken) {
    size_t unwanted;
    return words_load(map, IN(keys), keys_len, ITEMS(const artmap_words_pair, pairs), count, TOLD(taken));
}

code words_get_many(words *, in, size_t, artmap_words_pair *, size_t, uint8_t *, size_t, size_t *);
artmap_code artmap_words_get_many(words *map, const void *keys, size_t keys_len, artmap_words_pair *pairs, uint8_t *found,
                                  size_t count, size_t *told) {
    size_t unwanted;
    return words_get_many(map, IN(keys), keys_len, PLACES(artmap_words_pair, pairs), count, OTHER_OUT(found), count,
                          TOLD(told));
}

code words_take_prefix(words *, in, size_t, uint64_t *, size_t, size_t *);
artmap_code artmap_words_take_prefix(words *map, const void *prefix, size_t prefix_len, uint64_t *told, size_t places,
                                     size_t *count) {
    size_t unwanted;
    return words_take_prefix(map, IN(prefix), prefix_len, PLACES(uint64_t, told), places, TOLD(count));
}

/* Bytes. */

code bytes_put(bytes *, in, size_t, in, size_t);
artmap_code artmap_bytes_put(bytes *map, const void *key, size_t key_len, const void *value, size_t value_len) {
    return bytes_put(map, IN(key), key_len, IN(value), value_len);
}

code bytes_get(bytes *, in, size_t, out, size_t, size_t *);
artmap_code artmap_bytes_get(bytes *map, const void *key, size_t key_len, void *room, size_t room_len, size_t *value_len) {
    size_t unwanted;
    return bytes_get(map, IN(key), key_len, OUT(room), room_len, TOLD(value_len));
}

code bytes_remove(bytes *, in, size_t);
artmap_code artmap_bytes_remove(bytes *map, const void *key, size_t key_len) { return bytes_remove(map, IN(key), key_len); }

#define BYTES_END(NAME)                                                                                                   \
    code bytes_##NAME(bytes *, out, size_t, size_t *, out, size_t, size_t *);                                             \
    artmap_code artmap_bytes_##NAME(bytes *map, void *key_room, size_t key_room_len, size_t *key_len, void *value_room,   \
                                    size_t value_room_len, size_t *value_len) {                                           \
        size_t no_len, unwanted;                                                                                          \
        return bytes_##NAME(map, OUT(key_room), key_room_len, key_len ? key_len : &no_len, OTHER_OUT(value_room),         \
                            value_room_len, TOLD(value_len));                                                             \
    }

BYTES_END(first)
BYTES_END(last)

#define BYTES_BESIDE(NAME)                                                                                                \
    code bytes_##NAME(bytes *, in, size_t, out, size_t, size_t *, out, size_t, size_t *);                                 \
    artmap_code artmap_bytes_##NAME(bytes *map, const void *key, size_t key_len, void *key_room, size_t key_room_len,     \
                                    size_t *found_len, void *value_room, size_t value_room_len, size_t *value_len) {      \
        size_t no_len, unwanted;                                                                                          \
        return bytes_##NAME(map, IN(key), key_len, OUT(key_room), key_room_len, found_len ? found_len : &no_len,          \
                            OTHER_OUT(value_room), value_room_len, TOLD(value_len));                                      \
    }

BYTES_BESIDE(find)
BYTES_BESIDE(first_with_prefix)
BYTES_BESIDE(last_with_prefix)
BYTES_BESIDE(next)
BYTES_BESIDE(previous)
BYTES_BESIDE(at_or_after)
BYTES_BESIDE(at_or_before)

code bytes_walk(bytes *, SPAN_WORDS, out, size_t, artmap_bytes_pair *, size_t, size_t *);
artmap_code artmap_bytes_walk(bytes *map, const artmap_span *span, void *room, size_t room_len, artmap_bytes_pair *pairs,
                              size_t places, size_t *count) {
    size_t unwanted;
    return bytes_walk(map, SPAN(span), OUT(room), room_len, pairs ? pairs : (artmap_bytes_pair *)&no_other_room, places,
                      TOLD(count));
}

code bytes_load(bytes *, in, size_t, const artmap_bytes_pair *, size_t, size_t *);
artmap_code artmap_bytes_load(bytes *map, const void *data, size_t data_len, const artmap_bytes_pair *pairs, size_t count,
                              size_t *taken) {
    size_t unwanted;
    return bytes_load(map, IN(data), data_len, ITEMS(const artmap_bytes_pair, pairs), count, TOLD(taken));
}
