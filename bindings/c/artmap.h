/* artmap: ordered maps with byte strings as keys, each in an adaptive radix tree.
 *
 *     artmap_words map = ARTMAP_WORDS_EMPTY;
 *     if (artmap_words_new(&map) != ARTMAP_DONE) return 1;
 *     artmap_words_put(&map, "key", 3, 42, NULL);
 *     artmap_words_free(&map);
 *
 * There are two kinds. A map of words has a uint64_t for each key: a number, an index, or a pointer of the caller's. A map
 * of bytes has a byte string for each key, which it copies. Both have the same calls, so far as that makes sense.
 *
 * Keys ascend as memcmp orders them, and a key that begins another comes first. A stored key begins no other one: a key
 * that would is refused (ARTMAP_CONFLICT). Where that is not wanted, end each key with a byte that is in none of them.
 * An empty key begins every other, so it is stored alone.
 *
 * Keys are copied in, and copied out only where a call says so. No pointer is kept but in words, and what these point to
 * is the caller's matter. No call prints, blocks or ends the program.
 *
 * NULL. What is read or written may be at NULL where the length beside it is 0: it is an empty key, value or room. Where a
 * call tells a single word or length by a pointer, NULL says that it is not wanted. No other pointer may be NULL.
 *
 * Memory. Each call that may find none says so (ARTMAP_NO_MEMORY), and the map is as it was, but for what the call tells
 * as done. Where a key is in conflict and there is no memory either, the conflict is told. A key or a value of thirty bytes
 * or fewer takes no memory besides its pair's.
 *
 * Threads. A handle has one call at a time, those that only read too. It may go to another thread between two calls,
 * where the program orders them (by a lock, or by a thread's start or end). For readers in many threads at once, freeze
 * the map, and share it: each thread has a handle of its own on the one frozen map.
 *
 * What a call answers, and what it does to the pairs and to the rooms, is proved (crates/art_c), of a caller that keeps
 * these rules, which nothing checks:
 *
 *   1. A handle is empty (ARTMAP_WORDS_EMPTY, ARTMAP_BYTES_EMPTY) before its first call, and only these calls write it.
 *      It may be moved, as by an assignment or memcpy, but only one copy is used from then on.
 *   2. One call at a time for each handle, as above.
 *   3. Each pointer is to as many bytes as are told beside it, or as many items, and none to more than PTRDIFF_MAX bytes.
 *      What a call reads is there to be read, and what it writes is there to be written.
 *   4. The rooms, words and lengths that a call writes overlap nothing else that it is given: not each other, nor a key or
 *      a value that it reads, nor a handle. Two handles of a call are different ones. What is read has no other writer
 *      meanwhile.
 *   5. malloc, realloc and free are those of one allocator, which aligns blocks as C wants.
 *   6. No call is made from a signal handler, or in a forked child of a program with threads.
 *
 * Link with libartmap.a or libartmap.so, which have no other global names than these. `./lib` makes both.
 */
#ifndef ARTMAP_H
#define ARTMAP_H

#include <stdbool.h>
#include <stddef.h>
#include <stdint.h>

#ifdef __cplusplus
extern "C" {
#endif

#define ARTMAP_VERSION "0.1.0"

/* The version of the library that is linked, as ARTMAP_VERSION tells that of the header. */
const char *artmap_version(void);

/* What a call answers. */
typedef enum artmap_code {
    ARTMAP_DONE = 0,      /* done, or found and told */
    ARTMAP_REPLACED = 1,  /* the pair is in the place of the one with its key */
    ARTMAP_NOT_FOUND = 2, /* there is no such pair */
    ARTMAP_CONFLICT = 3,  /* a stored key begins the key, or the key begins a stored one */
    ARTMAP_NO_ROOM = 4,   /* a room is too small: nothing is copied out, and the lengths are told */
    ARTMAP_NO_MEMORY = 5, /* no memory: the map is as it was */
    ARTMAP_NO_MAP = 6,    /* the handle has no map: nothing is done, and nothing is written */
    ARTMAP_NOT_ABOVE = 7, /* the key is not above the one before it (in a load) */
    ARTMAP_CUT_OFF = 8,   /* the bytes end before the pair does */
    ARTMAP_MORE = 9,      /* done as far as the room goes, and other pairs are left */
    ARTMAP_FROZEN = 10,   /* the map is frozen, so it is not changed */
    ARTMAP_SHARED = 11    /* the map stays frozen, since another handle has it, too */
} artmap_code;

/* A sentence for a code, in plain English: a text that stays. Of any other number it says that it is no code. */
const char *artmap_code_text(artmap_code code);

/* The handles. They lie where the caller puts them. Read `is_made`, if you like, and write nothing. */
typedef struct artmap_words {
    void *held;
    bool is_made;
} artmap_words;

typedef struct artmap_bytes {
    void *held;
    bool is_made;
} artmap_bytes;

/* Handles with no map. */
#ifdef __cplusplus
#define ARTMAP_WORDS_EMPTY (artmap_words{NULL, false})
#define ARTMAP_BYTES_EMPTY (artmap_bytes{NULL, false})
#else
#define ARTMAP_WORDS_EMPTY ((artmap_words){NULL, false})
#define ARTMAP_BYTES_EMPTY ((artmap_bytes){NULL, false})
#endif

/* Which pairs a walk meets: {0} is all, ascending. With `back` it descends. It begins at an end of the map, at the pair
 * of `from_key`, or after it; it ends at the other end, with the pair of `to_key`, before it, or before the first pair
 * whose key does not begin with `to_key`. The keys need not be stored. What is before and after goes by the way of the
 * walk: with `back` the lesser key is after the greater. With ARTMAP_FROM_END and ARTMAP_WITH_PREFIX it begins with the
 * first pair, in that way, whose key begins with `to_key`. A walk that ends before it begins has no pair.
 *
 * It goes on by ARTMAP_AFTER_KEY and the last key that it told. */
typedef struct artmap_span {
    bool back;
    uint32_t from; /* an artmap_from; any other number is as ARTMAP_AFTER_KEY */
    uint32_t to;   /* an artmap_to; any other number is as ARTMAP_WITH_PREFIX */
    const void *from_key;
    size_t from_len;
    const void *to_key;
    size_t to_len;
} artmap_span;

typedef enum artmap_from {
    ARTMAP_FROM_END = 0,  /* with the first pair that it can meet; from_key is not read */
    ARTMAP_FROM_KEY = 1,  /* with the pair of from_key, if it is stored, and then those after it */
    ARTMAP_AFTER_KEY = 2  /* with the pair after from_key */
} artmap_from;

typedef enum artmap_to {
    ARTMAP_TO_END = 0,     /* to the last pair that it can meet; to_key is not read */
    ARTMAP_TO_KEY = 1,     /* with the pair of to_key, if it is stored */
    ARTMAP_BEFORE_KEY = 2, /* with the pair before to_key */
    ARTMAP_WITH_PREFIX = 3 /* while keys begin with to_key */
} artmap_to;

/* How many nodes of each kind a tree has: inner nodes for up to 4, 16, 32, 48 and 256 children, and a leaf for each pair.
 * The keys alone tell these numbers. */
typedef struct artmap_nodes {
    size_t nodes4, nodes16, nodes32, nodes48, nodes256, leaves;
} artmap_nodes;

/* ---- A map of words ------------------------------------------------------------------------------------------------
 *
 * Each call that answers a code answers ARTMAP_NO_MAP where the handle has no map. Each that changes the map answers
 * ARTMAP_FROZEN where it is frozen. Nothing is done and nothing is written then. */

/* Makes an empty map. A map that the handle had is freed.
 * ARTMAP_DONE; ARTMAP_NO_MEMORY: the handle has what it had. */
artmap_code artmap_words_new(artmap_words *map);

/* Frees the map, if there is one; of a frozen map that others share, only this handle's part. The handle is empty then. */
void artmap_words_free(artmap_words *map);

/* How many pairs there are: 0 where there is no map. */
size_t artmap_words_len(artmap_words *map);

/* Puts a pair in, in the place of the one with its key if there is one, and tells that one's word.
 * ARTMAP_DONE: no pair had the key, and no word is told; ARTMAP_REPLACED; ARTMAP_CONFLICT; ARTMAP_NO_MEMORY: never of a
 * stored key. */
artmap_code artmap_words_put(artmap_words *map, const void *key, size_t key_len, uint64_t word, uint64_t *old);

/* Tells the word of a key.
 * ARTMAP_DONE; ARTMAP_NOT_FOUND. */
artmap_code artmap_words_get(artmap_words *map, const void *key, size_t key_len, uint64_t *word);

/* Whether a pair has the key. */
bool artmap_words_contains(artmap_words *map, const void *key, size_t key_len);

/* Takes the pair with a key out, and tells its word.
 * ARTMAP_DONE; ARTMAP_NOT_FOUND; ARTMAP_NO_MEMORY: a node was to become a smaller one. */
artmap_code artmap_words_remove(artmap_words *map, const void *key, size_t key_len, uint64_t *word);

/* Takes the pair with the least key out, or with `back` the one with the greatest, and tells its word.
 * ARTMAP_DONE; ARTMAP_NOT_FOUND; ARTMAP_NO_MEMORY: a node was to become a smaller one. */
artmap_code artmap_words_pop(artmap_words *map, bool back, uint64_t *word);

/* Takes out all pairs whose keys begin with a prefix, and tells how many. An empty prefix begins every key.
 * ARTMAP_DONE, also where no key begins with it; ARTMAP_NO_MEMORY: all pairs stay, and no number is told. */
artmap_code artmap_words_remove_prefix(artmap_words *map, const void *prefix, size_t prefix_len, size_t *count);

/* The one pair whose key begins a query, or equals it: of prefixes as keys, the one that the query is under. Its key is
 * the first `key_len` bytes of the query.
 * ARTMAP_DONE; ARTMAP_NOT_FOUND. */
artmap_code artmap_words_find(artmap_words *map, const void *query, size_t query_len, size_t *key_len, uint64_t *word);

/* Keys that end with a mark, a byte that is in none of them before, may so begin each other but for it: texts with a zero
 * after each, routes, blocks of addresses. Of the pairs whose key is some first bytes of a query, or all of them, and then
 * the mark, the one with the longest key. `key_len` counts the mark, too. The query has none.
 * ARTMAP_DONE; ARTMAP_NOT_FOUND. */
artmap_code artmap_words_find_marked(artmap_words *map, const void *query, size_t query_len, uint8_t mark, size_t *key_len,
                                     uint64_t *word);

/* The calls below copy a key out to the start of `room`, whose rest is left alone, and tell its length and its word.
 * ARTMAP_DONE; ARTMAP_NO_ROOM: length and word are told, and no byte is copied; ARTMAP_NOT_FOUND. */

/* The pair with the least key, and the one with the greatest. */
artmap_code artmap_words_first(artmap_words *map, void *room, size_t room_len, size_t *key_len, uint64_t *word);
artmap_code artmap_words_last(artmap_words *map, void *room, size_t room_len, size_t *key_len, uint64_t *word);

/* The pair with the least key of those that begin with a prefix, and the one with the greatest. */
artmap_code artmap_words_first_with_prefix(artmap_words *map, const void *prefix, size_t prefix_len, void *room,
                                           size_t room_len, size_t *key_len, uint64_t *word);
artmap_code artmap_words_last_with_prefix(artmap_words *map, const void *prefix, size_t prefix_len, void *room,
                                          size_t room_len, size_t *key_len, uint64_t *word);

/* The pair with the least key above a key, and the one with the greatest below it. The key need not be stored. */
artmap_code artmap_words_next(artmap_words *map, const void *key, size_t key_len, void *room, size_t room_len,
                              size_t *found_len, uint64_t *word);
artmap_code artmap_words_previous(artmap_words *map, const void *key, size_t key_len, void *room, size_t room_len,
                                  size_t *found_len, uint64_t *word);

/* The pair with a key, or else the one with the least key above it; and that pair, or else the one with the greatest key
 * below it. */
artmap_code artmap_words_at_or_after(artmap_words *map, const void *key, size_t key_len, void *room, size_t room_len,
                                     size_t *found_len, uint64_t *word);
artmap_code artmap_words_at_or_before(artmap_words *map, const void *key, size_t key_len, void *room, size_t room_len,
                                      size_t *found_len, uint64_t *word);

/* The same pairs, of which the word alone is told.
 * ARTMAP_DONE; ARTMAP_NOT_FOUND. */
artmap_code artmap_words_first_word(artmap_words *map, uint64_t *word);
artmap_code artmap_words_last_word(artmap_words *map, uint64_t *word);
artmap_code artmap_words_first_word_with_prefix(artmap_words *map, const void *prefix, size_t prefix_len, uint64_t *word);
artmap_code artmap_words_last_word_with_prefix(artmap_words *map, const void *prefix, size_t prefix_len, uint64_t *word);
artmap_code artmap_words_next_word(artmap_words *map, const void *key, size_t key_len, uint64_t *word);
artmap_code artmap_words_previous_word(artmap_words *map, const void *key, size_t key_len, uint64_t *word);
artmap_code artmap_words_word_at_or_after(artmap_words *map, const void *key, size_t key_len, uint64_t *word);
artmap_code artmap_words_word_at_or_before(artmap_words *map, const void *key, size_t key_len, uint64_t *word);

/* A pair whose key stands in a buffer, end to end with those of the pairs before and after it. */
typedef struct artmap_words_pair {
    size_t key_len;
    uint64_t word;
} artmap_words_pair;

/* Copies out the pairs of a span in order, as many as go in: the keys into `room` end to end, their lengths and words into
 * `pairs`, which has so many places. What stands after them in both is left alone. `count` tells how many they are.
 * ARTMAP_DONE: the span has no other pair; ARTMAP_MORE: other pairs are left; ARTMAP_NOT_FOUND: it has none;
 * ARTMAP_NO_ROOM: the first one does not go in; its length and its word are in pairs[0], if there is a place. `count` is
 * 0 in the last two. */
artmap_code artmap_words_walk(artmap_words *map, const artmap_span *span, void *room, size_t room_len,
                              artmap_words_pair *pairs, size_t places, size_t *count);

/* The same of the words alone. With no place it tells ARTMAP_NO_ROOM where the span has a pair. */
artmap_code artmap_words_walk_words(artmap_words *map, const artmap_span *span, uint64_t *words, size_t places,
                                    size_t *count);

/* Where a walk goes on: {0} at first, and what the call before has left in it from then on. */
typedef struct artmap_hint {
    size_t first;
    size_t last;
} artmap_hint;

/* The same calls for a walk that takes many of them, each with a span that goes on where the last one ended. By the hint a
 * call finds its place in the tree at once. It is checked: whatever stands in it, and whatever was changed since, each call
 * answers as without one, and only its time is another. */
artmap_code artmap_words_walk_on(artmap_words *map, const artmap_span *span, artmap_hint *hint, void *room, size_t room_len,
                                 artmap_words_pair *pairs, size_t places, size_t *count);
artmap_code artmap_words_walk_words_on(artmap_words *map, const artmap_span *span, artmap_hint *hint, uint64_t *words,
                                       size_t places, size_t *count);

/* Of keys that end with a mark, all pairs that begin a query, where artmap_words_find_marked tells the one with the longest
 * key: each whose key is some first bytes of the query, or all of them, and then the mark. The longest key comes first. As
 * many are told as there are places: how long their keys are, with the mark, and their words. What stands after them in
 * `pairs` is left alone. `count` tells how many they are. Where others are left, a call goes on with a query that is two
 * bytes shorter than the last key. (Of keys without a mark there is one at most, which artmap_words_find tells.)
 * ARTMAP_DONE: there is no other; ARTMAP_MORE: others are left; ARTMAP_NOT_FOUND: there is none; ARTMAP_NO_ROOM: there is
 * one, and no place. `count` is 0 in the last two. */
artmap_code artmap_words_prefixes(artmap_words *map, const void *query, size_t query_len, uint8_t mark,
                                  artmap_words_pair *pairs, size_t places, size_t *count);

/* Puts in `count` pairs, whose keys stand in `keys` end to end and ascend: each as a put would, so a stored key gets the
 * new word. It stops at the first that is refused: the pairs before it are in the map, and no other is. `taken` tells how
 * many these are, so it is also the place of the one that was refused, and a second call may go on from there. What a walk
 * copied out, this takes.
 * ARTMAP_DONE: all were taken; ARTMAP_CUT_OFF; ARTMAP_NOT_ABOVE: the key is not above the one before it in the buffer,
 * which may be by its being the same; ARTMAP_CONFLICT; ARTMAP_NO_MEMORY. */
artmap_code artmap_words_load(artmap_words *map, const void *keys, size_t keys_len, const artmap_words_pair *pairs,
                              size_t count, size_t *taken);

/* Looks `count` keys up, which stand in `keys` end to end, as a get would: pairs[i] has the length of a key, and gets its
 * word; found[i] is then 1. Where no pair has the key found[i] is 0, and pairs[i] keeps its word. `told` tells how many
 * were looked up; what stands after them in both is left alone. The keys need not ascend.
 * ARTMAP_DONE: all were; ARTMAP_CUT_OFF: those before the first that the bytes end in. */
artmap_code artmap_words_get_many(artmap_words *map, const void *keys, size_t keys_len, artmap_words_pair *pairs,
                                  uint8_t *found, size_t count, size_t *told);

/* Takes out pairs whose keys begin with a prefix, from the least key on, and copies their words out in order, until there
 * is no such pair or no place. All other pairs stay. `count` tells how many went. So words that point to something can be
 * freed: free what the `count` words of a call point to, and call again as long as it answers ARTMAP_MORE.
 * ARTMAP_DONE: no other key begins with it; ARTMAP_MORE: others are left; ARTMAP_NOT_FOUND: none began with it;
 * ARTMAP_NO_ROOM: some do, and there is no place; ARTMAP_NO_MEMORY: the next pair stays, and those after it, since a node
 * was to become a smaller one; `count` is told as ever. */
artmap_code artmap_words_take_prefix(artmap_words *map, const void *prefix, size_t prefix_len, uint64_t *words,
                                     size_t places, size_t *count);

/* Makes a copy of the map in another handle, whose map is freed. The copy is not frozen.
 * ARTMAP_DONE; ARTMAP_NO_MEMORY: the other handle has what it had. */
artmap_code artmap_words_clone(artmap_words *map, artmap_words *to);

/* Moves the pairs from a key on, which need not be stored, into a map of their own in another handle, whose map is freed.
 * Where none are moved all room stays, and where all are all room goes with them.
 * ARTMAP_DONE; ARTMAP_NO_MEMORY: both handles have what they had. */
artmap_code artmap_words_split_off(artmap_words *map, const void *key, size_t key_len, artmap_words *to);

/* Moves all pairs of another map into this one, in ascending order: each as a put would, so a stored key gets the moved
 * word. It stops at the first that is refused: the pairs before it have moved, and it is still in the other map with those
 * after it. So a second call goes on from there. The words that are replaced are not told.
 * ARTMAP_DONE: the other map is empty; ARTMAP_CONFLICT: of the other map's least key; ARTMAP_NO_MEMORY; ARTMAP_NO_MAP,
 * ARTMAP_FROZEN: of either map. Where this map is empty it is ARTMAP_DONE, and no memory is asked for: the two change
 * places, with the room of each. Where the other one is empty, both stay as they are. */
artmap_code artmap_words_append(artmap_words *map, artmap_words *other);

/* Allocates the nodes of so many more insertions, whatever their keys are: some kilobytes for each. As many insertions then
 * take no memory for nodes, so it serves a few that must find it. The bytes of a key or value of more than thirty are still
 * allocated as it goes in.
 * ARTMAP_DONE: there is room for so many; always where there was; ARTMAP_NO_MEMORY. */
artmap_code artmap_words_reserve(artmap_words *map, size_t additional);

/* Gives memory back: of each kind of node, what lies after the last one that is used. No node moves, so no map with these
 * nodes in their places has less memory for them.
 * ARTMAP_DONE. */
artmap_code artmap_words_shrink(artmap_words *map);

/* Makes all nodes anew in the order of the keys, and gives memory back as artmap_words_shrink does. A walk then finds each
 * pair beside the one before it: where the keys came in random order it costs a fraction of what it did. Meanwhile there is
 * memory for the old nodes and the new ones.
 * ARTMAP_DONE: always where the map is empty; ARTMAP_NO_MEMORY: the map is as it was. */
artmap_code artmap_words_compact(artmap_words *map);

/* Takes all pairs out, and frees their memory.
 * ARTMAP_DONE. */
artmap_code artmap_words_clear(artmap_words *map);

/* Freezes the map: no call changes it from then on, and all calls that read serve as before. A frozen map stays so. First
 * the nodes are put in order, as by artmap_words_compact, where there is memory for that.
 * ARTMAP_DONE; ARTMAP_NO_MEMORY: it is not frozen. */
artmap_code artmap_words_freeze(artmap_words *map);

/* Makes another handle on a frozen map, for another thread. A map that it had is freed. The last handle that is freed
 * frees the map.
 * ARTMAP_DONE; ARTMAP_NOT_FOUND: the map is not frozen; ARTMAP_NO_MEMORY: the other handle has what it had. */
artmap_code artmap_words_share(artmap_words *map, artmap_words *to);

/* Makes a frozen map one that can be changed, where no other handle has it. One that is not frozen stays so.
 * ARTMAP_DONE; ARTMAP_SHARED: another handle has it, so it stays frozen. */
artmap_code artmap_words_thaw(artmap_words *map);

/* Whether the map is frozen. */
bool artmap_words_is_frozen(artmap_words *map);

/* Checks the whole tree, and counts its nodes.
 * ARTMAP_DONE; ARTMAP_NO_MEMORY: nothing is written. */
artmap_code artmap_words_audit(artmap_words *map, artmap_nodes *told);

/* ---- A map of bytes ------------------------------------------------------------------------------------------------
 *
 * ARTMAP_NO_MAP and ARTMAP_FROZEN are answered as by a map of words. Where nothing else is said, a call is as that of the
 * same name there. */

artmap_code artmap_bytes_new(artmap_bytes *map);
void artmap_bytes_free(artmap_bytes *map);
size_t artmap_bytes_len(artmap_bytes *map);

/* Puts a pair in, in the place of the one with its key if there is one. Both are copied.
 * ARTMAP_DONE: no pair had the key; ARTMAP_REPLACED; ARTMAP_CONFLICT; ARTMAP_NO_MEMORY: of a stored key only for a value
 * of more than thirty bytes. */
artmap_code artmap_bytes_put(artmap_bytes *map, const void *key, size_t key_len, const void *value, size_t value_len);

/* Copies the value of a key to the start of `room`, whose rest is left alone, and tells its length.
 * ARTMAP_DONE; ARTMAP_NO_ROOM: only the length is told; ARTMAP_NOT_FOUND. */
artmap_code artmap_bytes_get(artmap_bytes *map, const void *key, size_t key_len, void *room, size_t room_len,
                             size_t *value_len);

bool artmap_bytes_contains(artmap_bytes *map, const void *key, size_t key_len);

/* Takes the pair with a key out.
 * ARTMAP_DONE; ARTMAP_NOT_FOUND; ARTMAP_NO_MEMORY: a node was to become a smaller one. */
artmap_code artmap_bytes_remove(artmap_bytes *map, const void *key, size_t key_len);

artmap_code artmap_bytes_remove_prefix(artmap_bytes *map, const void *prefix, size_t prefix_len, size_t *count);

/* The calls below copy a pair out: its key to the start of `key_room`, its value to the start of `value_room`. The rest
 * of both is left alone, and both lengths are told.
 * ARTMAP_DONE; ARTMAP_NO_ROOM: one of the two is too small, so only the lengths are told; ARTMAP_NOT_FOUND. */
artmap_code artmap_bytes_find(artmap_bytes *map, const void *query, size_t query_len, void *key_room, size_t key_room_len,
                              size_t *key_len, void *value_room, size_t value_room_len, size_t *value_len);
artmap_code artmap_bytes_first(artmap_bytes *map, void *key_room, size_t key_room_len, size_t *key_len, void *value_room,
                               size_t value_room_len, size_t *value_len);
artmap_code artmap_bytes_last(artmap_bytes *map, void *key_room, size_t key_room_len, size_t *key_len, void *value_room,
                              size_t value_room_len, size_t *value_len);
artmap_code artmap_bytes_first_with_prefix(artmap_bytes *map, const void *prefix, size_t prefix_len, void *key_room,
                                           size_t key_room_len, size_t *key_len, void *value_room, size_t value_room_len,
                                           size_t *value_len);
artmap_code artmap_bytes_last_with_prefix(artmap_bytes *map, const void *prefix, size_t prefix_len, void *key_room,
                                          size_t key_room_len, size_t *key_len, void *value_room, size_t value_room_len,
                                          size_t *value_len);

/* A walk by these is artmap_bytes_first and then artmap_bytes_next with the last key found; it needs two rooms for keys, in
 * turn, since what is read and what is written may not overlap. */
artmap_code artmap_bytes_next(artmap_bytes *map, const void *key, size_t key_len, void *key_room, size_t key_room_len,
                              size_t *found_len, void *value_room, size_t value_room_len, size_t *value_len);
artmap_code artmap_bytes_previous(artmap_bytes *map, const void *key, size_t key_len, void *key_room, size_t key_room_len,
                                  size_t *found_len, void *value_room, size_t value_room_len, size_t *value_len);
artmap_code artmap_bytes_at_or_after(artmap_bytes *map, const void *key, size_t key_len, void *key_room,
                                     size_t key_room_len, size_t *found_len, void *value_room, size_t value_room_len,
                                     size_t *value_len);
artmap_code artmap_bytes_at_or_before(artmap_bytes *map, const void *key, size_t key_len, void *key_room,
                                      size_t key_room_len, size_t *found_len, void *value_room, size_t value_room_len,
                                      size_t *value_len);

/* A pair in a buffer: the bytes of its key, then those of its value, then the next key, with nothing between. */
typedef struct artmap_bytes_pair {
    size_t key_len;
    size_t value_len;
} artmap_bytes_pair;

/* Copies out the pairs of a span in order, as many as go in, into `room` end to end, and their lengths into `pairs`. It
 * answers as artmap_words_walk does; where the first pair does not go in, its lengths are in pairs[0]. */
artmap_code artmap_bytes_walk(artmap_bytes *map, const artmap_span *span, void *room, size_t room_len,
                              artmap_bytes_pair *pairs, size_t places, size_t *count);

/* Puts in pairs that stand in a buffer, whose keys ascend, as artmap_words_load does. */
artmap_code artmap_bytes_load(artmap_bytes *map, const void *bytes, size_t bytes_len, const artmap_bytes_pair *pairs,
                              size_t count, size_t *taken);

artmap_code artmap_bytes_clone(artmap_bytes *map, artmap_bytes *to);
artmap_code artmap_bytes_split_off(artmap_bytes *map, const void *key, size_t key_len, artmap_bytes *to);
artmap_code artmap_bytes_append(artmap_bytes *map, artmap_bytes *other);
artmap_code artmap_bytes_reserve(artmap_bytes *map, size_t additional);
artmap_code artmap_bytes_shrink(artmap_bytes *map);
artmap_code artmap_bytes_compact(artmap_bytes *map);
artmap_code artmap_bytes_clear(artmap_bytes *map);
artmap_code artmap_bytes_freeze(artmap_bytes *map);
artmap_code artmap_bytes_share(artmap_bytes *map, artmap_bytes *to);
artmap_code artmap_bytes_thaw(artmap_bytes *map);
bool artmap_bytes_is_frozen(artmap_bytes *map);
artmap_code artmap_bytes_audit(artmap_bytes *map, artmap_nodes *told);

#ifdef __cplusplus
}
#endif

#endif
