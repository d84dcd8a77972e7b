/* drive LIB.so SET COUNT REPEATS [STEPS [SPAN]]: times the map under LIB.so's one call over COUNT keys of a set
 * (dense, rand8, rand16, url; hosts, names from the last part on; dna, 64 bases in two bits each; hashes, 43 digits of
 * base64; series, a name of four bytes and a time of eight, few times for each; shared, eight beginnings of 72 bytes),
 * and prints the least of the repeats, in nanoseconds of processor time: an insertion, a look-up that hits, a miss that
 * reaches a leaf, one whose way ends as early as can be; and the bytes that a pair takes. Keys are looked up in another
 * order than they go in. With STEPS, numbers parted by commas, it prints instead
 * for each of these, carried out in turn in one call, the least nanoseconds in all, and at last what the call answered.
 * With SPAN the queries are one for each hundred keys: for step 6 bounds, lower and upper in turn, with so many pairs
 * between them, and else fronts with about so many pairs after them; how many pairs those are in all is printed last.
 * For callgrind: with REPEATS 0 it carries the steps out once and prints nothing; what the clock doesn't count isn't
 * collected either, given --collect-atstart=no.
 *
 * The call: strings end to end and where each ends, for keys and for queries; the value of key i is i. Steps: 1 inserts
 * all keys, 2 looks all queries up, 3 removes them, 4 walks from the front, 5 walks the pairs with each query, 6
 * those from each query to below the next, two queries a walk, 7 clones, 8 walks from both ends in turn, 9
 * checks the tree, 10 frees the tree of a clone, 11 lets the map go, 12 inserts all queries, 13 asks for the entry of
 * each, whose value is counted once more where it is stored and which is put in else, 14 does the same by a look-up
 * and an insertion. It answers the sum of what it found, and nanos[i] is what step i took. */
#define _GNU_SOURCE
#include <dlfcn.h>
#include <malloc.h>
#include <stdint.h>
#include <stdio.h>
#include <stdlib.h>
#include <string.h>
#include <sys/syscall.h>
#include <time.h>
#include <unistd.h>

#if __has_include(<valgrind/callgrind.h>)
#include <valgrind/callgrind.h>
#else
#define CALLGRIND_TOGGLE_COLLECT
#endif

/* Bytes that malloc had given out at the readings of the clock round a step, where they are asked for. */
static size_t in_use[2];
static int is_weighing, readings;

/* Stands before the C library's, so that callgrind collects between the two readings round a step alone. */
int clock_gettime(clockid_t clock, struct timespec *read) {
    CALLGRIND_TOGGLE_COLLECT;
    if (is_weighing && readings < 2) {
        struct mallinfo2 now = mallinfo2();
        in_use[readings++] = now.uordblks + now.hblkhd;
    }
    return (int)syscall(SYS_clock_gettime, clock, read);
}

typedef uint64_t (*run_t)(const uint8_t *keys, size_t keys_len, const uint64_t *ends, size_t count, const uint8_t *queries,
                          size_t queries_len, const uint64_t *query_ends, size_t query_count, const uint8_t *steps,
                          size_t step_count, uint64_t *nanos, size_t nanos_count);

enum { LONGEST = 96, MOST = 16 };

static uint64_t state;
static uint64_t next(void) {
    state ^= state << 13;
    state ^= state >> 7;
    state ^= state << 17;
    return state;
}

static uint64_t mixed(uint64_t number) {
    number *= 0x9e3779b97f4a7c15u;
    number ^= number >> 32;
    number *= 0xd6e8feb86659fd93u;
    return number ^ number >> 32;
}

/* A window of 64 bases, four in a byte, of one of 4096 sequences. */
static size_t window(uint64_t number, uint8_t *key) {
    for (uint64_t i = 0; i < 64; i++) {
        uint64_t base = mixed((number % 4096 << 40) + number / 4096 + i) & 3;
        key[i / 4] = (uint8_t)(key[i / 4] << 2 | base);
    }
    return 16;
}

static size_t hash(uint64_t number, uint8_t *key) {
    for (uint64_t i = 0; i < 43; i++)
        key[i] = (uint8_t)"ABCDEFGHIJKLMNOPQRSTUVWXYZabcdefghijklmnopqrstuvwxyz0123456789-_"[mixed(43 * number + i) & 63];
    return 43;
}

/* One of so many series that each has some twenty points, and a time. */
static size_t point(uint64_t number, size_t count, uint8_t *key) {
    uint64_t name = mixed(mixed(number) % (count / 20 + 1));
    uint64_t time = __builtin_bswap64(1767225600000u + number * 50000 + mixed(number) % 50000);
    memcpy(key, &name, 4);
    memcpy(key + 4, &time, 8);
    return 12;
}

/* The key of a number, and its length. Numbers are spread by a product with an odd number, so keys come in no order. */
static size_t key_of(const char *set, uint64_t number, size_t count, uint8_t *key) {
    uint64_t random = mixed(number);
    if (!strcmp(set, "dna"))
        return window(number, key);
    if (!strcmp(set, "hashes"))
        return hash(number, key);
    if (!strcmp(set, "series"))
        return point(number, count, key);
    if (!strcmp(set, "hosts"))
        return (size_t)sprintf((char *)key, "%s.site%03x.%c.h%u/", random & 1 ? "com" : "org", (unsigned)(random >> 8) % 2000,
                               'a' + (int)(random >> 20 & 7), (unsigned)number);
    if (!strcmp(set, "shared"))
        return (size_t)sprintf((char *)key, "%08x/%-62s/%08x", (unsigned)(number % 8) * 0x9e3779b9u,
                               "srv/data/archive/projects/sources/module/internal/generated", (unsigned)number);
    if (!strcmp(set, "url"))
        return (size_t)sprintf((char *)key, "https://www.shop%02u.example.com/shelf/%03u/item/%08u/", (unsigned)(random % 20),
                               (unsigned)(random >> 8) % 200, (unsigned)number);
    uint64_t head = !strcmp(set, "dense") ? __builtin_bswap64(number) : random;
    uint64_t tail = random * 0x2545f4914f6cdd1du;
    memcpy(key, &head, 8);
    memcpy(key + 8, &tail, 8);
    return strcmp(set, "rand16") ? 8 : 16;
}

struct strings {
    uint8_t *bytes;
    uint64_t *ends;
    size_t len;
};

/* The keys of 0 to count in a random order. */
static struct strings strings_of(const char *set, size_t count) {
    struct strings all = {malloc(count * LONGEST), malloc(count * 8), 0};
    uint64_t *order = malloc(count * 8);
    for (size_t i = 0; i < count; i++) {
        size_t j = next() % (i + 1);
        order[i] = order[j];
        order[j] = i;
    }
    for (size_t i = 0; i < count; i++)
        all.ends[i] = all.len += key_of(set, order[i], count, all.bytes + all.len);
    free(order);
    return all;
}

struct key {
    const uint8_t *bytes;
    size_t len;
};

static int by_bytes(const void *one, const void *other) {
    const struct key *a = one, *b = other;
    int order = memcmp(a->bytes, b->bytes, a->len < b->len ? a->len : b->len);
    return order ? order : (a->len > b->len) - (a->len < b->len);
}

/* Keys in their order. */
static struct key *ordered(struct strings keys, size_t count) {
    struct key *sorted = malloc(count * sizeof *sorted);
    for (size_t i = 0; i < count; i++) {
        size_t start = i ? keys.ends[i - 1] : 0;
        sorted[i] = (struct key){keys.bytes + start, keys.ends[i] - start};
    }
    qsort(sorted, count, sizeof *sorted, by_bytes);
    return sorted;
}

/* Where a string is among ascending keys, or would be. */
static size_t place(const struct key *sorted, size_t count, struct key key) {
    size_t low = 0, high = count;
    while (low < high) {
        size_t middle = (low + high) / 2;
        if (by_bytes(&sorted[middle], &key) < 0)
            low = middle + 1;
        else
            high = middle;
    }
    return low;
}

static size_t common(struct key one, struct key other) {
    size_t at = 0;
    while (at < one.len && at < other.len && one.bytes[at] == other.bytes[at])
        at++;
    return at;
}

/* Makes a miss of each string. Its last byte differs, where the key is alone before that, so that its way ends at a leaf;
 * or a byte does as near to the beginning as can be, so that its way ends above any. Else its last byte but one does. */
static struct strings misses_of(struct strings keys, size_t count, int is_early) {
    struct key *sorted = ordered(keys, count);
    struct strings all = {malloc(keys.len + 1), malloc(count * 8), keys.len};
    memcpy(all.bytes, keys.bytes, keys.len);
    memcpy(all.ends, keys.ends, count * 8);
    for (size_t i = 0; i < count; i++) {
        uint8_t *made = all.bytes + (i ? keys.ends[i - 1] : 0);
        struct key key = {made, keys.ends[i] - (size_t)(made - all.bytes)};
        size_t at = place(sorted, count, key), is_made = 0, near = at ? common(sorted[at - 1], key) : 0;
        if (at + 1 < count && common(sorted[at + 1], key) > near)
            near = common(sorted[at + 1], key);
        for (size_t depth = 0; is_early && !is_made && depth <= near && depth < key.len; depth++) {
            uint8_t old = made[depth];
            made[depth] = (uint8_t)next();
            size_t after = place(sorted, count, (struct key){made, depth + 1});
            is_made = after == count || common(sorted[after], key) <= depth;
            made[depth] = is_made ? made[depth] : old;
        }
        if (!is_made)
            made[!is_early && near + 1 < key.len ? key.len - 1 : key.len - 2] ^= 0x55;
    }
    free(sorted);
    return all;
}

static void add(struct strings *all, size_t i, struct key key) {
    memcpy(all->bytes + all->len, key.bytes, key.len);
    all->ends[i] = all->len += key.len;
}

/* Where the keys with these first bytes begin, or end, among ascending keys of which key `at` is one. */
static size_t edge(const struct key *keys, size_t count, size_t at, size_t len, int is_end) {
    size_t low = is_end ? at : 0, high = is_end ? count : at;
    while (low < high) {
        size_t middle = (low + high) / 2;
        int is_in = keys[middle].len >= len && !memcmp(keys[middle].bytes, keys[at].bytes, len);
        if (is_in == is_end)
            low = middle + 1;
        else
            high = middle;
    }
    return low;
}

/* How many times one number is the other. */
static double far(double one, double other) {
    return one > other ? one / other : other / one;
}

/* Bounds with so many keys between them, or fronts of the keys for which that is nearest: one walk for each hundred
 * keys, at random places. How many keys are met in all is told too. */
static struct strings walks_over(struct strings keys, size_t count, size_t span, int is_bounds, size_t *walks,
                                 uint64_t *met) {
    struct key *sorted = ordered(keys, count);
    size_t number = count > span ? count / 100 : 0;
    struct strings all = {malloc(2 * number * LONGEST + 1), malloc(2 * number * 8 + 8), 0};
    *met = 0;
    for (size_t i = 0; i < number; i++) {
        size_t at = next() % (count - span);
        if (is_bounds) {
            add(&all, 2 * i, sorted[at]);
            add(&all, 2 * i + 1, sorted[at + span]);
            *met += span;
            continue;
        }
        size_t best = 0, best_met = count;
        for (size_t len = 1; len <= sorted[at].len; len++) {
            size_t here = edge(sorted, count, at, len, 1) - edge(sorted, count, at, len, 0);
            if (far(here, span) < far(best_met, span)) {
                best = len;
                best_met = here;
            }
        }
        add(&all, i, (struct key){sorted[at].bytes, best});
        *met += best_met;
    }
    *walks = is_bounds ? 2 * number : number;
    free(sorted);
    return all;
}

/* Carries the steps out, and keeps in least what each took where that is less. */
static uint64_t once(run_t run, struct strings keys, struct strings queries, size_t count, size_t query_count,
                     const uint8_t *steps, size_t step_count, uint64_t *least) {
    uint64_t nanos[MOST] = {0};
    uint64_t found = run(keys.bytes, keys.len, keys.ends, count, queries.bytes, queries.len, queries.ends, query_count,
                         steps, step_count, nanos, step_count);
    for (size_t i = 0; i < step_count; i++)
        if (nanos[i] < least[i])
            least[i] = nanos[i];
    return found;
}

/* An insertion, a look-up, a miss of either kind, and the bytes of a pair. */
static int pairs(run_t run, struct strings keys, struct strings hits, size_t count, long repeats) {
    const uint8_t steps[2] = {1, 2};
    struct strings queries[3] = {hits, misses_of(hits, count, 0), misses_of(hits, count, 1)};
    uint64_t least[3][2] = {{UINT64_MAX, UINT64_MAX}, {UINT64_MAX, UINT64_MAX}, {UINT64_MAX, UINT64_MAX}};
    for (long i = 0; i < repeats; i++)
        for (int kind = 0; kind < 3; kind++) {
            uint64_t found = once(run, keys, queries[kind], count, count, steps, 2, least[kind]);
            if (kind ? found > count : found != count)
                return 1;
        }
    uint64_t weighed[1] = {UINT64_MAX}, insertion = least[0][0];
    is_weighing = 1;
    once(run, keys, hits, count, count, steps, 1, weighed);
    for (int kind = 1; kind < 3; kind++)
        insertion = least[kind][0] < insertion ? least[kind][0] : insertion;
    printf("%.1f %.1f %.1f %.1f %.1f\n", (double)insertion / count, (double)least[0][1] / count,
           (double)least[1][1] / count, (double)least[2][1] / count, (double)(in_use[1] - in_use[0]) / count);
    return 0;
}

/* The steps that are asked for. */
static int each_step(run_t run, struct strings keys, struct strings hits, size_t count, long repeats, char *asked,
                     size_t span) {
    uint8_t steps[MOST];
    uint64_t least[MOST], answer = 0;
    size_t step_count = 0;
    for (char *word = strtok(asked, ","); word && step_count < MOST; word = strtok(NULL, ","), step_count++) {
        steps[step_count] = (uint8_t)strtoul(word, NULL, 10);
        least[step_count] = UINT64_MAX;
    }
    size_t query_count = count;
    uint64_t met = 0;
    if (span)
        hits = walks_over(keys, count, span, step_count && steps[step_count - 1] == 6, &query_count, &met);
    if (!repeats) {
        once(run, keys, hits, count, query_count, steps, step_count, least);
        return 0;
    }
    for (long i = 0; i < repeats; i++)
        answer = once(run, keys, hits, count, query_count, steps, step_count, least);
    for (size_t i = 0; i < step_count; i++)
        printf("%llu ", (unsigned long long)least[i]);
    printf("%llu", (unsigned long long)answer);
    if (span)
        printf(" %llu", (unsigned long long)met);
    printf("\n");
    return 0;
}

int main(int count_of_words, char **words) {
    if (count_of_words < 5 || count_of_words > 7)
        return 2;
    void *library = dlopen(words[1], RTLD_NOW);
    run_t run = library ? (run_t)dlsym(library, "art_bench_run") : NULL;
    if (!run) {
        fprintf(stderr, "%s\n", dlerror());
        return 1;
    }
    const char *set = words[2];
    size_t count = strtoull(words[3], NULL, 10);
    long repeats = strtol(words[4], NULL, 10);
    state = 88172645463325252u;
    struct strings keys = strings_of(set, count), hits = strings_of(set, count);
    size_t span = count_of_words == 7 ? strtoull(words[6], NULL, 10) : 0;
    if (count_of_words > 5)
        return each_step(run, keys, hits, count, repeats, words[5], span);
    return pairs(run, keys, hits, count, repeats);
}
