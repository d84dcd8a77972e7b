/* LD_PRELOAD: counts the bytes that a program holds, as it asked for them, and answers lines that it writes of them.
 *
 * A write to standard output that is `held @NAME` notes the count under the name; a later one of the name must find as
 * many. One that is `less @NAME` must find fewer, and `more @NAME` more. Where that is not so, the line that goes out
 * says how many there are and how many were noted.
 *
 * The size that was asked for stands at the end of what is given.
 */
#define _GNU_SOURCE
#include <errno.h>
#include <malloc.h>
#include <stdio.h>
#include <string.h>
#include <sys/syscall.h>
#include <unistd.h>

extern void *__libc_malloc(size_t), *__libc_calloc(size_t, size_t), __libc_free(void *);
extern void *__libc_realloc(void *, size_t), *__libc_memalign(size_t, size_t);

#define MARK 0x68656c64u

struct end { size_t size, mark; };
static long held;

static struct end *end_of(void *given) {
    size_t usable = malloc_usable_size(given);
    return usable < sizeof(struct end) ? 0 : (void *)((char *)given + (usable / 8 * 8 - sizeof(struct end)));
}

static void *take(void *given, size_t size) {
    if (given) *end_of(given) = (struct end){size, MARK ^ size}, held += size;
    return given;
}

static void let_go(void *given) {
    struct end *end = given ? end_of(given) : 0;
    if (end && end->mark == (MARK ^ end->size)) held -= end->size, end->mark = 0;
}

void *malloc(size_t size) { return take(__libc_malloc(size + sizeof(struct end)), size); }
void *calloc(size_t count, size_t size) { return take(__libc_calloc(1, count * size + sizeof(struct end)), count * size); }
void free(void *given) { let_go(given), __libc_free(given); }
void *realloc(void *old, size_t size) {
    let_go(old);
    return take(__libc_realloc(old, size + sizeof(struct end)), size);
}
void *aligned_alloc(size_t align, size_t size) { return take(__libc_memalign(align, size + sizeof(struct end)), size); }
int posix_memalign(void **made, size_t align, size_t size) {
    return (*made = aligned_alloc(align, size)) ? 0 : ENOMEM;
}

/* Returns what was noted under a name; what is held now is noted where nothing was. */
static long noted(const char *name) {
    static struct { char name[32]; long count; } notes[32];
    for (int it = 0; it < 32; it++) {
        if (!notes[it].name[0]) snprintf(notes[it].name, 32, "%s", name), notes[it].count = held;
        if (!strcmp(notes[it].name, name)) return notes[it].count;
    }
    return -1;
}

/* Returns whether what a line says is so. */
static int is_so(const char *word, long before) {
    if (!strcmp(word, "held")) return held == before;
    if (!strcmp(word, "less")) return held < before;
    return held > before;
}

ssize_t write(int file, const void *bytes, size_t size) {
    static const char *words[] = {"held ", "less ", "more "};
    for (int it = 0; file == 1 && it < 3; it++) {
        char line[64], word[8], name[32];
        if (size < 6 || size >= sizeof line || memcmp(bytes, words[it], 5)) continue;
        snprintf(line, sizeof line, "%.*s", (int)size, (const char *)bytes);
        if (sscanf(line, "%7s %31s\n", word, name) != 2 || *name != '@') continue;
        long before = noted(name);
        if (is_so(word, before)) continue;
        int made = snprintf(line, sizeof line, "%ld bytes, and %ld at %.16s\n", held, before, name);
        syscall(SYS_write, file, line, made);
        return size;
    }
    return syscall(SYS_write, file, bytes, size);
}
