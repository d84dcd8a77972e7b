/* LD_PRELOAD: makes standard input, standard output and memory as bad as a seed says.
 *
 *   FAULT_SEED=S     what is left to chance follows from this number
 *   FAULT_CUTS=N     a read gives, and a write takes, 1 to N bytes (0: all that there are)
 *   FAULT_FIRST=N    the first read gives N bytes at most (0: all that there are)
 *   FAULT_READ=I     after I bytes a read fails (-1: none does)
 *   FAULT_WRITE=J    after J bytes a write fails (-1: none does)
 *   FAULT_ERROR=E    what fails says this number of errno.h (EIO where nothing is said); 0: it moves nothing and says so
 *   FAULT_TIMES=N    so often in a row, and then goes on as if nothing had failed (0: for ever)
 *   FAULT_MEMORY=P   from the first read on one request for memory of P is refused (0: none)
 */
#include <errno.h>
#include <stdint.h>
#include <stdlib.h>
#include <sys/syscall.h>
#include <unistd.h>

extern void *__libc_malloc(size_t), *__libc_calloc(size_t, size_t);
extern void *__libc_realloc(void *, size_t), *__libc_memalign(size_t, size_t);

static uint64_t state = 1;
static long cuts, first, read_left = -1, write_left = -1, error, times, memory;
static int begun;

/* xorshift64* */
static uint64_t chance(uint64_t below) {
    state ^= state >> 12, state ^= state << 25, state ^= state >> 27;
    return (state * 2685821657736338717u >> 33) % below;
}

static long number(const char *name, long other) {
    const char *text = getenv(name);
    return text ? strtol(text, 0, 10) : other;
}

__attribute__((constructor)) static void begin(void) {
    state = (uint64_t)number("FAULT_SEED", 1) * 2 + 1;
    cuts = number("FAULT_CUTS", 0), first = number("FAULT_FIRST", 0), memory = number("FAULT_MEMORY", 0);
    error = number("FAULT_ERROR", EIO), times = number("FAULT_TIMES", 0);
    read_left = number("FAULT_READ", -1), write_left = number("FAULT_WRITE", -1);
}

static int refuse(void) {
    if (!begun || memory < 1 || chance(memory)) return 0;
    errno = ENOMEM;
    return 1;
}

void *malloc(size_t size) { return refuse() ? 0 : __libc_malloc(size); }
void *calloc(size_t count, size_t size) { return refuse() ? 0 : __libc_calloc(count, size); }
void *realloc(void *old, size_t size) { return size && refuse() ? 0 : __libc_realloc(old, size); }
void *aligned_alloc(size_t align, size_t size) { return refuse() ? 0 : __libc_memalign(align, size); }
int posix_memalign(void **made, size_t align, size_t size) {
    return refuse() || !(*made = __libc_memalign(align, size)) ? ENOMEM : 0;
}

/* Fails, or moves nothing. */
static ssize_t failing(long *left) {
    if (times && --times == 0) *left = -1;
    if (error == 0) return 0;
    return errno = (int)error, -1;
}

/* How much of so many bytes passes. */
static size_t passing(size_t size, long *left) {
    if (cuts > 0 && size > (size_t)cuts) size = cuts;
    if (cuts > 0 && size) size = 1 + chance(size);
    if (*left >= 0 && size > (size_t)*left) size = *left;
    return size;
}

static ssize_t moved(long call, int file, void *bytes, size_t size, long *left) {
    if (size && *left == 0) return failing(left);
    ssize_t done = syscall(call, file, bytes, passing(size, left));
    if (done > 0 && *left >= 0) *left -= done;
    return done;
}

ssize_t read(int file, void *bytes, size_t size) {
    if (file != 0) return syscall(SYS_read, file, bytes, size);
    begun = 1;
    if (first > 0 && size > (size_t)first) size = (size_t)first;
    first = 0;
    return moved(SYS_read, file, bytes, size, &read_left);
}

ssize_t write(int file, const void *bytes, size_t size) {
    if (file != 1) return syscall(SYS_write, file, bytes, size);
    return moved(SYS_write, file, (void *)bytes, size, &write_left);
}
