/* Preloaded into a program by tools/maintain/sweep_memory: counts the requests for memory, and refuses one of them, or it and all
 * behind it. REFUSE_STATE names a file of three numbers of 64 bits, in the machine's order: how many requests there were,
 * which one is refused, counted from 1, and the last that is. */
#include <errno.h>
#include <fcntl.h>
#include <stdatomic.h>
#include <stddef.h>
#include <stdint.h>
#include <stdlib.h>
#include <sys/mman.h>
#include <unistd.h>

struct state {
    _Atomic uint64_t requests;
    uint64_t first, last;
};

/* The C library's own. */
void *__libc_malloc(size_t size);
void *__libc_realloc(void *kept, size_t size);

static struct state *state;

__attribute__((constructor)) static void begin(void) {
    const char *path = getenv("REFUSE_STATE");
    int file = path ? open(path, O_RDWR | O_CLOEXEC) : -1;
    void *map = file < 0 ? MAP_FAILED : mmap(NULL, sizeof *state, PROT_READ | PROT_WRITE, MAP_SHARED, file, 0);
    if (file >= 0) close(file);
    if (map != MAP_FAILED) state = map;
}

static int is_refused(void) {
    if (!state) return 0;
    uint64_t number = atomic_fetch_add(&state->requests, 1) + 1;
    if (number < state->first || state->last < number) return 0;
    errno = ENOMEM;
    return 1;
}

void *malloc(size_t size) { return is_refused() ? NULL : __libc_malloc(size); }

void *realloc(void *kept, size_t size) { return is_refused() ? NULL : __libc_realloc(kept, size); }
