// Refuses requests for memory of the program that it is loaded under by LD_PRELOAD, so that what a program does without
// memory can be tried request by request. Requests are counted in the first 8 bytes of the file that REFUSE_COUNT names.
// Number REFUSE_AT is refused, counted from 1, and with REFUSE_ON each one after it too.
#include <errno.h>
#include <fcntl.h>
#include <stdatomic.h>
#include <stddef.h>
#include <stdint.h>
#include <stdlib.h>
#include <sys/mman.h>
#include <unistd.h>

void *__libc_malloc(size_t);
void *__libc_calloc(size_t, size_t);
void *__libc_realloc(void *, size_t);
void *__libc_memalign(size_t, size_t);

static _Atomic uint64_t *requests;
static uint64_t at;
static int on;

__attribute__((constructor)) static void begin(void) {
    const char *file = getenv("REFUSE_COUNT"), *number = getenv("REFUSE_AT");
    int count = file ? open(file, O_RDWR) : -1;
    if (count < 0) return;
    void *page = mmap(NULL, 8, PROT_READ | PROT_WRITE, MAP_SHARED, count, 0);
    close(count);
    if (page == MAP_FAILED) return;
    at = number ? strtoull(number, NULL, 10) : 0;
    on = getenv("REFUSE_ON") != NULL;
    requests = page;
}

static int is_refused(void) {
    if (!requests) return 0;
    uint64_t number = atomic_fetch_add(requests, 1) + 1;
    if (!at || number < at || (number > at && !on)) return 0;
    errno = ENOMEM;
    return 1;
}

void *malloc(size_t size) { return is_refused() ? NULL : __libc_malloc(size); }
void *calloc(size_t count, size_t size) { return is_refused() ? NULL : __libc_calloc(count, size); }
void *realloc(void *old, size_t size) { return is_refused() ? NULL : __libc_realloc(old, size); }
void *memalign(size_t align, size_t size) { return is_refused() ? NULL : __libc_memalign(align, size); }
void *aligned_alloc(size_t align, size_t size) { return is_refused() ? NULL : __libc_memalign(align, size); }

int posix_memalign(void **out, size_t align, size_t size) {
    if (is_refused()) return ENOMEM;
    void *got = __libc_memalign(align, size);
    if (!got) return ENOMEM;
    *out = got;
    return 0;
}
