/* A library that is preloaded into the program, and refuses memory to it.
 *   REFUSE_AT=N      the N-th allocation, from 0, gets nothing
 *   REFUSE_ON=1      and so does each behind it
 *   REFUSE_TOLD=PATH a file that is made when the first one is refused
 */
#define _GNU_SOURCE
#include <errno.h>
#include <fcntl.h>
#include <stdatomic.h>
#include <stddef.h>
#include <stdlib.h>
#include <sys/syscall.h>
#include <unistd.h>

extern void *__libc_malloc(size_t), *__libc_calloc(size_t, size_t), *__libc_realloc(void *, size_t), *__libc_memalign(size_t, size_t);

static long refuse_at = -1;
static int refuse_on;
static const char *told;
static atomic_long allocations;

__attribute__((constructor)) static void begin(void) {
    const char *at = getenv("REFUSE_AT");
    refuse_on = getenv("REFUSE_ON") != NULL;
    told = getenv("REFUSE_TOLD");
    atomic_store(&allocations, 0);
    refuse_at = at ? atol(at) : -1;
}

static int refuses(void) {
    long number = atomic_fetch_add(&allocations, 1);
    if (refuse_at < 0 || number < refuse_at || (number > refuse_at && !refuse_on))
        return 0;
    if (number == refuse_at && told)
        syscall(SYS_close, syscall(SYS_openat, AT_FDCWD, told, O_WRONLY | O_CREAT | O_CLOEXEC, 0600));
    errno = ENOMEM;
    return 1;
}

void *malloc(size_t size) { return refuses() ? NULL : __libc_malloc(size); }

void *calloc(size_t count, size_t size) { return refuses() ? NULL : __libc_calloc(count, size); }

void *realloc(void *old, size_t size) { return refuses() ? NULL : __libc_realloc(old, size); }

void *memalign(size_t alignment, size_t size) { return refuses() ? NULL : __libc_memalign(alignment, size); }

void *aligned_alloc(size_t alignment, size_t size) { return refuses() ? NULL : __libc_memalign(alignment, size); }

int posix_memalign(void **into, size_t alignment, size_t size) {
    void *got = refuses() ? NULL : __libc_memalign(alignment, size);
    if (got == NULL)
        return ENOMEM;
    *into = got;
    return 0;
}
