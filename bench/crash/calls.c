/* A library that is preloaded into the program: it logs the calls that the program makes of its image files, with what it writes on standard
 * output, in their order; and it lets one call of an image file fail. Image files are the ones that pread, pwrite and fdatasync are asked of.
 *
 *   CALLS_LOG=PATH     the log, made anew. A record is four numbers (kind, file: 4 bytes each; offset, length: 8 bytes each), then its bytes.
 *   CALLS_FAIL=N       the N-th call of an image file, from 0, answers EIO
 *   CALLS_FAIL_ON=1    and so does each call behind it
 *   CALLS_FAIL_DONE=1  what fails is done nevertheless, and only its answer is an error
 *   CALLS_FAIL_SILENT=1  what fails isn't done, but answers as if it were; what is read is zeros (no device of ours: it shows how sharp a judge is)
 *   CALLS_SHORT=N      no call moves more than N bytes
 *   CALLS_BROKEN=N     each N-th call is interrupted: it answers EINTR, and nothing is done
 */
#define _GNU_SOURCE
#include <errno.h>
#include <fcntl.h>
#include <limits.h>
#include <stdatomic.h>
#include <stdint.h>
#include <stdio.h>
#include <stdlib.h>
#include <string.h>
#include <sys/syscall.h>
#include <sys/uio.h>
#include <unistd.h>

enum kind { NAMED = 1, WRITTEN = 2, SYNCED = 3, SHOWN = 4, READ = 5, FAILED = 6 };

struct head {
    uint32_t kind, file;
    uint64_t offset, length;
};

static int log_to = -1;
static long fail_at = -1;
static int fail_on, fail_done, fail_silent;
static long most = LONG_MAX, broken;
static atomic_long calls;
static atomic_char named[1024];

static void note(enum kind kind, int file, uint64_t offset, uint64_t length, const void *bytes, size_t count) {
    if (log_to < 0)
        return;
    struct head head = {kind, (uint32_t)file, offset, length};
    struct iovec parts[2] = {{&head, sizeof head}, {(void *)bytes, count}};
    if (syscall(SYS_writev, log_to, parts, count ? 2 : 1) != (long)(sizeof head + count))
        _exit(99);
}

__attribute__((constructor)) static void begin(void) {
    const char *path = getenv("CALLS_LOG"), *at = getenv("CALLS_FAIL"), *count = getenv("CALLS_SHORT"), *each = getenv("CALLS_BROKEN");
    if (path) {
        int opened = syscall(SYS_openat, AT_FDCWD, path, O_WRONLY | O_CREAT | O_TRUNC | O_APPEND | O_CLOEXEC, 0600);
        log_to = fcntl(opened, F_DUPFD_CLOEXEC, 500);
        syscall(SYS_close, opened);
        if (log_to < 0)
            _exit(99);
    }
    if (at)
        fail_at = atol(at);
    if (count)
        most = atol(count);
    if (each)
        broken = atol(each);
    fail_on = getenv("CALLS_FAIL_ON") != NULL;
    fail_done = getenv("CALLS_FAIL_DONE") != NULL;
    fail_silent = getenv("CALLS_FAIL_SILENT") != NULL;
}

static void name(int file) {
    if (log_to < 0 || file < 0 || file >= 1024 || named[file])
        return;
    char link[64], path[PATH_MAX];
    snprintf(link, sizeof link, "/proc/self/fd/%d", file);
    long count = syscall(SYS_readlinkat, AT_FDCWD, link, path, sizeof path);
    named[file] = 1;
    note(NAMED, file, 0, count < 0 ? 0 : count, path, count < 0 ? 0 : count);
}

/* Whether this call is to fail. */
static int fails(enum kind kind, int file) {
    long number = atomic_fetch_add(&calls, 1);
    name(file);
    if (fail_at < 0 || number < fail_at || (number > fail_at && !fail_on))
        return 0;
    note(FAILED, file, number, kind, NULL, 0);
    return 1;
}

/* Whether this call is interrupted, and how much of it is moved. */
static int is_broken(size_t *count) {
    if (*count > (size_t)most)
        *count = most;
    if (broken == 0 || atomic_load(&calls) % broken != 0)
        return 0;
    errno = EINTR;
    return 1;
}

ssize_t pread64(int file, void *into, size_t count, off64_t offset) {
    if (fails(READ, file)) {
        if (fail_silent) {
            memset(into, 0, count);
            return count;
        }
        errno = EIO;
        return -1;
    }
    if (is_broken(&count))
        return -1;
    note(READ, file, offset, count, NULL, 0);
    return syscall(SYS_pread64, file, into, count, offset);
}

ssize_t pread(int file, void *into, size_t count, off_t offset) { return pread64(file, into, count, offset); }

ssize_t pwrite64(int file, const void *from, size_t count, off64_t offset) {
    int failing = fails(WRITTEN, file);
    if (failing && fail_silent)
        return count;
    if (!failing && is_broken(&count))
        return -1;
    if (!failing || fail_done) {
        note(WRITTEN, file, offset, count, from, count);
        ssize_t moved = syscall(SYS_pwrite64, file, from, count, offset);
        if (!failing)
            return moved;
    }
    errno = EIO;
    return -1;
}

ssize_t pwrite(int file, const void *from, size_t count, off_t offset) { return pwrite64(file, from, count, offset); }

static int sync_it(int file) {
    if (fails(SYNCED, file)) {
        errno = EIO;
        return fail_silent ? 0 : -1;
    }
    if (is_broken(&(size_t){0}))
        return -1;
    int answer = syscall(SYS_fdatasync, file);
    if (answer == 0)
        note(SYNCED, file, 0, 0, NULL, 0);
    return answer;
}

int fdatasync(int file) { return sync_it(file); }

int fsync(int file) { return sync_it(file); }

ssize_t write(int file, const void *from, size_t count) {
    if (file == 1)
        note(SHOWN, file, 0, count, from, count);
    return syscall(SYS_write, file, from, count);
}

ssize_t writev(int file, const struct iovec *parts, int count) {
    for (int k = 0; file == 1 && k < count; k++)
        note(SHOWN, file, 0, parts[k].iov_len, parts[k].iov_base, parts[k].iov_len);
    return syscall(SYS_writev, file, parts, count);
}
