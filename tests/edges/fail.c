/* Loaded in front of the C library (LD_PRELOAD), this fails reads of a program's files, by EIO: of the calls of pread the one with the
   number that stands in FAIL_READ and all behind it, as of a disk that breaks, or that one alone where FAIL_ONCE is set. It leaves the file
   FAIL_MARK where it did. */
#define _GNU_SOURCE
#include <dlfcn.h>
#include <errno.h>
#include <fcntl.h>
#include <stdlib.h>
#include <sys/types.h>
#include <unistd.h>

typedef ssize_t (*read_at)(int, void *, size_t, off_t);

static long calls;

static int is_failed(void) {
    const char *number = getenv("FAIL_READ"), *mark = getenv("FAIL_MARK");
    if (!number)
        return 0;
    long call = __atomic_add_fetch(&calls, 1, __ATOMIC_SEQ_CST);
    if (call < atol(number) || (getenv("FAIL_ONCE") && call > atol(number)))
        return 0;
    int file = mark ? open(mark, O_CREAT | O_WRONLY, 0600) : -1;
    if (file >= 0)
        close(file);
    errno = EIO;
    return 1;
}

ssize_t pread(int file, void *into, size_t size, off_t at) {
    return is_failed() ? -1 : ((read_at)dlsym(RTLD_NEXT, "pread"))(file, into, size, at);
}

ssize_t pread64(int file, void *into, size_t size, off_t at) {
    return is_failed() ? -1 : ((read_at)dlsym(RTLD_NEXT, "pread64"))(file, into, size, at);
}
