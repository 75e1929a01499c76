/* Loaded in front of the C library (LD_PRELOAD), this has standard output take at most PIECES bytes of a write, as pipes and sockets may.
   It leaves the file PIECES_MARK where it was asked to. */
#define _GNU_SOURCE
#include <dlfcn.h>
#include <fcntl.h>
#include <stdlib.h>
#include <sys/types.h>
#include <sys/uio.h>
#include <unistd.h>

typedef ssize_t (*write_to)(int, const void *, size_t);
typedef ssize_t (*write_parts)(int, const struct iovec *, int);

/* As many bytes as standard output takes of so many. */
static size_t taken(size_t size) {
    const char *most = getenv("PIECES"), *mark = getenv("PIECES_MARK");
    int file = mark ? open(mark, O_CREAT | O_WRONLY, 0600) : -1;
    if (file >= 0)
        close(file);
    return most && (size_t)atol(most) < size ? (size_t)atol(most) : size;
}

ssize_t write(int file, const void *from, size_t size) {
    return ((write_to)dlsym(RTLD_NEXT, "write"))(file, from, file == 1 ? taken(size) : size);
}

ssize_t writev(int file, const struct iovec *parts, int count) {
    for (int i = 0; file == 1 && i < count; i++)
        if (parts[i].iov_len)
            return write(file, parts[i].iov_base, parts[i].iov_len);
    return ((write_parts)dlsym(RTLD_NEXT, "writev"))(file, parts, count);
}
