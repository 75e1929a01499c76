/* Loaded in front of the C library (LD_PRELOAD), this interrupts a program's reads of sockets and its writes to sockets and to its two
   outputs, by EINTR, as a signal does: of the calls of each function the first, the third and so on. It leaves a file with the function's
   name in the folder INTERRUPT_MARKS where it did. */
#define _GNU_SOURCE
#include <dlfcn.h>
#include <errno.h>
#include <fcntl.h>
#include <stdio.h>
#include <stdlib.h>
#include <sys/socket.h>
#include <sys/types.h>
#include <sys/uio.h>
#include <unistd.h>

/* Calls its like of the C library. */
#define NEXT(name, ...) ((__typeof__(&name))dlsym(RTLD_NEXT, #name))(__VA_ARGS__)

static int is_interrupted(const char *name, long *calls) {
    const char *marks = getenv("INTERRUPT_MARKS");
    if (!marks || __atomic_fetch_add(calls, 1, __ATOMIC_SEQ_CST) % 2)
        return 0;
    char path[4096];
    snprintf(path, sizeof path, "%s/%s", marks, name);
    int file = open(path, O_CREAT | O_WRONLY, 0600);
    if (file >= 0)
        close(file);
    errno = EINTR;
    return 1;
}

ssize_t recv(int socket, void *into, size_t size, int flags) {
    static long calls;
    return is_interrupted("recv", &calls) ? -1 : NEXT(recv, socket, into, size, flags);
}

ssize_t send(int socket, const void *from, size_t size, int flags) {
    static long calls;
    return is_interrupted("send", &calls) ? -1 : NEXT(send, socket, from, size, flags);
}

ssize_t sendmsg(int socket, const struct msghdr *message, int flags) {
    static long calls;
    return is_interrupted("sendmsg", &calls) ? -1 : NEXT(sendmsg, socket, message, flags);
}

ssize_t write(int file, const void *from, size_t size) {
    static long calls[3];
    int is_output = file == 1 || file == 2;
    return is_output && is_interrupted(file == 1 ? "output" : "errors", &calls[file]) ? -1 : NEXT(write, file, from, size);
}
