/* Loaded in front of the C library (LD_PRELOAD), this notes each read of READS_SIZE bytes at a place of a file, by a byte in the file
   READS_TO. */
#define _GNU_SOURCE
#include <dlfcn.h>
#include <fcntl.h>
#include <stdlib.h>
#include <sys/types.h>
#include <unistd.h>

typedef ssize_t (*read_at)(int, void *, size_t, off_t);

ssize_t pread(int file, void *to, size_t size, off_t at) {
    const char *wanted = getenv("READS_SIZE"), *notes = getenv("READS_TO");
    int note = wanted && notes && (size_t)atol(wanted) == size ? open(notes, O_CREAT | O_WRONLY | O_APPEND, 0600) : -1;
    if (note >= 0) {
        (void)!write(note, "", 1);
        close(note);
    }
    return ((read_at)dlsym(RTLD_NEXT, "pread"))(file, to, size, at);
}
