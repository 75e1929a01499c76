/* Loaded in front of the C library (LD_PRELOAD), this refuses one growth of a program's memory: of the calls of malloc and realloc
   that come from the program's own code, and not from a library's, the one with the number that stands in the file REFUSE_CONTROL.
   The file is shared with the script that started the program, so that it can set the number anew before each request. */
#define _GNU_SOURCE
#include <dlfcn.h>
#include <fcntl.h>
#include <link.h>
#include <stdint.h>
#include <stdlib.h>
#include <sys/mman.h>
#include <unistd.h>

struct control {
    int64_t left;    /* so many growths from now the refusal comes; 0: none */
    int64_t refused; /* how many were refused */
    int64_t asked;   /* how many growths were asked for */
};

static struct control nowhere;
static struct control *control = &nowhere;
static uintptr_t first, last;
static void *(*real_malloc)(size_t);
static void *(*real_realloc)(void *, size_t);

static int note_program(struct dl_phdr_info *info, size_t size, void *unused) {
    (void)size;
    (void)unused;
    for (int i = 0; i < info->dlpi_phnum; i++) {
        const ElfW(Phdr) *part = &info->dlpi_phdr[i];
        if (part->p_type == PT_LOAD && (part->p_flags & PF_X)) {
            first = info->dlpi_addr + part->p_vaddr;
            last = first + part->p_memsz;
        }
    }
    return 1; /* the program comes first; no library is looked at */
}

__attribute__((constructor)) static void start(void) {
    real_malloc = (void *(*)(size_t))dlsym(RTLD_NEXT, "malloc");
    real_realloc = (void *(*)(void *, size_t))dlsym(RTLD_NEXT, "realloc");
    dl_iterate_phdr(note_program, 0);
    const char *path = getenv("REFUSE_CONTROL");
    int file = path ? open(path, O_RDWR) : -1;
    if (file >= 0) {
        void *shared = mmap(0, sizeof *control, PROT_READ | PROT_WRITE, MAP_SHARED, file, 0);
        if (shared != MAP_FAILED)
            control = shared;
        close(file);
    }
}

static int is_refused(uintptr_t caller) {
    if (caller < first || caller >= last)
        return 0;
    __atomic_add_fetch(&control->asked, 1, __ATOMIC_SEQ_CST);
    int64_t left = __atomic_load_n(&control->left, __ATOMIC_SEQ_CST);
    while (left > 0)
        if (__atomic_compare_exchange_n(&control->left, &left, left - 1, 0, __ATOMIC_SEQ_CST, __ATOMIC_SEQ_CST)) {
            if (left > 1)
                return 0;
            __atomic_add_fetch(&control->refused, 1, __ATOMIC_SEQ_CST);
            return 1;
        }
    return 0;
}

void *malloc(size_t size) {
    if (!real_malloc)
        real_malloc = (void *(*)(size_t))dlsym(RTLD_NEXT, "malloc");
    return is_refused((uintptr_t)__builtin_return_address(0)) ? 0 : real_malloc(size);
}

void *realloc(void *old, size_t size) {
    if (!real_realloc)
        real_realloc = (void *(*)(void *, size_t))dlsym(RTLD_NEXT, "realloc");
    return is_refused((uintptr_t)__builtin_return_address(0)) ? 0 : real_realloc(old, size);
}
