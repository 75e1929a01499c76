/* What a native tile takes at least: a server that reads a request, 64 KiB of a file and writes these behind a head, with one thread for each
   connection and nothing else. What it answers is no image.

       cc -O2 -o floor bench/load/floor.c -lpthread
       ./floor PORT FILE [MIB | map | send]

   With a third word it keeps as well: each tile is read into memory of its own, of so many MiB in turn, which are touched at the start, and is written
   from there. That is the least that a server does which keeps what it was asked: the memory of a tile was written last so many MiB ago, so it has
   left the processor's caches. It looks nothing up, and asks again for what it keeps.

   With the word `map` it writes from the file as it is mapped into memory, and with `send` the system sends the file's bytes (sendfile): so no byte
   of it is copied into memory of its own. That is what a library would save that has one of these.

   The bytes are those of the tile of 256 square at /iiif/ANY/x,y,.. of a file of bench/compare, 10,000 wide, whose tiles stand in order. */
#include <arpa/inet.h>
#include <fcntl.h>
#include <netinet/tcp.h>
#include <pthread.h>
#include <signal.h>
#include <stdio.h>
#include <stdlib.h>
#include <string.h>
#include <sys/mman.h>
#include <sys/sendfile.h>
#include <sys/stat.h>
#include <sys/uio.h>
#include <unistd.h>

enum { HEAD = 8192, TILE = 65536, FRONT = 174, ACROSS = 40, EDGE = 256 };

static int file, sends;
static char *kept, *mapped;
static long slots, used;

/* Writes all of two runs of bytes; whether that went well. */
static int is_sent(int link, char *front, ssize_t before, char *tile) {
    struct iovec parts[2] = {{front, before}, {tile, TILE}};
    while (parts[1].iov_len > 0) {
        ssize_t more = writev(link, parts, 2);
        if (more <= 0)
            return 0;
        for (int n = 0; n < 2; n++) {
            ssize_t gone = more < (ssize_t)parts[n].iov_len ? more : (ssize_t)parts[n].iov_len;
            parts[n].iov_base = (char *)parts[n].iov_base + gone;
            parts[n].iov_len -= gone;
            more -= gone;
        }
    }
    return 1;
}

/* Has the system send a front and then a tile of the file; whether that went well. */
static int is_sent_inside(int link, char *front, ssize_t before, off_t at) {
    if (send(link, front, before, MSG_MORE) != before)
        return 0;
    for (ssize_t left = TILE; left > 0;) {
        ssize_t more = sendfile(link, file, &at, left);
        if (more <= 0)
            return 0;
        left -= more;
    }
    return 1;
}

/* Answers the requests of a connection until it ends. */
static void *serve(void *given) {
    int link = (int)(long)given, one = 1;
    char head[HEAD], *answer = calloc(1, HEAD + FRONT + TILE);
    setsockopt(link, IPPROTO_TCP, TCP_NODELAY, &one, sizeof one);
    for (size_t held = 0; answer;) {
        ssize_t got = recv(link, head + held, sizeof head - 1 - held, 0);
        if (got <= 0)
            break;
        held += got;
        head[held] = 0;
        int x = 0, y = 0;
        if (!strstr(head, "\r\n\r\n"))
            continue;
        if (sscanf(head, "GET /iiif/%*[^/]/%d,%d,", &x, &y) != 2)
            break;
        held = 0;
        int front = sprintf(answer, "HTTP/1.1 200 OK\r\nContent-Type: image/tiff\r\nContent-Length: %d\r\n\r\n", FRONT + TILE) + FRONT;
        off_t at = 8 + (off_t)(y / EDGE * ACROSS + x / EDGE) * TILE;
        if (sends || mapped) {
            if (sends ? !is_sent_inside(link, answer, front, at) : !is_sent(link, answer, front, mapped + at))
                break;
            continue;
        }
        char *tile = kept ? kept + __sync_fetch_and_add(&used, 1) % slots * TILE : answer + front;
        if (pread(file, tile, TILE, at) != TILE || !is_sent(link, answer, front, tile))
            break;
    }
    free(answer);
    close(link);
    return 0;
}

int main(int count, char **words) {
    int listener = socket(AF_INET, SOCK_STREAM, 0), one = 1;
    struct sockaddr_in here = {.sin_family = AF_INET, .sin_addr.s_addr = htonl(INADDR_LOOPBACK)};
    signal(SIGPIPE, SIG_IGN);
    if (count < 3 || count > 4 || (file = open(words[2], O_RDONLY)) < 0)
        return 2;
    if (count == 4 && !strcmp(words[3], "send")) {
        sends = 1;
    } else if (count == 4 && !strcmp(words[3], "map")) {
        struct stat about;
        if (fstat(file, &about) || (mapped = mmap(0, about.st_size, PROT_READ, MAP_SHARED | MAP_POPULATE, file, 0)) == MAP_FAILED)
            return 2;
    } else if (count == 4) {
        size_t size = atol(words[3]) << 20;
        slots = size / TILE;
        kept = mmap(0, size, PROT_READ | PROT_WRITE, MAP_PRIVATE | MAP_ANONYMOUS, -1, 0);
        if (!slots || kept == MAP_FAILED)
            return 2;
        madvise(kept, size, MADV_HUGEPAGE);
        memset(kept, 1, size);
    }
    here.sin_port = htons(atoi(words[1]));
    setsockopt(listener, SOL_SOCKET, SO_REUSEADDR, &one, sizeof one);
    if (bind(listener, (struct sockaddr *)&here, sizeof here) || listen(listener, 128))
        return 1;
    for (;;) {
        pthread_t thread;
        long link = accept(listener, 0, 0);
        if (link >= 0 && !pthread_create(&thread, 0, serve, (void *)link))
            pthread_detach(thread);
    }
}
