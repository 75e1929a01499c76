/* A plain server over libvips: one thread for each connection, as much of the IIIF Image API as the viewers of this folder ask for.

       cc -O2 -o plain bench/load/plain.c $(pkg-config --cflags --libs vips) -lpthread
       ./plain PORT FILE

   /iiif/ANY/REGION/SIZE/0/default.tif: REGION is full or x,y,w,h, SIZE is max, w, or w,h. The region is cut out of FILE (vips_extract_area),
   shrunk (vips_shrink averages over boxes) and saved as TIFF without compression; libvips keeps what it likes of files and operations.
   Connections stay until the client ends them. Anything else is answered 400. */
#include <arpa/inet.h>
#include <netinet/tcp.h>
#include <pthread.h>
#include <signal.h>
#include <stdio.h>
#include <stdlib.h>
#include <string.h>
#include <unistd.h>
#include <vips/vips.h>

enum { HEAD = 8192 };

static const char *path;

/* The image of a region and size; 0, or -1 where the words spell none. */
static int made(const char *region, const char *size, VipsImage **out) {
    VipsImage *file, *part;
    if (!(file = vips_image_new_from_file(path, NULL)))
        return -1;
    int x = 0, y = 0, w = file->Xsize, h = file->Ysize;
    int known = !strcmp(region, "full") || sscanf(region, "%d,%d,%d,%d", &x, &y, &w, &h) == 4;
    if (x + w > file->Xsize)
        w = file->Xsize - x;
    if (y + h > file->Ysize)
        h = file->Ysize - y;
    int failed = !known || vips_extract_area(file, &part, x, y, w, h, NULL);
    g_object_unref(file);
    if (failed)
        return -1;
    int c = w, d = h, given = strcmp(size, "max") ? sscanf(size, "%d,%d", &c, &d) : 2;
    if (given == 1)
        d = (int)(((long)h * c * 2 + w) / (2L * w));
    failed = given < 1 || c < 1 || d < 1;
    if (!failed && c == w && d == h) {
        *out = part;
        return 0;
    }
    failed = failed || vips_shrink(part, out, (double)w / c, (double)h / d, NULL);
    g_object_unref(part);
    return failed ? -1 : 0;
}

static int send_all(int to, const void *data, size_t length) {
    for (const char *at = data; length > 0;) {
        ssize_t sent = send(to, at, length, MSG_NOSIGNAL);
        if (sent <= 0)
            return -1;
        at += sent;
        length -= (size_t)sent;
    }
    return 0;
}

static int refuse(int to) {
    static const char answer[] = "HTTP/1.1 400 Bad Request\r\nContent-Length: 0\r\n\r\n";
    vips_error_clear();
    return send_all(to, answer, sizeof answer - 1);
}

/* Answers one head; 0 where the connection goes on. */
static int answer(int to, const char *head) {
    char region[64], size[64], lines[128];
    VipsImage *image;
    void *body;
    size_t length;
    if (sscanf(head, "GET /iiif/%*[^/]/%63[^/]/%63[^/]/0/default.tif HTTP/1.1", region, size) != 2 || made(region, size, &image))
        return refuse(to);
    int failed = vips_tiffsave_buffer(image, &body, &length, NULL);
    g_object_unref(image);
    if (failed)
        return refuse(to);
    int n = snprintf(lines, sizeof lines, "HTTP/1.1 200 OK\r\nContent-Type: image/tiff\r\nContent-Length: %zu\r\n\r\n", length);
    failed = send_all(to, lines, (size_t)n) || send_all(to, body, length);
    g_free(body);
    return failed;
}

static void *connection(void *given) {
    int from = (int)(intptr_t)given, one = 1;
    char text[HEAD + 1];
    size_t held = 0;
    setsockopt(from, IPPROTO_TCP, TCP_NODELAY, &one, sizeof one);
    for (int ended = 0; !ended;) {
        ssize_t got = recv(from, text + held, HEAD - held, 0);
        if (got <= 0)
            break;
        held += (size_t)got;
        text[held] = 0;
        for (char *end; !ended && (end = strstr(text, "\r\n\r\n"));) {
            end[2] = 0;
            ended = answer(from, text);
            held -= (size_t)(end + 4 - text);
            memmove(text, end + 4, held + 1);
        }
        ended = ended || held == HEAD;
    }
    close(from);
    vips_thread_shutdown();
    return NULL;
}

int main(int count, char **words) {
    if (count != 3 || VIPS_INIT(words[0])) {
        fprintf(stderr, "plain PORT FILE\n");
        return 2;
    }
    path = words[2];
    struct sockaddr_in address = {.sin_family = AF_INET, .sin_port = htons((uint16_t)atoi(words[1])), .sin_addr.s_addr = htonl(INADDR_LOOPBACK)};
    int listener = socket(AF_INET, SOCK_STREAM, 0), one = 1;
    setsockopt(listener, SOL_SOCKET, SO_REUSEADDR, &one, sizeof one);
    if (bind(listener, (struct sockaddr *)&address, sizeof address) || listen(listener, 128)) {
        perror("plain");
        return 1;
    }
    for (;;) {
        int link = accept(listener, NULL, NULL);
        pthread_t thread;
        if (link < 0)
            continue;
        if (pthread_create(&thread, NULL, connection, (void *)(intptr_t)link))
            close(link);
        else
            pthread_detach(thread);
    }
}
