/* One gray TIFF file of 8 bits in tiles, low byte first, scaled whole to SIDE by SIDE by exact area averages, written as a TIFF
   file: the work of `iiif_serve --one /iiif/a/full/SIDE,/0/default.tif`, in C.

       cc -O3 -o careful careful.c -lpthread
       careful FILE SIDE WORKERS OUT [map]

   A worker takes one row of tiles after another; of each tile the columns are summed by result rows, in 16 bits while a row
   counts whole, and these sums along the row. Nothing is held but a tile and the sums of the result. */
#define _GNU_SOURCE
#include <fcntl.h>
#include <pthread.h>
#include <stdint.h>
#include <stdio.h>
#include <stdlib.h>
#include <string.h>
#include <sys/mman.h>
#include <sys/stat.h>
#include <unistd.h>

typedef struct {
    int fd;
    const uint8_t *map;
    uint32_t w, h, edge, side, *at, across, down;
    uint64_t *sums;
    pthread_mutex_t *locks;
    uint32_t next;
    uint8_t *out, *begun;
} Job;

static void die(const char *what) {
    perror(what);
    exit(1);
}
static uint32_t le(const uint8_t *p, int n) {
    uint32_t v = 0;
    for (int i = 0; i < n; i++)
        v |= (uint32_t)p[i] << 8 * i;
    return v;
}
static uint64_t lesser(uint64_t a, uint64_t b) { return a < b ? a : b; }
static uint64_t greater(uint64_t a, uint64_t b) { return a > b ? a : b; }
static uint64_t overlap(uint64_t j, uint64_t s, uint64_t a, uint64_t c) {
    uint64_t from = greater(j * a, s * c), to = lesser((j + 1) * a, (s + 1) * c);
    return to > from ? to - from : 0;
}
static void add_inner(uint16_t *restrict inner, const uint8_t *restrict row, uint32_t n) {
    for (uint32_t x = 0; x < n; x++)
        inner[x] += row[x];
}
static void join(uint32_t *restrict cols, const uint16_t *restrict inner, uint32_t weight, uint32_t n) {
    for (uint32_t x = 0; x < n; x++)
        cols[x] += inner[x] * weight;
}
static void add_edge(uint32_t *restrict cols, const uint8_t *restrict row, uint32_t weight, uint32_t n) {
    for (uint32_t x = 0; x < n; x++)
        cols[x] += row[x] * weight;
}

static void tile(Job *job, const uint8_t *tile, uint32_t tx, uint32_t ty, uint64_t *total, uint32_t top) {
    uint64_t a = job->w, b = job->h, c = job->side;
    uint32_t left = tx * job->edge, above = ty * job->edge;
    uint32_t w = lesser(job->edge, job->w - left), h = lesser(job->edge, job->h - above);
    uint16_t inner[w];
    uint32_t cols[w];
    uint32_t first = above * c / b, last = ((above + h) * c + b - 1) / b;
    for (uint32_t j = first; j < last; j++) {
        uint32_t s0 = greater(j * b / c, above), s1 = lesser(((j + 1) * b + c - 1) / c, above + h);
        int whole = 0;
        memset(cols, 0, sizeof cols);
        for (uint32_t s = s0; s < s1; s++) {
            const uint8_t *row = tile + (size_t)(s - above) * job->edge;
            uint64_t weight = overlap(j, s, b, c);
            if (weight == c && whole < 257) {
                if (!whole++) memset(inner, 0, sizeof inner);
                add_inner(inner, row, w);
            } else if (weight)
                add_edge(cols, row, weight, w);
        }
        if (whole) join(cols, inner, c, w);
        /* A result column takes all of the columns inside it, and of those at its ends what lies in it. */
        uint64_t *to = total + (size_t)(j - top) * c;
        for (uint64_t i = left * c / a; i < c && i * a < (uint64_t)(left + w) * c; i++) {
            uint64_t begin = i * a, end = begin + a;
            uint64_t x0 = greater(begin / c, left), x1 = lesser((end + c - 1) / c, left + w);
            uint64_t first = lesser((x0 + 1) * c, end) - greater(x0 * c, begin), sum = first * cols[x0 - left];
            if (x1 - x0 > 1) {
                uint64_t inner = 0, last = lesser(x1 * c, end) - (x1 - 1) * c;
                for (uint64_t x = x0 + 1; x < x1 - 1; x++)
                    inner += cols[x - left];
                sum += inner * c + last * cols[x1 - 1 - left];
            }
            to[i] += sum;
        }
    }
}

/* Both are below 2^53, and no quotient is nearer to a whole number than half a rounding. */
static void finish(Job *job, uint32_t j, const uint64_t *sums) {
    double area = (double)job->w * job->h;
    uint8_t *out = job->out + 174 + (size_t)j * job->side;
    for (uint32_t i = 0; i < job->side; i++)
        out[i] = (uint8_t)(int32_t)((2 * (double)(int64_t)sums[i] + area) / (2 * area));
}

static void *work(void *arg) {
    Job *job = arg;
    uint64_t b = job->h, c = job->side;
    size_t bytes = (size_t)job->edge * job->edge;
    uint8_t *buffer = malloc(bytes);
    uint64_t most = (uint64_t)job->edge * c / b + 3;
    uint64_t *total = malloc(most * c * 8);
    for (;;) {
        uint32_t ty = __atomic_fetch_add(&job->next, 1, __ATOMIC_RELAXED);
        if (ty >= job->down) break;
        uint32_t above = ty * job->edge, h = lesser(job->edge, job->h - above);
        uint32_t top = above * c / b, end = ((above + h) * c + b - 1) / b;
        memset(total, 0, (size_t)(end - top) * c * 8);
        for (uint32_t tx = 0; tx < job->across; tx++) {
            uint32_t at = job->at[ty * job->across + tx];
            const uint8_t *t = job->map ? job->map + at : buffer;
            if (!job->map && pread(job->fd, buffer, bytes, at) != (ssize_t)bytes) die("pread");
            tile(job, t, tx, ty, total, top);
        }
        for (uint32_t j = top; j < end; j++) {
            uint64_t *from = total + (size_t)(j - top) * c;
            if (j * b >= (uint64_t)above * c && (j + 1) * b <= (uint64_t)(above + h) * c) {
                finish(job, j, from);
                continue;
            }
            pthread_mutex_lock(&job->locks[j]);
            uint64_t *to = job->sums + (size_t)j * c;
            for (uint64_t i = 0; i < c; i++)
                to[i] += from[i];
            job->begun[j] = 1;
            pthread_mutex_unlock(&job->locks[j]);
        }
    }
    return 0;
}

static void put(uint8_t *p, uint32_t v, int n) {
    for (int i = 0; i < n; i++)
        p[i] = v >> 8 * i;
}

int main(int argc, char **argv) {
    if (argc < 5) return 2;
    Job job = {.side = atoi(argv[2])};
    int workers = atoi(argv[3]);
    struct stat st;
    job.fd = open(argv[1], O_RDONLY);
    if (job.fd < 0 || fstat(job.fd, &st)) die(argv[1]);
    uint8_t head[8], dir[2 + 64 * 12];
    if (pread(job.fd, head, 8, 0) != 8) die("head");
    ssize_t got = pread(job.fd, dir, sizeof dir, le(head + 4, 4));
    if (got < 2) die("directory");
    uint32_t list = 0, count = 0;
    for (uint32_t e = 0; e < le(dir, 2); e++) {
        uint8_t *p = dir + 2 + 12 * e;
        uint32_t tag = le(p, 2), v = le(p + 8, le(p + 2, 2) == 3 ? 2 : 4);
        if (tag == 256) job.w = v;
        if (tag == 257) job.h = v;
        if (tag == 322) job.edge = v;
        if (tag == 324) {
            list = v;
            count = le(p + 4, 4);
        }
    }
    job.across = (job.w + job.edge - 1) / job.edge;
    job.down = (job.h + job.edge - 1) / job.edge;
    job.at = malloc(4 * count);
    if (pread(job.fd, job.at, 4 * count, list) != 4 * count) die("list");
    if (argc > 5) {
        job.map = mmap(0, st.st_size, PROT_READ, MAP_SHARED, job.fd, 0);
        if (job.map == MAP_FAILED) die("mmap");
    }
    uint64_t c = job.side;
    job.sums = calloc(c * c, 8);
    job.locks = calloc(c, sizeof *job.locks);
    job.begun = calloc(c, 1);
    job.out = malloc(174 + c * c);
    pthread_t threads[64];
    for (int i = 1; i < workers; i++)
        pthread_create(&threads[i], 0, work, &job);
    work(&job);
    for (int i = 1; i < workers; i++)
        pthread_join(threads[i], 0);
    for (uint64_t j = 0; j < c; j++)
        if (job.begun[j]) finish(&job, j, job.sums + j * c);
    uint8_t *out = job.out;
    memcpy(out, "II*\0\x08\0\0\0\x0c\0", 10);
    uint32_t e[12][4] = {{256, 4, 1, c}, {257, 4, 1, c}, {258, 3, 1, 8},     {259, 3, 1, 1},   {262, 3, 1, 1},   {273, 4, 1, 174},
                         {277, 3, 1, 1}, {278, 4, 1, c}, {279, 4, 1, c * c}, {282, 5, 1, 158}, {283, 5, 1, 166}, {296, 3, 1, 1}};
    for (int i = 0; i < 12; i++) {
        uint8_t *p = out + 10 + 12 * i;
        put(p, e[i][0], 2);
        put(p + 2, e[i][1], 2);
        put(p + 4, e[i][2], 4);
        put(p + 8, e[i][3], 4);
    }
    memset(out + 154, 0, 4);
    for (int i = 0; i < 4; i++)
        put(out + 158 + 4 * i, 1, 4);
    int fd = open(argv[4], O_WRONLY | O_CREAT | O_TRUNC, 0644);
    size_t n = 174 + c * c, done = 0;
    while (done < n) {
        ssize_t m = write(fd, out + done, n - done);
        if (m <= 0) die("write");
        done += m;
    }
    return 0;
}
