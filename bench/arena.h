/* Room that grows without a copy, and text that goes out through 64 KiB. */
#include <stdint.h>
#include <stdio.h>
#include <stdlib.h>
#include <string.h>
#include <unistd.h>
#include <sys/mman.h>

#define MILLION ((int64_t)1000000)

/* Room for 4 GiB, of which only what is touched counts. */
static void *arena(void) {
    void *at = mmap(0, (size_t)1 << 32, PROT_READ | PROT_WRITE, MAP_PRIVATE | MAP_ANONYMOUS | MAP_NORESERVE, -1, 0);
    if (at == MAP_FAILED) { perror("arena"); exit(1); }
    return at;
}

static char out[1 << 16]; static size_t len;
static void flush(void) {
    for (size_t at = 0; at < len; ) {
        ssize_t many = write(1, out + at, len - at);
        if (many < 0) { perror("write"); exit(1); }
        at += many;
    }
    len = 0;
}
static void room(size_t many) { if (len + many > sizeof out) flush(); }
static void put(const char *bytes, size_t size) { memcpy(out + len, bytes, size); len += size; }

static char pairs[200];
static void whole(uint64_t v) {
    if (!pairs[1]) for (int i = 0; i < 100; i++) { pairs[2 * i] = '0' + i / 10; pairs[2 * i + 1] = '0' + i % 10; }
    char b[20]; int i = 20;
    for (; v >= 100; v /= 100) { i -= 2; memcpy(b + i, pairs + 2 * (v % 100), 2); }
    if (v >= 10) { i -= 2; memcpy(b + i, pairs + 2 * v, 2); } else b[--i] = '0' + v;
    put(b + i, 20 - i);
}
static void millionths(int64_t v) {
    if (v < 0) { out[len++] = '-'; v = -v; }
    whole(v / MILLION);
    uint32_t f = v % MILLION;
    if (!f) return;
    out[len++] = '.';
    for (uint32_t tenth = MILLION / 10; f; f %= tenth, tenth /= 10) out[len++] = '0' + f / tenth;
}
