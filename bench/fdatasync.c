/* How long an append of 64 bytes and fdatasync take: prints the mean and the 99th percentile in microseconds.
   usage: fdatasync FILE COUNT */
#define _POSIX_C_SOURCE 199309L
#include <fcntl.h>
#include <stdio.h>
#include <stdlib.h>
#include <time.h>
#include <unistd.h>

static double now(void) {
    struct timespec t;
    clock_gettime(CLOCK_MONOTONIC, &t);
    return t.tv_sec * 1e6 + t.tv_nsec / 1e3;
}

static int by_size(const void *a, const void *b) {
    double x = *(const double *)a, y = *(const double *)b;
    return (x > y) - (x < y);
}

int main(int argc, char **argv) {
    char bytes[64] = {0};
    int count = argc == 3 ? atoi(argv[2]) : 0;
    if (count < 1) return 2;
    double *took = malloc(sizeof *took * (size_t)count), all = 0;
    int file = open(argv[1], O_CREAT | O_TRUNC | O_WRONLY, 0600);
    if (file < 0 || !took) return 1;
    for (int i = 0; i < count; i++) {
        double begun = now();
        if (write(file, bytes, sizeof bytes) != sizeof bytes || fdatasync(file)) return 1;
        took[i] = now() - begun;
        all += took[i];
    }
    qsort(took, (size_t)count, sizeof *took, by_size);
    printf("%.0f %.0f\n", all / count, took[count * 99 / 100]);
    return 0;
}
