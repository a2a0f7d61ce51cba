/* partner FILE COUNT SIZE LAST: writes COUNT pairs of cells of these sizes as a log does, and prints the microseconds that the fastest pair
   took: for each cell the cell after the closed gate, a sync, the gate, a sync. */
#include <fcntl.h>
#include <stdio.h>
#include <stdlib.h>
#include <time.h>
#include <unistd.h>

static long micros(void) {
    struct timespec t;
    clock_gettime(CLOCK_MONOTONIC, &t);
    return t.tv_sec * 1000000 + t.tv_nsec / 1000;
}

static int append(int file, const char *cell, long size, off_t closed) {
    if (pwrite(file, cell, size + 1, closed + 1) != size + 1 || fsync(file)) return 4;
    if (pwrite(file, "\xA5", 1, closed) != 1 || fsync(file)) return 4;
    return 0;
}

int main(int count, char **words) {
    if (count != 5) return 2;
    int file = open(words[1], O_RDWR | O_CREAT, 0666);
    long times = atol(words[2]), size = atol(words[3]), last = atol(words[4]), least = -1;
    char *cell = malloc((size > last ? size : last) + 1);
    /* pages that were never written would all be one page of zeros to the system */
    for (long i = 0; i <= size || i <= last; i++) cell[i] = 'a' + i % 23;
    off_t closed = 8;
    if (pwrite(file, "DSCSTOR1", 9, 0) != 9 || fsync(file)) return 4;
    for (long i = 0; i < times; i++) {
        long begin = micros();
        if (append(file, cell, size, closed)) return 4;
        closed += size + 1;
        if (append(file, cell, last, closed)) return 4;
        closed += last + 1;
        long took = micros() - begin;
        if (least < 0 || took < least) least = took;
    }
    printf("%ld\n", least);
    return 0;
}
