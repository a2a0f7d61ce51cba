/* partner FILE append COUNT SIZE, partner FILE rewrite COUNT SIZE, partner FILE open: the plain program beside the log.

   An append writes a cell after the closed gate, syncs, opens the gate, and syncs. A rewrite writes as many bytes as the
   log does, and syncs. An open reads the file into memory. */
#define _FILE_OFFSET_BITS 64
#include <fcntl.h>
#include <stdio.h>
#include <stdlib.h>
#include <string.h>
#include <sys/stat.h>
#include <unistd.h>

static void need(int is_well, const char *what) {
    if (!is_well) {
        perror(what);
        exit(4);
    }
}

static void put(int file, const void *bytes, size_t size, off_t at) {
    need(pwrite(file, bytes, size, at) == (ssize_t)size, "write");
}

int main(int count, char **words) {
    need(count >= 3, "arguments");
    int file = open(words[1], O_RDWR | O_CREAT, 0666);
    need(file >= 0, "open");
    if (!strcmp(words[2], "open")) {
        struct stat now;
        need(!fstat(file, &now), "stat");
        char *bytes = malloc(now.st_size);
        for (ssize_t at = 0, n; (n = pread(file, bytes + at, now.st_size - at, at)) > 0; at += n) {
        }
        return 0;
    }
    need(count == 5, "arguments");
    long times = atol(words[3]), size = atol(words[4]);
    unsigned char *cell = malloc(size + 6);
    memset(cell, 7, size + 6);
    cell[0] = (unsigned char)(size >> 24), cell[1] = (unsigned char)(size >> 16);
    cell[2] = (unsigned char)(size >> 8), cell[3] = (unsigned char)size;
    cell[size + 4] = 0;
    if (!strcmp(words[2], "append")) {
        put(file, "DSCSTOR1", 9, 0);
        need(!fsync(file), "sync");
        off_t closed = 8;
        for (long i = 0; i < times; i++) {
            put(file, cell, size + 5, closed + 1);
            need(!fsync(file), "sync");
            put(file, "\xA5", 1, closed);
            need(!fsync(file), "sync");
            closed += size + 5;
        }
        return 0;
    }
    struct stat now;
    need(!fstat(file, &now), "stat");
    off_t at = 8 + 67108864;
    char *zeros = calloc(1, 65536);
    for (off_t end = now.st_size; end < at; end += 65536) {
        put(file, zeros, at - end < 65536 ? at - end : 65536, end);
    }
    for (long i = 0; i < times; i++, at += size + 5) {
        put(file, cell, size + 6, at);
    }
    need(!fsync(file), "sync");
    put(file, "2", 1, 7);
    need(!fsync(file), "sync");
    return 0;
}
