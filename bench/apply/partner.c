/* partner FOLDER COUNT: places COUNT files in the folder as the node does, one after the other: a staging file is written and
   synced, renamed over the target, and the folder is synced. */
#include <fcntl.h>
#include <stdio.h>
#include <stdlib.h>
#include <string.h>
#include <sys/stat.h>
#include <unistd.h>

static int place(int folder, const char *name, const char *bytes) {
    int length = strlen(bytes);
    int file = openat(folder, "staged", O_WRONLY | O_CREAT | O_EXCL, 0666);
    if (file < 0 || write(file, bytes, length) != length || fsync(file) || close(file)) return 4;
    return renameat(folder, "staged", folder, name) || fsync(folder) ? 4 : 0;
}

int main(int count, char **words) {
    if (count != 3) return 2;
    if (mkdir(words[1], 0777)) return 4;
    int folder = open(words[1], O_RDONLY | O_DIRECTORY);
    if (folder < 0) return 4;
    for (int i = 0; i < atoi(words[2]); i++) {
        char name[32], bytes[64];
        snprintf(name, sizeof name, "file_%05d.txt", i);
        snprintf(bytes, sizeof bytes, "contents %d of a file, as they are to be", i);
        if (place(folder, name, bytes)) return 4;
    }
    return 0;
}
