/* Makes the writes and syncs of as many appends as the first word says, on one open file. The bodies have 100 bytes, or
   the lengths that the further words give, in turn. */
#include <fcntl.h>
#include <stdio.h>
#include <stdlib.h>
#include <string.h>
#include <sys/stat.h>
#include <unistd.h>

enum { HEADER = 16, BODY = 100, LONGEST = 255 };

static const char path[] = "cells-data/cell-65000.journal";

static int put(int file, const void *bytes, size_t count, off_t at) {
    return pwrite(file, bytes, count, at) == (ssize_t)count;
}

int main(int argc, char **argv) {
    long count = argc > 1 ? atol(argv[1]) : 0;
    unsigned char record[4 + LONGEST + 1];
    mkdir("cells-data", 0777);
    int file = open(path, O_RDWR | O_CREAT | O_EXCL, 0666);
    if (file < 0 || !put(file, "cells-journal-01", HEADER + 1, 0) || fsync(file)) return 1;
    off_t gate = HEADER;
    for (long i = 0; i < count; i++) {
        long body = argc > 2 ? atol(argv[2 + i % (argc - 2)]) : BODY;
        if (body < 1 || body > LONGEST) return 2;
        memcpy(record, (unsigned char[]){0, 0, 0, (unsigned char)body}, 4);
        memset(record + 4, 'x', body);
        record[4 + body] = 0;
        if (!put(file, record, 4 + body + 1, gate + 1) || fsync(file)) return 1;
        if (!put(file, "\1", 1, gate) || fsync(file)) return 1;
        gate += 1 + 4 + body;
    }
    if (unlink(path)) return 1;
    printf("%ld\n", count);
    return 0;
}
