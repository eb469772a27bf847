/* Makes once more the appends by which `cells up` made a service's journal and that of cell 1, which lie below the
   folder of the first word. It makes them on the same files below the current folder, where `cells init` has made both,
   by the same writes and syncs in the same order: first an entry of the cell, its epoch, and then by turns one of the
   service and one of the cell. So it is for a run each of whose lines was an update of this cell, with nothing lost. */
#include <fcntl.h>
#include <stdio.h>
#include <stdlib.h>
#include <string.h>
#include <sys/file.h>
#include <sys/stat.h>
#include <unistd.h>

enum { HEADER = 16, GATE = 1, LENGTH = 4 };

struct journal {
    const char *path;
    unsigned char *wanted; /* the bytes that `cells up` left */
    off_t size;
    off_t gate; /* of the append that comes next */
    int file;
};

static int sync_folder(const char *path) {
    int folder = open(path, O_RDONLY);
    return folder >= 0 && fsync(folder) == 0 && close(folder) == 0;
}

/* Reads what is wanted of a journal. */
static int read_wanted(struct journal *journal, const char *folder) {
    char path[4096];
    struct stat found;
    snprintf(path, sizeof path, "%s/%s", folder, journal->path);
    int file = open(path, O_RDONLY);
    if (file < 0 || fstat(file, &found)) return 0;
    journal->size = found.st_size;
    journal->wanted = malloc(found.st_size);
    return journal->wanted && read(file, journal->wanted, found.st_size) == found.st_size && close(file) == 0;
}

/* Opens a fresh journal as the program does: lock, folders, sync, size, read, cut, sync. */
static int open_fresh(struct journal *journal) {
    unsigned char fresh[HEADER + GATE];
    struct stat found;
    int file = open(journal->path, O_RDWR);
    journal->file = file;
    journal->gate = HEADER;
    if (file < 0 || flock(file, LOCK_EX | LOCK_NB) || !sync_folder("cells-data") || !sync_folder(".")) return 0;
    if (fsync(file) || fstat(file, &found) || found.st_size != sizeof fresh) return 0;
    if (pread(file, fresh, sizeof fresh, 0) != sizeof fresh || ftruncate(file, sizeof fresh)) return 0;
    return fsync(file) == 0;
}

static int put(const struct journal *journal, const void *bytes, off_t count, off_t at) {
    return pwrite(journal->file, bytes, count, at) == count;
}

/* Makes the next append: the record with a closed gate behind it, a sync, the open gate, a sync. */
static int append(struct journal *journal) {
    const unsigned char *length = journal->wanted + journal->gate + GATE;
    off_t record = LENGTH + (((off_t)length[0] << 24) | (length[1] << 16) | (length[2] << 8) | length[3]);
    unsigned char bytes[LENGTH + 65536 + GATE];
    memcpy(bytes, length, record);
    bytes[record] = 0;
    if (!put(journal, bytes, record + GATE, journal->gate + GATE) || fsync(journal->file)) return 0;
    if (!put(journal, "\1", 1, journal->gate) || fsync(journal->file)) return 0;
    journal->gate += GATE + record;
    return 1;
}

static int is_done(const struct journal *journal) {
    return journal->gate + GATE >= journal->size;
}

int main(int argc, char **argv) {
    struct journal service = {.path = "cells-data/service.journal"}, cell = {.path = "cells-data/cell-1.journal"};
    if (argc != 2 || !read_wanted(&service, argv[1]) || !read_wanted(&cell, argv[1])) return 2;
    if (!open_fresh(&service) || !open_fresh(&cell) || !append(&cell)) return 1;
    while (!is_done(&service) && !is_done(&cell)) {
        if (!append(&service) || !append(&cell)) return 1;
    }
    return is_done(&service) && is_done(&cell) ? 0 : 3;
}
