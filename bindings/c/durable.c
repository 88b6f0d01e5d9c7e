#include "durable.h"
#include <errno.h>
#include <fcntl.h>
#include <stdio.h>
#include <stdlib.h>
#include <string.h>
#include <sys/stat.h>
#include <unistd.h>

// Ends the program where a call of the system failed.
static void require(int holds, const char *what, const char *name) {
    if (holds) return;
    fprintf(stderr, "%s: %s: %s\n", name, what, strerror(errno));
    exit(2);
}

int open_folder(const char *path) {
    int folder = open(path, O_RDONLY | O_DIRECTORY);
    require(folder >= 0, "no such folder", path);
    return folder;
}

int open_appended(int folder, const char *name) {
    int file = openat(folder, name, O_RDWR | O_CREAT | O_APPEND, 0644);
    require(file >= 0, "cannot be opened", name);
    return file;
}

void cut_file(int file, const char *name, size_t length) {
    struct stat found;
    require(fstat(file, &found) == 0, "cannot be measured", name);
    if ((size_t)found.st_size < length) {
        fprintf(stderr, "%s: has lost what was saved\n", name);
        exit(2);
    }
    require(ftruncate(file, (off_t)length) == 0, "cannot be cut", name);
}

void append(int file, const char *name, const void *bytes, size_t count) {
    const uint8_t *from = bytes;
    while (count > 0) {
        ssize_t written = write(file, from, count);
        if (written < 0 && errno == EINTR) continue;
        require(written > 0, "cannot be written", name);
        from += written;
        count -= (size_t)written;
    }
    require(fsync(file) == 0, "cannot be brought to the disk", name);
}

void replace_file(int folder, const char *name, const void *bytes, size_t count) {
    char beside[64];
    snprintf(beside, sizeof beside, "%s.tmp", name);
    int file = openat(folder, beside, O_WRONLY | O_CREAT | O_TRUNC, 0644);
    require(file >= 0, "cannot be opened", beside);
    append(file, beside, bytes, count);
    require(close(file) == 0, "cannot be closed", beside);
    require(renameat(folder, beside, folder, name) == 0, "cannot be renamed", beside);
    require(fsync(folder) == 0, "its folder cannot be brought to the disk", name);
}

size_t read_file(int folder, const char *name, uint8_t *bytes, size_t room) {
    int file = openat(folder, name, O_RDONLY);
    if (file < 0 && errno == ENOENT) return 0;
    require(file >= 0, "cannot be opened", name);
    size_t length = 0;
    ssize_t count;
    while (length < room && (count = read(file, bytes + length, room - length)) != 0) {
        require(count > 0 || errno == EINTR, "cannot be read", name);
        if (count > 0) length += (size_t)count;
    }
    require(close(file) == 0, "cannot be closed", name);
    return length;
}
