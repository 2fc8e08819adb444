// Loaded before a program, it numbers the program's calls on the files home.msi and home.log of the folder FOLDER, and on the folder
// itself, from 1: lengths, reads, writes, syncs. A new home.msi is home.msi.part until it is whole. The file CALLS gets a line for each, the kind, the file, the place and how many bytes,
// with the bytes of a write behind it, and one for each write to the program's output. The call of the number FAILED isn't made and fails,
// but that of a write, where HALF is set, the front half is written. Before that of the number STOPPED the program ends. No sync is made:
// nothing that a program sees depends on it.
#define _GNU_SOURCE
#include <errno.h>
#include <fcntl.h>
#include <stdio.h>
#include <stdlib.h>
#include <string.h>
#include <sys/stat.h>
#include <sys/syscall.h>
#include <unistd.h>

static long number(const char *name) {
    const char *text = getenv(name);
    return text ? atol(text) : 0;
}

static const char *file_of(int fd) {
    const char *folder = getenv("FOLDER");
    char link[32], path[4096];
    snprintf(link, sizeof link, "/proc/self/fd/%d", fd);
    ssize_t length = readlink(link, path, sizeof path - 1);
    if (!folder || length < (ssize_t)strlen(folder) || strncmp(path, folder, strlen(folder)))
        return NULL;
    path[length] = 0;
    const char *rest = path + strlen(folder);
    if (!strcmp(rest, "/home.msi") || !strcmp(rest, "/home.msi.part"))
        return "home";
    return !*rest ? "folder" : !strcmp(rest, "/home.log") ? "log" : NULL;
}

static void note(const char *kind, const char *file, long long at, size_t length, const void *bytes) {
    static int out = -1;
    char line[64];
    if (out < 0)
        out = open(getenv("CALLS"), O_WRONLY | O_CREAT | O_APPEND | O_CLOEXEC, 0600);
    int end = snprintf(line, sizeof line, "%s %s %lld %zu\n", kind, file, at, length);
    syscall(SYS_write, out, line, end);
    if (bytes)
        syscall(SYS_write, out, bytes, length);
}

// Counts a call, unless it is on another file. Whether it fails.
static int fails(int fd, const char *kind, long long at, size_t length, const void *bytes) {
    static long count;
    const char *file = file_of(fd);
    if (!file)
        return 0;
    if (++count == number("STOPPED"))
        _exit(9);
    note(kind, file, at, length, bytes);
    errno = EIO;
    return count == number("FAILED");
}

ssize_t pread(int fd, void *bytes, size_t length, off_t at) {
    return fails(fd, "read", at, length, NULL) ? -1 : syscall(SYS_pread64, fd, bytes, length, at);
}

ssize_t pwrite(int fd, const void *bytes, size_t length, off_t at) {
    if (!fails(fd, "write", at, length, bytes))
        return syscall(SYS_pwrite64, fd, bytes, length, at);
    if (getenv("HALF"))
        syscall(SYS_pwrite64, fd, bytes, length / 2, at);
    return errno = EIO, -1;
}

ssize_t write(int fd, const void *bytes, size_t length) {
    if (fd == 1 && getenv("FOLDER"))
        note("print", "output", 0, length, NULL);
    return fails(fd, "append", 0, length, bytes) ? -1 : syscall(SYS_write, fd, bytes, length);
}

int fsync(int fd) { return fails(fd, "sync", 0, 0, NULL) ? -1 : 0; }

int fdatasync(int fd) { return fails(fd, "sync", 0, 0, NULL) ? -1 : 0; }

int ftruncate(int fd, off_t length) { return fails(fd, "cut", length, 0, NULL) ? -1 : syscall(SYS_ftruncate, fd, length); }

int statx(int fd, const char *path, int flags, unsigned mask, struct statx *facts) {
    return !*path && fails(fd, "length", 0, 0, NULL) ? -1 : syscall(SYS_statx, fd, path, flags, mask, facts);
}
