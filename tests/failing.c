/* Makes system calls fail. As a shared library that LD_PRELOAD loads before the C library it stands before the calls of
 * a program. FAILING in the environment lists calls that fail, each as three words, CALL K ERROR: the K-th such call,
 * counted from 1, does nothing and fails with the number ERROR. CALL is
 *   create, open, open-folder  opening to make a file, opening another file or a folder
 *   read, write                reading and writing a regular file
 *   fsync                      flushing what is no folder
 *   fsync-folder, fsync-other  flushing the folder in which the last rename gave a name, or another folder
 *   close                      closing a regular file that is open for writing, which is closed all the same
 *   rename, unlink
 * With SHORT, a number, each read and write of a regular file moves at most so many bytes. With CALLED, standard error
 * gets the name of each such call on a line, unless it is the one before once more. */
#define _GNU_SOURCE
#include <errno.h>
#include <fcntl.h>
#include <limits.h>
#include <stdarg.h>
#include <stdio.h>
#include <stdlib.h>
#include <string.h>
#include <sys/stat.h>
#include <sys/syscall.h>
#include <unistd.h>

enum call { CREATE, OPEN, OPEN_FOLDER, READ, WRITE, FSYNC, FSYNC_FOLDER, FSYNC_OTHER, CLOSE, RENAME, UNLINK, CALLS };

static const char *const names[CALLS] = {"create",       "open",        "open-folder", "read",   "write", "fsync",
                                         "fsync-folder", "fsync-other", "close",       "rename", "unlink"};

/* The folder in which the last rename gave a name. */
static struct stat home;

/* Tells of a call, where that is asked for. */
static void tell(enum call call) {
    static enum call before = CALLS;
    if (getenv("CALLED") != NULL && call != before)
        dprintf(STDERR_FILENO, "%s\n", names[call]);
    before = call;
}

/* Counts a call; the number of its error, or 0 if it does not fail. */
static int failure(enum call call) {
    static int calls[CALLS];
    const char *rest = getenv("FAILING");
    char name[20];
    int place, error, used;
    tell(call);
    calls[call]++;
    while (rest != NULL && sscanf(rest, "%19s %d %d%n", name, &place, &error, &used) == 3) {
        if (strcmp(name, names[call]) == 0 && place == calls[call])
            return error;
        rest += used;
    }
    return 0;
}

/* What is answered by a call that fails. */
static int failed(int error) {
    errno = error;
    return -1;
}

static mode_t kind(int fd) {
    struct stat about;
    return fstat(fd, &about) == 0 ? about.st_mode & S_IFMT : 0;
}

/* How many of so many bytes are moved. */
static size_t part(size_t length) {
    const char *most = getenv("SHORT");
    size_t limit = most == NULL ? length : strtoul(most, NULL, 10);
    return limit < length ? limit : length;
}

static int opened(const char *path, int flags, mode_t mode) {
    int error = flags & O_CREAT ? failure(CREATE) : 0;
    if (error != 0)
        return failed(error);
    int fd = (int)syscall(SYS_openat, AT_FDCWD, path, flags, mode);
    if (fd >= 0 && !(flags & O_CREAT))
        error = failure(kind(fd) == S_IFDIR ? OPEN_FOLDER : OPEN);
    if (error == 0)
        return fd;
    syscall(SYS_close, fd);
    return failed(error);
}

static mode_t mode_in(int flags, va_list words) { return flags & O_CREAT ? va_arg(words, mode_t) : 0; }

int open(const char *path, int flags, ...) {
    va_list words;
    va_start(words, flags);
    mode_t mode = mode_in(flags, words);
    va_end(words);
    return opened(path, flags, mode);
}

int open64(const char *path, int flags, ...) {
    va_list words;
    va_start(words, flags);
    mode_t mode = mode_in(flags, words);
    va_end(words);
    return opened(path, flags, mode);
}

ssize_t read(int fd, void *to, size_t length) {
    if (kind(fd) != S_IFREG)
        return syscall(SYS_read, fd, to, length);
    int error = failure(READ);
    return error != 0 ? failed(error) : syscall(SYS_read, fd, to, part(length));
}

ssize_t write(int fd, const void *from, size_t length) {
    if (kind(fd) != S_IFREG)
        return syscall(SYS_write, fd, from, length);
    int error = failure(WRITE);
    return error != 0 ? failed(error) : syscall(SYS_write, fd, from, part(length));
}

static enum call flushing(int fd) {
    struct stat about;
    if (fstat(fd, &about) != 0 || !S_ISDIR(about.st_mode))
        return FSYNC;
    return about.st_dev == home.st_dev && about.st_ino == home.st_ino ? FSYNC_FOLDER : FSYNC_OTHER;
}

int fsync(int fd) {
    int error = failure(flushing(fd));
    return error != 0 ? failed(error) : (int)syscall(SYS_fsync, fd);
}

int close(int fd) {
    int flags = fcntl(fd, F_GETFL);
    int written = flags >= 0 && (flags & O_ACCMODE) != O_RDONLY && kind(fd) == S_IFREG;
    int error = written ? failure(CLOSE) : 0;
    int closed = (int)syscall(SYS_close, fd);
    return error != 0 ? failed(error) : closed;
}

int rename(const char *from, const char *to) {
    const char *slash = strrchr(to, '/');
    char folder[PATH_MAX] = ".";
    if (slash != NULL)
        snprintf(folder, sizeof folder, "%.*s", (int)(slash - to + 1), to);
    stat(folder, &home);
    int error = failure(RENAME);
    return error != 0 ? failed(error) : (int)syscall(SYS_rename, from, to);
}

int unlink(const char *path) {
    int error = failure(UNLINK);
    return error != 0 ? failed(error) : (int)syscall(SYS_unlink, path);
}
