/*
 * A library to be loaded before a program (LD_PRELOAD) that writes down, in the file KADZHOMIR_TRACE, what the program does to files and
 * what it tells on standard output, in order. With KADZHOMIR_KILL=N the program is killed at the N-th such step, before it is done; with
 * KADZHOMIR_FAIL=N the N-th step, if it is a sync, fails, as a disk's can.
 */
#define _GNU_SOURCE
#include <errno.h>
#include <fcntl.h>
#include <limits.h>
#include <signal.h>
#include <stdio.h>
#include <stdlib.h>
#include <string.h>
#include <sys/stat.h>
#include <sys/syscall.h>
#include <unistd.h>

static long step;

static long asked(const char *name) {
    const char *value = getenv(name);
    return value ? atol(value) : -1;
}

/* Counts a step, and ends the program where that was asked for. Says whether the step is to fail. */
static int begin(void) {
    long now = step++;
    if (now == asked("KADZHOMIR_KILL")) {
        syscall(SYS_kill, getpid(), SIGKILL);
    }
    return now == asked("KADZHOMIR_FAIL");
}

static void put(const char *bytes, size_t n) {
    static int trace = -1;
    if (trace < 0) {
        trace = (int)syscall(SYS_openat, AT_FDCWD, getenv("KADZHOMIR_TRACE"), O_WRONLY | O_APPEND | O_CREAT | O_CLOEXEC, 0600);
    }
    if (syscall(SYS_write, trace, bytes, n) != (long)n) {
        _exit(99);
    }
}

static void path_of(int fd, char path[PATH_MAX]) {
    char link[64];
    snprintf(link, sizeof link, "/proc/self/fd/%d", fd);
    ssize_t n = readlink(link, path, PATH_MAX - 1);
    path[n < 0 ? 0 : n] = 0;
}

/* A line: what was done, to which file, a number, and bytes in hexadecimal digits. */
static void line(const char *what, const char *path, long number, const unsigned char *bytes, size_t n) {
    size_t room = strlen(what) + strlen(path) + 2 * n + 64;
    char *text = malloc(room);
    int at = snprintf(text, room, "%s %s %ld ", what, path, number);
    for (size_t i = 0; i < n; i++) {
        at += snprintf(text + at, room - (size_t)at, "%02x", bytes[i]);
    }
    text[at++] = '\n';
    put(text, (size_t)at);
    free(text);
}

static int is_file(int fd) {
    struct stat st;
    return fd > 2 && fstat(fd, &st) == 0 && S_ISREG(st.st_mode);
}

ssize_t write(int fd, const void *bytes, size_t n) {
    char path[PATH_MAX];
    if (fd == 1 || is_file(fd)) {
        begin();
        path_of(fd, path);
        long at = fd == 1 ? 0 : (long)syscall(SYS_lseek, fd, 0L, SEEK_CUR);
        line(fd == 1 ? "tell" : "write", fd == 1 ? "-" : path, at, bytes, n);
    }
    return syscall(SYS_write, fd, bytes, n);
}

ssize_t pwrite64(int fd, const void *bytes, size_t n, off64_t at) {
    char path[PATH_MAX];
    begin();
    path_of(fd, path);
    line("write", path, at, bytes, n);
    return syscall(SYS_pwrite64, fd, bytes, n, at);
}

static int synced(int fd) {
    char path[PATH_MAX];
    int fails = begin();
    path_of(fd, path);
    line(fails ? "failed" : "sync", path, 0, NULL, 0);
    if (fails) {
        errno = EIO;
        return -1;
    }
    return 0;
}

int fsync(int fd) {
    return synced(fd) ? -1 : (int)syscall(SYS_fsync, fd);
}

int fdatasync(int fd) {
    return synced(fd) ? -1 : (int)syscall(SYS_fdatasync, fd);
}

int ftruncate64(int fd, off64_t len) {
    char path[PATH_MAX];
    begin();
    path_of(fd, path);
    line("cut", path, len, NULL, 0);
    return (int)syscall(SYS_ftruncate, fd, len);
}

int rename(const char *from, const char *to) {
    begin();
    line("rename", from, 0, (const unsigned char *)to, strlen(to));
    return (int)syscall(SYS_renameat2, AT_FDCWD, from, AT_FDCWD, to, 0);
}
