/* Stops the process right before its system call number STOP_AT of those that touch files, so that a test can look at what a crash there
   leaves, or what another program does to it. It is ended by force; with STOP_HALF after half of that write; with STOP_RUN it goes on
   after the shell has run that command. With STOP_AT=0 it only counts, and writes each call's name as a line to STOP_NAMES. */
#define _GNU_SOURCE
#include <dlfcn.h>
#include <fcntl.h>
#include <signal.h>
#include <stdarg.h>
#include <stdio.h>
#include <stdlib.h>
#include <sys/types.h>
#include <unistd.h>

static int calls;

/* Counts a call; true where it is the one to stop at. */
static int here(const char *name) {
    const char *at = getenv("STOP_AT");
    const char *path = getenv("STOP_NAMES");
    calls += 1;
    if (path) {
        FILE *f = fopen(path, "a");
        if (f) {
            fprintf(f, "%s\n", name);
            fclose(f);
        }
    }
    return at && calls == atoi(at);
}

static void stop(void) {
    const char *command = getenv("STOP_RUN");
    if (!command) kill(getpid(), SIGKILL);
    unsetenv("LD_PRELOAD");
    unsetenv("STOP_AT");
    if (system(command)) abort();
}

int open(const char *path, int flags, ...) {
    mode_t mode = 0;
    if (flags & O_CREAT) {
        va_list rest;
        va_start(rest, flags);
        mode = va_arg(rest, mode_t);
        va_end(rest);
        if (here("open")) stop();
    }
    int (*next)(const char *, int, ...) = dlsym(RTLD_NEXT, "open");
    return next(path, flags, mode);
}

ssize_t write(int fd, const void *bytes, size_t n) {
    ssize_t (*next)(int, const void *, size_t) = dlsym(RTLD_NEXT, "write");
    if (here("write")) {
        if (getenv("STOP_HALF")) next(fd, bytes, n / 2);
        stop();
    }
    return next(fd, bytes, n);
}

int fsync(int fd) {
    int (*next)(int) = dlsym(RTLD_NEXT, "fsync");
    if (here("fsync")) stop();
    return next(fd);
}

int fchmod(int fd, mode_t mode) {
    int (*next)(int, mode_t) = dlsym(RTLD_NEXT, "fchmod");
    if (here("fchmod")) stop();
    return next(fd, mode);
}

int fchown(int fd, uid_t owner, gid_t group) {
    int (*next)(int, uid_t, gid_t) = dlsym(RTLD_NEXT, "fchown");
    if (here("fchown")) stop();
    return next(fd, owner, group);
}

int close(int fd) {
    int (*next)(int) = dlsym(RTLD_NEXT, "close");
    if (here("close")) stop();
    return next(fd);
}

int rename(const char *from, const char *to) {
    int (*next)(const char *, const char *) = dlsym(RTLD_NEXT, "rename");
    if (here("rename")) stop();
    return next(from, to);
}

int unlink(const char *path) {
    int (*next)(const char *) = dlsym(RTLD_NEXT, "unlink");
    if (here("unlink")) stop();
    return next(path);
}
