/* Refuses the Nth of the calls by which a process opens, writes, syncs, closes, links and renames the
 * files of a folder, or raises a signal before it, for tools/refused-files.
 *
 * `refuse_at` sets the call, the signal (0 for a refusal), the folder, and a descriptor that gets the
 * name of the call. Standard output is one of the files. `refuse_more` sets whether all later calls
 * are also refused, and whether the folder's file system has no hard links. */
#define _GNU_SOURCE
#include <dlfcn.h>
#include <errno.h>
#include <fcntl.h>
#include <signal.h>
#include <stdarg.h>
#include <string.h>
#include <unistd.h>

static long calls, nth;
static int number, messages = -1, all_after, no_links;
static char below[4096];
static char ours[4096];

void refuse_at(long n, int signal, const char *folder, int descriptor) {
    calls = 0;
    nth = n;
    number = signal;
    messages = descriptor;
    strncpy(below, folder, sizeof below - 1);
    ours[1] = 1;
}

void refuse_more(int after, int links) {
    all_after = after;
    no_links = links;
}

/* Returns the number of calls since refuse_at. */
long calls_made(void) {
    return calls;
}

#define NEXT(name) static __typeof__(name) *next; if (!next) next = dlsym(RTLD_NEXT, #name)

static ssize_t plainly(int fd, const char *text) {
    NEXT(write);
    return next(fd, text, strlen(text));
}

/* Returns whether this call is refused; `code` is then the error. */
static int refused(const char *what, int code) {
    if (!nth || ++calls < nth || (calls > nth && !all_after)) return 0;
    if (calls == nth) plainly(messages, what);
    if (number) {
        kill(getpid(), number);
        return 0;
    }
    errno = code;
    return 1;
}

static int is_ours(const char *path) {
    return path[0] != '/' || !strncmp(path, below, strlen(below));
}

static int is_of(int fd) {
    return nth && fd >= 0 && fd < (int)sizeof ours && ours[fd];
}

static int opened(int fd, const char *path) {
    if (fd >= 0 && fd < (int)sizeof ours) ours[fd] = nth && is_ours(path);
    return fd;
}

#define MODE mode_t mode = 0; if (flags & (O_CREAT | O_TMPFILE)) { va_list list; va_start(list, flags); \
    mode = va_arg(list, mode_t); va_end(list); }

int open(const char *path, int flags, ...) {
    MODE
    NEXT(open);
    if (nth && is_ours(path) && refused("open", EACCES)) return -1;
    return opened(next(path, flags, mode), path);
}
int open64(const char *path, int flags, ...) {
    MODE
    NEXT(open64);
    if (nth && is_ours(path) && refused("open", EACCES)) return -1;
    return opened(next(path, flags, mode), path);
}
ssize_t write(int fd, const void *bytes, size_t count) {
    NEXT(write);
    return is_of(fd) && refused("write", ENOSPC) ? -1 : next(fd, bytes, count);
}
int fsync(int fd) {
    NEXT(fsync);
    return is_of(fd) && refused("fsync", EIO) ? -1 : next(fd);
}
int close(int fd) {
    NEXT(close);
    int is_refused = is_of(fd) && fd > 2 && refused("close", EIO);
    if (fd > 2 && fd < (int)sizeof ours) ours[fd] = 0;
    int answer = next(fd);
    if (is_refused) errno = EIO;
    return is_refused ? -1 : answer;
}
int rename(const char *from, const char *to) {
    NEXT(rename);
    return nth && is_ours(to) && refused("rename", EIO) ? -1 : next(from, to);
}
int link(const char *from, const char *to) {
    NEXT(link);
    if (nth && is_ours(to) && no_links) {
        errno = EPERM;
        return -1;
    }
    return nth && is_ours(to) && refused("link", EIO) ? -1 : next(from, to);
}
int fchmod(int fd, mode_t mode) {
    NEXT(fchmod);
    return is_of(fd) && refused("fchmod", EPERM) ? -1 : next(fd, mode);
}
