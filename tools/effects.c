/* Returns an error for a call of a program, or makes the program a mutant, for tools/effects.
 *
 * FAULT=CALL:N:CODE returns this error for the Nth call of open, read, write, close or pthread_create;
 * the code 0 reads or writes a single byte. A close that returns an error still closes the file. The
 * trace shows an error by a write to the descriptor REPORTS, which is never open.
 *
 * WRONG=MODE does around these calls what a wrong body of code without a contract could do. */
#define _GNU_SOURCE
#include <arpa/inet.h>
#include <dlfcn.h>
#include <errno.h>
#include <fcntl.h>
#include <pthread.h>
#include <stdarg.h>
#include <stdatomic.h>
#include <stdio.h>
#include <stdlib.h>
#include <string.h>
#include <sys/stat.h>
#include <sys/syscall.h>
#include <time.h>
#include <unistd.h>
enum { REPORTS = 1023, MUCH = 50000000 };
static const char *mode = "";
static char what[32];
static long nth, code;
static atomic_long calls, reads;
static atomic_int before;

__attribute__((constructor)) static void begin(void) {
    char *fault = getenv("FAULT"), *wrong = getenv("WRONG");
    if (fault) sscanf(fault, "%31[^:]:%ld:%ld", what, &nth, &code);
    if (wrong) mode = wrong;
}

static int is(const char *name) { return !strcmp(mode, name); }
static int first(const char *name) { return is(name) && !before++; }
static int is_hit(const char *call) { return !strcmp(what, call) && ++calls == nth; }

static long fail(const char *call, const char *args) {
    char text[4400];
    int length = snprintf(text, sizeof text, "%s %ld %s", call, code, args);
    syscall(SYS_write, REPORTS, text, length);
    errno = code;
    return -1;
}

static long fail_at(const char *call, int fd) {
    char number[16];
    snprintf(number, sizeof number, "%d", fd);
    return fail(call, number);
}

#define NEXT(name) static __typeof__(name) *next; if (!next) next = dlsym(RTLD_NEXT, #name)

/* The calls, one of which fails. */
static int open_or_fail(const char *path, int flags, mode_t rights) {
    NEXT(open);
    return is_hit("open") ? fail("openat", path) : next(path, flags, rights);
}

static ssize_t read_or_fail(int fd, void *to, size_t count) {
    NEXT(read);
    if (is_hit("read")) {
        if (code) return fail_at("read", fd);
        count = count > 1 ? 1 : count;
    }
    return next(fd, to, count);
}

static ssize_t write_or_fail(int fd, const void *from, size_t count) {
    if (is_hit("write")) {
        if (code) return fail_at("write", fd);
        count = count > 1 ? 1 : count;
    }
    return syscall(SYS_write, fd, from, count);
}

static int close_or_fail(int fd) {
    NEXT(close);
    int fails = is_hit("close"), answer = next(fd);
    return fails ? fail_at("close", fd) : answer;
}

static int start_or_fail(pthread_t *thread, const pthread_attr_t *how, void *(*body)(void *), void *given) {
    NEXT(pthread_create);
    if (!is_hit("pthread_create")) return next(thread, how, body, given);
    fail("clone3", "");
    return code;
}

/* The same in a mutant. */
int open(const char *path, int flags, ...) {
    mode_t rights = 0;
    int creates = flags & O_CREAT;
    if (creates) { va_list list; va_start(list, flags); rights = va_arg(list, mode_t); va_end(list); }
    if (first("opens-a-decoy")) close(open_or_fail("/etc/hostname", O_RDONLY | O_CLOEXEC, 0));
    if (first("creates-early")) close(open_or_fail("base.blocks", O_WRONLY | O_CREAT | O_CLOEXEC, 0666));
    if (creates && first("writes-a-log")) close(open_or_fail("../pitc.log", O_WRONLY | O_CREAT | O_CLOEXEC, 0666));
    if (creates && is("removes")) unlink(path);
    if (creates && is("creates-for-all")) rights = 0777;
    if (first("closes-a-stream")) close_or_fail(0);
    if (is("looks-first")) { struct stat of_it; stat(path, &of_it); }
    if (first("connects")) close(socket(AF_INET, SOCK_STREAM, 0));
    if (first("forks") && !vfork()) _exit(0);
    if (creates && is("appends")) flags = (flags & ~O_TRUNC) | O_APPEND;
    if (creates && first("renames")) {
        char other[4400];
        snprintf(other, sizeof other, "%s.new", path);
        int fd = open_or_fail(other, flags, rights);
        rename(other, path);
        return fd;
    }
    int fd = open_or_fail(path, flags, rights);
    if (creates && is("sets-rights") && fd >= 0) fchmod(fd, 0777);
    if (is("gives-way") && fd < 0 && errno == ENOENT) return open_or_fail("/dev/null", flags, rights);
    if (is("opens-again") && fd < 0 && errno != EINTR) return open_or_fail(path, flags, rights);
    if (!creates && is("opens-to-write") && fd >= 0) { close(fd); return open_or_fail(path, O_RDWR | O_NOCTTY | O_CLOEXEC, 0); }
    return fd;
}

ssize_t read(int fd, void *to, size_t count) {
    static char *held;
    if (is("reads-bytes") && count) count = 1;
    if (is("sleeps")) { struct timespec short_time = {0, 1000000}; nanosleep(&short_time, 0); }
    if (is("seeks") && fd > 2) lseek(fd, 0, SEEK_CUR);
    if (is("makes-a-fault-up") && fd > 2 && ++reads == 3) { errno = EIO; return -1; }
    if (is("makes-an-end-up") && fd > 2 && ++reads == 3) return 0;
    ssize_t n = read_or_fail(fd, to, count);
    if (is("holds-memory") && n > 0 && !held && (held = malloc(MUCH))) memset(held, 1, MUCH);
    if (is("asks-for-memory") && n > 0 && !held) held = malloc(MUCH);
    if (is("reads-again") && n < 0 && errno == ETIMEDOUT) n = read_or_fail(fd, to, count);
    if (is("swallows-a-fault") && n < 0 && errno != EINTR) return 0;
    if (is("reads-on") && n == 0 && fd > 2) return read_or_fail(fd, to, count);
    if (n > 0 && fd > 2 && first("copies")) {
        int copy = open_or_fail("copy", O_WRONLY | O_CREAT | O_CLOEXEC, 0666);
        write_or_fail(copy, to, n);
        close(copy);
    }
    return n;
}

static ssize_t written(int fd, const void *from, size_t count) {
    if (is("writes-back-to-front") && fd > 2 && count > 8) {
        pwrite(fd, (char *)from + count / 2, count - count / 2, count / 2);
        pwrite(fd, from, count / 2, 0);
        return count;
    }
    if (is("writes-twice") && fd > 2) { write_or_fail(fd, from, count); lseek(fd, 0, SEEK_SET); }
    if (is("writes-lines") && fd > 2) { const char *end = memchr(from, '\n', count); if (end) count = end - (char *)from + 1; }
    ssize_t n = write_or_fail(fd, from, count);
    if (is("writes-again") && n < 0 && (errno == ENOSPC || errno == EDQUOT)) n = write_or_fail(fd, from, count);
    if (is("says-written") && n < 0 && errno == ENOSPC && fd > 2) return count;
    if (is("syncs") && fd > 2) fsync(fd);
    return n;
}
ssize_t write(int fd, const void *from, size_t count) { return written(fd, from, count); }
ssize_t __write(int fd, const void *from, size_t count) { return written(fd, from, count); }

int close(int fd) {
    if (is("skips-closes") && fd > 2) return 0;
    if (is("syncs-last") && fd > 2) fdatasync(fd);
    if (is("closes-twice") && fd > 2) close_or_fail(fd);
    return close_or_fail(fd);
}

static void *idle(void *given) { return given; }

int pthread_create(pthread_t *thread, const pthread_attr_t *how, void *(*body)(void *), void *given) {
    if (first("starts-a-thread-more")) { pthread_t other; start_or_fail(&other, 0, idle, 0); pthread_join(other, 0); }
    int answer = start_or_fail(thread, how, body, given);
    return is("starts-again") && answer == EAGAIN ? start_or_fail(thread, how, body, given) : answer;
}
