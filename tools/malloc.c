/* A malloc that returns null at its call with the number REFUSE_NTH, for tools/malloc.py.
 *
 * It reports on descriptor 199, a line each: the size that it refused, as `refused`, or as `within`
 * if the C library starts a thread. If the number is 0, it reports the size of each allocation, and
 * the size of the last allocation before a thread starts. It includes no header, so a compiler alone
 * is enough. */
typedef unsigned long size_t;
extern void *__libc_malloc(size_t), *__libc_realloc(void *, size_t);
extern void *__libc_calloc(size_t, size_t), *__libc_memalign(size_t, size_t);
extern char *getenv(const char *);
extern long atol(const char *), write(int, const void *, size_t);
extern int *__errno_location(void);
extern int snprintf(char *, size_t, const char *, ...);
extern void *dlsym(void *, const char *);
enum { NO_MEMORY = 12 };
static long calls, nth = -1;
static __thread int is_starting __attribute__((tls_model("initial-exec")));
static __thread size_t last __attribute__((tls_model("initial-exec")));
static void tell(const char *what, size_t n) {
    char line[40];
    if (write(199, line, snprintf(line, sizeof line, "%s %lu\n", what, n))) {}
}
static int refused(size_t n) {
    if (nth < 0) { char *text = getenv("REFUSE_NTH"); nth = text ? atol(text) : 0; }
    if (nth == 0) tell("size", n);
    last = n;
    if (__atomic_add_fetch(&calls, 1, __ATOMIC_SEQ_CST) != nth) return 0;
    tell(is_starting ? "within" : "refused", n);
    *__errno_location() = NO_MEMORY;
    return 1;
}
void *malloc(size_t n) { return refused(n) ? 0 : __libc_malloc(n); }
void *calloc(size_t n, size_t m) { return refused(n * m) ? 0 : __libc_calloc(n, m); }
void *realloc(void *p, size_t n) { return refused(n) ? 0 : __libc_realloc(p, n); }
void *aligned_alloc(size_t a, size_t n) { return refused(n) ? 0 : __libc_memalign(a, n); }
int posix_memalign(void **p, size_t a, size_t n) {
    return refused(n) || !(*p = __libc_memalign(a, n)) ? NO_MEMORY : 0;
}
int pthread_create(void *thread, const void *how, void *(*body)(void *), void *given) {
    int (*create)(void *, const void *, void *(*)(void *), void *);
    create = dlsym((void *)-1l, "pthread_create");
    if (nth == 0) tell("start", last);
    is_starting = 1;
    int answer = create(thread, how, body, given);
    is_starting = 0;
    return answer;
}
