// Refuses a program's requests for memory by their number, and lets its reads and writes fail. Preloaded.
//   REFUSE=N        the N-th request for memory is refused
//   REFUSE_FROM=N   the N-th and all later ones
//   REFUSE_SHOW=1   each request gets a line on standard error, not the refused ones alone
//   FAIL_READ=N     the N-th read fails
//   FAIL_WRITE=N    the N-th write to standard output fails
//   FULL=N          the N-th write to what is no standard stream fails, as on a full device
//   SHORT=1         a read or a write to standard output moves one byte
//   SAME_RANDOM=1   random bytes are zero, but for the first, which counts the calls from 0
//   NO_RANDOM=1     there are no random bytes
// No header is needed, so any C compiler will do.
typedef __SIZE_TYPE__ size_t;
typedef long ssize_t;
void *__libc_malloc(size_t);
void *__libc_calloc(size_t, size_t);
void *__libc_realloc(void *, size_t);
void *__libc_memalign(size_t, size_t);
char *getenv(const char *);
long atol(const char *);
int snprintf(char *, size_t, const char *, ...);
long syscall(long, ...);
int *__errno_location(void);

static const int ENOMEM = 12, EIO = 5, ENOSPC = 28;
static const long READ = 0, WRITE = 1, GETRANDOM = 318;

static long requests, reads, writes, stores, draws;

static long number(const char *name) {
    const char *text = getenv(name);
    return text ? atol(text) : 0;
}

static int fails(int error) {
    *__errno_location() = error;
    return 1;
}

static int refuses(const char *what, size_t size) {
    long from = number("REFUSE_FROM");
    requests++;
    int is_refused = requests == number("REFUSE") || (from && requests >= from);
    if (is_refused || number("REFUSE_SHOW")) {
        char line[96];
        int length = snprintf(line, sizeof line, "request %ld %s %zu bytes %s\n", requests, what, size, is_refused ? "refused" : "granted");
        syscall(WRITE, 2, line, (size_t)length);
    }
    return is_refused && fails(ENOMEM);
}

void *malloc(size_t size) { return refuses("for", size) ? 0 : __libc_malloc(size); }
void *calloc(size_t n, size_t size) { return refuses("for", n * size) ? 0 : __libc_calloc(n, size); }
void *realloc(void *p, size_t size) { return refuses("to resize to", size) ? 0 : __libc_realloc(p, size); }
void *aligned_alloc(size_t align, size_t size) { return refuses("for", size) ? 0 : __libc_memalign(align, size); }

ssize_t read(int file, void *bytes, size_t size) {
    if (++reads == number("FAIL_READ") && fails(EIO)) return -1;
    return syscall(READ, file, bytes, number("SHORT") && size ? 1 : size);
}

ssize_t write(int file, const void *bytes, size_t size) {
    if (file > 2 && ++stores == number("FULL") && fails(ENOSPC)) return -1;
    if (file != 1) return syscall(WRITE, file, bytes, size);
    if (++writes == number("FAIL_WRITE") && fails(EIO)) return -1;
    return syscall(WRITE, file, bytes, number("SHORT") && size ? 1 : size);
}

int getentropy(void *bytes, size_t size) {
    if (number("NO_RANDOM") && fails(EIO)) return -1;
    if (!number("SAME_RANDOM")) return syscall(GETRANDOM, bytes, size, 0) == (long)size ? 0 : -1;
    for (size_t i = 0; i < size; i++) ((unsigned char *)bytes)[i] = i ? 0 : (unsigned char)draws;
    draws++;
    return 0;
}

ssize_t __write(int file, const void *bytes, size_t size) { return write(file, bytes, size); }
