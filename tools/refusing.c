/* Stands before calls of the C library, and has one of them go wrong: the one of the number REFUSE_AT, counted from 1, among the
 * allocations where REFUSE_CALL is "memory", among the reads of standard input where it is "read", and among the writes of
 * standard output where it is "write". That call fails, or moves one byte where REFUSE_SHORT is set. It then makes the file
 * REFUSE_TOLD, so that whoever started the program knows that the call came. See tools/checks/refusing.py.
 *
 * What it needs of the C library and of Linux is declared here, since a compiler may come without their headers. */
typedef __SIZE_TYPE__ size_t;
typedef __PTRDIFF_TYPE__ ssize_t;

void *dlsym(void *library, const char *name);
char *getenv(const char *name);
long atol(const char *text);
int creat(const char *path, unsigned mode);
int close(int file);
int *__errno_location(void);

enum { EIO = 5, ENOMEM = 12 };

static const char *told;
static long refused, calls;
static char kind;
static int is_short;

/* Before main, and before any call of the program itself. */
__attribute__((constructor)) static void begin(void) {
    const char *at = getenv("REFUSE_AT"), *call = getenv("REFUSE_CALL");
    kind = call ? call[0] : 0;
    told = getenv("REFUSE_TOLD");
    is_short = getenv("REFUSE_SHORT") != 0;
    refused = at ? atol(at) : 0;
}

/* Whether a call goes wrong. Calls may come from several threads at once; each of them has a number of its own. */
static int goes_wrong(char of) {
    if (refused == 0 || kind != of || __atomic_add_fetch(&calls, 1, __ATOMIC_SEQ_CST) != refused) {
        return 0;
    }
    int file = told ? creat(told, 0600) : -1;
    if (file >= 0) {
        close(file);
    }
    return 1;
}

static int no_memory(void) {
    return goes_wrong('m') && (*__errno_location() = ENOMEM);
}

/* How many bytes a call may move of so many, or -1 where it fails. */
static ssize_t moved(char of, size_t count) {
    if (!goes_wrong(of)) {
        return count;
    }
    if (is_short) {
        return count < 1 ? count : 1;
    }
    *__errno_location() = EIO;
    return -1;
}

/* The call of that name that stands after this one. */
#define NEXT(name) \
    static __typeof__(&name) next; \
    if (!next) { \
        next = (__typeof__(&name))dlsym((void *)-1, #name); \
    }

void *malloc(size_t size) {
    NEXT(malloc)
    return no_memory() ? 0 : next(size);
}

void *realloc(void *old, size_t size) {
    NEXT(realloc)
    return no_memory() ? 0 : next(old, size);
}

void *aligned_alloc(size_t alignment, size_t size) {
    NEXT(aligned_alloc)
    return no_memory() ? 0 : next(alignment, size);
}

int posix_memalign(void **place, size_t alignment, size_t size) {
    NEXT(posix_memalign)
    return no_memory() ? ENOMEM : next(place, alignment, size);
}

ssize_t read(int file, void *bytes, size_t count) {
    NEXT(read)
    ssize_t most = file == 0 ? moved('r', count) : (ssize_t)count;
    return most < 0 ? most : next(file, bytes, most);
}

ssize_t write(int file, const void *bytes, size_t count) {
    NEXT(write)
    ssize_t most = file == 1 ? moved('w', count) : (ssize_t)count;
    return most < 0 ? most : next(file, bytes, most);
}
