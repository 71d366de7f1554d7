/* Replaces the C library's allocator in a run of the built program, and refuses the calls that the environment names:
   REFUSE_FROM is the first call that is refused, REFUSE_LAST the last. For each refused call a byte is written to the file
   descriptor REFUSE_TOLD. checks/allocations compiles it with no headers. The other calls go to glibc. */

typedef unsigned long size;

extern void *__libc_malloc(size);
extern void *__libc_calloc(size, size);
extern void *__libc_realloc(void *, size);
extern void *__libc_memalign(size, size);
extern char *getenv(const char *);
extern long write(int, const void *, size);
extern int *__errno_location(void);

enum { NO_MEMORY = 12 };

static unsigned long calls;

static unsigned long number(const char *name) {
    unsigned long value = 0;
    for (const char *digit = getenv(name); digit && *digit; digit++)
        value = value * 10 + (unsigned long)(*digit - '0');
    return value;
}

static int is_refused(void) {
    unsigned long call = __atomic_add_fetch(&calls, 1, __ATOMIC_SEQ_CST);
    if (call < number("REFUSE_FROM") || number("REFUSE_LAST") < call)
        return 0;
    write((int)number("REFUSE_TOLD"), "!", 1);
    *__errno_location() = NO_MEMORY;
    return 1;
}

void *malloc(size n) { return is_refused() ? 0 : __libc_malloc(n); }

void *calloc(size count, size n) { return is_refused() ? 0 : __libc_calloc(count, n); }

void *realloc(void *old, size n) { return is_refused() ? 0 : __libc_realloc(old, n); }

void *memalign(size to, size n) { return is_refused() ? 0 : __libc_memalign(to, n); }

void *aligned_alloc(size to, size n) { return is_refused() ? 0 : __libc_memalign(to, n); }

int posix_memalign(void **found, size to, size n) {
    if (is_refused())
        return NO_MEMORY;
    *found = __libc_memalign(to, n);
    return *found ? 0 : NO_MEMORY;
}
