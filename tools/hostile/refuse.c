/* Refuses the growth number REFUSE_AT that a program asks for, and writes to the file REFUSE_COUNT how many it asked for. */
extern void *__libc_malloc(unsigned long);
extern void *__libc_calloc(unsigned long, unsigned long);
extern void *__libc_realloc(void *, unsigned long);
extern void *__libc_memalign(unsigned long, unsigned long);
extern char *getenv(const char *);
extern long atol(const char *);
extern int dprintf(int, const char *, ...);
extern int open(const char *, int, ...);

static long asked, at = -1;

static int is_refused(void) {
    if (at < 0) {
        char *number = getenv("REFUSE_AT");
        at = number ? atol(number) : 0;
    }
    return ++asked == at;
}

void *malloc(unsigned long size) {
    return is_refused() ? (void *)0 : __libc_malloc(size);
}

void *calloc(unsigned long count, unsigned long size) {
    return is_refused() ? (void *)0 : __libc_calloc(count, size);
}

void *realloc(void *old, unsigned long size) {
    return is_refused() ? (void *)0 : __libc_realloc(old, size);
}

void *aligned_alloc(unsigned long alignment, unsigned long size) {
    return is_refused() ? (void *)0 : __libc_memalign(alignment, size);
}

int posix_memalign(void **to, unsigned long alignment, unsigned long size) {
    if (is_refused()) {
        return 12;
    }
    *to = __libc_memalign(alignment, size);
    return *to ? 0 : 12;
}

__attribute__((destructor)) static void tell(void) {
    char *to = getenv("REFUSE_COUNT");
    if (to) {
        int file = open(to, 01 | 0100 | 01000, 0600);
        if (file >= 0) {
            dprintf(file, "%ld\n", asked);
        }
    }
}
