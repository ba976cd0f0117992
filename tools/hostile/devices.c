/* Makes the reads and writes of a program fail, end or move little, and notes what they moved.

   READ_PIECE, WRITE_PIECE     the most bytes that one call moves; 0: as many as it asks for
   READ_FAILS, WRITE_FAILS     the number of the call, from 1, that fails with EIO (and all after it); 0: none
   READ_ONCE                   1: only that read fails, and the next one goes on, as of a terminal or a bad disk
   READ_ENDS                   the number of the read, from 1, that tells an end, once: the next one goes on, as of a terminal
   TELL_FAILS                  the same of writes to standard error
   DEVICE_COUNTS               a file for the numbers: reads, bytes read before the first that failed or was made an end and its
                               descriptor, writes, the longest read and the longest write asked for
   DEVICE_STATUS               a file for what the system says of the process at its end

   Only standard output counts as written, and each file that is read but no library. */
extern long syscall(long, ...);
extern char *getenv(const char *);
extern long atol(const char *);
extern int dprintf(int, const char *, ...);
extern int open(const char *, int, ...);
extern int *__errno_location(void);

enum { SYS_READ = 0, SYS_WRITE = 1, IO_ERROR = 5, MOST_FILES = 4096, MOST_STATUS = 8192 };

static long reads, writes, tells, stopped_file = -1, longest_read, longest_write;
static long moved[MOST_FILES];

static long number(const char *name) {
    char *text = getenv(name);
    return text ? atol(text) : 0;
}

static unsigned long piece_of(const char *name, unsigned long wanted) {
    long piece = number(name);
    return piece > 0 && (unsigned long)piece < wanted ? (unsigned long)piece : wanted;
}

static int fails(long at, const char *name) {
    long first = number(name);
    return first > 0 && at >= first;
}

static int read_fails(long at) {
    return number("READ_ONCE") ? at > 0 && at == number("READ_FAILS") : fails(at, "READ_FAILS");
}

static void note_stop(int file) {
    if (stopped_file < 0) {
        stopped_file = file;
    }
}

static long io_error(void) {
    *__errno_location() = IO_ERROR;
    return -1;
}

long read(int file, void *to, unsigned long size) {
    reads++;
    if ((long)size > longest_read) {
        longest_read = (long)size;
    }
    if (read_fails(reads)) {
        note_stop(file);
        return io_error();
    }
    if (reads == number("READ_ENDS")) {
        note_stop(file);
        return 0;
    }
    long count = syscall(SYS_READ, file, to, piece_of("READ_PIECE", size));
    if (count > 0 && file >= 0 && file < MOST_FILES) {
        moved[file] += count;
    }
    return count;
}

long write(int file, const void *from, unsigned long size) {
    if (file == 2) {
        return fails(++tells, "TELL_FAILS") ? io_error() : syscall(SYS_WRITE, file, from, size);
    }
    if (file != 1) {
        return syscall(SYS_WRITE, file, from, size);
    }
    writes++;
    if ((long)size > longest_write) {
        longest_write = (long)size;
    }
    return fails(writes, "WRITE_FAILS") ? io_error() : syscall(SYS_WRITE, file, from, piece_of("WRITE_PIECE", size));
}

long __write(int file, const void *from, unsigned long size) {
    return write(file, from, size);
}

static int opened(const char *name) {
    char *to = getenv(name);
    return to ? open(to, 01 | 0100 | 01000, 0600) : -1;
}

static void tell_status(void) {
    static char status[MOST_STATUS];
    int to = opened("DEVICE_STATUS");
    int from = to >= 0 ? open("/proc/self/status", 0) : -1;
    long size = from >= 0 ? syscall(SYS_READ, from, status, sizeof status) : 0;
    if (size > 0) {
        syscall(SYS_WRITE, to, status, size);
    }
}

__attribute__((destructor)) static void tell(void) {
    tell_status();
    int file = opened("DEVICE_COUNTS");
    if (file >= 0) {
        long before = stopped_file >= 0 && stopped_file < MOST_FILES ? moved[stopped_file] : 0;
        dprintf(file, "%ld %ld %ld %ld %ld %ld\n", reads, before, stopped_file, writes, longest_read, longest_write);
    }
}
