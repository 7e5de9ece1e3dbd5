// Refuses growths of memory, or fails one read or write. Only `tests/check` uses this file: it loads it into the
// program by LD_PRELOAD, before the C library. No part of the program is written in C.
//
//   REFUSE_ALLOC=N    the Nth growth is refused
//   REFUSE_ALLOCS=N   the Nth growth and each one after it are refused
//   REFUSE_READ=N     the Nth read of standard input fails
//   REFUSE_WRITE=N    the Nth write to standard output fails
//   REFUSE_SHORT=1    each of these reads and writes moves one byte
//
// Writes a line to descriptor 9 for each refusal: the number of line feeds that were written to standard output before
// it.

typedef unsigned long size;

extern char *getenv(const char *name);
extern int *__errno_location(void);
extern void *__libc_malloc(size count);
extern void *__libc_realloc(void *old, size count);
extern long __read(int file, void *bytes, size count);
extern long __write(int file, const void *bytes, size count);

static const int no_memory = 12, device_fault = 5;
static size alloc_at, allocs_from, read_at, write_at, is_short;
static size allocs, reads, writes, lines;

static size number_of(const char *name) {
    const char *digits = getenv(name);
    size number = 0;
    for (; digits && *digits >= '0' && *digits <= '9'; digits++)
        number = 10 * number + (size)(*digits - '0');
    return number;
}

__attribute__((constructor)) static void read_settings(void) {
    alloc_at = number_of("REFUSE_ALLOC");
    allocs_from = number_of("REFUSE_ALLOCS");
    read_at = number_of("REFUSE_READ");
    write_at = number_of("REFUSE_WRITE");
    is_short = number_of("REFUSE_SHORT");
    allocs = 0;
}

static void refuse(int error) {
    char text[24];
    size at = sizeof text, number = lines;
    text[--at] = '\n';
    do {
        text[--at] = (char)('0' + number % 10);
        number /= 10;
    } while (number);
    __write(9, text + at, sizeof text - at);
    *__errno_location() = error;
}

static void count_lines(const char *text, long count) {
    for (long at = 0; at < count; at++)
        lines += text[at] == '\n';
}

// (threads grow memory at the same time, and each growth has its number)
static int is_refused(void) {
    size number = __atomic_add_fetch(&allocs, 1, __ATOMIC_RELAXED);
    if (number != alloc_at && (!allocs_from || number < allocs_from))
        return 0;
    refuse(no_memory);
    return 1;
}

void *malloc(size count) {
    return is_refused() ? 0 : __libc_malloc(count);
}

void *realloc(void *old, size count) {
    return is_refused() ? 0 : __libc_realloc(old, count);
}

long read(int file, void *bytes, size count) {
    if (file == 0 && ++reads == read_at) {
        refuse(device_fault);
        return -1;
    }
    return __read(file, bytes, file == 0 && is_short && count ? 1 : count);
}

long write(int file, const void *bytes, size count) {
    if (file == 1 && ++writes == write_at) {
        refuse(device_fault);
        return -1;
    }
    long written = __write(file, bytes, file == 1 && is_short && count ? 1 : count);
    if (file == 1)
        count_lines(bytes, written);
    return written;
}
