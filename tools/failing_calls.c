/* Has chosen calls of read and write fail, or take fewer bytes, for tools/check_devices: loaded in front of the C library by
 * LD_PRELOAD.
 *
 * FAULTS holds four numbers for each fault: 0 for read or 1 for write; the descriptor; the how-manieth of these calls of that
 * descriptor it is, from 1, or 0 for each that no fault before names; and what comes of it: below zero a refusal with the errno
 * that it is the negative of, 0 that no byte is taken, 1 that one is, and 2 that half of them are.
 *
 * CALLS is a descriptor to which each call of descriptors 0 to 2 is written, as five numbers of 64 bits: 0 or 1, the descriptor,
 * how many bytes were asked for, the result or the negative of its errno, and the number of its fault, from 1, or 0. */

extern char *getenv(const char *);
extern long strtol(const char *, char **, int);
extern int *__errno_location(void);
extern long __read(int, void *, unsigned long);
extern long __write(int, const void *, unsigned long);

enum { READ, WRITE, CALLS };
enum { DESCRIPTORS = 3 };

static long counts[CALLS][DESCRIPTORS];

/* The number of the fault of this call, from 1, or 0; and what comes of it. */
static long fault_of(long call, long descriptor, long count, long *what)
{
    const char *faults = getenv("FAULTS");
    char *rest = (char *)faults;
    for (long number = 1; faults && *rest; number++) {
        long of = strtol(rest, &rest, 10), at = strtol(rest, &rest, 10), which = strtol(rest, &rest, 10);
        *what = strtol(rest, &rest, 10);
        if (of == call && at == descriptor && (which == count || which == 0))
            return number;
    }
    return 0;
}

static long made(long call, int descriptor, void *bytes, unsigned long size)
{
    return call == READ ? __read(descriptor, bytes, size) : __write(descriptor, bytes, size);
}

static long called(long call, int descriptor, void *bytes, unsigned long size)
{
    if (descriptor < 0 || descriptor >= DESCRIPTORS)
        return made(call, descriptor, bytes, size);
    long what, count = __atomic_add_fetch(&counts[call][descriptor], 1, __ATOMIC_SEQ_CST);
    long fault = fault_of(call, descriptor, count, &what), result;
    if (fault && what <= 0) {
        result = what;
    } else {
        unsigned long fewer = what == 1 || size < 2 ? 1 : size / 2;
        result = made(call, descriptor, bytes, fault && fewer < size ? fewer : size);
        if (result < 0)
            result = -*__errno_location();
    }
    const char *log = getenv("CALLS");
    if (log) {
        long line[] = {call, descriptor, size, result, fault};
        __write(strtol(log, 0, 10), line, sizeof line);
    }
    if (result >= 0)
        return result;
    *__errno_location() = -result;
    return -1;
}

long read(int descriptor, void *bytes, unsigned long size)
{
    return called(READ, descriptor, bytes, size);
}

long write(int descriptor, const void *bytes, unsigned long size)
{
    return called(WRITE, descriptor, (void *)bytes, size);
}
