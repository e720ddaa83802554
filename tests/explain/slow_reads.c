/* Loaded into a program (LD_PRELOAD), has each read of standard input give one octet at most, after a signal has
 * interrupted it once (EINTR), and fail (EIO) where octet number FAILS_AT would come, counted from 1. It needs no
 * header, so that the toolchain's own compiler builds it. */
extern long __read(int file, void *octets, unsigned long size);
extern int *__errno_location(void);
extern char *getenv(const char *name);
extern unsigned long strtoul(const char *text, char **end, int base);

enum { EINTR = 4, EIO = 5 };

static int is_interrupted;
static unsigned long fails_at, octet;

__attribute__((constructor)) static void begin(void)
{
    const char *text = getenv("FAILS_AT");
    fails_at = text ? strtoul(text, 0, 10) : 0;
}

static long fail(int error)
{
    *__errno_location() = error;
    return -1;
}

long read(int file, void *octets, unsigned long size)
{
    if (file != 0)
        return __read(file, octets, size);
    is_interrupted = !is_interrupted;
    if (is_interrupted)
        return fail(EINTR);
    if (++octet == fails_at)
        return fail(EIO);
    return __read(file, octets, size != 0);
}
