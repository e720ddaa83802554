/* Loaded into a program (LD_PRELOAD), refuses its requests for memory from number REFUSED_FROM to number REFUSED_TO,
 * counted from 1 over all of its threads, and writes a line to standard error for each. A test that includes it says
 * which requests are counted (IS_COUNTING), and tells of the refused ones by itself. It needs no header, so that the
 * toolchain's own compiler builds it. */
extern void *__libc_malloc(unsigned long size);
extern void *__libc_realloc(void *octets, unsigned long size);
extern void __libc_free(void *octets);
extern char *getenv(const char *name);
extern unsigned long strtoul(const char *text, char **end, int base);
extern long write(int file, const void *octets, unsigned long size);

#ifdef IS_COUNTING
enum { IS_TOLD = 0 };
#else
enum { IS_TOLD = 1, IS_COUNTING = 1 };
#endif

static unsigned long refused_from, refused_to; /* none is number 0 */
static unsigned long requests, refused;        /* how many were counted, and refused */
static long blocks;                            /* how many are allocated */

static unsigned long number(const char *name)
{
    const char *text = getenv(name);
    return text ? strtoul(text, 0, 10) : 0;
}

__attribute__((constructor)) static void begin(void)
{
    refused_from = number("REFUSED_FROM");
    refused_to = number("REFUSED_TO");
}

static int is_refused(void)
{
    static const char line[] = "REFUSED\n";
    unsigned long request = IS_COUNTING ? __atomic_add_fetch(&requests, 1, __ATOMIC_SEQ_CST) : 0;
    if (request == 0 || request < refused_from || request > refused_to)
        return 0;
    __atomic_add_fetch(&refused, 1, __ATOMIC_SEQ_CST);
    return !IS_TOLD || write(2, line, sizeof line - 1) > 0;
}

/* Counts the block that comes in place of another one, if either is there. */
static void *block_of(void *old, void *block)
{
    __atomic_add_fetch(&blocks, !old && block, __ATOMIC_SEQ_CST);
    return block;
}

void *malloc(unsigned long size)
{
    return block_of(0, is_refused() ? 0 : __libc_malloc(size));
}

void *realloc(void *octets, unsigned long size)
{
    return block_of(octets, is_refused() ? 0 : __libc_realloc(octets, size));
}

void free(void *octets)
{
    __atomic_sub_fetch(&blocks, octets != 0, __ATOMIC_SEQ_CST);
    __libc_free(octets);
}
