/* Refuses one allocation of a program: the one whose number the environment names as REFUSE_NTH,
   counted from where `main` begins. Its size on descriptor 9 tells that it was refused.

   Where that number is 0, none is refused, and descriptor 9 tells the size of each, and INPUT where the
   program reads or opens an input.

   Preloaded, it stands before the C library's own calls. It includes nothing, so that a compiler
   without the C library's headers builds it. */

typedef unsigned long size;
typedef int program(int, char **, char **);
typedef int starter(program *, int, char **, void (*)(void), void (*)(void), void (*)(void), void *);

extern void *dlsym(void *, const char *);
extern char *getenv(const char *);
extern int *__errno_location(void);
extern long write(int, const void *, size);

#define NEXT ((void *)-1)
#define OUT_OF_MEMORY 12
#define TOLD 9
#define INPUT (~0UL)

static program *real_main;
static int begun;
static unsigned long refused;
static unsigned long count;

static unsigned long number(const char *text)
{
    unsigned long n = 0;
    for (; text && *text >= '0' && *text <= '9'; text++)
        n = n * 10 + (unsigned long)(*text - '0');
    return n;
}

static void tell(size what)
{
    write(TOLD, &what, sizeof what);
}

/* Whether this allocation is the refused one. */
static int refuses(size bytes)
{
    if (!begun || (refused && ++count != refused))
        return 0;
    tell(bytes);
    if (!refused)
        return 0;
    *__errno_location() = OUT_OF_MEMORY;
    return 1;
}

static int counted_main(int words, char **word, char **environment)
{
    refused = number(getenv("REFUSE_NTH"));
    begun = 1;
    return real_main(words, word, environment);
}

int __libc_start_main(program *main, int words, char **word, void (*init)(void), void (*fini)(void),
                      void (*loader_fini)(void), void *stack_end)
{
    starter *start = (starter *)dlsym(NEXT, "__libc_start_main");
    real_main = main;
    return start(counted_main, words, word, init, fini, loader_fini, stack_end);
}

void *malloc(size bytes)
{
    static void *(*next)(size);
    if (!next)
        next = (void *(*)(size))dlsym(NEXT, "malloc");
    return refuses(bytes) ? 0 : next(bytes);
}

void *calloc(size items, size bytes)
{
    static void *(*next)(size, size);
    if (!next)
        next = (void *(*)(size, size))dlsym(NEXT, "calloc");
    return refuses(items * bytes) ? 0 : next(items, bytes);
}

void *realloc(void *old, size bytes)
{
    static void *(*next)(void *, size);
    if (!next)
        next = (void *(*)(void *, size))dlsym(NEXT, "realloc");
    return refuses(bytes) ? 0 : next(old, bytes);
}

void *aligned_alloc(size alignment, size bytes)
{
    static void *(*next)(size, size);
    if (!next)
        next = (void *(*)(size, size))dlsym(NEXT, "aligned_alloc");
    return refuses(bytes) ? 0 : next(alignment, bytes);
}

void *memalign(size alignment, size bytes)
{
    static void *(*next)(size, size);
    if (!next)
        next = (void *(*)(size, size))dlsym(NEXT, "memalign");
    return refuses(bytes) ? 0 : next(alignment, bytes);
}

int posix_memalign(void **new, size alignment, size bytes)
{
    static int (*next)(void **, size, size);
    if (!next)
        next = (int (*)(void **, size, size))dlsym(NEXT, "posix_memalign");
    return refuses(bytes) ? OUT_OF_MEMORY : next(new, alignment, bytes);
}

static void tell_input(void)
{
    if (begun && !refused)
        tell(INPUT);
}

long read(int from, void *bytes, size most)
{
    static long (*next)(int, void *, size);
    if (!next)
        next = (long (*)(int, void *, size))dlsym(NEXT, "read");
    tell_input();
    return next(from, bytes, most);
}

/* A caller that makes no file gives no mode, and then none is looked at. */
int open(const char *path, int how, unsigned mode)
{
    static int (*next)(const char *, int, unsigned);
    if (!next)
        next = (int (*)(const char *, int, unsigned))dlsym(NEXT, "open");
    tell_input();
    return next(path, how, mode);
}
