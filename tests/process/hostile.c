/* Does to the reads, writes and opens of a program what devices may do. The environment says to which of
   them, and what:

     HOSTILE_CALL   read, write or open; without it, all three
     HOSTILE_ON     only reads and writes of this descriptor; without it, of each but 9
     HOSTILE_MOST   each moves at most so many bytes
     HOSTILE_AFTER  a call ends where they have moved so many bytes in all
     HOSTILE_NTH    which of them fails, counted from where `main` begins; without it, the one that comes
                    when HOSTILE_AFTER bytes have moved
     HOSTILE_ERROR  how it fails: the error's number, or 0 for a call that moves nothing. A read that does so
                    is at the end of its input, as is each after it. Without it none fails

   Letters on descriptor 9 tell what was done:

     r, w  a read or a write was cut, and moved all that was left to it
     z     a read gave no byte
     o     a file was opened
     e     a call failed because it was to
     a     another call came after that one; it is reported once, and not of an end

   A program that runs for ten seconds is ended. SIGPIPE ends it too, unless the program says otherwise.

   Preloaded, it stands before the C library's own calls. It includes nothing, so that a compiler
   without the C library's headers builds it. */

typedef unsigned long size;
typedef int program(int, char **, char **);
typedef int starter(program *, int, char **, void (*)(void), void (*)(void), void (*)(void), void *);
typedef long reader(int, void *, size);
typedef long writer(int, const void *, size);
typedef int opener(const char *, int, unsigned);
typedef int closer(int);

extern void *dlsym(void *, const char *);
extern char *getenv(const char *);
extern int *__errno_location(void);
extern unsigned alarm(unsigned);
extern void (*signal(int, void (*)(int)))(int);

#define NEXT ((void *)-1)
#define BROKEN_PIPE_SIGNAL 13
#define SECONDS 10
#define TOLD 9
#define CLOSED 0x7fffffff /* no descriptor has this number */

static program *real_main;
static int begun;

static char call;
static int has_descriptor, has_after, has_error;
static size descriptor, most, after, nth, error;

static size calls, moved;
static int failed, told_again;
static int ended = -1; /* the descriptor whose input is made to end, or `CLOSED` once it is closed */

static reader *real_read(void)
{
    static reader *real;
    if (!real)
        real = (reader *)dlsym(NEXT, "read");
    return real;
}

static writer *real_write(void)
{
    static writer *real;
    if (!real)
        real = (writer *)dlsym(NEXT, "write");
    return real;
}

static void tell(char letter)
{
    real_write()(TOLD, &letter, 1);
}

/* Puts the number that the environment has by this name, and answers whether it has one. */
static int number(const char *name, size *n)
{
    const char *text = getenv(name);
    *n = 0;
    for (; text && *text >= '0' && *text <= '9'; text++)
        *n = *n * 10 + (size)(*text - '0');
    return text != 0;
}

static int hostile_main(int words, char **word, char **environment)
{
    const char *name = getenv("HOSTILE_CALL");
    call = name ? *name : 0;
    has_descriptor = number("HOSTILE_ON", &descriptor);
    number("HOSTILE_MOST", &most);
    has_after = number("HOSTILE_AFTER", &after);
    number("HOSTILE_NTH", &nth);
    has_error = number("HOSTILE_ERROR", &error);
    begun = 1;
    alarm(SECONDS);
    return real_main(words, word, environment);
}

int __libc_start_main(program *main, int words, char **word, void (*init)(void), void (*fini)(void),
                      void (*loader_fini)(void), void *stack_end)
{
    starter *start = (starter *)dlsym(NEXT, "__libc_start_main");
    real_main = main;
    signal(BROKEN_PIPE_SIGNAL, 0);
    return start(hostile_main, words, word, init, fini, loader_fini, stack_end);
}

/* Whether something is done to calls that begin with this letter, on this descriptor. */
static int is_meant(char first, int on)
{
    return begun && (!call || call == first) && on != TOLD
        && (!has_descriptor || (size)on == descriptor);
}

/* Whether this call, which is meant, is the one that fails. */
static int fails(void)
{
    calls++;
    if (failed && ended < 0 && !told_again) {
        tell('a');
        told_again = 1;
    }
    if (failed || !has_error)
        return 0;
    failed = nth ? calls == nth : has_after && moved == after;
    return failed;
}

/* What a call answers that fails. */
static int failure(void)
{
    tell('e');
    if (!error)
        return 0;
    *__errno_location() = (int)error;
    return -1;
}

/* How many of so many bytes this call may move. */
static size room(size count)
{
    if (most && most < count)
        count = most;
    if (moved < after && after - moved < count)
        count = after - moved;
    return count;
}

/* A call was asked to move `count` bytes, could move `left` of them, and answered this. */
static void count_moved(char letter, size count, size left, long answer)
{
    if (answer > 0)
        moved += (size)answer;
    if (0 < left && left < count && answer == (long)left)
        tell(letter);
}

long read(int from, void *bytes, size count)
{
    size left;
    long answer;
    if (!is_meant('r', from))
        return real_read()(from, bytes, count);
    if (fails()) {
        if (error)
            return failure();
        ended = from;
    }
    left = from == ended ? 0 : room(count);
    answer = left ? real_read()(from, bytes, left) : 0;
    count_moved('r', count, left, answer);
    if (!answer)
        tell('z');
    return answer;
}

long write(int to, const void *bytes, size count)
{
    size left;
    long answer;
    if (!is_meant('w', to))
        return real_write()(to, bytes, count);
    if (fails())
        return failure();
    left = room(count);
    answer = real_write()(to, bytes, left);
    count_moved('w', count, left, answer);
    return answer;
}

long __write(int to, const void *bytes, size count)
{
    return write(to, bytes, count);
}

/* A caller that makes no file gives no mode, and then none is looked at. */
int open(const char *path, int how, unsigned mode)
{
    static opener *real;
    int answer;
    if (!real)
        real = (opener *)dlsym(NEXT, "open");
    if (!begun || (call && call != 'o'))
        return real(path, how, mode);
    if (fails())
        return failure();
    answer = real(path, how, mode);
    if (answer >= 0)
        tell('o');
    return answer;
}

int close(int on)
{
    static closer *real;
    if (!real)
        real = (closer *)dlsym(NEXT, "close");
    if (on == ended)
        ended = CLOSED;
    return real(on);
}
