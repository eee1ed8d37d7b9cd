/* Makes reads of standard input and writes of standard output fail in a program that preloads it,
 * for `tests/programs/faults.py`, and limits the bytes per call.
 *
 * READING is the read that fails, and WRITING the first write that fails, with all after it, both
 * counted from 1, or 0. MOST is the most bytes of a call, or 0. SEEN is the file descriptor that
 * gets the size of each write as four bytes, little-endian, or 0. */
typedef __SIZE_TYPE__ size_t;

extern long __read(int, void *, size_t);
extern long __write(int, const void *, size_t);
extern char *getenv(const char *);
extern int atoi(const char *);
extern int *__errno_location(void);

static int number(const char *name)
{
    const char *text = getenv(name);
    return text ? atoi(text) : 0;
}

static long failed(void)
{
    *__errno_location() = 5; /* EIO */
    return -1;
}

static size_t moved(size_t size)
{
    size_t most = number("MOST");
    return most && size > most ? most : size;
}

long read(int from, void *piece, size_t size)
{
    static int calls;
    if (from != 0)
        return __read(from, piece, size);
    return ++calls == number("READING") ? failed() : __read(from, piece, moved(size));
}

long write(int to, const void *piece, size_t size)
{
    static int calls;
    unsigned int done;
    if (to != 1)
        return __write(to, piece, size);
    if (number("WRITING") && ++calls >= number("WRITING"))
        return failed();
    done = moved(size);
    if (number("SEEN"))
        __write(number("SEEN"), &done, sizeof done);
    return __write(to, piece, done);
}
