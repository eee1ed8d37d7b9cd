/* Makes one allocation fail in a program that preloads it, for `tests/programs/growth.py`.

   REFUSED is the number of the allocation, counted from 1. MARK is 0, or the size of the two
   allocations between which it counts. When the allocation fails, one byte is written to the file
   descriptor MET, and the program waits for one from the file descriptor HELD, if that isn't 0. */
typedef __SIZE_TYPE__ size_t;

extern void *__libc_malloc(size_t);
extern void *__libc_realloc(void *, size_t);
extern char *getenv(const char *);
extern int atoi(const char *);
extern long read(int, void *, size_t);
extern long write(int, const void *, size_t);

static int number(const char *name)
{
    const char *text = getenv(name);
    return text ? atoi(text) : 0;
}

/* Reports that an allocation fails, and waits until it may. */
static int reports(void)
{
    char byte = 'x';
    int held = number("HELD");
    if (write(number("MET"), &byte, 1) != 1)
        return 0;
    return !held || read(held, &byte, 1) == 1;
}

/* Reports whether this is the allocation to fail. */
static int is_refused(size_t size)
{
    static int marks, growths;
    int mark = number("MARK");
    if (mark && size == (size_t)mark) {
        marks++;
        return 0;
    }
    if (marks != (mark != 0) || ++growths != number("REFUSED"))
        return 0;
    return reports();
}

void *malloc(size_t size)
{
    return is_refused(size) ? 0 : __libc_malloc(size);
}

void *realloc(void *old, size_t size)
{
    return is_refused(size) ? 0 : __libc_realloc(old, size);
}
