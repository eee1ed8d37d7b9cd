/* Counts what a program in C has allocated: if FAULTS_MEMORY names a file, that gets a line at each
 * hundredth end of a connection: the numbers of allocated objects and bytes. Functions that replace
 * those of the C library count exactly; its own count includes what it keeps for itself. */
#define _POSIX_C_SOURCE 200809L
#define _DEFAULT_SOURCE
#include <malloc.h>
#include <stdio.h>
#include <stdlib.h>

void *__libc_malloc(size_t size);
void *__libc_calloc(size_t count, size_t size);
void *__libc_realloc(void *memory, size_t size);
void __libc_free(void *memory);

static long objects, bytes;

static void *counted(void *memory)
{
    objects += memory != NULL;
    bytes += (long)malloc_usable_size(memory);
    return memory;
}

static void uncount(void *memory)
{
    objects -= memory != NULL;
    bytes -= (long)malloc_usable_size(memory);
}

void *malloc(size_t size)
{
    return counted(__libc_malloc(size));
}

void *calloc(size_t count, size_t size)
{
    return counted(__libc_calloc(count, size));
}

void *realloc(void *memory, size_t size)
{
    uncount(memory);
    void *moved = __libc_realloc(memory, size);
    counted(moved || !size ? moved : memory);
    return moved;
}

void free(void *memory)
{
    uncount(memory);
    __libc_free(memory);
}

/* Counts an end of a connection. */
static void count_end(void)
{
    static int ends;
    const char *path = getenv("FAULTS_MEMORY");
    FILE *file = ++ends % 100 || !path ? NULL : fopen(path, "a");
    if (file && (fprintf(file, "%ld %ld\n", objects, bytes) < 0 || fclose(file)))
        abort();
}

/* Returns the milliseconds of FAULTS_PAUSE, after which a program reconnects; null without it. */
static const char *pause_given(void)
{
    return getenv("FAULTS_PAUSE");
}
