/*
 * The functions of the system that the programs in Rattle use, for processors for which the kit has
 * no C functions of its own (it has them for x86-64): the heap, the arguments, the environment and
 * errno. Their contracts are those of the kit's libraries `libc` and `os`. Here they are trusted,
 * as the kit's are there.
 */
#include <errno.h>
#include <stdbool.h>
#include <stddef.h>
#include <stdint.h>
#include <stdlib.h>
#include <sys/types.h>

/* An allocation: whether it succeeded, and its address. If it failed, `at` points to a byte that
 * nobody uses. */
struct tried {
    bool ok;
    void *at;
};

static char nowhere;

static struct tried tried(void *at)
{
    return (struct tried){at != NULL, at != NULL ? at : &nowhere};
}

/* An alignment of up to 16 is malloc's own. A block of no bytes has an address of its own. */
struct tried rattle_alloc(size_t size, size_t align)
{
    return tried(malloc(size != 0 ? size : align));
}

/* The block that was there stays if there is no memory. */
struct tried rattle_realloc(void *block, size_t kept, size_t size, size_t align)
{
    (void)kept;
    return tried(realloc(block, size != 0 ? size : align));
}

void rattle_dealloc(void *block)
{
    free(block);
}

int32_t rattle_errno(void)
{
    return errno;
}

void rattle_set_errno(int32_t error)
{
    errno = error;
}

static size_t count;
static char **arguments;

/* The C library calls it before main, with main's arguments. */
__attribute__((constructor)) static void keep(int argc, char **argv)
{
    count = (size_t)argc;
    arguments = argv;
}

size_t rattle_arg_count(void)
{
    return count;
}

/*
 * Copies a text to the start of the buffer. Returns its length; -1 if there is none; -2 if it
 * doesn't fit, and then the buffer is full.
 */
static ssize_t copied(const char *text, char *buffer, size_t size)
{
    size_t length = 0;

    if (text == NULL) {
        return -1;
    }
    for (; text[length] != '\0'; length++) {
        if (length == size) {
            return -2;
        }
        buffer[length] = text[length];
    }
    return (ssize_t)length;
}

ssize_t rattle_arg(size_t index, char *buffer, size_t size)
{
    return copied(index < count ? arguments[index] : NULL, buffer, size);
}

ssize_t rattle_env(const char *name, char *buffer, size_t size)
{
    return copied(getenv(name), buffer, size);
}

extern char **environ;

/* The same of the variable at this index, as NAME=VALUE. */
ssize_t rattle_env_at(size_t index, char *buffer, size_t size)
{
    char **variable = environ;

    while (variable != NULL && *variable != NULL && index != 0) {
        variable++;
        index--;
    }
    return copied(variable != NULL ? *variable : NULL, buffer, size);
}
