/* Bytes that several connections of a cache send: blocks of memory with a reference count. Long
 * ones are in files in memory, from which sendfile sends. Private to rtr_cache.c, which defines
 * _GNU_SOURCE. */
#ifndef FISHREEF_RTR_SHARED_H
#define FISHREEF_RTR_SHARED_H

#include <stddef.h>
#include <stdint.h>
#include <stdlib.h>
#ifdef __linux__
#include <sys/mman.h>
#include <sys/resource.h>
#include <unistd.h>
#ifndef MADV_COLLAPSE
#define MADV_COLLAPSE 25 /* since Linux 6.1 */
#endif
#endif

/* Data of at least FILED bytes are moved to a file in memory before they are sent; the size of its
 * huge pages. */
enum { FILED = 1 << 16, HUGE_PAGE = 1 << 21 };

/* A block of `size` bytes, with a reference count: connections send `length` of them, from offset
 * `start` on. If `file` isn't -1, the whole struct is mapped from that file in memory. */
struct rtr_shared {
    size_t holders, size, start, length;
    int file;
    uint8_t bytes[];
};

/* Allocates a block with one reference; null without memory. */
static struct rtr_shared *new_shared(size_t capacity)
{
    struct rtr_shared *block = malloc(sizeof *block + capacity);
    if (block) {
        block->holders = 1;
        block->size = block->length = capacity;
        block->start = 0;
        block->file = -1;
    }
    return block;
}

/* Shrinks a block to `size` bytes, and its length, too. */
static struct rtr_shared *shrink(struct rtr_shared *block, size_t size)
{
    block->size = block->length = size;
    struct rtr_shared *shorter = realloc(block, sizeof *block + size);
    return shorter ? shorter : block;
}

/* Adds a reference. */
static struct rtr_shared *hold(struct rtr_shared *block)
{
    block->holders += 1;
    return block;
}

#ifdef __linux__

/* Returns the size of the whole struct, as in a file. */
static size_t filed_size(const struct rtr_shared *block)
{
    return offsetof(struct rtr_shared, bytes) + block->size;
}

static void free_filed(struct rtr_shared *block)
{
    close(block->file);
    munmap(block, filed_size(block));
}

/* Lets an empty file in memory start with huge pages, which are faster to send: as many as `size`
 * bytes fill at least by half. MADV_COLLAPSE needs a byte in each page. If the system has no huge
 * pages, or a write beyond RLIMIT_FSIZE would kill the process, the file keeps small pages. */
static void begin_huge(int file, size_t size)
{
    struct rlimit limit;
    size_t huge = (size + HUGE_PAGE / 2) / HUGE_PAGE * HUGE_PAGE;
    if (!huge || getrlimit(RLIMIT_FSIZE, &limit) || limit.rlim_cur < size)
        return;
    char *reserved = mmap(NULL, huge + HUGE_PAGE, PROT_NONE, MAP_PRIVATE | MAP_ANONYMOUS, -1, 0);
    if (reserved == MAP_FAILED)
        return;
    char *aligned = reserved + (-(uintptr_t)reserved & (HUGE_PAGE - 1));
    bool good = mmap(aligned, huge, PROT_READ, MAP_SHARED | MAP_FIXED, file, 0) == aligned;
    for (size_t offset = 0; good && offset < huge; offset += HUGE_PAGE)
        good = pwrite(file, "", 1, (off_t)offset) == 1;
    if (good)
        madvise(aligned, huge, MADV_COLLAPSE);
    munmap(reserved, huge + HUGE_PAGE);
}

/* Moves a block to a file in memory. Returns the block itself if that fails, if it is short, or if
 * it has other references. */
static struct rtr_shared *moved_to_file(struct rtr_shared *block)
{
    size_t size = filed_size(block);
    bool stays = block->file >= 0 || block->length < FILED || block->holders > 1;
    int file = stays ? -1 : memfd_create("rtr data", MFD_CLOEXEC);
    struct rtr_shared *mapped = MAP_FAILED;
    if (file >= 0)
        begin_huge(file, size);
    if (file >= 0 && write(file, block, size) == (ssize_t)size)
        mapped = mmap(NULL, size, PROT_READ | PROT_WRITE, MAP_SHARED | MAP_POPULATE, file, 0);
    if (mapped == MAP_FAILED) {
        if (file >= 0)
            close(file);
        return block;
    }
    mapped->file = file;
    free(block);
    return mapped;
}

#else

static void free_filed(struct rtr_shared *block)
{
    (void)block;
}

static struct rtr_shared *moved_to_file(struct rtr_shared *block)
{
    return block;
}

#endif

static void release(struct rtr_shared *block)
{
    if (!block || --block->holders)
        return;
    if (block->file >= 0)
        free_filed(block);
    else
        free(block);
}

#endif
