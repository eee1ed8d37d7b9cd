/* What the tests of C call of POSIX, for Windows: pages that can't be accessed. */
#ifndef WINDOWS_MMAN_H
#define WINDOWS_MMAN_H

#include <stddef.h>

__declspec(dllimport) void *__stdcall VirtualAlloc(void *, size_t, unsigned long, unsigned long);
__declspec(dllimport) int __stdcall VirtualProtect(void *, size_t, unsigned long, unsigned long *);

enum { PROT_NONE, PROT_READ, PROT_WRITE, MAP_PRIVATE, MAP_ANONYMOUS, _SC_PAGESIZE };

#define MAP_FAILED NULL

/* Pages that are reserved and committed, with no access. */
static inline void *mmap(void *at, size_t size, int access, int flags, int file, long offset)
{
    (void)access, (void)flags, (void)file, (void)offset;
    return VirtualAlloc(at, size, 0x3000, 1);
}

/* Allows reads and writes. */
static inline int mprotect(void *at, size_t size, int access)
{
    unsigned long before;
    (void)access;
    return !VirtualProtect(at, size, 4, &before);
}

static inline long sysconf(int name)
{
    (void)name;
    return 4096;
}

#endif
