/* Declares the functions of faults.c, which decides about faults, for sockets.c and files.c of the
 * preloaded library, and for the program of traced.c, which inject them. */
#ifndef FAULTS_H
#define FAULTS_H

#include <stddef.h>
#include <sys/types.h>

#pragma GCC visibility push(hidden) /* the program may have functions of these names */

/* The kinds of calls, each with a count; that of SAVE includes those from OPEN to RENAME. */
enum call {
    CONNECT,
    ACCEPT,
    SEND,
    RECEIVE,
    WAIT,
    MKDIR,
    LOAD,
    FOLDER,
    REMOVE,
    OPEN,
    WRITE,
    SYNC,
    CLOSE,
    RENAME,
    SAVE,
    CALLS
};

/* fault_of returns this to kill the process: no error has this number. */
enum { KILLED = -1 };

/* Returns the function of this name in the C library. */
void *real(const char *name);

/* Counts a call, and returns the error to inject, with errno set, or KILLED, or 0; lowers `limit`
 * to the most bytes that the call may move. EAGAIN is injected only where `can_block` is 0. */
int fault_of(enum call call, int can_block, size_t *limit);

/* Reports whether FAULTS has faults of calls on sockets. */
int has_socket_faults(void);

/* Reports whether a socket is ready for one of these events of poll(2). */
int is_ready(int fd, short events);

/* Makes the system report again what a TCP socket is ready for, to programs that wait for edges. */
void report_readiness(int fd);

/* Returns the name of a call in FAULTS. */
const char *name_of(enum call call);

/* Reports whether a cache writes the file of this path, and renames it once it is whole. */
int is_saved_path(const char *path);

/* Sets the kind of a call that opens a path: OPEN or LOAD for a file that a cache saves, or FOLDER
 * for its folder; returns 0 for another path. */
int is_opening(const char *path, int creates, enum call *call);

/* Counts a call on a file, as fault_of does, and those from OPEN on also as SAVE. */
int fault_on_file(enum call call, size_t *limit);

/* Writes to something else than a socket. */
ssize_t write_file(int fd, const void *bytes, size_t size);

#pragma GCC visibility pop

#endif
