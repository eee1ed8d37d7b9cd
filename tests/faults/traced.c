/* Runs a program with the faults of FAULTS (faults.c) in its system calls on files, and on sockets
 * at 127.0.0.1: also one that doesn't make them by the C library, as those in Go.
 *
 * usage: traced PROGRAM WORD..
 *
 * The program keeps this process. A process of its own traces it by ptrace(2), and ends with it;
 * without leave for that, traced exits with status 77. If FAULTS_CALLS names a file, each call on
 * files that are saved begins DELAY milliseconds late, while other threads go on, and the file gets
 * a line before and after it: the time in nanoseconds (CLOCK_MONOTONIC), the thread, `begins` or
 * `ends`, the call, what it returned, the path, and for a rename the new one. */
#define _GNU_SOURCE
#include <errno.h>
#include <fcntl.h>
#include <inttypes.h>
#include <limits.h>
#include <netinet/in.h>
#include <poll.h>
#include <signal.h>
#include <stdio.h>
#include <stdlib.h>
#include <string.h>
#include <sys/prctl.h>
#include <sys/ptrace.h>
#include <sys/socket.h>
#include <sys/stat.h>
#include <sys/syscall.h>
#include <sys/types.h>
#include <sys/user.h>
#include <sys/wait.h>
#include <time.h>
#include <unistd.h>
#include "faults.h"

enum { MOST_THREADS = 256, DELAY = 20, NOT_ALLOWED = 77 };

/* A thread of the program, and its call, if that is one on a file, or gets a fault on a socket. */
static struct thread {
    pid_t id;
    int is_delayed; /* stopped before its call, until `resume_at` */
    int64_t resume_at;
    int is_in_call, fault;
    enum call call;
    char path[PATH_MAX], new_path[PATH_MAX];
} threads[MOST_THREADS];

static pid_t program;
static int program_fd = -1; /* of the program, if FAULTS has faults of calls on sockets */
static FILE *call_log;      /* NULL unless FAULTS_CALLS names a file */

static int64_t now(void)
{
    struct timespec time;
    clock_gettime(CLOCK_MONOTONIC, &time);
    return (int64_t)time.tv_sec * 1000000000 + time.tv_nsec;
}

/* Returns the entry of a thread, and adds one if it has none. */
static struct thread *thread_of(pid_t id)
{
    struct thread *unused = NULL;
    for (size_t i = 0; i < MOST_THREADS; i++) {
        if (threads[i].id == id)
            return &threads[i];
        if (!threads[i].id && !unused)
            unused = &threads[i];
    }
    if (!unused)
        abort();
    *unused = (struct thread){.id = id};
    return unused;
}

static void resume(pid_t id, int number)
{
    ptrace(PTRACE_SYSCALL, id, NULL, (void *)(intptr_t)number);
}

/* ---- which calls concern saved files */

/* Reads a text of the program. */
static void read_text(pid_t id, uint64_t address, char text[PATH_MAX])
{
    size_t length = 0;
    for (; length + sizeof(long) < PATH_MAX; length += sizeof(long)) {
        errno = 0;
        long word = ptrace(PTRACE_PEEKDATA, id, (void *)(uintptr_t)(address + length), NULL);
        if (errno)
            break;
        memcpy(text + length, &word, sizeof word);
        if (memchr(&word, 0, sizeof word))
            return;
    }
    text[length] = 0;
}

/* Reads the path of a descriptor. */
static void read_path(pid_t id, uint64_t descriptor, char path[PATH_MAX])
{
    char name[64];
    snprintf(name, sizeof name, "/proc/%d/fd/%d", id, (int)descriptor);
    ssize_t length = readlink(name, path, PATH_MAX - 1);
    path[length < 0 ? 0 : length] = 0;
}

static int is_folder(const char *path)
{
    struct stat info;
    return !stat(path, &info) && S_ISDIR(info.st_mode);
}

/* Reports whether a call opens the file that is saved, or its folder. */
static int opens(struct thread *t, uint64_t path, uint64_t flags)
{
    read_text(t->id, path, t->path);
    return is_opening(t->path, flags & O_CREAT, &t->call);
}

/* Reports whether a call removes that file. */
static int removes(struct thread *t, uint64_t path)
{
    t->call = REMOVE;
    read_text(t->id, path, t->path);
    return is_saved_path(t->path);
}

/* Reports whether a call that creates a folder is logged: it gets no fault. */
static int creates(struct thread *t, uint64_t path)
{
    t->call = MKDIR;
    read_text(t->id, path, t->path);
    return call_log != NULL;
}

/* Reports whether a call is on a descriptor of that file, or syncs a folder. */
static int is_on(struct thread *t, enum call call, uint64_t descriptor)
{
    t->call = call;
    read_path(t->id, descriptor, t->path);
    return is_saved_path(t->path) || (call == SYNC && is_folder(t->path));
}

/* Reports whether a call renames that file. */
static int renames(struct thread *t, uint64_t from, uint64_t new_path)
{
    t->call = RENAME;
    read_text(t->id, from, t->path);
    read_text(t->id, new_path, t->new_path);
    return is_saved_path(t->path);
}

/* Reports whether a call concerns files that are saved. */
static int concerns_saving(struct thread *t, uint64_t number, const uint64_t arguments[6])
{
    t->new_path[0] = 0;
    switch (number) {
    case SYS_open:
        return opens(t, arguments[0], arguments[1]);
    case SYS_openat:
        return opens(t, arguments[1], arguments[2]);
    case SYS_unlink:
        return removes(t, arguments[0]);
    case SYS_unlinkat:
        return removes(t, arguments[1]);
    case SYS_mkdir:
        return creates(t, arguments[0]);
    case SYS_mkdirat:
        return creates(t, arguments[1]);
    case SYS_write:
        return is_on(t, WRITE, arguments[0]);
    case SYS_fsync:
    case SYS_fdatasync:
        return is_on(t, SYNC, arguments[0]);
    case SYS_close:
        return is_on(t, CLOSE, arguments[0]);
    case SYS_rename:
        return renames(t, arguments[0], arguments[1]);
    case SYS_renameat:
    case SYS_renameat2:
        return renames(t, arguments[1], arguments[3]);
    default:
        return 0;
    }
}

/* ---- faults */

/* Appends a line to the list of calls. */
static void log_call(const struct thread *t, const char *what, int64_t returned)
{
    if (call_log)
        fprintf(call_log, "%" PRId64 " %d %s %s %" PRId64 " %s %s\n", now(), t->id, what,
                name_of(t->call), returned, t->path, t->new_path);
}

static void kill_program(void)
{
    kill(program, SIGKILL);
}

/* Makes a call that begins do nothing. */
static void skip_call(pid_t id)
{
    struct user_regs_struct registers;
    ptrace(PTRACE_GETREGS, id, NULL, &registers);
    registers.orig_rax = (unsigned long long)-1;
    ptrace(PTRACE_SETREGS, id, NULL, &registers);
}

/* Sets the number of bytes that a call moves, its third argument, or in sendfile its fourth. */
static void set_size(pid_t id, uint64_t number, uint64_t size)
{
    struct user_regs_struct registers;
    ptrace(PTRACE_GETREGS, id, NULL, &registers);
    if (number == SYS_sendfile)
        registers.r10 = size;
    else
        registers.rdx = size;
    ptrace(PTRACE_SETREGS, id, NULL, &registers);
}

/* Injects the fault of a call on a file that begins. A process that is killed in a write is killed
 * in its middle. A close that fails still closes the descriptor. */
static void begin_call(struct thread *t, uint64_t size)
{
    size_t most = size;
    t->fault = fault_on_file(t->call, t->call == WRITE ? &most : NULL);
    if (t->fault == KILLED && t->call != WRITE)
        kill_program();
    else if (t->fault == KILLED)
        set_size(t->id, SYS_write, size / 2);
    else if (t->fault && t->call != CLOSE)
        skip_call(t->id);
    else if (most < size)
        set_size(t->id, SYS_write, most);
    log_call(t, "begins", 0);
}

/* ---- calls on sockets */

/* Returns the kind of a call, if it may be on a socket; CALLS if not. */
static enum call kind_on_socket(uint64_t number)
{
    switch (number) {
    case SYS_accept:
    case SYS_accept4:
        return ACCEPT;
    case SYS_write:
    case SYS_sendto:
    case SYS_sendfile:
        return SEND;
    case SYS_read:
    case SYS_recvfrom:
        return RECEIVE;
    case SYS_epoll_wait:
    case SYS_epoll_pwait:
        return WAIT;
    default:
        return CALLS;
    }
}

/* Returns a copy of a descriptor of the program, if that is a socket at 127.0.0.1; else a negative
 * number. A program serves its metrics at another address. */
static int copy_of_socket(uint64_t descriptor)
{
    struct sockaddr_in address;
    socklen_t length = sizeof address;
    int copy = (int)syscall(SYS_pidfd_getfd, program_fd, (int)descriptor, 0);
    if (copy < 0)
        return copy;
    if (!getsockname(copy, (struct sockaddr *)&address, &length) && length == sizeof address
        && address.sin_family == AF_INET && address.sin_addr.s_addr == htonl(INADDR_LOOPBACK))
        return copy;
    close(copy);
    return -1;
}

/* Returns a copy of the socket that a call is on, as copy_of_socket does. It is negative also for
 * an accept while no connection waits, which isn't counted: a program makes one before it waits. */
static int copy_for_call(enum call call, uint64_t descriptor)
{
    int copy = copy_of_socket(descriptor);
    if (copy < 0 || call != ACCEPT || is_ready(copy, POLLIN))
        return copy;
    close(copy);
    return -1;
}

/* Injects the fault of a call on a socket that begins, or of a wait. */
static void begin_call_on_socket(struct thread *t, uint64_t number, const uint64_t arguments[6])
{
    uint64_t size = arguments[number == SYS_sendfile ? 3 : 2];
    size_t most = size;
    t->call = program_fd < 0 ? CALLS : kind_on_socket(number);
    if (t->call == CALLS)
        return;
    int copy = t->call == WAIT ? -1 : copy_for_call(t->call, arguments[0]);
    if (t->call != WAIT && copy < 0)
        return;
    int moves = t->call == SEND || t->call == RECEIVE;
    t->fault = fault_of(t->call, t->call == WAIT, moves ? &most : NULL);
    if (t->fault == EAGAIN || most < size)
        report_readiness(copy);
    if (copy >= 0)
        close(copy);
    t->is_in_call = t->fault != 0;
    if (t->fault)
        skip_call(t->id);
    else if (most < size)
        set_size(t->id, number, most);
}

/* Sets the result of a call that has ended, or kills the program. */
static void end_call(struct thread *t, int64_t returned)
{
    struct user_regs_struct registers;
    t->is_in_call = 0;
    if (t->fault == KILLED) {
        kill_program();
    } else if (t->fault) {
        ptrace(PTRACE_GETREGS, t->id, NULL, &registers);
        registers.rax = (unsigned long long)-t->fault;
        ptrace(PTRACE_SETREGS, t->id, NULL, &registers);
    }
    log_call(t, "ends", returned);
}

/* ---- stops */

/* Handles a thread that enters or leaves a system call. */
static void handle_call(struct thread *t)
{
    struct __ptrace_syscall_info info;
    if (ptrace(PTRACE_GET_SYSCALL_INFO, t->id, (void *)sizeof info, &info) <= 0)
        return;
    if (info.op == PTRACE_SYSCALL_INFO_EXIT) {
        if (t->is_in_call)
            end_call(t, info.exit.rval);
    } else if (info.op == PTRACE_SYSCALL_INFO_ENTRY) {
        uint64_t arguments[6];
        memcpy(arguments, info.entry.args, sizeof arguments);
        t->is_in_call = concerns_saving(t, info.entry.nr, arguments);
        if (t->is_in_call && call_log && !t->is_delayed) {
            t->is_delayed = 1;
            t->resume_at = now() + DELAY * 1000000;
            return;
        }
        t->is_delayed = 0;
        if (t->is_in_call)
            begin_call(t, arguments[2]);
        else
            begin_call_on_socket(t, info.entry.nr, arguments);
    }
    resume(t->id, 0);
}

/* Resumes each thread whose delay is over, and returns how many threads are still delayed. */
static int resume_delayed(void)
{
    int delayed = 0;
    for (size_t i = 0; i < MOST_THREADS; i++) {
        if (threads[i].id && threads[i].is_delayed && threads[i].resume_at <= now())
            handle_call(&threads[i]);
        delayed += threads[i].id && threads[i].is_delayed;
    }
    return delayed;
}

static void handle_stop(pid_t id, int status)
{
    int number = WSTOPSIG(status), event = status >> 16;
    if (number == (SIGTRAP | 0x80))
        handle_call(thread_of(id));
    else if (event == PTRACE_EVENT_STOP && number != SIGTRAP)
        ptrace(PTRACE_LISTEN, id, NULL, NULL);
    else
        resume(id, event ? 0 : number);
}

/* Traces until the last thread has ended. */
static void trace(void)
{
    for (;;) {
        int status;
        pid_t id = waitpid(-1, &status, __WALL | (resume_delayed() ? WNOHANG : 0));
        if (id < 0 && errno != EINTR)
            return;
        if (id == 0)
            nanosleep(&(struct timespec){.tv_nsec = 1000000}, NULL);
        else if (id > 0 && WIFSTOPPED(status))
            handle_stop(id, status);
        else if (id > 0)
            thread_of(id)->id = 0;
    }
}

/* ---- the start */

/* Traces the program, once a byte in the pipe has told it so. */
static void trace_program(int ready)
{
    const char *path = getenv("FAULTS_CALLS");
    uintptr_t options = PTRACE_O_TRACESYSGOOD | PTRACE_O_TRACECLONE | PTRACE_O_EXITKILL;
    if (ptrace(PTRACE_SEIZE, program, NULL, (void *)options) < 0)
        _exit(NOT_ALLOWED);
    ptrace(PTRACE_INTERRUPT, program, NULL, NULL);
    if (has_socket_faults() && (program_fd = (int)syscall(SYS_pidfd_open, program, 0)) < 0)
        _exit(NOT_ALLOWED);
    if (path && !(call_log = fopen(path, "we")))
        abort();
    if (call_log)
        setvbuf(call_log, NULL, _IOLBF, 0);
    if (write(ready, "", 1) != 1)
        abort();
    close(ready);
    trace();
    _exit(0);
}

int main(int count, char **command)
{
    int ready[2];
    char byte;
    if (count < 2 || pipe2(ready, O_CLOEXEC) < 0)
        return 2;
    program = getpid();
    prctl(PR_SET_PTRACER, PR_SET_PTRACER_ANY, 0, 0, 0);
    /* The tracer is the child of a child that ends, so that the program has no child. */
    pid_t child = fork();
    if (child == 0) {
        close(ready[0]);
        if (fork() == 0)
            trace_program(ready[1]);
        _exit(0);
    }
    close(ready[1]);
    waitpid(child, NULL, 0);
    if (read(ready[0], &byte, 1) != 1)
        return NOT_ALLOWED;
    execvp(command[1], command + 1);
    perror(command[1]);
    return 127;
}
