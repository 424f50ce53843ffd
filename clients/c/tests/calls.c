/* SPDX-License-Identifier: Apache-2.0 */
/* Stands before the C library (LD_PRELOAD), for scripts/tests/test_gate_library.py: it notes the calls of the system
   that the library for gates makes, refuses one, makes them fall short, or cuts the power in the middle of a write.

   CALLS_LOG=FD          a line for each call goes there
   CALLS_REFUSE=N        call N (from 1) isn't made, and answers an error; with CALLS_ONWARD=1 so does each later one of
                         its name
   CALLS_ERROR=E         the errno of a refused call, in the place of its own
   CALLS_UNKNOWN=N       the host later.test isn't known the first N times that it is looked up; it is 127.0.0.1 then
   CALLS_SHORT=1         reads, writes and what a connection moves, one byte at a time
   CALLS_INTERRUPT=1     each call that may be interrupted answers EINTR every other time
   CALLS_CUT=N:K         write N moves K bytes, and the process ends by status 9
   CALLS_KILL=N          the process ends by status 9 before call N */
#define _GNU_SOURCE
#include <dlfcn.h>
#include <errno.h>
#include <fcntl.h>
#include <netdb.h>
#include <poll.h>
#include <stdarg.h>
#include <stdint.h>
#include <stdio.h>
#include <stdlib.h>
#include <string.h>
#include <sys/socket.h>
#include <sys/stat.h>
#include <unistd.h>

extern void *__libc_malloc(size_t size);
extern void *__libc_calloc(size_t count, size_t size);
extern void *__libc_realloc(void *old, size_t size);

static int log_to = -1, refuse, onward, is_short, interrupts, cut_call, cut_bytes, kill_call, error_of, unknown;
static int calls, writes, turn;
static const char *refused_name;

static int number_of(const char *name)
{
    const char *text = getenv(name);

    return text == NULL ? 0 : atoi(text);
}

__attribute__((constructor)) static void begin(void)
{
    const char *cut = getenv("CALLS_CUT");

    refuse = number_of("CALLS_REFUSE");
    onward = number_of("CALLS_ONWARD");
    is_short = number_of("CALLS_SHORT");
    interrupts = number_of("CALLS_INTERRUPT");
    kill_call = number_of("CALLS_KILL");
    error_of = number_of("CALLS_ERROR");
    unknown = number_of("CALLS_UNKNOWN");
    if (cut != NULL && sscanf(cut, "%d:%d", &cut_call, &cut_bytes) != 2)
        cut_call = 0;
    log_to = getenv("CALLS_LOG") == NULL ? -1 : number_of("CALLS_LOG");
}

/* Writes a line of the log: a name, which call it is, a place, and bytes. */
static void note(const char *name, long at, const void *bytes, size_t size)
{
    char line[512];
    int used = snprintf(line, sizeof line, "%s %d %ld ", name, calls, at);

    if (log_to < 0)
        return;
    for (size_t i = 0; i < size && used < 500; i++)
        used += snprintf(line + used, 3, "%02x", ((const unsigned char *)bytes)[i]);
    line[used++] = '\n';
    (void)!write(log_to, line, (size_t)used);
}

/* Whether this call isn't to be made: errno is set then. */
static int is_refused(const char *name, int error)
{
    int at = ++calls;

    if (at == kill_call)
        _exit(9);
    if (refuse != 0 && (at == refuse || (onward && refused_name != NULL && strcmp(name, refused_name) == 0))) {
        refused_name = name;
        note("refused", at, NULL, 0);
        errno = error_of != 0 ? error_of : error;
        return 1;
    }
    return 0;
}

static int is_interrupted(void)
{
    if (!interrupts || (turn ^= 1) == 0)
        return 0;
    errno = EINTR;
    return 1;
}

/* The C library's own call of this name. */
static void *own(const char *name)
{
    return dlsym(RTLD_NEXT, name);
}

#define OWN(result, name, ...) ((result(*)(__VA_ARGS__))(intptr_t)own(name))

ssize_t pwrite64(int file, const void *from, size_t size, off64_t at)
{
    if (is_refused("pwrite", EIO) || is_interrupted())
        return -1;
    note("pwrite", (long)at, from, size);
    if (++writes == cut_call) {
        if (cut_bytes > 0)
            (void)!OWN(ssize_t, "pwrite64", int, const void *, size_t, off64_t)(file, from, (size_t)cut_bytes, at);
        _exit(9);
    }
    return OWN(ssize_t, "pwrite64", int, const void *, size_t, off64_t)(file, from, is_short ? 1 : size, at);
}

ssize_t pread64(int file, void *into, size_t size, off64_t at)
{
    if (is_refused("pread", EIO) || is_interrupted())
        return -1;
    note("pread", (long)at, NULL, 0);
    return OWN(ssize_t, "pread64", int, void *, size_t, off64_t)(file, into, is_short ? 1 : size, at);
}

int fdatasync(int file)
{
    if (is_refused("fdatasync", EIO) || is_interrupted())
        return -1;
    note("fdatasync", 0, NULL, 0);
    return OWN(int, "fdatasync", int)(file);
}

int fsync(int file)
{
    if (is_refused("fsync", EIO) || is_interrupted())
        return -1;
    note("fsync", 0, NULL, 0);
    return OWN(int, "fsync", int)(file);
}

int open64(const char *path, int flags, ...)
{
    va_list more;

    va_start(more, flags);
    int mode = va_arg(more, int);
    va_end(more);
    if (is_refused("open", EMFILE))
        return -1;
    note("open", 0, path, strlen(path));
    return OWN(int, "open64", const char *, int, ...)(path, flags, mode);
}

int fstat64(int file, struct stat64 *about)
{
    if (is_refused("fstat", EIO))
        return -1;
    note("fstat", 0, NULL, 0);
    return OWN(int, "fstat64", int, struct stat64 *)(file, about);
}

int flock(int file, int how)
{
    if (is_refused("flock", ENOLCK))
        return -1;
    note("flock", how, NULL, 0);
    return OWN(int, "flock", int, int)(file, how);
}

int posix_fadvise64(int file, off64_t at, off64_t size, int advice)
{
    if (is_refused("fadvise", EIO))
        return errno;
    note("fadvise", advice, NULL, 0);
    return OWN(int, "posix_fadvise64", int, off64_t, off64_t, int)(file, at, size, advice);
}

char *realpath(const char *path, char *into)
{
    if (is_refused("realpath", ENOMEM))
        return NULL;
    return OWN(char *, "realpath", const char *, char *)(path, into);
}

int getaddrinfo(const char *host, const char *port, const struct addrinfo *hints, struct addrinfo **found)
{
    note("look-up", unknown, host, strlen(host));
    if (strcmp(host, "later.test") == 0) {
        if (unknown-- > 0)
            return EAI_AGAIN;
        host = "127.0.0.1";
    }
    return OWN(int, "getaddrinfo", const char *, const char *, const struct addrinfo *, struct addrinfo **)(
        host, port, hints, found);
}

int socket(int family, int kind, int protocol)
{
    if (is_refused("socket", EMFILE))
        return -1;
    note("socket", family, NULL, 0);
    return OWN(int, "socket", int, int, int)(family, kind, protocol);
}

int socketpair(int family, int kind, int protocol, int both[2])
{
    if (is_refused("socketpair", EMFILE))
        return -1;
    note("socketpair", family, NULL, 0);
    return OWN(int, "socketpair", int, int, int, int *)(family, kind, protocol, both);
}

int setsockopt(int line, int level, int name, const void *value, socklen_t size)
{
    if (is_refused("setsockopt", ENOBUFS))
        return -1;
    note("setsockopt", name, value, size);
    return OWN(int, "setsockopt", int, int, int, const void *, socklen_t)(line, level, name, value, size);
}

int getsockopt(int line, int level, int name, void *value, socklen_t *size)
{
    if (is_refused("getsockopt", ENOBUFS))
        return -1;
    return OWN(int, "getsockopt", int, int, int, void *, socklen_t *)(line, level, name, value, size);
}

int connect(int line, const struct sockaddr *name, socklen_t size)
{
    if (is_refused("connect", ECONNREFUSED))
        return -1;
    note("connect", name->sa_family, name->sa_data, 2);
    return OWN(int, "connect", int, const struct sockaddr *, socklen_t)(line, name, size);
}

int poll(struct pollfd *all, nfds_t count, int time)
{
    if (is_refused("poll", ENOMEM) || is_interrupted())
        return -1;
    note("poll", (long)count, NULL, 0);
    return OWN(int, "poll", struct pollfd *, nfds_t, int)(all, count, time);
}

ssize_t send(int line, const void *from, size_t size, int how)
{
    if (is_refused("send", EPIPE) || is_interrupted())
        return -1;
    note("send", 0, from, size);
    return OWN(ssize_t, "send", int, const void *, size_t, int)(line, from, is_short ? 1 : size, how);
}

ssize_t recv(int line, void *into, size_t size, int how)
{
    if (is_refused("recv", ECONNRESET) || ((how & MSG_PEEK) == 0 && is_interrupted()))
        return -1;
    ssize_t got = OWN(ssize_t, "recv", int, void *, size_t, int)(line, into, is_short ? 1 : size, how);
    int error = errno;
    if ((how & MSG_PEEK) == 0)
        note("recv", got, into, got > 0 ? (size_t)got : 0);
    errno = error;
    return got;
}

/* A gate is the one thing of this size that is asked for. */
void *calloc(size_t count, size_t size)
{
    if (size > 1000 && count == 1 && is_refused("calloc", ENOMEM))
        return NULL;
    note("memory", (long)(count * size), NULL, 0);
    return __libc_calloc(count, size);
}

void *malloc(size_t size)
{
    note("memory", (long)size, NULL, 0);
    return __libc_malloc(size);
}

void *realloc(void *old, size_t size)
{
    note("memory", (long)size, NULL, 0);
    return __libc_realloc(old, size);
}
