/* A library to preload before a program (LD_PRELOAD): its reads and writes fail, or move fewer bytes than they might.
 * By the environment:
 *   FAULTY_READ, FAULTY_WRITE   the number of the read or write that fails (the first is 1)
 *   FAULTY_SHORT                how many bytes a read or write moves at most, but for reads of sockets: a program may
 *                               rely on it that a short one has taken all that was there, as epoll(7) says
 * Of reads those from standard input and from sockets count, of writes those to standard output and to sockets.
 * Built by `cc -std=c11 -shared -fPIC -o faulty.so faulty.c`.
 */
#define _GNU_SOURCE
#include <errno.h>
#include <stdatomic.h>
#include <stdlib.h>
#include <sys/socket.h>
#include <sys/syscall.h>
#include <unistd.h>

static atomic_long reads, writes;

static long number_of(const char *name)
{
    const char *said = getenv(name);
    return said == NULL ? 0 : strtol(said, NULL, 10);
}

/* whether this one fails; else at most so many bytes are left to move */
static int fails(atomic_long *count, const char *name, size_t *length)
{
    long at = number_of(name), most = number_of("FAULTY_SHORT");
    if (at > 0 && atomic_fetch_add(count, 1) + 1 == at) {
        errno = EIO;
        return 1;
    }
    if (most > 0 && *length > (size_t)most)
        *length = (size_t)most;
    return 0;
}

ssize_t read(int file, void *to, size_t length)
{
    if (file == 0 && fails(&reads, "FAULTY_READ", &length))
        return -1;
    return syscall(SYS_read, file, to, length);
}

ssize_t write(int file, const void *from, size_t length)
{
    if (file == 1 && fails(&writes, "FAULTY_WRITE", &length))
        return -1;
    return syscall(SYS_write, file, from, length);
}

ssize_t __write(int file, const void *from, size_t length)
{
    return write(file, from, length);
}

ssize_t recv(int socket, void *to, size_t length, int flags)
{
    size_t whole = length;

    if (fails(&reads, "FAULTY_READ", &length))
        return -1;
    length = whole;
    return syscall(SYS_recvfrom, socket, to, length, flags, NULL, NULL);
}

ssize_t send(int socket, const void *from, size_t length, int flags)
{
    if (fails(&writes, "FAULTY_WRITE", &length))
        return -1;
    return syscall(SYS_sendto, socket, from, length, flags, NULL, 0);
}
