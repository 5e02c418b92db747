// Put before the C library: the second read of standard input fails. A program that
// reads through this has got a part of its input, and must not report that part.
#define _GNU_SOURCE
#include <errno.h>
#include <sys/syscall.h>
#include <unistd.h>

ssize_t read(int fd, void *bytes, size_t size)
{
    static int turns;
    if (fd == 0 && turns++ > 0) {
        errno = EIO;
        return -1;
    }
    return syscall(SYS_read, fd, bytes, size);
}
