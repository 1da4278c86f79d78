/* Writes a sector of N's into the file NEIGHBOUR at NEIGHBOUR_AT, once: between the program's write of the sector before that one and the
   sync that follows, on the file that it opened as NEIGHBOUR_OF. So another process may write beside it. It is loaded into the program
   before others (LD_PRELOAD). */
#define _GNU_SOURCE
#include <fcntl.h>
#include <stdarg.h>
#include <stdlib.h>
#include <string.h>
#include <sys/syscall.h>
#include <unistd.h>

static int watched = -1, is_near;

int open(const char *path, int flags, ...) {
    va_list more;
    va_start(more, flags);
    int mode = va_arg(more, int);
    va_end(more);
    int fd = syscall(SYS_openat, AT_FDCWD, path, flags, mode);
    if (strcmp(path, getenv("NEIGHBOUR_OF")) == 0)
        watched = fd;
    return fd;
}

ssize_t pwrite(int fd, const void *bytes, size_t size, off_t at) {
    is_near |= fd == watched && at + (off_t)size == atol(getenv("NEIGHBOUR_AT"));
    return syscall(SYS_pwrite64, fd, bytes, size, at);
}

int fsync(int fd) {
    char bytes[512];
    memset(bytes, 'N', sizeof bytes);
    if (fd == watched && is_near) {
        int other = syscall(SYS_openat, AT_FDCWD, getenv("NEIGHBOUR"), O_RDWR | O_CLOEXEC);
        if (other < 0 || syscall(SYS_pwrite64, other, bytes, sizeof bytes, atol(getenv("NEIGHBOUR_AT"))) != sizeof bytes)
            _exit(97);
        close(other);
        is_near = 0;
    }
    return syscall(SYS_fsync, fd);
}
