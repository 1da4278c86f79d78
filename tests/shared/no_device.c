/* Has calls on one file fail, in the program that it is loaded into before others (LD_PRELOAD). FAULTS_ON names the file as the
   program does. The file that FAULTS names holds what is asked for and what came of it (struct faults): a call is counted where it is
   of that file, by its name or as it was opened. */
#include <errno.h>
#include <fcntl.h>
#include <stdarg.h>
#include <stdint.h>
#include <stdlib.h>
#include <string.h>
#include <sys/stat.h>
#include <sys/syscall.h>
#include <sys/mman.h>
#include <unistd.h>

#define MOST 65536

struct faults {
    volatile uint32_t first, last; /* the calls that fail, from 1; 0: none */
    volatile uint32_t how;         /* ways below */
    volatile uint32_t error;       /* of `fails` and `done_and_fails`, errno's value */
    volatile uint32_t count;       /* the calls that came */
    volatile char calls[MOST];     /* a letter for each: stat, open, lock, seek, read, write, fsync, close; a seek's is `k` */
};

enum { FAILS, DONE_AND_FAILS, MOVES_ONE_BYTE, MOVES_NOTHING };

static struct faults *faults;
static const char *name;
static int opened[16], many;

__attribute__((constructor)) static void begin(void) {
    int fd = syscall(SYS_openat, AT_FDCWD, getenv("FAULTS"), O_RDWR | O_CLOEXEC);
    long at = syscall(SYS_mmap, NULL, sizeof *faults, PROT_READ | PROT_WRITE, MAP_SHARED, fd, 0);
    name = getenv("FAULTS_ON");
    if (fd < 0 || at == -1 || name == NULL)
        _exit(99);
    syscall(SYS_close, fd);
    faults = (struct faults *)at;
    alarm(20);
}

static int is_named(const char *path) {
    return faults != NULL && path != NULL && strcmp(path, name) == 0;
}

static int is_opened(int fd) {
    for (int k = 0; k < many; k++)
        if (opened[k] == fd)
            return 1;
    return 0;
}

/* Counts a call, and tells whether it is one that fails. */
static int fails(char letter) {
    uint32_t at = faults->count++;
    if (at >= MOST)
        _exit(98);
    faults->calls[at] = letter;
    return at + 1 >= faults->first && at + 1 <= faults->last;
}

static long failed(void) {
    errno = faults->error;
    return -1;
}

/* What a call that fails answers, whose number and arguments are these. */
static long failing(long number, long a, long b, long c, long d) {
    if (faults->how == DONE_AND_FAILS)
        syscall(number, a, b, c, d);
    return failed();
}

static long moved(long number, char letter, int fd, long bytes, size_t size, off_t at) {
    if (!is_opened(fd) || !fails(letter))
        return syscall(number, fd, bytes, size, at);
    if (faults->how == MOVES_ONE_BYTE)
        return syscall(number, fd, bytes, size < 1 ? size : 1, at);
    if (faults->how == MOVES_NOTHING)
        return 0;
    return failing(number, fd, bytes, size, at);
}

static int opens(int folder, const char *path, int flags, mode_t mode) {
    int it = is_named(path), fd;
    if (it && fails('o'))
        return failed();
    fd = syscall(SYS_openat, folder, path, flags, mode);
    if (it && fd >= 0 && many < 16)
        opened[many++] = fd;
    return fd;
}

int open(const char *path, int flags, ...) {
    va_list more;
    va_start(more, flags);
    mode_t mode = va_arg(more, int);
    va_end(more);
    return opens(AT_FDCWD, path, flags, mode);
}

int openat(int folder, const char *path, int flags, ...) {
    va_list more;
    va_start(more, flags);
    mode_t mode = va_arg(more, int);
    va_end(more);
    return opens(folder, path, flags, mode);
}

int statx(int folder, const char *restrict path, int flags, unsigned mask, struct statx *restrict into) {
    if ((is_named(path) || is_opened(folder)) && fails('s'))
        return failed();
    return syscall(SYS_statx, folder, path, flags, mask, into);
}

int fstat(int fd, struct stat *into) {
    if (is_opened(fd) && fails('s'))
        return failed();
    return syscall(SYS_fstat, fd, into);
}

int flock(int fd, int how) {
    if (is_opened(fd) && fails('l'))
        return failed();
    return syscall(SYS_flock, fd, how);
}

off_t lseek(int fd, off_t at, int from) {
    if (is_opened(fd) && fails('k'))
        return failing(SYS_lseek, fd, at, from, 0);
    return syscall(SYS_lseek, fd, at, from);
}

ssize_t read(int fd, void *into, size_t size) {
    return moved(SYS_read, 'r', fd, (long)into, size, 0);
}

ssize_t pread(int fd, void *into, size_t size, off_t at) {
    return moved(SYS_pread64, 'r', fd, (long)into, size, at);
}

ssize_t write(int fd, const void *bytes, size_t size) {
    return moved(SYS_write, 'w', fd, (long)bytes, size, 0);
}

ssize_t pwrite(int fd, const void *bytes, size_t size, off_t at) {
    return moved(SYS_pwrite64, 'w', fd, (long)bytes, size, at);
}

static int synced(long number, int fd) {
    if (is_opened(fd) && fails('f'))
        return failing(number, fd, 0, 0, 0);
    return syscall(number, fd);
}

int fsync(int fd) {
    return synced(SYS_fsync, fd);
}

int fdatasync(int fd) {
    return synced(SYS_fdatasync, fd);
}

int close(int fd) {
    if (!is_opened(fd))
        return syscall(SYS_close, fd);
    int it = fails('c');
    for (int k = 0; k < many; k++)
        if (opened[k] == fd)
            opened[k] = opened[--many];
    int status = syscall(SYS_close, fd);
    return it ? failed() : status;
}
