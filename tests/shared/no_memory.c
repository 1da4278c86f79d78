/* Refuses requests for memory of the program that it is loaded into before others (LD_PRELOAD). The file that FAULTS names holds four
   numbers: the request from which on memory is refused (from 1; 0: never), the last that is refused, how many there were, how many
   were refused. */
#include <errno.h>
#include <fcntl.h>
#include <stdint.h>
#include <stdlib.h>
#include <sys/mman.h>
#include <sys/syscall.h>
#include <unistd.h>

struct faults {
    volatile uint32_t first, last, count, refused;
};

static struct faults *faults;

void *__libc_malloc(size_t);
void *__libc_calloc(size_t, size_t);
void *__libc_realloc(void *, size_t);
void *__libc_memalign(size_t, size_t);

__attribute__((constructor)) static void begin(void) {
    int fd = open(getenv("FAULTS"), O_RDWR | O_CLOEXEC);
    long at = syscall(SYS_mmap, NULL, sizeof *faults, PROT_READ | PROT_WRITE, MAP_SHARED, fd, 0);
    if (fd < 0 || at == -1)
        _exit(99);
    close(fd);
    faults = (struct faults *)at;
    alarm(20);
}

static int refused(void) {
    if (faults == NULL)
        return 0;
    faults->count++;
    if (faults->count < faults->first || faults->count > faults->last)
        return 0;
    faults->refused++;
    errno = ENOMEM;
    return 1;
}

void *malloc(size_t size) {
    return refused() ? NULL : __libc_malloc(size);
}

void *calloc(size_t count, size_t size) {
    return refused() ? NULL : __libc_calloc(count, size);
}

void *realloc(void *old, size_t size) {
    return refused() ? NULL : __libc_realloc(old, size);
}

void *reallocarray(void *old, size_t count, size_t size) {
    size_t all;
    if (__builtin_mul_overflow(count, size, &all) || refused()) {
        errno = ENOMEM;
        return NULL;
    }
    return __libc_realloc(old, all);
}

void *memalign(size_t align, size_t size) {
    return refused() ? NULL : __libc_memalign(align, size);
}

void *aligned_alloc(size_t align, size_t size) {
    return memalign(align, size);
}

int posix_memalign(void **at, size_t align, size_t size) {
    void *found = memalign(align, size);
    if (found == NULL)
        return ENOMEM;
    *at = found;
    return 0;
}

void *mmap(void *at, size_t size, int allowed, int flags, int fd, off_t offset) {
    if ((flags & MAP_ANONYMOUS) && refused())
        return MAP_FAILED;
    return (void *)syscall(SYS_mmap, at, size, allowed, flags, fd, offset);
}

void *mmap64(void *at, size_t size, int allowed, int flags, int fd, off_t offset) {
    return mmap(at, size, allowed, flags, fd, offset);
}
