/* Put before the C library (LD_PRELOAD): of three reads or writes, one fails as if a signal had come, one as if nothing were ready,
 * and one is made. A write is made by half, where it has two bytes or more. At the program's end it is told that both have failed: where the
 * program does not call what stands here, nothing is told. */
#include <errno.h>
#include <sys/syscall.h>
#include <sys/types.h>
#include <unistd.h>

static unsigned calls, failed_reads, failed_writes;

/* Whether this call fails. One that does is counted. */
static int fails(unsigned *failed) {
    static const int errors[] = {EINTR, EAGAIN, 0};
    errno = errors[calls++ % 3];
    *failed += errno != 0;
    return errno != 0;
}

ssize_t read(int fd, void *to, size_t room) {
    return fails(&failed_reads) ? -1 : syscall(SYS_read, fd, to, room);
}

ssize_t write(int fd, const void *from, size_t length) {
    return fails(&failed_writes) ? -1 : syscall(SYS_write, fd, from, length - length / 2);
}

__attribute__((destructor)) static void tell(void) {
    static const char told[] = "interrupted: reads and writes have failed\n";
    if (failed_reads > 0 && failed_writes > 0)
        syscall(SYS_write, STDERR_FILENO, told, sizeof told - 1);
}
