// Put before the program by LD_PRELOAD: the first write to its output fails for want of space, and those after it work.
#define _GNU_SOURCE
#include <errno.h>
#include <sys/syscall.h>
#include <unistd.h>

ssize_t write(int file, const void *bytes, size_t count) {
    static int failed;
    if (file == 1 && !failed) {
        failed = 1;
        errno = ENOSPC;
        return -1;
    }
    return syscall(SYS_write, file, bytes, count);
}
