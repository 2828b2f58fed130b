/* Loaded before the C library (LD_PRELOAD), this stands between a program and its standard output: a write takes at
 * most FAULTY_PIECE bytes, and write number FAULTY_WRITE fails as on a full disk. Those after it succeed again, so that
 * whatever a program still writes shows.
 */
#define _GNU_SOURCE
#include <errno.h>
#include <stdlib.h>
#include <sys/syscall.h>
#include <unistd.h>

static long setting(const char *name)
{
    const char *text = getenv(name);
    return text ? atol(text) : 0;
}

ssize_t write(int file, const void *bytes, size_t length)
{
    static long writes;
    long piece = setting("FAULTY_PIECE");

    if (file == STDOUT_FILENO) {
        if (++writes == setting("FAULTY_WRITE")) {
            errno = ENOSPC;
            return -1;
        }
        if (piece > 0 && length > (size_t)piece)
            length = (size_t)piece;
    }
    return syscall(SYS_write, file, bytes, length);
}
