/* A read and a write for LD_PRELOAD, disturbed: every third call was interrupted, every seventh would block, and of
   the others every second moves only part of the bytes. */
#include <errno.h>
#include <stddef.h>
#include <sys/syscall.h>
#include <sys/types.h>
#include <unistd.h>

static int disturbed(size_t *count)
{
    static unsigned calls;
    calls++;
    if (calls % 3 == 0 || calls % 7 == 0) {
        errno = calls % 3 == 0 ? EINTR : EAGAIN;
        return 1;
    }
    if (calls % 2 == 0 && *count > 1)
        *count = calls % 4 == 0 ? 1 : *count / 3 + 1;
    return 0;
}

ssize_t read(int fd, void *room, size_t count)
{
    return disturbed(&count) ? -1 : syscall(SYS_read, fd, room, count);
}

ssize_t write(int fd, const void *text, size_t count)
{
    return disturbed(&count) ? -1 : syscall(SYS_write, fd, text, count);
}
