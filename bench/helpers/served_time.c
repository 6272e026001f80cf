// Loaded before a program by LD_PRELOAD, writes into the file $SERVED how many seconds lay between the last file that it
// opened and the first that it closed after that. Of `rock run` and `rock bench`, and of plain_workers, that is the time in
// which requests are served. What comes before is the reading of the script and the rebuild, and what comes behind is the
// printing of the answers. No other call is touched.
#include <fcntl.h>
#include <stdarg.h>
#include <stdio.h>
#include <stdlib.h>
#include <sys/syscall.h>
#include <time.h>
#include <unistd.h>

static struct timespec opened, closed;
static int is_closed;

int open(const char *name, int flags, ...) {
    va_list more;
    va_start(more, flags);
    int mode = flags & O_CREAT ? va_arg(more, int) : 0;
    va_end(more);
    int file = syscall(SYS_openat, AT_FDCWD, name, flags, mode);
    is_closed = 0;
    clock_gettime(CLOCK_MONOTONIC, &opened);
    return file;
}

int close(int file) {
    if (!is_closed) clock_gettime(CLOCK_MONOTONIC, &closed);
    is_closed = 1;
    return syscall(SYS_close, file);
}

// Told at the end, be it by a return from main or by a call.
__attribute__((destructor)) static void tell(void) {
    const char *name = getenv("SERVED");
    int told = name == NULL ? -1 : (int)syscall(SYS_openat, AT_FDCWD, name, O_WRONLY | O_CREAT | O_TRUNC, 0666);
    if (told >= 0) dprintf(told, "%.9f\n", (closed.tv_sec - opened.tv_sec) + (closed.tv_nsec - opened.tv_nsec) / 1e9);
}

void _exit(int status) {
    tell();
    syscall(SYS_exit_group, status);
    __builtin_unreachable();
}
