/* Loaded before the C library in a seat (LD_PRELOAD): fsync takes half a second longer, and what makes a file last is written down, a line
 * each, in the file $SLOW_LOG. */
#define _GNU_SOURCE
#include <fcntl.h>
#include <stdio.h>
#include <stdlib.h>
#include <string.h>
#include <sys/syscall.h>
#include <unistd.h>

static void note(const char *what, const char *name)
{
    char line[4200];
    int fd = open(getenv("SLOW_LOG"), O_WRONLY | O_CREAT | O_APPEND, 0600);
    const char *slash = strrchr(name, '/');
    snprintf(line, sizeof line, "%s %s\n", what, slash ? slash + 1 : name);
    if (fd < 0 || write(fd, line, strlen(line)) < 0)
        abort();
    close(fd);
}

int fsync(int fd)
{
    char link[64], path[4096] = "";
    snprintf(link, sizeof link, "/proc/self/fd/%d", fd);
    if (readlink(link, path, sizeof path - 1) < 0)
        abort();
    usleep(500000);
    note("fsync", path);
    return (int)syscall(SYS_fsync, fd);
}

int renameat(int from_fd, const char *from, int to_fd, const char *to)
{
    note("rename to", to);
    return (int)syscall(SYS_renameat2, from_fd, from, to_fd, to, 0);
}
