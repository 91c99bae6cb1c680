/* What a subcommand writes. */
#include <errno.h>
#include <fcntl.h>
#include <stdlib.h>
#include <string.h>
#include <sys/stat.h>
#include <unistd.h>

#include "command.h"

void open_report(struct report *r)
{
    r->to = open_memstream(&r->text, &r->len);
    if (!r->to)
        fail(NOT_POSSIBLE, "no memory");
}

struct bytes close_text(struct report *r)
{
    bool whole = !ferror(r->to);
    if (fclose(r->to) || !whole)
        fail(NOT_POSSIBLE, "no memory");
    return (struct bytes){(uint8_t *)r->text, r->len};
}

void close_report(struct report *r, const char *path)
{
    struct bytes all = close_text(r);
    write_output(path ? path : "-", all);
    free(all.at);
}

/* The mode of a file that is to be replaced, or of a new one. */
static mode_t mode_for(const struct stat *old)
{
    mode_t mask = umask(0);
    umask(mask);
    return old ? old->st_mode & 07777 : 0666 & ~mask;
}

static void expect_written(const char *path, int why)
{
    if (why)
        fail(NOT_POSSIBLE, "cannot write %s: %s", path, strerror(why));
}

/* Writes a file beside the one to be replaced, and renames it when all of it stands on the disk. */
static void replace(const char *path, const struct stat *old, struct bytes all)
{
    size_t room = strlen(path) + sizeof ".XXXXXX";
    char *beside = (char *)fresh_bytes(room).at;
    snprintf(beside, room, "%s.XXXXXX", path);
    int fd = mkstemp(beside);
    if (fd < 0)
        expect_written(path, errno);
    int why = !write_all(fd, all) || fchmod(fd, mode_for(old)) || fsync(fd) ? errno : 0;
    if (close(fd) && !why)
        why = errno;
    if (!why && rename(beside, path))
        why = errno;
    if (why)
        unlink(beside);
    expect_written(path, why);
    free(beside);
}

/* A device or a pipe has no contents to replace. */
static void write_device(const char *path, struct bytes all)
{
    int fd = open(path, O_WRONLY);
    int why = fd < 0 || !write_all(fd, all) ? errno : 0;
    if (fd >= 0 && close(fd) && !why)
        why = errno;
    expect_written(path, why);
}

void write_output(const char *path, struct bytes all)
{
    struct stat old;
    if (!strcmp(path, "-")) {
        expect_written("standard output", write_all(STDOUT_FILENO, all) ? 0 : errno);
        return;
    }
    if (stat(path, &old)) {
        replace(path, NULL, all);
    } else if (!S_ISREG(old.st_mode)) {
        write_device(path, all);
    } else {
        char *target = realpath(path, NULL); /* the file itself, where path is a link to it */
        expect_written(path, target ? 0 : errno);
        replace(target, &old, all);
        free(target);
    }
}

void write_and_report(const char *path, struct bytes all, struct report *r)
{
    write_output(path, all);
    if (strcmp(path, "-")) {
        close_report(r, NULL);
    } else {
        fclose(r->to);
        free(r->text);
    }
}

void put_right(FILE *to, int *blanks, int width, const char *text)
{
    *blanks += width - (int)strlen(text);
    if (!*text)
        return;
    fprintf(to, "%*s%s", *blanks, "", text);
    *blanks = 0;
}
