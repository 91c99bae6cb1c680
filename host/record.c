#include "record.h"

#include <errno.h>
#include <fcntl.h>
#include <openssl/crypto.h>
#include <openssl/evp.h>
#include <stdio.h>
#include <stdlib.h>
#include <string.h>
#include <sys/file.h>
#include <sys/stat.h>
#include <unistd.h>

static const char *home;
static int home_fd;
static const char first_line[] = "pool seat record 2\n";

/* So much of it do the records of all versions share. */
enum { FAMILY = sizeof "pool seat record " - 1 };

/* ---- files */

void take_home(const char *folder)
{
    home = folder;
    home_fd = open(folder, O_RDONLY | O_DIRECTORY | O_CLOEXEC);
    if (home_fd < 0)
        fail(NOT_POSSIBLE, "cannot open the folder %s: %s", folder, strerror(errno));
    if (flock(home_fd, LOCK_EX | LOCK_NB))
        refuse("another seat is at work in %s", folder);
    const char *const left[] = {"record.new", "record.old", "results.new", "results.old", "triples.old"}; /* by a seat killed while it replaced a file */
    for (size_t i = 0; i < sizeof left / sizeof *left; i++)
        wipe_file(left[i]);
}

const char *in_home(const char *name)
{
    static _Thread_local char path[4096];
    if ((size_t)snprintf(path, sizeof path, "%s/%s", home, name) >= sizeof path)
        fail(NOT_POSSIBLE, "a path is too long: %s/%s", home, name);
    return path;
}

static _Noreturn void cannot_write(const char *name)
{
    fail(NOT_POSSIBLE, "cannot write %s: %s", in_home(name), strerror(errno));
}

void wipe_file(const char *name)
{
    struct stat is;
    int fd = openat(home_fd, name, O_WRONLY | O_NOFOLLOW | O_CLOEXEC);
    if (fd < 0 && errno == ENOENT)
        return;
    if (fd < 0 || fstat(fd, &is))
        cannot_write(name);
    struct bytes zeros = fresh_bytes((size_t)is.st_size);
    if (!write_all(fd, zeros) || fsync(fd) || close(fd) || unlinkat(home_fd, name, 0))
        cannot_write(name);
    free(zeros.at);
}

/* The file's new bytes, beside it. */
static void write_new(const char *name, struct bytes all)
{
    char new[64];
    snprintf(new, sizeof new, "%s.new", name);
    int fd = openat(home_fd, new, O_WRONLY | O_CREAT | O_TRUNC | O_CLOEXEC, 0600);
    if (fd < 0 || !write_all(fd, all) || fsync(fd) || close(fd))
        cannot_write(new);
}

void lay_beside(const char *name, struct bytes all)
{
    write_new(name, all);
    if (fsync(home_fd))
        cannot_write(name);
}

/* The old file gets a second name before the new one takes its place, so that it can be overwritten, after a crash too. */
void put_in_place(const char *name)
{
    char new[64], old[64];
    snprintf(new, sizeof new, "%s.new", name);
    snprintf(old, sizeof old, "%s.old", name);
    if (faccessat(home_fd, new, F_OK, 0) && errno == ENOENT)
        return;
    if (linkat(home_fd, name, home_fd, old, 0) && errno != ENOENT)
        cannot_write(old);
    if (renameat(home_fd, new, home_fd, name) || fsync(home_fd))
        cannot_write(name);
    wipe_file(old);
}

void replace_file(const char *name, struct bytes all)
{
    write_new(name, all);
    put_in_place(name);
}

void wipe_bytes(struct bytes list)
{
    OPENSSL_cleanse(list.at, list.len);
    free(list.at);
}

/* ---- the record's bytes: a first line, parts, and the SHA-256 of all that */

static void put_part(struct bytes *to, struct bytes part)
{
    for (int i = 0; i < 4; i++)
        to->at[to->len++] = (uint8_t)(part.len >> (8 * i));
    memcpy(to->at + to->len, part.at, part.len);
    to->len += part.len;
}

static _Noreturn void damaged(void)
{
    refuse("%s is damaged. This run cannot go on from it: agree on a run with a new name, and start it in a new folder", in_home("record"));
}

/* The part at *at, in its place. */
static struct bytes next_part(struct bytes all, size_t *at)
{
    size_t len = 0;
    if (all.len - *at < 4)
        damaged();
    for (int i = 0; i < 4; i++)
        len |= (size_t)all.at[(*at)++] << (8 * i);
    if (all.len - *at < len)
        damaged();
    *at += len;
    return (struct bytes){all.at + *at - len, len};
}

/* The calls that send mail: all but the last. */
static unsigned sent_calls(const struct record *r)
{
    return r->next < r->calls ? r->next : r->calls - 1;
}

/* The numbers of a record: its seat, the next call, and two sets. */
enum { NUMBERS = 4 };

static void numbers_to(uint8_t at[SHORT * NUMBERS], const struct record *r)
{
    const unsigned numbers[NUMBERS] = {r->seat, r->next, r->finished, r->told};
    for (int i = 0; i < NUMBERS; i++)
        put_short(at + SHORT * i, numbers[i]);
}

static void digest_of(uint8_t digest[DIGEST], struct bytes all)
{
    if (!EVP_Digest(all.at, all.len, digest, NULL, EVP_sha256(), NULL))
        fail(NOT_POSSIBLE, "no SHA-256");
}

void keep_record(const struct record *r)
{
    uint8_t numbers[SHORT * NUMBERS];
    const struct bytes parts[] = {
        {(uint8_t *)r->run->name, strlen(r->run->name)},
        {(uint8_t *)(uintptr_t)r->run->plan_digest, DIGEST},
        {(uint8_t *)(uintptr_t)r->run->run, DIGEST},
        {numbers, sizeof numbers},
        {(uint8_t *)(uintptr_t)r->tokens, sizeof r->tokens},
        r->figures,
        r->coins,
        r->triples,
        r->state,
    };
    const size_t count = sizeof parts / sizeof *parts, line = sizeof first_line - 1;
    size_t room = line + DIGEST;
    numbers_to(numbers, r);
    for (size_t i = 0; i < count; i++)
        room += 4 + parts[i].len;
    for (unsigned call = 0; call < sent_calls(r); call++)
        room += 4 + r->sent[call].len;
    struct bytes all = fresh_bytes(room);
    memcpy(all.at, first_line, line);
    all.len = line;
    for (size_t i = 0; i < count; i++)
        put_part(&all, parts[i]);
    for (unsigned call = 0; call < sent_calls(r); call++)
        put_part(&all, r->sent[call]);
    digest_of(all.at + all.len, all);
    all.len += DIGEST;
    replace_file("record", all);
    wipe_bytes(all);
}

/* ---- reading it */

/* A record of another run is not this run's: its coins were drawn for that one. */
static void compare_run(const struct record *r, struct bytes name, struct bytes plan, struct bytes run)
{
    const struct description *d = r->run;
    const char *path = in_home("record");
    if (name.len != strlen(d->name) || memcmp(name.at, d->name, name.len))
        refuse("%s is of the run '%.*s', and the description is of the run '%s': give each run a folder of its own", path, (int)name.len,
               (char *)name.at, d->name);
    if (plan.len != DIGEST || memcmp(plan.at, d->plan_digest, DIGEST))
        refuse("%s is of a run '%s' with another plan: give this one a new name and a folder of its own", path, d->name);
    if (run.len != DIGEST || memcmp(run.at, d->run, DIGEST))
        refuse("%s is of a run '%s' with other seats or certificates, or by another version of this program: "
               "give this one a new name and a folder of its own", path, d->name);
}

static void read_numbers(struct record *r, struct bytes part)
{
    unsigned numbers[NUMBERS];
    if (part.len != SHORT * NUMBERS)
        damaged();
    for (int i = 0; i < NUMBERS; i++)
        numbers[i] = get_short(part.at + SHORT * i);
    if (numbers[0] != r->seat)
        refuse("%s is of seat %u, and this key is that of seat %u", in_home("record"), numbers[0], r->seat);
    r->next = numbers[1];
    r->finished = (uint16_t)numbers[2];
    r->told = (uint16_t)numbers[3];
    if (r->next > r->calls)
        damaged();
}

static void read_parts(struct record *r, struct bytes all)
{
    size_t at = sizeof first_line - 1;
    struct bytes name = next_part(all, &at), plan = next_part(all, &at), run = next_part(all, &at);
    compare_run(r, name, plan, run);
    read_numbers(r, next_part(all, &at));
    struct bytes tokens = next_part(all, &at);
    if (tokens.len != sizeof r->tokens)
        damaged();
    memcpy(r->tokens, tokens.at, tokens.len);
    r->figures = copy_of(next_part(all, &at));
    r->coins = copy_of(next_part(all, &at));
    r->triples = copy_of(next_part(all, &at));
    r->state = copy_of(next_part(all, &at));
    for (unsigned call = 0; call < sent_calls(r); call++)
        r->sent[call] = copy_of(next_part(all, &at));
    if (at != all.len)
        damaged();
}

bool open_record(struct record *r)
{
    struct bytes all;
    uint8_t digest[DIGEST];
    r->sent = (struct bytes *)fresh_bytes(r->calls * sizeof *r->sent).at;
    if (!read_file(in_home("record"), &all)) {
        if (errno != ENOENT)
            fail(NOT_POSSIBLE, "cannot read %s: %s", in_home("record"), strerror(errno));
        return false;
    }
    struct bytes body = {all.at, all.len - DIGEST};
    if (all.len >= sizeof first_line - 1 && memcmp(all.at, first_line, sizeof first_line - 1) && !memcmp(all.at, first_line, FAMILY))
        refuse("%s is by another version of this program: let that one end this run", in_home("record"));
    if (all.len < sizeof first_line - 1 + DIGEST || memcmp(all.at, first_line, sizeof first_line - 1))
        damaged();
    digest_of(digest, body);
    if (memcmp(digest, all.at + body.len, DIGEST))
        damaged();
    read_parts(r, body);
    wipe_bytes(all);
    return true;
}

static void forget(struct bytes *list)
{
    wipe_bytes(*list);
    *list = fresh_bytes(0);
}

void forget_secrets(struct record *r)
{
    forget(&r->figures);
    forget(&r->coins);
    forget(&r->triples);
    forget(&r->state);
    for (unsigned call = 0; call < sent_calls(r); call++)
        forget(&r->sent[call]);
}
