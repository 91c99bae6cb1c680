#include "lists.h"

#include <ctype.h>
#include <errno.h>
#include <fcntl.h>
#include <inttypes.h>
#include <stdbool.h>
#include <stdio.h>
#include <stdlib.h>
#include <string.h>
#include <sys/random.h>
#include <unistd.h>

/* No plan, list or text that these programs read is as long. */
enum { FILE_MOST = 64 << 20, FIRST_ROOM = 4096, DIGITS = 20 };

struct bytes fresh_bytes(size_t len)
{
    struct bytes b = {calloc(len ? len : 1, 1), len};
    if (!b.at)
        fail(NOT_POSSIBLE, "no memory");
    return b;
}

struct bytes copy_of(struct bytes b)
{
    struct bytes copy = fresh_bytes(b.len);
    memcpy(copy.at, b.at, b.len);
    return copy;
}

/* ---- numbers in bytes */

uint64_t get_bytes(const uint8_t *at, size_t width)
{
    uint64_t x = 0;
    for (size_t j = width; j-- > 0;)
        x = x << 8 | at[j];
    return x;
}

void put_bytes(uint8_t *at, size_t width, uint64_t x)
{
    for (size_t j = 0; j < width; j++)
        at[j] = (uint8_t)(x >> (8 * j));
}

size_t bytes_of(size_t numbers)
{
    return numbers * POOL_NUMBER_BYTES;
}

size_t numbers_in(size_t bytes)
{
    return bytes / POOL_NUMBER_BYTES;
}

size_t count_of(struct bytes list)
{
    return numbers_in(list.len);
}

uint64_t get_number(struct bytes list, size_t i)
{
    return get_bytes(list.at + bytes_of(i), POOL_NUMBER_BYTES);
}

void put_number(struct bytes list, size_t i, uint64_t x)
{
    put_bytes(list.at + bytes_of(i), POOL_NUMBER_BYTES, x);
}

/* ---- numbers in decimal text */

/* A text, and how far it was read. */
struct reader {
    const char *name;
    struct bytes text;
    size_t at, line;
};

static void skip_blanks(struct reader *r)
{
    for (; r->at < r->text.len && r->text.at[r->at] && strchr(" \t\r\n", r->text.at[r->at]); r->at++)
        r->line += r->text.at[r->at] == '\n';
}

static uint64_t read_number(struct reader *r)
{
    uint64_t x = 0;
    size_t from = r->at;
    for (; r->at < r->text.len && isdigit(r->text.at[r->at]); r->at++) {
        x = 10 * x + (uint64_t)(r->text.at[r->at] - '0');
        if (x > NUMBER_MOST)
            fail(NOT_UNDERSTOOD, "%s, line %zu: a number is above %" PRIu64, r->name, r->line, NUMBER_MOST);
    }
    if (r->at > from)
        return x;
    if (r->at == r->text.len)
        fail(NOT_UNDERSTOOD, "%s, line %zu: no number after the last comma", r->name, r->line);
    unsigned char wrong = r->text.at[r->at];
    if (isprint(wrong))
        fail(NOT_UNDERSTOOD, "%s, line %zu: '%c' where a decimal number is expected", r->name, r->line, wrong);
    fail(NOT_UNDERSTOOD, "%s, line %zu: byte %u where a decimal number is expected", r->name, r->line, wrong);
}

struct bytes numbers_of(const char *name, struct bytes text)
{
    struct bytes list = fresh_bytes(bytes_of(text.len / 2 + 1)); /* two numbers have a byte between them */
    struct reader r = {name, text, 0, 1};
    size_t count = 0;
    skip_blanks(&r);
    while (r.at < text.len) {
        put_number(list, count++, read_number(&r));
        skip_blanks(&r);
        if (r.at < text.len && text.at[r.at] == ',') {
            r.at++;
            skip_blanks(&r);
            if (r.at == text.len)
                read_number(&r);
        }
    }
    list.len = bytes_of(count);
    return list;
}

struct bytes text_of(struct bytes list)
{
    struct bytes text = fresh_bytes(count_of(list) * (DIGITS + 1) + 1);
    text.len = 0;
    for (size_t i = 0; i < count_of(list); i++)
        text.len += (size_t)sprintf((char *)text.at + text.len, "%" PRIu64 "\n", get_number(list, i));
    return text;
}

/* ---- random numbers */

/* Uniform below p: of 32 bits, those from the largest multiple of p on are drawn again. */
static uint64_t draw_below(uint64_t p)
{
    const uint64_t all = UINT64_C(1) << 32;
    for (;;) {
        uint32_t x;
        ssize_t got = getrandom(&x, sizeof x, 0);
        if (got < 0 && errno != EINTR)
            fail(NOT_POSSIBLE, "no random numbers: %s", strerror(errno));
        if (got == (ssize_t)sizeof x && x < all - all % p)
            return x % p;
    }
}

struct bytes draw_numbers(size_t count, uint64_t p)
{
    struct bytes list = fresh_bytes(bytes_of(count));
    for (size_t i = 0; i < count; i++)
        put_number(list, i, draw_below(p));
    return list;
}

/* ---- files */

int read_descriptor(int fd, struct bytes *all)
{
    size_t room = FIRST_ROOM;
    *all = fresh_bytes(room);
    all->len = 0;
    for (;;) {
        ssize_t got = read(fd, all->at + all->len, room - all->len);
        if (got < 0 && errno == EINTR)
            continue;
        if (got <= 0 || all->len + (size_t)got > FILE_MOST) {
            if (got == 0)
                return 1;
            if (got > 0)
                errno = EFBIG;
            free(all->at);
            return 0;
        }
        all->len += (size_t)got;
        if (all->len == room) {
            uint8_t *more = realloc(all->at, room *= 2);
            if (!more)
                fail(NOT_POSSIBLE, "no memory");
            all->at = more;
        }
    }
}

int read_file(const char *path, struct bytes *all)
{
    int fd = open(path, O_RDONLY);
    if (fd < 0)
        return 0;
    int ok = read_descriptor(fd, all), why = errno;
    close(fd);
    errno = why;
    return ok;
}

int write_all(int fd, struct bytes all)
{
    while (all.len) {
        ssize_t put = write(fd, all.at, all.len);
        if (put < 0 && errno == EINTR)
            continue;
        if (put <= 0)
            return 0;
        all.at += put;
        all.len -= (size_t)put;
    }
    return 1;
}

/* ---- mail */

struct part part_for(unsigned to, unsigned seats, size_t written, const size_t *mail)
{
    if (!mail)
        return (struct part){written / seats * (to - 1), written / seats};
    struct part p = {0, mail[to - 1] / seats};
    for (unsigned i = 1; i < to; i++)
        p.at += mail[i - 1] / seats;
    return p;
}
