#include "description.h"

#include <ctype.h>
#include <errno.h>
#include <openssl/evp.h>
#include <stdarg.h>
#include <stdbool.h>
#include <stdio.h>
#include <stdlib.h>
#include <string.h>

enum { WORDS_MOST = 6 };

/* A line of the description: its words, and where it stands. */
struct entry {
    const char *path;
    size_t line;
    char *words[WORDS_MOST];
    size_t count;
};

static _Noreturn __attribute__((format(printf, 2, 3))) void wrong(const struct entry *e, const char *format, ...)
{
    char words[512];
    va_list args;
    va_start(args, format);
    vsnprintf(words, sizeof words, format, args);
    va_end(args);
    fail(NOT_UNDERSTOOD, "%s, line %zu: %s", e->path, e->line, words);
}

/* ---- digests */

void write_digest(char text[DIGEST_TEXT], const uint8_t *digest)
{
    for (int i = 0; i < DIGEST; i++)
        sprintf(text + 2 * i, "%02x", digest[i]);
}

/* 64 hexadecimal digits; colons between them, as OpenSSL prints them, are passed over. */
static void read_digest(const struct entry *e, const char *word, uint8_t digest[DIGEST])
{
    size_t digits = 0;
    memset(digest, 0, DIGEST);
    for (const char *at = word; *at; at++) {
        if (*at == ':')
            continue;
        if (!isxdigit((unsigned char)*at) || digits == 2 * DIGEST)
            wrong(e, "'%s' is no SHA-256: that has 64 hexadecimal digits", word);
        unsigned digit = isdigit((unsigned char)*at) ? (unsigned)(*at - '0') : (unsigned)(tolower((unsigned char)*at) - 'a' + 10);
        digest[digits / 2] = (uint8_t)(digest[digits / 2] << 4 | digit);
        digits++;
    }
    if (digits != 2 * DIGEST)
        wrong(e, "'%s' is no SHA-256: that has 64 hexadecimal digits, not %zu", word, digits);
}

/* ---- lines */

static void take_name(struct description *d, const struct entry *e)
{
    const char *name = e->words[1];
    if (d->name)
        wrong(e, "the run has a name already");
    if (strlen(name) > NAME_MOST)
        wrong(e, "the run's name has over %d letters", NAME_MOST);
    for (const char *at = name; *at; at++)
        if (!isalnum((unsigned char)*at) && !strchr("-_.", *at))
            wrong(e, "the run's name has letters, digits, '-', '_' and '.' alone");
    d->name = strdup(name);
}

static void take_plan(struct description *d, const struct entry *e)
{
    if (d->plan_path)
        wrong(e, "the plan stands twice");
    const char *slash = strrchr(e->path, '/');
    size_t folder = e->words[1][0] != '/' && slash ? (size_t)(slash + 1 - e->path) : 0;
    d->plan_path = (char *)fresh_bytes(folder + strlen(e->words[1]) + 1).at;
    memcpy(d->plan_path, e->path, folder);
    strcpy(d->plan_path + folder, e->words[1]);
    read_digest(e, e->words[2], d->plan_digest);
}

/* A decimal number from 1 to most. */
static unsigned small_number(const struct entry *e, const char *what, const char *word, unsigned most)
{
    char *end;
    unsigned long x = strtoul(word, &end, 10);
    if (!isdigit((unsigned char)*word) || *end || x < 1 || x > most)
        wrong(e, "'%s' is no %s: that is a number from 1 to %u", word, what, most);
    return (unsigned)x;
}

static void take_seat(struct description *d, const struct entry *e)
{
    unsigned seat = small_number(e, "seat", e->words[1], MOST_SEATS);
    struct place *place = d->places + seat;
    if (place->address)
        wrong(e, "seat %u stands twice", seat);
    small_number(e, "port", e->words[3], 65535);
    read_digest(e, e->words[4], place->fingerprint);
    unsigned other = seat_with(d, place->fingerprint);
    if (other)
        wrong(e, "seats %u and %u have the same fingerprint; each seat needs a key of its own", other, seat);
    place->address = strdup(e->words[2]);
    place->port = strdup(e->words[3]);
    d->seats += 1;
}

static const struct {
    const char *word;
    size_t count;
    const char *form;
    void (*take)(struct description *d, const struct entry *e);
} kinds[] = {
    {"run", 2, "run NAME", take_name},
    {"plan", 3, "plan FILE SHA-256", take_plan},
    {"seat", 5, "seat NUMBER ADDRESS PORT FINGERPRINT", take_seat},
};

static void take_line(struct description *d, struct entry *e)
{
    for (size_t i = 0; i < sizeof kinds / sizeof *kinds; i++) {
        if (strcmp(e->words[0], kinds[i].word))
            continue;
        if (e->count != kinds[i].count)
            wrong(e, "this line has to be: %s", kinds[i].form);
        kinds[i].take(d, e);
        return;
    }
    wrong(e, "a line begins with run, plan or seat, not with '%s'", e->words[0]);
}

static void take_lines(struct description *d, const char *path, char *text)
{
    struct entry e = {.path = path};
    char *next_line = text, *line;
    while ((line = strsep(&next_line, "\n"))) {
        char *rest = line, *word;
        e.line++;
        e.count = 0;
        line[strcspn(line, "#")] = 0;
        while ((word = strsep(&rest, " \t\r")))
            if (*word && e.count < WORDS_MOST)
                e.words[e.count++] = word;
        if (e.count)
            take_line(d, &e);
    }
}

/* ---- the whole */

unsigned seat_with(const struct description *d, const uint8_t *fingerprint)
{
    for (unsigned seat = 1; seat <= MOST_SEATS; seat++)
        if (d->places[seat].address && !memcmp(d->places[seat].fingerprint, fingerprint, DIGEST))
            return seat;
    return 0;
}

static void open_plan_file(struct description *d)
{
    uint8_t digest[DIGEST];
    char is[DIGEST_TEXT], says[DIGEST_TEXT];
    if (!read_file(d->plan_path, &d->plan))
        fail(NOT_POSSIBLE, "cannot read the plan %s: %s", d->plan_path, strerror(errno));
    if (!EVP_Digest(d->plan.at, d->plan.len, digest, NULL, EVP_sha256(), NULL))
        fail(NOT_POSSIBLE, "no SHA-256");
    if (!memcmp(digest, d->plan_digest, DIGEST))
        return;
    write_digest(is, digest);
    write_digest(says, d->plan_digest);
    refuse("%s is not this run's plan: its SHA-256 is\n%s, and the description says\n%s", d->plan_path, is, says);
}

/* What makes this run this one. A number's bytes are among it: programs whose lists differ in them cannot read each other's mail or record.
 * Addresses are not: a plant may move while a run is under way. */
static void name_run(struct description *d)
{
    const uint8_t width = POOL_NUMBER_BYTES;
    EVP_MD_CTX *sum = EVP_MD_CTX_new();
    bool ok = sum && EVP_DigestInit_ex(sum, EVP_sha256(), NULL) && EVP_DigestUpdate(sum, &width, sizeof width)
              && EVP_DigestUpdate(sum, d->name, strlen(d->name) + 1) && EVP_DigestUpdate(sum, d->plan_digest, DIGEST);
    for (unsigned seat = 1; seat <= d->seats; seat++)
        ok = ok && EVP_DigestUpdate(sum, d->places[seat].fingerprint, DIGEST);
    if (!ok || !EVP_DigestFinal_ex(sum, d->run, NULL))
        fail(NOT_POSSIBLE, "no SHA-256");
    EVP_MD_CTX_free(sum);
}

void open_description(struct description *d, const char *path)
{
    struct bytes text;
    memset(d, 0, sizeof *d);
    if (!read_file(path, &text))
        fail(NOT_POSSIBLE, "cannot read the description %s: %s", path, strerror(errno));
    char *copy = strndup((char *)text.at, text.len);
    if (!copy || strlen(copy) != text.len)
        fail(NOT_UNDERSTOOD, "%s is no text", path);
    take_lines(d, path, copy);
    free(copy);
    free(text.at);
    if (!d->name || !d->plan_path || !d->seats)
        fail(NOT_UNDERSTOOD, "%s: there is no line '%s'", path, !d->name ? "run" : !d->plan_path ? "plan" : "seat");
    for (unsigned seat = 1; seat <= d->seats; seat++)
        if (!d->places[seat].address)
            fail(NOT_UNDERSTOOD, "%s: it has %u seats, and none of them is seat %u", path, d->seats, seat);
    open_plan_file(d);
    name_run(d);
}
