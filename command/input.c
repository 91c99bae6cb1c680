/* What a subcommand reads. */
#include <ctype.h>
#include <errno.h>
#include <stdlib.h>
#include <string.h>
#include <unistd.h>

#include "command.h"

static bool is_standard(const char *path)
{
    return !strcmp(path, "-");
}

static struct bytes standard_input(void)
{
    static bool taken;
    struct bytes all;
    if (taken)
        bad_usage("standard input can be read only once");
    taken = true;
    if (!read_descriptor(STDIN_FILENO, &all))
        fail(NOT_POSSIBLE, "cannot read standard input: %s", strerror(errno));
    return all;
}

struct bytes input(const char *path)
{
    struct bytes all;
    if (is_standard(path))
        return standard_input();
    if (!read_file(path, &all))
        fail(NOT_POSSIBLE, "cannot read %s: %s", path, strerror(errno));
    return all;
}

struct bytes formula_of(const char *word)
{
    if (!is_standard(word) && !strpbrk(word, "./"))
        return copy_of((struct bytes){(uint8_t *)(uintptr_t)word, strlen(word)});
    struct bytes text;
    if (is_standard(word))
        text = standard_input();
    else if (!read_file(word, &text))
        fail(NOT_POSSIBLE, "cannot read %s: %s (a formula has no dot and no slash)", word, strerror(errno));
    if (text.len && text.at[text.len - 1] == '\n')
        text.len--;
    return text;
}

/* Whether a word is a list itself: it has nothing but digits, commas and blanks. */
static bool is_list(const char *word)
{
    return !word[strspn(word, "0123456789, \t\n")];
}

struct bytes list_of(const char *option, const char *word)
{
    if (is_list(word))
        return numbers_of(option, (struct bytes){(uint8_t *)(uintptr_t)word, strlen(word)});
    struct bytes text;
    if (is_standard(word)) {
        text = standard_input();
        word = "standard input";
    } else if (!read_file(word, &text)) {
        int why = errno;
        if (isdigit((unsigned char)word[0]) && why == ENOENT)
            fail(NOT_UNDERSTOOD, "%s: '%s' is neither a list of decimal numbers nor a file", option, word);
        fail(NOT_POSSIBLE, "cannot read %s: %s", word, strerror(why));
    }
    struct bytes list = numbers_of(word, text);
    free(text.at);
    return list;
}
