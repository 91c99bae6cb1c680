/* The command line of a subcommand. */
#include <stdlib.h>
#include <string.h>

#include "command.h"

enum { SET_SEATS = 16 }; /* a set is a 16-bit number */

/* The option that a word names, or null; after is the value that stands in the word itself, or null. */
static const struct option *option_of(const struct option *options, const char *word, const char **after)
{
    *after = NULL;
    for (const struct option *o = options; o->name; o++) {
        size_t len = strlen(o->name);
        if (o->letter && word[1] == o->letter && !word[2])
            return o;
        if (word[1] != '-' || strncmp(word + 2, o->name, len))
            continue;
        if (word[2 + len] == '=')
            *after = word + 2 + len + 1;
        if (!word[2 + len] || *after)
            return o;
    }
    return NULL;
}

/* Takes one option; answers whether its value was the word after it. */
static bool take_option(const struct option *options, const char *word, const char *next)
{
    const char *after;
    const struct option *o = option_of(options, word, &after);
    if (!o)
        bad_usage("there is no option %s", word);
    if (o->flag) {
        if (after)
            bad_usage("--%s takes no value", o->name);
        *o->flag = true;
        return false;
    }
    if (*o->value)
        bad_usage("--%s stands twice", o->name);
    if (!after && !next)
        bad_usage("--%s needs a value", o->name);
    *o->value = after ? after : next;
    return !after;
}

void read_operands(char **args, const struct operand *operands, const struct option *options)
{
    bool only_operands = false;
    const struct operand *next = operands;
    for (; *args; args++) {
        const char *word = *args;
        if (!only_operands && !strcmp(word, "--"))
            only_operands = true;
        else if (!only_operands && word[0] == '-' && word[1])
            args += take_option(options, word, args[1]);
        else if (!next->name)
            bad_usage("'%s' is one word too many", word);
        else
            *next++->value = word;
    }
    if (next->name)
        bad_usage("the %s is missing", next->name);
    for (const struct option *o = options; o->name; o++)
        if (o->needed && !*o->value)
            bad_usage("--%s is missing", o->name);
}

void read_words(char **args, const char *operand_name, const char **operand, const struct option *options)
{
    const struct operand one[] = {{operand_name, operand}, {0}};
    read_operands(args, one, options);
}

uint32_t number_word(const char *option, const char *word)
{
    uint64_t x = 0;
    for (const char *at = word; *at; at++) {
        x = 10 * x + (uint64_t)(*at - '0');
        if (*at < '0' || *at > '9' || x > UINT32_MAX)
            bad_usage("%s: '%s' is no decimal number up to %u", option, word, UINT32_MAX);
    }
    if (!*word)
        bad_usage("%s: the number is missing", option);
    return (uint32_t)x;
}

struct plan_numbers plan_numbers_of(const struct plan_words *words)
{
    struct plan_numbers numbers;
    numbers.n = number_word("--seats", words->seats);
    numbers.t = number_word("--threshold", words->threshold);
    numbers.p = number_word("--prime", words->prime);
    return numbers;
}

uint16_t set_of(const char *word)
{
    struct bytes text = {(uint8_t *)(uintptr_t)word, strlen(word)};
    struct bytes seats = numbers_of("--set", text);
    uint16_t set = 0;
    for (size_t i = 0; i < count_of(seats); i++) {
        uint64_t seat = get_number(seats, i);
        if (seat < 1 || seat > SET_SEATS)
            bad_usage("--set: a set names seats 1 to %d", SET_SEATS);
        set |= (uint16_t)(1u << (seat - 1));
    }
    free(seats.at);
    return set;
}
