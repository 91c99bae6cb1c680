/* pool charge: what each seat pays of the carrier's bill. */
#include <inttypes.h>
#include <stdlib.h>

#include "command.h"
#include "plan.h"
#include "pool.h"

static void print_parts(FILE *to, const struct plan *plan, struct bytes parts, uint64_t bill, uint32_t price)
{
    size_t all = 0;
    for (unsigned seat = 1; seat <= plan->seats; seat++) {
        uint64_t cents = get_number(parts, seat - 1);
        size_t sent = sent_by(plan, seat);
        fprintf(to, "seat %u pays %" PRIu64 " cent%s for %zu number%s\n", seat, cents, plural(cents), sent, plural(sent));
        all += sent;
    }
    fprintf(to, "the bill is %" PRIu64 " cent%s: %zu number%s at %" PRIu32 " cent%s for 1,000\n", bill, plural(bill), all, plural(all), price,
        plural(price));
}

static void charge(char **args)
{
    const char *path = NULL, *word = NULL;
    const struct option options[] = {{.name = "price", .letter = 'p', .value = &word, .needed = true}, {0}};
    read_words(args, "plan", &path, options);
    uint32_t price = number_word("--price", word);
    struct plan plan = open_plan(path);
    ask_sizes(&plan);
    struct bytes parts = fresh_bytes(bytes_of(plan.seats));
    uint64_t bill = value(pool_charge(plan.file.at, plan.file.len, price, parts.at, parts.len));
    struct report r;
    open_report(&r);
    print_parts(r.to, &plan, parts, bill, price);
    close_report(&r, NULL);
    free(parts.at);
    close_plan(&plan);
}

const struct command charge_command = {
    .name = "charge",
    .line = "what each seat pays of the carrier's bill for a run",
    .usage = "PLAN --price CENTS",
    .help = "Prints each seat's part of the carrier's bill for a run of the plan, in cents, and the bill:\n"
            "the numbers sent times the price, divided by 1,000 and rounded up. Each seat pays in\n"
            "proportion to the numbers that it sends, rounded down; the cents left over go to the\n"
            "greatest remainders, lower seats first among equals.\n"
            "\n"
            "  -p, --price CENTS   the price of 1,000 numbers, at most 1000000\n",
    .run = charge,
};
