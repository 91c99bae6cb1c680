/* pool read: what a stored run's seats hold and receive; of all seats, or of one. */
#include <stdlib.h>

#include "command.h"
#include "plan.h"
#include "pool.h"
#include "seats.h"

static struct bytes all_bodies(const struct plan *plan, struct bytes record)
{
    struct bytes numbers = fresh_bytes(value(pool_record_size(plan->file.at, plan->file.len)) - POOL_RECORD_ENTRY * plan->seats);
    value(pool_record_read(plan->file.at, plan->file.len, record.at, record.len, numbers.at, numbers.len));
    return numbers;
}

/* The bytes of a seat's body, as the record's contents have them. Where they have none, the library refuses record or seat before it looks at
 * a length. */
static size_t body_size(struct bytes record, uint16_t seat)
{
    if (seat < 1 || record.len < (size_t)POOL_RECORD_ENTRY * seat)
        return 0;
    uint64_t len = get_bytes(record.at + POOL_RECORD_ENTRY * (seat - 1u) + POOL_NUMBER_BYTES, POOL_NUMBER_BYTES);
    return len < record.len ? (size_t)len : 0;
}

static struct bytes body_of(const struct plan *plan, struct bytes record, uint16_t seat)
{
    struct bytes numbers = fresh_bytes(body_size(record, seat));
    value(pool_record_read_seat(plan->file.at, plan->file.len, record.at, record.len, seat, numbers.at, numbers.len));
    return numbers;
}

/* A seat's number as the library takes it; one with no room there is no seat either. */
static uint16_t seat_word(const char *word)
{
    uint32_t seat = number_word("--seat", word);
    return seat > UINT16_MAX ? UINT16_MAX : (uint16_t)seat;
}

static void print_tables(const struct plan *plan, uint16_t seat, struct bytes numbers, const char *output)
{
    uint16_t set = (uint16_t)(seat ? 1u << (seat - 1) : (1u << plan->seats) - 1);
    size_t count = count_of(numbers);
    struct report r;
    open_report(&r);
    if (seat)
        fprintf(r.to, "%zu number%s of seat %u\n", count, plural(count), seat);
    else
        fprintf(r.to, "%zu number%s of %u seat%s\n", count, plural(count), plan->seats, plural(plan->seats));
    print_views(r.to, plan, set, &numbers, NULL, 1);
    close_report(&r, output);
}

static void print_list(struct bytes numbers, const char *output)
{
    struct bytes text = text_of(numbers);
    write_output(output ? output : "-", text);
    free(text.at);
}

static void read_record(char **args)
{
    const char *path = NULL, *record_path = NULL, *word = NULL, *output = NULL;
    bool list = false;
    const struct operand operands[] = {{"plan", &path}, {"record", &record_path}, {0}};
    const struct option options[] = {
        {.name = "seat", .letter = 's', .value = &word},
        {.name = "list", .flag = &list},
        {.name = "output", .letter = 'o', .value = &output},
        {0},
    };
    read_operands(args, operands, options);
    uint16_t seat = word ? seat_word(word) : 0;
    struct plan plan = open_plan(path);
    struct bytes record = input(record_path), numbers = word ? body_of(&plan, record, seat) : all_bodies(&plan, record);
    if (list) {
        print_list(numbers, output);
    } else {
        ask_sizes(&plan);
        print_tables(&plan, seat, numbers, output);
    }
    free(record.at);
    free(numbers.at);
    close_plan(&plan);
}

const struct command read_command = {
    .name = "read",
    .line = "what the seats of a stored run hold and receive",
    .usage = "PLAN RECORD [--seat SEAT] [--list] [--output FILE]",
    .help = "Reads a run that `pool record` has stored and prints what its seats hold and receive: a table\n"
            "for each, with a line for each round and a column for each sender. PLAN is the run's plan. A\n"
            "record whose contents do not fit is refused; the numbers are shown as they are stored, and\n"
            "no share is checked.\n"
            "\n"
            "  -s, --seat SEAT    that seat's alone\n"
            "  --list             the numbers alone, one a line, in stored order: a seat's figures, coins,\n"
            "                     each round's mail, results\n"
            "  -o, --output FILE  write there instead of standard output\n",
    .run = read_record,
};
