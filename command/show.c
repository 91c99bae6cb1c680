/* pool show: a plan in words, or as a picture. */
#include <stdarg.h>

#include "command.h"
#include "dot.h"
#include "plan.h"
#include "pool.h"

/* ---- words in lines */

enum { WIDTH = 90, INDENT = 9 };

/* A list of words that goes on in the next line where it gets long. */
struct words {
    FILE *to;
    size_t count, column;
};

__attribute__((format(printf, 2, 3))) static void say(struct words *w, const char *format, ...)
{
    char words[80];
    va_list args;
    va_start(args, format);
    int len = vsnprintf(words, sizeof words, format, args);
    va_end(args);
    if (w->count++)
        w->column += (size_t)fprintf(w->to, ",");
    if (w->column + 1 + (size_t)len > WIDTH)
        w->column = (size_t)fprintf(w->to, "\n%*s", INDENT - 1, "") - 1;
    w->column += (size_t)fprintf(w->to, " %s", words);
}

static struct words begin(FILE *to, const char *name)
{
    return (struct words){to, 0, (size_t)fprintf(to, "  %-*s", INDENT - 3, name)};
}

static void end(struct words *w)
{
    fprintf(w->to, "%s\n", w->count ? "" : " nothing");
}

/* ---- a seat */

static void show_gives(FILE *to, const struct plan *plan, unsigned seat)
{
    struct words w = begin(to, "gives");
    for (size_t k = 0; k < plan->figure_count; k++)
        if (plan->figures[k].seat == seat && !is_draw(plan, k))
            say(&w, "figure %zu (wire %zu)", k, plan->figures[k].wire);
    end(&w);
}

static void show_draws(FILE *to, const struct plan *plan, unsigned seat)
{
    size_t coins = numbers_in(seat_size(plan, seat, POOL_SEAT_COINS));
    struct words w = begin(to, "draws");
    if (coins)
        say(&w, "%zu coin%s", coins, plural(coins));
    for (size_t k = 0; k < plan->figure_count; k++)
        if (plan->figures[k].seat == seat && is_draw(plan, k))
            say(&w, "figure %zu (wire %zu)", k, plan->figures[k].wire);
    end(&w);
}

static void show_spends(FILE *to, const struct plan *plan)
{
    struct words w = begin(to, "spends");
    say(&w, "%zu triple%s", plan->triple_count, plural(plan->triple_count));
    end(&w);
}

/* Calls in which a seat sends equally much stand together. */
static void show_sends(FILE *to, const struct plan *plan, unsigned seat)
{
    struct words w = begin(to, "sends");
    size_t all = sent_by(plan, seat);
    if (all)
        w.column += (size_t)fprintf(to, " %zu number%s:", all, plural(all));
    unsigned last = plan->calls - 1, next;
    for (unsigned call = 0; call < last; call = next) {
        size_t bytes = written_size(plan, seat, call);
        for (next = call + 1; next < last && written_size(plan, seat, next) == bytes; next++)
            ;
        if (bytes && next == call + 1)
            say(&w, "%zu in call %u", numbers_in(bytes), call);
        else if (bytes)
            say(&w, "%zu in each of calls %u %s %u", numbers_in(bytes), call, next == call + 2 ? "and" : "to", next - 1);
    }
    end(&w);
}

static void show_gets(FILE *to, const struct plan *plan, unsigned seat)
{
    struct words w = begin(to, "gets");
    for (size_t o = 0; o < plan->out_count; o++)
        if (plan->outs[o].seat == seat)
            say(&w, "out %zu (wire %u)", o, plan->outs[o].wire);
    end(&w);
}

/* ---- the plan */

static void show_head(FILE *to, const struct plan *plan)
{
    fprintf(to, "version    %u\n", plan->version);
    fprintf(to, "seats      %u\n", plan->seats);
    fprintf(to, "threshold  %u, the most seats that may put their views together\n", plan->threshold);
    fprintf(to, "prime      %u\n", plan->prime);
    fprintf(to, "calls      %u a seat, numbered 0 to %u\n", plan->calls, plan->calls - 1);
}

static void show_words(FILE *to, const struct plan *plan)
{
    show_head(to, plan);
    fprintf(to, "\nwire  made by gate\n");
    for (size_t g = 0; g < plan->gate_count; g++) {
        fprintf(to, "%4zu  ", g);
        print_gate(to, plan, g);
        fputc('\n', to);
    }
    fprintf(to, plan->out_count ? "\n out  goes to  value of\n" : "\nno outs\n");
    for (size_t o = 0; o < plan->out_count; o++)
        fprintf(to, "%4zu  seat %-2u  wire %u\n", o, plan->outs[o].seat, plan->outs[o].wire);
    for (unsigned seat = 1; seat <= plan->seats; seat++) {
        fprintf(to, "\nseat %u\n", seat);
        if (plan->chosen)
            fprintf(to, "  point  %u\n", plan->points[seat - 1]);
        show_gives(to, plan, seat);
        show_draws(to, plan, seat);
        if (plan->triple_count)
            show_spends(to, plan);
        show_sends(to, plan, seat);
        show_gets(to, plan, seat);
    }
}

static void show(char **args)
{
    const char *path = NULL, *output = NULL;
    bool dot = false;
    const struct option options[] = {{.name = "dot", .flag = &dot}, {.name = "output", .letter = 'o', .value = &output}, {0}};
    read_words(args, "plan", &path, options);
    struct plan plan = open_plan(path);
    ask_sizes(&plan);
    struct report r;
    open_report(&r);
    if (dot)
        draw(r.to, &plan);
    else
        show_words(r.to, &plan);
    close_report(&r, output);
    close_plan(&plan);
}

const struct command show_command = {
    .name = "show",
    .line = "a plan in words, or as a Graphviz picture",
    .usage = "[--dot] [--output FILE] PLAN",
    .help = "Prints the plan in words: its seats, threshold and prime; the gate that makes each wire; to\n"
            "whom each out goes; and for each seat which figures it gives, how many coins it draws, and\n"
            "which figures of random wires, how many triples it spends, how many numbers it sends in\n"
            "which call, and which outs it gets.\n"
            "\n"
            "  --dot               print a picture instead, for Graphviz (dot -Tsvg): inputs and outs in\n"
            "                      the colour of their seat, and a rank for each round\n"
            "  -o, --output FILE   write there instead of standard output\n",
    .run = show,
};
