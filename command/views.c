/* Views as tables: a line for each round, a column for each sender, one view beside the other. */
#include <inttypes.h>
#include <string.h>

#include "command.h"
#include "pool.h"
#include "seats.h"

enum { LABEL = 24, LEAST_WIDTH = 2, DIGITS = 20 };

struct table {
    FILE *to;
    const struct plan *plan;
    const struct bytes *views;
    size_t count;
    int width, margin; /* of a column, and before a view's columns */
    unsigned seat;     /* the member whose table it is */
    size_t at;         /* how far the views have been shown; they have the same layout */
    int blanks;        /* that stand before the next text of a line */
};

/* A line of the table: which bytes of a view stand in each column. Its own numbers stand in the member's own column alone. */
struct line {
    char label[LABEL + 1];
    bool own;
    struct part cells[MAX_SEATS];
};

static void put(struct table *t, int width, const char *text)
{
    put_right(t->to, &t->blanks, width, text);
}

static void end_line(struct table *t)
{
    fputc('\n', t->to);
    t->blanks = 0;
}

static void put_label(struct table *t, const char *label)
{
    t->blanks += 2;
    put(t, (int)strlen(label), label);
    t->blanks += LABEL - (int)strlen(label);
}

/* Begins a view's columns: a bar between two views, and blanks so that the view's title has room. */
static void begin_view(struct table *t, size_t view)
{
    if (view)
        put(t, 3, "|");
    t->blanks += t->margin;
}

/* Number i of a cell, or a dash for a sender that sent nothing, or nothing. */
static void put_cell(struct table *t, const struct line *line, size_t view, unsigned seat, size_t i)
{
    struct part p = line->cells[seat - 1];
    struct bytes list = {t->views[view].at + p.at, p.len};
    char text[DIGITS + 1] = "";
    if (i < count_of(list))
        snprintf(text, sizeof text, "%" PRIu64, get_number(list, i));
    else if (i == 0 && (!line->own || seat == t->seat))
        strcpy(text, "-");
    put(t, t->width, text);
}

/* A line is as high as its longest cell has numbers. */
static void print_line(struct table *t, const struct line *line)
{
    size_t height = 1;
    for (unsigned s = 0; s < t->plan->seats; s++)
        if (numbers_in(line->cells[s].len) > height)
            height = numbers_in(line->cells[s].len);
    for (size_t i = 0; i < height; i++) {
        put_label(t, i ? "" : line->label);
        for (size_t v = 0; v < t->count; v++) {
            begin_view(t, v);
            for (unsigned s = 1; s <= t->plan->seats; s++)
                put_cell(t, line, v, s, i);
        }
        end_line(t);
    }
}

/* A line above the views' columns: each view's title. */
static void print_titles(struct table *t, const char *const *titles)
{
    put_label(t, "");
    for (size_t v = 0; v < t->count; v++) {
        begin_view(t, v);
        put(t, (int)t->plan->seats * t->width, titles[v]);
    }
    end_line(t);
}

static void print_senders(struct table *t)
{
    char number[DIGITS + 1];
    put_label(t, "from seat");
    for (size_t v = 0; v < t->count; v++) {
        begin_view(t, v);
        for (unsigned s = 1; s <= t->plan->seats; s++) {
            snprintf(number, sizeof number, "%u", s);
            put(t, t->width, number);
        }
    }
    end_line(t);
}

/* The member's own numbers, of which the view has the next so many bytes. */
static void print_own(struct table *t, const char *label, size_t len)
{
    struct line line = {.own = true};
    snprintf(line.label, sizeof line.label, "%s", label);
    line.cells[t->seat - 1] = (struct part){t->at, len};
    print_line(t, &line);
    t->at += len;
}

/* A round's mail, the senders ascending. */
static void print_round(struct table *t, unsigned round)
{
    struct line line = {.own = false};
    int len = snprintf(line.label, sizeof line.label, "round %u, ", round);
    round_words(t->plan, round, line.label + len, sizeof line.label - (size_t)len);
    for (unsigned from = 1; from <= t->plan->seats; from++) {
        line.cells[from - 1] = (struct part){t->at, part_of(t->plan, from, t->seat, round).len};
        t->at += line.cells[from - 1].len;
    }
    print_line(t, &line);
}

/* Room for a title that is wider than its view's columns. */
static int margin_for(int columns, const char *const *titles, size_t count)
{
    int most = 0;
    for (size_t v = 0; titles && v < count; v++)
        if ((int)strlen(titles[v]) + 1 - columns > most)
            most = (int)strlen(titles[v]) + 1 - columns;
    return most;
}

/* The digits of the views' largest number, and at least of the largest below the prime: a record's numbers may have more. */
static int most_digits(const struct plan *plan, const struct bytes *views, size_t count)
{
    uint64_t most = plan->prime - 1;
    for (size_t v = 0; v < count; v++)
        for (size_t i = 0; i < count_of(views[v]); i++)
            if (get_number(views[v], i) > most)
                most = get_number(views[v], i);
    return snprintf(NULL, 0, "%" PRIu64, most);
}

void print_views(FILE *to, const struct plan *plan, uint16_t set, const struct bytes *views, const char *const *titles, size_t count)
{
    int digits = most_digits(plan, views, count);
    struct table t = {.to = to, .plan = plan, .views = views, .count = count, .width = (digits < LEAST_WIDTH ? LEAST_WIDTH : digits) + 2};
    t.margin = margin_for((int)plan->seats * t.width, titles, count);
    for (t.seat = 1; t.seat <= plan->seats; t.seat++) {
        if (!(set >> (t.seat - 1) & 1))
            continue;
        fprintf(to, "\nWhat seat %u holds and receives\n", t.seat);
        if (titles)
            print_titles(&t, titles);
        print_senders(&t);
        print_own(&t, "its figures", seat_size(plan, t.seat, POOL_SEAT_FIGURES));
        print_own(&t, "its coins", seat_size(plan, t.seat, POOL_SEAT_COINS));
        for (unsigned round = 0; round + 1 < plan->calls; round++)
            print_round(&t, round);
        print_own(&t, "its results", written_size(plan, t.seat, plan->calls - 1));
    }
}
