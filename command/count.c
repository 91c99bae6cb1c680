/* pool count: how many settings of the others' coins lead to each view of a set. */
#include "count.h"

#include <inttypes.h>
#include <stdlib.h>
#include <string.h>

#include "command.h"
#include "pool.h"

static const char *const list_names[LISTS] = {"first", "second"};

/* ---- the library's rows */

/* The members' coins, in the whole list's order: those of the word after --coins, or fresh ones. */
static struct bytes members_coins(const struct plan *plan, uint16_t set, const char *word)
{
    size_t bytes = 0;
    if (word)
        return list_of("--coins", word);
    for (unsigned seat = 1; seat <= plan->seats; seat++)
        bytes += is_member(set, seat) ? seat_size(plan, seat, POOL_SEAT_COINS) : 0;
    return draw_numbers(numbers_in(bytes), plan->prime);
}

/* The rows of a list of figures. Where their size is refused, the call says what it refuses first. */
static struct bytes rows_of(const struct counted *c, struct bytes figures)
{
    const struct bytes *file = &c->plan->file;
    uint64_t size = pool_count_size(file->at, file->len, c->set);
    struct bytes rows = fresh_bytes(POOL_REFUSAL(size) ? 0 : POOL_VALUE(size));
    value(pool_count(file->at, file->len, c->set, figures.at, figures.len, c->coins.at, c->coins.len, rows.at, rows.len));
    return rows;
}

/* ---- what a view's numbers are */

/* The next so many bytes of a view. */
static void add_group(struct counted *c, struct group g, size_t bytes)
{
    g.at = c->view;
    g.count = numbers_in(bytes);
    c->view += g.count;
    if (g.count)
        c->groups[c->group_count++] = g;
}

static void add_groups(struct counted *c)
{
    const struct plan *plan = c->plan;
    c->groups = (struct group *)fresh_bytes(plan->seats * (plan->calls + 2) * sizeof *c->groups).at;
    for (unsigned seat = 1; seat <= plan->seats; seat++) {
        if (!is_member(c->set, seat))
            continue;
        add_group(c, (struct group){.kind = GROUP_FIGURES, .seat = seat}, seat_size(plan, seat, POOL_SEAT_FIGURES));
        add_group(c, (struct group){.kind = GROUP_COINS, .seat = seat}, seat_size(plan, seat, POOL_SEAT_COINS));
        for (unsigned round = 0; round + 1 < plan->calls; round++)
            add_group(c, (struct group){.kind = GROUP_MAIL, .seat = seat, .round = round}, mail_size(plan, seat, round + 1));
        add_group(c, (struct group){.kind = GROUP_RESULTS, .seat = seat}, written_size(plan, seat, plan->calls - 1));
    }
}

unsigned sender_of(const struct plan *plan, const struct group *g, size_t i)
{
    unsigned from = 1;
    for (size_t sent = 0; from < plan->seats; from++) {
        sent += numbers_in(part_of(plan, from, g->seat, g->round).len);
        if (i < sent)
            break;
    }
    return from;
}

void group_words(const struct plan *plan, const struct group *g, char *words, size_t room)
{
    static const char *const own[] = {[GROUP_FIGURES] = "figures", [GROUP_COINS] = "coins", [GROUP_RESULTS] = "results"};
    if (g->kind != GROUP_MAIL) {
        snprintf(words, room, "%s", own[g->kind]);
        return;
    }
    int len = snprintf(words, room, "round %u, ", g->round);
    round_words(plan, g->round, words + len, room - (size_t)len);
}

/* ---- views of both lists in one row of lines */

uint64_t view_number(const struct line *line, size_t i)
{
    return get_bytes(line->view + bytes_of(i), POOL_NUMBER_BYTES);
}

struct line row_at(const struct counted *c, size_t list, size_t row)
{
    struct line line = {0};
    if (list >= c->lists || row >= c->settings)
        return line;
    const uint8_t *at = c->rows[list].at + bytes_of(row * (c->view + 1));
    line.counts[list] = get_bytes(at + bytes_of(c->view), POOL_NUMBER_BYTES);
    line.view = line.counts[list] ? at : NULL;
    return line;
}

/* Below 0, 0 or above 0: where a view stands to another; before it where there is no other. */
static int order_of(const struct counted *c, const struct line *a, const struct line *b)
{
    if (!a->view || !b->view)
        return a->view ? -1 : 1;
    for (size_t i = 0; i < c->view; i++)
        if (view_number(a, i) != view_number(b, i))
            return view_number(a, i) < view_number(b, i) ? -1 : 1;
    return 0;
}

static void join_rows(struct counted *c)
{
    size_t rows[LISTS] = {0};
    c->lines = (struct line *)fresh_bytes(c->lists * c->settings * sizeof *c->lines).at;
    for (;;) {
        struct line a = row_at(c, 0, rows[0]), b = row_at(c, 1, rows[1]);
        if (!a.view && !b.view)
            return;
        int order = order_of(c, &a, &b);
        struct line *line = c->lines + c->line_count++;
        *line = order <= 0 ? a : b;
        if (order == 0)
            line->counts[1] = b.counts[1];
        rows[0] += order <= 0;
        rows[1] += order >= 0;
    }
}

static void count_views(struct counted *c)
{
    for (size_t list = 0; list < c->lists; list++)
        c->rows[list] = rows_of(c, c->figures[list]);
    add_groups(c);
    c->settings = count_of(c->rows[0]) / (c->view + 1);
    join_rows(c);
}

static void free_counted(struct counted *c)
{
    for (size_t list = 0; list < c->lists; list++) {
        free(c->figures[list].at);
        free(c->rows[list].at);
    }
    free(c->coins.at);
    free(c->groups);
    free(c->lines);
}

/* ---- what the counts say */

struct spread spread_of(const struct counted *c, size_t list)
{
    struct spread s = {0};
    for (size_t i = 0; i < c->line_count; i++) {
        uint64_t count = c->lines[i].counts[list];
        if (!count)
            continue;
        s.least = !s.views || count < s.least ? count : s.least;
        s.most = count > s.most ? count : s.most;
        s.views++;
    }
    return s;
}

/* Whether the lists' first views differ at a group of this kind, as all their views do then. */
static bool own_differs(const struct counted *c, enum group_kind kind)
{
    struct line a = row_at(c, 0, 0), b = row_at(c, 1, 0);
    for (size_t g = 0; g < c->group_count; g++)
        for (size_t i = 0; i < c->groups[g].count; i++)
            if (c->groups[g].kind == kind && view_number(&a, c->groups[g].at + i) != view_number(&b, c->groups[g].at + i))
                return true;
    return false;
}

enum verdict verdict_of(const struct counted *c)
{
    bool same = true;
    for (size_t i = 0; i < c->line_count; i++)
        same = same && c->lines[i].counts[0] == c->lines[i].counts[1];
    if (same)
        return SAME;
    if (own_differs(c, GROUP_FIGURES))
        return OTHER_FIGURES;
    return own_differs(c, GROUP_RESULTS) ? OTHER_RESULTS : DIFFERENT;
}

static size_t size_of_set(uint16_t set)
{
    return (size_t)__builtin_popcount(set);
}

void print_set(FILE *to, uint16_t set)
{
    size_t left = size_of_set(set);
    fprintf(to, "%s", left == 0 ? "the empty set" : left == 1 ? "seat " : "seats ");
    for (unsigned seat = 1; left > 0; seat++)
        if (is_member(set, seat)) {
            left--;
            fprintf(to, "%u%s", seat, left == 0 ? "" : left == 1 ? " and " : ", ");
        }
}

void print_spread(FILE *to, const struct counted *c, size_t list)
{
    struct spread s = spread_of(c, list);
    fprintf(to, "%zu setting%s lead%s to %zu view%s", c->settings, plural(c->settings), c->settings == 1 ? "s" : "", s.views, plural(s.views));
    if (s.least != s.most)
        fprintf(to, ", between %" PRIu64 " and %" PRIu64 " to each", s.least, s.most);
    else if (s.views > 1)
        fprintf(to, ", %" PRIu64 " to each", s.least);
}

/* ---- the table */

enum { TITLE = 40, GAP = 2 };

/* How wide a group's columns are, and the blanks before them where its title is wider than all of them. */
struct place {
    int column, margin;
};

struct table {
    FILE *to;
    const struct counted *c;
    struct place *places; /* by group */
    int count;            /* the width of a column of counts */
    int blanks;           /* that stand before the next text of a line */
};

static void put(struct table *t, int width, const char *text)
{
    put_right(t->to, &t->blanks, width, text);
}

static void put_digits(struct table *t, int width, uint64_t x)
{
    char text[24];
    snprintf(text, sizeof text, "%" PRIu64, x);
    put(t, width, text);
}

static void end_line(struct table *t)
{
    fputc('\n', t->to);
    t->blanks = 0;
}

static int larger(int a, int b)
{
    return a > b ? a : b;
}

/* What stands above a column of mail; nothing above another. */
static void sender_words(const struct counted *c, const struct group *g, size_t i, char *words, size_t room)
{
    *words = 0;
    if (g->kind == GROUP_MAIL)
        snprintf(words, room, "from %u", sender_of(c->plan, g, i));
}

static struct place place_of(const struct counted *c, const struct group *g)
{
    char title[TITLE], sender[TITLE];
    group_words(c->plan, g, title, sizeof title);
    sender_words(c, g, g->count - 1, sender, sizeof sender);
    struct place p = {.column = larger(digits_of(c->plan), (int)strlen(sender)) + GAP};
    p.margin = larger((int)strlen(title) + GAP - (int)g->count * p.column, 0);
    return p;
}

static int group_width(const struct table *t, size_t g)
{
    return t->places[g].margin + (int)t->c->groups[g].count * t->places[g].column;
}

static bool begins_seat(const struct counted *c, size_t g)
{
    return g == 0 || c->groups[g].seat != c->groups[g - 1].seat;
}

/* A bar before another member's numbers, and before the counts. */
static void put_bar(struct table *t, size_t g)
{
    if (g && (g == t->c->group_count || begins_seat(t->c, g)))
        put(t, GAP + 1, "|");
}

/* A line above the numbers: in each group a text at its right, the seat or the title. */
static void put_above(struct table *t, bool seats)
{
    char words[TITLE];
    for (size_t g = 0; g < t->c->group_count; g++) {
        const struct group *group = t->c->groups + g;
        put_bar(t, g);
        if (!seats)
            group_words(t->c->plan, group, words, sizeof words);
        else if (begins_seat(t->c, g))
            snprintf(words, sizeof words, "seat %u", group->seat);
        else
            *words = 0;
        put(t, group_width(t, g), words);
    }
    put_bar(t, t->c->group_count);
    if (!seats)
        put(t, (int)t->c->lists * t->count, "settings");
    end_line(t);
}

static void put_senders(struct table *t)
{
    char words[TITLE];
    for (size_t g = 0; g < t->c->group_count; g++) {
        put_bar(t, g);
        t->blanks += t->places[g].margin;
        for (size_t i = 0; i < t->c->groups[g].count; i++) {
            sender_words(t->c, t->c->groups + g, i, words, sizeof words);
            put(t, t->places[g].column, words);
        }
    }
    put_bar(t, t->c->group_count);
    for (size_t list = 0; t->c->lists > 1 && list < t->c->lists; list++)
        put(t, t->count, list_names[list]);
    end_line(t);
}

static void put_line(struct table *t, const struct line *line)
{
    for (size_t g = 0; g < t->c->group_count; g++) {
        put_bar(t, g);
        t->blanks += t->places[g].margin;
        for (size_t i = 0; i < t->c->groups[g].count; i++)
            put_digits(t, t->places[g].column, view_number(line, t->c->groups[g].at + i));
    }
    put_bar(t, t->c->group_count);
    for (size_t list = 0; list < t->c->lists; list++)
        put_digits(t, t->count, line->counts[list]);
    if (t->c->lists > 1 && line->counts[0] != line->counts[1])
        fprintf(t->to, "  differs");
    end_line(t);
}

static void print_table(FILE *to, const struct counted *c)
{
    struct table t = {.to = to, .c = c};
    t.places = (struct place *)fresh_bytes(c->group_count * sizeof *t.places).at;
    for (size_t g = 0; g < c->group_count; g++)
        t.places[g] = place_of(c, c->groups + g);
    t.count = larger(snprintf(NULL, 0, "%zu", c->settings), (int)strlen(c->lists == 1 ? "settings" : "second")) + GAP;
    if (c->group_count)
        put_above(&t, true);
    put_above(&t, false);
    if (c->group_count || c->lists > 1)
        put_senders(&t);
    for (size_t i = 0; i < c->line_count; i++)
        put_line(&t, c->lines + i);
    fputc('\n', to);
    free(t.places);
}

/* The lines after the table. */
static void print_summary(FILE *to, const struct counted *c)
{
    for (size_t list = 0; list < c->lists; list++) {
        if (c->lists > 1)
            fprintf(to, "%s figures: ", list_names[list]);
        print_spread(to, c, list);
        fprintf(to, ".\n");
    }
    if (c->lists == 1)
        return;
    enum verdict v = verdict_of(c);
    if (v == DIFFERENT) {
        fprintf(to, "The counts are NOT the same.\n");
        return;
    }
    fprintf(to, v == SAME ? "The counts are the same under both lists: what " : v == OTHER_FIGURES ? "The lists differ at figures of " : "The lists give other results to ");
    print_set(to, c->set);
    fprintf(to, v == SAME ? " can see does not tell which of them was put in.\n" : ", so the views differ.\n");
}

/* ---- the command */

static void write_page(const char *path, const struct counted *c, struct report *summary)
{
    struct report page;
    open_report(&page);
    print_page(page.to, c);
    struct bytes all = close_text(&page);
    write_and_report(path, all, summary);
    free(all.at);
}

static void count(char **args)
{
    const char *path = NULL, *set_word = NULL, *words[LISTS] = {0}, *coins_word = NULL, *html = NULL, *output = NULL;
    const struct option options[] = {
        {.name = "set", .value = &set_word, .needed = true},
        {.name = "figures", .value = &words[0], .needed = true},
        {.name = "second", .value = &words[1]},
        {.name = "coins", .value = &coins_word},
        {.name = "html", .value = &html},
        {.name = "output", .letter = 'o', .value = &output},
        {0},
    };
    read_words(args, "plan", &path, options);
    if (html && output)
        bad_usage("--html and --output do not go together");
    uint16_t set = set_of(set_word);
    struct plan plan = open_plan(path);
    ask_sizes(&plan);
    struct counted c = {.path = path, .plan = &plan, .set = set, .lists = words[1] ? 2 : 1};
    for (size_t list = 0; list < c.lists; list++)
        c.figures[list] = list_of(list ? "--second" : "--figures", words[list]);
    c.coins = members_coins(&plan, set, coins_word);
    count_views(&c);
    struct report r;
    open_report(&r);
    if (!html)
        print_table(r.to, &c);
    print_summary(r.to, &c);
    if (html)
        write_page(html, &c, &r);
    else
        close_report(&r, output);
    free_counted(&c);
    close_plan(&plan);
}

const struct command count_command = {
    .name = "count",
    .line = "how many settings of the others' coins lead to each view of a set",
    .usage = "PLAN --set SEATS --figures FILE|LIST [--second FILE|LIST] [--coins FILE|LIST] [--html FILE | --output FILE]",
    .help = "Counts, for a tiny plan, what the seats of the set can see in its runs on these figures: each\n"
            "view that a setting of the other seats' coins leads to, with the number of such settings. A\n"
            "view is a line of the table: for each seat of the set its figures, its coins, each round's\n"
            "mail with a column for each number received, its results. With a second list of figures both\n"
            "lists' counts stand side by side: where the lists agree at the set's own figures and results,\n"
            "they are the same. More than 65536 settings are refused, as are plans with random wires or triples.\n"
            "\n"
            "  --set SEATS          the seats that put their views together, as 1,3; at most the threshold\n"
            "  --figures FILE|LIST  all figures, in the plan's order\n"
            "  --second FILE|LIST   other figures, in the same order\n"
            "  --coins FILE|LIST    the coins of the set's seats alone, in the plan's order; where there are\n"
            "                       none, fresh ones are drawn from the operating system's random source\n"
            "  --html FILE          write a page to show there, which has the plan in words, the set and the\n"
            "                       table, and print the counts' summary alone\n"
            "  -o, --output FILE    write the table there instead of standard output\n",
    .run = count,
};
