/* The counted views as one page: what is computed, who looks, what a view's columns are, each view with its counts, and what that shows. */
#include <inttypes.h>
#include <string.h>

#include "command.h"
#include "count.h"

enum { WORDS = 40 };

static const char head[] =
    "<!DOCTYPE html>\n"
    "<html lang=\"en\">\n"
    "<head>\n"
    "<meta charset=\"utf-8\">\n"
    "<meta name=\"viewport\" content=\"width=device-width, initial-scale=1\">\n";

static const char style[] =
    "<style>\n"
    ":root { color-scheme: light dark; --ink: #1c2430; --soft: #5b6675; --line: #d5dbe3; --paper: #ffffff; --tint: #f2f5f9; --bar: #cfe3f5;\n"
    "  --bar2: #d9ecd3; --note: #e8f3e6; --edge: #4c8c4a; --warn: #fdf1d8; --warnedge: #b27b16 }\n"
    "@media (prefers-color-scheme: dark) { :root { --ink: #e4e9f0; --soft: #9aa6b5; --line: #3a4452; --paper: #141a22; --tint: #1d2530;\n"
    "  --bar: #24425e; --bar2: #2b4a2f; --note: #1d2f1f; --warn: #372c12 } }\n"
    "body { font: 17px/1.5 system-ui, sans-serif; color: var(--ink); background: var(--paper); max-width: 62rem; margin: 2.5rem auto; padding: 0 1.2rem }\n"
    "h1 { font-size: 1.9rem; line-height: 1.2; margin: 0 0 .4rem } h2 { font-size: 1.25rem; margin: 2.2rem 0 .6rem }\n"
    "p { margin: .5rem 0 } .lead { color: var(--soft) }\n"
    ".shows { background: var(--note); border-left: 5px solid var(--edge); padding: .7rem 1.1rem; margin: 1.4rem 0; border-radius: 3px }\n"
    ".shows.open { background: var(--warn); border-color: var(--warnedge) }\n"
    "table { border-collapse: collapse; font-variant-numeric: tabular-nums } caption { text-align: left; color: var(--soft); padding-bottom: .4rem }\n"
    "th, td { padding: .22rem .6rem; border-bottom: 1px solid var(--line); text-align: right }\n"
    "th { font-weight: 600; text-align: center; background: var(--tint); white-space: nowrap } th.sub { font-weight: 400; color: var(--soft) }\n"
    "table.words th, table.words td { text-align: left } table.words td.n { text-align: right }\n"
    "thead { position: sticky; top: 0 } .first { border-left: 2px solid var(--line) }\n"
    "td.c0, td.c1 { min-width: 5.5rem; --w: 100%; background: linear-gradient(to right, var(--bar) var(--w), transparent 0) no-repeat }\n"
    "td.c1 { background-image: linear-gradient(to right, var(--bar2) var(--w), transparent 0) }\n"
    "tr.differs td.c0, tr.differs td.c1 { font-weight: 700 } dt { font-weight: 600; margin-top: .5rem } dd { margin: 0 0 0 1.4rem }\n"
    "footer { margin-top: 2.5rem; border-top: 1px solid var(--line); padding-top: .6rem; color: var(--soft); font-size: .88rem }\n"
    "@media print { body { margin: 0; max-width: none; font-size: 11pt } thead { position: static } tr { break-inside: avoid } }\n"
    "</style>\n";

/* ---- words */

static void put_text(FILE *to, const char *text)
{
    for (; *text; text++)
        switch (*text) {
        case '&':
            fputs("&amp;", to);
            break;
        case '<':
            fputs("&lt;", to);
            break;
        case '>':
            fputs("&gt;", to);
            break;
        case '"':
            fputs("&quot;", to);
            break;
        default:
            fputc(*text, to);
        }
}

/* A number with commas between its thousands. */
static void put_grouped(FILE *to, uint64_t x)
{
    if (x >= 1000) {
        put_grouped(to, x / 1000);
        fprintf(to, ",%03" PRIu64, x % 1000);
    } else {
        fprintf(to, "%" PRIu64, x);
    }
}

static void put_counted(FILE *to, uint64_t count, const char *word)
{
    put_grouped(to, count);
    fprintf(to, " %s%s", word, plural(count));
}

static bool is_one(uint16_t set)
{
    return __builtin_popcount(set) <= 1;
}

/* `seat 2 sees`, `seats 1 and 3 see`. */
static void put_sees(FILE *to, const struct counted *c)
{
    print_set(to, c->set);
    fputs(is_one(c->set) ? " sees" : " see", to);
}

static void put_name(FILE *to, size_t figure)
{
    char name[WORDS];
    figure_name(figure, name, sizeof name);
    fprintf(to, "<i>%s</i>", name);
}

/* ---- what it shows */

/* How the settings spread over a list's views. */
static void put_spread(FILE *to, const struct counted *c, size_t list)
{
    struct spread s = spread_of(c, list);
    put_counted(to, c->settings, "setting");
    fputs(c->settings == 1 ? " leads to " : " lead to ", to);
    put_counted(to, s.views, "view");
    if (s.views == 1)
        return;
    fputs(s.least == s.most ? ", " : ", between ", to);
    put_grouped(to, s.least);
    if (s.least != s.most) {
        fputs(" and ", to);
        put_grouped(to, s.most);
    }
    fputs(" to each", to);
}

static void put_one_list(FILE *to, const struct counted *c)
{
    struct spread s = spread_of(c, 0);
    fputs("<p class=\"shows\">With these figures ", to);
    put_spread(to, c, 0);
    fputs(s.views > 1 && s.least == s.most ? ". Coins are drawn uniformly, so all these views are equally likely" : "", to);
    fputs(". With any other figures that agree with these in what the set itself puts in and gets, the same views stand here, each as often.</p>\n", to);
}

static void put_same(FILE *to, const struct counted *c)
{
    fputs("Both lists of figures lead to the same views, and to each view lead <strong>as many settings under the one list as under the other</strong>. So what ", to);
    put_sees(to, c);
    fputs(" in a run makes neither list likelier than the other: of the other seats’ figures it tells only what the set’s own figures and results tell.", to);
}

static void put_two_lists(FILE *to, const struct counted *c)
{
    enum verdict v = verdict_of(c);
    fprintf(to, "<p class=\"shows%s\">", v == SAME ? "" : " open");
    if (v == SAME)
        put_same(to, c);
    else if (v == DIFFERENT)
        fputs("The two lists’ counts are not the same, though the lists agree in what the set itself puts in and gets. This must not be.", to);
    else
        fprintf(to, "The two lists differ in %s, so their views differ. Take lists that agree there to see what the plan keeps from the set.",
            v == OTHER_FIGURES ? "figures that the set itself puts in" : "the results that the plan grants to the set");
    fputs("</p>\n", to);
}

/* ---- the plan */

static void put_names(FILE *to, const struct plan *plan)
{
    fputs("<p>", to);
    for (size_t k = 0; k < plan->figure_count; k++) {
        fputs(k ? ", " : "", to);
        put_name(to, k);
        fprintf(to, " is a figure of seat %u", plan->figures[k].seat);
    }
    fputs(".</p>\n", to);
}

static void put_outs(FILE *to, const struct plan *plan)
{
    fputs("<ul>\n", to);
    for (size_t o = 0; o < plan->out_count; o++) {
        fprintf(to, "<li>Seat %u gets <strong>", plan->outs[o].seat);
        print_formula(to, plan, plan->outs[o].wire);
        fputs("</strong>.</li>\n", to);
    }
    fputs("</ul>\n", to);
}

static void put_gates(FILE *to, const struct plan *plan)
{
    fputs("<details><summary>The plan gate by gate</summary>\n<table class=\"words\">\n<tr><th>wire</th><th>made by</th></tr>\n", to);
    for (size_t g = 0; g < plan->gate_count; g++) {
        fprintf(to, "<tr><td class=\"n\">%zu</td><td>", g);
        print_gate(to, plan, g);
        fputs("</td></tr>\n", to);
    }
    fputs("</table>\n</details>\n", to);
}

static void put_plan(FILE *to, const struct plan *plan)
{
    fprintf(to, "<h2>The plan</h2>\n<p>%u seat%s compute%s modulo the prime ", plan->seats, plural(plan->seats), plan->seats == 1 ? "s" : " together");
    put_grouped(to, plan->prime);
    fprintf(to, ". Each puts in figures of its own and learns the results that the plan grants it. The plan’s threshold is %u: ", plan->threshold);
    if (plan->threshold == 0)
        fputs("it keeps nothing from a seat that looks at its mail.</p>\n", to);
    else if (plan->threshold == 1)
        fputs("no single seat learns more than that.</p>\n", to);
    else
        fprintf(to, "up to %u seats that put together what they see learn no more than that.</p>\n", plan->threshold);
    put_names(to, plan);
    put_outs(to, plan);
    put_gates(to, plan);
}

/* ---- the set, and the figures */

/* The coins that the seats outside the set draw. */
static size_t others_coins(const struct counted *c)
{
    size_t bytes = 0;
    for (unsigned seat = 1; seat <= c->plan->seats; seat++)
        bytes += is_member(c->set, seat) ? 0 : seat_size(c->plan, seat, POOL_SEAT_COINS);
    return numbers_in(bytes);
}

static void put_who_looks(FILE *to, const struct counted *c)
{
    size_t coins = others_coins(c), members = (size_t)__builtin_popcount(c->set);
    fputs("<h2>The set: who looks</h2>\n<p>", to);
    if (members) {
        fputs(members == 1 ? "One seat looks: " : "These seats put what they see together: ", to);
        print_set(to, c->set);
        fputs(members == 1 ? ". Its own coins are fixed" : ". Their own coins are fixed", to);
    } else {
        fputs("Nobody looks: the set is empty", to);
    }
    fputs(". The other seats draw ", to);
    put_counted(to, coins, "coin");
    fputs(" in a run, each a number below ", to);
    put_grouped(to, c->plan->prime);
    fprintf(to, ", so there are %u<sup>%zu</sup> = ", c->plan->prime, coins);
    put_counted(to, c->settings, "setting");
    fputs(" of their coins. All of them were run.</p>\n", to);
}

/* A value under each list. */
static void put_value(FILE *to, uint64_t x)
{
    fputs("<td class=\"n\">", to);
    put_grouped(to, x);
    fputs("</td>", to);
}

static void put_figure(FILE *to, const struct counted *c, size_t k)
{
    unsigned seat = c->plan->figures[k].seat;
    fputs("<tr><td>", to);
    put_name(to, k);
    fprintf(to, "</td><td>figure of seat %u%s</td>", seat, is_member(c->set, seat) ? ", which looks" : "");
    for (size_t list = 0; list < c->lists; list++)
        put_value(to, get_number(c->figures[list], k));
    fputs("</tr>\n", to);
}

/* A member's results, which all views of a list have. */
static void put_results(FILE *to, const struct counted *c, const struct group *g)
{
    size_t i = 0;
    for (size_t o = 0; o < c->plan->out_count; o++) {
        if (c->plan->outs[o].seat != g->seat)
            continue;
        fputs("<tr><td>", to);
        print_formula(to, c->plan, c->plan->outs[o].wire);
        fprintf(to, "</td><td>result of seat %u, which looks</td>", g->seat);
        for (size_t list = 0; list < c->lists; list++) {
            struct line first = row_at(c, list, 0);
            put_value(to, view_number(&first, g->at + i));
        }
        fputs("</tr>\n", to);
        i++;
    }
}

static void put_figures(FILE *to, const struct counted *c)
{
    fputs("<h2>The figures</h2>\n<table class=\"words\">\n<tr><th>value</th><th>which is</th>", to);
    fputs(c->lists == 1 ? "<th>here</th></tr>\n" : "<th>first list</th><th>second list</th></tr>\n", to);
    for (size_t k = 0; k < c->plan->figure_count; k++)
        put_figure(to, c, k);
    for (size_t g = 0; g < c->group_count; g++)
        if (c->groups[g].kind == GROUP_RESULTS)
            put_results(to, c, c->groups + g);
    fputs("</table>\n", to);
}

/* ---- the columns */

static bool has_kind(const struct counted *c, enum group_kind kind)
{
    for (size_t g = 0; g < c->group_count; g++)
        if (c->groups[g].kind == kind)
            return true;
    return false;
}

/* A round's mail to a member of the set; null where there is none. */
static const struct group *mail_of(const struct counted *c, unsigned round)
{
    for (size_t g = 0; g < c->group_count; g++)
        if (c->groups[g].kind == GROUP_MAIL && c->groups[g].round == round)
            return c->groups + g;
    return NULL;
}

static void put_mail_words(FILE *to, const struct counted *c)
{
    static const char *const received[] = {
        [INPUTS] = "its shares of all inputs, by the seat that dealt them, its own included",
        [OUTS] = "all seats’ shares of its results, by the seat that sent them",
        [PRODUCT] = "its pieces of the product, by the seat that dealt them",
        [DRAWS] = "its pieces of the draws, by the seat that dealt them",
        [ZEROS] = "its pieces of the dealings of 0 that mask the product, by the seat that dealt them",
        [MASKED] = "its pieces of the masked product, by the seat that dealt them",
        [PARTS] = "the parts of its share of the product, by the seat that sent them",
    };
    size_t wire;
    char words[WORDS];
    for (unsigned round = 0; round + 1 < c->plan->calls; round++) {
        const struct group *mail = mail_of(c, round);
        if (!mail)
            continue;
        group_words(c->plan, mail, words, sizeof words);
        fprintf(to, "<dt>%s</dt><dd>", words);
        fprintf(to, "received: %s</dd>\n", received[carried_in(c->plan, round, &wire)]);
    }
}

static void put_columns(FILE *to, const struct counted *c)
{
    fputs("<h2>What a view’s columns are</h2>\n", to);
    if (!c->group_count) {
        fputs("<p>Nobody looks, so there is one view, with nothing in it.</p>\n", to);
        return;
    }
    fputs("<p>A view is all that a seat of the set holds and receives in a run, round after round.</p>\n<dl>\n", to);
    if (has_kind(c, GROUP_FIGURES))
        fputs("<dt>figures</dt><dd>its own figures</dd>\n", to);
    if (has_kind(c, GROUP_COINS))
        fputs("<dt>coins</dt><dd>its own coins, with which it deals shares</dd>\n", to);
    put_mail_words(to, c);
    if (has_kind(c, GROUP_RESULTS))
        fputs("<dt>results</dt><dd>the results that the plan grants it</dd>\n", to);
    fputs("<dt>settings</dt><dd>how many settings of the other seats’ coins lead to just this view</dd>\n</dl>\n", to);
}

/* ---- the views */

/* How many columns a member's groups have from this one on. */
static size_t columns_of_seat(const struct counted *c, size_t g)
{
    size_t columns = 0;
    for (unsigned seat = c->groups[g].seat; g < c->group_count && c->groups[g].seat == seat; g++)
        columns += c->groups[g].count;
    return columns;
}

static bool begins_seat(const struct counted *c, size_t g)
{
    return g == 0 || c->groups[g].seat != c->groups[g - 1].seat;
}

static void put_table_head(FILE *to, const struct counted *c)
{
    char words[WORDS];
    fputs("<thead>\n<tr>", to);
    for (size_t g = 0; g < c->group_count; g++)
        if (begins_seat(c, g))
            fprintf(to, "<th class=\"first\" colspan=\"%zu\">seat %u</th>", columns_of_seat(c, g), c->groups[g].seat);
    fprintf(to, "<th class=\"first\" colspan=\"%zu\">settings</th></tr>\n<tr>", c->lists);
    for (size_t g = 0; g < c->group_count; g++) {
        group_words(c->plan, c->groups + g, words, sizeof words);
        fprintf(to, "<th class=\"first\" colspan=\"%zu\">%s</th>", c->groups[g].count, words);
    }
    fputs(c->lists == 1 ? "<th class=\"first\"></th></tr>\n<tr>" : "<th class=\"first\">first list</th><th>second list</th></tr>\n<tr>", to);
    for (size_t g = 0; g < c->group_count; g++)
        for (size_t i = 0; i < c->groups[g].count; i++) {
            fprintf(to, "<th class=\"sub%s\">", i ? "" : " first");
            if (c->groups[g].kind == GROUP_MAIL)
                fprintf(to, "from %u", sender_of(c->plan, c->groups + g, i));
            fputs("</th>", to);
        }
    fprintf(to, "<th class=\"sub first\" colspan=\"%zu\"></th></tr>\n</thead>\n", c->lists);
}

/* A count has a bar as long as its part of the largest. */
static void put_count(FILE *to, uint64_t count, uint64_t most, size_t list)
{
    fprintf(to, "<td class=\"c%zu%s\"", list, list ? "" : " first");
    if (count != most)
        fprintf(to, " style=\"--w:%" PRIu64 "%%\"", 100 * count / most);
    fputc('>', to);
    put_grouped(to, count);
    fputs("</td>", to);
}

static void put_views(FILE *to, const struct counted *c)
{
    uint64_t most = 1;
    for (size_t list = 0; list < c->lists; list++)
        most = spread_of(c, list).most > most ? spread_of(c, list).most : most;
    fputs("<h2>The views</h2>\n<table>\n<caption>", to);
    put_counted(to, c->line_count, "view");
    fputs(", ascending, each with the settings that lead to it</caption>\n", to);
    put_table_head(to, c);
    fputs("<tbody>\n", to);
    for (size_t i = 0; i < c->line_count; i++) {
        const struct line *line = c->lines + i;
        fputs(c->lists > 1 && line->counts[0] != line->counts[1] ? "<tr class=\"differs\">" : "<tr>", to);
        for (size_t g = 0; g < c->group_count; g++)
            for (size_t k = 0; k < c->groups[g].count; k++)
                fprintf(to, "<td%s>%" PRIu64 "</td>", k ? "" : " class=\"first\"", view_number(line, c->groups[g].at + k));
        for (size_t list = 0; list < c->lists; list++)
            put_count(to, line->counts[list], most, list);
        fputs("</tr>\n", to);
    }
    fputs("</tbody>\n</table>\n", to);
    for (size_t list = 0; list < c->lists; list++) {
        fprintf(to, "<p>%s: ", c->lists == 1 ? "In all" : list ? "Second list" : "First list");
        put_spread(to, c, list);
        fputs(".</p>\n", to);
    }
}

/* The plan's file, without the folders that it stands in. */
static const char *file_name(const char *path)
{
    const char *slash = strrchr(path, '/');
    return !strcmp(path, "-") ? "standard input" : slash && slash[1] ? slash + 1 : path;
}

static void put_foot(FILE *to, const struct counted *c)
{
    fputs("<footer>Made by <code>pool count</code> " POOL_VERSION " of the plan <code>", to);
    put_text(to, file_name(c->path));
    fputs("</code>. The library’s call <code>pool_count</code> is proved to list exactly the views that settings lead to, each with the number of its settings.</footer>\n", to);
}

void print_page(FILE *to, const struct counted *c)
{
    fputs(head, to);
    fputs("<title>What ", to);
    put_sees(to, c);
    fputs(" in a run</title>\n", to);
    fputs(style, to);
    fputs("</head>\n<body>\n<h1>What ", to);
    put_sees(to, c);
    fputs(" in a run</h1>\n<p class=\"lead\">Every view that a run can show, and how many settings of the other seats’ coins lead to it.</p>\n", to);
    if (c->lists == 1)
        put_one_list(to, c);
    else
        put_two_lists(to, c);
    put_plan(to, c->plan);
    put_who_looks(to, c);
    put_figures(to, c);
    put_columns(to, c);
    put_views(to, c);
    put_foot(to, c);
    fputs("</body>\n</html>\n", to);
}
