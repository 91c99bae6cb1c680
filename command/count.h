/* The views of a set counted, under one list of figures or two, and what is printed of them: a table (count.c), a page (page.c). */
#ifndef COUNT_H
#define COUNT_H

#include "seats.h"

enum { LISTS = 2 };

/* Numbers of a view that stand together, of one member: its figures, its coins, a round's mail, its results. */
enum group_kind { GROUP_FIGURES, GROUP_COINS, GROUP_MAIL, GROUP_RESULTS };

struct group {
    enum group_kind kind;
    unsigned seat, round; /* the member; of mail, the round */
    size_t at, count;     /* which numbers of the view; one at least */
};

/* A view, and how many settings lead to it under each list of figures. */
struct line {
    const uint8_t *view;
    uint64_t counts[LISTS];
};

struct counted {
    const char *path; /* the plan's file, as the command line has it */
    const struct plan *plan;
    uint16_t set;
    size_t lists; /* of figures: 1 or 2 */
    struct bytes figures[LISTS], rows[LISTS], coins;
    size_t view, settings; /* the numbers of a view, and the settings of the others' coins */
    struct group *groups;
    size_t group_count;
    struct line *lines; /* the views reached under either list, ascending */
    size_t line_count;
};

/* What two lists of figures show: they lead to the same counts; or they differ in what the set itself puts in or gets; or, which must not be, in
 * something else. */
enum verdict { SAME, OTHER_FIGURES, OTHER_RESULTS, DIFFERENT };
enum verdict verdict_of(const struct counted *c);

/* The settings' spread over a list's views: how many views there are, and the least and the most settings that lead to one. */
struct spread {
    size_t views;
    uint64_t least, most;
};

struct spread spread_of(const struct counted *c, size_t list);

/* A list's row as a line; one without a view where no setting leads to it. */
struct line row_at(const struct counted *c, size_t list, size_t row);

/* Number i of a line's view. */
uint64_t view_number(const struct line *line, size_t i);

/* The seat that sent number i of a round's mail, i counted within the group. */
unsigned sender_of(const struct plan *plan, const struct group *g, size_t i);

/* A group's title, as `round 0, inputs`: at most room bytes. */
void group_words(const struct plan *plan, const struct group *g, char *words, size_t room);

static inline bool is_member(uint16_t set, unsigned seat)
{
    return set >> (seat - 1) & 1;
}

/* The set in words, as `seats 1 and 3`. */
void print_set(FILE *to, uint16_t set);

/* A count with its word, and a list's spread, as `9 settings lead to 3 views, 3 to each`. */
void print_spread(FILE *to, const struct counted *c, size_t list);

/* One page, which needs no script and no other file. */
void print_page(FILE *to, const struct counted *c);

/* ---- a plan's formulas (formula.c) */

/* The name of a figure, as `a`: at most room bytes. */
void figure_name(size_t figure, char *name, size_t room);

/* What a wire is of the figures, as `a·b + a`, in UTF-8; or its number where the formula is long. */
void print_formula(FILE *to, const struct plan *plan, size_t wire);

#endif
