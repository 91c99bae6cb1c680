/* What a wire is of the figures, as a formula. */
#include <string.h>

#include "count.h"

enum { LETTERS = 26, LONGEST = 240 };

/* How tightly what stands around a part binds it. */
enum level { IN_SUM, IN_PRODUCT };

struct formula {
    char text[LONGEST + 1];
    size_t len;
    bool whole;
};

void figure_name(size_t figure, char *name, size_t room)
{
    if (figure < LETTERS)
        snprintf(name, room, "%c", (char)('a' + figure));
    else
        snprintf(name, room, "f%zu", figure);
}

static void put(struct formula *f, const char *text)
{
    size_t len = strlen(text);
    f->whole = f->whole && f->len + len <= LONGEST;
    if (!f->whole)
        return;
    memcpy(f->text + f->len, text, len + 1);
    f->len += len;
}

static void put_constant(struct formula *f, uint32_t x)
{
    char digits[16];
    snprintf(digits, sizeof digits, "%u", x);
    put(f, digits);
}

/* A wire that is some wire times 0, by which formula sheets make numbers. */
static bool is_zero(const struct plan *plan, size_t wire)
{
    return plan->gates[wire].kind == SCALE && plan->gates[wire].b == 0;
}

/* A wire that is another, taken away. */
static bool is_minus(const struct plan *plan, size_t wire)
{
    return plan->gates[wire].kind == SCALE && plan->gates[wire].b == plan->prime - 1 && plan->prime > 2;
}

static void put_wire(struct formula *f, const struct plan *plan, size_t wire, enum level level);

static void put_sum(struct formula *f, const struct plan *plan, struct gate g)
{
    put_wire(f, plan, g.a, IN_SUM);
    if (g.kind == OFFSET) {
        put(f, " + ");
        put_constant(f, g.b);
    } else if (is_minus(plan, g.b)) {
        put(f, " − ");
        put_wire(f, plan, plan->gates[g.b].a, IN_PRODUCT);
    } else {
        put(f, " + ");
        put_wire(f, plan, g.b, IN_SUM);
    }
}

static void put_bracketed(struct formula *f, const struct plan *plan, struct gate g, enum level level)
{
    put(f, level == IN_SUM ? "" : "(");
    put_sum(f, plan, g);
    put(f, level == IN_SUM ? "" : ")");
}

static void put_scaled(struct formula *f, const struct plan *plan, struct gate g)
{
    put_constant(f, g.b);
    if (!g.b)
        return;
    put(f, "·");
    put_wire(f, plan, g.a, IN_PRODUCT);
}

static void put_input(struct formula *f, const struct plan *plan, size_t wire)
{
    char name[24];
    size_t k = 0;
    while (plan->figures[k].wire != wire)
        k++;
    figure_name(k, name, sizeof name);
    put(f, name);
}

static void put_wire(struct formula *f, const struct plan *plan, size_t wire, enum level level)
{
    struct gate g = plan->gates[wire];
    if (!f->whole)
        return;
    if (g.kind == INPUT) {
        put_input(f, plan, wire);
    } else if (g.kind == OFFSET && is_zero(plan, g.a)) {
        put_constant(f, g.b);
    } else if (g.kind == ADD || g.kind == OFFSET) {
        put_bracketed(f, plan, g, level);
    } else if (g.kind == SCALE) {
        put_scaled(f, plan, g);
    } else if (g.kind == MULTIPLY) {
        put_wire(f, plan, g.a, IN_PRODUCT);
        put(f, "·");
        put_wire(f, plan, g.b, IN_PRODUCT);
    } else {
        f->whole = false;
    }
}

void print_formula(FILE *to, const struct plan *plan, size_t wire)
{
    struct formula f = {.whole = true};
    put_wire(&f, plan, wire, IN_SUM);
    if (f.whole)
        fputs(f.text, to);
    else
        fprintf(to, "wire %zu", wire);
}
