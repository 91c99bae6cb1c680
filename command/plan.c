#include <stdio.h>
#include <stdlib.h>
#include <string.h>

#include "command.h"
#include "plan.h"
#include "pool.h"

/* Where a plan's bytes stand, version by version. These widths are the file's own, whatever a number of a list has. */
struct layout {
    size_t prime, gates_at, gates, outs_at, outs; /* where these numbers stand */
    size_t points_at;                             /* the same; 0: the points are 1 to n */
    size_t width;                                 /* the bytes of each of them, of a gate's a and b, and of a point */
    size_t out_wire;                              /* the bytes of an out's wire */
    bool masks;                                   /* a product takes three rounds: zeros, the masked product, parts of its shares */
};

enum { VERSION_AT = 4, SEATS_AT = 5, THRESHOLD_AT = 6, GATE_HEAD = 2, OUT_HEAD = 1, MADE_BY = 3 }; /* the last: the gates that make a triple */

static const struct layout layouts[] = {
    [1] = {.prime = 8, .gates_at = 10, .gates = 12, .outs_at = 14, .outs = 16, .width = 2, .out_wire = 2},
    [2] = {.prime = 8, .gates_at = 10, .gates = 12, .outs_at = 14, .outs = 16, .points_at = 18, .width = 2, .out_wire = 2},
    [3] = {.prime = 8, .gates_at = 12, .gates = 16, .outs_at = 20, .outs = 24, .points_at = 28, .width = 4, .out_wire = 2},
    [4] = {.prime = 8, .gates_at = 12, .gates = 16, .outs_at = 20, .outs = 24, .points_at = 28, .width = 4, .out_wire = 2, .masks = true},
};

enum { LAYOUTS = sizeof layouts / sizeof *layouts };

/* ---- reading */

/* A number of the plan file. */
static uint32_t field(const struct plan *plan, size_t at, size_t width)
{
    return (uint32_t)get_bytes(plan->file.at + at, width);
}

static void *fresh(size_t count, size_t size)
{
    return fresh_bytes(count * size).at;
}

/* Adds the figures of gate g's wire. */
static void add_figures(struct plan *plan, size_t g)
{
    struct gate gate = plan->gates[g];
    for (unsigned seat = 1; seat <= plan->seats; seat++)
        if (gate.kind == RANDOM || (gate.kind == INPUT && gate.a == seat))
            plan->figures[plan->figure_count++] = (struct figure){seat, g};
}

/* How many rounds of its own a gate has. */
static unsigned rounds_of(const struct plan *plan, struct gate gate)
{
    return gate.kind == RANDOM || gate.kind == SPEND ? 1 : gate.kind != MULTIPLY ? 0 : layouts[plan->version].masks ? 3 : 1;
}

/* Gates stand one after the other: the kind, a zero byte, a and b. The wire of a product, or of draws, waits for rounds of its own; a gate that a
 * seat works alone, for the last such round before it. */
static void read_gates(struct plan *plan, const struct layout *l)
{
    size_t at = field(plan, l->gates_at, l->width);
    unsigned rounds = 0;
    plan->gate_count = field(plan, l->gates, l->width);
    plan->gates = fresh(plan->gate_count, sizeof *plan->gates);
    plan->figures = fresh(plan->gate_count * plan->seats, sizeof *plan->figures);
    for (size_t g = 0; g < plan->gate_count; g++, at += GATE_HEAD + 2 * l->width) {
        struct gate *gate = plan->gates + g;
        gate->kind = plan->file.at[at];
        gate->a = field(plan, at + GATE_HEAD, l->width);
        gate->b = field(plan, at + GATE_HEAD + l->width, l->width);
        rounds += rounds_of(plan, *gate);
        gate->round = gate->kind == INPUT ? 0 : rounds;
        plan->triple_count += gate->kind == SPEND;
        add_figures(plan, g);
    }
}

static void read_outs(struct plan *plan, const struct layout *l)
{
    size_t at = field(plan, l->outs_at, l->width);
    plan->out_count = field(plan, l->outs, l->width);
    plan->outs = fresh(plan->out_count, sizeof *plan->outs);
    for (size_t o = 0; o < plan->out_count; o++, at += OUT_HEAD + l->out_wire)
        plan->outs[o] = (struct out){plan->file.at[at], field(plan, at + OUT_HEAD, l->out_wire)};
}

static void read_points(struct plan *plan, const struct layout *l)
{
    plan->chosen = l->points_at != 0;
    size_t at = plan->chosen ? field(plan, l->points_at, l->width) : 0;
    for (unsigned seat = 1; seat <= plan->seats; seat++)
        plan->points[seat - 1] = plan->chosen ? field(plan, at + l->width * (seat - 1), l->width) : seat;
}

/* ---- sizes, which the library says */

static size_t ask_size(const struct plan *plan, unsigned seat, unsigned call, unsigned what)
{
    return value(pool_seat_size(plan->file.at, plan->file.len, (uint16_t)seat, (uint16_t)call, (uint16_t)what));
}

void ask_sizes(struct plan *plan)
{
    plan->mail = fresh(plan->calls * plan->seats, sizeof *plan->mail);
    plan->writes = fresh(plan->calls * plan->seats, sizeof *plan->writes);
    for (unsigned call = 0; call < plan->calls; call++)
        for (unsigned seat = 1; seat <= plan->seats; seat++) {
            plan->mail[call * plan->seats + seat - 1] = ask_size(plan, seat, call, POOL_SEAT_MAIL);
            plan->writes[call * plan->seats + seat - 1] = ask_size(plan, seat, call, POOL_SEAT_OUT);
        }
}

size_t seat_size(const struct plan *plan, unsigned seat, unsigned what)
{
    return ask_size(plan, seat, 0, what);
}

size_t mail_size(const struct plan *plan, unsigned seat, unsigned call)
{
    return plan->mail[call * plan->seats + seat - 1];
}

size_t written_size(const struct plan *plan, unsigned seat, unsigned call)
{
    return plan->writes[call * plan->seats + seat - 1];
}

size_t sent_by(const struct plan *plan, unsigned seat)
{
    size_t numbers = 0;
    for (unsigned call = 0; call + 1 < plan->calls; call++)
        numbers += numbers_in(written_size(plan, seat, call));
    return numbers;
}

struct part part_of(const struct plan *plan, unsigned from, unsigned to, unsigned call)
{
    bool outs = call + 2 == plan->calls;
    return part_for(to, plan->seats, written_size(plan, from, call), outs ? plan->mail + (call + 1) * plan->seats : NULL);
}

struct plan plan_of(const char *name, struct bytes file)
{
    struct plan plan = {.file = file};
    value(pool_plan_check(plan.file.at, plan.file.len));
    plan.version = plan.file.at[VERSION_AT];
    plan.seats = plan.file.at[SEATS_AT];
    plan.threshold = plan.file.at[THRESHOLD_AT];
    if (plan.version >= LAYOUTS || !layouts[plan.version].width)
        fail(NOT_UNDERSTOOD, "%s: this program shows no plans of version %u", name, plan.version);
    const struct layout *l = layouts + plan.version;
    plan.prime = field(&plan, l->prime, l->width);
    read_gates(&plan, l);
    read_outs(&plan, l);
    read_points(&plan, l);
    plan.calls = (unsigned)value(pool_calls(plan.file.at, plan.file.len));
    return plan;
}

struct plan open_plan(const char *path)
{
    return plan_of(path, input(path));
}

void close_plan(struct plan *plan)
{
    free(plan->file.at);
    free(plan->gates);
    free(plan->outs);
    free(plan->figures);
    free(plan->mail);
    free(plan->writes);
}

/* ---- figures */

bool is_draw(const struct plan *plan, size_t figure)
{
    return plan->gates[plan->figures[figure].wire].kind == RANDOM;
}

static bool is_of(const struct plan *plan, size_t figure, unsigned seat)
{
    return !seat || plan->figures[figure].seat == seat;
}

size_t draws_of(const struct plan *plan, unsigned seat)
{
    size_t count = 0;
    for (size_t k = 0; k < plan->figure_count; k++)
        count += is_of(plan, k, seat) && is_draw(plan, k);
    return count;
}

size_t inputs_of(const struct plan *plan, unsigned seat)
{
    size_t count = 0;
    for (size_t k = 0; k < plan->figure_count; k++)
        count += is_of(plan, k, seat) && !is_draw(plan, k);
    return count;
}

struct bytes figures_of(const struct plan *plan, unsigned seat, struct bytes inputs, struct bytes draws)
{
    struct bytes all = fresh_bytes(inputs.len + draws.len);
    size_t input = 0, draw = 0;
    for (size_t k = 0; k < plan->figure_count; k++)
        if (is_of(plan, k, seat)) {
            size_t at = input + draw;
            put_number(all, at, is_draw(plan, k) ? get_number(draws, draw++) : get_number(inputs, input++));
        }
    return all;
}

/* ---- preparing plans */

/* The gate in place g of a preparing plan. */
static struct gate preparing_gate(size_t g)
{
    uint32_t first = (uint32_t)(g / MADE_BY * MADE_BY);
    return g % MADE_BY < 2 ? (struct gate){.kind = RANDOM} : (struct gate){.kind = MULTIPLY, .a = first, .b = first + 1};
}

bool prepares(const struct plan *plan)
{
    bool shape = plan->out_count == 0 && plan->gate_count % MADE_BY == 0;
    for (size_t g = 0; shape && g < plan->gate_count; g++) {
        struct gate is = plan->gates[g], want = preparing_gate(g);
        shape = is.kind == want.kind && is.a == want.a && is.b == want.b;
    }
    return shape;
}

/* The plan's head, with other counts and places; its points, where it has them, stand after the gates, as there are no outs. */
struct bytes preparing_file(const struct plan *plan)
{
    const struct layout *l = layouts + plan->version;
    size_t head = field(plan, l->gates_at, l->width), gates = MADE_BY * plan->triple_count, gate = GATE_HEAD + 2 * l->width;
    size_t end = head + gate * gates, points = plan->chosen ? l->width * plan->seats : 0;
    if (!gates)
        return fresh_bytes(0);
    struct bytes file = fresh_bytes(end + points);
    memcpy(file.at, plan->file.at, head);
    put_bytes(file.at + l->gates, l->width, gates);
    put_bytes(file.at + l->outs_at, l->width, end);
    put_bytes(file.at + l->outs, l->width, 0);
    for (size_t g = 0; g < gates; g++) {
        struct gate made = preparing_gate(g);
        uint8_t *at = file.at + head + gate * g;
        at[0] = (uint8_t)made.kind;
        put_bytes(at + GATE_HEAD, l->width, made.a);
        put_bytes(at + GATE_HEAD + l->width, l->width, made.b);
    }
    if (points) {
        put_bytes(file.at + l->points_at, l->width, end);
        memcpy(file.at + end, plan->file.at + plan->file.len - points, points);
    }
    return file;
}

/* ---- words */

int digits_of(const struct plan *plan)
{
    return snprintf(NULL, 0, "%u", plan->prime - 1);
}

void print_counts(FILE *to, const struct plan *plan)
{
    fprintf(to, "version %u, %u seat%s, threshold %u, prime %u, ", plan->version, plan->seats, plural(plan->seats), plan->threshold, plan->prime);
    fprintf(to, "%zu gate%s, %zu out%s, %u calls", plan->gate_count, plural(plan->gate_count), plan->out_count, plural(plan->out_count), plan->calls);
    if (plan->triple_count)
        fprintf(to, " and %zu triple%s", plan->triple_count, plural(plan->triple_count));
    fprintf(to, " a seat.\n");
}

void write_plan(const char *path, struct bytes file)
{
    struct plan plan = plan_of(path, copy_of(file));
    struct report r;
    open_report(&r);
    fprintf(r.to, "%zu bytes: ", file.len);
    print_counts(r.to, &plan);
    write_and_report(path, file, &r);
    close_plan(&plan);
}

/* The figure that an input gate's wire has; of a random wire the first one. */
static size_t figure_of(const struct plan *plan, size_t wire)
{
    size_t k = 0;
    while (plan->figures[k].wire != wire)
        k++;
    return k;
}

/* The triple that a gate spends. */
static size_t triple_of(const struct plan *plan, size_t wire)
{
    size_t count = 0;
    for (size_t g = 0; g < wire; g++)
        count += plan->gates[g].kind == SPEND;
    return count;
}

void print_gate(FILE *to, const struct plan *plan, size_t wire)
{
    struct gate g = plan->gates[wire];
    switch (g.kind) {
    case INPUT:
        fprintf(to, "figure %zu, given by seat %u", figure_of(plan, wire), g.a);
        break;
    case ADD:
        fprintf(to, "wire %u plus wire %u", g.a, g.b);
        break;
    case SCALE:
        fprintf(to, "wire %u times the constant %u", g.a, g.b);
        break;
    case OFFSET:
        fprintf(to, "wire %u plus the constant %u", g.a, g.b);
        break;
    case MULTIPLY:
        fprintf(to, "wire %u times wire %u, in round", g.a, g.b);
        if (rounds_of(plan, g) > 1)
            fprintf(to, "s %u to", g.round + 1 - rounds_of(plan, g));
        fprintf(to, " %u", g.round);
        break;
    case SPEND:
        fprintf(to, "wire %u times wire %u, by triple %zu, in round %u", g.a, g.b, triple_of(plan, wire), g.round);
        break;
    case RANDOM:
        fprintf(to, "figure%s %zu", plural(plan->seats), figure_of(plan, wire));
        if (plan->seats > 1)
            fprintf(to, " to %zu", figure_of(plan, wire) + plan->seats - 1);
        fprintf(to, ", drawn by the seat%s%s, in round %u", plural(plan->seats), plan->seats > 1 ? " and added" : "", g.round);
        break;
    default:
        fprintf(to, "a gate of kind %u", g.kind);
    }
}

enum carried carried_in(const struct plan *plan, unsigned round, size_t *wire)
{
    static const enum carried of_masked[] = {PARTS, MASKED, ZEROS};
    for (size_t g = 0; g < plan->gate_count && round > 0; g++) {
        struct gate gate = plan->gates[g];
        unsigned rounds = rounds_of(plan, gate);
        if (!rounds || round > gate.round || round + rounds <= gate.round)
            continue;
        *wire = g;
        return gate.kind == RANDOM ? DRAWS : gate.kind == SPEND ? OPENINGS : rounds == 1 ? PRODUCT : of_masked[gate.round - round];
    }
    return round ? OUTS : INPUTS;
}

void round_words(const struct plan *plan, unsigned round, char *words, size_t room)
{
    static const char *const names[] = {[INPUTS] = "inputs", [OUTS] = "outs", [PRODUCT] = "wire", [DRAWS] = "wire", [ZEROS] = "zeros",
        [MASKED] = "masked", [PARTS] = "wire", [OPENINGS] = "openings"};
    size_t wire;
    enum carried what = carried_in(plan, round, &wire);
    if (what == INPUTS || what == OUTS)
        snprintf(words, room, "%s", names[what]);
    else
        snprintf(words, room, "%s %zu", names[what], wire);
}
