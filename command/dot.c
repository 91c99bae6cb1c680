/* A plan as a Graphviz picture. A statement has a line of its own; nodes are wG (the gate of wire G), oN (out N) and rK (round K). */
#include "dot.h"

#include "command.h"

/* A light colour for each seat. */
static const char *const colours[] = {
    "#a6cee3", "#fdbf6f", "#b2df8a", "#fb9a99", "#cab2d6", "#ffff99", "#80e0c0", "#e0b8a0",
    "#8dd3ff", "#ffd0e8", "#d0f060", "#c8c8c8", "#f0a0f0", "#ffc080", "#a0b0ff", "#d8d8b0",
};

enum { COLOURS = sizeof colours / sizeof *colours };

static const char *colour_of(unsigned seat)
{
    return colours[(seat - 1) % COLOURS];
}

static void draw_gate(FILE *to, const struct plan *plan, size_t wire)
{
    struct gate g = plan->gates[wire];
    fprintf(to, "    w%zu [label=\"", wire);
    switch (g.kind) {
    case INPUT:
        fprintf(to, "seat %u gives\\nwire %zu\", shape=box, fillcolor=\"%s\"];\n", g.a, wire, colour_of(g.a));
        return;
    case ADD:
        fprintf(to, "plus");
        break;
    case SCALE:
        fprintf(to, "times %u", g.b);
        break;
    case OFFSET:
        fprintf(to, "plus %u", g.b);
        break;
    case MULTIPLY:
        fprintf(to, "times");
        break;
    case SPEND:
        fprintf(to, "times, by a triple");
        break;
    case RANDOM:
        fprintf(to, "random");
        break;
    default:
        fprintf(to, "kind %u", g.kind);
    }
    fprintf(to, "\\nwire %zu\"];\n", wire);
}

static void draw_edges(FILE *to, const struct plan *plan, size_t wire)
{
    struct gate g = plan->gates[wire];
    if (g.kind == INPUT || g.kind == RANDOM)
        return;
    fprintf(to, "    w%u -> w%zu;\n", g.a, wire);
    if (g.kind == ADD || g.kind == MULTIPLY || g.kind == SPEND)
        fprintf(to, "    w%u -> w%zu;\n", g.b, wire);
}

/* A round's rank: its name, and the gates whose wires it brings or that are worked on from there. */
static void draw_round(FILE *to, const struct plan *plan, unsigned round, unsigned last)
{
    fprintf(to, "    r%u [label=\"round %u\", shape=plaintext];\n", round, round);
    if (round)
        fprintf(to, "    r%u -> r%u [style=invis];\n", round - 1, round);
    fprintf(to, "    { rank=same; r%u;", round);
    for (size_t g = 0; g < plan->gate_count; g++)
        if (plan->gates[g].round == round)
            fprintf(to, " w%zu;", g);
    for (size_t o = 0; round == last && o < plan->out_count; o++)
        fprintf(to, " o%zu;", o);
    fprintf(to, " }\n");
}

void draw(FILE *to, const struct plan *plan)
{
    unsigned last = plan->calls - 2; /* the round of the outs */
    fprintf(to, "digraph plan {\n");
    fprintf(to, "    graph [rankdir=LR, fontname=\"Helvetica\", label=\"%u seat%s, threshold %u, prime %u\"];\n", plan->seats,
            plural(plan->seats), plan->threshold, plan->prime);
    fprintf(to, "    node [fontname=\"Helvetica\", style=filled, fillcolor=\"white\"];\n");
    for (size_t g = 0; g < plan->gate_count; g++)
        draw_gate(to, plan, g);
    for (size_t o = 0; o < plan->out_count; o++)
        fprintf(to, "    o%zu [label=\"out %zu\\nto seat %u\", shape=box, fillcolor=\"%s\"];\n", o, o, plan->outs[o].seat,
                colour_of(plan->outs[o].seat));
    for (size_t g = 0; g < plan->gate_count; g++)
        draw_edges(to, plan, g);
    for (size_t o = 0; o < plan->out_count; o++)
        fprintf(to, "    w%u -> o%zu;\n", plan->outs[o].wire, o);
    for (unsigned round = 0; round <= last; round++)
        draw_round(to, plan, round, last);
    fprintf(to, "}\n");
}
