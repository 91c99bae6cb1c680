/* A plan as it is shown to people. The library has checked it; what is read here is printed, and says to whom a figure belongs. The host takes
 * a plan's seats, prime, calls and sizes from here. */
#ifndef PLAN_H
#define PLAN_H

#include <stdbool.h>
#include <stdio.h>

#include "lists.h"

enum gate_kind { INPUT = 1, ADD = 2, SCALE = 3, OFFSET = 4, MULTIPLY = 5, RANDOM = 6, SPEND = 7 };

/* Gate g makes wire g. */
struct gate {
    unsigned kind;
    uint32_t a, b;
    unsigned round; /* the round whose mail its wire waits for; of a product's rounds the last */
};

struct out {
    unsigned seat;
    uint32_t wire;
};

/* A number of the list of figures: the seat that gives it, and its wire. That of a random wire is a draw: the seat draws it. */
struct figure {
    unsigned seat;
    size_t wire;
};

struct plan {
    struct bytes file;
    unsigned version, seats, threshold;
    uint32_t prime;
    uint32_t points[15]; /* by seat */
    bool chosen;         /* the points stand in the file; else they are 1 to n */
    size_t gate_count, out_count, figure_count, triple_count; /* the last: gates that spend a triple */
    struct gate *gates;
    struct out *outs;
    struct figure *figures;
    unsigned calls;        /* of each seat; the last gives its results, the one before sends the outs */
    size_t *mail, *writes; /* in bytes, by call and seat; null before they are asked for */
};

/* Reads a plan file and asks the library to check it; a refusal ends the program. */
struct plan open_plan(const char *path);

/* The same of a plan's bytes, which are the plan's from then on. */
struct plan plan_of(const char *name, struct bytes file);
void close_plan(struct plan *plan);

/* Asks the library for the sizes of all calls, which mail_size, written_size, sent_by and part_of tell. Each answer checks the plan anew, and with it a
 * prime of up to 31 bits: so who needs no sizes asks for none. */
void ask_sizes(struct plan *plan);

/* The bytes of a seat's list, as the library says (POOL_SEAT_FIGURES, POOL_SEAT_COINS, POOL_SEAT_STATE, POOL_SEAT_TRIPLES). */
size_t seat_size(const struct plan *plan, unsigned seat, unsigned what);

/* The bytes of the mail that a seat's call takes, and of what it writes. */
size_t mail_size(const struct plan *plan, unsigned seat, unsigned call);
size_t written_size(const struct plan *plan, unsigned seat, unsigned call);

/* All that a seat sends, in numbers. What the last call writes is its results. */
size_t sent_by(const struct plan *plan, unsigned seat);

/* Of what a seat writes in a call, the part for seat `to`. */
struct part part_of(const struct plan *plan, unsigned from, unsigned to, unsigned call);

/* Whether a figure is a draw; and how many figures a seat draws, or gives. Seat 0 stands for all. */
bool is_draw(const struct plan *plan, size_t figure);
size_t draws_of(const struct plan *plan, unsigned seat);
size_t inputs_of(const struct plan *plan, unsigned seat);

/* A seat's figures, or with seat 0 all, in the plan's order: inputs and draws, each of which stand in this order in a list of their own. */
struct bytes figures_of(const struct plan *plan, unsigned seat, struct bytes inputs, struct bytes draws);

/* Whether a plan has the shape of one that prepares triples: for each of them two random wires and their product, and no outs. */
bool prepares(const struct plan *plan);

/* The file of the plan that prepares a plan's triples, in the plan's version; empty where the plan spends none. */
struct bytes preparing_file(const struct plan *plan);

/* The digits of the largest number below the prime: those of a column. */
int digits_of(const struct plan *plan);

/* A line with a plan's counts. */
void print_counts(FILE *to, const struct plan *plan);

/* Writes a plan file, and where that is not standard output prints a line with its counts. */
void write_plan(const char *path, struct bytes file);

/* Wire `wire` in words, as `wire 0 times wire 1`. */
void print_gate(FILE *to, const struct plan *plan, size_t wire);

/* What a round carries: the inputs, the outs, or what a wire waits for: pieces of a product, of draws, and in version 4, for a product, of the zeros
 * that mask it, of the masked product, and the parts of its shares; or, for a product by a triple, what the seats open. */
enum carried { INPUTS, OUTS, PRODUCT, DRAWS, ZEROS, MASKED, PARTS, OPENINGS };

enum carried carried_in(const struct plan *plan, unsigned round, size_t *wire);

/* The same in words: at most room bytes. */
void round_words(const struct plan *plan, unsigned round, char *words, size_t room);

#endif
