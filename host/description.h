/* The description of a run: one text file, the same for every seat.
 *
 *     run   scrap-2026-46
 *     plan  K.plan 64-hexadecimal-digits
 *     seat  1 plant-a.example.org 17301 64-hexadecimal-digits
 *     seat  2 192.0.2.17 17301 64-hexadecimal-digits
 *
 * A line is a word and what belongs to it, parted by blanks; `#` begins a comment. The plan's file is looked up from the description's
 * folder, and its digits are its SHA-256. A seat has a number, an address, a port, and the SHA-256 of its certificate, its fingerprint. */
#ifndef DESCRIPTION_H
#define DESCRIPTION_H

#include "lists.h"

enum { MOST_SEATS = 15, DIGEST = 32, DIGEST_TEXT = 2 * DIGEST + 1, NAME_MOST = 64 };

struct place {
    char *address, *port; /* null where the description has no such seat */
    uint8_t fingerprint[DIGEST];
};

struct description {
    char *name; /* of the run */
    char *plan_path;
    struct bytes plan;
    uint8_t plan_digest[DIGEST];
    unsigned seats;
    struct place places[MOST_SEATS + 1]; /* by seat, from 1 on */
    uint8_t run[DIGEST]; /* of the bytes of a number, the name, the plan's digest and all fingerprints: equal for the seats of one run alone */
};

/* Reads a description and its plan. One that is not understood, or a plan with another SHA-256, ends the program. */
void open_description(struct description *d, const char *path);

/* The seat whose certificate has this fingerprint; 0 where none has. */
unsigned seat_with(const struct description *d, const uint8_t *fingerprint);

/* A digest as 64 hexadecimal digits. */
void write_digest(char text[DIGEST_TEXT], const uint8_t *digest);

/* Ends the program: what this seat is asked to do disagrees with what it was given or did before. */
_Noreturn void refuse(const char *format, ...) __attribute__((format(printf, 1, 2)));

#endif
