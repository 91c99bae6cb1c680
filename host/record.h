/* A seat's record: what a seat that was killed needs to go on. It stands in the file `record` of the seat's folder, which the seat alone can
 * read, and is replaced as a whole: after a crash the old record is there or the new one. */
#ifndef RECORD_H
#define RECORD_H

#include <stdbool.h>

#include "description.h"

enum { TOKEN = 16 };

/* The numbers of a record and of a request (seats, sets, calls and rounds) have two bytes, whatever a number of a list has. */
enum { SHORT = 2 };

static inline unsigned get_short(const uint8_t *at)
{
    return (unsigned)get_bytes(at, SHORT);
}

static inline void put_short(uint8_t *at, unsigned x)
{
    put_bytes(at, SHORT, x);
}

struct record {
    const struct description *run;
    unsigned seat;
    unsigned calls;                        /* that the plan asks of a seat */
    unsigned next;                         /* the next call's number */
    uint16_t finished;                     /* bit i - 1: seat i has its results */
    uint16_t told;                         /* bit i - 1: seat i knows that all seats have theirs */
    uint8_t tokens[MOST_SEATS + 1][TOKEN]; /* drawn by each seat when it began this run; 0 where it is not known yet */
    struct bytes figures, coins;           /* of this seat, its draws among the figures; empty once all seats have their results */
    struct bytes triples, state;           /* as the last call left them, likewise: what is spent is zero in the record that has what it was spent for */
    struct bytes *sent;                    /* what each call sent, for all seats that may still ask for it */
};

/* Takes the folder for this process; another seat at work there ends the program. */
void take_home(const char *folder);

/* The path of a file there. It is good until the next call. */
const char *in_home(const char *name);

/* Reads the record: whether there is one. One that is damaged or of another run ends the program. r->run, seat and calls are set. */
bool open_record(struct record *r);

/* Keeps the record: it is on the disk when this returns. */
void keep_record(const struct record *r);

/* Forgets what was secret in the record, in memory; the next keep_record does so on the disk. */
void forget_secrets(struct record *r);

/* Frees bytes, which are overwritten first. */
void wipe_bytes(struct bytes list);

/* Replaces a file as a whole. */
void replace_file(const char *name, struct bytes all);

/* The same in two steps: the file is on the disk beside the one that it is to replace, until it takes its place. The second step does nothing where
 * the first was not made. */
void lay_beside(const char *name, struct bytes all);
void put_in_place(const char *name);

/* Overwrites a file with zeros and removes it; nothing where there is none. */
void wipe_file(const char *name);

#endif
