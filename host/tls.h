/* Lines between seats: TLS 1.3 connections on which both ends have shown their certificates. Who is at the other end is what its
 * certificate's fingerprint says in the run's description, and nothing else. docs/DECISIONS.md says which settings were chosen and why. */
#ifndef TLS_H
#define TLS_H

#include <stdbool.h>

#include "key.h"

struct line {
    SSL *ssl; /* null where there is no connection */
    int fd;
    unsigned seat;     /* at the other end; 0 before it is known */
    unsigned expected; /* the seat that was dialled; 0 where the other end did */
    bool ended;        /* the other end closed the line in order */
    bool broken;       /* it sent what no seat of this run sends */
    char trouble[256]; /* why the line failed, for a person */
};

/* Loads a key and its certificate for the lines of a run, and answers whose they are: this seat's number. */
unsigned open_tls(const struct description *d, const char *folder);

/* A socket that takes calls at an address and port. */
int listen_at(const char *address, const char *port);

/* Dials a seat at its address; or takes a call that came in on a socket, which the line then owns. False: it failed, and trouble says why. */
bool dial(struct line *l, unsigned seat, int seconds);
bool take_call(struct line *l, int fd, int seconds);

/* Sends a message; receives one that has `least` to `most` bytes, and answers how many it has, or -1. A message is its length in four bytes,
 * low byte first, then so many bytes. */
bool send_message(struct line *l, const uint8_t *message, size_t len, int seconds);
long receive_message(struct line *l, uint8_t *message, size_t least, size_t most, int seconds);

/* Whether the other end is gone; asks without waiting. */
bool is_gone(const struct line *l);

/* Ends a line: in order, so that the other end knows that all it sent was read; or as it is. */
void hang_up(struct line *l, bool in_order);

/* Milliseconds on a clock that is never set. */
int64_t now_ms(void);

#endif
