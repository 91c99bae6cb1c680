/* Mail between seats. A seat keeps what it sends until it is asked for: each seat dials the others and asks, and answers those that dial it.
 *
 * A request is a letter, the run (32 bytes), the asking seat's token (16 bytes) and a number (2 bytes, low byte first); who asks is what the
 * line's certificate says. A token is drawn when a seat begins a run: a seat that lost its record and began anew has another, and is found out.
 *
 *     M  the mail of round NUMBER for who asks
 *     F  the seats of the set NUMBER have their results, as far as who asks knows
 *
 * An answer is a letter and what belongs to it.
 *
 *     Y  the answering seat's token; then the mail, or the set of the seats that have their results, as far as the answering seat knows
 *     N  not yet: who asks may ask again
 *     R  the answering seat takes part in another run
 *     L  the asking seat has another token than before: its record was lost
 */
#ifndef MAIL_H
#define MAIL_H

#include "record.h"
#include "tls.h"

/* Begins the mail of a run, with this seat's token; open_tls comes first. */
void open_mail(const struct description *d, const uint8_t *token);

/* ---- asking, from one thread */

enum answer { NOBODY, NOT_YET, THERE };

/* Sends a request to a seat; false where the seat cannot be reached, or its pause after the last trouble is not over. */
bool ask(unsigned of, char letter, unsigned number);

/* The answer to the last request: of THERE, exactly len bytes are in `to`. */
enum answer hear(unsigned of, uint8_t *to, size_t len);

/* Ends the line to a seat in order: the seat then knows that its answer was taken and kept. */
void take_leave(unsigned of);

/* Milliseconds until a seat that was not reached may be asked again; at most a second. */
int next_try(void);

/* ---- answering, from a thread for each line */

/* Starts to answer calls at a socket. */
void answer_calls(int listener);

/* What the run answers (seat.c). The mail of a round for a seat: waits so long for it, and answers whether it is there. */
bool find_mail(unsigned to, unsigned round, int wait_ms, struct bytes *mail);

/* Whether a seat's token is the one it had before in this run; the first one is taken up. */
bool know_token(unsigned of, const uint8_t *token);

/* Takes up from a seat which seats have their results; answers all of which that is known, once this is on the disk. */
unsigned learn_finished(unsigned from, unsigned seats);

/* The seat knows that all have their results, and took leave. */
void note_leave(unsigned from);

/* A line for the person at this seat. */
void say(const char *format, ...) __attribute__((format(printf, 1, 2)));

#endif
