#include "mail.h"

#include <errno.h>
#include <netdb.h>
#include <pthread.h>
#include <stdatomic.h>
#include <stdio.h>
#include <stdlib.h>
#include <string.h>
#include <sys/socket.h>
#include <unistd.h>

enum {
    REQUEST = 1 + DIGEST + TOKEN + SHORT,
    DIAL_S = 10,         /* for a connection and its handshake */
    IDLE_S = 60,         /* a line on which nothing is asked for so long is closed */
    HOLD_MS = 5000,      /* how long a request waits for mail that is not there yet */
    LOOK_MS = 250,       /* how often it is looked whether who asked is still there */
    ANSWER_S = 15,       /* for an answer: above the time that it may be held */
    FIRST_MS = 20,       /* pauses between tries grow from this */
    LAST_MS = 15000,     /* to this */
    SAY_MS = 2000,       /* trouble is told once it lasts as long */
    STRANGERS = 64,      /* calls at a time that have not shown a certificate yet; more are cut off */
    FAILED = 20,         /* calls that came to nothing: so many are told in so long a time */
    FAILED_MS = 10000
};

static const struct description *run;
static const uint8_t *own_token;

/* ---- asking */

static struct peer {
    struct line line;
    bool used;                  /* the line has brought an answer */
    int pause;                  /* after the last try, in milliseconds */
    _Atomic int64_t not_before; /* when it may be tried again */
    int64_t since;              /* when the trouble began; 0 where there is none */
    char said[256];             /* the trouble that was told */
} peers[MOST_SEATS + 1];

void open_mail(const struct description *d, const uint8_t *token)
{
    run = d;
    own_token = token;
}

static void tell_trouble(unsigned of, const char *trouble)
{
    struct peer *p = peers + of;
    p->since = p->since ? p->since : now_ms();
    if (now_ms() - p->since < SAY_MS || !strcmp(p->said, trouble))
        return;
    snprintf(p->said, sizeof p->said, "%s", trouble);
    say("waiting for seat %u (%s port %s): %s", of, run->places[of].address, run->places[of].port, trouble);
}

/* A line failed. One that worked before is dialled again at once; else the pauses grow. */
static void stumble(unsigned of, bool worked)
{
    struct peer *p = peers + of;
    hang_up(&p->line, false);
    if (!worked) {
        p->pause = p->pause ? 2 * p->pause : FIRST_MS;
        p->pause = p->pause > LAST_MS ? LAST_MS : p->pause;
        p->not_before = now_ms() + p->pause;
        tell_trouble(of, p->line.trouble);
    }
}

bool ask(unsigned of, char letter, unsigned number)
{
    struct peer *p = peers + of;
    uint8_t request[REQUEST] = {(uint8_t)letter};
    if (now_ms() < p->not_before)
        return false;
    if (!p->line.ssl) {
        p->used = false;
        if (!dial(&p->line, of, DIAL_S)) {
            stumble(of, false);
            return false;
        }
    }
    memcpy(request + 1, run->run, DIGEST);
    memcpy(request + 1 + DIGEST, own_token, TOKEN);
    put_short(request + REQUEST - SHORT, number);
    if (send_message(&p->line, request, sizeof request, ANSWER_S))
        return true;
    stumble(of, p->used);
    return false;
}

static void works(unsigned of, bool there)
{
    struct peer *p = peers + of;
    if (there && *p->said)
        say("seat %u answers", of);
    if (there)
        *p->said = 0;
    p->used = true;
    p->pause = 0;
    p->since = 0;
    p->not_before = there ? 0 : now_ms() + FIRST_MS;
}

/* What is wrong with an answer, in words. */
static const char *wrong_answer(uint8_t letter)
{
    switch (letter) {
    case 'R':
        return "it takes part in another run: its description has another name, plan or fingerprint, or its program is another version";
    case 'L':
        return "it has mail of this seat from before its record was lost: agree on a run with a new name";
    case 'Y':
        return "its record was lost, and it began the run anew: agree on a run with a new name";
    default:
        return "it sent no answer";
    }
}

enum answer hear(unsigned of, uint8_t *to, size_t len)
{
    struct peer *p = peers + of;
    struct bytes message = fresh_bytes(1 + TOKEN + len);
    enum answer answer = NOBODY;
    bool worked = p->used;
    long got = receive_message(&p->line, message.at, 1, message.len, ANSWER_S);
    if (got == (long)message.len && message.at[0] == 'Y' && know_token(of, message.at + 1)) {
        memcpy(to, message.at + 1 + TOKEN, len);
        answer = THERE;
    } else if (got == 1 && message.at[0] == 'N') {
        answer = NOT_YET;
    } else if (got >= 0) {
        worked = false;
        snprintf(p->line.trouble, sizeof p->line.trouble, "%s", wrong_answer(message.at[0]));
    }
    if (answer == NOBODY)
        stumble(of, worked && !p->line.broken);
    else
        works(of, answer == THERE);
    wipe_bytes(message);
    return answer;
}

void take_leave(unsigned of)
{
    hang_up(&peers[of].line, true);
}

int next_try(void)
{
    int64_t now = now_ms(), soonest = now + 1000;
    for (unsigned of = 1; of <= run->seats; of++) {
        int64_t then = peers[of].not_before;
        if (then > now && then < soonest)
            soonest = then;
    }
    return (int)(soonest - now);
}

/* ---- answering */

static atomic_int strangers;

/* A seat has one line here: when it calls anew, its older line ends. One that calls is there, and may be tried again at once. */
static pthread_mutex_t lines_lock = PTHREAD_MUTEX_INITIALIZER;
static struct line *lines[MOST_SEATS + 1];

static void register_line(struct line *l)
{
    pthread_mutex_lock(&lines_lock);
    if (lines[l->seat])
        shutdown(lines[l->seat]->fd, SHUT_RDWR);
    lines[l->seat] = l;
    peers[l->seat].not_before = 0;
    pthread_mutex_unlock(&lines_lock);
}

static void end_line(struct line *l)
{
    pthread_mutex_lock(&lines_lock);
    if (lines[l->seat] == l)
        lines[l->seat] = NULL;
    hang_up(l, false);
    pthread_mutex_unlock(&lines_lock);
}

static bool answer_yes(struct line *l, struct bytes body)
{
    struct bytes message = fresh_bytes(1 + TOKEN + body.len);
    message.at[0] = 'Y';
    memcpy(message.at + 1, own_token, TOKEN);
    memcpy(message.at + 1 + TOKEN, body.at, body.len);
    bool ok = send_message(l, message.at, message.len, ANSWER_S);
    wipe_bytes(message);
    return ok;
}

static bool answer_mail(struct line *l, unsigned round)
{
    struct bytes mail;
    for (int waited = 0; waited < HOLD_MS; waited += LOOK_MS) {
        if (is_gone(l))
            return false;
        if (!find_mail(l->seat, round, LOOK_MS, &mail))
            continue;
        bool ok = answer_yes(l, mail);
        wipe_bytes(mail);
        return ok;
    }
    return send_message(l, (const uint8_t *)"N", 1, ANSWER_S);
}

static bool answer_finished(struct line *l, unsigned seats)
{
    uint8_t set[SHORT];
    put_short(set, learn_finished(l->seat, seats));
    return answer_yes(l, (struct bytes){set, sizeof set});
}

/* Answers one request; false ends the line. */
static bool answer_request(struct line *l, const uint8_t *request)
{
    unsigned number = get_short(request + REQUEST - SHORT);
    if (memcmp(request + 1, run->run, DIGEST))
        return send_message(l, (const uint8_t *)"R", 1, ANSWER_S);
    if (!know_token(l->seat, request + 1 + DIGEST)) {
        send_message(l, (const uint8_t *)"L", 1, ANSWER_S);
        snprintf(l->trouble, sizeof l->trouble, "seat %u's record was lost, and it began the run anew: agree on a run with a new name", l->seat);
        l->broken = true;
        return false;
    }
    if (request[0] == 'M')
        return answer_mail(l, number);
    return request[0] == 'F' && answer_finished(l, number);
}

/* The words for a call of a stranger, or one that broke off; not more of them than a person reads. */
static void say_failed(const struct line *l, const struct sockaddr_storage *from)
{
    static atomic_int told;
    static _Atomic int64_t since;
    char host[NI_MAXHOST] = "an unknown address";
    getnameinfo((const struct sockaddr *)from, sizeof *from, host, sizeof host, NULL, 0, NI_NUMERICHOST);
    if (now_ms() - since > FAILED_MS) {
        since = now_ms();
        told = 0;
    }
    if (told++ < FAILED)
        say("a call from %s came to nothing: %s", host, l->trouble);
}

static void *serve(void *socket)
{
    struct line l;
    struct sockaddr_storage from;
    socklen_t len = sizeof from;
    uint8_t request[REQUEST];
    const unsigned all = (1u << run->seats) - 1;
    bool last = false;
    memset(&from, 0, sizeof from);
    getpeername((int)(intptr_t)socket, (struct sockaddr *)&from, &len);
    bool known = take_call(&l, (int)(intptr_t)socket, DIAL_S);
    strangers--;
    if (known)
        register_line(&l);
    while (known && receive_message(&l, request, REQUEST, REQUEST, IDLE_S) > 0) {
        last = request[0] == 'F' && get_short(request + REQUEST - SHORT) == all;
        if (!answer_request(&l, request))
            break;
    }
    if (last && l.ended)
        note_leave(l.seat);
    if (!known || l.broken)
        say_failed(&l, &from);
    end_line(&l);
    return NULL;
}

static void *take_calls(void *listener)
{
    pthread_attr_t detached;
    pthread_attr_init(&detached);
    pthread_attr_setdetachstate(&detached, PTHREAD_CREATE_DETACHED);
    for (;;) {
        pthread_t thread;
        int fd = accept((int)(intptr_t)listener, NULL, NULL);
        if (fd < 0) {
            usleep(1000 * FIRST_MS); /* no descriptor is free, say */
            continue;
        }
        if (strangers++ < STRANGERS && !pthread_create(&thread, &detached, serve, (void *)(intptr_t)fd))
            continue;
        strangers--;
        close(fd);
    }
    return NULL;
}

void answer_calls(int listener)
{
    pthread_t thread;
    if (pthread_create(&thread, NULL, take_calls, (void *)(intptr_t)listener))
        fail(NOT_POSSIBLE, "cannot start a thread");
}
