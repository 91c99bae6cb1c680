/* One seat of a run as a process: it makes its calls from the first to the last, asks the other seats for mail, and answers them.
 *
 * A seat that was killed goes on where it was when it is started again. Its record is on the disk before anybody can fetch the mail of its
 * last call, so that at most a call is repeated that nobody saw. It makes a call as soon as all mail for it is there; a seat that sends it
 * nothing in a round is not asked. It keeps what it sent until all seats have their results: only then is nobody behind who may ask.
 *
 * The triples that a plan spends stand in the record beside the state, so that they are spent or unspent together with it. Those that a preparing run
 * has made are in its record alone until all seats have finished; then they leave it for the file `triples`, and at no moment are they in both. */
#include <errno.h>
#include <openssl/rand.h>
#include <poll.h>
#include <pthread.h>
#include <signal.h>
#include <stdarg.h>
#include <stdio.h>
#include <stdlib.h>
#include <string.h>
#include <sys/resource.h>
#include <sys/stat.h>
#include <time.h>
#include <unistd.h>

#include "command.h"
#include "mail.h"
#include "plan.h"
#include "pool.h"
#include "record.h"

enum { DAY = 24 * 60 * 60, KEY_DAYS = 730, LEAVE_MS = 3000, SAY_MS = 2000, FIGURE_COUNT = 10, OFF_POLYNOMIAL = 20 };

static const char help[] =
    "seat DESCRIPTION KEY HOME [--listen ADDRESS PORT]\n"
    "        takes part in a run: goes on where it was, and ends when every seat has finished\n"
    "seat --make-key KEY\n"
    "        makes a key and a certificate in the folder KEY, and prints the fingerprint\n"
    "seat --fingerprint KEY\n"
    "        prints the fingerprint again\n"
    "\n"
    "DESCRIPTION  the run's description, the same for every seat:\n"
    "               run   NAME\n"
    "               plan  FILE SHA-256\n"
    "               seat  NUMBER ADDRESS PORT FINGERPRINT    a line for each seat\n"
    "KEY          the folder of this plant's key.pem and certificate.pem; which seat it is, the\n"
    "             certificate's fingerprint says\n"
    "HOME         a folder for this seat and this run alone. Put its figures there, decimal, in the\n"
    "             file `figures`; its results will stand in the file `results`. Its coins, and its\n"
    "             draws for random wires, are drawn from the operating system. Of a plan that prepares\n"
    "             triples they stand in the file `triples` in the end; for a plan that spends them, move\n"
    "             that file to the folder of this run before the start\n"
    "--listen     where to take calls, if not at this seat's address and port in the description\n"
    "\n"
    "Exit status: 0 done; 1 refused; 2 the words, the description or a list are not understood;\n"
    "3 a file, an address or memory that the system does not give.\n";

static struct description run;
static struct plan plan;
static struct record record; /* changes under the lock */
static unsigned sure;        /* likewise; bit i - 1: seat i knows that this seat knows that all have their results */
static pthread_mutex_t lock = PTHREAD_MUTEX_INITIALIZER;
static pthread_cond_t changed; /* the record, or sure */

/* ---- words for a person */

static void say_with(const char *format, va_list args)
{
    char words[1024], who[16] = "";
    vsnprintf(words, sizeof words, format, args);
    if (record.seat)
        snprintf(who, sizeof who, " %u", record.seat);
    fprintf(stderr, "seat%s: %s\n", who, words);
}

void say(const char *format, ...)
{
    va_list args;
    va_start(args, format);
    say_with(format, args);
    va_end(args);
}

/* The program ends at once: other threads may be at work, and a record that is being replaced is whole in any case. */
_Noreturn void fail(enum fault fault, const char *format, ...)
{
    va_list args;
    va_start(args, format);
    say_with(format, args);
    _exit(fault == NOT_UNDERSTOOD ? USAGE : SYSTEM);
}

_Noreturn void refuse(const char *format, ...)
{
    va_list args;
    va_start(args, format);
    say_with(format, args);
    _exit(REFUSED);
}

_Noreturn void bad_usage(const char *format, ...)
{
    va_list args;
    va_start(args, format);
    say_with(format, args);
    fprintf(stderr, "usage: seat DESCRIPTION KEY HOME [--listen ADDRESS PORT]\n       seat --make-key KEY\n'seat --help' says more.\n");
    _exit(USAGE);
}

/* Ends the program with the library's refusal in words; with 20 they say at which seat to look. */
_Noreturn static void refused(uint64_t answer)
{
    unsigned number = POOL_REFUSAL(answer), place = POOL_PLACE(answer);
    if (number == OFF_POLYNOMIAL)
        refuse("refused %u: the share that seat %u sent does not fit those of seats 1 to %u. Look at seat %u first, then at seats 1 to %u. %s",
               number, place, place - 1, place, plan.threshold + 1, pool_refusal_sentence(number));
    refuse("refused %u at place %u: %s", number, place, pool_refusal_sentence(number));
}

/* The value of an answer of the library; a refusal ends the program. */
uint64_t value(uint64_t answer)
{
    if (POOL_REFUSAL(answer))
        refused(answer);
    return POOL_VALUE(answer);
}

/* ---- what the seat answers the others */

static unsigned bit(unsigned seat)
{
    return 1u << (seat - 1);
}

static unsigned all_seats(void)
{
    return (1u << run.seats) - 1;
}

/* Waits for a change, under the lock; false where the time is over first. */
static bool wait_change(int64_t until)
{
    struct timespec when = {until / 1000, until % 1000 * 1000000};
    return pthread_cond_timedwait(&changed, &lock, &when) != ETIMEDOUT;
}

bool find_mail(unsigned to, unsigned round, int wait_ms, struct bytes *mail)
{
    int64_t until = now_ms() + wait_ms;
    bool found = false;
    pthread_mutex_lock(&lock);
    while (record.next <= round && wait_change(until))
        ;
    if (round < record.next && round + 1 < record.calls) {
        struct part p = part_of(&plan, record.seat, to, round);
        found = p.at + p.len <= record.sent[round].len;
        if (found) {
            *mail = fresh_bytes(p.len);
            memcpy(mail->at, record.sent[round].at + p.at, p.len);
        }
    }
    pthread_mutex_unlock(&lock);
    return found;
}

/* A token is on the disk with the first call that takes mail from its seat. */
bool know_token(unsigned of, const uint8_t *token)
{
    static const uint8_t none[TOKEN];
    pthread_mutex_lock(&lock);
    if (!memcmp(record.tokens[of], none, TOKEN))
        memcpy(record.tokens[of], token, TOKEN);
    bool same = !memcmp(record.tokens[of], token, TOKEN);
    pthread_mutex_unlock(&lock);
    return same;
}

/* A preparing run has ended: the numbers of the finished state after the first are this seat's triples. They wait beside their place until the record
 * has them no more. */
static void lay_triples(void)
{
    struct bytes state = record.state;
    if (!prepares(&plan) || !state.len)
        return;
    struct bytes text = text_of((struct bytes){state.at + bytes_of(1), state.len - bytes_of(1)});
    lay_beside("triples", text);
    wipe_bytes(text);
}

/* Takes up what is known of the end, and keeps it. Once all seats have their results nobody wants mail any more: the secrets go. */
static void keep_end(unsigned finished, unsigned told)
{
    if (!(finished & ~record.finished) && !(told & ~record.told))
        return;
    record.finished |= (uint16_t)finished;
    record.told |= (uint16_t)told;
    if (record.finished == all_seats()) {
        lay_triples();
        forget_secrets(&record);
    }
    keep_record(&record);
    if (record.finished == all_seats())
        put_in_place("triples");
    pthread_cond_broadcast(&changed);
}

unsigned learn_finished(unsigned from, unsigned seats)
{
    pthread_mutex_lock(&lock);
    unsigned finished = record.finished | (seats & all_seats() & ~bit(record.seat));
    keep_end(finished, finished == all_seats() && seats == finished ? bit(from) : 0);
    unsigned known = record.finished;
    pthread_mutex_unlock(&lock);
    return known;
}

void note_leave(unsigned from)
{
    pthread_mutex_lock(&lock);
    sure |= bit(from);
    pthread_cond_broadcast(&changed);
    pthread_mutex_unlock(&lock);
}

/* ---- the calls */

/* The mail of a round, the senders ascending; waits until all of it is there. */
static struct bytes gather(unsigned round)
{
    struct bytes mail = fresh_bytes(mail_size(&plan, record.seat, round + 1));
    uint8_t *to[MOST_SEATS + 1], *next = mail.at;
    unsigned missing = 0;
    for (unsigned from = 1; from <= run.seats; from++) {
        struct part p = part_of(&plan, from, record.seat, round);
        to[from] = next;
        next += p.len;
        if (from == record.seat)
            memcpy(to[from], record.sent[round].at + p.at, p.len);
        else if (p.len)
            missing |= bit(from);
    }
    while (missing) {
        unsigned asked = 0;
        for (unsigned from = 1; from <= run.seats; from++)
            if (missing & bit(from) && ask(from, 'M', round))
                asked |= bit(from);
        for (unsigned from = 1; from <= run.seats; from++)
            if (asked & bit(from) && hear(from, to[from], part_of(&plan, from, record.seat, round).len) == THERE)
                missing &= ~bit(from);
        if (missing)
            poll(NULL, 0, next_try());
    }
    return mail;
}

static void keep_results(struct bytes results)
{
    struct bytes text = text_of(results);
    replace_file("results", text);
    wipe_bytes(text);
}

static void make_call(void)
{
    unsigned call = record.next;
    struct bytes mail = call ? gather(call - 1) : fresh_bytes(0);
    struct bytes out = fresh_bytes(written_size(&plan, record.seat, call));
    struct bytes state = copy_of(record.state), triples = copy_of(record.triples);
    value(pool_seat_call(plan.file.at, plan.file.len, (uint16_t)record.seat, record.figures.at, record.figures.len, record.coins.at,
                         record.coins.len, triples.at, triples.len, state.at, state.len, mail.at, mail.len, out.at, out.len));
    bool last = call + 1 == record.calls;
    if (last)
        keep_results(out);
    pthread_mutex_lock(&lock);
    struct bytes before = record.state, unspent = record.triples;
    record.state = state;
    record.triples = triples;
    record.next = call + 1;
    if (last)
        keep_end(bit(record.seat), 0);
    else {
        record.sent[call] = out;
        keep_record(&record);
        pthread_cond_broadcast(&changed);
    }
    pthread_mutex_unlock(&lock);
    if (last)
        wipe_bytes(out);
    wipe_bytes(before);
    wipe_bytes(unspent);
    wipe_bytes(mail);
}

/* ---- the end */

/* Which seats have not finished yet; or which have not heard that all have. Said once, where that lasts. */
static void say_waiting(void)
{
    static bool all_before;
    static int64_t since = -1;
    char list[128] = "";
    bool all = record.finished == all_seats();
    if (since < 0 || all != all_before)
        since = now_ms();
    all_before = all;
    if (!since || now_ms() - since < SAY_MS)
        return;
    since = 0;
    for (unsigned seat = 1; seat <= run.seats; seat++)
        if (!((all ? record.told : record.finished) & bit(seat)))
            sprintf(list + strlen(list), "%s%u", *list ? ", " : "", seat);
    if (*list)
        say("this seat's results are in %s; waiting for these to %s: %s", in_home("results"), all ? "hear that all have finished" : "finish", list);
}

/* Tells the seats which have finished, those that do not know it from this one; answers who took it up, and adds what they know to *finished. */
static unsigned tell(unsigned *finished, unsigned told[MOST_SEATS + 1], unsigned knowing)
{
    unsigned asked = 0, answered = 0, learnt = 0;
    for (unsigned seat = 1; seat <= run.seats; seat++)
        if (!(knowing & bit(seat)) && told[seat] != *finished && ask(seat, 'F', *finished))
            asked |= bit(seat);
    for (unsigned seat = 1; seat <= run.seats; seat++) {
        uint8_t set[SHORT];
        if (!(asked & bit(seat)) || hear(seat, set, sizeof set) != THERE)
            continue;
        told[seat] = *finished;
        answered |= bit(seat);
        learnt |= get_short(set);
    }
    *finished |= learnt & all_seats();
    return answered;
}

/* Tells every seat that this one has finished, and then that all have. It ends when each of them took that up or took leave; or a while after
 * it is known that each of them knows: those that took leave may be gone. docs/DECISIONS.md says why no seat is left behind. */
static void finish(void)
{
    unsigned told[MOST_SEATS + 1] = {0};
    int64_t until = INT64_MAX;
    pthread_mutex_lock(&lock);
    sure |= bit(record.seat);
    keep_end(0, bit(record.seat));
    while (sure != all_seats() && now_ms() < until) {
        unsigned finished = record.finished, before = finished, knowing = sure;
        pthread_mutex_unlock(&lock);
        unsigned answered = tell(&finished, told, knowing);
        pthread_mutex_lock(&lock);
        bool all = before == all_seats();
        keep_end(finished, all ? answered : 0);
        for (unsigned seat = 1; all && seat <= run.seats; seat++)
            if (answered & bit(seat))
                take_leave(seat);
        sure |= all ? answered : 0;
        if (until == INT64_MAX && record.told == all_seats())
            until = now_ms() + LEAVE_MS;
        if (record.finished == before && sure != all_seats())
            wait_change(now_ms() + next_try());
        say_waiting();
    }
    pthread_mutex_unlock(&lock);
}

/* ---- the start */

/* The numbers in a file of HOME, none where there is no such file. */
static struct bytes list_in(const char *name)
{
    struct bytes text, list;
    if (!read_file(in_home(name), &text)) {
        if (errno != ENOENT)
            fail(NOT_POSSIBLE, "cannot read %s: %s", in_home(name), strerror(errno));
        return fresh_bytes(0);
    }
    list = numbers_of(in_home(name), text);
    wipe_bytes(text);
    return list;
}

/* The numbers in a file of HOME, or so many fresh ones where it has none. */
static struct bytes drawn_list(const char *name, size_t count)
{
    struct bytes list = list_in(name);
    return list.len ? list : draw_numbers(count, plan.prime);
}

/* This seat's figures: those in the file `figures`, and by the random wires its draws. */
static struct bytes own_figures(void)
{
    size_t inputs = inputs_of(&plan, record.seat), draws = draws_of(&plan, record.seat);
    struct bytes given = list_in("figures"), drawn = drawn_list("draws", draws);
    if (!given.len && inputs)
        fail(NOT_POSSIBLE, "there are no figures in %s: put this seat's there, decimal, parted by blanks, commas or lines", in_home("figures"));
    if (count_of(drawn) != draws)
        fail(NOT_UNDERSTOOD, "%s has %zu number%s, and this seat draws %zu", in_home("draws"), count_of(drawn), plural(count_of(drawn)), draws);
    if (count_of(given) != inputs)
        refused(FIGURE_COUNT);
    struct bytes all = figures_of(&plan, record.seat, given, drawn);
    wipe_bytes(given);
    wipe_bytes(drawn);
    return all;
}

/* This seat's triples, where the plan spends any: those in the file `triples`. */
static struct bytes own_triples(void)
{
    if (!plan.triple_count)
        return fresh_bytes(0);
    struct bytes list = list_in("triples");
    if (!list.len)
        fail(NOT_POSSIBLE, "there are no triples in %s: move the file `triples` there from this seat's folder of the run that prepared them",
             in_home("triples"));
    return list;
}

/* A run begins: its coins and the draws of random wires are drawn, or taken from the files `coins` and `draws`, and are this run's from the first
 * record on. That is call 0's, which takes no mail; before it nobody has seen anything. */
static void begin(void)
{
    record.figures = own_figures();
    record.coins = drawn_list("coins", numbers_in(seat_size(&plan, record.seat, POOL_SEAT_COINS)));
    record.triples = own_triples();
    record.state = fresh_bytes(seat_size(&plan, record.seat, POOL_SEAT_STATE));
    if (RAND_bytes(record.tokens[record.seat], TOKEN) != 1)
        fail(NOT_POSSIBLE, "no random numbers");
    make_call();
}

/* Whether the file `figures` has what it had when the run began: the figures of the record but its draws. */
static bool same_figures(struct bytes given)
{
    size_t own = 0, at = 0;
    bool same = count_of(given) == inputs_of(&plan, record.seat);
    for (size_t k = 0; same && k < plan.figure_count; k++)
        if (plan.figures[k].seat == record.seat) {
            same = is_draw(&plan, k) || get_number(given, at++) == get_number(record.figures, own);
            own++;
        }
    return same;
}

/* A run goes on, or has ended and has others to tell. */
static void go_on(void)
{
    if (record.finished == all_seats())
        return;
    struct bytes figures = list_in("figures");
    if (!same_figures(figures))
        refuse("%s is not what it was when the run began: put those figures back, or agree on a run with a new name", in_home("figures"));
    wipe_bytes(figures);
}

static void take_part(const char *description, const char *key, const char *home, const char *address, const char *port)
{
    pthread_condattr_t clock;
    pthread_condattr_init(&clock);
    pthread_condattr_setclock(&clock, CLOCK_MONOTONIC);
    pthread_cond_init(&changed, &clock);
    open_description(&run, description);
    plan = plan_of(run.plan_path, run.plan);
    ask_sizes(&plan);
    if (plan.seats != run.seats)
        refuse("the plan is for %u seats, and the description has %u", plan.seats, run.seats);
    record.run = &run;
    record.calls = plan.calls;
    record.seat = open_tls(&run, key);
    open_mail(&run, record.tokens[record.seat]);
    take_home(home);
    bool begun = open_record(&record);
    if (begun && record.finished == all_seats())
        put_in_place("triples"); /* the seat was killed before it did so */
    else
        wipe_file("triples.new");
    if (begun)
        go_on();
    else
        begin();
    wipe_file("coins");
    wipe_file("draws");
    if (plan.triple_count)
        wipe_file("triples");
    answer_calls(listen_at(address ? address : run.places[record.seat].address, port ? port : run.places[record.seat].port));
    while (record.next < record.calls)
        make_call();
    finish();
}

int main(int count, char **args)
{
    umask(077);
    signal(SIGPIPE, SIG_IGN);
    setrlimit(RLIMIT_CORE, &(struct rlimit){0, 0}); /* no secrets in a core file */
    OPENSSL_init_ssl(OPENSSL_INIT_NO_LOAD_CONFIG, NULL);
    bool listen = count == 7 && !strcmp(args[4], "--listen");
    if (count == 2 && !strcmp(args[1], "--help")) {
        fputs(help, stdout);
    } else if (count == 3 && !strcmp(args[1], "--make-key")) {
        if (mkdir(args[2], 0700) && errno != EEXIST)
            fail(NOT_POSSIBLE, "cannot make the folder %s: %s", args[2], strerror(errno));
        make_key(args[2], -DAY, (long)KEY_DAYS * DAY);
        print_fingerprint(args[2]);
    } else if (count == 3 && !strcmp(args[1], "--fingerprint")) {
        print_fingerprint(args[2]);
    } else if ((count == 4 || listen) && args[1][0] != '-') {
        take_part(args[1], args[2], args[3], listen ? args[5] : NULL, listen ? args[6] : NULL);
    } else {
        bad_usage("these words are not understood");
    }
    fflush(stdout);
    _exit(DONE);
}
