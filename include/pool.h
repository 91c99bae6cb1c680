/*
 * pool.h - the pooling seat, for a C host program.
 *
 * Several parties (seats, to the plants behind them) compute a plan together:
 * each puts in figures of its own, and each learns only the results that the
 * plan grants it. This library is one party's part in that. Every function here
 * was proved to answer exactly what its contract (crates/pool) says, for every
 * input, and to end.
 *
 * Link target/staticlib/libpool.a. The library keeps no state of its own, takes
 * no memory from the heap, calls no function of the C library but memcpy and
 * memset, and may be called from several threads at once.
 *
 *
 * Slices
 * ------
 *
 * A list is lent as a pointer and a length, in this order, side by side among
 * the parameters. The length is in bytes. The memory stays the caller's: no
 * pointer is kept after the call returns.
 *
 * What C must keep, since no proof can see it:
 *
 *  - A pointer is never null, also where the length is 0: lend the address of
 *    any byte then.
 *  - The bytes that a pointer and a length span can be read, and written where
 *    the pointer is not const, and no other thread writes them during the call.
 *  - A buffer that is written does not overlap any other slice of the call.
 *
 * A number of a list takes four bytes (POOL_NUMBER_BYTES), the low byte first,
 * on every machine, in every call and for a plan of every version; how wide the
 * numbers of a plan file are is the file's own affair. Bytes left over at the
 * end of a list make its count wrong.
 *
 *
 * Plan files
 * ----------
 *
 * Versions 1 to 4 are read. A number of the file takes two bytes in
 * versions 1 and 2 and four in versions 3 and 4, an out's wire two in all of them;
 * so a prime above 65,535, up to 2,147,483,647, needs version 3 or 4. Version 1 has
 * no points: they are 1 to n. pool_convert makes version 3 of versions 1 and 2.
 *
 * Version 4 is version 3 with another multiply rule, the original one: in three
 * rounds each party deals 0, deals its masked product, and sends each party its
 * part of that party's share. Results are those of version 3.
 *
 *
 * What changed for a C host
 * -------------------------
 *
 * Numbers of lists had two bytes each, and primes went up to 65,521. Now figures,
 * coins, states, mail, results, views and matched coins have four bytes a number
 * in every call, for plans of every version. A host that was written for two
 * lends and reads twice as many bytes; pool_seat_size and pool_run_size answer
 * twice what they did. p may be up to 2,147,483,647, so keep a number in
 * uint32_t. pool_import and pool_sheet write version 3 where p is above 65,535,
 * and version 1 as before elsewhere. Stored plans stay as they are and give the
 * same results and shares; a state that is under way does not fit: run the plan
 * anew.
 *
 * A plan may have random wires (gate kind 6), the sum of one draw of each party.
 * A draw is a figure: where lists of inputs are spoken of below, a party's own
 * list has its draw of such a gate among its inputs, by gate, and the list of all
 * figures has one of each party there, party by party; the sizes that are told
 * count them. A host draws it as it draws coins: fresh, uniform below p, secret,
 * and the same in every call of a run; the wire is picked by nobody where each
 * party does so. Each random wire has a round of its own, as a multiply gate has,
 * so call numbers go on: ask pool_calls. Plans without random wires are as before.
 *
 * A plan may be of version 4. A multiply gate has three rounds there, so a party
 * makes 3M + R + S + 3 calls; each party, those above 2t + 1 too, takes 3t coins for
 * it, 2t to deal 0 and then t to deal its masked product, and sends 3n numbers. The
 * calls in the middle of a multiply leave its wire's number in the state as it is,
 * and the mail of the third round is not checked. A host that asks pool_calls,
 * pool_seat_size and pool_run_size for its sizes needs no change.
 *
 * pool_seat_call, pool_bench and pool_record take triples after the coins, a
 * pointer that is not const and a length. Where a plan spends none, which is
 * every plan that was there before, a host lends the address of any byte and the
 * length 0. A plan may have no outs.
 *
 *
 * Triples
 * -------
 *
 * A gate of kind 7 multiplies two wires x and y by spending a triple: work done
 * before the shift. A plan has at most 341 of them. The triples of such a plan are
 * made by a run of another one, its preparing plan, which has the plan's n, t, p
 * and points, in any version that holds them, no outs, and for the k-th gate of
 * kind 7 (k from 0) three gates: a random wire, a random wire, and the product
 * (kind 5) of wires 3k and 3k + 1. `pool prepare` writes it.
 *
 * When a party has finished its preparing run, the numbers of its state after the
 * first are its triples: three for each gate of kind 7, in gate order, shares of
 * a, b and ab. They are the list that pool_seat_size tells the size of
 * (POOL_SEAT_TRIPLES), and they are secret. The list of all triples has them party
 * by party.
 *
 * In the round of the k-th gate of kind 7 a party sends its shares of x - a and
 * y - b to all, and the call that learns the wire makes zeros of the three numbers:
 * they are spent. A triple must never be spent twice, as a coin must not be dealt
 * twice: two openings by one triple tell what two wires differ by. So a host keeps
 * the triples as it keeps the state, and both together: each call takes them as the
 * call before left them, and after a kill both are as before a call or both as after
 * it. In a run the triples of all parties come from one preparing run, and no other
 * run has any of them. pool_bench and pool_record spend all that they are lent.
 *
 * With triples that belong to no preparing run the shares of an out may lie on no
 * polynomial: then refusal 20 falls on the bench, too.
 *
 *
 * Answers
 * -------
 *
 * Each function answers 64 bits. Bits 0 to 7 are the number of a refusal, 0
 * where there is none. Bits 8 to 39 are the refusal's place, 0 unless its
 * sentence names one; places count from 0, but for a seat's, which is its
 * number. Of several faults the first in checking order is answered, and of
 * several places the lowest; a place past 4,294,967,295, which only a list of
 * triples that is far too long has, is told modulo 4,294,967,296. A refused call
 * has written nothing.
 *
 * What each number says stands in pool_refusals.h, one row a number in checking
 * order, with what its place is; pool_refusal_sentence below gives the sentence.
 * In those sentences a party is a seat, its inputs are figures, a coalition is
 * a set, and n, t and p are the plan's number of seats, threshold and prime.
 *
 *
 * Stack
 * -----
 *
 * A call takes at most so many bytes of its thread's stack: pool_bench and
 * pool_record POOL_STACK_BENCH, pool_count POOL_STACK_COUNT, pool_match
 * POOL_STACK_MATCH, pool_match_prepared POOL_STACK_PREPARED, pool_import and
 * pool_import_size POOL_STACK_IMPORT, pool_sheet and pool_sheet_size
 * POOL_STACK_SHEET, every other function POOL_STACK_SEAT. A thread's own start
 * takes some more (PTHREAD_STACK_MIN).
 */
#ifndef POOL_H
#define POOL_H

#include <stddef.h>
#include <stdint.h>

#ifdef __cplusplus
extern "C" {
#endif

/* The bytes of a number in a list: four. */
#define POOL_NUMBER_BYTES 4

/* The bytes of a party's entry in the contents of a run record: its body's
 * offset from the file's start and its length, a number each. */
#define POOL_RECORD_ENTRY 8

/* The bytes of stack that a call takes at most. */
#define POOL_STACK_SEAT 8192
#define POOL_STACK_BENCH 139264
#define POOL_STACK_COUNT 212992
#define POOL_STACK_MATCH 262144
#define POOL_STACK_PREPARED 409600
#define POOL_STACK_IMPORT 81920
#define POOL_STACK_SHEET 40960

/* The refusal's number in an answer, 0 where there is none; and its place. */
#define POOL_REFUSAL(answer) ((unsigned)((answer) & 0xff))
#define POOL_PLACE(answer) ((uint32_t)(((answer) >> 8) & 0xffffffff))

/* The sentence of a refusal's number, for a person; null for any other number. */
static inline const char *pool_refusal_sentence(unsigned number)
{
    switch (number) {
#define POOL_REFUSAL_ROW(row, sentence) \
    case row:                           \
        return sentence;
#include "pool_refusals.h"
#undef POOL_REFUSAL_ROW
    default:
        return 0;
    }
}

/* The value in an answer that has one: a size, a count, a bill; only where nothing is refused. */
#define POOL_VALUE(answer) ((uint64_t)(answer) >> 8)

/*
 * Checks a plan.
 *
 * plan, plan_len: the bytes of a plan file of version 1 to 4, any number of them.
 *
 * Answers 0 where the plan passes, else the first of refusals 1 to 8, 25 and
 * 26 with its place. Writes nothing.
 */
uint64_t pool_plan_check(const uint8_t *plan, size_t plan_len);

/*
 * The size in bytes of the plan that a circuit makes.
 *
 * text, text_len: a circuit in Bristol Fashion, any bytes. Lines end in line
 *                 feeds, the last one may lack it; fields are parted by
 *                 blanks, lines with nothing but blanks are skipped, numbers
 *                 are decimal, at most 65,535 and without leading zeros. The
 *                 lines: the count of gates, the count of wires; how many
 *                 input values, each one's wires; the output values likewise;
 *                 then a line for each gate: how many wires it reads, how many
 *                 it sets (1), these wires, and XOR, AND (two wires read) or
 *                 INV (one). Inputs are the first wires, outputs the last;
 *                 every wire is set once, before it is read.
 * n, t, p:        the plan's parties, threshold and prime, as they are: 257 is
 *                 not 1.
 *
 * Answers the size as its value; or the first of refusals 23 and 24 and those
 * of the plan, 3 to 6 and 25. The time is linear in the text's length.
 */
uint64_t pool_import_size(const uint8_t *text, size_t text_len, uint32_t n,
    uint32_t t, uint32_t p);

/*
 * Imports a circuit: writes a plan that computes it.
 *
 * text, text_len, n, t, p: as above.
 * plan, plan_len:          written: the plan file, of exactly its size; of
 *                          version 1, or where p is above 65,535 of version 3
 *                          with the points 1 to n.
 *
 * Input value k, counted from 1, belongs to party k: its figures are the bits
 * of that value, 0 or 1, in wire order. Party 1 gets the output bits, in wire
 * order.
 *
 * Answers 0 and has written plan, or answers the first of refusals 23 and 24,
 * those of the plan, 3 to 6 and 25, and 19, and has written nothing.
 */
uint64_t pool_import(const uint8_t *text, size_t text_len, uint32_t n,
    uint32_t t, uint32_t p, uint8_t *plan, size_t plan_len);

/*
 * The size in bytes of the plan that a formula sheet makes.
 *
 * text, text_len: a formula, any bytes, as 2*a1 + a1*(b2 - 3). A name is a
 *                 lower-case letter and a party's number, 1 to n; numbers are
 *                 decimal and below p; no number has a leading zero, a name's
 *                 neither. * binds before + and -, equal ones group to the
 *                 left, a minus needs a left side, and brackets may be nested
 *                 to a depth of 16. Blanks are spaces, skipped everywhere but
 *                 inside a name or number; a line feed is no blank. There has
 *                 to be a name.
 * n, t, p:        the plan's parties, threshold and prime, as they are: 257 is
 *                 not 1.
 * seat:           the party that gets the result, as it is.
 *
 * Answers the size as its value; or the first of refusals 27 and 24 and those
 * of the plan: 3 to 5, 8 where the result's party is not 1 to n, and 25. The
 * time is linear in the text's length.
 */
uint64_t pool_sheet_size(const uint8_t *text, size_t text_len, uint32_t n,
    uint32_t t, uint32_t p, uint32_t seat);

/*
 * Compiles a formula sheet: writes a plan that computes it.
 *
 * text, text_len, n, t, p, seat: as above.
 * plan, plan_len:                written: the plan file, of exactly its size;
 *                                of version 1, or where p is above 65,535 of
 *                                version 3 with the points 1 to n.
 *
 * Each name is an input of the party that it names, and the figures stand in
 * the order in which the names are first used. The result is the formula's
 * value modulo p.
 *
 * Answers 0 and has written plan, or answers the first of refusals 27 and 24,
 * those of the plan, 3 to 5, 8 and 25, and 19, and has written nothing.
 */
uint64_t pool_sheet(const uint8_t *text, size_t text_len, uint32_t n,
    uint32_t t, uint32_t p, uint32_t seat, uint8_t *plan, size_t plan_len);

/*
 * The size in bytes of a plan as a file of version 3.
 *
 * plan, plan_len: the bytes of a plan file of version 1 or 2, any number of
 *                 them.
 *
 * Answers the size as its value: 32 and ten for each gate, three for each out,
 * four for each party; or the first of refusals 1 to 8, 25 and 26, as
 * pool_plan_check does, but with 2 for every version that is not 1 or 2.
 */
uint64_t pool_convert_size(const uint8_t *plan, size_t plan_len);

/*
 * Converts a plan: writes it as a file of version 3.
 *
 * plan, plan_len: as above.
 * out, out_len:   written: the plan file of version 3, of exactly its size.
 *
 * n, t, p, gates, outs and points stay, in order; the points of a version 1
 * plan are 1 to n. So every call answers and writes for both files the same,
 * but for what speaks of the file itself: pool_convert, pool_convert_size.
 *
 * Answers 0 and has written out, or answers the first of refusals 1 to 8, 25 and
 * 26, as above, and 19, and has written nothing.
 */
uint64_t pool_convert(const uint8_t *plan, size_t plan_len, uint8_t *out,
    size_t out_len);

/*
 * How many calls each party makes: M + R + S + 3, numbered from 0 on, with M the
 * multiply gates of kind 5, R the random wires and S the gates that spend a triple;
 * for a plan of version 4 3M stands for M.
 *
 * Answers the count as its value, or the first of refusals 1 to 8, 25 and 26.
 */
uint64_t pool_calls(const uint8_t *plan, size_t plan_len);

/* The lists of a party, for pool_seat_size. */
enum {
    POOL_SEAT_FIGURES = 0, /* its own inputs and draws */
    POOL_SEAT_COINS = 1,   /* its own coins */
    POOL_SEAT_STATE = 2,   /* its state */
    POOL_SEAT_MAIL = 3,    /* the mail that a call takes */
    POOL_SEAT_OUT = 4,     /* what a call writes */
    POOL_SEAT_TRIPLES = 5  /* its own triples */
};

/*
 * The size in bytes of one of a party's lists.
 *
 * plan, plan_len: the plan file.
 * seat:           the party, 1 to n.
 * call:           the number of a call, for POOL_SEAT_MAIL and POOL_SEAT_OUT.
 * what:           one of the lists above.
 *
 * Answers the size as its value, 0 where there is no such call or list; or
 * the first of refusals 1 to 8, 25, 26 and 9.
 */
uint64_t pool_seat_size(const uint8_t *plan, size_t plan_len, uint16_t seat,
    uint16_t call, uint16_t what);

/*
 * One call of a party.
 *
 * plan, plan_len:       the plan file, the same for all parties and calls.
 * seat:                 the party, 1 to n.
 * figures, figures_len: its own inputs and draws, in the plan's order.
 * coins, coins_len:     its own coins, in the plan's order: fresh, uniform
 *                       below p and secret, the same in every call of a run.
 * triples, triples_len: its own triples, those of its preparing run before call
 *                       0, then as the call before left them: a call that learns
 *                       the wire of a gate of kind 7 makes zeros of that gate's
 *                       three numbers, and all else stays.
 * state, state_len:     its state: all 0 before call 0, then as the call
 *                       before left it. Its first number is the next call's.
 * mail, mail_len:       what all parties sent to this one in the call before,
 *                       the senders ascending, its own included; for call 0
 *                       nothing.
 * out, out_len:         written: what this call sends, the receivers
 *                       ascending; in the last call the party's results, in
 *                       the order of its outs.
 *
 * Of what a call sends each party gets a part, one after the other: of the last
 * call but one party i's part has a share for each of its outs; of each call
 * before it all parts have the same size.
 *
 * Answers 0 and has written triples, state and out, or answers the first of
 * refusals 1 to 8, 25, 26, 9 to 13, 29 and 14 to 20 and has written nothing. 13
 * looks at the coins, then at the triples, and its place is counted within the
 * list; it comes before 29, the triples' count.
 *
 * Refusal 20 speaks of the first of the party's outs that breaks. Its place is
 * a party's number, t + 2 to n: the shares of all parties before it lie on one
 * polynomial of degree t or less, and with its share they do not. Where only
 * one party has sent a wrong share, it is this one or one of 1 to t + 1.
 */
uint64_t pool_seat_call(const uint8_t *plan, size_t plan_len, uint16_t seat,
    const uint8_t *figures, size_t figures_len,
    const uint8_t *coins, size_t coins_len,
    uint8_t *triples, size_t triples_len,
    uint8_t *state, size_t state_len,
    const uint8_t *mail, size_t mail_len,
    uint8_t *out, size_t out_len);

/* The lists of a whole run, for pool_run_size. */
enum {
    POOL_RUN_FIGURES = 0, /* all inputs and draws */
    POOL_RUN_COINS = 1,   /* all coins */
    POOL_RUN_VIEW = 2,    /* the view of a coalition */
    POOL_RUN_TRIPLES = 3  /* all triples */
};

/*
 * The size in bytes of one of a run's lists.
 *
 * set:  a coalition, for POOL_RUN_VIEW: bit i - 1 stands for party i.
 * what: one of the lists above.
 *
 * Answers the size as its value, 0 where there is no such list; or the first
 * of refusals 1 to 8, 25, 26 and 9.
 */
uint64_t pool_run_size(const uint8_t *plan, size_t plan_len, uint16_t set,
    uint16_t what);

/*
 * A run of all parties in one machine.
 *
 * set:                  a coalition of at most t parties: bit i - 1 stands for
 *                       party i.
 * figures, figures_len: all inputs, in the plan's order.
 * coins, coins_len:     all coins, in the plan's order.
 * triples, triples_len: all triples, party by party; written: zeros, since the run
 *                       spends them all.
 * view, view_len:       written: what the coalition held and received in the
 *                       run, for each member ascending: its inputs, its coins,
 *                       each round's mail, its results. Triples are not in it.
 *
 * Answers the elements sent as its value and has written triples and view, or
 * answers the first of refusals 1 to 8, 25, 26, 9 to 13, 29, 19 and 20 and has
 * written nothing. 13 looks at the coins, then at the triples, and its place is
 * counted within the list.
 *
 * Refusal 20 may fall where the triples belong to no preparing run, whatever the
 * coalition is. It speaks of the first out in the plan's order that breaks, and its
 * place is a party's number as in pool_seat_call.
 */
uint64_t pool_bench(const uint8_t *plan, size_t plan_len, uint16_t set,
    const uint8_t *figures, size_t figures_len,
    const uint8_t *coins, size_t coins_len,
    uint8_t *triples, size_t triples_len,
    uint8_t *view, size_t view_len);

/*
 * The matching of coins: why a coalition learns no more than its results.
 *
 * set:                    a coalition of at most t parties.
 * first, second:          two lists of all inputs and draws that agree at the
 *                         members' own and give the members the same results.
 * coins, coins_len:       all coins of a run on the first list.
 * matched, matched_len:   written: all coins with which a run on the second
 *                         list gives the coalition the same view.
 *
 * A plan that spends triples is not matched alone (29): pool_match_prepared
 * matches it with its preparing plan.
 *
 * Answers 0 and has written matched, or answers the first of refusals 1 to 8,
 * 25, 26, 9 to 13, 29, 19, 21 and 22 and has written nothing.
 */
uint64_t pool_match(const uint8_t *plan, size_t plan_len, uint16_t set,
    const uint8_t *first, size_t first_len,
    const uint8_t *second, size_t second_len,
    const uint8_t *coins, size_t coins_len,
    uint8_t *matched, size_t matched_len);

/*
 * The matching over two runs: a preparing run, and the run that spends its triples.
 *
 * preparing, preparing_len: the preparing plan.
 * plan, plan_len:           the main plan, of the triples that it makes.
 * set:                      a coalition of at most t parties.
 * first, second:            two lists of all the main plan's inputs and draws that
 *                           agree at the members' own and give the members the
 *                           same results.
 * coins, coins_len:         all that the parties draw in both runs, in one list: all
 *                           the preparing plan's draws, all its coins, then all the
 *                           main plan's coins.
 * matched, matched_len:     written: the same list for the matched runs. When the
 *                           preparing run is made with its draws and coins, and the
 *                           main run with the second list, its coins and that
 *                           preparing run's triples, the coalition has the same view
 *                           of the preparing run as before, and the same view of the
 *                           main run.
 *
 * Members' draws and coins stay. Of the draws those of the lowest party outside the
 * coalition alone move.
 *
 * Answers 0 and has written matched, or answers the first of refusals 1 to 8, 25,
 * 26, 9 to 13, 29, 19, 21 and 22 and has written nothing. Each number of a refusal
 * that concerns both plans is tried on the preparing plan first, then on the main
 * one. 13 looks at the numbers before the main coins against the preparing plan's
 * prime, at the main coins against the main plan's, and its place is that in the
 * whole list. 29 falls where the preparing plan is not that of the main plan, or the
 * main plan spends no triples.
 */
uint64_t pool_match_prepared(const uint8_t *preparing, size_t preparing_len,
    const uint8_t *plan, size_t plan_len, uint16_t set,
    const uint8_t *first, size_t first_len,
    const uint8_t *second, size_t second_len,
    const uint8_t *coins, size_t coins_len,
    uint8_t *matched, size_t matched_len);

/*
 * The size in bytes of the list of a coalition's views.
 *
 * plan, plan_len: the plan file.
 * set:            a coalition of at most t parties: bit i - 1 stands for
 *                 party i.
 *
 * A setting of the others' coins gives each coin of a party outside the
 * coalition a number below p; so there are p to the power of the count of these
 * coins. The list has a row for each of them, and a row has the numbers of the
 * coalition's view and one more.
 *
 * Answers the size as its value: POOL_NUMBER_BYTES for each number of these
 * rows; or the first of refusals 1 to 8, 25, 26, 9 and 30: a plan with a random
 * wire or a gate that spends a triple is refused, too. A list of 65,536 long rows can take hundreds of
 * megabytes: look at the size before you lend it.
 */
uint64_t pool_count_size(const uint8_t *plan, size_t plan_len, uint16_t set);

/*
 * The views of a coalition counted: how many settings of the others' coins lead
 * to each of them.
 *
 * plan, plan_len:       the plan file.
 * set:                  a coalition of at most t parties.
 * figures, figures_len: all inputs, in the plan's order.
 * coins, coins_len:     the members' coins alone, in the order in which they
 *                       stand among all coins (by gate, not by member): as many
 *                       as pool_seat_size says for all members together.
 * rows, rows_len:       written: the list, of exactly its size. For each view
 *                       that a setting leads to a row: the view's numbers as
 *                       pool_bench writes them, then how many settings lead to
 *                       it. These rows stand ascending, compared from their
 *                       first number on; the rows left over are 0.
 *
 * The counts add up to the number of settings. The view of the empty coalition
 * has no number: its one row is the count of all settings. Where t is 0 there
 * are no coins, and one setting. For a coalition of exactly t parties no view
 * has two settings, so every count is 1; but in version 4 a view may have several,
 * where a multiply gate is. Two lists of inputs that agree at the
 * members' inputs and give the members the same results give the same rows,
 * since pool_match takes the one list's settings to the other's, one to one,
 * and keeps the view.
 *
 * Answers 0 and has written rows, or answers the first of refusals 1 to 8, 25,
 * 26, 9 to 13, 30 and 19 and has written nothing. It takes a run's time for each
 * setting and sorts the rows where they stand.
 */
uint64_t pool_count(const uint8_t *plan, size_t plan_len, uint16_t set,
    const uint8_t *figures, size_t figures_len,
    const uint8_t *coins, size_t coins_len,
    uint8_t *rows, size_t rows_len);

/*
 * The size in bytes of the record of a run.
 *
 * plan, plan_len: the plan file.
 *
 * Answers the size as its value: POOL_RECORD_ENTRY for each party, then each
 * party's body; or the first of refusals 1 to 8, 25 and 26.
 */
uint64_t pool_record_size(const uint8_t *plan, size_t plan_len);

/*
 * A run of all parties in one machine, stored.
 *
 * figures, figures_len: all inputs, in the plan's order.
 * coins, coins_len:     all coins, in the plan's order.
 * triples, triples_len: all triples, party by party; written: zeros, since the run
 *                       spends them all.
 * record, record_len:   written: the record, of exactly its size. First its
 *                       contents: for each party ascending the offset of its
 *                       body from the record's start and the body's length in
 *                       bytes, a number each. Then the bodies, one after the
 *                       other: for each party ascending its inputs, its coins,
 *                       each round's mail, its results.
 *
 * A party's body is what pool_bench writes for that party alone; here t may be
 * 0. The record has every party's secrets but its triples: keep it as the coins are
 * kept.
 *
 * Answers 0 and has written triples and record, or answers the first of refusals 1
 * to 8, 25, 26, 10 to 13, 29, 19 and 20, as pool_bench does, and has written nothing.
 */
uint64_t pool_record(const uint8_t *plan, size_t plan_len,
    const uint8_t *figures, size_t figures_len,
    const uint8_t *coins, size_t coins_len,
    uint8_t *triples, size_t triples_len,
    uint8_t *record, size_t record_len);

/*
 * The bench's reader: all bodies of a record.
 *
 * plan, plan_len:       the plan file of the run.
 * record, record_len:   a run record, any bytes.
 * numbers, numbers_len: written: the bodies one after the other, which is the
 *                       record without its contents: pool_record_size less
 *                       POOL_RECORD_ENTRY for each party.
 *
 * The numbers are shown as they are stored, also where they are not below p;
 * no share is checked.
 *
 * Answers 0 and has written numbers, or answers the first of refusals 1 to 8,
 * 25, 26, 28 and 19 and has written nothing.
 */
uint64_t pool_record_read(const uint8_t *plan, size_t plan_len,
    const uint8_t *record, size_t record_len,
    uint8_t *numbers, size_t numbers_len);

/*
 * A plant's reader: one party's body of a record.
 *
 * plan, plan_len:       the plan file of the run.
 * record, record_len:   a run record, any bytes.
 * seat:                 the party, 1 to n.
 * numbers, numbers_len: written: that party's body, of exactly its length: the
 *                       second number of the party's entry in the contents.
 *
 * Of a stored run the body is the party's view: its inputs, its coins, each
 * round's mail, its results. The numbers are shown as they are stored, also
 * where they are not below p; no share is checked. What is answered and written
 * depends on the plan, the seat, both lengths, the contents and that party's
 * body, and on no byte of another's.
 *
 * Answers 0 and has written numbers, or answers the first of refusals 1 to 8,
 * 25, 26, 28, 9 and 19 and has written nothing.
 */
uint64_t pool_record_read_seat(const uint8_t *plan, size_t plan_len,
    const uint8_t *record, size_t record_len, uint16_t seat,
    uint8_t *numbers, size_t numbers_len);

/*
 * The line charge: what each party pays of the carrier's bill for a run.
 *
 * plan, plan_len:   the plan file.
 * price:            the price of 1,000 elements in cents, at most 1,000,000.
 * parts, parts_len: written: each party's part in cents, the parties
 *                   ascending: a list of n numbers.
 *
 * The bill is the elements sent times the price, divided by 1,000 and rounded
 * up. Each party pays in proportion to the elements that it sends, those to
 * itself included, rounded down; the cents left over go to the greatest
 * remainders, one each, lower parties first among equals. The parts add up to
 * the bill.
 *
 * Answers the bill in cents as its value and has written parts, or answers the
 * first of refusals 1 to 8, 25, 26, 31 and 19 and has written nothing.
 */
uint64_t pool_charge(const uint8_t *plan, size_t plan_len, uint32_t price,
    uint8_t *parts, size_t parts_len);

#ifdef __cplusplus
}
#endif

#endif
