/* pool_seat_call: one call of a seat, of any number. */
#include "limit.h"

/* What a call takes, checked, and where the call stands in the plan. */
struct call {
    struct shape s;
    unsigned seat, number, deals;
    unsigned rounds, product;   /* those of all products; and the product of the call's round, from 1 on, one more than there are for the outs' */
    unsigned learns, round;     /* whether the call's mail is a product's last; which of a product's rounds the call sends, from 0 on */
    unsigned learnt, next, end; /* the multiply just learnt, the next one, and where the gates between end; gates where there is none */
    size_t spent;               /* the seat's coins before the next multiply */
    const u8 *figures, *coins, *mail;
    u8 *shares, *out;
};

/* Finds the multiply that is dealt and the one before it, in one pass up to there. */
INLINE void find_place_by(struct call *c, unsigned width)
{
    const struct shape *s = &c->s;
    const u8 *at = s->gates_at;
    unsigned multiplies = 0, own = 0, g = 0, last = c->product <= s->multiplies ? c->product : s->multiplies;
    c->learnt = c->next = c->end = s->gates;
    for (; multiplies < last; g++, at += 2 + 2 * width) {
        multiplies += at[0] == 5;
        own += (at[0] == 1) & (get_of(at + 2, width) == c->seat);
    }
    if (last == c->product)
        c->next = c->end = --g;
    c->spent = s->t * (size_t)own + (c->deals ? product_coins(s) * (c->product - 1) : 0);
    while (c->learns && g > 0 && c->learnt == s->gates)
        c->learnt = gate_at(s, --g)[0] == 5 ? g : c->learnt;
}

static void find_place(struct call *c)
{
    unsigned of_each = product_rounds(&c->s);
    c->rounds = of_each * c->s.multiplies;
    c->product = (c->number + of_each - 1) / of_each;
    c->round = (c->number + of_each - 1) % of_each;
    c->learns = c->number > 1 && c->round == 0;
    if (c->number == 0 || c->number > c->rounds + 1)
        c->learnt = c->next = c->end = c->s.gates;
    else if (c->s.width == 2)
        find_place_by(c, 2);
    else
        find_place_by(c, 4);
}

static size_t mail_numbers(const struct call *c)
{
    const struct shape *s = &c->s;
    if (c->number == 0)
        return 0;
    if (c->number == 1)
        return s->inputs;
    return c->number <= c->rounds + 1 ? s->dealers : (size_t)s->n * s->outs_of[c->seat];
}

static size_t out_numbers(const struct call *c)
{
    const struct shape *s = &c->s;
    if (c->number == 0)
        return (size_t)s->n * c->s.own;
    if (c->number <= c->rounds)
        return c->deals ? s->n : 0;
    return c->number == c->rounds + 1 ? s->outs : s->outs_of[c->seat];
}

/* The piece of a dealing of so many coins at a point. */
static u64 piece(const struct shape *s, u64 value, const u8 *coins, unsigned terms, u64 x)
{
    u64 v = 0;
    for (unsigned k = terms; k > 0; k--)
        v = red(&s->f, v * x + get4(coins + 4 * (k - 1)));
    return red(&s->f, v * x + value);
}

static void deal_inputs(const struct call *c)
{
    const struct shape *s = &c->s;
    unsigned multiplies = 0, k = 0;
    for (unsigned g = 0; g < s->gates; g++) {
        const u8 *at = gate_at(s, g);
        multiplies += at[0] == 5;
        if (at[0] != 1 || field_a(s, at) != c->seat)
            continue;
        const u8 *coins = c->coins + 4 * (s->t * (size_t)k + (c->deals ? product_coins(s) * multiplies : 0));
        for (unsigned j = 0; j < s->n; j++)
            put4(c->out + 4 * (c->s.own * j + k), piece(s, get4(c->figures + 4 * k), coins, s->t, s->points[j]));
        k++;
    }
}

static void learn_inputs(struct call *c)
{
    const u8 *from[16];
    count_inputs(&c->s);
    from[1] = c->mail;
    for (unsigned seat = 1; seat < c->s.n; seat++)
        from[seat + 1] = from[seat] + 4 * c->s.inputs_of[seat];
    for (unsigned g = 0; g < c->s.gates; g++) {
        const u8 *at = gate_at(&c->s, g);
        if (at[0] != 1)
            continue;
        memcpy(c->shares + 4 * g, from[field_a(&c->s, at)], 4);
        from[field_a(&c->s, at)] += 4;
    }
}

static void learn_product(const struct call *c)
{
    unsigned count = c->s.masks ? c->s.t + 1 : c->s.dealers;
    u64 w[16], sum = 0;
    weights(&c->s.f, c->s.points, count, w);
    for (unsigned d = 0; d < count; d++)
        sum += mul(&c->s.f, w[d], get4(c->mail + 4 * d));
    put4(c->shares + 4 * c->learnt, red(&c->s.f, sum));
}

static void work(const struct call *c, unsigned from)
{
    const struct shape *s = &c->s;
    for (unsigned g = from; g < c->end; g++) {
        const u8 *at = gate_at(s, g);
        if (at[0] == 1 || at[0] == 5)
            continue;
        u32 b = field_b(s, at);
        u64 x = get4(c->shares + 4 * field_a(s, at)), y = at[0] == 2 ? get4(c->shares + 4 * b) : b;
        put4(c->shares + 4 * g, at[0] == 3 ? mul(&s->f, x, y) : add(&s->f, x, y));
    }
}

/* The part of each seat's share: the polynomial through the mail at all points, without what is above t, at its point. */
static void send_parts(const struct call *c)
{
    const struct shape *s = &c->s;
    row basis[16];
    u64 low[16] = {0};
    basis_rows(s, basis);
    for (unsigned i = 0; i < s->n; i++)
        for (unsigned k = 0; k <= s->t; k++)
            low[k] = red(&s->f, low[k] + get4(c->mail + 4 * i) * basis[i][k]);
    for (unsigned j = 0; j < s->n; j++) {
        u64 v = 0;
        for (unsigned k = s->t + 1; k-- > 0;)
            v = red(&s->f, v * s->points[j] + low[k]);
        put4(c->out + 4 * j, v);
    }
}

static void deal_product(const struct call *c)
{
    const struct shape *s = &c->s;
    const u8 *at = gate_at(s, c->next), *coins = c->coins + 4 * c->spent;
    unsigned zeros = s->masks && c->round == 0, terms = zeros ? 2 * s->t : s->t;
    u64 value = zeros ? 0 : mul(&s->f, get4(c->shares + 4 * field_a(s, at)), get4(c->shares + 4 * field_b(s, at)));
    if (c->round == 2) {
        send_parts(c);
        return;
    }
    for (unsigned i = 0; c->round == 1 && i < s->n; i++)
        value = add(&s->f, value, get4(c->mail + 4 * i));
    for (unsigned j = 0; c->deals && j < s->n; j++)
        put4(c->out + 4 * j, piece(s, value, coins + 8 * s->t * c->round, terms, s->points[j]));
}

static void send_outs(const struct call *c)
{
    u8 *to[17] = {c->out, c->out};
    for (unsigned seat = 1; seat < c->s.n; seat++)
        to[seat + 1] = to[seat] + 4 * c->s.outs_of[seat];
    for (unsigned o = 0; o < c->s.outs; o++) {
        const u8 *out = c->s.outs_at + 3 * o;
        memcpy(to[out[0]], c->shares + 4 * out_wire(out), 4);
        to[out[0]] += 4;
    }
}

/* Each own out's value, where its shares lie on one polynomial through the first t + 1: else 1. */
static int give_results(const struct call *c)
{
    const struct shape *s = &c->s;
    unsigned own = s->outs_of[c->seat];
    u64 w[16];
    for (unsigned j = s->t + 1; j <= s->n; j++) {
        /* the weights at point j: those at 0 of the points less it; the last turn has 0 itself */
        u32 points[16], x = j < s->n ? s->points[j] : 0;
        for (unsigned i = 0; i <= s->t; i++)
            points[i] = (u32)sub(&s->f, s->points[i], x);
        weights(&s->f, points, s->t + 1, w);
        for (unsigned k = 0; k < own; k++) {
            u64 sum = 0;
            for (unsigned i = 0; i <= s->t; i++)
                sum += mul(&s->f, w[i], get4(c->mail + 4 * (own * i + k)));
            if (j == s->n)
                put4(c->out + 4 * k, red(&s->f, sum));
            else if (red(&s->f, sum) != get4(c->mail + 4 * (own * j + k)))
                return 1;
        }
    }
    return 0;
}

u64 limit_seat_call(const u8 *plan, size_t plan_len, u16 seat, const u8 *figures, size_t figures_len, const u8 *coins, size_t coins_len, u8 *triples,
    size_t triples_len, u8 *state, size_t state_len, const u8 *mail, size_t mail_len, u8 *out, size_t out_len)
{
    (void)triples;
    struct call c = {.seat = seat, .figures = figures, .coins = coins, .mail = mail, .shares = state + 4, .out = out};
    const struct shape *s = &c.s;
    if (triples_len || read_plan(plan, plan_len, seat, &c.s) || s->draws || s->spends || seat < 1 || seat > s->n || state_len != 4 * (1 + (size_t)s->gates))
        return 1;
    c.number = get4(state);
    c.deals = seat <= s->dealers;
    find_place(&c);
    count_outs(&c.s);
    u32 p = (u32)s->f.p;
    size_t own_coins = (size_t)s->t * s->own + (c.deals ? product_coins(s) * s->multiplies : 0);
    if (wrong_list(figures, figures_len, s->own, p) || wrong_list(coins, coins_len, own_coins, p) || c.number > c.rounds + 2 ||
        wrong_list(state + 4, state_len - 4, s->gates, p) || wrong_list(mail, mail_len, mail_numbers(&c), p) || out_len != 4 * out_numbers(&c))
        return 1;
    if (c.number == c.rounds + 2) {
        if (give_results(&c))
            return 1;
    } else if (c.number == 0) {
        deal_inputs(&c);
    } else {
        if (c.number == 1)
            learn_inputs(&c);
        else if (c.learns)
            learn_product(&c);
        if (c.round == 0)
            work(&c, c.number == 1 ? 0 : c.learnt + 1);
        if (c.number <= c.rounds)
            deal_product(&c);
        else
            send_outs(&c);
    }
    put4(state, c.number + 1);
    return 0;
}
