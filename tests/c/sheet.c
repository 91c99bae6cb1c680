/* Formula sheets compiled into plans: the worked example, the grouping, each way to break the rules, the limits, and runs on the bench whose
 * results are C's own values of the formulas. */
#include "made.h"

enum { MOST_TEXT = 1 << 20 };

static const char example[] = "2*a1 + a1*(b2 - 3)";

static char text[MOST_TEXT];

/* Compiles a sheet of such a size; the buffer keeps its bytes where it is refused. */
static uint64_t sheet(const char *from, unsigned n, unsigned t, unsigned p, unsigned seat, size_t room)
{
    fill_plan();
    return kept_plan(pool_sheet((const uint8_t *)from, strlen(from), n, t, p, seat, plan, room), room);
}

static uint64_t sheet_size(const char *from, unsigned n, unsigned t, unsigned p, unsigned seat)
{
    return pool_sheet_size((const uint8_t *)from, strlen(from), n, t, p, seat);
}

/* A sheet that is refused, by pool_sheet_size as well. */
static void refused(const char *what, const char *from, unsigned n, unsigned t, unsigned p, unsigned seat, unsigned number)
{
    expect(what, sheet(from, n, t, p, seat, 87), number, 0);
    expect(what, sheet_size(from, n, t, p, seat), number, 0);
}

static void broken(const char *what, const char *from)
{
    refused(what, from, 3, 1, 11, 3, 27);
}

/* A sheet that compiles: the plan passes, has so many gates and its one out for the seat. Answers the plan's size. */
static size_t compiles(const char *what, const char *from, unsigned n, unsigned t, unsigned p, unsigned seat, unsigned gates)
{
    size_t size = p < 65536 ? 18 + 6 * gates + 3 : 32 + 10 * gates + 3 + 4 * n;
    expect_size(what, sheet_size(from, n, t, p, seat), size);
    expect(what, sheet(from, n, t, p, seat, size), 0, 0);
    expect(what, pool_plan_check(plan, size), 0, 0);
    hold(what, plan[4] == version_for(p) && plan[get_field(plan, OUTS_AT)] == seat && get_field(plan, GATE_COUNT) == gates);
    return size;
}

/* The same of a sheet of three seats whose gates are these, where a scale by 10 stands for one by p - 1, and whose result is the last of them. */
static void makes_over(unsigned p, const char *what, const char *from, const uint8_t gates[][3], unsigned count)
{
    uint8_t want[256];
    contents_in(version_for(p), want, 3, 1, p, count, 1);
    for (unsigned g = 0; g < count; g++)
        gate(want, g, gates[g][0], gates[g][1], gates[g][0] == 3 && gates[g][2] == 10 ? p - 1 : gates[g][2]);
    out(want, count, 0, 2, count - 1);
    expect_bytes(what, plan, want, compiles(what, from, 3, 1, p, 2, count));
}

static void makes(const char *what, const char *from, const uint8_t gates[][3], unsigned count)
{
    makes_over(11, what, from, gates, count);
}

static void worked(void)
{
    static const uint8_t gates[11][3] = {{1, 1, 0}, {1, 2, 0},  {3, 0, 0}, {4, 2, 2}, {5, 3, 0}, {3, 0, 0},
                                         {4, 5, 3}, {3, 6, 10}, {2, 1, 7}, {5, 0, 8}, {2, 4, 9}};
    makes("the worked example", example, gates, 11);
    makes("without blanks", "2*a1+a1*(b2-3)", gates, 11);
    makes("with more blanks", "  2 *  a1+ a1   *( b2 -3 )  ", gates, 11);
    makes("with more brackets", "((2*a1) + ((a1)*(b2 - 3)))", gates, 11);
    makes_over(65521, "over the largest prime of version 1", example, gates, 11);
    makes_over(65537, "over the least prime of version 3", example, gates, 11);
    makes_over(MOST_PRIME, "over the largest prime", example, gates, 11);
    expect("a buffer one byte short in version 3", sheet(example, 3, 1, 65537, 2, 156), 19, 0);
    expect("a buffer of version 1's size", sheet(example, 3, 1, 65537, 2, 87), 19, 0);
    expect("a buffer one byte short", sheet(example, 3, 1, 11, 2, 86), 19, 0);
    expect("a buffer one byte long", sheet(example, 3, 1, 11, 2, 88), 19, 0);
    expect("a buffer of no bytes", sheet(example, 3, 1, 11, 2, 0), 19, 0);
}

static void grouping(void)
{
    static const uint8_t left[7][3] = {{1, 1, 0}, {1, 1, 0}, {1, 1, 0}, {3, 1, 10}, {2, 0, 3}, {3, 2, 10}, {2, 4, 5}};
    static const uint8_t right[7][3] = {{1, 1, 0}, {1, 1, 0}, {1, 1, 0}, {3, 2, 10}, {2, 1, 3}, {3, 4, 10}, {2, 0, 5}};
    static const uint8_t product[5][3] = {{1, 3, 0}, {1, 2, 0}, {1, 1, 0}, {5, 0, 1}, {5, 3, 2}};
    static const uint8_t first[5][3] = {{1, 3, 0}, {1, 2, 0}, {1, 1, 0}, {5, 0, 1}, {2, 3, 2}};
    static const uint8_t last[5][3] = {{1, 3, 0}, {1, 2, 0}, {1, 1, 0}, {5, 1, 2}, {2, 0, 3}};
    static const uint8_t sum[5][3] = {{1, 3, 0}, {1, 2, 0}, {1, 1, 0}, {2, 1, 2}, {5, 0, 3}};
    static const uint8_t name[1][3] = {{1, 3, 0}};
    static const uint8_t again[3][3] = {{1, 3, 0}, {5, 0, 0}, {2, 1, 0}};
    static const uint8_t number[4][3] = {{1, 1, 0}, {3, 0, 0}, {4, 1, 0}, {2, 2, 0}};
    makes("minus groups to the left", "a1 - b1 - c1", left, 7);
    makes("a bracket on the right", "a1 - (b1 - c1)", right, 7);
    makes("times groups to the left", "c3*b2*a1", product, 5);
    makes("times before plus, on the left", "c3*b2 + a1", first, 5);
    makes("times before plus, on the right", "c3 + b2*a1", last, 5);
    makes("a bracket before times", "c3*(b2 + a1)", sum, 5);
    makes("a name alone", "z3", name, 1);
    makes("a name used again", "c3*c3 + c3", again, 3);
    makes("a number before the first name", "0 + a1", number, 4);
}

static void breaks(void)
{
    broken("an empty sheet", "");
    broken("blanks only", "   ");
    broken("no name", "2*(3 - 1)");
    broken("a minus without a left side", "-a1");
    broken("a minus without a left side, in brackets", "2*(-a1)");
    broken("a minus after a minus", "a1 - -b2");
    broken("a minus after times", "a1*-b2");
    broken("a plus without a left side", "+a1");
    broken("an operator at the end", "a1 + b2 -");
    broken("two operators", "a1 ** b2");
    broken("a number with a leading zero", "01*a1");
    broken("zero twice", "a1 + 00");
    broken("a seat with a leading zero", "a01");
    broken("seat 0", "a0");
    broken("a capital letter", "A1");
    broken("a letter after a name", "a1b");
    broken("two names", "a1b1");
    broken("a name after a number", "2a1");
    broken("two numbers", "2 3");
    broken("two numbers beside a name", "a1 + 2 3");
    broken("a letter without a seat", "a + b2");
    broken("two letters", "ab1");
    broken("a blank inside a name", "a 1");
    broken("a blank inside a number", "a1 + 1 0");
    broken("empty brackets", "()");
    broken("empty brackets after a name", "a1 + ()");
    broken("a bracket after a name", "a1(b2)");
    broken("a bracket after a bracket", "(a1)(b2)");
    broken("a bracket left open", "(a1 + b2");
    broken("a bracket that was not opened", "a1 + b2)");
    broken("brackets the wrong way", ")a1(");
    broken("an operator before a bracket's end", "(a1 +)*b2");
    broken("a line feed at the end", "a1 + b2\n");
    broken("a tab", "a1\t+ b2");
    broken("a carriage return", "a1 + b2\r");
    broken("another operator", "a1/b2");
    broken("a byte above 127", "a1 + \xc2\xa0"
                               "b2");
    expect("a zero byte", pool_sheet_size((const uint8_t *)"a1\0", 3, 3, 1, 11, 3), 27, 0);
}

/* So many times a word, parted by another. */
static const char *chain(const char *word, const char *between, unsigned times)
{
    char *at = text;
    for (unsigned i = 0; i < times; i++)
        at += sprintf(at, "%s%s", i ? between : "", word);
    return text;
}

/* The sum of the names of so many letters and seats. */
static const char *names(unsigned letters, unsigned seats)
{
    char *at = text;
    for (unsigned i = 0; i < letters * seats; i++)
        at += sprintf(at, "%s%c%u", i ? "+" : "", (int)('a' + i % letters), i / letters + 1);
    return text;
}

/* A name within brackets of a depth. */
static const char *deep(unsigned depth)
{
    sprintf(text, "%.*sb2%.*s - a1", (int)depth, "((((((((((((((((((((", (int)depth, "))))))))))))))))))))");
    return text;
}

static void limits(void)
{
    compiles("a depth of 16", deep(16), 3, 1, 11, 1, 4);
    broken("a depth of 17", deep(17));
    compiles("a depth of 16 again and again", chain("((((((((((((((((a1))))))))))))))))", "*", 40), 3, 1, 11, 1, 40);
    compiles("a number of p - 1", "a1 + 10", 3, 1, 11, 1, 4);
    broken("a number of p", "a1 + 11");
    compiles("a number of 65,520", "65520*a1", 3, 1, 65521, 1, 4);
    refused("a number of 65,521", "65521*a1", 3, 1, 65521, 1, 27);
    compiles("a number of 65,536", "65536*a1", 3, 1, 65537, 1, 4);
    compiles("a number of 2^31 - 2", "2147483646*a1", 3, 1, MOST_PRIME, 1, 4);
    refused("a number of 2^31 - 1", "2147483647*a1", 3, 1, MOST_PRIME, 1, 27);
    refused("a number of 2^32, over 2^31 - 1", "4294967296*a1", 3, 1, MOST_PRIME, 1, 27);
    broken("a number of 2^32", "4294967296*a1");
    broken("a number of 2^64", "18446744073709551616*a1");
    compiles("a name of seat n", "a3", 3, 1, 11, 3, 1);
    broken("a name of seat n + 1", "a4");
    broken("a name of seat 257", "a257");
    broken("a name of seat 2^32 + 1", "a4294967297");
    broken("a name of seat 2^64 + 1", "a18446744073709551617");
    compiles("seats of two digits", "a15*b10", 15, 7, 17, 15, 3);
    compiles("1,024 gates by plus", chain("a1", "+", 1024), 3, 1, 11, 2, 1024);
    compiles("1,024 gates in version 3", chain("a1", "+", 1024), 15, 14, MOST_PRIME, 2, 1024);
    refused("1,025 gates by plus", chain("a1", "+", 1025), 3, 1, 11, 2, 24);
    compiles("1,024 gates by numbers", chain("10*a3", " + ", 256), 3, 1, 11, 2, 1024);
    compiles("1,024 gates by minus", chain("a1*0", "-", 205), 3, 1, 11, 2, 1024);
    compiles("1,023 gates by minus", chain("c3", "-", 512), 3, 1, 11, 2, 1023);
    refused("1,025 gates by minus", chain("c3", "-", 513), 3, 1, 11, 2, 24);
    compiles("every name there is", names(26, 15), 15, 7, 17, 15, 779);
    refused("1,023 gates, names of 512 seats", names(1, 512), 512, 1, 521, 1, 3);
    refused("1,025 gates, names of 513 seats", names(1, 513), 513, 1, 521, 1, 24);
}

static void order(void)
{
    chain("a1", "+", 100000);
    refused("a long sheet", text, 3, 1, 11, 1, 24);
    refused("24 comes before 3", text, 257, 1, 11, 1, 24);
    strcat(text, "+");
    refused("27 comes before 24", text, 3, 1, 11, 1, 27);
    refused("257 seats are not 1", example, 257, 0, 11, 1, 3);
    refused("16 seats", example, 16, 9, 17, 0, 3);
    refused("no seats: a name's is not among them", example, 0, 0, 11, 1, 27);
    refused("t of n", example, 3, 3, 9, 1, 4);
    refused("a product without a majority", example, 3, 2, 11, 1, 25);
    refused("t of 2^31", example, 3, 1u << 31, 11, 1, 4);
    refused("p not prime", example, 3, 1, 9, 0, 5);
    refused("p not above n", "a1 + b2", 3, 1, 3, 1, 5);
    refused("p of 65,535", example, 3, 1, 65535, 1, 5);
    refused("p of 65,536", example, 3, 1, 65536, 1, 5);
    refused("p below 2^31 - 1 and no prime", example, 3, 1, MOST_PRIME - 1, 1, 5);
    refused("p of 2^31", example, 3, 1, 1u << 31, 1, 5);
    refused("a prime above 2^31", example, 3, 1, 2147483659u, 1, 5);
    refused("the largest prime of 32 bits", example, 3, 1, 4294967291u, 1, 5);
    refused("p of 2^32 - 1", "a1 + 4294967294", 3, 1, 4294967295u, 1, 5);
    refused("p of 0 and no number", "a1 + b2", 3, 1, 0, 1, 5);
    refused("p of 0 and a number", "a1 + 0", 3, 1, 0, 1, 27);
    compiles("a result for seat n", example, 3, 1, 11, 3, 11);
    refused("a result for seat n + 1", example, 3, 1, 11, 4, 8);
    refused("8 comes before 25", example, 3, 2, 11, 4, 8);
    compiles("the total of two plants", "a1 + b2", 2, 1, 11, 1, 3);
    compiles("a depth of 16 without a majority", "((((((((((((((((a1 - 2 + b15))))))))))))))))", 15, 14, 17, 15, 7);
    refused("a result for seat 0", example, 3, 1, 11, 0, 8);
    refused("a result for seat 257", example, 3, 1, 11, 257, 8);
    refused("a result for seat 2^31 + 1", example, 3, 1, 11, (1u << 31) + 1, 8);
}

/* Formulas, each both a sheet and an expression of C; their numbers are below 5, and no product has over three factors, so that none needs more
 * than 96 bits. */
#define FORMULAS(F) \
    F(2*a1 + a1*(b2 - 3)) \
    F(a1 - b2 - c3) \
    F(a1 - (b2 - c3)) \
    F(a1 - b2*c3 - d1) \
    F((a1 - b2)*(c3 - d1)) \
    F(4 - d1*d1*d1 + 3*(a1 + b2*(c3 - 4))) \
    F(0*c3 + ((((1)))) - b2) \
    F(c3*(a1 - (b2 - (c3 - (d1 - (a1 - 2)))))) \
    F(a1 + b2 + c3 + d1 - 1 - 2 - 3 - 4) \
    F(b2*2*3 - a1*4*c3)

#define TEXT_OF(formula) #formula,
#define VALUE_OF(formula) *to++ = formula;

static const char *const texts[] = {FORMULAS(TEXT_OF)};

enum { FORMULA_COUNT = sizeof texts / sizeof *texts };

/* The names of the formulas, and the seat of each. */
typedef __int128 whole;
static whole a1, b2, c3, d1;
static whole *const figure_of[] = {&a1, &b2, &c3, &d1};

static void work_out(whole *to)
{
    FORMULAS(VALUE_OF)
}

/* The figures of a sheet: those of its names, in order of first use. Answers their size. */
static size_t put_figures(uint8_t *figures, const char *from)
{
    size_t len = 0;
    for (const char *at = from; *at; at++)
        if (*at >= 'a' && *at <= 'd' && strchr(from, *at) == at) {
            put(figures + len, (unsigned)*figure_of[*at - 'a']);
            len += BYTES(1);
        }
    return len;
}

static void runs(void)
{
    static const unsigned primes[] = {5, 11, 257, 65521, 65537, MOST_PRIME};
    enum { PRIMES = sizeof primes / sizeof *primes };
    for (unsigned i = 0; i < PRIMES * FORMULA_COUNT; i++) {
        const char *from = texts[i / PRIMES];
        unsigned p = primes[i % PRIMES], seat = 1 + i % 3, wrong = 0;
        size_t size = (size_t)POOL_VALUE(sheet_size(from, 3, 1, p, seat));
        expect(from, sheet(from, 3, 1, p, seat, size), 0, 0);
        for (unsigned k = 0; k < 100; k++) {
            whole values[FORMULA_COUNT];
            uint8_t figures[BYTES(4)];
            for (unsigned j = 0; j < 4; j++)
                *figure_of[j] = below(8) ? below(p) : p - 1;
            work_out(values);
            int64_t value = (int64_t)((values[i / PRIMES] % p + p) % p);
            wrong += result_on_bench(size, seat, figures, put_figures(figures, from)) != value;
        }
        expect(from, wrong, 0, 0);
    }
}

int main(void)
{
    worked();
    grouping();
    breaks();
    limits();
    order();
    runs();
    printf("%d passed, %d failed\n", passed, failed);
    return failed != 0;
}
