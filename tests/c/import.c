/* Circuits in Bristol Fashion imported into plans: the worked example, each way to break the format, the limits, and comparators run on the bench. */
#include <stdlib.h>

#include "made.h"

enum { MOST_TEXT = 1 << 21 };

static const char example[] = "3 7\n2 2 2\n1 1\n\n2 1 0 2 4 XOR\n2 1 1 3 5 AND\n2 1 4 5 6 XOR\n";

static uint8_t text[MOST_TEXT];
static size_t text_len;

/* Imports a text of such a size; the buffer keeps its bytes where it is refused. */
static uint64_t import(const char *from, size_t len, unsigned n, unsigned t, unsigned p, size_t room)
{
    fill_plan();
    return kept_plan(pool_import((const uint8_t *)from, len, n, t, p, plan, room), room);
}

/* A text that is refused, by pool_import_size as well. */
static void refused(const char *what, const char *from, unsigned n, unsigned t, unsigned p, unsigned number)
{
    expect(what, import(from, strlen(from), n, t, p, 99), number, 0);
    expect(what, pool_import_size((const uint8_t *)from, strlen(from), n, t, p), number, 0);
}

static void broken(const char *what, const char *from)
{
    refused(what, from, 3, 1, 11, 23);
}

/* A text that imports: the plan passes, and has this size. */
static void imports(const char *what, const char *from, size_t len, unsigned n, unsigned t, unsigned p, size_t size)
{
    expect_size(what, pool_import_size((const uint8_t *)from, len, n, t, p), size);
    expect(what, import(from, len, n, t, p, size), 0, 0);
    expect(what, pool_plan_check(plan, size), 0, 0);
}

/* The worked example's plan; two gates scale by p - 2. */
static size_t worked_plan(uint8_t *want, unsigned p)
{
    static const uint8_t gates[13][3] = {{1, 1, 0}, {1, 1, 0}, {1, 2, 0}, {1, 2, 0}, {5, 0, 2},   {3, 4, 0},  {2, 0, 2},
                                         {2, 6, 5}, {5, 1, 3}, {5, 7, 8}, {3, 9, 0}, {2, 7, 8}, {2, 11, 10}};
    size_t len = contents_in(version_for(p), want, 3, 1, p, 13, 1);
    for (unsigned g = 0; g < 13; g++)
        gate(want, g, gates[g][0], gates[g][1], gates[g][0] == 3 ? p - 2 : gates[g][2]);
    out(want, 13, 0, 1, 12);
    return len;
}

static void worked(void)
{
    uint8_t want[99];
    worked_plan(want, 11);
    imports("the worked example", example, sizeof example - 1, 3, 1, 11, sizeof want);
    expect_bytes("the worked example's plan", plan, want, sizeof want);
    expect("a buffer one byte short", import(example, sizeof example - 1, 3, 1, 11, 98), 19, 0);
    expect("a buffer one byte long", import(example, sizeof example - 1, 3, 1, 11, 100), 19, 0);
    imports("no line feed at the end", example, sizeof example - 2, 3, 1, 11, sizeof want);
    static const char loose[] = "\n  \n 3   7 \n\n2 2 2\n  1 1  \n2 1 0 2 4 XOR   \n  2 1 1 3 5 AND\n2  1  4  5  6  XOR\n  \n\n";
    imports("blanks and empty lines", loose, sizeof loose - 1, 3, 1, 11, sizeof want);
    expect_bytes("blanks and empty lines change nothing", plan, want, sizeof want);
}

/* Version 1 up to 65,535, version 3 with points 1 to n above. */
static void versions_of(void)
{
    static const unsigned primes[] = {5, 65521, 65537, 65539, 2147483629, MOST_PRIME};
    for (unsigned k = 0; k < sizeof primes / sizeof *primes; k++) {
        uint8_t want[256];
        size_t len = worked_plan(want, primes[k]);
        hold("the file's size", len == (primes[k] < 65536 ? 18 + 6 * 13 + 3 : 32 + 10 * 13 + 3 + 4 * 3));
        imports("the example over this prime", example, sizeof example - 1, 3, 1, primes[k], len);
        expect_bytes("the example's plan over this prime", plan, want, len);
        expect("a buffer one byte short", import(example, sizeof example - 1, 3, 1, primes[k], len - 1), 19, 0);
        expect("a buffer one byte long", import(example, sizeof example - 1, 3, 1, primes[k], len + 1), 19, 0);
    }
}

static void breaks(void)
{
    broken("an empty text", "");
    broken("blanks only", "  \n \n");
    broken("a leading zero", "3 07\n2 2 2\n1 1\n2 1 0 2 4 XOR\n2 1 1 3 5 AND\n2 1 4 5 6 XOR\n");
    broken("a leading zero before a zero", "3 7\n2 2 2\n1 1\n2 1 00 2 4 XOR\n2 1 1 3 5 AND\n2 1 4 5 6 XOR\n");
    broken("a number over 65,535", "3 65536\n2 2 2\n1 1\n2 1 0 2 4 XOR\n2 1 1 3 5 AND\n2 1 4 5 6 XOR\n");
    broken("a number of many digits", "3 7\n2 2 2\n1 18446744073709551617\n2 1 0 2 4 XOR\n2 1 1 3 5 AND\n2 1 4 5 6 XOR\n");
    broken("a tab", "3\t7\n2 2 2\n1 1\n2 1 0 2 4 XOR\n2 1 1 3 5 AND\n2 1 4 5 6 XOR\n");
    broken("a carriage return", "3 7\r\n2 2 2\n1 1\n2 1 0 2 4 XOR\n2 1 1 3 5 AND\n2 1 4 5 6 XOR\n");
    broken("a sign", "3 +7\n2 2 2\n1 1\n2 1 0 2 4 XOR\n2 1 1 3 5 AND\n2 1 4 5 6 XOR\n");
    broken("a missing field in the first line", "7\n2 2 2\n1 1\n2 1 0 2 4 XOR\n2 1 1 3 5 AND\n2 1 4 5 6 XOR\n");
    broken("a missing field in the second line", "3 7\n2 2\n1 1\n2 1 0 2 4 XOR\n2 1 1 3 5 AND\n2 1 4 5 6 XOR\n");
    broken("a missing field in a gate", "3 7\n2 2 2\n1 1\n2 1 0 4 XOR\n2 1 1 3 5 AND\n2 1 4 5 6 XOR\n");
    broken("one field more in the first line", "3 7 1\n2 2 2\n1 1\n2 1 0 2 4 XOR\n2 1 1 3 5 AND\n2 1 4 5 6 XOR\n");
    broken("one field more in the third line", "3 7\n2 2 2\n1 1 1\n2 1 0 2 4 XOR\n2 1 1 3 5 AND\n2 1 4 5 6 XOR\n");
    broken("one field more in a gate", "3 7\n2 2 2\n1 1\n2 1 0 2 4 4 XOR\n2 1 1 3 5 AND\n2 1 4 5 6 XOR\n");
    broken("one field more after a gate", "3 7\n2 2 2\n1 1\n2 1 0 2 4 XOR 4\n2 1 1 3 5 AND\n2 1 4 5 6 XOR\n");
    broken("another operation", "3 7\n2 2 2\n1 1\n2 1 0 2 4 OR\n2 1 1 3 5 AND\n2 1 4 5 6 XOR\n");
    broken("small letters", "3 7\n2 2 2\n1 1\n2 1 0 2 4 xor\n2 1 1 3 5 AND\n2 1 4 5 6 XOR\n");
    broken("a longer word", "3 7\n2 2 2\n1 1\n2 1 0 2 4 XORS\n2 1 1 3 5 AND\n2 1 4 5 6 XOR\n");
    broken("INV with two wires read", "3 7\n2 2 2\n1 1\n2 1 0 2 4 INV\n2 1 1 3 5 AND\n2 1 4 5 6 XOR\n");
    broken("XOR with one wire read", "3 7\n2 2 2\n1 1\n1 1 0 4 XOR\n2 1 1 3 5 AND\n2 1 4 5 6 XOR\n");
    broken("two wires set", "3 7\n2 2 2\n1 1\n2 2 0 2 4 XOR\n2 1 1 3 5 AND\n2 1 4 5 6 XOR\n");
    broken("a wire left unset", "3 8\n2 2 2\n1 1\n2 1 0 2 4 XOR\n2 1 1 3 5 AND\n2 1 4 5 6 XOR\n");
    broken("a wire set twice", "3 7\n2 2 2\n1 1\n2 1 0 2 4 XOR\n2 1 1 3 4 AND\n2 1 4 4 6 XOR\n");
    broken("an input set", "3 7\n2 2 2\n1 1\n2 1 0 2 3 XOR\n2 1 1 3 5 AND\n2 1 3 5 6 XOR\n");
    broken("a wire not yet set", "3 7\n2 2 2\n1 1\n2 1 0 2 4 XOR\n2 1 1 6 5 AND\n2 1 4 5 6 XOR\n");
    broken("a wire at the count is read", "3 7\n2 2 2\n1 1\n2 1 0 7 4 XOR\n2 1 1 3 5 AND\n2 1 4 5 6 XOR\n");
    broken("a wire above the count is set", "3 7\n2 2 2\n1 1\n2 1 0 2 9 XOR\n2 1 1 3 5 AND\n2 1 4 5 6 XOR\n");
    broken("more input wires than wires", "0 3\n1 4\n1 1\n");
    broken("more output wires than wires", "0 3\n1 3\n1 4\n");
    broken("a line missing", "3 7\n2 2 2\n1 1\n2 1 0 2 4 XOR\n2 1 1 3 5 AND\n");
    broken("a line left over", "2 7\n2 2 2\n1 1\n2 1 0 2 4 XOR\n2 1 1 3 5 AND\n2 1 4 5 6 XOR\n");
    broken("the first lines only", "3 7\n2 2 2\n");
    refused("more input values than seats", example, 1, 0, 11, 23);
    refused("no seats for an input value", example, 0, 0, 11, 23);
}

static void others(void)
{
    refused("23 comes before 24", "1 65\n1 65\n1 65\n", 3, 1, 11, 23);
    refused("24 comes before 3", "0 65\n1 65\n1 65\n", 257, 1, 11, 24);
    refused("257 seats are not 1", example, 257, 0, 11, 3);
    refused("16 seats", example, 16, 1, 17, 3);
    refused("no seats and no input value", "0 0\n0\n0\n", 0, 0, 11, 3);
    refused("t of n", example, 3, 3, 11, 4);
    refused("a product without a majority", example, 3, 2, 11, 25);
    refused("t of 2^31", example, 3, 1u << 31, 11, 4);
    refused("p not prime", example, 3, 1, 9, 5);
    refused("p not above n", example, 3, 1, 3, 5);
    refused("p of 65,535", example, 3, 1, 65535, 5);
    refused("p of 65,536", example, 3, 1, 65536, 5);
    refused("p below 2^31 - 1 and no prime", example, 3, 1, MOST_PRIME - 1, 5);
    refused("p of 2^31", example, 3, 1, 1u << 31, 5);
    refused("a prime above 2^31", example, 3, 1, 2147483659u, 5);
    refused("the largest prime of 32 bits", example, 3, 1, 4294967291u, 5);
    refused("p of 0", example, 3, 1, 0, 5);
    static const char no_outs[] = "0 1\n1 1\n0\n";
    imports("no outs", no_outs, sizeof no_outs - 1, 3, 1, 11, 18 + 6);
    refused("no gates", "0 0\n0\n0\n", 3, 1, 11, 6);
    imports("an INV without a majority", "1 2\n1 1\n1 1\n1 1 0 1 INV\n", 24, 2, 1, 11, 18 + 6 * 3 + 3);
    imports("an output value of no wires, input values of none", "0 2\n3 0 2 0\n2 0 1\n", 18, 3, 1, 11, 18 + 6 * 2 + 3);
}

/* Inputs, then a chain of INV: so many inputs, gates and outputs. */
static size_t chain(unsigned inputs, unsigned gates, unsigned outputs)
{
    char *to = (char *)text;
    int len = sprintf(to, "%u %u\n1 %u\n1 %u\n", gates, inputs + gates, inputs, outputs);
    for (unsigned g = 0; g < gates; g++)
        len += sprintf(to + len, "1 1 %u %u INV\n", inputs + g - 1, inputs + g);
    return text_len = (size_t)len;
}

static void limits(void)
{
    const char *from = (const char *)text;
    chain(2, 511, 1);
    imports("1,024 gates", from, text_len, 3, 1, 11, 18 + 6 * 1024 + 3);
    imports("1,024 gates in version 3", from, text_len, 3, 1, 65537, 32 + 10 * 1024 + 3 + 4 * 3);
    chain(1, 512, 1);
    expect("1,025 gates", import(from, text_len, 3, 1, 11, 18 + 6 * 1025 + 3), 24, 0);
    chain(64, 0, 64);
    imports("64 outs", from, text_len, 3, 1, 11, 18 + 6 * 64 + 3 * 64);
    imports("64 outs in version 3", from, text_len, 15, 7, MOST_PRIME, 32 + 10 * 64 + 3 * 64 + 4 * 15);
    chain(65, 0, 65);
    expect("65 outs", import(from, text_len, 3, 1, 11, 18 + 6 * 65 + 3 * 65), 24, 0);
    chain(1, 65534, 1);
    expect("65,535 wires", import(from, text_len, 3, 1, 11, 99), 24, 0);
    text[text_len - 3] = 'W';
    expect("65,535 wires, the last line broken", import(from, text_len, 3, 1, 11, 99), 23, 0);
    text[text_len - 3] = 'N';
    memcpy(text + text_len, " \n \n0\n", 6);
    expect("65,535 wires, a line after the last", import(from, text_len + 6, 3, 1, 11, 99), 23, 0);
}

/* Appends a gate that reads a and b (or a only) and sets the next wire. */
struct writer {
    char *to;
    int len;
    unsigned gates, wires;
};

static unsigned add(struct writer *w, const char *operation, unsigned a, unsigned b)
{
    if (strcmp(operation, "INV") == 0)
        w->len += sprintf(w->to + w->len, "1 1 %u %u INV\n", a, w->wires);
    else
        w->len += sprintf(w->to + w->len, "2 1 %u %u %u %s\n", a, b, w->wires, operation);
    w->gates++;
    return w->wires++;
}

/* A ripple comparator of two numbers of so many bits, low bits first: whether the first is greater. One value, or one a number. */
static void comparator(unsigned bits, unsigned values)
{
    static char body[8192];
    struct writer w = {body, 0, 0, 2 * bits};
    unsigned greater = add(&w, "AND", 0, add(&w, "INV", bits, 0));
    for (unsigned i = 1; i < bits; i++) {
        unsigned here = add(&w, "AND", i, add(&w, "INV", bits + i, 0));
        unsigned same = add(&w, "INV", add(&w, "XOR", i, bits + i), 0);
        greater = add(&w, "XOR", here, add(&w, "AND", same, greater));
    }
    char *to = (char *)text;
    int len = sprintf(to, "%u %u\n%u", w.gates, w.wires, values);
    for (unsigned v = 0; v < values; v++)
        len += sprintf(to + len, " %u", 2 * bits / values);
    text_len = (size_t)(len + sprintf(to + len, "\n1 1\n\n%s", body));
}

/* The bits of two numbers as figures. */
static void put_bits(uint8_t *figures, unsigned bits, unsigned a, unsigned b)
{
    for (unsigned i = 0; i < bits; i++) {
        put(figures + BYTES(i), a >> i & 1);
        put(figures + BYTES(bits + i), b >> i & 1);
    }
}

/* Runs the imported plan on the bench: party 1's result. */
static int64_t compared(size_t plan_len, unsigned bits, unsigned a, unsigned b)
{
    uint8_t figures[BYTES(32)];
    put_bits(figures, bits, a, b);
    return result_on_bench(plan_len, 1, figures, BYTES(2 * bits));
}

/* One party alone has no coalition: its own call gives its result. */
static unsigned alone(size_t plan_len, unsigned bits, unsigned a, unsigned b)
{
    static uint8_t figures[BYTES(32)], seat[BYTES(4096)], mail[BYTES(4096)], sent[BYTES(4096)];
    put_bits(figures, bits, a, b);
    size_t seat_len = (size_t)POOL_VALUE(pool_seat_size(plan, plan_len, 1, 0, POOL_SEAT_STATE)), mail_len = 0;
    unsigned calls = (unsigned)POOL_VALUE(pool_calls(plan, plan_len));
    memset(seat, 0, seat_len);
    for (unsigned k = 0; k < calls; k++) {
        size_t sent_len = (size_t)POOL_VALUE(pool_seat_size(plan, plan_len, 1, (uint16_t)k, POOL_SEAT_OUT));
        if (pool_seat_call(plan, plan_len, 1, figures, BYTES(2 * bits), sent, 0, NO_TRIPLES, seat, seat_len, mail, mail_len, sent, sent_len))
            return 99;
        memcpy(mail, sent, mail_len = sent_len);
    }
    return get(mail);
}

static void comparators(void)
{
    static const unsigned primes[] = {5, 11, 257, 65521, 65537, MOST_PRIME};
    comparator(16, 2);
    for (unsigned i = 0; i < sizeof primes / sizeof *primes; i++) {
        uint64_t answer = pool_import_size(text, text_len, 3, 1, primes[i]);
        size_t size = (size_t)POOL_VALUE(answer);
        expect("a comparator's size", POOL_REFUSAL(answer), 0, 0);
        expect("a comparator imports", import((const char *)text, text_len, 3, 1, primes[i], size), 0, 0);
        unsigned wrong = 0;
        for (unsigned k = 0; k < 500; k++) {
            unsigned a = below(65536), b = k % 4 ? below(65536) : a ^ (k % 8 ? 1u << below(16) : 0);
            wrong += compared(size, 16, a, b) != (a > b);
        }
        expect("the comparator on the bench is the comparison", wrong, 0, 0);
    }
    comparator(8, 1);
    size_t size = (size_t)POOL_VALUE(pool_import_size(text, text_len, 1, 0, 2));
    expect("a comparator modulo 2", import((const char *)text, text_len, 1, 0, 2, size), 0, 0);
    unsigned wrong = 0;
    for (unsigned a = 0; a < 256; a += 5)
        for (unsigned b = 0; b < 256; b += 3)
            wrong += alone(size, 8, a, b) != (a > b);
    expect("modulo 2 the comparator is the comparison", wrong, 0, 0);
}

int main(void)
{
    worked();
    versions_of();
    breaks();
    others();
    limits();
    comparators();
    printf("%d passed, %d failed\n", passed, failed);
    return failed != 0;
}
