/* Lists of numbers, as the library takes them (bytes) and as people write them (decimal text), and the files in which they stand. The pool
 * command and the seat program share this file. */
#ifndef LISTS_H
#define LISTS_H

#include <stddef.h>
#include <stdint.h>

#include "pool.h"

/* The largest number that a list can have. */
#define NUMBER_MOST ((UINT64_C(1) << (8 * POOL_NUMBER_BYTES)) - 1)

struct bytes {
    uint8_t *at; /* never null */
    size_t len;
};

/* What ends a program. */
enum fault {
    NOT_UNDERSTOOD, /* a text that is not what was asked for */
    NOT_POSSIBLE    /* a file, memory or random numbers that the system does not give */
};

/* Ends the program with a message on standard error. Each program has its own. */
_Noreturn void fail(enum fault fault, const char *format, ...) __attribute__((format(printf, 2, 3)));

/* So many bytes of 0; and the same bytes again. */
struct bytes fresh_bytes(size_t len);
struct bytes copy_of(struct bytes b);

/* A number that stands in so many bytes, the low byte first, and its bytes set to x: what lists, plan files and messages are read and written by. */
uint64_t get_bytes(const uint8_t *at, size_t width);
void put_bytes(uint8_t *at, size_t width, uint64_t x);

/* The bytes of so many numbers of a list, and how many numbers so many bytes have. */
size_t bytes_of(size_t numbers);
size_t numbers_in(size_t bytes);

/* The numbers of a list that the library is lent, each of POOL_NUMBER_BYTES: how many, number i, and number i set to x. */
size_t count_of(struct bytes list);
uint64_t get_number(struct bytes list, size_t i);
void put_number(struct bytes list, size_t i, uint64_t x);

/* The list that a text stands for: decimal numbers parted by blanks, line feeds or one comma. name says where the text is from. */
struct bytes numbers_of(const char *name, struct bytes text);

/* A list's text: a line for each number. */
struct bytes text_of(struct bytes list);

/* A list of fresh numbers, uniform below p, from the operating system's random source. */
struct bytes draw_numbers(size_t count, uint64_t p);

/* All bytes that a descriptor gives, or of a file: 1, or 0 with errno where they cannot be read. */
int read_descriptor(int fd, struct bytes *all);
int read_file(const char *path, struct bytes *all);

/* Writes all bytes: 1, or 0 with errno. */
int write_all(int fd, struct bytes all);

/* What one seat writes in a call has a part for each receiver. This is the part for seat `to`. */
struct part {
    size_t at, len;
};

/* written: the bytes that the call writes. mail: in the round of the outs the bytes of each receiver's mail, from seat 1 on; null in the
 * rounds before it, in which every receiver gets equally much. */
struct part part_for(unsigned to, unsigned seats, size_t written, const size_t *mail);

#endif
