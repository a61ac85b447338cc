/* A record's call, run against the archive: its inputs, which stand ready when it is run, and its answers, told in the record's order. The form
 * is docs/RECORDS.md's. Of a record that differs the answers are written out, by running it once more with `shown`. */
#ifndef RECORD_H
#define RECORD_H

#include "grundavok.h"

/* How many numbers a list has at most, and how many bytes a field. */
#define MOST 20000

/* How many numbers a table with counts is: its rows, and five for each of its 64 places. */
#define TABLE 321

/* A part of a line; nothing closes it. */
struct text {
    const char *at;
    size_t len;
};

/* The numbers that a field stands for: `-`, or parts with a comma between two, each with a count before it or not. A part is a number or, where
 * `pairs`, hex pairs. No more than `most`; false where the text has not that form. */
struct row {
    size_t len;
    uint64_t values[MOST];
};
bool number_of(struct text t, uint64_t *value);
bool row_of(struct text t, bool pairs, size_t most, struct row *row);
bool is_text(struct text t, const char *word);
struct text until(struct text t, size_t from, char end);

/* A call: its name, how many bytes a field of it has at most and how many numbers a given list, its inputs, a letter each, and how it is made. The
 * letters, of which the large ones are lent: the call may change them, and what they then hold is the record's last answers, in this order.
 *   n  a number                   s S  bytes
 *   w  one of 32 bits             u U  a list of u64, or of i64 by their bits
 *   c  one of 8 bits              b B  a list of bytes
 *   t  a type, 0 to 7             5 7 8  a state of so many numbers, lent, or `new`
 *   f  0 or 1                     e  a number, or `end`
 *   k  so many steps              r  a table with counts, by value, or `new`      */
struct call {
    const char *name;
    size_t bytes, numbers;
    const char *inputs;
    void (*make)(void);
};
extern const struct call calls[];
extern const size_t calls_len;

/* The inputs by their index. A buffer has its exact size, with bytes before and behind it that must stay as they are. */
uint64_t number_at(size_t i);
void *held_at(size_t i);
size_t length_at(size_t i);
bool is_word(size_t i); /* `end` or `new` stands there */

/* The answers. `amiss` is said of a call where no answer can show what is wrong. */
void refused(uint8_t number, size_t place);
void number(uint64_t value);
void numbers(const uint64_t *values, size_t len);
void flags(const uint8_t *values, size_t len);
void bytes(const uint8_t *values, size_t len);
void amiss(const char *what);

/* How a line came out. */
enum verdict { SAME, DIFFERS, MALFORMED };
enum verdict run_line(struct text line, bool shown);

#endif
