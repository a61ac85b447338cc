#include "compare.h"

#define PRESENT GRUNDAVOK_PRESENT
#define ABSENT GRUNDAVOK_ABSENT
#define END GRUNDAVOK_END

static void rle_readings(void) {
    const uint8_t column[] = {0x00, 0x02, 0x02, 0x05, 0x7e, 0x07, 0x09}; /* two absent, 5 twice, then 7 and 9 */
    grundavok_rle_cursor k = grundavok_rle_cursor_new(ALL(column));
    RLE_CURSOR(k, 7, 0, 0, 0, 0, 0, 0);
    NEXT_U64(grundavok_rle_next(ALL(column), &k), 0, 0, ABSENT, 0);
    RLE_CURSOR(k, 7, 2, 2, 1, 0, 0, 0);
    NEXT_U64(grundavok_rle_next(ALL(column), &k), 0, 0, ABSENT, 0);
    NEXT_U64(grundavok_rle_next(ALL(column), &k), 0, 0, PRESENT, 5);
    RLE_CURSOR(k, 7, 4, 4, 1, 1, 5, 3);
    NEXT_U64(grundavok_rle_next(ALL(column), &k), 0, 0, PRESENT, 5);
    NEXT_U64(grundavok_rle_next(ALL(column), &k), 0, 0, PRESENT, 7);
    RLE_CURSOR(k, 7, 6, 6, 1, 2, 0, 0);
    NEXT_U64(grundavok_rle_next(ALL(column), &k), 0, 0, PRESENT, 9);
    RLE_CURSOR(k, 7, 7, 6, 0, 2, 0, 0);
    NEXT_U64(grundavok_rle_next(ALL(column), &k), 0, 0, END, 0);
    NEXT_U64(grundavok_rle_next(ALL(column), &k), 0, 0, END, 0);
    RLE_CURSOR(k, 7, 7, 6, 0, 2, 0, 0);
    grundavok_rle_cursor none = grundavok_rle_cursor_new(column, 0);
    NEXT_U64(grundavok_rle_next(column, 0, &none), 0, 0, END, 0);
    NEXT_U64(grundavok_rle_next(column, 0, &none), 0, 0, END, 0);
    RLE_CURSOR(none, 0, 0, 0, 0, 0, 0, 0);
}

/* What comes before a fault, then the refusal of the count, at every later call. */
static void rle_faults(void) {
    const uint8_t cut[] = {0x7d, 0x01, 0x02}; /* three due, two there */
    grundavok_rle_cursor k = grundavok_rle_cursor_new(ALL(cut));
    NEXT_U64(grundavok_rle_next(ALL(cut), &k), 0, 0, PRESENT, 1);
    NEXT_U64(grundavok_rle_next(ALL(cut), &k), 0, 0, PRESENT, 2);
    NEXT_U64(grundavok_rle_next(ALL(cut), &k), 21, 3, 0, 0);
    NEXT_U64(grundavok_rle_next(ALL(cut), &k), 21, 3, 0, 0);
    RLE_CURSOR(k, 3, 3, 3, 1, 2, 0, 0);
    k = grundavok_rle_cursor_new(SLICE(0x02, 0x80));
    NEXT_U64(grundavok_rle_next(SLICE(0x02, 0x80), &k), 1, 1, 0, 0); /* a value that does not read gives none of its run */
    NEXT_U64(grundavok_rle_next(SLICE(0x02, 0x80), &k), 1, 1, 0, 0);
    RLE_CURSOR(k, 2, 0, 0, 0, 0, 0, 0);
    k = grundavok_rle_cursor_new(SLICE(0x80, 0x80, 0x80, 0x80, 0x10, 0x05));
    NEXT_U64(grundavok_rle_next(SLICE(0x80, 0x80, 0x80, 0x80, 0x10, 0x05), &k), 5, 0, 0, 0);
}

/* Columns of 4,294,967,295 readings, step by step. */
static void rle_announced(void) {
    const uint8_t fives[] = {0xff, 0xff, 0xff, 0xff, 0x0f, 0x05}, gap[] = {0x00, 0xff, 0xff, 0xff, 0xff, 0x0f};
    COUNTED(grundavok_rle_count(ALL(fives)), 0, 0, 4294967295);
    grundavok_rle_cursor k = grundavok_rle_cursor_new(ALL(fives));
    NEXT_U64(grundavok_rle_next(ALL(fives), &k), 0, 0, PRESENT, 5);
    RLE_CURSOR(k, 6, 6, 4294967295, 4294967294, 1, 5, 5);
    k = grundavok_rle_cursor_new(ALL(gap));
    for (uint64_t i = 1; i <= 100000; i++) {
        NEXT_U64(grundavok_rle_next(ALL(gap), &k), 0, 0, ABSENT, 0);
        RLE_CURSOR(k, 6, 6, 4294967295, 4294967295 - i, 0, 0, 0);
    }
    k.left = 1; /* all the others as given */
    NEXT_U64(grundavok_rle_next(ALL(gap), &k), 0, 0, ABSENT, 0);
    NEXT_U64(grundavok_rle_next(ALL(gap), &k), 0, 0, END, 0);
}

/* States that are not this column's. */
static void rle_moved(void) {
    const uint8_t column[] = {0x7e, 0x01, 0x02}, other[] = {0x03, 0x04, 0x09}, longer[] = {0x7d, 0x01, 0x02, 0x03};
    grundavok_rle_cursor k = grundavok_rle_cursor_new(ALL(column));
    NEXT_U64(grundavok_rle_next(ALL(column), &k), 0, 0, PRESENT, 1);
    NEXT_U64(grundavok_rle_next(ALL(longer), &k), 24, 0, 0, 0);
    RLE_CURSOR(k, 3, 2, 2, 1, 2, 0, 0);
    NEXT_U64(grundavok_rle_next(ALL(other), &k), 0, 0, PRESENT, 9); /* the literal value that stands there */
    RLE_CURSOR(k, 3, 3, 2, 0, 2, 0, 0);
    k = (grundavok_rle_cursor){3, 4, 5, 6, 1, 7, 8}; /* beyond the end */
    NEXT_U64(grundavok_rle_next(ALL(column), &k), 24, 0, 0, 0);
    RLE_CURSOR(k, 3, 4, 5, 6, 1, 7, 8);
    k.at = 3; /* at the end, in a run that repeats 7 */
    NEXT_U64(grundavok_rle_next(ALL(column), &k), 0, 0, PRESENT, 7);
    RLE_CURSOR(k, 3, 3, 5, 5, 1, 7, 8);
    k = (grundavok_rle_cursor){3, 1, 2, 2, 257, 7, 8}; /* any sort above 1 is literal, and comes out as 2 */
    NEXT_U64(grundavok_rle_next(ALL(column), &k), 0, 0, PRESENT, 1);
    RLE_CURSOR(k, 3, 2, 2, 1, 2, 0, 0);
}

static void delta_steps(void) {
    const uint8_t column[] = {0x7f, 0x05, 0x00, 0x01, 0x7f, 0x01}; /* E10 */
    grundavok_delta_cursor k = grundavok_delta_cursor_new(ALL(column));
    DELTA_CURSOR(k, 6, 0, 0, 0, 0, 0, 0, 0);
    NEXT_I64(grundavok_delta_next(ALL(column), &k), 0, 0, PRESENT, 5);
    NEXT_I64(grundavok_delta_next(ALL(column), &k), 0, 0, ABSENT, 0);
    DELTA_CURSOR(k, 6, 4, 2, 0, 0, 0, 0, 5);
    NEXT_I64(grundavok_delta_next(ALL(column), &k), 0, 0, PRESENT, 6);
    NEXT_I64(grundavok_delta_next(ALL(column), &k), 0, 0, END, 0);
    NEXT_I64(grundavok_delta_next(ALL(column), &k), 0, 0, END, 0);
    DELTA_CURSOR(k, 6, 6, 3, 0, 2, 0, 0, 6);
    NEXT_I64(grundavok_delta_next(column, 5, &k), 24, 0, 0, 0);
    DELTA_CURSOR(k, 6, 6, 3, 0, 2, 0, 0, 6);
    k = grundavok_delta_cursor_new(column, 0);
    NEXT_I64(grundavok_delta_next(column, 0, &k), 0, 0, END, 0);
    k = grundavok_delta_cursor_new(SLICE(0x03, 0x7e));
    NEXT_I64(grundavok_delta_next(SLICE(0x03, 0x7e), &k), 0, 0, PRESENT, -2);
    DELTA_CURSOR(k, 2, 2, 3, 2, 1, -2, 1, -2);
    NEXT_I64(grundavok_delta_next(SLICE(0x00, 0x09), &k), 0, 0, PRESENT, -4); /* another column of the same length */
    k = (grundavok_delta_cursor){2, 1, 1, 1, 256, 7, 8, 5}; /* any sort above 1 is literal */
    NEXT_I64(grundavok_delta_next(SLICE(0x03, 0x7e), &k), 0, 0, PRESENT, 3);
    DELTA_CURSOR(k, 2, 2, 1, 0, 2, 0, 0, 3);
}

/* 2^62 twice: a sum that leaves int64_t inside a repeated run. */
static void delta_faults(void) {
    const uint8_t column[] = {0x02, 0x80, 0x80, 0x80, 0x80, 0x80, 0x80, 0x80, 0x80, 0xc0, 0x00};
    grundavok_delta_cursor k = grundavok_delta_cursor_new(ALL(column));
    NEXT_I64(grundavok_delta_next(ALL(column), &k), 0, 0, PRESENT, 4611686018427387904);
    NEXT_I64(grundavok_delta_next(ALL(column), &k), 6, 1, 0, 0);
    NEXT_I64(grundavok_delta_next(ALL(column), &k), 6, 1, 0, 0);
    DELTA_CURSOR(k, 11, 11, 2, 1, 1, 4611686018427387904, 1, 4611686018427387904);
    COUNTED(grundavok_delta_count(ALL(column)), 6, 1, 0);
}

static void boolean_steps(void) {
    const uint8_t column[] = {0x00, 0x01, 0x02}, cut[] = {0x01, 0x80};
    grundavok_boolean_cursor k = grundavok_boolean_cursor_new(ALL(column));
    BOOLEAN_CURSOR(k, 3, 0, 0, 0, 1);
    NEXT_U8(grundavok_boolean_next(ALL(column), &k), 0, 0, PRESENT, 1);
    BOOLEAN_CURSOR(k, 3, 2, 1, 0, 1);
    NEXT_U8(grundavok_boolean_next(ALL(column), &k), 0, 0, PRESENT, 0);
    BOOLEAN_CURSOR(k, 3, 3, 3, 1, 0);
    NEXT_U8(grundavok_boolean_next(ALL(cut), &k), 24, 0, 0, 0);
    BOOLEAN_CURSOR(k, 3, 3, 3, 1, 0);
    NEXT_U8(grundavok_boolean_next(ALL(column), &k), 0, 0, PRESENT, 0);
    NEXT_U8(grundavok_boolean_next(ALL(column), &k), 0, 0, END, 0);
    NEXT_U8(grundavok_boolean_next(ALL(column), &k), 0, 0, END, 0);
    k = grundavok_boolean_cursor_new(column, 0);
    NEXT_U8(grundavok_boolean_next(column, 0, &k), 0, 0, END, 0);
    k = grundavok_boolean_cursor_new(ALL(cut));
    NEXT_U8(grundavok_boolean_next(ALL(cut), &k), 0, 0, PRESENT, 0);
    NEXT_U8(grundavok_boolean_next(ALL(cut), &k), 1, 1, 0, 0);
    NEXT_U8(grundavok_boolean_next(ALL(cut), &k), 1, 1, 0, 0);
    BOOLEAN_CURSOR(k, 2, 1, 1, 0, 0);
    k = (grundavok_boolean_cursor){3, 0, 0, 2, 9}; /* any flag above 0 is yes */
    NEXT_U8(grundavok_boolean_next(ALL(column), &k), 0, 0, PRESENT, 1);
    k = (grundavok_boolean_cursor){3, 0, 0, 2, 256};
    NEXT_U8(grundavok_boolean_next(ALL(column), &k), 0, 0, PRESENT, 1);
    BOOLEAN_CURSOR(k, 3, 0, 0, 1, 256);
}

void cursors(void) {
    rle_readings();
    rle_faults();
    rle_announced();
    rle_moved();
    delta_steps();
    delta_faults();
    boolean_steps();
}
