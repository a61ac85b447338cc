#include "compare.h"

#define PRESENT GRUNDAVOK_PRESENT
#define ABSENT GRUNDAVOK_ABSENT
#define END GRUNDAVOK_END

static void rle_pieces(void) {
    const uint8_t column[] = {0x00, 0x02, 0x02, 0x05, 0x7e, 0x07, 0x07}; /* two absent, 5 twice, then 7 and 7, which are literal */
    grundavok_rle_cursor k = grundavok_rle_cursor_new(ALL(column));
    PIECE_U64(grundavok_rle_piece(ALL(column), &k), 0, 0, ABSENT, 0, 2);
    RLE_CURSOR(k, 7, 2, 2, 0, 0, 0, 0);
    PIECE_U64(grundavok_rle_piece(ALL(column), &k), 0, 0, PRESENT, 5, 2);
    RLE_CURSOR(k, 7, 4, 4, 0, 1, 5, 3);
    PIECE_U64(grundavok_rle_piece(ALL(column), &k), 0, 0, PRESENT, 7, 1); /* each literal value is a piece */
    RLE_CURSOR(k, 7, 6, 6, 1, 2, 0, 0);
    PIECE_U64(grundavok_rle_piece(ALL(column), &k), 0, 0, PRESENT, 7, 1);
    PIECE_U64(grundavok_rle_piece(ALL(column), &k), 0, 0, END, 0, 0);
    PIECE_U64(grundavok_rle_piece(ALL(column), &k), 0, 0, END, 0, 0);
    RLE_CURSOR(k, 7, 7, 6, 0, 2, 0, 0);
    k = grundavok_rle_cursor_new(column, 0);
    PIECE_U64(grundavok_rle_piece(column, 0, &k), 0, 0, END, 0, 0);
    RLE_CURSOR(k, 0, 0, 0, 0, 0, 0, 0);
}

/* Single readings and pieces by turns, and a count that no list could hold. */
static void rle_turns(void) {
    const uint8_t many[] = {0xff, 0xff, 0xff, 0xff, 0x0f, 0x05}; /* 5, 4,294,967,295 times */
    grundavok_rle_cursor k = grundavok_rle_cursor_new(ALL(many));
    NEXT_U64(grundavok_rle_next(ALL(many), &k), 0, 0, PRESENT, 5);
    PIECE_U64(grundavok_rle_piece(ALL(many), &k), 0, 0, PRESENT, 5, 4294967294);
    RLE_CURSOR(k, 6, 6, 4294967295, 0, 1, 5, 5);
    NEXT_U64(grundavok_rle_next(ALL(many), &k), 0, 0, END, 0);
    k = (grundavok_rle_cursor){6, 6, 9, UINT64_MAX, 0, 0, 0}; /* any numbers: as many as a state can say are left */
    PIECE_U64(grundavok_rle_piece(ALL(many), &k), 0, 0, ABSENT, 0, UINT64_MAX);
    RLE_CURSOR(k, 6, 6, 9, 0, 0, 0, 0);
    k = (grundavok_rle_cursor){6, 5, 9, UINT64_MAX, 257, 7, 8}; /* any sort above 1 is literal */
    PIECE_U64(grundavok_rle_piece(ALL(many), &k), 0, 0, PRESENT, 5, 1);
    RLE_CURSOR(k, 6, 6, 9, UINT64_MAX - 1, 2, 0, 0);
}

/* A refusal has no times, and leaves the cursor as it was. */
static void rle_faults(void) {
    const uint8_t cut[] = {0x02, 0x09, 0x7e, 0x01}; /* 9 twice, then two due, one there */
    grundavok_rle_cursor k = grundavok_rle_cursor_new(ALL(cut));
    PIECE_U64(grundavok_rle_piece(ALL(cut), &k), 0, 0, PRESENT, 9, 2);
    PIECE_U64(grundavok_rle_piece(ALL(cut), &k), 0, 0, PRESENT, 1, 1);
    PIECE_U64(grundavok_rle_piece(ALL(cut), &k), 21, 4, 0, 0, 0);
    PIECE_U64(grundavok_rle_piece(ALL(cut), &k), 21, 4, 0, 0, 0);
    RLE_CURSOR(k, 4, 4, 4, 1, 2, 0, 0);
    PIECE_U64(grundavok_rle_piece(cut, 3, &k), 24, 0, 0, 0, 0); /* another length */
    k.at = 5; /* beyond the end */
    PIECE_U64(grundavok_rle_piece(ALL(cut), &k), 24, 0, 0, 0, 0);
    RLE_CURSOR(k, 4, 5, 4, 1, 2, 0, 0);
}

static void delta_pieces(void) {
    const uint8_t column[] = {0x03, 0x7e, 0x00, 0x02, 0x7f, 0x01}; /* -2, -4, -6, two absent, then one more than the last, -5 */
    grundavok_delta_cursor k = grundavok_delta_cursor_new(ALL(column));
    PIECE_I64(grundavok_delta_piece(ALL(column), &k), 0, 0, PRESENT, -2, -2, 3);
    DELTA_CURSOR(k, 6, 2, 3, 0, 1, -2, 1, -6);
    PIECE_I64(grundavok_delta_piece(ALL(column), &k), 0, 0, ABSENT, 0, 0, 2);
    DELTA_CURSOR(k, 6, 4, 5, 0, 0, 0, 0, -6);
    PIECE_I64(grundavok_delta_piece(ALL(column), &k), 0, 0, PRESENT, -5, 0, 1);
    DELTA_CURSOR(k, 6, 6, 6, 0, 2, 0, 0, -5);
    PIECE_I64(grundavok_delta_piece(ALL(column), &k), 0, 0, END, 0, 0, 0);
    PIECE_I64(grundavok_delta_piece(ALL(column), &k), 0, 0, END, 0, 0, 0);
    DELTA_CURSOR(k, 6, 6, 6, 0, 2, 0, 0, -5);
    PIECE_I64(grundavok_delta_piece(column, 5, &k), 24, 0, 0, 0, 0, 0);
    k = grundavok_delta_cursor_new(ALL(column));
    NEXT_I64(grundavok_delta_next(ALL(column), &k), 0, 0, PRESENT, -2);
    PIECE_I64(grundavok_delta_piece(ALL(column), &k), 0, 0, PRESENT, -4, -2, 2);
    NEXT_I64(grundavok_delta_next(ALL(column), &k), 0, 0, ABSENT, 0);
}

/* A sum that leaves int64_t inside a repeated run: the readings before it are a piece, and 6 comes behind it. */
static void delta_faults(void) {
    const uint8_t column[] = {0x05, 0x80, 0x80, 0x80, 0x80, 0x80, 0x80, 0x80, 0x80, 0x20}; /* 2^61, five times: the fourth sum is 2^63 */
    const int64_t step = 2305843009213693952;
    grundavok_delta_cursor k = grundavok_delta_cursor_new(ALL(column));
    PIECE_I64(grundavok_delta_piece(ALL(column), &k), 0, 0, PRESENT, step, step, 3);
    DELTA_CURSOR(k, 10, 10, 5, 2, 1, step, 1, 3 * step);
    PIECE_I64(grundavok_delta_piece(ALL(column), &k), 6, 1, 0, 0, 0, 0);
    PIECE_I64(grundavok_delta_piece(ALL(column), &k), 6, 1, 0, 0, 0, 0);
    DELTA_CURSOR(k, 10, 10, 5, 2, 1, step, 1, 3 * step);
    NEXT_I64(grundavok_delta_next(ALL(column), &k), 6, 1, 0, 0);
    k = (grundavok_delta_cursor){10, 10, 9, UINT64_MAX, 1, 1, 1, INT64_MIN}; /* from the smallest sum to the largest */
    PIECE_I64(grundavok_delta_piece(ALL(column), &k), 0, 0, PRESENT, INT64_MIN + 1, 1, UINT64_MAX);
    DELTA_CURSOR(k, 10, 10, 9, 0, 1, 1, 1, INT64_MAX);
    k = (grundavok_delta_cursor){10, 10, 9, UINT64_MAX, 1, 0, 1, INT64_MIN}; /* a difference of 0 never leaves */
    PIECE_I64(grundavok_delta_piece(ALL(column), &k), 0, 0, PRESENT, INT64_MIN, 0, UINT64_MAX);
    DELTA_CURSOR(k, 10, 10, 9, 0, 1, 0, 1, INT64_MIN);
    k = (grundavok_delta_cursor){10, 10, 9, 9, 1, INT64_MIN, 1, INT64_MAX}; /* -1, and not one more */
    PIECE_I64(grundavok_delta_piece(ALL(column), &k), 0, 0, PRESENT, -1, INT64_MIN, 1);
    DELTA_CURSOR(k, 10, 10, 9, 8, 1, INT64_MIN, 1, -1);
    PIECE_I64(grundavok_delta_piece(ALL(column), &k), 6, 1, 0, 0, 0, 0);
}

static void boolean_pieces(void) {
    const uint8_t column[] = {0x00, 0x01, 0x02}, cut[] = {0x03, 0x80};
    grundavok_boolean_cursor k = grundavok_boolean_cursor_new(ALL(column));
    PIECE_U8(grundavok_boolean_piece(ALL(column), &k), 0, 0, PRESENT, 1, 1);
    BOOLEAN_CURSOR(k, 3, 2, 1, 0, 1);
    PIECE_U8(grundavok_boolean_piece(ALL(column), &k), 0, 0, PRESENT, 0, 2);
    BOOLEAN_CURSOR(k, 3, 3, 3, 0, 0);
    PIECE_U8(grundavok_boolean_piece(ALL(column), &k), 0, 0, END, 0, 0);
    PIECE_U8(grundavok_boolean_piece(ALL(column), &k), 0, 0, END, 0, 0);
    k = grundavok_boolean_cursor_new(ALL(cut));
    PIECE_U8(grundavok_boolean_piece(ALL(cut), &k), 0, 0, PRESENT, 0, 3);
    PIECE_U8(grundavok_boolean_piece(ALL(cut), &k), 1, 1, 0, 0, 0);
    PIECE_U8(grundavok_boolean_piece(ALL(cut), &k), 1, 1, 0, 0, 0);
    BOOLEAN_CURSOR(k, 2, 1, 3, 0, 0);
    PIECE_U8(grundavok_boolean_piece(ALL(column), &k), 24, 0, 0, 0, 0);
    k = (grundavok_boolean_cursor){3, 3, 0, UINT64_MAX, 256}; /* any flag above 0 is yes */
    PIECE_U8(grundavok_boolean_piece(ALL(column), &k), 0, 0, PRESENT, 1, UINT64_MAX);
    BOOLEAN_CURSOR(k, 3, 3, 0, 0, 256);
}

void pieces(void) {
    rle_pieces();
    rle_turns();
    rle_faults();
    delta_pieces();
    delta_faults();
    boolean_pieces();
}
