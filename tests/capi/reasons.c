#include "compare.h"

/* 4,294,967,295 readings of one value, which is to follow; as booleans so many of no. */
#define MOST 0xff, 0xff, 0xff, 0xff, 0x0f
#define EIGHT(b) b, b, b, b, b, b, b, b
#define AT_RUN(number, at, run, byte) .fault = number, .fault_place = at, .about = GRUNDAVOK_RUN, .which = run, .begins = byte
#define AT_ROW(number, at, row) .fault = number, .fault_place = at, .about = GRUNDAVOK_ROW, .which = row
#define AT_TABLE(number, at) .fault = number, .fault_place = at, .about = GRUNDAVOK_TABLE
#define PLUS(n) .sign = GRUNDAVOK_PLUS, .count = n
#define MINUS(n) .sign = GRUNDAVOK_MINUS, .count = n
#define BYTES(n) .facts = GRUNDAVOK_BYTES, .first = n
#define PASSES(had, asked) .facts = GRUNDAVOK_PASSES, .first = had, .second = asked
#define NAME(length, there) .facts = GRUNDAVOK_NAME, .first = length, .second = there
#define LENGTHS(high, low, data) .facts = GRUNDAVOK_LENGTHS, .first = high, .second = low, .third = data

static void integers(void) {
    REASON(grundavok_column_reason(2, SLICE(0x02)), AT_RUN(21, 1, 0, 0), PLUS(2), BYTES(0));              /* E12 */
    REASON(grundavok_column_reason(1, SLICE(0x00, 0x00, 0x80)), AT_RUN(1, 2, 1, 2), BYTES(1));            /* a run that adds nothing counts; no count */
    REASON(grundavok_column_reason(2, SLICE(0x00)), AT_RUN(21, 1, 0, 0), PLUS(0), BYTES(0));              /* an absent run's count is 0 */
    REASON(grundavok_column_reason(2, SLICE(0x7e, 0x05)), AT_RUN(21, 2, 0, 0), MINUS(2), .index = 1, BYTES(0));
    REASON(grundavok_column_reason(2, SLICE(0x02, 0x05, 0x7f, 0x80, 0x00)), AT_RUN(3, 3, 1, 2), MINUS(1), .index = 2, BYTES(2));
    REASON(grundavok_column_reason(2, SLICE(0x01, EIGHT(0xff), 0xff, 0x02)), AT_RUN(2, 1, 0, 0), PLUS(1), BYTES(10));
    REASON(grundavok_column_reason(2, SLICE(0x80, 0x80, 0x80, 0x80, 0x70)), AT_RUN(5, 0, 0, 0), MINUS(4294967296), PASSES(0, 4294967296));
    REASON(grundavok_column_reason(2, SLICE(MOST, 0x05, 0x00, 0x01)), AT_RUN(5, 7, 1, 6), PLUS(0), .index = 4294967295, PASSES(4294967295, 1));
    REASON(grundavok_column_reason(2, SLICE(EIGHT(0x80), 0x80, 0x7f)), AT_RUN(5, 0, 0, 0), MINUS(9223372036854775808u), PASSES(0, 9223372036854775808u));
    REASON(grundavok_column_reason(2, SLICE(0x02, 0x05)), 0); /* a sound column has none */
    REASON(grundavok_column_reason(2, (const uint8_t[]){0x02}, 0), 0);
}

static void others(void) {
    /* 2^62 twice: the sum before the second, and the delta that leaves int64_t with it */
    REASON(grundavok_column_reason(3, SLICE(0x02, EIGHT(0x80), 0xc0, 0x00)), AT_RUN(6, 1, 0, 0), PLUS(2), .index = 1, .facts = GRUNDAVOK_SUM,
           .sum = 4611686018427387904, .delta = 4611686018427387904);
    REASON(grundavok_column_reason(3, SLICE(0x7f, 0x05, 0x7e, 0x01)), AT_RUN(21, 4, 1, 2), MINUS(2), .index = 2, BYTES(0));
    REASON(grundavok_column_reason(4, SLICE(0x00, 0x80)), AT_RUN(1, 1, 1, 1), BYTES(1));
    REASON(grundavok_column_reason(4, SLICE(MOST, 0x01)), AT_RUN(5, 5, 1, 5), PLUS(1), .index = 4294967295, PASSES(4294967295, 1));
    REASON(grundavok_column_reason(4, SLICE(EIGHT(0xff), 0xff, 0x01)), AT_RUN(5, 0, 0, 0), PLUS(18446744073709551615u), PASSES(0, 18446744073709551615u));
    REASON(grundavok_column_reason(5, SLICE(0x7f, 0x02, 0x61)), AT_RUN(1, 1, 0, 0), MINUS(1), NAME(2, 1)); /* a name that is cut */
    REASON(grundavok_column_reason(5, SLICE(0x7f, 0x82)), AT_RUN(1, 1, 0, 0), MINUS(1), BYTES(1));         /* its length is */
    REASON(grundavok_column_reason(5, SLICE(0x7e, 0x01, 0x61, 0x01, 0xff)), AT_RUN(20, 3, 0, 0), MINUS(2), .index = 1, NAME(1, 1));
    REASON(grundavok_column_reason(5, SLICE(0x7f, 0x01, 0x61)), 0);
    REASON(grundavok_column_reason(0, SLICE(0x02)), .number = 17);
    REASON(grundavok_column_reason(6, SLICE(0x02)), .number = 17);
    REASON(grundavok_column_reason(0x12, SLICE(0x02)), .number = 17); /* a type, not a specification */
}

static void of_tables(void) {
    REASON(grundavok_table_reason((const uint8_t[]){0}, 0), AT_TABLE(21, 0), BYTES(0));
    REASON(grundavok_table_reason(SLICE(0x80)), AT_TABLE(1, 0), BYTES(1));
    REASON(grundavok_table_reason(SLICE(0x41)), AT_TABLE(11, 0), .facts = GRUNDAVOK_COLUMNS, .first = 65);
    REASON(grundavok_table_reason(SLICE(0x01)), AT_ROW(21, 1, 0), BYTES(0)); /* nothing of the row is there */
    REASON(grundavok_table_reason(SLICE(0x02, 0x12, 0x00, 0x13, 0x80)), AT_ROW(1, 4, 1), BYTES(1));
    REASON(grundavok_table_reason(SLICE(0x02, 0x13, 0x00, 0x12, 0x00)), AT_ROW(12, 0, 1), .facts = GRUNDAVOK_FALLS, .first = 0x13, .second = 0x12);
    REASON(grundavok_table_reason(SLICE(0x02, 0x12, 0x00, 0x1a, 0x00)), AT_ROW(13, 0, 1), .facts = GRUNDAVOK_COMPRESSED, .first = 0x1a);
    REASON(grundavok_table_reason(SLICE(0x01, 0x12, 0x02, 0x02)), AT_TABLE(14, 0), LENGTHS(0, 2, 1));
    REASON(grundavok_table_reason(SLICE(0x01, 0x12, 0x00, 0x02)), AT_TABLE(15, 0), LENGTHS(0, 0, 1));
    /* 2^64 - 1 and 2, which add up to 2^64 + 1 */
    REASON(grundavok_table_reason(SLICE(0x02, 0x12, EIGHT(0xff), 0xff, 0x01, 0x13, 0x02)), AT_TABLE(14, 0), LENGTHS(1, 1, 0));
    REASON(grundavok_table_reason(SLICE(0x01, 0x12, 0x02, 0x02, 0x05)), 0);
}

static void of_blocks(void) {
    REASON(grundavok_block_reason(SLICE(0x01, 0x12, 0x02, 0x02), 0), AT_TABLE(14, 0), LENGTHS(0, 2, 1)); /* the table comes first */
    REASON(grundavok_block_reason(SLICE(0x01, 0x12, 0x01, 0x02), 1), .number = 16);
    REASON(grundavok_block_reason(SLICE(0x01, 0x16, 0x01, 0x02), 0), .number = 17);
    REASON(grundavok_block_reason(SLICE(0x02, 0x12, 0x02, 0x13, 0x01, 0x02, 0x05, 0x02), 1), AT_RUN(21, 1, 0, 0), PLUS(2), BYTES(0));
    REASON(grundavok_block_reason(SLICE(0x02, 0x12, 0x02, 0x13, 0x01, 0x02, 0x05, 0x02), 0), 0);
}

void reasons(void) {
    integers();
    others();
    of_tables();
    of_blocks();
}
