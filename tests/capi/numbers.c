#include "compare.h"

#define NINE(b) b, b, b, b, b, b, b, b, b

static void reading(void) {
    U64(grundavok_leb128_u64(SLICE(0x80, 0x01), 0), 0, 0, 128, 2); /* E1 */
    U64(grundavok_leb128_u64(SLICE(0x80, 0x00), 0), 3, 0, 0, 0);   /* E2 */
    U64(grundavok_leb128_u64(SLICE(NINE(0xff), 0x02), 0), 2, 0, 0, 0);
    U64(grundavok_leb128_u64(SLICE(NINE(0xff), 0x01), 0), 0, 0, UINT64_MAX, 10); /* E3 */
    U64(grundavok_leb128_u64(SLICE(0x05, 0x80), 1), 1, 1, 0, 0);
    U64(grundavok_leb128_u64(SLICE(0x05, 0x80), 9), 21, 2, 0, 0);
    I64(grundavok_leb128_i64(SLICE(0xc0, 0x00), 0), 0, 0, 64, 2); /* E4 */
    I64(grundavok_leb128_i64(SLICE(0x07, 0x40), 1), 0, 0, -64, 2);
    I64(grundavok_leb128_i64(SLICE(NINE(0x80), 0x7f), 0), 0, 0, INT64_MIN, 10); /* E5 */
    I64(grundavok_leb128_i64(SLICE(0x00, NINE(0x80), 0x01), 1), 2, 1, 0, 0);
    I64(grundavok_leb128_i64(SLICE(0xff, 0x7f), 0), 3, 0, 0, 0);
    U32(grundavok_leb128_u32(SLICE(0xff, 0xff, 0xff, 0xff, 0x0f), 0), 0, 0, UINT32_MAX, 5);
    U32(grundavok_leb128_u32(SLICE(0x01, 0x80, 0x80, 0x80, 0x80, 0x10), 1), 2, 1, 0, 0);
    U64(grundavok_nonzero_leb128_u64(SLICE(0x05, 0x00), 0), 0, 0, 5, 1);
    U64(grundavok_nonzero_leb128_u64(SLICE(0x05, 0x00), 1), 4, 1, 0, 0);
}

static void lengths(void) {
    NUMBER(grundavok_len_u64(127), 1);
    NUMBER(grundavok_len_u64(128), 2);
    NUMBER(grundavok_len_u64(UINT64_MAX), 10);
    NUMBER(grundavok_len_i64(63), 1);
    NUMBER(grundavok_len_i64(-64), 1);
    NUMBER(grundavok_len_i64(-65), 2);
    NUMBER(grundavok_len_i64(INT64_MIN), 10);
}

static void writing(void) {
    uint8_t out[4] = {OLD, OLD, OLD, OLD};
    COUNTED(grundavok_put_u64(128, ALL(out), 1), 0, 0, 3);
    LEFT(uint8_t, out, OLD, 0x80, 0x01, OLD);
    COUNTED(grundavok_put_u64(128, ALL(out), 3), 10, 0, 0);
    COUNTED(grundavok_put_i64(64, ALL(out), 3), 10, 0, 0);
    LEFT(uint8_t, out, OLD, 0x80, 0x01, OLD);
    COUNTED(grundavok_put_i64(-64, ALL(out), 3), 0, 0, 4);
    LEFT(uint8_t, out, OLD, 0x80, 0x01, 0x40);
    COUNTED(grundavok_write_u64(300, ALL(out)), 0, 0, 2);
    LEFT(uint8_t, out, 0xac, 0x02, 0x01, 0x40);
    COUNTED(grundavok_write_u64(UINT64_MAX, ALL(out)), 10, 0, 0);
    COUNTED(grundavok_write_i64(INT64_MIN, ALL(out)), 10, 0, 0);
    LEFT(uint8_t, out, 0xac, 0x02, 0x01, 0x40);
    COUNTED(grundavok_write_i64(-1, ALL(out)), 0, 0, 1);
    LEFT(uint8_t, out, 0x7f, 0x02, 0x01, 0x40);
}

void numbers(void) {
    reading();
    lengths();
    writing();
}
