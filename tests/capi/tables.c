#include "compare.h"

/* An Integer column of 5, 5 and a DeltaInteger column of 5. */
#define TWO SLICE(0x02, 0x12, 0x02, 0x13, 0x02, 0x02, 0x05, 0x7f, 0x05)

static const grundavok_table none;
static const grundavok_table two = {.specs = {0x12, 0x13}, .starts = {0, 2}, .lens = {2, 2}, .rows = 2};
static const grundavok_table keys = {.specs = {0x13, 0x102}, .rows = 2};

static void reading(void) {
    OPENED(grundavok_read_table(TWO), 0, 0, 5, &two);
    OPENED(grundavok_read_table(SLICE(0x02, 0x13, 0x00, 0x82, 0x02, 0x00)), 0, 0, 6, &keys);
    OPENED(grundavok_read_table(SLICE(0x02, 0x12)), 21, 2, 0, &none);
    OPENED(grundavok_read_table(SLICE(0x02, 0x92)), 1, 1, 0, &none);
    OPENED(grundavok_read_table(SLICE(0x41)), 11, 0, 0, &none);
    OPENED(grundavok_read_table(SLICE(0x02, 0x92, 0x02, 0x00, 0x13, 0x00)), 12, 0, 0, &none);
    OPENED(grundavok_read_table(SLICE(0x01, 0x1b, 0x00)), 13, 0, 0, &none);
    OPENED(grundavok_read_table(SLICE(0x01, 0x13, 0x05, 0x00)), 14, 0, 0, &none);
    OPENED(grundavok_read_table(SLICE(0x01, 0x13, 0x00, 0x00)), 15, 0, 0, &none);
}

/* 64 columns are a table, and each of its places is used. */
static void full(void) {
    uint8_t block[1 + 64 * 2 + 64] = {64};
    grundavok_table table = {.rows = 64};
    for (size_t i = 0; i < 64; i++) {
        block[1 + 2 * i] = 0x12;
        block[2 + 2 * i] = 1;
        table.specs[i] = 0x12;
        table.starts[i] = i;
        table.lens[i] = 1;
    }
    OPENED(grundavok_read_table(ALL(block)), 0, 0, 129, &table);
    PART(grundavok_locate(ALL(block), 63), 0, 0, 192, 1);
}

static void lookup(void) {
    PART(grundavok_locate(TWO, 1), 0, 0, 7, 2);
    PART(grundavok_locate(TWO, 2), 16, 0, 0, 0);
    PART(grundavok_locate(SLICE(0x01, 0x80), 0), 1, 1, 0, 0);
    PART(grundavok_locate_spec(TWO, 0x12), 0, 0, 5, 2);
    PART(grundavok_locate_spec(TWO, 0x14), 0, 0, 0, 0);
    PART(grundavok_locate_spec(SLICE(0x01, 0x1b, 0x00), 0x1b), 13, 0, 0, 0);
}

/* Corrections over a first scan: shown from either, hidden by a row of no bytes, in neither; and whose table is refused. */
static void layers(void) {
    LAYERED(grundavok_locate_over(SLICE(0x01, 0x13, 0x01, 0x00), TWO, 0x13), 0, 1, 0, 3, 1);
    LAYERED(grundavok_locate_over(SLICE(0x01, 0x13, 0x00), TWO, 0x13), 0, 1, 0, 3, 0);
    LAYERED(grundavok_locate_over(SLICE(0x01, 0x13, 0x00), TWO, 0x12), 0, 2, 0, 5, 2);
    LAYERED(grundavok_locate_over(SLICE(0x01, 0x13, 0x00), TWO, 0x14), 0, 0, 0, 0, 0);
    LAYERED(grundavok_locate_over(SLICE(0x01, 0x13, 0x80), SLICE(0x41), 0x13), 1, 1, 2, 0, 0);
    LAYERED(grundavok_locate_over(SLICE(0x01, 0x13, 0x00), SLICE(0x41), 0x13), 11, 2, 0, 0, 0);
}

static void frames(void) {
    uint8_t out[11] = {OLD, OLD, OLD, OLD, OLD, OLD, OLD, OLD, OLD, OLD, OLD};
    FRAME(grundavok_put_frame(TWO, 2, 3, ALL(out)), 16, 0, 0, 0);
    FRAME(grundavok_put_frame(TWO, 0, 3, out, 9), 10, 0, 0, 0);
    LEFT(uint8_t, out, OLD, OLD, OLD, OLD, OLD, OLD, OLD, OLD, OLD, OLD, OLD);
    FRAME(grundavok_put_frame(TWO, 0, 3, ALL(out)), 0, 0, 5, 10);
    LEFT(uint8_t, out, 0x02, 0x12, 0x03, 0x13, 0x02, OLD, OLD, OLD, 0x7f, 0x05, OLD);
}

void tables(void) {
    reading();
    full();
    lookup();
    layers();
    frames();
}
