#include "compare.h"

#define NINE(b) b, b, b, b, b, b, b, b, b

static void rle_reading(void) {
    COUNTED(grundavok_rle_count(SLICE(0x7f, 0x01, 0x02, 0x02)), 0, 0, 3); /* E6 */
    COUNTED(grundavok_rle_count(SLICE(0x00, 0x03)), 0, 0, 3);             /* E8 */
    COUNTED(grundavok_rle_count(SLICE(0x02)), 21, 1, 0);                  /* E12 */
    COUNTED(grundavok_rle_count(SLICE(0x02, 0x80)), 1, 1, 0);
    COUNTED(grundavok_rle_count(SLICE(0x00, 0x80, 0x80, 0x80, 0x80, 0x10)), 5, 1, 0);
    uint64_t values[6] = {OLD, OLD, OLD, OLD, OLD, OLD};
    uint8_t present[6] = {OLD, OLD, OLD, OLD, OLD, OLD};
    COUNTED(grundavok_rle_decode(SLICE(0x7d, 0x01, 0x02), ALL(values), ALL(present)), 21, 3, 0); /* cut: three due, two there */
    COUNTED(grundavok_rle_decode(SLICE(0x00, 0x07), ALL(values), ALL(present)), 9, 0, 0);
    COUNTED(grundavok_rle_decode(SLICE(0x02), values, 6, present, 5), 8, 0, 0);
    LEFT(uint64_t, values, OLD, OLD, OLD, OLD, OLD, OLD);
    LEFT(uint8_t, present, OLD, OLD, OLD, OLD, OLD, OLD);
    COUNTED(grundavok_rle_decode(SLICE(0x00, 0x02, 0x03, 0x05), ALL(values), ALL(present)), 0, 0, 5); /* E7 */
    LEFT(uint64_t, values, 0, 0, 5, 5, 5, OLD);
    LEFT(uint8_t, present, 0, 0, 1, 1, 1, OLD);
}

static void rle_writing(void) {
    const uint64_t values[3] = {1, 2, 2};
    const uint8_t all[3] = {1, 1, 1}, none[3] = {0, 0, 0}, bad[3] = {1, 2, 3};
    uint8_t out[5] = {OLD, OLD, OLD, OLD, OLD};
    COUNTED(grundavok_rle_encoded_len(ALL(values), ALL(all)), 0, 0, 4);
    COUNTED(grundavok_rle_encoded_len(ALL(values), ALL(none)), 0, 0, 0);
    COUNTED(grundavok_rle_encoded_len(ALL(values), ALL(bad)), 8, 1, 0);
    COUNTED(grundavok_rle_encode(ALL(values), ALL(all), out, 3), 10, 0, 0);
    COUNTED(grundavok_rle_encode(ALL(values), all, 2, ALL(out)), 8, 0, 0);
    COUNTED(grundavok_rle_encode(ALL(values), ALL(none), ALL(out)), 0, 0, 0);
    LEFT(uint8_t, out, OLD, OLD, OLD, OLD, OLD);
    COUNTED(grundavok_rle_encode(ALL(values), ALL(all), ALL(out)), 0, 0, 4);
    LEFT(uint8_t, out, 0x7f, 0x01, 0x02, 0x02, OLD);
}

static void delta_reading(void) {
    COUNTED(grundavok_delta_count(SLICE(0x7f, 0xd0, 0x00, 0x02, 0x00)), 0, 0, 3); /* E9 */
    COUNTED(grundavok_delta_count(SLICE(0x7e, NINE(0xff), 0x00, 0x01)), 6, 11, 0);
    int64_t values[4] = {OLD, OLD, OLD, OLD};
    uint8_t present[4] = {OLD, OLD, OLD, OLD};
    COUNTED(grundavok_delta_decode(SLICE(0x7e, NINE(0xff), 0x00, 0x01), ALL(values), ALL(present)), 6, 11, 0);
    COUNTED(grundavok_delta_decode(SLICE(0x05, 0x01), ALL(values), ALL(present)), 9, 0, 0);
    LEFT(int64_t, values, OLD, OLD, OLD, OLD);
    LEFT(uint8_t, present, OLD, OLD, OLD, OLD);
    COUNTED(grundavok_delta_decode(SLICE(0x7f, 0x05, 0x00, 0x01, 0x7f, 0x01), ALL(values), ALL(present)), 0, 0, 3); /* E10 */
    LEFT(int64_t, values, 5, 0, 6, OLD);
    LEFT(uint8_t, present, 1, 0, 1, OLD);
}

static void delta_writing(void) {
    const int64_t ends[2] = {INT64_MAX, -1}, wide[2] = {INT64_MAX, -2}, depths[3] = {80, 80, 80};
    const uint8_t all[3] = {1, 1, 1};
    uint8_t out[6] = {OLD, OLD, OLD, OLD, OLD, OLD};
    COUNTED(grundavok_delta_encoded_len(ALL(ends), all, 2), 0, 0, 21);
    COUNTED(grundavok_delta_encoded_len(ALL(wide), all, 2), 7, 1, 0);
    COUNTED(grundavok_delta_encode(ALL(wide), all, 2, ALL(out)), 7, 1, 0);
    COUNTED(grundavok_delta_encode(ALL(ends), all, 2, ALL(out)), 10, 0, 0);
    LEFT(uint8_t, out, OLD, OLD, OLD, OLD, OLD, OLD);
    COUNTED(grundavok_delta_encode(ALL(depths), ALL(all), ALL(out)), 0, 0, 5);
    LEFT(uint8_t, out, 0x7f, 0xd0, 0x00, 0x02, 0x00, OLD);
}

static void boolean_reading(void) {
    COUNTED(grundavok_boolean_count(SLICE(0x02, 0x00, 0x03)), 0, 0, 5);
    COUNTED(grundavok_boolean_count(SLICE(0x01, 0x80)), 1, 1, 0);
    uint8_t values[4] = {OLD, OLD, OLD, OLD};
    COUNTED(grundavok_boolean_decode(SLICE(0x01, 0x80), ALL(values)), 1, 1, 0);
    COUNTED(grundavok_boolean_decode(SLICE(0x05), ALL(values)), 9, 0, 0);
    LEFT(uint8_t, values, OLD, OLD, OLD, OLD);
    COUNTED(grundavok_boolean_decode(SLICE(0x00, 0x01, 0x02), ALL(values)), 0, 0, 3); /* E11 */
    LEFT(uint8_t, values, 1, 0, 0, OLD);
}

static void boolean_writing(void) {
    uint8_t out[4] = {OLD, OLD, OLD, OLD};
    COUNTED(grundavok_boolean_encoded_len(SLICE(1, 0, 0)), 0, 0, 3);
    COUNTED(grundavok_boolean_encoded_len(SLICE(0, 2)), 8, 1, 0);
    COUNTED(grundavok_boolean_encode(SLICE(1, 0, 0), out, 2), 10, 0, 0);
    LEFT(uint8_t, out, OLD, OLD, OLD, OLD);
    COUNTED(grundavok_boolean_encode(SLICE(1, 0, 0), ALL(out)), 0, 0, 3);
    LEFT(uint8_t, out, 0x00, 0x01, 0x02, OLD);
    COUNTED(grundavok_boolean_encode(SLICE(0, 0), ALL(out)), 0, 0, 1);
    LEFT(uint8_t, out, 0x02, 0x01, 0x02, OLD);
    COUNTED(grundavok_boolean_maybe_encoded_len(SLICE(0, 0)), 0, 0, 0);
    COUNTED(grundavok_boolean_maybe_encoded_len(SLICE(0, 1)), 0, 0, 2);
    COUNTED(grundavok_boolean_maybe_encode(SLICE(0, 0), ALL(out)), 0, 0, 0);
    LEFT(uint8_t, out, 0x02, 0x01, 0x02, OLD);
    COUNTED(grundavok_boolean_maybe_encode(SLICE(0, 1), ALL(out)), 0, 0, 2);
    LEFT(uint8_t, out, 0x01, 0x01, 0x02, OLD);
    COUNTED(grundavok_boolean_maybe_encode(SLICE(1, 3), ALL(out)), 8, 1, 0);
}

void columns(void) {
    rle_reading();
    rle_writing();
    delta_reading();
    delta_writing();
    boolean_reading();
    boolean_writing();
}
