#include "compare.h"

/* 80, 80, 80 as a DeltaInteger column; an Integer column of 5, 5 before a DeltaInteger column of 5; true, false, false. */
#define DEPTHS SLICE(0x01, 0x13, 0x05, 0x7f, 0xd0, 0x00, 0x02, 0x00)
#define TWO SLICE(0x02, 0x12, 0x02, 0x13, 0x02, 0x02, 0x05, 0x7f, 0x05)
#define FLAGS SLICE(0x01, 0x14, 0x03, 0x00, 0x01, 0x02)
/* An Integer column of two bytes. */
#define CUT(a, b) SLICE(0x01, 0x12, 0x02, a, b)

/* Tables of these blocks, lent with counts that no edit looks at: of its own row a lie, of another what comes through, known with any byte but 0, and
 * behind the rows what a refusal alone gives back. */
#define LIES .counts = {99, 98, [63] = 97}, .known = {2, 3, [63] = 4}
static const grundavok_counted_table depths = {{.specs = {0x13}, .lens = {5}, .rows = 1}, LIES};
static const grundavok_counted_table two = {{.specs = {0x12, 0x13}, .starts = {0, 2}, .lens = {2, 2}, .rows = 2}, LIES};
static const grundavok_counted_table bits = {{.specs = {0x14}, .lens = {3}, .rows = 1}, LIES};
static const grundavok_counted_table cut = {{.specs = {0x12}, .lens = {2}, .rows = 1}, LIES};

static void delta_accepted(void) {
    const grundavok_counted_table table = {{.specs = {0x13}, .lens = {5}, .rows = 1}, .counts = {3}, .known = {1}};
    const int64_t new_values[1] = {81};
    int64_t values[4] = {OLD, OLD, OLD, OLD};
    uint8_t present[4] = {OLD, OLD, OLD, OLD}, out[9] = {OLD, OLD, OLD, OLD, OLD, OLD, OLD, OLD, OLD};
    SPLICED(grundavok_splice_delta(DEPTHS, depths, 0, 1, 2, ALL(new_values), SLICE(1), ALL(values), ALL(present), ALL(out)), 0, 0, 8, &table);
    LEFT(int64_t, values, 80, 81, 80, OLD);
    LEFT(uint8_t, present, 1, 1, 1, OLD);
    LEFT(uint8_t, out, 0x01, 0x13, 0x05, 0x7d, 0xd0, 0x00, 0x01, 0x7f, OLD); /* the edit of document 01 */
}

/* From a start on: the same as up to the list's length. */
static void delta_to_end(void) {
    const grundavok_counted_table table = {{.specs = {0x13}, .lens = {4}, .rows = 1}, .counts = {2}, .known = {1}};
    const int64_t new_values[1] = {81};
    int64_t values[3] = {OLD, OLD, OLD};
    uint8_t present[3] = {OLD, OLD, OLD}, out[7] = {OLD, OLD, OLD, OLD, OLD, OLD, OLD};
    SPLICED(grundavok_splice_delta_to_end(DEPTHS, depths, 0, 1, ALL(new_values), SLICE(1), ALL(values), ALL(present), ALL(out)), 0, 0, 7, &table);
    LEFT(int64_t, values, 80, 81, 0);
    LEFT(uint8_t, present, 1, 1, 0);
    LEFT(uint8_t, out, 0x01, 0x13, 0x04, 0x7e, 0xd0, 0x00, 0x01);
}

/* Refused with 7 or 10, the slots hold the new list; the output is as it was. */
static void delta_late(void) {
    const int64_t one[1] = {81}, wide[2] = {INT64_MAX, -2};
    int64_t values[4] = {OLD, OLD, OLD, OLD};
    uint8_t present[4] = {OLD, OLD, OLD, OLD}, out[7] = {OLD, OLD, OLD, OLD, OLD, OLD, OLD};
    SPLICED(grundavok_splice_delta(DEPTHS, depths, 0, 1, 2, ALL(one), SLICE(1), ALL(values), ALL(present), ALL(out)), 10, 0, 0, &depths);
    LEFT(int64_t, values, 80, 81, 80, OLD);
    SPLICED(grundavok_splice_delta(DEPTHS, depths, 0, 1, 2, ALL(wide), SLICE(1, 1), ALL(values), ALL(present), ALL(out)), 7, 2, 0, &depths);
    LEFT(int64_t, values, 80, INT64_MAX, -2, 80);
    LEFT(uint8_t, present, 1, 1, 1, 1);
    LEFT(uint8_t, out, OLD, OLD, OLD, OLD, OLD, OLD, OLD);
}

/* Any other refusal changes nothing. */
static void integer_refused(void) {
    const uint64_t new_values[2] = {1, 2};
    uint64_t values[2] = {OLD, OLD};
    uint8_t present[2] = {OLD, OLD}, out[3] = {OLD, OLD, OLD};
    SPLICED(grundavok_splice_integer(SLICE(0x41), two, 9, 1, 0, ALL(new_values), SLICE(1), ALL(values), ALL(present), ALL(out)), 11, 0, 0, &two);
    SPLICED(grundavok_splice_integer(TWO, two, 2, 1, 0, ALL(new_values), SLICE(1), ALL(values), ALL(present), ALL(out)), 16, 0, 0, &two);
    SPLICED(grundavok_splice_integer(TWO, two, 1, 1, 0, ALL(new_values), SLICE(1), ALL(values), ALL(present), ALL(out)), 17, 0, 0, &two);
    SPLICED(grundavok_splice_integer(TWO, two, 0, 1, 0, ALL(new_values), SLICE(1), ALL(values), ALL(present), ALL(out)), 18, 0, 0, &two);
    SPLICED(grundavok_splice_integer(TWO, two, 0, 3, 4, ALL(new_values), SLICE(1, 2), ALL(values), ALL(present), ALL(out)), 8, 1, 0, &two);
    SPLICED(grundavok_splice_integer(TWO, two, 0, 3, 4, ALL(new_values), SLICE(1, 1), ALL(values), ALL(present), ALL(out)), 18, 0, 0, &two);
    SPLICED(grundavok_splice_integer(TWO, two, 0, 2, 3, ALL(new_values), SLICE(1, 1), ALL(values), ALL(present), ALL(out)), 18, 0, 0, &two);
    SPLICED(grundavok_splice_integer(TWO, two, 0, 2, 2, ALL(new_values), SLICE(1, 1), ALL(values), ALL(present), ALL(out)), 9, 0, 0, &two);
    SPLICED(grundavok_splice_integer_to_end(TWO, two, 0, 3, ALL(new_values), SLICE(1, 1), ALL(values), ALL(present), ALL(out)), 18, 0, 0, &two);
    SPLICED(grundavok_splice_integer_to_end(TWO, two, 1, 0, ALL(new_values), SLICE(1, 1), ALL(values), ALL(present), ALL(out)), 17, 0, 0, &two);
    SPLICED(grundavok_splice_integer_to_end(CUT(0x7e, 0x05), cut, 0, 0, ALL(new_values), SLICE(1, 1), ALL(values), ALL(present), ALL(out)), 21, 2, 0, &cut);
    SPLICED(grundavok_splice_integer_to_end(CUT(0x7f, 0x85), cut, 0, 0, ALL(new_values), SLICE(1, 1), ALL(values), ALL(present), ALL(out)), 1, 1, 0, &cut);
    LEFT(uint64_t, values, OLD, OLD);
    LEFT(uint8_t, present, OLD, OLD);
    LEFT(uint8_t, out, OLD, OLD, OLD);
}

static void integer_accepted(void) {
    const grundavok_counted_table grown = {{.specs = {0x12, 0x13}, .starts = {0, 4}, .lens = {4, 2}, .rows = 2}, .counts = {2, 98}, .known = {1, 3}};
    const grundavok_counted_table emptied = {{.specs = {0x12, 0x13}, .lens = {0, 2}, .rows = 2}, .counts = {0, 98}, .known = {1, 3}};
    const uint64_t new_values[1] = {7};
    uint64_t values[3] = {OLD, OLD, OLD};
    uint8_t present[3] = {OLD, OLD, OLD}, out[12] = {OLD, OLD, OLD, OLD, OLD, OLD, OLD, OLD, OLD, OLD, OLD, OLD};
    SPLICED(grundavok_splice_integer(TWO, two, 0, 0, 1, ALL(new_values), SLICE(0), ALL(values), ALL(present), ALL(out)), 0, 0, 11, &grown);
    LEFT(uint64_t, values, 0, 5, OLD);
    LEFT(uint8_t, present, 0, 1, OLD);
    LEFT(uint8_t, out, 0x02, 0x12, 0x04, 0x13, 0x02, 0x00, 0x01, 0x7f, 0x05, 0x7f, 0x05, OLD);
    SPLICED(grundavok_splice_integer_to_end(TWO, two, 0, 0, new_values, 0, (const uint8_t[]){0}, 0, ALL(values), ALL(present), ALL(out)), 0, 0, 7, &emptied);
    LEFT(uint64_t, values, 0, 0, OLD);
    LEFT(uint8_t, present, 0, 0, OLD);
    LEFT(uint8_t, out, 0x02, 0x12, 0x00, 0x13, 0x02, 0x7f, 0x05, 0x7f, 0x05, 0x7f, 0x05, OLD);
}

static void booleans(void) {
    const grundavok_counted_table table = {{.specs = {0x14}, .lens = {1}, .rows = 1}, .counts = {3}, .known = {1}};
    const grundavok_counted_table one = {{.specs = {0x14}, .lens = {1}, .rows = 1}, .counts = {1}, .known = {1}};
    uint8_t values[4] = {OLD, OLD, OLD, OLD}, out[5] = {OLD, OLD, OLD, OLD, OLD};
    SPLICED(grundavok_splice_boolean(DEPTHS, depths, 0, 0, 1, SLICE(0), ALL(values), ALL(out)), 17, 0, 0, &depths);
    SPLICED(grundavok_splice_boolean(FLAGS, bits, 0, 0, 1, SLICE(0, 2), ALL(values), ALL(out)), 8, 1, 0, &bits);
    LEFT(uint8_t, values, OLD, OLD, OLD, OLD);
    SPLICED(grundavok_splice_boolean(FLAGS, bits, 0, 0, 1, SLICE(0), ALL(values), ALL(out)), 0, 0, 4, &table);
    LEFT(uint8_t, values, 0, 0, 0, OLD);
    LEFT(uint8_t, out, 0x01, 0x14, 0x01, 0x03, OLD);
    SPLICED(grundavok_splice_boolean(FLAGS, bits, 0, 0, 4, SLICE(0), ALL(values), ALL(out)), 18, 0, 0, &bits);
    SPLICED(grundavok_splice_boolean_to_end(FLAGS, bits, 0, 1, SLICE(0), ALL(values), ALL(out)), 10, 0, 0, &bits);
    LEFT(uint8_t, values, 1, 0, 0, OLD);
    SPLICED(grundavok_splice_boolean_to_end(FLAGS, bits, 0, 0, SLICE(0), ALL(values), ALL(out)), 0, 0, 4, &one);
    LEFT(uint8_t, values, 0, 0, 0, OLD);
    LEFT(uint8_t, out, 0x01, 0x14, 0x01, 0x01, OLD);
}

static void slots(void) {
    const uint64_t words[2] = {7, 8};
    const int64_t depths[1] = {-7};
    uint64_t u[4] = {1, 2, 3, OLD};
    COUNTED(grundavok_slots_splice_u64(ALL(u), 3, 2, 1, ALL(words)), 18, 0, 0);
    COUNTED(grundavok_slots_splice_u64(ALL(u), 3, 1, 1, ALL(words)), 9, 0, 0);
    LEFT(uint64_t, u, 1, 2, 3, OLD);
    COUNTED(grundavok_slots_splice_u64(ALL(u), 3, 1, 2, ALL(words)), 0, 0, 4);
    LEFT(uint64_t, u, 1, 7, 8, 3);
    int64_t i[4] = {-1, -2, -3, OLD};
    COUNTED(grundavok_slots_splice_i64(ALL(i), 3, 0, 4, ALL(depths)), 18, 0, 0);
    COUNTED(grundavok_slots_splice_i64(i, 2, 3, 0, 0, ALL(depths)), 9, 0, 0);
    LEFT(int64_t, i, -1, -2, -3, OLD);
    COUNTED(grundavok_slots_splice_i64(ALL(i), 3, 0, 3, ALL(depths)), 0, 0, 1);
    LEFT(int64_t, i, -7, 0, 0, OLD);
    uint8_t b[4] = {1, 0, 1, OLD};
    COUNTED(grundavok_slots_splice_u8(b, 2, 3, 0, 0, SLICE(1)), 9, 0, 0);
    COUNTED(grundavok_slots_splice_u8(ALL(b), 3, 2, 1, SLICE(1)), 18, 0, 0);
    COUNTED(grundavok_slots_splice_u8(ALL(b), 3, 1, 1, SLICE(1)), 0, 0, 4);
    LEFT(uint8_t, b, 1, 1, 0, 1);
}

void edits(void) {
    delta_accepted();
    delta_to_end();
    delta_late();
    integer_refused();
    integer_accepted();
    booleans();
    slots();
}
