#include "compare.h"

/* An Integer column of 5, 5, a DeltaInteger column of 5, a Boolean one of true, false, false and a String one of "a"; a Value column of no bytes; an Integer
 * column that is cut. */
#define FOUR SLICE(0x04, 0x12, 0x02, 0x13, 0x02, 0x14, 0x03, 0x15, 0x03, 0x02, 0x05, 0x7f, 0x05, 0x00, 0x01, 0x02, 0x7f, 0x01, 0x61)
#define VALUE SLICE(0x01, 0x17, 0x00)
#define CUT SLICE(0x01, 0x12, 0x02, 0x7e, 0x05)
#define FAULTY SLICE(0x41)
#define EMPTY SLICE(0x01, 0x12, 0x00)

#define FOUR_ROWS {.specs = {0x12, 0x13, 0x14, 0x15}, .starts = {0, 2, 4, 7}, .lens = {2, 2, 3, 3}, .rows = 4}
#define VALUE_ROW {.specs = {0x17}, .rows = 1}
#define CUT_ROW {.specs = {0x12}, .lens = {2}, .rows = 1}
#define EMPTY_ROW {.specs = {0x12}, .rows = 1}

static const grundavok_counted_table none;

static void opening(void) {
    const grundavok_counted_table four = {FOUR_ROWS, .counts = {0}};
    COUNTED_OPENED(grundavok_open_table(FOUR), 0, 0, 9, &four);
    COUNTED_OPENED(grundavok_open_table(FAULTY), 11, 0, 0, &none);
    COUNTED_OPENED(grundavok_open_table(SLICE(0x01, 0x80)), 1, 1, 0, &none);
}

/* Each column is counted once; what is stored is then answered, and the others stay as they are. */
static void counting(void) {
    const grundavok_counted_table one = {FOUR_ROWS, .counts = {0, 1}, .known = {0, 1}};
    const grundavok_counted_table all = {FOUR_ROWS, .counts = {2, 1, 3, 1}, .known = {1, 1, 1, 1}};
    grundavok_counted_table table = grundavok_open_table(FOUR).table;
    COUNTED_COLUMN(grundavok_count(FOUR, table, 1), 0, 0, 1, &one);
    table = grundavok_count(FOUR, one, 0).table;
    table = grundavok_count(FOUR, table, 2).table;
    COUNTED_COLUMN(grundavok_count(FOUR, table, 3), 0, 0, 1, &all);
    COUNTED_COLUMN(grundavok_count(FOUR, all, 2), 0, 0, 3, &all);
}

/* A lent count is answered as it stands, of a column that is broken too. Behind the rows nothing is looked at, and nothing stays there. */
static void lies(void) {
    const grundavok_counted_table lent = {EMPTY_ROW, .counts = {1}, .known = {1}};
    const grundavok_counted_table marked = {EMPTY_ROW, .counts = {1}, .known = {255}};
    const grundavok_counted_table cut = {CUT_ROW, .counts = {9}, .known = {1}};
    const grundavok_counted_table unknown = {CUT_ROW, .counts = {9}, .known = {0}};
    grundavok_counted_table behind = {EMPTY_ROW, .counts = {1, 2}, .known = {1, 1}};
    behind.table.specs[1] = behind.table.lens[63] = behind.table.starts[1] = 7;
    COUNTED_COLUMN(grundavok_count(EMPTY, lent, 0), 0, 0, 1, &lent);
    COUNTED_COLUMN(grundavok_count(EMPTY, marked, 0), 0, 0, 1, &lent);
    COUNTED_COLUMN(grundavok_count(EMPTY, behind, 0), 0, 0, 1, &lent);
    COUNTED_COLUMN(grundavok_count(CUT, cut, 0), 0, 0, 9, &cut);
    COUNTED_COLUMN(grundavok_count(CUT, unknown, 0), 21, 2, 0, &unknown);
}

/* Table faults, 25, 16, 17: each with all that come later wrong too. Each gives the table back as lent. */
static void refused_counts(void) {
    const grundavok_counted_table other = {VALUE_ROW, .counts = {9, 8}, .known = {0, 7}};
    const grundavok_counted_table cut = {CUT_ROW, .counts = {9, 8}, .known = {0, 7}};
    COUNTED_COLUMN(grundavok_count(FAULTY, other, 9), 11, 0, 0, &other);
    COUNTED_COLUMN(grundavok_count(CUT, other, 9), 25, 0, 0, &other);
    COUNTED_COLUMN(grundavok_count(VALUE, cut, 0), 25, 0, 0, &cut);
    COUNTED_COLUMN(grundavok_count(CUT, cut, 1), 16, 0, 0, &cut);
    COUNTED_COLUMN(grundavok_count(VALUE, other, 0), 17, 0, 0, &other);
}

/* One number of a row that is another, a row more, a row fewer, and rows beyond all places. */
static void other_tables(void) {
    const grundavok_counted_table four = {FOUR_ROWS, .counts = {2, 1, 3, 1}, .known = {1, 1, 1, 1}};
    grundavok_counted_table t = four;
    t.table.specs[3] = 0x25;
    COUNTED_COLUMN(grundavok_count(FOUR, t, 0), 25, 0, 0, &t);
    t = four, t.table.starts[0] = 1;
    COUNTED_COLUMN(grundavok_count(FOUR, t, 0), 25, 0, 0, &t);
    t = four, t.table.lens[3]++;
    COUNTED_COLUMN(grundavok_count(FOUR, t, 0), 25, 0, 0, &t);
    t = four, t.table.rows = 5;
    COUNTED_COLUMN(grundavok_count(FOUR, t, 0), 25, 0, 0, &t);
    t = four, t.table.rows = 3;
    COUNTED_COLUMN(grundavok_count(FOUR, t, 0), 25, 0, 0, &t);
    t = four, t.table.rows = UINT64_MAX;
    COUNTED_COLUMN(grundavok_count(FOUR, t, 0), 25, 0, 0, &t);
}

/* Every edit asks for 25 directly after table faults and directly before 16, and changes nothing. */
static void refused_edits(void) {
    const grundavok_counted_table t = {CUT_ROW, .counts = {9, 8}, .known = {0, 7}};
    const uint64_t new[1] = {0};
    uint64_t u[1] = {OLD}, l[1] = {OLD};
    int64_t d[1] = {OLD};
    uint8_t b[1] = {OLD}, p[1] = {OLD}, out[1] = {OLD};
    SPLICED(grundavok_splice_integer(FAULTY, t, 9, 1, 0, ALL(new), SLICE(2), ALL(u), ALL(p), ALL(out)), 11, 0, 0, &t);
    SPLICED(grundavok_splice_integer(FOUR, t, 9, 1, 0, ALL(new), SLICE(2), ALL(u), ALL(p), ALL(out)), 25, 0, 0, &t);
    SPLICED(grundavok_splice_integer_to_end(FAULTY, t, 9, 1, ALL(new), SLICE(2), ALL(u), ALL(p), ALL(out)), 11, 0, 0, &t);
    SPLICED(grundavok_splice_integer_to_end(FOUR, t, 9, 1, ALL(new), SLICE(2), ALL(u), ALL(p), ALL(out)), 25, 0, 0, &t);
    SPLICED(grundavok_splice_delta(FAULTY, t, 9, 1, 0, (const int64_t[]){5}, 1, SLICE(2), ALL(d), ALL(p), ALL(out)), 11, 0, 0, &t);
    SPLICED(grundavok_splice_delta(FOUR, t, 9, 1, 0, (const int64_t[]){5}, 1, SLICE(2), ALL(d), ALL(p), ALL(out)), 25, 0, 0, &t);
    SPLICED(grundavok_splice_delta_to_end(FAULTY, t, 9, 1, (const int64_t[]){5}, 1, SLICE(2), ALL(d), ALL(p), ALL(out)), 11, 0, 0, &t);
    SPLICED(grundavok_splice_delta_to_end(FOUR, t, 9, 1, (const int64_t[]){5}, 1, SLICE(2), ALL(d), ALL(p), ALL(out)), 25, 0, 0, &t);
    SPLICED(grundavok_splice_boolean(FAULTY, t, 9, 1, 0, SLICE(2), ALL(b), ALL(out)), 11, 0, 0, &t);
    SPLICED(grundavok_splice_boolean(FOUR, t, 9, 1, 0, SLICE(2), ALL(b), ALL(out)), 25, 0, 0, &t);
    SPLICED(grundavok_splice_boolean_to_end(FAULTY, t, 9, 1, SLICE(2), ALL(b), ALL(out)), 11, 0, 0, &t);
    SPLICED(grundavok_splice_boolean_to_end(FOUR, t, 9, 1, SLICE(2), ALL(b), ALL(out)), 25, 0, 0, &t);
    SPLICED(grundavok_splice_text(FAULTY, t, 9, 1, 0, SLICE(0x61), ALL(new), ALL(new), SLICE(2), ALL(u), ALL(l), ALL(p), ALL(out)), 11, 0, 0, &t);
    SPLICED(grundavok_splice_text(FOUR, t, 9, 1, 0, SLICE(0x61), ALL(new), ALL(new), SLICE(2), ALL(u), ALL(l), ALL(p), ALL(out)), 25, 0, 0, &t);
    SPLICED(grundavok_splice_text_to_end(FAULTY, t, 9, 1, SLICE(0x61), ALL(new), ALL(new), SLICE(2), ALL(u), ALL(l), ALL(p), ALL(out)), 11, 0, 0, &t);
    SPLICED(grundavok_splice_text_to_end(FOUR, t, 9, 1, SLICE(0x61), ALL(new), ALL(new), SLICE(2), ALL(u), ALL(l), ALL(p), ALL(out)), 25, 0, 0, &t);
    LEFT(uint64_t, u, OLD);
    LEFT(uint64_t, l, OLD);
    LEFT(int64_t, d, OLD);
    LEFT(uint8_t, b, OLD);
    LEFT(uint8_t, p, OLD);
    LEFT(uint8_t, out, OLD);
}

/* Where the table fits, what came after 25 comes, 16 and 17 first, and an edit reads its column whatever its row carries. */
static void lent_edits(void) {
    const grundavok_counted_table four = {FOUR_ROWS, .counts = {9, 8, 7, 6}, .known = {1, 1, 1, 0}};
    const grundavok_counted_table lent = {EMPTY_ROW, .counts = {1}, .known = {1}};
    const uint64_t new[1] = {0};
    uint64_t u[1] = {OLD};
    uint8_t p[1] = {OLD}, out[1] = {OLD};
    SPLICED(grundavok_splice_integer(FOUR, four, 4, 1, 0, ALL(new), SLICE(2), ALL(u), ALL(p), ALL(out)), 16, 0, 0, &four);
    SPLICED(grundavok_splice_boolean(FOUR, four, 0, 1, 0, SLICE(2), ALL(p), ALL(out)), 17, 0, 0, &four);
    SPLICED(grundavok_splice_integer_to_end(EMPTY, lent, 0, 1, new, 0, (const uint8_t[]){0}, 0, ALL(u), ALL(p), ALL(out)), 18, 0, 0, &lent);
    LEFT(uint64_t, u, OLD);
    LEFT(uint8_t, p, OLD);
    LEFT(uint8_t, out, OLD);
}

/* A sequence of calls, each lent the table that the one before gave: an edit stores what its new column reads as, 0 of absent readings alone. */
static void kept(void) {
    const grundavok_counted_table grown = {{.specs = {0x12, 0x14}, .starts = {0, 4}, .lens = {4, 3}, .rows = 2}, .counts = {3, 3}, .known = {1, 1}};
    const grundavok_counted_table emptied = {{.specs = {0x12, 0x14}, .lens = {0, 3}, .rows = 2}, .counts = {0, 3}, .known = {1, 1}};
    const uint64_t new_values[1] = {7};
    uint64_t values[3];
    uint8_t present[3], first[12], second[8];
    grundavok_counted_table table = grundavok_open_table(SLICE(0x02, 0x12, 0x02, 0x14, 0x03, 0x02, 0x05, 0x00, 0x01, 0x02)).table;
    table = grundavok_count(SLICE(0x02, 0x12, 0x02, 0x14, 0x03, 0x02, 0x05, 0x00, 0x01, 0x02), table, 1).table;
    SPLICED(grundavok_splice_integer_to_end(SLICE(0x02, 0x12, 0x02, 0x14, 0x03, 0x02, 0x05, 0x00, 0x01, 0x02), table, 0, 2, ALL(new_values), SLICE(1),
                                            ALL(values), ALL(present), ALL(first)),
            0, 0, 12, &grown);
    SPLICED(grundavok_splice_integer(ALL(first), grown, 0, 0, 3, ALL(new_values), SLICE(0), ALL(values), ALL(present), ALL(second)), 0, 0, 8, &emptied);
    COUNTED_COLUMN(grundavok_count(ALL(second), emptied, 0), 0, 0, 0, &emptied);
}

void counted_tables(void) {
    opening();
    counting();
    lies();
    refused_counts();
    other_tables();
    refused_edits();
    lent_edits();
    kept();
}
