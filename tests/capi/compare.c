#include "compare.h"

int printf(const char *format, ...);
int memcmp(const void *a, const void *b, size_t size);

int calls, differences;

static void told(int line, const char *call, bool same) {
    if (!same) {
        differences++;
        printf("line %d: not as wanted: %s\n", line, call);
    }
}

void left_is(int line, const char *what, const void *is, const void *wanted, size_t size) {
    told(line, what, memcmp(is, wanted, size) == 0);
}

void number_is(int line, const char *call, uint64_t is, uint64_t wanted) {
    calls++;
    told(line, call, is == wanted);
}

void u64_is(int line, const char *call, grundavok_number_u64 r, uint8_t number, size_t place, uint64_t value, size_t next) {
    calls++;
    told(line, call, r.number == number && r.place == place && r.value == value && r.next == next);
}

void i64_is(int line, const char *call, grundavok_number_i64 r, uint8_t number, size_t place, int64_t value, size_t next) {
    calls++;
    told(line, call, r.number == number && r.place == place && r.value == value && r.next == next);
}

void u32_is(int line, const char *call, grundavok_number_u32 r, uint8_t number, size_t place, uint32_t value, size_t next) {
    calls++;
    told(line, call, r.number == number && r.place == place && r.value == value && r.next == next);
}

void next_u64_is(int line, const char *call, grundavok_next_u64 r, uint8_t number, size_t place, uint8_t what, uint64_t value) {
    calls++;
    told(line, call, r.number == number && r.place == place && r.what == what && r.value == value);
}

void next_i64_is(int line, const char *call, grundavok_next_i64 r, uint8_t number, size_t place, uint8_t what, int64_t value) {
    calls++;
    told(line, call, r.number == number && r.place == place && r.what == what && r.value == value);
}

void next_u8_is(int line, const char *call, grundavok_next_u8 r, uint8_t number, size_t place, uint8_t what, uint8_t value) {
    calls++;
    told(line, call, r.number == number && r.place == place && r.what == what && r.value == value);
}

void piece_u64_is(int line, const char *call, grundavok_piece_u64 r, uint8_t number, size_t place, uint8_t what, uint64_t value, uint64_t times) {
    calls++;
    told(line, call, r.number == number && r.place == place && r.what == what && r.value == value && r.times == times);
}

void piece_i64_is(int line, const char *call, grundavok_piece_i64 r, uint8_t number, size_t place, uint8_t what, int64_t value, int64_t difference,
                  uint64_t times) {
    calls++;
    told(line, call, r.number == number && r.place == place && r.what == what);
    told(line, call, r.value == value && r.difference == difference && r.times == times);
}

void piece_u8_is(int line, const char *call, grundavok_piece_u8 r, uint8_t number, size_t place, uint8_t what, uint8_t value, uint64_t times) {
    calls++;
    told(line, call, r.number == number && r.place == place && r.what == what && r.value == value && r.times == times);
}

/* All numbers of a cursor. */
void rle_cursor_is(int line, const char *what, grundavok_rle_cursor a, grundavok_rle_cursor b) {
    told(line, what, a.len == b.len && a.at == b.at && a.had == b.had && a.left == b.left);
    told(line, what, a.sort == b.sort && a.value == b.value && a.place == b.place);
}

void delta_cursor_is(int line, const char *what, grundavok_delta_cursor a, grundavok_delta_cursor b) {
    told(line, what, a.len == b.len && a.at == b.at && a.had == b.had && a.left == b.left);
    told(line, what, a.sort == b.sort && a.difference == b.difference && a.place == b.place && a.sum == b.sum);
}

void boolean_cursor_is(int line, const char *what, grundavok_boolean_cursor a, grundavok_boolean_cursor b) {
    told(line, what, a.len == b.len && a.at == b.at && a.had == b.had && a.left == b.left && a.flag == b.flag);
}

void counted_is(int line, const char *call, grundavok_counted r, uint8_t number, size_t place, uint64_t count) {
    calls++;
    told(line, call, r.number == number && r.place == place && r.count == count);
}

void survey_is(int line, const char *call, grundavok_survey r, uint8_t fault, size_t place, uint64_t readings) {
    calls++;
    told(line, call, r.fault == fault && r.place == place && r.readings == readings);
}

void salvaged_is(int line, const char *call, grundavok_salvaged r, uint8_t number, size_t place, uint8_t fault, size_t fault_place, uint64_t kept,
                 size_t written) {
    calls++;
    told(line, call, r.number == number && r.place == place && r.fault == fault && r.fault_place == fault_place);
    told(line, call, r.kept == kept && r.written == written);
}

void entry_is(int line, const char *call, grundavok_entry r, uint8_t number, size_t place, uint8_t kind, uint32_t position, int64_t depth, size_t next) {
    calls++;
    told(line, call, r.number == number && r.place == place && r.kind == kind && r.position == position && r.depth == depth && r.next == next);
}

void replayed_is(int line, const char *call, grundavok_replayed r, uint8_t number, size_t place, uint64_t readings, size_t written) {
    calls++;
    told(line, call, r.number == number && r.place == place && r.readings == readings && r.written == written);
}

void form_is(int line, const char *call, grundavok_form r, uint8_t number, size_t place, uint8_t ours, size_t differs) {
    calls++;
    told(line, call, r.number == number && r.place == place && r.ours == ours && r.differs == differs);
}

void reason_is(int line, const char *call, grundavok_reason a, grundavok_reason b) {
    calls++;
    told(line, call, a.number == b.number && a.place == b.place && a.fault == b.fault && a.fault_place == b.fault_place);
    told(line, call, a.about == b.about && a.which == b.which && a.begins == b.begins && a.index == b.index);
    told(line, call, a.sign == b.sign && a.count == b.count && a.facts == b.facts);
    told(line, call, a.first == b.first && a.second == b.second && a.third == b.third && a.sum == b.sum && a.delta == b.delta);
}

void spec_is(int line, const char *call, grundavok_specification r, uint8_t number, size_t place, uint32_t spec) {
    calls++;
    told(line, call, r.number == number && r.place == place && r.spec == spec);
}

void part_is(int line, const char *call, grundavok_part r, uint8_t number, size_t place, size_t start, size_t len) {
    calls++;
    told(line, call, r.number == number && r.place == place && r.start == start && r.len == len);
}

void layered_is(int line, const char *call, grundavok_layered r, uint8_t number, uint8_t block, size_t place, size_t start, size_t len) {
    calls++;
    told(line, call, r.number == number && r.block == block && r.place == place && r.start == start && r.len == len);
}

void frame_is(int line, const char *call, grundavok_frame r, uint8_t number, size_t place, size_t at, size_t len) {
    calls++;
    told(line, call, r.number == number && r.place == place && r.at == at && r.len == len);
}

/* A table, with counts or without, has no padding, so its bytes decide. */
void opened_is(int line, const char *call, grundavok_opened r, uint8_t number, size_t place, size_t start, const grundavok_table *table) {
    calls++;
    told(line, call, r.number == number && r.place == place && r.start == start && memcmp(&r.table, table, sizeof r.table) == 0);
}

void counted_opened_is(int line, const char *call, grundavok_counted_opened r, uint8_t number, size_t place, size_t start,
                       const grundavok_counted_table *table) {
    calls++;
    told(line, call, r.number == number && r.place == place && r.start == start && memcmp(&r.table, table, sizeof r.table) == 0);
}

void counted_column_is(int line, const char *call, grundavok_counted_column r, uint8_t number, size_t place, uint64_t count,
                       const grundavok_counted_table *table) {
    calls++;
    told(line, call, r.number == number && r.place == place && r.count == count && memcmp(&r.table, table, sizeof r.table) == 0);
}

void spliced_is(int line, const char *call, grundavok_counted_spliced r, uint8_t number, size_t place, size_t len, const grundavok_counted_table *table) {
    calls++;
    told(line, call, r.number == number && r.place == place && r.len == len && memcmp(&r.table, table, sizeof r.table) == 0);
}

/* The layouts that the header states. */
_Static_assert(sizeof(grundavok_number_u64) == 32 && offsetof(grundavok_number_u64, next) == 24, "number_u64");
_Static_assert(sizeof(grundavok_number_i64) == 32 && offsetof(grundavok_number_i64, next) == 24, "number_i64");
_Static_assert(sizeof(grundavok_number_u32) == 32 && offsetof(grundavok_number_u32, next) == 24, "number_u32");
_Static_assert(sizeof(grundavok_next_u64) == 24 && offsetof(grundavok_next_u64, value) == 16, "next_u64");
_Static_assert(sizeof(grundavok_next_i64) == 24 && offsetof(grundavok_next_i64, value) == 16, "next_i64");
_Static_assert(sizeof(grundavok_next_u8) == 24 && offsetof(grundavok_next_u8, value) == 16, "next_u8");
_Static_assert(sizeof(grundavok_rle_cursor) == 56 && offsetof(grundavok_rle_cursor, place) == 48, "rle_cursor");
_Static_assert(sizeof(grundavok_delta_cursor) == 64 && offsetof(grundavok_delta_cursor, sum) == 56, "delta_cursor");
_Static_assert(sizeof(grundavok_boolean_cursor) == 40 && offsetof(grundavok_boolean_cursor, flag) == 32, "boolean_cursor");
_Static_assert(sizeof(grundavok_counted) == 24 && offsetof(grundavok_counted, count) == 16, "counted");
_Static_assert(sizeof(grundavok_survey) == 24 && offsetof(grundavok_survey, readings) == 16, "survey");
_Static_assert(sizeof(grundavok_salvaged) == 40 && offsetof(grundavok_salvaged, written) == 32, "salvaged");
_Static_assert(sizeof(grundavok_entry) == 32 && offsetof(grundavok_entry, position) == 4 && offsetof(grundavok_entry, next) == 24, "entry");
_Static_assert(sizeof(grundavok_replayed) == 32 && offsetof(grundavok_replayed, written) == 24, "replayed");
_Static_assert(sizeof(grundavok_form) == 24 && offsetof(grundavok_form, differs) == 16, "form");
_Static_assert(sizeof(grundavok_specification) == 24 && offsetof(grundavok_specification, spec) == 16, "specification");
_Static_assert(sizeof(grundavok_table) == 1288 && offsetof(grundavok_table, rows) == 1280, "table");
_Static_assert(sizeof(grundavok_opened) == 1312 && offsetof(grundavok_opened, table) == 24, "opened");
_Static_assert(sizeof(grundavok_part) == 32 && offsetof(grundavok_part, len) == 24, "part");
_Static_assert(sizeof(grundavok_frame) == 32 && offsetof(grundavok_frame, len) == 24, "frame");
_Static_assert(sizeof(grundavok_counted_table) == 1864 && offsetof(grundavok_counted_table, counts) == 1288, "counted_table");
_Static_assert(offsetof(grundavok_counted_table, known) == 1800, "counted_table");
_Static_assert(sizeof(grundavok_counted_opened) == 1888 && offsetof(grundavok_counted_opened, table) == 24, "counted_opened");
_Static_assert(sizeof(grundavok_counted_column) == 1888 && offsetof(grundavok_counted_column, table) == 24, "counted_column");
_Static_assert(sizeof(grundavok_counted_spliced) == 1888 && offsetof(grundavok_counted_spliced, table) == 24, "counted_spliced");

int main(void) {
    numbers();
    specifications();
    columns();
    cursors();
    pieces();
    texts();
    salvages();
    logs();
    forms();
    reasons();
    tables();
    counted_tables();
    edits();
    printf("capi: %d calls compared, %d differences\n", calls, differences);
    return differences != 0;
}
