/* What the boundary's structs answer of a record, and the table of calls. */
#include "record.h"

int memcmp(const void *a, const void *b, size_t size);

#ifdef SPOILT
#include "spoilt.h"
#endif

/* The inputs as the boundary takes them: a number, or a pointer and a length. */
#define N(i) number_at(i)
#define BYTES(i) (uint8_t *)held_at(i), length_at(i)
#define U64S(i) (uint64_t *)held_at(i), length_at(i)
#define I64S(i) (int64_t *)held_at(i), length_at(i)

/* An edit of the block 0, lent a table; from the input i on stand the position, the start and the end. */
#define EDIT(call, table, i, ...) \
    (is_word(i + 2) ? call##_to_end(BYTES(0), table, N(i), N(i + 1), __VA_ARGS__) \
                    : call(BYTES(0), table, N(i), N(i + 1), N(i + 2), __VA_ARGS__))

/* ---- Numbers and specifications ---- */

static void number_u64(grundavok_number_u64 r) {
    refused(r.number, r.place);
    number(r.value);
    number(r.next);
}

static void number_i64(grundavok_number_i64 r) {
    refused(r.number, r.place);
    number((uint64_t)r.value);
    number(r.next);
}

static void number_u32(grundavok_number_u32 r) {
    refused(r.number, r.place);
    number(r.value);
    number(r.next);
}

static void plain(uint64_t value) {
    refused(0, 0);
    number(value);
}

static void specification(grundavok_specification r) {
    refused(r.number, r.place);
    number(r.spec);
}

static void spec_parts_of(uint32_t spec) {
    refused(0, 0);
    number(grundavok_spec_id(spec));
    number(grundavok_spec_col_type(spec));
    number(grundavok_spec_deflate(spec));
    number(grundavok_spec_normalize(spec));
}

/* ---- Columns ---- */

static void counted(grundavok_counted r) {
    refused(r.number, r.place);
    number(r.count);
}

/* Every record of a count, and of a table, is one of a reason too: it has the same number and place, and there is none of what is accepted. */
static void agrees(grundavok_reason why, uint8_t refusal, size_t place) {
    if (why.number != 0 || why.fault != refusal || why.fault_place != place || (why.about != 0) != (refusal != 0)) amiss("its reason does not agree");
}

static void counted_why(uint8_t typ, grundavok_counted r) {
    counted(r);
    agrees(grundavok_column_reason(typ, BYTES(0)), r.number, r.place);
}

static void survey(grundavok_survey r) {
    refused(0, 0);
    number(r.readings);
    number(r.fault);
    number(r.place);
}

static void salvaged(grundavok_salvaged r) {
    refused(r.number, r.place);
    number(r.kept);
    number(r.written);
    number(r.fault);
    number(r.fault_place);
}

static void form(grundavok_form r) {
    refused(r.number, r.place);
    number(r.ours);
    number(r.differs);
}

static void entry(grundavok_entry r) {
    refused(r.number, r.place);
    number(r.kind);
    number(r.position);
    number((uint64_t)r.depth);
    number(r.next);
}

static void replayed(grundavok_replayed r) {
    refused(r.number, r.place);
    number(r.readings);
    number(r.written);
}

/* ---- UTF-8: asked of a column of one name, which is refused with 20 at the name's length or counted ---- */

static uint8_t is_name(const uint8_t *column, size_t len) {
    grundavok_counted r = grundavok_text_count(column, len);
    if (r.number == 0 ? r.count != 1 : r.number != 20 || r.place != 1) amiss("neither a name nor refused for its bytes");
    return r.number == 0;
}

/* A literal run of one name, and the name's bytes behind its length. */
static void utf8_ends(const uint8_t *name, size_t len) {
    uint8_t column[3 + 256] = {0x7f}, ends[256], is_whole;
    size_t begins = 1 + grundavok_write_u64(len, column + 1, 2).count;
    for (size_t i = 0; i < len; i++) column[begins + i] = name[i];
    is_whole = is_name(column, begins + len);
    begins = 1 + grundavok_write_u64(len + 1, column + 1, 2).count;
    for (size_t i = 0; i < len; i++) column[begins + i] = name[i];
    for (size_t i = 0; i < 256; i++) {
        column[begins + len] = (uint8_t)i;
        ends[i] = is_name(column, begins + len + 1);
    }
    plain(is_whole);
    flags(ends, 256);
}

/* ---- Walks: so many steps of a cursor, which is the lent state, and all that they give ---- */

struct step {
    uint8_t number, what;
    size_t place;
    uint64_t value;
};

static void rle_new(void) {
    *(grundavok_rle_cursor *)held_at(1) = grundavok_rle_cursor_new(BYTES(0));
}

static struct step rle_step(void) {
    grundavok_next_u64 r = grundavok_rle_next(BYTES(0), held_at(1));
    return (struct step){r.number, r.what, r.place, r.value};
}

static void delta_new(void) {
    *(grundavok_delta_cursor *)held_at(1) = grundavok_delta_cursor_new(BYTES(0));
}

static struct step delta_step(void) {
    grundavok_next_i64 r = grundavok_delta_next(BYTES(0), held_at(1));
    return (struct step){r.number, r.what, r.place, (uint64_t)r.value};
}

static void boolean_new(void) {
    *(grundavok_boolean_cursor *)held_at(1) = grundavok_boolean_cursor_new(BYTES(0));
}

static struct step boolean_step(void) {
    grundavok_next_u8 r = grundavok_boolean_next(BYTES(0), held_at(1));
    return (struct step){r.number, r.what, r.place, r.value};
}

static bool is_reading(struct step s) {
    return s.what == GRUNDAVOK_PRESENT || s.what == GRUNDAVOK_ABSENT;
}

/* A reading has neither number nor place; the end has nothing; a refusal has nothing but its number and place. */
static bool is_of_form(struct step s) {
    if (is_reading(s)) return s.number == 0 && s.place == 0;
    return s.value == 0 && (s.what == GRUNDAVOK_END ? s.number == 0 && s.place == 0 : s.what == 0 && s.number != 0);
}

/* Readings, and behind them an ending, so many times. A step that gives anything else behind an ending is in neither number. */
static void walk(void (*new)(void), struct step (*step)(void)) {
    static uint64_t values[MOST];
    static uint8_t present[MOST];
    struct step ending = {0};
    size_t count = 0;
    uint64_t times = 0;
    if (is_word(1)) new();
    for (uint64_t i = 0; i < N(2); i++) {
        struct step s = step();
        if (!is_of_form(s)) amiss("a step of no form");
        if (is_reading(s) && times == 0) {
            values[count] = s.value;
            present[count++] = s.what == GRUNDAVOK_PRESENT;
        } else if (!is_reading(s) && (times == 0 || (s.number == ending.number && s.place == ending.place))) {
            ending = s;
            times++;
        }
    }
    refused(ending.number, ending.place);
    number(count);
    numbers(values, count);
    flags(present, count);
    number(times);
}

/* ---- Tables, lookups and edits ---- */

/* The places of the rows, and all where one behind them is not 0, so that the list is another. */
static void places(const uint64_t *all, size_t rows) {
    size_t listed = rows;
    for (size_t i = rows; i < 64; i++)
        if (all[i] != 0) listed = 64;
    numbers(all, listed);
}

static void table(const grundavok_table *t) {
    uint64_t specs[64];
    size_t rows = t->rows;
    if (rows > 64) {
        amiss("more rows than places");
        rows = 64;
    }
    for (size_t i = 0; i < 64; i++) specs[i] = t->specs[i];
    places(specs, rows);
    places(t->starts, rows);
    places(t->lens, rows);
}

static bool is_zero(const void *from, size_t size) {
    for (size_t i = 0; i < size; i++)
        if (((const uint8_t *)from)[i] != 0) return false;
    return true;
}

/* Every record of a table is one of opening too, after which no count is known. */
static void opens_alike(const grundavok_opened *r) {
    grundavok_counted_opened o = grundavok_open_table(BYTES(0));
    bool is_same = o.number == r->number && o.place == r->place && o.start == r->start && memcmp(&o.table.table, &r->table, sizeof r->table) == 0;
    if (!is_same || !is_zero(o.table.counts, sizeof o.table.counts) || !is_zero(o.table.known, sizeof o.table.known)) amiss("it does not open alike");
}

static void opened_why(grundavok_opened r) {
    refused(r.number, r.place);
    number(r.start);
    table(&r.table);
    agrees(grundavok_table_reason(BYTES(0)), r.number, r.place);
    opens_alike(&r);
}

/* ---- Tables with counts ---- */

static grundavok_counted_table opened_table(void) {
    return grundavok_open_table(BYTES(0)).table;
}

/* The table of the input 1: its rows and, for each place, its specification, start, length, count, and whether that is known. */
static grundavok_counted_table lent_table(void) {
    grundavok_counted_table t = {0};
    const uint64_t *all = held_at(1);
    if (is_word(1)) return opened_table();
    t.table.rows = all[0];
    for (size_t i = 0; 1 + 5 * i < length_at(1); i++) {
        const uint64_t *place = all + 1 + 5 * i;
        t.table.specs[i] = (uint32_t)place[0];
        t.table.starts[i] = place[1];
        t.table.lens[i] = place[2];
        t.counts[i] = place[3];
        t.known[i] = (uint8_t)place[4];
    }
    return t;
}

/* The same numbers, up to the last place that is a row or is not 0. */
static void counted_table(const grundavok_counted_table *t) {
    uint64_t all[TABLE] = {t->table.rows};
    size_t places = t->table.rows < 64 ? t->table.rows : 64;
    for (size_t i = 0; i < 64; i++) {
        uint64_t *place = all + 1 + 5 * i;
        place[0] = t->table.specs[i];
        place[1] = t->table.starts[i];
        place[2] = t->table.lens[i];
        place[3] = t->counts[i];
        place[4] = t->known[i];
        if (!is_zero(place, 5 * sizeof *place) && places < i + 1) places = i + 1;
    }
    numbers(all, 1 + 5 * places);
}

static void counted_column(grundavok_counted_column r) {
    refused(r.number, r.place);
    number(r.count);
    counted_table(&r.table);
}

static void lent_spliced(grundavok_counted_spliced r) {
    refused(r.number, r.place);
    number(r.len);
    counted_table(&r.table);
}

/* A record of an edit without a table: it was lent the one that opening gives. A refusal gives that back, and the record has no rows; else nothing is known
 * but what the new column counts as. */
static void spliced(grundavok_counted_spliced r, const uint8_t *out, size_t out_len) {
    static const grundavok_table none;
    grundavok_counted_table wanted = opened_table();
    if (r.number == 0) {
        size_t len = r.len < out_len ? r.len : out_len;
        wanted = grundavok_count(out, len, grundavok_open_table(out, len).table, N(1)).table;
    }
    if (memcmp(&r.table, &wanted, sizeof wanted) != 0) amiss("the table after it is another");
    refused(r.number, r.place);
    number(r.len);
    table(r.number == 0 ? &r.table.table : &none);
}

/* Where a part lies in a block, and its bytes. */
static void lies(const uint8_t *block, size_t block_len, size_t start, size_t len) {
    bool is_in = start <= block_len && len <= block_len - start;
    number(start);
    number(len);
    if (!is_in) amiss("a part outside its block");
    bytes(is_in ? block + start : block, is_in ? len : 0);
}

static void part(grundavok_part r) {
    refused(r.number, r.place);
    lies(BYTES(0), r.start, r.len);
}

static void layered(grundavok_layered r) {
    refused(r.number, r.place);
    number(r.block);
    if (r.block == 1) lies(BYTES(0), r.start, r.len);
    else if (r.block == 2) lies(BYTES(1), r.start, r.len);
    else lies(held_at(0), 0, r.start, r.len);
}

static void frame(grundavok_frame r) {
    refused(r.number, r.place);
    number(r.at);
    number(r.len);
}

/* ---- Reasons: what one speaks of, and its facts, each a number that says which, and then its numbers ---- */

static void about(const grundavok_reason *r) {
    const uint64_t all[6] = {r->about, r->which, r->begins, r->sign, r->count, r->index};
    static const size_t sizes[4] = {0, 1, 2, 6};
    size_t size = r->about < 4 ? sizes[r->about] : 6;
    for (size_t i = size; i < 6; i++)
        if (all[i] != 0) amiss("a number that does not apply");
    numbers(all, size);
}

static void facts(const grundavok_reason *r) {
    bool is_sum = r->facts == GRUNDAVOK_SUM;
    const uint64_t all[4] = {r->facts, is_sum ? (uint64_t)r->sum : r->first, is_sum ? (uint64_t)r->delta : r->second, r->third};
    static const size_t sizes[9] = {0, 2, 3, 3, 3, 2, 3, 2, 4};
    size_t size = r->facts < 9 ? sizes[r->facts] : 4;
    for (size_t i = size; i < 4; i++)
        if (all[i] != 0) amiss("a number that does not apply");
    if (is_sum ? r->first != 0 || r->second != 0 : r->sum != 0 || r->delta != 0) amiss("a number that does not apply");
    numbers(all, size);
}

static void reason(grundavok_reason r) {
    refused(r.number, r.place);
    number(r.fault);
    number(r.fault_place);
    about(&r);
    facts(&r);
}

/* ---- The table ---- */

#define CALL(name, most_bytes, most_numbers, inputs, ...) \
    static void make_##name(void) { __VA_ARGS__; }
#include "calls.def"
#undef CALL

#define CALL(name, most_bytes, most_numbers, inputs, ...) {#name, most_bytes, most_numbers, inputs, make_##name},
const struct call calls[] = {
#include "calls.def"
};
const size_t calls_len = sizeof calls / sizeof calls[0];
