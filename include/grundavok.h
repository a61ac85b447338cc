/* The column encodings of Automerge documents, proved: numbers, specifications, columns, salvage, replay, forms, tables, stored counts,
 * reasons and edits.
 *
 * Link libcapi.a, which `rt lib` in crates/capi writes (x86-64 Linux). The functions call nothing but memcpy and memset, allocate nothing,
 * keep nothing and share nothing: any two may run at once on different buffers.
 *
 * SLICES are a pointer and a length, in elements and not in bytes. The caller sees to it, for no function can test it, that
 *  - a pointer is not null, not even with length 0 (any address will do there), and is aligned for its element;
 *  - the elements are readable and hold values, those behind a pointer without `const` writable too;
 *  - what is lent without `const` overlaps no other slice of the same call, and nobody else touches it until the call is over.
 * A cursor's pointer is one to a single struct, under the same rules; its numbers may be any. A table is lent by value, and its numbers may be any.
 * Nothing is kept: when a call returns, every buffer is the caller's alone again.
 *
 * ANSWERS are structs by value. `number` is 0 where the call was accepted, and else the refusal's; `place` is the refusal's place and
 * 0 where there is none; every other number of a refusal is 0, but for a table that was lent, which comes back as it was. Any bytes, lists,
 * ranges and tables may go to any function. A `fault` is the column's and no refusal: the same numbers, told beside what survives of it
 * (see "Salvage").
 *
 *   1  the bytes end within a number, after one with bit 7 set,     its first byte;
 *      or fewer are there than a name has                           of a name its length number's
 *   2  number too large for its type                                its first byte
 *   3  overlong number                                              its first byte
 *   4  zero where nonzero was asked                                 its first byte
 *   5  a list passes 4,294,967,295 values                           the count that does it; 0 for a lent or resulting list
 *   6  a delta sum leaves int64_t                                   the delta
 *   7  a difference to be written leaves int64_t                    index in the list
 *   8  slices of one list of unequal length, or in a given list a   0 for lengths, judged first,
 *      presence or boolean byte above 1, or a name that reaches     else the first bad index
 *      outside the bytes that are lent for it
 *   9  too few slots                                                0
 *  10  output too short; names that take more than 2^64 - 1 bytes   0
 *  11  more than 64 columns                                         0
 *  12  table not in normal order                                    0
 *  13  a specification has bit 3 set                                0
 *  14  column lengths add up to more than the data                  0
 *  15  they add up to less                                          0
 *  16  column position not in the table                             0
 *  17  column type not served by the call                           0
 *  18  range end below its start, or start or end beyond the list   0
 *  19  column id of 2^28 or more                                    0
 *  20  a name that is not UTF-8 (RFC 3629)                          its length number; of a given list the index
 *  21  no byte where a number is due                                the length, where its first byte would be
 *  23  an entry of a log: unknown kind, cut, or bad position        the entry's first byte
 *  24  a cursor for a column of another length, or beyond its end   0
 *  25  a lent table whose rows are not those of the block           0
 *
 * Places inside a column count from the column's first byte. A copy that ends between two numbers gets 21, one that ends within a number, or
 * with too few bytes of a name, 1; but a column whose bytes end where a run would begin is whole.
 *
 * WHAT IS LEFT BEHIND: on success an output holds the result at its front and is otherwise unchanged; decoded readings fill the first
 * slots, the rest unchanged. A refusal changes neither, but for an edit or a replay that is refused with 7 or 10 (see there; not
 * of names).
 *
 * A COLUMN CAN ANNOUNCE MORE THAN YOU WILL HOLD: the six bytes ff ff ff ff 0f 05 are a sound column of 4,294,967,295 readings. Before you
 * make slots for a column whose bytes you do not trust, ask its count, which costs what its bytes cost, and compare it with the most
 * readings that you will hold; or lend as many slots as you will hold, and take 9 for an answer; or read it by a cursor, which needs no slots
 * (names have none). The same is true of an edit: its slots hold the longer of old and new list.
 *
 * LISTS: an optional list is a slice of values and an equally long slice of presence bytes, 1 or 0. The value of an absent reading is
 * not looked at in a given list, and is 0 in filled slots. A boolean list is one slice of bytes, 1 or 0.
 *
 * NAMES: a list of names is three equally long slices, starts, lengths and presence bytes, 1 or 0; no name is copied into it. The pairs of
 * a decoded list count in the column, so that a name is lens[i] bytes from s + starts[i] on, with no 0 behind them:
 *
 *     for (size_t i = 0; i < r.count; i++)
 *         if (present[i]) show(s + starts[i], lens[i]); else show_absent();
 *
 * The readings of a repeated run have one start. An empty name's start is the byte behind its length number, possibly the column's length.
 * The pairs of a given list count in the bytes that are lent beside it, and may overlap; the pair of an absent name is not looked at.
 */
#ifndef GRUNDAVOK_H
#define GRUNDAVOK_H

#include <stdbool.h>
#include <stddef.h>
#include <stdint.h>

#ifdef __cplusplus
extern "C" {
#endif

/* ---- Answers. Beside each field: where it lies, in bytes; size_t has 8. ---- */

/* A number that was read, and the position behind it. 32 bytes each. */
typedef struct {
    uint8_t number; /* 0 */
    size_t place;   /* 8 */
    uint64_t value; /* 16 */
    size_t next;    /* 24 */
} grundavok_number_u64;

typedef struct {
    uint8_t number; /* 0 */
    size_t place;   /* 8 */
    int64_t value;  /* 16 */
    size_t next;    /* 24 */
} grundavok_number_i64;

typedef struct {
    uint8_t number; /* 0 */
    size_t place;   /* 8 */
    uint32_t value; /* 16 */
    size_t next;    /* 24 */
} grundavok_number_u32;

/* How many, as each function says. 24 bytes. */
typedef struct {
    uint8_t number; /* 0 */
    size_t place;   /* 8 */
    uint64_t count; /* 16 */
} grundavok_counted;

/* What survives of a column: how many readings, and its first fault, number and place; 0 and 0 of a sound column. 24 bytes. */
typedef struct {
    uint8_t fault;     /* 0 */
    size_t place;      /* 8 */
    uint64_t readings; /* 16 */
} grundavok_survey;

/* A salvage: the call's own refusal (number, place) and, apart from it, the column's first fault (fault, fault_place), 0 and 0 of a sound
 * column; how many readings were kept, and how many bytes were written. 40 bytes. */
typedef struct {
    uint8_t number;     /* 0 */
    uint8_t fault;      /* 1 */
    size_t place;       /* 8 */
    size_t fault_place; /* 16 */
    uint64_t kept;      /* 24 */
    size_t written;     /* 32 */
} grundavok_salvaged;

/* An entry of the pen's log: kind is 1, 2, 3 or 4, position its place in the list, depth that of kinds 1 and 4 and else 0, next the position of the log behind
 * it. 32 bytes. */
typedef struct {
    uint8_t number;    /* 0 */
    uint8_t kind;      /* 1 */
    uint32_t position; /* 4 */
    size_t place;      /* 8 */
    int64_t depth;     /* 16 */
    size_t next;       /* 24 */
} grundavok_entry;

/* A replay: how many readings the final list has, and how many bytes were written. 32 bytes. */
typedef struct {
    uint8_t number;    /* 0 */
    size_t place;      /* 8 */
    uint64_t readings; /* 16 */
    size_t written;    /* 24 */
} grundavok_replayed;

/* Whether a column is in our form: ours is 1, or 0 where it is not, and then differs is the place of the first byte that differs. 24 bytes. */
typedef struct {
    uint8_t number; /* 0 */
    uint8_t ours;   /* 1 */
    size_t place;   /* 8 */
    size_t differs; /* 16 */
} grundavok_form;

/* Why a table or a column is refused. 96 bytes. number and place are the call's own refusal; fault and fault_place the table's or the column's, 0
 * and 0 where nothing is wrong. `about` says what the reason speaks of, and with it which of the numbers apply:
 *   GRUNDAVOK_TABLE  the table as a whole, no row of it
 *   GRUNDAVOK_ROW    the row `which` of the table
 *   GRUNDAVOK_RUN    the run `which` of the column, counted from 0, runs that add nothing too: it begins at the byte `begins`, all runs before it read
 *                    without fault, and the reading at fault has the index `index` (of a bad count: the readings before it)
 * and 0 where there is no reason. `sign` says whether a count was read at `begins`: GRUNDAVOK_PLUS, `count` itself; GRUNDAVOK_MINUS, its negative;
 * 0, none. `facts` says which facts make the refusal true:
 *   GRUNDAVOK_BYTES       1, 2, 3, 21   first: how many bytes of the number at the fault's place are there
 *   GRUNDAVOK_NAME        1, 20         first: a name's length; second: how many bytes are there for it
 *   GRUNDAVOK_PASSES      5             first: the readings before the run; second: how many its count asks for
 *   GRUNDAVOK_SUM         6             sum: the sum before; delta: the delta, which leaves int64_t with it
 *   GRUNDAVOK_COLUMNS     11            first: the table's count
 *   GRUNDAVOK_FALLS       12            first: the specification before the row; second: the row's
 *   GRUNDAVOK_COMPRESSED  13            first: the row's specification
 *   GRUNDAVOK_LENGTHS     14, 15        first, second: what the lengths add up to, first * 2^64 + second; third: the bytes of data there are
 * What does not apply is 0. */
enum { GRUNDAVOK_TABLE = 1, GRUNDAVOK_ROW = 2, GRUNDAVOK_RUN = 3 };
enum { GRUNDAVOK_PLUS = 1, GRUNDAVOK_MINUS = 2 };
enum {
    GRUNDAVOK_BYTES = 1,
    GRUNDAVOK_NAME = 2,
    GRUNDAVOK_PASSES = 3,
    GRUNDAVOK_SUM = 4,
    GRUNDAVOK_COLUMNS = 5,
    GRUNDAVOK_FALLS = 6,
    GRUNDAVOK_COMPRESSED = 7,
    GRUNDAVOK_LENGTHS = 8
};

typedef struct {
    uint8_t number;     /* 0 */
    uint8_t fault;      /* 1 */
    uint8_t about;      /* 2 */
    uint8_t sign;       /* 3 */
    uint8_t facts;      /* 4 */
    size_t place;       /* 8 */
    size_t fault_place; /* 16 */
    uint64_t which;     /* 24 */
    size_t begins;      /* 32 */
    uint64_t count;     /* 40 */
    uint64_t index;     /* 48 */
    uint64_t first;     /* 56 */
    uint64_t second;    /* 64 */
    uint64_t third;     /* 72 */
    int64_t sum;        /* 80 */
    int64_t delta;      /* 88 */
} grundavok_reason;

/* What comes next in a column that is read by a cursor. 24 bytes each. `what` is GRUNDAVOK_PRESENT, and value the reading's; or
 * GRUNDAVOK_ABSENT or GRUNDAVOK_END, and value is 0. In a refusal it is 0, as all else: a refusal is never the end. */
enum { GRUNDAVOK_PRESENT = 1, GRUNDAVOK_ABSENT = 2, GRUNDAVOK_END = 3 };

typedef struct {
    uint8_t number; /* 0 */
    uint8_t what;   /* 1 */
    size_t place;   /* 8 */
    uint64_t value; /* 16 */
} grundavok_next_u64;

typedef struct {
    uint8_t number; /* 0 */
    uint8_t what;   /* 1 */
    size_t place;   /* 8 */
    int64_t value;  /* 16 */
} grundavok_next_i64;

typedef struct {
    uint8_t number; /* 0 */
    uint8_t what;   /* 1 */
    size_t place;   /* 8 */
    uint8_t value;  /* 16 */
} grundavok_next_u8;

/* A piece of such a column: what comes next, as above, and how many times it stands there at once, one at least; times is 0 where there is no
 * reading, in the end and in a refusal. 32 bytes, and 40 of a delta column, whose readings change within a piece: each is by `difference` larger
 * than the one before it, and value is the first; of absent readings difference is 0. */
typedef struct {
    uint8_t number; /* 0 */
    uint8_t what;   /* 1 */
    size_t place;   /* 8 */
    uint64_t value; /* 16 */
    uint64_t times; /* 24 */
} grundavok_piece_u64;

typedef struct {
    uint8_t number;     /* 0 */
    uint8_t what;       /* 1 */
    size_t place;       /* 8 */
    int64_t value;      /* 16 */
    int64_t difference; /* 24 */
    uint64_t times;     /* 32 */
} grundavok_piece_i64;

typedef struct {
    uint8_t number; /* 0 */
    uint8_t what;   /* 1 */
    size_t place;   /* 8 */
    uint8_t value;  /* 16 */
    uint64_t times; /* 24 */
} grundavok_piece_u8;

/* A specification. 24 bytes. */
typedef struct {
    uint8_t number; /* 0 */
    size_t place;   /* 8 */
    uint32_t spec;  /* 16 */
} grundavok_specification;

/* A table: each row's specification, where its column begins in the data, and its length; unused places are 0. 1288 bytes. */
typedef struct {
    uint32_t specs[64];  /* 0 */
    uint64_t starts[64]; /* 256 */
    uint64_t lens[64];   /* 768 */
    size_t rows;         /* 1280 */
} grundavok_table;

/* A table and where the data behind it begin; a table of no rows where it is refused. 1312 bytes. */
typedef struct {
    uint8_t number;        /* 0 */
    size_t place;          /* 8 */
    size_t start;          /* 16 */
    grundavok_table table; /* 24 */
} grundavok_opened;

/* A table that remembers counts: counts[i] is how many readings the column of row i has where known[i] is not 0; where it is 0 that is not
 * known, and counts[i] says nothing. Unused places are 0. 1864 bytes. */
typedef struct {
    grundavok_table table; /* 0 */
    uint64_t counts[64];   /* 1288 */
    uint8_t known[64];     /* 1800 */
} grundavok_counted_table;

/* Such a table as after opening, no count known, and where the data behind it begin; a table of no rows where it is refused. 1888 bytes. */
typedef struct {
    uint8_t number;                /* 0 */
    size_t place;                  /* 8 */
    size_t start;                  /* 16 */
    grundavok_counted_table table; /* 24 */
} grundavok_counted_opened;

/* How many readings a column has, and the table with that stored; the table as it was lent where the call is refused. 1888 bytes. */
typedef struct {
    uint8_t number;                /* 0 */
    size_t place;                  /* 8 */
    uint64_t count;                /* 16 */
    grundavok_counted_table table; /* 24 */
} grundavok_counted_column;

/* The new block's length, and its table with the new column's count stored; the table as it was lent where the edit is refused. 1888 bytes. */
typedef struct {
    uint8_t number;                /* 0 */
    size_t place;                  /* 8 */
    size_t len;                    /* 16 */
    grundavok_counted_table table; /* 24 */
} grundavok_counted_spliced;

/* Where a column lies in its block: len bytes from start on. 32 bytes. */
typedef struct {
    uint8_t number; /* 0 */
    size_t place;   /* 8 */
    size_t start;   /* 16 */
    size_t len;     /* 24 */
} grundavok_part;

/* Which of two blocks shows a column: block is 1 for the corrections, 2 for the first scan, 0 where neither has the row. Where it lies there: len
 * bytes from start on; or the refusal of the table of that block. 32 bytes. */
typedef struct {
    uint8_t number; /* 0 */
    uint8_t block;  /* 1 */
    size_t place;   /* 8 */
    size_t start;   /* 16 */
    size_t len;     /* 24 */
} grundavok_layered;

/* Where the new column of a new block goes, and how long the block is. 32 bytes. */
typedef struct {
    uint8_t number; /* 0 */
    size_t place;   /* 8 */
    size_t at;      /* 16 */
    size_t len;     /* 24 */
} grundavok_frame;

/* ---- Cursors: where a reader stands in a column. The caller keeps one beside the column's bytes. ---- */

/* Of an rle column. 56 bytes. */
typedef struct {
    size_t len;     /* 0: the length of the column that it was made for */
    size_t at;      /* 8: the position of what comes next */
    uint64_t had;   /* 16: how many readings come before the next run */
    uint64_t left;  /* 24: how many readings of the present run are left */
    uint64_t sort;  /* 32: what they are: 0 absent, 1 one value that repeats, 2 (and above) literal values, read where they stand */
    uint64_t value; /* 40: the value that repeats, 0 where none does */
    size_t place;   /* 48: where it stands, 0 where none does */
} grundavok_rle_cursor;

/* Of a delta column. 64 bytes. */
typedef struct {
    size_t len;         /* 0: as above, and so the next four */
    size_t at;          /* 8 */
    uint64_t had;       /* 16 */
    uint64_t left;      /* 24 */
    uint64_t sort;      /* 32 */
    int64_t difference; /* 40: the difference that repeats, 0 where none does */
    size_t place;       /* 48: where it stands, 0 where none does */
    int64_t sum;        /* 56: the last reading that was present, 0 before the first */
} grundavok_delta_cursor;

/* Of a boolean column, where each run is one count. 40 bytes. */
typedef struct {
    size_t len;    /* 0: as above, and so the next three */
    size_t at;     /* 8 */
    uint64_t had;  /* 16 */
    uint64_t left; /* 24 */
    uint64_t flag; /* 32: what the readings of the present run are: 0 no, 1 (and above) yes */
} grundavok_boolean_cursor;

/* ---- Numbers ---- */

/* The number at position `at` of s. Refusals: 1, 2, 3, 21. A position at or past the end is 21, its place the length. */
grundavok_number_u64 grundavok_leb128_u64(const uint8_t *s, size_t s_len, size_t at);
grundavok_number_i64 grundavok_leb128_i64(const uint8_t *s, size_t s_len, size_t at);

/* Read as a uint64_t first, then judged for 2. Refusals: 1, 2, 3, 21. */
grundavok_number_u32 grundavok_leb128_u32(const uint8_t *s, size_t s_len, size_t at);

/* Refusals: 1, 2, 3, 4, 21. */
grundavok_number_u64 grundavok_nonzero_leb128_u64(const uint8_t *s, size_t s_len, size_t at);

/* How many bytes the number takes, 1 to 10. No refusal. */
size_t grundavok_len_u64(uint64_t v);
size_t grundavok_len_i64(int64_t x);

/* Writes the number at position `at` of out; count is the position behind it. Refusal: 10, out unchanged. */
grundavok_counted grundavok_put_u64(uint64_t v, uint8_t *out, size_t out_len, size_t at);
grundavok_counted grundavok_put_i64(int64_t x, uint8_t *out, size_t out_len, size_t at);

/* Writes the number at the front of out; count is how many bytes it took. Refusal: 10, out unchanged. */
grundavok_counted grundavok_write_u64(uint64_t v, uint8_t *out, size_t out_len);
grundavok_counted grundavok_write_i64(int64_t x, uint8_t *out, size_t out_len);

/* ---- Specifications: id times 16, plus 8 for the compressed bit, plus the type ---- */

/* Types: 0 Group, 1 Actor, 2 Integer, 3 DeltaInteger, 4 Boolean, 5 String, 6 ValueMetadata, 7 Value. Only the low three bits of
 * col_type count. Refusal: 19. */
grundavok_specification grundavok_spec_new(uint32_t id, uint8_t col_type, bool deflate);

/* The id, the type's number, the compressed bit, and the sorting key (the specification with the compressed bit cleared). No refusal. */
uint32_t grundavok_spec_id(uint32_t spec);
uint8_t grundavok_spec_col_type(uint32_t spec);
bool grundavok_spec_deflate(uint32_t spec);
uint32_t grundavok_spec_normalize(uint32_t spec);

/* ---- Columns: rle holds optional uint64_t (Actor, Integer), delta optional int64_t, boolean bytes of 1 or 0 ---- */

/* How many readings the column s has. Refusals: the column's first fault, 1, 2, 3, 5 or 21; of delta 6 too, of boolean no 21. */
grundavok_counted grundavok_rle_count(const uint8_t *s, size_t s_len);
grundavok_counted grundavok_delta_count(const uint8_t *s, size_t s_len);
grundavok_counted grundavok_boolean_count(const uint8_t *s, size_t s_len);

/* The column's readings into the first slots; count is how many. Refusals, in this order: 8 for the two lengths, the column's first
 * fault (as for the count), 9. A refusal leaves every slot as it was. */
grundavok_counted grundavok_rle_decode(const uint8_t *s, size_t s_len, uint64_t *values, size_t values_len, uint8_t *present,
                                       size_t present_len);
grundavok_counted grundavok_delta_decode(const uint8_t *s, size_t s_len, int64_t *values, size_t values_len, uint8_t *present,
                                         size_t present_len);
grundavok_counted grundavok_boolean_decode(const uint8_t *s, size_t s_len, uint8_t *values, size_t values_len);

/* The cursor before the first reading of a column: its length, and 0 (the flag is 1, as the first count is of no). It reads nothing. */
grundavok_rle_cursor grundavok_rle_cursor_new(const uint8_t *column, size_t column_len);
grundavok_delta_cursor grundavok_delta_cursor_new(const uint8_t *column, size_t column_len);
grundavok_boolean_cursor grundavok_boolean_cursor_new(const uint8_t *column, size_t column_len);

/* The next reading, the end, or a refusal; the cursor is advanced in place. No slots and no copy: a call costs the bytes that it passes,
 * whatever the counts say. From a new cursor the readings are those of decode, in order, and then the end. On a faulty column those before
 * the first faulty reading come first, then the refusal that the count gives. Both come again at every later call: the end and a refusal
 * leave the cursor as it was. So whoever draws while he reads learns only at a refusal that the column is broken.
 * Refusals: 24 before all others, where the cursor was made for another length or stands beyond the column's end; then the column's
 * fault. Any numbers may be lent, also a cursor of another column of the same length: what a step then gives is defined, and is the same for
 * all columns that agree from the cursor's position on. A boolean column has no absent readings. To go back, keep a copy of the cursor. */
grundavok_next_u64 grundavok_rle_next(const uint8_t *column, size_t column_len, grundavok_rle_cursor *cursor);
grundavok_next_i64 grundavok_delta_next(const uint8_t *column, size_t column_len, grundavok_delta_cursor *cursor);
grundavok_next_u8 grundavok_boolean_next(const uint8_t *column, size_t column_len, grundavok_boolean_cursor *cursor);

/* As many readings as stand there at once: those that are left of a run in which all are the same, of a delta column those of one difference, or
 * one literal value; the cursor is advanced past all of them. The caller counts them down by itself, so that inside a run it calls nothing:
 *
 *     for (;;) {
 *         grundavok_piece_i64 p = grundavok_delta_piece(column, len, &cursor);
 *         if (p.times == 0) break; // p.what is GRUNDAVOK_END, or it is a refusal
 *         for (see(p.what, p.value); --p.times > 0; see(p.what, p.value)) p.value += p.difference;
 *     }
 *
 * (Behind the last reading of a piece one more sum may leave int64_t: none is formed here.) The readings of the pieces in order are those of `next`,
 * and so are the end and the refusals, 24 too; a sum that leaves int64_t inside a run is refused at the call behind the readings that come before
 * it. A call costs the bytes that it passes, whatever the counts say, and from a new cursor no more calls give readings than the column has bytes. Both
 * kinds of call may be made by turns with one cursor. */
grundavok_piece_u64 grundavok_rle_piece(const uint8_t *column, size_t column_len, grundavok_rle_cursor *cursor);
grundavok_piece_i64 grundavok_delta_piece(const uint8_t *column, size_t column_len, grundavok_delta_cursor *cursor);
grundavok_piece_u8 grundavok_boolean_piece(const uint8_t *column, size_t column_len, grundavok_boolean_cursor *cursor);

/* How many bytes the list takes as a column. Refusals, in this order: 8, 5; of delta 7 too. */
grundavok_counted grundavok_rle_encoded_len(const uint64_t *values, size_t values_len, const uint8_t *present, size_t present_len);
grundavok_counted grundavok_delta_encoded_len(const int64_t *values, size_t values_len, const uint8_t *present, size_t present_len);
grundavok_counted grundavok_boolean_encoded_len(const uint8_t *values, size_t values_len);

/* The list as a column at the front of out; count is how many bytes. Refusals, in this order: 8, 5, 7 (delta alone), 10; out is then
 * unchanged. An optional list with no value present writes nothing. */
grundavok_counted grundavok_rle_encode(const uint64_t *values, size_t values_len, const uint8_t *present, size_t present_len, uint8_t *out,
                                       size_t out_len);
grundavok_counted grundavok_delta_encode(const int64_t *values, size_t values_len, const uint8_t *present, size_t present_len,
                                         uint8_t *out, size_t out_len);
grundavok_counted grundavok_boolean_encode(const uint8_t *values, size_t values_len, uint8_t *out, size_t out_len);

/* The all-false form: no bytes where no value is true, otherwise the same bytes and refusals. */
grundavok_counted grundavok_boolean_maybe_encoded_len(const uint8_t *values, size_t values_len);
grundavok_counted grundavok_boolean_maybe_encode(const uint8_t *values, size_t values_len, uint8_t *out, size_t out_len);

/* ---- Columns of names (String) ---- */

/* How many names the column s has, the absent ones too. Refusals: the column's first fault, 1, 2, 3, 5, 20 or 21; of one name 1 comes
 * before 20. */
grundavok_counted grundavok_text_count(const uint8_t *s, size_t s_len);

/* The start and length of each name in s into the first slots, both 0 where it is absent; count is how many. Refusals, in this order: 8
 * where any two of the three lengths differ, the column's first fault (as for the count), 9. A refusal leaves every slot as it was. */
grundavok_counted grundavok_text_decode(const uint8_t *s, size_t s_len, uint64_t *starts, size_t starts_len, uint64_t *lens,
                                        size_t lens_len, uint8_t *present, size_t present_len);

/* How many bytes the list takes as a column. Refusals, in this order: 8, 20, 5, 10. A pair is bad (8) when start and length together pass
 * the lent bytes, with length 0 too. Names that overlap can take more bytes than are lent: 10 where a uint64_t does not count them. */
grundavok_counted grundavok_text_encoded_len(const uint8_t *bytes, size_t bytes_len, const uint64_t *starts, size_t starts_len,
                                             const uint64_t *lens, size_t lens_len, const uint8_t *present, size_t present_len);

/* The list as a column at the front of out; count is how many bytes. Refusals, in this order: 8, 20, 5, 10; out is then unchanged. A list
 * with no name present writes nothing. */
grundavok_counted grundavok_text_encode(const uint8_t *bytes, size_t bytes_len, const uint64_t *starts, size_t starts_len,
                                        const uint64_t *lens, size_t lens_len, const uint8_t *present, size_t present_len, uint8_t *out,
                                        size_t out_len);

/* ---- Salvage: what survives of a column that was cut or is broken, which is all readings before the first faulty one ---- */

/* A run whose value does not read, or whose count passes 4,294,967,295, gives none; of literal values those before the one that does not
 * read survive, and of a delta run that leaves int64_t the readings whose sums fit.
 *
 * A CUT BETWEEN TWO RUNS IS NO FAULT. Such a column reads as a sound and shorter one, fault 0, and nothing here can see what is missing. The
 * lengths in a block's table can: a block that was cut is refused with 14. Of a column without its block, keep the number of readings beside
 * it.
 *
 * With MOST slots in values and in present, and 11 * n bytes in out:
 *
 *     grundavok_survey v = grundavok_rle_survey(s, n);
 *     if (v.readings > MOST) return too_many(v.readings);
 *     grundavok_salvaged r = grundavok_rle_salvage(2, s, n, values, v.readings, present, v.readings, out, 11 * n);
 *     if (r.number != 0) return refused(r.number);
 *     if (r.fault != 0) warn(r.kept, r.fault, r.fault_place);
 *     return keep(out, r.written);
 */

/* How many readings survive, the absent ones too, and the column's first fault, the refusal of its count. It costs what the bytes cost,
 * whatever the counts announce. No refusal. */
grundavok_survey grundavok_rle_survey(const uint8_t *s, size_t s_len);
grundavok_survey grundavok_delta_survey(const uint8_t *s, size_t s_len);
grundavok_survey grundavok_boolean_survey(const uint8_t *s, size_t s_len);
grundavok_survey grundavok_text_survey(const uint8_t *s, size_t s_len);

/* The readings that survive into the first slots, as decode fills them, and the same readings as a fresh column at the front of out; kept is
 * how many, written how many bytes. A sound column is encoded anew, its fault 0. A fault refuses nothing: a column of which nothing survives
 * is accepted with kept 0. `typ` is the column's type, as grundavok_spec_col_type gives it; served: rle 1 and 2, delta 3, boolean 4, text 5.
 * Refusals, in this order: 17 for another type; 8 where slices of slots differ in length; 9 where slots are fewer than the readings that
 * survive; 10. Any of them leaves slots and out as they were, and tells no fault.
 * Slots: as many as the survey's readings; those that the counts announce behind a fault need none. Output: 11 times the column's length
 * always does, which is proved; mostly the column's length does too; or lend more after 10.
 * Absent readings that survive are kept, counted and stand in the slots, though nothing is written where no kept one is present: kept can be
 * above 0 with written 0. A boolean no is present. The starts of names count in the given column s, not in out. */
grundavok_salvaged grundavok_rle_salvage(uint8_t typ, const uint8_t *s, size_t s_len, uint64_t *values, size_t values_len,
                                         uint8_t *present, size_t present_len, uint8_t *out, size_t out_len);
grundavok_salvaged grundavok_delta_salvage(uint8_t typ, const uint8_t *s, size_t s_len, int64_t *values, size_t values_len,
                                           uint8_t *present, size_t present_len, uint8_t *out, size_t out_len);
grundavok_salvaged grundavok_boolean_salvage(uint8_t typ, const uint8_t *s, size_t s_len, uint8_t *values, size_t values_len, uint8_t *out,
                                             size_t out_len);
grundavok_salvaged grundavok_text_salvage(uint8_t typ, const uint8_t *s, size_t s_len, uint64_t *starts, size_t starts_len,
                                          uint64_t *lens, size_t lens_len, uint8_t *present, size_t present_len, uint8_t *out,
                                          size_t out_len);

/* ---- Replay: the pen's log of a tracing session, over a delta column ---- */

/* A log is a row of entries. An entry is a byte of kind, a position of four bytes and, for kinds 1 and 4, a depth of eight, an int64_t in two's complement;
 * both lowest byte first. Kind 1 inserts a depth before the reading at the position, 2 inserts an absent reading, 3 removes a reading, 4 changes it to a depth.
 * An insert may stand at the list's end; the others must name a reading that is there, be it an absent one. */

/* The entry at a position of the log. Refusal: 23 where the kind is unknown or the entry is cut, place `at`; whether the list has the position is asked by
 * the replay. To go through a log:
 *
 *     for (size_t at = 0; at < n; at = e.next) {
 *         e = grundavok_log_entry(log, n, at);
 *         if (e.number != 0) return bad_entry(e.place);
 *         ..
 *     }
 */
grundavok_entry grundavok_log_entry(const uint8_t *log, size_t log_len, size_t at);

/* The column with the whole log replayed over it, written once, at the front of out; readings is how many the final list has, written how many bytes.
 * Refusals, in this order: 8; the column's faults; 9 where slots are fewer than the column's readings; then entry by entry 23, place the entry's first byte,
 * 5 and 9 for the list behind it; then 7, place the index in the final list, and 10.
 * What is left behind: on success, and on 7 or 10, the slots hold the final list, then absent zeros up to the longest list on the way, the column's own
 * counted; the rest is unchanged. Any other refusal changes nothing; out is as it was on every refusal.
 * Slots: as many as the longest list; the column's count and log_len / 5 always do. Output: 11 bytes a reading always do.
 * An insert or a removal moves what is behind it, so that a log costs by its entries times the list; a change does not. */
grundavok_replayed grundavok_delta_replay(const uint8_t *column, size_t column_len, const uint8_t *log, size_t log_len, int64_t *values,
                                          size_t values_len, uint8_t *present, size_t present_len, uint8_t *out, size_t out_len);

/* ---- Form: is a column what encode gives for the list it reads as? ---- */

/* ours is 1 exactly where decode and then encode give the same bytes again (booleans: encode, not the all-false form). Otherwise it is 0, and differs is
 * the place of the first byte at which the two differ, or the shorter length where one is the start of the other; both can be 0, and a refusal has 0 for
 * both too: look at number first. Not in our form are runs that could be longer, runs of no reading, and a column of absent readings alone, for which encode
 * gives no bytes at all. A column that is not ours is no broken one: it reads like any other. It may even be shorter: 7c 01 02 02 03 is by a byte, as
 * encode takes the two equal neighbours out of the literal run.
 * No slots; it costs what the bytes cost, whatever the counts announce. `typ` is the column's type, as grundavok_spec_col_type gives it. Refusals, in this
 * order: 17 for a type that no call serves; the column's first fault, the refusal of its count. */
grundavok_form grundavok_column_form(uint8_t typ, const uint8_t *s, size_t s_len);

/* ---- Tables: a block is a table followed directly by its column data and nothing more ---- */

/* Refusals ("table faults"): 1, 2, 3, 21 and 11 left to right, 11 as soon as the count is read; then 12, 13, 14, 15. */
grundavok_opened grundavok_read_table(const uint8_t *block, size_t block_len);

/* Where the column at a position lies: the bytes block + start, len. Refusals: table faults, 16. */
grundavok_part grundavok_locate(const uint8_t *block, size_t block_len, size_t position);

/* Where the first column of exactly this specification lies; all 0 where there is none, which is no refusal. Refusals: table faults. */
grundavok_part grundavok_locate_spec(const uint8_t *block, size_t block_len, uint32_t spec);

/* Lookup by specification in two blocks, later corrections over a first scan: the first column of exactly this specification in the corrections if
 * they have the row, also one of no bytes, which hides the older column; else in the first scan. block says in which, and 0, with all else 0, that
 * neither has it. Refusals: table faults of the corrections, then of the first scan, which is judged even where the corrections have the row;
 * block says whose they are. */
grundavok_layered grundavok_locate_over(const uint8_t *corrections, size_t corrections_len, const uint8_t *first, size_t first_len, uint32_t spec);

/* A new block in which the column at a position is to have `size` bytes, but for that column: the new table, the earlier columns, `size`
 * bytes left as they were from `at` on, the later columns. Refusals: table faults, 16, 10; out is then unchanged. */
grundavok_frame grundavok_put_frame(const uint8_t *block, size_t block_len, size_t position, size_t size, uint8_t *out, size_t out_len);

/* ---- Tables that remember counts: a redraw asks each column once ---- */

/* Such a table is kept beside its block, lent with it by value, and taken back from the answer, of a refusal too, which gives it back as it was lent:
 *
 *     grundavok_counted_table table = grundavok_open_table(block, n).table;
 *     ..
 *     grundavok_counted_column c = grundavok_count(block, n, table, position);
 *     table = c.table;
 *     if (c.number != 0) return refused(c.number, c.place);
 *     ..
 *     grundavok_counted_spliced r = grundavok_splice_boolean(block, n, table, position, ..);
 *     table = r.table;
 *     if (r.number == 0) n = r.len; // the block is now what stands at the front of out
 *
 * What an accepted call gives is made anew from the bytes: the block's rows, the counts of those rows as lent but for the one that the call stores, and
 * unused places 0. A table that came so from grundavok_open_table, each call lent it with its own block, holds true counts alone, which is proved.
 *
 * LENT COUNTS ARE NOT CHECKED AGAIN. A count that lies comes out as it went in. What is checked is that the table is one of this block, 25: as many rows, each
 * with the block's specification, start and length; unused places are no rows and are not looked at. Another block can have the same rows: keep each table
 * with its own. An edit never takes a lent count for the length of its list: it reads its column. Where you do not trust the counts, as of a table that was
 * kept in a file, open the block anew, or set the 64 bytes of `known` to 0, which says that nothing is known.
 *
 * BEFORE THIS the edits were lent no table. A caller of that form writes grundavok_open_table(block, n).table behind the block and its length, r.table.table
 * for the rows, where it had r.table, and grundavok_counted_spliced for the answer, which was grundavok_spliced. A refused edit had a table of no rows; now it
 * gives back the one that was lent. */

/* The table of a block; no count is known. Refusals: table faults. */
grundavok_counted_opened grundavok_open_table(const uint8_t *block, size_t block_len);

/* How many readings the column at a position has: the count that its row carries, as it stands, or else by its bytes. The table has it stored. Served: types
 * 1 to 5. Refusals, in this order: table faults; 25; 16; 17; and, where no count is stored, the column's first fault (as for its count): such a
 * column's count stays unknown. A stored count costs the reading of the table and none of the column. */
grundavok_counted_column grundavok_count(const uint8_t *block, size_t block_len, grundavok_counted_table table, size_t position);

/* ---- Reasons: which row or which run is at fault, and the facts that make the refusal true ---- */

/* Of a table's fault, the refusal of grundavok_read_table. No refusal. */
grundavok_reason grundavok_table_reason(const uint8_t *block, size_t block_len);

/* Of a column's first fault, the refusal of its count. `typ` is the column's type, as grundavok_spec_col_type gives it. Refusal: 17 for a type
 * that no call serves. */
grundavok_reason grundavok_column_reason(uint8_t typ, const uint8_t *s, size_t s_len);

/* Of the table's fault or, where it has none, of the fault of the column at a position, whose places count from its first byte. Refusals: 16, 17. */
grundavok_reason grundavok_block_reason(const uint8_t *block, size_t block_len, size_t position);

/* ---- Edits ---- */

/* The readings from start up to end of the column at a position replaced by the new ones; the calls with _to_end take all readings from start
 * on. The whole new block is written to the front of out; its table has the count that the new column reads as, 0 where it was written as nothing, and the
 * others as lent. Served: integer Actor and Integer columns, delta DeltaInteger, boolean Boolean.
 * Refusals, in this order: table faults; 25; 16; 17; 18 for end below start; 8 (the lengths of new_values and new_present, or of values and
 * present; a byte above 1); the column's first fault (as for its count); 18 for start or end beyond the list; 5 for the result; 9
 * where slots are fewer than the longer of old and new list; 7 (delta alone); 10. Each gives the table back as lent.
 * On success, and on 7 or 10, the slots hold the new list, then absent zeros (booleans: 0) up to the old list's length where that was
 * longer, the rest unchanged. Any other refusal changes no slot. No refusal changes out. */
grundavok_counted_spliced grundavok_splice_integer(const uint8_t *block, size_t block_len, grundavok_counted_table table, size_t position,
                                                   size_t start, size_t end, const uint64_t *new_values, size_t new_values_len,
                                                   const uint8_t *new_present, size_t new_present_len, uint64_t *values, size_t values_len,
                                                   uint8_t *present, size_t present_len, uint8_t *out, size_t out_len);
grundavok_counted_spliced grundavok_splice_integer_to_end(const uint8_t *block, size_t block_len, grundavok_counted_table table,
                                                          size_t position, size_t start, const uint64_t *new_values, size_t new_values_len,
                                                          const uint8_t *new_present, size_t new_present_len, uint64_t *values,
                                                          size_t values_len, uint8_t *present, size_t present_len, uint8_t *out,
                                                          size_t out_len);
grundavok_counted_spliced grundavok_splice_delta(const uint8_t *block, size_t block_len, grundavok_counted_table table, size_t position,
                                                 size_t start, size_t end, const int64_t *new_values, size_t new_values_len,
                                                 const uint8_t *new_present, size_t new_present_len, int64_t *values, size_t values_len,
                                                 uint8_t *present, size_t present_len, uint8_t *out, size_t out_len);
grundavok_counted_spliced grundavok_splice_delta_to_end(const uint8_t *block, size_t block_len, grundavok_counted_table table,
                                                        size_t position, size_t start, const int64_t *new_values, size_t new_values_len,
                                                        const uint8_t *new_present, size_t new_present_len, int64_t *values,
                                                        size_t values_len, uint8_t *present, size_t present_len, uint8_t *out,
                                                        size_t out_len);
grundavok_counted_spliced grundavok_splice_boolean(const uint8_t *block, size_t block_len, grundavok_counted_table table, size_t position,
                                                   size_t start, size_t end, const uint8_t *new_values, size_t new_values_len,
                                                   uint8_t *values, size_t values_len, uint8_t *out, size_t out_len);
grundavok_counted_spliced grundavok_splice_boolean_to_end(const uint8_t *block, size_t block_len, grundavok_counted_table table,
                                                          size_t position, size_t start, const uint8_t *new_values, size_t new_values_len,
                                                          uint8_t *values, size_t values_len, uint8_t *out, size_t out_len);

/* The same of names, in a String column. Refusals in the same order, with 20 directly after 8 and without 7; of 8 the lengths first (those of
 * new_starts, new_lens and new_present, or of starts, lens and present), then the first new name whose byte is above 1 or whose pair reaches
 * outside `bytes`. The place of 20 is the index among the new names.
 * On success the slots hold the new list, its starts in the NEW column, which is the part of out that grundavok_locate gives: so the start of
 * a name that nobody touched can change too. Then absent zeros (0, 0, 0) up to the old list's length where that was longer, the rest
 * unchanged. A new list with no name present writes no column, and its pairs are 0. No refusal changes a slot or out, 10 too. */
grundavok_counted_spliced grundavok_splice_text(const uint8_t *block, size_t block_len, grundavok_counted_table table, size_t position,
                                                size_t start, size_t end, const uint8_t *bytes, size_t bytes_len,
                                                const uint64_t *new_starts, size_t new_starts_len, const uint64_t *new_lens,
                                                size_t new_lens_len, const uint8_t *new_present, size_t new_present_len, uint64_t *starts,
                                                size_t starts_len, uint64_t *lens, size_t lens_len, uint8_t *present, size_t present_len,
                                                uint8_t *out, size_t out_len);
grundavok_counted_spliced grundavok_splice_text_to_end(const uint8_t *block, size_t block_len, grundavok_counted_table table,
                                                       size_t position, size_t start, const uint8_t *bytes, size_t bytes_len,
                                                       const uint64_t *new_starts, size_t new_starts_len, const uint64_t *new_lens,
                                                       size_t new_lens_len, const uint8_t *new_present, size_t new_present_len,
                                                       uint64_t *starts, size_t starts_len, uint64_t *lens, size_t lens_len,
                                                       uint8_t *present, size_t present_len, uint8_t *out, size_t out_len);

/* The first `old` slots of `held` are a list; its elements from start up to end are replaced in place. count is the new list's length; the
 * slots behind it are 0 up to `old`, the rest unchanged. Refusals: 18 for end below start, or end beyond `old`; then 9 where slots are
 * fewer than the longer of old and new list. A refusal changes no slot. */
grundavok_counted grundavok_slots_splice_u64(uint64_t *held, size_t held_len, size_t old, size_t start, size_t end,
                                             const uint64_t *new_values, size_t new_values_len);
grundavok_counted grundavok_slots_splice_i64(int64_t *held, size_t held_len, size_t old, size_t start, size_t end,
                                             const int64_t *new_values, size_t new_values_len);
grundavok_counted grundavok_slots_splice_u8(uint8_t *held, size_t held_len, size_t old, size_t start, size_t end,
                                            const uint8_t *new_values, size_t new_values_len);

#ifdef __cplusplus
}
#endif

#endif
