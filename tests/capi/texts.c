#include "compare.h"

#define NINE(b) b, b, b, b, b, b, b, b, b
/* An absent name, "é" twice, "ab", "" and "b". */
#define NAMES SLICE(0x00, 0x01, 0x02, 0x02, 0xc3, 0xa9, 0x7d, 0x02, 0x61, 0x62, 0x00, 0x01, 0x62)

static void counts(void) {
    COUNTED(grundavok_text_count(NAMES), 0, 0, 6);
    COUNTED(grundavok_text_count(SLICE(0x7f, 0x01)), 1, 1, 0);             /* no byte of the name is there */
    COUNTED(grundavok_text_count(SLICE(0x7f, 0x02, 0xff)), 1, 1, 0);       /* cut short, before 20 */
    COUNTED(grundavok_text_count(SLICE(0x7e, 0x01, 0xff, 0x01)), 20, 1, 0); /* the first fault */
    COUNTED(grundavok_text_count(SLICE(0x7f, NINE(0xff), 0x01)), 1, 1, 0); /* a length of 2^64 - 1 */
    COUNTED(grundavok_text_count(SLICE(0x02)), 21, 1, 0);
    COUNTED(grundavok_text_count(SLICE(0x02, 0x03, 0xed, 0xa0, 0x80)), 20, 1, 0); /* a surrogate */
    COUNTED(grundavok_text_count(SLICE(0x80, 0x80, 0x80, 0x80, 0x10, 0x00)), 5, 0, 0);
}

static void decoding(void) {
    uint64_t starts[7] = {OLD, OLD, OLD, OLD, OLD, OLD, OLD}, lens[7] = {OLD, OLD, OLD, OLD, OLD, OLD, OLD};
    uint8_t present[7] = {OLD, OLD, OLD, OLD, OLD, OLD, OLD};
    COUNTED(grundavok_text_decode(SLICE(0x02), starts, 6, ALL(lens), ALL(present)), 8, 0, 0);
    COUNTED(grundavok_text_decode(SLICE(0x02), ALL(starts), lens, 6, ALL(present)), 8, 0, 0);
    COUNTED(grundavok_text_decode(SLICE(0x02), ALL(starts), ALL(lens), present, 6), 8, 0, 0);
    COUNTED(grundavok_text_decode(SLICE(0x7e, 0x01, 0x61, 0x01, 0xc3), ALL(starts), ALL(lens), ALL(present)), 20, 3, 0);
    COUNTED(grundavok_text_decode(SLICE(0x7e, 0x01, 0x61, 0x02, 0xc3), ALL(starts), ALL(lens), ALL(present)), 1, 3, 0);
    COUNTED(grundavok_text_decode(NAMES, starts, 5, lens, 5, present, 5), 9, 0, 0);
    LEFT(uint64_t, starts, OLD, OLD, OLD, OLD, OLD, OLD, OLD);
    LEFT(uint64_t, lens, OLD, OLD, OLD, OLD, OLD, OLD, OLD);
    LEFT(uint8_t, present, OLD, OLD, OLD, OLD, OLD, OLD, OLD);
    COUNTED(grundavok_text_decode(NAMES, ALL(starts), ALL(lens), ALL(present)), 0, 0, 6);
    LEFT(uint64_t, starts, 0, 4, 4, 8, 11, 12, OLD);
    LEFT(uint64_t, lens, 0, 2, 2, 2, 0, 1, OLD);
    LEFT(uint8_t, present, 0, 1, 1, 1, 1, 1, OLD);
    COUNTED(grundavok_text_decode(SLICE(0x7f, 0x00), ALL(starts), ALL(lens), ALL(present)), 0, 0, 1); /* "" starts at the column's length */
    LEFT(uint64_t, starts, 2, 4, 4, 8, 11, 12, OLD);
}

/* Names of the bytes of "aébé": "é" and "é", equal though they stand apart, an absent one whose pair is wild, "b" and "a". */
#define BYTES SLICE(0x61, 0xc3, 0xa9, 0x62, 0xc3, 0xa9)
static const uint64_t given_starts[5] = {1, 4, UINT64_MAX, 3, 0}, given_lens[5] = {2, 2, UINT64_MAX, 1, 1};
static const uint8_t given_present[5] = {1, 1, 0, 1, 1};

static void refused_lists(void) {
    const uint64_t zero[1] = {0}, one[1] = {1}, two[1] = {2}, huge[1] = {UINT64_MAX}, ones[2] = {1, 1}, ends[2] = {0, 6};
    uint8_t out[4] = {OLD, OLD, OLD, OLD};
    COUNTED(grundavok_text_encoded_len(BYTES, ALL(one), ALL(one), SLICE(1)), 20, 0, 0); /* half a letter */
    COUNTED(grundavok_text_encoded_len(BYTES, ALL(one), ALL(one), SLICE(2)), 8, 0, 0);
    COUNTED(grundavok_text_encoded_len(BYTES, ALL(ends), ALL(ones), SLICE(1, 1)), 8, 1, 0); /* the last byte is at 5 */
    COUNTED(grundavok_text_encoded_len(BYTES, ALL(two), ALL(huge), SLICE(1)), 8, 0, 0);     /* no sum wraps */
    COUNTED(grundavok_text_encoded_len(given_present, 0, ALL(one), ALL(zero), SLICE(1)), 8, 0, 0); /* "" outside of no bytes */
    COUNTED(grundavok_text_encode(BYTES, ALL(one), ALL(two), SLICE(1, 1), ALL(out)), 8, 0, 0);
    COUNTED(grundavok_text_encode(BYTES, ALL(ones), ALL(two), SLICE(2), ALL(out)), 8, 0, 0);
    COUNTED(grundavok_text_encode(BYTES, ALL(ones), ALL(ones), SLICE(1, 2), ALL(out)), 8, 1, 0); /* before 20 at 0 */
    COUNTED(grundavok_text_encode(BYTES, ALL(ends), ALL(ones), SLICE(1, 0), out, 2), 10, 0, 0);
    COUNTED(grundavok_text_encode(BYTES, ALL(one), ALL(two), SLICE(0), ALL(out)), 0, 0, 0); /* no name present: nothing is written */
    LEFT(uint8_t, out, OLD, OLD, OLD, OLD);
}

static void writing(void) {
    uint8_t out[12] = {OLD, OLD, OLD, OLD, OLD, OLD, OLD, OLD, OLD, OLD, OLD, OLD};
    COUNTED(grundavok_text_encoded_len(BYTES, ALL(given_starts), ALL(given_lens), ALL(given_present)), 0, 0, 11);
    COUNTED(grundavok_text_encode(BYTES, ALL(given_starts), ALL(given_lens), ALL(given_present), out, 10), 10, 0, 0);
    LEFT(uint8_t, out, OLD, OLD, OLD, OLD, OLD, OLD, OLD, OLD, OLD, OLD, OLD, OLD);
    COUNTED(grundavok_text_encode(BYTES, ALL(given_starts), ALL(given_lens), ALL(given_present), ALL(out)), 0, 0, 11);
    LEFT(uint8_t, out, 0x02, 0x02, 0xc3, 0xa9, 0x00, 0x01, 0x7e, 0x01, 0x62, 0x01, 0x61, OLD);
}

/* "ab", "ab" and "c" as a String column before a Boolean column of no, no; a String column of two bytes; the bytes of new names. */
#define SIGNS SLICE(0x02, 0x15, 0x07, 0x24, 0x01, 0x02, 0x02, 0x61, 0x62, 0x7f, 0x01, 0x63, 0x02)
#define CUT(a, b) SLICE(0x01, 0x15, 0x02, a, b)
#define NEW SLICE(0xc3, 0xa9, 0xff)

/* Their tables, lent with counts that no edit looks at (edits.c). */
#define LIES .counts = {99, 98, [63] = 97}, .known = {2, 3, [63] = 4}
static const grundavok_counted_table signs = {{.specs = {0x15, 0x24}, .starts = {0, 7}, .lens = {7, 1}, .rows = 2}, LIES};
static const grundavok_counted_table cut = {{.specs = {0x15}, .lens = {2}, .rows = 1}, LIES};

/* Slots and an output, as they are before an edit. */
#define BUFFERS(out_size) \
    uint64_t starts[5] = {OLD, OLD, OLD, OLD, OLD}, lens[5] = {OLD, OLD, OLD, OLD, OLD}; \
    uint8_t present[5] = {OLD, OLD, OLD, OLD, OLD}, out[out_size]; \
    for (size_t i = 0; i < sizeof(out); i++) out[i] = OLD
#define SLOTS ALL(starts), ALL(lens), ALL(present)

/* "é" and an absent name, whose pair is wild, for the second name: the start of "c", which nobody touched, moves. */
static void accepted(void) {
    const grundavok_counted_table grown = {{.specs = {0x15, 0x24}, .starts = {0, 12}, .lens = {12, 1}, .rows = 2}, .counts = {4, 98}, .known = {1, 3}};
    const uint64_t new_starts[2] = {0, UINT64_MAX}, new_lens[2] = {2, UINT64_MAX};
    BUFFERS(19);
    SPLICED(grundavok_splice_text(SIGNS, signs, 0, 1, 2, NEW, ALL(new_starts), ALL(new_lens), SLICE(1, 0), SLOTS, ALL(out)), 0, 0, 18, &grown);
    LEFT(uint64_t, starts, 2, 5, 0, 11, OLD);
    LEFT(uint64_t, lens, 2, 2, 0, 1, OLD);
    LEFT(uint8_t, present, 1, 1, 0, 1, OLD);
    LEFT(uint8_t, out, 0x02, 0x15, 0x0c, 0x24, 0x01, 0x7e, 0x02, 0x61, 0x62, 0x02, 0xc3, 0xa9, 0x00, 0x01, 0x7f, 0x01, 0x63, 0x02, OLD);
}

/* A shorter list: absent zeros up to the old one's length; and a list with no name present, which writes no column. */
static void shorter(void) {
    const grundavok_counted_table one = {{.specs = {0x15, 0x24}, .starts = {0, 4}, .lens = {4, 1}, .rows = 2}, .counts = {1, 98}, .known = {1, 3}};
    const grundavok_counted_table nothing = {{.specs = {0x15, 0x24}, .lens = {0, 1}, .rows = 2}, .counts = {0, 98}, .known = {1, 3}};
    const uint64_t wild[1] = {UINT64_MAX};
    BUFFERS(10);
    SPLICED(grundavok_splice_text_to_end(SIGNS, signs, 0, 1, NEW, wild, 0, wild, 0, given_present, 0, SLOTS, ALL(out)), 0, 0, 10, &one);
    LEFT(uint64_t, starts, 2, 0, 0, OLD, OLD);
    LEFT(uint64_t, lens, 2, 0, 0, OLD, OLD);
    LEFT(uint8_t, present, 1, 0, 0, OLD, OLD);
    LEFT(uint8_t, out, 0x02, 0x15, 0x04, 0x24, 0x01, 0x7f, 0x02, 0x61, 0x62, 0x02);
    SPLICED(grundavok_splice_text(SIGNS, signs, 0, 0, 3, NEW, ALL(wild), ALL(wild), SLICE(0), SLOTS, ALL(out)), 0, 0, 6, &nothing);
    LEFT(uint64_t, starts, 0, 0, 0, OLD, OLD);
    LEFT(uint64_t, lens, 0, 0, 0, OLD, OLD);
    LEFT(uint8_t, present, 0, 0, 0, OLD, OLD);
    LEFT(uint8_t, out, 0x02, 0x15, 0x00, 0x24, 0x01, 0x02, 0x02, 0x61, 0x62, 0x02);
}

/* Each refusal in its order, with what comes later wrong too. None changes a slot or the output, 10 included. */
static void refused_edits(void) {
    const uint64_t s[2] = {0, 2}, good[2] = {2, 0}, half[2] = {2, 1}, beyond[2] = {2, 2};
    BUFFERS(6);
    SPLICED(grundavok_splice_text(SLICE(0x41), signs, 9, 1, 0, NEW, ALL(s), ALL(beyond), SLICE(1, 1), SLOTS, ALL(out)), 11, 0, 0, &signs);
    SPLICED(grundavok_splice_text(SIGNS, signs, 2, 1, 0, NEW, ALL(s), ALL(beyond), SLICE(1, 1), SLOTS, ALL(out)), 16, 0, 0, &signs);
    SPLICED(grundavok_splice_text(SIGNS, signs, 1, 1, 0, NEW, ALL(s), ALL(beyond), SLICE(1, 1), SLOTS, ALL(out)), 17, 0, 0, &signs);
    SPLICED(grundavok_splice_text(SIGNS, signs, 0, 1, 0, NEW, ALL(s), ALL(beyond), SLICE(1, 1), SLOTS, ALL(out)), 18, 0, 0, &signs);
    SPLICED(grundavok_splice_text(CUT(0x7f, 0x01), cut, 0, 0, 4, NEW, ALL(s), ALL(beyond), SLICE(1), SLOTS, ALL(out)), 8, 0, 0, &cut);
    SPLICED(grundavok_splice_text(CUT(0x7f, 0x01), cut, 0, 0, 4, NEW, ALL(s), ALL(beyond), SLICE(1, 1), ALL(starts), ALL(lens), present, 4, ALL(out)), 8, 0,
            0, &cut);
    SPLICED(grundavok_splice_text(CUT(0x7f, 0x01), cut, 0, 0, 4, NEW, ALL(s), ALL(beyond), SLICE(1, 1), SLOTS, ALL(out)), 8, 1, 0, &cut);
    SPLICED(grundavok_splice_text(CUT(0x7f, 0x01), cut, 0, 0, 4, NEW, ALL(s), ALL(half), SLICE(1, 1), SLOTS, ALL(out)), 20, 1, 0, &cut);
    SPLICED(grundavok_splice_text(CUT(0x7f, 0x01), cut, 0, 0, 4, NEW, ALL(s), ALL(good), SLICE(1, 1), SLOTS, ALL(out)), 1, 1, 0, &cut);
    SPLICED(grundavok_splice_text_to_end(CUT(0x7f, 0x01), cut, 0, 9, NEW, ALL(s), ALL(half), SLICE(1, 1), SLOTS, ALL(out)), 20, 1, 0, &cut);
    SPLICED(grundavok_splice_text_to_end(CUT(0x02, 0x80), cut, 0, 9, NEW, ALL(s), ALL(good), SLICE(1, 1), SLOTS, ALL(out)), 1, 1, 0, &cut);
    SPLICED(grundavok_splice_text_to_end(SIGNS, signs, 0, 4, NEW, ALL(s), ALL(good), SLICE(1, 1), SLOTS, ALL(out)), 18, 0, 0, &signs);
    SPLICED(grundavok_splice_text(SIGNS, signs, 0, 0, 4, NEW, ALL(s), ALL(good), SLICE(1, 1), SLOTS, ALL(out)), 18, 0, 0, &signs);
    SPLICED(grundavok_splice_text(SIGNS, signs, 0, 3, 3, NEW, ALL(s), ALL(good), SLICE(1, 1), starts, 4, lens, 4, present, 4, ALL(out)), 9, 0, 0, &signs);
    SPLICED(grundavok_splice_text(SIGNS, signs, 0, 3, 3, NEW, ALL(s), ALL(good), SLICE(1, 1), SLOTS, ALL(out)), 10, 0, 0, &signs);
    SPLICED(grundavok_splice_text_to_end(SIGNS, signs, 0, 0, NEW, ALL(s), ALL(good), SLICE(1, 1), SLOTS, ALL(out)), 10, 0, 0, &signs);
    LEFT(uint64_t, starts, OLD, OLD, OLD, OLD, OLD);
    LEFT(uint64_t, lens, OLD, OLD, OLD, OLD, OLD);
    LEFT(uint8_t, present, OLD, OLD, OLD, OLD, OLD);
    LEFT(uint8_t, out, OLD, OLD, OLD, OLD, OLD, OLD);
}

void texts(void) {
    counts();
    decoding();
    refused_lists();
    writing();
    accepted();
    shorter();
    refused_edits();
}
