#include "compare.h"

#define EIGHT(b) b, b, b, b, b, b, b, b
/* 4,294,967,295 readings of one value, which is to follow; as booleans so many of no. */
#define MOST 0xff, 0xff, 0xff, 0xff, 0x0f
/* An answer that is the call's own refusal: it tells no fault, whatever the column has. */
#define REFUSED(call, number) salvaged_is(__LINE__, #call, call, number, 0, 0, 0, 0, 0)

static void rle_surveys(void) {
    SURVEY(grundavok_rle_survey(SLICE(0x7e, 0x05)), 21, 2, 1);                   /* two due, one there */
    SURVEY(grundavok_rle_survey(SLICE(0x7d, 0x01, 0x82)), 1, 2, 1);              /* the second ends within itself */
    SURVEY(grundavok_rle_survey(SLICE(0x02, 0x05, 0x02, 0x80)), 1, 3, 2);        /* a value that does not read gives none of its run */
    SURVEY(grundavok_rle_survey(SLICE(0x02, 0x05, 0x02, 0x80, 0x00)), 3, 3, 2);  /* the fault may have bytes behind it */
    SURVEY(grundavok_rle_survey(SLICE(0x00, 0x02, 0x7f)), 21, 3, 2);             /* absent readings count */
    SURVEY(grundavok_rle_survey(SLICE(0x80, 0x80, 0x80, 0x80, 0x10, 0x05)), 5, 0, 0);
    SURVEY(grundavok_rle_survey(SLICE(MOST, 0x05, 0x01, 0x05)), 5, 6, 4294967295);
    SURVEY(grundavok_rle_survey(SLICE(MOST, 0x05)), 0, 0, 4294967295);
    SURVEY(grundavok_rle_survey(SLICE(0x02, 0x05, 0x7f, 0x07)), 0, 0, 3);
    SURVEY(grundavok_rle_survey(SLICE(0x02, 0x05)), 0, 0, 2); /* the same, cut between two runs: nothing tells */
    SURVEY(grundavok_rle_survey((const uint8_t[]){0x02}, 0), 0, 0, 0);
}

/* An absent reading, 5 and 5, and half a number. */
#define CUT_RLE SLICE(0x00, 0x01, 0x7d, 0x05, 0x05, 0x80)

static void rle_salvages(void) {
    uint64_t values[4] = {OLD, OLD, OLD, OLD};
    uint8_t present[4] = {OLD, OLD, OLD, OLD}, out[6] = {OLD, OLD, OLD, OLD, OLD, OLD};
    REFUSED(grundavok_rle_salvage(3, CUT_RLE, values, 2, present, 1, out, 0), 17); /* and 8, 9 and 10 */
    REFUSED(grundavok_rle_salvage(0, CUT_RLE, ALL(values), ALL(present), ALL(out)), 17);
    REFUSED(grundavok_rle_salvage(5, CUT_RLE, ALL(values), ALL(present), ALL(out)), 17);
    REFUSED(grundavok_rle_salvage(0x12, CUT_RLE, ALL(values), ALL(present), ALL(out)), 17); /* a type, not a specification */
    REFUSED(grundavok_rle_salvage(2, CUT_RLE, values, 2, present, 1, out, 0), 8);           /* and 9 and 10 */
    REFUSED(grundavok_rle_salvage(2, CUT_RLE, values, 3, ALL(present), ALL(out)), 8);
    REFUSED(grundavok_rle_salvage(2, CUT_RLE, values, 2, present, 2, out, 0), 9); /* and 10 */
    REFUSED(grundavok_rle_salvage(2, SLICE(MOST, 0x05), ALL(values), ALL(present), ALL(out)), 9);
    REFUSED(grundavok_rle_salvage(2, CUT_RLE, ALL(values), ALL(present), out, 3), 10);
    SALVAGED(grundavok_rle_salvage(2, SLICE(0x02), ALL(values), ALL(present), ALL(out)), 0, 0, 21, 1, 0, 0); /* nothing survives */
    SALVAGED(grundavok_rle_salvage(2, (const uint8_t[]){0x02}, 0, values, 0, present, 0, out, 0), 0, 0, 0, 0, 0, 0);
    LEFT(uint64_t, values, OLD, OLD, OLD, OLD);
    LEFT(uint8_t, present, OLD, OLD, OLD, OLD);
    LEFT(uint8_t, out, OLD, OLD, OLD, OLD, OLD, OLD);
    SALVAGED(grundavok_rle_salvage(2, CUT_RLE, values, 3, present, 3, out, 4), 0, 0, 1, 5, 3, 4);
    LEFT(uint64_t, values, 0, 5, 5, OLD);
    LEFT(uint8_t, present, 0, 1, 1, OLD);
    LEFT(uint8_t, out, 0x00, 0x01, 0x02, 0x05, OLD, OLD);
    SALVAGED(grundavok_rle_salvage(1, SLICE(0x7e, 0x09), values, 1, present, 1, ALL(out)), 0, 0, 21, 2, 1, 2); /* a slot for what survives */
    LEFT(uint64_t, values, 9, 5, 5, OLD);
    LEFT(uint8_t, present, 1, 1, 1, OLD);
    LEFT(uint8_t, out, 0x7f, 0x09, 0x02, 0x05, OLD, OLD);
}

static void rle_anew(void) {
    uint64_t values[6] = {OLD, OLD, OLD, OLD, OLD, OLD};
    uint8_t present[6] = {OLD, OLD, OLD, OLD, OLD, OLD}, out[8] = {EIGHT(OLD)};
    SALVAGED(grundavok_rle_salvage(2, SLICE(0x00, 0x01), values, 1, present, 1, out, 0), 0, 0, 0, 0, 1, 0); /* kept, and nothing is written */
    SALVAGED(grundavok_rle_salvage(2, SLICE(0x00, 0x02, 0x7f), ALL(values), ALL(present), ALL(out)), 0, 0, 21, 3, 2, 0);
    LEFT(uint64_t, values, 0, 0, OLD, OLD, OLD, OLD);
    LEFT(uint8_t, present, 0, 0, OLD, OLD, OLD, OLD);
    LEFT(uint8_t, out, EIGHT(OLD));
    /* A sound column in our writer's form: 1, 2 and 2 by three runs, and then one that takes more bytes than it had. */
    SALVAGED(grundavok_rle_salvage(1, SLICE(0x01, 0x01, 0x7f, 0x02, 0x01, 0x02), ALL(values), ALL(present), ALL(out)), 0, 0, 0, 0, 3, 4);
    LEFT(uint64_t, values, 1, 2, 2, OLD, OLD, OLD);
    LEFT(uint8_t, present, 1, 1, 1, OLD, OLD, OLD);
    LEFT(uint8_t, out, 0x7f, 0x01, 0x02, 0x02, OLD, OLD, OLD, OLD);
    REFUSED(grundavok_rle_salvage(2, SLICE(0x7a, 0x01, 0x02, 0x02, 0x03, 0x03, 0x04), ALL(values), ALL(present), out, 7), 10);
    LEFT(uint8_t, out, 0x7f, 0x01, 0x02, 0x02, OLD, OLD, OLD, OLD);
    SALVAGED(grundavok_rle_salvage(2, SLICE(0x7a, 0x01, 0x02, 0x02, 0x03, 0x03, 0x04), ALL(values), ALL(present), ALL(out)), 0, 0, 0, 0, 6, 8);
    LEFT(uint64_t, values, 1, 2, 2, 3, 3, 4);
    LEFT(uint8_t, present, 1, 1, 1, 1, 1, 1);
    LEFT(uint8_t, out, 0x7f, 0x01, 0x02, 0x02, 0x02, 0x03, 0x7f, 0x04);
}

/* 5, an absent reading, 6, and no byte where a difference is due; 2^62 twice, and 2^61 five times: sums that leave int64_t inside a run. */
#define CUT_DELTA SLICE(0x7f, 0x05, 0x00, 0x01, 0x7e, 0x01)
#define SUMS_62 SLICE(0x02, EIGHT(0x80), 0xc0, 0x00)
#define SUMS_61 SLICE(0x05, EIGHT(0x80), 0x20)

static void delta_salvages(void) {
    int64_t values[4] = {OLD, OLD, OLD, OLD};
    uint8_t present[4] = {OLD, OLD, OLD, OLD}, out[11] = {EIGHT(OLD), OLD, OLD, OLD};
    SURVEY(grundavok_delta_survey(CUT_DELTA), 21, 6, 3);
    SURVEY(grundavok_delta_survey(SUMS_62), 6, 1, 1);
    SURVEY(grundavok_delta_survey(SUMS_61), 6, 1, 3);
    SURVEY(grundavok_delta_survey(SLICE(MOST, 0x7f, 0x02, 0x80)), 5, 6, 4294967295);
    SURVEY(grundavok_delta_survey(SLICE(0x03, 0x7e)), 0, 0, 3);
    REFUSED(grundavok_delta_salvage(2, CUT_DELTA, values, 2, present, 1, out, 0), 17);
    REFUSED(grundavok_delta_salvage(4, CUT_DELTA, ALL(values), ALL(present), ALL(out)), 17);
    REFUSED(grundavok_delta_salvage(3, CUT_DELTA, values, 2, present, 1, out, 0), 8);
    REFUSED(grundavok_delta_salvage(3, CUT_DELTA, values, 2, present, 2, out, 0), 9);
    REFUSED(grundavok_delta_salvage(3, CUT_DELTA, values, 3, present, 3, out, 5), 10);
    LEFT(int64_t, values, OLD, OLD, OLD, OLD);
    LEFT(uint8_t, present, OLD, OLD, OLD, OLD);
    LEFT(uint8_t, out, EIGHT(OLD), OLD, OLD, OLD);
    SALVAGED(grundavok_delta_salvage(3, CUT_DELTA, values, 3, present, 3, out, 6), 0, 0, 21, 6, 3, 6);
    LEFT(int64_t, values, 5, 0, 6, OLD);
    LEFT(uint8_t, present, 1, 0, 1, OLD);
    LEFT(uint8_t, out, 0x7f, 0x05, 0x00, 0x01, 0x7f, 0x01, OLD, OLD, OLD, OLD, OLD);
    SALVAGED(grundavok_delta_salvage(3, SUMS_61, values, 3, present, 3, ALL(out)), 0, 0, 6, 1, 3, 10);
    LEFT(int64_t, values, 2305843009213693952, 4611686018427387904, 6917529027641081856, OLD);
    LEFT(uint8_t, present, 1, 1, 1, OLD);
    LEFT(uint8_t, out, 0x03, EIGHT(0x80), 0x20, OLD);
    SALVAGED(grundavok_delta_salvage(3, SUMS_62, values, 1, present, 1, ALL(out)), 0, 0, 6, 1, 1, 11);
    LEFT(int64_t, values, 4611686018427387904, 4611686018427387904, 6917529027641081856, OLD);
    LEFT(uint8_t, out, 0x7f, EIGHT(0x80), 0xc0, 0x00);
    SALVAGED(grundavok_delta_salvage(3, SLICE(0x02, 0x7e, 0x00, 0x01), ALL(values), ALL(present), ALL(out)), 0, 0, 0, 0, 3, 4);
    LEFT(int64_t, values, -2, -4, 0, OLD);
    LEFT(uint8_t, present, 1, 1, 0, OLD);
    LEFT(uint8_t, out, 0x02, 0x7e, 0x00, 0x01, 0x80, 0x80, 0x80, 0x80, 0x80, 0xc0, 0x00);
}

/* Yes, no, no, and half a count. */
#define CUT_BOOLEAN SLICE(0x00, 0x01, 0x02, 0x82)

static void boolean_salvages(void) {
    uint8_t values[6] = {OLD, OLD, OLD, OLD, OLD, OLD}, out[4] = {OLD, OLD, OLD, OLD};
    SURVEY(grundavok_boolean_survey(CUT_BOOLEAN), 1, 3, 3);
    SURVEY(grundavok_boolean_survey(SLICE(0x80)), 1, 0, 0);
    SURVEY(grundavok_boolean_survey(SLICE(MOST, 0x01)), 5, 5, 4294967295);
    SURVEY(grundavok_boolean_survey(SLICE(MOST)), 0, 0, 4294967295);
    SURVEY(grundavok_boolean_survey(SLICE(0x02, 0x00, 0x03)), 0, 0, 5);
    REFUSED(grundavok_boolean_salvage(3, CUT_BOOLEAN, values, 2, out, 0), 17);
    REFUSED(grundavok_boolean_salvage(5, CUT_BOOLEAN, ALL(values), ALL(out)), 17);
    REFUSED(grundavok_boolean_salvage(4, CUT_BOOLEAN, values, 2, out, 0), 9);
    REFUSED(grundavok_boolean_salvage(4, SLICE(MOST), ALL(values), ALL(out)), 9);
    REFUSED(grundavok_boolean_salvage(4, CUT_BOOLEAN, ALL(values), out, 2), 10);
    SALVAGED(grundavok_boolean_salvage(4, SLICE(0x80), values, 0, out, 0), 0, 0, 1, 0, 0, 0);
    LEFT(uint8_t, values, OLD, OLD, OLD, OLD, OLD, OLD);
    LEFT(uint8_t, out, OLD, OLD, OLD, OLD);
    SALVAGED(grundavok_boolean_salvage(4, CUT_BOOLEAN, values, 3, out, 3), 0, 0, 1, 3, 3, 3);
    LEFT(uint8_t, values, 1, 0, 0, OLD, OLD, OLD);
    LEFT(uint8_t, out, 0x00, 0x01, 0x02, OLD);
    SALVAGED(grundavok_boolean_salvage(4, SLICE(0x01), ALL(values), ALL(out)), 0, 0, 0, 0, 1, 1); /* a no is present */
    LEFT(uint8_t, values, 0, 0, 0, OLD, OLD, OLD);
    LEFT(uint8_t, out, 0x01, 0x01, 0x02, OLD);
    SALVAGED(grundavok_boolean_salvage(4, SLICE(0x02, 0x00, 0x03), ALL(values), ALL(out)), 0, 0, 0, 0, 5, 1);
    LEFT(uint8_t, values, 0, 0, 0, 0, 0, OLD);
    LEFT(uint8_t, out, 0x05, 0x01, 0x02, OLD);
}

static void text_surveys(void) {
    SURVEY(grundavok_text_survey(SLICE(0x7f, 0x01)), 1, 1, 0);             /* no byte of the name is there */
    SURVEY(grundavok_text_survey(SLICE(0x7e, 0x01, 0x61)), 21, 3, 1);      /* no byte where its length is due */
    SURVEY(grundavok_text_survey(SLICE(0x7e, 0x01, 0x61, 0x02, 0xc3)), 1, 3, 1);
    SURVEY(grundavok_text_survey(SLICE(0x7e, 0x01, 0x61, 0x01, 0xc3)), 20, 3, 1);
    SURVEY(grundavok_text_survey(SLICE(0x00, 0x02, 0x02, 0x01, 0xff)), 20, 3, 2);
    SURVEY(grundavok_text_survey(SLICE(MOST, 0x00, 0x01, 0x00)), 5, 6, 4294967295);
    SURVEY(grundavok_text_survey(SLICE(0x00, 0x01, 0x02, 0x02, 0xc3, 0xa9)), 0, 0, 3);
}

/* "a", "b" and "b", one by one, and a byte that is no letter: the second "b" has a start of its own, though it is written once. */
#define BROKEN_TEXT SLICE(0x7c, 0x01, 0x61, 0x01, 0x62, 0x01, 0x62, 0x01, 0xff)
/* An absent name, "é" twice, "ab" and "", and a name of which no byte is there. */
#define CUT_TEXT SLICE(0x00, 0x01, 0x02, 0x02, 0xc3, 0xa9, 0x7d, 0x02, 0x61, 0x62, 0x00, 0x01)

static void text_salvages(void) {
    uint64_t starts[6] = {OLD, OLD, OLD, OLD, OLD, OLD}, lens[6] = {OLD, OLD, OLD, OLD, OLD, OLD};
    uint8_t present[6] = {OLD, OLD, OLD, OLD, OLD, OLD}, out[12] = {EIGHT(OLD), OLD, OLD, OLD, OLD};
    REFUSED(grundavok_text_salvage(4, CUT_TEXT, starts, 2, lens, 2, present, 1, out, 0), 17);
    REFUSED(grundavok_text_salvage(2, CUT_TEXT, ALL(starts), ALL(lens), ALL(present), ALL(out)), 17);
    REFUSED(grundavok_text_salvage(7, CUT_TEXT, ALL(starts), ALL(lens), ALL(present), ALL(out)), 17);
    REFUSED(grundavok_text_salvage(5, CUT_TEXT, starts, 2, lens, 2, present, 1, out, 0), 8);
    REFUSED(grundavok_text_salvage(5, CUT_TEXT, starts, 5, ALL(lens), ALL(present), ALL(out)), 8);
    REFUSED(grundavok_text_salvage(5, CUT_TEXT, ALL(starts), lens, 5, ALL(present), ALL(out)), 8);
    REFUSED(grundavok_text_salvage(5, CUT_TEXT, ALL(starts), ALL(lens), present, 5, ALL(out)), 8);
    REFUSED(grundavok_text_salvage(5, CUT_TEXT, starts, 4, lens, 4, present, 4, out, 0), 9);
    REFUSED(grundavok_text_salvage(5, SLICE(MOST, 0x00), ALL(starts), ALL(lens), ALL(present), ALL(out)), 9);
    REFUSED(grundavok_text_salvage(5, CUT_TEXT, starts, 5, lens, 5, present, 5, out, 10), 10);
    SALVAGED(grundavok_text_salvage(5, SLICE(0x02, 0x01, 0xff), starts, 0, lens, 0, present, 0, out, 0), 0, 0, 20, 1, 0, 0);
    LEFT(uint64_t, starts, OLD, OLD, OLD, OLD, OLD, OLD);
    LEFT(uint64_t, lens, OLD, OLD, OLD, OLD, OLD, OLD);
    LEFT(uint8_t, present, OLD, OLD, OLD, OLD, OLD, OLD);
    LEFT(uint8_t, out, EIGHT(OLD), OLD, OLD, OLD, OLD);
    SALVAGED(grundavok_text_salvage(5, CUT_TEXT, starts, 5, lens, 5, present, 5, out, 11), 0, 0, 1, 11, 5, 11);
    LEFT(uint64_t, starts, 0, 4, 4, 8, 11, OLD);
    LEFT(uint64_t, lens, 0, 2, 2, 2, 0, OLD);
    LEFT(uint8_t, present, 0, 1, 1, 1, 1, OLD);
    LEFT(uint8_t, out, 0x00, 0x01, 0x02, 0x02, 0xc3, 0xa9, 0x7e, 0x02, 0x61, 0x62, 0x00, OLD);
    SALVAGED(grundavok_text_salvage(5, BROKEN_TEXT, ALL(starts), ALL(lens), ALL(present), ALL(out)), 0, 0, 20, 7, 3, 6);
    LEFT(uint64_t, starts, 2, 4, 6, 8, 11, OLD); /* in the given column: the fresh one has "b" at 5 */
    LEFT(uint64_t, lens, 1, 1, 1, 2, 0, OLD);
    LEFT(uint8_t, present, 1, 1, 1, 1, 1, OLD);
    LEFT(uint8_t, out, 0x7f, 0x01, 0x61, 0x02, 0x01, 0x62, 0x7e, 0x02, 0x61, 0x62, 0x00, OLD);
    SALVAGED(grundavok_text_salvage(5, SLICE(0x00, 0x01), starts, 1, lens, 1, present, 1, out, 0), 0, 0, 0, 0, 1, 0);
    LEFT(uint64_t, starts, 0, 4, 6, 8, 11, OLD);
    LEFT(uint64_t, lens, 0, 1, 1, 2, 0, OLD);
    LEFT(uint8_t, present, 0, 1, 1, 1, 1, OLD);
}

void salvages(void) {
    rle_surveys();
    rle_salvages();
    rle_anew();
    delta_salvages();
    boolean_salvages();
    text_surveys();
    text_salvages();
}
