#include "compare.h"

/* 4,294,967,295 readings of one value, which is to follow; as booleans so many of no. */
#define MOST 0xff, 0xff, 0xff, 0xff, 0x0f
#define EIGHT(b) b, b, b, b, b, b, b, b
#define OURS 0, 0, 1, 0
#define DIFFERS(place) 0, 0, 0, place
#define REFUSED(number, place) number, place, 0, 0

static void integers(void) {
    FORM(grundavok_column_form(2, SLICE(0x02, 0x05)), OURS);
    FORM(grundavok_column_form(1, SLICE(0x7f, 0x05, 0x00, 0x01, 0x02, 0x07)), OURS);
    FORM(grundavok_column_form(2, SLICE(MOST, 0x05)), OURS); /* at once, whatever the count says */
    FORM(grundavok_column_form(2, (const uint8_t[]){0x02}, 0), OURS);
    FORM(grundavok_column_form(2, SLICE(0x01, 0x05)), DIFFERS(0));                   /* a run of one: 7f 05 */
    FORM(grundavok_column_form(2, SLICE(0x7c, 0x01, 0x02, 0x02, 0x03)), DIFFERS(0)); /* a byte shorter than 7f 01 02 02 7f 03 */
    FORM(grundavok_column_form(2, SLICE(0x02, 0x05, 0x02, 0x05)), DIFFERS(0));       /* 04 05 */
    FORM(grundavok_column_form(2, SLICE(0x02, 0x05, 0x01, 0x06)), DIFFERS(2));       /* 02 05 7f 06 */
    FORM(grundavok_column_form(2, SLICE(0x02, 0x05, 0x00, 0x00)), DIFFERS(2));       /* 02 05, and then it goes on */
    FORM(grundavok_column_form(2, SLICE(0x02, 0x05, 0x00, 0x01, 0x00, 0x01)), DIFFERS(3)); /* 02 05 00 02 */
    FORM(grundavok_column_form(2, SLICE(0xc0, 0x00, 0x05, 0x80, 0x01, 0x05)), DIFFERS(1)); /* 64 and 128 times 5, of ours c0 01 05 */
    FORM(grundavok_column_form(2, SLICE(0x00, 0x03)), DIFFERS(0)); /* absent readings alone: nothing is written */
    FORM(grundavok_column_form(2, SLICE(0x00, 0x00)), DIFFERS(0));
    FORM(grundavok_column_form(2, SLICE(0x02, 0x05, 0x01)), REFUSED(21, 3)); /* a fault comes before any place */
    FORM(grundavok_column_form(1, SLICE(0x01, 0x80)), REFUSED(1, 1));
    FORM(grundavok_column_form(2, SLICE(MOST, 0x05, 0x01, 0x05)), REFUSED(5, 6));
}

static void others(void) {
    FORM(grundavok_column_form(3, SLICE(0x02, 0x01)), OURS);                         /* 1 and 2 */
    FORM(grundavok_column_form(3, SLICE(0x7e, 0x01, 0x01)), DIFFERS(0));             /* equal differences, not equal readings */
    FORM(grundavok_column_form(3, SLICE(0x7e, 0x05, 0x00)), OURS);                   /* 5 and 5 */
    FORM(grundavok_column_form(3, SLICE(0x02, EIGHT(0x80), 0xc0, 0x00)), REFUSED(6, 1));
    FORM(grundavok_column_form(4, SLICE(0x01)), OURS); /* the plain form, and not the all-false one */
    FORM(grundavok_column_form(4, SLICE(0x00, 0x03)), OURS);
    FORM(grundavok_column_form(4, SLICE(MOST)), OURS);
    FORM(grundavok_column_form(4, SLICE(0x00)), DIFFERS(0));
    FORM(grundavok_column_form(4, SLICE(0x05, 0x00, 0x03)), DIFFERS(0));             /* 08 */
    FORM(grundavok_column_form(4, SLICE(0x05, 0x03, 0x00)), DIFFERS(2));             /* 05 03, and then it goes on */
    FORM(grundavok_column_form(4, SLICE(0x80, 0x01, 0x00, 0x80, 0x01)), DIFFERS(1)); /* 80 02 */
    FORM(grundavok_column_form(4, SLICE(0x05, 0x00, 0x80)), REFUSED(1, 2));
    FORM(grundavok_column_form(5, SLICE(0x02, 0x02, 'A', 'N')), OURS);
    FORM(grundavok_column_form(5, SLICE(0x7e, 0x02, 'A', 'N', 0x02, 'A', 'N')), DIFFERS(0)); /* 02 02 A N */
    FORM(grundavok_column_form(5, SLICE(0x7e, 0x00, 0x01, 'A')), OURS);                      /* an empty name */
    FORM(grundavok_column_form(5, SLICE(0x01, 0x01, 0xff)), REFUSED(20, 1));
    FORM(grundavok_column_form(0, SLICE(0x02)), REFUSED(17, 0)); /* and 21 */
    FORM(grundavok_column_form(6, SLICE(0x02, 0x05)), REFUSED(17, 0));
    FORM(grundavok_column_form(0x12, SLICE(0x02, 0x05)), REFUSED(17, 0)); /* a type, not a specification */
}

void forms(void) {
    integers();
    others();
}
