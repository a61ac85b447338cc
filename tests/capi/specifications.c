#include "compare.h"

void specifications(void) {
    SPEC(grundavok_spec_new(1, 3, false), 0, 0, 0x13);
    SPEC(grundavok_spec_new(16, 2, false), 0, 0, 0x102);
    SPEC(grundavok_spec_new(1, 11, true), 0, 0, 0x1b); /* the low three bits of a type count */
    SPEC(grundavok_spec_new(0xfffffff, 7, true), 0, 0, UINT32_MAX);
    SPEC(grundavok_spec_new(0x10000000, 7, true), 19, 0, 0);
    NUMBER(grundavok_spec_id(0x1b), 1);
    NUMBER(grundavok_spec_id(UINT32_MAX), 0xfffffff);
    NUMBER(grundavok_spec_col_type(0x1b), 3);
    NUMBER(grundavok_spec_deflate(0x1b), true);
    NUMBER(grundavok_spec_deflate(0x13), false);
    NUMBER(grundavok_spec_normalize(0x11a), 0x112);
    NUMBER(grundavok_spec_normalize(0x1b), 0x13);
}
