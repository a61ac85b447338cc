/* The pen's log: its entries, and its replay over delta columns. */
#include "compare.h"

#define FOUR(i) i, 0, 0, 0
#define DEPTH(x) x, 0, 0, 0, 0, 0, 0, 0
#define MINUS(x) 256 - x, 255, 255, 255, 255, 255, 255, 255
#define INSERT(i, x) 1, FOUR(i), DEPTH(x)
#define ABSENT(i) 2, FOUR(i)
#define REMOVE(i) 3, FOUR(i)
#define CHANGE(i, ...) 4, FOUR(i), __VA_ARGS__
#define EIGHTY SLICE(0x7f, 0xd0, 0x00, 0x02, 0x00) /* 80, 80, 80 */
#define FIVE SLICE(0x7f, 0x05)
#define EMPTY (const uint8_t[]){0}, 0
#define REFUSED(call, number, place) REPLAYED(call, number, place, 0, 0)

static void entries(void) {
    ENTRY(grundavok_log_entry(SLICE(INSERT(7, 5)), 0), 0, 0, 1, 7, 5, 13);
    ENTRY(grundavok_log_entry(SLICE(ABSENT(7), REMOVE(8)), 0), 0, 0, 2, 7, 0, 5);
    ENTRY(grundavok_log_entry(SLICE(ABSENT(7), REMOVE(8)), 5), 0, 0, 3, 8, 0, 10);
    ENTRY(grundavok_log_entry(SLICE(4, 1, 2, 3, 4, MINUS(2)), 0), 0, 0, 4, 0x04030201, -2, 13);
    ENTRY(grundavok_log_entry(SLICE(1, 255, 255, 255, 255, 1, 2, 3, 4, 5, 6, 7, 8), 0), 0, 0, 1, 4294967295, 0x0807060504030201, 13);
    ENTRY(grundavok_log_entry(SLICE(1, FOUR(0), 0, 0, 0, 0, 0, 0, 0, 0x80), 0), 0, 0, 1, 0, INT64_MIN, 13);
    ENTRY(grundavok_log_entry(SLICE(1, FOUR(0), 255, 255, 255, 255, 255, 255, 255, 0x7f), 0), 0, 0, 1, 0, INT64_MAX, 13);
    ENTRY(grundavok_log_entry(SLICE(1, FOUR(0), 0, 0, 0, 0, 0, 0, 0), 0), 23, 0, 0, 0, 0, 0); /* a depth of seven bytes */
    ENTRY(grundavok_log_entry(SLICE(ABSENT(0), 3, 0, 0, 0), 5), 23, 5, 0, 0, 0, 0);            /* a position of three */
    ENTRY(grundavok_log_entry(SLICE(0, FOUR(0), DEPTH(0)), 0), 23, 0, 0, 0, 0, 0);
    ENTRY(grundavok_log_entry(SLICE(5, FOUR(0), DEPTH(0)), 0), 23, 0, 0, 0, 0, 0);
    ENTRY(grundavok_log_entry(SLICE(5), 0), 23, 0, 0, 0, 0, 0);
    ENTRY(grundavok_log_entry(EMPTY, 0), 23, 0, 0, 0, 0, 0);
    ENTRY(grundavok_log_entry(SLICE(ABSENT(0)), (size_t)-1), 23, (size_t)-1, 0, 0, 0, 0);
}

static void refusals(void) {
    int64_t values[6] = {OLD, OLD, OLD, OLD, OLD, OLD};
    uint8_t present[6] = {OLD, OLD, OLD, OLD, OLD, OLD}, out[8] = {OLD, OLD, OLD, OLD, OLD, OLD, OLD, OLD};
    REFUSED(grundavok_delta_replay(SLICE(0x02), SLICE(9), values, 1, present, 2, out, 0), 8, 0); /* and all others */
    REFUSED(grundavok_delta_replay(SLICE(0x02), SLICE(9), values, 0, present, 0, out, 0), 21, 1);
    REFUSED(grundavok_delta_replay(EIGHTY, SLICE(9), values, 2, present, 2, out, 0), 9, 0);
    REFUSED(grundavok_delta_replay(EIGHTY, SLICE(9), values, 3, present, 3, out, 0), 23, 0);
    REFUSED(grundavok_delta_replay(EIGHTY, SLICE(REMOVE(0), INSERT(3, 1)), ALL(values), ALL(present), ALL(out)), 23, 5); /* one behind the end */
    REFUSED(grundavok_delta_replay(EIGHTY, SLICE(REMOVE(3)), ALL(values), ALL(present), ALL(out)), 23, 0);
    REFUSED(grundavok_delta_replay(EIGHTY, SLICE(CHANGE(3, DEPTH(1))), ALL(values), ALL(present), ALL(out)), 23, 0);
    REFUSED(grundavok_delta_replay(EIGHTY, SLICE(ABSENT(3), REMOVE(3), ABSENT(0), 3, 0), values, 4, present, 4, ALL(out)), 23, 15);
    REFUSED(grundavok_delta_replay(EIGHTY, SLICE(ABSENT(3), REMOVE(0)), values, 3, present, 3, ALL(out)), 9, 0); /* on the way */
    REFUSED(grundavok_delta_replay(EMPTY, SLICE(ABSENT(0), 5), values, 0, present, 0, out, 0), 9, 0);             /* before the next entry's 23 */
    LEFT(int64_t, values, OLD, OLD, OLD, OLD, OLD, OLD);
    LEFT(uint8_t, present, OLD, OLD, OLD, OLD, OLD, OLD);
    /* 7 and 10: the slots hold the final list, and the output is as it was */
    REFUSED(grundavok_delta_replay(SLICE(0x7f, 0x7e), SLICE(1, FOUR(0), 255, 255, 255, 255, 255, 255, 255, 0x7f, ABSENT(2), REMOVE(2)), ALL(values), ALL(present), out, 0), 7, 1);
    LEFT(int64_t, values, INT64_MAX, -2, 0, OLD, OLD, OLD);
    LEFT(uint8_t, present, 1, 1, 0, OLD, OLD, OLD);
    REFUSED(grundavok_delta_replay(EIGHTY, SLICE(CHANGE(0, DEPTH(81))), ALL(values), ALL(present), out, 4), 10, 0);
    LEFT(int64_t, values, 81, 80, 80, OLD, OLD, OLD);
    LEFT(uint8_t, present, 1, 1, 1, OLD, OLD, OLD);
    LEFT(uint8_t, out, OLD, OLD, OLD, OLD, OLD, OLD, OLD, OLD);
}

void logs(void) {
    int64_t values[6] = {OLD, OLD, OLD, OLD, OLD, OLD};
    uint8_t present[6] = {OLD, OLD, OLD, OLD, OLD, OLD}, out[8] = {OLD, OLD, OLD, OLD, OLD, OLD, OLD, OLD};
    entries();
    refusals();
    /* 79 in front, an absent one at the end, two removed, the last changed: five slots were in use */
    REPLAYED(grundavok_delta_replay(EIGHTY, SLICE(INSERT(0, 79), ABSENT(4), REMOVE(1), REMOVE(1), CHANGE(2, MINUS(1))), ALL(values), ALL(present), ALL(out)), 0, 0, 3, 6);
    LEFT(int64_t, values, 79, 80, -1, 0, 0, OLD);
    LEFT(uint8_t, present, 1, 1, 1, 0, 0, OLD);
    LEFT(uint8_t, out, 0x7d, 0xcf, 0x00, 0x01, 0xaf, 0x7f, OLD, OLD);
    REPLAYED(grundavok_delta_replay(FIVE, SLICE(INSERT(1, 6)), values, 2, present, 2, out, 3), 0, 0, 2, 3); /* at the end, and exactly full */
    LEFT(int64_t, values, 5, 6, -1, 0, 0, OLD);
    LEFT(uint8_t, out, 0x7e, 0x05, 0x01, 0x01, 0xaf, 0x7f, OLD, OLD);
    REPLAYED(grundavok_delta_replay(FIVE, SLICE(REMOVE(0)), values, 1, present, 1, out, 0), 0, 0, 0, 0); /* the slot becomes absent 0 */
    LEFT(int64_t, values, 0, 6, -1, 0, 0, OLD);
    LEFT(uint8_t, present, 0, 1, 1, 0, 0, OLD);
    REPLAYED(grundavok_delta_replay(SLICE(0x00, 0x02), SLICE(CHANGE(1, DEPTH(5))), ALL(values), ALL(present), ALL(out)), 0, 0, 2, 4); /* an absent reading is there */
    LEFT(int64_t, values, 0, 5, -1, 0, 0, OLD);
    LEFT(uint8_t, present, 0, 1, 1, 0, 0, OLD);
    LEFT(uint8_t, out, 0x00, 0x01, 0x7f, 0x05, 0xaf, 0x7f, OLD, OLD);
    REPLAYED(grundavok_delta_replay(EMPTY, EMPTY, values, 0, present, 0, out, 0), 0, 0, 0, 0);
    REPLAYED(grundavok_delta_replay(EMPTY, SLICE(ABSENT(0)), values, 1, present, 1, out, 0), 0, 0, 1, 0); /* written as nothing */
    LEFT(int64_t, values, 0, 5, -1, 0, 0, OLD);
    LEFT(uint8_t, out, 0x00, 0x01, 0x7f, 0x05, 0xaf, 0x7f, OLD, OLD);
}
