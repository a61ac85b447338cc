/* An answer of the boundary compared with the one that documents 01 and 02 ask for, and what a call left in a buffer with what it is to leave.
 * Each answer counts as one call. */
#ifndef COMPARE_H
#define COMPARE_H

#include "grundavok.h"

/* What the buffers of a test hold before a call. */
#define OLD 0xEE

extern int calls, differences;

void number_is(int line, const char *call, uint64_t is, uint64_t wanted);
void u64_is(int line, const char *call, grundavok_number_u64 r, uint8_t number, size_t place, uint64_t value, size_t next);
void i64_is(int line, const char *call, grundavok_number_i64 r, uint8_t number, size_t place, int64_t value, size_t next);
void u32_is(int line, const char *call, grundavok_number_u32 r, uint8_t number, size_t place, uint32_t value, size_t next);
void next_u64_is(int line, const char *call, grundavok_next_u64 r, uint8_t number, size_t place, uint8_t what, uint64_t value);
void next_i64_is(int line, const char *call, grundavok_next_i64 r, uint8_t number, size_t place, uint8_t what, int64_t value);
void next_u8_is(int line, const char *call, grundavok_next_u8 r, uint8_t number, size_t place, uint8_t what, uint8_t value);
void piece_u64_is(int line, const char *call, grundavok_piece_u64 r, uint8_t number, size_t place, uint8_t what, uint64_t value, uint64_t times);
void piece_i64_is(int line, const char *call, grundavok_piece_i64 r, uint8_t number, size_t place, uint8_t what, int64_t value, int64_t difference,
                  uint64_t times);
void piece_u8_is(int line, const char *call, grundavok_piece_u8 r, uint8_t number, size_t place, uint8_t what, uint8_t value, uint64_t times);
void rle_cursor_is(int line, const char *what, grundavok_rle_cursor is, grundavok_rle_cursor wanted);
void delta_cursor_is(int line, const char *what, grundavok_delta_cursor is, grundavok_delta_cursor wanted);
void boolean_cursor_is(int line, const char *what, grundavok_boolean_cursor is, grundavok_boolean_cursor wanted);
void counted_is(int line, const char *call, grundavok_counted r, uint8_t number, size_t place, uint64_t count);
void survey_is(int line, const char *call, grundavok_survey r, uint8_t fault, size_t place, uint64_t readings);
void salvaged_is(int line, const char *call, grundavok_salvaged r, uint8_t number, size_t place, uint8_t fault, size_t fault_place, uint64_t kept,
                 size_t written);
void entry_is(int line, const char *call, grundavok_entry r, uint8_t number, size_t place, uint8_t kind, uint32_t position, int64_t depth, size_t next);
void replayed_is(int line, const char *call, grundavok_replayed r, uint8_t number, size_t place, uint64_t readings, size_t written);
void form_is(int line, const char *call, grundavok_form r, uint8_t number, size_t place, uint8_t ours, size_t differs);
void reason_is(int line, const char *call, grundavok_reason is, grundavok_reason wanted);
void spec_is(int line, const char *call, grundavok_specification r, uint8_t number, size_t place, uint32_t spec);
void part_is(int line, const char *call, grundavok_part r, uint8_t number, size_t place, size_t start, size_t len);
void layered_is(int line, const char *call, grundavok_layered r, uint8_t number, uint8_t block, size_t place, size_t start, size_t len);
void frame_is(int line, const char *call, grundavok_frame r, uint8_t number, size_t place, size_t at, size_t len);
void opened_is(int line, const char *call, grundavok_opened r, uint8_t number, size_t place, size_t start, const grundavok_table *table);
void counted_opened_is(int line, const char *call, grundavok_counted_opened r, uint8_t number, size_t place, size_t start,
                       const grundavok_counted_table *table);
void counted_column_is(int line, const char *call, grundavok_counted_column r, uint8_t number, size_t place, uint64_t count,
                       const grundavok_counted_table *table);
void spliced_is(int line, const char *call, grundavok_counted_spliced r, uint8_t number, size_t place, size_t len, const grundavok_counted_table *table);
void left_is(int line, const char *what, const void *is, const void *wanted, size_t size);

#define NUMBER(call, ...) number_is(__LINE__, #call, call, __VA_ARGS__)
#define U64(call, ...) u64_is(__LINE__, #call, call, __VA_ARGS__)
#define I64(call, ...) i64_is(__LINE__, #call, call, __VA_ARGS__)
#define U32(call, ...) u32_is(__LINE__, #call, call, __VA_ARGS__)
#define NEXT_U64(call, ...) next_u64_is(__LINE__, #call, call, __VA_ARGS__)
#define NEXT_I64(call, ...) next_i64_is(__LINE__, #call, call, __VA_ARGS__)
#define NEXT_U8(call, ...) next_u8_is(__LINE__, #call, call, __VA_ARGS__)
#define PIECE_U64(call, ...) piece_u64_is(__LINE__, #call, call, __VA_ARGS__)
#define PIECE_I64(call, ...) piece_i64_is(__LINE__, #call, call, __VA_ARGS__)
#define PIECE_U8(call, ...) piece_u8_is(__LINE__, #call, call, __VA_ARGS__)
#define RLE_CURSOR(k, ...) rle_cursor_is(__LINE__, #k, k, (grundavok_rle_cursor){__VA_ARGS__})
#define DELTA_CURSOR(k, ...) delta_cursor_is(__LINE__, #k, k, (grundavok_delta_cursor){__VA_ARGS__})
#define BOOLEAN_CURSOR(k, ...) boolean_cursor_is(__LINE__, #k, k, (grundavok_boolean_cursor){__VA_ARGS__})
#define COUNTED(call, ...) counted_is(__LINE__, #call, call, __VA_ARGS__)
#define SURVEY(call, ...) survey_is(__LINE__, #call, call, __VA_ARGS__)
#define SALVAGED(call, ...) salvaged_is(__LINE__, #call, call, __VA_ARGS__)
#define ENTRY(call, ...) entry_is(__LINE__, #call, call, __VA_ARGS__)
#define REPLAYED(call, ...) replayed_is(__LINE__, #call, call, __VA_ARGS__)
#define FORM(call, ...) form_is(__LINE__, #call, call, __VA_ARGS__)
/* A reason by its fields; those that are not named are 0. */
#define REASON(call, ...) reason_is(__LINE__, #call, call, (grundavok_reason){__VA_ARGS__})
#define SPEC(call, ...) spec_is(__LINE__, #call, call, __VA_ARGS__)
#define PART(call, ...) part_is(__LINE__, #call, call, __VA_ARGS__)
#define LAYERED(call, ...) layered_is(__LINE__, #call, call, __VA_ARGS__)
#define FRAME(call, ...) frame_is(__LINE__, #call, call, __VA_ARGS__)
#define OPENED(call, ...) opened_is(__LINE__, #call, call, __VA_ARGS__)
#define COUNTED_OPENED(call, ...) counted_opened_is(__LINE__, #call, call, __VA_ARGS__)
#define COUNTED_COLUMN(call, ...) counted_column_is(__LINE__, #call, call, __VA_ARGS__)
#define SPLICED(call, ...) spliced_is(__LINE__, #call, call, __VA_ARGS__)

/* A whole buffer after a call; a list of another size does not compile. */
#define SAME_SIZE(a, b) (0 * sizeof(char[sizeof(a) == sizeof(b) ? 1 : -1]))
#define LEFT(type, buffer, ...) \
    left_is(__LINE__, #buffer, buffer, (const type[]){__VA_ARGS__}, sizeof(buffer) + SAME_SIZE(buffer, ((const type[]){__VA_ARGS__})))

/* A slice of bytes as the two arguments that it is. */
#define SLICE(...) (const uint8_t[]){__VA_ARGS__}, sizeof((const uint8_t[]){__VA_ARGS__})
#define ALL(buffer) buffer, sizeof(buffer) / sizeof(*buffer)

void numbers(void);
void specifications(void);
void columns(void);
void cursors(void);
void pieces(void);
void texts(void);
void salvages(void);
void logs(void);
void forms(void);
void reasons(void);
void tables(void);
void counted_tables(void);
void edits(void);

#endif
