/* Calls that are wrong in ways that no answer of a record shows, each for a check that must find it: data/unseen.txt has a right record of each. */

/* A byte behind a lent buffer, and one before it. */
static grundavok_counted spoilt_write_u64(uint64_t v, uint8_t *out, size_t out_len) {
    out[out_len] = 0;
    return grundavok_write_u64(v, out, out_len);
}

static grundavok_counted spoilt_write_i64(int64_t x, uint8_t *out, size_t out_len) {
    out[-1] = 0;
    return grundavok_write_i64(x, out, out_len);
}

/* A buffer that is only to be read. */
static grundavok_counted spoilt_boolean_count(const uint8_t *s, size_t s_len) {
    grundavok_counted r = grundavok_boolean_count(s, s_len);
    ((uint8_t *)s)[0]++;
    return r;
}

/* A number other than 20 for a name that is not UTF-8. */
static grundavok_counted spoilt_text_count(const uint8_t *s, size_t s_len) {
    grundavok_counted r = grundavok_text_count(s, s_len);
    if (r.number == 20) r.number = 1;
    return r;
}

/* A value at the end of a column. */
static grundavok_next_u64 spoilt_rle_next(const uint8_t *column, size_t column_len, grundavok_rle_cursor *cursor) {
    grundavok_next_u64 r = grundavok_rle_next(column, column_len, cursor);
    if (r.what == GRUNDAVOK_END) r.value = 1;
    return r;
}

/* More rows than a table has places. */
static grundavok_opened spoilt_read_table(const uint8_t *block, size_t block_len) {
    grundavok_opened r = grundavok_read_table(block, block_len);
    if (r.table.rows == 64) r.table.rows = 65;
    return r;
}

/* A count that is known after opening; the own count of an edit that is wrong, another that is known, and a refusal that changes the table. */
static grundavok_counted_opened spoilt_open_table(const uint8_t *block, size_t block_len) {
    grundavok_counted_opened r = grundavok_open_table(block, block_len);
    if (block_len == 3) r.table.known[0] = 1;
    return r;
}

static grundavok_counted_spliced spoilt_splice_boolean(const uint8_t *block, size_t block_len, grundavok_counted_table table, size_t position,
                                                       size_t start, size_t end, const uint8_t *new_values, size_t new_values_len,
                                                       uint8_t *values, size_t values_len, uint8_t *out, size_t out_len) {
    grundavok_counted_spliced r =
        grundavok_splice_boolean(block, block_len, table, position, start, end, new_values, new_values_len, values, values_len, out, out_len);
    if (r.number != 0) r.table.counts[63] = 1;
    else if (r.table.table.rows == 1) r.table.counts[0]++;
    else r.table.known[1] = 1;
    return r;
}

/* A reason that is another than its refusal (delta columns), or has a number beside those that apply. */
static grundavok_reason spoilt_column_reason(uint8_t typ, const uint8_t *s, size_t s_len) {
    grundavok_reason r = grundavok_column_reason(typ, s, s_len);
    if (typ == 3 && r.facts == GRUNDAVOK_BYTES) r.fault_place++;
    if (typ == 3 && r.facts == GRUNDAVOK_SUM) r.first = 1;
    if (typ == 2) r.sum = 1;
    return r;
}

static grundavok_reason spoilt_table_reason(const uint8_t *block, size_t block_len) {
    grundavok_reason r = grundavok_table_reason(block, block_len);
    if (r.about == GRUNDAVOK_TABLE) r.which = 1;
    if (r.about == GRUNDAVOK_ROW) r.third = 1;
    if (r.about == 0 && block_len == 1) r.about = GRUNDAVOK_TABLE;
    return r;
}

#define grundavok_write_u64 spoilt_write_u64
#define grundavok_write_i64 spoilt_write_i64
#define grundavok_boolean_count spoilt_boolean_count
#define grundavok_text_count spoilt_text_count
#define grundavok_rle_next spoilt_rle_next
#define grundavok_read_table spoilt_read_table
#define grundavok_open_table spoilt_open_table
#define grundavok_splice_boolean spoilt_splice_boolean
#define grundavok_column_reason spoilt_column_reason
#define grundavok_table_reason spoilt_table_reason
