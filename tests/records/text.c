/* The text of a field: numbers in hex, bytes in hex pairs. */
#include "record.h"

int memcmp(const void *a, const void *b, size_t size);
size_t strlen(const char *s);

bool is_text(struct text t, const char *word) {
    return t.len == strlen(word) && memcmp(t.at, word, t.len) == 0;
}

/* What stands from `from` on up to the next `end`, or up to the text's end; nothing where the text has no such part. */
struct text until(struct text t, size_t from, char end) {
    size_t to = from;
    if (from > t.len) return (struct text){t.at + t.len, 0};
    while (to < t.len && t.at[to] != end) to++;
    return (struct text){t.at + from, to - from};
}

static bool digits(struct text t, uint64_t *value) {
    *value = 0;
    for (size_t i = 0; i < t.len; i++) {
        char c = t.at[i];
        if (c >= '0' && c <= '9') *value = *value << 4 | (uint64_t)(c - '0');
        else if (c >= 'a' && c <= 'f') *value = *value << 4 | (uint64_t)(c - 'a' + 10);
        else return false;
    }
    return true;
}

bool number_of(struct text t, uint64_t *value) {
    return t.len >= 1 && t.len <= 16 && digits(t, value);
}

static bool put(struct text t, bool is_pair, size_t most, struct row *row) {
    uint64_t value;
    if (row->len == most || !(is_pair ? digits(t, &value) : number_of(t, &value))) return false;
    row->values[row->len++] = value;
    return true;
}

static bool put_pairs(struct text t, size_t most, struct row *row) {
    if (t.len == 0 || t.len % 2 != 0) return false;
    for (size_t i = 0; i < t.len; i += 2)
        if (!put((struct text){t.at + i, 2}, true, most, row)) return false;
    return true;
}

/* What stands in the row from `from` on, `times` times in all. */
static bool repeat(size_t from, uint64_t times, size_t most, struct row *row) {
    size_t size = row->len - from;
    if (times == 0 || times - 1 > (most - row->len) / size) return false;
    for (; times > 1; times--)
        for (size_t i = 0; i < size; i++) row->values[row->len++] = row->values[from + i];
    return true;
}

/* BODY or COUNT*BODY */
static bool put_part(struct text t, bool pairs, size_t most, struct row *row) {
    struct text count = until(t, 0, '*'), body = t;
    uint64_t times = 1;
    size_t from = row->len;
    if (count.len < t.len) {
        if (!number_of(count, &times)) return false;
        body = (struct text){t.at + count.len + 1, t.len - count.len - 1};
    }
    return (pairs ? put_pairs(body, most, row) : put(body, false, most, row)) && repeat(from, times, most, row);
}

bool row_of(struct text t, bool pairs, size_t most, struct row *row) {
    row->len = 0;
    if (is_text(t, "-")) return true;
    for (size_t at = 0; at <= t.len;) {
        struct text part = until(t, at, ',');
        if (!put_part(part, pairs, most, row)) return false;
        at += part.len + 1;
    }
    return true;
}
