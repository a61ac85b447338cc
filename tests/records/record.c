/* A line's fields one after the other: inputs are taken, answers held to the recorded ones or written out. */
#include "record.h"

int printf(const char *format, ...);
void *memset(void *to, int byte, size_t size);
char *strchr(const char *s, int c);

/* Bytes before and behind each buffer, and what they hold. */
#define BESIDE 16
#define KEPT 0xC5

/* An input: a number, or a buffer with what stands beside it. */
struct input {
    struct text field;
    char kind;
    bool word;
    uint64_t number; /* or how many elements there are */
    size_t size;     /* of an element in bytes */
    uint64_t room[BESIDE / 8 + MOST + BESIDE / 8];
};

static struct text line;
static size_t at; /* where the next field begins, one past the line's end where there is none */
static bool broken, differs, shown;
static const char *remark; /* what no answer shows, the first of it */
static const struct call *call;
static struct input inputs[16];
static const size_t most_inputs = sizeof inputs / sizeof inputs[0];
static struct row row; /* what a field stands for */

uint64_t number_at(size_t i) {
    return inputs[i].number;
}

void *held_at(size_t i) {
    return &inputs[i].room[BESIDE / 8];
}

size_t length_at(size_t i) {
    return inputs[i].number;
}

bool is_word(size_t i) {
    return inputs[i].word;
}

static struct text next_field(void) {
    struct text field = until(line, at, ' ');
    at = at > line.len ? at : at + field.len + 1;
    return field;
}

static uint64_t element(const void *from, size_t size, size_t i) {
    return size == 1 ? ((const uint8_t *)from)[i] : ((const uint64_t *)from)[i];
}

static bool is_pairs(char kind) {
    return kind == 's' || kind == 'S';
}

static bool is_lent(char kind) {
    return strchr("SUB578", kind) != 0;
}

static bool is_row(char kind) {
    return strchr("subSUB578r", kind) != 0;
}

/* ---- Inputs ---- */

static uint64_t largest(char kind) {
    switch (kind) {
    case 'w': return UINT32_MAX;
    case 'c': return 0xff;
    case 't': return 7;
    case 'f': return 1;
    case 'k': return MOST;
    default: return UINT64_MAX;
    }
}

static void take_number(struct input *in) {
    in->word = in->kind == 'e' && is_text(in->field, "end");
    if (!in->word && (!number_of(in->field, &in->number) || in->number > largest(in->kind))) broken = true;
}

/* The row's numbers into the buffer, and what stands beside it. */
static void lay_out(struct input *in) {
    uint8_t *held = (uint8_t *)&in->room[BESIDE / 8];
    memset(in->room, KEPT, BESIDE);
    memset(held + in->number * in->size, KEPT, BESIDE);
    for (size_t i = 0; i < in->number; i++) {
        if (in->size == 8) ((uint64_t *)held)[i] = row.values[i];
        else if (row.values[i] <= 0xff) held[i] = (uint8_t)row.values[i];
        else broken = true;
    }
}

/* How many numbers a field stands for at most. */
static size_t most_of(char kind) {
    return is_pairs(kind) ? call->bytes : kind == 'r' ? TABLE : call->numbers;
}

/* Five numbers a place, of which the first is a u32 and the last a byte. */
static bool is_table(void) {
    for (size_t i = 1; i < row.len; i += 5)
        if (row.values[i] > UINT32_MAX || i + 4 >= row.len || row.values[i + 4] > 0xff) return false;
    return row.len != 0;
}

/* A state is a row of so many numbers; of a fresh one, or a fresh table, the call fills the buffer. */
static void take_row(struct input *in) {
    size_t wanted = in->kind >= '5' && in->kind <= '8' ? (size_t)(in->kind - '0') : 0;
    in->word = (wanted != 0 || in->kind == 'r') && is_text(in->field, "new");
    row.len = wanted;
    if (!in->word && !row_of(in->field, is_pairs(in->kind), most_of(in->kind), &row)) broken = true;
    if (wanted != 0 && row.len != wanted) broken = true;
    if (in->kind == 'r' && !in->word && !is_table()) broken = true;
    in->size = is_pairs(in->kind) || in->kind == 'b' || in->kind == 'B' ? 1 : 8;
    in->number = row.len;
    lay_out(in);
}

static void take_inputs(void) {
    for (size_t i = 0; call->inputs[i] != 0; i++) {
        if (i == most_inputs) {
            broken = true; /* a row of calls.def with too many */
            return;
        }
        inputs[i].kind = call->inputs[i];
        inputs[i].field = next_field();
        if (is_row(inputs[i].kind)) take_row(&inputs[i]);
        else take_number(&inputs[i]);
    }
}

/* ---- Answers ---- */

void amiss(const char *what) {
    differs = true;
    if (remark == 0) remark = what;
}

static void hold_number(struct text field, uint64_t value) {
    uint64_t recorded;
    if (!number_of(field, &recorded)) broken = true;
    else if (recorded != value) differs = true;
}

/* The number of a refusal is the one answer that may not be left open. */
void refused(uint8_t refusal, size_t place) {
    if (shown) {
        printf("= %x", refusal);
    } else {
        if (!is_text(next_field(), "=")) broken = true;
        hold_number(next_field(), refusal);
    }
    number(place);
}

void number(uint64_t value) {
    struct text field;
    if (shown) {
        printf(" %lx", value);
        return;
    }
    field = next_field();
    if (!is_text(field, "*")) hold_number(field, value);
}

static void show_row(bool pairs, const void *from, size_t size, size_t len) {
    printf(len == 0 ? " -" : " ");
    for (size_t i = 0; i < len; i++) {
        if (pairs) printf("%02lx", element(from, size, i));
        else printf(i == 0 ? "%lx" : ",%lx", element(from, size, i));
    }
}

static bool is_recorded(const void *from, size_t size, size_t len) {
    if (row.len != len) return false;
    for (size_t i = 0; i < len; i++)
        if (row.values[i] != element(from, size, i)) return false;
    return true;
}

static void hold_row(bool pairs, const void *from, size_t size, size_t len) {
    struct text field;
    if (shown) {
        show_row(pairs, from, size, len);
        return;
    }
    field = next_field();
    if (is_text(field, "*")) return;
    if (!row_of(field, pairs, pairs ? call->bytes : MOST, &row)) broken = true;
    else if (!is_recorded(from, size, len)) differs = true;
}

void numbers(const uint64_t *values, size_t len) {
    hold_row(false, values, 8, len);
}

void flags(const uint8_t *values, size_t len) {
    hold_row(false, values, 1, len);
}

void bytes(const uint8_t *values, size_t len) {
    hold_row(true, values, 1, len);
}

static bool is_kept(const uint8_t *beside) {
    for (size_t i = 0; i < BESIDE; i++)
        if (beside[i] != KEPT) return false;
    return true;
}

/* What is lent is answered, what is read is still as it was, and so is what stands beside both. */
static void hold_buffers(void) {
    for (size_t i = 0; call->inputs[i] != 0; i++) {
        struct input *in = &inputs[i];
        const uint8_t *held = held_at(i);
        if (!is_row(in->kind)) continue;
        if (is_lent(in->kind)) hold_row(is_pairs(in->kind), held, in->size, in->number);
        else if (row_of(in->field, is_pairs(in->kind), MOST, &row) && !is_recorded(held, in->size, in->number)) amiss("a buffer that is read is changed");
        if (!is_kept(held - BESIDE) || !is_kept(held + in->number * in->size)) amiss("a byte beside a buffer is changed");
    }
}

/* ---- A line ---- */

static const struct call *call_named(struct text name) {
    for (size_t i = 0; i < calls_len; i++)
        if (is_text(name, calls[i].name)) return &calls[i];
    return 0;
}

enum verdict run_line(struct text whole, bool answers) {
    line = whole;
    at = 0;
    broken = differs = false;
    remark = 0;
    shown = answers;
    call = call_named(next_field());
    if (call == 0) return MALFORMED;
    take_inputs();
    if (broken) return MALFORMED;
    call->make();
    hold_buffers();
    if (shown && remark != 0) printf(" (%s)", remark);
    if (broken || (!shown && at != line.len + 1)) return MALFORMED;
    return differs ? DIFFERS : SAME;
}
