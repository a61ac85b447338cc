/* Runs files of records against the archive, and reports what differs: for each file how many records it has and how many differ, and for the
 * first that differs its line and what was answered. A line that is no record, or is too long, differs too. */
#include "record.h"

int printf(const char *format, ...);
int putchar(int c);
int open(const char *path, int flags, ...);
long read(int file, void *to, size_t size);
int close(int file);

/* How many bytes a line has at most. */
#define LONGEST 65536

/* What is known of a file, and of the line that is being read. */
struct tally {
    const char *path;
    uint64_t records, differ, lines;
    size_t len;
    bool is_long;
};

static char gathered[LONGEST];

static void say(struct text t) {
    for (size_t i = 0; i < t.len; i++) putchar(t.at[i]);
}

/* A record, or what should be one, differs; the first of a file is written out. */
static void differing(struct tally *t, struct text line, const char *how) {
    if (t->differ++ != 0) return;
    printf("%s: line %lu %s", t->path, t->lines + 1, how);
    if (!t->is_long) say(line);
    putchar('\n');
}

static void run_record(struct tally *t, struct text line) {
    bool is_first = t->differ == 0;
    t->records++;
    if (t->is_long) {
        differing(t, line, "is too long");
        return;
    }
    switch (run_line(line, false)) {
    case SAME: break;
    case MALFORMED: differing(t, line, "is no record: "); break;
    case DIFFERS:
        differing(t, line, "differs: ");
        if (!is_first) break;
        printf("    answered ");
        run_line(line, true);
        putchar('\n');
    }
}

static void line_over(struct tally *t) {
    struct text line = {gathered, t->len};
    if (line.len != 0 && line.at[0] != '#') run_record(t, line);
    t->lines++;
    t->len = 0;
    t->is_long = false;
}

static void byte_came(struct tally *t, char byte) {
    if (byte == '\n') line_over(t);
    else if (t->len < LONGEST) gathered[t->len++] = byte;
    else t->is_long = true;
}

static void cannot_be_read(struct tally *t) {
    printf("%s: cannot be read\n", t->path);
    t->differ++;
}

static void counted(const char *name, uint64_t records, uint64_t differ) {
    printf("%s: %lu records, %lu differ\n", name, records, differ);
}

static struct tally run_file(const char *path) {
    static char chunk[65536];
    struct tally t = {.path = path};
    int file = open(path, 0);
    long got = 0;
    if (file < 0) {
        cannot_be_read(&t);
        return t;
    }
    while ((got = read(file, chunk, sizeof chunk)) > 0)
        for (long i = 0; i < got; i++) byte_came(&t, chunk[i]);
    if (got < 0) cannot_be_read(&t);
    close(file);
    if (t.len != 0) line_over(&t); /* a last line that no line end closes */
    counted(path, t.records, t.differ);
    return t;
}

int main(int words, char **word) {
    uint64_t records = 0, differ = 0;
    for (int i = 1; i < words; i++) {
        struct tally t = run_file(word[i]);
        records += t.records;
        differ += t.differ;
    }
    counted("replay", records, differ);
    return 0;
}
