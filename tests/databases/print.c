/* Prints every table of a pack through the C interface: `print TABLES STYLE WIDTH INDENT FIRST TEXTS [REPEATS]`. Built by
 * tests/databases/run.
 *
 * TABLES is a pack of tables (tools/README.md says the form), TEXTS gets a pack of the texts; a table that is refused has none. Each
 * table is also read back: its letters decoded must be its packed list, and that list replayed must give the table's own entries and
 * children, for tools/mm2table appends entries as document 01's replay does.
 *
 * One line for each refusal with its count, then `N tables, N printed, N read back wrong` and the seconds that all calls for a text took,
 * and the table's checks by themselves; each call is made REPEATS times (1 by default) and the best is counted. Exit status 1 where a
 * table is read back wrong or the pack cannot be read. */
#include <stdbool.h>
#include <stdint.h>
#include <stdio.h>
#include <stdlib.h>
#include <string.h>
#include <time.h>

#include "../../include/bulonkeri.h"

enum {
    STEP = 5, ENTRY = 3, MAX_STATEMENTS = 4096, MAX_ENTRIES = 8192, MAX_CHILDREN = 65535, MAX_WIDTH = 255, LETTERS_A_STEP = 14,
    REFUSALS = 19, LONGEST_TEXT = 1 << 30
};

typedef struct { uint32_t style, width, indent, first; int repeats; } Settings;
typedef struct { uint8_t *bytes; uint32_t length; } Field;
typedef struct { const uint32_t *words; size_t words_length; const uint8_t *labels; size_t labels_length; } Table;

#define TABLE(t) t.words, t.words_length, t.labels, t.labels_length

/* Lent memory, each as long as the largest table asks; a call gets as much of it as its table asks. */
static uint32_t work[8 * (MAX_ENTRIES + MAX_CHILDREN + MAX_STATEMENTS + 1)], steps[STEP * (MAX_CHILDREN + 1)], decoded[STEP * (MAX_CHILDREN + 1)];
static uint32_t list[MAX_STATEMENTS], entries[ENTRY * MAX_ENTRIES], children[MAX_CHILDREN];
static uint16_t sums[(MAX_STATEMENTS + 1) * (MAX_WIDTH + 2)];
static uint8_t letters[LETTERS_A_STEP * (MAX_CHILDREN + 1)], *text;

static size_t working(Table t) { return 8 * ((size_t)t.words[2] + t.words[3] + t.words[0] + 1); }
static size_t summing(Table t, Settings s) { return ((size_t)t.words[0] + 1) * (s.width - s.indent + 2); }

static double now(void) { struct timespec t; clock_gettime(CLOCK_MONOTONIC, &t); return t.tv_sec + t.tv_nsec / 1e9; }

/* A length and so many bytes; false at the end of the file. */
static bool read_field(FILE *file, Field *field) {
    if (fread(&field->length, 4, 1, file) != 1) return false;
    field->bytes = realloc(field->bytes, (size_t)field->length + 1);
    if (fread(field->bytes, 1, field->length, file) == field->length) return true;
    fprintf(stderr, "print: the pack ends inside a record\n");
    exit(1);
}

static void write_field(FILE *file, const uint8_t *bytes, uint32_t length) {
    fwrite(&length, 4, 1, file);
    fwrite(bytes, 1, length, file);
}

/* The best of some calls. */
static uint32_t timed_text(Table t, Settings s, uint64_t *written, double *seconds) {
    double best = 1e9;
    uint32_t number = 0;
    for (int i = 0; i < s.repeats; i++) {
        double begin = now();
        number = bulonkeri_text(TABLE(t), s.style, s.width, s.indent, s.first, work, working(t), sums, summing(t, s), text, LONGEST_TEXT, written);
        double took = now() - begin;
        if (took < best) best = took;
    }
    *seconds += best;
    return number;
}

static uint32_t timed_check(Table t, Settings s, double *seconds) {
    double best = 1e9;
    uint32_t number = 0;
    for (int i = 0; i < s.repeats; i++) {
        double begin = now();
        number = bulonkeri_check(TABLE(t));
        double took = now() - begin;
        if (took < best) best = took;
    }
    *seconds += best;
    return number;
}

/* The packed list replayed gives the table's own entries and children. */
static bool replays(Table t, uint64_t length) {
    uint64_t first, second;
    uint32_t number = bulonkeri_replay(TABLE(t), steps, length, work, 2 * (length / STEP), entries, ENTRY * MAX_ENTRIES, children, MAX_CHILDREN, &first, &second);
    return !number && first == ENTRY * (uint64_t)t.words[2] && second == t.words[3]
        && !memcmp(entries, t.words + t.words[6], 4 * first) && !memcmp(children, t.words + t.words[7], 4 * second);
}

/* The letters decoded are the packed list; a compressed form that is refused has none. */
static bool decodes(Table t, Settings s, uint64_t length) {
    uint64_t listed, written, again;
    uint32_t number = bulonkeri_letters(TABLE(t), s.width, s.indent, s.first, work, working(t), sums, summing(t, s), list, MAX_STATEMENTS,
                                        letters, sizeof letters, &listed, &written);
    if (number) return 10 <= number && number <= 12;
    return !bulonkeri_decode(TABLE(t), list, listed, letters, written, decoded, STEP * (MAX_CHILDREN + 1), &again)
        && again == length && !memcmp(decoded, steps, 4 * length);
}

static bool reads_back(Table t, Settings s) {
    uint64_t length;
    if (bulonkeri_packed_list(TABLE(t), false, work, working(t), steps, STEP * (MAX_CHILDREN + 1), &length)) return false;
    return replays(t, length) && decodes(t, s, length);
}

/* A table file: a count of words, the words, label bytes. */
static Table table_in(Field field) {
    uint32_t count;
    if (field.length < 4 || (memcpy(&count, field.bytes, 4), count > (field.length - 4) / 4)) {
        fprintf(stderr, "print: a table file that ends inside its words\n");
        exit(1);
    }
    size_t start = 4 + 4 * (size_t)count;
    return (Table){ (const uint32_t *)(field.bytes + 4), count, field.bytes + start, field.length - start };
}

static int print_all(FILE *source, FILE *target, Settings s) {
    Field label = { NULL, 0 }, content = { NULL, 0 };
    unsigned long tables = 0, wrong = 0, counts[REFUSALS] = { 0 };
    double text_seconds = 0, check_seconds = 0;
    while (read_field(source, &label) && read_field(source, &content)) {
        Table t = table_in(content);
        uint64_t written = 0;
        uint32_t number = timed_check(t, s, &check_seconds);
        if (!number) {
            number = timed_text(t, s, &written, &text_seconds);
            if (!reads_back(t, s)) {
                wrong++;
                printf("%.*s: read back wrong\n", (int)label.length, label.bytes);
            }
        }
        tables++;
        counts[number]++;
        if (number) continue;
        write_field(target, label.bytes, label.length);
        write_field(target, text, (uint32_t)written);
    }
    for (int k = 1; k < REFUSALS; k++) if (counts[k]) printf("refused %d: %lu\n", k, counts[k]);
    printf("%lu tables, %lu printed, %lu read back wrong; texts %.6f s, checks alone %.6f s\n", tables, counts[0], wrong, text_seconds, check_seconds);
    return wrong != 0;
}

int main(int count, char **arguments) {
    if (count != 7 && count != 8) {
        fprintf(stderr, "usage: print TABLES STYLE WIDTH INDENT FIRST TEXTS [REPEATS]\n");
        return 2;
    }
    Settings s = { (uint32_t)atoi(arguments[2]), (uint32_t)atoi(arguments[3]), (uint32_t)atoi(arguments[4]), (uint32_t)atoi(arguments[5]),
                   count == 8 ? atoi(arguments[7]) : 1 };
    if (s.width > MAX_WIDTH || s.indent < 1 || s.indent + 2 > s.width || s.first >= s.indent) {
        fprintf(stderr, "print: the layout is outside its bounds\n");
        return 2;
    }
    FILE *source = fopen(arguments[1], "rb"), *target = fopen(arguments[6], "wb");
    text = malloc(LONGEST_TEXT);
    if (!source || !target || !text) {
        perror("print");
        return 2;
    }
    int status = print_all(source, target, s);
    return fclose(target) ? 2 : status;
}
