/* Reads cases as the oracle does (`CASE id width indent first nwords w0 .. LABELHEX`) and answers each from the library in the oracle's
 * form, so that the two can be compared line by line. Built and run by tests/compare.
 *
 * A refusal of one operation is `id KEY REFUSED n`. Beyond the oracle's lines, `id memory WHAT` says that a call left memory as it must
 * not, and `id readback WHAT` that a list read back gave other entries; neither is ever printed where all is right.
 * Each slice that is lent to be written is as long as document 01 asks and a few elements longer, and filled with a pattern first. */
#include <stdbool.h>
#include <stdint.h>
#include <stdio.h>
#include <stdlib.h>
#include <string.h>

#include "../include/bulonkeri.h"

enum { SPARE = 3, STEP = 5, ENTRY = 3, MAX_NORMAL = 1000000, SHORT = 5000 };

typedef struct { void *at; size_t length, size; } Slice;

static uint8_t pattern(size_t i) { return (uint8_t)(1 + i * 31 % 251); }

static Slice lend(size_t length, size_t size) {
    Slice s = { malloc(length * size + 1), length, size };
    for (size_t i = 0; i < length * size; i++) ((uint8_t *)s.at)[i] = pattern(i);
    return s;
}

static bool kept_from(Slice s, size_t from) {
    for (size_t i = from * s.size; i < s.length * s.size; i++) if (((uint8_t *)s.at)[i] != pattern(i)) return false;
    return true;
}

static bool zero_from(Slice s, size_t from) {
    for (size_t i = from * s.size; i < s.length * s.size; i++) if (((uint8_t *)s.at)[i]) return false;
    return true;
}

static const char *id;
static const uint32_t *words;
static const uint8_t *labels;
static size_t words_length, labels_length;
static uint32_t width, indent, first;
static size_t most; /* longer lists and texts are answered by a hash, as the oracle does with ORACLE_MAX */

#define TABLE words, words_length, labels, labels_length

/* Working slices are unchanged after 1 to 9 and 14, else zero; outputs are kept past what was written. */
static void memory(const char *what, uint32_t number, Slice work, Slice sums, Slice out, size_t written, Slice out2, size_t written2) {
    bool early = (1 <= number && number <= 9) || number == 14;
    bool works = early ? kept_from(work, 0) && kept_from(sums, 0) : zero_from(work, 0) && zero_from(sums, 0);
    bool outs = kept_from(out, number ? 0 : written) && kept_from(out2, number ? 0 : written2);
    if (!works || !outs || (number && (written || written2))) printf("%s memory %s\n", id, what);
}

static const Slice none = { NULL, 0, 1 };

static uint64_t hash(const uint8_t *bytes, size_t length) {
    uint64_t h = 0xcbf29ce484222325u;
    for (size_t i = 0; i < length; i++) h = (h ^ bytes[i]) * 0x100000001b3u;
    return h;
}

static void put_steps(const char *key, uint32_t number, const uint32_t *steps, size_t length) {
    if (number == 13) { printf("%s %s TOOMANY\n", id, key); return; }
    if (number) { printf("%s %s REFUSED %u\n", id, key, number); return; }
    printf("%s %s %zu", id, key, length / STEP);
    if (length / STEP > most) printf(" HASH %016llx", (unsigned long long)hash((const uint8_t *)steps, 4 * length));
    else for (size_t i = 0; i < length; i++) printf(" %u", steps[i]);
    printf("\n");
}

static size_t working(void) { return 8 * ((size_t)words[2] + words[3] + words[0] + 1); }

static Slice list_of(const char *key, bool packed, bool explicit_list, size_t room, uint64_t *written, uint32_t *number) {
    Slice work, out;
    /* most lists are short: a long slice is lent only where a short one was refused */
    for (size_t lent = room < SHORT ? room : SHORT;; lent = room) {
        work = lend(working(), 4), out = lend(lent + SPARE, 4);
        *number = (packed ? bulonkeri_packed_list : bulonkeri_normal_list)(TABLE, explicit_list, work.at, work.length, out.at, out.length, written);
        memory(key, *number, work, none, out, *written, none, 0);
        if (*number != 15 || lent == room) break;
        free(work.at); free(out.at);
    }
    put_steps(key, *number, out.at, *written);
    free(work.at);
    return out;
}

/* A list read back: its entries and children, for comparing. */
typedef struct { Slice entries, children; uint64_t entries_written, children_written; uint32_t number; } Read;

static Read read_back(const char *what, const uint32_t *steps, size_t length) {
    Read r = { lend(ENTRY * (size_t)words[2] + SPARE, 4), lend((size_t)words[3] + SPARE, 4), 0, 0, 0 };
    Slice work = lend(2 * (length / STEP), 4);
    r.number = bulonkeri_replay(TABLE, steps, length, work.at, work.length, r.entries.at, r.entries.length, r.children.at, r.children.length,
                                &r.entries_written, &r.children_written);
    if (r.number || !zero_from(work, 0) || !zero_from(r.entries, r.entries_written) || !zero_from(r.children, r.children_written))
        printf("%s readback %s %u\n", id, what, r.number);
    free(work.at);
    return r;
}

static void same(const char *what, Read a, Read b) {
    if (a.number == b.number && a.entries_written == b.entries_written && a.children_written == b.children_written
        && !memcmp(a.entries.at, b.entries.at, 4 * a.entries_written) && !memcmp(a.children.at, b.children.at, 4 * a.children_written)) return;
    printf("%s readback %s differs\n", id, what);
}

static void free_read(Read r) { free(r.entries.at); free(r.children.at); }

static void counts(void) {
    Slice out = lend(words[2] + SPARE, 4), out16 = lend(words[2] + SPARE, 2);
    uint64_t written;
    uint32_t number = bulonkeri_parents(TABLE, out.at, out.length, &written);
    memory("parents", number, none, none, out, written, none, 0);
    printf("%s parents", id);
    for (size_t i = 0; i < written; i++) printf(" %u", ((uint32_t *)out.at)[i]);
    number = bulonkeri_distances(TABLE, out16.at, out16.length, &written);
    memory("distances", number, none, none, out16, written, none, 0);
    printf("\n%s dist", id);
    for (size_t i = 0; i < written; i++) printf(" %u", ((uint16_t *)out16.at)[i]);
    printf("\n");
    free(out.at); free(out16.at);
}

static Slice sums_for(void) { return lend(((size_t)words[0] + 1) * (width >= indent ? width - indent + 2 : 0), 2); }

/* Label list and letters; decoded they must be the packed list. */
static void label_letters(const uint32_t *packed, size_t packed_length) {
    Slice work = lend(working(), 4), sums = sums_for(), list = lend(words[0] + SPARE, 4), letters = lend(14 * (packed_length / STEP) + SPARE, 1);
    uint64_t listed, written;
    uint32_t number = bulonkeri_letters(TABLE, width, indent, first, work.at, work.length, sums.at, sums.length, list.at, list.length,
                                        letters.at, letters.length, &listed, &written);
    memory("letters", number, work, sums, list, listed, letters, written);
    if (number) printf("%s labels REFUSED %u\n%s letters REFUSED %u\n", id, number, id, number);
    else {
        printf("%s labels", id);
        for (size_t i = 0; i < listed; i++) printf(" %u", ((uint32_t *)list.at)[i]);
        printf("\n%s letters %.*s\n", id, (int)written, (char *)letters.at);
        Slice decoded = lend(packed_length + SPARE, 4);
        uint64_t steps;
        uint32_t refused = bulonkeri_decode(TABLE, list.at, listed, letters.at, written, decoded.at, decoded.length, &steps);
        if (refused || steps != packed_length || memcmp(decoded.at, packed, 4 * steps) || !kept_from(decoded, steps)) printf("%s readback letters %u\n", id, refused);
        free(decoded.at);
    }
    free(work.at); free(sums.at); free(list.at); free(letters.at);
}

#ifdef WITH_TEXT
static void text(uint32_t style) {
    static uint8_t longest[1 << 28];
    Slice work = lend(working(), 4), sums = style ? none : sums_for();
    uint64_t written;
    char key[8];
    snprintf(key, sizeof key, "text%u", style);
    uint32_t number = bulonkeri_text(TABLE, style, width, indent, first, work.at, work.length, sums.at, sums.length, longest, sizeof longest, &written);
    memory(key, number, work, sums, none, 0, none, 0);
    if (number == 13) printf("%s %s TOOMANY\n", id, key);
    else if (number) printf("%s %s REFUSED %u\n", id, key, number);
    else {
        /* once more with just enough room, and once with one byte too few: the rest of the output is kept, or all of it */
        Slice out = lend(written + SPARE, 1);
        uint64_t again;
        free(work.at); work = lend(working(), 4);
        number = bulonkeri_text(TABLE, style, width, indent, first, work.at, work.length, sums.at, sums.length, out.at, written, &again);
        if (number || again != written || memcmp(out.at, longest, written) || !kept_from(out, written)) printf("%s memory %s-room\n", id, key);
        free(out.at); out = lend(written, 1);
        number = bulonkeri_text(TABLE, style, width, indent, first, work.at, work.length, sums.at, sums.length, out.at, written - 1, &again);
        if (number != 15 || again || !kept_from(out, 0)) printf("%s memory %s-short\n", id, key);
        free(out.at);
        printf("%s %s ", id, key);
        if (written > 8 * most) printf("%llu HASH %016llx", (unsigned long long)written, (unsigned long long)hash(longest, written));
        else for (size_t i = 0; i < written; i++) printf("%02x", longest[i]);
        printf("\n");
    }
    free(work.at); free(sums.at);
}
#endif

static void answer(void) {
    uint32_t refused = bulonkeri_check(TABLE);
    if (refused) { printf("%s refused %u\n%s end\n", id, refused, id); return; }
    uint64_t packed_length, length, normal_length;
    uint32_t number, normal_number;
    counts();
    size_t room = STEP * ((size_t)words[3] + 1);
    Slice normal = list_of("normal", false, false, STEP * (size_t)MAX_NORMAL, &normal_length, &normal_number);
    free(list_of("explicit", false, true, STEP * (size_t)MAX_NORMAL, &length, &number).at);
    Slice packed = list_of("packed", true, false, room, &packed_length, &number);
    free(list_of("pexplicit", true, true, room, &length, &number).at);
    Read read = read_back("packed", packed.at, packed_length);
    if (!normal_number) {
        Read again = read_back("normal", normal.at, normal_length);
        same("normal", read, again);
        free_read(again);
    }
    label_letters(packed.at, packed_length);
#ifdef WITH_TEXT
    for (uint32_t style = 0; style < 5; style++) text(style);
#endif
    printf("%s end\n", id);
    free_read(read); free(normal.at); free(packed.at);
}

static char *cursor;
static char *word(void) { char *w = strtok_r(NULL, " \n", &cursor); return w ? w : ""; }

int main(void) {
    char *line = NULL;
    size_t room = 0;
    const char *limit = getenv("ORACLE_MAX");
    most = limit ? strtoull(limit, NULL, 10) : SIZE_MAX / 64;
    while (getline(&line, &room, stdin) > 0) {
        if (strcmp(strtok_r(line, " \n", &cursor), "CASE")) { fprintf(stderr, "compare: a line that is no CASE\n"); return 2; }
        id = word();
        width = (uint32_t)strtoul(word(), NULL, 10); indent = (uint32_t)strtoul(word(), NULL, 10); first = (uint32_t)strtoul(word(), NULL, 10);
        words_length = strtoull(word(), NULL, 10);
        uint32_t *w = malloc(4 * words_length + 1);
        for (size_t i = 0; i < words_length; i++) w[i] = (uint32_t)strtoul(word(), NULL, 10);
        const char *hex = word();
        labels_length = *hex == '-' ? 0 : strlen(hex) / 2;
        uint8_t *b = malloc(labels_length + 1);
        for (size_t i = 0; i < labels_length; i++) { unsigned x; sscanf(hex + 2 * i, "%2x", &x); b[i] = (uint8_t)x; }
        words = w; labels = b;
        answer();
        fflush(stdout);
        free(w); free(b);
    }
    return 0;
}
