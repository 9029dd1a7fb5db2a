/* Runs a case file (its format is told in tests/README.md) against the C interface of the library and prints what differs.
 * Built and run by tests/cases.
 * Calls of functions that the library does not have yet are skipped and counted (without --whole-archive: all of them).
 * Lent slices are filled with a pattern first, so that "unchanged", "zero" and "written" can be told apart. Each slice
 * stands in its own allocation (a byte longer than asked, for the empty ones), so valgrind sees an access past its end.
 * Last line: "N calls, M different". Exit status 1 where M > 0 or N = 0. */
#include <stdbool.h>
#include <stdint.h>
#include <stdio.h>
#include <stdlib.h>
#include <string.h>

#define TABLE const uint32_t *, size_t, const uint8_t *, size_t
uint32_t bulonkeri_check(TABLE);
uint32_t bulonkeri_parents(TABLE, uint32_t *, size_t, uint64_t *);
uint32_t bulonkeri_distances(TABLE, uint16_t *, size_t, uint64_t *);
uint32_t bulonkeri_packed_list(TABLE, bool, uint32_t *, size_t, uint32_t *, size_t, uint64_t *);
uint32_t bulonkeri_normal_list(TABLE, bool, uint32_t *, size_t, uint32_t *, size_t, uint64_t *);
uint32_t bulonkeri_letters(TABLE, uint32_t, uint32_t, uint32_t, uint32_t *, size_t, uint16_t *, size_t, uint32_t *, size_t, uint8_t *, size_t, uint64_t *, uint64_t *);
uint32_t bulonkeri_text(TABLE, uint32_t, uint32_t, uint32_t, uint32_t, uint32_t *, size_t, uint16_t *, size_t, uint8_t *, size_t, uint64_t *);
uint32_t bulonkeri_replay(TABLE, const uint32_t *, size_t, uint32_t *, size_t, uint32_t *, size_t, uint32_t *, size_t, uint64_t *, uint64_t *);
uint32_t bulonkeri_decode(TABLE, const uint32_t *, size_t, const uint8_t *, size_t, uint32_t *, size_t, uint64_t *);

#pragma weak bulonkeri_check
#pragma weak bulonkeri_parents
#pragma weak bulonkeri_distances
#pragma weak bulonkeri_packed_list
#pragma weak bulonkeri_normal_list
#pragma weak bulonkeri_letters
#pragma weak bulonkeri_text
#pragma weak bulonkeri_replay
#pragma weak bulonkeri_decode
static bool has(const char *op) {
    switch (op[0]) {
    case 'c': return bulonkeri_check; case 'n': return bulonkeri_normal_list; case 'l': return bulonkeri_letters; case 't': return bulonkeri_text; case 'r': return bulonkeri_replay;
    case 'd': return op[1] == 'i' ? (bool)bulonkeri_distances : (bool)bulonkeri_decode;
    default: return op[2] == 'r' ? (bool)bulonkeri_parents : (bool)bulonkeri_packed_list;
    }
}

static uint32_t crc_table[256];
static void crc_init(void) { for (uint32_t i = 0; i < 256; i++) { uint32_t c = i; for (int k = 0; k < 8; k++) c = c & 1 ? 0xEDB88320u ^ (c >> 1) : c >> 1; crc_table[i] = c; } }
static uint32_t crc(const void *p, size_t n) { const uint8_t *b = p; uint32_t c = 0xFFFFFFFFu; while (n--) c = crc_table[(c ^ *b++) & 255] ^ (c >> 8); return c ^ 0xFFFFFFFFu; }

typedef struct { void *p; size_t n, size; } Slice;
static uint8_t pattern(size_t i) { return (uint8_t)(1 + i * 31 % 251); } /* never 0 */
static Slice lend(size_t n, size_t size) { Slice s = { malloc(n * size + 1), n, size }; for (size_t i = 0; i < n * size; i++) ((uint8_t *)s.p)[i] = pattern(i); return s; }
static bool is_kept(Slice s, size_t from) { for (size_t i = from * s.size; i < s.n * s.size; i++) if (((uint8_t *)s.p)[i] != pattern(i)) return false; return true; }
static bool is_zero(Slice s, size_t from) { for (size_t i = from * s.size; i < s.n * s.size; i++) if (((uint8_t *)s.p)[i]) return false; return true; }
static const char *state(Slice *s, size_t *from, int k) {
    bool kept = true, zero = true; size_t left = 0;
    for (int i = 0; i < k; i++) { size_t f = from ? from[i] : 0; if (f > s[i].n) return "past-end"; kept = kept && is_kept(s[i], f); zero = zero && is_zero(s[i], f); left += s[i].n - f; }
    return left == 0 ? "any" : kept ? "unchanged" : zero ? "zero" : "mixed";
}

static uint32_t *words, *steps, *list; static uint8_t *labels, *letters;
static size_t words_n, steps_n, list_n, labels_n, letters_n;
static char *cursor;
static uint64_t number(void) { while (*cursor == ' ') cursor++; return strtoull(cursor, &cursor, 10); }
static uint32_t *numbers(size_t *n) { *n = number(); uint32_t *p = malloc(*n * 4 + 1); for (size_t i = 0; i < *n; i++) p[i] = (uint32_t)number(); return p; }
static int hex(int c) { return c <= '9' ? c - '0' : (c | 32) - 'a' + 10; }
static uint8_t *bytes(size_t *n) { *n = number(); while (*cursor == ' ') cursor++; uint8_t *p = malloc(*n + 1); for (size_t i = 0; i < *n; i++, cursor += 2) p[i] = (uint8_t)(hex(cursor[0]) << 4 | hex(cursor[1])); return p; }

int main(int argc, char **argv) {
    int shown_most = argc > 1 ? atoi(argv[1]) : 10, shown = 0; size_t calls = 0, different = 0, skipped = 0;
    char *line = NULL, name[256] = ""; size_t cap = 0; ssize_t got;
    crc_init();
    words = malloc(1); labels = malloc(1); steps = malloc(1); list = malloc(1); letters = malloc(1);
    while ((got = getline(&line, &cap, stdin)) > 0) {
        if (line[got - 1] == '\n') line[--got] = 0;
        cursor = line + 1;
        switch (line[0]) {
        case 'T': snprintf(name, sizeof name, "%s", line + 2); break;
        case 'W': free(words); words = numbers(&words_n); break;
        case 'L': free(labels); labels = bytes(&labels_n); break;
        case 'S': free(steps); steps = numbers(&steps_n); break;
        case 'I': free(list); list = numbers(&list_n); break;
        case 'B': free(letters); letters = bytes(&letters_n); break;
        case 'C': {
            char op[32]; int used; uint64_t a[8]; int na = 0; char want[256], answer[256];
            if (sscanf(cursor, " %31s%n", op, &used) != 1) return 2;
            cursor += used;
            if (!has(op)) { skipped++; break; }
            char *eq = strstr(cursor, "= "); if (!eq) return 2;
            while (1) { while (*cursor == ' ') cursor++; if (cursor >= eq) break; a[na++] = number(); }
            snprintf(want, sizeof want, "%s", eq + 2);
            Slice out[2], work[2]; int no = 0, nw = 0; uint64_t len[2] = { 77, 77 }; uint32_t code;
#define T words, words_n, labels, labels_n
#define S(s) (s).p, (s).n
            if (!strcmp(op, "check")) code = bulonkeri_check(T);
            else if (!strcmp(op, "parents")) { out[no++] = lend(a[0], 4); code = bulonkeri_parents(T, S(out[0]), len); }
            else if (!strcmp(op, "distances")) { out[no++] = lend(a[0], 2); code = bulonkeri_distances(T, S(out[0]), len); }
            else if (!strcmp(op, "packed") || !strcmp(op, "normal")) {
                work[nw++] = lend(a[1], 4); out[no++] = lend(a[2], 4);
                code = (op[0] == 'p' ? bulonkeri_packed_list : bulonkeri_normal_list)(T, a[0] != 0, S(work[0]), S(out[0]), len);
            } else if (!strcmp(op, "letters")) {
                work[nw++] = lend(a[3], 4); work[nw++] = lend(a[4], 2); out[no++] = lend(a[5], 4); out[no++] = lend(a[6], 1);
                code = bulonkeri_letters(T, a[0], a[1], a[2], S(work[0]), S(work[1]), S(out[0]), S(out[1]), len, len + 1);
            } else if (!strcmp(op, "text")) {
                work[nw++] = lend(a[4], 4); work[nw++] = lend(a[5], 2); out[no++] = lend(a[6], 1);
                code = bulonkeri_text(T, a[0], a[1], a[2], a[3], S(work[0]), S(work[1]), S(out[0]), len);
            } else if (!strcmp(op, "replay")) {
                work[nw++] = lend(a[0], 4); out[no++] = lend(a[1], 4); out[no++] = lend(a[2], 4);
                code = bulonkeri_replay(T, steps, steps_n, S(work[0]), S(out[0]), S(out[1]), len, len + 1);
            } else if (!strcmp(op, "decode")) { out[no++] = lend(a[0], 4); code = bulonkeri_decode(T, list, list_n, letters, letters_n, S(out[0]), len); }
            else { fprintf(stderr, "unknown call %s\n", op); return 2; }
            int p = snprintf(answer, sizeof answer, "%u", code);
            bool same;
            if (no == 0) same = !strcmp(answer, want);
            else {
                size_t from[2] = { len[0], len[1] };
                const char *w = nw ? state(work, NULL, nw) : "none", *r = state(out, from, no);
                char code_w[16], work_w[16], rest_w[16]; int at = 0;
                sscanf(want, "%15s %15s %15s%n", code_w, work_w, rest_w, &at);
                same = !strcmp(answer, code_w) && (!strcmp(w, work_w) || !strcmp(w, "any")) && (!strcmp(r, rest_w) || !strcmp(r, "any"));
                p += snprintf(answer + p, sizeof answer - p, " %s %s", w, r);
                cursor = want + at;
                for (int i = 0; i < no; i++) {
                    uint32_t c = len[i] && len[i] <= out[i].n ? crc(out[i].p, len[i] * out[i].size) : 0;
                    uint64_t wl = number(), wc = number();
                    same = same && len[i] == wl && (wl == 0 || c == wc);
                    p += snprintf(answer + p, sizeof answer - p, " %llu %u", (unsigned long long)len[i], c);
                }
            }
            calls++;
            if (!same) { different++; if (shown++ < shown_most) printf("%s: %.*s= %s, and got %s\n", name, (int)(eq - line), line, want, answer); }
            for (int i = 0; i < no; i++) free(out[i].p);
            for (int i = 0; i < nw; i++) free(work[i].p);
            break;
        }
        default: break;
        }
    }
    if (skipped) printf("%zu calls skipped: the library does not have their functions\n", skipped);
    printf("%zu calls, %zu different\n", calls, different);
    return different || calls == 0 ? 1 : 0;
}
