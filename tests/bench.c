/* Times the operations of the library on one table file over the C interface: `bench FILE` times all but the check, `bench FILE check`
 * the check, and the compressed text with it. Built and run by tests/bench, once with the library as it is and once with a check that
 * answers 0 at once. A line for each operation: its name, then nanoseconds of the best of several batches; for a replay also what it
 * read and made, for letters how many labels are listed, for a text how many bytes a microsecond it is written at. */
#include <stdbool.h>
#include <stdint.h>
#include <stdio.h>
#include <stdlib.h>
#include <string.h>
#include <time.h>

#define TABLE const uint32_t *, size_t, const uint8_t *, size_t
uint32_t bulonkeri_check(TABLE);
uint32_t bulonkeri_parents(TABLE, uint32_t *, size_t, uint64_t *);
uint32_t bulonkeri_distances(TABLE, uint16_t *, size_t, uint64_t *);
uint32_t bulonkeri_packed_list(TABLE, bool, uint32_t *, size_t, uint32_t *, size_t, uint64_t *);
uint32_t bulonkeri_normal_list(TABLE, bool, uint32_t *, size_t, uint32_t *, size_t, uint64_t *);
uint32_t bulonkeri_letters(TABLE, uint32_t, uint32_t, uint32_t, uint32_t *, size_t, uint16_t *, size_t, uint32_t *, size_t, uint8_t *, size_t, uint64_t *, uint64_t *);
uint32_t bulonkeri_text(TABLE, uint32_t, uint32_t, uint32_t, uint32_t, uint32_t *, size_t, uint16_t *, size_t, uint8_t *, size_t, uint64_t *);
uint32_t bulonkeri_decode(TABLE, const uint32_t *, size_t, const uint8_t *, size_t, uint32_t *, size_t, uint64_t *);
uint32_t bulonkeri_replay(TABLE, const uint32_t *, size_t, uint32_t *, size_t, uint32_t *, size_t, uint32_t *, size_t, uint64_t *, uint64_t *);

static uint32_t *words; static uint8_t *labels; static size_t words_n, labels_n;
static uint32_t *work, *out; static uint16_t *out16; static size_t work_n, out_n = 5000000;
static uint64_t written;

static uint32_t run_check(void) { return bulonkeri_check(words, words_n, labels, labels_n); }
static uint32_t run_parents(void) { return bulonkeri_parents(words, words_n, labels, labels_n, out, out_n, &written); }
static uint32_t run_distances(void) { return bulonkeri_distances(words, words_n, labels, labels_n, out16, out_n, &written); }
static uint32_t run_packed(void) { return bulonkeri_packed_list(words, words_n, labels, labels_n, false, work, work_n, out, out_n, &written); }
static uint32_t run_explicit(void) { return bulonkeri_packed_list(words, words_n, labels, labels_n, true, work, work_n, out, out_n, &written); }
static uint32_t run_normal(void) { return bulonkeri_normal_list(words, words_n, labels, labels_n, false, work, work_n, out, out_n, &written); }

/* The standard layout: width 79, indent 6, first position 0. */
static uint16_t *sums; static size_t sums_n; static uint8_t *bytes; static size_t bytes_n = 100000000; static uint64_t listed; static uint32_t style;
static uint32_t run_letters(void) {
    return bulonkeri_letters(words, words_n, labels, labels_n, 79, 6, 0, work, work_n, sums, sums_n, out, out_n, bytes, bytes_n, &listed, &written);
}
static uint32_t run_text(void) { return bulonkeri_text(words, words_n, labels, labels_n, style, 79, 6, 0, work, work_n, sums, style ? 0 : sums_n, bytes, bytes_n, &written); }

/* The list that the last call wrote, read back. */
static uint32_t *steps, *stack, *entries, *children; static size_t steps_n, stack_n; static uint64_t second;
static uint32_t run_replay(void) {
    return bulonkeri_replay(words, words_n, labels, labels_n, steps, steps_n, stack, stack_n, entries, 3 * (size_t)words[2], children, words[3] + 1, &written, &second);
}

static double now(void) { struct timespec t; clock_gettime(CLOCK_MONOTONIC, &t); return t.tv_sec * 1e9 + t.tv_nsec; }

/* The best of nine batches of about ten milliseconds each; of two calls, where one takes longer than a fifth of a second. */
static double best(uint32_t (*run)(void), uint32_t *number) {
    double begin = now(); *number = run(); double one = now() - begin, least = one;
    long many = one > 1e7 ? 1 : (long)(1e7 / (one + 1)) + 1;
    for (int batch = 0; batch < (one > 2e8 ? 1 : 9); batch++) {
        begin = now();
        for (long i = 0; i < many; i++) *number = run();
        double each = (now() - begin) / many;
        if (each < least) least = each;
    }
    return least;
}

static void show_replay(const char *name, uint32_t (*list)(void)) {
    if (list()) return;
    steps_n = written; steps = malloc(4 * steps_n + 1); memcpy(steps, out, 4 * steps_n);
    stack_n = 2 * (steps_n / 5); stack = malloc(4 * stack_n + 1);
    entries = malloc(12 * (size_t)words[2] + 1); children = malloc(4 * (size_t)words[3] + 5);
    uint32_t number; double ns = best(run_replay, &number);
    if (number) printf("%s refused %u\n", name, number);
    else printf("%s %.0f (%zu steps, %lu entries)\n", name, ns, steps_n / 5, (unsigned long)written / 3);
    free(steps); free(stack); free(entries); free(children);
}

/* What the last call of letters wrote, decoded. */
static uint32_t *list; static uint8_t *spelled; static size_t list_n, spelled_n;
static uint32_t run_decode(void) { return bulonkeri_decode(words, words_n, labels, labels_n, list, list_n, spelled, spelled_n, out, out_n, &written); }

static void show_letters(void) {
    uint32_t number; double ns = best(run_letters, &number);
    if (number) { printf("letters refused %u\n", number); return; }
    printf("letters %.0f (%lu labels)\n", ns, (unsigned long)listed);
    list_n = listed; list = malloc(4 * list_n + 1); memcpy(list, out, 4 * list_n);
    spelled_n = written; spelled = malloc(spelled_n + 1); memcpy(spelled, bytes, spelled_n);
    ns = best(run_decode, &number);
    if (number) printf("decode refused %u\n", number);
    else printf("decode %.0f (%zu letters)\n", ns, spelled_n);
    free(list); free(spelled);
}

/* A plain copy of the text that was written last: what writing costs at the least. */
static uint8_t *copied;
static uint32_t run_copy(void) { memcpy(copied, bytes, written); return 0; }

static void show_text(const char *name, uint32_t which) {
    style = which;
    uint32_t number; double ns = best(run_text, &number);
    if (number) printf("%s refused %u\n", name, number);
    else {
        uint32_t none; double plain = best(run_copy, &none);
        printf("%s %.0f (%lu bytes, %.0f MB/s; a copy %.0f ns)\n", name, ns, (unsigned long)written, 1e3 * written / ns, plain);
    }
}

static void show(const char *name, uint32_t (*run)(void)) {
    uint32_t number; double ns = best(run, &number);
    if (number) printf("%s refused %u\n", name, number);
    else printf("%s %.0f\n", name, ns);
}

int main(int count, char **arguments) {
    if (count != 2 && count != 3) { fprintf(stderr, "usage: bench FILE [check]\n"); return 2; }
    FILE *file = fopen(arguments[1], "rb");
    uint32_t k;
    if (!file || fread(&k, 4, 1, file) != 1) { fprintf(stderr, "cannot read %s\n", arguments[1]); return 2; }
    words_n = k; words = malloc(4 * words_n + 1); labels = malloc(1 << 21);
    if (fread(words, 4, words_n, file) != words_n) { fprintf(stderr, "%s is cut short\n", arguments[1]); return 2; }
    labels_n = fread(labels, 1, 1 << 21, file);
    work_n = 8 * ((size_t)words[0] + words[2] + words[3] + 1);
    work = calloc(work_n, 4); out = calloc(out_n, 4); out16 = calloc(out_n, 2);
    sums_n = 75 * ((size_t)words[0] + 1); sums = calloc(sums_n, 2); bytes = calloc(bytes_n, 1); copied = calloc(bytes_n, 1);
    if (count == 3) { show("check", run_check); show_text("text0+check", 0); return 0; }
    show("parents", run_parents);
    show("dist", run_distances);
    show("packed", run_packed);
    show("pexplicit", run_explicit);
    show("normal", run_normal);
    show_letters();
    show_text("text0", 0); show_text("text1", 1); show_text("text2", 2); show_text("text3", 3); show_text("text4", 4);
    show_replay("replay-packed", run_packed);
    show_replay("replay-normal", run_normal);
    return 0;
}
