/* Walks a chain of 8,192 entries, the deepest that a table can hold, in a thread with the stack that its argument names (bytes);
 * with a second argument the list is explicit. Built and run by tests/deep. */
#include <pthread.h>
#include <stdbool.h>
#include <stdint.h>
#include <stdio.h>
#include <stdlib.h>
uint32_t bulonkeri_packed_list(const uint32_t *, size_t, const uint8_t *, size_t, bool, uint32_t *, size_t, uint32_t *, size_t, uint64_t *);
enum { N = 8192, S = 3 };
static uint32_t words[10 + 5 * S + 1 + 3 * N + N - 1], work[8 * (N + N - 1 + S + 1)], out[5 * N];
static const uint8_t labels[] = "abc";
static void *walk(void *explicit_list) {
    uint64_t written; uint32_t number = bulonkeri_packed_list(words, sizeof words / 4, labels, 3, explicit_list != 0, work, sizeof work / 4, out, sizeof out / 4, &written);
    printf("answer %u, %lu words\n", number, (unsigned long)written); return 0;
}
int main(int count, char **arguments) {
    uint32_t head[] = { S, 1, N, N - 1, 10, 10 + 5 * S, 10 + 5 * S + 1, 10 + 5 * S + 1 + 3 * N, 1, N - 1, 1, 0, 1, 0, 0, 0, 1, 1, 0, 1, 0, 2, 1, 1, 0, 0 };
    size_t at = 0;
    for (size_t i = 0; i < sizeof head / 4; i++) words[at++] = head[i];
    for (uint32_t e = 0; e < N; e++) { words[at++] = e ? 1 : 0; words[at++] = e ? e - 1 : 0; words[at++] = e ? 1 : 0; }
    for (uint32_t e = 0; e + 1 < N; e++) words[at++] = e;
    pthread_attr_t a; pthread_attr_init(&a); pthread_attr_setstacksize(&a, strtoul(arguments[1], 0, 10));
    pthread_t t; if (pthread_create(&t, &a, walk, count > 2 ? words : 0)) return 1;
    pthread_join(t, 0); return 0;
}
