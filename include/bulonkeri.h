/* Bulonkeri: the proved printer and reader of Metamath proofs, over C.
 *
 * Link with the archive that `tools/library` writes (target/staticlib/libcapi.a). Every function is proved, in Rattle, to give
 * the answer that docs/CONTRACTS.md states, on any input: any words, any bytes, any lengths.
 *
 * A slice is a pointer and a number of elements. The caller owns every slice; the library keeps none, allocates nothing and has no
 * state, so calls from several threads do not meet as long as the slices that they may write are apart. A pointer is valid for as many
 * elements as its length says, also where that is 0; slices that are written (`out`, `written`) overlap no other slice.
 *
 * `words` and `labels` are a table: ten header words, then statements of five words, hypothesis references, entries of three words and
 * child references; the labels lie one after another in `labels`. See README.md.
 *
 * The result is a number: 0 done, or the first refusal that applies, in the order that each function names.
 *
 *    1  fewer than 10 words, a count over its limit, a wrong offset or length
 *    2  a statement record is wrong, or labels or hypotheses do not fill their place exactly
 *    3  a label byte other than letter, digit, '.', '-', '_'; or two equal labels
 *    4  a hypothesis reference out of range, of kind 0, or repeated in its list
 *    5  an entry record is wrong, or the children do not fill their place exactly
 *    6  a child not below its parent
 *    7  the theorem is not a statement of kind 0, or QED is no entry
 *   10  the theorem's list has a floating after an essential
 *   13  a normal list of more than 1,000,000 steps
 *   14  a working slice is too short
 *   15  output does not fit
 *   16  malformed step list or label list
 *   17  malformed letters
 *   18  the stack is short, or does not hold exactly one item at the end
 *
 * `*written` gets the number of elements written, 0 on a refusal. A refusal leaves `out` as it was; success leaves what lies past the
 * end of the result as it was (bulonkeri_replay is different, see there). A working slice is left as it was by refusals 1 to 9 and 14,
 * and all zero by every other ending; its contents at the start do not matter.
 *
 * The packed walk calls itself, as deep as the proof is: a chain of 8,192 entries, the deepest that a table can hold, uses a stack of
 * less than 1 MiB. Nothing proves that the caller's stack is long enough. */
#ifndef BULONKERI_H
#define BULONKERI_H

#include <stdbool.h>
#include <stddef.h>
#include <stdint.h>

#ifdef __cplusplus
extern "C" {
#endif

/* The number with which a table is refused, 0 for a good one: tests 1 to 7. */
uint32_t bulonkeri_check(const uint32_t *words, size_t words_length, const uint8_t *labels, size_t labels_length);

/* How many child references name each entry, over all entries. Tests 1 to 7, 15 (room for one number an entry). */
uint32_t bulonkeri_parents(const uint32_t *words, size_t words_length, const uint8_t *labels, size_t labels_length,
                           uint32_t *out, size_t out_length, uint64_t *written);

/* The fewest child edges from QED to each entry, 65535 where there is no way. Tests 1 to 7, 15. */
uint32_t bulonkeri_distances(const uint32_t *words, size_t words_length, const uint8_t *labels, size_t labels_length,
                             uint16_t *out, size_t out_length, uint64_t *written);

/* The packed list from QED, five words a step: reference or 0, mark or 0, statement, parent statement plus 1, hypothesis index. The
 * last two are 0 unless `explicit`. `work` has at least 8 * (entries + child references + statements + 1) words. At most five words for
 * each child reference and five more are written. Tests 1 to 7, 14, 15. */
uint32_t bulonkeri_packed_list(const uint32_t *words, size_t words_length, const uint8_t *labels, size_t labels_length,
                               bool explicit_list, uint32_t *work, size_t work_length, uint32_t *out, size_t out_length,
                               uint64_t *written);

/* The normal list, in which everything is repeated. Tests 1 to 7, 14, 13, 15: nothing is walked before 13 is known. */
uint32_t bulonkeri_normal_list(const uint32_t *words, size_t words_length, const uint8_t *labels, size_t labels_length,
                               bool explicit_list, uint32_t *work, size_t work_length, uint32_t *out, size_t out_length,
                               uint64_t *written);

/* A step list that is not explicit, read into new entries (three words each) and their children. Equal entries are found and not
 * appended again. `work` has at least two words for each step. Tests 1 to 7, 16 (a length that is no multiple of five), 14, which
 * change nothing; then for each step 16, 18, 15, and 18 at the end: these leave both outputs and `work` all zero. Success leaves what
 * lies past the ends of the results zero, and `work` too. */
uint32_t bulonkeri_replay(const uint32_t *words, size_t words_length, const uint8_t *labels, size_t labels_length,
                          const uint32_t *steps, size_t steps_length, uint32_t *work, size_t work_length,
                          uint32_t *entries, size_t entries_length, uint32_t *children, size_t children_length,
                          uint64_t *written_entries, uint64_t *written_children);

/* The label list (statement numbers) and the letters of the compressed form. `work` has at least 8 * (entries + child references +
 * statements + 1) words, `sums` at least (statements + 1) * (width - indent + 2). The list has at most one number a statement, the
 * letters are at most 14 bytes a step of the packed list. Tests 1 to 8, 14 (either working slice), 10 to 12, 15 (either output). */
uint32_t bulonkeri_letters(const uint32_t *words, size_t words_length, const uint8_t *labels, size_t labels_length,
                           uint32_t width, uint32_t indent, uint32_t first, uint32_t *work, size_t work_length,
                           uint16_t *sums, size_t sums_length, uint32_t *list, size_t list_length,
                           uint8_t *letters, size_t letters_length, uint64_t *written_list, uint64_t *written_letters);

/* The text of a table: style 0 compressed, 1 normal, 2 packed, 3 explicit, 4 packed explicit. `work` has at least 8 * (entries + child
 * references + statements + 1) words; style 0 also asks for `sums`, at least (statements + 1) * (width - indent + 2). Nothing is written
 * unless all of the text fits, and no byte follows its last word `$.`. Tests 1 to 9, 14, 10 to 12 (style 0), 13 (styles 1 and 3), 15. */
uint32_t bulonkeri_text(const uint32_t *words, size_t words_length, const uint8_t *labels, size_t labels_length,
                        uint32_t style, uint32_t width, uint32_t indent, uint32_t first, uint32_t *work, size_t work_length,
                        uint16_t *sums, size_t sums_length, uint8_t *out, size_t out_length, uint64_t *written);

/* The step list, five words a step, that letters with their label list spell. Tests 1 to 7, 10, 16 (a list item that is no statement,
 * is in the theorem's list, or stands twice), 17, 15. No letters give no steps. */
uint32_t bulonkeri_decode(const uint32_t *words, size_t words_length, const uint8_t *labels, size_t labels_length,
                          const uint32_t *list, size_t list_length, const uint8_t *letters, size_t letters_length,
                          uint32_t *out, size_t out_length, uint64_t *written);

#ifdef __cplusplus
}
#endif

#endif
