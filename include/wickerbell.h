/* Wickerbell for C: does every lasso that a model accepts keep a rule, and is one lasso accepted by one automaton?
 *
 * The functions are proved, and what is proved holds for callers that keep this:
 *   - A slice is a pointer and the number of its elements (not bytes). The pointer is not null and is aligned for its
 *     element, even where the length is 0; the elements lie one after another and all of them are initialized.
 *   - What may be written (a pointer without const) overlaps nothing else that is lent in the same call. Slices that are
 *     only read may overlap each other.
 *   - Nothing else writes any lent element, or reads one that may be written, before the call returns.
 *   - The calling thread has 1 MiB of stack left, of which less than half is used: scratch lies there. Nothing is
 *     allocated and nothing is kept from call to call, so threads may call at the same time, each with its own lent elements.
 *
 * Link crates/host/out/libhost.a, which `rt lib` in crates/host writes.
 */
#ifndef WICKERBELL_H
#define WICKERBELL_H

#include <stddef.h>
#include <stdint.h>

#ifdef __cplusplus
extern "C" {
#endif

/* The lasso test: is the stem, followed by the period again and again for ever, accepted by the automaton that the
 * records spell out (states 0 to 15)? Letters are bytes 0 to 15, words may be of any length.
 * 0 rejected, 1 accepted, or 100 plus the refusal: 101 to 106 bad records, 110 empty period, 111 a letter above 15. */
uint32_t wickerbell_lasso(const uint8_t *records, size_t records_length,
                          const uint8_t *stem, size_t stem_length,
                          const uint8_t *period, size_t period_length);

/* The nine numbers that wickerbell_decide writes into its row. */
enum wickerbell_row {
    WICKERBELL_NUMBER,        /* 0: walked to the end, verdict given; 1 to 9: the refusal */
    WICKERBELL_WHICH,         /* 1 to 6: 0 model, 1 rule; 8: 0 table U, 1 table W */
    WICKERBELL_PLACE,         /* 1 to 6: offset in that file; 8: S; 9: P */
    WICKERBELL_U,             /* entries of U */
    WICKERBELL_W,             /* entries of W */
    WICKERBELL_P,             /* entries of the largest period table */
    WICKERBELL_T,             /* tests made */
    WICKERBELL_STEM_LENGTH,   /* letters of the shown stem */
    WICKERBELL_PERIOD_LENGTH, /* letters of the shown period */
    WICKERBELL_ROW_LENGTH
};

/* Is every lasso that the model accepts (states 0 to 15) accepted by the rule (states 0 to 7)?
 *
 * Returns the answer number and writes the whole answer into the first nine elements of `row`. With number 0, a period
 * length above 0 means not included: the first bytes of `stem` and `period` are then a lasso that the model accepts and
 * the rule rejects. With number 0 and a period length of 0 the model is included.
 *
 * S, `stem_room`, is 1 to 4,096 and P, `period_room`, 1 to 65,535. Least lengths: `smallest`, `largest` and `stem` S;
 * `links` and `period` P; `contexts` 2P; `row` 9. A row that is shorter counts as one more table that is too short:
 * the number is then 1 to 6 if a file is bad, else 7, and the row stays as it came.
 * After 1 to 7 nothing but the row is written. After 0, 8 and 9 `smallest` and `largest` hold the entries of U and W, and
 * the first P links and 2P contexts are zero. Every other element stays as it came. */
uint32_t wickerbell_decide(const uint8_t *model, size_t model_length,
                           const uint8_t *rule, size_t rule_length,
                           uint64_t stem_room, uint64_t period_room,
                           uint32_t *smallest, size_t smallest_length,
                           uint32_t *largest, size_t largest_length,
                           uint32_t *links, size_t links_length,
                           uint64_t *contexts, size_t contexts_length,
                           uint8_t *stem, size_t stem_length,
                           uint8_t *period, size_t period_length,
                           uint64_t *row, size_t row_length);

#ifdef __cplusplus
}
#endif

#endif
