/* The scan picker for C. Link with libscanpick_c.a (`rt lib` in crates/scanpick_c).
 *
 * A block has n flip-flops, 0 to n - 1, n at most 64. Bit w of rows[v] is set where an edge goes from v to w; costs[v] is what it costs to make v
 * scannable. A set of flip-flops is a mask. Edges from a flip-flop to itself count nowhere but in files.
 *
 * Every function takes any input and checks it. out[0] is 0 for an answer; else it is the number of the refusal, out[1] its place, and every other
 * result is 0. No pointer is NULL, also where its length is 0, and buffers that are written to overlap no other.
 *
 * Refusals: 1 more than 64 rows, or a file count above 64; 2 costs and rows differ in number; 3 a row has a bit at n or above (place: the lowest such
 * row); 4 the node room is too small (place: the lowest flip-flop of the first component that doesn't fit); 5 file shorter than 6 bytes, or first three
 * not FVG; 6 file version not 1; 7 file length not 6 + 12n; 8 a lent output is too short; 9 the kept mask has a bit at n or above.
 */
#ifndef SCANPICK_H
#define SCANPICK_H

#include <stddef.h>
#include <stdint.h>

#ifdef __cplusplus
extern "C" {
#endif

/* The set of least total cost that meets every loop of two or more flip-flops; of those, the one with the smallest mask.
 * nodes and memo are rooms to work in, of any length. What they hold on entry changes no answer, nor does the memo room's length; a memo room as long
 * as the node room is the good choice where time counts. The node room's capacity is its length, or 65,536 if that is less: the block is refused with
 * 4 exactly when some component left by the reduction needs more.
 * After an answer or refusal 4 the memo room and the node room's first 65,536 words are zero; the node room past that is neither read nor written. Other
 * refusals write nothing but out.
 * out: number, place, mask, cost, need (the largest need of a component; 0 without components). Refusals, in this order: 1, 2, 3, 4. */
void scanpick_pick(const uint64_t *rows, size_t rows_len, const uint32_t *costs, size_t costs_len, uint64_t *nodes, size_t nodes_len, uint64_t *memo,
                   size_t memo_len, uint64_t out[5]);

/* Whether the flip-flops of the mask `kept` hold a loop of two or more flip-flops. Rooms as with scanpick_pick; here the components are those of the
 * block as lent, so the need is another.
 * out: number, place, yes (1 or 0), need. Refusals, in this order: 1, 3, 9, 4. */
void scanpick_ask(const uint64_t *rows, size_t rows_len, uint64_t kept, uint64_t *nodes, size_t nodes_len, uint64_t *memo, size_t memo_len,
                  uint64_t out[4]);

/* The reduction: `limit` steps, fewer only when no rule applies. A limit of n or more is full reduction, one of 0 only drops self edges.
 * steps: in order, flip-flop + 256 * (0 dropped, 1 forced, 2 folded) + 65536 * the neighbour that it was folded into; 0 past the last.
 * left: the rows, in which only edges among live flip-flops stand; 0 past the last.
 * out: number, place, count of steps, forced set, live set. Refusals, in this order: 1, 2, 3; then steps and left are all 0. */
void scanpick_reduce(const uint64_t *rows, size_t rows_len, const uint32_t *costs, size_t costs_len, uint64_t limit, uint64_t out[5],
                     uint64_t steps[64], uint64_t left[64]);

/* The block of a file, into the first n costs and rows; what follows stays. A refusal writes nothing but out.
 * out: number, place, n. Refusals, in this order: 5, 6, 1, 7, 3, 8. */
void scanpick_read(const uint8_t *file, size_t file_len, uint32_t *costs, size_t costs_len, uint64_t *rows, size_t rows_len, uint64_t out[3]);

/* The block as a file, into the first 6 + 12n bytes; what follows stays. A refusal writes nothing but out.
 * out: number, place, length. Refusals, in this order: 1, 2, 3, 8. */
void scanpick_write(const uint64_t *rows, size_t rows_len, const uint32_t *costs, size_t costs_len, uint8_t *file, size_t file_len, uint64_t out[3]);

#ifdef __cplusplus
}
#endif

#endif
