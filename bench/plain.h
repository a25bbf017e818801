// The same pick over BuDDy.
#ifndef PLAIN_H
#define PLAIN_H
#include <stdint.h>

typedef struct {
    uint64_t mask, cost;
} plain_answer;

// Once for the whole run: a table of so many nodes, which grows where it must, and for so many nodes one entry in each cache.
void plain_start(int nodes, int ratio);
// The lightest set that meets every loop.
plain_answer plain_pick(const uint64_t *rows, const uint32_t *costs, int n);
// Collects garbage now if fewer nodes are free than so many, so that it is not collected in the middle of a pick.
void plain_make_room(int nodes);
#endif
