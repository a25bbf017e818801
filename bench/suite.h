// The suite of the measurements: seeded blocks of six classes, each with three kinds of costs.
#ifndef SUITE_H
#define SUITE_H
#include <stdint.h>

typedef struct {
    const char *family, *kind; // the class of the graph, the kind of its costs
    int n;
    uint64_t rows[64];
    uint32_t costs[64];
} block;

enum { SHAPES = 20, SUITE_MOST = 6 * 3 * SHAPES };

// Fills the suite, the same on every run; answers the number of blocks.
int make_suite(block suite[SUITE_MOST]);

// Single blocks by class, for profiles: n flip-flops, costs of kind 0 equal, 1 small, 2 large.
block two_way_ring(int n, int kind, uint64_t seed);
block all_edges(int n, int kind, uint64_t seed);
block sparse(int n, int kind, uint64_t seed);
#endif
