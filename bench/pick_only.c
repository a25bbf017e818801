// Runs pick alone, for profilers: either all blocks of a class (or of every class, with "all"), or one block.
//
//   pick_only class NAME ROOM MEMO REPEATS
//   pick_only block two-way-ring|all-edges|sparse N ROOM MEMO REPEATS
//
// It prints how many were answered, and the largest need.
#include "suite.h"
#include <scanpick.h>
#include <stdio.h>
#include <stdlib.h>
#include <string.h>

static uint64_t *nodes, *memo, out[5];
static size_t nodes_len, memo_len;
static block suite[SUITE_MOST];

static uint64_t run(const block *b) {
    scanpick_pick(b->rows, (size_t)b->n, b->costs, (size_t)b->n, nodes, nodes_len, memo, memo_len, out);
    return out[4];
}

static void rooms(char **argv) {
    nodes_len = (size_t)atol(argv[0]), memo_len = (size_t)atol(argv[1]);
    nodes = calloc(nodes_len + 1, 8), memo = calloc(memo_len + 1, 8);
    if (!nodes || !memo) exit(1);
}

static block named(const char *name, int n) {
    if (!strcmp(name, "two-way-ring")) return two_way_ring(n, 1, 1);
    if (!strcmp(name, "all-edges")) return all_edges(n, 1, 1);
    return sparse(n, 1, 1);
}

int main(int argc, char **argv) {
    uint64_t most = 0, answers = 0;
    if (argc == 6 && !strcmp(argv[1], "class")) {
        int blocks = make_suite(suite);
        rooms(argv + 3);
        for (int k = atoi(argv[5]); k > 0; k--)
            for (int i = 0; i < blocks; i++) {
                if (strcmp(argv[2], "all") && strcmp(argv[2], suite[i].family)) continue;
                uint64_t need = run(&suite[i]);
                if (need > most) most = need;
                answers += out[0] == 0;
            }
    } else if (argc == 7 && !strcmp(argv[1], "block")) {
        block b = named(argv[2], atoi(argv[3]));
        rooms(argv + 4);
        for (int k = atoi(argv[6]); k > 0; k--) most = run(&b), answers += out[0] == 0;
    } else {
        return fputs("usage: pick_only class NAME ROOM MEMO REPEATS | block NAME N ROOM MEMO REPEATS\n", stderr), 2;
    }
    printf("answers %lu, largest need %lu\n", answers, most);
    return 0;
}
