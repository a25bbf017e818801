// The suite of the measurements: seeded blocks of six classes, each with three kinds of costs.
#include "suite.h"

static uint64_t state;

// splitmix64: any seed will do, also a small one
static uint64_t draw(void) {
    uint64_t z = state += 0x9e3779b97f4a7c15;
    z = (z ^ z >> 30) * 0xbf58476d1ce4e5b9;
    z = (z ^ z >> 27) * 0x94d049bb133111eb;
    return z ^ z >> 31;
}

static int below(int n) { return (int)(draw() % (uint64_t)n); }

static void edge(block *b, int u, int v) { b->rows[u] |= 1ull << v; }

// Equal costs make most ties, small ones some, large ones none. A large one is below 2^31, the most that clingo takes as one weight.
static block begin(const char *family, int n, int kind, uint64_t seed) {
    static const char *kinds[] = {"equal", "small", "large"};
    block b = {.family = family, .kind = kinds[kind], .n = n};
    state = seed * 3 + (uint64_t)kind;
    for (int v = 0; v < n; v++)
        b.costs[v] = kind == 0 ? 1 : kind == 1 ? (uint32_t)(1 + below(9)) : (uint32_t)(1000000 + below(2146483647));
    return b;
}

// Each flip-flop has two or three edges to random ones at most six places away, as wires are short. (With edges to anywhere, most blocks above 40 need more
// than 65,536 nodes and would be refused.)
block sparse(int n, int kind, uint64_t seed) {
    block b = begin("sparse", n, kind, seed);
    for (int u = 0; u < n; u++)
        for (int i = 2 + below(2); i > 0; i--) edge(&b, u, (u + n - 6 + below(13)) % n);
    return b;
}

// A ring, and a chord for every fourth flip-flop.
static block chords(int n, int kind, uint64_t seed) {
    block b = begin("chords", n, kind, seed);
    for (int u = 0; u < n; u++) edge(&b, u, (u + 1) % n);
    for (int i = 0; i < n / 4; i++) edge(&b, below(n), below(n));
    return b;
}

// Stages of four, each flip-flop driven by two of the stage before; one flip-flop in four is driven by one of a later stage as well.
static block pipeline(int n, int kind, uint64_t seed) {
    block b = begin("pipeline", n, kind, seed);
    for (int v = 4; v < n; v++) {
        int before = (v / 4 - 1) * 4;
        edge(&b, before + below(4), v), edge(&b, before + below(4), v);
    }
    for (int i = 0; i < n / 4; i++) {
        int u = 4 + below(n - 4), v = below(u / 4 * 4);
        edge(&b, u, v);
    }
    return b;
}

// Every second edge.
static block dense(int n, int kind, uint64_t seed) {
    block b = begin("dense", n, kind, seed);
    for (int u = 0; u < n; u++)
        for (int v = 0; v < n; v++)
            if (u != v && below(2)) edge(&b, u, v);
    return b;
}

block two_way_ring(int n, int kind, uint64_t seed) {
    block b = begin("two-way ring", n, kind, seed);
    for (int u = 0; u < n; u++) edge(&b, u, (u + 1) % n), edge(&b, (u + 1) % n, u);
    return b;
}

block all_edges(int n, int kind, uint64_t seed) {
    block b = begin("all edges", n, kind, seed);
    for (int u = 0; u < n; u++)
        for (int v = 0; v < n; v++)
            if (u != v) edge(&b, u, v);
    return b;
}

// The sizes of a class are spread evenly from its least to its most.
static int size(int least, int most, int i) { return least + (most - least) * i / (SHAPES - 1); }

int make_suite(block suite[SUITE_MOST]) {
    int count = 0;
    for (int kind = 0; kind < 3; kind++) // outermost, since rings and all-edges blocks differ in nothing else: so many blocks stand between
        for (int i = 0; i < SHAPES; i++) {
            uint64_t seed = 1000 + (uint64_t)i;
            suite[count++] = sparse(size(16, 64, i), kind, seed);
            suite[count++] = chords(size(16, 64, i), kind, seed);
            suite[count++] = pipeline(size(16, 64, i), kind, seed);
            suite[count++] = dense(size(6, 14, i), kind, seed);
            suite[count++] = two_way_ring(size(6, 63, i), kind, seed);
            suite[count++] = all_edges(size(3, 17, i), kind, seed);
        }
    return count;
}
