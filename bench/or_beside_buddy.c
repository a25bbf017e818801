// The time of one OR of two functions, per node made, beside BuDDy's on the same functions in the same run.
//
// Functions: f and g are each an OR of TERMS products of WIDTH random variables out of VARS, made with the same ANDs and ORs in both. Then f OR g is made
// REPEATS times, each time from the same state: here the rooms as they were, with the memo cleared; there a garbage collection before, which also clears
// BuDDy's caches. Only the OR is timed. Both have room for all nodes from the start (65,536 words; 131,072 BuDDy nodes) and as many cache entries (MEMO).
// Checked as well: the two made the same number of nodes, and f, g and f OR g have as many nodes here as there.
#include <bdd.h>
#include <stdint.h>
#include <stdio.h>
#include <stdlib.h>
#include <string.h>
#include <time.h>

typedef uint64_t u64;
#define CAPACITY 65536
#define FULL 131072

u64 room_variable(u64 *room, u64 n, u64 v);
u64 room_or(u64 *room, u64 n, u64 *memo, u64 m, u64 a, u64 b);
u64 room_and(u64 *room, u64 n, u64 *memo, u64 m, u64 a, u64 b);
u64 room_used(const u64 *room, u64 n);
void room_clear(u64 *words, u64 n);

static u64 room[CAPACITY], before[CAPACITY], *memo, memo_words;

static double now(void) {
    struct timespec t;
    clock_gettime(CLOCK_MONOTONIC, &t);
    return t.tv_sec * 1e9 + t.tv_nsec;
}

static u64 seed;
static u64 random_number(void) {
    seed ^= seed << 13, seed ^= seed >> 7, seed ^= seed << 17;
    return seed;
}

static int by_size(const void *a, const void *b) { return (*(double *)a > *(double *)b) - (*(double *)a < *(double *)b); }

// the number of nodes below a code
static unsigned char met[CAPACITY];
static int count(u64 c) {
    if (c < 2 || met[c - 2]) return 0;
    met[c - 2] = 1;
    u64 w = room[c - 2];
    return 1 + count(w >> 17 & 131071) + count(w & 131071);
}
static int nodes_of(u64 c) {
    memset(met, 0, sizeof met);
    return count(c);
}

int main(int argc, char **argv) {
    int vars = argc > 1 ? atoi(argv[1]) : 30, terms = argc > 2 ? atoi(argv[2]) : 14, width = argc > 3 ? atoi(argv[3]) : 3;
    int repeats = argc > 4 ? atoi(argv[4]) : 200, cases = argc > 5 ? atoi(argv[5]) : 8;
    memo_words = argc > 6 ? atol(argv[6]) : 65536;
    memo = calloc(memo_words, 8);
    double *ours = malloc(repeats * sizeof(double)), *theirs = malloc(repeats * sizeof(double));
    double all_ours = 0, all_theirs = 0;
    u64 all_made = 0, all_their_made = 0;
    bdd_init(2 * CAPACITY, (int)memo_words);
    bdd_setvarnum(vars);
    bdd_setmaxincrease(0);
    bdd_gbc_hook(NULL);
    for (int k = 0; k < cases; k++) {
        seed = 12345 + 7919 * k;
        room_clear(room, CAPACITY);
        room_clear(memo, memo_words);
        u64 x[64], f[2], a;
        bdd g[2], b, c;
        for (int v = 0; v < vars; v++) x[v] = room_variable(room, CAPACITY, v);
        for (int q = 0; q < 2; q++) {
            f[q] = 0, g[q] = bddfalse;
            for (int t = 0; t < terms; t++) {
                a = 1, b = bddtrue;
                for (int i = 0; i < width; i++) {
                    int v = random_number() % vars;
                    a = room_and(room, CAPACITY, memo, memo_words, a, x[v]);
                    c = bdd_addref(bdd_and(b, bdd_ithvar(v))), bdd_delref(b), b = c;
                }
                f[q] = room_or(room, CAPACITY, memo, memo_words, f[q], a);
                c = bdd_addref(bdd_or(g[q], b)), bdd_delref(g[q]), bdd_delref(b), g[q] = c;
                if (f[q] == FULL) return puts("full"), 1;
            }
        }
        memcpy(before, room, sizeof room);
        u64 used = room_used(room, CAPACITY), r = 0, made = 0;
        int their_made = 0, full = 0;
        for (int i = 0; i < repeats && !full; i++) {
            memcpy(room, before, sizeof room);
            room_clear(memo, memo_words);
            double t = now();
            r = room_or(room, CAPACITY, memo, memo_words, f[0], f[1]);
            ours[i] = now() - t;
            if (r == FULL) full = 1;
            made = room_used(room, CAPACITY) - used;
            bdd_gbc();
            int n = bdd_getnodenum();
            t = now();
            b = bdd_or(g[0], g[1]);
            theirs[i] = now() - t;
            bdd_addref(b);
            their_made = bdd_getnodenum() - n;
            if (i == 0 && !full && (nodes_of(f[0]) != bdd_nodecount(g[0]) || nodes_of(f[1]) != bdd_nodecount(g[1]) || nodes_of(r) != bdd_nodecount(b)))
                return puts("the node counts differ"), 1;
            if (i == 0 && !full) printf("%5d OR %5d nodes = %6d", bdd_nodecount(g[0]), bdd_nodecount(g[1]), bdd_nodecount(b));
            bdd_delref(b);
        }
        bdd_delref(g[0]), bdd_delref(g[1]);
        if (full) continue;
        qsort(ours, repeats, sizeof(double), by_size), qsort(theirs, repeats, sizeof(double), by_size);
        double o = ours[repeats / 2], p = theirs[repeats / 2];
        printf(", made %6d (BuDDy %6d), ns per node made: %6.1f here, %6.1f BuDDy\n", (int)made, their_made, o / made, p / their_made);
        all_ours += o, all_theirs += p, all_made += made, all_their_made += their_made;
    }
    printf("all: %d nodes made, ns per node made (medians of %d): %.1f here, %.1f BuDDy\n", (int)all_made, repeats, all_ours / all_made, all_theirs / all_their_made);
    return 0;
}
