// Times of pick beside the same method over BuDDy, on every block of the suite, in one process. Writes a line a block for table.py, and the blocks as
// facts for clingo.
//
// A time is the least of ROUNDS. In a round each contender in turn has all blocks, one after the other, as they would come in use: so none has a block's
// branches and joins still in its caches from the last time, and what else the machine does hits all of them. BuDDy's garbage is collected between blocks,
// when there is enough of it, and not timed. All answers are compared before anything is timed.
#include "plain.h"
#include "suite.h"
#include <scanpick.h>
#include <setjmp.h>
#include <signal.h>
#include <stdio.h>
#include <stdlib.h>
#include <string.h>
#include <sys/time.h>
#include <time.h>

enum { LARGE = 65536, SMALL = 4096, LIMIT = 5, ROUNDS = 40 }; // LIMIT: the most seconds for one call
enum { SPARE = 1000 };                                        // nodes that BuDDy shall have free beyond the need

typedef struct {
    size_t nodes, memo; // the lengths of the lent rooms
    const char *name;
} rooms;
static const rooms lent[] = {{SMALL, SMALL, "4096"}, {LARGE, LARGE, "65536"}, {SMALL, 0, "4096/0"}, {LARGE, SMALL, "65536/4096"}, {LARGE, 0, "65536/0"}};
enum { ROOMS = sizeof lent / sizeof *lent };

static uint64_t nodes[LARGE], memo[LARGE];

typedef struct {
    uint64_t number, place, mask, cost, need;
} picked;

typedef enum { ANSWERED, REFUSED, LATE } outcome;
static const char *outcomes[] = {"", "refused", "late"};

// What is known of a block: whether each pair of rooms answers, the answer, and the least times.
typedef struct {
    outcome how[ROOMS], plain; // plain: answered where some pair of rooms does
    picked answer;
    double times[ROOMS], plain_time;
} result;

static block suite[SUITE_MOST];
static result results[SUITE_MOST];

static double now(void) {
    struct timespec t;
    clock_gettime(CLOCK_MONOTONIC, &t);
    return (double)t.tv_sec * 1e9 + (double)t.tv_nsec;
}

static double pick_time(const block *b, rooms r, picked *p) {
    uint64_t out[5];
    double start = now();
    scanpick_pick(b->rows, (size_t)b->n, b->costs, (size_t)b->n, nodes, r.nodes, memo, r.memo, out);
    double took = now() - start;
    *p = (picked){out[0], out[1], out[2], out[3], out[4]};
    return took;
}

static double plain_time(const block *b, plain_answer *a) {
    double start = now();
    *a = plain_pick(b->rows, b->costs, b->n);
    return now() - start;
}

// A call that takes too long is given up: it holds no lock and owns no memory, so it may be left by a jump.
static sigjmp_buf given_up;
static void give_up(int signal) {
    (void)signal;
    siglongjmp(given_up, 1);
}

static int pick_in_time(const block *b, rooms r, picked *p) {
    struct itimerval limit = {.it_value.tv_sec = LIMIT}, none = {0};
    if (sigsetjmp(given_up, 1)) {
        memset(nodes, 0, sizeof nodes), memset(memo, 0, sizeof memo);
        return 0;
    }
    setitimer(ITIMER_REAL, &limit, NULL);
    pick_time(b, r, p);
    setitimer(ITIMER_REAL, &none, NULL);
    return 1;
}

static void stop(int i, const char *what) {
    fprintf(stderr, "block %d (%s, %s costs, %d flip-flops): %s\n", i, suite[i].family, suite[i].kind, suite[i].n, what);
    exit(1);
}

static void check_zero(int i) {
    for (int s = 0; s < LARGE; s++)
        if (nodes[s] || memo[s]) stop(i, "a room is not zero afterwards");
}

// What each contender answers. A room that is too small is no error; any other difference is.
static void agree(int i) {
    result *x = &results[i];
    picked p;
    plain_answer a;
    x->plain = REFUSED;
    for (int r = 0; r < ROOMS; r++) {
        x->how[r] = !pick_in_time(&suite[i], lent[r], &p) ? LATE : p.number == 0 ? ANSWERED : REFUSED;
        check_zero(i);
        if (x->how[r] == REFUSED && p.number != 4) stop(i, "refused for another reason than the room");
        if (x->how[r] != ANSWERED) continue;
        if (x->plain == ANSWERED && memcmp(&p, &x->answer, sizeof p)) stop(i, "two rooms give two answers");
        x->answer = p, x->plain = ANSWERED;
    }
    if (x->plain != ANSWERED) return; // BuDDy would have no bound on its nodes either
    plain_time(&suite[i], &a);
    if (a.mask != x->answer.mask || a.cost != x->answer.cost) stop(i, "BuDDy's set is another");
}

static void keep_least(double *least, double t) {
    if (*least == 0 || t < *least) *least = t;
}

// A contender's turn in a round: all blocks with one pair of rooms, or all blocks over BuDDy. It begins elsewhere in each round, since the first blocks find
// the last contender's memory in the machine's caches.
static void measure(int blocks, int round, int r) {
    picked p;
    plain_answer a;
    for (int k = 0; k < blocks; k++) {
        int i = (k + 53 * round) % blocks;
        result *x = &results[i];
        if (r < ROOMS && x->how[r] == ANSWERED) keep_least(&x->times[r], pick_time(&suite[i], lent[r], &p));
        if (r < ROOMS || x->plain != ANSWERED) continue;
        plain_make_room((int)x->answer.need + SPARE);
        keep_least(&x->plain_time, plain_time(&suite[i], &a));
    }
}

static void write_facts(const char *folder, int i) {
    char name[500];
    snprintf(name, sizeof name, "%s/%d.lp", folder, i);
    FILE *f = fopen(name, "w");
    if (!f) perror(name), exit(1);
    for (int v = 0; v < suite[i].n; v++) {
        fprintf(f, "flop(%d). cost(%d,%u).", v, v, suite[i].costs[v]);
        for (int w = 0; w < suite[i].n; w++)
            if (w != v && suite[i].rows[v] >> w & 1) fprintf(f, " edge(%d,%d).", v, w);
        fputc('\n', f);
    }
    fclose(f);
}

// The time to zero two rooms of one length, which every answer includes.
static double zero_time(size_t words) {
    double least = 0;
    for (int i = 0; i < 200; i++) {
        double start = now();
        memset(nodes, 0, words * 8), memset(memo, 0, words * 8);
        __asm__ volatile("" ::: "memory");
        keep_least(&least, now() - start);
    }
    return least;
}

static void print_time(outcome how, double time) {
    if (how == ANSWERED) printf("\t%.0f", time);
    else printf("\t%s", outcomes[how]);
}

static void print_result(int i) {
    const result *x = &results[i];
    printf("%d\t%s\t%s\t%d\t%lu\t%lu\t%lu", i, suite[i].family, suite[i].kind, suite[i].n, x->answer.need, x->answer.mask, x->answer.cost);
    for (int r = 0; r < ROOMS; r++) print_time(x->how[r], x->times[r]);
    print_time(x->plain, x->plain_time);
    putchar('\n');
}

int main(int argc, char **argv) {
    if (argc < 2) return fputs("usage: compare FOLDER [BUDDY_NODES BUDDY_RATIO]\n", stderr), 2;
    int blocks = make_suite(suite);
    // the best for BuDDy of the sizes that were tried, from 8,192 nodes to 131,072 and from 2,048 cache entries to 65,536
    plain_start(argc > 2 ? atoi(argv[2]) : 32768, argc > 3 ? atoi(argv[3]) : 4);
    signal(SIGALRM, give_up);
    for (int i = 0; i < blocks; i++) agree(i), write_facts(argv[1], i);
    for (int k = 0; k < ROUNDS; k++)
        for (int r = 0; r <= ROOMS; r++) measure(blocks, k, r);
    printf("# rounds and zeroing\t%d\t%.0f\t%.0f\n", ROUNDS, zero_time(SMALL), zero_time(LARGE));
    printf("block\tclass\tcosts\tn\tneed\tmask\tcost");
    for (int r = 0; r < ROOMS; r++) printf("\t%s", lent[r].name);
    puts("\tbuddy");
    for (int i = 0; i < blocks; i++) print_result(i);
    return 0;
}
