// The same pick over BuDDy: reduction, components, search, passes, and the walk to the lightest set, as document 01 has them. It keeps no count of its need
// and zeroes nothing.
#include "plain.h"
#include <bdd.h>

typedef uint64_t set;
#define BIT(v) (1ull << (v))
#define LOWEST(s) __builtin_ctzll(s)
#define EACH(v, s) for (set v##_left = (s); v##_left && (v = LOWEST(v##_left), 1); v##_left &= v##_left - 1)

typedef struct {
    int n;
    set out[64], in[64], live, forced;
    const uint32_t *costs;
} graph;

// ---- reduction

static int cheaper(const graph *g, int u, int v) { return g->costs[u] < g->costs[v] || (g->costs[u] == g->costs[v] && u < v); }

static int folds(const graph *g, set side, int v) { return side && !(side & (side - 1)) && cheaper(g, LOWEST(side), v); }

static void load(graph *g, const uint64_t *rows, const uint32_t *costs, int n) {
    int v, w;
    *g = (graph){.n = n, .costs = costs, .live = n == 64 ? ~0ull : BIT(n) - 1};
    for (v = 0; v < n; v++) {
        g->out[v] = rows[v] & ~BIT(v);
        EACH(w, g->out[v]) g->in[w] |= BIT(v);
    }
}

static void removed(graph *g, int v) {
    int w;
    EACH(w, g->out[v]) g->in[w] &= ~BIT(v);
    EACH(w, g->in[v]) g->out[w] &= ~BIT(v);
    g->out[v] = g->in[v] = 0;
    g->live &= ~BIT(v);
}

// v goes, and u has its edges: rule 3 with the sides as they are, rule 4 with them exchanged.
static void folded(graph *g, set *out, set *in, int u, int v) {
    int w;
    EACH(w, out[v]) in[w] |= BIT(u);
    out[u] |= out[v];
    removed(g, v);
}

// One step, if a rule applies: one walk over the live flip-flops finds the first of each rule.
static int step(graph *g) {
    int v, first[5] = {-1, -1, -1, -1, -1};
    EACH(v, g->live) {
        if (g->out[v] & BIT(v)) {
            first[1] = v;
            break;
        }
        if (first[2] < 0 && (!g->in[v] || !g->out[v])) first[2] = v;
        if (first[3] < 0 && folds(g, g->in[v], v)) first[3] = v;
        if (first[4] < 0 && folds(g, g->out[v], v)) first[4] = v;
    }
    if (first[1] >= 0) g->forced |= BIT(first[1]), removed(g, first[1]);
    else if (first[2] >= 0) removed(g, first[2]);
    else if ((v = first[3]) >= 0) folded(g, g->out, g->in, LOWEST(g->in[v]), v);
    else if ((v = first[4]) >= 0) folded(g, g->in, g->out, LOWEST(g->out[v]), v);
    else return 0;
    return 1;
}

// ---- components and search

static set reached(const set *rows, int from) {
    set all = BIT(from), fresh = all;
    while (fresh) {
        int v = LOWEST(fresh);
        fresh &= fresh - 1;
        fresh |= rows[v] & ~all;
        all |= rows[v];
    }
    return all;
}

typedef struct {
    const graph *g;
    set members, on, over, back;
    int order[64], count; // in the order in which the visits end
} search;

static void visit(search *s, int v) {
    int w;
    s->on |= BIT(v);
    EACH(w, s->g->out[v] & s->members) {
        if (s->on & BIT(w)) s->back |= BIT(v);
        else if (!(s->over & BIT(w))) visit(s, w);
    }
    s->on &= ~BIT(v);
    s->over |= BIT(v);
    s->order[s->count++] = v;
}

// ---- the passes

// Hands the reference over from what a place held to what it shall hold.
static void put(bdd *place, bdd f) {
    bdd_addref(f);
    bdd_delref(*place);
    *place = f;
}

static bdd any_of(const bdd *f, set from) {
    int u;
    bdd all = bddfalse;
    EACH(u, from) put(&all, bdd_or(all, f[u]));
    return all;
}

// What members of B hand on is of the pass before, so theirs of this pass wait in next.
static void pass(const search *s, bdd *f, bdd *next) {
    for (int i = s->count - 1; i >= 0; i--) {
        int v = s->order[i];
        bdd all = any_of(f, s->g->in[v] & s->members);
        put(s->back & BIT(v) ? &next[v] : &f[v], bdd_and(bdd_ithvar(v), all));
        bdd_delref(all);
    }
}

static int settle(set back, bdd *f, const bdd *next) {
    int b, same = 1;
    EACH(b, back) {
        if (f[b] != next[b]) same = 0, put(&f[b], next[b]);
    }
    return same;
}

// The cycle function, with a reference.
static bdd cycle_function(const search *s) {
    bdd f[64], next[64], all;
    int v, passes = __builtin_popcountll(s->back);
    EACH(v, s->members) f[v] = next[v] = bddfalse;
    EACH(v, s->back) f[v] = bddtrue;
    do pass(s, f, next);
    while (!settle(s->back, f, next) && --passes > 0);
    all = any_of(f, s->back);
    EACH(v, s->members) bdd_delref(f[v]), bdd_delref(next[v]);
    return all;
}

// ---- the lightest set

enum { MEMO = 1 << 17 }; // twice as many as a block of the suite has nodes
typedef struct {
    int node;
    unsigned walk; // which walk wrote it: no clearing between walks
    plain_answer best;
} known;
static known memo[MEMO];
static unsigned walk;
#define NOTHING ((uint64_t)-1) // above every cost

static known *place_of(bdd f) {
    unsigned i = (unsigned)f * 0x9e3779b1u >> 15;
    while (memo[i].walk == walk && memo[i].node != f) i = (i + 1) % MEMO;
    return &memo[i];
}

static plain_answer best_of(bdd f, const uint32_t *costs) {
    if (f == bddfalse) return (plain_answer){0, 0};
    if (f == bddtrue) return (plain_answer){0, NOTHING};
    known *k = place_of(f);
    if (k->walk == walk) return k->best;
    int v = bdd_var(f);
    plain_answer taken = best_of(bdd_low(f), costs), kept = best_of(bdd_high(f), costs);
    if (taken.cost != NOTHING) taken.cost += costs[v], taken.mask |= BIT(v);
    if (kept.cost < taken.cost || (kept.cost == taken.cost && kept.mask < taken.mask)) taken = kept;
    k = place_of(f); // the walk below may have filled the old place
    *k = (known){f, walk, taken};
    return taken;
}

// ---- the pick

void plain_start(int nodes, int ratio) {
    bdd_init(nodes, nodes / ratio);
    bdd_gbc_hook(NULL);
    bdd_setvarnum(64);
    bdd_setcacheratio(ratio); // else the caches stay as they are when the table grows
}

void plain_make_room(int nodes) {
    if (bdd_getallocnum() - bdd_getnodenum() < nodes) bdd_gbc();
}

static set lightest(const graph *g, set members) {
    search s = {.g = g, .members = members};
    visit(&s, LOWEST(members));
    bdd f = cycle_function(&s);
    walk++;
    set found = best_of(f, g->costs).mask;
    bdd_delref(f);
    return found;
}

plain_answer plain_pick(const uint64_t *rows, const uint32_t *costs, int n) {
    graph g;
    plain_answer a = {0, 0};
    int v;
    load(&g, rows, costs, n);
    while (step(&g)) {}
    a.mask = g.forced;
    for (set left = g.live; left;) {
        v = LOWEST(left);
        set members = reached(g.out, v) & reached(g.in, v);
        if (members & (members - 1)) a.mask |= lightest(&g, members);
        left &= ~members;
    }
    EACH(v, a.mask) a.cost += costs[v];
    return a;
}
