/* Fuzzes the picker from a file's bytes, over libFuzzer: reads the block, picks, and writes the block again.
 *
 * What must hold: a refused file changes nothing; the picked set leaves no loop, each member is needed for that, and the cost is its members'; asked
 * about what is left, the picker says no; the rooms are zero afterwards; the block is written as the bytes that it was read from.
 *
 * Every buffer ends where a page begins that may not be touched, so that reading or writing past it ends the run. The archive carries no counters for
 * the fuzzer, so the results are counted instead: an input is kept if it gives a number of steps, a size, a need or a refusal not seen before. */
#include <scanpick.h>

#include <stdio.h>
#include <stdlib.h>
#include <string.h>
#include <sys/mman.h>

enum { PAGE = 4096, ROOM = 4096, MOST = 64 };

size_t LLVMFuzzerMutate(uint8_t *data, size_t size, size_t max_size);

__attribute__((section("__libfuzzer_extra_counters"))) static uint8_t seen[2048];

static void require(int holds, const char *what) {
    if (!holds) {
        fprintf(stderr, "does not hold: %s\n", what);
        abort();
    }
}

/* Memory for `bytes` bytes that ends at a page that may not be touched. */
static void *fenced(size_t bytes) {
    size_t pages = (bytes + PAGE - 1) / PAGE;
    uint8_t *start = mmap(NULL, (pages + 2) * PAGE, PROT_READ | PROT_WRITE, MAP_PRIVATE | MAP_ANONYMOUS, -1, 0);
    require(start != MAP_FAILED, "there is memory");
    uint8_t *fence = start + (pages + 1) * PAGE;
    require(mprotect(start, PAGE, PROT_NONE) == 0 && mprotect(fence, PAGE, PROT_NONE) == 0, "pages can be fenced");
    return fence - bytes;
}

static uint64_t random_state;

static uint64_t random_word(void) {
    random_state ^= random_state << 13;
    random_state ^= random_state >> 7;
    random_state ^= random_state << 17;
    return random_state;
}

/* Whether the kept ones hold a loop of two or more flip-flops: those without an edge in from the others left go, until all have one. */
static int holds_loop(const uint64_t *rows, size_t n, uint64_t kept) {
    for (;;) {
        uint64_t fed = 0;
        for (size_t v = 0; v < n; v++)
            if (kept >> v & 1)
                fed |= rows[v] & ~((uint64_t)1 << v);
        if ((kept & fed) == kept)
            return kept != 0;
        kept &= fed;
    }
}

static int all_zero(const uint64_t *words, size_t count) {
    for (size_t i = 0; i < count; i++)
        if (words[i] != 0)
            return 0;
    return 1;
}

static void fill(uint64_t *words, size_t count) {
    for (size_t i = 0; i < count; i++)
        words[i] = random_word();
}

static unsigned bucket(uint64_t need) {
    unsigned log = 0;
    while (need >> log > 7)
        log++;
    return 8 * log + (unsigned)(need >> log);
}

static void see(unsigned kind, uint64_t value) {
    seen[128 * kind + value % 128] = 1;
}

int LLVMFuzzerTestOneInput(const uint8_t *data, size_t size) {
    static uint64_t *nodes, *memo, *rows, before_rows[MOST];
    static uint32_t *costs, before_costs[MOST];
    static uint8_t *file_end;
    if (!nodes) {
        nodes = fenced(ROOM * 8);
        memo = fenced(ROOM * 8);
        rows = fenced(MOST * 8);
        costs = fenced(MOST * 4);
        file_end = (uint8_t *)fenced(PAGE) + PAGE;
    }
    if (size > PAGE)
        return 0;
    uint8_t *file = file_end - size;
    memcpy(file, data, size);
    random_state = 88172645463325252u + size;

    uint64_t out[5];
    fill(rows, MOST);
    fill((uint64_t *)costs, MOST / 2);
    memcpy(before_rows, rows, sizeof before_rows);
    memcpy(before_costs, costs, sizeof before_costs);
    scanpick_read(file, size, costs, MOST, rows, MOST, out);
    see(0, out[0]);
    require(memcmp(file, data, size) == 0, "the file stays");
    size_t n = out[0] ? 0 : out[2];
    require(memcmp(rows + n, before_rows + n, (MOST - n) * 8) == 0, "rows past n stay");
    require(memcmp(costs + n, before_costs + n, (MOST - n) * 4) == 0, "costs past n stay");
    if (out[0]) {
        require(out[2] == 0, "a refusal has no result");
        return 0;
    }
    require(size == 6 + 12 * n, "the file's length fits n");

    /* lend rows and costs that end at the fence, too */
    uint64_t *block_rows = rows + MOST - n;
    uint32_t *block_costs = costs + MOST - n;
    memmove(block_rows, rows, n * 8);
    memmove(block_costs, costs, n * 4);

    uint64_t steps[64], left[64];
    scanpick_reduce(block_rows, n, block_costs, n, UINT64_MAX, out, steps, left);
    require(out[0] == 0 && out[2] <= n, "a block that was read is reduced in at most n steps");
    see(1, out[2]);
    see(2, __builtin_popcountll(out[3]));
    see(3, __builtin_popcountll(out[4]));
    for (size_t i = 0; i + 1 < out[2]; i++)
        see(4, 4 * (steps[i] >> 8 & 3) + (steps[i + 1] >> 8 & 3));

    fill(nodes, ROOM);
    fill(memo, ROOM);
    scanpick_pick(block_rows, n, block_costs, n, nodes, ROOM, memo, ROOM, out);
    require(all_zero(nodes, ROOM) && all_zero(memo, ROOM), "the rooms are zero after pick");
    see(5, out[0]);
    see(6, n);
    if (out[0]) {
        require(out[0] == 4 && out[1] < n && !out[2] && !out[3] && !out[4], "pick refuses a block that was read with 4 only");
    } else {
        uint64_t all = n == 64 ? UINT64_MAX : ((uint64_t)1 << n) - 1, mask = out[2], cost = 0;
        see(7, __builtin_popcountll(mask));
        see(8, bucket(out[4]));
        require(out[1] == 0 && (mask & ~all) == 0 && out[4] <= ROOM, "the results are in range");
        require(!holds_loop(block_rows, n, all & ~mask), "no loop is left");
        for (size_t v = 0; v < n; v++)
            if (mask >> v & 1) {
                cost += block_costs[v];
                require(holds_loop(block_rows, n, all & ~mask | (uint64_t)1 << v), "each member is needed");
            }
        require(cost == out[3], "the cost is the members'");

        scanpick_ask(block_rows, n, all & ~mask, nodes, ROOM, memo, ROOM, out);
        require(all_zero(nodes, ROOM) && all_zero(memo, ROOM), "the rooms are zero after ask");
        require(out[0] == 0 || out[0] == 4, "ask refuses a block that was read with 4 only");
        require(out[2] == 0, "ask says no to what is left");
        see(9, out[0]);
        see(10, bucket(out[3]));
    }

    memset(file, 0xa5, size);
    scanpick_write(block_rows, n, block_costs, n, file, size, out);
    require(out[0] == 0 && out[2] == size, "the block can be written");
    require(memcmp(file, data, size) == 0, "it is written as it was read");
    return 0;
}

/* The number of `bytes` bytes at a place of the file, low byte first. */
static uint64_t number(const uint8_t *at, size_t bytes) {
    uint64_t value = 0;
    for (size_t i = bytes; i-- > 0;)
        value = value << 8 | at[i];
    return value;
}

static void put(uint8_t *at, uint64_t value, size_t bytes) {
    for (size_t i = 0; i < bytes; i++)
        at[i] = (uint8_t)(value >> 8 * i);
}

/* Changes a block rather than bytes, most of the time: an edge, some costs, or the number of flip-flops. */
size_t LLVMFuzzerCustomMutator(uint8_t *data, size_t size, size_t max_size, unsigned seed) {
    random_state = 0x9e3779b97f4a7c15u * (seed + 1u);
    random_word();
    size_t n = size >= 6 ? data[5] : 0;
    if (size != 6 + 12 * n || n > MOST || max_size < 6 + 12 * MOST || random_word() % 16 == 0)
        return LLVMFuzzerMutate(data, size, max_size);
    uint64_t rows[MOST] = {0};
    uint32_t costs[MOST] = {0};
    for (size_t v = 0; v < n; v++) {
        costs[v] = (uint32_t)number(data + 6 + 4 * v, 4);
        rows[v] = number(data + 6 + 4 * n + 8 * v, 8);
    }
    for (uint64_t changes = 1 + random_word() % 6; changes > 0; changes--) {
        size_t v = n ? random_word() % n : 0, w = n ? random_word() % n : 0;
        switch (random_word() % 8) {
        case 0: /* another number of flip-flops */
            n = random_word() % 4 ? (n + 1 + random_word() % 4) % (MOST + 1) : random_word() % (MOST + 1);
            break;
        case 1: /* a path, often one that closes a loop */
            for (uint64_t length = random_word() % 8; n && length > 0; length--, v = w, w = random_word() % n)
                rows[v] |= (uint64_t)1 << w;
            break;
        case 2:
            rows[v] |= (uint64_t)1 << w;
            rows[w] |= (uint64_t)1 << v;
            break;
        case 3:
            rows[v] = rows[w];
            break;
        case 4:
            costs[v] = (uint32_t)(random_word() % 4);
            break;
        case 5:
            costs[v] = random_word() % 2 ? costs[w] : (uint32_t)random_word();
            break;
        default:
            rows[v] ^= (uint64_t)1 << w;
        }
    }
    uint64_t all = n == 64 ? UINT64_MAX : ((uint64_t)1 << n) - 1;
    data[5] = (uint8_t)n;
    for (size_t v = 0; v < n; v++) {
        put(data + 6 + 4 * v, costs[v], 4);
        put(data + 6 + 4 * n + 8 * v, rows[v] & all, 8);
    }
    return 6 + 12 * n;
}
