/* Cases A to L of document 01 through each call of the C interface, and what the table has no case for. Prints a line for each call and
 * each test of it, and the letters or numbers of what differs; exits with 1 if anything does. */
#include "../njallavet.h"
#include "layout.h"
#include <stdio.h>
#include <string.h>

enum { SLOTS = 16, WORDS = 33, HEIGHT = 1024 };
static const uint32_t UNUSED_WORD = 0xdeadbeef;

typedef struct {
    uint8_t swaps, dups;
    uint32_t start[4];
    size_t starts;
    uint32_t spilled[2];
    size_t filled;
    uint32_t first;
    uint32_t target[4];
    size_t targets;
    uint32_t code, shrink, grow;
    uint32_t words[16];
    size_t ops;
    uint64_t gas;
} row;

static const row rows[] = {
    {16, 15, {0}, 0, {0}, 0, 0, {0}, 0, 0, 0, 0, {0}, 0, 0},
    {16, 15, {7}, 1, {0}, 0, 0, {0}, 0, 0, 0, 0, {3, 0}, 1, 3},
    {16, 15, {0}, 0, {0}, 0, 0, {7}, 1, 6, 0, 1, {0}, 0, 0},
    {16, 15, {0}, 0, {7, 7}, 2, 40, {7}, 1, 0, 0, 1, {5, 41}, 1, 6},
    {16, 15, {1}, 1, {0}, 0, 0, {1, 1}, 2, 0, 0, 1, {2, 0}, 1, 3},
    {16, 15, {3, 1, 2}, 3, {0}, 0, 0, {3, 2, 1}, 3, 0, 0, 2, {1, 1, 1, 2, 1, 1}, 3, 9},
    {16, 15, {7, 9}, 2, {8}, 1, 5, {7, 8}, 2, 0, 0, 2, {5, 5, 1, 2, 3, 0}, 3, 12},
    {3, 2, {3, 2, 9}, 3, {0}, 0, 0, {3, 2, 2}, 3, 0, 0, 2, {2, 1, 1, 3, 3, 0}, 3, 9},
    {3, 1, {3, 2, 9}, 3, {0}, 0, 0, {3, 2, 2}, 3, 8, 0, 1, {0}, 0, 0},
    {3, 0, {3, 2, 9}, 3, {0}, 0, 0, {3, 2, 2}, 3, 6, 0, 1, {0}, 0, 0},
    {1, 0, {1, 2, 3}, 3, {0}, 0, 0, {3, 2, 1}, 3, 0, 1, 5, {4, 0, 4, 1, 5, 0, 1, 1, 5, 1, 1, 1}, 6, 30},
    {2, 1, {2, 9, 1, 5}, 4, {6}, 1, 0, {2, 6, 1, 6}, 4, 0, 1, 6, {1, 1, 3, 0, 4, 1, 5, 0, 1, 2, 3, 0, 2, 1, 5, 1}, 8, 33},
};
enum { CASES = sizeof rows / sizeof *rows };

static int same(const uint32_t *a, const uint32_t *b, size_t n) { return memcmp(a, b, n * sizeof *a) == 0; }

static int unused(const uint32_t *a, size_t n) {
    for (size_t i = 0; i < n; i++)
        if (a[i] != UNUSED_WORD)
            return 0;
    return 1;
}

/* the buffers of a case, nothing in them but what is stored */
typedef struct {
    uint32_t spill[SLOTS], ops[WORDS];
} buffers;

static buffers lent(const uint32_t *spilled, size_t filled) {
    buffers b;
    for (size_t i = 0; i < SLOTS; i++)
        b.spill[i] = i < filled ? spilled[i] : UNUSED_WORD;
    for (size_t i = 0; i < WORDS; i++)
        b.ops[i] = UNUSED_WORD;
    return b;
}

static int stands(const njallavet_stack *s, const uint32_t *values, size_t n) {
    return s->stack_len == n && same(s->stack_raw + HEIGHT - n, values, n);
}

/* a state over these values; the words that are none have each a value of their own */
static njallavet_state state_of(const uint32_t *values, size_t n, uint32_t first, size_t filled) {
    njallavet_state s = {.stack = {.stack_len = (uint16_t)n}, .first = first, .filled = filled, .written = 0};
    for (size_t i = 0; i < HEIGHT; i++)
        s.stack.stack_raw[i] = i < HEIGHT - n ? 7 * (uint32_t)i + 1 : values[i - (HEIGHT - n)];
    return s;
}

/* every word and every count; the bytes between the fields are no part of a state */
static int same_state(const njallavet_state *a, const njallavet_state *b) {
    return same(a->stack.stack_raw, b->stack.stack_raw, HEIGHT) && a->stack.stack_len == b->stack.stack_len && a->first == b->first &&
           a->filled == b->filled && a->written == b->written;
}

/* what a case has come to */
static int came(const row *r, const njallavet_answer *a, const buffers *b) {
    return a->code == r->code && a->shrink_ticks == r->shrink && a->grow_ticks == r->grow && a->ops == r->ops &&
           same(b->ops, r->words, 2 * r->ops) && unused(b->ops + 2 * r->ops, WORDS - 2 * r->ops) &&
           unused(b->spill + a->slots, SLOTS - a->slots) && (r->code != 0 || stands(&a->stack, r->target, r->targets));
}

static njallavet_answer shuffled(const row *r, buffers *b) {
    *b = lent(r->spilled, r->filled);
    return njallavet_shuffle(r->start, r->starts, b->spill, SLOTS, r->filled, r->first, r->target, r->targets, r->swaps, r->dups,
                             b->ops, WORDS);
}

/* ---- njallavet_shuffle */

static int shuffle_case(size_t i) {
    buffers b;
    njallavet_answer a = shuffled(&rows[i], &b);
    return came(&rows[i], &a, &b);
}

/* case L with room for seven of its eight operations: no two fields of the answer are equal */
static int shuffle_fields(size_t i) {
    (void)i;
    const row *r = &rows[CASES - 1];
    const uint32_t left[] = {6, 1, 6};
    buffers b = lent(r->spilled, r->filled);
    njallavet_answer a = njallavet_shuffle(r->start, r->starts, b.spill, SLOTS, r->filled, r->first, r->target, r->targets, r->swaps,
                                           r->dups, b.ops, 15);
    return a.code == NJALLAVET_OPS && a.shrink_ticks == 1 && a.grow_ticks == 6 && a.ops == 7 && a.slots == 2 &&
           stands(&a.stack, left, 3) && same(b.ops, r->words, 14) && unused(b.ops + 14, WORDS - 14);
}

/* a job that code i + 1 refuses; the counts are those of njallavet_shuffle */
typedef struct {
    uint8_t swaps;
    size_t starts, targets, filled;
    uint32_t first;
} job;

static const job refused[] = {{0, 0, 0, 0, 0}, {1, 1025, 0, 0, 0}, {1, 0, 1025, 0, 0}, {1, 0, 0, 17, 0}, {1, 0, 0, 0, UINT32_MAX}};
static uint32_t many[1025];

static int nothing(const njallavet_answer *a, uint32_t code) {
    return a->code == code && a->shrink_ticks == 0 && a->grow_ticks == 0 && a->ops == 0 && a->slots == 0 && a->stack.stack_len == 0;
}

static int shuffle_refused(size_t i) {
    const job *j = &refused[i];
    buffers b = lent(NULL, 0);
    njallavet_answer a = njallavet_shuffle(many, j->starts, b.spill, SLOTS, j->filled, j->first, many, j->targets, j->swaps, 0, b.ops, WORDS);
    return nothing(&a, (uint32_t)i + 1) && unused(b.spill, SLOTS) && unused(b.ops, WORDS);
}

/* ---- njallavet_check, on what the shuffle wrote */

static int check_case(size_t i) {
    const row *r = &rows[i];
    buffers b, again = lent(r->spilled, r->filled);
    njallavet_answer a = shuffled(r, &b);
    njallavet_verdict v = njallavet_check(r->start, r->starts, again.spill, SLOTS, r->filled, r->first, r->target, r->targets, r->swaps,
                                          r->dups, b.ops, 2 * a.ops);
    return v.code == (r->code ? NJALLAVET_UNLIKE : NJALLAVET_DONE) && v.index == a.ops && v.gas == r->gas && v.filled == a.slots &&
           same(again.spill, b.spill, SLOTS);
}

/* before an odd number of words is looked at */
static int check_refused(size_t i) {
    const job *j = &refused[i];
    buffers b = lent(NULL, 0);
    njallavet_verdict v = njallavet_check(many, j->starts, b.spill, SLOTS, j->filled, j->first, many, j->targets, j->swaps, 0, b.ops, WORDS);
    return v.code == i + 1 && v.index == 0 && v.gas == 0 && v.filled == 0 && unused(b.spill, SLOTS);
}

/* a list for each fault, on a stack of so many 1s, with one slot of number 5, limits 2/1 and the target 1 */
static const struct {
    uint32_t code;
    size_t height;
    uint32_t words[8];
    size_t count, index;
    uint64_t gas;
    size_t filled;
} faults[] = {
    {NJALLAVET_ODD, 1, {3}, 1, 0, 0, 0},
    {NJALLAVET_UNKNOWN, 1, {3, 1}, 2, 0, 0, 0},
    {NJALLAVET_SWAP_FAR, 1, {1, 0}, 2, 0, 0, 0},
    {NJALLAVET_SWAP_BELOW, 1, {1, 1}, 2, 0, 0, 0},
    {NJALLAVET_DUP_FAR, 1, {2, 2}, 2, 0, 0, 0},
    {NJALLAVET_DUP_BELOW, 1, {2, 1}, 2, 0, 0, 0},
    {NJALLAVET_TOO_HIGH, 1024, {2, 0}, 2, 0, 0, 0},
    {NJALLAVET_NONE_LEFT, 1, {3, 0, 3, 0}, 4, 1, 3, 0},
    {NJALLAVET_OTHER_SLOT, 1, {4, 6}, 2, 0, 0, 0},
    {NJALLAVET_NO_SLOT, 1, {2, 0, 4, 5, 2, 0, 4, 6}, 8, 3, 12, 1},
    {NJALLAVET_NOT_FILLED, 1, {5, 5}, 2, 0, 0, 0},
    {NJALLAVET_UNLIKE, 1, {3, 0}, 2, 1, 3, 0},
};
enum { FAULTS = sizeof faults / sizeof *faults };

static int check_fault(size_t i) {
    uint32_t slot = UNUSED_WORD;
    njallavet_verdict v = njallavet_check(many, faults[i].height, &slot, 1, 0, 5, many, 1, 2, 1, faults[i].words, faults[i].count);
    return v.code == faults[i].code && v.code == 30 + i && v.index == faults[i].index && v.gas == faults[i].gas &&
           v.filled == faults[i].filled && slot == (v.filled ? 1 : UNUSED_WORD);
}

/* ---- njallavet_run */

static int run_case(size_t i) {
    const row *r = &rows[i];
    buffers b = lent(r->spilled, r->filled);
    njallavet_state s = state_of(r->start, r->starts, r->first, r->filled);
    njallavet_answer a = njallavet_run(&s, b.spill, SLOTS, r->target, r->targets, r->swaps, r->dups, b.ops, WORDS);
    return came(r, &a, &b) && s.first == r->first && s.filled == a.slots && s.written == a.ops && s.stack.stack_len == a.stack.stack_len &&
           stands(&s.stack, a.stack.stack_raw + HEIGHT - a.stack.stack_len, a.stack.stack_len);
}

/* Case K, then three more runs on the state that it leaves: to no values, one that is refused, and to a value that only a slot holds.
 * Operations go on after those written, and the checker accepts them all as one list. */
static int run_on_one_state(size_t i) {
    (void)i;
    const row *k = &rows[10];
    const uint32_t more[] = {3, 0, 3, 0, 3, 0, 5, 1}, last[] = {2};
    buffers b = lent(NULL, 0), again = lent(NULL, 0);
    struct {
        uint64_t before;
        njallavet_state s;
        uint64_t after;
    } held = {1, state_of(k->start, k->starts, 0, 0), 2};
    njallavet_answer a = njallavet_run(&held.s, b.spill, SLOTS, k->target, k->targets, 1, 0, b.ops, WORDS);
    if (!came(k, &a, &b))
        return 0;
    a = njallavet_run(&held.s, b.spill, SLOTS, k->target, 0, 1, 0, b.ops, WORDS);
    if (a.code != 0 || a.shrink_ticks != 1 || a.grow_ticks != 0 || a.ops != 3 || held.s.written != 9 || held.s.stack.stack_len != 0)
        return 0;
    njallavet_state before = held.s;
    a = njallavet_run(&held.s, b.spill, SLOTS, last, 1, 0, 0, b.ops, WORDS);
    if (!nothing(&a, NJALLAVET_LIMIT) || !same_state(&held.s, &before))
        return 0;
    a = njallavet_run(&held.s, b.spill, SLOTS, last, 1, 1, 0, b.ops, WORDS);
    if (a.code != 0 || a.grow_ticks != 1 || a.ops != 1 || a.slots != 2 || held.s.written != 10 || !stands(&held.s.stack, last, 1))
        return 0;
    if (!same(b.ops, k->words, 12) || !same(b.ops + 12, more, 8) || !unused(b.ops + 20, WORDS - 20))
        return 0;
    njallavet_verdict v = njallavet_check(k->start, k->starts, again.spill, SLOTS, 0, 0, last, 1, 1, 0, b.ops, 20);
    return v.code == 0 && v.index == 10 && v.gas == 45 && v.filled == 2 && same(again.spill, b.spill, SLOTS) && held.before == 1 &&
           held.after == 2;
}

static int run_refused(size_t i) {
    const job *j = &refused[i];
    buffers b = lent(NULL, 0);
    njallavet_state s = state_of(many, 3, j->first, j->filled);
    s.written = 5;
    if (j->starts > HEIGHT)
        s.stack.stack_len = (uint16_t)j->starts;
    njallavet_state before = s;
    njallavet_answer a = njallavet_run(&s, b.spill, SLOTS, many, j->targets, j->swaps, 0, b.ops, WORDS);
    return nothing(&a, (uint32_t)i + 1) && same_state(&s, &before) && unused(b.spill, SLOTS) && unused(b.ops, WORDS);
}

static int differ;

/* tries a test on each of n inputs, which are named from `from` on */
static void tried(const char *what, int (*test)(size_t), size_t n, char from) {
    int all = 1;
    printf("C: %s", what);
    for (size_t i = 0; i < n; i++)
        if (!test(i)) {
            printf("%s %c", all ? ": DIFFERS:" : ",", (int)(from + (int)i));
            all = 0;
        }
    puts(all ? ": as expected" : "");
    differ |= !all;
}

int main(void) {
    for (size_t i = 0; i < 1025; i++)
        many[i] = 1;
    tried("njallavet_shuffle, cases A to L", shuffle_case, CASES, 'A');
    tried("njallavet_shuffle, codes 1 to 5", shuffle_refused, 5, '1');
    tried("njallavet_shuffle, every field of an answer", shuffle_fields, 1, '1');
    tried("njallavet_check, what cases A to L wrote", check_case, CASES, 'A');
    tried("njallavet_check, codes 1 to 5", check_refused, 5, '1');
    tried("njallavet_check, a list for each fault from 30 to 41", check_fault, FAULTS, 'a');
    tried("njallavet_run, cases A to L", run_case, CASES, 'A');
    tried("njallavet_run, codes 1 to 5 leave the state as lent", run_refused, 5, '1');
    tried("njallavet_run, runs one after the other on one state", run_on_one_state, 1, '1');
    return differ;
}
