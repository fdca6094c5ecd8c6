/* The C interface of Njallavet: the shuffle, the shuffle of a tracked state, and the replay checker.
 *
 * A list is a pointer and a length in words. What the caller must see to: a pointer is not null and is aligned for what it points to, for a
 * length of 0 too; so many words can be read behind it, and written where it is not const; what is written overlaps nothing else that is
 * passed. Nothing is kept after the call, and nothing is allocated. Every other input gets an answer.
 *
 * Stacks are lists, top first. An operation is two words: its kind (1 Swap, 2 Dup, 3 Pop, 4 Store, 5 Load) and its argument (0 for Pop).
 * A buffer of operations has room for half its words, rounded down. Link libexports.a, which is made for x86-64. */
#ifndef NJALLAVET_H
#define NJALLAVET_H

#include <stddef.h>
#include <stdint.h>

#ifdef __cplusplus
extern "C" {
#endif

/* What a shuffle answers. 1 to 5 refuse the job, in this order: every buffer and a lent state stay as they were, the counts are 0 and the
 * end stack is empty. 6 to 12 stop at one operation: everything before it stands and is counted, nothing of it does. */
enum {
    NJALLAVET_DONE = 0,
    NJALLAVET_LIMIT = 1,   /* the swap limit is 0 */
    NJALLAVET_START = 2,   /* more than 1,024 start values */
    NJALLAVET_TARGET = 3,  /* more than 1,024 target values */
    NJALLAVET_FILLED = 4,  /* more slots are filled than the spill buffer has */
    NJALLAVET_SLOTS = 5,   /* first + the spill buffer's length is above 4,294,967,295 */
    NJALLAVET_MISSING = 6, /* the value to load is not stored */
    NJALLAVET_FULL = 7,    /* a push on 1,024 values */
    NJALLAVET_STUCK = 8,   /* no rule applies */
    NJALLAVET_TICKS = 9,   /* a loop would go on after 100,000 ticks */
    NJALLAVET_SPILL = 10,  /* a Store with no free slot */
    NJALLAVET_OPS = 11,    /* no room for the operation */
    NJALLAVET_INSIDE = 12  /* a rule would read outside the stack or the target */
};

/* What the checker answers beside 0 and 1 to 5: the first fault of a list. */
enum {
    NJALLAVET_ODD = 30,        /* an odd number of words */
    NJALLAVET_UNKNOWN = 31,    /* an unknown kind, or a Pop with an argument */
    NJALLAVET_SWAP_FAR = 32,   /* a swap depth that is 0 or above the swap limit */
    NJALLAVET_SWAP_BELOW = 33, /* a swap below the bottom */
    NJALLAVET_DUP_FAR = 34,    /* a dup depth above the dup limit */
    NJALLAVET_DUP_BELOW = 35,  /* a dup below the bottom */
    NJALLAVET_TOO_HIGH = 36,   /* the stack would pass 1,024 values */
    NJALLAVET_NONE_LEFT = 37,  /* a Pop or a Store on an empty stack */
    NJALLAVET_OTHER_SLOT = 38, /* a Store that does not name the next slot */
    NJALLAVET_NO_SLOT = 39,    /* a Store with no free slot */
    NJALLAVET_NOT_FILLED = 40, /* a Load of a slot that is not filled */
    NJALLAVET_UNLIKE = 41      /* the end stack is unlike the target */
};

/* The stack's values are the last stack_len words, top first. */
typedef struct {
    uint32_t stack_raw[1024];
    uint16_t stack_len;
} njallavet_stack;

typedef struct {
    uint32_t code; /* NJALLAVET_DONE to NJALLAVET_INSIDE */
    uint32_t shrink_ticks;
    uint32_t grow_ticks;
    size_t ops;   /* operations written by this call */
    size_t slots; /* slots filled after it, those that were filled before it too */
    njallavet_stack stack;
} njallavet_answer;

/* A stack on its way, with what belongs to it in the two buffers. The caller fills it in: every value of the struct has a meaning, and
 * njallavet_run tests it. A new one has its values in the last words of the array, and 0 written. */
typedef struct {
    njallavet_stack stack;
    uint32_t first; /* the number of the spill buffer's first slot */
    size_t filled;  /* the first so many words of the spill buffer are stored values, oldest first */
    size_t written; /* so many operations stand in the operation buffer already */
} njallavet_state;

typedef struct {
    uint32_t code; /* 0 accepted; 1 to 5; NJALLAVET_ODD to NJALLAVET_UNLIKE */
    size_t index;  /* of the operation at fault; their number for 0 and 41, 0 before any was looked at */
    uint64_t gas;  /* of the operations replayed */
    size_t filled; /* slots filled after them */
} njallavet_verdict;

/* Turns the stack `start` into `target`. The first `filled` words of `spill` are the values stored already, oldest first; entry i is slot
 * first + i. Operations go to the low end of `ops`, stored values after the filled ones; all other words stay as they are. */
njallavet_answer njallavet_shuffle(const uint32_t *start, size_t start_len, uint32_t *spill, size_t spill_len, size_t filled,
                                   uint32_t first, const uint32_t *target, size_t target_len, uint8_t max_swap_depth,
                                   uint8_t max_dup_depth, uint32_t *ops, size_t ops_len);

/* The same from a state, which it leaves as it stands after the run. Operations go to `ops` after those that `state` has written, stored
 * values to `spill` after the filled ones; all other words stay as they are. The answer counts this run's operations; its stack is the
 * state's. A further run goes on from there, with the same two buffers. */
njallavet_answer njallavet_run(njallavet_state *state, uint32_t *spill, size_t spill_len, const uint32_t *target, size_t target_len,
                               uint8_t max_swap_depth, uint8_t max_dup_depth, uint32_t *ops, size_t ops_len);

/* Replays operation words, whoever wrote them. Stores replayed before the verdict stay in `spill`. */
njallavet_verdict njallavet_check(const uint32_t *start, size_t start_len, uint32_t *spill, size_t spill_len, size_t filled,
                                  uint32_t first, const uint32_t *target, size_t target_len, uint8_t max_swap_depth,
                                  uint8_t max_dup_depth, const uint32_t *ops, size_t ops_len);

#ifdef __cplusplus
}
#endif

#endif
