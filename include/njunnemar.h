/*
 * Njunnemar for C and C++: timed program graphs and channel systems that are built and stepped in memory that the caller lends.
 *
 * Every call returns a number: 0 (NJN_OK) or a refusal (enum njn_refusal). It ends with one, whatever it is handed: any words in a table, a run
 * or a state, any number of them. A refused call leaves every word of lent memory as it was, but that three name in `out` what they found:
 * njn_state_wait with 9, njn_state_replay with 37 and 38, njn_state_why with 8.
 *
 * A slice is a pointer and a length in elements. The pointer of a slice of length 0 is not read, and may be NULL. The caller answers for
 * this: the elements are there, and a slice that a call writes does not overlap another of the same call.
 *
 * Results go to `out`, which has room for the stated number of words. Where a call accepts it writes all of these, from out[0] on, and no word behind them.
 *
 * Order of refusals: 35 if `out` is too short, 36 if an argument is malformed, 32 if a table, run or state is not well formed, then those that
 * the call names, in the order in which they are named. In such a list 28* is a handed list over its size, told where it is first read.
 *
 * Numbers name the parts of a graph or a system in the order in which they were made, from 0 on.
 */
#ifndef NJUNNEMAR_H
#define NJUNNEMAR_H

#include <stdbool.h>
#include <stddef.h>
#include <stdint.h>

#ifdef __cplusplus
extern "C" {
#endif

/* ---- refusals */

enum njn_refusal {
    NJN_OK = 0, /* done */
    NJN_MISSING_ACTION = 1, /* no such action */
    NJN_MISSING_CLOCK = 2, /* no such clock */
    NJN_MISSING_LOCATION = 3, /* no such location */
    NJN_MISSING_VAR = 4, /* no such variable */
    NJN_TYPE_MISMATCH = 5, /* a value, an effect or a message of another kind than asked, or of another count */
    NJN_TYPE = 6, /* an expression that has no kind; a guard that draws or is no boolean */
    NJN_MISMATCHING_POST_STATES = 7, /* not one post for each process */
    NJN_UNSATISFIED_GUARD = 8, /* some process has no candidate that passes */
    NJN_INVARIANT = 9, /* an invariant that time 0, or the end of a wait, does not meet */
    NJN_NO_EFFECTS = 10, /* an effect or a reset for EPSILON */
    NJN_EFFECT_ON_SEND = 11, /* an effect or a reset for a send */
    NJN_EFFECT_ON_RECEIVE = 12, /* an effect or a reset for a receive */
    NJN_COMMUNICATION = 13, /* a plain step by an action that is a communication */
    NJN_NOT_SEND = 14, /* a send by an action that is none */
    NJN_NOT_RECEIVE = 15, /* a receive by an action that is none */
    NJN_SYNC = 16, /* a listing for one process, of a graph that has several */
    NJN_MISSING_PG = 17, /* no such graph */
    NJN_ACTION_NOT_IN_PG = 18, /* an action of another graph */
    NJN_LOCATION_NOT_IN_PG = 19, /* a post of another graph */
    NJN_OUT_OF_CAPACITY = 20, /* a bounded queue is full */
    NJN_EMPTY = 21, /* nothing to receive */
    NJN_NOT_EMPTY = 22, /* an empty probe, and something is stored */
    NJN_NOT_FULL = 23, /* a full probe, and the queue is not full */
    NJN_PROBING_HANDSHAKE_CHANNEL = 24, /* a probe where the capacity is 0 */
    NJN_PROBING_INFINITE_QUEUE = 25, /* a full probe of a queue without a bound */
    NJN_OVERFLOW = 26, /* a time past 4294967295; an effect or a sent expression without a value */
    NJN_NO_ROOM = 27, /* a queue without a bound has no room for the message */
    NJN_TABLE_FULL = 28, /* one more than there is room for */
    NJN_NO_PROCESS = 29, /* building a graph that has no process */
    NJN_MISSING_CHANNEL = 30, /* no such channel */
    NJN_CHANNEL_TOO_LARGE = 31, /* a queue that would hold more than 64 values */
    NJN_BAD_STATE = 32, /* a table, run or state that is not well formed */
    /* 33 and 34 are kept for rules to come. */
    NJN_SHORT = 35, /* a lent result slice is shorter than stated: nothing at all is written */
    NJN_MALFORMED = 36, /* an argument that is no value, kind, bound or capacity, or bytes that are no block: nothing at all is written */
    NJN_BAD_BLOCK = 37, /* a block of a recording that is not well formed */
    NJN_DIFFERS = 38 /* a record of a recording whose call answers otherwise than it says */
};

/* The name of a number that a call returned: "ok" for 0, "unknown" past the last. */
static inline const char *njn_refusal_name(uint32_t number)
{
    static const char *const names[] = {
        "ok",
        "MissingAction",
        "MissingClock",
        "MissingLocation",
        "MissingVar",
        "TypeMismatch",
        "Type",
        "MismatchingPostStates",
        "UnsatisfiedGuard",
        "Invariant",
        "NoEffects",
        "EffectOnSend",
        "EffectOnReceive",
        "Communication",
        "NotSend",
        "NotReceive",
        "Sync",
        "MissingPg",
        "ActionNotInPg",
        "LocationNotInPg",
        "OutOfCapacity",
        "Empty",
        "NotEmpty",
        "NotFull",
        "ProbingHandshakeChannel",
        "ProbingInfiniteQueue",
        "Overflow",
        "NoRoom",
        "TableFull",
        "NoProcess",
        "MissingChannel",
        "ChannelTooLarge",
        "BadState",
        "reserved",
        "reserved",
        "Short",
        "Malformed",
        "BadBlock",
        "Differs"
    };
    return number < sizeof names / sizeof names[0] ? names[number] : "unknown";
}

/* ---- sizes, in words of 64 bits: as constants, and asked of the archive */

#define NJN_GRAPH_WORDS 46890   /* a graph's table */
#define NJN_RUN_WORDS 47        /* a run of a graph */
#define NJN_SYSTEM_WORDS 375434 /* a system's table */
#define NJN_STATE_WORDS 1417    /* a state of a system */
#define NJN_EVENT_WORDS 12      /* an event */
#define NJN_MESSAGE_WORDS 9     /* a message */
#define NJN_ENTRY_WORDS 4       /* an entry of a graph's listing */
#define NJN_GRAPH_ENTRY_WORDS 5 /* an entry of a system's listing */
#define NJN_VALUE_WORDS 2       /* a value */
#define NJN_QUEUED_WORDS 3      /* a value of a queue */
#define NJN_PLACES_WORDS 5      /* the places of a run's processes */
#define NJN_CHANNEL_WORDS 7     /* a channel */
#define NJN_REPLAY_WORDS 4      /* what a replay tells */
#define NJN_BLOCK_BYTES 512     /* a block of a recording, in bytes */
#define NJN_BLOCK_RECORDS 15    /* the most records that a block has */
#define NJN_CAUSE_WORDS 6       /* the cause of an 8 */
#define NJN_GUARDS_WORDS 65536  /* the guards of a system, as njn_state_why is lent them */
#define NJN_LIMITS_WORDS 30720  /* the limits of a system */

size_t njn_graph_words(void);
size_t njn_run_words(void);
size_t njn_system_words(void);
size_t njn_state_words(void);
size_t njn_event_words(void);
size_t njn_message_words(void);
size_t njn_entry_words(void);
size_t njn_graph_entry_words(void);
size_t njn_value_words(void);
size_t njn_queued_words(void);
size_t njn_places_words(void);
size_t njn_channel_words(void);
size_t njn_replay_words(void);
size_t njn_block_bytes(void);
size_t njn_block_records(void);
size_t njn_cause_words(void);
size_t njn_guards_words(void);
size_t njn_limits_words(void);

/* How many of each there is room for; one more is refused with 28. */
enum {
    NJN_PROCESSES = 4,
    NJN_LOCATIONS = 32,
    NJN_ACTIONS = 32,
    NJN_TRANSITIONS = 128,
    NJN_VARIABLES = 16,
    NJN_CLOCKS = 8,
    NJN_LIMITS = 8,       /* of a transition, and of a location */
    NJN_EFFECTS = 16,     /* of an action, and so many resets */
    NJN_MESSAGE = 4,      /* values of a message */
    NJN_ITEMS = 64,       /* of an expression */
    NJN_GRAPHS = 8,
    NJN_CHANNELS = 8
};

/* ---- values: a kind and a payload */

enum { NJN_BOOLEAN = 0, NJN_INTEGER = 1 };

/* The payload of a boolean and of an integer. */
static inline uint64_t njn_payload_boolean(bool value) { return value ? 1 : 0; }
static inline uint64_t njn_payload_integer(int32_t value) { return (uint64_t)(uint32_t)value; }

/* The boolean and the integer that a payload is. */
static inline bool njn_boolean(uint64_t payload) { return payload == 1; }
static inline int32_t njn_integer(uint64_t payload)
{
    uint32_t bits = (uint32_t)payload;
    return bits < UINT32_C(2147483648) ? (int32_t)bits : -1 - (int32_t)(UINT32_C(4294967295) - bits);
}

/* ---- expressions: postfix, an item to a word. Operands come first, then their operation. */

#define NJN_NOT UINT64_C(1)
#define NJN_AND UINT64_C(2)
#define NJN_OR UINT64_C(3)
#define NJN_NEGATE UINT64_C(4)
#define NJN_ADD UINT64_C(5)
#define NJN_SUBTRACT UINT64_C(6)
#define NJN_MULTIPLY UINT64_C(7)
#define NJN_DIVIDE UINT64_C(8)
#define NJN_REMAINDER UINT64_C(9)
#define NJN_EQUAL UINT64_C(10)
#define NJN_LESS UINT64_C(11)
#define NJN_LESS_OR_EQUAL UINT64_C(12)
#define NJN_DRAW UINT64_C(13) /* a bit of the word that a step is handed, from the lowest on */

static inline uint64_t njn_item_boolean(bool value) { return njn_payload_boolean(value) * 256 + 14; }
static inline uint64_t njn_item_integer(int32_t value) { return njn_payload_integer(value) * 256 + 15; }
static inline uint64_t njn_item_variable(uint32_t var) { return (uint64_t)var * 256 + 16; }

/* ---- limits: three words each, a clock and the bounds below and above its time */

#define NJN_UNBOUNDED UINT64_C(0)

static inline uint64_t njn_bound_included(uint32_t time) { return (uint64_t)time * 4 + 1; }
static inline uint64_t njn_bound_excluded(uint32_t time) { return (uint64_t)time * 4 + 2; }

/* ---- actions and posts */

#define NJN_EPSILON UINT32_C(4294967295) /* the reserved action: it has no effects and no resets */

/* A post of a system's step: a location of a graph. */
static inline uint64_t njn_post(uint32_t pg, uint32_t location) { return (uint64_t)pg * UINT64_C(4294967296) + location; }

/* ---- what fails of a candidate: what out[2] of njn_state_why says */

enum { NJN_FAILS_GUARD = 1, NJN_FAILS_LIMIT = 2, NJN_FAILS_INVARIANT = 3, NJN_NO_CANDIDATE = 4 };

/* ---- channels: sorts of capacity */

enum { NJN_CAPACITY_BOUNDED = 0, NJN_CAPACITY_UNBOUNDED = 1, NJN_CAPACITY_SINK = 2 };

/* ---- events: what out[1] of njn_state_transition says */

enum { NJN_PLAIN = 0, NJN_SEND = 1, NJN_RECEIVE = 2, NJN_PROBE_EMPTY_QUEUE = 3, NJN_PROBE_FULL_QUEUE = 4 };

/*
 * ---- building a graph, on a table t of NJN_GRAPH_WORDS words
 *
 * Limits are a slice of three words a limit: 36 if its length is no multiple of three, or a row is no clock number and two bounds. An expression
 * is a slice of items.
 */

/* An empty graph, over any words. 32 if t has another length. */
uint32_t njn_graph_new(uint64_t *t, size_t t_len);

/* A variable with its value at the start: 28. 36 if kind and payload are no value. out[0]: its number. */
uint32_t njn_graph_new_var(uint64_t *t, size_t t_len, uint64_t kind, uint64_t payload, uint64_t *out, size_t out_len);

/* The kind of a variable: 4. out[0]: NJN_BOOLEAN or NJN_INTEGER. */
uint32_t njn_graph_var_type(const uint64_t *t, size_t t_len, uint32_t var, uint64_t *out, size_t out_len);

/* A clock: 28. out[0]: its number. */
uint32_t njn_graph_new_clock(uint64_t *t, size_t t_len, uint64_t *out, size_t out_len);

/* A plain action: 28. out[0]: its number. */
uint32_t njn_graph_new_action(uint64_t *t, size_t t_len, uint64_t *out, size_t out_len);

/* A clock that an action sets to 0: 10, 2, 1, then 11 or 12, then 28. */
uint32_t njn_graph_add_reset(uint64_t *t, size_t t_len, uint32_t action, uint32_t clock);

/* An expression that an action stores in a variable: 10, 28*, 6, 4, 5, 1, then 11 or 12, then 28. */
uint32_t njn_graph_add_effect(uint64_t *t, size_t t_len, uint32_t action, uint32_t var, const uint64_t *effect, size_t effect_len);

/* An action that sends the first `count` of four expressions: 28*; for each expression 28*, 6; then 28. out[0]: its number. */
uint32_t njn_graph_new_send(uint64_t *t, size_t t_len, size_t count, const uint64_t *w, size_t w_len, const uint64_t *x, size_t x_len,
                            const uint64_t *y, size_t y_len, const uint64_t *z, size_t z_len, uint64_t *out, size_t out_len);

/* An action that receives into variables: 28*, 4, 28. out[0]: its number. */
uint32_t njn_graph_new_receive(uint64_t *t, size_t t_len, const uint32_t *vars, size_t vars_len, uint64_t *out, size_t out_len);

/* A location with invariants: 28*, 2, 28. out[0]: its number. */
uint32_t njn_graph_new_timed_location(uint64_t *t, size_t t_len, const uint64_t *invariants, size_t invariants_len, uint64_t *out,
                                      size_t out_len);

/* A process that starts at a location: 3, 9, 28. */
uint32_t njn_graph_new_process(uint64_t *t, size_t t_len, uint32_t location);

/* A location with invariants, and a process that starts there: 28*, 2, 9, 28. out[0]: the location's number. */
uint32_t njn_graph_new_initial_timed_location(uint64_t *t, size_t t_len, const uint64_t *invariants, size_t invariants_len, uint64_t *out,
                                              size_t out_len);

/* A transition from pre by an action to post: 3 for pre, 3 for post, 1, 28* limits, 2, 28* guard, 6, 28. Where `guarded` is false there is no
 * guard, and the slice is not looked at. */
uint32_t njn_graph_add_timed_transition(uint64_t *t, size_t t_len, uint32_t pre, uint32_t action, uint32_t post, bool guarded,
                                        const uint64_t *guard, size_t guard_len, const uint64_t *limits, size_t limits_len);

/* Whether the graph can be run: 29 if it has no process. */
uint32_t njn_graph_build(const uint64_t *t, size_t t_len);

static inline uint32_t njn_graph_new_location(uint64_t *t, size_t t_len, uint64_t *out, size_t out_len)
{
    return njn_graph_new_timed_location(t, t_len, NULL, 0, out, out_len);
}

static inline uint32_t njn_graph_new_initial_location(uint64_t *t, size_t t_len, uint64_t *out, size_t out_len)
{
    return njn_graph_new_initial_timed_location(t, t_len, NULL, 0, out, out_len);
}

static inline uint32_t njn_graph_add_transition(uint64_t *t, size_t t_len, uint32_t pre, uint32_t action, uint32_t post, bool guarded,
                                                const uint64_t *guard, size_t guard_len)
{
    return njn_graph_add_timed_transition(t, t_len, pre, action, post, guarded, guard, guard_len, NULL, 0);
}

static inline uint32_t njn_graph_add_autonomous_timed_transition(uint64_t *t, size_t t_len, uint32_t pre, uint32_t post, bool guarded,
                                                                 const uint64_t *guard, size_t guard_len, const uint64_t *limits,
                                                                 size_t limits_len)
{
    return njn_graph_add_timed_transition(t, t_len, pre, NJN_EPSILON, post, guarded, guard, guard_len, limits, limits_len);
}

static inline uint32_t njn_graph_add_autonomous_transition(uint64_t *t, size_t t_len, uint32_t pre, uint32_t post, bool guarded,
                                                           const uint64_t *guard, size_t guard_len)
{
    return njn_graph_add_transition(t, t_len, pre, NJN_EPSILON, post, guarded, guard, guard_len);
}

/*
 * ---- running a graph, on its table t and a run r of NJN_RUN_WORDS words
 *
 * 32 also covers a run that is none of the table's, and a slice r of another length. Words of r that the graph has no use for are neither
 * read nor written.
 */

/* A fresh run, over any words. */
uint32_t njn_run_new(const uint64_t *t, size_t t_len, uint64_t *r, size_t r_len);

/* A step by a plain action or by NJN_EPSILON, one post for each process: 7; 3; for NJN_EPSILON 8; else 1, 13, 8, 26. `word` has the bits that
 * are drawn. */
uint32_t njn_run_transition(const uint64_t *t, size_t t_len, uint64_t *r, size_t r_len, uint32_t action, const uint32_t *posts,
                            size_t posts_len, uint64_t word);

/* A step by a send: NJN_EPSILON 14; 7, 8, 14, 26. out, NJN_MESSAGE_WORDS: how many values, then four of kind and payload; those past the
 * count are false. */
uint32_t njn_run_send(const uint64_t *t, size_t t_len, uint64_t *r, size_t r_len, uint32_t action, const uint32_t *posts,
                      size_t posts_len, uint64_t word, uint64_t *out, size_t out_len);

/* A step by a receive of values, two words each: NJN_EPSILON 15; 7, 8, 15, 5. 36 if the words are no values. */
uint32_t njn_run_receive(const uint64_t *t, size_t t_len, uint64_t *r, size_t r_len, uint32_t action, const uint32_t *posts,
                         size_t posts_len, const uint64_t *values, size_t values_len);

/* Time passes: 26, 9. */
uint32_t njn_run_wait(const uint64_t *t, size_t t_len, uint64_t *r, size_t r_len, uint32_t delta);

/* Whether such a wait would be accepted. out[0]: 1 or 0. */
uint32_t njn_run_can_wait(const uint64_t *t, size_t t_len, const uint64_t *r, size_t r_len, uint32_t delta, uint64_t *out,
                          size_t out_len);

/* Whether some transition will be open later. out[0]: 1 or 0. */
uint32_t njn_run_is_waiting(const uint64_t *t, size_t t_len, const uint64_t *r, size_t r_len, uint64_t *out, size_t out_len);

/* Where the processes are. out, NJN_PLACES_WORDS: how many, then four places, of which those past the count say nothing. */
uint32_t njn_run_current_states(const uint64_t *t, size_t t_len, const uint64_t *r, size_t r_len, uint64_t *out, size_t out_len);

/* The value of a variable: 4. out, NJN_VALUE_WORDS: kind, payload. */
uint32_t njn_run_value(const uint64_t *t, size_t t_len, const uint64_t *r, size_t r_len, uint32_t var, uint64_t *out, size_t out_len);

/* The time of a clock: 2. out[0]: the time. */
uint32_t njn_run_time(const uint64_t *t, size_t t_len, const uint64_t *r, size_t r_len, uint32_t clock, uint64_t *out, size_t out_len);

/* Entry k of what the run may do next. out, NJN_ENTRY_WORDS: 1, action, process, post; past the end four zeros. */
uint32_t njn_run_possible_transitions(const uint64_t *t, size_t t_len, const uint64_t *r, size_t r_len, size_t k, uint64_t *out,
                                      size_t out_len);

/* The same for a graph of one process: 16. */
uint32_t njn_run_nosync_possible_transitions(const uint64_t *t, size_t t_len, const uint64_t *r, size_t r_len, size_t k, uint64_t *out,
                                             size_t out_len);

/* ---- building a system, on a table t of NJN_SYSTEM_WORDS words */

/* An empty system, over any words. 32 if t has another length. */
uint32_t njn_system_new(uint64_t *t, size_t t_len);

/* An empty graph: 28. out[0]: its number. */
uint32_t njn_system_new_program_graph(uint64_t *t, size_t t_len, uint64_t *out, size_t out_len);

/* A channel whose messages have values of these kinds: 28 for five kinds, 31, 28. 36 for a number that is no kind or no sort of capacity. `bound`
 * is not looked at where the capacity is not bounded. out[0]: its number. */
uint32_t njn_system_new_channel(uint64_t *t, size_t t_len, const uint32_t *kinds, size_t kinds_len, uint32_t sort, uint32_t bound,
                                uint64_t *out, size_t out_len);

/* A channel of a system that is built: 30. out, NJN_CHANNEL_WORDS: how many values a message has, four kinds (0 past the count), the sort of
 * capacity, the bound (0 where there is none). */
uint32_t njn_system_channel(const uint64_t *t, size_t t_len, uint32_t channel, uint64_t *out, size_t out_len);

/* Whether the system can be run: 29 if a graph has no process. */
uint32_t njn_system_build(const uint64_t *t, size_t t_len);

/* The building calls of a graph, on graph pg of the system: 17, then as the graph's own. */
uint32_t njn_system_new_var(uint64_t *t, size_t t_len, uint32_t pg, uint64_t kind, uint64_t payload, uint64_t *out, size_t out_len);

uint32_t njn_system_var_type(const uint64_t *t, size_t t_len, uint32_t pg, uint32_t var, uint64_t *out, size_t out_len);

uint32_t njn_system_new_clock(uint64_t *t, size_t t_len, uint32_t pg, uint64_t *out, size_t out_len);

uint32_t njn_system_new_action(uint64_t *t, size_t t_len, uint32_t pg, uint64_t *out, size_t out_len);

uint32_t njn_system_add_reset(uint64_t *t, size_t t_len, uint32_t pg, uint32_t action, uint32_t clock);

uint32_t njn_system_add_effect(uint64_t *t, size_t t_len, uint32_t pg, uint32_t action, uint32_t var, const uint64_t *effect,
                               size_t effect_len);

uint32_t njn_system_new_timed_location(uint64_t *t, size_t t_len, uint32_t pg, const uint64_t *invariants, size_t invariants_len,
                                       uint64_t *out, size_t out_len);

uint32_t njn_system_new_process(uint64_t *t, size_t t_len, uint32_t pg, uint32_t location);

uint32_t njn_system_new_initial_timed_location(uint64_t *t, size_t t_len, uint32_t pg, const uint64_t *invariants, size_t invariants_len,
                                               uint64_t *out, size_t out_len);

uint32_t njn_system_add_timed_transition(uint64_t *t, size_t t_len, uint32_t pg, uint32_t pre, uint32_t action, uint32_t post, bool guarded,
                                         const uint64_t *guard, size_t guard_len, const uint64_t *limits, size_t limits_len);

/* An action that sends the first `count` of four expressions on a channel: 17, 30; 28* or 6 as the graph's own; 5; 28. out[0]: its number. */
uint32_t njn_system_new_send(uint64_t *t, size_t t_len, uint32_t pg, uint32_t channel, size_t count, const uint64_t *w, size_t w_len,
                             const uint64_t *x, size_t x_len, const uint64_t *y, size_t y_len, const uint64_t *z, size_t z_len,
                             uint64_t *out, size_t out_len);

/* An action that receives from a channel into variables: 17, 30; 28* or 4; 5; 28. out[0]: its number. */
uint32_t njn_system_new_receive(uint64_t *t, size_t t_len, uint32_t pg, uint32_t channel, const uint32_t *vars, size_t vars_len,
                                uint64_t *out, size_t out_len);

/* An action that is open while the queue of a channel is empty, and one while it is full: 17, 30, 28. out[0]: its number. */
uint32_t njn_system_new_probe_empty_queue(uint64_t *t, size_t t_len, uint32_t pg, uint32_t channel, uint64_t *out, size_t out_len);

uint32_t njn_system_new_probe_full_queue(uint64_t *t, size_t t_len, uint32_t pg, uint32_t channel, uint64_t *out, size_t out_len);

static inline uint32_t njn_system_new_location(uint64_t *t, size_t t_len, uint32_t pg, uint64_t *out, size_t out_len)
{
    return njn_system_new_timed_location(t, t_len, pg, NULL, 0, out, out_len);
}

static inline uint32_t njn_system_new_initial_location(uint64_t *t, size_t t_len, uint32_t pg, uint64_t *out, size_t out_len)
{
    return njn_system_new_initial_timed_location(t, t_len, pg, NULL, 0, out, out_len);
}

static inline uint32_t njn_system_add_transition(uint64_t *t, size_t t_len, uint32_t pg, uint32_t pre, uint32_t action, uint32_t post,
                                                 bool guarded, const uint64_t *guard, size_t guard_len)
{
    return njn_system_add_timed_transition(t, t_len, pg, pre, action, post, guarded, guard, guard_len, NULL, 0);
}

static inline uint32_t njn_system_add_autonomous_timed_transition(uint64_t *t, size_t t_len, uint32_t pg, uint32_t pre, uint32_t post,
                                                                  bool guarded, const uint64_t *guard, size_t guard_len,
                                                                  const uint64_t *limits, size_t limits_len)
{
    return njn_system_add_timed_transition(t, t_len, pg, pre, NJN_EPSILON, post, guarded, guard, guard_len, limits, limits_len);
}

static inline uint32_t njn_system_add_autonomous_transition(uint64_t *t, size_t t_len, uint32_t pg, uint32_t pre, uint32_t post,
                                                            bool guarded, const uint64_t *guard, size_t guard_len)
{
    return njn_system_add_transition(t, t_len, pg, pre, NJN_EPSILON, post, guarded, guard, guard_len);
}

/*
 * ---- the graphs of a system, within its table t, and their runs, within its state s
 *
 * Numbers of docs/LAYOUT.md: the words of graph 0 start at NJN_FIRST_GRAPH, those of the next NJN_GRAPH_STEP further on. Of a graph's own words
 * its limits and its guards are one region each. The runs stand one behind the other from NJN_FIRST_RUN on.
 */

#define NJN_FIRST_GRAPH 90
#define NJN_GRAPH_STEP 46922
#define NJN_GRAPH_LIMITS 2090
#define NJN_GRAPH_LIMITS_WORDS 3840
#define NJN_GRAPH_GUARDS 5930
#define NJN_GRAPH_GUARDS_WORDS 8192
#define NJN_FIRST_RUN 1

/* The table of graph pg, which is below NJN_GRAPHS: NJN_GRAPH_WORDS words that the calls njn_run_.. take. */
static inline const uint64_t *njn_graph_of_system(const uint64_t *t, uint32_t pg)
{
    return t + NJN_FIRST_GRAPH + (size_t)NJN_GRAPH_STEP * pg;
}

/* The run of graph pg, NJN_RUN_WORDS words that the calls njn_run_.. take with the graph's table. */
static inline const uint64_t *njn_run_of_state(const uint64_t *s, uint32_t pg)
{
    return s + NJN_FIRST_RUN + (size_t)NJN_RUN_WORDS * pg;
}

/* One region of every graph, one after the other. The next two call it. */
static inline void njn_system_copy_regions(const uint64_t *t, size_t start, size_t words, uint64_t *to)
{
    for (uint32_t pg = 0; pg < NJN_GRAPHS; pg++)
        for (size_t i = 0; i < words; i++)
            to[words * pg + i] = njn_graph_of_system(t, pg)[start + i];
}

/* The guards of a system, NJN_GUARDS_WORDS words, and its limits, NJN_LIMITS_WORDS words, for njn_state_why. */
static inline void njn_system_copy_guards(const uint64_t *t, uint64_t *guards)
{
    njn_system_copy_regions(t, NJN_GRAPH_GUARDS, NJN_GRAPH_GUARDS_WORDS, guards);
}

static inline void njn_system_copy_limits(const uint64_t *t, uint64_t *limits)
{
    njn_system_copy_regions(t, NJN_GRAPH_LIMITS, NJN_GRAPH_LIMITS_WORDS, limits);
}

/*
 * ---- running a system, on its table t and a state s of NJN_STATE_WORDS words
 *
 * 32 also covers a system that is not built, and a state that is none of the table's. No call here writes the table.
 */

/* A fresh state, over any words. */
uint32_t njn_state_new(const uint64_t *t, size_t t_len, uint64_t *s, size_t s_len);

/* A step of graph pg by an action of graph `owner`, one post (njn_post) for each process: 17, 18, 19; a plain step then as the graph's; a
 * communication 20 or 27, 21, 24 or 22, 24, 25 or 23, then 7, 8, 26. `word` has the bits that are drawn. out, NJN_EVENT_WORDS: the graph, the kind
 * (NJN_PLAIN ..), the channel (0 of a plain step), how many values, then four of kind and payload; those past the count are false. */
uint32_t njn_state_transition(const uint64_t *t, size_t t_len, uint64_t *s, size_t s_len, uint32_t pg, uint32_t owner, uint32_t action,
                              const uint64_t *posts, size_t posts_len, uint64_t word, uint64_t *out, size_t out_len);

/* What a plain step answers, without making it, and with 8 the cause. Lent beside the system are its guards and its limits, as it was built with them
 * (njn_system_copy_guards, njn_system_copy_limits): 5 if they are others. Then 17, 18, 19, and as the graph's own plain step; 13 for a communication.
 * out, NJN_CAUSE_WORDS, is written where the answer is 8, and only there: the lowest process without a candidate that passes, its first
 * candidate, what fails of it (NJN_FAILS_GUARD ..), which limit or invariant of its list that is, and where the part that fails starts and how many
 * words it has: in `guards` for NJN_FAILS_GUARD, in `limits` for NJN_FAILS_LIMIT and NJN_FAILS_INVARIANT. Words that say nothing are 0. */
uint32_t njn_state_why(const uint64_t *t, size_t t_len, const uint64_t *s, size_t s_len, const uint64_t *guards, size_t guards_len,
                       const uint64_t *limits, size_t limits_len, uint32_t pg, uint32_t owner, uint32_t action, const uint64_t *posts,
                       size_t posts_len, uint64_t word, uint64_t *out, size_t out_len);

/* Time passes for all graphs: 26, 9. out[0] is written where the answer is 9, and only there: the lowest graph that has an invariant against it. */
uint32_t njn_state_wait(const uint64_t *t, size_t t_len, uint64_t *s, size_t s_len, uint32_t delta, uint64_t *out, size_t out_len);

/* A recording stepped again, a row of blocks of 512 bytes: 37, 38. Of a finding nothing is kept: the state is as it was. out, NJN_REPLAY_WORDS, all
 * written with 0, 37 and 38: with 0 how many records were stepped; with 37 the block, from 0 on; with 38 the block, the record in it, the
 * recorded number and the one given. Words that are not named are 0. */
uint32_t njn_state_replay(const uint64_t *t, size_t t_len, uint64_t *s, size_t s_len, const uint8_t *bytes, size_t bytes_len, uint64_t *out,
                          size_t out_len);

/* A recording is written block by block, each on NJN_BLOCK_BYTES lent bytes: its records, from 0 on, and then the rest. What is in the bytes before does not
 * matter. Each is refused with 36 alone, and no byte is written then.
 *
 * Record i of the block is a step of this graph by its action to its posts, at most 4, with the word that was handed and what was answered, 0 for ok. */
uint32_t njn_block_put_step(uint8_t *block, size_t block_len, size_t i, uint8_t pg, uint32_t action, const uint16_t *posts, size_t posts_len,
                            uint64_t word, uint8_t answer);

/* Record i of the block is a wait. */
uint32_t njn_block_put_wait(uint8_t *block, size_t block_len, size_t i, uint32_t delta, uint8_t answer);

/* The block is number `place` of its recording, from 0 on, and has so many records: all other bytes are written. Only the last block of a recording has
 * fewer than NJN_BLOCK_RECORDS. */
uint32_t njn_block_seal(uint8_t *block, size_t block_len, uint32_t place, size_t count);

/* Whether such a wait would be accepted. out[0]: 1 or 0. */
uint32_t njn_state_can_wait(const uint64_t *t, size_t t_len, const uint64_t *s, size_t s_len, uint32_t delta, uint64_t *out,
                            size_t out_len);

/* Whether time may pass, and some graph waits for it. out[0]: 1 or 0. */
uint32_t njn_state_is_waiting(const uint64_t *t, size_t t_len, const uint64_t *s, size_t s_len, uint64_t *out, size_t out_len);

/* Entry k of what all graphs may do next. out, NJN_GRAPH_ENTRY_WORDS: 1, graph, action, process, post; past the end five zeros. */
uint32_t njn_state_possible_transitions(const uint64_t *t, size_t t_len, const uint64_t *s, size_t s_len, size_t k, uint64_t *out,
                                        size_t out_len);

/* Entry k of what graph pg may do next: 17. out, NJN_ENTRY_WORDS: 1, action, process, post; past the end four zeros. */
uint32_t njn_state_possible_transitions_pg(const uint64_t *t, size_t t_len, const uint64_t *s, size_t s_len, uint32_t pg, size_t k,
                                           uint64_t *out, size_t out_len);

/* The same for a graph of one process: 17, 16. */
uint32_t njn_state_nosync_possible_transitions_pg(const uint64_t *t, size_t t_len, const uint64_t *s, size_t s_len, uint32_t pg, size_t k,
                                                  uint64_t *out, size_t out_len);

/* The time. out[0]: it. */
uint32_t njn_state_time(const uint64_t *t, size_t t_len, const uint64_t *s, size_t s_len, uint64_t *out, size_t out_len);

/* How many values the queue of a channel has: 30. out[0]: the number. */
uint32_t njn_state_queue_length(const uint64_t *t, size_t t_len, const uint64_t *s, size_t s_len, uint32_t channel, uint64_t *out,
                                size_t out_len);

/* Value k of the queue of a channel, oldest first: 30. out, NJN_QUEUED_WORDS: 1, kind, payload; past the end three zeros. */
uint32_t njn_state_queue_value(const uint64_t *t, size_t t_len, const uint64_t *s, size_t s_len, uint32_t channel, size_t k,
                               uint64_t *out, size_t out_len);

#ifdef __cplusplus
}
#endif

#endif
