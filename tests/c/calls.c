/* Calls every function of njunnemar.h, also with arguments that are nothing, and compares what it answers and what it writes. C99, and C++. */
#include "njunnemar.h"

#include <stdio.h>
#include <stdlib.h>
#include <string.h>

#define MARK UINT64_C(0x5a5a5a5a5a5a5a5a)
#define ROOM 64

static uint64_t graph[NJN_GRAPH_WORDS], run[NJN_RUN_WORDS], sys[NJN_SYSTEM_WORDS], state[NJN_STATE_WORDS], out[ROOM];
static uint64_t graph_was[NJN_GRAPH_WORDS], run_was[NJN_RUN_WORDS], sys_was[NJN_SYSTEM_WORDS], state_was[NJN_STATE_WORDS];
static int line, calls, failures;

#define G graph, NJN_GRAPH_WORDS
#define R run, NJN_RUN_WORDS
#define Y sys, NJN_SYSTEM_WORDS
#define S state, NJN_STATE_WORDS
#define O out, ROOM
#define NONE NULL, 0

static void failed(const char *what, unsigned long long got, unsigned long long wanted)
{
    printf("line %d: %s: %llu, not %llu\n", line, what, got, wanted);
    failures++;
}

static void before(void)
{
    int i;
    memcpy(graph_was, graph, sizeof graph);
    memcpy(run_was, run, sizeof run);
    memcpy(sys_was, sys, sizeof sys);
    memcpy(state_was, state, sizeof state);
    for (i = 0; i < ROOM; i++) out[i] = MARK;
}

/* The number, how many words of `out` were written, and that a refusal left all memory. */
static void after(uint32_t got, uint32_t wanted, int words)
{
    int i;
    calls++;
    if (got != wanted) failed(njn_refusal_name(got), got, wanted);
    for (i = 0; i < ROOM; i++)
        if ((i < words) != (out[i] != MARK)) failed("words written", (unsigned long long)i, (unsigned long long)words);
    if (wanted != NJN_OK && (memcmp(graph_was, graph, sizeof graph) != 0 || memcmp(run_was, run, sizeof run) != 0 ||
                             memcmp(sys_was, sys, sizeof sys) != 0 || memcmp(state_was, state, sizeof state) != 0))
        failed("a refusal wrote", 1, 0);
}

/* Accepted, and so many words in `out`. */
#define OK(words, call) do { line = __LINE__; before(); after((call), NJN_OK, (words)); } while (0)
/* Refused with a number, and none. */
#define NO(number, call) do { line = __LINE__; before(); after((call), (number), 0); } while (0)
/* Refused with a number, and so many words. */
#define FOUND(number, words, call) do { line = __LINE__; before(); after((call), (number), (words)); } while (0)
#define IS(place, word) do { line = __LINE__; if (out[place] != (uint64_t)(word)) failed("word", out[place], (uint64_t)(word)); } while (0)
#define SAME(what, a, b) do { line = __LINE__; if ((uint64_t)(a) != (uint64_t)(b)) failed(what, (uint64_t)(a), (uint64_t)(b)); } while (0)

static void sizes(void)
{
    SAME("graph", njn_graph_words(), NJN_GRAPH_WORDS);
    SAME("run", njn_run_words(), NJN_RUN_WORDS);
    SAME("system", njn_system_words(), NJN_SYSTEM_WORDS);
    SAME("state", njn_state_words(), NJN_STATE_WORDS);
    SAME("event", njn_event_words(), NJN_EVENT_WORDS);
    SAME("message", njn_message_words(), NJN_MESSAGE_WORDS);
    SAME("entry", njn_entry_words(), NJN_ENTRY_WORDS);
    SAME("graph entry", njn_graph_entry_words(), NJN_GRAPH_ENTRY_WORDS);
    SAME("value", njn_value_words(), NJN_VALUE_WORDS);
    SAME("queued", njn_queued_words(), NJN_QUEUED_WORDS);
    SAME("places", njn_places_words(), NJN_PLACES_WORDS);
    SAME("channel", njn_channel_words(), NJN_CHANNEL_WORDS);
    SAME("replay", njn_replay_words(), NJN_REPLAY_WORDS);
    SAME("block", njn_block_bytes(), NJN_BLOCK_BYTES);
    SAME("records", njn_block_records(), NJN_BLOCK_RECORDS);
    SAME("cause", njn_cause_words(), NJN_CAUSE_WORDS);
    SAME("guards", njn_guards_words(), NJN_GUARDS_WORDS);
    SAME("limits", njn_limits_words(), NJN_LIMITS_WORDS);
    SAME("name", strcmp(njn_refusal_name(0), "ok"), 0);
    SAME("name", strcmp(njn_refusal_name(32), "BadState"), 0);
    SAME("name", strcmp(njn_refusal_name(NJN_MALFORMED), "Malformed"), 0);
    SAME("name", strcmp(njn_refusal_name(NJN_DIFFERS), "Differs"), 0);
    SAME("name", strcmp(njn_refusal_name(39), "unknown"), 0);
    SAME("integer", njn_integer(njn_payload_integer(-7)) == -7, 1);
    SAME("integer", njn_integer(njn_payload_integer(INT32_MIN)) == INT32_MIN, 1);
    SAME("boolean", njn_boolean(njn_payload_boolean(true)), 1);
}

/* Two locations; v0 = 3 and v1 = false; c0. A0 adds 1 to v0 and resets c0, from L0 to L1 if v0 < 5; A1 sends v0; A2 receives v0, v1; EPSILON back within c0 >= 2. */
static void graphs(void)
{
    uint64_t small[3], more[3], v0[1], limits[27], wrong[3];
    const uint32_t vars[2] = {0, 1}, five[5] = {0, 0, 0, 0, 0}, to1[1] = {1}, to0[1] = {0}, two[2] = {0, 0};
    uint64_t values[4], bad[4];
    int i;
    small[0] = njn_item_variable(0), small[1] = njn_item_integer(5), small[2] = NJN_LESS;
    more[0] = njn_item_variable(0), more[1] = njn_item_integer(1), more[2] = NJN_ADD;
    v0[0] = njn_item_variable(0);
    for (i = 0; i < 27; i += 3) limits[i] = 0, limits[i + 1] = njn_bound_included(2), limits[i + 2] = NJN_UNBOUNDED;

    for (i = 0; i < NJN_GRAPH_WORDS; i++) graph[i] = MARK;
    NO(NJN_BAD_STATE, njn_graph_new_clock(G, O));
    NO(NJN_BAD_STATE, njn_graph_new(graph, NJN_GRAPH_WORDS - 1));
    NO(NJN_BAD_STATE, njn_graph_new(NONE));
    OK(0, njn_graph_new(G));
    NO(NJN_NO_PROCESS, njn_graph_build(G));
    OK(1, njn_graph_new_var(G, NJN_INTEGER, njn_payload_integer(3), O));
    IS(0, 0);
    OK(1, njn_graph_new_var(G, NJN_BOOLEAN, njn_payload_boolean(false), O));
    IS(0, 1);
    NO(NJN_SHORT, njn_graph_new_var(G, 9, 9, NONE));
    NO(NJN_MALFORMED, njn_graph_new_var(G, 2, 0, O));
    NO(NJN_MALFORMED, njn_graph_new_var(G, NJN_BOOLEAN, 2, O));
    NO(NJN_MALFORMED, njn_graph_new_var(NONE, NJN_INTEGER, UINT64_C(4294967296), O));
    OK(1, njn_graph_var_type(G, 1, O));
    IS(0, NJN_BOOLEAN);
    NO(NJN_MISSING_VAR, njn_graph_var_type(G, 2, O));
    NO(NJN_SHORT, njn_graph_var_type(NONE, 2, NONE));
    OK(1, njn_graph_new_clock(G, O));
    NO(NJN_SHORT, njn_graph_new_clock(NONE, NONE));
    OK(1, njn_graph_new_location(G, O));
    OK(1, njn_graph_new_timed_location(G, limits, 3, O));
    IS(0, 1);
    NO(NJN_TABLE_FULL, njn_graph_new_timed_location(G, limits, 27, O));
    NO(NJN_MALFORMED, njn_graph_new_timed_location(G, limits, 2, O));
    wrong[0] = 0, wrong[1] = 3, wrong[2] = 0;
    NO(NJN_MALFORMED, njn_graph_new_timed_location(G, wrong, 3, O));
    wrong[1] = 4;
    NO(NJN_MALFORMED, njn_graph_new_initial_timed_location(NONE, wrong, 3, O));
    wrong[1] = 0, wrong[0] = UINT64_C(4294967296);
    NO(NJN_MALFORMED, njn_graph_add_timed_transition(G, 0, 0, 0, false, NONE, wrong, 3));
    wrong[0] = 7;
    NO(NJN_MISSING_CLOCK, njn_graph_new_timed_location(G, wrong, 3, O));
    NO(NJN_INVARIANT, njn_graph_new_initial_timed_location(G, limits, 3, O));
    NO(NJN_SHORT, njn_graph_new_timed_location(NONE, limits, 2, NONE));
    NO(NJN_SHORT, njn_graph_new_initial_timed_location(NONE, limits, 2, NONE));
    OK(1, njn_graph_new_action(G, O));
    NO(NJN_SHORT, njn_graph_new_action(NONE, NONE));
    OK(0, njn_graph_add_reset(G, 0, 0));
    NO(NJN_NO_EFFECTS, njn_graph_add_reset(G, NJN_EPSILON, 0));
    OK(0, njn_graph_add_effect(G, 0, 0, more, 3));
    NO(NJN_TYPE, njn_graph_add_effect(G, 0, 0, NONE));
    NO(NJN_TYPE_MISMATCH, njn_graph_add_effect(G, 0, 0, small, 3));
    OK(1, njn_graph_new_send(G, 1, v0, 1, NONE, NONE, NONE, O));
    IS(0, 1);
    NO(NJN_TABLE_FULL, njn_graph_new_send(G, SIZE_MAX, NONE, NONE, NONE, NONE, O));
    NO(NJN_TYPE, njn_graph_new_send(G, 2, v0, 1, NONE, NONE, NONE, O));
    NO(NJN_SHORT, njn_graph_new_send(G, 1, v0, 1, NONE, NONE, NONE, NONE));
    OK(1, njn_graph_new_receive(G, vars, 2, O));
    IS(0, 2);
    NO(NJN_TABLE_FULL, njn_graph_new_receive(G, five, 5, O));
    NO(NJN_SHORT, njn_graph_new_receive(G, vars, 2, NONE));
    OK(0, njn_graph_add_transition(G, 0, 0, 1, true, small, 3));
    OK(0, njn_graph_add_transition(G, 0, 1, 0, false, NONE));
    OK(0, njn_graph_add_transition(G, 0, 2, 0, false, NONE));
    OK(0, njn_graph_add_autonomous_timed_transition(G, 1, 0, false, NONE, limits, 3));
    OK(0, njn_graph_add_autonomous_transition(G, 0, 0, false, NONE));
    NO(NJN_TYPE, njn_graph_add_transition(G, 0, 0, 1, true, NONE));
    NO(NJN_MISSING_LOCATION, njn_graph_add_transition(G, 2, 9, 1, true, NONE));
    NO(NJN_BAD_STATE, njn_run_new(G, R));
    OK(0, njn_graph_new_process(G, 0));
    NO(NJN_MISSING_LOCATION, njn_graph_new_process(G, UINT32_MAX));
    OK(0, njn_graph_build(G));

    for (i = 0; i < NJN_RUN_WORDS; i++) run[i] = MARK;
    NO(NJN_BAD_STATE, njn_run_wait(G, R, 0));
    NO(NJN_BAD_STATE, njn_run_new(G, run, NJN_RUN_WORDS - 1));
    OK(0, njn_run_new(G, R));
    OK(NJN_PLACES_WORDS, njn_run_current_states(G, R, (run[4] = run[5] = run[6] = 7, out), ROOM));
    IS(0, 1);
    IS(1, 0);
    OK(NJN_VALUE_WORDS, njn_run_value(G, R, 0, O));
    IS(0, NJN_INTEGER);
    IS(1, 3);
    NO(NJN_MISSING_VAR, njn_run_value(G, R, 2, O));
    NO(NJN_SHORT, njn_run_value(NONE, NONE, 0, out, 1));
    OK(NJN_ENTRY_WORDS, njn_run_possible_transitions(G, R, 0, O)); /* not A0: the invariant of L1 does not hold at c0 = 0 */
    IS(0, 1);
    IS(1, 1);
    IS(2, 0);
    IS(3, 0);
    OK(NJN_ENTRY_WORDS, njn_run_nosync_possible_transitions(G, R, 2, O));
    IS(1, NJN_EPSILON);
    OK(NJN_ENTRY_WORDS, njn_run_nosync_possible_transitions(G, R, SIZE_MAX, O));
    IS(0, 0);
    NO(NJN_SHORT, njn_run_possible_transitions(G, R, 0, out, 3));
    NO(NJN_SHORT, njn_run_nosync_possible_transitions(G, R, 0, out, 3));
    NO(NJN_MISMATCHING_POST_STATES, njn_run_transition(G, R, 0, two, 2, 0));
    NO(NJN_MISMATCHING_POST_STATES, njn_run_transition(G, R, 0, NONE, 0));
    NO(NJN_MISSING_ACTION, njn_run_transition(G, R, 9, to1, 1, 0));
    NO(NJN_COMMUNICATION, njn_run_transition(G, R, 1, to1, 1, 0));
    OK(NJN_MESSAGE_WORDS, njn_run_send(G, R, 1, to0, 1, 0, O));
    IS(0, 1);
    IS(1, NJN_INTEGER);
    IS(2, 3);
    IS(8, 0);
    NO(NJN_NOT_SEND, njn_run_send(G, R, 2, to0, 1, 0, O));
    NO(NJN_SHORT, njn_run_send(G, R, 1, to0, 1, 0, out, 8));
    values[0] = NJN_INTEGER, values[1] = njn_payload_integer(-2), values[2] = NJN_BOOLEAN, values[3] = 1;
    memcpy(bad, values, sizeof bad);
    bad[3] = 2;
    NO(NJN_MALFORMED, njn_run_receive(NONE, NONE, 2, to0, 1, bad, 4));
    NO(NJN_MALFORMED, njn_run_receive(G, R, 2, to0, 1, values, 3));
    NO(NJN_TYPE_MISMATCH, njn_run_receive(G, R, 2, to0, 1, values, 2));
    NO(NJN_NOT_RECEIVE, njn_run_receive(G, R, 1, to0, 1, values, 4));
    OK(0, njn_run_receive(G, R, 2, to0, 1, values, 4));
    OK(NJN_VALUE_WORDS, njn_run_value(G, R, 0, O));
    SAME("received", njn_integer(out[1]) == -2, 1);
    OK(NJN_VALUE_WORDS, njn_run_value(G, R, 1, O));
    SAME("received", njn_boolean(out[1]), 1);
    OK(0, njn_run_wait(G, R, 4));
    NO(NJN_OVERFLOW, njn_run_wait(G, R, UINT32_MAX));
    OK(1, njn_run_time(G, R, 0, O));
    IS(0, 4);
    NO(NJN_MISSING_CLOCK, njn_run_time(G, R, 1, O));
    NO(NJN_SHORT, njn_run_time(G, R, 0, NONE));
    NO(NJN_UNSATISFIED_GUARD, njn_run_transition(G, R, 0, to1, 1, 0));
    OK(0, njn_run_transition(G, R, NJN_EPSILON, to0, 1, 0));
    OK(1, njn_run_can_wait(G, R, 1, O));
    IS(0, 1);
    OK(1, njn_run_can_wait(G, R, UINT32_MAX, O));
    IS(0, 0);
    NO(NJN_SHORT, njn_run_can_wait(G, R, 1, NONE));
    OK(1, njn_run_is_waiting(G, R, O));
    NO(NJN_SHORT, njn_run_is_waiting(G, R, NONE));
    run[3] = 2; /* the process at no location */
    NO(NJN_BAD_STATE, njn_run_wait(G, R, 0));
    NO(NJN_BAD_STATE, njn_run_current_states(G, R, O));
    NO(NJN_BAD_STATE, njn_run_transition(G, R, 0, to0, 1, 0));
    NO(NJN_BAD_STATE, njn_run_send(G, R, 1, to0, 1, 0, O));
    NO(NJN_BAD_STATE, njn_run_receive(G, R, 2, to0, 1, values, 4));
    NO(NJN_BAD_STATE, njn_run_value(G, R, 0, O));
    NO(NJN_BAD_STATE, njn_run_time(G, R, 0, O));
    NO(NJN_BAD_STATE, njn_run_can_wait(G, R, 0, O));
    NO(NJN_BAD_STATE, njn_run_is_waiting(G, R, O));
    NO(NJN_BAD_STATE, njn_run_possible_transitions(G, R, 0, O));
    NO(NJN_BAD_STATE, njn_run_nosync_possible_transitions(G, R, 0, O));
    NO(NJN_BAD_STATE, njn_run_wait(NONE, NONE, 0));
    run[3] = 0;
    OK(0, njn_graph_new_process(G, 0));
    OK(0, njn_run_new(G, R));
    NO(NJN_SYNC, njn_run_nosync_possible_transitions(G, R, 0, O));
    OK(1, njn_graph_new_initial_location(G, O));
    graph[0] = 17; /* more variables than there is room for */
    NO(NJN_BAD_STATE, njn_graph_build(G));
    NO(NJN_BAD_STATE, njn_graph_new_action(G, O));
}

/* Graph 0 sends 11 on a queue of two; graph 1 receives into v0 if 1 < v0, and probes. Graph 2 has an invariant c0 <= 5. */
static void systems(void)
{
    const uint32_t kinds[2] = {NJN_INTEGER, NJN_BOOLEAN}, none[1] = {2}, v0[1] = {0};
    uint64_t eleven[1], guard[3], at_most[3], more[3], post0[1], post1[1], post2[1];
    uint32_t q;
    int i;
    eleven[0] = njn_item_integer(11);
    guard[0] = njn_item_integer(1), guard[1] = njn_item_variable(0), guard[2] = NJN_LESS;
    more[0] = njn_item_variable(0), more[1] = njn_item_integer(1), more[2] = NJN_ADD;
    at_most[0] = 0, at_most[1] = NJN_UNBOUNDED, at_most[2] = njn_bound_included(5);
    post0[0] = njn_post(0, 0), post1[0] = njn_post(1, 0), post2[0] = njn_post(2, 0);

    for (i = 0; i < NJN_SYSTEM_WORDS; i++) sys[i] = MARK;
    NO(NJN_BAD_STATE, njn_system_new_program_graph(Y, O));
    NO(NJN_BAD_STATE, njn_system_new(NONE));
    OK(0, njn_system_new(Y));
    OK(1, njn_system_new_channel(Y, kinds, 1, NJN_CAPACITY_BOUNDED, 2, O));
    OK(1, njn_system_new_channel(Y, kinds, 2, NJN_CAPACITY_UNBOUNDED, 0, O));
    OK(1, njn_system_new_channel(Y, NONE, NJN_CAPACITY_SINK, 0, O));
    IS(0, 2);
    NO(NJN_MALFORMED, njn_system_new_channel(Y, none, 1, NJN_CAPACITY_SINK, 0, O));
    NO(NJN_MALFORMED, njn_system_new_channel(Y, kinds, 1, 3, 0, O));
    NO(NJN_SHORT, njn_system_new_channel(Y, kinds, 1, 3, 0, NONE));
    NO(NJN_CHANNEL_TOO_LARGE, njn_system_new_channel(Y, kinds, 1, NJN_CAPACITY_BOUNDED, UINT32_MAX, O));
    OK(1, njn_system_new_program_graph(Y, O));
    OK(1, njn_system_new_program_graph(Y, O));
    IS(0, 1);
    OK(1, njn_system_new_program_graph(Y, O));
    NO(NJN_SHORT, njn_system_new_program_graph(NONE, NONE));
    NO(NJN_NO_PROCESS, njn_system_build(Y));

    OK(1, njn_system_new_initial_location(Y, 0, O));
    OK(1, njn_system_new_send(Y, 0, 0, 1, eleven, 1, NONE, NONE, NONE, O));
    NO(NJN_MISSING_CHANNEL, njn_system_new_send(Y, 0, 3, 1, eleven, 1, NONE, NONE, NONE, O));
    NO(NJN_TYPE_MISMATCH, njn_system_new_send(Y, 0, 1, 1, eleven, 1, NONE, NONE, NONE, O));
    NO(NJN_SHORT, njn_system_new_send(NONE, 0, 0, 1, eleven, 1, NONE, NONE, NONE, NONE));
    OK(0, njn_system_add_transition(Y, 0, 0, 0, 0, false, NONE));

    OK(1, njn_system_new_var(Y, 1, NJN_INTEGER, njn_payload_integer(0), O));
    NO(NJN_MISSING_PG, njn_system_new_var(Y, 3, NJN_INTEGER, 0, O));
    NO(NJN_MALFORMED, njn_system_new_var(Y, 3, 2, 0, O));
    NO(NJN_SHORT, njn_system_new_var(Y, 3, 2, 0, NONE));
    OK(1, njn_system_var_type(Y, 1, 0, O));
    IS(0, NJN_INTEGER);
    NO(NJN_MISSING_VAR, njn_system_var_type(Y, 1, 1, O));
    NO(NJN_SHORT, njn_system_var_type(Y, 1, 1, NONE));
    OK(1, njn_system_new_location(Y, 1, O));
    OK(0, njn_system_new_process(Y, 1, 0));
    NO(NJN_MISSING_LOCATION, njn_system_new_process(Y, 1, 1));
    OK(1, njn_system_new_receive(Y, 1, 0, v0, 1, O));
    NO(NJN_MISSING_VAR, njn_system_new_receive(Y, 0, 0, v0, 1, O));
    NO(NJN_SHORT, njn_system_new_receive(Y, 1, 0, v0, 1, NONE));
    OK(1, njn_system_new_probe_empty_queue(Y, 1, 0, O));
    NO(NJN_MISSING_CHANNEL, njn_system_new_probe_empty_queue(Y, 1, 9, O));
    NO(NJN_SHORT, njn_system_new_probe_empty_queue(Y, 1, 0, NONE));
    OK(1, njn_system_new_probe_full_queue(Y, 1, 0, O));
    NO(NJN_SHORT, njn_system_new_probe_full_queue(Y, 1, 0, NONE));
    OK(0, njn_system_add_transition(Y, 1, 0, 0, 0, true, guard, 3));
    for (q = 1; q < 3; q++) OK(0, njn_system_add_transition(Y, 1, 0, q, 0, false, NONE));

    OK(1, njn_system_new_clock(Y, 2, O));
    NO(NJN_SHORT, njn_system_new_clock(Y, 2, NONE));
    OK(1, njn_system_new_initial_timed_location(Y, 2, at_most, 3, O));
    OK(1, njn_system_new_timed_location(Y, 2, at_most, 3, O));
    NO(NJN_MALFORMED, njn_system_new_timed_location(Y, 9, at_most, 1, O));
    NO(NJN_MALFORMED, njn_system_new_initial_timed_location(Y, 9, at_most, 1, O));
    NO(NJN_SHORT, njn_system_new_timed_location(Y, 9, at_most, 1, NONE));
    NO(NJN_SHORT, njn_system_new_initial_timed_location(Y, 9, at_most, 1, NONE));
    OK(1, njn_system_new_var(Y, 2, NJN_INTEGER, njn_payload_integer(INT32_MAX), O));
    OK(1, njn_system_new_action(Y, 2, O));
    NO(NJN_SHORT, njn_system_new_action(Y, 2, NONE));
    OK(0, njn_system_add_reset(Y, 2, 0, 0));
    NO(NJN_MISSING_PG, njn_system_add_reset(Y, UINT32_MAX, 0, 0));
    OK(0, njn_system_add_effect(Y, 2, 0, 0, more, 3));
    NO(NJN_TYPE, njn_system_add_effect(Y, 2, 0, 0, NONE));
    OK(0, njn_system_add_timed_transition(Y, 2, 0, 0, 0, false, NONE, at_most, 3));
    NO(NJN_MALFORMED, njn_system_add_timed_transition(NONE, 2, 0, 0, 0, false, NONE, at_most, 2));
    OK(0, njn_system_add_autonomous_transition(Y, 2, 0, 1, false, NONE));
    OK(0, njn_system_add_autonomous_timed_transition(Y, 2, 1, 0, false, NONE, at_most, 3));
    OK(0, njn_system_build(Y));
    OK(NJN_CHANNEL_WORDS, njn_system_channel(Y, 0, O));
    IS(0, 1);
    IS(1, NJN_INTEGER);
    IS(5, NJN_CAPACITY_BOUNDED);
    IS(6, 2);
    OK(NJN_CHANNEL_WORDS, njn_system_channel(Y, 2, O));
    IS(0, 0);
    IS(5, NJN_CAPACITY_SINK);
    NO(NJN_MISSING_CHANNEL, njn_system_channel(Y, 3, O));
    NO(NJN_SHORT, njn_system_channel(NONE, 3, out, 6));

    for (i = 0; i < NJN_STATE_WORDS; i++) state[i] = MARK;
    NO(NJN_BAD_STATE, njn_state_time(Y, S, O));
    NO(NJN_BAD_STATE, njn_state_new(Y, NONE));
    OK(0, njn_state_new(Y, S));
    OK(NJN_EVENT_WORDS, njn_state_transition(Y, S, 1, 1, 1, post1, 1, 0, O));
    IS(1, NJN_PROBE_EMPTY_QUEUE);
    NO(NJN_EMPTY, njn_state_transition(Y, S, 1, 1, 0, post1, 1, 0, O));
    OK(NJN_EVENT_WORDS, njn_state_transition(Y, S, 0, 0, 0, post0, 1, 0, O));
    IS(0, 0);
    IS(1, NJN_SEND);
    IS(2, 0);
    IS(3, 1);
    IS(4, NJN_INTEGER);
    IS(5, 11);
    IS(11, 0);
    NO(NJN_UNSATISFIED_GUARD, njn_state_transition(Y, S, 1, 1, 0, post1, 1, 0, O)); /* the message stays */
    OK(NJN_QUEUED_WORDS, njn_state_queue_value(Y, S, 0, 0, O));
    IS(0, 1);
    IS(2, 11);
    OK(NJN_QUEUED_WORDS, njn_state_queue_value(Y, S, 0, 1, O));
    IS(0, 0);
    NO(NJN_MISSING_CHANNEL, njn_state_queue_value(Y, S, 3, 0, O));
    NO(NJN_SHORT, njn_state_queue_value(Y, S, 0, 0, out, 2));
    OK(1, njn_state_queue_length(Y, S, 0, O));
    IS(0, 1);
    NO(NJN_SHORT, njn_state_queue_length(Y, S, 0, NONE));
    NO(NJN_NOT_EMPTY, njn_state_transition(Y, S, 1, 1, 1, post1, 1, 0, O));
    NO(NJN_NOT_FULL, njn_state_transition(Y, S, 1, 1, 2, post1, 1, 0, O));
    OK(NJN_EVENT_WORDS, njn_state_transition(Y, S, 0, 0, 0, post0, 1, 0, O));
    NO(NJN_OUT_OF_CAPACITY, njn_state_transition(Y, S, 0, 0, 0, post0, 1, 0, O));
    OK(NJN_EVENT_WORDS, njn_state_transition(Y, S, 1, 1, 2, post1, 1, 0, O));
    IS(1, NJN_PROBE_FULL_QUEUE);
    NO(NJN_MISSING_PG, njn_state_transition(Y, S, 3, 3, 0, post0, 1, 0, O));
    NO(NJN_ACTION_NOT_IN_PG, njn_state_transition(Y, S, 0, 1, 0, post0, 1, 0, O));
    NO(NJN_LOCATION_NOT_IN_PG, njn_state_transition(Y, S, 0, 0, 0, post1, 1, 0, O));
    NO(NJN_MISMATCHING_POST_STATES, njn_state_transition(Y, S, 2, 2, 0, NONE, 0, O));
    NO(NJN_OVERFLOW, njn_state_transition(Y, S, 2, 2, 0, post2, 1, 0, O));
    NO(NJN_SHORT, njn_state_transition(NONE, NONE, 9, 9, 9, NONE, 0, out, 11));
    OK(NJN_GRAPH_ENTRY_WORDS, njn_state_possible_transitions(Y, S, 0, O));
    IS(0, 1);
    OK(NJN_GRAPH_ENTRY_WORDS, njn_state_possible_transitions(Y, S, SIZE_MAX, O));
    IS(0, 0);
    NO(NJN_SHORT, njn_state_possible_transitions(Y, S, 0, out, 4));
    OK(NJN_ENTRY_WORDS, njn_state_possible_transitions_pg(Y, S, 2, 0, O));
    IS(0, 1);
    NO(NJN_MISSING_PG, njn_state_possible_transitions_pg(Y, S, 3, 0, O));
    NO(NJN_SHORT, njn_state_possible_transitions_pg(Y, S, 3, 0, out, 3));
    OK(NJN_ENTRY_WORDS, njn_state_nosync_possible_transitions_pg(Y, S, 2, 1, O));
    IS(1, NJN_EPSILON);
    IS(3, 1);
    NO(NJN_SHORT, njn_state_nosync_possible_transitions_pg(Y, S, 2, 1, out, 3));
    OK(0, njn_state_wait(Y, S, 5, O));
    OK(1, njn_state_time(Y, S, O));
    IS(0, 5);
    NO(NJN_SHORT, njn_state_time(Y, S, NONE));
    FOUND(NJN_INVARIANT, 1, njn_state_wait(Y, S, 1, O)); /* the graph */
    IS(0, 2);
    NO(NJN_OVERFLOW, njn_state_wait(Y, S, UINT32_MAX, O));
    NO(NJN_SHORT, njn_state_wait(Y, S, 1, NONE));
    OK(1, njn_state_can_wait(Y, S, 1, O));
    IS(0, 0);
    NO(NJN_SHORT, njn_state_can_wait(Y, S, 1, NONE));
    OK(1, njn_state_is_waiting(Y, S, O));
    IS(0, 0);
    NO(NJN_SHORT, njn_state_is_waiting(Y, S, NONE));
    state[0] = UINT64_C(4294967296); /* a time past the last */
    NO(NJN_BAD_STATE, njn_state_wait(Y, S, 0, O));
    NO(NJN_BAD_STATE, njn_state_can_wait(Y, S, 0, O));
    NO(NJN_BAD_STATE, njn_state_is_waiting(Y, S, O));
    NO(NJN_BAD_STATE, njn_state_transition(Y, S, 0, 0, 0, post0, 1, 0, O));
    NO(NJN_BAD_STATE, njn_state_possible_transitions(Y, S, 0, O));
    NO(NJN_BAD_STATE, njn_state_possible_transitions_pg(Y, S, 9, 0, O));
    NO(NJN_BAD_STATE, njn_state_nosync_possible_transitions_pg(Y, S, 9, 0, O));
    NO(NJN_BAD_STATE, njn_state_queue_length(Y, S, 9, O));
    NO(NJN_BAD_STATE, njn_state_queue_value(Y, S, 9, 0, O));
    NO(NJN_BAD_STATE, njn_system_channel(sys, 5, 9, O));
    NO(NJN_BAD_STATE, njn_system_build(NONE));
}

/* Graph 1 leaves L0 for L1 by three actions: A0 if v0 < 2, and v0 = 3; A1 within c0 >= 2; A2. L1 has the invariant c0 <= 5. */
static void three_ways(void)
{
    uint64_t guard[3], from[3], at_most[3];
    uint32_t a;
    guard[0] = njn_item_variable(0), guard[1] = njn_item_integer(2), guard[2] = NJN_LESS;
    from[0] = 0, from[1] = njn_bound_included(2), from[2] = NJN_UNBOUNDED;
    at_most[0] = 0, at_most[1] = NJN_UNBOUNDED, at_most[2] = njn_bound_included(5);
    OK(0, njn_system_new(Y));
    OK(1, njn_system_new_program_graph(Y, O));
    OK(1, njn_system_new_initial_location(Y, 0, O));
    OK(1, njn_system_new_program_graph(Y, O));
    OK(1, njn_system_new_initial_location(Y, 1, O));
    OK(1, njn_system_new_clock(Y, 1, O));
    OK(1, njn_system_new_timed_location(Y, 1, at_most, 3, O));
    OK(1, njn_system_new_var(Y, 1, NJN_INTEGER, njn_payload_integer(3), O));
    for (a = 0; a < 3; a++) OK(1, njn_system_new_action(Y, 1, O));
    OK(0, njn_system_add_transition(Y, 1, 0, 0, 1, true, guard, 3));
    OK(0, njn_system_add_timed_transition(Y, 1, 0, 1, 1, false, NONE, from, 3));
    OK(0, njn_system_add_transition(Y, 1, 0, 2, 1, false, NONE));
    OK(0, njn_state_new(Y, S));
}

#define CAUSE(process, transition, failing, number, start, length) \
    do { IS(0, process); IS(1, transition); IS(2, failing); IS(3, number); IS(4, start); IS(5, length); } while (0)

static void reasons(void)
{
    static uint64_t guards[NJN_GUARDS_WORDS], limits[NJN_LIMITS_WORDS];
    uint64_t to1[1], to0[1];
    to1[0] = njn_post(1, 1), to0[0] = njn_post(1, 0);
#define LENT guards, NJN_GUARDS_WORDS, limits, NJN_LIMITS_WORDS

    three_ways();
    SAME("graph of a system", njn_graph_of_system(sys, 1)[4], 1); /* how many processes */
    OK(NJN_VALUE_WORDS, njn_run_value(njn_graph_of_system(sys, 1), NJN_GRAPH_WORDS, njn_run_of_state(state, 1), NJN_RUN_WORDS, 0, O));
    IS(0, NJN_INTEGER);
    IS(1, 3);
    NO(NJN_TYPE_MISMATCH, njn_state_why(Y, S, LENT, 1, 1, 0, to1, 1, 0, O));
    njn_system_copy_guards(sys, guards);
    NO(NJN_TYPE_MISMATCH, njn_state_why(Y, S, LENT, 1, 1, 0, to1, 1, 0, O));
    njn_system_copy_limits(sys, limits);
    FOUND(NJN_UNSATISFIED_GUARD, NJN_CAUSE_WORDS, njn_state_why(Y, S, LENT, 1, 1, 0, to1, 1, 0, O));
    CAUSE(0, 0, NJN_FAILS_GUARD, 0, NJN_GRAPH_GUARDS_WORDS, 3);
    SAME("guard", guards[out[4] + 2], NJN_LESS);
    FOUND(NJN_UNSATISFIED_GUARD, NJN_CAUSE_WORDS, njn_state_why(Y, S, LENT, 1, 1, 1, to1, 1, 0, O));
    CAUSE(0, 1, NJN_FAILS_LIMIT, 0, NJN_GRAPH_LIMITS_WORDS + 24, 3);
    SAME("limit", limits[out[4] + 1], njn_bound_included(2));
    FOUND(NJN_UNSATISFIED_GUARD, NJN_CAUSE_WORDS, njn_state_why(Y, S, LENT, 1, 1, 2, to0, 1, 0, O));
    CAUSE(0, 0, NJN_NO_CANDIDATE, 0, 0, 0);
    OK(0, njn_state_why(Y, S, LENT, 1, 1, 2, to1, 1, 0, O)); /* the step would be made, and is not */
    OK(0, njn_state_wait(Y, S, 6, O));
    FOUND(NJN_UNSATISFIED_GUARD, NJN_CAUSE_WORDS, njn_state_why(Y, S, LENT, 1, 1, 2, to1, 1, 0, O));
    CAUSE(0, 2, NJN_FAILS_INVARIANT, 0, NJN_GRAPH_LIMITS_WORDS + 24 * (NJN_TRANSITIONS + 1), 3);
    SAME("invariant", limits[out[4] + 2], njn_bound_included(5));
    NO(NJN_MISMATCHING_POST_STATES, njn_state_why(Y, S, LENT, 1, 1, 0, NONE, 0, O));
    NO(NJN_MISSING_PG, njn_state_why(Y, S, LENT, 2, 1, 0, to1, 1, 0, O));
    NO(NJN_ACTION_NOT_IN_PG, njn_state_why(Y, S, LENT, 1, 0, 0, to1, 1, 0, O));
    NO(NJN_LOCATION_NOT_IN_PG, njn_state_why(Y, S, LENT, 0, 0, 0, to1, 1, 0, O));
    NO(NJN_TYPE_MISMATCH, njn_state_why(Y, S, NONE, limits, NJN_LIMITS_WORDS, 1, 1, 0, to1, 1, 0, O));
    NO(NJN_BAD_STATE, njn_state_why(Y, NONE, NONE, NONE, 1, 1, 0, to1, 1, 0, O));
    NO(NJN_SHORT, njn_state_why(NONE, NONE, NONE, NONE, 9, 9, 9, NONE, 0, out, NJN_CAUSE_WORDS - 1));
#undef LENT
}

/* A record of a wait (kind 2) or a step of graph 1 to L1 (kind 1), in a block of 512 bytes; then the block's count and its sum. */
static void record(uint8_t *block, int i, uint8_t kind, uint8_t amount, uint8_t answer)
{
    uint8_t *r = block + 28 + 32 * i;
    uint32_t sum = 0;
    int k;
    r[0] = kind, r[4] = amount, r[24] = answer;
    if (kind == 1) r[1] = 1, r[2] = 1, r[8] = 1;
    block[4] = (uint8_t)(i + 1);
    for (k = 0; k < 508; k++) sum += (uint32_t)(k + 1) * block[k];
    for (k = 0; k < 4; k++) block[508 + k] = (uint8_t)(sum >> (8 * k));
}

static void replays(void)
{
    uint8_t block[512];
    memset(block, 0, sizeof block);
    three_ways();
    OK(NJN_REPLAY_WORDS, njn_state_replay(Y, S, NONE, O));
    IS(0, 0);
    record(block, 0, 2, 6, 0);
    record(block, 1, 1, 2, 8);
    OK(NJN_REPLAY_WORDS, njn_state_replay(Y, S, block, 512, O));
    IS(0, 2);
    IS(1, 0);
    IS(2, 0);
    IS(3, 0);
    OK(1, njn_state_time(Y, S, O));
    IS(0, 6);
    record(block, 2, 1, 1, 0);
    FOUND(NJN_DIFFERS, NJN_REPLAY_WORDS, njn_state_replay(Y, S, block, 512, O)); /* at time 12 as at 6: A1 answers 8 */
    IS(0, 0);
    IS(1, 2);
    IS(2, 0);
    IS(3, NJN_UNSATISFIED_GUARD);
    FOUND(NJN_BAD_BLOCK, NJN_REPLAY_WORDS, njn_state_replay(Y, S, block, 511, O));
    IS(0, 0);
    block[508]++;
    FOUND(NJN_BAD_BLOCK, NJN_REPLAY_WORDS, njn_state_replay(Y, S, block, 512, O));
    NO(NJN_BAD_STATE, njn_state_replay(Y, NONE, block, 512, O));
    NO(NJN_SHORT, njn_state_replay(NONE, NONE, NONE, out, NJN_REPLAY_WORDS - 1));
}

/* A block written by the calls is the one that is put together byte by byte above, whatever was in its bytes before; refused, no byte is written. */
static void blocks(void)
{
    uint8_t block[NJN_BLOCK_BYTES + 1], was[NJN_BLOCK_BYTES + 1], wanted[NJN_BLOCK_BYTES];
    const uint16_t posts[5] = {1, 65535, 3, 4, 5};
    size_t i;
#define B block, NJN_BLOCK_BYTES
#define REFUSED(call) do { memcpy(was, block, sizeof block); NO(NJN_MALFORMED, (call)); SAME("bytes", memcmp(was, block, sizeof block), 0); } while (0)
    memset(wanted, 0, sizeof wanted);
    record(wanted, 0, 2, 6, 0);
    record(wanted, 1, 1, 2, 8);
    memset(block, 0xff, sizeof block);
    OK(0, njn_block_put_wait(B, 0, 6, 0));
    OK(0, njn_block_put_step(B, 1, 1, 2, posts, 1, 0, 8));
    OK(0, njn_block_seal(B, 0, 2));
    SAME("block", memcmp(block, wanted, sizeof wanted), 0);
    SAME("past the block", block[NJN_BLOCK_BYTES], 0xff);
    three_ways();
    OK(NJN_REPLAY_WORDS, njn_state_replay(Y, S, B, O));
    IS(0, 2);
    for (i = 0; i < NJN_BLOCK_RECORDS; i++) OK(0, njn_block_put_wait(B, i, 0, 0));
    OK(0, njn_block_seal(B, 0, NJN_BLOCK_RECORDS));
    OK(NJN_REPLAY_WORDS, njn_state_replay(Y, S, B, O));
    IS(0, NJN_BLOCK_RECORDS);
    OK(0, njn_block_seal(B, UINT32_MAX, 0)); /* no record is left, and it is no first block */
    FOUND(NJN_BAD_BLOCK, NJN_REPLAY_WORDS, njn_state_replay(Y, S, B, O));
    OK(0, njn_block_put_step(B, 14, UINT8_MAX, NJN_EPSILON, posts, 4, UINT64_MAX, UINT8_MAX));
    SAME("post", block[28 + 32 * 14 + 10], 255);
    SAME("word", block[28 + 32 * 14 + 23], 255);
    SAME("answer", block[28 + 32 * 14 + 24], 255);
    SAME("zero", block[28 + 32 * 14 + 25], 0);
    REFUSED(njn_block_put_step(B, 0, 1, 2, posts, 5, 0, 8));
    REFUSED(njn_block_put_step(B, NJN_BLOCK_RECORDS, 1, 2, posts, 1, 0, 8));
    REFUSED(njn_block_put_step(block, NJN_BLOCK_BYTES - 1, 0, 1, 2, posts, 1, 0, 8));
    REFUSED(njn_block_put_step(block, NJN_BLOCK_BYTES + 1, 0, 1, 2, posts, 1, 0, 8));
    REFUSED(njn_block_put_wait(B, SIZE_MAX, 6, 0));
    REFUSED(njn_block_put_wait(NONE, 0, 6, 0));
    REFUSED(njn_block_seal(B, 0, NJN_BLOCK_RECORDS + 1));
    REFUSED(njn_block_seal(block, NJN_BLOCK_BYTES - 1, 0, 1));
#undef B
#undef REFUSED
}

int main(void)
{
    sizes();
    graphs();
    systems();
    reasons();
    replays();
    blocks();
    printf("%d calls, %d failures\n", calls, failures);
    return failures == 0 ? EXIT_SUCCESS : EXIT_FAILURE;
}
