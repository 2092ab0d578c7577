/*
 * The shaping conversation in C: a tab asks a shaper for a page, and the shaper asks a loader for a font. Three graphs are built once, and
 * three conversations are watched by them. README.md says what each shows. What is printed is what tools/tell.py prints of shaping.calls.
 */
#include <inttypes.h>
#include <stdio.h>
#include <stdlib.h>

#include "njunnemar.h"

enum { TAB, SHAPER, LOADER };
enum { REQUEST, NEED, FONT, GLYPHS, REPORT };

static const char *const graphs[] = { "tab", "shaper", "loader" };

/* A channel's name, who sends on it, who receives, and what its values are. */
static const struct { const char *name, *from, *to, *fields[2]; } channels[] = {
    { "request", "tab", "shaper", { "page", "characters" } },
    { "need", "shaper", "loader", { "font" } },
    { "font", "loader", "shaper", { "number", "kilobytes" } },
    { "glyphs", "shaper", "tab", { "page", "count" } },
    { "report", "tab", "log", { "page" } },
};

static const char *const locations[][6] = {
    { "idle", "ready", "waiting", "late" },
    { "idle", "reading", "asking", "waiting", "loaded", "shaping" },
    { "idle", "asked", "loading" },
};
static const char *const actions[][6] = {
    { "begin", "send request", "take glyphs", "send report" },
    { "take request", "want a font", "send need", "take font", "lay out", "send glyphs" },
    { "take need", "open", "send font", "push font" },
};
static const char *const vars[][7] = {
    { "page", "shaped", "glyphs", NULL },
    { "page", "characters", "asked", "font", "kilobytes", "glyphs", NULL },
    { "font", "kilobytes", NULL },
};
static const char *const clocks[] = { "since begun", "since asked", "since opened" };

/* All the memory there is: a table and a state, lent with every call. */
static uint64_t table[NJN_SYSTEM_WORDS];
static uint64_t state[NJN_STATE_WORDS];

#define TABLE table, NJN_SYSTEM_WORDS
#define STATE state, NJN_STATE_WORDS

/* The graphs are known to be right, so a refusal while they are built is a slip in this program. */
static void built(uint32_t number, const char *call)
{
    if (number != NJN_OK) {
        fprintf(stderr, "%s: refused %" PRIu32 ", %s\n", call, number, njn_refusal_name(number));
        exit(1);
    }
}
#define BUILD(call) built(call, #call)

static uint64_t out[1];
#define OUT out, 1

static uint64_t integer(int32_t n) { return njn_item_integer(n); }
static uint64_t variable(uint32_t v) { return njn_item_variable(v); }

static void channel(size_t width, uint32_t sort, uint32_t bound)
{
    const uint32_t kinds[] = { NJN_INTEGER, NJN_INTEGER };
    BUILD(njn_system_new_channel(TABLE, kinds, width, sort, bound, OUT));
}

static void numbers(uint32_t pg, int count)
{
    while (count-- > 0) BUILD(njn_system_new_var(TABLE, pg, NJN_INTEGER, njn_payload_integer(0), OUT));
}

/* A location where the graph's clock reads at most this. */
static void until(uint32_t pg, uint32_t most)
{
    const uint64_t limit[] = { 0, NJN_UNBOUNDED, njn_bound_included(most) };
    BUILD(njn_system_new_timed_location(TABLE, pg, limit, 3, OUT));
}

static void sends(uint32_t pg, uint32_t on, size_t count, uint64_t first, uint64_t second)
{
    BUILD(njn_system_new_send(TABLE, pg, on, count, &first, 1, &second, 1, NULL, 0, NULL, 0, OUT));
}

static void takes(uint32_t pg, uint32_t on, size_t count, uint32_t first, uint32_t second)
{
    const uint32_t into[] = { first, second };
    BUILD(njn_system_new_receive(TABLE, pg, on, into, count, OUT));
}

static void sets(uint32_t pg, uint32_t action, uint32_t var, const uint64_t *items, size_t count)
{
    BUILD(njn_system_add_effect(TABLE, pg, action, var, items, count));
}

static void leads(uint32_t pg, uint32_t pre, uint32_t action, uint32_t post)
{
    BUILD(njn_system_add_transition(TABLE, pg, pre, action, post, false, NULL, 0));
}

static void build(void)
{
    BUILD(njn_system_new(TABLE));
    channel(2, NJN_CAPACITY_BOUNDED, 4);
    channel(1, NJN_CAPACITY_BOUNDED, 2);
    channel(2, NJN_CAPACITY_BOUNDED, 8);
    channel(2, NJN_CAPACITY_BOUNDED, 4);
    channel(1, NJN_CAPACITY_SINK, 0);

    /* The tab: begins a page, asks, and waits for at most 100. */
    BUILD(njn_system_new_program_graph(TABLE, OUT));
    numbers(TAB, 3);
    BUILD(njn_system_new_clock(TABLE, TAB, OUT));
    BUILD(njn_system_new_initial_location(TABLE, TAB, OUT));
    until(TAB, 5);
    until(TAB, 100);
    BUILD(njn_system_new_location(TABLE, TAB, OUT));
    BUILD(njn_system_new_action(TABLE, TAB, OUT));
    BUILD(njn_system_add_reset(TABLE, TAB, 0, 0));
    const uint64_t next_page[] = { variable(0), integer(1), NJN_ADD };
    sets(TAB, 0, 0, next_page, 3);
    sends(TAB, REQUEST, 2, variable(0), integer(120));
    takes(TAB, GLYPHS, 2, 1, 2);
    sends(TAB, REPORT, 1, variable(0), 0);
    leads(TAB, 0, 0, 1);
    leads(TAB, 1, 1, 2);
    leads(TAB, 2, 2, 0);
    const uint64_t deadline[] = { 0, njn_bound_included(100), NJN_UNBOUNDED };
    BUILD(njn_system_add_autonomous_timed_transition(TABLE, TAB, 2, 3, false, NULL, 0, deadline, 3));
    leads(TAB, 3, 3, 0);

    /* The shaper: takes a request, asks for a font, takes it only if it asked, and shapes. */
    BUILD(njn_system_new_program_graph(TABLE, OUT));
    numbers(SHAPER, 2);
    BUILD(njn_system_new_var(TABLE, SHAPER, NJN_BOOLEAN, njn_payload_boolean(false), OUT));
    numbers(SHAPER, 3);
    BUILD(njn_system_new_clock(TABLE, SHAPER, OUT));
    BUILD(njn_system_new_initial_location(TABLE, SHAPER, OUT));
    BUILD(njn_system_new_location(TABLE, SHAPER, OUT));
    BUILD(njn_system_new_location(TABLE, SHAPER, OUT));
    until(SHAPER, 50);
    BUILD(njn_system_new_location(TABLE, SHAPER, OUT));
    BUILD(njn_system_new_location(TABLE, SHAPER, OUT));
    takes(SHAPER, REQUEST, 2, 0, 1);
    BUILD(njn_system_new_action(TABLE, SHAPER, OUT));
    BUILD(njn_system_add_reset(TABLE, SHAPER, 1, 0));
    const uint64_t yes[] = { njn_item_boolean(true) }, no[] = { njn_item_boolean(false) };
    sets(SHAPER, 1, 2, yes, 1);
    sends(SHAPER, NEED, 1, integer(7), 0);
    takes(SHAPER, FONT, 2, 3, 4);
    BUILD(njn_system_new_action(TABLE, SHAPER, OUT));
    sets(SHAPER, 4, 2, no, 1);
    const uint64_t two_less[] = { variable(1), integer(2), NJN_SUBTRACT };
    sets(SHAPER, 4, 5, two_less, 3);
    sends(SHAPER, GLYPHS, 2, variable(0), variable(5));
    const uint64_t asked[] = { variable(2) };
    leads(SHAPER, 0, 0, 1);
    leads(SHAPER, 1, 1, 2);
    leads(SHAPER, 2, 2, 3);
    BUILD(njn_system_add_transition(TABLE, SHAPER, 3, 3, 4, true, asked, 1));
    leads(SHAPER, 4, 4, 5);
    BUILD(njn_system_add_transition(TABLE, SHAPER, 5, 3, 4, true, asked, 1));
    leads(SHAPER, 5, 5, 0);

    /* The loader: opens a font, which takes it from 5 to 30; and it may push one that nobody asked for. */
    BUILD(njn_system_new_program_graph(TABLE, OUT));
    numbers(LOADER, 2);
    BUILD(njn_system_new_clock(TABLE, LOADER, OUT));
    BUILD(njn_system_new_initial_location(TABLE, LOADER, OUT));
    BUILD(njn_system_new_location(TABLE, LOADER, OUT));
    until(LOADER, 30);
    takes(LOADER, NEED, 1, 0, 0);
    BUILD(njn_system_new_action(TABLE, LOADER, OUT));
    BUILD(njn_system_add_reset(TABLE, LOADER, 1, 0));
    const uint64_t large[] = { integer(240) };
    sets(LOADER, 1, 1, large, 1);
    sends(LOADER, FONT, 2, variable(0), variable(1));
    sends(LOADER, FONT, 2, integer(7), integer(11));
    leads(LOADER, 0, 0, 1);
    leads(LOADER, 1, 1, 2);
    const uint64_t at_least[] = { 0, njn_bound_included(5), NJN_UNBOUNDED };
    BUILD(njn_system_add_timed_transition(TABLE, LOADER, 2, 2, 0, false, NULL, 0, at_least, 3));
    leads(LOADER, 0, 3, 0);
    BUILD(njn_system_build(TABLE));
}

static void say(const char *who)
{
    uint64_t now[1];
    built(njn_state_time(TABLE, STATE, now, 1), "time");
    printf("%5" PRIu64 "  %-7s ", now[0], who);
}

static void put_value(uint64_t kind, uint64_t payload)
{
    if (kind == NJN_BOOLEAN)
        printf("%s", njn_boolean(payload) ? "true" : "false");
    else
        printf("%" PRId32, njn_integer(payload));
}

static void put_message(uint64_t on, const uint64_t *message)
{
    printf("%s(", channels[on].name);
    for (uint64_t i = 0; i < message[0]; i++) {
        printf("%s%s ", i ? ", " : "", channels[on].fields[i]);
        put_value(message[1 + 2 * i], message[2 + 2 * i]);
    }
    printf(")");
}

static const char *action_name(uint32_t pg, uint32_t action) { return action == NJN_EPSILON ? "give up" : actions[pg][action]; }

static void put_refusal(uint32_t number, const char *asks)
{
    printf("refused %" PRIu32 ", %s", number, njn_refusal_name(number));
    if (asks) printf(" (%s)", asks);
    printf("\n");
}

/* A step that was seen: it is taken, or it is told why not. */
static void step(uint32_t pg, uint32_t action, uint32_t post)
{
    const uint64_t posts[] = { njn_post(pg, post) };
    uint64_t event[NJN_EVENT_WORDS];
    uint32_t number = njn_state_transition(TABLE, STATE, pg, pg, action, posts, 1, 0, event, NJN_EVENT_WORDS);
    say(graphs[pg]);
    if (number != NJN_OK) {
        printf("may not %s: ", action_name(pg, action));
        put_refusal(number, pg == SHAPER && action == 3 ? "only if asked" : NULL);
    } else if (event[1] == NJN_SEND) {
        printf("sends ");
        put_message(event[2], event + 3);
        printf(" to %s\n", channels[event[2]].to);
    } else if (event[1] == NJN_RECEIVE) {
        printf("takes ");
        put_message(event[2], event + 3);
        printf(" from %s\n", channels[event[2]].from);
    } else {
        printf("%s\n", action_name(pg, action));
    }
}

static void pass(uint32_t delta)
{
    uint64_t against[1];
    uint32_t number = njn_state_wait(TABLE, STATE, delta, against, 1);
    if (number == NJN_OK) return;
    say("");
    printf("%" PRIu32 " may not pass", delta);
    if (number == NJN_INVARIANT) printf(" for %s", graphs[against[0]]);
    printf(": ");
    put_refusal(number, number == NJN_INVARIANT && against[0] == TAB ? "since begun at most 100" : NULL);
}

/* Where a graph is, and what it holds. Its run is a part of the state, and its table one of the system's (docs/LAYOUT.md). */
static void look(uint32_t pg)
{
    const uint64_t *graph = table + 90 + 46922 * (size_t)pg, *run = state + 1 + NJN_RUN_WORDS * (size_t)pg;
    uint64_t places[NJN_PLACES_WORDS], value[NJN_VALUE_WORDS], time[1];
    built(njn_run_current_states(graph, NJN_GRAPH_WORDS, run, NJN_RUN_WORDS, places, NJN_PLACES_WORDS), "current_states");
    say(graphs[pg]);
    printf("is %s: ", locations[pg][places[1]]);
    for (uint32_t v = 0; vars[pg][v]; v++) {
        built(njn_run_value(graph, NJN_GRAPH_WORDS, run, NJN_RUN_WORDS, v, value, NJN_VALUE_WORDS), "value");
        printf("%s%s ", v ? ", " : "", vars[pg][v]);
        put_value(value[0], value[1]);
    }
    built(njn_run_time(graph, NJN_GRAPH_WORDS, run, NJN_RUN_WORDS, 0, time, 1), "time");
    printf("; %s %" PRIu64 "\n", clocks[pg], time[0]);
}

static void look_into(uint32_t on)
{
    uint64_t queued[NJN_QUEUED_WORDS];
    say(channels[on].name);
    printf("holds ");
    for (size_t k = 0;; k++) {
        built(njn_state_queue_value(TABLE, STATE, on, k, queued, NJN_QUEUED_WORDS), "queue_value");
        if (!queued[0]) {
            printf("%s\n", k ? "" : "nothing");
            return;
        }
        if (k) printf(", ");
        put_value(queued[1], queued[2]);
    }
}

static void list(uint32_t pg)
{
    uint64_t entry[NJN_ENTRY_WORDS];
    for (size_t k = 0;; k++) {
        built(njn_state_possible_transitions_pg(TABLE, STATE, pg, k, entry, NJN_ENTRY_WORDS), "possible_transitions_pg");
        if (!entry[0]) return;
        say(graphs[pg]);
        printf("may %s, to %s\n", action_name(pg, (uint32_t)entry[1]), locations[pg][entry[3]]);
    }
}

/* Until the shaper has its font and lays out the page, the three conversations are the same. */
static void begin(const char *title)
{
    printf("%s\n", title);
    built(njn_state_new(TABLE, STATE), "new");
    step(TAB, 0, 1);
    step(TAB, 1, 2);
    pass(2);
    step(SHAPER, 0, 1);
    step(SHAPER, 1, 2);
    step(SHAPER, 2, 3);
    pass(1);
    step(LOADER, 0, 1);
    step(LOADER, 1, 2);
    pass(12);
    step(LOADER, 2, 0);
    pass(1);
    step(SHAPER, 3, 4);
    step(SHAPER, 4, 5);
}

/* The shaper sends its glyphs, and the tab takes them. */
static void end(void)
{
    step(SHAPER, 5, 0);
    pass(1);
    step(TAB, 2, 0);
    look(TAB);
}

int main(void)
{
    build();

    begin("A page that shapes well");
    pass(20);
    end();

    begin("\nA shaper that hangs");
    pass(500);
    pass(84);
    list(TAB);
    step(TAB, NJN_EPSILON, 3);
    step(TAB, 3, 0);
    look(SHAPER);

    begin("\nThe font that killed the tab");
    pass(4);
    step(LOADER, 3, 0);
    pass(2);
    step(SHAPER, 3, 4);
    look(SHAPER);
    look_into(FONT);
    pass(14);
    end();
    return 0;
}
