/* Takes the sample day (docs/SPEC.md, 13) from its schedule to a checked plan:
 *
 *     cc -std=c11 -Iinclude tests/example.c target/staticlib/libseating.a -o example
 *     ./example
 *
 * It ends with 0 only where every call is done, and the search and the plan are the
 * expected ones. */
#include <stdio.h>
#include <string.h>

#include "cendravoka.h"

enum { CHOOSERS = 2, CHOICES = 3, SLOTS = 2, LEVELS = 3 };

/* What is lent to be written, of the named lengths. */
static uint8_t lists[256];
static int32_t supplies[552];
static uint16_t from[2080], to[2080];
static uint32_t max[2080];
static int64_t cost[2080];
static uint16_t entries[4096], ends[2048], blocked[4096];
static uint8_t plan[512];

/* Tables: preferences chooser by chooser, and a cost for each preference. */
static const uint32_t preferences[CHOOSERS * CHOICES] = {0, 1, 0, 0, 2, 1};
static const int64_t costs[3] = {1, 8, 27};

/* The limits that a search may try. */
static const uint32_t levels[LEVELS] = {0, 1, 2};

/* What a solver would find: a value for each edge, in the order of the edges. */
static const int32_t values[2080] = {0, 1, 1, 1, 1, 0, 1, 0};

static const uint8_t expected[CHOOSERS * SLOTS] = {1, 2, 0, 2};

static int refused(const char *call, uint32_t number)
{
    if (number != 0)
        fprintf(stderr, "example: %s is refused by %u\n", call, (unsigned)number);
    return number != 0;
}

int main(void)
{
    /* Zeros are no constraints, no groups and no optional choices. */
    cendravoka_input_data day = {
        .choosers = CHOOSERS,
        .choices = CHOICES,
        .slots = SLOTS,
        .max_preference = 2,
        .mins = {1, 0, 2},
        .maxs = {1, 2, 2},
    };
    /* An entry is s + 1 for slot s, and 0 for none. */
    cendravoka_scheduling schedule = {.entries = {1, 1, 2}};

    cendravoka_state_answer built =
        cendravoka_build((const uint8_t *)&day, sizeof day, (const uint8_t *)&schedule,
                         sizeof schedule, lists, sizeof lists);
    if (refused("build", built.number))
        return 1;

    /* Zeros are no plan that an earlier search remembers. */
    cendravoka_cached_assignment none = {0};
    cendravoka_search_answer search = cendravoka_begin(
        (const uint8_t *)&day, sizeof day, (const uint8_t *)&schedule, sizeof schedule, levels,
        LEVELS, 0, 0, (const uint8_t *)&none, sizeof none);
    if (refused("begin", search.number))
        return 1;
    if (!search.search.asking) {
        fprintf(stderr, "example: the search has nothing to ask for\n");
        return 1;
    }
    printf("the search asks for level %u first, and %u times at most\n", (unsigned)search.level,
           (unsigned)search.most_asks);

    cendravoka_model_answer model = cendravoka_model(
        (const uint8_t *)&day, sizeof day, (const uint8_t *)&built.state, sizeof built.state,
        search.level, preferences, CHOOSERS * CHOICES, costs, 3, lists, sizeof lists, supplies, 552,
        from, 2080, to, 2080, max, 2080, cost, 2080, entries, 4096, ends, 2048, blocked, 4096);
    if (refused("model", model.number))
        return 1;
    for (uint64_t edge = 0; edge < model.edges; edge++)
        printf("edge %u: %u to %u, max %u, cost %lld\n", (unsigned)edge, from[edge], to[edge],
               (unsigned)max[edge], (long long)cost[edge]);

    cendravoka_model_answer checked = cendravoka_check_values(
        (const uint8_t *)&day, sizeof day, (const uint8_t *)&built.state, sizeof built.state,
        search.level, preferences, CHOOSERS * CHOICES, costs, 3, lists, sizeof lists, values, 2080,
        supplies, 552, from, 2080, to, 2080, max, 2080, cost, 2080, entries, 4096, ends, 2048,
        blocked, 4096, plan, sizeof plan);
    if (refused("check_values", checked.number))
        return 1;
    for (int chooser = 0; chooser < CHOOSERS; chooser++)
        printf("chooser %d has choice %u in slot 0 and choice %u in slot 1\n", chooser,
               plan[chooser * SLOTS], plan[chooser * SLOTS + 1]);

    cendravoka_verdict_answer verdict =
        cendravoka_is_feasible((const uint8_t *)&day, sizeof day, (const uint8_t *)&schedule,
                               sizeof schedule, plan, sizeof plan);
    if (refused("is_feasible", verdict.number))
        return 1;
    printf("the plan is %s\n", verdict.holds ? "feasible" : "not feasible");

    if (!verdict.holds || search.most_asks != 2 || memcmp(plan, expected, sizeof expected) != 0) {
        fprintf(stderr, "example: this is not the expected plan, or not its search\n");
        return 1;
    }
    return 0;
}
