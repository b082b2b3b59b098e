/* The exported entries of Cendravoka, the proved seating core.
 *
 * What is lent crosses as a pointer and a count of elements. A pointer of a
 * slice of no elements is not read: it may be NULL. A slice of numbers is
 * aligned for their type; a slice of bytes may begin anywhere. What a call
 * writes must not overlap anything else that it is lent. Every entry tests its
 * own input: a refused call gives the number of the refusal and zeros beside
 * it, and writes nothing, save that 14 to 17 leave a model. 0 means done.
 *
 * A day, a schedule, a state, a search and what a search remembers are lent as
 * bytes of one layout, which the packed structs below are. Lend them as
 *
 *     (const uint8_t *)&day, sizeof day
 *
 * Their numbers are little-endian. A flag byte is yes where it is not 0; what a
 * call hands back has 0 or 1 there. A day of another length is refused by 2 at
 * once. Another length of the others is refused by 2 like that of a table:
 * after 1, and before the rest.
 *
 * What is said here of each entry is proved. The proof rests on the Rattle kit's
 * logic and compiler, on x86-64 with binary32 floats rounded to nearest, on the C
 * library's memcpy and memset, and on 32 KB of stack. It rests on the caller for
 * what no entry can test: each lent slice is there, is aligned, and is disjoint
 * from what the call writes. The structs are held to the layouts by the assertions
 * below and by tests.
 */
#ifndef CENDRAVOKA_H
#define CENDRAVOKA_H

#include <stddef.h>
#include <stdint.h>

#if defined(__BYTE_ORDER__) && __BYTE_ORDER__ != __ORDER_LITTLE_ENDIAN__
#error "the structs of this header are the layouts on a little-endian machine only"
#endif

#ifdef __cplusplus
extern "C" {
#endif

/* A score as bit patterns of IEEE 754 binary32. NaN is always 7FC00000. */
typedef struct {
    uint32_t major;
    uint32_t minor;
} cendravoka_score;

/* The best of a list. found is 0 for an empty list, else 1, with the place
 * of the score in the list and the score. */
typedef struct {
    uint32_t number;
    uint32_t found;
    uint32_t position;
    cendravoka_score score;
} cendravoka_best_answer;

/* A constraint in numbers.
 * kind: the number of the Rust's ConstraintType; any other reads as 0, Invalid.
 * target_case: 0 none, 1 slot, 2 choice, 3 chooser, 4 limit; any other reads as none.
 * extra_case: 0 none, 1 offset, 2 operator; any other reads as none, and so does
 * an operator whose number is not 1, 2, 3, -1, -2 or -3.
 * Where there is no target or extra, its operand is 0. */
typedef struct {
    uint32_t number;
    uint32_t kind;
    uint32_t left;
    uint32_t target_case;
    uint32_t target;
    uint32_t extra_case;
    int32_t extra;
} cendravoka_negation_answer;

#pragma pack(push, 1)

/* A constraint of a day, in the numbers of the negation's answer. */
typedef struct {
    uint32_t kind;
    uint32_t left;
    uint32_t target_case;
    uint32_t target;
    uint32_t extra_case;
    int32_t extra;
} cendravoka_constraint;

/* A day. The first scheduling_count entries of scheduling are that list, and so
 * it is with assignment. optional is a flag for each choice. The members of the
 * dependent groups stand one group after the other; the first groups of the
 * lengths part them. */
typedef struct {
    uint32_t choosers;
    uint32_t choices;
    uint32_t slots;
    uint32_t max_preference;
    uint32_t scheduling_count;
    uint32_t assignment_count;
    uint32_t groups;
    uint32_t mins[32];
    uint32_t maxs[32];
    uint8_t optional[32];
    uint32_t lengths[16];
    uint32_t members[32];
    cendravoka_constraint scheduling[32];
    cendravoka_constraint assignment[32];
} cendravoka_input_data;

/* An entry is 0 where the choice has no slot, and s + 1 where it is in slot s.
 * Entries past the day's choices are ignored, and handed back as 0. */
typedef struct {
    uint8_t entries[32];
} cendravoka_scheduling;

/* The state carried from schedule to schedule, without the slot lists, which
 * stand in the lent buffer: 32 bytes a slot. The flag of the block of chooser c
 * and choice k is at 32 * c + k. */
typedef struct {
    cendravoka_scheduling schedule;
    uint32_t covered[8];
    uint8_t blocks[2048];
} cendravoka_schedule_state;

/* A plan that a search remembers, with its schedule and greedy setting; there
 * and greedy are flags. Zeros are no plan. It serves one day: where the day or
 * its levels change, begin with zeros. */
typedef struct {
    uint8_t there;
    uint8_t greedy;
    cendravoka_scheduling schedule;
    uint8_t plan[512];
} cendravoka_cached_assignment;

/* A preference search that is handed back after each ask. Hand it on as it is.
 * asking, greedy, found and optimal are flags.
 * asking: it waits to be told; otherwise it has ended. asks counts what it
 * asked, the ask that waits too. start, low and high are indices of levels; a
 * greedy search has none.
 * found: plan is the best so far, and level the level that it was found at (0
 * where it was remembered). optimal: no ask was answered by Incomplete; a greedy
 * search has it only once it was answered by Feasible. cached is what a later
 * search remembers. */
typedef struct {
    uint8_t asking;
    uint8_t greedy;
    uint8_t found;
    uint8_t optimal;
    uint32_t asks;
    uint32_t level;
    uint32_t start;
    uint32_t low;
    uint32_t high;
    cendravoka_scheduling schedule;
    uint8_t plan[512];
    cendravoka_cached_assignment cached;
} cendravoka_search;

#pragma pack(pop)

typedef struct {
    uint32_t number;
    cendravoka_schedule_state state;
} cendravoka_state_answer;

/* Where a slot's list stands in the lent buffer, and how long it is. */
typedef struct {
    uint32_t number;
    uint64_t start;
    uint64_t length;
} cendravoka_slot_list_answer;

/* How much of a model stands in its buffers: the edges, the entries of all
 * groups together, the groups and the blocked entries. */
typedef struct {
    uint32_t number;
    uint64_t edges;
    uint64_t entries;
    uint64_t groups;
    uint64_t blocked;
} cendravoka_model_answer;

/* How many entries a roster has. */
typedef struct {
    uint32_t number;
    uint64_t length;
} cendravoka_roster_answer;

/* found is 0 or 1. */
typedef struct {
    uint32_t number;
    uint8_t found;
} cendravoka_in_choice_answer;

typedef struct {
    uint32_t number;
    uint32_t choice;
} cendravoka_choice_answer;

/* Where the search asks: for a plan with no preference above level, which is
 * the one at index (0 if greedy). Both are 0 where it does not ask.
 * most_asks: a search that is begun, and told each time with the same day and
 * levels as it was last handed back, never makes more asks than this. It is the
 * number of binary digits of the count of levels from its start to the last,
 * both included: 9 for 256 levels, 0 without levels; 1 where greedy. All answers
 * of such a search have the same number, but for refused ones, which have 0. An
 * answer from memory makes no ask, and has the number that its search would
 * have otherwise. */
typedef struct {
    uint32_t number;
    uint32_t level;
    uint32_t index;
    cendravoka_search search;
    uint32_t most_asks;
} cendravoka_search_answer;

/* Whether a test holds: 0 or 1, and 0 where refused. */
typedef struct {
    uint32_t number;
    uint8_t holds;
} cendravoka_verdict_answer;

typedef struct {
    uint32_t number;
    cendravoka_score score;
} cendravoka_score_answer;

/* How long each struct is, and where its fields are. */
#ifdef __cplusplus
#define CENDRAVOKA_ASSERT static_assert
#else
#define CENDRAVOKA_ASSERT _Static_assert
#endif
#define CENDRAVOKA_SIZE(type, bytes) CENDRAVOKA_ASSERT(sizeof(type) == (bytes), #type)
#define CENDRAVOKA_AT(type, field, byte) \
    CENDRAVOKA_ASSERT(offsetof(type, field) == (byte), #type " " #field)

CENDRAVOKA_SIZE(cendravoka_score, 8);
CENDRAVOKA_AT(cendravoka_score, major, 0);
CENDRAVOKA_AT(cendravoka_score, minor, 4);
CENDRAVOKA_SIZE(cendravoka_best_answer, 20);
CENDRAVOKA_AT(cendravoka_best_answer, number, 0);
CENDRAVOKA_AT(cendravoka_best_answer, found, 4);
CENDRAVOKA_AT(cendravoka_best_answer, position, 8);
CENDRAVOKA_AT(cendravoka_best_answer, score, 12);
CENDRAVOKA_SIZE(cendravoka_negation_answer, 28);
CENDRAVOKA_AT(cendravoka_negation_answer, number, 0);
CENDRAVOKA_AT(cendravoka_negation_answer, kind, 4);
CENDRAVOKA_AT(cendravoka_negation_answer, left, 8);
CENDRAVOKA_AT(cendravoka_negation_answer, target_case, 12);
CENDRAVOKA_AT(cendravoka_negation_answer, target, 16);
CENDRAVOKA_AT(cendravoka_negation_answer, extra_case, 20);
CENDRAVOKA_AT(cendravoka_negation_answer, extra, 24);
CENDRAVOKA_SIZE(cendravoka_constraint, 24);
CENDRAVOKA_AT(cendravoka_constraint, kind, 0);
CENDRAVOKA_AT(cendravoka_constraint, left, 4);
CENDRAVOKA_AT(cendravoka_constraint, target_case, 8);
CENDRAVOKA_AT(cendravoka_constraint, target, 12);
CENDRAVOKA_AT(cendravoka_constraint, extra_case, 16);
CENDRAVOKA_AT(cendravoka_constraint, extra, 20);
CENDRAVOKA_SIZE(cendravoka_input_data, 2044);
CENDRAVOKA_AT(cendravoka_input_data, choosers, 0);
CENDRAVOKA_AT(cendravoka_input_data, choices, 4);
CENDRAVOKA_AT(cendravoka_input_data, slots, 8);
CENDRAVOKA_AT(cendravoka_input_data, max_preference, 12);
CENDRAVOKA_AT(cendravoka_input_data, scheduling_count, 16);
CENDRAVOKA_AT(cendravoka_input_data, assignment_count, 20);
CENDRAVOKA_AT(cendravoka_input_data, groups, 24);
CENDRAVOKA_AT(cendravoka_input_data, mins, 28);
CENDRAVOKA_AT(cendravoka_input_data, maxs, 156);
CENDRAVOKA_AT(cendravoka_input_data, optional, 284);
CENDRAVOKA_AT(cendravoka_input_data, lengths, 316);
CENDRAVOKA_AT(cendravoka_input_data, members, 380);
CENDRAVOKA_AT(cendravoka_input_data, scheduling, 508);
CENDRAVOKA_AT(cendravoka_input_data, assignment, 1276);
CENDRAVOKA_SIZE(cendravoka_scheduling, 32);
CENDRAVOKA_AT(cendravoka_scheduling, entries, 0);
CENDRAVOKA_SIZE(cendravoka_schedule_state, 2112);
CENDRAVOKA_AT(cendravoka_schedule_state, schedule, 0);
CENDRAVOKA_AT(cendravoka_schedule_state, covered, 32);
CENDRAVOKA_AT(cendravoka_schedule_state, blocks, 64);
CENDRAVOKA_SIZE(cendravoka_cached_assignment, 546);
CENDRAVOKA_AT(cendravoka_cached_assignment, there, 0);
CENDRAVOKA_AT(cendravoka_cached_assignment, greedy, 1);
CENDRAVOKA_AT(cendravoka_cached_assignment, schedule, 2);
CENDRAVOKA_AT(cendravoka_cached_assignment, plan, 34);
CENDRAVOKA_SIZE(cendravoka_search, 1114);
CENDRAVOKA_AT(cendravoka_search, asking, 0);
CENDRAVOKA_AT(cendravoka_search, greedy, 1);
CENDRAVOKA_AT(cendravoka_search, found, 2);
CENDRAVOKA_AT(cendravoka_search, optimal, 3);
CENDRAVOKA_AT(cendravoka_search, asks, 4);
CENDRAVOKA_AT(cendravoka_search, level, 8);
CENDRAVOKA_AT(cendravoka_search, start, 12);
CENDRAVOKA_AT(cendravoka_search, low, 16);
CENDRAVOKA_AT(cendravoka_search, high, 20);
CENDRAVOKA_AT(cendravoka_search, schedule, 24);
CENDRAVOKA_AT(cendravoka_search, plan, 56);
CENDRAVOKA_AT(cendravoka_search, cached, 568);
CENDRAVOKA_SIZE(cendravoka_state_answer, 2116);
CENDRAVOKA_AT(cendravoka_state_answer, number, 0);
CENDRAVOKA_AT(cendravoka_state_answer, state, 4);
CENDRAVOKA_SIZE(cendravoka_slot_list_answer, 24);
CENDRAVOKA_AT(cendravoka_slot_list_answer, number, 0);
CENDRAVOKA_AT(cendravoka_slot_list_answer, start, 8);
CENDRAVOKA_AT(cendravoka_slot_list_answer, length, 16);
CENDRAVOKA_SIZE(cendravoka_model_answer, 40);
CENDRAVOKA_AT(cendravoka_model_answer, number, 0);
CENDRAVOKA_AT(cendravoka_model_answer, edges, 8);
CENDRAVOKA_AT(cendravoka_model_answer, entries, 16);
CENDRAVOKA_AT(cendravoka_model_answer, groups, 24);
CENDRAVOKA_AT(cendravoka_model_answer, blocked, 32);
CENDRAVOKA_SIZE(cendravoka_roster_answer, 16);
CENDRAVOKA_AT(cendravoka_roster_answer, number, 0);
CENDRAVOKA_AT(cendravoka_roster_answer, length, 8);
CENDRAVOKA_SIZE(cendravoka_in_choice_answer, 8);
CENDRAVOKA_AT(cendravoka_in_choice_answer, number, 0);
CENDRAVOKA_AT(cendravoka_in_choice_answer, found, 4);
CENDRAVOKA_SIZE(cendravoka_choice_answer, 8);
CENDRAVOKA_AT(cendravoka_choice_answer, number, 0);
CENDRAVOKA_AT(cendravoka_choice_answer, choice, 4);
CENDRAVOKA_SIZE(cendravoka_search_answer, 1132);
CENDRAVOKA_AT(cendravoka_search_answer, number, 0);
CENDRAVOKA_AT(cendravoka_search_answer, level, 4);
CENDRAVOKA_AT(cendravoka_search_answer, index, 8);
CENDRAVOKA_AT(cendravoka_search_answer, search, 12);
CENDRAVOKA_AT(cendravoka_search_answer, most_asks, 1128);
CENDRAVOKA_SIZE(cendravoka_verdict_answer, 8);
CENDRAVOKA_AT(cendravoka_verdict_answer, number, 0);
CENDRAVOKA_AT(cendravoka_verdict_answer, holds, 4);
CENDRAVOKA_SIZE(cendravoka_score_answer, 12);
CENDRAVOKA_AT(cendravoka_score_answer, number, 0);
CENDRAVOKA_AT(cendravoka_score_answer, score, 4);

#undef CENDRAVOKA_AT
#undef CENDRAVOKA_SIZE
#undef CENDRAVOKA_ASSERT

/* A fresh build of the state of a schedule. The slot lists are written into
 * lists, of at least 256 bytes. Refused by 1, 2, 3, 4, 7, 8, 9, 10, 11. */
cendravoka_state_answer cendravoka_build(const uint8_t *day, size_t day_length,
                                         const uint8_t *schedule, size_t schedule_length,
                                         uint8_t *lists, size_t lists_length);

/* An update of a state, and of the slot lists that stand in lists, to another
 * schedule. Refused by 1, 2, 3, 4, 7, 8, 9, 10, 11 (of either schedule), 12. */
cendravoka_state_answer cendravoka_update(const uint8_t *day, size_t day_length,
                                          const uint8_t *state, size_t state_length,
                                          const uint8_t *schedule, size_t schedule_length,
                                          uint8_t *lists, size_t lists_length);

/* The list of a slot. Refused by 1, 2, 3, 4, 7, 8, 9 (a slot outside the day
 * too), 10, 11, 12. */
cendravoka_slot_list_answer cendravoka_slot_list(const uint8_t *day, size_t day_length,
                                                 const uint8_t *state, size_t state_length,
                                                 const uint8_t *lists, size_t lists_length,
                                                 size_t slot);

/* The flow model of a state, whose slot lists stand in lists, at a preference
 * limit. preferences has choosers * choices numbers, chooser by chooser; costs
 * has max_preference + 1.
 * Nodes: chooser c in slot s is c * slots + s; choice k is choosers * slots + k;
 * slot s is choosers * slots + choices + s.
 * supplies, of at least 552, gets a number for each node. from, to, max and
 * cost, of at least 2080 each, get a number for each edge: its nodes, the most
 * it may carry and its unit cost. Edges are named by their place there.
 * entries, of at least 4096, gets the edges of the groups, one group after the
 * other; ends, of at least 2048, for each group how many entries there are up
 * to its end. blocked, of at least 4096, gets the edges that must be 0.
 * What lies past the used front of a buffer is left as it is.
 * Refused by 1, 2, 3, 4, 6, 7, 8, 9, 10, 11, 12. */
cendravoka_model_answer cendravoka_model(
    const uint8_t *day, size_t day_length,
    const uint8_t *state, size_t state_length,
    uint32_t limit,
    const uint32_t *preferences, size_t preferences_length,
    const int64_t *costs, size_t costs_length,
    const uint8_t *lists, size_t lists_length,
    int32_t *supplies, size_t supplies_length,
    uint16_t *from, size_t from_length,
    uint16_t *to, size_t to_length,
    uint32_t *max, size_t max_length,
    int64_t *cost, size_t cost_length,
    uint16_t *entries, size_t entries_length,
    uint16_t *ends, size_t ends_length,
    uint16_t *blocked, size_t blocked_length);

/* Whether the model, which is built anew, accepts these edge values, and the
 * plan that they stand for: plan, of at least 512 bytes, gets the choice of
 * chooser c in slot s at c * slots + s. values has at least 2080 numbers, of
 * which those past the last edge are not read.
 * Refused as the model, and by 14 to 17, which leave the model in its buffers
 * and the plan as it is. */
cendravoka_model_answer cendravoka_check_values(
    const uint8_t *day, size_t day_length,
    const uint8_t *state, size_t state_length,
    uint32_t limit,
    const uint32_t *preferences, size_t preferences_length,
    const int64_t *costs, size_t costs_length,
    const uint8_t *lists, size_t lists_length,
    const int32_t *values, size_t values_length,
    int32_t *supplies, size_t supplies_length,
    uint16_t *from, size_t from_length,
    uint16_t *to, size_t to_length,
    uint32_t *max, size_t max_length,
    int64_t *cost, size_t cost_length,
    uint16_t *entries, size_t entries_length,
    uint16_t *ends, size_t ends_length,
    uint16_t *blocked, size_t blocked_length,
    uint8_t *plan, size_t plan_length);

/* The calls on a plan. plan has exactly 512 bytes, the choice of chooser c in
 * slot s at c * slots + s; bytes past the last seat are not read. Refused by 1,
 * 2, 3, 4, 7, 8, 9 (what is asked about is outside the day, too), 10, 13 (an
 * entry is no choice). */

/* Assignment::choosers_ordered: the choosers of a choice, upward, each once for
 * each slot in which it has the choice, into the front of roster, of at least
 * 512 bytes. */
cendravoka_roster_answer cendravoka_choosers_ordered(const uint8_t *day, size_t day_length,
                                                     const uint8_t *plan, size_t plan_length,
                                                     size_t choice,
                                                     uint8_t *roster, size_t roster_length);

/* Assignment::choices_ordered: the choices of a chooser, upward, each once for
 * each slot in which the chooser has it, into the front of roster. */
cendravoka_roster_answer cendravoka_choices_ordered(const uint8_t *day, size_t day_length,
                                                    const uint8_t *plan, size_t plan_length,
                                                    size_t chooser,
                                                    uint8_t *roster, size_t roster_length);

/* Assignment::is_in_choice. */
cendravoka_in_choice_answer cendravoka_is_in_choice(const uint8_t *day, size_t day_length,
                                                    const uint8_t *plan, size_t plan_length,
                                                    size_t chooser, size_t choice);

/* Assignment::choice_of. */
cendravoka_choice_answer cendravoka_choice_of(const uint8_t *day, size_t day_length,
                                              const uint8_t *plan, size_t plan_length,
                                              size_t chooser, size_t slot);

/* AssignmentSolver::solve_until, begun: the search for a plan of this schedule
 * at the least preference level from bound on, with what an earlier search of
 * the day remembered in cached. greedy is yes where it is not 0. Refused by 1,
 * 2, 3, 4, 5, 7, 8, 9, 10, 11 (also of a remembered schedule), 13 (of a
 * remembered plan). */
cendravoka_search_answer cendravoka_begin(const uint8_t *day, size_t day_length,
                                          const uint8_t *schedule, size_t schedule_length,
                                          const uint32_t *levels, size_t levels_length,
                                          uint32_t bound, uint32_t greedy,
                                          const uint8_t *cached, size_t cached_length);

/* A search is told the answer to its ask. result: 0 feasible, with the plan of
 * exactly 512 bytes; 1 infeasible; anything else incomplete; without a feasible
 * result the plan is not looked at. levels are those that it was begun with.
 * Refused as begin, with 11 and 13 of the search's own schedule and best plan
 * too, by 2 and 13 of the told plan, and by 18. */
cendravoka_search_answer cendravoka_tell(const uint8_t *day, size_t day_length,
                                         const uint8_t *search, size_t search_length,
                                         const uint32_t *levels, size_t levels_length,
                                         uint32_t result, const uint8_t *plan, size_t plan_length);

/* The verdict on a schedule: Scoring::satisfies_constraints_scheduling, and
 * Scheduling::is_feasible. Refused by 1, 2, 3, 4, 7, 8, 9, 10, 11. */
cendravoka_verdict_answer cendravoka_satisfies_constraints_scheduling(
    const uint8_t *day, size_t day_length,
    const uint8_t *schedule, size_t schedule_length);
cendravoka_verdict_answer cendravoka_schedule_is_feasible(
    const uint8_t *day, size_t day_length,
    const uint8_t *schedule, size_t schedule_length);

/* The verdict on a plan of exactly 512 bytes:
 * Scoring::satisfies_constraints_assignment, and Scoring::is_feasible. Refused by
 * 1, 2, 3, 4, 7, 8, 9, 10, 11, 13 (an entry is no choice, or one without a
 * slot). */
cendravoka_verdict_answer cendravoka_satisfies_constraints_assignment(
    const uint8_t *day, size_t day_length,
    const uint8_t *schedule, size_t schedule_length,
    const uint8_t *plan, size_t plan_length);
cendravoka_verdict_answer cendravoka_is_feasible(const uint8_t *day, size_t day_length,
                                                 const uint8_t *schedule, size_t schedule_length,
                                                 const uint8_t *plan, size_t plan_length);

/* Scoring::evaluate. solution: 2 Complete, with schedule and plan; 1 Scheduling,
 * whose plan is not looked at; anything else Invalid, whose schedule is not
 * looked at either. What has no plan scores infinite twice. preferences has
 * choosers * choices numbers, powers max_preference + 1, any floats. greedy is
 * yes where it is not 0. Refused as the verdict on a plan, with 2 and 4 of the
 * tables; by 2, 11 and 13 of schedule and plan only where the solution has them. */
cendravoka_score_answer cendravoka_evaluate(
    const uint8_t *day, size_t day_length,
    uint32_t solution,
    const uint8_t *schedule, size_t schedule_length,
    const uint8_t *plan, size_t plan_length,
    uint32_t greedy,
    const uint32_t *preferences, size_t preferences_length,
    const float *powers, size_t powers_length);

/* Constraint::negation. 9: kind 6, SlotHasLimitedSize, without an operator. */
cendravoka_negation_answer cendravoka_negation(uint32_t kind, uint32_t left, uint32_t target_case,
                                               uint32_t target, uint32_t extra_case, int32_t extra);

/* Constraint::is_valid, is_scheduling_constraint, is_assignment_constraint: 0 or
 * 1. */
uint8_t cendravoka_is_valid(uint32_t kind);
uint8_t cendravoka_is_scheduling_constraint(uint32_t kind);
uint8_t cendravoka_is_assignment_constraint(uint32_t kind);

/* Score::is_finite: 0 or 1. */
uint8_t cendravoka_is_finite(float major, float minor);

/* Score::cmp of the left score with the right one: -1 less, 0 equal, 1 greater. */
int32_t cendravoka_compare(float left_major, float left_minor, float right_major, float right_minor);

/* The best of count scores, listed as major, minor, major, minor, ..
 * 1: count is above 64. 2: the list has not exactly 2 * count floats. */
cendravoka_best_answer cendravoka_best(const float *scores, size_t scores_length, size_t count);

/* The score of anything without a feasible plan: infinite twice. */
cendravoka_score cendravoka_infinite(void);

/* The bits of the major of a greedy plan: NaN. */
uint32_t cendravoka_greedy_major(void);

#ifdef __cplusplus
}
#endif

#endif
