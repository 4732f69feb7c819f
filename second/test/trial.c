/* Random loads, two of three with classes: the run from fresh must end by the bound, each row by
   its row bound, and its own slots must pass the check whenever no margin is negative. One load for
   which this fails is printed with its numbers, and the trial ends with 1.
   Usage: trial [COUNT [SEED [SIZES]]], where SIZES takes the first so many sizes of load alone, the
   quick ones. */
#include <stdio.h>
#include <stdlib.h>

#include "blame_fault.h"
#include "bound.h"
#include "file_fault.h"
#include "plain.h"
#include "schedule.h"

enum { DEFAULT_COUNT = 600, DEFAULT_SEED = 1, PERTURBED = 20 };

static void print_row(const struct row *row)
{
    printf("%lu %lu %lu %lu :", (unsigned long)row->identifier.number,
           (unsigned long)row->box.number, (unsigned long)row->phase,
           (unsigned long)row->deadline);
    for (unsigned step = 1; step < row->step_count; step++)
        printf(" %u w%u", step_of(row, step)->cost, step_of(row, step)->wait);
    printf(" %u", step_of(row, row->step_count)->cost);
    for (unsigned window = 1; window <= row->window_count; window++)
        printf("%s%u-%u<=%u", window == 1 ? " : " : " ", window_of(row, window)->first,
               window_of(row, window)->last, window_of(row, window)->limit);
    if (!is_plain_row(row))
        printf("%s : %u %u", row->window_count == 0 ? " :" : "", row->class, row->head);
    putchar('\n');
}

static bool fails(const struct load *load, const char *demand, unsigned long wanted,
                  unsigned long found)
{
    printf("\n*** COUNTEREXAMPLE: %s: wanted %lu, found %lu\n", demand, wanted, found);
    for (unsigned row = 1; row <= load->row_count; row++)
        print_row(row_of(load, row));
    return false;
}

/* With every deadline at its row bound, each margin is 0 and the check must say yes. */
static bool holds_at_row_bounds(const struct load *load, const uint32_t *bounds)
{
    struct load tight = *load;
    for (unsigned row = 1; row <= load->row_count; row++)
        tight.rows[row - 1].deadline = bounds[row - 1];
    struct run run = run_of(&tight);
    enum refusal refusal = check_schedule(&tight, run.slots, run.slot_count);
    return refusal == ACCEPTED || fails(&tight, "check with margins 0", ACCEPTED, refusal);
}

/* A missed deadline may follow from a negative margin; nothing else may ever be met. */
static bool holds_at_deadlines(const struct load *load, const struct run *run)
{
    bool verdict;
    verdict_of(load, &verdict);
    enum refusal refusal = check_schedule(load, run->slots, run->slot_count);
    if (refusal == ACCEPTED || (!verdict && refusal == ROW_LATE))
        return true;
    return fails(load, verdict ? "check, verdict yes" : "check, verdict no", ACCEPTED, refusal);
}

static bool keeps_demands(const struct load *load)
{
    uint32_t bound, bounds[MOST_ROWS];
    struct run run = run_of(load);
    if (check_load(load) != ACCEPTED || run.refusal != ACCEPTED)
        return fails(load, "a good load is refused", ACCEPTED, run.refusal);
    bound_of(load, &bound);
    row_bounds_of(load, bounds);
    if (run.end > bound)
        return fails(load, "end by the bound", bound, run.end);
    return holds_at_row_bounds(load, bounds) && holds_at_deadlines(load, &run);
}

static bool is_same_run(const struct run *one, const struct run *other)
{
    bool same = one->slot_count == other->slot_count;
    for (unsigned place = 0; same && place < one->slot_count; place++)
        same = one->slots[place].row == other->slots[place].row
            && one->slots[place].start == other->slots[place].start;
    return same;
}

static struct run run_in_class(struct load load, uint8_t class)
{
    for (unsigned row = 1; row <= load.row_count; row++)
        load.rows[row - 1].class = class;
    return run_of(&load);
}

/* A class that all rows have puts none before another. */
static bool is_shared_class_unseen(const struct load *load)
{
    struct run lowest = run_in_class(*load, 0), highest = run_in_class(*load, MOST_CLASS);
    return is_same_run(&lowest, &highest) || fails(load, "a shared class is not seen", 0, 1);
}

/* What the moves hand back must be shaped, and the moves must be those of the run. */
static bool moves_are_the_run(const struct load *load)
{
    struct run run = run_of(load);
    struct move move = {0};
    unsigned count = 0;
    while (move.outcome != DONE) {
        move = move_of(load, move.state);
        if (move.refusal != ACCEPTED)
            return fails(load, "a move from fresh is refused", ACCEPTED, move.refusal);
        if (move.outcome == START && count++ >= run.slot_count)
            return fails(load, "moves start more steps than the run", run.slot_count, count);
        if (move.outcome == START && (run.slots[count - 1].row != move.slot.row
                || run.slots[count - 1].step != move.slot.step
                || run.slots[count - 1].start != move.slot.start))
            return fails(load, "a move differs from the run's", count, move.slot.start);
    }
    return count == run.slot_count || fails(load, "starts", run.slot_count, count);
}

/* From any state: a shaped one moves on to a shaped one unless the clock is full, and any other
   is handed back. */
static bool any_state_is_moved(struct dice *dice, const struct load *load)
{
    for (unsigned times = 0; times < PERTURBED; times++) {
        struct bench state = any_state(dice, load);
        bool shaped = is_shaped(load, &state);
        struct move move = move_of(load, state);
        bool good = shaped ? move.refusal == ACCEPTED || move.refusal == CLOCK_FULL
                           : move.refusal == STATE_SHAPE;
        if (!good || (shaped && !is_shaped(load, &move.state)))
            return fails(load, "a move from a lent state", shaped, move.refusal);
        if (move.refusal != ACCEPTED && (move.lamps != 0 || move.state.clock != state.clock))
            return fails(load, "a refused move changes nothing", 0, move.lamps);
    }
    return true;
}

static bool has_no_fault(const struct load *load, const char *fault)
{
    return fault == NULL || fails(load, fault, 0, 1);
}

/* A number among the program's words, or what stands for it. */
static unsigned long number_at(int count, char **words, int at, unsigned long otherwise)
{
    return at < count ? strtoul(words[at], NULL, 10) : otherwise;
}

int main(int count, char **words)
{
    unsigned long loads = number_at(count, words, 1, DEFAULT_COUNT);
    unsigned long seed = number_at(count, words, 2, DEFAULT_SEED);
    unsigned long sizes = number_at(count, words, 3, ALL_SIZES);
    unsigned among = sizes < 1 || sizes > ALL_SIZES ? ALL_SIZES : (unsigned)sizes;
    struct dice dice = {UINT64_C(0x9E3779B97F4A7C15) ^ (uint64_t)seed};
    unsigned long yes = 0;
    for (unsigned long at = 0; at < loads; at++) {
        uint32_t bounds[MOST_ROWS];
        bool verdict;
        struct load load = any_load(&dice, among);
        row_bounds_of(&load, bounds);
        set_deadlines(&dice, &load, bounds);
        if (at % 3 != 0)
            set_classes(&dice, &load);
        verdict_of(&load, &verdict);
        yes += verdict;
        if (!keeps_demands(&load) || !is_shared_class_unseen(&load) || !moves_are_the_run(&load)
            || !has_no_fault(&load, file_fault(&dice, &load)) || !any_state_is_moved(&dice, &load)
            || !has_no_fault(&load, blame_fault(&load)))
            return 1;
    }
    printf("trial: %lu random loads, %lu of them with verdict yes, no counterexample\n", loads,
           yes);
    return 0;
}
