/* Slot lists against their load, lent as a file or in memory: the run's own list with one thing
   altered. */
#include "load_file.h"
#include "questions.h"

enum { ALTERED_LOADS = 70, ALTERED_EACH = 6, ALTERATIONS = 24, FILES_REFUSED = 2 };

static uint32_t end_before(const struct load *load, const struct asked_slots *list, size_t p)
{
    if (p == 0)
        return 0;
    const struct slot *before = &list->slots[p - 1];
    return before->start + step_of(row_of(load, before->row), before->step)->cost;
}

static void move_from(struct asked_slots *list, size_t p, uint32_t later)
{
    for (; p < list->count; p++)
        list->slots[p].start += later;
}

static void swap_with_next(struct asked_slots *list, size_t p)
{
    size_t next = (p + 1) % list->count;
    struct slot slot = list->slots[p];
    list->slots[p] = list->slots[next];
    list->slots[next] = slot;
}

/* One thing changes at place p, so that one number of the table may be met. */
static void alter(struct asked_slots *list, const struct load *load, size_t p, unsigned alteration)
{
    struct slot *slot = &list->slots[p];
    uint32_t free_from = end_before(load, list, p);
    switch (alteration) {
    case 0: break;
    case 1: list->count--; break;
    case 2: list->slots[list->count++] = *slot; break;
    case 3: list->count = 0; break;
    case 4: slot->row = 0; break;
    case 5: slot->row = (uint8_t)(load->row_count + 1); break;
    case 6: slot->row = UINT8_MAX; break;
    case 7: slot->row = (uint8_t)(slot->row % load->row_count + 1); break;
    case 8: slot->step = 0; break;
    case 9: slot->step++; break;
    case 10: slot->step--; break;
    case 11: slot->step = UINT8_MAX; break;
    case 12: slot->start = LAST_MOMENT; break;
    case 13: slot->start = LAST_MOMENT + 1; break;
    case 14: slot->start = UINT32_MAX; break;
    case 15: slot->start++; break;
    case 16: slot->start--; break;
    case 17: slot->start = free_from; break;
    case 18: slot->start = free_from - (p > 0); break;
    case 19: swap_with_next(list, p); break;
    case 20: move_from(list, p, 1); break;
    case 21: move_from(list, p, 9); break;
    case 22: move_from(list, p, 900000); break;
    default: list->slots[(p + 1) % list->count] = *slot; break;
    }
}

static void ask_altered(struct asking *asking, const struct load *load, size_t p,
                        unsigned alteration)
{
    struct asked_slots list = slots_of(load);
    alter(&list, load, p, alteration);
    ask_check_of(asking, load, &list);
}

static void ask_every_alteration(struct asking *asking, const struct load *load)
{
    unsigned slots = steps_of(load);
    for (size_t p = 0; p < slots; p++)
        for (unsigned alteration = p == 0 ? 0 : 4; alteration < ALTERATIONS; alteration++)
            ask_altered(asking, load, p, alteration);
}

static void ask_some_alterations(struct asking *asking, const struct load *load)
{
    for (unsigned times = 0; times < ALTERED_EACH; times++) {
        size_t p = throw_dice(&asking->dice) % steps_of(load);
        unsigned alteration = throw_dice(&asking->dice) % ALTERATIONS;
        ask_altered(asking, load, p, alteration);
    }
}

/* One row 1 w0 1, and one row 1, at the last moments. */
static void ask_last_starts(struct asking *asking)
{
    struct load two = {1, {{{1}, {1}, 0, LAST_MOMENT, 2, 0, 0, 1, {{1, 0}, {1, 0}}, {{0, 0, 0}}}}};
    struct load one = {1, {{{1}, {1}, 0, LAST_MOMENT, 1, 0, 0, 1, {{1, 0}}, {{0, 0, 0}}}}};
    for (uint32_t start = LAST_MOMENT - 3; start <= LAST_MOMENT + 1; start++) {
        struct asked_slots list = {1, {{1, 1, start}}};
        ask_check_of(asking, &one, &list);
        for (uint32_t next = start; next <= start + 2; next++) {
            struct asked_slots lists = {2, {{1, 1, start}, {1, 2, next}}};
            ask_check_of(asking, &two, &lists);
        }
    }
}

/* Counts far from the load's, and files that are refused. */
static void ask_counts(struct asking *asking)
{
    static const size_t counts[] = {0, 1, 4, 5, 6, 191, 192, 193, 255, 256};
    struct load load = load_with(&asking->dice, 1, 5, 2);
    struct load full = load_with(&asking->dice, MOST_ROWS, MOST_STEPS, 1);
    struct load none = {0};
    struct asked_slots list = slots_of(&load), full_list = slots_of(&full);
    for (size_t place = 0; place < sizeof counts / sizeof counts[0]; place++) {
        list.count = counts[place];
        full_list.count = counts[place];
        ask_check_of(asking, &load, &list);
        ask_check_of(asking, &none, &list);
        if (place > 4)
            ask_check_of(asking, &full, &full_list);
    }
    for (unsigned times = 0; times < 20; times++) {
        spoil(&asking->dice, &load);
        ask_check_of(asking, &load, &list);
    }
}

void ask_all_alterations(struct asking *asking)
{
    static const unsigned sizes[][3] = {{3, 2, 1}, {1, 4, 2}, {2, 3, 0}};
    for (unsigned place = 0; place < 3; place++) {
        const unsigned *size = sizes[place];
        struct load load = load_with(&asking->dice, size[0], size[1], size[2]);
        ask_every_alteration(asking, &load);
    }
}

void ask_altered_lists(struct asking *asking)
{
    for (unsigned times = 0; times < share_of(asking, ALTERED_LOADS); times++) {
        struct load load = any_load(&asking->dice, SMALL_SIZES + 1);
        ask_some_alterations(asking, &load);
    }
}

void ask_edge_lists(struct asking *asking)
{
    ask_last_starts(asking);
    ask_counts(asking);
}

/* The file's own number comes first, whatever the list. */
void ask_checks_of_refused_files(struct asking *asking)
{
    struct asked_slots none = {0};
    struct load load;
    unsigned found[END_DIFFERS + 1] = {0};
    for (unsigned times = 0, all = 0; all < FILES_REFUSED * END_DIFFERS; times++) {
        struct asked_file file = spoiled_file(&asking->dice, times);
        enum refusal refusal = read_load(file.bytes, file.length, &load);
        if (refusal == ACCEPTED || refusal > END_DIFFERS || found[refusal] == FILES_REFUSED)
            continue;
        ask_check(asking, &file, &none);
        found[refusal]++;
        all++;
    }
}
