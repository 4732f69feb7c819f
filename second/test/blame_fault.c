#include "blame_fault.h"

#include <stddef.h>
#include <string.h>

/* W of row i at place j; 0 where its wait is not free, as if nothing were left of it. */
static uint32_t w_at(const struct load *load, unsigned i, unsigned j)
{
    return is_free(row_of(load, i), j + 1) ? w_of(load, i, j) : 0;
}

/* No row has more there, and no lower one as much. */
static bool is_lowest_at(const struct load *load, unsigned j, uint32_t w, unsigned i)
{
    for (unsigned other = 1; other <= load->row_count; other++)
        if (w_at(load, other, j) > w || (other < i && w_at(load, other, j) == w))
            return false;
    return true;
}

static bool is_place_right(const struct load *load, unsigned j, struct place_w place)
{
    if (place.row == 0)
        return place.w == 0 && is_lowest_at(load, j, 0, 0);
    return place.row <= load->row_count && place.w > 0 && w_at(load, place.row, j) == place.w
        && is_lowest_at(load, j, place.w, place.row);
}

static bool are_places_right(const struct load *load)
{
    struct place_w places[MOST_PLACES];
    bool right = places_of(load, places) == ACCEPTED;
    for (unsigned j = 1; j <= MOST_PLACES; j++)
        right = right && is_place_right(load, j, places[j - 1]);
    return right;
}

/* At a lower place every W is below the blamed one, at a higher one none is above it. */
static bool is_largest(const struct load *cut, struct blame blame, uint32_t w)
{
    for (unsigned j = 1; j <= MOST_PLACES; j++)
        for (unsigned i = 1; i <= cut->row_count; i++)
            if (w_at(cut, i, j) > w || (j < blame.place && w_at(cut, i, j) == w))
                return false;
    return true;
}

static bool is_blame_right(const struct load *cut, struct blame blame)
{
    if (blame.place == 0 || blame.row == 0)
        return blame.place == blame.row && is_largest(cut, blame, 0);
    uint32_t w = w_at(cut, blame.row, blame.place);
    return w > 0 && is_largest(cut, blame, w) && is_lowest_at(cut, blame.place, w, blame.row);
}

static bool are_blames_right(const struct load *load, const struct blame *blames)
{
    for (unsigned row = 1; row <= MOST_ROWS; row++) {
        bool there = row <= load->row_count;
        struct load cut = there ? cut_load(load, row_of(load, row)->step_count)
                                : (struct load){0};
        if (!is_blame_right(&cut, blames[row - 1]))
            return false;
    }
    return true;
}

/* The cut at m leaves every W at the places below m as it is, and no free wait at the others. */
static bool are_blames_below_the_cut(const struct load *load, const struct blame *blames)
{
    for (unsigned row = 1; row <= load->row_count; row++) {
        struct blame first = {0, 0};
        for (unsigned j = 1; j < row_of(load, row)->step_count; j++)
            if (first.place == 0 ? largest_w(load, j).w > 0
                                 : largest_w(load, j).w > largest_w(load, first.place).w)
                first = (struct blame){j, largest_w(load, j).row};
        if (first.place != blames[row - 1].place || first.row != blames[row - 1].row)
            return false;
    }
    return true;
}

/* Other identifiers and boxes, phases, deadlines and classes: nothing of a wait changes. */
static bool are_blames_of_steps_alone(const struct load *load, const struct blame *blames)
{
    struct load other = *load;
    struct blame found[MOST_ROWS];
    for (unsigned row = 1; row <= load->row_count; row++) {
        struct row *place = &other.rows[row - 1];
        place->identifier.number = UINT32_MAX - row;
        place->box.number = row;
        place->phase = MOST_PHASE - row;
        place->deadline = MOST_DEADLINE - row;
        place->class = (uint8_t)((place->class + row) % (MOST_CLASS + 1));
    }
    return blames_of(&other, found) == ACCEPTED && memcmp(found, blames, sizeof found) == 0;
}

const char *blame_fault(const struct load *load)
{
    struct blame blames[MOST_ROWS];
    if (blames_of(load, blames) != ACCEPTED)
        return "a good load's blames are refused";
    if (!are_places_right(load))
        return "a place has its largest W and the lowest row";
    if (!are_blames_right(load, blames))
        return "no W of the cut load is above the blamed one, and none before it as large";
    if (!are_blames_below_the_cut(load, blames))
        return "a row's blame lies below its own last step";
    if (!are_blames_of_steps_alone(load, blames))
        return "identifiers, boxes, phases, deadlines and classes are not blamed";
    return NULL;
}
