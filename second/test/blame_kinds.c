#include "blame_kinds.h"

/* A question put to each row's cut load, in which `blame` is what that row has to blame. */
typedef bool kind_of_cut(const struct load *load, const struct load *cut, struct blame blame);

static bool is_of_some_cut(const struct load *load, kind_of_cut *kind)
{
    struct blame blames[MOST_ROWS];
    blames_of(load, blames);
    for (unsigned row = 1; row <= load->row_count; row++) {
        struct load cut = cut_load(load, row_of(load, row)->step_count);
        if (kind(load, &cut, blames[row - 1]))
            return true;
    }
    return false;
}

static bool has_row_tie(const struct load *load, const struct load *cut, struct blame blame)
{
    (void)load;
    unsigned rows = 0;
    for (unsigned i = 1; blame.place > 0 && i <= cut->row_count; i++)
        rows += is_free(row_of(cut, i), blame.place + 1)
            && w_of(cut, i, blame.place) == largest_w(cut, blame.place).w;
    return rows > 1;
}

static bool has_place_tie(const struct load *load, const struct load *cut, struct blame blame)
{
    (void)load;
    unsigned places = 0;
    for (unsigned j = 1; blame.place > 0 && j <= MOST_PLACES; j++)
        places += largest_w(cut, j).w == largest_w(cut, blame.place).w;
    return places > 1;
}

static bool has_turned(const struct load *load, const struct load *cut, struct blame blame)
{
    (void)cut;
    struct blame whole = blame_of(load);
    return blame.place > 0 && (blame.place != whole.place || blame.row != whole.row);
}

/* A wait one tick longer would be blamed. */
static bool is_close(const struct load *cut, unsigned i, unsigned j)
{
    struct load longer = *cut;
    longer.rows[i - 1].steps[j - 1].wait++;
    return is_free(row_of(cut, i), j + 1) && step_of(row_of(cut, i), j)->wait > 0
        && w_of(&longer, i, j) > 0;
}

static bool has_close_wait(const struct load *load, const struct load *cut, struct blame blame)
{
    (void)load;
    for (unsigned i = 1; blame.place == 0 && i <= cut->row_count; i++)
        for (unsigned j = 1; j <= MOST_PLACES; j++)
            if (is_close(cut, i, j))
                return true;
    return false;
}

bool ties_rows(const struct load *load)
{
    return is_of_some_cut(load, has_row_tie);
}

bool ties_places(const struct load *load)
{
    return is_of_some_cut(load, has_place_tie);
}

bool turns_by_cut(const struct load *load)
{
    return is_of_some_cut(load, has_turned);
}

bool is_just_outweighed(const struct load *load)
{
    return is_of_some_cut(load, has_close_wait);
}
