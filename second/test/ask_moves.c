/* Single moves from states that moves lead to and from others, of loads lent as files or in
   memory. */
#include <stddef.h>

#include "questions.h"

enum { PLAYED_LOADS = 110, ASKED_A_RUN = 4, ANY_STATES = 260, TIGHT_STATES = 420 };

static unsigned moves_of(const struct load *load)
{
    unsigned count = 0;
    for (struct move move = {0}; move.outcome != DONE; count++)
        move = move_of(load, move.state);
    return count;
}

/* About four states of the run, Done now and then. */
static void ask_some_moves(struct asking *asking, const struct load *load)
{
    unsigned moves = moves_of(load);
    for (struct move move = {0}; move.outcome != DONE;) {
        if (throw_dice(&asking->dice) % moves < ASKED_A_RUN)
            ask_move_of(asking, load, &move.state);
        move = move_of(load, move.state);
    }
}

/* 1 w30 1 in every row, windows wide open: the lamps go on one after the other. */
static void ask_lamps(struct asking *asking)
{
    struct load load = {.row_count = MOST_ROWS};
    struct bench state = {.clock = 24};
    for (unsigned row = 1; row <= MOST_ROWS; row++)
        load.rows[row - 1] = (struct row){{row}, {row}, 0, 999, 2, 1, 0, 1, {{1, 30}, {1, 0}},
                                          {{1, 2, UINT16_MAX}}};
    struct move move = {0};
    for (unsigned played = 0; played < 40; played++) {
        if (played % 5 == 3)
            ask_move_of(asking, &load, &move.state);
        move = move_of(&load, move.state);
    }
    for (unsigned row = 1; row <= MOST_ROWS; row++)
        state.rows[row - 1] = (struct progress){1, row, row - 1};
    ask_move_of(asking, &load, &state);
    state.rows[MOST_ROWS - 1] = (struct progress){2, 24, 0};
    ask_move_of(asking, &load, &state);
}

void ask_moves(struct asking *asking)
{
    unsigned any_states = share_of(asking, ANY_STATES);
    unsigned states = any_states + share_of(asking, TIGHT_STATES);
    for (unsigned times = 0; times < share_of(asking, PLAYED_LOADS); times++) {
        struct load load = any_load(&asking->dice, SMALL_SIZES + 1);
        ask_some_moves(asking, &load);
    }
    for (unsigned times = 0; times < states; times++) {
        struct load load = any_load(&asking->dice, SMALL_SIZES + 1);
        struct bench state = times < any_states ? any_state(&asking->dice, &load)
                                                : tight_state(&asking->dice, &load);
        ask_move_of(asking, &load, &state);
    }
    ask_lamps(asking);
}

/* A file that is refused decides alone, whatever the state. */
void ask_refused_files(struct asking *asking)
{
    for (unsigned times = 0; times < 30; times++) {
        struct load load = any_load(&asking->dice, SMALL_SIZES);
        struct bench state = any_state(&asking->dice, &load);
        spoil(&asking->dice, &load);
        struct asked_file file = file_of(&load);
        file.length -= times % 3 == 0;
        ask_move(asking, &file, &state);
    }
}
