#include "answered.h"

#include "bound.h"
#include "load_file.h"

static void print_outcome(FILE *answers, const struct move *move)
{
    if (move->refusal != ACCEPTED)
        fprintf(answers, "refused %d", (int)move->refusal);
    else if (move->outcome == START)
        fprintf(answers, "start %u %u %lu", move->slot.row, move->slot.step,
                (unsigned long)move->slot.start);
    else
        fputs(move->outcome == IDLE ? "idle" : "done", answers);
}

void print_move_of(FILE *answers, const struct load *load, struct bench state)
{
    struct move move = move_of(load, state);
    print_outcome(answers, &move);
    fprintf(answers, " lamps %lu count %lu clock %lu", (unsigned long)move.lamps,
            (unsigned long)move.lamp_count, (unsigned long)move.state.clock);
    for (unsigned row = 1; row <= MOST_ROWS; row++) {
        const struct progress *progress = progress_of(&move.state, row);
        fprintf(answers, " %u:%lu:%lu", progress->finished, (unsigned long)progress->end,
                (unsigned long)progress->opening);
    }
    fputc('\n', answers);
}

void print_check_of(FILE *answers, const struct load *load, const struct asked_slots *list)
{
    fprintf(answers, "check %d\n", (int)check_schedule(load, list->slots, list->count));
}

static void print_hex(FILE *answers, const uint8_t *bytes, size_t length)
{
    fputc(' ', answers);
    for (size_t place = 0; place < length; place++)
        fprintf(answers, "%02x", bytes[place]);
}

void print_written(FILE *answers, const char *what, enum refusal refusal, const uint8_t *bytes,
                   size_t length)
{
    fprintf(answers, "%s %d", what, (int)refusal);
    if (refusal == ACCEPTED)
        print_hex(answers, bytes, length);
    fputc('\n', answers);
}

void print_room(FILE *answers, const char *what, enum refusal refusal, size_t written,
                const struct asked_room *room)
{
    fprintf(answers, "%s %d %lu", what, (int)refusal, (unsigned long)written);
    print_hex(answers, room->bytes, room->length);
    fputc('\n', answers);
}

static void print_waits(FILE *answers, const struct place_w *places)
{
    fputs("waits", answers);
    for (unsigned j = 1; j <= MOST_PLACES; j++)
        fprintf(answers, " %lu:%u", (unsigned long)places[j - 1].w, places[j - 1].row);
}

static void print_blames(FILE *answers, const struct blame *blames)
{
    fputs(" blames", answers);
    for (unsigned row = 1; row <= MOST_ROWS; row++)
        fprintf(answers, " %u:%u", blames[row - 1].place, blames[row - 1].row);
}

static void print_margins(FILE *answers, const int32_t *margins)
{
    fputs(" margins", answers);
    for (unsigned row = 1; row <= MOST_ROWS; row++)
        fprintf(answers, " %ld", (long)margins[row - 1]);
}

void print_places(FILE *answers, const uint8_t *bytes, size_t length)
{
    struct load load;
    struct place_w places[MOST_PLACES];
    struct blame blames[MOST_ROWS];
    enum refusal refusal = read_load(bytes, length, &load);
    if (refusal != ACCEPTED) {
        fprintf(answers, "refused %d\n", (int)refusal);
        return;
    }
    places_of(&load, places);
    blames_of(&load, blames);
    print_waits(answers, places);
    print_blames(answers, blames);
    fputc('\n', answers);
}

/* Each call checks the load for itself, and all give the same number. One that differs stands on
   the line too, which is then no answer. */
static bool print_refusals(FILE *answers, const enum refusal *numbers, unsigned calls)
{
    bool refused = false;
    for (unsigned call = 0; call < calls; call++)
        refused = refused || numbers[call] != ACCEPTED;
    if (!refused)
        return false;
    fprintf(answers, "refused %d", (int)numbers[0]);
    for (unsigned call = 1; call < calls; call++)
        if (numbers[call] != numbers[0])
            fprintf(answers, " but %d", (int)numbers[call]);
    return true;
}

void print_places_of(FILE *answers, const struct load *load)
{
    struct place_w places[MOST_PLACES];
    struct blame blames[MOST_ROWS];
    int32_t margins[MOST_ROWS];
    enum refusal numbers[] = {places_of(load, places), blames_of(load, blames),
                              margins_of(load, margins)};
    if (!print_refusals(answers, numbers, sizeof numbers / sizeof numbers[0])) {
        print_waits(answers, places);
        print_blames(answers, blames);
        print_margins(answers, margins);
    }
    fputc('\n', answers);
}
