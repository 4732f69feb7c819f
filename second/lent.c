#include "lent.h"

#include <string.h>

enum { LINE_ROOM = 256 };

static bool read_slot(const char *line, struct slot *slot)
{
    unsigned long long start, row, step;
    if (sscanf(line, "slot %18llu %18llu %18llu", &start, &row, &step) != 3)
        return false;
    *slot = (struct slot){(uint8_t)row, (uint8_t)step, (uint32_t)start};
    return start <= UINT32_MAX && row <= UINT8_MAX && step <= UINT8_MAX;
}

int read_slots(FILE *text, struct slot *slots, unsigned room)
{
    char line[LINE_ROOM];
    unsigned count = 0;
    while (count < room && fgets(line, sizeof line, text) != NULL) {
        if (strncmp(line, "slot ", 5) != 0)
            continue;
        if (!read_slot(line, &slots[count++]))
            return -1;
    }
    return (int)count;
}

/* A number not there is 0; false when it is no number or does not fit. */
static bool read_number(FILE *text, uint32_t most, uint32_t *number)
{
    unsigned long long value = 0;
    int taken = fscanf(text, "%18llu", &value);
    *number = (uint32_t)value;
    return taken != 0 && value <= most;
}

static bool read_progress(FILE *text, struct progress *progress)
{
    uint32_t finished;
    if (!read_number(text, UINT8_MAX, &finished)
        || !read_number(text, UINT32_MAX, &progress->end)
        || !read_number(text, UINT32_MAX, &progress->opening))
        return false;
    progress->finished = (uint8_t)finished;
    return true;
}

bool read_state(FILE *text, struct bench *state)
{
    bool good = read_number(text, UINT32_MAX, &state->clock);
    for (unsigned row = 1; good && row <= MOST_ROWS; row++)
        good = read_progress(text, &state->rows[row - 1]);
    return good;
}

static void print_outcome(FILE *out, const struct move *move)
{
    static const char *const words[] = {"refused", "start", "idle", "done"};
    fprintf(out, "%d %s", (int)move->refusal, words[move->outcome]);
    if (move->outcome == START)
        fprintf(out, " %lu %u %u", (unsigned long)move->slot.start, move->slot.row,
                move->slot.step);
    fprintf(out, " lamps %lu %lu\n", (unsigned long)move->lamps,
            (unsigned long)move->lamp_count);
}

void print_move(FILE *out, const struct move *move)
{
    print_outcome(out, move);
    fprintf(out, "%lu", (unsigned long)move->state.clock);
    for (unsigned row = 1; row <= MOST_ROWS; row++) {
        const struct progress *progress = progress_of(&move->state, row);
        fprintf(out, " %u %lu %lu", progress->finished, (unsigned long)progress->end,
                (unsigned long)progress->opening);
    }
    fputc('\n', out);
}
