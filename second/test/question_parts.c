#include "question_parts.h"

void write_1(FILE *out, unsigned number)
{
    fputc((int)(number & 0xFF), out);
}

void write_2(FILE *out, unsigned number)
{
    write_1(out, number);
    write_1(out, number >> 8);
}

void write_4(FILE *out, uint32_t number)
{
    write_2(out, number & 0xFFFF);
    write_2(out, number >> 16);
}

void write_file(FILE *out, const struct asked_file *file)
{
    write_2(out, (unsigned)file->length);
    fwrite(file->bytes, 1, file->length, out);
}

void write_slots(FILE *out, const struct asked_slots *list)
{
    write_2(out, (unsigned)list->count);
    for (size_t place = 0; place < list->count; place++) {
        write_1(out, list->slots[place].row);
        write_1(out, list->slots[place].step);
        write_4(out, list->slots[place].start);
    }
}

void write_state(FILE *out, const struct bench *state)
{
    write_4(out, state->clock);
    for (unsigned row = 1; row <= MOST_ROWS; row++) {
        const struct progress *progress = progress_of(state, row);
        write_1(out, progress->finished);
        write_4(out, progress->end);
        write_4(out, progress->opening);
    }
}

static void write_row_fields(FILE *out, const struct row *row)
{
    write_4(out, row->identifier.number);
    write_4(out, row->box.number);
    write_4(out, row->phase);
    write_4(out, row->deadline);
    write_1(out, row->step_count);
    write_1(out, row->window_count);
    write_1(out, row->class);
    write_1(out, row->head);
}

static void write_row_places(FILE *out, const struct row *row)
{
    for (unsigned step = 1; step <= MOST_STEPS; step++) {
        write_2(out, step_of(row, step)->cost);
        write_2(out, step_of(row, step)->wait);
    }
    for (unsigned window = 1; window <= MOST_WINDOWS; window++) {
        write_1(out, window_of(row, window)->first);
        write_1(out, window_of(row, window)->last);
        write_2(out, window_of(row, window)->limit);
    }
}

void write_load_places(FILE *out, const struct load *load)
{
    write_1(out, load->row_count);
    for (unsigned row = 1; row <= MOST_ROWS; row++) {
        write_row_fields(out, row_of(load, row));
        write_row_places(out, row_of(load, row));
    }
}
