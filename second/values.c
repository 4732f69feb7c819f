#include "values.h"

#include <string.h>

#include "bench.h"
#include "bound.h"
#include "load_file.h"

/* The length of the record that opens here, by its mark and the length of a row record; the rest of
   the file if no mark does. */
static size_t record_length(const uint8_t *at, size_t rest, size_t row)
{
    const struct {
        char mark[3];
        size_t length;
    } kinds[] = {{"LD", HEADER_BYTES}, {"RW", row}, {"ST", STEP_BYTES}, {"WN", WINDOW_BYTES},
                 {"EN", END_BYTES}};
    for (size_t kind = 0; kind < sizeof kinds / sizeof kinds[0]; kind++)
        if (rest >= kinds[kind].length && memcmp(at, kinds[kind].mark, 2) == 0)
            return kinds[kind].length;
    return rest;
}

static void print_record(FILE *out, const uint8_t *at, size_t length)
{
    for (size_t place = 0; place < length; place++)
        fprintf(out, place == 0 ? "%02X" : " %02X", at[place]);
    fputc('\n', out);
}

/* In a file of no version that there is, rows are laid open as in version 1. */
static void print_records(FILE *out, const uint8_t *bytes, size_t length)
{
    size_t row = row_bytes(length > 2 && bytes[2] == VERSION_2 ? VERSION_2 : VERSION_1);
    size_t at = 0;
    while (at < length) {
        size_t record = record_length(bytes + at, length - at, row);
        print_record(out, bytes + at, record);
        at += record;
    }
}

static void print_rows(FILE *out, const struct load *load)
{
    uint32_t bounds[MOST_ROWS];
    int32_t margins[MOST_ROWS];
    row_bounds_of(load, bounds);
    margins_of(load, margins);
    for (unsigned row = 1; row <= load->row_count; row++)
        fprintf(out, "row %u bound %lu margin %ld\n", row, (unsigned long)bounds[row - 1],
                (long)margins[row - 1]);
}

static void print_slots(FILE *out, const struct run *run)
{
    for (unsigned place = 0; place < run->slot_count; place++)
        fprintf(out, "start %lu row %u step %u\n", (unsigned long)run->slots[place].start,
                run->slots[place].row, run->slots[place].step);
    fprintf(out, "end %lu\n", (unsigned long)run->end);
}

void print_values(FILE *out, const uint8_t *bytes, size_t length)
{
    struct load load;
    uint32_t bound;
    bool verdict;
    print_records(out, bytes, length);
    enum refusal refusal = read_load(bytes, length, &load);
    fprintf(out, "\nrefusal %d\n", (int)refusal);
    if (refusal != ACCEPTED)
        return;
    bound_of(&load, &bound);
    verdict_of(&load, &verdict);
    struct run run = run_of(&load);
    fprintf(out, "bound %lu\n", (unsigned long)bound);
    print_rows(out, &load);
    fprintf(out, "verdict %s\n", verdict ? "yes" : "no");
    print_slots(out, &run);
}

static bool has_place(const struct load *load, unsigned j)
{
    for (unsigned row = 1; row <= load->row_count; row++)
        if (j < row_of(load, row)->step_count)
            return true;
    return false;
}

static void print_place(FILE *out, const struct load *load, unsigned j)
{
    struct place_w largest = largest_w(load, j);
    fprintf(out, "place %u W %lu row %u of", j, (unsigned long)largest.w, largest.row);
    for (unsigned row = 1; row <= load->row_count; row++) {
        if (is_free(row_of(load, row), j + 1))
            fprintf(out, " %lu", (unsigned long)w_of(load, row, j));
        else
            fputs(" -", out);
    }
    fputc('\n', out);
}

void print_terms(FILE *out, const uint8_t *bytes, size_t length)
{
    struct load load;
    enum refusal refusal = read_load(bytes, length, &load);
    if (refusal != ACCEPTED) {
        fprintf(out, "refused %d\n", (int)refusal);
        return;
    }
    fprintf(out, "costs %lu\nphase %lu\nembedded %lu\n", (unsigned long)all_costs(&load),
            (unsigned long)largest_phase(&load), (unsigned long)all_embedded_waits(&load));
    for (unsigned j = 1; has_place(&load, j); j++)
        print_place(out, &load, j);
}
