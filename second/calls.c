#include "calls.h"

#include "bound.h"
#include "little_endian.h"
#include "load_file.h"
#include "schedule.h"

uint32_t second_bound(const uint8_t *load, size_t load_len, uint8_t *out, size_t out_len)
{
    struct load read;
    uint32_t bound;
    enum refusal refusal = read_load(load, load_len, &read);
    if (refusal == ACCEPTED)
        refusal = bound_of(&read, &bound);
    if (refusal == ACCEPTED && out_len < BOUND_BYTES)
        refusal = OUTPUT_SHORT;
    if (refusal == ACCEPTED)
        put_4(out, bound);
    return refusal;
}

uint32_t second_margins(const uint8_t *load, size_t load_len, uint8_t *out, size_t out_len)
{
    struct load read;
    int32_t margins[MOST_ROWS];
    enum refusal refusal = read_load(load, load_len, &read);
    if (refusal == ACCEPTED)
        refusal = margins_of(&read, margins);
    if (refusal == ACCEPTED && out_len < MARGINS_BYTES)
        refusal = OUTPUT_SHORT;
    for (unsigned row = 1; refusal == ACCEPTED && row <= MOST_ROWS; row++)
        out = put_4(out, (uint32_t)margins[row - 1]);
    return refusal;
}

uint32_t second_verdict(const uint8_t *load, size_t load_len, uint8_t *out, size_t out_len)
{
    struct load read;
    bool yes;
    enum refusal refusal = read_load(load, load_len, &read);
    if (refusal == ACCEPTED)
        refusal = verdict_of(&read, &yes);
    if (refusal == ACCEPTED && out_len < VERDICT_BYTES)
        refusal = OUTPUT_SHORT;
    if (refusal == ACCEPTED)
        put_1(out, yes ? 1 : 0);
    return refusal;
}

uint32_t second_schedule(const uint8_t *load, size_t load_len, uint8_t *out, size_t out_len)
{
    struct load read;
    size_t written;
    enum refusal refusal = read_load(load, load_len, &read);
    if (refusal != ACCEPTED)
        return refusal;
    struct run run = run_of(&read);
    if (run.refusal != ACCEPTED)
        return run.refusal;
    return write_schedule(run.slots, run.slot_count, out, out_len, &written);
}
