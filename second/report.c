#include "report.h"

#include "bench.h"
#include "bound.h"

/* Everything the program computes for a load. */
struct answers {
    struct load load;
    uint32_t bound;
    bool verdict;
    int32_t margins[MOST_ROWS];
    struct blame blames[MOST_ROWS];
    struct run run;
};

static enum refusal answers_of(const uint8_t *bytes, size_t length, struct answers *answers)
{
    enum refusal refusal = read_load(bytes, length, &answers->load);
    if (refusal == ACCEPTED)
        refusal = bound_of(&answers->load, &answers->bound);
    if (refusal == ACCEPTED)
        refusal = margins_of(&answers->load, answers->margins);
    if (refusal == ACCEPTED)
        refusal = blames_of(&answers->load, answers->blames);
    if (refusal == ACCEPTED)
        refusal = verdict_of(&answers->load, &answers->verdict);
    if (refusal == ACCEPTED) {
        answers->run = run_of(&answers->load);
        refusal = answers->run.refusal;
    }
    return refusal;
}

static const char *word_of(bool verdict)
{
    return verdict ? "yes" : "no";
}

static void print_load_line(FILE *out, const struct answers *answers)
{
    fprintf(out, "load %u %u %lu %lu %s\n", answers->load.row_count, steps_of(&answers->load),
            (unsigned long)answers->run.end, (unsigned long)answers->bound,
            word_of(answers->verdict));
}

static void print_row_line(FILE *out, const struct answers *answers, unsigned row, bool blaming)
{
    const struct row *line = row_of(&answers->load, row);
    const struct blame *blame = &answers->blames[row - 1];
    fprintf(out, "row %u %lu %lu %ld", row, (unsigned long)line->identifier.number,
            (unsigned long)line->box.number, (long)answers->margins[row - 1]);
    if (blaming)
        fprintf(out, " %u %u", blame->place, blame->row);
    fputc('\n', out);
}

static void print_row_lines(FILE *out, const struct answers *answers, bool blaming)
{
    for (unsigned row = 1; row <= answers->load.row_count; row++)
        print_row_line(out, answers, row, blaming);
}

static void print_slot_lines(FILE *out, const struct run *run)
{
    for (unsigned place = 0; place < run->slot_count; place++) {
        const struct slot *slot = &run->slots[place];
        fprintf(out, "slot %lu %u %u\n", (unsigned long)slot->start, slot->row, slot->step);
    }
}

static void print_lines(FILE *out, const uint8_t *bytes, size_t length, bool blaming)
{
    struct answers answers = {0};
    enum refusal refusal = answers_of(bytes, length, &answers);
    if (refusal != ACCEPTED) {
        fprintf(out, "refused %d\n", (int)refusal);
        return;
    }
    print_load_line(out, &answers);
    print_row_lines(out, &answers, blaming);
    print_slot_lines(out, &answers.run);
}

void print_report(FILE *out, const uint8_t *bytes, size_t length)
{
    print_lines(out, bytes, length, false);
}

void print_blame(FILE *out, const uint8_t *bytes, size_t length)
{
    print_lines(out, bytes, length, true);
}

static void print_margins(FILE *out, const struct answers *answers)
{
    fputs(" margins", out);
    for (unsigned row = 1; row <= answers->load.row_count; row++)
        fprintf(out, " %ld", (long)answers->margins[row - 1]);
}

static void print_slots(FILE *out, const struct run *run)
{
    fputs(" slots", out);
    for (unsigned place = 0; place < run->slot_count; place++) {
        const struct slot *slot = &run->slots[place];
        fprintf(out, " %lu,%u,%u", (unsigned long)slot->start, slot->row, slot->step);
    }
}

void print_answers(FILE *out, const uint8_t *bytes, size_t length)
{
    struct answers answers = {0};
    enum refusal refusal = answers_of(bytes, length, &answers);
    fprintf(out, "%d", (int)refusal);
    if (refusal == ACCEPTED) {
        fprintf(out, " bound %lu verdict %s", (unsigned long)answers.bound,
                word_of(answers.verdict));
        print_margins(out, &answers);
        fprintf(out, " end %lu", (unsigned long)answers.run.end);
        print_slots(out, &answers.run);
    }
    fputc('\n', out);
}
