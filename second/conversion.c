#include "conversion.h"

#include "notation.h"
#include "schedule.h"
#include "sheet.h"

enum { NOTATION_ROOM = 1 << 18, SHEET_ROOM = 1 << 16 };

void take_input(FILE *file, struct load_input *input)
{
    input->length = fread(input->bytes, 1, sizeof input->bytes, file);
}

int cannot(const char *what)
{
    fprintf(stderr, "second: %s\n", what);
    return CANNOT;
}

static int refused(enum refusal refusal, int status)
{
    fprintf(stderr, "refused %d\n", (int)refusal);
    return status;
}

int write_load_of_text(FILE *text, enum version version, FILE *load)
{
    uint8_t bytes[NOTATION_ROOM];
    size_t written;
    unsigned long line = write_notation(text, version, bytes, sizeof bytes, &written);
    if (line != 0) {
        fprintf(stderr, "second: line %lu is not a row in the notation\n", line);
        return CANNOT;
    }
    fwrite(bytes, 1, written, load);
    return GOOD;
}

int write_load_of_sheet(FILE *sheet, FILE *load)
{
    uint8_t lines[SHEET_ROOM + 1];
    uint8_t bytes[MOST_LOAD_BYTES];
    struct load read;
    size_t written;
    size_t length = fread(lines, 1, sizeof lines, sheet);
    if (length > SHEET_ROOM)
        return cannot("the sheet has more than 65,536 bytes");
    enum refusal refusal = read_sheet(lines, length, &read);
    if (refusal == ACCEPTED)
        refusal = write_version_1(&read, bytes, sizeof bytes, &written);
    if (refusal != ACCEPTED)
        return refused(refusal, REFUSED);
    fwrite(bytes, 1, written, load);
    return GOOD;
}

int write_sheet_of_load(FILE *load, FILE *sheet)
{
    struct load_input input;
    uint8_t lines[MOST_SHEET_BYTES];
    struct load read;
    size_t written;
    take_input(load, &input);
    enum refusal refusal = read_load(input.bytes, input.length, &read);
    if (refusal == ACCEPTED)
        refusal = write_sheet(&read, lines, sizeof lines, &written);
    if (refusal != ACCEPTED)
        return refused(refusal, REFUSED);
    fwrite(lines, 1, written, sheet);
    return GOOD;
}

int write_schedule_of_load(FILE *load, FILE *schedule)
{
    struct load_input input;
    uint8_t bytes[MOST_SCHEDULE_BYTES];
    struct load read;
    size_t written;
    take_input(load, &input);
    enum refusal refusal = read_load(input.bytes, input.length, &read);
    if (refusal != ACCEPTED)
        return refused(refusal, CANNOT);
    struct run run = run_of(&read);
    refusal = write_schedule(run.slots, run.slot_count, bytes, sizeof bytes, &written);
    if (refusal != ACCEPTED)
        return refused(refusal, CANNOT);
    fwrite(bytes, 1, written, schedule);
    return GOOD;
}
