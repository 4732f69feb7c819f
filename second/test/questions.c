#include "questions.h"

#include <string.h>

#include "question_parts.h"

enum { MEMORY_SHARE = 24 };

static const char FILE_LETTERS[] = "CDWwVvSsREe";

struct asked_file file_of(const struct load *load)
{
    struct asked_file file = {0};
    file.length = (size_t)(put_load(file.bytes, load) - file.bytes);
    return file;
}

struct asked_file file_in(enum version version, const struct load *load)
{
    struct asked_file file = {0};
    file.length = (size_t)(put_load_in(file.bytes, version, load) - file.bytes);
    return file;
}

struct asked_slots slots_of(const struct load *load)
{
    struct run run = run_of(load);
    struct asked_slots list = {.count = run.slot_count};
    for (size_t place = 0; place < list.count; place++)
        list.slots[place] = run.slots[place];
    return list;
}

unsigned share_of(const struct asking *asking, unsigned count)
{
    return asking->in_memory ? (count + MEMORY_SHARE - 1) / MEMORY_SHARE : count;
}

/* Counts a question and begins it in its stream. */
static void begin(struct asking *asking, char letter)
{
    asking->asked[(unsigned char)letter]++;
    asking->out = strchr(FILE_LETTERS, letter) != NULL ? asking->file_stream
                                                       : asking->bench_stream;
    write_1(asking->out, (unsigned char)letter);
}

static void begin_with_file(struct asking *asking, char letter, const struct asked_file *file)
{
    begin(asking, letter);
    write_file(asking->out, file);
}

static void begin_with_load(struct asking *asking, char letter, const struct load *load)
{
    begin(asking, letter);
    write_load_places(asking->out, load);
}

void ask_report(struct asking *asking, const struct asked_file *file)
{
    begin_with_file(asking, 'F', file);
}

void ask_blame(struct asking *asking, const struct asked_file *file)
{
    begin_with_file(asking, 'B', file);
    begin_with_file(asking, 'P', file);
}

void ask_places(struct asking *asking, const struct load *load)
{
    begin_with_load(asking, 'p', load);
}

void ask_move(struct asking *asking, const struct asked_file *file, const struct bench *state)
{
    begin_with_file(asking, 'M', file);
    write_state(asking->out, state);
}

void ask_check(struct asking *asking, const struct asked_file *file,
               const struct asked_slots *list)
{
    begin_with_file(asking, 'C', file);
    write_slots(asking->out, list);
}

void ask_load(struct asking *asking, const struct load *load)
{
    begin_with_load(asking, 'W', load);
}

void ask_schedule(struct asking *asking, const struct asked_slots *list)
{
    begin(asking, 'S');
    write_slots(asking->out, list);
}

static void ask_in_room(struct asking *asking, char letter, size_t room, const struct load *load)
{
    begin(asking, letter);
    write_2(asking->out, (unsigned)room);
    write_load_places(asking->out, load);
}

void ask_load_in_room(struct asking *asking, size_t room, const struct load *load)
{
    ask_in_room(asking, 'w', room, load);
}

void ask_version_2(struct asking *asking, const struct load *load)
{
    begin_with_load(asking, 'V', load);
}

void ask_version_2_in_room(struct asking *asking, size_t room, const struct load *load)
{
    ask_in_room(asking, 'v', room, load);
}

void ask_schedule_in_room(struct asking *asking, size_t room, const struct asked_slots *list)
{
    begin(asking, 's');
    write_2(asking->out, (unsigned)room);
    write_slots(asking->out, list);
}

void ask_sheet(struct asking *asking, const struct asked_sheet *sheet)
{
    begin(asking, 'R');
    write_2(asking->out, (unsigned)sheet->length);
    fwrite(sheet->bytes, 1, sheet->length, asking->out);
}

void ask_export(struct asking *asking, const struct load *load)
{
    begin_with_load(asking, 'E', load);
}

void ask_export_in_room(struct asking *asking, size_t room, const struct load *load)
{
    ask_in_room(asking, 'e', room, load);
}

/* The letter for a load's file or the one for the load in memory; then what is lent. */
static void begin_with_lent(struct asking *asking, char of_file, char in_memory,
                            const struct load *load)
{
    if (asking->in_memory) {
        begin_with_load(asking, in_memory, load);
        return;
    }
    struct asked_file file = file_of(load);
    begin_with_file(asking, of_file, &file);
}

void ask_move_of(struct asking *asking, const struct load *load, const struct bench *state)
{
    begin_with_lent(asking, 'M', 'N', load);
    write_state(asking->out, state);
}

void ask_check_of(struct asking *asking, const struct load *load, const struct asked_slots *list)
{
    begin_with_lent(asking, 'C', 'D', load);
    write_slots(asking->out, list);
}

void ask_halves(struct asking *asking, const struct asked_file *file)
{
    begin_with_file(asking, 'M', file);
    write_4(asking->out, 0);
    write_1(asking->out, 0);
    begin_with_file(asking, 'C', file);
    write_2(asking->out, 1);
    write_1(asking->out, 1);
}
