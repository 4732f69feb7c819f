#include "file_trials.h"

#include "answered.h"
#include "load_file.h"
#include "sheet.h"

static bool answer_check(FILE *questions, FILE *answers)
{
    struct asked_file file;
    struct asked_slots list;
    struct load load;
    if (!take_asked_file(questions, &file) || !take_asked_slots(questions, &list))
        return false;
    enum refusal refusal = read_load(file.bytes, file.length, &load);
    if (refusal != ACCEPTED)
        fprintf(answers, "refused %d\n", (int)refusal);
    else
        print_check_of(answers, &load, &list);
    return true;
}

static bool answer_check_in_memory(FILE *questions, FILE *answers)
{
    struct load load;
    struct asked_slots list;
    if (!take_asked_load(questions, &load) || !take_asked_slots(questions, &list))
        return false;
    print_check_of(answers, &load, &list);
    return true;
}

/* A version's writing call. */
typedef enum refusal write_call(const struct load *load, uint8_t *bytes, size_t room,
                                size_t *written);

static bool answer_load(FILE *questions, FILE *answers, const char *what, write_call *write)
{
    uint8_t bytes[MOST_LOAD_BYTES];
    size_t written;
    struct load load;
    if (!take_asked_load(questions, &load))
        return false;
    enum refusal refusal = write(&load, bytes, sizeof bytes, &written);
    print_written(answers, what, refusal, bytes, written);
    return true;
}

static bool answer_load_in_room(FILE *questions, FILE *answers, const char *what,
                                write_call *write)
{
    size_t written;
    struct asked_room room;
    struct load load;
    if (!take_asked_room(questions, MOST_ASKED_ROOM, &room) || !take_asked_load(questions, &load))
        return false;
    enum refusal refusal = write(&load, room.bytes, room.length, &written);
    print_written(answers, what, refusal, room.bytes, room.length);
    return true;
}

static bool answer_schedule(FILE *questions, FILE *answers)
{
    uint8_t bytes[MOST_SCHEDULE_BYTES];
    size_t written;
    struct asked_slots list;
    if (!take_asked_slots(questions, &list))
        return false;
    enum refusal refusal = write_schedule(list.slots, list.count, bytes, sizeof bytes, &written);
    print_written(answers, "schedule", refusal, bytes, written);
    return true;
}

static bool answer_schedule_in_room(FILE *questions, FILE *answers)
{
    size_t written;
    struct asked_room room;
    struct asked_slots list;
    if (!take_asked_room(questions, MOST_ASKED_ROOM, &room) || !take_asked_slots(questions, &list))
        return false;
    enum refusal refusal = write_schedule(list.slots, list.count, room.bytes, room.length,
                                          &written);
    print_written(answers, "schedule", refusal, room.bytes, room.length);
    return true;
}

/* The load is answered as the file that is written of it; one that a file refuses would have none,
   since the number is the sheet's alone. */
static bool answer_sheet(FILE *questions, FILE *answers)
{
    uint8_t bytes[MOST_LOAD_BYTES];
    size_t written;
    struct asked_sheet sheet;
    struct load load;
    if (!take_asked_sheet(questions, &sheet))
        return false;
    enum refusal refusal = read_sheet(sheet.bytes, sheet.length, &load);
    write_version_1(&load, bytes, sizeof bytes, &written);
    print_written(answers, "sheet", refusal, bytes, written);
    return true;
}

static bool answer_export(FILE *questions, FILE *answers)
{
    uint8_t bytes[MOST_SHEET_BYTES];
    size_t written;
    struct load load;
    if (!take_asked_load(questions, &load))
        return false;
    enum refusal refusal = write_sheet(&load, bytes, sizeof bytes, &written);
    print_written(answers, "export", refusal, bytes, written);
    return true;
}

static bool answer_export_in_room(FILE *questions, FILE *answers)
{
    size_t written;
    struct asked_room room;
    struct load load;
    if (!take_asked_room(questions, MOST_SHEET_ROOM, &room) || !take_asked_load(questions, &load))
        return false;
    enum refusal refusal = write_sheet(&load, room.bytes, room.length, &written);
    print_room(answers, "export", refusal, written, &room);
    return true;
}

bool answer_file_question(int letter, FILE *questions, FILE *answers)
{
    switch (letter) {
    case 'C': return answer_check(questions, answers);
    case 'D': return answer_check_in_memory(questions, answers);
    case 'W': return answer_load(questions, answers, "load", write_version_1);
    case 'w': return answer_load_in_room(questions, answers, "load", write_version_1);
    case 'V': return answer_load(questions, answers, "load2", write_version_2);
    case 'v': return answer_load_in_room(questions, answers, "load2", write_version_2);
    case 'S': return answer_schedule(questions, answers);
    case 's': return answer_schedule_in_room(questions, answers);
    case 'R': return answer_sheet(questions, answers);
    case 'E': return answer_export(questions, answers);
    case 'e': return answer_export_in_room(questions, answers);
    default: return false;
    }
}
