#include "trials.h"

#include "answered.h"
#include "file_trials.h"
#include "load_file.h"
#include "report.h"

static bool answer_file(FILE *questions, FILE *answers,
                        void (*print)(FILE *, const uint8_t *, size_t))
{
    struct asked_file file;
    if (!take_asked_file(questions, &file))
        return false;
    print(answers, file.bytes, file.length);
    return true;
}

/* So many lines as the file gives, and a line that says where they end. */
static bool answer_lines(FILE *questions, FILE *answers,
                         void (*print)(FILE *, const uint8_t *, size_t))
{
    bool good = answer_file(questions, answers, print);
    if (good)
        fputs(".\n", answers);
    return good;
}

static bool answer_places_in_memory(FILE *questions, FILE *answers)
{
    struct load load;
    if (!take_asked_load(questions, &load))
        return false;
    print_places_of(answers, &load);
    return true;
}

static bool answer_move(FILE *questions, FILE *answers)
{
    struct asked_file file;
    struct bench state;
    struct load load;
    if (!take_asked_file(questions, &file) || !take_asked_state(questions, &state))
        return false;
    enum refusal refusal = read_load(file.bytes, file.length, &load);
    if (refusal != ACCEPTED)
        fprintf(answers, "refused %d\n", (int)refusal);
    else
        print_move_of(answers, &load, state);
    return true;
}

static bool answer_move_in_memory(FILE *questions, FILE *answers)
{
    struct load load;
    struct bench state;
    if (!take_asked_load(questions, &load) || !take_asked_state(questions, &state))
        return false;
    print_move_of(answers, &load, state);
    return true;
}

static bool answer_question(int letter, FILE *questions, FILE *answers)
{
    switch (letter) {
    case 'F': return answer_lines(questions, answers, print_report);
    case 'B': return answer_lines(questions, answers, print_blame);
    case 'P': return answer_file(questions, answers, print_places);
    case 'p': return answer_places_in_memory(questions, answers);
    case 'M': return answer_move(questions, answers);
    case 'N': return answer_move_in_memory(questions, answers);
    default: return answer_file_question(letter, questions, answers);
    }
}

void answer_trials(FILE *questions, FILE *answers)
{
    bool good = true;
    for (int letter; good && (letter = fgetc(questions)) != EOF;) {
        good = answer_question(letter, questions, answers);
        if (!good)
            fputs("bad\n", answers);
    }
}
