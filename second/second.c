/* The second program of the reading bench: loads in, answers out, to be compared. */
#include <stdio.h>
#include <string.h>

#include "conversion.h"
#include "lent.h"
#include "report.h"
#include "trials.h"
#include "values.h"

static const char HELP[] =
    "second report            a load file on standard input: prints its report\n"
    "second blame             a load file on standard input: prints its report, and behind each\n"
    "                         row line the place and the row that are to blame for its bound\n"
    "second answers FILE...   a line for each load file: its number, and where it is 0\n"
    "                         bound N verdict yes|no margins N... end N slots START,ROW,STEP...\n"
    "second values            a load file on standard input: its records in hex and every number\n"
    "second terms             a load file on standard input: the bound's terms, with every W\n"
    "second schedule          a load file on standard input: writes its schedule file\n"
    "second check FILE        `slot START ROW STEP` lines on standard input: prints the number\n"
    "                         the check gives them against the load file, 0 for yes\n"
    "second move FILE         a state on standard input, CLOCK and then FINISHED END OPENING for\n"
    "                         each row (numbers not there are 0): prints the move and the state\n"
    "second answer-trials     questions on standard input (trials.h): prints their answers\n"
    "second load [-2]         rows as text on standard input: writes a load file, unchecked, of\n"
    "                         version 1, or with -2 of version 2\n"
    "second load-of-sheet     a route sheet on standard input: writes its load file\n"
    "second sheet-of-load     a load file on standard input: writes its route sheet\n"
    "\n"
    "These two write nothing for what is refused: `refused N` stands on standard error, and the\n"
    "exit status is 1. A load with a class has no sheet (22). A route sheet has a line a step,\n"
    "each with CR LF:\n"
    "    ID,BOX,PHASE,DEADLINE,COST,WAIT,LIMIT\n"
    "The limit stands on a window's first step, - on its other steps, nothing elsewhere.\n"
    "\n"
    "A row as text, one line each:\n"
    "    ID BOX PHASE DEADLINE : COST wWAIT COST ... : FIRST-LAST<=LIMIT ... : CLASS HEAD\n"
    "A wait not written is 0; without the third colon class and head are 0 and 1, and without\n"
    "windows and a third colon the second may be left out too. Another class or head can stand\n"
    "in version 2 alone. Empty lines and lines that begin with # are skipped. Any number that\n"
    "fits its field's bytes is written, so faulty files can be made. Load B:\n"
    "    101 201 0 1000000 : 2 w4 2 : 1-2<=8\n"
    "    102 202 0 1000000 : 3\n"
    "    103 203 0 1000000 : 2 w1 1 : 1-2<=6\n";

static bool take_file(const char *name, struct load_input *input)
{
    FILE *file = fopen(name, "rb");
    if (file == NULL)
        return false;
    take_input(file, input);
    fclose(file);
    return true;
}

static int print_of_input(void (*print)(FILE *, const uint8_t *, size_t))
{
    struct load_input input;
    take_input(stdin, &input);
    print(stdout, input.bytes, input.length);
    return GOOD;
}

static int answer_files(int count, char **names)
{
    struct load_input input;
    for (int at = 0; at < count; at++) {
        if (!take_file(names[at], &input))
            return cannot("a load file cannot be opened");
        print_answers(stdout, input.bytes, input.length);
    }
    return GOOD;
}

/* One slot more than any load has steps: a longer list has another count all the same. */
static int check_slot_lines(const struct load_input *input)
{
    struct load load;
    struct slot slots[MOST_SLOTS + 1];
    int count = read_slots(stdin, slots, MOST_SLOTS + 1);
    if (count < 0)
        return cannot("a slot line is not START ROW STEP");
    enum refusal refusal = read_load(input->bytes, input->length, &load);
    if (refusal == ACCEPTED)
        refusal = check_schedule(&load, slots, (size_t)count);
    printf("%d\n", (int)refusal);
    return GOOD;
}

static int move_lent_state(const struct load_input *input)
{
    struct load load;
    struct bench state;
    if (!read_state(stdin, &state))
        return cannot("the state is not CLOCK and FINISHED END OPENING for each row");
    struct move move = {.refusal = read_load(input->bytes, input->length, &load),
                        .state = state};
    if (move.refusal == ACCEPTED)
        move = move_of(&load, state);
    print_move(stdout, &move);
    return GOOD;
}

static int answer_input_trials(void)
{
    answer_trials(stdin, stdout);
    return GOOD;
}

static int with_load_file(const char *name, int (*command)(const struct load_input *))
{
    struct load_input input;
    if (!take_file(name, &input))
        return cannot("the load file cannot be opened");
    return command(&input);
}

static int answer(int count, char **words)
{
    const char *command = count < 2 ? "" : words[1];
    if (count == 2 && strcmp(command, "report") == 0)
        return print_of_input(print_report);
    if (count == 2 && strcmp(command, "blame") == 0)
        return print_of_input(print_blame);
    if (count == 2 && strcmp(command, "values") == 0)
        return print_of_input(print_values);
    if (count == 2 && strcmp(command, "terms") == 0)
        return print_of_input(print_terms);
    if (count == 2 && strcmp(command, "schedule") == 0)
        return write_schedule_of_load(stdin, stdout);
    if (count == 2 && strcmp(command, "answer-trials") == 0)
        return answer_input_trials();
    if (count == 2 && strcmp(command, "load") == 0)
        return write_load_of_text(stdin, VERSION_1, stdout);
    if (count == 3 && strcmp(command, "load") == 0 && strcmp(words[2], "-2") == 0)
        return write_load_of_text(stdin, VERSION_2, stdout);
    if (count == 2 && strcmp(command, "load-of-sheet") == 0)
        return write_load_of_sheet(stdin, stdout);
    if (count == 2 && strcmp(command, "sheet-of-load") == 0)
        return write_sheet_of_load(stdin, stdout);
    if (count == 3 && strcmp(command, "check") == 0)
        return with_load_file(words[2], check_slot_lines);
    if (count == 3 && strcmp(command, "move") == 0)
        return with_load_file(words[2], move_lent_state);
    if (count >= 2 && strcmp(command, "answers") == 0)
        return answer_files(count - 2, words + 2);
    bool asked = strcmp(command, "--help") == 0;
    fputs(HELP, asked ? stdout : stderr);
    return asked ? GOOD : CANNOT;
}

/* What is printed is kept back until the end: only then is it known whether it could be written. */
int main(int count, char **words)
{
    int status = answer(count, words);
    if (fflush(stdout) != 0 || ferror(stdout) != 0) {
        perror("second: standard output");
        return CANNOT;
    }
    return status;
}
