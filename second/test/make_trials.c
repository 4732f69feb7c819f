/* Writes the questions of the trials, always the same bytes.
   Usage: make_trials TRIALS FILE_TRIALS LOAD...
   The first two are the files that the two streams go to. Each LOAD is a file of rows in the
   notation, asked first and, for its blames, again later; the counts of questions by letter, a line
   for each stream, and of loads by kind go to standard error. */
#include "notation.h"
#include "questions.h"

enum { SEED = 20260111 };

static bool read_rows(const char *name, struct asked_file *file)
{
    FILE *text = fopen(name, "r");
    if (text == NULL)
        return false;
    unsigned long line = write_notation(text, VERSION_1, file->bytes, sizeof file->bytes,
                                        &file->length);
    fclose(text);
    return line == 0;
}

static void ask_lent_files(struct asking *asking)
{
    ask_sound_loads(asking);
    ask_damaged_files(asking);
    ask_factory_files(asking);
    ask_versions(asking);
    ask_urgent(asking);
    ask_twins(asking);
    ask_moves(asking);
    ask_refused_files(asking);
    ask_shapes(asking);
    ask_any_shapes(asking);
    ask_full_clocks(asking);
    ask_all_alterations(asking);
    ask_altered_lists(asking);
    ask_edge_lists(asking);
    ask_exact_lists(asking);
}

static void ask_lent_loads(struct asking *asking)
{
    asking->in_memory = true;
    ask_loads_in_memory(asking);
    ask_schedules(asking);
    ask_moves(asking);
    ask_shapes(asking);
    ask_full_clocks(asking);
    ask_altered_lists(asking);
    ask_faulty_loads(asking);
    ask_rooms(asking);
    ask_factory_loads(asking);
    ask_urgent_moves_in_memory(asking);
    ask_urgent_loads(asking);
    ask_urgent_files(asking);
}

/* Asks of each load in turn; the last of them stays in `file`. */
static bool ask_each(struct asking *asking, char **names, struct asked_file *file,
                     void (*ask)(struct asking *, const struct asked_file *))
{
    for (; *names != NULL; names++) {
        if (!read_rows(*names, file)) {
            fprintf(stderr, "make_trials: %s cannot be read as rows\n", *names);
            return false;
        }
        ask(asking, file);
    }
    return true;
}

/* What is asked in the stream of files alone. */
static void ask_files_and_sheets(struct asking *asking)
{
    ask_checks_of_refused_files(asking);
    ask_sheets(asking);
    ask_damaged_sheets(asking);
    ask_exports(asking);
    ask_factory_exports(asking);
    ask_urgent_exports(asking);
}

/* Both streams end with a question that is cut short. */
static bool ask_everything(struct asking *asking, char **names)
{
    struct asked_file file = {0};
    if (!ask_each(asking, names, &file, ask_all_of_file))
        return false;
    ask_lent_files(asking);
    ask_lent_loads(asking);
    if (!ask_each(asking, names, &file, ask_blame))
        return false;
    ask_blames(asking);
    ask_places_in_memory(asking);
    ask_factory_places(asking);
    ask_urgent_places(asking);
    ask_files_and_sheets(asking);
    ask_halves(asking, &file);
    return true;
}

static void print_letters(const struct asking *asking, const char *letters)
{
    for (const char *letter = letters; *letter != '\0'; letter++)
        fprintf(stderr, "%s%c %lu", letter == letters ? "" : " ", *letter,
                asking->asked[(unsigned char)*letter]);
    fputc('\n', stderr);
}

static void print_counts(const struct asking *asking)
{
    print_letters(asking, "FMNBPp");
    print_letters(asking, "CDWwVvSsREe");
    fprintf(stderr, "rows tie %lu\nplaces tie %lu\nthe cut decides %lu\njust outweighed %lu\n",
            asking->row_ties, asking->place_ties, asking->cuts, asking->outweighed);
    fprintf(stderr, "the class decides %lu\nclass and plan decide %lu\na move by class %lu\n",
            asking->class_turns, asking->class_and_plan_turns, asking->class_moves);
}

int main(int count, char **words)
{
    struct asking asking = {.dice = {UINT64_C(0x9E3779B97F4A7C15) ^ SEED}};
    if (count < 4)
        return 2;
    asking.bench_stream = fopen(words[1], "wb");
    asking.file_stream = fopen(words[2], "wb");
    if (asking.bench_stream == NULL || asking.file_stream == NULL
        || !ask_everything(&asking, words + 3))
        return 2;
    print_counts(&asking);
    bool written = fclose(asking.bench_stream) == 0;
    return fclose(asking.file_stream) == 0 && written ? 0 : 2;
}
