/* Questions of the trials (trials.h), written into their stream and counted. */
#ifndef QUESTIONS_H
#define QUESTIONS_H

#include "asked.h"
#include "load_file.h"
#include "random_load.h"

enum { LETTERS = 128 };

/* `out` is the stream of the question that is being written, one of the other two. `in_memory` says
   how ask_move_of and ask_check_of lend a load: as it is, or else as its file. `asked` counts the
   questions by their letter, `row_ties` and so on the blamed loads of a kind (blame_kinds.h), and
   `class_turns` and so on the loads and moves with classes that show them (class_kinds.h). */
struct asking {
    FILE *bench_stream, *file_stream, *out;
    struct dice dice;
    bool in_memory;
    unsigned long asked[LETTERS];
    unsigned long row_ties, place_ties, cuts, outweighed;
    unsigned long class_turns, class_and_plan_turns, class_moves;
};

/* Asks something of a load in memory. */
typedef void ask_of_load(struct asking *asking, const struct load *load);

/* Asks something of a load that was made of the one in `lent`. */
struct lent;
typedef void ask_lent(struct asking *asking, const struct lent *lent, const struct load *load);

/* A load's records, unchecked; its counts fit its places. Without a version it is the lowest that
   carries all of the load. */
struct asked_file file_of(const struct load *load);
struct asked_file file_in(enum version version, const struct load *load);

/* A list as the check takes it: the slots of a load's run. */
struct asked_slots slots_of(const struct load *load);

/* All of so many questions; in memory, where each is long, one in 24 of them, and at least one. */
unsigned share_of(const struct asking *asking, unsigned count);

/* A file with one to three faults of a random load, which may cancel out; `times` says what else is
   wrong with it, and is counted up by whoever asks for many. */
struct asked_file spoiled_file(struct dice *dice, unsigned times);

void ask_report(struct asking *asking, const struct asked_file *file);
void ask_move(struct asking *asking, const struct asked_file *file, const struct bench *state);
void ask_check(struct asking *asking, const struct asked_file *file,
               const struct asked_slots *list);
void ask_load(struct asking *asking, const struct load *load);

/* B and P. */
void ask_blame(struct asking *asking, const struct asked_file *file);

/* p. */
void ask_places(struct asking *asking, const struct load *load);

void ask_schedule(struct asking *asking, const struct asked_slots *list);
void ask_load_in_room(struct asking *asking, size_t room, const struct load *load);
void ask_schedule_in_room(struct asking *asking, size_t room, const struct asked_slots *list);

/* V and v. */
void ask_version_2(struct asking *asking, const struct load *load);
void ask_version_2_in_room(struct asking *asking, size_t room, const struct load *load);

/* R, E and e. */
void ask_sheet(struct asking *asking, const struct asked_sheet *sheet);
void ask_export(struct asking *asking, const struct load *load);
void ask_export_in_room(struct asking *asking, size_t room, const struct load *load);

/* M or N, and C or D. */
void ask_move_of(struct asking *asking, const struct load *load, const struct bench *state);
void ask_check_of(struct asking *asking, const struct load *load, const struct asked_slots *list);

/* Asks of a sound load made faulty, in 40 ways, one at a time. */
void ask_each_fault(struct asking *asking, ask_lent *ask);

/* Asks of faulty loads: faults at the last places, two faults at once, and faults by chance for
   each number from 3 to 7. */
void ask_faults_in_order(struct asking *asking, ask_of_load *ask);

/* The parts of the streams, in order. The first asks the five questions that a load file has. */
void ask_all_of_file(struct asking *asking, const struct asked_file *file);
void ask_sound_loads(struct asking *asking);
void ask_damaged_files(struct asking *asking);
void ask_factory_files(struct asking *asking);
void ask_versions(struct asking *asking);
void ask_urgent(struct asking *asking);
void ask_twins(struct asking *asking);
void ask_moves(struct asking *asking);
void ask_refused_files(struct asking *asking);
void ask_shapes(struct asking *asking);
void ask_any_shapes(struct asking *asking);
void ask_full_clocks(struct asking *asking);
void ask_all_alterations(struct asking *asking);
void ask_altered_lists(struct asking *asking);
void ask_edge_lists(struct asking *asking);
void ask_exact_lists(struct asking *asking);
void ask_loads_in_memory(struct asking *asking);
void ask_schedules(struct asking *asking);
void ask_faulty_loads(struct asking *asking);
void ask_rooms(struct asking *asking);
void ask_factory_loads(struct asking *asking);
void ask_urgent_moves_in_memory(struct asking *asking);
void ask_urgent_loads(struct asking *asking);
void ask_urgent_files(struct asking *asking);
void ask_blames(struct asking *asking);
void ask_places_in_memory(struct asking *asking);
void ask_factory_places(struct asking *asking);
void ask_urgent_places(struct asking *asking);
void ask_checks_of_refused_files(struct asking *asking);
void ask_sheets(struct asking *asking);
void ask_damaged_sheets(struct asking *asking);
void ask_exports(struct asking *asking);
void ask_factory_exports(struct asking *asking);
void ask_urgent_exports(struct asking *asking);

/* Questions that stop in the middle of a state and of a list; the last of their streams. */
void ask_halves(struct asking *asking, const struct asked_file *file);

#endif
