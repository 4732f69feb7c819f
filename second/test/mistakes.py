#!/usr/bin/env python3
"""Makes mistakes in copies of the program, one at a time: the trials must notice each.

Usage: mistakes.py TRIALS FILE_TRIALS [WORD]
The first two are folders with stdin and stdout; one of them must notice. The mistakes are those of
document 01's list, and for each rule the ones next to it: an end taken as strict, a clause left
out, an order turned round. With WORD, only those whose line has it.
"""
import os
import resource
import shutil
import subprocess
import sys
import tempfile

sys.dont_write_bytecode = True
from factory_mistakes import FACTORY_MISTAKES
from sheet_mistakes import SHEET_MISTAKES
from urgent_mistakes import URGENT_MISTAKES

HERE = os.path.dirname(os.path.dirname(os.path.abspath(__file__)))
PARTS = ("load load_file plain load_writing sheet_line sheet waits bound plan lamps candidates"
         " bench schedule report notation lent values conversion asked answered file_trials trials"
         " calls second")
MOST_SECONDS = 10
PART_BYTES = 1 << 16

# What is wrong, the file, the right text (found once), the wrong one.
MISTAKES = [
    ("cost 601 passes", "load.h", "MOST_COST = 600", "MOST_COST = 601"),
    ("cost 600 is refused", "load.h", "MOST_COST = 600", "MOST_COST = 599"),
    ("cost 0 passes", "load.c", "asked->cost < 1 || ", ""),
    ("wait 3,601 passes", "load.h", "MOST_WAIT = 3600", "MOST_WAIT = 3601"),
    ("wait 3,600 is refused", "load.h", "MOST_WAIT = 3600", "MOST_WAIT = 3599"),
    ("a last wait passes", "load.c", "step == row->step_count ? 0 : MOST_WAIT", "MOST_WAIT"),
    ("phase 86,401 passes", "load.h", "MOST_PHASE = 86400", "MOST_PHASE = 86401"),
    ("phase 86,400 is refused", "load.h", "MOST_PHASE = 86400", "MOST_PHASE = 86399"),
    ("deadline 1,000,001 passes", "load.h", "MOST_DEADLINE = 1000000", "MOST_DEADLINE = 1000001"),
    ("deadline 1,000,000 is refused", "load.h",
     "MOST_DEADLINE = 1000000",
     "MOST_DEADLINE = 999999"),
    ("deadline 0 passes", "load.c", "row->deadline >= 1 && ", ""),
    ("identifier 0 passes", "load.c", "row->identifier.number >= 1\n        && ", ""),
    ("box 0 passes", "load.c", "&& row->box.number >= 1\n        ", ""),
    ("no steps pass", "load.c", "row->step_count >= 1 && ", ""),
    ("equal identifiers pass", "load.c",
     "        return IDENTIFIER_TAKEN;",
     "        return ACCEPTED;"),
    ("equal boxes pass", "load.c", "        return BOX_TAKEN;", "        return ACCEPTED;"),
    ("box asked before identifier", "load.c",
     "    if (is_identifier_taken(load, row))\n"
     "        return IDENTIFIER_TAKEN;\n"
     "    if (is_box_taken(load, row))\n"
     "        return BOX_TAKEN;\n",
     "    if (is_box_taken(load, row))\n"
     "        return BOX_TAKEN;\n"
     "    if (is_identifier_taken(load, row))\n"
     "        return IDENTIFIER_TAKEN;\n"),
    ("identifier compared with boxes", "load.c",
     "row_of(load, earlier)->identifier.number == row_of",
     "row_of(load, earlier)->box.number == row_of"),
    ("twins asked of the row before alone", "load.c",
     "unsigned earlier = 1; earlier < row; earlier++)\n        if (row_of(load, earlier)->box",
     "unsigned earlier = row > 1 ? row - 1 : 1; earlier < row; earlier++)\n"
     "        if (row_of(load, earlier)->box"),
    ("windows may share a step", "load.c", "asked->first <= taken;", "asked->first < taken;"),
    ("a window may be one step", "load.c",
     "asked->last <= asked->first",
     "asked->last < asked->first"),
    ("window step 0 is 6", "load.c", "asked->first == 0 || asked->last == 0 || ", ""),
    ("limit 0 is 7", "load.c", " || asked->limit == 0", ""),
    ("a limit at its chain is refused", "load.c",
     "asked->limit < chain_of",
     "asked->limit <= chain_of"),
    ("a limit below its chain passes", "load.c",
     "asked->limit < chain_of",
     "asked->limit + 1u < chain_of"),
    ("a chain without waits", "load.c",
     "chain += (uint32_t)step_of(row, step - 1)->wait + ",
     "chain += "),
    ("unused steps not asked", "load.c",
     "step > row->step_count && !is_step_unused",
     "false && !is_step_unused"),
    ("unused waits not asked", "load.c", "step->cost == 0 && step->wait == 0", "step->cost == 0"),
    ("unused windows not asked", "load.c", "window > row->window_count && !is_w", "false && !is_w"),
    ("unused limits not asked", "load.c", " && window->limit == 0;", ";"),
    ("unused lasts not asked", "load.c", " && window->last == 0 && window", " && window"),
    ("unused rows not asked", "load.c", "row > load->row_count && !is_row", "false && !is_row"),
    ("unused phases not asked", "load.c", "row->phase == 0 && ", ""),
    ("unused rows' steps not asked", "load.c", "&& check_steps(row) == ACCEPTED ", ""),
    ("windows asked before steps", "load.c",
     "refusal = check_steps(row_of(load, row));\n"
     "    if (refusal == ACCEPTED)\n"
     "        refusal = check_windows(row_of(load, row));",
     "refusal = check_windows(row_of(load, row));\n"
     "    if (refusal == ACCEPTED)\n"
     "        refusal = check_steps(row_of(load, row));"),
    ("row count 25 in memory passes", "load.c",
     "load->row_count > MOST_ROWS)",
     "load->row_count > 25)"),
    ("marks asked before lengths", "load_file.c",
     "reader->length - reader->at < size",
     "reader->length - reader->at < 2"),
    ("version not asked", "load_file.c",
     "fields[0] != VERSION_1 && fields[0] != VERSION_2",
     "false"),
    ("range asked before version", "load_file.c",
     "    if (fields[0] != VERSION_1 && fields[0] != VERSION_2)\n"
     "        return MARK_DIFFERS;\n"
     "    if (fields[1] > MOST_ROWS)\n"
     "        return OUT_OF_RANGE;\n",
     "    if (fields[1] > MOST_ROWS)\n"
     "        return OUT_OF_RANGE;\n"
     "    if (fields[0] != VERSION_1 && fields[0] != VERSION_2)\n"
     "        return MARK_DIFFERS;\n"),
    ("a mark's first byte alone", "load_file.c",
     "memcmp(record, mark, MARK_BYTES)",
     "memcmp(record, mark, 1)"),
    ("end count not asked", "load_file.c", "get_2(fields) != steps_of(load) || ", ""),
    ("end count by its low byte", "load_file.c",
     "get_2(fields) != steps_of(load)",
     "fields[0] != (steps_of(load) & 0xFF)"),
    ("bytes may follow", "load_file.c", " || reader->at != reader->length", ""),
    ("pairing without step j+1", "waits.c", " || !is_free(row, j + 1))", ")"),
    ("pairing with an embedded step j", "waits.c", "!is_free(row, j) || ", ""),
    ("a window cut in two", "bound.c",
     "while (kept < row->step_count && is_embedded(row, kept + 1))",
     "while (false)"),
    ("nothing cut", "bound.c",
     "cut_load(load, row_of(load, row)->step_count)",
     "cut_load(load, MOST_STEPS)"),
    ("all 2r costs taken", "waits.c", "sum_of(costs, count / 2)", "sum_of(costs, count)"),
    ("the r largest taken", "waits.c",
     "costs[place - 1] > costs[place]",
     "costs[place - 1] < costs[place]"),
    ("the row pairs with itself", "waits.c", "other == i || ", ""),
    ("W only where step j is free", "waits.c",
     "if (is_free(row_of(load, i), j + 1)",
     "if (is_free(row_of(load, i), j) && is_free(row_of(load, i), j + 1)"),
    ("W of embedded waits too", "waits.c",
     "if (is_free(row_of(load, i), j + 1)",
     "if (j < row_of(load, i)->step_count"),
    ("phases added up", "bound.c",
     "if (row_of(load, row)->phase > largest)\n            largest = ",
     "largest += "),
    ("W of the last place left out", "bound.c",
     "j <= MOST_PLACES; j++)\n        sum",
     "j < MOST_PLACES; j++)\n        sum"),
    ("embedded waits left out", "bound.c", " + all_embedded_waits(load)", ""),
    ("all waits added", "bound.c", "if (is_embedded(row, step + 1))", "if (true)"),
    ("margin 0 refused", "bound.c",
     "margins[row - 1] >= 0",
     "(row <= load->row_count ? margins[row - 1] > 0 : true)"),
    ("the first margin decides", "bound.c",
     "row <= MOST_ROWS; row++)\n        *yes",
     "row <= 1; row++)\n        *yes"),
    ("a window shuts before its last step", "bench.c",
     "finished < window->last",
     "finished + 1 < window->last"),
    ("a window opens late", "bench.c", "window->first <= finished", "window->first < finished"),
    ("finished above the steps has shape", "bench.c",
     "progress->finished > row->step_count",
     "progress->finished > row->step_count + 1"),
    ("end above the clock has shape", "bench.c", " || progress->end > clock)", ")"),
    ("end at the clock has none", "bench.c", "progress->end > clock)", "progress->end >= clock)"),
    ("an end with nothing finished has shape", "bench.c",
     "progress->finished == 0 && progress->end != 0",
     "false"),
    ("opening above the end has shape", "bench.c",
     "return progress->opening <= progress->end;",
     "return true;"),
    ("opening at the end has none", "bench.c",
     "progress->opening <= progress->end;",
     "progress->opening < progress->end;"),
    ("an opening with no window has shape", "bench.c",
     "return progress->opening == 0;",
     "return true;"),
    ("unused places not asked of a state", "bench.c",
     ": is_place_unused(progress_of(state, row));",
     ": true;"),
    ("unused ends not asked of a state", "bench.c",
     "progress->finished == 0 && progress->end == 0 && ",
     "progress->finished == 0 && "),
    ("clock 1,000,001 has shape", "bench.c",
     "state->clock > LAST_MOMENT)",
     "state->clock > LAST_MOMENT + 1)"),
    ("clock 1,000,000 has none", "bench.c",
     "state->clock > LAST_MOMENT)",
     "state->clock >= LAST_MOMENT)"),
    ("a wait counted from the start", "candidates.c",
     "progress->end + step_of(row, progress->finished)->wait;",
     "progress->end + step_of(row, progress->finished)->wait - step_of(row, "
     "progress->finished)->cost;"),
    ("ready one tick late", "candidates.c",
     "return clock >= progress->end",
     "return clock > progress->end"),
    ("phases not asked", "candidates.c", "return clock >= row->phase;", "return true;"),
    ("free taken for ready", "candidates.c",
     "is_embedded(row_of(load, slot.row), slot.step)\n"
     "        || is_lower_finished(load, state, slot.step)",
     "true"),
    ("embedded steps wait for all", "candidates.c",
     "return is_embedded(row_of(load, slot.row), slot.step)\n        || ",
     "return "),
    ("a short row holds all others", "candidates.c",
     "steps < step - 1 ? steps : step - 1",
     "step - 1"),
    ("an end at 1,000,000 is no candidate", "candidates.c",
     "end_of(load, slot) <= LAST_MOMENT",
     "end_of(load, slot) < LAST_MOMENT"),
    ("an end past 1,000,000 is one", "candidates.c",
     "\n        && end_of(load, slot) <= LAST_MOMENT",
     ""),
    ("a window opens at its first step's end", "bench.c",
     "progress->opening = slot.start;",
     "progress->opening = state.clock;"),
    ("an opening stays", "bench.c",
     "if (open_window(row, slot.step) == NULL)\n        progress->opening = 0;",
     ""),
    ("by row, then by step", "candidates.c",
     "    if (one->step != other->step)\n"
     "        return one->step < other->step;\n",
     "    if (class == other_class)\n"
     "        return one->row < other->row;\n"
     "    if (one->step != other->step)\n"
     "        return one->step < other->step;\n"),
    ("the last row first", "candidates.c",
     "    return one->row < other->row;\n",
     "    return one->row > other->row;\n"),
    ("no plan", "bench.c",
     "if (passes_plan(load, &at_end)) {",
     "if (passes_plan(load, &at_end) || true) {"),
    ("the first candidate alone is tried", "bench.c",
     "place < count; place++) {",
     "place < count && place < 1; place++) {"),
    ("planned at the candidate's start", "bench.c",
     "struct bench at_end = with_step(load, *state, candidates[place]);",
     "struct bench at_end = *state;"),
    ("lamps of row 1 at bit 1", "lamps.c", "UINT32_C(1) << (row - 1)", "UINT32_C(1) << row"),
    ("one lamp counted", "bench.c",
     "move.lamp_count = ones_of(move.lamps);",
     "move.lamp_count = move.lamps != 0;"),
    ("full before Done", "bench.c",
     "    if (is_all_finished(load, &state))\n"
     "        return (struct move){.outcome = DONE, .state = state};\n"
     "    if (state.clock == LAST_MOMENT)\n"
     "        return (struct move){.refusal = CLOCK_FULL, .state = state};\n",
     "    if (state.clock == LAST_MOMENT)\n"
     "        return (struct move){.refusal = CLOCK_FULL, .state = state};\n"
     "    if (is_all_finished(load, &state))\n"
     "        return (struct move){.outcome = DONE, .state = state};\n"),
    ("full at 999,999", "bench.c",
     "state.clock == LAST_MOMENT)",
     "state.clock >= LAST_MOMENT - 1)"),
    ("idle skips two ticks", "bench.c", "    state.clock++;\n", "    state.clock += 2;\n"),
    ("full before shape", "bench.c",
     "refusal = STATE_SHAPE;",
     "refusal = state.clock == LAST_MOMENT ? CLOCK_FULL : STATE_SHAPE;"),
    ("lamps left on by a refusal", "bench.c",
     "if (move.refusal == ACCEPTED)\n        move.lamps",
     "move.lamps"),
    ("the tightest window alone", "plan.c",
     "place < count; place++) {\n        unsigned row = stack",
     "place < count && place < 1; place++) {\n        unsigned row = stack"),
    ("two windows alone", "plan.c",
     "place < count; place++) {\n        unsigned row = stack",
     "place < count && place < 2; place++) {\n        unsigned row = stack"),
    ("stacked by row", "plan.c",
     "one->due < other->due || (one->due == other->due && one->row < other->row)",
     "one->row < other->row"),
    ("ties by the later row", "plan.c", "one->row < other->row", "one->row > other->row"),
    ("stacked by limit", "plan.c", "progress->opening + window->limit}", "window->limit}"),
    ("finished at its due is late", "plan.c",
     "moment > stack[place].due",
     "moment >= stack[place].due"),
    ("finished one late passes", "plan.c",
     "moment > stack[place].due",
     "moment > stack[place].due + 1"),
    ("own wait not kept in the plan", "plan.c", "later_of(moment, wait_over) + ", "moment + "),
    ("waits inside the plan left out", "plan.c",
     "finish += (uint32_t)step_of(row, step - 1)->wait + ",
     "finish += "),
    ("each window planned by itself", "plan.c",
     "        moment = finish_of(row_of(load, row), progress_of(at_end, row), moment);\n"
     "        if (moment > ",
     "        if (finish_of(row_of(load, row), progress_of(at_end, row), moment) > "),
    ("planned from the later end", "plan.c",
     "uint32_t wait_over = progress->end + step_of",
     "uint32_t wait_over = moment + step_of"),
    ("193 slots written", "schedule.c", "count > MOST_SLOTS)", "count > MOST_SLOTS + 1)"),
    ("192 slots refused", "schedule.c", "count > MOST_SLOTS)", "count >= MOST_SLOTS)"),
    ("slot count not asked", "schedule.c", "count != steps_of(load)", "count > steps_of(load)"),
    ("fewer slots not asked", "schedule.c", "count != steps_of(load)", "count < steps_of(load)"),
    ("a start at 1,000,000 is 13", "schedule.c",
     "slot->start <= LAST_MOMENT;",
     "slot->start < LAST_MOMENT;"),
    ("a start past 1,000,000 passes 13", "schedule.c",
     "slot->start <= LAST_MOMENT;",
     "slot->start <= LAST_MOMENT + 1;"),
    ("an end past 1,000,000 is 13", "schedule.c",
     "slot->start <= LAST_MOMENT;",
     "slot->start + step_of(row_of(load, slot->row), slot->step)->cost <= LAST_MOMENT;"),
    ("any step of the row is next", "schedule.c",
     "slot->step == tracks->rows[slot->row - 1].finished + 1",
     "slot->step > tracks->rows[slot->row - 1].finished"),
    ("a start at the end before overlaps", "schedule.c",
     "slot->start < tracks->reader_end)",
     "slot->start <= tracks->reader_end && tracks->reader_end > 0)"),
    ("overlaps not asked", "schedule.c",
     "        return SLOT_OVERLAPS;",
     "        return ACCEPTED;"),
    ("early asked before overlaps", "schedule.c",
     "    if (slot->start < tracks->reader_end)\n"
     "        return SLOT_OVERLAPS;\n"
     "    if (is_early(row, track, slot))\n"
     "        return SLOT_EARLY;\n",
     "    if (is_early(row, track, slot))\n"
     "        return SLOT_EARLY;\n"
     "    if (slot->start < tracks->reader_end)\n"
     "        return SLOT_OVERLAPS;\n"),
    ("a start at its phase is early", "schedule.c",
     "slot->start < row->phase;",
     "slot->start <= row->phase;"),
    ("phases not asked by the check", "schedule.c",
     "return slot->start < row->phase;",
     "return false;"),
    ("a wait checked from the start", "schedule.c",
     "end_in(row, track, before) + step_of",
     "track->starts[before - 1] + step_of"),
    ("a start when its wait is over is early", "schedule.c",
     "return slot->start < end_in(",
     "return slot->start <= end_in("),
    ("a window ended just in time is late", "schedule.c",
     "return end > track->starts",
     "return end >= track->starts"),
    ("a window ended one late passes", "schedule.c",
     "return end > track->starts",
     "return end > 1 + track->starts"),
    ("windows timed from the first step's end", "schedule.c",
     "track->starts[window->first - 1] + window->limit",
     "end_in(row, track, window->first) + window->limit"),
    ("a row ended just in time is late", "schedule.c",
     "->cost > row->deadline;",
     "->cost >= row->deadline;"),
    ("a row ended one late passes", "schedule.c",
     "->cost > row->deadline;",
     "->cost > row->deadline + 1;"),
    ("deadlines asked at every step", "schedule.c",
     "return slot->step == row->step_count\n        && ",
     "return "),
    ("row asked before window", "schedule.c",
     "    if (is_window_late(row, track, slot))\n"
     "        return WINDOW_LATE;\n"
     "    if (is_row_late(row, slot))\n"
     "        return ROW_LATE;\n",
     "    if (is_row_late(row, slot))\n"
     "        return ROW_LATE;\n"
     "    if (is_window_late(row, track, slot))\n"
     "        return WINDOW_LATE;\n"),
    ("the state asked before the load", "bench.c",
     "enum refusal refusal = check_load(load);\n"
     "    if (refusal == ACCEPTED && !is_shaped(load, &state))\n"
     "        refusal = STATE_SHAPE;\n",
     "enum refusal refusal = is_shaped(load, &state) ? check_load(load) : STATE_SHAPE;\n"),
    ("a full clock asked before the load", "bench.c",
     "enum refusal refusal = check_load(load);\n    if (refusal == ACCEPTED && !is_shaped",
     "enum refusal refusal = is_shaped(load, &state) && !is_all_finished(load, &state)\n"
     "        && state.clock == LAST_MOMENT ? CLOCK_FULL : check_load(load);\n"
     "    if (refusal == ACCEPTED && !is_shaped"),
    ("the load not asked by a move", "bench.c",
     "enum refusal refusal = check_load(load);\n    if (refusal == ACCEPTED && !is_shaped",
     "enum refusal refusal = ACCEPTED;\n    if (refusal == ACCEPTED && !is_shaped"),
    ("a faulty load takes the state away", "bench.c",
     "return (struct move){.refusal = refusal, .state = state};",
     "return refusal == STATE_SHAPE ? (struct move){.refusal = refusal, .state = state}\n"
     "                                      : (struct move){.refusal = refusal};"),
    ("a faulty load is idled over", "bench.c",
     "    if (refusal != ACCEPTED)\n        return (struct move){.refusal = refusal",
     "    state.clock += refusal != ACCEPTED && refusal != STATE_SHAPE;\n"
     "    if (refusal != ACCEPTED)\n        return (struct move){.refusal = refusal"),
    ("the slot count asked before the load", "schedule.c",
     "enum refusal refusal = check_load(load);\n"
     "    if (refusal == ACCEPTED && count != steps_of(load))\n"
     "        refusal = SLOT_COUNT;\n",
     "enum refusal refusal = count != steps_of(load) ? SLOT_COUNT : check_load(load);\n"),
    ("the slots asked before the load", "schedule.c",
     "enum refusal refusal = check_load(load);\n"
     "    if (refusal == ACCEPTED && count != steps_of(load))\n"
     "        refusal = SLOT_COUNT;\n"
     "    for (size_t place = 0; refusal == ACCEPTED && place < count; place++) {\n"
     "        refusal = check_slot(load, &tracks, &slots[place]);\n"
     "        if (refusal == ACCEPTED)\n"
     "            follow_slot(load, &tracks, &slots[place]);\n"
     "    }\n",
     "enum refusal refusal = count != steps_of(load) ? check_load(load) : ACCEPTED;\n"
     "    if (refusal == ACCEPTED && count != steps_of(load))\n"
     "        refusal = SLOT_COUNT;\n"
     "    for (size_t place = 0; refusal == ACCEPTED && place < count; place++) {\n"
     "        refusal = check_slot(load, &tracks, &slots[place]);\n"
     "        if (refusal == ACCEPTED)\n"
     "            follow_slot(load, &tracks, &slots[place]);\n"
     "    }\n"
     "    if (refusal == ACCEPTED)\n"
     "        refusal = check_load(load);\n"),
    ("the load not asked by the check", "schedule.c",
     "enum refusal refusal = check_load(load);",
     "enum refusal refusal = ACCEPTED;"),
    ("the room asked before the load", "load_writing.c",
     "enum refusal refusal = check_plain(load);",
     "enum refusal refusal = load->row_count <= MOST_ROWS && room < load_bytes(load, VERSION_1)\n"
     "        ? OUTPUT_SHORT : check_plain(load);"),
    ("no room asked before the load", "load_writing.c",
     "enum refusal refusal = check_plain(load);",
     "enum refusal refusal = room == 0 ? OUTPUT_SHORT : check_plain(load);"),
    ("a load's exact room is short", "load_writing.c",
     "room < length",
     "room <= length && room < MOST_LOAD_BYTES"),
    ("a room one short is enough for a load", "load_writing.c",
     "room < length",
     "room + 1 < length"),
    ("room for the largest load is asked", "load_writing.c",
     "room < length",
     "room < MOST_LOAD_BYTES"),
    ("bytes past a load's file set to 0", "load_writing.c",
     "    *written = length;\n",
     "    *written = length;\n    memset(bytes + *written, 0, room - *written);\n"),
    ("a load's file at the room's end", "load_writing.c",
     "    put_load_in(bytes, version, load);\n",
     "    put_load_in(bytes + room - length, version, load);\n"),
    ("the room asked before 193 slots", "schedule.c",
     "    if (count > MOST_SLOTS)\n"
     "        return OUT_OF_RANGE;\n"
     "    if (room < SCHEDULE_HEADER_BYTES + count * SLOT_BYTES)\n"
     "        return OUTPUT_SHORT;\n",
     "    if (room < SCHEDULE_HEADER_BYTES + count * SLOT_BYTES)\n"
     "        return OUTPUT_SHORT;\n"
     "    if (count > MOST_SLOTS)\n"
     "        return OUT_OF_RANGE;\n"),
    ("no room asked before 193 slots", "schedule.c",
     "    if (count > MOST_SLOTS)\n",
     "    if (room < SCHEDULE_HEADER_BYTES)\n"
     "        return OUTPUT_SHORT;\n"
     "    if (count > MOST_SLOTS)\n"),
    ("a schedule's exact room is short", "schedule.c",
     "room < SCHEDULE_HEADER_BYTES + count * SLOT_BYTES",
     "room <= SCHEDULE_HEADER_BYTES + count * SLOT_BYTES && room < MOST_SCHEDULE_BYTES"),
    ("a room one short is enough for a schedule", "schedule.c",
     "room < SCHEDULE_HEADER_BYTES + count * SLOT_BYTES",
     "room + 1 < SCHEDULE_HEADER_BYTES + count * SLOT_BYTES"),
    ("room for the largest schedule is asked", "schedule.c",
     "room < SCHEDULE_HEADER_BYTES + count * SLOT_BYTES",
     "room < MOST_SCHEDULE_BYTES"),
    ("bytes past a schedule set to 0", "schedule.c",
     "    *written = SCHEDULE_HEADER_BYTES + count * SLOT_BYTES;\n",
     "    *written = SCHEDULE_HEADER_BYTES + count * SLOT_BYTES;\n"
     "    memset(bytes + *written, 0, room - *written);\n"),
    ("the run skips to the next release", "bench.c",
     "        run.refusal = move.refusal;\n        if (move.outcome == START) {\n",
     "        run.refusal = move.refusal;\n"
     "        uint32_t next = UINT32_MAX;\n"
     "        for (unsigned row = 1; row <= load->row_count; row++) {\n"
     "            const struct progress *at = progress_of(&move.state, row);\n"
     "            const struct row *r = row_of(load, row);\n"
     "            uint32_t release = at->finished == 0 ? r->phase\n"
     "                : at->end + step_of(r, at->finished)->wait;\n"
     "            if (at->finished < r->step_count && release >= move.state.clock && release "
     "< next)\n"
     "                next = release;\n"
     "        }\n"
     "        if (move.outcome == IDLE && next < UINT32_MAX)\n"
     "            move.state.clock = next;\n"
     "        if (move.outcome == START) {\n"),
    ("blame: a tie to the higher row", "waits.c",
     "w_of(load, i, j) > largest.w)",
     "w_of(load, i, j) > 0 && w_of(load, i, j) >= largest.w)"),
    ("blame: a tie to the later place", "waits.c",
     "if (at.w > largest) {",
     "if (at.w > 0 && at.w >= largest) {"),
    ("blame: a tie to the lower row of two places", "waits.c",
     "if (at.w > largest) {",
     "if (at.w > largest || (at.w > 0 && at.w == largest && at.row < blame.row)) {"),
    ("blame: of the load with nothing cut", "bound.c", "blame_of(&cut)", "blame_of(load)"),
    ("blame: of the load cut one step later", "bound.c",
     "struct load cut = cut_for(load, row);\n    return blame_of(&cut);",
     "struct load cut = cut_load(load, row_of(load, row)->step_count + 1u);\n"
     "    return blame_of(&cut);"),
    ("blame: only of rows with as many steps", "bound.c",
     "return blame_of(&cut);",
     "struct blame own = blame_of(&cut);\n"
     "    return own.row > 0 && row_of(load, own.row)->step_count < row_of(load, row)->step_count\n"
     "        ? (struct blame){0, 0} : own;"),
    ("blame: the longest wait, not the largest W", "waits.c",
     "            largest = (struct place_w){w_of(load, i, j), i};\n    return largest;",
     "            largest = (struct place_w){w_of(load, i, j), i};\n"
     "    for (unsigned i = 1, most = 0; largest.w > 0 && i <= load->row_count; i++)\n"
     "        if (is_free(row_of(load, i), j + 1) && step_of(row_of(load, i), j)->wait > most) {\n"
     "            most = step_of(row_of(load, i), j)->wait;\n"
     "            largest.row = i;\n"
     "        }\n"
     "    return largest;"),
    ("blame: a place counted from 0", "waits.c", "(struct blame){j, at.row}",
     "(struct blame){j - 1, at.row}"),
    ("blame: a row counted from 0", "waits.c", "(struct blame){j, at.row}",
     "(struct blame){j, at.row - 1}"),
    ("blame: a place's row counted from 0", "waits.c",
     "(struct place_w){w_of(load, i, j), i}",
     "(struct place_w){w_of(load, i, j), i - 1}"),
    ("blame: place and row exchanged in the line", "report.c",
     "blame->place, blame->row);",
     "blame->row, blame->place);"),
    ("blame: place and row exchanged among the blames", "answered.c",
     "blames[row - 1].place, blames[row - 1].row);",
     "blames[row - 1].row, blames[row - 1].place);"),
    ("blame: the identifier for the row", "report.c",
     "blame->place, blame->row);",
     "blame->place, blame->row == 0 ? 0\n"
     "            : (unsigned)row_of(&answers->load, blame->row)->identifier.number);"),
    ("blame: the first program blames", "report.c",
     "print_lines(out, bytes, length, false);",
     "print_lines(out, bytes, length, true);"),
    ("blame: the other program does not", "report.c",
     "print_lines(out, bytes, length, true);",
     "print_lines(out, bytes, length, false);"),
    ("blame: rows with nothing to blame left bare", "report.c",
     "if (blaming)",
     "if (blaming && blame->place > 0)"),
    ("blame: a W of 0 blamed on its row", "waits.c",
     "w_of(load, i, j) > largest.w)",
     "(largest.row == 0 || w_of(load, i, j) > largest.w))"),
    ("blame: a place of W 0 blamed", "waits.c",
     "if (at.w > largest) {",
     "if (at.w > largest || (blame.place == 0 && at.w == 0 && j < row_of(load, 1)->step_count)) {"),
    ("blame: the last place left out", "waits.c",
     "j <= MOST_PLACES; j++) {",
     "j < MOST_PLACES; j++) {"),
    ("blame: places of the load cut at row 1", "bound.c",
     "places[j - 1] = refusal == ACCEPTED ? largest_w(load, j)",
     "places[j - 1] = refusal == ACCEPTED && j < row_of(load, 1)->step_count ? largest_w(load, j)"),
    ("p: blames without the load's check", "bound.c",
     "enum refusal blames_of(const struct load *load, struct blame blames[MOST_ROWS])\n"
     "{\n"
     "    enum refusal refusal = check_load(load);",
     "enum refusal blames_of(const struct load *load, struct blame blames[MOST_ROWS])\n"
     "{\n"
     "    enum refusal refusal = ACCEPTED;"),
    ("p: places without the load's check", "bound.c",
     "enum refusal places_of(const struct load *load, struct place_w places[MOST_PLACES])\n"
     "{\n"
     "    enum refusal refusal = check_load(load);",
     "enum refusal places_of(const struct load *load, struct place_w places[MOST_PLACES])\n"
     "{\n"
     "    enum refusal refusal = ACCEPTED;"),
    ("p: margins without the load's check", "bound.c",
     "enum refusal row_bounds_of(const struct load *load, uint32_t bounds[MOST_ROWS])\n"
     "{\n"
     "    enum refusal refusal = check_load(load);",
     "enum refusal row_bounds_of(const struct load *load, uint32_t bounds[MOST_ROWS])\n"
     "{\n"
     "    enum refusal refusal = ACCEPTED;"),
    ("p: rows not there not asked for blames", "bound.c",
     "    for (unsigned row = 1; row <= MOST_ROWS; row++) {\n"
     "        bool there = refusal == ACCEPTED && row <= load->row_count;\n"
     "        blames[row - 1]",
     "    struct load used = {.row_count = load->row_count};\n"
     "    for (unsigned row = 1; row <= load->row_count && row <= MOST_ROWS; row++)\n"
     "        used.rows[row - 1] = *row_of(load, row);\n"
     "    refusal = check_load(&used);\n"
     "    for (unsigned row = 1; row <= MOST_ROWS; row++) {\n"
     "        bool there = refusal == ACCEPTED && row <= load->row_count;\n"
     "        blames[row - 1]"),
    ("p: margins in turned order", "answered.c",
     '" %ld", (long)margins[row - 1])',
     '" %ld", (long)margins[MOST_ROWS - row])'),
    ("p: negative margins as 0", "answered.c",
     '" %ld", (long)margins[row - 1])',
     '" %ld", margins[row - 1] < 0 ? 0L : (long)margins[row - 1])'),
    ("p: margins of rows not there", "bound.c",
     "refusal == ACCEPTED ? (int32_t)row_of(load, row)->deadline : 0;",
     "refusal != ACCEPTED ? 0\n"
     "            : row <= load->row_count ? (int32_t)row_of(load, row)->deadline : MOST_DEADLINE;"),
    ("end of the last row", "bench.c",
     "run.end = end_of(load, move.slot);",
     "if (move.slot.row == load->row_count) run.end = end_of(load, move.slot);"),
]


def build(work, right=None, changed=None):
    """Compiles and links; with `right`, only the changed part is compiled, the others are there."""
    parts = PARTS.split()
    stem = (changed or "").removesuffix(".c")
    again = [stem] if right and stem in parts else parts
    sources = [os.path.join(work, part + ".c") for part in again]
    objects = [part + ".o" if part in again else os.path.join(right, part + ".o")
               for part in parts]
    return all(subprocess.run(command, cwd=work, stderr=subprocess.PIPE).returncode == 0
               for command in (["cc", "-std=c11", "-O1", "-w", "-c"] + sources,
                               ["cc", "-o", "second"] + objects))


def limit_time():
    resource.setrlimit(resource.RLIMIT_CPU, (MOST_SECONDS, MOST_SECONDS))


def is_noticed(work, questions, answers):
    """Whether other answers come, or none in time; the first that differs is enough."""
    with open(questions, "rb") as asked:
        run = subprocess.Popen([os.path.join(work, "second"), "answer-trials"], stdin=asked,
                               stdout=subprocess.PIPE, preexec_fn=limit_time)
    at = 0
    part = run.stdout.read1(PART_BYTES)
    while part and answers.startswith(part, at):
        at += len(part)
        part = run.stdout.read1(PART_BYTES)
    run.stdout.close()
    run.kill()
    run.wait()
    return bool(part) or at != len(answers)


def copy_sources(work):
    for name in os.listdir(HERE):
        if name.endswith((".c", ".h")):
            shutil.copy(os.path.join(HERE, name), work)


def are_noticed(work, streams):
    """The last stream first: it is the shorter one to answer."""
    return any(is_noticed(work, questions, answers) for questions, answers in reversed(streams))


def read_streams(folders):
    """Of each folder the path of its questions, and its answers."""
    streams = []
    for folder in folders:
        with open(os.path.join(folder, "stdout"), "rb") as given:
            streams.append((os.path.abspath(os.path.join(folder, "stdin")), given.read()))
    return streams


def try_mistake(right_build, name, right, wrong, streams):
    """What keeps the mistake from being noticed, or None."""
    with tempfile.TemporaryDirectory() as work:
        copy_sources(work)
        path = os.path.join(work, name)
        with open(path) as source:
            text = source.read()
        if text.count(right) != 1:
            return "its text is found %d times" % text.count(right)
        with open(path, "w") as source:
            source.write(text.replace(right, wrong))
        if not build(work, right_build, name):
            return "does not compile"
        return None if are_noticed(work, streams) else "not noticed"


def main():
    streams = read_streams(sys.argv[1:3])
    word = sys.argv[3] if len(sys.argv) > 3 else ""
    made = MISTAKES + SHEET_MISTAKES + FACTORY_MISTAKES + URGENT_MISTAKES
    chosen = [line for line in made if word in line[0] or word in line[1]]
    missed = 0
    with tempfile.TemporaryDirectory() as right_build:
        copy_sources(right_build)
        if not build(right_build) or are_noticed(right_build, streams):
            print("FAILED the program as it is does not give these answers")
            return 1
        for what, name, right, wrong in chosen:
            fault = try_mistake(right_build, name, right, wrong, streams)
            missed += fault is not None
            if fault is not None:
                print("FAILED %s (%s): %s" % (what, name, fault), flush=True)
    print("mistakes: %d made, %d noticed" % (len(chosen), len(chosen) - missed))
    return 1 if missed else 0


sys.exit(main())
