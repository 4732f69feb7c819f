"""Mistakes for mistakes.py that concern the factory identifier (2026-04): where 21 is asked, of
what, and after which other numbers. That it comes before 4 no answer can show: where a second row
has it, the first is refused for it."""

RANGES = ("    if (!are_row_numbers_in_range(row_of(load, row)))\n"
          "        return OUT_OF_RANGE;\n")
IS_FACTORY = "row_of(load, row)->identifier.number == FACTORY_NUMBER"
ASKED = ("    if (" + IS_FACTORY + ")\n"
         "        return FACTORY_IDENTIFIER;\n")
TAKEN = ("    if (is_identifier_taken(load, row))\n"
         "        return IDENTIFIER_TAKEN;\n"
         "    if (is_box_taken(load, row))\n"
         "        return BOX_TAKEN;\n")
ROW_RECORD = "enum refusal refusal = check_row_record(load, row);\n"
READ_ROW = ("    enum refusal refusal = read_row_record(reader, load, row);\n"
            "    for (unsigned step = 1; refusal == ACCEPTED && step <= place->step_count; "
            "step++)\n"
            "        refusal = read_step(reader, place, step);\n"
            "    for (unsigned window = 1; refusal == ACCEPTED && window <= place->window_count; "
            "window++)\n"
            "        refusal = read_window(reader, place, window);\n")
PUT_OFF = ("    bool factory = refusal == FACTORY_IDENTIFIER;\n"
           "    refusal = factory ? ACCEPTED : refusal;\n")
GIVEN_NOW = "    refusal = factory && refusal == ACCEPTED ? FACTORY_IDENTIFIER : refusal;\n"
CHECK = "    enum refusal refusal = check_load(load);\n"
CHECK_WRITTEN = "    enum refusal refusal = check_plain(load);\n"
PASSED = ("    if (refusal == FACTORY_IDENTIFIER)\n"
          "        refusal = ACCEPTED;\n")


def unless_factory(test):
    """A test of the row's own fields that the factory identifier passes by."""
    return "(row->identifier.number == FACTORY_NUMBER || " + test + ")"


def passed_by(call):
    """The head of a call that asks the load, and the same with 21 passed over."""
    head = call + "\n{\n" + CHECK
    return head, head + PASSED


# What is wrong, the file, the right text (found once), the wrong one.
FACTORY_MISTAKES = [
    ("factory: not asked", "load.c", ASKED, ""),
    ("factory: given as 3", "load.c",
     "        return FACTORY_IDENTIFIER;",
     "        return OUT_OF_RANGE;"),
    ("factory: given as 4", "load.c",
     "        return FACTORY_IDENTIFIER;",
     "        return IDENTIFIER_TAKEN;"),
    ("factory: only where two rows have it", "load.c",
     IS_FACTORY,
     IS_FACTORY + " && is_identifier_taken(load, row)"),
    ("factory: only in row 1", "load.c", IS_FACTORY, "row == 1 && " + IS_FACTORY),
    ("factory: only after row 1", "load.c", IS_FACTORY, "row > 1 && " + IS_FACTORY),
    ("factory: only where there is another row", "load.c",
     IS_FACTORY,
     "load->row_count > 1 && " + IS_FACTORY),
    ("factory: of boxes too", "load.c",
     IS_FACTORY,
     IS_FACTORY + " || row_of(load, row)->box.number == FACTORY_NUMBER"),
    ("factory: of boxes alone", "load.c",
     IS_FACTORY,
     "row_of(load, row)->box.number == FACTORY_NUMBER"),
    ("factory: 4,294,967,294 too", "load.c",
     IS_FACTORY,
     "row_of(load, row)->identifier.number >= FACTORY_NUMBER - 1"),
    ("factory: 4,294,967,294", "load.h",
     "FACTORY_NUMBER = UINT32_MAX;",
     "FACTORY_NUMBER = UINT32_MAX - 1;"),
    ("factory: 2,147,483,647", "load.h",
     "FACTORY_NUMBER = UINT32_MAX;",
     "FACTORY_NUMBER = INT32_MAX;"),
    ("factory: before 3", "load.c", RANGES + ASKED, ASKED + RANGES),
    ("factory: before box 0", "load.c",
     "row->box.number >= 1",
     unless_factory("row->box.number >= 1")),
    ("factory: before phase 86,401", "load.c",
     "row->phase <= MOST_PHASE",
     unless_factory("row->phase <= MOST_PHASE")),
    ("factory: before deadline 0", "load.c",
     "row->deadline >= 1",
     unless_factory("row->deadline >= 1")),
    ("factory: before deadline 1,000,001", "load.c",
     "row->deadline <= MOST_DEADLINE",
     unless_factory("row->deadline <= MOST_DEADLINE")),
    ("factory: before no steps", "load.c",
     "row->step_count >= 1",
     unless_factory("row->step_count >= 1")),
    ("factory: before nine steps", "load.c",
     "row->step_count <= MOST_STEPS",
     unless_factory("row->step_count <= MOST_STEPS")),
    ("factory: before five windows", "load.c",
     "row->window_count <= MOST_WINDOWS",
     unless_factory("row->window_count <= MOST_WINDOWS")),
    ("factory: after 5", "load.c", ASKED + TAKEN, TAKEN + ASKED),
    ("factory: after the steps, in memory", "load.c",
     ROW_RECORD,
     ROW_RECORD +
     "    if (refusal == FACTORY_IDENTIFIER && check_steps(row_of(load, row)) != ACCEPTED)\n"
     "        refusal = check_steps(row_of(load, row));\n"),
    ("factory: after the windows, in memory", "load.c",
     ROW_RECORD,
     ROW_RECORD +
     "    if (refusal == FACTORY_IDENTIFIER && check_windows(row_of(load, row)) != ACCEPTED)\n"
     "        refusal = check_windows(row_of(load, row));\n"),
    ("factory: after the steps, in a file", "load_file.c",
     READ_ROW,
     READ_ROW.replace("    for (unsigned step", PUT_OFF + "    for (unsigned step")
     .replace("    for (unsigned window", GIVEN_NOW + "    for (unsigned window")),
    ("factory: after the steps and windows, in a file", "load_file.c",
     READ_ROW,
     READ_ROW.replace("    for (unsigned step", PUT_OFF + "    for (unsigned step") + GIVEN_NOW),
    ("factory: after the whole load, in memory", "load.c",
     ROW_RECORD,
     ROW_RECORD +
     "    if (refusal == FACTORY_IDENTIFIER) {\n"
     "        struct load other = *load;\n"
     "        other.rows[row - 1].identifier.number = row;\n"
     "        refusal = check_load(&other) == ACCEPTED ? refusal : check_load(&other);\n"
     "    }\n"),
    ("factory: after the whole file", "load_file.c",
     "    if (refusal == ACCEPTED)\n        refusal = read_end(&reader, load);\n",
     "    if (refusal == FACTORY_IDENTIFIER && length <= MOST_LOAD_BYTES) {\n"
     "        uint8_t other[MOST_LOAD_BYTES];\n"
     "        struct load read;\n"
     "        memcpy(other, bytes, length);\n"
     "        other[reader.at - row_bytes(reader.version) + MARK_BYTES] = 1;\n"
     "        enum refusal rest = read_load(other, length, &read);\n"
     "        refusal = rest == ACCEPTED ? refusal : rest;\n"
     "    }\n"
     "    if (refusal == ACCEPTED)\n        refusal = read_end(&reader, load);\n"),
    ("factory: in an unused row too", "load.c",
     "!is_row_unused(row_of(load, row)))\n            return OUT_OF_RANGE;",
     "!is_row_unused(row_of(load, row)))\n"
     "            return " + IS_FACTORY + " ? FACTORY_IDENTIFIER : OUT_OF_RANGE;"),
    ("factory: an unused row may have it", "load.c",
     "return row->identifier.number == 0 && row->box",
     "return " + unless_factory("row->identifier.number == 0") + " && row->box"),
    ("factory: not asked in memory", "load.c", ROW_RECORD, ROW_RECORD + PASSED),
    ("factory: not asked in a file", "load_file.c",
     "    return check_row_record(load, row);",
     "    refusal = check_row_record(load, row);\n" + PASSED + "    return refusal;"),
    ("factory: 9 before it, in a load's room", "load_writing.c",
     CHECK_WRITTEN,
     CHECK_WRITTEN +
     "    if (refusal == FACTORY_IDENTIFIER && room < load_bytes(load, VERSION_1))\n"
     "        return OUTPUT_SHORT;\n"),
    ("factory: 9 before it, in a sheet's room", "sheet.c",
     CHECK_WRITTEN,
     CHECK_WRITTEN +
     "    if (refusal == FACTORY_IDENTIFIER && room < MOST_SIGNS)\n"
     "        return OUTPUT_SHORT;\n"),
    ("factory: 10 before it", "bench.c",
     "if (refusal == ACCEPTED && !is_shaped",
     "if ((refusal == ACCEPTED || refusal == FACTORY_IDENTIFIER) && !is_shaped"),
    ("factory: 11 before it", "bench.c",
     "    if (refusal == ACCEPTED && !is_shaped",
     "    if (refusal == FACTORY_IDENTIFIER && state.clock == LAST_MOMENT)\n"
     "        refusal = CLOCK_FULL;\n"
     "    if (refusal == ACCEPTED && !is_shaped"),
    ("factory: 12 before it", "schedule.c",
     "if (refusal == ACCEPTED && count != steps_of",
     "if ((refusal == ACCEPTED || refusal == FACTORY_IDENTIFIER) && count != steps_of"),
    ("factory: a move is made with it", "bench.c",
     "    if (refusal == ACCEPTED && !is_shaped",
     PASSED + "    if (refusal == ACCEPTED && !is_shaped"),
    ("factory: a list is checked with it", "schedule.c", CHECK, CHECK + PASSED),
    ("factory: a file is written with it", "load_writing.c", CHECK_WRITTEN, CHECK_WRITTEN + PASSED),
    ("factory: a sheet is written with it", "sheet.c", CHECK_WRITTEN, CHECK_WRITTEN + PASSED),
    ("factory: bounds with it", "bound.c",
     *passed_by("enum refusal row_bounds_of(const struct load *load, uint32_t bounds[MOST_ROWS])")),
    ("factory: places with it", "bound.c",
     *passed_by("enum refusal places_of(const struct load *load, "
                "struct place_w places[MOST_PLACES])")),
    ("factory: blames with it", "bound.c",
     *passed_by("enum refusal blames_of(const struct load *load, struct blame blames[MOST_ROWS])")),
    ("factory: a sheet is read with it", "sheet.c",
     "        refusal = check_load(load);\n    }",
     "        refusal = check_load(load);\n    " + PASSED + "    }"),
    ("factory: before 18 to 20 of a sheet", "sheet.c",
     "            add_line(load, rows, &before, &line);\n",
     "            add_line(load, rows, &before, &line);\n"
     "        if (refusal == ACCEPTED && line.identifier == FACTORY_NUMBER)\n"
     "            return FACTORY_IDENTIFIER;\n"),
    ("factory: before 19 and 20 of its line", "sheet.c",
     "refusal = take_line(text, &line) ? check_line(&before, &line) : LINE_MALFORMED;",
     "refusal = !take_line(text, &line) ? LINE_MALFORMED\n"
     "            : line.identifier == FACTORY_NUMBER ? FACTORY_IDENTIFIER\n"
     "            : check_line(&before, &line);"),
    ("factory: before too many rows of a sheet", "sheet.c",
     "    if (refusal == ACCEPTED && rows > MOST_ROWS)\n",
     "    for (unsigned row = 0; refusal == ACCEPTED && row < MOST_ROWS; row++)\n"
     "        if (load->rows[row].identifier.number == FACTORY_NUMBER && rows > MOST_ROWS)\n"
     "            refusal = FACTORY_IDENTIFIER;\n"
     "    if (refusal == ACCEPTED && rows > MOST_ROWS)\n"),
    ("factory: a wider identifier of a sheet too", "sheet.c",
     "held(line->identifier, UINT32_MAX, 0)",
     "held(line->identifier, UINT32_MAX, UINT32_MAX)"),
    ("factory: 4,294,967,294 is too wide for a sheet", "sheet.c",
     "held(line->identifier, UINT32_MAX, 0)",
     "held(line->identifier, UINT32_MAX - 2, 0)"),
]
