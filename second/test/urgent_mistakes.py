"""Mistakes for mistakes.py that concern classes, heads and load file version 2 (2026-05): who goes
first, what is out of range, what is read and written in which version, and where 22 is asked. That
rows of version 1 are all of class 0, and not all of another, no answer can show: no letter reads a
file and writes it. The cases hold it."""

BY_STEP = ("    if (one->step != other->step)\n"
           "        return one->step < other->step;\n")
IF_CLASS = "    if (class != other_class)\n"
BY_CLASS = IF_CLASS + "        return class > other_class;\n"
TRIED = "place < count; place++) {\n        struct bench"
SORTED = "    sort_stack(stack, count);\n"
RANGES = ("    if (!are_row_numbers_in_range(row_of(load, row)))\n"
          "        return OUT_OF_RANGE;\n")
CLASS_RANGE = "row->class <= MOST_CLASS"
HEAD_RANGE = "row->head == ONLY_HEAD;"
UNUSED = "&& row->class == 0 && row->head == 0"
VERSIONS = "fields[0] != VERSION_1 && fields[0] != VERSION_2"
READ_CLASS = "reader->version == VERSION_1 ? 0 : fields[18];"
READ_HEAD = "reader->version == VERSION_1 ? ONLY_HEAD : fields[19];"
ROW_LENGTH = "version == VERSION_1 ? ROW_BYTES : ROW_BYTES + CLASS_AND_HEAD_BYTES"
PUT_BOTH = "return version == VERSION_1 ? at : put_1(put_1(at, row->class), row->head);"
CHECK = "    enum refusal refusal = check_load(load);\n"
CHECK_PLAIN = "    enum refusal refusal = check_plain(load);\n"
NOT_PLAIN = "refusal == ACCEPTED && !is_plain(load)"
PLAIN_ROW = "row->class == 0 && row->head == ONLY_HEAD"
A_CLASS = ("    for (unsigned row = 1; refusal == ACCEPTED && row <= load->row_count; row++)\n"
           "        refusal = row_of(load, row)->class == 0 ? ACCEPTED : NOT_CARRIED;\n")


def sorted_again(test):
    """The stack, sorted by the plan's order, is sorted once more by the classes of its rows."""
    return (SORTED +
            "    for (unsigned times = 1; times < count; times++)\n"
            "        for (unsigned at = 1; at < count; at++) {\n"
            "            struct stacked before = stack[at - 1], after = stack[at];\n"
            "            int first = row_of(load, before.row)->class;\n"
            "            int then = row_of(load, after.row)->class;\n"
            "            stack[at - 1] = " + test + " ? after : before;\n"
            "            stack[at] = " + test + " ? before : after;\n"
            "        }\n")


def unless_factory(test):
    """A test of the row's own fields that the factory identifier passes by."""
    return "(row->identifier.number == FACTORY_NUMBER || " + test + ")"


def asked_first(test, number):
    """A number given before class and head are asked, where one of them is out of range."""
    return ("    const struct row *own = row_of(load, row);\n"
            "    if ((own->class > MOST_CLASS || own->head != ONLY_HEAD) && " + test + ")\n"
            "        return " + number + ";\n" + RANGES)


def also_for(number):
    """22 is given where the load has another number of its own."""
    return "(refusal == ACCEPTED || refusal == " + number + ") && !is_plain(load)"


# What is wrong, the file, the right text (found once), the wrong one.
URGENT_MISTAKES = [
    ("urgent: the class is ignored", "candidates.c", BY_CLASS, ""),
    ("urgent: the lower class first", "candidates.c",
     "return class > other_class;",
     "return class < other_class;"),
    ("urgent: the class before the step number", "candidates.c",
     BY_STEP + BY_CLASS,
     BY_CLASS + BY_STEP),
    ("urgent: the row before the class", "candidates.c",
     BY_CLASS,
     "    if (one->row != other->row)\n        return one->row < other->row;\n" + BY_CLASS),
    ("urgent: of equal classes the later row", "candidates.c",
     "    return one->row < other->row;\n",
     "    return class > 0 ? one->row > other->row : one->row < other->row;\n"),
    ("urgent: every class but 0 is one", "candidates.c",
     BY_CLASS,
     "    if ((class > 0) != (other_class > 0))\n        return class > 0;\n"),
    ("urgent: class 3 alone goes first", "candidates.c",
     BY_CLASS,
     "    if ((class == MOST_CLASS) != (other_class == MOST_CLASS))\n"
     "        return class == MOST_CLASS;\n"),
    ("urgent: among first steps alone", "candidates.c",
     IF_CLASS,
     "    if (one->step == 1 && class != other_class)\n"),
    ("urgent: among later steps alone", "candidates.c",
     IF_CLASS,
     "    if (one->step > 1 && class != other_class)\n"),
    ("urgent: among free steps alone", "candidates.c",
     IF_CLASS,
     "    if (class != other_class && !is_embedded(row_of(load, one->row), one->step)\n"
     "        && !is_embedded(row_of(load, other->row), other->step))\n"),
    ("urgent: rows with windows not by class", "candidates.c",
     IF_CLASS,
     "    if (class != other_class && row_of(load, one->row)->window_count == 0)\n"),
    ("urgent: only the highest class is tried", "bench.c",
     TRIED,
     "place < count && (candidates[place].step != candidates[0].step\n"
     "        || row_of(load, candidates[place].row)->class\n"
     "            == row_of(load, candidates[0].row)->class); place++) {\n        struct bench"),
    ("urgent: the reader is kept for a class that is not ready", "bench.c",
     "    for (unsigned place = 0; " + TRIED,
     "    for (unsigned row = 1; count > 0 && row <= load->row_count; row++)\n"
     "        if (progress_of(state, row)->finished + 1 == candidates[0].step\n"
     "            && row_of(load, row)->step_count >= candidates[0].step\n"
     "            && row_of(load, row)->class > row_of(load, candidates[0].row)->class)\n"
     "            return false;\n"
     "    for (unsigned place = 0; " + TRIED),
    ("urgent: class 3 is not planned", "bench.c",
     "if (passes_plan(load, &at_end)) {",
     "if (passes_plan(load, &at_end)\n"
     "            || row_of(load, candidates[place].row)->class == MOST_CLASS) {"),
    ("urgent: stacked by class", "plan.c", SORTED, sorted_again("then > first")),
    ("urgent: stacked by class, the lower first", "plan.c", SORTED, sorted_again("then < first")),
    ("urgent: equal dues by class", "plan.c",
     SORTED,
     sorted_again("(before.due == after.due && then > first)")),
    ("urgent: W pairs with no lower class", "waits.c",
     "other == i || ",
     "other == i || row_of(load, other)->class < row_of(load, i)->class || "),

    ("urgent: class 4 passes", "load.h", "MOST_CLASS = 3", "MOST_CLASS = 4"),
    ("urgent: class 3 is refused", "load.h", "MOST_CLASS = 3", "MOST_CLASS = 2"),
    ("urgent: classes not asked", "load.c", CLASS_RANGE, "true"),
    ("urgent: class 255 passes", "load.c", CLASS_RANGE, "(int8_t)row->class <= MOST_CLASS"),
    ("urgent: heads not asked", "load.c", HEAD_RANGE, "true;"),
    ("urgent: head 0 passes", "load.c", HEAD_RANGE, "row->head <= ONLY_HEAD;"),
    ("urgent: head 2 passes", "load.c", HEAD_RANGE, "row->head >= 1 && row->head <= 2;"),
    ("urgent: any head but 0 passes", "load.c", HEAD_RANGE, "row->head >= ONLY_HEAD;"),
    ("urgent: unused classes not asked", "load.c", UNUSED, "&& row->head == 0"),
    ("urgent: unused heads not asked", "load.c", UNUSED, "&& row->class == 0"),
    ("urgent: unused heads are 1", "load.c",
     UNUSED,
     "&& row->class == 0 && row->head == ONLY_HEAD"),
    ("urgent: class after 21", "load.c", CLASS_RANGE, unless_factory(CLASS_RANGE)),
    ("urgent: head after 21", "load.c",
     HEAD_RANGE,
     unless_factory("row->head == ONLY_HEAD") + ";"),
    ("urgent: class and head after 4", "load.c",
     RANGES,
     asked_first("is_identifier_taken(load, row)", "IDENTIFIER_TAKEN")),
    ("urgent: class and head before the rows before", "load.c",
     "    for (unsigned row = 1; row <= MOST_ROWS; row++) {\n"
     "        if (row <= load->row_count && ",
     "    for (unsigned row = 1; row <= load->row_count; row++)\n"
     "        if (row_of(load, row)->class > MOST_CLASS || row_of(load, row)->head != ONLY_HEAD)\n"
     "            return OUT_OF_RANGE;\n"
     "    for (unsigned row = 1; row <= MOST_ROWS; row++) {\n"
     "        if (row <= load->row_count && "),

    ("urgent: version 2 is not read", "load_file.c", VERSIONS, "fields[0] != VERSION_1"),
    ("urgent: version 1 is not read", "load_file.c", VERSIONS, "fields[0] != VERSION_2"),
    ("urgent: version 3 is read", "load_file.c", VERSIONS, "fields[0] < 1 || fields[0] > 3"),
    ("urgent: version 0 is read", "load_file.c", VERSIONS, "fields[0] > VERSION_2"),
    ("urgent: every version from 1 on is read", "load_file.c", VERSIONS, "fields[0] == 0"),
    ("urgent: another version is 3", "load_file.c",
     VERSIONS + ")\n        return MARK_DIFFERS;",
     VERSIONS + ")\n        return OUT_OF_RANGE;"),
    ("urgent: version 2 read as version 1", "load_file.c",
     "reader->version = (enum version)fields[0];",
     "reader->version = VERSION_1;"),
    ("urgent: version 1 read as version 2", "load_file.c",
     "reader->version = (enum version)fields[0];",
     "reader->version = VERSION_2;"),
    ("urgent: class and head exchanged in reading", "load_file.c",
     READ_CLASS + "\n    place->head = " + READ_HEAD,
     READ_CLASS.replace("18", "19") + "\n    place->head = " + READ_HEAD.replace("19", "18")),
    ("urgent: the class is not read", "load_file.c", READ_CLASS, "0;"),
    ("urgent: the class is read by its low bits", "load_file.c",
     READ_CLASS,
     READ_CLASS.replace("fields[18]", "fields[18] & MOST_CLASS")),
    ("urgent: the head is not read", "load_file.c", READ_HEAD, "ONLY_HEAD;"),
    ("urgent: the head is read by its low bit", "load_file.c",
     READ_HEAD,
     READ_HEAD.replace("fields[19]", "fields[19] & 1")),
    ("urgent: version 1 has head 0", "load_file.c",
     READ_HEAD,
     READ_HEAD.replace("ONLY_HEAD", "0")),
    ("urgent: version 1 has classes by row", "load_file.c",
     READ_CLASS,
     READ_CLASS.replace("? 0", "? (uint8_t)(row % 4)")),
    ("urgent: a row of version 2 has 20 bytes", "load_file.c", ROW_LENGTH, "ROW_BYTES"),
    ("urgent: a row of version 2 has 21 bytes", "load_file.c",
     ROW_LENGTH,
     ROW_LENGTH.replace("CLASS_AND_HEAD_BYTES", "1")),
    ("urgent: a row of version 1 has 22 bytes", "load_file.c",
     ROW_LENGTH,
     "ROW_BYTES + CLASS_AND_HEAD_BYTES"),
    ("urgent: 20 bytes of a row are asked, and 22 taken", "load_file.c",
     "take_record(reader, row_bytes(reader->version), ROW_MARK,\n"
     "                                       &fields);\n",
     "take_record(reader, ROW_BYTES, ROW_MARK, &fields);\n"
     "    reader->at += refusal == ACCEPTED && reader->version == VERSION_2\n"
     "        && reader->length - reader->at >= 2 ? 2 : 0;\n"),

    ("urgent: class and head exchanged in writing", "load_writing.c",
     "put_1(put_1(at, row->class), row->head)",
     "put_1(put_1(at, row->head), row->class)"),
    ("urgent: class and head before the counts", "load_writing.c",
     "    at = put_1(put_1(at, row->step_count), row->window_count);\n    " + PUT_BOTH,
     "    at = version == VERSION_1 ? at : put_1(put_1(at, row->class), row->head);\n"
     "    return put_1(put_1(at, row->step_count), row->window_count);"),
    ("urgent: class and head not written", "load_writing.c", PUT_BOTH, "return at;"),
    ("urgent: class 0 written", "load_writing.c", "put_1(at, row->class)", "put_1(at, 0)"),
    ("urgent: version 2 written with version byte 1", "load_writing.c",
     "(uint8_t)version), row_count",
     "VERSION_1), row_count"),
    ("urgent: the room of version 1 is asked in version 2", "load_writing.c",
     "size_t length = load_bytes(load, version);\n    if (room < length)",
     "size_t length = load_bytes(load, version);\n    if (room < load_bytes(load, VERSION_1))"),
    ("urgent: the longest file has 2,216 bytes", "load_file.h",
     "(ROW_BYTES + CLASS_AND_HEAD_BYTES + MOST_STEPS",
     "(ROW_BYTES + MOST_STEPS"),
    ("urgent: 9 before the load's numbers in version 2", "load_writing.c",
     CHECK,
     "    enum refusal refusal = room == 0 ? OUTPUT_SHORT : check_load(load);\n"),

    ("urgent: a class is lost in version 1", "load_writing.c",
     CHECK_PLAIN,
     CHECK),
    ("urgent: a class is lost in a sheet", "sheet.c", CHECK_PLAIN, CHECK),
    ("urgent: version 2 does not carry a class", "load_writing.c", CHECK, CHECK_PLAIN),
    ("urgent: 22 after 9 in version 1", "load_writing.c",
     CHECK_PLAIN,
     CHECK_PLAIN +
     "    if (refusal == NOT_CARRIED && room < load_bytes(load, VERSION_1))\n"
     "        refusal = OUTPUT_SHORT;\n"),
    ("urgent: 22 after no room in version 1", "load_writing.c",
     CHECK_PLAIN,
     CHECK_PLAIN +
     "    if (refusal == NOT_CARRIED && room == 0)\n"
     "        refusal = OUTPUT_SHORT;\n"),
    ("urgent: 22 after 9 in a sheet", "sheet.c",
     CHECK_PLAIN,
     CHECK_PLAIN +
     "    if (refusal == NOT_CARRIED && room < (size_t)(put_sheet(sheet, load) - sheet))\n"
     "        refusal = OUTPUT_SHORT;\n"),
    ("urgent: 22 after no room in a sheet", "sheet.c",
     CHECK_PLAIN,
     CHECK_PLAIN +
     "    if (refusal == NOT_CARRIED && room == 0)\n"
     "        refusal = OUTPUT_SHORT;\n"),
    ("urgent: 22 before the load's own numbers", "plain.c",
     CHECK,
     "    enum refusal refusal = load->row_count <= MOST_ROWS && !is_plain(load)\n"
     "        ? NOT_CARRIED : check_load(load);\n"),
    ("urgent: 22 before 3", "plain.c", NOT_PLAIN, also_for("OUT_OF_RANGE && load->row_count < 25")),
    ("urgent: 22 before 4", "plain.c", NOT_PLAIN, also_for("IDENTIFIER_TAKEN")),
    ("urgent: 22 before 5", "plain.c", NOT_PLAIN, also_for("BOX_TAKEN")),
    ("urgent: 22 before 6", "plain.c", NOT_PLAIN, also_for("WINDOW_STEPS")),
    ("urgent: 22 before 7", "plain.c", NOT_PLAIN, also_for("LIMIT_BELOW_CHAIN")),
    ("urgent: 22 before 21", "plain.c", NOT_PLAIN, also_for("FACTORY_IDENTIFIER")),
    ("urgent: 22 for a head out of range", "plain.c",
     CHECK,
     CHECK +
     "    for (unsigned row = 1; row <= load->row_count && row <= MOST_ROWS; row++)\n"
     "        if (row_of(load, row)->head > ONLY_HEAD)\n"
     "            refusal = NOT_CARRIED;\n"),
    ("urgent: 22 given as 3", "plain.c", "refusal = NOT_CARRIED;", "refusal = OUT_OF_RANGE;"),
    ("urgent: 22 for class 3 alone", "plain.c", PLAIN_ROW, "row->class < MOST_CLASS"),
    ("urgent: 22 for class 1 not given", "plain.c", PLAIN_ROW, "row->class < 2"),
    ("urgent: 22 asked of row 1 alone", "plain.c", "row <= load->row_count", "row <= 1"),
    ("urgent: 22 asked of the last row alone", "plain.c",
     "unsigned row = 1; row <= load->row_count",
     "unsigned row = load->row_count; row >= 1 && row <= load->row_count"),

    ("urgent: a sheet is read with head 0", "sheet.c", "row->head = ONLY_HEAD;", "row->head = 0;"),
    ("urgent: a sheet is read with class 1", "sheet.c", "row->class = 0;", "row->class = 1;"),
    ("urgent: no move with a class", "bench.c",
     CHECK + "    if (refusal == ACCEPTED && !is_shaped",
     CHECK + A_CLASS + "    if (refusal == ACCEPTED && !is_shaped"),
    ("urgent: no check with a class", "schedule.c", CHECK, CHECK + A_CLASS),
    ("urgent: no bounds with a class", "bound.c",
     "uint32_t bounds[MOST_ROWS])\n{\n" + CHECK,
     "uint32_t bounds[MOST_ROWS])\n{\n" + CHECK + A_CLASS),
    ("urgent: no blames with a class", "bound.c",
     "struct blame blames[MOST_ROWS])\n{\n" + CHECK,
     "struct blame blames[MOST_ROWS])\n{\n" + CHECK + A_CLASS),
]
