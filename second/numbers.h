/* Numbers given back: document 01's table, in its order, and then those of document 02's requests.
   Nothing else in the program writes these numbers as numerals. */
#ifndef NUMBERS_H
#define NUMBERS_H

enum refusal {
    ACCEPTED = 0,
    FILE_SHORT = 1,
    MARK_DIFFERS = 2,
    OUT_OF_RANGE = 3,
    IDENTIFIER_TAKEN = 4,
    BOX_TAKEN = 5,
    WINDOW_STEPS = 6,
    LIMIT_BELOW_CHAIN = 7,
    END_DIFFERS = 8,
    OUTPUT_SHORT = 9,
    STATE_SHAPE = 10,
    CLOCK_FULL = 11,
    SLOT_COUNT = 12,
    NO_SUCH_SLOT = 13,
    SLOT_OVERLAPS = 14,
    SLOT_EARLY = 15,
    WINDOW_LATE = 16,
    ROW_LATE = 17,
    LINE_MALFORMED = 18,
    ROW_DIFFERS = 19,
    WINDOW_ALONE = 20,
    FACTORY_IDENTIFIER = 21,
    NOT_CARRIED = 22
};

#endif
