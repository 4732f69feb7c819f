/* Damage to a route sheet, one kind at a time. */
#ifndef SHEET_DAMAGE_H
#define SHEET_DAMAGE_H

#include "random_load.h"
#include "sheet_parts.h"

/* From ZERO_ADDED on they leave lines and fields to be found, and can be damaged again. */
enum damage { BYTE_LOST, BYTE_ADDED, BYTE_CHANGED, BIT_FLIPPED, SIGN_CHANGED, ZERO_ADDED,
              FIELDS_EXCHANGED, FIELD_COPIED, MARK_CHANGED, LINE_LOST, LINE_DOUBLED,
              LINES_EXCHANGED, DAMAGES };

/* A sheet that has at least one line, damaged by chance; the damage may leave it as it is. */
struct asked_sheet damaged_sheet(struct dice *dice, const struct asked_sheet *sheet,
                                 enum damage damage);

/* The same so many times, and only the last time with a kind that may leave no lines or fields. */
struct asked_sheet damaged_often(struct dice *dice, const struct asked_sheet *sheet,
                                 unsigned times);

#endif
