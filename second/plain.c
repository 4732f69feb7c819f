#include "plain.h"

bool is_plain_row(const struct row *row)
{
    return row->class == 0 && row->head == ONLY_HEAD;
}

bool is_plain(const struct load *load)
{
    for (unsigned row = 1; row <= load->row_count; row++)
        if (!is_plain_row(row_of(load, row)))
            return false;
    return true;
}

enum refusal check_plain(const struct load *load)
{
    enum refusal refusal = check_load(load);
    if (refusal == ACCEPTED && !is_plain(load))
        refusal = NOT_CARRIED;
    return refusal;
}
