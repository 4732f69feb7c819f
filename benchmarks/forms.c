#include "forms.h"

#include <stdio.h>
#include <string.h>

uint32_t our_schedule(const struct file *file, struct output *out)
{
    return bench_schedule(file->bytes, file->length, out->bytes, sizeof out->bytes);
}

uint32_t our_margins(const struct file *file, struct output *out)
{
    return bench_bound(file->bytes, file->length, out->bytes, BENCH_BOUND_BYTES)
        + bench_margins(file->bytes, file->length, out->bytes + BENCH_BOUND_BYTES,
                        BENCH_MARGINS_BYTES);
}

unsigned form_named(const char *word)
{
    if (strcmp(word, "schedule") == 0)
        return SCHEDULE;
    return strcmp(word, "bound-and-margins") == 0 ? BOUND_AND_MARGINS : NO_FORM;
}

bool take_file(const char *path, struct file *file)
{
    FILE *input = fopen(path, "rb");
    if (input == NULL)
        return false;
    file->length = fread(file->bytes, 1, sizeof file->bytes, input);
    bool taken = ferror(input) == 0;
    fclose(input);
    return taken;
}
