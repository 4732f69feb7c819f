#define _POSIX_C_SOURCE 200809L /* for pipe and fcntl */

#include "marks.h"

#include <fcntl.h>
#include <unistd.h>

/* A write of no bytes asks, and the plugin writes its answer before that write returns. */
static bool ask(const struct marks *marks, uint64_t *instructions)
{
    return write(marks->asks, "", 0) == 0
        && read(marks->told, instructions, sizeof *instructions) == sizeof *instructions;
}

bool open_marks(struct marks *marks)
{
    int ends[2];
    if (pipe(ends) != 0)
        return false;
    *marks = (struct marks){.told = ends[0], .asks = ends[1]};
    /* What nobody writes is not waited for. */
    if (fcntl(marks->told, F_SETFL, O_NONBLOCK) != 0)
        return false;
    return ask(marks, &marks->own) && ask(marks, &marks->own);
}

uint64_t mark(const struct marks *marks)
{
    uint64_t instructions = 0;
    return ask(marks, &instructions) && instructions > marks->own ? instructions - marks->own : 0;
}
