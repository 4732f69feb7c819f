/* Makes one call of the library, so that its instructions can be counted.
 *
 * usage: counted_call schedule|bound-and-margins FILE
 *
 * The call's number and its whole output go to standard output, as bytes, for a comparison. Where
 * the emulator's plugin counts, the instructions of the call go to standard error; callgrind is
 * told to count what runs inside of counted_call().
 *
 * Exit status: 0 once the call is made, whatever it gave; 2 for a wrong use, or a file that cannot
 * be read. */
#include <inttypes.h>
#include <stdio.h>

#include "forms.h"
#include "marks.h"

uint32_t counted_call(form *call, const struct file *file, struct output *out);

__attribute__((noinline)) uint32_t counted_call(form *call, const struct file *file,
                                                struct output *out)
{
    uint32_t number = call(file, out);
    __asm__ volatile("" ::: "memory"); /* the call returns here, and is no jump */
    return number;
}

int main(int count, char **words)
{
    static form *const forms[] = {our_schedule, our_margins};
    static struct file file;
    static struct output out;
    struct marks marks;
    unsigned chosen = count == 3 ? form_named(words[1]) : NO_FORM;
    if (chosen == NO_FORM || !take_file(words[2], &file)) {
        fputs("counted_call: it is counted_call schedule|bound-and-margins FILE\n", stderr);
        return 2;
    }
    bool counts = open_marks(&marks);
    if (counts)
        mark(&marks);
    uint32_t number = counted_call(forms[chosen], &file, &out);
    if (counts)
        fprintf(stderr, "%" PRIu64 "\n", mark(&marks));
    return fwrite(&number, sizeof number, 1, stdout) == 1
            && fwrite(&out, sizeof out, 1, stdout) == 1 && fflush(stdout) == 0
        ? 0 : 2;
}
