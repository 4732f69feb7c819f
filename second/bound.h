/* The bound and the margins, computed as the document says them: cut the load, add four terms. */
#ifndef BOUND_H
#define BOUND_H

#include "waits.h"

/* Each row keeps its first m steps (all, if it has fewer) and then any embedded steps that
   follow directly; the wait after its last kept step is dropped. */
struct load cut_load(const struct load *load, unsigned m);

/* The terms of a good load; the fourth is the largest W of each place (waits.h). */
uint32_t all_costs(const struct load *load);
uint32_t largest_phase(const struct load *load);
uint32_t all_embedded_waits(const struct load *load);

/* Beside a refusal (3 to 7 or 21) each of these gives 0, or no for the verdict. Rows not there have
   0. */
enum refusal bound_of(const struct load *load, uint32_t *bound);
enum refusal row_bounds_of(const struct load *load, uint32_t bounds[MOST_ROWS]);
enum refusal margins_of(const struct load *load, int32_t margins[MOST_ROWS]);
enum refusal verdict_of(const struct load *load, bool *yes);

/* The largest W of each place, nothing cut; and for each row the blame of its own cut load. */
enum refusal places_of(const struct load *load, struct place_w places[MOST_PLACES]);
enum refusal blames_of(const struct load *load, struct blame blames[MOST_ROWS]);

#endif
