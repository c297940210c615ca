/* The other end of a call: spandsp's V.8, and the host that it leaves its decisions to. */
#ifndef INTEROP_THEIR_END_H
#define INTEROP_THEIR_END_H

#include "tailsprig.h"
#include "v21.h"

struct their_end {
    v8_state_t *v8;
    bool caller;
    bool narrows;          /* its host takes out of an offered CM what it does not have */
    v8_parms_t own;        /* what it was told that it has */
    v8_parms_t understood; /* our menu, as it reported it */
    bool reported_menu;
    v8_parms_t last; /* its latest report */
    bool over;
};

void their_end_start(struct their_end *end, bool caller, bool narrows, v8_parms_t own);
void their_end_free(struct their_end *end);

void their_end_speak(struct their_end *end, int16_t audio[BLOCK_SAMPLES]);
void their_end_hear(struct their_end *end, const int16_t audio[BLOCK_SAMPLES]);

/* What its host goes on with, in the numbers of tailsprig_choice: spandsp reports the menus and leaves the choice open. */
int32_t their_end_choice(const struct their_end *end);

/* A set of spandsp's modulations as items, bit i for item i. */
uint16_t items_of(unsigned int modulations);

/* What spandsp reported, in the form that our reader gives. */
struct tailsprig_offer offer_of(const v8_parms_t *parms);

#endif
