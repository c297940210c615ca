/* Single questions to spandsp that no whole call answers. */
#ifndef INTEROP_PROBES_H
#define INTEROP_PROBES_H

/* Asks them all, prints a table, and answers how many went otherwise than both sides' reading of V.8 allows. */
int run_probes(void);

#endif
