/* Calls between two ends of ours over the same audio, for what spandsp cannot be asked: a CM with a field. */
#ifndef INTEROP_OWN_CALLS_H
#define INTEROP_OWN_CALLS_H

/* Makes them, prints a table, and answers how many went otherwise than they have to. */
int run_own_calls(void);

#endif
