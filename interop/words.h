/* Menus, choices and endings in words, for the table. */
#ifndef INTEROP_WORDS_H
#define INTEROP_WORDS_H

#include "our_end.h"

enum { WORDS_ROOM = 256 };

/* Each writes at most WORDS_ROOM bytes and answers where it wrote. */
const char *words_of_octets(char *out, const struct menu *menu);
const char *words_of_offer(char *out, struct tailsprig_offer offer);
const char *words_of_choice(char *out, int32_t choice);

const char *word_of_function(unsigned int function);
const char *word_of_ending(const struct tailsprig_session *session);
const char *word_of_status(int status);

#endif
