#include "words.h"

#include <stdarg.h>
#include <stdio.h>
#include <string.h>

static const char *const ITEM_NAMES[] = {
    "(PCM)",   "V.34",    "V.34hd", "V.32bis", "V.22bis", "V.17", "V.29",
    "V.27ter", "V.26ter", "V.26bis", "V.23",    "V.23hd",  "V.21",
};
enum { ITEMS = sizeof ITEM_NAMES / sizeof ITEM_NAMES[0] };

static const char *const FUNCTION_NAMES[] = {
    "function 0", "H.324", "textphone", "videotex", "fax sent", "fax received", "data", "function 7",
};

static const char *const PCM_NAMES[] = {"analogue", "digital", "V.91"};

static void add(char *out, const char *form, ...)
{
    size_t used = strlen(out);
    va_list values;
    va_start(values, form);
    vsnprintf(out + used, WORDS_ROOM - used, form, values);
    va_end(values);
}

static void add_pcm(char *out, unsigned int options)
{
    for (unsigned int i = 0; i < 3; i++)
        if (options & (1u << i))
            add(out, " %s", PCM_NAMES[i]);
}

const char *word_of_function(unsigned int function)
{
    return FUNCTION_NAMES[function % 8];
}

const char *words_of_octets(char *out, const struct menu *menu)
{
    strcpy(out, menu->len == 0 ? "-" : "");
    for (size_t i = 0; i < menu->len; i++)
        add(out, i == 0 ? "%02X" : " %02X", menu->octets[i]);
    return out;
}

const char *words_of_offer(char *out, struct tailsprig_offer offer)
{
    strcpy(out, word_of_function(offer.function));
    add(out, offer.items == 0 ? ": no mode" : ":");
    for (int item = 0; item < ITEMS; item++)
        if (offer.items & (1u << item))
            add(out, " %s", ITEM_NAMES[item]);
    if (offer.pcm != 0) {
        add(out, ", PCM");
        add_pcm(out, offer.pcm);
    }
    if (offer.lapm)
        add(out, ", LAPM");
    if (offer.access_options & 4)
        add(out, ", digital line");
    return out;
}

const char *words_of_choice(char *out, int32_t choice)
{
    strcpy(out, "");
    if (choice < 0)
        add(out, "refusal %d", (int)-choice);
    else if (choice == 0)
        add(out, "none");
    else if (choice < ITEMS)
        add(out, "%s", ITEM_NAMES[choice]);
    else {
        add(out, "PCM");
        add_pcm(out, (unsigned int)(choice - TAILSPRIG_PCM));
    }
    return out;
}

const char *word_of_ending(const struct tailsprig_session *session)
{
    switch (session->ended) {
    case TAILSPRIG_ENDED_LEFT:
        return "left";
    case TAILSPRIG_ENDED_LATE:
        return "late";
    case TAILSPRIG_ENDED_CLEARED:
        return "cleared";
    case TAILSPRIG_ENDED_NOT_OFFERED:
        return "not offered";
    case TAILSPRIG_ENDED_GO_ON:
        return "go on";
    default:
        return "not over";
    }
}

const char *word_of_status(int status)
{
    switch (status) {
    case V8_STATUS_IN_PROGRESS:
        return "in progress";
    case V8_STATUS_V8_OFFERED:
        return "offered";
    case V8_STATUS_V8_CALL:
        return "V.8 call";
    case V8_STATUS_NON_V8_CALL:
        return "non-V.8 call";
    case V8_STATUS_FAILED:
        return "failed";
    default:
        return "unknown";
    }
}
