/*
 * spandsp's reader of V.8 bits, as a shared object that `bench` loads. put_bit is a static function of spandsp's v8.c, so
 * that file is included whole, from spandsp's own source: -I names its folder.
 *
 * put_bit goes on with every bit, but accepts one menu in a call: once two copies in a row were equal it stores octets and
 * compares no more. So there are two ways to hear: as it stands, and re-armed, where what says that a menu was accepted is
 * cleared each time and the next copy is compared again. spandsp clears it where it starts to listen, in v8_decode_init.
 */

/* It stands in for mathematics that an old C library lacks. */
#define _FLOATING_FUDGE_H_

#include "v8.c"

#include <stdbool.h>

#define SHOWN __attribute__((visibility("default")))

/* The compiler puts put_bit itself into the loop, which is more than spandsp's own demodulator has. */
#define IN_ONE_LOOP __attribute__((flatten))

/* An answering end, which waits for CM; NULL where there is no memory. */
SHOWN v8_state_t *spandsp_answerer(void)
{
    v8_parms_t parms = {.call_function = V8_CALL_V_SERIES};
    return v8_init(NULL, false, &parms, NULL, NULL);
}

/* Starts to listen, as spandsp does when a call begins. */
SHOWN void spandsp_begin(v8_state_t *end)
{
    v8_decode_init(end);
}

SHOWN void spandsp_hear(v8_state_t *end, uint8_t bit)
{
    put_bit(end, bit);
}

SHOWN IN_ONE_LOOP void spandsp_hear_many(v8_state_t *end, const uint8_t *bits, size_t len)
{
    for (size_t at = 0; at < len; at++)
        put_bit(end, bits[at]);
}

static inline bool accepted(v8_state_t *end)
{
    if (!end->got_cm_jm)
        return false;
    end->got_cm_jm = false;
    return true;
}

/* Hears one bit, re-armed, and answers whether a menu was accepted. */
SHOWN bool spandsp_hear_rearmed(v8_state_t *end, uint8_t bit)
{
    put_bit(end, bit);
    return accepted(end);
}

/* Hears bits, re-armed, and answers how many menus were accepted. */
SHOWN IN_ONE_LOOP size_t spandsp_hear_many_rearmed(v8_state_t *end, const uint8_t *bits, size_t len)
{
    size_t menus = 0;
    for (size_t at = 0; at < len; at++) {
        put_bit(end, bits[at]);
        menus += accepted(end);
    }
    return menus;
}
