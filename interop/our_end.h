/* Our end of a call: the library, and what a host puts around it (V.21, ANSam, a clock). */
#ifndef INTEROP_OUR_END_H
#define INTEROP_OUR_END_H

#include "tailsprig.h"
#include "v21.h"

struct menu {
    uint8_t octets[TAILSPRIG_MOST_OCTETS];
    size_t len; /* 0 where there is no menu */
};

struct our_end {
    struct tailsprig_session session;
    struct tailsprig_listener listener;
    struct tailsprig_record record;
    uint32_t now; /* milliseconds of audio so far */

    struct menu sent;  /* a caller's CM; an answerer's JM, once a CM is agreed */
    struct menu heard; /* the agreed one */
    int32_t choice;    /* what tailsprig_choice answered */
    int ci_heard;

    struct v21_sender sender;
    fsk_rx_state_t *demodulator;
    modem_connect_tones_tx_state_t *answer_tone;
    modem_connect_tones_rx_state_t *tone_detector;
};

/* A call from time 0 on. The function is what a caller asks for, the blocks are the field of its CM; no octets, no field. */
void our_end_start(struct our_end *end, uint8_t which, struct tailsprig_record record, uint8_t function,
                   const uint8_t *blocks, size_t blocks_len);

/* Blocks for an end whose CM has no field. */
extern const uint8_t NO_BLOCKS[1];
void our_end_free(struct our_end *end);

void our_end_speak(struct our_end *end, int16_t audio[BLOCK_SAMPLES]);
void our_end_hear(struct our_end *end, const int16_t audio[BLOCK_SAMPLES]);

/* A block of time has passed. */
void our_end_tick(struct our_end *end);

#endif
