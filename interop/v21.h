/* V.21 at 300 bit/s: what turns the library's bits into audio. The modem is spandsp's. */
#ifndef INTEROP_V21_H
#define INTEROP_V21_H

#include <spandsp.h>
#include <stdbool.h>
#include <stddef.h>
#include <stdint.h>

/* Audio passes in blocks of 20 ms, 8,000 samples a second; a block takes six bits. */
enum { BLOCK_SAMPLES = 160, BLOCK_MS = 20, BLOCK_BITS = 6 };

/* Every part of a sequence takes ten bits: the ten 1s, the sync, and each octet with its start and stop bit. */
enum { V21_FRAME_BITS = 10, V21_MOST_BITS = 4096 };

struct v21_sender {
    const fsk_spec_t *channel;
    fsk_tx_state_t *modem;
    uint8_t bits[V21_MOST_BITS];
    size_t len;
    size_t next;
    bool again;   /* start over at the end, until something else is to be sent */
    bool sending; /* the carrier is on */
};

/* A caller sends on channel 1, an answerer on channel 2. */
void v21_open(struct v21_sender *sender, bool caller);
void v21_close(struct v21_sender *sender);

/* From now on these bits, once or over and over. Where bits are being sent, their current octet is completed first. */
void v21_send(struct v21_sender *sender, const uint8_t *bits, size_t len, bool again);

/* These bits behind those that are being sent. Where none follow, the carrier goes off behind them. */
void v21_add(struct v21_sender *sender, const uint8_t *bits, size_t len);
void v21_stop(struct v21_sender *sender);

/* The next block of audio: silence where nothing is sent. */
void v21_speak(struct v21_sender *sender, int16_t audio[BLOCK_SAMPLES]);

#endif
