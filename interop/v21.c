#include "v21.h"

#include <string.h>

static int next_bit(void *user)
{
    struct v21_sender *sender = user;
    if (sender->next == sender->len) {
        if (!sender->again) {
            sender->sending = false;
            return SIG_STATUS_END_OF_DATA;
        }
        sender->next = 0;
    }
    return sender->bits[sender->next++];
}

void v21_open(struct v21_sender *sender, bool caller)
{
    memset(sender, 0, sizeof *sender);
    sender->channel = &preset_fsk_specs[caller ? FSK_V21CH1 : FSK_V21CH2];
    sender->modem = fsk_tx_init(NULL, sender->channel, next_bit, sender);
}

void v21_close(struct v21_sender *sender)
{
    fsk_tx_free(sender->modem);
}

/* What is left of the octet being sent, moved to the front: V.8 lets CJ follow a whole octet only (8.1.2). */
static size_t keep_rest_of_octet(struct v21_sender *sender)
{
    size_t rest = (V21_FRAME_BITS - sender->next % V21_FRAME_BITS) % V21_FRAME_BITS;
    memmove(sender->bits, sender->bits + sender->next, rest);
    return rest;
}

/* These bits behind so many that are kept at the front. */
static void send_behind(struct v21_sender *sender, size_t rest, const uint8_t *bits, size_t len, bool again)
{
    memcpy(sender->bits + rest, bits, len);
    sender->len = rest + len;
    sender->next = 0;
    sender->again = again;
    if (!sender->sending) {
        fsk_tx_restart(sender->modem, sender->channel);
        sender->sending = true;
    }
}

void v21_send(struct v21_sender *sender, const uint8_t *bits, size_t len, bool again)
{
    send_behind(sender, sender->sending ? keep_rest_of_octet(sender) : 0, bits, len, again);
}

void v21_add(struct v21_sender *sender, const uint8_t *bits, size_t len)
{
    size_t rest = sender->sending ? sender->len - sender->next : 0;
    memmove(sender->bits, sender->bits + sender->next, rest);
    send_behind(sender, rest, bits, len, false);
}

void v21_stop(struct v21_sender *sender)
{
    sender->sending = false;
}

void v21_speak(struct v21_sender *sender, int16_t audio[BLOCK_SAMPLES])
{
    memset(audio, 0, BLOCK_SAMPLES * sizeof *audio);
    if (sender->sending)
        fsk_tx(sender->modem, audio, BLOCK_SAMPLES);
}
