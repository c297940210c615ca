#include "our_end.h"

#include <string.h>

/* Half a second of CI and one and a half of silence: both are whole blocks of audio, and so is each CI. */
enum { CI_ON = 5, CI_OFF = 450 };

static void send_menu(struct our_end *end)
{
    uint8_t bits[TAILSPRIG_MOST_BITS];
    int32_t count = tailsprig_write(TAILSPRIG_MENU, end->sent.octets, end->sent.len, 1, bits, sizeof bits);
    if (count > 0)
        v21_send(&end->sender, bits, (size_t)count, true);
}

/* The bits of CI that the next block of audio takes; none in an off period, and behind the last. */
static void send_ci(struct our_end *end)
{
    uint8_t bits[BLOCK_BITS];
    struct tailsprig_bits_drawn drawn = tailsprig_draw(end->session, bits, sizeof bits);
    end->session = drawn.session;
    if (drawn.bits > 0 && bits[0] != TAILSPRIG_SILENCE)
        v21_add(&end->sender, bits, drawn.bits);
}

static void send_cj(struct our_end *end)
{
    uint8_t bits[TAILSPRIG_CJ_BITS];
    v21_send(&end->sender, bits, (size_t)tailsprig_write_cj(bits, sizeof bits), false);
}

/* What the state sends that was just entered. Menus go on without end: a peer may need more copies than we do. */
static void send_for_state(struct our_end *end)
{
    switch (end->session.state) {
    case TAILSPRIG_STATE_CALLING: /* CI goes out block by block */
    case TAILSPRIG_STATE_QUIET:   /* the modem is a bit time late: the carrier goes off by itself behind the last CI */
        break;
    case TAILSPRIG_STATE_MENU:
    case TAILSPRIG_STATE_JOINT:
        send_menu(end);
        break;
    case TAILSPRIG_STATE_CLOSING:
        send_cj(end);
        break;
    default:
        v21_stop(&end->sender);
        break;
    }
}

static void take(struct our_end *end, uint8_t event, int32_t value)
{
    struct tailsprig_step_taken step = tailsprig_step(end->session, event, value, end->now);
    end->session = step.session;
    if (step.code > 0)
        send_for_state(end);
}

static void take_agreed_menu(struct our_end *end)
{
    const struct tailsprig_message *menu = &end->listener.msg;
    bool caller = end->session.end == TAILSPRIG_CALLER;
    if (end->session.state != (caller ? TAILSPRIG_STATE_MENU : TAILSPRIG_STATE_ANSWERING))
        return;
    memcpy(end->heard.octets, menu->octets, menu->len);
    end->heard.len = menu->len;
    if (caller) {
        end->choice = tailsprig_choice(end->sent.octets, end->sent.len, menu->octets, menu->len);
        take(end, TAILSPRIG_EVENT_AGREED_JM, end->choice);
        return;
    }
    int32_t len = tailsprig_jm(end->record, menu->octets, menu->len, end->sent.octets, sizeof end->sent.octets);
    if (len < 0) /* no JM to send and no choice: the limit of the state ends the call */
        return;
    end->sent.len = (size_t)len;
    end->choice = tailsprig_choice(menu->octets, menu->len, end->sent.octets, end->sent.len);
    take(end, TAILSPRIG_EVENT_AGREED_CM, end->choice);
}

static void hear_bit(void *user, int bit)
{
    struct our_end *end = user;
    if (bit < 0) /* the demodulator tells of the carrier in the same way */
        return;
    uint8_t byte = (uint8_t)bit;
    struct tailsprig_ran ran = tailsprig_hear_many(end->listener, &byte, 1);
    end->listener = ran.rec;
    if (ran.code == TAILSPRIG_HEARD_AGREED)
        take_agreed_menu(end);
    else if (ran.code == TAILSPRIG_HEARD_CI)
        end->ci_heard++;
    else if (ran.code == TAILSPRIG_HEARD_CJ && end->session.end == TAILSPRIG_ANSWERER)
        take(end, TAILSPRIG_EVENT_CJ, 0);
}

static void hear_tone(void *user, int tone, int level, int delay)
{
    struct our_end *end = user;
    (void)level;
    (void)delay;
    if (tone == MODEM_CONNECT_TONES_ANSAM || tone == MODEM_CONNECT_TONES_ANSAM_PR)
        take(end, TAILSPRIG_EVENT_ANSAM, 0);
    else if (tone == MODEM_CONNECT_TONES_ANS || tone == MODEM_CONNECT_TONES_ANS_PR)
        take(end, TAILSPRIG_EVENT_ANS, 0);
}

const uint8_t NO_BLOCKS[1];

void our_end_start(struct our_end *end, uint8_t which, struct tailsprig_record record, uint8_t function,
                   const uint8_t *blocks, size_t blocks_len)
{
    bool caller = which == TAILSPRIG_CALLER;
    memset(end, 0, sizeof *end);
    end->listener = tailsprig_fresh();
    end->session = caller ? tailsprig_start_caller_default(0, function, CI_ON, CI_OFF).session : tailsprig_start_answerer(0);
    end->record = record;
    if (caller) {
        int32_t len = tailsprig_cm(record, function, blocks, blocks_len, end->sent.octets, sizeof end->sent.octets);
        end->sent.len = len > 0 ? (size_t)len : 0;
    }
    v21_open(&end->sender, caller);
    end->demodulator =
        fsk_rx_init(NULL, &preset_fsk_specs[caller ? FSK_V21CH2 : FSK_V21CH1], FSK_FRAME_MODE_ASYNC, hear_bit, end);
    end->answer_tone = modem_connect_tones_tx_init(NULL, MODEM_CONNECT_TONES_ANSAM_PR);
    end->tone_detector = modem_connect_tones_rx_init(NULL, MODEM_CONNECT_TONES_ANSAM_PR, hear_tone, end);
}

void our_end_free(struct our_end *end)
{
    v21_close(&end->sender);
    fsk_rx_free(end->demodulator);
    modem_connect_tones_tx_free(end->answer_tone);
    modem_connect_tones_rx_free(end->tone_detector);
}

void our_end_speak(struct our_end *end, int16_t audio[BLOCK_SAMPLES])
{
    bool sent_before = end->sender.sending;
    if (end->session.state == TAILSPRIG_STATE_CALLING)
        send_ci(end);
    v21_speak(&end->sender, audio);
    if (end->session.state == TAILSPRIG_STATE_CLOSING && sent_before && !end->sender.sending)
        take(end, TAILSPRIG_EVENT_CJ_SENT, 0);
    /* The generator starts with the 200 ms of silence that an answerer keeps first, so it runs from the start. */
    if (end->session.state == TAILSPRIG_STATE_ANSWERER_STILL || end->session.state == TAILSPRIG_STATE_ANSWERING)
        modem_connect_tones_tx(end->answer_tone, audio, BLOCK_SAMPLES);
}

void our_end_hear(struct our_end *end, const int16_t audio[BLOCK_SAMPLES])
{
    /* Started with the state: a tone told of before it would be answered 'same', and not told of again. */
    if (end->session.state == TAILSPRIG_STATE_CALLING)
        modem_connect_tones_rx(end->tone_detector, audio, BLOCK_SAMPLES);
    fsk_rx(end->demodulator, audio, BLOCK_SAMPLES);
}

void our_end_tick(struct our_end *end)
{
    end->now += BLOCK_MS;
    take(end, TAILSPRIG_EVENT_TICK, 0);
}
