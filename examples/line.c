/*
 * A line's loop: what a host does with bits, tones and time around the library. Two lines, a caller and an answerer, are joined here so
 * that the example runs by itself: each bit that one sends the other hears, some bit times later. The caller sends CI on and off until
 * the answerer is there. It prints what each end enters and exits with 0 where both go on with the same choice.
 *
 * The parts to take over are `line_start`, `line_step`, `line_hear` and `line_bit`; tones come from a line card, here from the other
 * line's state.
 */
#include "tailsprig.h"

#include <stdbool.h>
#include <stdio.h>
#include <string.h>

/* What a host keeps for each line. */
struct line {
    const char *name;
    struct tailsprig_record own;
    struct tailsprig_session session;
    struct tailsprig_listener heard;
    uint8_t menu[TAILSPRIG_MENU_MOST]; /* the CM or JM of this end */
    size_t menu_len;
    uint8_t bits[TAILSPRIG_MOST_BITS + TAILSPRIG_CJ_BITS]; /* one copy of it and CJ behind it, a byte for each bit */
    size_t len, sent; /* the bits of the copy, and how many of what is sent are on the line */
};

static void show(const struct line *line, uint32_t now, const char *what)
{
    printf("%5u ms  %-8s  %s", (unsigned)now, line->name, what);
}

static void show_menu(const struct line *line)
{
    printf(", sends");
    for (size_t i = 0; i < line->menu_len; i++)
        printf(" %02X", line->menu[i]);
}

/* Writes one copy of a menu that this end made, and CJ behind it. A made menu is never refused by the writer. */
static void write_copy(struct line *line)
{
    line->len = (size_t)tailsprig_write(TAILSPRIG_MENU, line->menu, line->menu_len, 1, line->bits, sizeof line->bits);
    tailsprig_write_cj(line->bits + line->len, sizeof line->bits - line->len);
    line->sent = 0;
}

/* What is sent in a state ends at this place of the bits: a copy of the menu, or CJ behind it; 0 where nothing is sent. */
static size_t end_of(const struct line *line)
{
    switch (line->session.state) {
    case TAILSPRIG_STATE_MENU:
    case TAILSPRIG_STATE_JOINT:
        return line->len;
    case TAILSPRIG_STATE_CLOSING:
        return line->len + TAILSPRIG_CJ_BITS;
    default:
        return 0;
    }
}

/* The place of the next bit. The caller finishes the octet that it is sending with its stop bit, and CJ follows; JM is cut off. */
static size_t place_of(const struct line *line)
{
    if (line->session.state == TAILSPRIG_STATE_CLOSING && line->sent <= line->len && line->sent % TAILSPRIG_OCTET_BITS == 0)
        return line->len;
    return line->sent;
}

/* A state is entered. What it asks of the line is in the two functions above. */
static void line_entered(struct line *line, int32_t state, uint32_t now)
{
    static const char *const names[] = {"", "still", "calling", "quiet", "menu", "closing", "pause", "still", "answering", "joint"};

    show(line, now, names[state]);
    if (state == TAILSPRIG_STATE_MENU || state == TAILSPRIG_STATE_JOINT)
        show_menu(line);
    else if (state == TAILSPRIG_STATE_CLOSING)
        printf(", sends CJ behind %u bits",
               (unsigned)((TAILSPRIG_OCTET_BITS - line->sent % TAILSPRIG_OCTET_BITS) % TAILSPRIG_OCTET_BITS));
    printf("\n");
}

/* A call starts: session and listener are made anew, so that nothing of the call before counts. */
static void line_start(struct line *line, struct tailsprig_session session)
{
    line->session = session;
    line->heard = tailsprig_fresh();
    line->sent = 0;
}

/* An event, with its time: the session that comes back is kept whatever the code is. With 0 a tone may have been noted in it. */
static void line_step(struct line *line, uint8_t event, int32_t value, uint32_t now)
{
    struct tailsprig_step_taken taken = tailsprig_step(line->session, event, value, now);

    line->session = taken.session;
    if (taken.code < 0 || taken.code == 0)
        return; /* a refusal, or the state is the same */
    if (taken.code < TAILSPRIG_ENDED) {
        line_entered(line, taken.code, now);
        return;
    }
    show(line, now, "over");
    if (taken.code >= TAILSPRIG_GO_ON)
        printf(", goes on with %d\n", (int)(taken.code - TAILSPRIG_GO_ON));
    else
        printf(", ended %d\n", (int)(taken.code - TAILSPRIG_ENDED));
}

/* A menu that was heard twice: the caller's answer to its CM, or a CM to answer. */
static void line_agreed(struct line *line, uint32_t now)
{
    const uint8_t *menu = line->heard.msg.octets;
    size_t len = line->heard.msg.len;

    if (line->session.state == TAILSPRIG_STATE_MENU) {
        line_step(line, TAILSPRIG_EVENT_AGREED_JM, tailsprig_choice(line->menu, line->menu_len, menu, len), now);
    } else if (line->session.state == TAILSPRIG_STATE_ANSWERING) {
        int32_t made = tailsprig_jm(line->own, menu, len, line->menu, sizeof line->menu);

        if (made < 0)
            return; /* our record is bad, or JM too long: nothing to send and no choice, so no event; a tick ends the call */
        line->menu_len = (size_t)made;
        write_copy(line);
        line_step(line, TAILSPRIG_EVENT_AGREED_CM, tailsprig_choice(menu, len, line->menu, line->menu_len), now);
    }
}

/* A bit from the line; without a carrier there is none. */
static void line_hear(struct line *line, uint8_t bit, uint32_t now)
{
    if (bit == TAILSPRIG_SILENCE)
        return;
    switch (tailsprig_hear(&line->heard, bit)) {
    case TAILSPRIG_HEARD_AGREED:
        line_agreed(line, now);
        break;
    case TAILSPRIG_HEARD_CJ:
        if (line->session.end == TAILSPRIG_ANSWERER)
            line_step(line, TAILSPRIG_EVENT_CJ, 0, now);
        break;
    default: /* nothing, a CI, a menu that is heard for the first time, or a refusal: noise on the line */
        break;
    }
}

/* The next bit of CI, or silence: in an off period, and behind the last bit that is left once ANSam is heard. */
static uint8_t line_ci(struct line *line)
{
    uint8_t bit = TAILSPRIG_SILENCE;
    struct tailsprig_bits_drawn drawn = tailsprig_draw(line->session, &bit, 1);

    line->session = drawn.session;
    return bit;
}

/* The next bit to the line, or silence. CI is drawn as it is sent, a menu is sent until the state changes, CJ once. */
static uint8_t line_bit(struct line *line, uint32_t now)
{
    size_t end = end_of(line), at = place_of(line);

    line->sent = 0;
    if (line->session.state == TAILSPRIG_STATE_CALLING)
        return line_ci(line);
    if (end <= at)
        return TAILSPRIG_SILENCE;

    uint8_t bit = line->bits[at];

    if (at + 1 < end)
        line->sent = at + 1;
    else if (line->session.state == TAILSPRIG_STATE_CLOSING)
        line_step(line, TAILSPRIG_EVENT_CJ_SENT, 0, now);
    return bit;
}

/* A record with modes for data alone. */
static struct tailsprig_record for_data(uint16_t items, uint8_t lapm)
{
    struct tailsprig_record own;

    memset(&own, 0, sizeof own);
    own.functions[TAILSPRIG_FUNCTION_DATA - 1].available = 1;
    own.functions[TAILSPRIG_FUNCTION_DATA - 1].items = items;
    own.home = TAILSPRIG_FUNCTION_DATA;
    own.lapm = lapm;
    return own;
}

/* CI is on for half a second and off for one and a half; the answerer's telephone rings for a while first. */
enum { CI_ON = 5, CI_OFF = 450, RINGS_MS = 3120 };

/* One way of the line: a bit arrives so many bit times after it was sent. */
enum { DELAY = 7 };

struct way {
    uint8_t bits[DELAY];
    size_t next;
};

static uint8_t way_pass(struct way *way, uint8_t bit)
{
    uint8_t arriving = way->bits[way->next];

    way->bits[way->next] = bit;
    way->next = (way->next + 1) % DELAY;
    return arriving;
}

int main(void)
{
    struct line caller = {.name = "caller",
                          .own = for_data(TAILSPRIG_V34 | TAILSPRIG_V32BIS | TAILSPRIG_V22BIS | TAILSPRIG_V21, 1)};
    struct line answerer = {.name = "answerer",
                            .own = for_data(TAILSPRIG_V32BIS | TAILSPRIG_V22BIS | TAILSPRIG_V26TER, 0)};
    struct way there = {.next = 0}, back = {.next = 0};
    const uint8_t no_blocks[1] = {0};
    int32_t made = tailsprig_cm(caller.own, TAILSPRIG_FUNCTION_DATA, no_blocks, 0, caller.menu, sizeof caller.menu);
    struct tailsprig_caller_start started = tailsprig_start_caller_default(0, TAILSPRIG_FUNCTION_DATA, CI_ON, CI_OFF);

    if (made < 0 || started.code < 0)
        return 1;
    caller.menu_len = (size_t)made;
    write_copy(&caller);
    line_start(&caller, started.session);
    line_start(&answerer, tailsprig_start_answerer(RINGS_MS)); /* ticks before that are refused, and do not count */
    memset(there.bits, TAILSPRIG_SILENCE, sizeof there.bits);
    memset(back.bits, TAILSPRIG_SILENCE, sizeof back.bits);

    /* 300 bits a second, and a tick with each; the caller's line card hears ANSam while the answerer sends it. */
    for (uint32_t n = 0; n < 30 * 300; n++) {
        uint32_t now = n * 10 / 3;

        line_step(&caller, TAILSPRIG_EVENT_TICK, 0, now);
        line_step(&answerer, TAILSPRIG_EVENT_TICK, 0, now);
        if (answerer.session.state == TAILSPRIG_STATE_ANSWERING && caller.session.state == TAILSPRIG_STATE_CALLING)
            line_step(&caller, TAILSPRIG_EVENT_ANSAM, 0, now);

        uint8_t at_answerer = way_pass(&there, line_bit(&caller, now));
        uint8_t at_caller = way_pass(&back, line_bit(&answerer, now));

        line_hear(&answerer, at_answerer, now);
        line_hear(&caller, at_caller, now);
    }

    bool on = caller.session.ended == TAILSPRIG_ENDED_GO_ON && answerer.session.ended == TAILSPRIG_ENDED_GO_ON;

    return on && caller.session.chosen == answerer.session.chosen ? 0 : 1;
}
