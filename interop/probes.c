#include "probes.h"

#include "our_end.h"
#include "their_end.h"
#include "words.h"

#include <signal.h>
#include <stdio.h>
#include <string.h>
#include <sys/resource.h>
#include <sys/wait.h>
#include <unistd.h>

enum { FAX_SENT = TAILSPRIG_FUNCTION_FAX_SENT, HANG_CPU_SECONDS = 1, LISTEN_MS = 15000, CALL_MS = 6000 };

/* Data with LAPM; the same with a group of tag 15 behind it, that is empty; and with the shortest block in it. */
static const uint8_t CM[] = {0xC1, 0x45, 0x13, 0x90, 0x2A};
static const uint8_t CM_WITH_TAG_15[] = {0xC1, 0x45, 0x13, 0x90, 0x2A, 0x0F};
static const uint8_t CM_WITH_BLOCK[] = {0xC1, 0x45, 0x13, 0x90, 0x2A, 0x0F, 0x12, 0x50, 0x55, 0x11, 0x10};

static const v8_parms_t DATA_ONLY = {
    .modem_connect_tone = MODEM_CONNECT_TONES_ANSAM_PR,
    .send_ci = 1,
    .v92 = -1,
    .call_function = V8_CALL_V_SERIES,
    .modulations = V8_MOD_V34 | V8_MOD_V32,
    .nsf = -1,
    .t66 = -1,
};

/* Plays these bits to a spandsp that answers, and to one of our listeners where there is one; then silence up to ms. */
static void play(struct their_end *theirs, struct our_end *ours, const uint8_t *bits, size_t len, bool again, uint32_t ms)
{
    struct v21_sender line;
    int16_t audio[BLOCK_SAMPLES];
    int16_t answer_tone[BLOCK_SAMPLES];
    v21_open(&line, true);
    v21_send(&line, bits, len, again);
    for (uint32_t now = 0; now < ms; now += BLOCK_MS) {
        v21_speak(&line, audio);
        their_end_speak(theirs, answer_tone);
        their_end_hear(theirs, audio);
        if (ours != NULL)
            our_end_hear(ours, audio);
    }
    v21_close(&line);
}

/* Our CI, on and off while nobody answers. Its function shows in what spandsp reports when no CM follows. */
static int probe_ci(void)
{
    const struct tailsprig_record fax = {.home = FAX_SENT, .functions[FAX_SENT - 1] = {.available = 1}};
    struct their_end theirs;
    struct our_end ours, listener;
    int16_t audio[BLOCK_SAMPLES];
    int16_t answer_tone[BLOCK_SAMPLES];
    their_end_start(&theirs, false, false, DATA_ONLY);
    our_end_start(&ours, TAILSPRIG_CALLER, fax, FAX_SENT, NO_BLOCKS, 0);
    our_end_start(&listener, TAILSPRIG_ANSWERER, fax, 0, NO_BLOCKS, 0);
    while (ours.now < CALL_MS) {
        our_end_speak(&ours, audio);
        their_end_speak(&theirs, answer_tone);
        their_end_hear(&theirs, audio);
        our_end_hear(&listener, audio);
        our_end_tick(&ours);
    }
    our_end_free(&ours);
    our_end_free(&listener);
    their_end_free(&theirs);
    printf("| our CI for '%s', on and off, for %d s without an answer | it reports '%s'; our listener: %d CI heard |\n",
           word_of_function(FAX_SENT), CALL_MS / 1000, word_of_function((unsigned int)theirs.last.call_function),
           listener.ci_heard);
    return theirs.last.call_function == FAX_SENT && listener.ci_heard > 0 ? 0 : 1;
}

/* Are so many copies enough? For our listener a menu ends with the ten 1s behind it, whatever they lead to. */
static int probe_copies(uint16_t copies, size_t ones)
{
    uint8_t bits[3 * TAILSPRIG_MOST_BITS];
    size_t len = (size_t)tailsprig_write(TAILSPRIG_MENU, CM, sizeof CM, copies, bits, sizeof bits);
    memset(bits + len, 1, ones);
    struct their_end theirs;
    struct our_end ours;
    struct tailsprig_record nothing = {.home = 6, .functions[5] = {.available = 1}};
    their_end_start(&theirs, false, false, DATA_ONLY);
    our_end_start(&ours, TAILSPRIG_ANSWERER, nothing, 0, NO_BLOCKS, 0);
    while (ours.session.state != TAILSPRIG_STATE_ANSWERING)
        our_end_tick(&ours);
    play(&theirs, &ours, bits, len + ones, false, CALL_MS);
    bool agreed = ours.session.state == TAILSPRIG_STATE_JOINT;
    printf("| our CM, %u copies and %zu 1s, then silence | %s; our listener: %s |\n", copies, ones,
           theirs.reported_menu ? "it reports the menu" : "it reports no menu", agreed ? "agreed" : "not agreed");
    our_end_free(&ours);
    their_end_free(&theirs);
    return agreed ? 0 : 1;
}

static void play_tag_15(const uint8_t *cm, size_t cm_len)
{
    const struct rlimit little = {HANG_CPU_SECONDS, HANG_CPU_SECONDS + 1};
    const struct rlimit none = {0, 0};
    uint8_t bits[TAILSPRIG_MOST_BITS];
    int32_t len = tailsprig_write(TAILSPRIG_MENU, cm, cm_len, 1, bits, sizeof bits);
    struct their_end theirs;
    setrlimit(RLIMIT_CPU, &little);
    setrlimit(RLIMIT_CORE, &none);
    their_end_start(&theirs, false, false, DATA_ONLY);
    play(&theirs, NULL, bits, (size_t)len, true, CALL_MS);
    _exit(theirs.reported_menu ? 0 : 1);
}

/* In a process of its own, as it may not come back. Our reader passes over the group. */
static int probe_tag_15(const char *group, const uint8_t *cm, size_t cm_len)
{
    fflush(stdout);
    pid_t child = fork();
    if (child == 0)
        play_tag_15(cm, cm_len);
    int status = 0;
    const char *what = "it reports no menu";
    if (child < 0 || waitpid(child, &status, 0) < 0)
        what = "not run";
    else if (WIFSIGNALED(status) && WTERMSIG(status) == SIGXCPU)
        what = "v8_rx does not return; stopped after a second of processor time";
    else if (WIFSIGNALED(status))
        what = "it crashed";
    else if (WEXITSTATUS(status) == 0)
        what = "it reports the menu";
    int32_t code = tailsprig_read(cm, cm_len).code;
    printf("| our CM with a group of tag 15, %s | %s; our reader: %s |\n", group, what, code == 0 ? "read" : "refused");
    return code == 0 ? 0 : 1;
}

/* V.92's own packets, counted by their ten 1s and sync. */
struct v92_counter {
    uint32_t past;
    int packets;
};

static void count_v92(void *user, int bit)
{
    struct v92_counter *counter = user;
    if (bit < 0)
        return;
    counter->past = (counter->past << 1 | (uint32_t)bit) & 0xFFFFF;
    if (counter->past == 0xFFD55)
        counter->packets++;
}

/* It is asked for CI, and hears nothing. */
static void probe_their_ci(void)
{
    struct their_end theirs;
    struct our_end ours;
    int16_t audio[BLOCK_SAMPLES];
    const int16_t silence[BLOCK_SAMPLES] = {0};
    their_end_start(&theirs, true, false, DATA_ONLY);
    our_end_start(&ours, TAILSPRIG_ANSWERER, (struct tailsprig_record){0}, 0, NO_BLOCKS, 0);
    for (uint32_t now = 0; now < LISTEN_MS; now += BLOCK_MS) {
        their_end_speak(&theirs, audio);
        our_end_hear(&ours, audio);
        their_end_hear(&theirs, silence);
    }
    printf("| it calls with send_ci = 1, 15 s without an answer | %d CI heard; its status: %s |\n", ours.ci_heard,
           word_of_status(theirs.last.status));
    our_end_free(&ours);
    their_end_free(&theirs);
}

/* It is asked for no V.92 packets, and hears ANSam. */
static void probe_their_v92(void)
{
    struct their_end theirs;
    struct v92_counter counter = {0, 0};
    int16_t audio[BLOCK_SAMPLES];
    fsk_rx_state_t *demodulator =
        fsk_rx_init(NULL, &preset_fsk_specs[FSK_V21CH1], FSK_FRAME_MODE_ASYNC, count_v92, &counter);
    modem_connect_tones_tx_state_t *answer_tone = modem_connect_tones_tx_init(NULL, MODEM_CONNECT_TONES_ANSAM_PR);
    their_end_start(&theirs, true, false, DATA_ONLY);
    for (uint32_t now = 0; now < CALL_MS; now += BLOCK_MS) {
        their_end_speak(&theirs, audio);
        fsk_rx(demodulator, audio, BLOCK_SAMPLES);
        memset(audio, 0, sizeof audio);
        modem_connect_tones_tx(answer_tone, audio, BLOCK_SAMPLES);
        their_end_hear(&theirs, audio);
    }
    printf("| it calls with v92 = -1 and hears ANSam | %d V.92 packets heard before its CM |\n", counter.packets);
    fsk_rx_free(demodulator);
    modem_connect_tones_tx_free(answer_tone);
    their_end_free(&theirs);
}

int run_probes(void)
{
    printf("| asked | what came |\n|---|---|\n");
    int failures = probe_ci();
    failures += probe_copies(2, V21_FRAME_BITS);
    failures += probe_copies(3, 0);
    failures += probe_tag_15("empty", CM_WITH_TAG_15, sizeof CM_WITH_TAG_15);
    failures += probe_tag_15("a block in it", CM_WITH_BLOCK, sizeof CM_WITH_BLOCK);
    probe_their_ci();
    probe_their_v92();
    return failures;
}
