/*
 * Whole calls between our library and spandsp's V.8, in both roles, over V.21 audio in simulated time, and calls between
 * two ends of ours. Prints what each side understood, and exits with 1 where a call that both can agree on went otherwise.
 */
#include "our_end.h"
#include "own_calls.h"
#include "probes.h"
#include "their_end.h"
#include "words.h"

#include <stdio.h>

enum { CALL_MS = 30000 };

/* Names of the header, short enough for a table of calls. */
enum {
    V34 = TAILSPRIG_V34,
    V34HD = TAILSPRIG_V34_HALF_DUPLEX,
    V32BIS = TAILSPRIG_V32BIS,
    V22BIS = TAILSPRIG_V22BIS,
    V17 = TAILSPRIG_V17,
    V29 = TAILSPRIG_V29_HALF_DUPLEX,
    V27TER = TAILSPRIG_V27TER,
    V26TER = TAILSPRIG_V26TER,
    V21 = TAILSPRIG_V21
};

enum { H324 = TAILSPRIG_FUNCTION_H324, FAX_SENT = TAILSPRIG_FUNCTION_FAX_SENT, DATA = TAILSPRIG_FUNCTION_DATA };
enum { ANALOGUE = TAILSPRIG_PCM_ANALOGUE, DIGITAL = TAILSPRIG_PCM_DIGITAL };

struct call {
    const char *name;
    bool we_call;
    uint8_t function; /* the only one that our end has: its home, and what it asks for as caller */
    struct tailsprig_modes modes;
    bool lapm;
    bool digital;
    v8_parms_t theirs;
    bool narrows;
    bool must_agree; /* false where spandsp is known to differ: then the verdict is told and does not count */
    int32_t choice;  /* what both go on with where they must agree */
    uint8_t ended;   /* and how our session ends */
};

/* What the spandsp ends have in common. */
#define SPANDSP(...) \
    {.modem_connect_tone = MODEM_CONNECT_TONES_ANSAM_PR, .v92 = -1, .nsf = -1, .t66 = -1, __VA_ARGS__}

#define SPANDSP_DATA(...) SPANDSP(.call_function = V8_CALL_V_SERIES, __VA_ARGS__)

static const struct call CALLS[] = {
    {.name = "data, LAPM",
     .we_call = true,
     .function = DATA,
     .modes = {1, 0, V34 | V32BIS | V22BIS | V21},
     .lapm = true,
     .theirs = SPANDSP_DATA(.modulations = V8_MOD_V34 | V8_MOD_V32 | V8_MOD_V22, .protocol = V8_PROTOCOL_LAPM_V42),
     .narrows = true,
     .must_agree = true,
     .choice = 1,
     .ended = TAILSPRIG_ENDED_GO_ON},
    {.name = "data, no V.34 and no LAPM there",
     .we_call = true,
     .function = DATA,
     .modes = {1, 0, V34 | V32BIS | V22BIS | V21},
     .lapm = true,
     .theirs = SPANDSP_DATA(.modulations = V8_MOD_V32 | V8_MOD_V22),
     .narrows = true,
     .must_agree = true,
     .choice = 3,
     .ended = TAILSPRIG_ENDED_GO_ON},
    {.name = "the same, its host takes nothing out",
     .we_call = true,
     .function = DATA,
     .modes = {1, 0, V34 | V32BIS | V22BIS | V21},
     .lapm = true,
     .theirs = SPANDSP_DATA(.modulations = V8_MOD_V32 | V8_MOD_V22)},
    {.name = "LAPM that we did not offer",
     .we_call = true,
     .function = DATA,
     .modes = {1, 0, V34 | V32BIS},
     .theirs = SPANDSP_DATA(.modulations = V8_MOD_V34 | V8_MOD_V32, .protocol = V8_PROTOCOL_LAPM_V42),
     .narrows = true},
    {.name = "fax, V.17",
     .we_call = true,
     .function = FAX_SENT,
     .modes = {1, 0, V17 | V29 | V27TER},
     .theirs = SPANDSP(.call_function = V8_CALL_T30_TX, .modulations = V8_MOD_V17 | V8_MOD_V29 | V8_MOD_V27TER),
     .narrows = true,
     .must_agree = true,
     .choice = 5,
     .ended = TAILSPRIG_ENDED_GO_ON},
    {.name = "fax, V.34 half duplex",
     .we_call = true,
     .function = FAX_SENT,
     .modes = {1, 0, V34HD | V17 | V29},
     .theirs = SPANDSP(.call_function = V8_CALL_T30_TX, .modulations = V8_MOD_V34HDX | V8_MOD_V17 | V8_MOD_V29),
     .narrows = true},
    {.name = "nothing in common",
     .we_call = true,
     .function = DATA,
     .modes = {1, 0, V22BIS | V21},
     .theirs = SPANDSP_DATA(.modulations = V8_MOD_V34 | V8_MOD_V32),
     .narrows = true,
     .must_agree = true,
     .choice = 0,
     .ended = TAILSPRIG_ENDED_CLEARED},
    {.name = "PCM, we are analogue",
     .we_call = true,
     .function = DATA,
     .modes = {1, ANALOGUE, V34},
     .theirs = SPANDSP_DATA(.modulations = V8_MOD_V90 | V8_MOD_V34 | V8_MOD_V32,
                            .pstn_access = V8_PSTN_ACCESS_DCE_ON_DIGITAL,
                            .pcm_modem_availability = V8_PSTN_PCM_MODEM_V90_V92_DIGITAL),
     .narrows = true,
     .must_agree = true,
     .choice = TAILSPRIG_PCM + DIGITAL,
     .ended = TAILSPRIG_ENDED_GO_ON},
    {.name = "PCM that we did not offer",
     .we_call = true,
     .function = DATA,
     .modes = {1, 0, V34 | V32BIS},
     .theirs = SPANDSP_DATA(.modulations = V8_MOD_V90 | V8_MOD_V34 | V8_MOD_V32,
                            .pstn_access = V8_PSTN_ACCESS_DCE_ON_DIGITAL,
                            .pcm_modem_availability = V8_PSTN_PCM_MODEM_V90_V92_DIGITAL),
     .narrows = true},
    {.name = "function not there",
     .we_call = true,
     .function = H324,
     .modes = {1, 0, V34 | V32BIS},
     .theirs = SPANDSP_DATA(.modulations = V8_MOD_V34 | V8_MOD_V32),
     .narrows = true,
     .must_agree = true,
     .choice = 0,
     .ended = TAILSPRIG_ENDED_CLEARED},
    {.name = "the same, its host takes nothing out",
     .we_call = true,
     .function = H324,
     .modes = {1, 0, V34 | V32BIS},
     .theirs = SPANDSP_DATA(.modulations = V8_MOD_V34 | V8_MOD_V32)},
    {.name = "answered with ANS, not ANSam",
     .we_call = true,
     .function = DATA,
     .modes = {1, 0, V34 | V32BIS},
     .theirs = {.modem_connect_tone = MODEM_CONNECT_TONES_ANS_PR, .t66 = -1, .call_function = V8_CALL_V_SERIES},
     .must_agree = true,
     .choice = 0,
     .ended = TAILSPRIG_ENDED_LEFT},
    {.name = "data, LAPM",
     .function = DATA,
     .modes = {1, 0, V34 | V32BIS | V22BIS | V21},
     .lapm = true,
     .theirs = SPANDSP_DATA(.modulations = V8_MOD_V34 | V8_MOD_V32 | V8_MOD_V22, .protocol = V8_PROTOCOL_LAPM_V42),
     .must_agree = true,
     .choice = 1,
     .ended = TAILSPRIG_ENDED_GO_ON},
    {.name = "data, no V.34 and no LAPM here",
     .function = DATA,
     .modes = {1, 0, V32BIS | V22BIS | V26TER},
     .theirs = SPANDSP_DATA(.modulations = V8_MOD_V34 | V8_MOD_V32 | V8_MOD_V22 | V8_MOD_V21,
                            .protocol = V8_PROTOCOL_LAPM_V42),
     .must_agree = true,
     .choice = 3,
     .ended = TAILSPRIG_ENDED_GO_ON},
    {.name = "fax, V.17",
     .function = FAX_SENT,
     .modes = {1, 0, V17 | V29 | V27TER},
     .theirs = SPANDSP(.call_function = V8_CALL_T30_TX, .modulations = V8_MOD_V17 | V8_MOD_V29),
     .must_agree = true,
     .choice = 5,
     .ended = TAILSPRIG_ENDED_GO_ON},
    {.name = "fax, V.34 half duplex",
     .function = FAX_SENT,
     .modes = {1, 0, V34HD | V17 | V29},
     .theirs = SPANDSP(.call_function = V8_CALL_T30_TX, .modulations = V8_MOD_V34HDX | V8_MOD_V17 | V8_MOD_V29)},
    {.name = "nothing in common",
     .function = DATA,
     .modes = {1, 0, V17},
     .theirs = SPANDSP_DATA(.modulations = V8_MOD_V34 | V8_MOD_V32 | V8_MOD_V22),
     .must_agree = true,
     .choice = 0,
     .ended = TAILSPRIG_ENDED_CLEARED},
    {.name = "PCM, we are analogue",
     .function = DATA,
     .modes = {1, ANALOGUE, V34 | V32BIS},
     .theirs = SPANDSP_DATA(.modulations = V8_MOD_V90 | V8_MOD_V34, .pstn_access = V8_PSTN_ACCESS_DCE_ON_DIGITAL,
                            .pcm_modem_availability = V8_PSTN_PCM_MODEM_V90_V92_DIGITAL),
     .must_agree = true,
     .choice = TAILSPRIG_PCM + ANALOGUE,
     .ended = TAILSPRIG_ENDED_GO_ON},
    {.name = "PCM, it is analogue, no access group",
     .function = DATA,
     .modes = {1, DIGITAL, V34 | V32BIS},
     .digital = true,
     .theirs = SPANDSP_DATA(.modulations = V8_MOD_V90 | V8_MOD_V34,
                            .pcm_modem_availability = V8_PSTN_PCM_MODEM_V90_V92_ANALOGUE)},
    {.name = "function not here",
     .function = DATA,
     .modes = {1, 0, V34 | V32BIS},
     .theirs = SPANDSP(.call_function = V8_CALL_T30_TX, .modulations = V8_MOD_V17 | V8_MOD_V29),
     .must_agree = true,
     .choice = 0,
     .ended = TAILSPRIG_ENDED_CLEARED},
};
enum { CALL_COUNT = sizeof CALLS / sizeof CALLS[0] };

/* What is left of a call once it is over. */
struct outcome {
    struct our_end ours;
    struct their_end theirs;
    struct tailsprig_offer heard; /* what our reader makes of spandsp's menu */
    const char *difference;       /* NULL where both sides agree */
};

static struct tailsprig_record record_of(const struct call *call)
{
    struct tailsprig_record record = {.home = call->function, .lapm = call->lapm, .digital = call->digital};
    record.functions[call->function - 1] = call->modes;
    return record;
}

static void pass_audio(struct our_end *ours, struct their_end *theirs)
{
    int16_t from_us[BLOCK_SAMPLES];
    int16_t from_them[BLOCK_SAMPLES];
    while (ours->now < CALL_MS && !(ours->session.state == TAILSPRIG_STATE_OVER && theirs->over)) {
        our_end_speak(ours, from_us);
        their_end_speak(theirs, from_them);
        our_end_hear(ours, from_them);
        their_end_hear(theirs, from_us);
        our_end_tick(ours);
    }
}

/* The access group itself is not compared: spandsp does not tell one without options from none. */
static bool same_offer(struct tailsprig_offer a, struct tailsprig_offer b)
{
    return a.function == b.function && a.items == b.items && a.pcm == b.pcm && a.lapm == b.lapm &&
           a.access_options == b.access_options;
}

static bool has_mode(const v8_parms_t *parms, int32_t choice)
{
    return choice <= 0 || choice > TAILSPRIG_PCM || (items_of(parms->modulations) & (1u << choice)) != 0;
}

/* The first of these that is so, in plain words. */
static const char *difference_of(const struct outcome *outcome)
{
    const struct our_end *ours = &outcome->ours;
    const struct their_end *theirs = &outcome->theirs;
    /* What spandsp meant to say: its own modes as caller, as answerer what its host left in the offered CM. */
    uint16_t meant = items_of(theirs->caller ? theirs->own.modulations : theirs->last.modulations);

    if (ours->heard.len == 0)
        return ours->session.ended == TAILSPRIG_ENDED_LEFT ? NULL : "no menu was agreed";
    if (!same_offer(offer_of(&theirs->understood), tailsprig_read(ours->sent.octets, ours->sent.len).offer))
        return "it misread our menu";
    if (ours->choice == -TAILSPRIG_NOT_OFFERED)
        return "its JM claims what CM did not offer";
    if (!theirs->caller && outcome->heard.lapm && !ours->record.lapm)
        return "its JM says LAPM, which CM did not";
    if (meant & ~outcome->heard.items)
        return "its menu leaves out a mode that it has";
    if (theirs->caller && theirs->own.pcm_modem_availability != outcome->heard.pcm)
        return "its PCM group comes without an access group";
    if (ours->choice != their_end_choice(theirs))
        return "it goes on with another mode";
    if (!theirs->caller && theirs->own.call_function != outcome->heard.function)
        return "its JM names a function that it lacks";
    if (!has_mode(&theirs->own, ours->choice))
        return "its JM names a mode that it lacks";
    return NULL;
}

static void run_call(const struct call *call, struct outcome *outcome)
{
    our_end_start(&outcome->ours, call->we_call ? TAILSPRIG_CALLER : TAILSPRIG_ANSWERER, record_of(call), call->function,
                  NO_BLOCKS, 0);
    their_end_start(&outcome->theirs, !call->we_call, call->narrows, call->theirs);
    pass_audio(&outcome->ours, &outcome->theirs);
    our_end_free(&outcome->ours);
    their_end_free(&outcome->theirs);
    outcome->heard = tailsprig_read(outcome->ours.heard.octets, outcome->ours.heard.len).offer;
    outcome->difference = difference_of(outcome);
}

static bool as_expected(const struct call *call, const struct outcome *outcome)
{
    return outcome->difference == NULL && outcome->ours.choice == call->choice && outcome->ours.session.ended == call->ended;
}

static void print_menus(const struct outcome *outcomes)
{
    printf("| | we | call | we sent | spandsp got | spandsp sent | we read |\n|---|---|---|---|---|---|---|\n");
    for (int i = 0; i < CALL_COUNT; i++) {
        const struct our_end *ours = &outcomes[i].ours;
        const struct their_end *theirs = &outcomes[i].theirs;
        char sent[WORDS_ROOM], got[WORDS_ROOM], heard[WORDS_ROOM], read[WORDS_ROOM];
        printf("| %d | %s | %s | %s | %s | %s | %s |\n", i + 1, CALLS[i].we_call ? "call" : "answer", CALLS[i].name,
               words_of_octets(sent, &ours->sent),
               theirs->reported_menu ? words_of_offer(got, offer_of(&theirs->understood)) : "-",
               words_of_octets(heard, &ours->heard), ours->heard.len > 0 ? words_of_offer(read, outcomes[i].heard) : "-");
    }
}

static void print_endings(const struct outcome *outcomes)
{
    printf("\n| | we choose | spandsp's host | we end | spandsp ends | s | verdict |\n|---|---|---|---|---|---|---|\n");
    for (int i = 0; i < CALL_COUNT; i++) {
        const struct outcome *outcome = &outcomes[i];
        char ours[WORDS_ROOM], theirs[WORDS_ROOM];
        printf("| %d | %s | %s | %s | %s | %.1f | %s%s |\n", i + 1, words_of_choice(ours, outcome->ours.choice),
               words_of_choice(theirs, their_end_choice(&outcome->theirs)), word_of_ending(&outcome->ours.session),
               word_of_status(outcome->theirs.last.status), outcome->ours.now / 1000.0,
               outcome->difference == NULL ? "agree" : "differs: ", outcome->difference == NULL ? "" : outcome->difference);
    }
}

static int count_failures(const struct outcome *outcomes)
{
    int failures = 0;
    for (int i = 0; i < CALL_COUNT; i++) {
        if (!CALLS[i].must_agree || as_expected(&CALLS[i], &outcomes[i]))
            continue;
        printf("FAILED: call %d had to be agreed\n", i + 1);
        failures++;
    }
    return failures;
}

int main(void)
{
    static struct outcome outcomes[CALL_COUNT];
    for (int i = 0; i < CALL_COUNT; i++)
        run_call(&CALLS[i], &outcomes[i]);
    print_menus(outcomes);
    print_endings(outcomes);
    printf("\n");
    int failures = run_probes();
    printf("\n");
    failures += run_own_calls();
    failures += count_failures(outcomes);
    printf(failures == 0 ? "\nas expected\n" : "\n%d not as expected\n", failures);
    return failures == 0 ? 0 : 1;
}
