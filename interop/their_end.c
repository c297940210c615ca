#include "their_end.h"

#include <string.h>

/* spandsp's name of each item, 0 to 12. */
static const unsigned int MODULATION_OF_ITEM[] = {
    V8_MOD_V90,    V8_MOD_V34,    V8_MOD_V34HDX, V8_MOD_V32, V8_MOD_V22,    V8_MOD_V17, V8_MOD_V29,
    V8_MOD_V27TER, V8_MOD_V26TER, V8_MOD_V26BIS, V8_MOD_V23, V8_MOD_V23HDX, V8_MOD_V21,
};
enum { ITEMS = sizeof MODULATION_OF_ITEM / sizeof MODULATION_OF_ITEM[0] };

uint16_t items_of(unsigned int modulations)
{
    uint16_t items = 0;
    for (int item = 0; item < ITEMS; item++)
        if (modulations & MODULATION_OF_ITEM[item])
            items |= (uint16_t)(1u << item);
    return items;
}

struct tailsprig_offer offer_of(const v8_parms_t *parms)
{
    return (struct tailsprig_offer){
        .function = (uint8_t)parms->call_function,
        .items = items_of(parms->modulations),
        .pcm = (uint8_t)parms->pcm_modem_availability,
        .lapm = parms->protocol == V8_PROTOCOL_LAPM_V42,
        .access = parms->pstn_access != 0,
        .access_options = (uint8_t)parms->pstn_access,
    };
}

/* spandsp answers with what this report holds when the host hands it back. */
static void narrow(const v8_parms_t *own, v8_parms_t *offered)
{
    if (offered->call_function == own->call_function) {
        offered->modulations &= own->modulations;
    } else {
        offered->call_function = own->call_function;
        offered->modulations = 0;
    }
}

static void on_report(void *user, v8_parms_t *report)
{
    struct their_end *end = user;
    bool has_menu = report->status == V8_STATUS_V8_OFFERED || (end->caller && report->status == V8_STATUS_V8_CALL);
    if (has_menu) {
        end->understood = *report;
        end->reported_menu = true;
    }
    if (report->status == V8_STATUS_V8_OFFERED && end->narrows)
        narrow(&end->own, report);
    end->last = *report;
    end->over = report->status != V8_STATUS_V8_OFFERED;
}

void their_end_start(struct their_end *end, bool caller, bool narrows, v8_parms_t own)
{
    memset(end, 0, sizeof *end);
    end->caller = caller;
    end->narrows = narrows;
    end->own = own;
    end->last.status = V8_STATUS_IN_PROGRESS;
    end->v8 = v8_init(NULL, caller, &own, on_report, end);
}

void their_end_free(struct their_end *end)
{
    v8_free(end->v8);
}

void their_end_speak(struct their_end *end, int16_t audio[BLOCK_SAMPLES])
{
    /* What v8_tx answers is not used: where its silence ends within a block it counts the samples behind it alone. */
    memset(audio, 0, BLOCK_SAMPLES * sizeof *audio);
    v8_tx(end->v8, audio, BLOCK_SAMPLES);
}

void their_end_hear(struct their_end *end, const int16_t audio[BLOCK_SAMPLES])
{
    v8_rx(end->v8, audio, BLOCK_SAMPLES);
}

/* The options of JM that pair with those of CM: analogue with digital, digital with analogue, V.91 with V.91. */
static int paired_pcm(int cm, int jm)
{
    int swapped = (cm & V8_PSTN_PCM_MODEM_V91) | (cm & V8_PSTN_PCM_MODEM_V90_V92_ANALOGUE ? 2 : 0) |
                  (cm & V8_PSTN_PCM_MODEM_V90_V92_DIGITAL ? 1 : 0);
    return jm & swapped;
}

int32_t their_end_choice(const struct their_end *end)
{
    if (!end->reported_menu)
        return 0;
    int own = end->own.pcm_modem_availability;
    int ours = end->understood.pcm_modem_availability;
    int pcm = end->caller ? paired_pcm(own, ours) : paired_pcm(ours, own);
    if (pcm != 0)
        return TAILSPRIG_PCM + pcm;
    uint16_t items = items_of(end->last.modulations);
    for (int item = 1; item < ITEMS; item++)
        if (items & (1u << item))
            return item;
    return 0;
}
