#include "own_calls.h"

#include "our_end.h"
#include "words.h"

#include <stdio.h>
#include <string.h>

/* Where the answerer comes later it is once the caller calls, as where a telephone rings first. */
enum { CALL_MS = 30000, AT_ONCE = 0, LATER_MS = 3000, SHORTEST_BLOCK = 3 };

/* A firmware level behind a country and a provider code, and the shortest block that there is. */
static const uint8_t BLOCKS[] = {0x05, 0xB5, 0x01, 0x41, 0x02, 0x07, 0x02, 0x26, 0x00};

struct own_call {
    struct our_end caller, answerer;
    struct menu field; /* what the answerer read of the field of CM */
};

static void run_call(struct own_call *call, uint32_t later_ms, const uint8_t *blocks, size_t blocks_len)
{
    const struct tailsprig_record record = {
        .functions[TAILSPRIG_FUNCTION_DATA - 1] = {.available = 1, .items = TAILSPRIG_V34 | TAILSPRIG_V32BIS},
        .home = TAILSPRIG_FUNCTION_DATA,
        .lapm = 1,
    };
    struct our_end *caller = &call->caller, *answerer = &call->answerer;
    int16_t there[BLOCK_SAMPLES], back[BLOCK_SAMPLES] = {0};

    our_end_start(caller, TAILSPRIG_CALLER, record, TAILSPRIG_FUNCTION_DATA, blocks, blocks_len);
    while (caller->now < later_ms) {
        our_end_speak(caller, there);
        our_end_hear(caller, back);
        our_end_tick(caller);
    }
    our_end_start(answerer, TAILSPRIG_ANSWERER, record, 0, NO_BLOCKS, 0);
    while (caller->now < CALL_MS && (caller->session.ended == 0 || answerer->session.ended == 0)) {
        our_end_speak(caller, there);
        our_end_speak(answerer, back);
        our_end_hear(caller, back);
        our_end_hear(answerer, there);
        our_end_tick(caller);
        our_end_tick(answerer);
    }
    our_end_free(caller);
    our_end_free(answerer);

    int32_t len =
        tailsprig_fields(answerer->heard.octets, answerer->heard.len, call->field.octets, sizeof call->field.octets);
    call->field.len = len > 0 ? (size_t)len : 0;
}

/* CM came as it was sent, and its blocks came out of it; JM has no field; both ends go on with the same. */
static bool agrees(const struct own_call *call, const uint8_t *blocks, size_t blocks_len)
{
    const struct our_end *caller = &call->caller, *answerer = &call->answerer;

    return answerer->heard.len == caller->sent.len &&
           memcmp(answerer->heard.octets, caller->sent.octets, caller->sent.len) == 0 && call->field.len == blocks_len &&
           memcmp(call->field.octets, blocks, blocks_len) == 0 &&
           tailsprig_find(caller->heard.octets, caller->heard.len, TAILSPRIG_TAG_FIELD) == TAILSPRIG_NOWHERE &&
           caller->session.ended == TAILSPRIG_ENDED_GO_ON && answerer->session.ended == TAILSPRIG_ENDED_GO_ON &&
           caller->session.chosen == answerer->session.chosen;
}

static int call_with_two_blocks(void)
{
    struct own_call call;
    char cm[WORDS_ROOM], field[WORDS_ROOM], chosen[WORDS_ROOM];

    run_call(&call, AT_ONCE, BLOCKS, sizeof BLOCKS);
    bool agree = agrees(&call, BLOCKS, sizeof BLOCKS);
    printf("| CM %s | %s; read of its field: %s; both go on with %s after %.1f s |\n", words_of_octets(cm, &call.caller.sent),
           agree ? "agreed" : "FAILED", words_of_octets(field, &call.field),
           words_of_choice(chosen, call.caller.choice), call.caller.now / 1000.0);
    return agree ? 0 : 1;
}

/* An answerer waits for CM while it sends ANSam and no longer, so a field can be too long for two copies. One block each time. */
static int call_with_longer_fields(const char *when, uint32_t later_ms)
{
    struct own_call call;
    uint8_t block[TAILSPRIG_FIELD_MOST] = {0, 0xB5};
    size_t len = SHORTEST_BLOCK - 1, cm_len = 0;
    bool agree = true;

    while (agree && len < sizeof block) {
        block[0] = (uint8_t)len; /* counts what follows it, so this block has one octet more */
        run_call(&call, later_ms, block, len + 1);
        agree = call.caller.sent.len > 0 && agrees(&call, block, len + 1);
        if (agree) {
            cm_len = call.caller.sent.len;
            len++;
        }
    }
    printf("| fields of 3, 4, 5 .. octets; the answerer starts %s | up to %zu octets, a CM of %zu, are agreed; with one more "
           "the caller ends '%s', the answerer '%s' |\n",
           when, len, cm_len, word_of_ending(&call.caller.session), word_of_ending(&call.answerer.session));
    return len >= SHORTEST_BLOCK ? 0 : 1;
}

int run_own_calls(void)
{
    printf("| between two ends of ours | what came |\n|---|---|\n");
    return call_with_two_blocks() + call_with_longer_fields("with the caller", AT_ONCE) +
           call_with_longer_fields("3 s later", LATER_MS);
}
