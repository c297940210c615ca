/*
 * The header held against the library. First the sizes and places of what the header declares, and every number with a name: these fail
 * when this is compiled. Then calls of each function, with answers that were made by hand. They tell every two fields of a struct apart:
 * where the header and the library differ, an answer is wrong. Exits with 1 where one was.
 *
 * With CALLS_ALONE the first part is left out, so that tests/header.sh can see that the calls notice by themselves.
 */
#include <tailsprig.h>

#include <stdio.h>
#include <string.h>

#ifndef CALLS_ALONE

/* The numbers are those of the declarations in crates/ (host/tests/header.rs). */
#define STRUCT(type, bytes) _Static_assert(sizeof(struct type) == (bytes), #type)
#define FIELD(type, field, at, bytes) \
    _Static_assert(offsetof(struct type, field) == (at) && sizeof(((struct type *)0)->field) == (bytes), #type "." #field)
#define NUMBER(name, number) _Static_assert((name) == (number), #name)

STRUCT(tailsprig_ear, 12);
FIELD(tailsprig_ear, past, 0, 4);
FIELD(tailsprig_ear, heard, 4, 4);
FIELD(tailsprig_ear, place, 8, 4);

STRUCT(tailsprig_message, 66);
FIELD(tailsprig_message, kind, 0, 1);
FIELD(tailsprig_message, len, 1, 1);
FIELD(tailsprig_message, octets, 2, 64);

STRUCT(tailsprig_listener, 144);
FIELD(tailsprig_listener, ear, 0, 12);
FIELD(tailsprig_listener, msg, 12, 66);
FIELD(tailsprig_listener, last, 78, 66);

STRUCT(tailsprig_ran, 160);
FIELD(tailsprig_ran, rec, 0, 144);
FIELD(tailsprig_ran, taken, 144, 8);
FIELD(tailsprig_ran, code, 152, 4);

STRUCT(tailsprig_offer, 8);
FIELD(tailsprig_offer, function, 0, 1);
FIELD(tailsprig_offer, items, 2, 2);
FIELD(tailsprig_offer, pcm, 4, 1);
FIELD(tailsprig_offer, lapm, 5, 1);
FIELD(tailsprig_offer, access, 6, 1);
FIELD(tailsprig_offer, access_options, 7, 1);

STRUCT(tailsprig_menu_read, 12);
FIELD(tailsprig_menu_read, offer, 0, 8);
FIELD(tailsprig_menu_read, code, 8, 4);

STRUCT(tailsprig_item_asked, 16);
FIELD(tailsprig_item_asked, looked, 0, 8);
FIELD(tailsprig_item_asked, code, 8, 4);

STRUCT(tailsprig_span, 16);
FIELD(tailsprig_span, place, 0, 8);
FIELD(tailsprig_span, size, 8, 8);

STRUCT(tailsprig_block, 64);
FIELD(tailsprig_block, whole, 0, 16);
FIELD(tailsprig_block, country, 16, 16);
FIELD(tailsprig_block, provider, 32, 16);
FIELD(tailsprig_block, rest, 48, 16);

STRUCT(tailsprig_blocks_read, 16);
FIELD(tailsprig_blocks_read, blocks, 0, 8);
FIELD(tailsprig_blocks_read, code, 8, 4);

STRUCT(tailsprig_modes, 4);
FIELD(tailsprig_modes, available, 0, 1);
FIELD(tailsprig_modes, pcm, 1, 1);
FIELD(tailsprig_modes, items, 2, 2);

STRUCT(tailsprig_record, 30);
FIELD(tailsprig_record, functions, 0, 24);
FIELD(tailsprig_record, home, 24, 1);
FIELD(tailsprig_record, lapm, 25, 1);
FIELD(tailsprig_record, access, 26, 1);
FIELD(tailsprig_record, cellular, 27, 1);
FIELD(tailsprig_record, digital, 28, 1);

STRUCT(tailsprig_cadence, 8);
FIELD(tailsprig_cadence, off, 0, 2);
FIELD(tailsprig_cadence, place, 2, 2);
FIELD(tailsprig_cadence, on, 4, 1);
FIELD(tailsprig_cadence, function, 5, 1);
FIELD(tailsprig_cadence, sent, 6, 1);
FIELD(tailsprig_cadence, tone, 7, 1);

STRUCT(tailsprig_session, 20);
FIELD(tailsprig_session, entry, 0, 4);
FIELD(tailsprig_session, te, 4, 4);
FIELD(tailsprig_session, cadence, 8, 8);
FIELD(tailsprig_session, end, 16, 1);
FIELD(tailsprig_session, state, 17, 1);
FIELD(tailsprig_session, chosen, 18, 1);
FIELD(tailsprig_session, ended, 19, 1);

STRUCT(tailsprig_caller_start, 24);
FIELD(tailsprig_caller_start, session, 0, 20);
FIELD(tailsprig_caller_start, code, 20, 4);

STRUCT(tailsprig_step_taken, 24);
FIELD(tailsprig_step_taken, session, 0, 20);
FIELD(tailsprig_step_taken, code, 20, 4);

STRUCT(tailsprig_bits_drawn, 40);
FIELD(tailsprig_bits_drawn, session, 0, 20);
FIELD(tailsprig_bits_drawn, bits, 24, 8);
FIELD(tailsprig_bits_drawn, code, 32, 4);

NUMBER(TAILSPRIG_NOT_A_BIT, 1);
NUMBER(TAILSPRIG_STOP_BIT_ZERO, 2);
NUMBER(TAILSPRIG_BAD_OCTET, 3);
NUMBER(TAILSPRIG_TOO_MANY_OCTETS, 4);
NUMBER(TAILSPRIG_NO_CALL_FUNCTION, 5);
NUMBER(TAILSPRIG_SHORT_BUFFER, 6);
NUMBER(TAILSPRIG_AFTER_OVER, 7);
NUMBER(TAILSPRIG_CLOCK, 8);
NUMBER(TAILSPRIG_WRONG_EVENT, 9);
NUMBER(TAILSPRIG_BAD_RECORD, 10);
NUMBER(TAILSPRIG_NOT_OFFERED, 11);
NUMBER(TAILSPRIG_WRONG_CATEGORY, 12);
NUMBER(TAILSPRIG_CUT_SHORT, 13);
NUMBER(TAILSPRIG_BAD_BLOCK, 14);
NUMBER(TAILSPRIG_BAD_PACKING, 15);
NUMBER(TAILSPRIG_BAD_CADENCE, 16);

NUMBER(TAILSPRIG_CI, 1);
NUMBER(TAILSPRIG_MENU, 2);

NUMBER(TAILSPRIG_FUNCTION_H324, 1);
NUMBER(TAILSPRIG_FUNCTION_TEXTPHONE, 2);
NUMBER(TAILSPRIG_FUNCTION_VIDEOTEX, 3);
NUMBER(TAILSPRIG_FUNCTION_FAX_SENT, 4);
NUMBER(TAILSPRIG_FUNCTION_FAX_RECEIVED, 5);
NUMBER(TAILSPRIG_FUNCTION_DATA, 6);

NUMBER(TAILSPRIG_ITEM_PCM, 0);
NUMBER(TAILSPRIG_ITEM_V34, 1);
NUMBER(TAILSPRIG_ITEM_V34_HALF_DUPLEX, 2);
NUMBER(TAILSPRIG_ITEM_V32BIS, 3);
NUMBER(TAILSPRIG_ITEM_V22BIS, 4);
NUMBER(TAILSPRIG_ITEM_V17, 5);
NUMBER(TAILSPRIG_ITEM_V29_HALF_DUPLEX, 6);
NUMBER(TAILSPRIG_ITEM_V27TER, 7);
NUMBER(TAILSPRIG_ITEM_V26TER, 8);
NUMBER(TAILSPRIG_ITEM_V26BIS, 9);
NUMBER(TAILSPRIG_ITEM_V23, 10);
NUMBER(TAILSPRIG_ITEM_V23_HALF_DUPLEX, 11);
NUMBER(TAILSPRIG_ITEM_V21, 12);

NUMBER(TAILSPRIG_WITH_PCM, 0x0001);
NUMBER(TAILSPRIG_V34, 0x0002);
NUMBER(TAILSPRIG_V34_HALF_DUPLEX, 0x0004);
NUMBER(TAILSPRIG_V32BIS, 0x0008);
NUMBER(TAILSPRIG_V22BIS, 0x0010);
NUMBER(TAILSPRIG_V17, 0x0020);
NUMBER(TAILSPRIG_V29_HALF_DUPLEX, 0x0040);
NUMBER(TAILSPRIG_V27TER, 0x0080);
NUMBER(TAILSPRIG_V26TER, 0x0100);
NUMBER(TAILSPRIG_V26BIS, 0x0200);
NUMBER(TAILSPRIG_V23, 0x0400);
NUMBER(TAILSPRIG_V23_HALF_DUPLEX, 0x0800);
NUMBER(TAILSPRIG_V21, 0x1000);

NUMBER(TAILSPRIG_PCM_ANALOGUE, 1);
NUMBER(TAILSPRIG_PCM_DIGITAL, 2);
NUMBER(TAILSPRIG_PCM_V91, 4);

NUMBER(TAILSPRIG_ACCESS_CALLER_CELLULAR, 1);
NUMBER(TAILSPRIG_ACCESS_ANSWERER_CELLULAR, 2);
NUMBER(TAILSPRIG_ACCESS_DIGITAL, 4);

NUMBER(TAILSPRIG_TAG_CALL_FUNCTION, 1);
NUMBER(TAILSPRIG_TAG_MODULATION, 5);
NUMBER(TAILSPRIG_TAG_PCM, 7);
NUMBER(TAILSPRIG_TAG_PROTOCOL, 10);
NUMBER(TAILSPRIG_TAG_ACCESS, 13);
NUMBER(TAILSPRIG_TAG_FIELD, 15);

NUMBER(TAILSPRIG_MOST_OCTETS, 64);
NUMBER(TAILSPRIG_MOST_BITS, 660);
NUMBER(TAILSPRIG_OCTET_BITS, 10);
NUMBER(TAILSPRIG_CJ_BITS, 30);
NUMBER(TAILSPRIG_NOWHERE, 64);
NUMBER(TAILSPRIG_FIELD_MOST, 38);
NUMBER(TAILSPRIG_MENU_MOST, 64);

NUMBER(TAILSPRIG_HEARD_NOTHING, 0);
NUMBER(TAILSPRIG_HEARD_CI, 1);
NUMBER(TAILSPRIG_HEARD_MENU, 2);
NUMBER(TAILSPRIG_HEARD_AGREED, 3);
NUMBER(TAILSPRIG_HEARD_CJ, 4);

NUMBER(TAILSPRIG_ASKED_NO, 0);
NUMBER(TAILSPRIG_ASKED_YES, 1);

NUMBER(TAILSPRIG_CALL_FUNCTION_NOWHERE, 0);
NUMBER(TAILSPRIG_CALL_FUNCTION_HEARD, 1);
NUMBER(TAILSPRIG_CALL_FUNCTION_OWN, 2);

NUMBER(TAILSPRIG_CHOICE_NONE, 0);
NUMBER(TAILSPRIG_PCM, 16);

NUMBER(TAILSPRIG_CALLER, 1);
NUMBER(TAILSPRIG_ANSWERER, 2);

NUMBER(TAILSPRIG_STATE_CALLER_STILL, 1);
NUMBER(TAILSPRIG_STATE_CALLING, 2);
NUMBER(TAILSPRIG_STATE_QUIET, 3);
NUMBER(TAILSPRIG_STATE_MENU, 4);
NUMBER(TAILSPRIG_STATE_CLOSING, 5);
NUMBER(TAILSPRIG_STATE_PAUSE, 6);
NUMBER(TAILSPRIG_STATE_ANSWERER_STILL, 7);
NUMBER(TAILSPRIG_STATE_ANSWERING, 8);
NUMBER(TAILSPRIG_STATE_JOINT, 9);
NUMBER(TAILSPRIG_STATE_OVER, 10);

NUMBER(TAILSPRIG_ENDED_GOING, 0);
NUMBER(TAILSPRIG_ENDED_LEFT, 1);
NUMBER(TAILSPRIG_ENDED_LATE, 2);
NUMBER(TAILSPRIG_ENDED_CLEARED, 3);
NUMBER(TAILSPRIG_ENDED_NOT_OFFERED, 4);
NUMBER(TAILSPRIG_ENDED_GO_ON, 5);

NUMBER(TAILSPRIG_EVENT_ANSAM, 1);
NUMBER(TAILSPRIG_EVENT_ANS, 2);
NUMBER(TAILSPRIG_EVENT_SIG_A, 3);
NUMBER(TAILSPRIG_EVENT_AGREED_JM, 4);
NUMBER(TAILSPRIG_EVENT_CJ_SENT, 5);
NUMBER(TAILSPRIG_EVENT_AGREED_CM, 6);
NUMBER(TAILSPRIG_EVENT_SIG_C, 7);
NUMBER(TAILSPRIG_EVENT_CJ, 8);
NUMBER(TAILSPRIG_EVENT_TICK, 9);

NUMBER(TAILSPRIG_TE_TEXTPHONE, 500);
NUMBER(TAILSPRIG_SILENCE, 2);

NUMBER(TAILSPRIG_ENDED, 16);
NUMBER(TAILSPRIG_GO_ON, 32);

NUMBER(TAILSPRIG_VERSION_MAJOR, 0);
NUMBER(TAILSPRIG_VERSION_MINOR, 7);
NUMBER(TAILSPRIG_VERSION_PATCH, 0);

#endif

static int failures;

static void check(bool so, int line, const char *what)
{
    if (so)
        return;
    printf("tests/header.c:%d: not so: %s\n", line, what);
    failures++;
}

#define CHECK(so) check((so), __LINE__, #so)

/* The worked values of docs/document-01.md. */
static const uint8_t CM[] = {0xC1, 0x45, 0x13, 0x90, 0x2A};
static const uint8_t JM[] = {0xC1, 0x05, 0x13, 0x10};
static const uint8_t JM_OF_NOTHING[] = {0xC1, 0x05, 0x10, 0x10};
static const uint8_t PCM_CM[] = {0xC1, 0x65, 0x10, 0x10, 0x27, 0x0D};
static const uint8_t PCM_JM[] = {0xC1, 0x65, 0x10, 0x10, 0x47, 0x8D};

/* Two blocks, the first with a country code of two octets and a provider code; and the CM above with them as its field. */
static const uint8_t BLOCKS[] = {0x07, 0xFF, 0xB5, 0x02, 0x41, 0x43, 0x01, 0x09, 0x02, 0x26, 0x00};
static const uint8_t FIELD_CM[] = {0xC1, 0x45, 0x13, 0x90, 0x2A, 0x0F, 0x17, 0xD0, 0xD7, 0x53, 0x53, 0x11,
                                   0x14, 0x50, 0x13, 0x52, 0x10, 0x92, 0x10, 0x11, 0xD0, 0x14, 0x10, 0x10};

/* Lent with a length of 0. */
static const uint8_t NOTHING[1];

#define CM_BITS "1111111111" "0000001111" "0100000111" "0101000101" "0110010001" "0000010011" "0010101001"
#define CI_BITS "1111111111" "0000000001" "0100000111"
#define CJ_BITS "0000000001" "0000000001" "0000000001"

/* The bits of a text, a byte for each. */
static size_t bits_of(uint8_t *bits, const char *text)
{
    size_t len = strlen(text);

    for (size_t i = 0; i < len; i++)
        bits[i] = (uint8_t)(text[i] - '0');
    return len;
}

static bool is_text(const uint8_t *bits, const char *text)
{
    uint8_t expected[256];

    return memcmp(bits, expected, bits_of(expected, text)) == 0;
}

static void writing(void)
{
    const uint8_t bad[] = {0xC1, 0x18}, tag_0[] = {0xC1, 0x00};
    uint8_t many[TAILSPRIG_MOST_OCTETS + 1], line[TAILSPRIG_MOST_BITS + 1];
    unsigned wide = 256 + TAILSPRIG_MENU, copies = 65536;

    memset(line, 7, sizeof line);
    CHECK(tailsprig_write(TAILSPRIG_MENU, CM, sizeof CM, 1, line, 70) == 70);
    CHECK(is_text(line, CM_BITS) && line[70] == 7);
    CHECK((2 + sizeof CM) * TAILSPRIG_OCTET_BITS == 70);
    CHECK(tailsprig_write(TAILSPRIG_CI, CM, 1, 2, line, sizeof line) == 60 && is_text(line, CI_BITS CI_BITS));
    CHECK(tailsprig_write(3, CM, sizeof CM, 1, line, sizeof line) == -TAILSPRIG_BAD_RECORD);
    CHECK(tailsprig_write(TAILSPRIG_MENU, CM, 0, 1, line, sizeof line) == -TAILSPRIG_NO_CALL_FUNCTION);
    CHECK(tailsprig_write(TAILSPRIG_MENU, bad, sizeof bad, 1, line, sizeof line) == -TAILSPRIG_BAD_OCTET);
    CHECK(tailsprig_write(TAILSPRIG_MENU, tag_0, sizeof tag_0, 1, line, sizeof line) == -TAILSPRIG_WRONG_CATEGORY);
    CHECK(tailsprig_write(TAILSPRIG_CI, CM, sizeof CM, 1, line, sizeof line) == -TAILSPRIG_WRONG_CATEGORY);
    CHECK(tailsprig_write(TAILSPRIG_MENU, CM, sizeof CM, 1, line, 69) == -TAILSPRIG_SHORT_BUFFER);
    memset(many, 0x10, sizeof many);
    many[0] = 0xC1;
    CHECK(tailsprig_write(TAILSPRIG_MENU, many, TAILSPRIG_MOST_OCTETS, 1, line, sizeof line) == TAILSPRIG_MOST_BITS);
    CHECK(tailsprig_write(TAILSPRIG_MENU, many, sizeof many, 1, line, sizeof line) == -TAILSPRIG_TOO_MANY_OCTETS);

    /* Wider than the parameter: the compiler converts. */
    CHECK(tailsprig_write(wide, CM, sizeof CM, 1, line, sizeof line) == 70);
    CHECK(tailsprig_write(TAILSPRIG_MENU, CM, sizeof CM, copies, line, 1) == 0);

    CHECK(tailsprig_write_cj(line, sizeof line) == TAILSPRIG_CJ_BITS && is_text(line, CJ_BITS));
    CHECK(tailsprig_write_cj(line, TAILSPRIG_CJ_BITS - 1) == -TAILSPRIG_SHORT_BUFFER);
}

/* Hears a text with tailsprig_hear; the code of its last bit, or 99 where one before it reported something. */
static int32_t hear(struct tailsprig_listener *rec, const char *text)
{
    int32_t code = 0;

    for (; *text != '\0'; text++) {
        if (code != 0)
            return 99;
        code = tailsprig_hear(rec, (uint8_t)(*text - '0'));
    }
    return code;
}

static void listening(void)
{
    struct tailsprig_listener rec = tailsprig_fresh(), none, kept;
    struct tailsprig_ran ran;
    uint8_t bits[256];
    size_t len;

    memset(&none, 0, sizeof none);
    CHECK(memcmp(&rec, &none, sizeof rec) == 0);

    /* In each part of the record the numbers differ. */
    CHECK(hear(&rec, "1111111111" "000") == TAILSPRIG_HEARD_NOTHING);
    CHECK(rec.ear.past == 0x1FF80000 && rec.ear.heard == 13 && rec.ear.place == 3);
    CHECK(hear(&rec, "0001111" "0100000111" "0101000101" "0110010001") == TAILSPRIG_HEARD_NOTHING);
    CHECK(rec.msg.kind == TAILSPRIG_MENU && rec.msg.len == 3 && memcmp(rec.msg.octets, CM, 3) == 0);
    CHECK(rec.last.kind == 0 && rec.last.len == 0 && rec.ear.heard == 30 && rec.ear.place == 10);

    rec = tailsprig_fresh();
    CHECK(hear(&rec, CI_BITS "1111111111") == TAILSPRIG_HEARD_CI);
    CHECK(hear(&rec, "0000001111" "0100000111" "0101000101" "0110010001" "0000010011" "0010101001" "1111111111") ==
          TAILSPRIG_HEARD_MENU);
    CHECK(rec.msg.len == sizeof CM && memcmp(rec.msg.octets, CM, sizeof CM) == 0);
    CHECK(hear(&rec, "0000001111") == TAILSPRIG_HEARD_NOTHING);
    CHECK(rec.msg.len == 0 && rec.last.kind == TAILSPRIG_MENU && rec.last.len == sizeof CM);
    CHECK(memcmp(rec.last.octets, CM, sizeof CM) == 0);
    CHECK(hear(&rec, "0100000111" "0101000101" "0110010001" "0000010011" "0010101001" "1111111111") ==
          TAILSPRIG_HEARD_AGREED);
    CHECK(hear(&rec, CJ_BITS) == TAILSPRIG_HEARD_CJ);

    kept = rec;
    CHECK(tailsprig_hear(&rec, 2) == -TAILSPRIG_NOT_A_BIT && memcmp(&rec, &kept, sizeof rec) == 0);
    rec.ear.heard = 31;
    CHECK(tailsprig_hear(&rec, 1) == -TAILSPRIG_BAD_RECORD && rec.ear.heard == 31);
    rec = tailsprig_fresh();
    rec.ear.place = 29;
    CHECK(tailsprig_hear(&rec, 1) == -TAILSPRIG_BAD_RECORD);
    rec = tailsprig_fresh();
    rec.msg.kind = 3;
    CHECK(tailsprig_hear(&rec, 1) == -TAILSPRIG_BAD_RECORD);
    rec = tailsprig_fresh();
    rec.last.len = 65;
    CHECK(tailsprig_hear(&rec, 1) == -TAILSPRIG_BAD_RECORD);

    rec = tailsprig_fresh();
    CHECK(hear(&rec, "1111111111" "0000001111" "0100000110") == -TAILSPRIG_STOP_BIT_ZERO);
    CHECK(hear(&rec, "1111111111" "0000001111" "0000110001") == -TAILSPRIG_BAD_OCTET);
    CHECK(hear(&rec, "1111111111" "0000001111" "0100000111" "10") == -TAILSPRIG_CUT_SHORT);
    CHECK(hear(&rec, "1111111111" "0000001111") == TAILSPRIG_HEARD_NOTHING);
    for (int i = 0; i < TAILSPRIG_MOST_OCTETS; i++)
        CHECK(hear(&rec, "0100000111") == TAILSPRIG_HEARD_NOTHING);
    CHECK(hear(&rec, "0100000111") == -TAILSPRIG_TOO_MANY_OCTETS);

    len = bits_of(bits, CM_BITS CM_BITS "1111111111");
    ran = tailsprig_hear_many(tailsprig_fresh(), bits, len);
    CHECK(ran.code == TAILSPRIG_HEARD_MENU && ran.taken == 80 && ran.rec.msg.len == sizeof CM);
    ran = tailsprig_hear_many(ran.rec, bits + ran.taken, len - ran.taken);
    CHECK(ran.code == TAILSPRIG_HEARD_AGREED && ran.taken == 70 && ran.rec.last.len == sizeof CM);
    ran = tailsprig_hear_many(ran.rec, bits, 9);
    CHECK(ran.code == TAILSPRIG_HEARD_NOTHING && ran.taken == 9);
    ran.rec.ear.place = 29;
    ran = tailsprig_hear_many(ran.rec, bits, len);
    CHECK(ran.code == -TAILSPRIG_BAD_RECORD && ran.taken == 0 && ran.rec.ear.place == 29);

    /* A record that is kept over calls agrees at the first copy of the next; one that is made fresh does not. */
    rec = tailsprig_fresh();
    CHECK(hear(&rec, CM_BITS "1111111111") == TAILSPRIG_HEARD_MENU);
    kept = rec;
    CHECK(hear(&kept, CM_BITS "1111111111") == TAILSPRIG_HEARD_AGREED);
    rec = tailsprig_fresh();
    CHECK(hear(&rec, CM_BITS "1111111111") == TAILSPRIG_HEARD_MENU);

    /* Without carrier: no bits leave a message open, 1s end it. */
    rec = tailsprig_fresh();
    CHECK(hear(&rec, CM_BITS) == TAILSPRIG_HEARD_NOTHING);
    CHECK(hear(&rec, "1111111111") == TAILSPRIG_HEARD_MENU);
}

static void spans(void)
{
    static const size_t began[] = {10, 40, 110};
    struct tailsprig_listener rec = tailsprig_fresh();
    struct tailsprig_ran ran;
    uint8_t bits[256];
    size_t len, heard = 0, messages = 0;

    /* None before the bit that reports a message; then it stays until the next is reported, over CJ and refusals. */
    CHECK(tailsprig_last_span(rec) == 0);
    CHECK(hear(&rec, CI_BITS "111111111") == TAILSPRIG_HEARD_NOTHING && tailsprig_last_span(rec) == 0);
    CHECK(hear(&rec, "1") == TAILSPRIG_HEARD_CI && tailsprig_last_span(rec) == 30);
    CHECK(hear(&rec, CM_BITS) == TAILSPRIG_HEARD_NOTHING && tailsprig_last_span(rec) == 30);
    CHECK(hear(&rec, CJ_BITS) == TAILSPRIG_HEARD_CJ && tailsprig_last_span(rec) == 30);
    CHECK(hear(&rec, "2") == -TAILSPRIG_NOT_A_BIT && tailsprig_last_span(rec) == 30);
    CHECK(hear(&rec, CM_BITS "1111111111") == TAILSPRIG_HEARD_MENU && tailsprig_last_span(rec) == 70);
    CHECK(hear(&rec, CM_BITS "1111111111") == TAILSPRIG_HEARD_AGREED && tailsprig_last_span(rec) == 70);
    CHECK(hear(&rec, CJ_BITS) == TAILSPRIG_HEARD_CJ && tailsprig_last_span(rec) == 70);
    CHECK(hear(&rec, "1111111111" "0000001111" "1111111111") == TAILSPRIG_HEARD_MENU && tailsprig_last_span(rec) == 20);

    /* The loop of the manual, over a CI with a byte in it that is no bit, and CM twice. */
    len = bits_of(bits, "1111111111" "0000000" "2" "001" "0100000111" CM_BITS CM_BITS "1111111111");
    rec = tailsprig_fresh();
    for (size_t at = 0; at < len; at += ran.taken) {
        ran = tailsprig_hear_many(rec, bits + at, len - at);
        rec = ran.rec;
        heard += ran.taken;
        if (ran.code == -TAILSPRIG_NOT_A_BIT)
            heard--;
        if (ran.code >= TAILSPRIG_HEARD_CI && ran.code <= TAILSPRIG_HEARD_AGREED) {
            CHECK(messages < 3 && heard - (size_t)tailsprig_last_span(rec) == began[messages]);
            messages++;
        }
    }
    CHECK(messages == 3 && heard == 180);

    /* By the numbers of a record: the longest message, and none where the kind is that of none. */
    rec.last.len = TAILSPRIG_MOST_OCTETS;
    CHECK(tailsprig_last_span(rec) == TAILSPRIG_MOST_BITS);
    rec.last.kind = 0;
    CHECK(tailsprig_last_span(rec) == 0);
    rec.last.kind = 3;
    CHECK(tailsprig_last_span(rec) == -TAILSPRIG_BAD_RECORD);
    rec = tailsprig_fresh();
    rec.ear.heard = 31;
    CHECK(tailsprig_last_span(rec) == -TAILSPRIG_BAD_RECORD);
    rec = tailsprig_fresh();
    rec.msg.len = 65;
    CHECK(tailsprig_last_span(rec) == -TAILSPRIG_BAD_RECORD);
}

/* The functions by their first octets, and the items by where V.8 has them, in Tables 3 and 4. */
static void names_in_menus(void)
{
    static const struct {
        uint8_t octet, function;
    } functions[] = {
        {0x21, TAILSPRIG_FUNCTION_H324},     {0x41, TAILSPRIG_FUNCTION_TEXTPHONE},    {0x61, TAILSPRIG_FUNCTION_VIDEOTEX},
        {0x81, TAILSPRIG_FUNCTION_FAX_SENT}, {0xA1, TAILSPRIG_FUNCTION_FAX_RECEIVED}, {0xC1, TAILSPRIG_FUNCTION_DATA},
    };
    static const struct {
        uint8_t modulation[3], item;
        uint16_t items;
    } items[] = {
        {{0x45, 0x10, 0x10}, TAILSPRIG_ITEM_V34, TAILSPRIG_V34},
        {{0x85, 0x10, 0x10}, TAILSPRIG_ITEM_V34_HALF_DUPLEX, TAILSPRIG_V34_HALF_DUPLEX},
        {{0x05, 0x11, 0x10}, TAILSPRIG_ITEM_V32BIS, TAILSPRIG_V32BIS},
        {{0x05, 0x12, 0x10}, TAILSPRIG_ITEM_V22BIS, TAILSPRIG_V22BIS},
        {{0x05, 0x14, 0x10}, TAILSPRIG_ITEM_V17, TAILSPRIG_V17},
        {{0x05, 0x50, 0x10}, TAILSPRIG_ITEM_V29_HALF_DUPLEX, TAILSPRIG_V29_HALF_DUPLEX},
        {{0x05, 0x90, 0x10}, TAILSPRIG_ITEM_V27TER, TAILSPRIG_V27TER},
        {{0x05, 0x10, 0x11}, TAILSPRIG_ITEM_V26TER, TAILSPRIG_V26TER},
        {{0x05, 0x10, 0x12}, TAILSPRIG_ITEM_V26BIS, TAILSPRIG_V26BIS},
        {{0x05, 0x10, 0x14}, TAILSPRIG_ITEM_V23, TAILSPRIG_V23},
        {{0x05, 0x10, 0x50}, TAILSPRIG_ITEM_V23_HALF_DUPLEX, TAILSPRIG_V23_HALF_DUPLEX},
        {{0x05, 0x10, 0x90}, TAILSPRIG_ITEM_V21, TAILSPRIG_V21},
    };

    for (size_t i = 0; i < sizeof functions / sizeof functions[0]; i++)
        CHECK(tailsprig_read(&functions[i].octet, 1).offer.function == functions[i].function);
    for (size_t i = 0; i < sizeof items / sizeof items[0]; i++) {
        uint8_t menu[] = {0xC1, items[i].modulation[0], items[i].modulation[1], items[i].modulation[2]};

        CHECK(tailsprig_read(menu, sizeof menu).offer.items == items[i].items);
        CHECK(tailsprig_choice(menu, sizeof menu, menu, sizeof menu) == items[i].item);
        for (uint8_t item = TAILSPRIG_ITEM_V34; item <= TAILSPRIG_ITEM_V21; item++)
            CHECK(tailsprig_asks(menu, sizeof menu, item).code == (item == items[i].item ? TAILSPRIG_ASKED_YES : TAILSPRIG_ASKED_NO));
    }
}

/* The PCM and access options of a menu with these two octets. */
static bool offers(uint8_t pcm_octet, uint8_t access_octet, uint8_t pcm, uint8_t access)
{
    const uint8_t menu[] = {0xC1, 0x65, 0x10, 0x10, pcm_octet, access_octet};
    struct tailsprig_menu_read menu_read = tailsprig_read(menu, sizeof menu);

    return menu_read.code == 0 && menu_read.offer.pcm == pcm && menu_read.offer.access_options == access;
}

static void menus(void)
{
    const uint8_t every[] = {0xC1, 0x65, 0x10, 0x10, 0x47, 0x2A, 0x8D};
    const uint8_t bad[] = {0xC1, 0x18};
    struct tailsprig_menu_read menu_read = tailsprig_read(PCM_JM, sizeof PCM_JM);

    CHECK(menu_read.code == 0 && menu_read.offer.function == TAILSPRIG_FUNCTION_DATA);
    CHECK(menu_read.offer.items == (TAILSPRIG_WITH_PCM | TAILSPRIG_V34) && menu_read.offer.pcm == TAILSPRIG_PCM_DIGITAL);
    CHECK(!menu_read.offer.lapm && menu_read.offer.access);
    CHECK(menu_read.offer.access_options == TAILSPRIG_ACCESS_DIGITAL);
    menu_read = tailsprig_read(CM, sizeof CM);
    CHECK(menu_read.offer.items == (TAILSPRIG_V34 | TAILSPRIG_V32BIS | TAILSPRIG_V22BIS | TAILSPRIG_V21));
    CHECK(menu_read.offer.lapm && !menu_read.offer.access && menu_read.offer.pcm == 0);
    menu_read = tailsprig_read(bad, sizeof bad);
    CHECK(menu_read.code == -TAILSPRIG_BAD_OCTET && menu_read.offer.function == 0 && menu_read.offer.items == 0);

    CHECK(offers(0x27, 0x2D, TAILSPRIG_PCM_ANALOGUE, TAILSPRIG_ACCESS_CALLER_CELLULAR));
    CHECK(offers(0x47, 0x4D, TAILSPRIG_PCM_DIGITAL, TAILSPRIG_ACCESS_ANSWERER_CELLULAR));
    CHECK(offers(0x87, 0x8D, TAILSPRIG_PCM_V91, TAILSPRIG_ACCESS_DIGITAL));
    CHECK(offers(0x27, 0x27, 0, 0));

    CHECK(tailsprig_find(every, sizeof every, TAILSPRIG_TAG_CALL_FUNCTION) == 0);
    CHECK(tailsprig_find(every, sizeof every, TAILSPRIG_TAG_MODULATION) == 1);
    CHECK(tailsprig_find(every, sizeof every, TAILSPRIG_TAG_PCM) == 4);
    CHECK(tailsprig_find(every, sizeof every, TAILSPRIG_TAG_PROTOCOL) == 5);
    CHECK(tailsprig_find(every, sizeof every, TAILSPRIG_TAG_ACCESS) == 6);
    CHECK(tailsprig_find(FIELD_CM, sizeof FIELD_CM, TAILSPRIG_TAG_FIELD) == 5);
    CHECK(tailsprig_find(every, sizeof every, TAILSPRIG_TAG_FIELD) == TAILSPRIG_NOWHERE);
    CHECK(tailsprig_find(every, 0, 1) == -TAILSPRIG_NO_CALL_FUNCTION);
    CHECK(tailsprig_part(every, sizeof every, 1) == 3 && tailsprig_part(every, sizeof every, 2) == 0);
    names_in_menus();
}

/* Menus that are asked for one item, each with the code and how many octets were looked at. */
static void asking(void)
{
    static const struct {
        uint8_t menu[6], len, item;
        int32_t code;
        size_t looked;
    } rows[] = {
        /* Each octet of the group decides for its items. */
        {{0xC1, 0x45, 0x13, 0x90, 0x2A}, 5, TAILSPRIG_ITEM_V34, TAILSPRIG_ASKED_YES, 2},
        {{0xC1, 0x45, 0x13, 0x90, 0x2A}, 5, TAILSPRIG_ITEM_V34_HALF_DUPLEX, TAILSPRIG_ASKED_NO, 2},
        {{0xC1, 0x45, 0x13, 0x90, 0x2A}, 5, TAILSPRIG_ITEM_V32BIS, TAILSPRIG_ASKED_YES, 3},
        {{0xC1, 0x45, 0x13, 0x90, 0x2A}, 5, TAILSPRIG_ITEM_V27TER, TAILSPRIG_ASKED_NO, 3},
        {{0xC1, 0x45, 0x13, 0x90, 0x2A}, 5, TAILSPRIG_ITEM_V26TER, TAILSPRIG_ASKED_NO, 4},
        {{0xC1, 0x45, 0x13, 0x90, 0x2A}, 5, TAILSPRIG_ITEM_V21, TAILSPRIG_ASKED_YES, 4},
        /* A short group: the next category octet decides, another modulation octet too; or the list ends within it. */
        {{0xC1, 0x05, 0x45, 0x11}, 4, TAILSPRIG_ITEM_V32BIS, TAILSPRIG_ASKED_NO, 3},
        {{0xC1, 0x05, 0x11, 0x00, 0x90}, 5, TAILSPRIG_ITEM_V21, TAILSPRIG_ASKED_NO, 4},
        {{0xC1, 0x45}, 2, TAILSPRIG_ITEM_V32BIS, TAILSPRIG_ASKED_NO, 2},
        {{0xC1, 0x45, 0x13}, 3, TAILSPRIG_ITEM_V21, TAILSPRIG_ASKED_NO, 3},
        /* The first group counts, wherever it stands; or there is none. */
        {{0xC1, 0x2A, 0x05, 0x0D, 0x45}, 5, TAILSPRIG_ITEM_V34, TAILSPRIG_ASKED_NO, 3},
        {{0xC1, 0x2A, 0x15}, 3, TAILSPRIG_ITEM_V34, TAILSPRIG_ASKED_NO, 3},
        {{0xC1}, 1, TAILSPRIG_ITEM_V21, TAILSPRIG_ASKED_NO, 1},
        /* An octet that cannot be read: behind the one that decides, in its place, before it, and where nothing decides. */
        {{0xC1, 0x45, 0x18}, 3, TAILSPRIG_ITEM_V34, TAILSPRIG_ASKED_YES, 2},
        {{0xC1, 0x45, 0x18}, 3, TAILSPRIG_ITEM_V32BIS, -TAILSPRIG_BAD_OCTET, 0},
        {{0xC1, 0x45, 0x18, 0x10}, 4, TAILSPRIG_ITEM_V21, -TAILSPRIG_BAD_OCTET, 0},
        {{0xC1, 0x30, 0x45}, 3, TAILSPRIG_ITEM_V34, -TAILSPRIG_BAD_OCTET, 0},
        {{0xC1, 0x2A, 0x38}, 3, TAILSPRIG_ITEM_V34, -TAILSPRIG_BAD_OCTET, 0},
        {{0x45}, 1, TAILSPRIG_ITEM_V34, -TAILSPRIG_NO_CALL_FUNCTION, 0},
        {{0xC1, 0x18}, 0, TAILSPRIG_ITEM_V34, -TAILSPRIG_NO_CALL_FUNCTION, 0},
        {{0xC1, 0x45}, 2, TAILSPRIG_ITEM_PCM, -TAILSPRIG_WRONG_EVENT, 0},
        {{0x45}, 1, 13, -TAILSPRIG_WRONG_EVENT, 0},
    };
    uint8_t many[TAILSPRIG_MOST_OCTETS + 1] = {0xC1, 0x45};

    for (size_t i = 0; i < sizeof rows / sizeof rows[0]; i++) {
        struct tailsprig_item_asked asked = tailsprig_asks(rows[i].menu, rows[i].len, rows[i].item);
        struct tailsprig_menu_read menu_read = tailsprig_read(rows[i].menu, rows[i].len);

        CHECK(asked.code == rows[i].code && asked.looked == rows[i].looked);
        CHECK(menu_read.code < 0 || asked.code < 0 || asked.code == (menu_read.offer.items >> rows[i].item & 1));
    }

    /* The longest list, and one that is too long though its second octet would decide; a wrong item is told before that. */
    memset(many + 2, 0x10, sizeof many - 2);
    CHECK(tailsprig_asks(many, TAILSPRIG_MOST_OCTETS, TAILSPRIG_ITEM_V34).code == TAILSPRIG_ASKED_YES);
    CHECK(tailsprig_asks(many, sizeof many, TAILSPRIG_ITEM_V34).code == -TAILSPRIG_TOO_MANY_OCTETS);
    CHECK(tailsprig_asks(many, sizeof many, 255).code == -TAILSPRIG_WRONG_EVENT);
    many[0] = many[1] = 0x10;
    CHECK(tailsprig_asks(many, sizeof many, TAILSPRIG_ITEM_V34).code == -TAILSPRIG_TOO_MANY_OCTETS);
    many[0] = 0xC1;
    CHECK(tailsprig_asks(many, TAILSPRIG_MOST_OCTETS, TAILSPRIG_ITEM_V34).looked == TAILSPRIG_MOST_OCTETS);
}

static bool is_span(struct tailsprig_span span, size_t place, size_t size)
{
    return span.place == place && span.size == size;
}

static bool is_no_block(struct tailsprig_block block)
{
    return is_span(block.whole, 0, 0) && is_span(block.country, 0, 0) && is_span(block.provider, 0, 0) && is_span(block.rest, 0, 0);
}

/* The blocks of BLOCKS. */
static bool is_first(struct tailsprig_block block)
{
    return is_span(block.whole, 0, 8) && is_span(block.country, 1, 2) && is_span(block.provider, 4, 2) && is_span(block.rest, 6, 2);
}

static bool is_second(struct tailsprig_block block)
{
    return is_span(block.whole, 8, 3) && is_span(block.country, 9, 1) && is_span(block.provider, 11, 0) && is_span(block.rest, 11, 0);
}

static void blocks(void)
{
    const uint8_t shortest[] = {0x02, 0xB5, 0x00}, no_country[] = {0x00}, all_255[] = {0x02, 0xFF, 0xFF}, too_long[] = {0x03, 0xB5, 0x00};
    const uint8_t no_provider[] = {0x01, 0xB5}, provider_too_long[] = {0x02, 0xB5, 0x01, 0x02, 0x26, 0x00};
    struct tailsprig_blocks_read blocks_read = tailsprig_blocks(BLOCKS, sizeof BLOCKS);

    CHECK(blocks_read.blocks == 2 && blocks_read.code == 0);
    blocks_read = tailsprig_blocks(NOTHING, 0);
    CHECK(blocks_read.blocks == 0 && blocks_read.code == 0);
    CHECK(tailsprig_blocks(shortest, sizeof shortest).blocks == 1);
    blocks_read = tailsprig_blocks(BLOCKS, sizeof BLOCKS - 1);
    CHECK(blocks_read.blocks == 0 && blocks_read.code == -TAILSPRIG_BAD_BLOCK);
    CHECK(tailsprig_blocks(no_country, sizeof no_country).code == -TAILSPRIG_BAD_BLOCK);
    CHECK(tailsprig_blocks(all_255, sizeof all_255).code == -TAILSPRIG_BAD_BLOCK);
    CHECK(tailsprig_blocks(too_long, sizeof too_long).code == -TAILSPRIG_BAD_BLOCK);
    CHECK(tailsprig_blocks(no_provider, sizeof no_provider).code == -TAILSPRIG_BAD_BLOCK);
    CHECK(tailsprig_blocks(provider_too_long, sizeof provider_too_long).code == -TAILSPRIG_BAD_BLOCK);

    CHECK(is_first(tailsprig_block_of(BLOCKS, sizeof BLOCKS, 0)) && is_second(tailsprig_block_of(BLOCKS, sizeof BLOCKS, 1)));
    CHECK(is_no_block(tailsprig_block_of(BLOCKS, sizeof BLOCKS, 2)) && is_no_block(tailsprig_block_of(BLOCKS, sizeof BLOCKS, SIZE_MAX)));
    CHECK(is_first(tailsprig_block_at(BLOCKS, sizeof BLOCKS, 0)) && is_second(tailsprig_block_at(BLOCKS, sizeof BLOCKS, 8)));
    CHECK(is_no_block(tailsprig_block_at(BLOCKS, sizeof BLOCKS, 11)) && is_no_block(tailsprig_block_at(BLOCKS, sizeof BLOCKS, SIZE_MAX)));

    /* The last block is cut short: no number has a block, and the first place still has one. */
    CHECK(is_no_block(tailsprig_block_of(BLOCKS, sizeof BLOCKS - 1, 0)) && is_first(tailsprig_block_at(BLOCKS, sizeof BLOCKS - 1, 0)));
}

/* What the field of a CM is refused with, whose octet at a place is another. */
static int32_t refused_with(size_t place, uint8_t octet)
{
    uint8_t heard[sizeof FIELD_CM], out[TAILSPRIG_FIELD_MOST];

    memcpy(heard, FIELD_CM, sizeof heard);
    heard[place] = octet;
    return tailsprig_fields(heard, sizeof heard, out, sizeof out);
}

static void fields(void)
{
    uint8_t heard[TAILSPRIG_MOST_OCTETS + 1] = {0xC1, 0x0F, 0x15, 0x51, 0x55, 0x11}, out[TAILSPRIG_FIELD_MOST + 1];

    memset(out, 7, sizeof out);
    CHECK(tailsprig_fields(CM, sizeof CM, out, 0) == 0);
    CHECK(tailsprig_fields(FIELD_CM, sizeof FIELD_CM, out, sizeof BLOCKS - 1) == -TAILSPRIG_SHORT_BUFFER && out[0] == 7);
    CHECK(tailsprig_fields(FIELD_CM, sizeof FIELD_CM, out, sizeof BLOCKS) == (int32_t)sizeof BLOCKS);
    CHECK(memcmp(out, BLOCKS, sizeof BLOCKS) == 0 && out[sizeof BLOCKS] == 7);
    CHECK(tailsprig_fields(FIELD_CM, 6, out, 0) == 0);
    CHECK(refused_with(0, 0xC2) == -TAILSPRIG_NO_CALL_FUNCTION);
    CHECK(refused_with(3, 0x98) == -TAILSPRIG_BAD_OCTET);
    CHECK(refused_with(5, 0x2F) == -TAILSPRIG_BAD_PACKING);
    CHECK(refused_with(sizeof FIELD_CM - 1, 0x90) == -TAILSPRIG_BAD_PACKING);
    CHECK(refused_with(6, 0x10) == -TAILSPRIG_BAD_BLOCK);
    CHECK(tailsprig_fields(FIELD_CM, 7, out, sizeof out) == -TAILSPRIG_BAD_PACKING);

    /* A block of 38 octets in 61 extension octets, which is as many as a field has: with one more, six bits are left over. */
    memset(heard + 6, 0x10, sizeof heard - 6);
    CHECK(tailsprig_fields(heard, 63, out, TAILSPRIG_FIELD_MOST) == TAILSPRIG_FIELD_MOST && is_span(tailsprig_block_at(out, 38, 0).rest, 3, 35));
    CHECK(tailsprig_fields(heard, TAILSPRIG_MOST_OCTETS, out, sizeof out) == -TAILSPRIG_BAD_PACKING);
    CHECK(tailsprig_fields(heard, sizeof heard, out, sizeof out) == -TAILSPRIG_TOO_MANY_OCTETS);
}

/* A record with one function. */
static struct tailsprig_record with_function(uint8_t function, uint8_t pcm, uint16_t items)
{
    struct tailsprig_record own;

    memset(&own, 0, sizeof own);
    own.functions[function - 1].available = 1;
    own.functions[function - 1].pcm = pcm;
    own.functions[function - 1].items = items;
    own.home = function;
    return own;
}

static bool makes_cm(struct tailsprig_record own, uint8_t function, const uint8_t *menu, size_t len)
{
    uint8_t made[TAILSPRIG_MENU_MOST];

    return tailsprig_cm(own, function, NOTHING, 0, made, sizeof made) == (int32_t)len && memcmp(made, menu, len) == 0;
}

/* What a CM for data answers with a field of so many octets, which are one block; in a buffer of so many. */
static int32_t with_field(struct tailsprig_record own, size_t octets, size_t room)
{
    uint8_t block[TAILSPRIG_FIELD_MOST] = {(uint8_t)(octets - 1), 0xB5}, made[TAILSPRIG_MENU_MOST];

    return tailsprig_cm(own, TAILSPRIG_FUNCTION_DATA, block, octets, made, room);
}

/* With which bit a CM of so many octets is agreed, which is sent over and over. */
static size_t bits_until_agreed(size_t octets)
{
    uint8_t menu[TAILSPRIG_MOST_OCTETS] = {0xC1}, bits[3 * TAILSPRIG_MOST_BITS];
    size_t len;

    memset(menu + 1, 0x10, sizeof menu - 1);
    len = (size_t)tailsprig_write(TAILSPRIG_MENU, menu, octets, 3, bits, sizeof bits);

    struct tailsprig_ran ran = tailsprig_hear_many(tailsprig_fresh(), bits, len);
    size_t first = ran.taken;

    ran = tailsprig_hear_many(ran.rec, bits + first, len - first);
    return ran.code == TAILSPRIG_HEARD_AGREED ? first + ran.taken : 0;
}

static void own_fields(void)
{
    struct tailsprig_record own = {.functions[5] = {.available = 1, .items = TAILSPRIG_V34 | TAILSPRIG_V32BIS | TAILSPRIG_V22BIS | TAILSPRIG_V21},
                                   .home = TAILSPRIG_FUNCTION_DATA,
                                   .lapm = 1};
    uint8_t made[TAILSPRIG_MENU_MOST], jm[TAILSPRIG_MENU_MOST];

    memset(made, 7, sizeof made);
    CHECK(tailsprig_cm(own, TAILSPRIG_FUNCTION_DATA, BLOCKS, sizeof BLOCKS, made, sizeof FIELD_CM - 1) == -TAILSPRIG_SHORT_BUFFER);
    CHECK(tailsprig_cm(own, TAILSPRIG_FUNCTION_DATA, BLOCKS, sizeof BLOCKS - 1, made, sizeof made) == -TAILSPRIG_BAD_BLOCK && made[0] == 7);
    CHECK(tailsprig_cm(own, TAILSPRIG_FUNCTION_DATA, BLOCKS, sizeof BLOCKS, made, sizeof FIELD_CM) == (int32_t)sizeof FIELD_CM);
    CHECK(memcmp(made, FIELD_CM, sizeof FIELD_CM) == 0 && made[sizeof FIELD_CM] == 7);
    CHECK(tailsprig_cm(own, TAILSPRIG_FUNCTION_FAX_SENT, BLOCKS, sizeof BLOCKS, made, sizeof made) == -TAILSPRIG_NO_CALL_FUNCTION);

    /* JM has none, and is that for the CM without one. */
    CHECK(tailsprig_jm(own, FIELD_CM, sizeof FIELD_CM, made, sizeof made) == 5 && tailsprig_jm(own, CM, sizeof CM, jm, sizeof jm) == 5);
    CHECK(memcmp(made, jm, 5) == 0 && tailsprig_find(made, 5, TAILSPRIG_TAG_FIELD) == TAILSPRIG_NOWHERE);

    /* 36 octets where CM has 4 or 5 octets without them, 35 where it has 6 or 7. */
    CHECK(with_field(own, 36, 64) == 64 && with_field(own, 36, 63) == -TAILSPRIG_SHORT_BUFFER);
    CHECK(with_field(own, 37, 64) == -TAILSPRIG_TOO_MANY_OCTETS);
    own.access = 1;
    CHECK(with_field(own, 35, 64) == 63 && with_field(own, 36, 64) == -TAILSPRIG_TOO_MANY_OCTETS);
    own.functions[5].pcm = TAILSPRIG_PCM_ANALOGUE;
    CHECK(with_field(own, 35, 64) == 64 && with_field(own, 36, 64) == -TAILSPRIG_TOO_MANY_OCTETS);
    own.lapm = 0;
    CHECK(with_field(own, 35, 64) == 63 && with_field(own, 36, 64) == -TAILSPRIG_TOO_MANY_OCTETS);

    /* With a Te of 1,000 an answerer hears 57 octets twice before it leaves, and not 58. */
    CHECK(bits_until_agreed(57) == 50 + 20 * 57 && 1000 + bits_until_agreed(57) * 10 / 3 < 5000);
    CHECK(1000 + bits_until_agreed(58) * 10 / 3 > 5000);
    CHECK(bits_until_agreed(64) == 50 + 20 * 64 && bits_until_agreed(64) / 300.0 > 4.4 && bits_until_agreed(64) / 300.0 < 4.5);
}

static bool makes_jm(struct tailsprig_record own, const uint8_t *heard, size_t heard_len, const uint8_t *menu, size_t len)
{
    uint8_t made[TAILSPRIG_MENU_MOST];

    return tailsprig_jm(own, heard, heard_len, made, sizeof made) == (int32_t)len && memcmp(made, menu, len) == 0;
}

static void records(void)
{
    const uint16_t no_pcm = TAILSPRIG_V32BIS | TAILSPRIG_V22BIS | TAILSPRIG_V26TER;
    const uint8_t fax[] = {0x81, 0x05, 0x14, 0x10};
    const uint8_t with_lapm[] = {0xC1, 0x05, 0x13, 0x11, 0x2A}, with_access[] = {0xC1, 0x05, 0x13, 0x11, 0x0D};
    const uint8_t cellular[] = {0xC1, 0x05, 0x13, 0x11, 0x2D}, digital[] = {0xC1, 0x05, 0x13, 0x11, 0x8D};
    const uint8_t alone[] = {0xC1, 0x05, 0x13, 0x11};
    const uint8_t most[] = {0xC1, 0x65, 0x10, 0x10, 0xE7, 0x2A, 0xAD};
    struct tailsprig_record own = with_function(TAILSPRIG_FUNCTION_FAX_SENT, 0, TAILSPRIG_V17), base;
    uint8_t made[TAILSPRIG_MENU_MOST];

    CHECK(makes_cm(own, TAILSPRIG_FUNCTION_FAX_SENT, fax, sizeof fax));
    CHECK(tailsprig_cm(own, TAILSPRIG_FUNCTION_DATA, NOTHING, 0, made, sizeof made) == -TAILSPRIG_NO_CALL_FUNCTION);
    CHECK(tailsprig_cm(own, TAILSPRIG_FUNCTION_FAX_SENT, NOTHING, 0, made, 3) == -TAILSPRIG_SHORT_BUFFER);
    own.home = TAILSPRIG_FUNCTION_DATA;
    CHECK(tailsprig_cm(own, TAILSPRIG_FUNCTION_FAX_SENT, NOTHING, 0, made, sizeof made) == -TAILSPRIG_BAD_RECORD);
    own = with_function(TAILSPRIG_FUNCTION_DATA, 0, TAILSPRIG_WITH_PCM);
    CHECK(tailsprig_cm(own, TAILSPRIG_FUNCTION_DATA, NOTHING, 0, made, sizeof made) == -TAILSPRIG_BAD_RECORD);
    own = with_function(TAILSPRIG_FUNCTION_DATA, TAILSPRIG_PCM_ANALOGUE, TAILSPRIG_V32BIS);
    CHECK(tailsprig_cm(own, TAILSPRIG_FUNCTION_DATA, NOTHING, 0, made, sizeof made) == -TAILSPRIG_BAD_RECORD);

    /* What each number of a record brings into a CM. */
    base = with_function(TAILSPRIG_FUNCTION_DATA, 0, no_pcm);
    CHECK(makes_cm(base, TAILSPRIG_FUNCTION_DATA, alone, sizeof alone));
    own = base;
    own.lapm = 1;
    CHECK(makes_cm(own, TAILSPRIG_FUNCTION_DATA, with_lapm, sizeof with_lapm));
    own = base;
    own.cellular = 1;
    CHECK(makes_cm(own, TAILSPRIG_FUNCTION_DATA, alone, sizeof alone));
    own.access = 1;
    CHECK(makes_cm(own, TAILSPRIG_FUNCTION_DATA, cellular, sizeof cellular));
    own.cellular = 0;
    CHECK(makes_cm(own, TAILSPRIG_FUNCTION_DATA, with_access, sizeof with_access));
    own.digital = 1;
    CHECK(makes_cm(own, TAILSPRIG_FUNCTION_DATA, digital, sizeof digital));
    own = with_function(TAILSPRIG_FUNCTION_DATA, TAILSPRIG_PCM_ANALOGUE, TAILSPRIG_V34);
    CHECK(makes_cm(own, TAILSPRIG_FUNCTION_DATA, PCM_CM, sizeof PCM_CM));
    own.functions[TAILSPRIG_FUNCTION_DATA - 1].pcm = TAILSPRIG_PCM_ANALOGUE | TAILSPRIG_PCM_DIGITAL | TAILSPRIG_PCM_V91;
    own.lapm = own.access = own.cellular = own.digital = 1;
    CHECK(makes_cm(own, TAILSPRIG_FUNCTION_DATA, most, sizeof most));

    CHECK(makes_jm(base, CM, sizeof CM, JM, sizeof JM));
    CHECK(tailsprig_jm(base, CM, 0, made, sizeof made) == -TAILSPRIG_NO_CALL_FUNCTION);
    own = with_function(TAILSPRIG_FUNCTION_DATA, TAILSPRIG_PCM_DIGITAL, TAILSPRIG_V34 | TAILSPRIG_V32BIS);
    own.digital = 1;
    CHECK(makes_jm(own, PCM_CM, sizeof PCM_CM, PCM_JM, sizeof PCM_JM));

    CHECK(tailsprig_call_function(base, CM, sizeof CM, JM, sizeof JM) == TAILSPRIG_CALL_FUNCTION_HEARD);
    CHECK(tailsprig_call_function(base, fax, sizeof fax, JM, sizeof JM) == TAILSPRIG_CALL_FUNCTION_OWN);
    CHECK(tailsprig_call_function(base, CM, sizeof CM, JM, 0) == TAILSPRIG_CALL_FUNCTION_NOWHERE);
}

/* A CM for data, all else in it modulation octets without an item. */
static void all_modulation(uint8_t cm[TAILSPRIG_MOST_OCTETS])
{
    memset(cm, 0x10, TAILSPRIG_MOST_OCTETS);
    cm[0] = 0xC1;
    cm[1] = TAILSPRIG_TAG_MODULATION;
}

/* Without a mode in common JM has as many modulation octets as the CM. */
static void counts(void)
{
    const uint8_t one[] = {0xC1, 0x45}, jm_of_one[] = {0xC1, 0x05}, shared[] = {0xC1, 0x45, 0x10, 0x10};
    const uint8_t two_groups[] = {0xC1, 0x45, 0x0A, 0x05, 0x10, 0x10, 0x10};
    const uint8_t five[] = {0xC1, 0x45, 0x11, 0x90, 0xD7, 0x55}, jm_of_five[] = {0xC1, 0x05, 0x10, 0x10, 0x10, 0x10};
    const uint8_t v91[] = {0xC1, 0x45, 0x87, 0x0D}, jm_of_v91[] = {0xC1, 0x25, 0x87, 0x0D}, v91_alone[] = {0xC1, 0x87, 0x0D};
    struct tailsprig_record own = with_function(TAILSPRIG_FUNCTION_DATA, TAILSPRIG_PCM_V91, TAILSPRIG_V22BIS), fax;
    uint8_t cm[TAILSPRIG_MOST_OCTETS], made[TAILSPRIG_MENU_MOST];

    CHECK(makes_jm(own, one, sizeof one, jm_of_one, sizeof jm_of_one) && makes_jm(own, one, 1, one, 1));
    CHECK(makes_jm(own, two_groups, sizeof two_groups, jm_of_one, sizeof jm_of_one));
    CHECK(makes_jm(own, five, sizeof five, jm_of_five, sizeof jm_of_five));
    CHECK(makes_jm(own, v91, sizeof v91, jm_of_v91, sizeof jm_of_v91));
    CHECK(makes_jm(own, v91_alone, sizeof v91_alone, v91_alone, sizeof v91_alone));
    fax = with_function(TAILSPRIG_FUNCTION_FAX_SENT, 0, TAILSPRIG_V34);
    CHECK(tailsprig_jm(fax, one, sizeof one, made, sizeof made) == 2 && made[0] == 0x81 && made[1] == 0x05);
    own.functions[TAILSPRIG_FUNCTION_DATA - 1].items = TAILSPRIG_V34;
    CHECK(makes_jm(own, one, sizeof one, shared, sizeof shared));

    /* As long as a JM can be; and one that would be longer, which is told before a short buffer is. */
    all_modulation(cm);
    CHECK(makes_jm(own, cm, sizeof cm, cm, sizeof cm) && tailsprig_jm(own, cm, sizeof cm, made, 63) == -TAILSPRIG_SHORT_BUFFER);
    own.access = 1;
    memset(made, 7, sizeof made);
    CHECK(tailsprig_jm(own, cm, sizeof cm, made, sizeof made) == -TAILSPRIG_TOO_MANY_OCTETS && made[0] == 7);
    CHECK(tailsprig_jm(own, cm, sizeof cm, made, 0) == -TAILSPRIG_TOO_MANY_OCTETS);
    CHECK(tailsprig_jm(own, cm, 63, made, sizeof made) == 64 && made[62] == 0x10 && made[63] == 0x0D);

    /* The last octet is LAPM, which counts where both say it; an access group, which JM has too; an octet that cannot be read. */
    cm[63] = 0x2A;
    CHECK(tailsprig_jm(own, cm, sizeof cm, made, sizeof made) == 64);
    own.lapm = 1;
    CHECK(tailsprig_jm(own, cm, sizeof cm, made, sizeof made) == -TAILSPRIG_TOO_MANY_OCTETS);
    cm[63] = 0x0D;
    CHECK(tailsprig_jm(own, cm, sizeof cm, made, sizeof made) == 64);
    cm[63] = 0x18;
    CHECK(tailsprig_jm(own, cm, sizeof cm, made, sizeof made) == -TAILSPRIG_BAD_OCTET);
    own.home = TAILSPRIG_FUNCTION_FAX_SENT;
    CHECK(tailsprig_jm(own, cm, sizeof cm, made, sizeof made) == -TAILSPRIG_BAD_RECORD);
}

static void choice(void)
{
    CHECK(tailsprig_choice(CM, sizeof CM, JM, sizeof JM) == TAILSPRIG_ITEM_V32BIS);
    CHECK(tailsprig_choice(CM, sizeof CM, JM_OF_NOTHING, sizeof JM_OF_NOTHING) == TAILSPRIG_CHOICE_NONE);
    CHECK(tailsprig_choice(PCM_CM, sizeof PCM_CM, PCM_JM, sizeof PCM_JM) == TAILSPRIG_PCM + TAILSPRIG_PCM_DIGITAL);
    CHECK(tailsprig_choice(PCM_JM, sizeof PCM_JM, PCM_CM, sizeof PCM_CM) == TAILSPRIG_PCM + TAILSPRIG_PCM_ANALOGUE);
    CHECK(tailsprig_choice(JM, sizeof JM, CM, sizeof CM) == -TAILSPRIG_NOT_OFFERED);
    CHECK(tailsprig_choice(CM, 0, JM, sizeof JM) == -TAILSPRIG_NO_CALL_FUNCTION);
}

/* What an event so long after the last change of state is answered; where it changes something, `session` is what is left. */
static int32_t after(struct tailsprig_session *session, uint8_t event, int32_t value, uint32_t elapsed)
{
    struct tailsprig_step_taken taken = tailsprig_step(*session, event, value, session->entry + elapsed);

    *session = taken.session;
    return taken.code;
}

/* A tick does nothing before the limit of the state, and leads on at it. */
static bool ends_at(struct tailsprig_session *session, uint32_t limit, int32_t code)
{
    return after(session, TAILSPRIG_EVENT_TICK, 0, limit - 1) == 0 && after(session, TAILSPRIG_EVENT_TICK, 0, limit) == code;
}

/* A state without a limit: no tick ends it, as far as the clock reaches. */
static bool lasts(struct tailsprig_session session)
{
    return after(&session, TAILSPRIG_EVENT_TICK, 0, 0x7FFFFFFF) == 0;
}

/* Draws so many bits, at most 700, and answers how many come. */
static size_t draw(struct tailsprig_session *session, size_t count)
{
    uint8_t out[700];
    struct tailsprig_bits_drawn drawn = tailsprig_draw(*session, out, count);

    CHECK(drawn.code == 0);
    *session = drawn.session;
    return drawn.bits;
}

/* A caller that hears ANSam once it has sent three CI is quiet for so long. */
static bool quiet_lasts(struct tailsprig_session session, uint32_t te)
{
    return ends_at(&session, 1000, TAILSPRIG_STATE_CALLING) && draw(&session, 90) == 90
        && after(&session, TAILSPRIG_EVENT_ANSAM, 0, 0) == TAILSPRIG_STATE_QUIET
        && ends_at(&session, te, TAILSPRIG_STATE_MENU);
}

/* With ticks 5 ms apart, whenever they fall, a pause is 75 ms long within 5. */
static bool pauses_in_time(struct tailsprig_session session)
{
    for (uint32_t elapsed = 0; elapsed < 5; elapsed++) {
        struct tailsprig_session paused = session;
        uint32_t tick = elapsed;

        while (after(&paused, TAILSPRIG_EVENT_TICK, 0, tick) == 0)
            tick += 5;
        if (tick < 70 || tick > 80)
            return false;
    }
    return true;
}

static void the_starts(void)
{
    struct tailsprig_caller_start started = tailsprig_start_caller(5, 700, TAILSPRIG_FUNCTION_FAX_SENT, 3, 120);
    struct tailsprig_session session = started.session;

    CHECK(started.code == 0 && session.entry == 5 && session.te == 700 && session.end == TAILSPRIG_CALLER);
    CHECK(session.state == TAILSPRIG_STATE_CALLER_STILL && session.chosen == 0 && session.ended == TAILSPRIG_ENDED_GOING);
    CHECK(session.cadence.on == 3 && session.cadence.off == 120 && session.cadence.function == TAILSPRIG_FUNCTION_FAX_SENT);
    CHECK(session.cadence.place == 0 && session.cadence.sent == 0 && session.cadence.tone == 0);
    CHECK(tailsprig_start_caller(5, 500, 1, 20, 600).code == 0 && tailsprig_start_caller(5, 5000, 6, 3, 600).code == 0);
    started = tailsprig_start_caller(5, 499, 6, 3, 120);
    CHECK(started.code == -TAILSPRIG_BAD_RECORD && started.session.entry == 0 && started.session.end == 0);
    CHECK(tailsprig_start_caller(5, 5001, 6, 3, 120).code == -TAILSPRIG_BAD_RECORD);

    /* 10 for the function as well, and 16 for what is on and off, behind it. */
    CHECK(tailsprig_start_caller(5, 700, 0, 3, 120).code == -TAILSPRIG_BAD_RECORD);
    CHECK(tailsprig_start_caller_default(5, 7, 2, 119).code == -TAILSPRIG_BAD_RECORD);
    CHECK(tailsprig_start_caller(5, 499, 6, 2, 119).code == -TAILSPRIG_BAD_RECORD);
    CHECK(tailsprig_start_caller(5, 700, 6, 2, 120).code == -TAILSPRIG_BAD_CADENCE);
    CHECK(tailsprig_start_caller(5, 700, 6, 21, 120).code == -TAILSPRIG_BAD_CADENCE);
    CHECK(tailsprig_start_caller_default(5, 6, 3, 119).code == -TAILSPRIG_BAD_CADENCE);
    started = tailsprig_start_caller_default(5, 6, 3, 601);
    CHECK(started.code == -TAILSPRIG_BAD_CADENCE && started.session.cadence.on == 0 && started.session.end == 0);

    /* Without a value quiet lasts 1,000 ms, and with that of textphones half of it. */
    started = tailsprig_start_caller_default(9, 6, 5, 450);
    session = started.session;
    CHECK(started.code == 0 && session.entry == 9 && session.te == 1000 && session.end == TAILSPRIG_CALLER);
    CHECK(session.cadence.on == 5 && session.cadence.off == 450 && session.cadence.function == 6 && quiet_lasts(session, 1000));
    started = tailsprig_start_caller(9, TAILSPRIG_TE_TEXTPHONE, TAILSPRIG_FUNCTION_TEXTPHONE, 3, 120);
    CHECK(started.code == 0 && quiet_lasts(started.session, 500));

    /* With a Te of 5,000 CM starts no sooner than ANSam ends, even where the caller hears ANSam at once. */
    CHECK(quiet_lasts(tailsprig_start_caller(0, 5000, 6, 3, 120).session, 5000));
}

/* A caller that is calling, for data, with five CI on and 450 bit times off. */
static struct tailsprig_session calling(void)
{
    struct tailsprig_session session = tailsprig_start_caller(0, 700, TAILSPRIG_FUNCTION_DATA, 5, 450).session;

    CHECK(draw(&session, 30) == 0 && session.cadence.sent == 0);
    CHECK(ends_at(&session, 1000, TAILSPRIG_STATE_CALLING));
    return session;
}

static void ci(void)
{
    struct tailsprig_session session = calling(), other;
    struct tailsprig_bits_drawn drawn;
    uint8_t ci[30], out[700], one[1];
    size_t at;

    /* A period is five CI and the silence behind them, half a second and one and a half; the next begins like it. */
    CHECK(bits_of(ci, CI_BITS) == sizeof ci);
    memset(out, 9, sizeof out);
    drawn = tailsprig_draw(session, out, 699);
    CHECK(drawn.code == 0 && drawn.bits == 699 && out[699] == 9);
    for (at = 0; at < 699; at++)
        CHECK(out[at] == (at % 600 < 150 ? ci[at % 30] : TAILSPRIG_SILENCE));
    CHECK(drawn.session.cadence.place == 99 && drawn.session.cadence.sent == 90 && drawn.session.cadence.tone == 0);
    CHECK(drawn.session.entry == session.entry && drawn.session.state == TAILSPRIG_STATE_CALLING && lasts(drawn.session));

    /* In any cut they are the same, and counted. */
    for (at = 0; at < 200; at++) {
        drawn = tailsprig_draw(session, one, 1);
        session = drawn.session;
        CHECK(drawn.bits == 1 && one[0] == out[at] && session.cadence.place == at + 1);
        CHECK(session.cadence.sent == (at < 90 ? at + 1 : 90));
    }
    CHECK(draw(&session, 0) == 0 && session.cadence.place == 200);

    /* Nothing is left in an off period, and none between two CI, behind the third: tones lead on at once. */
    other = session;
    CHECK(after(&other, TAILSPRIG_EVENT_ANSAM, 0, 1) == TAILSPRIG_STATE_QUIET && other.cadence.place == 200);
    other = calling();
    CHECK(draw(&other, 120) == 120 && after(&other, TAILSPRIG_EVENT_ANS, 0, 1) == TAILSPRIG_ENDED + TAILSPRIG_ENDED_LEFT);
    other = calling();
    CHECK(draw(&other, 90) == 90 && after(&other, TAILSPRIG_EVENT_ANSAM, 0, 1) == TAILSPRIG_STATE_QUIET);

    /* Before the first bit all three are left: 90 bits, and no tone or tick leads on before. The entry time is the tick's. */
    session = calling();
    CHECK(after(&session, TAILSPRIG_EVENT_ANSAM, 0, 1) == 0 && session.cadence.tone == TAILSPRIG_EVENT_ANSAM);
    CHECK(after(&session, TAILSPRIG_EVENT_ANS, 0, 2) == 0 && lasts(session));
    CHECK(draw(&session, 89) == 89 && lasts(session));
    CHECK(draw(&session, 700) == 1 && draw(&session, 700) == 0 && session.state == TAILSPRIG_STATE_CALLING);
    CHECK(after(&session, TAILSPRIG_EVENT_ANS, 0, 300) == 0 && after(&session, TAILSPRIG_EVENT_ANSAM, 0, 300) == 0);
    CHECK(after(&session, TAILSPRIG_EVENT_TICK, 0, 310) == TAILSPRIG_STATE_QUIET && session.entry == 1310);
    CHECK(draw(&session, 30) == 0 && ends_at(&session, 700, TAILSPRIG_STATE_MENU));

    /* Within a CI behind the third its rest is left; ANS leaves then, sigA at once. */
    session = calling();
    CHECK(draw(&session, 121) == 121 && after(&session, TAILSPRIG_EVENT_ANS, 0, 1) == 0);
    CHECK(session.cadence.tone == TAILSPRIG_EVENT_ANS);
    other = session;
    CHECK(after(&other, TAILSPRIG_EVENT_SIG_A, 0, 2) == TAILSPRIG_ENDED + TAILSPRIG_ENDED_LEFT);
    CHECK(draw(&session, 30) == 29);
    CHECK(after(&session, TAILSPRIG_EVENT_TICK, 0, 100) == TAILSPRIG_ENDED + TAILSPRIG_ENDED_LEFT);

    /* An answerer has none, and a session outside its range is refused. */
    other = tailsprig_start_answerer(0);
    CHECK(draw(&other, 30) == 0 && other.cadence.on == 0);
    session = calling();
    session.cadence.place = 1;
    memset(out, 9, sizeof out);
    drawn = tailsprig_draw(session, out, sizeof out);
    CHECK(drawn.code == -TAILSPRIG_BAD_RECORD && drawn.bits == 0 && out[0] == 9);
    CHECK(memcmp(&drawn.session, &session, sizeof session) == 0);
}

static void the_caller(void)
{
    struct tailsprig_session session = tailsprig_start_caller(5, 700, 6, 3, 120).session, other;

    /* A tone that is told once, too early, is lost. */
    CHECK(after(&session, TAILSPRIG_EVENT_ANSAM, 0, 999) == 0);
    CHECK(ends_at(&session, 1000, TAILSPRIG_STATE_CALLING) && session.entry == 1005 && lasts(session));
    CHECK(draw(&session, 90) == 90 && lasts(session));
    other = session;
    CHECK(after(&other, TAILSPRIG_EVENT_ANS, 0, 1) == TAILSPRIG_ENDED + TAILSPRIG_ENDED_LEFT);
    other = session;
    CHECK(after(&other, TAILSPRIG_EVENT_SIG_A, 0, 1) == TAILSPRIG_ENDED + TAILSPRIG_ENDED_LEFT);
    CHECK(after(&session, TAILSPRIG_EVENT_ANSAM, 0, 1) == TAILSPRIG_STATE_QUIET);
    CHECK(ends_at(&session, 700, TAILSPRIG_STATE_MENU));
    other = session;
    CHECK(ends_at(&other, 10000, TAILSPRIG_ENDED + TAILSPRIG_ENDED_LATE));
    other = session;
    CHECK(after(&other, TAILSPRIG_EVENT_AGREED_JM, -TAILSPRIG_NOT_OFFERED, 1) == TAILSPRIG_ENDED + TAILSPRIG_ENDED_NOT_OFFERED);
    other = session;
    CHECK(after(&other, TAILSPRIG_EVENT_AGREED_JM, TAILSPRIG_CHOICE_NONE, 1) == TAILSPRIG_STATE_CLOSING);
    CHECK(after(&other, TAILSPRIG_EVENT_CJ_SENT, 0, 1) == TAILSPRIG_ENDED + TAILSPRIG_ENDED_CLEARED);
    CHECK(after(&session, TAILSPRIG_EVENT_AGREED_JM, TAILSPRIG_ITEM_V22BIS, 1) == TAILSPRIG_STATE_CLOSING);
    CHECK(session.end == TAILSPRIG_CALLER && session.state == TAILSPRIG_STATE_CLOSING && session.chosen == 4 && session.ended == 0);
    CHECK(lasts(session));
    CHECK(after(&session, TAILSPRIG_EVENT_CJ_SENT, 0, 100) == TAILSPRIG_STATE_PAUSE && pauses_in_time(session));
    CHECK(ends_at(&session, 75, TAILSPRIG_GO_ON + TAILSPRIG_ITEM_V22BIS));
    CHECK(session.end == 1 && session.state == TAILSPRIG_STATE_OVER && session.chosen == 4 && session.ended == TAILSPRIG_ENDED_GO_ON);
    CHECK(after(&session, TAILSPRIG_EVENT_TICK, 0, 0) == -TAILSPRIG_AFTER_OVER);
}

/* An answerer that has agreed to a choice. */
static struct tailsprig_session joint(int32_t chosen)
{
    struct tailsprig_session session = tailsprig_start_answerer(0);

    after(&session, TAILSPRIG_EVENT_TICK, 0, 200);
    CHECK(after(&session, TAILSPRIG_EVENT_AGREED_CM, chosen, 1) == TAILSPRIG_STATE_JOINT);
    return session;
}

static void the_answerer(void)
{
    struct tailsprig_session session = tailsprig_start_answerer(7), other;

    CHECK(session.entry == 7 && session.te == 0 && session.end == TAILSPRIG_ANSWERER);
    CHECK(session.state == TAILSPRIG_STATE_ANSWERER_STILL && session.chosen == 0 && session.ended == 0);
    CHECK(ends_at(&session, 200, TAILSPRIG_STATE_ANSWERING));

    /* Every sigC leads to left while answering, and so does the limit. */
    for (int32_t item = 1; item <= 12; item++) {
        other = session;
        CHECK(after(&other, TAILSPRIG_EVENT_SIG_C, item, 1) == TAILSPRIG_STATE_PAUSE);
        CHECK(ends_at(&other, 75, TAILSPRIG_ENDED + TAILSPRIG_ENDED_LEFT));
    }
    other = session;
    CHECK(ends_at(&other, 5000, TAILSPRIG_STATE_PAUSE) && ends_at(&other, 75, TAILSPRIG_ENDED + TAILSPRIG_ENDED_LEFT));

    other = joint(TAILSPRIG_CHOICE_NONE);
    CHECK(after(&other, TAILSPRIG_EVENT_CJ, 0, 1) == TAILSPRIG_ENDED + TAILSPRIG_ENDED_CLEARED);
    other = joint(TAILSPRIG_ITEM_V21);
    CHECK(ends_at(&other, 10000, TAILSPRIG_ENDED + TAILSPRIG_ENDED_LATE));
    other = joint(TAILSPRIG_ITEM_V21);
    CHECK(after(&other, TAILSPRIG_EVENT_CJ, 0, 1) == TAILSPRIG_STATE_PAUSE && pauses_in_time(other));
    CHECK(ends_at(&other, 75, TAILSPRIG_GO_ON + TAILSPRIG_ITEM_V21));

    /* CJ is lost: the sigC of the chosen item does, another does not, and none does where PCM was chosen. */
    other = joint(TAILSPRIG_ITEM_V32BIS);
    CHECK(after(&other, TAILSPRIG_EVENT_SIG_C, TAILSPRIG_ITEM_V34, 1) == 0);
    CHECK(after(&other, TAILSPRIG_EVENT_SIG_C, TAILSPRIG_ITEM_V32BIS, 1) == TAILSPRIG_STATE_PAUSE);
    other = joint(TAILSPRIG_PCM + TAILSPRIG_PCM_V91);
    for (int32_t item = 1; item <= 12; item++)
        CHECK(after(&other, TAILSPRIG_EVENT_SIG_C, item, 1) == 0);
    CHECK(after(&other, TAILSPRIG_EVENT_CJ, 0, 9999) == TAILSPRIG_STATE_PAUSE);
    CHECK(ends_at(&other, 75, TAILSPRIG_GO_ON + TAILSPRIG_PCM + TAILSPRIG_PCM_V91));
}

static void refused_events(void)
{
    struct tailsprig_session session = tailsprig_start_caller_default(1000, 6, 3, 120).session, kept = session;

    CHECK(after(&session, TAILSPRIG_EVENT_CJ, 0, 1) == -TAILSPRIG_WRONG_EVENT);
    CHECK(after(&session, 10, 0, 1) == -TAILSPRIG_WRONG_EVENT && after(&session, 0, 0, 1) == -TAILSPRIG_WRONG_EVENT);
    CHECK(after(&session, TAILSPRIG_EVENT_AGREED_JM, 13, 1) == -TAILSPRIG_WRONG_EVENT);

    /* The clock went back, or half its range has passed; with a time that is not before the entry time the event counts. */
    CHECK(after(&session, TAILSPRIG_EVENT_TICK, 0, (uint32_t)-1) == -TAILSPRIG_CLOCK);
    CHECK(after(&session, TAILSPRIG_EVENT_TICK, 0, 0x80000000) == -TAILSPRIG_CLOCK && 0x80000000 / 86400000 == 24);
    CHECK(memcmp(&session, &kept, sizeof session) == 0 && after(&session, TAILSPRIG_EVENT_TICK, 0, 0) == 0);

    session.state = TAILSPRIG_STATE_JOINT;
    CHECK(after(&session, TAILSPRIG_EVENT_TICK, 0, 1) == -TAILSPRIG_BAD_RECORD);
}

#define TEXT(number) #number
#define TEXT_OF(number) TEXT(number)

static void version(void)
{
    const char *numbers = TEXT_OF(TAILSPRIG_VERSION_MAJOR) "." TEXT_OF(TAILSPRIG_VERSION_MINOR) "." TEXT_OF(
        TAILSPRIG_VERSION_PATCH);

    CHECK(strcmp(TAILSPRIG_VERSION, numbers) == 0);
}

int main(void)
{
    writing();
    listening();
    spans();
    menus();
    asking();
    blocks();
    fields();
    records();
    counts();
    own_fields();
    choice();
    the_starts();
    ci();
    the_caller();
    the_answerer();
    refused_events();
    version();
    return failures == 0 ? 0 : 1;
}
