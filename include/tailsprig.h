/*
 * tailsprig.h: the V.8 session start for a line server or a logger, in C. This file is the manual.
 *
 *     Rules for every call            what is promised, and what a host has to keep to
 *     Numbers with names              refusals, kinds, functions, items, PCM, access, tags
 *     Writing                         octets to bits
 *     Listening                       bits to messages, and where each began
 *     Menus                           what a menu says, and whether it offers one item
 *     Makers' own fields              what a maker put into a CM, and its blocks
 *     Records, the choice             what an end can do and the menus that say it, what both ends go on with
 *     Sessions                        states, limits, events, CI, what a host does in each state and at the end
 *
 * A host keeps three things for each line: a record of what its end can do (struct tailsprig_record), what it has heard
 * (struct tailsprig_listener) and the session (struct tailsprig_session). The last two are made anew at the start of
 * each call. examples/line.c is the loop around them, for both ends. 'V.8' is ITU-T V.8 (11/2000), with its clauses.
 *
 * Rules for every call
 *   - Link libtailsprig.a or libtailsprig.so (x86-64 Linux). The library keeps no state, allocates nothing and reads no
 *     clock, so calls on different memory may run at the same time.
 *   - Every call is proved: it takes every input, reads and writes only what it is lent, and always returns. Inputs are
 *     values: numbers, bytes and structs, whatever they hold. Pointers are none: they have to be good. docs/TRUST.md
 *     says what has to be believed for that.
 *   - So it is for the host to see to it that a pointer is not NULL, not even with a length of 0; that it points at as
 *     many bytes as its length says, or at a struct of its type; that what is lent for writing overlaps nothing else
 *     that is lent to the same call; and that nothing else writes there while the call runs. NULL, a length that lies
 *     and overlap are outside the promise: no call can test them.
 *   - An argument that is wider than its parameter is the compiler's to convert, before the library sees it: 258 for a
 *     uint8_t arrives as 2, and 65,536 copies as 0. The compiler can warn of it (-Wconversion).
 *   - A bit is a byte of value 0 or 1.
 *   - A negative answer -n is refusal n of the list below; then no byte of a lent buffer has changed.
 */
#ifndef TAILSPRIG_H
#define TAILSPRIG_H

#include <stdbool.h>
#include <stddef.h>
#include <stdint.h>

#ifdef __cplusplus
extern "C" {
#endif

/*
 * The version, as text and as numbers. Programs that were built with another first number, or while that is 0 with
 * another second one, have to be built anew; a shared library of another such number is not found when they start.
 * With another second number a call may answer otherwise than before; what a host then has to change:
 *
 *   0.7.0  Nothing. tailsprig_asks is new and says whether a menu offers one item, without the whole menu read; all
 *          else is as it was. A program is built anew as for 0.6.0, and its source can stay.
 *   0.6.0  Nothing. tailsprig_last_span is new and says where a reported message began; all else is as it was. A
 *          program is built anew, since the shared library has another name, and its source can stay.
 *   0.5.0  In CALLING the library gives out the bits to send, CI on and off ('CI' in Sessions). A host asks for them by
 *          tailsprig_draw, 300 a second, and is silent where TAILSPRIG_SILENCE comes; one that never asks stays in
 *          CALLING, whatever tone comes, but for sigA. So both starts of a caller take the call function, how many CI
 *          are on and how many bit times off, and can refuse them: with 10, and with 16, which is new.
 *          tailsprig_start_caller_default answers a struct tailsprig_caller_start, as the other one does. A session
 *          has 20 bytes. Code 0 of a step no longer says that nothing changed: keep the session that comes back with
 *          it. Te counts from the entry of QUIET: a host no longer holds ANSam back until a CI has ended.
 *   0.4.0  A JM without a mode in common has as many modulation octets as the heard CM, and no longer three: 1 to 64
 *          octets in all. Lend tailsprig_jm TAILSPRIG_MENU_MOST of them, since a buffer of 7 may be refused with 6.
 *          One that would have more is refused with 4; a host then hands over no event ('No JM' in Sessions). Nothing
 *          else changes.
 *   0.3.0  tailsprig_cm takes the octets of our own blocks behind the function; a host without any gives a pointer that
 *          is not NULL and 0. TAILSPRIG_MENU_MOST is 64 where it was 7, so buffers by that name grow. There are two
 *          more refusals: 14 of tailsprig_cm with blocks, 14 and 15 of the calls for fields, which are new.
 *   0.2.0  tailsprig_start_caller_default gives a Te of 1,000 where it gave 500. A host whose callers cannot be quiet
 *          that long, as textphones, calls tailsprig_start_caller with TAILSPRIG_TE_TEXTPHONE in its place. A host
 *          that gives Te has nothing to change.
 */
#define TAILSPRIG_VERSION "0.7.0"
#define TAILSPRIG_VERSION_MAJOR 0
#define TAILSPRIG_VERSION_MINOR 7
#define TAILSPRIG_VERSION_PATCH 0

/* ---- Numbers with names ---- */

/* Refusals. A call answers the negative of one of these. */
enum tailsprig_refusal {
    TAILSPRIG_NOT_A_BIT = 1,        /* a bit that is not 0 or 1 */
    TAILSPRIG_STOP_BIT_ZERO = 2,    /* a stop bit that is 0 */
    TAILSPRIG_BAD_OCTET = 3,        /* b4 = 1 with b3 or b5 = 1 */
    TAILSPRIG_TOO_MANY_OCTETS = 4,  /* over 64 octets; in tailsprig_cm, the whole CM with its field; in tailsprig_jm,
                                       the heard CM or the JM */
    TAILSPRIG_NO_CALL_FUNCTION = 5, /* no octets, or the first is not a category octet with tag 1; in tailsprig_cm, a
                                       function that is not available */
    TAILSPRIG_SHORT_BUFFER = 6,     /* the lent buffer is too short */
    TAILSPRIG_AFTER_OVER = 7,       /* an event after the session was over */
    TAILSPRIG_CLOCK = 8,            /* the clock ran backwards, or half its range has passed */
    TAILSPRIG_WRONG_EVENT = 9,      /* an event of the other end, or a value outside its range; in tailsprig_asks, an
                                       item that is not 1 to 12 */
    TAILSPRIG_BAD_RECORD = 10,      /* a record, a session, Te or a kind outside its range; at a caller's start also a
                                       function that is none */
    TAILSPRIG_NOT_OFFERED = 11,     /* the choice was not offered */
    TAILSPRIG_WRONG_CATEGORY = 12,  /* in writing: tag 0, or another category in CI */
    TAILSPRIG_CUT_SHORT = 13,       /* a sequence cut short */
    TAILSPRIG_BAD_BLOCK = 14,       /* a block longer than what remains, or a code that does not fit in it */
    TAILSPRIG_BAD_PACKING = 15,     /* a field with more than four bits left over, or with leftover bits or options
                                       that are not 0 */
    TAILSPRIG_BAD_CADENCE = 16      /* a caller's start with on or off periods that V.8 does not allow */
};

/* Kinds of messages. */
enum tailsprig_kind {
    TAILSPRIG_CI = 1,
    TAILSPRIG_MENU = 2 /* CM and JM */
};

/* Call functions. In a record, functions[f - 1] is that of function f. */
enum tailsprig_function {
    TAILSPRIG_FUNCTION_H324 = 1,
    TAILSPRIG_FUNCTION_TEXTPHONE = 2,
    TAILSPRIG_FUNCTION_VIDEOTEX = 3,
    TAILSPRIG_FUNCTION_FAX_SENT = 4,     /* by the caller */
    TAILSPRIG_FUNCTION_FAX_RECEIVED = 5, /* by the caller */
    TAILSPRIG_FUNCTION_DATA = 6
};

/* Items: modulations by their numbers in V.8, as a choice and sigC name one. Of those in JM the lowest is used. */
enum tailsprig_item {
    TAILSPRIG_ITEM_PCM = 0, /* says only that PCM is there: never a choice */
    TAILSPRIG_ITEM_V34 = 1, /* duplex */
    TAILSPRIG_ITEM_V34_HALF_DUPLEX = 2,
    TAILSPRIG_ITEM_V32BIS = 3, /* and V.32 */
    TAILSPRIG_ITEM_V22BIS = 4, /* and V.22 */
    TAILSPRIG_ITEM_V17 = 5,
    TAILSPRIG_ITEM_V29_HALF_DUPLEX = 6,
    TAILSPRIG_ITEM_V27TER = 7,
    TAILSPRIG_ITEM_V26TER = 8,
    TAILSPRIG_ITEM_V26BIS = 9,
    TAILSPRIG_ITEM_V23 = 10, /* duplex */
    TAILSPRIG_ITEM_V23_HALF_DUPLEX = 11,
    TAILSPRIG_ITEM_V21 = 12
};

/* Sets of items, as records and offers hold them: TAILSPRIG_V34 | TAILSPRIG_V32BIS. */
enum tailsprig_items {
    TAILSPRIG_WITH_PCM = 1 << TAILSPRIG_ITEM_PCM, /* in an offer that was read; a record with it is bad */
    TAILSPRIG_V34 = 1 << TAILSPRIG_ITEM_V34,
    TAILSPRIG_V34_HALF_DUPLEX = 1 << TAILSPRIG_ITEM_V34_HALF_DUPLEX,
    TAILSPRIG_V32BIS = 1 << TAILSPRIG_ITEM_V32BIS,
    TAILSPRIG_V22BIS = 1 << TAILSPRIG_ITEM_V22BIS,
    TAILSPRIG_V17 = 1 << TAILSPRIG_ITEM_V17,
    TAILSPRIG_V29_HALF_DUPLEX = 1 << TAILSPRIG_ITEM_V29_HALF_DUPLEX,
    TAILSPRIG_V27TER = 1 << TAILSPRIG_ITEM_V27TER,
    TAILSPRIG_V26TER = 1 << TAILSPRIG_ITEM_V26TER,
    TAILSPRIG_V26BIS = 1 << TAILSPRIG_ITEM_V26BIS,
    TAILSPRIG_V23 = 1 << TAILSPRIG_ITEM_V23,
    TAILSPRIG_V23_HALF_DUPLEX = 1 << TAILSPRIG_ITEM_V23_HALF_DUPLEX,
    TAILSPRIG_V21 = 1 << TAILSPRIG_ITEM_V21
};

/* PCM options, b5 to b7 of their octet with b5 lowest; several are joined by |. */
enum tailsprig_pcm_option {
    TAILSPRIG_PCM_ANALOGUE = 1, /* V.90 or V.92, the analogue modem */
    TAILSPRIG_PCM_DIGITAL = 2,  /* V.90 or V.92, the digital modem */
    TAILSPRIG_PCM_V91 = 4
};

/* Access options, in the same way. */
enum tailsprig_access_option {
    TAILSPRIG_ACCESS_CALLER_CELLULAR = 1,
    TAILSPRIG_ACCESS_ANSWERER_CELLULAR = 2,
    TAILSPRIG_ACCESS_DIGITAL = 4 /* the end that says it is on a digital network */
};

/* The tags of the groups that are read here. */
enum tailsprig_tag {
    TAILSPRIG_TAG_CALL_FUNCTION = 1,
    TAILSPRIG_TAG_MODULATION = 5,
    TAILSPRIG_TAG_PCM = 7,
    TAILSPRIG_TAG_PROTOCOL = 10,
    TAILSPRIG_TAG_ACCESS = 13,
    TAILSPRIG_TAG_FIELD = 15 /* makers' own; of the calls that read a menu only tailsprig_fields looks into it */
};

/* ---- Writing ---- */

/* The most octets that a message has, and the most bits that one copy of it takes. */
#define TAILSPRIG_MOST_OCTETS 64
#define TAILSPRIG_MOST_BITS 660

/* The bits of an octet with its start and stop bit. The ten 1s and the sync take as many: a sequence goes by tens. */
#define TAILSPRIG_OCTET_BITS 10

/* The bits of CJ. */
#define TAILSPRIG_CJ_BITS 30

/*
 * Writes a message `copies` times from the start of `out`, a byte for each bit, and answers how many bits that is.
 * One copy takes 20 + 10 * octets_len bits: ten 1s, ten sync bits, then each octet as 0, b0 to b7, 1.
 * Bytes behind the bits keep their values. With 0 copies the message is tested, nothing is written and the answer is 0.
 *
 * Refusals, in this order:
 *   10  kind is neither TAILSPRIG_CI nor TAILSPRIG_MENU
 *    4  more than 64 octets
 *    5  no octets, or the first one is not a category octet with tag 1
 *    3 or 12, at the first octet behind it that is not accepted:
 *        3   b4 = 1 with b3 or b5 = 1
 *        12  in a menu a category octet with tag 0; in CI any category octet
 *    6  out_len is less than the bits of all copies
 */
int32_t tailsprig_write(uint8_t kind, const uint8_t *octets, size_t octets_len, uint16_t copies, uint8_t *out,
                        size_t out_len);

/* Writes CJ once, 30 bits, from the start of `out`, and answers 30; or refusal 6 where out_len is less than 30. */
int32_t tailsprig_write_cj(uint8_t *out, size_t out_len);

/*
 * ---- Listening ----
 *
 * A host keeps one record for each line, makes it fresh at the start of each call, and hears every bit of the call
 * with it. Why fresh: a menu is agreed where it equals the message reported just before it. In a record that is kept
 * over calls that is a menu of the call before, and one damaged copy that equals it would be agreed at once.
 *
 * Bits are what the V.21 demodulator gives while it hears a carrier. Without carrier hand over no bits, or 1s, which
 * end the message that came last; never what a demodulator makes of noise.
 *
 * The numbers of a record are the library's: a host copies and stores them, reads the message in `msg`, and changes
 * none. A record with a number outside its range is refused with 10 and keeps its value; tailsprig_fresh and every
 * call give records within the ranges.
 */
struct tailsprig_ear {
    uint32_t past;  /* the last bits heard, the newest on top: past / 2 + bit * 2^31. Any number */
    uint32_t heard; /* how many bits were heard, counted up to 30. 0 to 30 */
    uint32_t place; /* where in the framing the next bit is. 0 to 28:
                         0         hunting
                         1 to 9    so many bits of a sync were heard
                         10        at an octet boundary
                         11 to 18  the start bit and place - 11 data bits were heard
                         19        all data bits were heard, the stop bit is next
                         20 to 28  place - 19 of the ten 1s that end a message were heard */
};

struct tailsprig_message {
    uint8_t kind;       /* TAILSPRIG_CI, TAILSPRIG_MENU, or 0 for none. 0 to 2 */
    uint8_t len;        /* how many octets it has. 0 to 64 */
    uint8_t octets[64]; /* these, then bytes of no meaning */
};

struct tailsprig_listener {
    struct tailsprig_ear ear;
    struct tailsprig_message msg;  /* the message being heard or heard last; empties at the next accepted sync */
    struct tailsprig_message last; /* the message reported last, which an agreed menu equals */
};

/* What hearing a bit reports. A negative code -n is refusal n. */
enum tailsprig_heard {
    TAILSPRIG_HEARD_NOTHING = 0,
    TAILSPRIG_HEARD_CI = 1,
    TAILSPRIG_HEARD_MENU = 2,   /* a menu that is not agreed */
    TAILSPRIG_HEARD_AGREED = 3, /* a menu that is: reading it gives no refusal, and it equals the message before it */
    TAILSPRIG_HEARD_CJ = 4
};

/* A record in which nothing has been heard, neither 0s nor 1s. All its numbers are 0. */
struct tailsprig_listener tailsprig_fresh(void);

/*
 * Hears one bit and answers a code of tailsprig_heard or a refusal. After 1, 2 or 3 the message is rec->msg: its octets
 * are rec->msg.octets[0 .. rec->msg.len - 1], perhaps none. They are as they came: neither the first octet nor the
 * categories are tested. They stay readable until the next sync is accepted, over refusals and CJ as well. Where the
 * message began on the line, tailsprig_last_span says.
 *
 * Refusals, in this order:
 *   10  a number of the record is outside its range; the record keeps its value
 *    1  bit is neither 0 nor 1; the record keeps its value, and the byte does not count as heard
 * With these the bit was heard, what was being heard is given up, and hunting resumes. They are damage on the line, and
 * ask nothing of a host:
 *    2  a 0 where the stop bit belongs
 *    3  an octet with b4 = 1 and b3 or b5 = 1
 *    4  a 65th octet
 *   13  a 0 among the ten 1s that end a message
 */
int32_t tailsprig_hear(struct tailsprig_listener *rec, uint8_t bit);

/* What tailsprig_hear_many answers. */
struct tailsprig_ran {
    struct tailsprig_listener rec; /* the record behind the last byte taken */
    size_t taken;                  /* how many bytes were taken from the front of `bits` */
    int32_t code;                  /* what the last of them reported, as tailsprig_hear answers it */
};

/*
 * Hears bytes up to the first that reports something, which is taken too; where none does, all of them, with code 0.
 * A byte that is neither 0 nor 1 reports refusal 1: it is taken and changes nothing. With refusal 10, which comes even
 * where len is 0, no byte is taken and the record comes back as it was. The record goes and comes back by value. How
 * the bits of a line are cut into calls makes no difference.
 *
 *     struct tailsprig_listener rec = tailsprig_fresh();       at the start of each call
 *
 *     while (len > 0) {                                        for the bits that have arrived
 *         struct tailsprig_ran ran = tailsprig_hear_many(rec, bits, len);
 *         rec = ran.rec;
 *         bits += ran.taken;
 *         len -= ran.taken;
 *         if (ran.code == TAILSPRIG_HEARD_AGREED)
 *             on_agreed_menu(rec.msg.octets, rec.msg.len);
 *     }
 *
 * The loop ends: a record from tailsprig_fresh is never refused with 10, so each call takes at least one byte.
 */
struct tailsprig_ran tailsprig_hear_many(struct tailsprig_listener rec, const uint8_t *bits, size_t len);

/*
 * The span of the message reported last on this line: the number of bits from its sync's first bit to the bit reporting
 * it, both counted. These are ten bits of sync, ten for each octet, and the ten 1s that end the message. So the answer
 * is 20 + 10 * octets, 20 to TAILSPRIG_MOST_BITS; for a CI of one octet it is 30. It is 0 where no message was reported
 * yet.
 *
 * That says where a message began. With the bits of a line numbered from 0, where bit p reports a message its sync's
 * first bit is bit p - span + 1, and the ten bits before that one are 1s. Bytes that are neither 0 nor 1 are no bits:
 * they are not counted, neither in the span nor in p.
 *
 * A host asks right after a report of 1, 2 or 3, with the record that it has: *rec behind tailsprig_hear, ran.rec
 * behind tailsprig_hear_many. In the loop above, with a count `heard` that the host keeps of the bits of the line:
 *
 *         heard += ran.taken;
 *         if (ran.code == -TAILSPRIG_NOT_A_BIT)
 *             heard--;
 *         if (ran.code >= TAILSPRIG_HEARD_CI && ran.code <= TAILSPRIG_HEARD_AGREED)
 *             on_message_from(heard - (size_t)tailsprig_last_span(rec));      the number of the sync's first bit
 *
 * Asked later, the answer is the same until the next message is reported. CJ and refusals have no span, and change
 * nothing of it.
 *
 * A struct tailsprig_span, further below, is something else: a part of octets, by its place and size.
 *
 * Refusal 10: a number of the record is outside its range.
 */
int32_t tailsprig_last_span(struct tailsprig_listener rec);

/*
 * ---- Menus ----
 *
 * A message is a list of octets, as tailsprig_hear leaves it in `msg`. Looking for a tag and reading refuse the same
 * lists, in this order:
 *    4  more than 64 octets
 *    5  no octets, or the first one is not a category octet with tag 1
 *    3  an octet with b4 = 1 and b3 or b5 = 1
 *
 * Asking for one item is apart from that. It stops at the octet that decides, and what stands behind that one is not
 * refused: tailsprig_asks has its own list below.
 */

/* What tailsprig_find answers where no group has the tag: no place is as high. */
#define TAILSPRIG_NOWHERE 64

/*
 * The place, counted from 0, of the first group with this tag; TAILSPRIG_NOWHERE, also for a tag over 15; or a refusal.
 */
int32_t tailsprig_find(const uint8_t *octets, size_t octets_len, uint8_t tag);

/*
 * How many octets the part of a place has: the category octet there and the octets behind it up to the next one with
 * b4 = 0. The part is octets[place .. place + answer - 1] of the message itself. A place without a category octet, or
 * past the end, has the empty part, 0.
 */
size_t tailsprig_part(const uint8_t *octets, size_t octets_len, size_t place);

/* What a menu offers. The first group of a tag counts; all groups but the five that show here are passed over. */
struct tailsprig_offer {
    uint8_t function;       /* tailsprig_function; 0 and 7 are read too */
    uint16_t items;         /* tailsprig_items; those past a short modulation group are absent */
    uint8_t pcm;            /* tailsprig_pcm_option; 0 where the PCM group does not count: without options, or
                               without an access group in the menu */
    bool lapm;              /* the protocol group says LAPM */
    bool access;            /* an access group stands in the menu */
    uint8_t access_options; /* tailsprig_access_option */
};

struct tailsprig_menu_read {
    struct tailsprig_offer offer; /* all 0 beside a refusal */
    int32_t code;                 /* 0, or a refusal n as -n */
};

/* Reads a menu. */
struct tailsprig_menu_read tailsprig_read(const uint8_t *octets, size_t octets_len);

/* Answers of tailsprig_asks. */
#define TAILSPRIG_ASKED_NO 0
#define TAILSPRIG_ASKED_YES 1

struct tailsprig_item_asked {
    size_t looked; /* how many octets were looked at, counted from 1; 0 beside a refusal */
    int32_t code;  /* 1 where the item is offered, 0 where it is not, or a refusal n as -n */
};

/*
 * Asks whether a menu offers one item, 1 to 12 of enum tailsprig_item, without the whole menu read. It is for a call
 * router, which has this one question before anything else is done:
 *
 *     struct tailsprig_item_asked asked = tailsprig_asks(rec.msg.octets, rec.msg.len, TAILSPRIG_ITEM_V34);
 *     if (asked.code == TAILSPRIG_ASKED_YES)                   a refusal is not 0 either: the code has to be 1
 *         on_v34_offered();
 *
 * Octets are looked at from the first one on, up to the one that decides. In the first modulation group that is the
 * octet which holds the item: the category octet for items 1 and 2, the first extension octet for items 3 to 7, the
 * second for items 8 to 12. Where the group is too short to have it, the next category octet decides, whatever its tag,
 * also where it begins another modulation group: the item is not offered. Where the menu has no modulation group, or
 * ends within a short one, nothing decides: the item is not offered.
 *
 * `looked` is the place of the octet that decides, counted from 1, or octets_len where nothing does. For the menu
 * C1 45 13 90 2A it is 2 for item 1, 3 for item 3 and 4 for item 12; for C1 05 45 and item 3 it is 3.
 *
 * Where tailsprig_read does not refuse the menu, the answer is that of its offer.items. Octets behind the one that
 * decides are not seen, so a menu that is refused there with 3 may be answered here. A host that goes on with a menu
 * reads it all the same.
 *
 * Refusals, in this order:
 *    9  item is not 1 to 12
 *    4  more than 64 octets, wherever the one that decides stands
 *    5  no octets, or the first one is not a category octet with tag 1
 *    3  an octet with b4 = 1 and b3 or b5 = 1 that stands before the one that decides or in its place; where nothing
 *       decides, anywhere
 */
struct tailsprig_item_asked tailsprig_asks(const uint8_t *octets, size_t octets_len, uint8_t item);

/*
 * ---- Makers' own fields ----
 *
 * A CM may carry a field, the group of tag 15, in which makers put what is theirs, as the firmware level of a logger;
 * JM never does. What a field holds are octets, and these are blocks, one behind the other. A block is
 *
 *     length           one octet: how many octets of the block follow it
 *     country code     goes on past each octet of 255 and ends with the first other one
 *     provider length  one octet
 *     provider code    as many octets as that says, perhaps none
 *     rest             what is left of the block, perhaps nothing; its meaning is the provider's
 *
 * so the shortest one has three octets, as 02 B5 00. A host reads the field of a heard CM by tailsprig_fields, goes
 * through its blocks, and takes those whose codes it knows; it gives its own blocks to tailsprig_cm. examples/fields.c
 * does both.
 *
 * How octets stand in the group: of each extension octet b0, b1, b2, b6, b7, in this order, are joined, and every eight
 * of these bits make an octet, the lowest first. At most four bits are left over, and they are 0, as are the options of
 * the category octet.
 */

/* The most octets that the field of a heard CM has: no more than 62 extension octets fit, with five bits each. */
#define TAILSPRIG_FIELD_MOST 38

/*
 * Reads the field of a heard CM into out, and answers how many octets it has, 0 to TAILSPRIG_FIELD_MOST: 0 where no
 * group of tag 15 stands, or an empty one. The first such group counts, wherever it stands. Later bytes of out keep
 * their values. A refusal writes nothing. In this order:
 *    4, 5, 3  the CM cannot be read, whether it has a field or not
 *   15  more than four bits are left over; or bits left over, or the group's options, are not 0
 *   14  a block is longer than what remains, or a code does not fit in its block
 *    6  out is too short
 *
 * No other call looks into the field: a CM in which it is refused is agreed, read and answered as any other.
 */
int32_t tailsprig_fields(const uint8_t *octets, size_t octets_len, uint8_t *out, size_t out_len);

/*
 * A part of lent octets: octets[place .. place + size - 1], or nothing where the size is 0. The span of a message is
 * something else, a count of bits (tailsprig_last_span).
 */
struct tailsprig_span {
    size_t place;
    size_t size;
};

/* A block, by its parts. All numbers are 0 where there is none: a block has a size of 3 at least. */
struct tailsprig_block {
    struct tailsprig_span whole;    /* with its length octet */
    struct tailsprig_span country;  /* the country code, octets of 255 and all */
    struct tailsprig_span provider; /* the provider code, without its length octet */
    struct tailsprig_span rest;
};

struct tailsprig_blocks_read {
    size_t blocks; /* how many there are; 0 beside a refusal */
    int32_t code;  /* 0, or -14 */
};

/*
 * Goes over the octets of a field, however many, and says how many blocks they are; no octets are no blocks. Refusal
 * 14: a block is longer than what remains, or a code does not fit in its block.
 *
 * The walk takes 48 bytes of stack for each block. A field has 12 of them at most; who lends it more than a field, here
 * or to tailsprig_block_of, needs the stack for it.
 */
struct tailsprig_blocks_read tailsprig_blocks(const uint8_t *octets, size_t octets_len);

/*
 * The block of a number, counted from 0. All blocks are tested: there is none past the last one, and none at all where
 * tailsprig_blocks refuses.
 */
struct tailsprig_block tailsprig_block_of(const uint8_t *octets, size_t octets_len, size_t number);

/*
 * The block that begins at a place, tested alone; none where no block that fits begins there, and at the end. So all
 * blocks are gone through in one pass, where tailsprig_block_of would begin at the first one each time:
 *
 *     for (size_t at = 0; at < len;) {                         octets that tailsprig_fields wrote: all blocks fit
 *         struct tailsprig_block block = tailsprig_block_at(octets, len, at);
 *         on_block(octets, block);
 *         at = block.whole.place + block.whole.size;
 *     }
 *
 * The loop ends: every block that fits has a size. For octets from elsewhere ask tailsprig_blocks first.
 */
struct tailsprig_block tailsprig_block_at(const uint8_t *octets, size_t octets_len, size_t place);

/*
 * ---- Records ----
 *
 * What an end can do, as it says it in its menus. A number that says yes or no is 1 or 0.
 *
 * A record is bad, and refused with 10, if one of these numbers is neither, if the home function is not an available
 * one, if a set holds anything but items 1 to 12, if PCM options exceed 7, or if PCM options 1 or 2 are set without
 * item 1 in the same function. All six functions are tested. One that is not available has no modes and no PCM, even
 * where they are filled in.
 */
struct tailsprig_modes {
    uint8_t available; /* the end has this function */
    uint8_t pcm;       /* tailsprig_pcm_option */
    uint16_t items;    /* tailsprig_items, items 1 to 12 */
};

struct tailsprig_record {
    struct tailsprig_modes functions[6]; /* functions 1 to 6 in turn; for data functions[TAILSPRIG_FUNCTION_DATA - 1] */
    uint8_t home;                        /* the function that a JM names where the asked one is not available */
    uint8_t lapm;                        /* LAPM is wanted */
    uint8_t access;                      /* an access group is wanted */
    uint8_t cellular;                    /* this end is cellular */
    uint8_t digital;                     /* this end is on a digital network */
};

/* No menu that is made has more octets. */
#define TAILSPRIG_MENU_MOST 64

/*
 * Makes the CM of a record for a function into out, and answers how many octets it has: 4 to 7, and with a field up to
 * 64. Later bytes of out keep their values. A refusal writes nothing. In this order:
 *   10  the record is bad
 *    5  the function is not available: 0 and 7 to 255 never are
 *    4  the CM would have more than 64 octets with its field
 *   14  a block is longer than what remains, or a code does not fit in its block
 *    6  out is too short
 *
 * blocks: the octets of our own blocks, one behind the other. They become the field, which stands last; with a
 *     blocks_len of 0 there is none, and the pointer is not NULL all the same. What a host has to know of them:
 *   How many.  36 octets fit, and 35 where the CM has 6 or 7 octets without them: with PCM, or with LAPM and access.
 *   Who takes them.  spandsp 0.0.6 does not return from a CM with a group of tag 15 (measured; docs/INTEROP.md). Who
 *     calls stations of unknown make gives blocks only where the station is known to take them.
 *   How long they take.  A CM of n octets is agreed with bit 50 + 20 * n at the soonest: where n is 64 that is 4.4 s
 *     after it began. An answerer has left 5,000 ms after its ANSam began, and before CM the caller has to detect
 *     ANSam, to finish its CI and to be quiet for Te. With a Te of 1,000 a CM of more than 57 octets is never agreed in
 *     time; with the tone detector of docs/INTEROP.md none of more than 37 was, which has 19 octets of blocks. So
 *     blocks are short.
 */
int32_t tailsprig_cm(struct tailsprig_record own, uint8_t function, const uint8_t *blocks, size_t blocks_len,
                     uint8_t *out, size_t out_len);

/*
 * Makes the JM of a record for a heard CM into out, and answers how many octets it has: 1 to 64. It never has a field,
 * and what the CM has in one does not matter. Later bytes of out keep their values. A refusal writes nothing. In this
 * order:
 *   10  the record is bad
 *    4, 5, 3  the heard CM cannot be read
 *    4  the JM would have more than 64 octets, as for a CM of 64 that is all modulation behind its call function, where
 *       own.access is 1. Then there is no JM to send and no choice ('No JM' in Sessions)
 *    6  out is too short, which TAILSPRIG_MENU_MOST octets never are
 *
 * How many modulation octets it has.  Three where an item from 1 to 12 is in common. Where none is, V.91 in common or
 * not, and where the function is not available, as many as the first modulation group of the CM, all its extension
 * octets counted, and none where the CM has no such group: some callers drop a call that is cleared with another number
 * than they sent. These octets hold no item but 0, which goes with PCM if the group is there.
 */
int32_t tailsprig_jm(struct tailsprig_record own, const uint8_t *heard, size_t heard_len, uint8_t *out,
                     size_t out_len);

/* Answers of tailsprig_call_function. */
#define TAILSPRIG_CALL_FUNCTION_NOWHERE 0
#define TAILSPRIG_CALL_FUNCTION_HEARD 1
#define TAILSPRIG_CALL_FUNCTION_OWN 2

/*
 * In which of two menus the call function octet of a JM stands, as that menu's first octet: in the heard CM where its
 * function is available, otherwise in our own CM for the home function. Nowhere with a bad record, and where one of the
 * menus cannot be read. The function of our own CM is not tested.
 */
uint8_t tailsprig_call_function(struct tailsprig_record own, const uint8_t *heard, size_t heard_len,
                                const uint8_t *own_cm, size_t own_cm_len);

/* ---- The choice ---- */

/* Nothing is shared; and what tailsprig_choice adds to PCM options: no item is as high. */
#define TAILSPRIG_CHOICE_NONE 0
#define TAILSPRIG_PCM 16

/*
 * What both ends go on with, from the menu that was sent (CM) and the one that answered it (JM):
 *    0         nothing is shared: the call is cleared
 *    1 to 12   an item, as enum tailsprig_item names it: the lowest of JM
 *   17 to 23   TAILSPRIG_PCM + the options of JM that pair with those of CM: 1 JM analogue with CM digital, 2 JM
 *              digital with CM analogue, 4 V.91 with V.91
 *
 * Refusals, in this order: 4, 5 and 3 of CM, the same of JM, then
 *   11  the functions differ, JM's lowest item is not in CM, or no PCM option pairs
 *
 * LAPM is used where CM and JM both say it (tailsprig_read): the choice does not look at it.
 */
int32_t tailsprig_choice(const uint8_t *cm, size_t cm_len, const uint8_t *jm, size_t jm_len);

/*
 * ---- Sessions ----
 *
 * A host keeps one for each call, at each end, and hands it every event with its time; the answer says which state was
 * entered, and by that what to send. The clock is a free-running count of milliseconds that wraps.
 *
 * State             sends                 is ended by                                       at the latest, by a tick
 *
 * 1 CALLER_STILL    nothing                                                                 1,000 ms: CALLING
 * 2 CALLING         CI, on and off        ANSam: QUIET. ANS: OVER, left; each once the      no limit
 *                                         last CI is sent. sigA: OVER, left
 * 3 QUIET           nothing                                                                 Te: MENU
 * 4 MENU            CM, over and over     agreed JM: CLOSING; with -11: OVER, not offered   10,000 ms: OVER, late
 * 5 CLOSING         CJ, once              CJ sent: PAUSE; choice none: OVER, cleared        no limit
 * 6 PAUSE           nothing                                                                 75 ms: OVER, go on; left
 *                                                                                           where nothing is chosen
 * 7 ANSWERER_STILL  nothing                                                                 200 ms: ANSWERING
 * 8 ANSWERING       ANSam                 agreed CM: JOINT. sigC: PAUSE, then left          5,000 ms: PAUSE, then left
 * 9 JOINT           JM, over and over     CJ: PAUSE; choice none: OVER, cleared.            10,000 ms: OVER, late
 *                                         sigC of the chosen item: PAUSE
 * 10 OVER           what comes next       every event is refused with 7
 *
 * Any other event of this end changes no state and is answered 0; the session that comes back is kept all the same,
 * since ANSam or ANS may be noted in it. What a host has to know of it:
 *
 *   No limit.  CALLING lasts until someone answers, and CLOSING until the host says that CJ is sent. A host that gives
 *     up waiting there needs a timer of its own; it then drops the session.
 *   Ticks.  Time is looked at on a tick alone. V.8 asks for a pause of 75 ms within 5 (8.1.2, 8.2.2, 8.2.3), so in
 *     PAUSE ticks are 5 ms apart or less. Elsewhere a tick that comes late makes the state that much longer.
 *   CI.  A cadence (7.1): an on period of 3 to 20 CI of 30 bits each, an off period of 120 to 600 bit times of silence,
 *     over and over until someone answers. The host draws the bits as its modulator takes them, 300 a second
 *     (tailsprig_draw), and sends each; for TAILSPRIG_SILENCE the carrier is off for a bit time. A bit that is drawn
 *     counts as sent, so a host draws few ahead.
 *     At ANSam or ANS the CI being sent is finished, and the third of the call where fewer were sent: at most 90 bits
 *     come yet, which take 300 ms, and then none. Where none is left the event itself leads on: between two CI and in
 *     an off period, behind the third CI. Otherwise it is answered 0 and noted in the session; the host draws what is
 *     left, and the first tick behind the last of these bits leads on.
 *     A host that sends CT, CNG or nothing in place of CI draws 90 bits on entering CALLING and drops them: then none
 *     is left, and a tone leads on at once. One that draws none stays in CALLING, but for sigA.
 *   Te.  How long the caller is quiet: 500 ms at least, and 1,000 or more where echo cancellers have to be disabled
 *     (8.1.1). Without a value it is 1,000, since trunks have them. Textphone callers cannot wait that long: they give
 *     TAILSPRIG_TE_TEXTPHONE. It counts from the entry of QUIET: the tone, or the tick behind the last CI. A Te near
 *     5,000 outlasts the answerer's ANSam, in which two copies of CM have to be heard as well: the answerer has left by
 *     then.
 *   Tones.  A line card tells a tone for as long as it hears it, at every tick say, and not only when it begins: ANSam
 *     that is told once, while the caller is in CALLER_STILL, is answered 0 and lost. In CALLING the first of ANSam and
 *     ANS decides; what is told of either while the last CI is sent changes nothing.
 *   Menus.  They are sent until the state changes and never a count of copies: other ends may need more than two.
 *   Reports.  Where a menu is agreed in MENU or ANSWERING, the host asks tailsprig_choice, at the answerer behind
 *     tailsprig_jm, and hands over what it answers. CJ that the answerer hears is handed over as it is. All else that
 *     is heard asks for nothing: CI, a menu that is not agreed, a refusal, an agreed menu in another state, and CJ at
 *     the caller.
 *   No JM.  Where tailsprig_jm refuses with 4 there is nothing to send and no choice, so the host hands over no event.
 *     The session stays in ANSWERING, and its limit ends the call: PAUSE, then left.
 *   From CM to CJ.  The caller first finishes the octet that it is sending, with its stop bit, and then sends CJ
 *     (8.1.2). Its copy goes by tens (TAILSPRIG_OCTET_BITS), the ten 1s and the sync too, so it goes on to the next
 *     multiple of ten. It hands over CJ_SENT once the last bit of CJ is on the line.
 *   From JM to PAUSE.  JM may be cut off anywhere (8.2.3). What is left of it is heard as a damaged menu, or not at
 *     all.
 *   CJ lost.  An answerer that misses CJ goes to PAUSE by the sigC of the chosen item. A PCM choice matches no sigC:
 *     then JOINT ends late, unless the host goes by something else, as that no CM has come for long enough (8.2.3).
 *     That takes a timer of the host; when it runs out the host hands over CJ.
 *   ANS.  An answerer without V.8. The caller is over, left.
 *   sigA.  An answering modem's own signal. The caller is over, left, whatever modulation it stands for; at once, so
 *     that no CI is finished.
 *   sigC.  A calling modem's own signal, with the item that it stands for. In ANSWERING each leads to PAUSE and to
 *     left; in JOINT the one of the chosen item means what CJ means, and others are answered 0.
 *   OVER, left.  V.8 does not decide what comes next. After ANS: as Annex A of V.32 bis, T.30 or another recommendation
 *     that applies says (8.1.1). After sigA: with the modulation of that signal (8.1.1). At the answerer after sigC:
 *     with the sigA and the modulation that belong to it (8.2.2), so the host remembers the item. At the answerer after
 *     5,000 ms: as Annex A of V.32 bis, T.30 or another recommendation that applies says (8.2.2).
 *   OVER, late, cleared or not offered.  There is no mode to go on with: hang up.
 *   Refused with 8.  The event did not count and the session is as it was. Where the host's clock went back, or events
 *     overtook each other, hand it over again with a time that is not before `entry`. Where 2^31 ms (24 days) have
 *     passed in one state, nobody is on the line: drop the session.
 *   Refused with 9 or 7.  A mistake of the host, which nothing on the line brings about. 7 can be passed over where
 *     events are still under way when a session ends.
 *
 * The numbers of a session are the library's: a host copies and stores them, and changes none. A session with a number
 * outside its range is refused with 10 and keeps its value; the starts, every step and every draw give sessions within
 * the ranges.
 */
enum tailsprig_end { TAILSPRIG_CALLER = 1, TAILSPRIG_ANSWERER = 2 };

enum tailsprig_state {
    TAILSPRIG_STATE_CALLER_STILL = 1,
    TAILSPRIG_STATE_CALLING = 2,
    TAILSPRIG_STATE_QUIET = 3,
    TAILSPRIG_STATE_MENU = 4,
    TAILSPRIG_STATE_CLOSING = 5,
    TAILSPRIG_STATE_PAUSE = 6, /* both ends' */
    TAILSPRIG_STATE_ANSWERER_STILL = 7,
    TAILSPRIG_STATE_ANSWERING = 8,
    TAILSPRIG_STATE_JOINT = 9,
    TAILSPRIG_STATE_OVER = 10 /* both ends' */
};

enum tailsprig_ended {
    TAILSPRIG_ENDED_GOING = 0, /* not over */
    TAILSPRIG_ENDED_LEFT = 1,
    TAILSPRIG_ENDED_LATE = 2,
    TAILSPRIG_ENDED_CLEARED = 3,
    TAILSPRIG_ENDED_NOT_OFFERED = 4,
    TAILSPRIG_ENDED_GO_ON = 5 /* with what was chosen */
};

/* What a caller's session holds of its CI. All six are 0 for the answerer. */
struct tailsprig_cadence {
    uint16_t off;     /* how many bit times are silent behind an on period: 120 to 600 */
    uint16_t place;   /* where in an on period and the off period behind it the next bit is: less than 30 * on + off */
    uint8_t on;       /* how many CI an on period has: 3 to 20 */
    uint8_t function; /* tailsprig_function: what each CI names */
    uint8_t sent;     /* how many bits were drawn, silence too, counted up to 90; equals place until then. 0 to 90 */
    uint8_t tone;     /* TAILSPRIG_EVENT_ANSAM or _ANS, where it came with bits left to send; else 0 */
};

struct tailsprig_session {
    uint32_t entry;                   /* the time of the start or of the last change of state. Any number */
    uint32_t te;                      /* how long the caller is quiet: 500 to 5,000; 0 for the answerer */
    struct tailsprig_cadence cadence; /* as at the start before CALLING, and behind it as CALLING left it */
    uint8_t end;                      /* tailsprig_end */
    uint8_t state;                    /* tailsprig_state: of this end */
    uint8_t chosen; /* as tailsprig_choice answers it: 0, 1 to 12, 17 to 23; 0 before a menu is agreed */
    uint8_t ended;  /* tailsprig_ended: 0 exactly while the state is not TAILSPRIG_STATE_OVER; 5 only with a choice */
};

struct tailsprig_caller_start {
    struct tailsprig_session session; /* all 0 beside a refusal */
    int32_t code;                     /* 0, or a refusal n as -n */
};

/* Te of textphone callers (TAILSPRIG_FUNCTION_TEXTPHONE), for tailsprig_start_caller: the shortest that there is. */
#define TAILSPRIG_TE_TEXTPHONE 500

/*
 * A caller's session from this time on, with the function that its CI name (enum tailsprig_function), how many CI are
 * on and how many bit times off. With 5 and 450 CI is on for half a second and off for one and a half.
 *
 * Refusals, in this order:
 *   10  te is not 500 to 5,000, or function is not 1 to 6
 *   16  on is not 3 to 20, or off is not 120 to 600
 */
struct tailsprig_caller_start tailsprig_start_caller(uint32_t start, uint32_t te, uint8_t function, uint8_t on,
                                                     uint16_t off);

/* The same without a value for Te, which then is 1,000. Not for textphone callers. */
struct tailsprig_caller_start tailsprig_start_caller_default(uint32_t start, uint8_t function, uint8_t on,
                                                             uint16_t off);

/* An answerer's session from this time on. */
struct tailsprig_session tailsprig_start_answerer(uint32_t start);

enum tailsprig_event {
    /* the caller's */
    TAILSPRIG_EVENT_ANSAM = 1,
    TAILSPRIG_EVENT_ANS = 2,
    TAILSPRIG_EVENT_SIG_A = 3,
    TAILSPRIG_EVENT_AGREED_JM = 4, /* carries what tailsprig_choice answered: a choice, or -11 */
    TAILSPRIG_EVENT_CJ_SENT = 5,
    /* the answerer's */
    TAILSPRIG_EVENT_AGREED_CM = 6, /* carries the choice, from CM and the JM that answers it */
    TAILSPRIG_EVENT_SIG_C = 7,     /* carries an item, 1 to 12 */
    TAILSPRIG_EVENT_CJ = 8,
    /* both ends' */
    TAILSPRIG_EVENT_TICK = 9 /* time has passed */
};

/* What a step's code adds to how a session ended, and to the choice that it goes on with. */
#define TAILSPRIG_ENDED 16
#define TAILSPRIG_GO_ON 32

struct tailsprig_step_taken {
    struct tailsprig_session session; /* behind the event, to be kept with code 0 too; on a refusal as it was */
    int32_t code;
};

/*
 * Takes an event of this end, what it carries (not looked at where it carries nothing), and its time. The code is
 *    0          the state did not change; ANSam or ANS may have been noted in the session
 *    1 to 9     the state entered
 *   17 to 20    over: TAILSPRIG_ENDED + left, late, cleared or not offered
 *   33 to 55    over: TAILSPRIG_GO_ON + the choice, as tailsprig_choice answers it
 *
 * Refusals, in this order:
 *   10  a number of the session is outside its range
 *    7  the session is over
 *    9  an event of the other end, or a number that is no event; a value that the event may not carry
 *    8  the time is before the entry time, or 2^31 ms and more behind it
 *
 * One tick makes one change at most.
 */
struct tailsprig_step_taken tailsprig_step(struct tailsprig_session session, uint8_t event, int32_t value,
                                           uint32_t now);

/* What is drawn for a bit time of silence: the carrier is off. It is no bit, and no listener hears it. */
#define TAILSPRIG_SILENCE 2

struct tailsprig_bits_drawn {
    struct tailsprig_session session; /* behind the bits; on a refusal as it was */
    size_t bits;                      /* how many bit times were written to the front of `out`; 0 beside a refusal */
    int32_t code;                     /* 0, or a refusal n as -n */
};

/*
 * Draws what a caller sends next in CALLING, a byte for each bit time: 0, 1 or TAILSPRIG_SILENCE. As many as `out` has
 * room for; behind ANSam or ANS no more than are left to send ('CI' above). In every other state and at an answerer
 * none, and nothing changes. Later bytes of out keep their values. How the bits are cut into calls makes no difference.
 *
 * Refusal 10: a number of the session is outside its range.
 */
struct tailsprig_bits_drawn tailsprig_draw(struct tailsprig_session session, uint8_t *out, size_t out_len);

#ifdef __cplusplus
}
#endif

#endif
