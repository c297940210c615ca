//! Steps in plain Rust, over the same table, and the bits of the cadence: what the benchmark measures the proved calls against.
use crate::c::{BitsDrawn, Cadence, Session, StepTaken};
use crate::steps::SILENCE;

// The states, as the session holds them.
const CALLER_STILL: u8 = 1;
const CALLING: u8 = 2;
const QUIET: u8 = 3;
const MENU: u8 = 4;
const CLOSING: u8 = 5;
const PAUSE: u8 = 6;
const ANSWERER_STILL: u8 = 7;
const ANSWERING: u8 = 8;
const JOINT: u8 = 9;
const OVER: u8 = 10;

// How a session ended.
const GOING: u8 = 0;
const LEFT: u8 = 1;
const LATE: u8 = 2;
const CLEARED: u8 = 3;
const NOT_OFFERED: u8 = 4;
const GO_ON: u8 = 5;

// The events.
const ANSAM: u8 = 1;
const ANS: u8 = 2;
const SIG_A: u8 = 3;
const AGREED_JM: u8 = 4;
const CJ_SENT: u8 = 5;
const AGREED_CM: u8 = 6;
const SIG_C: u8 = 7;
const CJ: u8 = 8;
const TICK: u8 = 9;

/// The bits of a CI, and of the three that are sent at least.
const SEQUENCE: u16 = 30;
const THIRD: u8 = 90;

/// What an agreed JM carries whose choice was refused with 11.
const REFUSED_WITH_11: i32 = -11;

/// What a row asks for besides its state, its event and elapsed time.
#[derive(Clone, Copy)]
enum Condition {
    Always,
    LastCiSent,
    LastCiSentForAnsam,
    LastCiSentForAns,
    TeElapsed,
    NoneChosen,
    JmRefused,
    ChosenItem,
}

use Condition::*;

/// A row of the table.
struct Row {
    state: u8,
    event: u8,
    least: u32,
    condition: Condition,
    next: u8,
    ended: u8,
}

const fn row(state: u8, event: u8, least: u32, condition: Condition, next: u8, ended: u8) -> Row {
    Row { state, event, least, condition, next, ended }
}

/// Document 01's table, with request 04. The first row that applies counts.
static ROWS: [Row; 21] = [
    row(CALLER_STILL, TICK, 1000, Always, CALLING, GOING),
    row(CALLING, ANSAM, 0, LastCiSent, QUIET, GOING),
    row(CALLING, ANS, 0, LastCiSent, OVER, LEFT),
    row(CALLING, SIG_A, 0, Always, OVER, LEFT),
    row(CALLING, TICK, 0, LastCiSentForAnsam, QUIET, GOING),
    row(CALLING, TICK, 0, LastCiSentForAns, OVER, LEFT),
    row(QUIET, TICK, 0, TeElapsed, MENU, GOING),
    row(MENU, AGREED_JM, 0, JmRefused, OVER, NOT_OFFERED),
    row(MENU, AGREED_JM, 0, Always, CLOSING, GOING),
    row(MENU, TICK, 10000, Always, OVER, LATE),
    row(CLOSING, CJ_SENT, 0, NoneChosen, OVER, CLEARED),
    row(CLOSING, CJ_SENT, 0, Always, PAUSE, GOING),
    row(PAUSE, TICK, 75, Always, OVER, GO_ON),
    row(ANSWERER_STILL, TICK, 200, Always, ANSWERING, GOING),
    row(ANSWERING, AGREED_CM, 0, Always, JOINT, GOING),
    row(ANSWERING, SIG_C, 0, Always, PAUSE, GOING),
    row(ANSWERING, TICK, 5000, Always, PAUSE, GOING),
    row(JOINT, CJ, 0, NoneChosen, OVER, CLEARED),
    row(JOINT, CJ, 0, Always, PAUSE, GOING),
    row(JOINT, SIG_C, 0, ChosenItem, PAUSE, GOING),
    row(JOINT, TICK, 10000, Always, OVER, LATE),
];

fn is_choice(value: i32) -> bool {
    matches!(value, 0..=12 | 17..=23)
}

fn cadence_fits(cadence: &Cadence, state: u8) -> bool {
    matches!(cadence.function, 1..=6)
        && matches!(cadence.on, 3..=20)
        && matches!(cadence.off, 120..=600)
        && cadence.place < SEQUENCE * u16::from(cadence.on) + cadence.off
        && (cadence.sent == THIRD || (cadence.sent < THIRD && cadence.place == u16::from(cadence.sent)))
        && matches!(cadence.tone, 0 | ANSAM | ANS)
        && (state != CALLER_STILL || (cadence.sent == 0 && cadence.tone == 0))
}

fn in_range(session: &Session) -> bool {
    let end_fits = match session.end {
        1 => {
            (500..=5000).contains(&session.te)
                && matches!(session.state, CALLER_STILL..=PAUSE | OVER)
                && cadence_fits(&session.cadence, session.state)
        }
        2 => session.te == 0 && matches!(session.state, PAUSE..=OVER) && session.cadence == Cadence::default(),
        _ => false,
    };
    let none = session.chosen == 0;
    let is_early = matches!(session.state, CALLER_STILL..=MENU | ANSWERER_STILL..=ANSWERING);
    let ended_fits = match (session.state, session.ended) {
        (OVER, GO_ON) => !none,
        (OVER, ended) => matches!(ended, LEFT..=NOT_OFFERED),
        (_, ended) => ended == GOING,
    };
    end_fits && is_choice(session.chosen.into()) && (none || !is_early) && ended_fits
}

fn is_own(end: u8, event: u8) -> bool {
    match event {
        ANSAM..=CJ_SENT => end == 1,
        AGREED_CM..=CJ => end == 2,
        TICK => true,
        _ => false,
    }
}

fn may_carry(event: u8, value: i32) -> bool {
    match event {
        AGREED_JM => value == REFUSED_WITH_11 || is_choice(value),
        AGREED_CM => is_choice(value),
        SIG_C => (1..=12).contains(&value),
        _ => true,
    }
}

/// How many bits are sent yet once ANSam or ANS comes.
fn left(cadence: &Cadence) -> u8 {
    if cadence.sent < THIRD {
        return THIRD - cadence.sent;
    }
    if cadence.place < SEQUENCE * u16::from(cadence.on) {
        return (cadence.place.next_multiple_of(SEQUENCE) - cadence.place) as u8;
    }
    0
}

fn holds(condition: Condition, session: &Session, value: i32, elapsed: u32) -> bool {
    let is_sent_for = |tone| session.cadence.tone == tone && left(&session.cadence) == 0;
    match condition {
        Always => true,
        LastCiSent => is_sent_for(0),
        LastCiSentForAnsam => is_sent_for(ANSAM),
        LastCiSentForAns => is_sent_for(ANS),
        TeElapsed => session.te <= elapsed,
        NoneChosen => session.chosen == 0,
        JmRefused => value == REFUSED_WITH_11,
        ChosenItem => value == session.chosen.into(),
    }
}

/// The number of an answer: a state, 16 and how the session ended, or 32 and what it goes on with.
fn code(session: &Session) -> i32 {
    match (session.state, session.ended) {
        (OVER, GO_ON) => 32 + i32::from(session.chosen),
        (OVER, ended) => 16 + i32::from(ended),
        (state, _) => i32::from(state),
    }
}

/// The first of ANSam and ANS that comes in calling with bits left to send.
fn remember(mut session: Session, event: u8) -> Session {
    if session.state == CALLING && session.cadence.tone == 0 && matches!(event, ANSAM | ANS) {
        session.cadence.tone = event;
    }
    session
}

/// Takes an event. Kept a call of its own, as a call over the C ABI is.
#[inline(never)]
pub fn step(session: Session, event: u8, value: i32, now: u32) -> StepTaken {
    let refused = |number: i32| StepTaken { session, code: -number };
    if !in_range(&session) {
        return refused(10);
    }
    if session.state == OVER {
        return refused(7);
    }
    if !is_own(session.end, event) || !may_carry(event, value) {
        return refused(9);
    }
    let elapsed = now.wrapping_sub(session.entry);
    if elapsed >= 1 << 31 {
        return refused(8);
    }
    let applies = |row: &&Row| {
        row.state == session.state
            && row.event == event
            && row.least <= elapsed
            && holds(row.condition, &session, value, elapsed)
    };
    let Some(row) = ROWS.iter().find(applies) else {
        return StepTaken { session: remember(session, event), code: 0 };
    };
    let chosen = match event {
        AGREED_JM if value == REFUSED_WITH_11 => 0,
        AGREED_JM | AGREED_CM => value as u8,
        _ => session.chosen,
    };
    let ended = if row.ended == GO_ON && chosen == 0 { LEFT } else { row.ended };
    let session = Session { entry: now, state: row.next, chosen, ended, ..session };
    StepTaken { session, code: code(&session) }
}

/// Draws the next bits of the cadence to the start of `out`. Kept a call of its own, as a call over the C ABI is.
#[inline(never)]
pub fn draw(mut session: Session, out: &mut [u8]) -> BitsDrawn {
    if !in_range(&session) {
        return BitsDrawn { session, bits: 0, code: -10 };
    }
    if session.state != CALLING {
        return BitsDrawn { session, bits: 0, code: 0 };
    }
    let cadence = &mut session.cadence;
    let bits = if cadence.tone == 0 { out.len() } else { out.len().min(left(cadence).into()) };
    // Its first bit lowest: ten 1s, a sync whose last bit is 1, and the call function octet between a 0 and a 1.
    let ci = 0x3ff | 1 << 19 | u32::from(cadence.function << 5 | 1) << 21 | 1 << 29;
    let on = SEQUENCE * u16::from(cadence.on);
    let period = on + cadence.off;
    for byte in &mut out[..bits] {
        *byte = if cadence.place < on { (ci >> (cadence.place % SEQUENCE) & 1) as u8 } else { SILENCE };
        cadence.place = if cadence.place + 1 == period { 0 } else { cadence.place + 1 };
    }
    cadence.sent += bits.min(usize::from(THIRD - cadence.sent)) as u8;
    BitsDrawn { session, bits, code: 0 }
}
