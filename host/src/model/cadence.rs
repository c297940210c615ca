//! Request 04: "The CI cadence".
use super::{records::category, steps::Ended, End, Event, Kind, Mistake, Model, Refusal, Session, State};

/// "whole CI sequences of 30 bits".
const SEQUENCE: u64 = 30;

/// "if fewer than three were sent since the call began, the third is".
const THIRD: u64 = 3 * SEQUENCE;

/// What a caller sends while it calls: "an on period of three to twenty whole CI sequences of 30 bits, an off period of 120 to 600
/// bits".
#[derive(Clone, Copy, Debug, PartialEq, Eq)]
pub struct Cadence {
    /// The call function that every CI names.
    pub function: u8,
    /// The sequences of an on period.
    pub on: u8,
    /// The bits of an off period.
    pub off: u16,
}

impl Cadence {
    /// The bits of an on period and of the off period behind it.
    pub fn period(&self) -> u64 {
        SEQUENCE * u64::from(self.on) + u64::from(self.off)
    }
}

/// What ends the calling.
#[derive(Clone, Copy, Debug, PartialEq, Eq)]
pub enum Tone {
    Ansam,
    Ans,
}

impl Tone {
    /// The tone that an event tells of.
    fn of(event: Event) -> Option<Self> {
        match event {
            Event::Ansam => Some(Tone::Ansam),
            Event::Ans => Some(Tone::Ans),
            _ => None,
        }
    }
}

impl Model {
    /// 10: "Te out of range", and a function that is none; then "16 cadence outside these numbers, at the start, after 10."
    pub(super) fn test_start(&self, te: u32, cadence: &Cadence) -> Result<(), Refusal> {
        let one_if = |mistake| u8::from(self.makes(mistake));
        let is_te = (500..=5000).contains(&te);
        let is_function = (1..=6 + one_if(Mistake::Function7)).contains(&cadence.function);
        let on = 3 - one_if(Mistake::OnOf2)..=20 + one_if(Mistake::OnOf21);
        let off = 120 - u16::from(one_if(Mistake::OffOf119))..=600 + u16::from(one_if(Mistake::OffOf601));
        let is_cadence = on.contains(&cadence.on) && off.contains(&cadence.off);
        let of_10 = !is_te || (!is_function && !self.makes(Mistake::FunctionWith16));
        let of_16 = !is_cadence || (!is_function && self.makes(Mistake::FunctionWith16));
        match (of_10, of_16) {
            (true, true) if self.makes(Mistake::CadenceFirst) => Err(Refusal(16)),
            (true, _) => Err(Refusal(10)),
            (_, true) => Err(Refusal(16)),
            _ => Ok(()),
        }
    }

    /// An on period and the off period behind it, in which a bit time has no bit.
    fn period(&self, cadence: &Cadence) -> Vec<Option<u8>> {
        let function = if self.makes(Mistake::CiForData) { 6 } else { cadence.function };
        let ci = self.write(Kind::Ci, &[category(1, function)], 1, SEQUENCE as usize).expect("an octet of tag 1");
        let on: Vec<Option<u8>> = ci.repeat(cadence.on.into()).into_iter().map(Some).collect();
        let unit = if self.makes(Mistake::OffInSequences) { SEQUENCE as usize } else { 1 };
        let off = vec![None; unit * usize::from(cadence.off)];
        if self.makes(Mistake::OffFirst) {
            return [off, on].concat();
        }
        [on, off].concat()
    }

    /// How many bits are sent yet once ANSam or ANS comes: "the sequence being sent is finished, and if fewer than three were sent
    /// since the call began, the third is."
    fn left(&self, session: &Session) -> u64 {
        let End::Caller { cadence, .. } = session.end else { return 0 };
        let given = session.given;
        let on = SEQUENCE * u64::from(cadence.on);
        let place = given % cadence.period();
        // A sequence is being sent where some of its bits were given out, and not all.
        let mut rest = match place % SEQUENCE {
            0 if self.makes(Mistake::OneMoreAtBoundary) => SEQUENCE,
            0 => 0,
            begun => SEQUENCE - begun,
        };
        if (place >= on && !self.makes(Mistake::SilenceFinished)) || self.makes(Mistake::SequenceCutOff) {
            rest = 0;
        }
        let mut to_third = THIRD.saturating_sub(given);
        if self.makes(Mistake::ThirdNotFinished) || (given == 0 && self.makes(Mistake::NothingAsked)) {
            to_third = 0;
        }
        if place < on && self.makes(Mistake::ThirdOfEachPeriod) {
            to_third = THIRD.saturating_sub(place);
        }
        rest.max(to_third)
    }

    /// "Quiet begins, or the machine leaves, with that event if nothing is left to send, else with the first tick after the last such
    /// bit; a later ANS or ANSam changes nothing." What calling leads to by this event, but for sigA.
    pub(super) fn after_calling(&self, session: &Session, event: Event) -> Option<State> {
        let tone = match session.tone {
            None => Tone::of(event),
            Some(tone) if event == Event::Tick => Some(tone),
            Some(_) => None,
        }?;
        let left = self.left(session);
        let is_over = match event {
            Event::Tick if self.makes(Mistake::TickBeforeLastBit) => left <= 1,
            Event::Tick => left == 0,
            _ => left == 0 || self.makes(Mistake::AtOnce),
        };
        is_over.then_some(match tone {
            Tone::Ans if !self.makes(Mistake::AnsToQuiet) => State::Over(Ended::Left),
            _ => State::Quiet,
        })
    }

    /// ANSam or ANS that ends nothing yet.
    pub(super) fn remember(&self, session: &mut Session, event: Event, now: u32) {
        let is_heard = session.state == State::Calling
            || (session.state == State::CallerStill && self.makes(Mistake::ToneInStill));
        let tone = match event {
            Event::SigA if self.makes(Mistake::SigAWaits) => Some(Tone::Ans),
            _ => Tone::of(event),
        };
        let is_first = session.tone.is_none() || self.makes(Mistake::LaterToneDecides);
        if is_heard && is_first && tone.is_some() {
            session.tone = tone;
            if self.makes(Mistake::ToneIsEntry) {
                session.entry = now;
            }
        }
    }

    /// "Calling now gives out a cadence counted in bits"; "For any number of bits asked in turn, what comes out is the beginning of that
    /// one cadence." Fewer than are asked for where they end; none in another state, and at an answerer.
    pub fn draw(&self, session: &mut Session, asked: usize) -> Vec<Option<u8>> {
        let End::Caller { cadence, .. } = session.end else { return Vec::new() };
        let is_sending = match session.state {
            State::Calling => true,
            State::Quiet => self.makes(Mistake::BitsInQuiet),
            State::CallerStill => self.makes(Mistake::BitsInStill),
            _ => false,
        };
        if !is_sending {
            return Vec::new();
        }
        let ends = session.tone.is_some() && !self.makes(Mistake::BitsPastTheEnd);
        let count = if ends { self.left(session).min(asked as u64) } else { asked as u64 };
        let first = if self.makes(Mistake::BegunAnew) { 0 } else { session.given };
        let period = self.period(&cadence);
        let bits = (first..first + count).map(|number| period[number as usize % period.len()]).collect();
        session.given += count;
        if self.makes(Mistake::LastBitLeads) {
            session.state = self.after_calling(session, Event::Tick).unwrap_or(session.state);
        }
        bits
    }
}
