//! "Steps".
use super::{Cadence, Choice, Mistake, Model, Refusal, Tone};

/// "Te is 500 to 5,000, given at the start". It is the caller's alone, and so is the cadence of request 04.
#[derive(Clone, Copy, Debug, PartialEq, Eq)]
pub enum End {
    Caller { te: u32, cadence: Cadence },
    Answerer,
}

/// The table's states, and "over" with how it came.
#[derive(Clone, Copy, Debug, PartialEq, Eq)]
pub enum State {
    CallerStill,
    Calling,
    Quiet,
    Menu,
    Closing,
    Pause,
    AnswererStill,
    Answering,
    Joint,
    Over(Ended),
}

#[derive(Clone, Copy, Debug, PartialEq, Eq)]
pub enum Ended {
    Left,
    Late,
    Cleared,
    NotOffered,
    /// With what was chosen.
    GoOn,
}

#[derive(Clone, Copy, Debug, PartialEq, Eq)]
pub struct Session {
    pub end: End,
    pub state: State,
    /// The choice that the agreed menu carried; none before that.
    pub chosen: Choice,
    /// "The time of the start, then of each change of state, is the entry time."
    pub entry: u32,
    /// How many bits of the cadence were given out, those of silence too.
    pub given: u64,
    /// ANSam or ANS, where one came with bits left to send.
    pub tone: Option<Tone>,
}

#[derive(Clone, Copy, Debug, PartialEq, Eq)]
pub enum Event {
    Ansam,
    Ans,
    SigA,
    /// "Agreed CM and agreed JM carry the choice: none, an item, or PCM options, for JM also 'refused with 11'."
    AgreedJm(Result<Choice, Refusal>),
    CjSent,
    AgreedCm(Choice),
    /// "sigC carries an item".
    SigC(u8),
    Cj,
    Tick,
    /// What is no event at all, and so none of either end.
    Unknown,
}

#[derive(Clone, Copy, Debug, PartialEq, Eq)]
pub enum Answer {
    Same,
    Entered(State),
}

/// "The caller's events are ANSam, ANS, sigA, agreed JM and CJ sent; the answerer's are agreed CM, sigC and CJ; the tick is for
/// both."
fn is_of(event: Event, end: End) -> bool {
    match event {
        Event::Ansam | Event::Ans | Event::SigA | Event::AgreedJm(_) | Event::CjSent => end != End::Answerer,
        Event::AgreedCm(_) | Event::SigC(_) | Event::Cj => end == End::Answerer,
        Event::Tick => true,
        Event::Unknown => false,
    }
}

/// 9: "item not 1 to 12; PCM options not 1 to 7".
fn is_in_range(choice: Choice) -> bool {
    match choice {
        Choice::None => true,
        Choice::Item(item) => (1..=12).contains(&item),
        Choice::Pcm(options) => (1..=7).contains(&options),
    }
}

fn carries_what_it_may(event: Event) -> bool {
    match event {
        Event::AgreedJm(Ok(choice)) | Event::AgreedCm(choice) => is_in_range(choice),
        Event::AgreedJm(Err(refusal)) => refusal == Refusal(11),
        Event::SigC(item) => is_in_range(Choice::Item(item)),
        _ => true,
    }
}

impl Model {
    /// "Without a value, Te becomes 1,000." (Req 01).
    pub fn start_caller(&self, start: u32, te: Option<u32>, cadence: Cadence) -> Result<Session, Refusal> {
        let te = te.unwrap_or(if self.makes(Mistake::DefaultTe500) { 500 } else { 1000 });
        self.test_start(te, &cadence)?;
        let end = End::Caller { te, cadence };
        Ok(Session { end, state: State::CallerStill, chosen: Choice::None, entry: start, given: 0, tone: None })
    }

    pub fn start_answerer(&self, start: u32) -> Session {
        let (end, state) = (End::Answerer, State::AnswererStill);
        Session { end, state, chosen: Choice::None, entry: start, given: 0, tone: None }
    }

    /// Takes an event with its time. "steps 7, 9, 8"; "the session keep[s its] values" on a refusal.
    pub fn step(&self, session: &mut Session, event: Event, now: u32) -> Result<Answer, Refusal> {
        if let State::Over(_) = session.state {
            return Err(Refusal(7));
        }
        // "elapsed is now less the entry time, and 2^31 or more is refusal 8"; "Every event carries the time, and 8 is tested on
        // each."
        let elapsed = now.wrapping_sub(session.entry);
        let half = 1 << 31;
        let clock_is_wrong = if self.makes(Mistake::HalfRange) { elapsed > half } else { elapsed >= half };
        if clock_is_wrong && self.makes(Mistake::ClockFirst) {
            return Err(Refusal(8));
        }
        if !is_of(event, session.end) || !carries_what_it_may(event) {
            return Err(Refusal(9));
        }
        if clock_is_wrong {
            if self.makes(Mistake::RefusedToneCounts) {
                self.remember(session, event, now);
            }
            return Err(Refusal(8));
        }
        // "Any other pair of a state and its own end's event changes nothing and is answered 'same'."
        let Some(next) = self.next(session, event, elapsed) else {
            self.remember(session, event, now);
            return Ok(Answer::Same);
        };
        if let Event::AgreedJm(Ok(choice)) | Event::AgreedCm(choice) = event {
            session.chosen = choice;
        }
        let keeps_entry =
            session.tone.is_some() && session.state == State::Calling && self.makes(Mistake::EntryOfCalling);
        session.state = next;
        session.entry = if keeps_entry { session.entry } else { now };
        Ok(Answer::Entered(next))
    }

    /// The table. "'Elapsed' is tested on a tick only and means at least; one tick makes one change at most."
    fn next(&self, session: &Session, event: Event, elapsed: u32) -> Option<State> {
        let least = |time| if self.makes(Mistake::MoreThan) { elapsed > time } else { elapsed >= time };
        // "choice none: over, cleared".
        let pause_or_cleared = match session.chosen {
            Choice::None => State::Over(Ended::Cleared),
            _ => State::Pause,
        };
        match (session.state, event) {
            // "Caller still | elapsed 1,000: calling"
            (State::CallerStill, Event::Tick) if least(1000) => Some(State::Calling),

            // "Calling | ANSam: quiet. ANS or sigA: over, left", of which request 04 says when
            (State::Calling, Event::SigA) if !self.makes(Mistake::SigAWaits) => Some(State::Over(Ended::Left)),
            (State::Calling, _) => self.after_calling(session, event),

            // "Quiet | elapsed Te: menu (sends CM)"
            (State::Quiet, Event::Tick) => match session.end {
                End::Caller { te, .. } if least(te) => Some(State::Menu),
                _ => None,
            },

            // "Menu | agreed JM: closing (sends CJ); where the choice is refused with 11: over, not offered. Elapsed 10,000 (house):
            // over, late"
            (State::Menu, Event::AgreedJm(Ok(_))) => Some(State::Closing),
            (State::Menu, Event::AgreedJm(Err(_))) => Some(State::Over(Ended::NotOffered)),
            (State::Menu, Event::Tick) if least(10_000) => Some(State::Over(Ended::Late)),

            // "Closing | CJ sent: pause; choice none: over, cleared"
            (State::Closing, Event::CjSent) => Some(pause_or_cleared),

            // "Pause | elapsed 75: over, go on as chosen or left"
            (State::Pause, Event::Tick) if least(75) => match session.chosen {
                Choice::None => Some(State::Over(Ended::Left)),
                _ => Some(State::Over(Ended::GoOn)),
            },

            // "Answerer still | elapsed 200: answering (sends ANSam)"
            (State::AnswererStill, Event::Tick) if least(200) => Some(State::Answering),

            // "Answering | agreed CM: joint (sends JM). sigC, or elapsed 5,000: pause, then left"
            (State::Answering, Event::AgreedCm(_)) => Some(State::Joint),
            (State::Answering, Event::SigC(_)) => Some(State::Pause),
            (State::Answering, Event::Tick) if least(5000) => Some(State::Pause),

            // "Joint | CJ: pause, choice none: over, cleared. sigC of the chosen item: pause. Elapsed 10,000 (house): over, late";
            // "where PCM was chosen none matches"
            (State::Joint, Event::Cj) => Some(pause_or_cleared),
            (State::Joint, Event::SigC(item)) if session.chosen == Choice::Item(item) => Some(State::Pause),
            (State::Joint, Event::Tick) if least(10_000) => Some(State::Over(Ended::Late)),

            _ => None,
        }
    }
}
