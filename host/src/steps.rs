//! Sessions and steps: what an end keeps of its call, what an event changes in it, and the bits that a caller sends while it calls.
use crate::{c, Choice, Refusal};

/// An event, and what it carries. An agreed JM carries what `choice` answered, a refusal with 11 included.
#[derive(Clone, Copy, Debug, PartialEq, Eq)]
pub enum Event {
    Ansam,
    Ans,
    SigA,
    AgreedJm(Result<Choice, Refusal>),
    CjSent,
    AgreedCm(Choice),
    SigC(u8),
    Cj,
    Tick,
}

impl Event {
    /// The numbers of the header: which event, and what it carries.
    fn numbers(self) -> (u8, i32) {
        match self {
            Event::Ansam => (1, 0),
            Event::Ans => (2, 0),
            Event::SigA => (3, 0),
            Event::AgreedJm(Ok(choice)) => (4, carried(choice)),
            Event::AgreedJm(Err(Refusal(number))) => (4, -i32::from(number)),
            Event::CjSent => (5, 0),
            Event::AgreedCm(choice) => (6, carried(choice)),
            Event::SigC(item) => (7, i32::from(item)),
            Event::Cj => (8, 0),
            Event::Tick => (9, 0),
        }
    }
}

/// A choice as one number. Item 0 and options that do not fit their place have none, and a number that is no choice goes for them.
fn carried(choice: Choice) -> i32 {
    const NO_CHOICE: i32 = -1;
    match choice {
        Choice::Nothing => 0,
        Choice::Item(item @ 1..=12) => i32::from(item),
        Choice::Pcm(options @ 1..=7) => 16 + i32::from(options),
        _ => NO_CHOICE,
    }
}

/// The states, with the numbers that cross to C.
#[derive(Clone, Copy, Debug, PartialEq, Eq)]
pub enum State {
    CallerStill = 1,
    Calling,
    Quiet,
    Menu,
    Closing,
    Pause,
    AnswererStill,
    Answering,
    Joint,
}

const STATES: [State; 9] = [
    State::CallerStill,
    State::Calling,
    State::Quiet,
    State::Menu,
    State::Closing,
    State::Pause,
    State::AnswererStill,
    State::Answering,
    State::Joint,
];

/// What an event is answered.
#[derive(Clone, Copy, Debug, PartialEq, Eq)]
pub enum Answer {
    Same,
    Entered(State),
    Left,
    Late,
    Cleared,
    NotOffered,
    GoOn(Choice),
}

impl Answer {
    /// The answer that a code of the header stands for.
    fn of(code: u32) -> Self {
        match code {
            0 => Answer::Same,
            17 => Answer::Left,
            18 => Answer::Late,
            19 => Answer::Cleared,
            20 => Answer::NotOffered,
            1..=9 => Answer::Entered(STATES[code as usize - 1]),
            _ => Answer::GoOn(Choice::of(code as u8 - 32)),
        }
    }
}

/// A byte that a caller draws for a bit time in which the line is silent.
pub const SILENCE: u8 = 2;

/// The CI of a caller: the call function that each names, how many an on period has, and the bit times of silence behind it.
#[derive(Clone, Copy, Debug, PartialEq, Eq)]
pub struct Cadence {
    pub function: u8,
    pub on: u8,
    pub off: u16,
}

/// The session of an end. Its numbers are the library's own, so they are in range and 10 is never answered to a step or a draw.
#[derive(Clone, Copy, Debug, PartialEq, Eq)]
pub struct Session(pub c::Session);

impl Session {
    /// A caller's session from this time on, with a given Te or without a value.
    pub fn caller(start: u32, te: Option<u32>, Cadence { function, on, off }: Cadence) -> Result<Self, Refusal> {
        // SAFETY: both take and answer numbers.
        let started = unsafe {
            match te {
                Some(te) => c::tailsprig_start_caller(start, te, function, on, off),
                None => c::tailsprig_start_caller_default(start, function, on, off),
            }
        };
        crate::count(started.code).map(|_| Session(started.session))
    }

    /// An answerer's session from this time on.
    pub fn answerer(start: u32) -> Self {
        // SAFETY: takes and answers numbers.
        Session(unsafe { c::tailsprig_start_answerer(start) })
    }

    /// Takes an event at this time.
    pub fn step(&mut self, event: Event, now: u32) -> Result<Answer, Refusal> {
        let (event, value) = event.numbers();
        // SAFETY: takes and answers numbers.
        let taken = unsafe { c::tailsprig_step(self.0, event, value, now) };
        self.0 = taken.session;
        crate::count(taken.code).map(|code| Answer::of(code as u32))
    }
    /// Draws the next bits of the cadence to the start of `out`, and answers how many these are.
    pub fn draw(&mut self, out: &mut [u8]) -> Result<usize, Refusal> {
        // SAFETY: the session goes and comes back by value; the slice is lent for the call alone, with its length.
        let drawn = unsafe { c::tailsprig_draw(self.0, out.as_mut_ptr(), out.len()) };
        self.0 = drawn.session;
        crate::count(drawn.code).map(|_| drawn.bits)
    }
}
