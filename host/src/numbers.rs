//! What the model takes and answers, as the numbers of `include/tailsprig.h`.
use crate::{
    c,
    model::{
        Answer, AskedItem, Block, Cadence, Choice, End, Ended, Event, Function, Kind, Listener, Menu, Message, Place,
        Record, Refusal, Report, Session, Source, State, Tone,
    },
    steps::SILENCE,
};
use std::ops::Range;

/// The kind that a number stands for, if it stands for one.
pub fn kind(number: u8) -> Option<Kind> {
    match number {
        1 => Some(Kind::Ci),
        2 => Some(Kind::Menu),
        _ => None,
    }
}

/// "A negative answer -n is refusal n".
pub fn refused(refusal: Refusal) -> i32 {
    -i32::from(refusal.0)
}

/// What a bit reports. The span of a message is no part of that number.
pub fn report(answer: Result<Report, Refusal>) -> i32 {
    match answer {
        Ok(Report::Nothing) => 0,
        Ok(Report::Ci { .. }) => 1,
        Ok(Report::Menu { agreed: false, .. }) => 2,
        Ok(Report::Menu { agreed: true, .. }) => 3,
        Ok(Report::Cj) => 4,
        Err(refusal) => refused(refusal),
    }
}

/// The span of the message reported last, or 0 where none was.
pub fn span(span: Option<usize>) -> i32 {
    span.map_or(0, |bits| bits as i32)
}

/// The span of a message by its numbers, for records that no bits lead to: nothing was heard there that could be counted. The sync, each
/// octet and the 1s behind them are ten bits each; 0 is the kind of no message.
pub fn span_of(message: &c::Message) -> i32 {
    match message.kind {
        0 => 0,
        _ => 20 + 10 * i32::from(message.len),
    }
}

/// The span of the message reported last by the numbers of a record, where each is in its range of `docs/RANGES.md`.
pub fn last_span_of(record: &c::Listener) -> i32 {
    let fits = |message: &c::Message| message.kind <= 2 && message.len <= 64;
    if record.ear.heard <= 30 && record.ear.place <= 28 && fits(&record.msg) && fits(&record.last) {
        span_of(&record.last)
    } else {
        -10
    }
}

/// Whether a record says what the model's does, in every number that has a meaning.
pub fn same_listener(record: &c::Listener, model: &Listener) -> bool {
    record.ear == ear(model) && same_message(&record.msg, &model.stored) && same_message(&record.last, &model.reported)
}

fn ear(model: &Listener) -> c::Ear {
    let heard = &model.heard;
    let newest = &heard[heard.len().saturating_sub(32)..];
    let place = match &model.place {
        Place::Hunting => 0,
        Place::Sync(bits) => bits.len(),
        Place::Octet(bits) => 10 + bits.len(),
        Place::Ending(ones) => 19 + ones,
    };
    c::Ear {
        past: newest.iter().fold(0, |past, &bit| past / 2 + (u32::from(bit) << 31)),
        heard: heard.len().min(30) as u32,
        place: place as u32,
    }
}

fn same_message(message: &c::Message, model: &Option<Message>) -> bool {
    let (kind, octets) = match model {
        None => (0, &[][..]),
        Some(Message { kind: Kind::Ci, octets }) => (1, &octets[..]),
        Some(Message { kind: Kind::Menu, octets }) => (2, &octets[..]),
    };
    message.kind == kind && message.octets.get(..usize::from(message.len)) == Some(octets)
}

/// The place of a group, or `TAILSPRIG_NOWHERE`.
pub fn place(answer: Result<Option<usize>, Refusal>) -> i32 {
    match answer {
        Ok(Some(place)) => place as i32,
        Ok(None) => 64,
        Err(refusal) => refused(refusal),
    }
}

/// A menu that was read, or numbers that are all 0 beside the refusal.
pub fn menu_read(answer: Result<Menu, Refusal>) -> c::MenuRead {
    match answer {
        Ok(menu) => c::MenuRead {
            offer: c::Offer {
                function: menu.function,
                items: menu.items.iter().map(|item| 1 << item).sum(),
                pcm: menu.pcm.map_or(0, |pcm| pcm.options()),
                lapm: menu.lapm,
                access: menu.access.is_some(),
                access_options: menu.access.map_or(0, |access| access.options()),
            },
            code: 0,
        },
        Err(refusal) => c::MenuRead {
            offer: c::Offer { function: 0, items: 0, pcm: 0, lapm: false, access: false, access_options: 0 },
            code: refused(refusal),
        },
    }
}

/// What a menu answers that is asked for an item, or 0 beside the refusal.
pub fn item_asked(answer: Result<AskedItem, Refusal>) -> c::ItemAsked {
    match answer {
        Ok(AskedItem { offered, looked }) => c::ItemAsked { looked, code: i32::from(offered) },
        Err(refusal) => c::ItemAsked { looked: 0, code: refused(refusal) },
    }
}

/// How many blocks there are, or 0 beside the refusal.
pub fn blocks_read(answer: Result<Vec<Block>, Refusal>) -> c::BlocksRead {
    match answer {
        Ok(blocks) => c::BlocksRead { blocks: blocks.len(), code: 0 },
        Err(refusal) => c::BlocksRead { blocks: 0, code: refused(refusal) },
    }
}

/// A block by its parts, or numbers that are all 0 where there is none.
pub fn block(answer: Option<Block>) -> c::Block {
    let span = |part: Range<usize>| c::Span { place: part.start, size: part.len() };
    answer.map_or(c::Block::default(), |block| c::Block {
        whole: span(block.whole),
        country: span(block.country),
        provider: span(block.provider),
        rest: span(block.rest),
    })
}

/// The record that the numbers stand for. "A record is bad, and refused with 10, if one of these numbers is neither" 1 nor 0.
pub fn record(numbers: &c::Record) -> Result<Record, Refusal> {
    let mut functions = Vec::new();
    for modes in &numbers.functions {
        functions.push(Function { available: flag(modes.available)?, items: items(modes.items), pcm: modes.pcm });
    }
    Ok(Record {
        functions: functions.try_into().expect("six functions give six"),
        home: numbers.home,
        lapm: flag(numbers.lapm)?,
        access: flag(numbers.access)?,
        cellular: flag(numbers.cellular)?,
        digital: flag(numbers.digital)?,
    })
}

fn flag(number: u8) -> Result<bool, Refusal> {
    match number {
        0 => Ok(false),
        1 => Ok(true),
        _ => Err(Refusal(10)),
    }
}

/// "bit i for item i".
fn items(set: u16) -> Vec<u8> {
    (0..16).filter(|item| (set >> item) & 1 == 1).collect()
}

/// In which menu the call function octet stands.
pub fn source(answer: Option<(Source, u8)>) -> u8 {
    match answer {
        None => 0,
        Some((Source::Heard, _)) => 1,
        Some((Source::Own, _)) => 2,
    }
}

fn choice(choice: Choice) -> u8 {
    match choice {
        Choice::None => 0,
        Choice::Item(item) => item,
        Choice::Pcm(options) => 16 + options,
    }
}

/// What both ends go on with.
pub fn chosen(answer: Result<Choice, Refusal>) -> i32 {
    match answer {
        Ok(answer) => i32::from(choice(answer)),
        Err(refusal) => refused(refusal),
    }
}

/// The event that the numbers stand for. What says neither an item nor PCM options goes to the model as item 0, which no event
/// may carry.
pub fn event(number: u8, value: i32) -> Event {
    let carried = match value {
        0 => Choice::None,
        1..=15 => Choice::Item(value as u8),
        16..=31 => Choice::Pcm(value as u8 - 16),
        _ => Choice::Item(0),
    };
    match number {
        1 => Event::Ansam,
        2 => Event::Ans,
        3 => Event::SigA,
        4 if value < 0 => Event::AgreedJm(Err(Refusal(u8::try_from(value.unsigned_abs()).unwrap_or(0)))),
        4 => Event::AgreedJm(Ok(carried)),
        5 => Event::CjSent,
        6 => Event::AgreedCm(carried),
        7 => Event::SigC(u8::try_from(value).unwrap_or(0)),
        8 => Event::Cj,
        9 => Event::Tick,
        _ => Event::Unknown,
    }
}

/// How many bits are counted as sent: from there on every call is past its third CI.
const SENT_MOST: u64 = 90;

/// A caller's cadence, how many of its bits were given out, and the tone that ends it, where each number is in its range. Of the counts
/// that the numbers stand for it is the least: behind the third CI the place is all that is kept of it.
fn cadence(numbers: &c::Cadence) -> Option<(Cadence, u64, Option<Tone>)> {
    let &c::Cadence { off, place, on, function, sent, tone } = numbers;
    let cadence = match (function, on, off) {
        (1..=6, 3..=20, 120..=600) => Cadence { function, on, off },
        _ => return None,
    };
    let (place, sent) = (u64::from(place), u64::from(sent));
    let given = match sent {
        _ if place >= cadence.period() => return None,
        0..SENT_MOST if place == sent => sent,
        SENT_MOST if place < SENT_MOST => cadence.period() + place,
        SENT_MOST => place,
        _ => return None,
    };
    let tone = match tone {
        0 => None,
        1 => Some(Tone::Ansam),
        2 => Some(Tone::Ans),
        _ => return None,
    };
    Some((cadence, given, tone))
}

/// The session that the numbers stand for, where each is in its range of `docs/RANGES.md`.
pub fn session(numbers: &c::Session) -> Option<Session> {
    let (end, given, tone) = match (numbers.end, numbers.te) {
        (1, te @ 500..=5000) => {
            let (cadence, given, tone) = cadence(&numbers.cadence)?;
            (End::Caller { te, cadence }, given, tone)
        }
        (2, 0) if numbers.cadence == c::Cadence::default() => (End::Answerer, 0, None),
        _ => return None,
    };
    let chosen = match numbers.chosen {
        0 => Choice::None,
        item @ 1..=12 => Choice::Item(item),
        options @ 17..=23 => Choice::Pcm(options - 16),
        _ => return None,
    };
    let state = match (numbers.end, numbers.state, numbers.ended) {
        (1, 1, 0) => State::CallerStill,
        (1, 2, 0) => State::Calling,
        (1, 3, 0) => State::Quiet,
        (1, 4, 0) => State::Menu,
        (1, 5, 0) => State::Closing,
        (_, 6, 0) => State::Pause,
        (2, 7, 0) => State::AnswererStill,
        (2, 8, 0) => State::Answering,
        (2, 9, 0) => State::Joint,
        (_, 10, 1) => State::Over(Ended::Left),
        (_, 10, 2) => State::Over(Ended::Late),
        (_, 10, 3) => State::Over(Ended::Cleared),
        (_, 10, 4) => State::Over(Ended::NotOffered),
        (_, 10, 5) if chosen != Choice::None => State::Over(Ended::GoOn),
        _ => return None,
    };
    // No choice stands before a menu is agreed, no bit is given out before calling, and no tone counts.
    if matches!(numbers.state, 1..=4 | 7 | 8) && chosen != Choice::None {
        return None;
    }
    if state == State::CallerStill && (given, tone) != (0, None) {
        return None;
    }
    Some(Session { end, state, chosen, entry: numbers.entry, given, tone })
}

/// A session as its numbers.
pub fn of_session(session: &Session) -> c::Session {
    let (end, te, cadence) = match session.end {
        End::Caller { te, cadence } => (1, te, of_cadence(&cadence, session)),
        End::Answerer => (2, 0, c::Cadence::default()),
    };
    let ended = match session.state {
        State::Over(ended) => of_ended(ended),
        _ => 0,
    };
    let (state, chosen) = (of_state(session.state), choice(session.chosen));
    c::Session { entry: session.entry, te, cadence, end, state, chosen, ended }
}

fn of_cadence(cadence: &Cadence, session: &Session) -> c::Cadence {
    let &Cadence { function, on, off } = cadence;
    let tone = match session.tone {
        None => 0,
        Some(Tone::Ansam) => 1,
        Some(Tone::Ans) => 2,
    };
    let (place, sent) = (session.given % cadence.period(), session.given.min(SENT_MOST));
    c::Cadence { off, place: place as u16, on, function, sent: sent as u8, tone }
}

/// What a caller draws, a byte for each bit time.
pub fn drawn(bits: &[Option<u8>]) -> Vec<u8> {
    bits.iter().map(|bit| bit.unwrap_or(SILENCE)).collect()
}

fn of_state(state: State) -> u8 {
    match state {
        State::CallerStill => 1,
        State::Calling => 2,
        State::Quiet => 3,
        State::Menu => 4,
        State::Closing => 5,
        State::Pause => 6,
        State::AnswererStill => 7,
        State::Answering => 8,
        State::Joint => 9,
        State::Over(_) => 10,
    }
}

fn of_ended(ended: Ended) -> u8 {
    match ended {
        Ended::Left => 1,
        Ended::Late => 2,
        Ended::Cleared => 3,
        Ended::NotOffered => 4,
        Ended::GoOn => 5,
    }
}

/// A caller's start, or numbers that are all 0 beside the refusal.
pub fn started(answer: Result<Session, Refusal>) -> c::CallerStart {
    match answer {
        Ok(session) => c::CallerStart { session: of_session(&session), code: 0 },
        Err(refusal) => c::CallerStart { session: c::Session::default(), code: refused(refusal) },
    }
}

/// A step's code, with the choice of the session behind it.
pub fn stepped(answer: Result<Answer, Refusal>, behind: &Session) -> i32 {
    match answer {
        Ok(Answer::Same) => 0,
        Ok(Answer::Entered(State::Over(Ended::GoOn))) => 32 + i32::from(choice(behind.chosen)),
        Ok(Answer::Entered(State::Over(ended))) => 16 + i32::from(of_ended(ended)),
        Ok(Answer::Entered(state)) => i32::from(of_state(state)),
        Err(refusal) => refused(refusal),
    }
}
