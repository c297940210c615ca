//! Every call of the header, asked of the library and of the model.
use crate::{fields, inputs, random::Random};
use std::{collections::BTreeSet, fmt::Debug};
use tailsprig::{
    c,
    model::{Cadence, Listener, Message, Model, Refusal, Report, Session, State},
    numbers, text,
};

/// A call, how many inputs of each round are its, and what tries one of them.
pub struct Call {
    pub name: &'static str,
    pub share: u64,
    pub check: fn(&Model, &mut Random, &mut Answers) -> Result<(), Difference>,
}

/// Which answers came: refusals as their negative numbers, others as the header numbers them. Counts and places are all told as 0, as
/// how large they are says little; a block or a span is told as 1, and that there is none as 0.
pub type Answers = BTreeSet<i32>;

/// An input for which the library and the model answer differently.
pub struct Difference {
    pub input: String,
    pub library: String,
    pub model: String,
}

pub const CALLS: [Call; 22] = [
    Call { name: "write", share: 4, check: write },
    Call { name: "write_cj", share: 1, check: write_cj },
    Call { name: "fresh and hear", share: 7, check: hear },
    Call { name: "hear_many", share: 4, check: hear_many },
    Call { name: "last_span", share: 4, check: last_span },
    Call { name: "find", share: 3, check: find },
    Call { name: "part", share: 3, check: part },
    Call { name: "read", share: 4, check: read },
    Call { name: "asks", share: 6, check: asks },
    Call { name: "fields", share: 9, check: read_fields },
    Call { name: "blocks", share: 4, check: blocks },
    Call { name: "block_of", share: 4, check: block_of },
    Call { name: "block_at", share: 4, check: block_at },
    Call { name: "cm", share: 6, check: cm },
    Call { name: "jm", share: 6, check: jm },
    Call { name: "call_function", share: 3, check: call_function },
    Call { name: "choice", share: 6, check: choice },
    Call { name: "start_caller", share: 2, check: start_caller },
    Call { name: "start_caller_default", share: 2, check: start_caller_default },
    Call { name: "start_answerer", share: 1, check: start_answerer },
    Call { name: "step", share: 10, check: step },
    Call { name: "draw", share: 4, check: draw },
];

fn compared<T: PartialEq + Debug>(library: T, model: T, input: impl FnOnce() -> String) -> Result<(), Difference> {
    if library == model {
        return Ok(());
    }
    Err(Difference { input: input(), library: format!("{library:?}"), model: format!("{model:?}") })
}

/// What a call that writes answers, and every byte of the lent buffer and around it afterwards.
struct Written {
    code: i32,
    memory: Vec<u8>,
}

/// The state in which bits are given out.
const CALLING: u8 = 2;

/// How many bytes before and behind a lent buffer are looked at too.
const AROUND: usize = 16;

/// What lies in a lent buffer and around it before the call: bytes that are no bits and no silence, another at each place.
fn untouched(room: usize) -> Vec<u8> {
    (0..room + 2 * AROUND).map(|at| 3 + (at % 251) as u8).collect()
}

/// Compares what the library writes into a buffer of so many bytes with what the model says goes to its start. Answers the code.
fn written(
    room: usize,
    library: impl FnOnce(&mut [u8]) -> i32,
    model: Result<Vec<u8>, Refusal>,
    input: impl FnOnce() -> String,
) -> Result<i32, Difference> {
    let mut memory = untouched(room);
    let code = library(&mut memory[AROUND..AROUND + room]);
    let library = Written { code, memory };

    let mut memory = untouched(room);
    let code = match model {
        Ok(bytes) => {
            memory[AROUND..].iter_mut().zip(&bytes).for_each(|(lent, byte)| *lent = *byte);
            bytes.len() as i32
        }
        Err(refusal) => numbers::refused(refusal),
    };
    let model = Written { code, memory };

    let first = library.memory.iter().zip(&model.memory).position(|(library, model)| library != model);
    if library.code == model.code && first.is_none() {
        return Ok(library.code);
    }
    let show = |written: &Written| match first {
        None => format!("{}", written.code),
        Some(first) => {
            let some = &written.memory[first..written.memory.len().min(first + 40)];
            format!("{}, and from byte {} on {}", written.code, first as i64 - AROUND as i64, text::show_octets(some))
        }
    };
    Err(Difference { input: input(), library: show(&library), model: show(&model) })
}

fn write(model: &Model, random: &mut Random, answers: &mut Answers) -> Result<(), Difference> {
    let kind = if random.one_in(16) { random.byte() } else { random.of(&[1, 2, 2]) };
    let octets = inputs::message(random, kind);
    let copies = match random.below(64) {
        0 => 65_535,
        1 => random.word() as u16,
        _ => random.below(5) as u16,
    };
    let needed = usize::from(copies) * (20 + 10 * octets.len());
    let room = match random.below(8) {
        0 => random.below(700),
        1 => needed.saturating_sub(1),
        2 | 3 => needed,
        _ => needed + random.below(70),
    };
    // The largest buffers take as long as thousands of small ones.
    let room = if room > 100_000 && !random.one_in(64) { random.below(1000) } else { room };
    let answer = match numbers::kind(kind) {
        Some(kind) => model.write(kind, &octets, copies, room),
        None => Err(Refusal(10)),
    };
    let library = |out: &mut [u8]| {
        // SAFETY: both slices are lent for the call alone, with their lengths, and a `&mut` overlaps nothing.
        unsafe { c::tailsprig_write(kind, octets.as_ptr(), octets.len(), copies, out.as_mut_ptr(), out.len()) }
    };
    let code = written(room, library, answer, || {
        let kind = match kind {
            1 => "CI".to_string(),
            2 => "MENU".to_string(),
            _ => format!("kind {kind}"),
        };
        format!("{kind}\t{}\t{copies}\t{room}", text::show_octets(&octets))
    })?;
    answers.insert(code.min(0));
    Ok(())
}

fn write_cj(model: &Model, random: &mut Random, answers: &mut Answers) -> Result<(), Difference> {
    let room = random.below(64);
    // SAFETY: as for `write`.
    let library = |out: &mut [u8]| unsafe { c::tailsprig_write_cj(out.as_mut_ptr(), out.len()) };
    let code = written(room, library, model.write_cj(room), || format!("room {room}"))?;
    answers.insert(code.min(0));
    Ok(())
}

fn fresh() -> c::Listener {
    // SAFETY: takes nothing and answers numbers.
    unsafe { c::tailsprig_fresh() }
}

fn ran(record: c::Listener, bits: &[u8]) -> c::Ran {
    // SAFETY: the slice is lent for the call alone, with its length; the record goes and comes back by value.
    unsafe { c::tailsprig_hear_many(record, bits.as_ptr(), bits.len()) }
}

fn span_asked(record: c::Listener) -> i32 {
    // SAFETY: the record goes by value.
    unsafe { c::tailsprig_last_span(record) }
}

/// The span that a report carries, where it is one of a message, and the span of the message reported last. The library tells both by one
/// call.
#[derive(Debug, PartialEq)]
struct Spans {
    told: Option<i32>,
    last: i32,
}

/// Compares the spans that are told behind a report.
fn spans_compared(
    record: c::Listener,
    model: &Model,
    listener: &Listener,
    report: Result<Report, Refusal>,
    input: impl FnOnce() -> String,
) -> Result<(), Difference> {
    let told = match report {
        Ok(Report::Ci { span } | Report::Menu { span, .. }) => Some(span as i32),
        Ok(Report::Nothing | Report::Cj) | Err(_) => None,
    };
    let asked = span_asked(record);
    let library = Spans { told: told.map(|_| asked), last: asked };
    compared(library, Spans { told, last: numbers::span(model.last_span(listener)) }, input)
}

/// Hears a line bit by bit, and compares each report with its span and the whole record behind it. At one place a record out of its
/// ranges is tried, and what has no meaning in the good one is written over.
fn hear(model: &Model, random: &mut Random, answers: &mut Answers) -> Result<(), Difference> {
    let line = inputs::line(random);
    let mut record = fresh();
    let mut listener = Listener::fresh();
    let damaged_at = random.below(line.len() + 1);
    let input = |at: usize| format!("{}, byte {at}", text::show_line(&line));
    if !numbers::same_listener(&record, &listener) {
        return Err(listening_differs("fresh".to_string(), 0, &record, 0, &listener));
    }
    for (at, &bit) in line.iter().enumerate() {
        if at == damaged_at {
            let mut outside = record;
            inputs::damage_listener(random, &mut outside);
            let mut behind = outside;
            // SAFETY: the record is lent for the call alone.
            let code = unsafe { c::tailsprig_hear(&mut behind, bit) };
            answers.insert(code);
            compared((code, behind, span_asked(outside)), (-10, outside, -10), || format!("{outside:?} {bit}"))?;
            inputs::scribble(random, &mut record);
        }
        let before = record;
        // SAFETY: the record is lent for the call alone.
        let code = unsafe { c::tailsprig_hear(&mut record, bit) };
        answers.insert(code);
        let report = model.hear(&mut listener, bit);
        let answer = numbers::report(report);
        // "The listening record keeps its value on 1", in what has no meaning too.
        let kept = answer != -1 || record == before;
        if code != answer || !kept || !numbers::same_listener(&record, &listener) {
            return Err(listening_differs(input(at), code, &record, answer, &listener));
        }
        spans_compared(record, model, &listener, report, || input(at))?;
    }
    Ok(())
}

fn listening_differs(input: String, code: i32, record: &c::Listener, answer: i32, listener: &Listener) -> Difference {
    let octets = |message: &c::Message| match message.octets.get(..usize::from(message.len)) {
        Some(octets) => text::show_octets(octets),
        None => format!("{} octets", message.len),
    };
    let message = |message: &Option<Message>| match message {
        Some(message) => format!("{:?} {}", message.kind, text::show_octets(&message.octets)),
        None => "none".to_string(),
    };
    let c::Listener { ear, msg, last } = record;
    let Listener { place, stored, reported, .. } = listener;
    Difference {
        input,
        library: format!("{code}, {ear:?}, msg {} {}, last {} {}", msg.kind, octets(msg), last.kind, octets(last)),
        model: format!("{answer}, {place:?}, stored {}, reported {}", message(stored), message(reported)),
    }
}

/// Hears a line in pieces, and compares how much of each was taken, what the last byte reported with its span, and the whole record.
fn hear_many(model: &Model, random: &mut Random, answers: &mut Answers) -> Result<(), Difference> {
    let line = inputs::line(random);
    let mut record = fresh();
    let mut listener = Listener::fresh();
    let mut at = 0;
    while at < line.len() {
        let left = line.len() - at;
        let length = match random.below(8) {
            0 => random.below(2),
            1..=3 => random.below(40),
            4 | 5 => random.below(400),
            _ => left,
        };
        let piece = &line[at..at + length.min(left)];
        if random.one_in(8) {
            let mut outside = record;
            inputs::damage_listener(random, &mut outside);
            let ran = ran(outside, piece);
            answers.insert(ran.code);
            let refused = c::Ran { rec: outside, taken: 0, code: -10 };
            compared(ran, refused, || format!("{outside:?} {}", text::show_line(piece)))?;
            inputs::scribble(random, &mut record);
        }
        let (mut taken, mut report) = (0, Ok(Report::Nothing));
        while report == Ok(Report::Nothing) && taken < piece.len() {
            report = model.hear(&mut listener, piece[taken]);
            taken += 1;
        }
        let answer = numbers::report(report);
        let ran = ran(record, piece);
        answers.insert(ran.code);
        let input = || format!("{}, bytes {at} to {}", text::show_line(&line), at + piece.len());
        compared((ran.taken, ran.code), (taken, answer), input)?;
        if !numbers::same_listener(&ran.rec, &listener) {
            return Err(listening_differs(input(), ran.code, &ran.rec, answer, &listener));
        }
        spans_compared(ran.rec, model, &listener, report, input)?;
        record = ran.rec;
        at += taken;
    }
    Ok(())
}

/// Asks any record for the span of the message reported last, and again behind bits that are heard with it, one by one and at once: where
/// these report a message, its span is told. No bits lead to most of these records, so the model has nothing to count, and the numbers of
/// the message say it.
fn last_span(_: &Model, random: &mut Random, answers: &mut Answers) -> Result<(), Difference> {
    let mut first = inputs::listener(random);
    if random.one_in(4) {
        inputs::damage_listener(random, &mut first);
    }
    let before = span_asked(first);
    answers.insert(before.min(1));

    let line = inputs::line(random);
    let many = ran(first, &line);
    let mut one = first;
    for &bit in &line[..many.taken] {
        // SAFETY: the record is lent for the call alone.
        unsafe { c::tailsprig_hear(&mut one, bit) };
    }

    let by_numbers = numbers::last_span_of(&first);
    let behind = if matches!(many.code, 1..=3) { numbers::span_of(&many.rec.msg) } else { by_numbers };
    compared([before, span_asked(one), span_asked(many.rec)], [by_numbers, behind, behind], || {
        format!("{first:?}, {}", text::show_line(&line))
    })
}

fn find(model: &Model, random: &mut Random, answers: &mut Answers) -> Result<(), Difference> {
    let octets = inputs::menu(random);
    let tag = inputs::tag(random);
    // SAFETY: the slice is lent for the call alone, with its length.
    let library = unsafe { c::tailsprig_find(octets.as_ptr(), octets.len(), tag) };
    answers.insert(if library < 64 { library.min(0) } else { library });
    compared(library, numbers::place(model.find(&octets, tag)), || format!("{}\t{tag}", text::show_octets(&octets)))
}

fn part(model: &Model, random: &mut Random, answers: &mut Answers) -> Result<(), Difference> {
    let octets = inputs::menu(random);
    let place = inputs::place(random, &octets);
    // SAFETY: as for `find`.
    let library = unsafe { c::tailsprig_part(octets.as_ptr(), octets.len(), place) };
    answers.insert(0);
    compared(library, model.part(&octets, place).len(), || format!("{}\t{place}", text::show_octets(&octets)))
}

fn read(model: &Model, random: &mut Random, answers: &mut Answers) -> Result<(), Difference> {
    let octets = inputs::menu(random);
    // SAFETY: as for `find`.
    let library = unsafe { c::tailsprig_read(octets.as_ptr(), octets.len()) };
    answers.insert(library.code);
    compared(library, numbers::menu_read(model.read(&octets)), || text::show_octets(&octets))
}

fn asks(model: &Model, random: &mut Random, answers: &mut Answers) -> Result<(), Difference> {
    let (octets, item) = inputs::question(random);
    // SAFETY: as for `find`.
    let library = unsafe { c::tailsprig_asks(octets.as_ptr(), octets.len(), item) };
    answers.insert(library.code);
    compared(library, numbers::item_asked(model.asks(&octets, item)), || format!("{}\t{item}", text::show_octets(&octets)))
}

fn read_fields(model: &Model, random: &mut Random, answers: &mut Answers) -> Result<(), Difference> {
    let heard = fields::heard(random);
    let room = fields::room(random, &heard);
    // SAFETY: as for `write`.
    let library =
        |out: &mut [u8]| unsafe { c::tailsprig_fields(heard.as_ptr(), heard.len(), out.as_mut_ptr(), out.len()) };
    let code = written(room, library, model.fields(&heard, room), || format!("{}\t{room}", text::show_octets(&heard)))?;
    answers.insert(code.min(0));
    Ok(())
}

fn blocks(model: &Model, random: &mut Random, answers: &mut Answers) -> Result<(), Difference> {
    let octets = fields::blocks(random);
    // SAFETY: as for `find`.
    let library = unsafe { c::tailsprig_blocks(octets.as_ptr(), octets.len()) };
    answers.insert(library.code);
    compared(library, numbers::blocks_read(model.blocks(&octets)), || text::show_octets(&octets))
}

fn block_of(model: &Model, random: &mut Random, answers: &mut Answers) -> Result<(), Difference> {
    let octets = fields::blocks(random);
    let number = fields::number(random, &octets);
    // SAFETY: as for `find`.
    let library = unsafe { c::tailsprig_block_of(octets.as_ptr(), octets.len(), number) };
    answers.insert(i32::from(library != c::Block::default()));
    let answer = numbers::block(model.block_of(&octets, number));
    compared(library, answer, || format!("{}\t{number}", text::show_octets(&octets)))
}

fn block_at(model: &Model, random: &mut Random, answers: &mut Answers) -> Result<(), Difference> {
    let octets = fields::blocks(random);
    let place = fields::place(random, &octets);
    // SAFETY: as for `find`.
    let library = unsafe { c::tailsprig_block_at(octets.as_ptr(), octets.len(), place) };
    answers.insert(i32::from(library != c::Block::default()));
    let answer = numbers::block(model.block_at(&octets, place).ok());
    compared(library, answer, || format!("{}\t{place}", text::show_octets(&octets)))
}

fn cm(model: &Model, random: &mut Random, answers: &mut Answers) -> Result<(), Difference> {
    let own = inputs::record(random);
    let function = inputs::function(random, &own);
    let blocks = fields::own_blocks(random);
    let room = fields::cm_room(random, &blocks);
    // SAFETY: the record goes by value; both slices are lent for the call alone, with their lengths.
    let library = |out: &mut [u8]| unsafe {
        c::tailsprig_cm(own, function, blocks.as_ptr(), blocks.len(), out.as_mut_ptr(), out.len())
    };
    let answer = numbers::record(&own).and_then(|own| model.cm(&own, function, &blocks, room));
    let code = written(room, library, answer, || {
        format!("{}\t{function}\t{}\t{room}", text::show_record(&own), text::show_octets(&blocks))
    })?;
    answers.insert(code.min(0));
    Ok(())
}

fn jm(model: &Model, random: &mut Random, answers: &mut Answers) -> Result<(), Difference> {
    let own = inputs::record(random);
    let heard = inputs::answered_cm(random);
    let room = inputs::jm_room(random, &own, &heard);
    // SAFETY: as for `cm` and `write`.
    let library =
        |out: &mut [u8]| unsafe { c::tailsprig_jm(own, heard.as_ptr(), heard.len(), out.as_mut_ptr(), out.len()) };
    let answer = numbers::record(&own).and_then(|own| model.jm(&own, &heard, room));
    let input = || format!("{}\t{}\t{room}", text::show_record(&own), text::show_octets(&heard));
    let code = written(room, library, answer, input)?;
    answers.insert(code.min(0));
    Ok(())
}

fn call_function(model: &Model, random: &mut Random, answers: &mut Answers) -> Result<(), Difference> {
    let own = inputs::record(random);
    let heard = inputs::cm(random);
    let own_cm = inputs::cm(random);
    // SAFETY: the record goes by value; both slices are lent for the call alone, with their lengths.
    let library =
        unsafe { c::tailsprig_call_function(own, heard.as_ptr(), heard.len(), own_cm.as_ptr(), own_cm.len()) };
    answers.insert(i32::from(library));
    let answer = numbers::record(&own).ok().and_then(|own| model.call_function(&own, &heard, &own_cm));
    compared(library, numbers::source(answer), || {
        format!("{}\t{}\t{}", text::show_record(&own), text::show_octets(&heard), text::show_octets(&own_cm))
    })
}

fn choice(model: &Model, random: &mut Random, answers: &mut Answers) -> Result<(), Difference> {
    let cm = inputs::cm(random);
    let jm = inputs::jm(random, &cm);
    // SAFETY: both slices are lent for the call alone, with their lengths.
    let library = unsafe { c::tailsprig_choice(cm.as_ptr(), cm.len(), jm.as_ptr(), jm.len()) };
    answers.insert(library);
    compared(library, numbers::chosen(model.choice(&cm, &jm)), || {
        format!("{}\t{}", text::show_octets(&cm), text::show_octets(&jm))
    })
}

fn start_caller(model: &Model, random: &mut Random, answers: &mut Answers) -> Result<(), Difference> {
    let (start, te) = (inputs::time(random), inputs::te(random));
    let (function, on, off) = (inputs::ci_function(random), inputs::on(random), inputs::off(random));
    // SAFETY: takes and answers numbers.
    let library = unsafe { c::tailsprig_start_caller(start, te, function, on, off) };
    answers.insert(library.code);
    let answer = numbers::started(model.start_caller(start, Some(te), Cadence { function, on, off }));
    compared(library, answer, || format!("caller\t{start}\t{te}\t{on}/{off}\t{function}"))
}

fn start_caller_default(model: &Model, random: &mut Random, answers: &mut Answers) -> Result<(), Difference> {
    let start = inputs::time(random);
    let (function, on, off) = (inputs::ci_function(random), inputs::on(random), inputs::off(random));
    // SAFETY: takes and answers numbers.
    let library = unsafe { c::tailsprig_start_caller_default(start, function, on, off) };
    answers.insert(library.code);
    let answer = numbers::started(model.start_caller(start, None, Cadence { function, on, off }));
    compared(library, answer, || format!("caller\t{start}\t-\t{on}/{off}\t{function}"))
}

fn start_answerer(model: &Model, random: &mut Random, answers: &mut Answers) -> Result<(), Difference> {
    let start = inputs::time(random);
    // SAFETY: takes and answers numbers.
    let library = unsafe { c::tailsprig_start_answerer(start) };
    answers.insert(0);
    compared(library, numbers::of_session(&model.start_answerer(start)), || format!("answerer\t{start}\t-\t-\t-"))
}

/// A session to ask: from a start mostly.
fn first_session(random: &mut Random) -> c::Session {
    let start = inputs::time(random);
    let (function, on, off) = (inputs::ci_function(random), inputs::on(random), inputs::off(random));
    // SAFETY: take and answer numbers.
    unsafe {
        match random.below(4) {
            0 => c::tailsprig_start_answerer(start),
            // Where these are refused this is the session beside the refusal, which is out of its ranges.
            1 => c::tailsprig_start_caller_default(start, function, on, off).session,
            2 => c::tailsprig_start_caller(start, inputs::te(random), function, on, off).session,
            _ => inputs::session(random),
        }
    }
}

/// Takes a session through events, and draws bits between them; compares each answer and the whole session behind it.
fn step(model: &Model, random: &mut Random, answers: &mut Answers) -> Result<(), Difference> {
    let first = first_session(random);
    let mut session = first;
    let mut asked = Vec::new();
    for _ in 0..1 + random.below(14) {
        if random.one_in(if session.state == CALLING { 2 } else { 8 }) {
            session = draw_some(model, random, &first, session, &mut asked)?.session;
            continue;
        }
        let (event, value, now) = inputs::event(random, &session);
        asked.push(show_event(event, value, now));
        // SAFETY: takes and answers numbers.
        let library = unsafe { c::tailsprig_step(session, event, value, now) };
        answers.insert(library.code);
        let answer = match numbers::session(&session) {
            Some(mut session) => {
                let answer = model.step(&mut session, numbers::event(event, value), now);
                c::StepTaken { code: numbers::stepped(answer, &session), session: numbers::of_session(&session) }
            }
            None => c::StepTaken { code: -10, session },
        };
        compared(library, answer, || show_asked(&first, &asked))?;
        session = library.session;
    }
    Ok(())
}

/// Draws bits of a session again and again, without an event.
fn draw(model: &Model, random: &mut Random, answers: &mut Answers) -> Result<(), Difference> {
    let first = inputs::session(random);
    let mut session = first;
    let mut asked = Vec::new();
    for _ in 0..1 + random.below(6) {
        let drawn = draw_some(model, random, &first, session, &mut asked)?;
        answers.insert(drawn.code);
        session = drawn.session;
    }
    Ok(())
}

/// Draws some bits of a session, behind what was asked of it before, and compares them, the lent buffer and the session behind them.
fn draw_some(
    model: &Model,
    random: &mut Random,
    first: &c::Session,
    session: c::Session,
    asked: &mut Vec<String>,
) -> Result<c::BitsDrawn, Difference> {
    let room = inputs::asked_for(random, &session);
    asked.push(format!("bits={room}"));
    let (bits, behind) = match numbers::session(&session) {
        Some(mut session) => {
            let bits = numbers::drawn(&model.draw(&mut session, room));
            (Ok(bits), numbers::of_session(&session))
        }
        None => (Err(Refusal(10)), session),
    };
    let expected = c::BitsDrawn {
        session: behind,
        bits: bits.as_ref().map_or(0, Vec::len),
        code: bits.as_ref().map_or_else(|refusal| numbers::refused(*refusal), |_| 0),
    };
    let mut drawn = expected;
    let library = |out: &mut [u8]| {
        // SAFETY: the session goes by value; the slice is lent for the call alone, with its length.
        drawn = unsafe { c::tailsprig_draw(session, out.as_mut_ptr(), out.len()) };
        if drawn.code == 0 {
            drawn.bits as i32
        } else {
            drawn.code
        }
    };
    written(room, library, bits, || show_asked(first, asked))?;
    compared(drawn, expected, || show_asked(first, asked))?;
    Ok(drawn)
}

/// A session and what was asked of it, as a row of the vectors.
fn show_asked(first: &c::Session, asked: &[String]) -> String {
    format!("{}\t{}", show_session(first), asked.join(" "))
}

/// A start as the vectors give it, any other session by its numbers.
fn show_session(session: &c::Session) -> String {
    let c::Cadence { on, off, function, .. } = session.cadence;
    match numbers::session(session) {
        Some(Session { state: State::CallerStill, .. }) => {
            format!("caller\t{}\t{}\t{on}/{off}\t{function}", session.entry, session.te)
        }
        Some(Session { state: State::AnswererStill, .. }) => format!("answerer\t{}\t-\t-\t-", session.entry),
        _ => format!("{session:?}"),
    }
}

/// An event as the vectors name it. What they have no name for is given by its numbers.
fn show_event(event: u8, value: i32, now: u32) -> String {
    const NAMES: [&str; 9] = ["ansam", "ans", "siga", "jm", "cjsent", "cm", "sigc", "cj", "tick"];
    let carried = match (event, value) {
        (4 | 6, 0) => "=none".to_string(),
        (4 | 6 | 7, 1..=12) => format!("=item{value}"),
        (4 | 6, 16..=23) => format!("=pcm{}", value - 16),
        (4, -11) => "=R11".to_string(),
        (4 | 6 | 7, _) => format!("=({value})"),
        _ => String::new(),
    };
    match usize::from(event).checked_sub(1).and_then(|place| NAMES.get(place)) {
        Some(name) => format!("{name}@{now}{carried}"),
        None => format!("({event})@{now}"),
    }
}
