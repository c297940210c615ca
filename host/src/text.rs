//! The texts of the vector files: octets, bits, records, blocks, refusals and reports.
use crate::{
    c::{Modes, Offer, Record},
    steps::{Answer, Cadence, Event, State, SILENCE},
    Choice, Kind, Refusal, Report,
};

/// Octets as two upper-case hex digits each, single spaces between; `-` is the empty list.
pub fn octets(text: &str) -> Result<Vec<u8>, String> {
    if text == "-" {
        return Ok(Vec::new());
    }
    text.split(' ').map(octet).collect()
}

fn octet(text: &str) -> Result<u8, String> {
    let digits = text.len() == 2 && text.bytes().all(|b| b.is_ascii_digit() || (b'A'..=b'F').contains(&b));
    match u8::from_str_radix(text, 16) {
        Ok(value) if digits => Ok(value),
        _ => Err(format!("'{text}' is no octet")),
    }
}

/// A decimal number.
pub fn number<T: std::str::FromStr>(text: &str) -> Result<T, String> {
    text.parse().map_err(|_| format!("'{text}' is no number, or one out of range"))
}

/// `CI` or `MENU`.
pub fn kind(text: &str) -> Result<Kind, String> {
    match text {
        "CI" => Ok(Kind::Ci),
        "MENU" => Ok(Kind::Menu),
        _ => Err(format!("'{text}' is no kind")),
    }
}

/// A record: six functions `AVAILABLE:ITEMS:PCM` with the items as a set in hex, the home function, and a digit each for LAPM wanted,
/// access wanted, cellular, digital.
pub fn record(text: &str) -> Result<Record, String> {
    let fields: Vec<&str> = text.split(' ').collect();
    let [functions @ .., home, flags] = fields.as_slice() else {
        return Err(format!("'{text}' is no record"));
    };
    let functions: Vec<Modes> = functions.iter().map(|modes| self::modes(modes)).collect::<Result<_, _>>()?;
    let flags: Vec<u8> = flags.bytes().map(|digit| digit.wrapping_sub(b'0')).collect();
    match (<[Modes; 6]>::try_from(functions), flags.as_slice()) {
        (Ok(functions), &[lapm, access, cellular, digital]) => {
            Ok(Record { functions, home: number(home)?, lapm, access, cellular, digital })
        }
        _ => Err(format!("'{text}' is no record")),
    }
}

fn modes(text: &str) -> Result<Modes, String> {
    let fields: Vec<&str> = text.split(':').collect();
    let &[available, items, pcm] = fields.as_slice() else {
        return Err(format!("'{text}' is no function of a record"));
    };
    let items = u16::from_str_radix(items, 16).map_err(|_| format!("'{items}' is no set of items"))?;
    Ok(Modes { available: number(available)?, pcm: number(pcm)?, items })
}

/// A record as it is read. Where one of the last four numbers is no digit, commas part them.
pub fn show_record(record: &Record) -> String {
    let functions = record.functions.map(|modes| format!("{}:{:04X}:{}", modes.available, modes.items, modes.pcm));
    let flags = [record.lapm, record.access, record.cellular, record.digital];
    let between = if flags.iter().all(|flag| *flag <= 9) { "" } else { "," };
    format!("{} {} {}", functions.join(" "), record.home, flags.map(|flag| flag.to_string()).join(between))
}

/// Bits as characters; `-` where there are none.
pub fn show_bits(bits: &[u8]) -> String {
    if bits.is_empty() {
        return "-".to_string();
    }
    bits.iter().map(|bit| char::from(b'0' + bit)).collect()
}

/// Octets as they are read; `-` where there are none.
pub fn show_octets(octets: &[u8]) -> String {
    if octets.is_empty() {
        return "-".to_string();
    }
    octets.iter().map(|octet| format!("{octet:02X}")).collect::<Vec<_>>().join(" ")
}

/// Octets joined by `.`, where several lists stand in one field; `-` where there are none.
pub fn show_joined(octets: &[u8]) -> String {
    show_octets(octets).replace(' ', ".")
}

/// A block: `COUNTRY/PROVIDER/REST`.
pub fn show_block(country: &[u8], provider: &[u8], rest: &[u8]) -> String {
    [country, provider, rest].map(show_joined).join("/")
}

/// Blocks that are shown, single spaces between; `-` where there are none.
pub fn show_blocks(blocks: &[String]) -> String {
    if blocks.is_empty() {
        return "-".to_string();
    }
    blocks.join(" ")
}

/// What a menu says, as the vectors write it.
pub fn show_offer(offer: &Offer) -> String {
    let access = if offer.access { offer.access_options.to_string() } else { "-".to_string() };
    format!(
        "function {} items {:04X} pcm {} lapm {} access {access}",
        offer.function,
        offer.items,
        offer.pcm,
        u8::from(offer.lapm)
    )
}

/// Whether an item is offered, `yes` or `no`, and how many octets were looked at.
pub fn show_asked_item(offered: bool, looked: usize) -> String {
    format!("{} {looked}", if offered { "yes" } else { "no" })
}

/// `R` and the number.
pub fn show_refusal(refusal: Refusal) -> String {
    format!("R{}", refusal.0)
}

/// A line's bytes: `0` and `1` are bits, any other character is a byte that is no bit; `-` alone is the empty line.
pub fn line(text: &str) -> Vec<u8> {
    if text == "-" {
        return Vec::new();
    }
    text.bytes().map(|character| character ^ b'0').collect()
}

/// A line's bytes as they are read, with `x` for each that is no bit.
pub fn show_line(line: &[u8]) -> String {
    if line.is_empty() {
        return "-".to_string();
    }
    line.iter().map(|byte| if *byte <= 1 { char::from(b'0' + byte) } else { 'x' }).collect()
}

/// What was reported on a line so far: `N:WHAT:OCTETS:SPAN` each, with `:agreed` behind an agreed menu. Without a message octets and span
/// are `-`.
#[derive(Default)]
pub struct Reports {
    heard: usize,
    shown: Vec<String>,
}

impl Reports {
    /// Adds what a call reported, how many bytes it took and which octets it left stored.
    pub fn add(&mut self, taken: usize, report: Report, octets: &[u8]) {
        self.heard += taken;
        let (what, octets, agreed) = match report {
            Report::Nothing => return,
            Report::Ci { .. } => ("CI".to_string(), octets, ""),
            Report::Menu { agreed, .. } => ("MENU".to_string(), octets, if agreed { ":agreed" } else { "" }),
            Report::Cj => ("CJ".to_string(), &[][..], ""),
            Report::Refused(refusal) => (show_refusal(refusal), &[][..], ""),
        };
        let span = report.span().map_or("-".to_string(), |span| span.to_string());
        self.shown.push(format!("{}:{what}:{}:{span}{agreed}", self.heard - 1, show_joined(octets)));
        // A byte that is no bit was taken and not heard.
        self.heard -= usize::from(report == Report::Refused(Refusal(1)));
    }

    /// All of them, single spaces between; `-` where nothing was reported.
    pub fn show(&self) -> String {
        if self.shown.is_empty() {
            return "-".to_string();
        }
        self.shown.join(" ")
    }
}

/// `none`, `itemN` or `pcmN`.
fn choice(text: &str) -> Result<Choice, String> {
    if text == "none" {
        return Ok(Choice::Nothing);
    }
    if let Some(item) = text.strip_prefix("item") {
        return number(item).map(Choice::Item);
    }
    match text.strip_prefix("pcm") {
        Some(options) => number(options).map(Choice::Pcm),
        None => Err(format!("'{text}' is no choice")),
    }
}

/// The cadence of a caller, `ON/OFF`, with the function of its CI.
pub fn cadence(text: &str, function: &str) -> Result<Cadence, String> {
    let (on, off) = text.split_once('/').ok_or(format!("'{text}' is no cadence"))?;
    Ok(Cadence { function: number(function)?, on: number(on)?, off: number(off)? })
}

/// What is asked of a session: so many bits of its cadence, or what an event at this time changes.
pub enum Asked {
    Bits(usize),
    Step(Event, u32),
}

/// `bits=N`, or an event.
pub fn asked(text: &str) -> Result<Asked, String> {
    match text.strip_prefix("bits=") {
        Some(count) => number(count).map(Asked::Bits),
        None => event(text).map(|(event, now)| Asked::Step(event, now)),
    }
}

/// What came where bits were asked for: `out:` and these, `-` for a bit time of silence and `x` for what is neither; `.` where none came.
pub fn show_drawn(drawn: &[u8]) -> String {
    if drawn.is_empty() {
        return "out:.".to_string();
    }
    let shown = |byte: &u8| match *byte {
        0 => '0',
        1 => '1',
        SILENCE => '-',
        _ => 'x',
    };
    format!("out:{}", drawn.iter().map(shown).collect::<String>())
}

/// `NAME@TIME`, with `=` and what it carries behind that.
fn event(text: &str) -> Result<(Event, u32), String> {
    let (name, rest) = text.split_once('@').ok_or(format!("'{text}' has no time"))?;
    let (time, value) = match rest.split_once('=') {
        Some((time, value)) => (time, Some(value)),
        None => (rest, None),
    };
    let event = match (name, value) {
        ("tick", None) => Event::Tick,
        ("ansam", None) => Event::Ansam,
        ("ans", None) => Event::Ans,
        ("siga", None) => Event::SigA,
        ("jm", Some("R11")) => Event::AgreedJm(Err(Refusal(11))),
        ("jm", Some(value)) => Event::AgreedJm(Ok(choice(value)?)),
        ("cjsent", None) => Event::CjSent,
        ("cm", Some(value)) => Event::AgreedCm(choice(value)?),
        ("sigc", Some(value)) => match choice(value)? {
            Choice::Item(item) => Event::SigC(item),
            _ => return Err(format!("'{value}' is no item")),
        },
        ("cj", None) => Event::Cj,
        _ => return Err(format!("'{text}' is no event")),
    };
    Ok((event, number(time)?))
}

/// `same`, the state entered, or `over-` and how the session ended.
pub fn show_answer(answer: Answer) -> String {
    let name = match answer {
        Answer::Same => "same",
        Answer::Entered(State::CallerStill) => "caller-still",
        Answer::Entered(State::Calling) => "calling",
        Answer::Entered(State::Quiet) => "quiet",
        Answer::Entered(State::Menu) => "menu",
        Answer::Entered(State::Closing) => "closing",
        Answer::Entered(State::Pause) => "pause",
        Answer::Entered(State::AnswererStill) => "answerer-still",
        Answer::Entered(State::Answering) => "answering",
        Answer::Entered(State::Joint) => "joint",
        Answer::Left => "over-left",
        Answer::Late => "over-late",
        Answer::Cleared => "over-cleared",
        Answer::NotOffered => "over-not-offered",
        Answer::GoOn(Choice::Nothing) => "over-go-on-none",
        Answer::GoOn(Choice::Item(item)) => return format!("over-go-on-item-{item}"),
        Answer::GoOn(Choice::Pcm(options)) => return format!("over-go-on-pcm-{options}"),
    };
    name.to_string()
}
