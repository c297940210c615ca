//! `replay FILE..`: calls the proved library for each row of the vector files and compares what it answers with the
//! row's last column. Prints a line for each difference and a last line with the counts; exits with 1 on a difference and
//! with 2 where a file cannot be read as vectors. A file's header line says what its rows are, and its name where two kinds of files have
//! the same header.
use std::{env, fs, path::Path, process::ExitCode};
use tailsprig::{
    steps::Session,
    text::{self, Asked},
    AskedItem, Choice, Listener, Refusal, Report, Source,
};

/// What a row's call gives, in the text of its last column.
type Call = fn(&[&str]) -> Result<String, String>;

/// The name and the header of each kind of file, and the call for its rows.
const FILES: [(&str, &str, Call); 13] = [
    ("write.tsv", "kind\toctets\tcopies\troom\tanswer", write),
    ("listen.tsv", "input\treports", listen),
    ("find.tsv", "octets\ttag\tanswer", find),
    ("part.tsv", "octets\tplace\tanswer", part),
    ("read.tsv", "octets\tanswer", read),
    ("asks.tsv", "octets\titem\tanswer", asks),
    ("fields.tsv", "octets\troom\tanswer", fields),
    ("blocks.tsv", "octets\tanswer", blocks),
    ("cm.tsv", "record\tfunction\tfields\troom\tanswer", cm),
    ("jm.tsv", "record\theard\troom\tanswer", jm),
    ("callf.tsv", "record\theard\town\tanswer", call_function),
    ("choice.tsv", "cm\tjm\tanswer", choice),
    ("steps.tsv", "end\tstart\tte\tcadence\tfunction\tevents\tanswers", steps),
];

/// The call for the rows of a file.
fn call_of(path: &str, header: &str) -> Result<Call, String> {
    let name = Path::new(path).file_name().unwrap_or_default();
    let known: Vec<_> = FILES.iter().filter(|(_, known, _)| *known == header).collect();
    match known.as_slice() {
        [] => Err(format!("no vectors are known by the header '{header}'")),
        [(_, _, call)] => Ok(*call),
        several => match several.iter().find(|(known, _, _)| *known == name) {
            Some((_, _, call)) => Ok(*call),
            None => Err(format!("several kinds of vectors have the header '{header}', and none this name")),
        },
    }
}

/// A byte that is no bit and no silence, at each place another: what the writer must not touch.
fn untouched(room: usize) -> Vec<u8> {
    (0..room).map(|at| 3 + (at % 251) as u8).collect()
}

fn write(row: &[&str]) -> Result<String, String> {
    let kind = text::kind(row[0])?;
    let octets = text::octets(row[1])?;
    let copies = text::number(row[2])?;
    Ok(written(text::number(row[3])?, text::show_bits, |out| tailsprig::write(kind, &octets, copies, out)))
}

/// What a call writes into a lent buffer of so many bytes, or its refusal; and whether it kept to that.
fn written(room: usize, show: fn(&[u8]) -> String, call: impl FnOnce(&mut [u8]) -> Result<usize, Refusal>) -> String {
    let lent = untouched(room);
    let mut out = lent.clone();
    let (answer, count) = match call(&mut out) {
        Ok(count) if count > out.len() => return format!("{count} written into {} bytes", out.len()),
        Ok(count) => (show(&out[..count]), count),
        Err(refusal) => (text::show_refusal(refusal), 0),
    };
    if out[count..] != lent[count..] {
        return format!("{answer}, and bytes behind that changed");
    }
    answer
}

/// How the bytes of a line arrive where many are heard at once: all together, or in pieces of these sizes in turn.
const ARRIVALS: [&[usize]; 5] = [&[1 << 20], &[1], &[7], &[10, 1, 3], &[64, 2, 29]];

fn listen(row: &[&str]) -> Result<String, String> {
    let bits = text::line(row[0]);
    let mut listener = Listener::fresh();
    let mut reports = text::Reports::default();
    // One bit a call: what each reports, and the record behind it.
    let heard: Vec<(Report, Listener)> = bits
        .iter()
        .map(|&bit| {
            let report = listener.hear(bit);
            reports.add(1, report, listener.octets());
            (report, listener.clone())
        })
        .collect();
    match ARRIVALS.iter().find(|sizes| !same_in_pieces(&bits, &heard, sizes)) {
        Some(sizes) => Ok(format!("{}, and not the same in pieces of {sizes:?}", reports.show())),
        None => Ok(reports.show()),
    }
}

/// Whether many bits at once give what one bit a call gave, report by report and record by record.
fn same_in_pieces(bits: &[u8], heard: &[(Report, Listener)], sizes: &[usize]) -> bool {
    let mut listener = Listener::fresh();
    let mut sizes = sizes.iter().cycle();
    let (mut at, mut end) = (0, 0);
    while at < bits.len() {
        if at == end {
            end = bits.len().min(end + sizes.next().unwrap_or(&1));
        }
        let first = heard[at..end].iter().position(|(report, _)| *report != Report::Nothing);
        let taken = first.map_or(end - at, |first| first + 1);
        let (report, record) = &heard[at + taken - 1];
        if listener.hear_many(&bits[at..end]) != (taken, *report) || listener != *record {
            return false;
        }
        at += taken;
    }
    let record = listener.clone();
    listener.hear_many(&[]) == (0, Report::Nothing) && listener == record
}

fn find(row: &[&str]) -> Result<String, String> {
    Ok(match tailsprig::find(&text::octets(row[0])?, text::number(row[1])?) {
        Ok(Some(place)) => format!("at {place}"),
        Ok(None) => "nothing".to_string(),
        Err(refusal) => text::show_refusal(refusal),
    })
}

fn part(row: &[&str]) -> Result<String, String> {
    Ok(text::show_octets(tailsprig::part(&text::octets(row[0])?, text::number(row[1])?)))
}

fn read(row: &[&str]) -> Result<String, String> {
    Ok(match tailsprig::read(&text::octets(row[0])?) {
        Ok(offer) => text::show_offer(&offer),
        Err(refusal) => text::show_refusal(refusal),
    })
}

fn asks(row: &[&str]) -> Result<String, String> {
    Ok(match tailsprig::asks(&text::octets(row[0])?, text::number(row[1])?) {
        Ok(AskedItem { offered, looked }) => text::show_asked_item(offered, looked),
        Err(refusal) => text::show_refusal(refusal),
    })
}

fn fields(row: &[&str]) -> Result<String, String> {
    let heard = text::octets(row[0])?;
    let show = |joined: &[u8]| format!("joined {} blocks {}", text::show_joined(joined), blocks_in(joined));
    Ok(written(text::number(row[1])?, show, |out| tailsprig::fields(&heard, out)))
}

fn blocks(row: &[&str]) -> Result<String, String> {
    Ok(blocks_in(&text::octets(row[0])?))
}

/// The blocks of octets, or their refusal; and whether the block of each number is the one that begins behind those before it.
fn blocks_in(octets: &[u8]) -> String {
    let count = match tailsprig::blocks(octets) {
        Ok(count) => count,
        Err(refusal) if tailsprig::block_of(octets, 0).is_none() => return text::show_refusal(refusal),
        Err(refusal) => return format!("{}, and a first block", text::show_refusal(refusal)),
    };
    let (mut at, mut shown) = (0, Vec::new());
    for number in 0..count {
        match (tailsprig::block_of(octets, number), tailsprig::block_at(octets, at)) {
            (Some(block), Some(same)) if block == same => {
                shown.push(text::show_block(block.country, block.provider, block.rest));
                at += block.whole.len();
            }
            (numbered, placed) => return format!("block {number} is {numbered:?}, and {placed:?} begins at {at}"),
        }
    }
    if at != octets.len() || tailsprig::block_of(octets, count).is_some() || tailsprig::block_at(octets, at).is_some() {
        return format!("{count} blocks, and more than these");
    }
    text::show_blocks(&shown)
}

fn cm(row: &[&str]) -> Result<String, String> {
    let own = text::record(row[0])?;
    let function = text::number(row[1])?;
    let blocks = text::octets(row[2])?;
    Ok(written(text::number(row[3])?, text::show_octets, |out| tailsprig::cm(&own, function, &blocks, out)))
}

fn jm(row: &[&str]) -> Result<String, String> {
    let own = text::record(row[0])?;
    let heard = text::octets(row[1])?;
    Ok(written(text::number(row[2])?, text::show_octets, |out| tailsprig::jm(&own, &heard, out)))
}

fn call_function(row: &[&str]) -> Result<String, String> {
    let own = text::record(row[0])?;
    let heard = text::octets(row[1])?;
    let own_cm = text::octets(row[2])?;
    Ok(match tailsprig::call_function(&own, &heard, &own_cm) {
        Some(Source::Heard) => format!("heard {:02X}", heard[0]),
        Some(Source::Own) => format!("own {:02X}", own_cm[0]),
        None => "empty".to_string(),
    })
}

fn choice(row: &[&str]) -> Result<String, String> {
    Ok(match tailsprig::choice(&text::octets(row[0])?, &text::octets(row[1])?) {
        Ok(Choice::Nothing) => "none".to_string(),
        Ok(Choice::Item(item)) => format!("item {item}"),
        Ok(Choice::Pcm(options)) => format!("pcm {options}"),
        Err(refusal) => text::show_refusal(refusal),
    })
}

fn steps(row: &[&str]) -> Result<String, String> {
    let start = text::number(row[1])?;
    let started = match (row[0], row[2]) {
        ("caller", "-") => Session::caller(start, None, text::cadence(row[3], row[4])?),
        ("caller", te) => Session::caller(start, Some(text::number(te)?), text::cadence(row[3], row[4])?),
        ("answerer", "-") => Ok(Session::answerer(start)),
        _ => return Err(format!("'{}' with Te '{}' is no end", row[0], row[2])),
    };
    let mut session = match started {
        Ok(session) => session,
        Err(refusal) => return Ok(text::show_refusal(refusal)),
    };
    let mut answers = Vec::new();
    for asked in row[5].split(' ') {
        let before = session;
        answers.push(match text::asked(asked)? {
            Asked::Bits(count) => drawn(&mut session, count),
            Asked::Step(event, now) => match session.step(event, now) {
                Ok(answer) => text::show_answer(answer),
                Err(refusal) if session == before => text::show_refusal(refusal),
                Err(refusal) => format!("{} with a session that changed", text::show_refusal(refusal)),
            },
        });
    }
    Ok(answers.join(" "))
}

/// What a session gives out where so many bits are asked for; and whether they come the same one by one.
fn drawn(session: &mut Session, count: usize) -> String {
    let mut one_by_one = *session;
    let mut bits = Vec::new();
    for lent in untouched(count) {
        let mut out = [lent];
        match one_by_one.draw(&mut out) {
            Ok(1) => bits.extend(out),
            Ok(0) if out == [lent] => {}
            other => return format!("{other:?} where one bit was asked for, and {out:?} in its place"),
        }
    }
    match written(count, text::show_drawn, |out| session.draw(out)) {
        answer if answer == text::show_drawn(&bits) && *session == one_by_one => answer,
        answer => format!("{answer}, and {} one by one", text::show_drawn(&bits)),
    }
}

/// The rows of a file, how many differ, and whether every line could be read.
struct Tally {
    rows: usize,
    differ: usize,
    unread: usize,
}

fn replay(path: &str, tally: &mut Tally) {
    let mut unread = |why: String| {
        println!("{path}: {why}");
        tally.unread += 1;
    };
    let content = match fs::read_to_string(path) {
        Ok(content) => content,
        Err(error) => return unread(error.to_string()),
    };
    let mut lines = content.lines();
    let header = lines.next().unwrap_or("");
    let call = match call_of(path, header) {
        Ok(call) => call,
        Err(why) => return unread(why),
    };
    for (index, line) in lines.enumerate() {
        let number = index + 2;
        let fields: Vec<&str> = line.split('\t').collect();
        let (Some((expected, row)), true) =
            (fields.split_last(), fields.len() == header.split('\t').count())
        else {
            unread(format!("line {number}: {} fields", fields.len()));
            continue;
        };
        match call(row) {
            Ok(answer) => {
                tally.rows += 1;
                if answer != *expected {
                    println!("{path}: line {number}: answered {answer}, expected {expected}");
                    tally.differ += 1;
                }
            }
            Err(why) => unread(format!("line {number}: {why}")),
        }
    }
}

fn main() -> ExitCode {
    let paths: Vec<String> = env::args().skip(1).collect();
    let mut tally = Tally { rows: 0, differ: 0, unread: 0 };
    for path in &paths {
        replay(path, &mut tally);
    }
    println!(
        "{} files, {} rows, {} differ, {} not read",
        paths.len(),
        tally.rows,
        tally.differ,
        tally.unread
    );
    match (tally.rows, tally.differ, tally.unread) {
        (_, 1.., 0) => ExitCode::from(1),
        (1.., 0, 0) => ExitCode::SUCCESS,
        _ => ExitCode::from(2),
    }
}
