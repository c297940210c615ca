//! The plain Rust that the library is timed and compared with keeps to the same vectors and recordings, and answers the same steps.
use std::{fs, path::PathBuf};
use tailsprig::c::{Block, Cadence, ItemAsked, Session, Span};
use tailsprig::{c, plain, text, Refusal};

fn tests(name: &str) -> PathBuf {
    PathBuf::from(env!("CARGO_MANIFEST_DIR")).join("../tests").join(name)
}

#[test]
fn plain_listener_gives_the_reports_of_the_vectors() {
    let vectors = fs::read_to_string(tests("vectors/listen.tsv")).expect("the vectors can be read");
    let mut rows = 0;
    for row in vectors.lines().skip(1) {
        let (input, expected) = row.split_once('\t').expect("a row has two fields");
        let bits = text::line(input);

        let mut listener = plain::Listener::fresh();
        let mut one = text::Reports::default();
        for &bit in &bits {
            let report = listener.hear(bit);
            one.add(1, report, listener.octets());
        }
        assert_eq!(one.show(), expected, "one bit a call: {input}");

        let mut listener = plain::Listener::fresh();
        let mut many = text::Reports::default();
        let mut at = 0;
        while at < bits.len() {
            let (taken, report) = listener.hear_many(&bits[at..]);
            many.add(taken, report, listener.octets());
            at += taken;
        }
        assert_eq!(many.show(), expected, "many at once: {input}");
        rows += 1;
    }
    assert!(rows > 0, "no rows");
}

#[test]
fn plain_listing_prints_the_listings_of_the_recordings() {
    let mut files = 0;
    for entry in fs::read_dir(tests("recordings")).expect("the recordings can be read") {
        let bits = entry.expect("an entry can be read").path();
        if bits.extension().is_some_and(|extension| extension == "bits") {
            let input = fs::read(&bits).expect("the bits can be read");
            let expected = fs::read_to_string(bits.with_extension("listing")).expect("the listing can be read");
            let mut printed = Vec::new();
            plain::listing(&input[..], &mut printed).expect("memory can be written");
            assert_eq!(String::from_utf8_lossy(&printed), expected, "{}", bits.display());
            files += 1;
        }
    }
    assert!(files > 0, "no recordings");
}

/// The rows of a vector file, and what the last field of each says must be answered.
fn compare(name: &str, answer: impl Fn(&[&str]) -> String) {
    let vectors = fs::read_to_string(tests("vectors").join(name)).expect("the vectors can be read");
    let mut rows = 0;
    for line in vectors.lines().skip(1) {
        let fields: Vec<&str> = line.split('\t').collect();
        let (expected, row) = fields.split_last().expect("a row has fields");
        assert_eq!(answer(row), *expected, "{name}: {line}");
        rows += 1;
    }
    assert!(rows > 400, "{rows} rows in {name}");
}

/// What is written into a buffer of so many bytes, or the refusal with which nothing is.
fn written(room: &str, show: impl Fn(&[u8]) -> String, call: impl Fn(&mut [u8]) -> Result<usize, Refusal>) -> String {
    let lent = vec![7; text::number(room).expect("a number")];
    let mut out = lent.clone();
    match call(&mut out) {
        Ok(count) => show(&out[..count]),
        Err(refusal) => {
            assert_eq!(out, lent, "{refusal:?}");
            text::show_refusal(refusal)
        }
    }
}

/// The blocks one behind the other, or refusal 14.
fn show_blocks(octets: &[u8]) -> String {
    let part = |span: Span| &octets[span.place..][..span.size];
    let (mut at, mut shown) = (0, Vec::new());
    while at < octets.len() {
        let block = plain::block_at(octets, at);
        if block == Block::default() {
            return text::show_refusal(Refusal(14));
        }
        shown.push(text::show_block(part(block.country), part(block.provider), part(block.rest)));
        at += block.whole.size;
    }
    text::show_blocks(&shown)
}

fn octets(text: &str) -> Vec<u8> {
    text::octets(text).expect("octets")
}

#[test]
fn plain_read_answers_as_the_vectors_say() {
    compare("read.tsv", |row| match plain::read(&octets(row[0])) {
        Ok(offer) => text::show_offer(&offer),
        Err(refusal) => text::show_refusal(refusal),
    });
}

#[test]
fn plain_asks_answers_as_the_vectors_say() {
    compare("asks.tsv", |row| {
        let ItemAsked { looked, code } = plain::asks(&octets(row[0]), text::number(row[1]).expect("an item"));
        match code {
            0 | 1 => text::show_asked_item(code == 1, looked),
            _ => text::show_refusal(Refusal(code.unsigned_abs() as u8)),
        }
    });
}

#[test]
fn plain_fields_and_menus_are_those_of_the_vectors() {
    compare("blocks.tsv", |row| show_blocks(&octets(row[0])));
    compare("fields.tsv", |row| {
        let show = |joined: &[u8]| format!("joined {} blocks {}", text::show_joined(joined), show_blocks(joined));
        written(row[1], show, |out| plain::fields(&octets(row[0]), out))
    });
    compare("cm.tsv", |row| {
        let own = text::record(row[0]).expect("a record");
        let function = text::number(row[1]).expect("a number");
        written(row[3], text::show_octets, |out| plain::cm(&own, function, &octets(row[2]), out))
    });
}

/// A caller's cadence at its start, within the third CI, and behind it; with a tone that came; each of its numbers just outside its range;
/// and none, as the answerer has it.
fn cadences() -> Vec<Cadence> {
    let start = Cadence { off: 120, place: 0, on: 4, function: 6, sent: 0, tone: 0 };
    let within = Cadence { place: 89, sent: 89, ..start };
    let behind = [90, 91, 119, 120, 121, 239, 0, 29].map(|place| Cadence { place, sent: 90, ..start });
    let mut cadences = vec![Cadence::default(), start, within];
    cadences.extend(behind);
    let toned = cadences.iter().skip(2).flat_map(|&cadence| [1, 2].map(|tone| Cadence { tone, ..cadence }));
    cadences.extend(toned.collect::<Vec<_>>());
    let [last, ..] = behind;
    cadences.extend([0, 7].map(|function| Cadence { function, ..last }));
    cadences.extend([2, 21].map(|on| Cadence { on, ..last }));
    cadences.extend([119, 601].map(|off| Cadence { off, ..last }));
    cadences.extend([240, 65_535].map(|place| Cadence { place, ..last }));
    cadences.extend([89, 91].map(|sent| Cadence { sent, ..last }));
    cadences.push(Cadence { tone: 3, ..last });
    cadences
}

/// Sessions in their ranges and just outside, each at the entry time 1,000.
fn sessions() -> impl Iterator<Item = Session> {
    let ends_and_states = (0..4).flat_map(|end| (0..12).map(move |state| (end, state)));
    let with_cadence = ends_and_states.flat_map(|(end, state)| {
        cadences().into_iter().map(move |cadence| Session { entry: 1000, cadence, end, state, ..Session::default() })
    });
    with_cadence.flat_map(|session| {
        [0, 499, 500, 700, 5000, 5001].into_iter().flat_map(move |te| {
            [0, 3, 12, 13, 16, 17, 23, 24].into_iter().flat_map(move |chosen| {
                [0, 1, 4, 5, 6].into_iter().map(move |ended| Session { te, chosen, ended, ..session })
            })
        })
    })
}

#[test]
fn plain_step_answers_what_the_library_does() {
    // The entry time, each limit of the table and what is just before it, and the clock's two halves.
    let limits = [0, 75, 200, 500, 700, 1000, 5000, 10_000, 1 << 31];
    let times = limits.into_iter().flat_map(|limit: u32| [999u32.wrapping_add(limit), 1000u32.wrapping_add(limit)]);
    let times: Vec<u32> = times.collect();
    let events: Vec<(u8, i32)> =
        (0..11).flat_map(|event| [-11, -1, 0, 1, 3, 12, 13, 17, 23, 24].map(|value| (event, value))).collect();
    for session in sessions() {
        // Whether a session is in its ranges shows at any event.
        let in_range = plain::step(session, 9, 0, 1000).code != -10;
        let (events, times) = if in_range { (&events[..], &times[..]) } else { (&[(9, 0)][..], &[1000][..]) };
        for (&(event, value), &now) in events.iter().flat_map(|event| times.iter().map(move |now| (event, now))) {
            // SAFETY: takes and answers numbers.
            let ours = unsafe { c::tailsprig_step(session, event, value, now) };
            assert_eq!(plain::step(session, event, value, now), ours, "{session:?} {event} {value} {now}");
        }
    }
}

#[test]
fn plain_draw_gives_what_the_library_does() {
    for session in sessions() {
        for room in [0, 1, 89, 400] {
            let (mut plainly, mut out) = (vec![9; room], vec![9; room]);
            // SAFETY: the session goes by value; the slice is lent for the call alone, with its length.
            let ours = unsafe { c::tailsprig_draw(session, out.as_mut_ptr(), out.len()) };
            assert_eq!((plain::draw(session, &mut plainly), plainly), (ours, out), "{session:?} {room}");
        }
    }
}
