//! What the vectors of listening do not reach: numbers that only C can pass, long lines beside plain Rust, and where on a line the spans
//! of messages lead.
use std::{collections::BTreeSet, fs, path::Path};
use tailsprig::{c, plain, text, Listener, Refusal, Report};

fn fresh() -> c::Listener {
    // SAFETY: takes nothing and answers numbers.
    unsafe { c::tailsprig_fresh() }
}

/// The code, and the record behind it.
fn hear(mut rec: c::Listener, bit: u8) -> (i32, c::Listener) {
    // SAFETY: the record is lent for the call alone.
    let code = unsafe { c::tailsprig_hear(&mut rec, bit) };
    (code, rec)
}

fn hear_many(rec: c::Listener, bits: &[u8]) -> c::Ran {
    // SAFETY: the slice is lent with its length.
    unsafe { c::tailsprig_hear_many(rec, bits.as_ptr(), bits.len()) }
}

fn last_span(rec: c::Listener) -> i32 {
    // SAFETY: the record goes by value.
    unsafe { c::tailsprig_last_span(rec) }
}

/// A record with a number of its own at every place, each the largest in its range.
fn largest() -> c::Listener {
    let octets = |from: u8| std::array::from_fn(|at| from + at as u8);
    c::Listener {
        ear: c::Ear { past: u32::MAX, heard: 30, place: 28 },
        msg: c::Message { kind: 2, len: 64, octets: octets(1) },
        last: c::Message { kind: 2, len: 64, octets: octets(101) },
    }
}

/// A field to set, and the first number outside its range.
type Field = (&'static str, fn(&mut c::Listener, u32), u32, u32);

const FIELDS: [Field; 6] = [
    ("heard", |rec, n| rec.ear.heard = n, 31, u32::MAX),
    ("place", |rec, n| rec.ear.place = n, 29, u32::MAX),
    ("msg.kind", |rec, n| rec.msg.kind = n as u8, 3, 255),
    ("msg.len", |rec, n| rec.msg.len = n as u8, 65, 255),
    ("last.kind", |rec, n| rec.last.kind = n as u8, 3, 255),
    ("last.len", |rec, n| rec.last.len = n as u8, 65, 255),
];

#[test]
fn the_structs_are_as_large_as_the_header_says() {
    assert_eq!(size_of::<c::Listener>(), 144);
    assert_eq!(size_of::<c::Ran>(), 160);
}

#[test]
fn a_fresh_record_is_all_zeros() {
    let none = c::Message { kind: 0, len: 0, octets: [0; 64] };
    assert_eq!(fresh(), c::Listener { ear: c::Ear { past: 0, heard: 0, place: 0 }, msg: none, last: none });
}

#[test]
fn a_field_out_of_range_is_refused_before_all_else_and_changes_nothing() {
    for (name, set, first, most) in FIELDS {
        for number in [first, first + 1, most - 1, most] {
            for good in [fresh(), largest()] {
                let mut rec = good;
                set(&mut rec, number);
                for bit in [0, 1, 2, 255] {
                    assert_eq!(hear(rec, bit), (-10, rec), "{name} {number}, bit {bit}");
                }
                for bits in [&[][..], &[0], &[1], &[2], &[1; 100]] {
                    let refused = c::Ran { rec, taken: 0, code: -10 };
                    assert_eq!(hear_many(rec, bits), refused, "{name} {number}, bits {bits:?}");
                }
                assert_eq!(last_span(rec), -10, "{name} {number}");
            }
        }
    }
}

#[test]
fn the_last_number_in_each_range_is_not_refused() {
    for (name, set, first, _) in FIELDS {
        for good in [fresh(), largest()] {
            let mut rec = good;
            set(&mut rec, first - 1);
            for bit in [0, 1] {
                assert_ne!(hear(rec, bit).0, -10, "{name} {}", first - 1);
                assert_ne!(hear_many(rec, &[bit]).code, -10, "{name} {}", first - 1);
            }
            assert_eq!(hear_many(rec, &[]), c::Ran { rec, taken: 0, code: 0 }, "{name} {}", first - 1);
            assert_ne!(last_span(rec), -10, "{name} {}", first - 1);
        }
    }
}

/// The record has heard as much as one can, and holds another message: neither counts.
#[test]
fn a_span_goes_by_the_message_reported_last_alone() {
    for len in 0..=64 {
        for (kind, span) in [(0, 0), (1, 20 + 10 * i32::from(len)), (2, 20 + 10 * i32::from(len))] {
            for good in [fresh(), largest()] {
                let rec = c::Listener { last: c::Message { kind, len, ..good.last }, ..good };
                assert_eq!(last_span(rec), span, "kind {kind}, {len} octets");
            }
        }
    }
}

#[test]
fn a_byte_that_is_no_bit_is_refused_at_every_place_and_changes_nothing() {
    for place in 0..=28 {
        let mut rec = largest();
        rec.ear.place = place;
        for byte in 2..=255 {
            assert_eq!(hear(rec, byte), (-1, rec), "byte {byte} at place {place}");
            assert_eq!(
                hear_many(rec, &[byte, 1, 0]),
                c::Ran { rec, taken: 1, code: -1 },
                "byte {byte} at place {place}"
            );
        }
    }
}

/// Marsaglia's xorshift: the same numbers in every run.
struct Random(u64);

impl Random {
    fn below(&mut self, limit: usize) -> usize {
        self.0 ^= self.0 << 13;
        self.0 ^= self.0 >> 7;
        self.0 ^= self.0 << 17;
        (self.0 >> 33) as usize % limit
    }

    fn octets<const N: usize>(&mut self) -> [u8; N] {
        std::array::from_fn(|_| self.below(256) as u8)
    }

    fn message(&mut self) -> c::Message {
        c::Message { kind: self.below(3) as u8, len: self.below(65) as u8, octets: self.octets() }
    }

    /// Any record in range, most of which no bits lead to.
    fn record(&mut self) -> c::Listener {
        let past = match self.below(4) {
            0 => u32::MAX << self.below(32),
            1 => 0x8020_0800,
            _ => u32::from_le_bytes(self.octets()),
        };
        let ear = c::Ear { past, heard: self.below(31) as u32, place: self.below(29) as u32 };
        let msg = self.message();
        let last = if self.below(2) == 0 { msg } else { self.message() };
        c::Listener { ear, msg, last }
    }

    /// Bytes of a line: messages, copies of them, CJ, damage, noise, and bytes that are no bits.
    fn line(&mut self) -> Vec<u8> {
        let mut line = Vec::new();
        for _ in 0..self.below(12) {
            match self.below(8) {
                0..=3 => self.sequence(&mut line),
                4 => line.extend(b"000000000100000000010000000001".map(|bit| bit - b'0')),
                5 => line.extend(std::iter::repeat_n(1, self.below(25))),
                6 => line.extend(std::iter::repeat_n(0, self.below(25))),
                _ => (0..self.below(60)).for_each(|_| line.push(self.below(2) as u8)),
            }
        }
        for _ in 0..self.below(4) {
            let at = self.below(line.len() + 1);
            match (self.below(4), line.get_mut(at)) {
                (0, Some(bit)) => *bit ^= 1,
                (1, Some(_)) => drop(line.remove(at)),
                (2, _) => line.insert(at, 2 + self.below(254) as u8),
                _ => line.truncate(at),
            }
        }
        line
    }

    /// A sequence a few times, with octets that the writer would refuse as well.
    fn sequence(&mut self, line: &mut Vec<u8>) {
        let most = if self.below(8) == 0 { 67 } else { 7 };
        let sync = match self.below(20) {
            0 => b"0101010101",
            1..=6 => CI,
            _ => MENU,
        };
        let octets: Vec<u8> = (0..self.below(most))
            .map(|at| match (at, self.below(16)) {
                (_, 0) => self.below(256) as u8,
                (0, _) => 0xc1,
                _ => self.below(256) as u8 & !0x28,
            })
            .collect();
        for _ in 0..1 + self.below(3) {
            line.extend(sequence(sync, &octets));
        }
    }
}

const CI: &[u8; 10] = b"0000000001";
const MENU: &[u8; 10] = b"0000001111";

/// Ten 1s, the sync, and the octets, whatever they are.
fn sequence(sync: &[u8; 10], octets: &[u8]) -> Vec<u8> {
    let mut bits = vec![1; 10];
    bits.extend(sync.map(|bit| bit - b'0'));
    for octet in octets {
        bits.push(0);
        bits.extend((0..8).map(|i| octet >> i & 1));
        bits.push(1);
    }
    bits
}

/// How a record hears the first of some bytes: alone, or with those behind it up to one that reports something.
type Hearing = fn(c::Listener, &[u8]) -> c::Ran;

const HEARINGS: [Hearing; 2] = [
    |rec, bytes| {
        let (code, rec) = hear(rec, bytes[0]);
        c::Ran { rec, taken: 1, code }
    },
    hear_many,
];

/// What a fresh record answers on a line, one answer behind the other, and how many bits of the line were heard by then.
fn answers(line: &[u8], hearing: Hearing) -> Vec<(usize, c::Ran)> {
    let (mut rec, mut at, mut heard) = (fresh(), 0, 0);
    let mut answers = Vec::new();
    while at < line.len() {
        let ran = hearing(rec, &line[at..]);
        assert!(ran.taken > 0, "{} and nothing taken: {line:?}", ran.code);
        rec = ran.rec;
        at += ran.taken;
        heard += ran.taken - usize::from(ran.code == -1);
        answers.push((heard, ran));
    }
    answers
}

/// Whether a message was reported.
fn is_message(ran: &c::Ran) -> bool {
    (1..=3).contains(&ran.code)
}

fn octets(rec: &c::Listener) -> &[u8] {
    &rec.msg.octets[..usize::from(rec.msg.len)]
}

/// The bits that another V.8 implementation sent.
fn recordings() -> Vec<Vec<u8>> {
    let folder = Path::new(env!("CARGO_MANIFEST_DIR")).join("../tests/recordings");
    let entries = fs::read_dir(folder).expect("the recordings can be read");
    let paths = entries.map(|entry| entry.expect("an entry can be read").path());
    let recorded = paths.filter(|path| path.extension().is_some_and(|extension| extension == "bits"));
    let texts = recorded.map(|path| fs::read_to_string(path).expect("the bits can be read"));
    texts.map(|text| text::line(&text.replace('\n', ""))).collect()
}

/// Of the bits up to the one that reports a message, as many as its span says are its sync, its octets and ten 1s; and ten 1s stand before
/// these.
#[test]
fn every_span_leads_to_the_first_bit_of_the_sync() {
    let mut random = Random(3);
    let mut lines = recordings();
    assert!(lines.len() > 20, "{} recordings", lines.len());
    lines.extend((0..20_000).map(|_| random.line()));
    let mut seen = [0; 4];
    for (line, hearing) in lines.iter().flat_map(|line| HEARINGS.map(|hearing| (line, hearing))) {
        let bits: Vec<u8> = line.iter().copied().filter(|byte| *byte <= 1).collect();
        for (heard, ran) in answers(line, hearing).into_iter().filter(|(_, ran)| is_message(ran)) {
            let first = heard - last_span(ran.rec) as usize;
            let sync = if ran.code == 1 { CI } else { MENU };
            let sent = [sequence(sync, octets(&ran.rec)), vec![1; 10]].concat();
            assert_eq!(bits.get(first - 10..first), Some(&sent[..10]), "before bit {first} of {line:?}");
            assert_eq!(bits.get(first..heard), Some(&sent[10..]), "from bit {first} to {heard} of {line:?}");
            seen[ran.code as usize] += 1;
        }
    }
    assert!(seen[1..].iter().all(|count| *count > 10_000), "CI, menus, agreed menus: {:?}", &seen[1..]);
}

#[test]
fn a_byte_that_is_no_bit_is_counted_in_no_span() {
    let mut longest = [0x10; 64];
    longest[0] = 0xc1;
    let messages: [(_, &[u8], _, _); 4] = [
        (CI, &[0xc1], 1, 30),
        (MENU, &[], 2, 20),
        (MENU, &[0xc1, 0x45, 0x13, 0x90, 0x2a], 2, 70),
        (MENU, &longest, 2, 660),
    ];
    for (sync, message, code, span) in messages {
        let bits = [sequence(sync, message), vec![1; 10]].concat();
        for (at, hearing) in (0..=bits.len()).flat_map(|at| HEARINGS.map(|hearing| (at, hearing))) {
            let line = [&bits[..at], &[2, 255, b'1'], &bits[at..]].concat();
            let answers = answers(&line, hearing);
            let told: Vec<_> = answers.iter().filter(|(_, ran)| is_message(ran)).collect();
            let [(heard, ran)] = told[..] else { panic!("{} messages with such bytes behind {at} bits", told.len()) };
            let found = (*heard, ran.code, octets(&ran.rec), last_span(ran.rec));
            assert_eq!(found, (bits.len(), code, message, span), "such bytes behind {at} bits");
        }
    }
}

/// Bits, CJ and refusals between change nothing of it, nor does another message before its last bit.
#[test]
fn a_host_that_asks_later_is_told_the_same_span_until_the_next_message() {
    assert_eq!(last_span(fresh()), 0);
    let mut random = Random(4);
    let mut seen = BTreeSet::new();
    for _ in 0..20_000 {
        let line = random.line();
        for hearing in HEARINGS {
            let mut span = 0;
            for (heard, ran) in answers(&line, hearing) {
                if is_message(&ran) {
                    span = 20 + 10 * octets(&ran.rec).len() as i32;
                }
                assert_eq!(last_span(ran.rec), span, "behind {heard} bits of {line:?}");
                // Where both messages of the record are as long, either would tell the same.
                if is_message(&ran) || (span > 0 && ran.rec.msg.len != ran.rec.last.len) {
                    seen.insert(ran.code);
                }
            }
        }
    }
    assert_eq!(seen, BTreeSet::from([-13, -4, -3, -2, -1, 0, 1, 2, 3, 4]));
}

/// What a fresh listener reports on the sequences and ten 1s behind them.
fn reports(sequences: &[Vec<u8>]) -> Vec<Report> {
    let mut listener = Listener::fresh();
    let line = [sequences.concat(), vec![1; 10]].concat();
    line.iter().map(|&bit| listener.hear(bit)).filter(|report| *report != Report::Nothing).collect()
}

#[test]
fn a_menu_is_not_agreed_with_a_ci_of_the_same_octets() {
    let (ci, menu) = (sequence(CI, &[0xc1]), sequence(MENU, &[0xc1]));
    let told = Report::Ci { span: 30 };
    let [agreed, not] = [true, false].map(|agreed| Report::Menu { agreed, span: 30 });
    assert_eq!(reports(&[ci.clone(), menu.clone(), menu.clone()]), [told, not, agreed]);
    assert_eq!(reports(&[menu.clone(), ci, menu]), [not, told, not]);
}

/// A call asks for V.34 among others, the next on the same line does not, and one bit of its first copy is damaged: it then is the menu
/// of the call before.
#[test]
fn a_record_kept_over_calls_agrees_at_one_damaged_copy_and_a_fresh_one_does_not() {
    let before = sequence(MENU, &[0xc1, 0x45, 0x13, 0x90, 0x2a]);
    let sent = sequence(MENU, &[0xc1, 0x05, 0x13, 0x90, 0x2a]);
    let damaged = before.clone();
    assert_eq!(sent.iter().zip(&damaged).filter(|(sent, heard)| sent != heard).count(), 1);

    // What the line of a call reports, and the octets of the last report.
    let call = |listener: &mut Listener, copies: &[&Vec<u8>]| {
        let line = copies.iter().copied().flatten().chain(&[1; 10]);
        let said: Vec<Report> = line.map(|&bit| listener.hear(bit)).filter(|report| *report != Report::Nothing).collect();
        (said, listener.octets().to_vec())
    };
    let [agreed, not] = [true, false].map(|agreed| Report::Menu { agreed, span: 70 });

    let mut kept = Listener::fresh();
    assert_eq!(call(&mut kept, &[&before, &before]).0, [not, agreed]);
    assert_eq!(call(&mut kept, &[&damaged]), (vec![agreed], vec![0xc1, 0x45, 0x13, 0x90, 0x2a]));

    let mut fresh = Listener::fresh();
    assert_eq!(
        call(&mut fresh, &[&damaged, &sent, &sent]),
        (vec![not, not, agreed], vec![0xc1, 0x05, 0x13, 0x90, 0x2a])
    );
}

#[test]
fn a_65th_octet_is_refused_with_3_before_4() {
    let mut octets = [0x10; 65];
    octets[0] = 0xc1;
    assert_eq!(reports(&[sequence(MENU, &octets[..64])]), [Report::Menu { agreed: false, span: 660 }]);
    assert_eq!(reports(&[sequence(MENU, &octets)]), [Report::Refused(Refusal(4))]);
    octets[64] = 0x18;
    assert_eq!(reports(&[sequence(MENU, &octets)]), [Report::Refused(Refusal(3))]);
}

#[test]
fn many_bits_at_once_are_single_bits_from_every_record() {
    let mut random = Random(1);
    for _ in 0..200_000 {
        let start = random.record();
        let bits: [u8; 40] = std::array::from_fn(|_| if random.below(200) == 0 { 2 } else { random.below(2) as u8 });
        let mut expected = c::Ran { rec: start, taken: 0, code: 0 };
        while expected.code == 0 && expected.taken < bits.len() {
            (expected.code, expected.rec) = hear(expected.rec, bits[expected.taken]);
            expected.taken += 1;
        }
        assert_eq!(hear_many(start, &bits), expected, "{start:?} {bits:?}");
        let rec = expected.rec;
        let in_range = rec.ear.heard <= 30 && rec.ear.place <= 28;
        assert!(in_range && [rec.msg, rec.last].iter().all(|m| m.kind <= 2 && m.len <= 64), "{rec:?}");
    }
}

/// A report with 0 for a span, to tell what came at all.
fn without_span(report: Report) -> Report {
    match report {
        Report::Ci { .. } => Report::Ci { span: 0 },
        Report::Menu { agreed, .. } => Report::Menu { agreed, span: 0 },
        other => other,
    }
}

#[test]
fn every_line_is_heard_as_plain_rust_hears_it() {
    let mut random = Random(2);
    let mut seen = Vec::new();
    for _ in 0..50_000 {
        let line = random.line();
        let (mut ours, mut rust) = (Listener::fresh(), plain::Listener::fresh());
        let (mut ours_said, mut rust_said) = (text::Reports::default(), text::Reports::default());
        let mut span = None;
        let mut at = 0;
        while at < line.len() {
            let piece = &line[at..line.len().min(at + 1 + random.below(100))];
            let (taken, report) = ours.hear_many(piece);
            assert!(taken > 0, "{report:?} and nothing taken: {line:?}");
            ours_said.add(taken, report, ours.octets());
            for &bit in &piece[..taken] {
                let report = rust.hear(bit);
                rust_said.add(1, report, rust.octets());
                span = report.span().or(span);
            }
            assert_eq!((ours.octets(), ours.last_span()), (rust.octets(), span), "{line:?}");
            let report = without_span(report);
            if !seen.contains(&report) {
                seen.push(report);
            }
            at += taken;
        }
        assert_eq!(ours_said.show(), rust_said.show(), "{line:?}");
    }
    // The lines would show little if one of the reports never came.
    let menus = [true, false].map(|agreed| Report::Menu { agreed, span: 0 });
    let refused = [1, 2, 3, 4, 13].map(|number| Report::Refused(Refusal(number)));
    for report in [Report::Nothing, Report::Ci { span: 0 }, Report::Cj].iter().chain(&menus).chain(&refused) {
        assert!(seen.contains(report), "{report:?} never came");
    }
}
