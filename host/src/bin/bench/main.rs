//! `bench [LISTING [READER]]`: times the proved library beside plain Rust of the same rules, alternating in one run, and
//! prints the nanoseconds a bit, a step, a field, a menu or a question of each and how many times as long ours takes; with the path of the
//! listing program, its megabytes a second too; with the shared object of `speed/spandsp_reader.c`, spandsp's reader of bits beside
//! them. The best of many rounds counts, so that what else the machine does weighs little.
mod spandsp;

use spandsp::Spandsp;
use std::fmt::Debug;
use std::hint::black_box;
use std::path::Path;
use std::process::{Command, Stdio};
use std::time::Instant;
use std::{env, fs, io, process};
use tailsprig::c::{BitsDrawn, Block, Cadence, Modes, Record, Session, StepTaken};
use tailsprig::{c, model::Model, plain, text, Kind, Listener, Report};

const ROUNDS: usize = 200;
const MENU: [u8; 5] = [0xc1, 0x45, 0x13, 0x90, 0x2a];

/// What ours is measured against: a column each.
const RIVALS: [&str; 5] = ["Rust", "tuned", "spandsp", "re-armed", "read"];

type Work<'a> = &'a mut dyn FnMut();

/// The rivals of a row in which there is no other than Rust.
fn rust_alone<'a>(rust: Work<'a>) -> [Option<Work<'a>>; RIVALS.len()] {
    [Some(rust), None, None, None, None]
}

/// The nanoseconds that one call of `work` takes.
fn time(work: Work) -> f64 {
    let start = Instant::now();
    work();
    start.elapsed().as_nanos() as f64
}

/// The nanoseconds of the best round of ours and of each rival that is there, taken in turn.
fn best(rounds: usize, ours: Work, mut rivals: [Option<Work>; RIVALS.len()]) -> (f64, [Option<f64>; RIVALS.len()]) {
    let mut least = f64::MAX;
    let mut others = rivals.each_ref().map(|rival| rival.as_ref().map(|_| f64::MAX));
    for _ in 0..rounds {
        least = least.min(time(ours));
        for (other, rival) in others.iter_mut().zip(&mut rivals) {
            if let (Some(other), Some(rival)) = (other, rival) {
                *other = other.min(time(rival));
            }
        }
    }
    (least, others)
}

/// The names of the columns: what each takes, then ours divided by each rival.
fn heading(unit: &str) {
    print!("{unit:<34} {:>8}", "ours");
    for name in RIVALS {
        print!(" {name:>8}");
    }
    print!("  ours divided by:");
    for name in RIVALS {
        print!(" {name:>8}");
    }
    println!();
}

/// A row: the times in a unit that `show` gives, then the ratios of the times.
fn row(name: &str, (ours, rivals): (f64, [Option<f64>; RIVALS.len()]), show: impl Fn(f64) -> String) {
    let cell = |text: Option<String>| format!("{:>8}", text.unwrap_or_else(|| "-".to_string()));
    let times: Vec<String> = rivals.iter().map(|time| cell(time.map(&show))).collect();
    let ratios: Vec<String> = rivals.iter().map(|time| cell(time.map(|time| format!("{:.2}", ours / time)))).collect();
    println!("{name:<34} {} {} {:>17} {}", cell(Some(show(ours))), times.join(" "), "", ratios.join(" "));
}

/// The nanoseconds of each for one of so many bits, steps, fields, menus or questions.
fn compare(name: &str, count: usize, ours: Work, rivals: [Option<Work>; RIVALS.len()]) {
    row(name, best(ROUNDS, ours, rivals), |nanoseconds| format!("{:.3}", nanoseconds / count as f64));
}

/// Calls of a writer on one message, as many as write about a million bits.
fn writing(name: &str, kind: Kind, octets: &[u8], copies: u16) {
    let size = (20 + 10 * octets.len()) * copies as usize;
    let calls = 1_000_000 / size + 1;
    let mut ours = vec![0; size];
    let mut rust = vec![0; size];
    compare(
        name,
        calls * size,
        &mut || {
            for _ in 0..calls {
                let _ = black_box(tailsprig::write(kind, black_box(octets), copies, black_box(&mut ours)));
            }
        },
        rust_alone(&mut || {
            for _ in 0..calls {
                let _ = black_box(plain::write(kind, black_box(octets), copies, black_box(&mut rust)));
            }
        }),
    );
    assert_eq!(ours, rust, "{name}: the two wrote different bits");
}

/// How many reports there are, one bit a call. A report is what is heard, or its code.
fn one_a_call<R: PartialEq>(bits: &[u8], nothing: R, mut hear: impl FnMut(u8) -> R) -> usize {
    bits.iter().filter(|&&bit| hear(bit) != nothing).count()
}

/// The same, many bits at once.
fn many_at_once<R: PartialEq + Debug>(mut bits: &[u8], nothing: R, mut hear_many: impl FnMut(&[u8]) -> (usize, R)) -> usize {
    let mut reports = 0;
    while !bits.is_empty() {
        let (taken, report) = hear_many(bits);
        assert!(taken > 0, "{report:?} and nothing taken");
        bits = &bits[taken..];
        reports += usize::from(report != nothing);
    }
    reports
}

/// How many agreed menus ours reports. All ways to hear, ours and those of plain Rust, have to report the same.
fn agreed_menus(name: &str, bits: &[u8]) -> usize {
    let (mut ours, mut rust) = (Listener::fresh(), plain::Listener::fresh());
    let mut reports = [(); 5].map(|()| text::Reports::default());
    let mut agreed = 0;
    one_a_call(bits, Report::Nothing, |bit| {
        let report = ours.hear(bit);
        reports[0].add(1, report, ours.octets());
        agreed += usize::from(matches!(report, Report::Menu { agreed: true, .. }));
        let report = rust.hear(bit);
        reports[1].add(1, report, rust.octets());
        report
    });
    let (mut ours, mut rust) = (Listener::fresh(), plain::Listener::fresh());
    many_at_once(bits, Report::Nothing, |rest| {
        let (taken, report) = ours.hear_many(rest);
        reports[2].add(taken, report, ours.octets());
        (taken, report)
    });
    many_at_once(bits, Report::Nothing, |rest| {
        let (taken, report) = rust.hear_many(rest);
        reports[3].add(taken, report, rust.octets());
        (taken, report)
    });
    let mut tuned = plain::Listener::fresh();
    many_at_once(bits, Report::Nothing, |rest| {
        let (taken, report) = tuned.hear_many_tuned(rest);
        reports[4].add(taken, report, tuned.octets());
        (taken, report)
    });
    let [first, others @ ..] = reports.map(|reports| reports.show());
    assert!(others.iter().all(|other| *other == first), "{name}: not the same was heard");
    agreed
}

/// A fresh listener of each hears the bits. Ours answers codes, as a host gets them: a span is asked for by a call of its own.
fn hearing(name: &str, bits: &[u8], spandsp: Option<&Spandsp>) {
    let agreed = agreed_menus(name, bits);
    let mut as_it_stands = spandsp.map(|spandsp| || spandsp.one_a_call(black_box(bits)));
    let mut rearmed = spandsp.map(|spandsp| {
        || {
            black_box(spandsp.one_a_call_rearmed(black_box(bits)));
        }
    });
    compare(
        &format!("hear {name}, one a call"),
        bits.len(),
        &mut || {
            // SAFETY: of both calls, as of those below: the record is this closure's own, and the bits are lent with their length.
            let mut line = unsafe { c::tailsprig_fresh() };
            black_box(one_a_call(black_box(bits), 0, |bit| unsafe { c::tailsprig_hear(&mut line, bit) }));
        },
        [
            Some(&mut || {
                let mut listener = plain::Listener::fresh();
                black_box(one_a_call(black_box(bits), Report::Nothing, |bit| listener.hear(bit)));
            }),
            None,
            as_it_stands.as_mut().map(|work| work as Work),
            rearmed.as_mut().map(|work| work as Work),
            None,
        ],
    );
    let mut as_it_stands = spandsp.map(|spandsp| || spandsp.many_at_once(black_box(bits)));
    let mut rearmed = spandsp.map(|spandsp| {
        || {
            black_box(spandsp.many_at_once_rearmed(black_box(bits)));
        }
    });
    compare(
        &format!("hear {name}, many at once"),
        bits.len(),
        &mut || {
            let mut line = unsafe { c::tailsprig_fresh() };
            black_box(many_at_once(black_box(bits), 0, |rest| {
                let ran = unsafe { c::tailsprig_hear_many(line, rest.as_ptr(), rest.len()) };
                line = ran.rec;
                (ran.taken, ran.code)
            }));
        },
        [
            Some(&mut || {
                let mut listener = plain::Listener::fresh();
                black_box(many_at_once(black_box(bits), Report::Nothing, |rest| listener.hear_many(rest)));
            }),
            Some(&mut || {
                let mut listener = plain::Listener::fresh();
                black_box(many_at_once(black_box(bits), Report::Nothing, |rest| listener.hear_many_tuned(rest)));
            }),
            as_it_stands.as_mut().map(|work| work as Work),
            rearmed.as_mut().map(|work| work as Work),
            None,
        ],
    );
    if let Some(spandsp) = spandsp {
        let accepted = spandsp.many_at_once_rearmed(bits);
        assert_eq!(accepted, spandsp.one_a_call_rearmed(bits), "{name}: spandsp did not accept the same");
        println!("  {name}: {agreed} agreed menus were heard by ours, {accepted} by spandsp");
    }
}

/// Copies of the menu, at least so many bits.
fn menus(bits: usize) -> Vec<u8> {
    let mut copy = [0; 70];
    plain::write(Kind::Menu, &MENU, 1, &mut copy).expect("a menu and its room");
    copy.repeat(bits / copy.len() + 1)
}

/// Marsaglia's xorshift, from a fixed seed: the same bits in every run.
fn random(bits: usize) -> Vec<u8> {
    let mut state: u64 = 0x9e37_79b9_7f4a_7c15;
    let mut next = || {
        state ^= state << 13;
        state ^= state >> 7;
        state ^= state << 17;
        (state >> 63) as u8
    };
    (0..bits).map(|_| next()).collect()
}

/// The recordings that the tests list, one behind the other and again until there are so many bits.
fn recordings(bits: usize) -> io::Result<Vec<u8>> {
    let folder = Path::new(env!("CARGO_MANIFEST_DIR")).join("../tests/recordings");
    let mut paths: Vec<_> = fs::read_dir(folder)?.map(|entry| Ok(entry?.path())).collect::<io::Result<_>>()?;
    paths.retain(|path| path.extension().is_some_and(|extension| extension == "bits"));
    paths.sort();
    let mut all = Vec::new();
    for path in paths {
        all.extend(fs::read(path)?.iter().filter(|byte| **byte != b'\n').map(|byte| byte - b'0'));
    }
    Ok(all.repeat(bits / all.len() + 1))
}

/// An event, what it carries, and its time, as the header's numbers.
type Event = (u8, i32, u32);

/// A whole call of each end, in which item 3 is agreed: the events from its start at 0 until it is over.
const CALLER: [Event; 6] = [(9, 0, 1000), (1, 0, 1500), (9, 0, 2000), (4, 3, 4000), (5, 0, 4100), (9, 0, 4175)];
const ANSWERER: [Event; 4] = [(9, 0, 200), (6, 3, 3000), (8, 0, 4200), (9, 0, 4275)];

/// What the events are answered in turn, joined into one number.
fn answers(start: Session, events: &[Event], step: impl Fn(Session, u8, i32, u32) -> StepTaken) -> i64 {
    let mut session = start;
    let mut joined = 0i64;
    for &(event, value, now) in events {
        let taken = step(session, event, value, now);
        session = taken.session;
        joined = joined.wrapping_mul(31).wrapping_add(taken.code.into());
    }
    joined
}

/// Each of the calls, a session and its events, again and again.
fn stepping(name: &str, calls: &[(Session, &[Event])]) {
    // SAFETY: takes and answers numbers.
    let ours = |session, event, value, now| unsafe { c::tailsprig_step(session, event, value, now) };
    for &(start, events) in calls {
        assert_eq!(answers(start, events, ours), answers(start, events, plain::step), "{name}: not the same was answered");
    }
    let events: usize = calls.iter().map(|(_, events)| events.len()).sum();
    let times = 100_000 / events;
    compare(
        name,
        times * events,
        &mut || {
            for &(start, events) in (0..times).flat_map(|_| black_box(calls)) {
                black_box(answers(start, black_box(events), ours));
            }
        },
        rust_alone(&mut || {
            for &(start, events) in (0..times).flat_map(|_| black_box(calls)) {
                black_box(answers(start, black_box(events), plain::step));
            }
        }),
    );
}

/// A caller at its start, with half a second of CI for data and one and a half of silence behind it, and an answerer.
const CADENCE: Cadence = Cadence { off: 450, place: 0, on: 5, function: 6, sent: 0, tone: 0 };
const CALLER_AT_START: Session = Session { entry: 0, te: 500, cadence: CADENCE, end: 1, state: 1, chosen: 0, ended: 0 };
const ANSWERER_AT_START: Session =
    Session { entry: 0, te: 0, cadence: NO_CADENCE, end: 2, state: 7, chosen: 0, ended: 0 };
const NO_CADENCE: Cadence = Cadence { off: 0, place: 0, on: 0, function: 0, sent: 0, tone: 0 };

/// Whole calls of both ends, the caller's from calling on with the three CI sent that there are at least; ticks that change nothing, in
/// menu and in answering; and events that are refused before the table is looked at.
fn all_stepping() {
    let (caller, answerer) = (CALLER_AT_START, ANSWERER_AT_START);
    let (still, called) = CALLER.split_at(1);
    let calling = Session { entry: 1000, state: 2, cadence: Cadence { place: 90, sent: 90, ..CADENCE }, ..caller };
    stepping("step whole calls", &[(caller, still), (calling, called), (answerer, &ANSWERER)]);
    let ticks: Vec<Event> = (0..100).map(|tick| (9, 0, 10 * tick)).collect();
    let waiting = [(Session { state: 4, ..caller }, &ticks[..]), (Session { state: 8, ..answerer }, &ticks[..])];
    stepping("step ticks that change nothing", &waiting);
    let refused: Vec<Event> = ticks.iter().map(|&(_, value, now)| (8, value, now)).collect();
    stepping("step events that are refused", &[(caller, &refused)]);
}

/// Draws as many bits as `out` holds, so many a call, from the first of a cadence on.
fn drawn(out: &mut [u8], a_call: usize, draw: impl Fn(Session, &mut [u8]) -> BitsDrawn) -> Session {
    let mut session = Session { state: 2, ..CALLER_AT_START };
    for piece in out.chunks_mut(a_call) {
        session = black_box(draw(black_box(session), black_box(piece))).session;
    }
    session
}

/// So many bits of the cadence, so many a call.
fn drawing(name: &str, bits: usize, a_call: usize) {
    // SAFETY: the session goes by value; the slice is lent for the call alone, with its length.
    let draw = |session, out: &mut [u8]| unsafe { c::tailsprig_draw(session, out.as_mut_ptr(), out.len()) };
    let (mut ours, mut rust) = (vec![9; bits], vec![9; bits]);
    assert_eq!(drawn(&mut ours, a_call, draw), drawn(&mut rust, a_call, plain::draw), "{name}: not the same session");
    assert_eq!(ours, rust, "{name}: the two drew different bits");
    let times = 100_000 / bits + 1;
    compare(
        name,
        times * bits,
        &mut || {
            for _ in 0..times {
                black_box(drawn(&mut ours, a_call, draw));
            }
        },
        rust_alone(&mut || {
            for _ in 0..times {
                black_box(drawn(&mut rust, a_call, plain::draw));
            }
        }),
    );
}

/// Some work, again and again, beside plain Rust of the same rules.
fn again(name: &str, mut ours: impl FnMut(), mut rust: impl FnMut()) {
    const TIMES: usize = 2000;
    compare(
        name,
        TIMES,
        &mut || (0..TIMES).for_each(|_| ours()),
        rust_alone(&mut || (0..TIMES).for_each(|_| rust())),
    );
}

/// So many octets in twelve blocks: eleven of three octets, and one of what is left.
fn twelve_blocks(length: usize) -> Vec<u8> {
    let mut octets = [2, 0xb5, 0].repeat(11);
    octets.extend([length as u8 - 34, 0xb5, 0]);
    octets.resize(length, 1);
    octets
}

/// Goes through the blocks, each behind the one before, and counts them.
fn through(octets: &[u8], block_at: impl Fn(&[u8], usize) -> Block) -> usize {
    let (mut at, mut blocks) = (0, 0);
    while at < octets.len() {
        let Block { whole, .. } = black_box(block_at(octets, at));
        at = whole.place + whole.size;
        blocks += 1;
    }
    blocks
}

/// The longest field that a heard CM can have, read; the longest of our own, made; and the blocks of the first, gone through by the place
/// of each, and by the number of each, for which every call begins at the first block. Rust goes by place in both.
fn all_fields() {
    let carried = twelve_blocks(38);
    let heard = [vec![0xc1, 0x2a], Model::default().field(&carried)].concat();
    assert_eq!(heard.len(), 64, "a CM that is as long as one can be");
    let (mut ours, mut rust) = ([0; 64], [0; 64]);
    assert_eq!((tailsprig::fields(&heard, &mut ours), &ours[..38]), (Ok(38), &carried[..]));
    assert_eq!((plain::fields(&heard, &mut rust), rust), (Ok(38), ours), "not the same was read");
    again(
        "read a field of 38 octets",
        || {
            let _ = black_box(tailsprig::fields(black_box(&heard), black_box(&mut ours)));
        },
        || {
            let _ = black_box(plain::fields(black_box(&heard), black_box(&mut rust)));
        },
    );

    let mut own = Record { home: 6, lapm: 1, ..Record::default() };
    own.functions[5] = Modes { available: 1, pcm: 0, items: 0x101a };
    let blocks = twelve_blocks(36);
    assert_eq!(tailsprig::cm(&own, 6, &blocks, &mut ours), Ok(64));
    assert_eq!((plain::cm(&own, 6, &blocks, &mut rust), rust), (Ok(64), ours), "not the same was made");
    again(
        "make a CM with 36 octets of field",
        || {
            let _ = black_box(tailsprig::cm(black_box(&own), 6, black_box(&blocks), black_box(&mut ours)));
        },
        || {
            let _ = black_box(plain::cm(black_box(&own), 6, black_box(&blocks), black_box(&mut rust)));
        },
    );

    // SAFETY: the slice is lent for the call alone, with its length.
    let at = |octets: &[u8], place| unsafe { c::tailsprig_block_at(octets.as_ptr(), octets.len(), place) };
    // SAFETY: as above.
    let of = |octets: &[u8], number| unsafe { c::tailsprig_block_of(octets.as_ptr(), octets.len(), number) };
    let blocks: Vec<Block> = (0..12).map(|number| of(&carried, number)).collect();
    assert!(blocks.iter().all(|block| *block == at(&carried, block.whole.place)), "not the same by place and by number");
    assert!(blocks.iter().all(|block| *block == plain::block_at(&carried, block.whole.place)), "not the same blocks");
    assert_eq!((through(&carried, at), through(&carried, plain::block_at)), (12, 12), "not as many blocks");
    let mut plainly = || {
        black_box(through(black_box(&carried), plain::block_at));
    };
    again(
        "12 blocks, by place",
        || {
            black_box(through(black_box(&carried), at));
        },
        &mut plainly,
    );
    again(
        "12 blocks, by number",
        || {
            (0..12).for_each(|number| {
                black_box(of(black_box(&carried), number));
            })
        },
        &mut plainly,
    );
}

/// The items that a menu is asked for in turn: of its modulation group each octet decides one.
const QUESTIONS: [u8; 3] = [1, 3, 12];

/// Asks a menu these questions so many times.
fn asked<A>(menu: &[u8], times: usize, asks: impl Fn(&[u8], u8) -> A) {
    for _ in 0..times {
        for item in QUESTIONS {
            black_box(asks(black_box(menu), black_box(item)));
        }
    }
}

/// A question to a menu, beside plain Rust and beside the whole menu read by ours, which would answer it too.
fn asking(name: &str, menu: &[u8]) {
    const TIMES: usize = 1000;
    // SAFETY: the slice is lent for the call alone, with its length.
    let ours = |octets: &[u8], item| unsafe { c::tailsprig_asks(octets.as_ptr(), octets.len(), item) };
    // SAFETY: as above.
    let read = |octets: &[u8], _| unsafe { c::tailsprig_read(octets.as_ptr(), octets.len()) };
    for item in QUESTIONS {
        let answer = ours(menu, item);
        assert_eq!(answer, plain::asks(menu, item), "{name}: not the same was answered");
        assert_eq!(answer.code, i32::from(read(menu, item).offer.items >> item & 1), "{name}: not as it is read");
    }
    compare(
        name,
        TIMES * QUESTIONS.len(),
        &mut || asked(menu, TIMES, ours),
        [
            Some(&mut || asked(menu, TIMES, plain::asks)),
            None,
            None,
            None,
            Some(&mut || asked(menu, TIMES, read)),
        ],
    );
}

/// A menu that is read whole.
fn reading(name: &str, menu: &[u8]) {
    assert!(tailsprig::read(menu).is_ok(), "{name}: a menu that is refused is not read");
    assert_eq!(tailsprig::read(menu), plain::read(menu), "{name}: not the same was read");
    again(
        name,
        || {
            let _ = black_box(tailsprig::read(black_box(menu)));
        },
        || {
            let _ = black_box(plain::read(black_box(menu)));
        },
    );
}

/// A menu of five octets, and two as long as one can be: all else in them is a maker's field, behind the modulation group or before it.
fn all_menus() {
    let first = [&MENU[..4], &[0x0f], &[0x10; 59]].concat();
    let last = [&[0xc1, 0x0f][..], &[0x10; 59], &MENU[1..4]].concat();
    println!();
    heading("nanoseconds a menu");
    reading("read a menu of 5 octets", &MENU);
    reading("read 64 octets, modulation first", &first);
    reading("read 64 octets, modulation last", &last);
    println!();
    heading("nanoseconds a question");
    asking("ask a menu of 5 octets", &MENU);
    asking("ask 64 octets, modulation first", &first);
    asking("ask 64 octets, modulation last", &last);
}

/// The listing program on 50 MB of menus, from a file and into nothing, beside plain Rust that does the same.
fn listing(program: &str) -> io::Result<()> {
    let input: Vec<u8> = menus(50_000_000).iter().map(|bit| b'0' + bit).collect();
    let path = env::temp_dir().join(format!("tailsprig-bench-{}.bits", process::id()));
    fs::write(&path, &input)?;
    let timed = listed(program, &path);
    fs::remove_file(&path)?;
    println!();
    heading("megabytes a second");
    row("list menus", timed?, |nanoseconds| format!("{:.0}", input.len() as f64 * 1000.0 / nanoseconds));
    Ok(())
}

fn listed(program: &str, path: &Path) -> io::Result<(f64, [Option<f64>; RIVALS.len()])> {
    let run = |output: Stdio| {
        let child = Command::new(program).stdin(fs::File::open(path)?).stdout(output).spawn()?;
        let done = child.wait_with_output()?;
        if done.status.success() {
            Ok(done.stdout)
        } else {
            Err(io::Error::other(format!("{program}: {}", done.status)))
        }
    };
    let rust = |output: &mut dyn io::Write| plain::listing(fs::File::open(path)?, output);
    let mut expected = Vec::new();
    rust(&mut expected)?;
    if run(Stdio::piped())? != expected {
        return Err(io::Error::other(format!("{program} and plain Rust list differently")));
    }
    let mut null = fs::File::create("/dev/null")?;
    Ok(best(
        10,
        &mut || drop(black_box(run(Stdio::null()))),
        rust_alone(&mut || drop(black_box(rust(&mut null)))),
    ))
}

fn main() -> io::Result<()> {
    let spandsp = env::args().nth(2).map(|reader| Spandsp::load(&reader)).transpose()?;
    let spandsp = spandsp.as_ref();
    let long: Vec<u8> = (0..64).map(|at| if at == 0 { 0xc1 } else { MENU[1 + at % 4] }).collect();
    heading("nanoseconds a bit");
    writing("write a CI, 1 copy", Kind::Ci, &[0xc1], 1);
    writing("write a menu of 5 octets, 1 copy", Kind::Menu, &MENU, 1);
    writing("write a menu of 5 octets, 100", Kind::Menu, &MENU, 100);
    writing("write a menu of 64 octets, 100", Kind::Menu, &long, 100);
    drawing("draw a period, at once", 600, 600);
    drawing("draw 10,000 bits, 30 a call", 10_000, 30);
    drawing("draw 10,000 bits, one a call", 10_000, 1);
    hearing("menus", &menus(200_000), spandsp);
    hearing("recordings", &recordings(200_000)?, spandsp);
    hearing("random bits", &random(200_000), spandsp);
    hearing("all 1s", &[1; 200_000], spandsp);
    println!();
    heading("nanoseconds a step");
    all_stepping();
    println!();
    heading("nanoseconds a field");
    all_fields();
    all_menus();
    match env::args().nth(1) {
        Some(program) => listing(&program),
        None => Ok(()),
    }
}
