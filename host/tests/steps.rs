//! What the vectors of steps do not reach: numbers that only C can pass, every session in and out of its ranges, and a tone at every
//! place of a cadence.
use tailsprig::{c, steps::SILENCE, write, Kind};

/// Callers begin with this.
const CADENCE: c::Cadence = c::Cadence { off: 120, place: 0, on: 3, function: 6, sent: 0, tone: 0 };

/// The same behind the third CI, where nothing is left to send.
const THREE_SENT: c::Cadence = c::Cadence { place: 90, sent: 90, ..CADENCE };

/// What docs/RANGES.md says of a caller's cadence.
fn cadence_in_range(c: &c::Cadence, state: u8) -> bool {
    let start = (1..=6).contains(&c.function) && (3..=20).contains(&c.on) && (120..=600).contains(&c.off);
    let sent = match c.sent {
        0..=89 => c.place == c.sent.into(),
        90 => c.place < 30 * u16::from(c.on) + c.off,
        _ => false,
    };
    start && sent && c.tone <= 2 && (state != 1 || (c.sent, c.tone) == (0, 0))
}

/// What docs/RANGES.md says of a session.
fn in_range(s: &c::Session) -> bool {
    let end = match s.end {
        1 => {
            let state = matches!(s.state, 1..=6) || s.state == 10;
            (500..=5000).contains(&s.te) && state && cadence_in_range(&s.cadence, s.state)
        }
        2 => s.te == 0 && matches!(s.state, 6..=10) && s.cadence == c::Cadence::default(),
        _ => false,
    };
    let chosen = match s.state {
        1..=4 | 7 | 8 => s.chosen == 0,
        _ => matches!(s.chosen, 0..=12 | 17..=23),
    };
    let ended = match (s.state, s.ended) {
        (10, 5) => s.chosen != 0,
        (10, ended) => matches!(ended, 1..=4),
        (_, ended) => ended == 0,
    };
    end && chosen && ended
}

/// Every session near the ranges, with the entry time 1,000 and a cadence of its end or of the other.
fn sessions() -> impl Iterator<Item = c::Session> {
    let tes = [0, 1, 499, 500, 700, 5000, 5001, u32::MAX];
    let ends_and_states = (0..4).flat_map(|end| (0..13).map(move |state| (end, state)));
    ends_and_states.flat_map(move |(end, state)| {
        [c::Cadence::default(), CADENCE].into_iter().flat_map(move |cadence| {
            tes.into_iter().flat_map(move |te| {
                (0..=26).chain([255]).flat_map(move |chosen| {
                    (0..8).map(move |ended| c::Session { entry: 1000, te, cadence, end, state, chosen, ended })
                })
            })
        })
    })
}

/// Cadences with every number in its range and just outside.
fn cadences() -> impl Iterator<Item = c::Cadence> {
    let functions = [0, 1, 6, 7];
    let ons = [2, 3, 20, 21];
    let offs = [119, 120, 600, 601];
    let begun = functions.into_iter().flat_map(move |function| {
        ons.into_iter()
            .flat_map(move |on| offs.map(move |off| c::Cadence { function, on, off, ..c::Cadence::default() }))
    });
    begun.flat_map(|begun| {
        let on = 30 * u16::from(begun.on);
        let period = on.saturating_add(begun.off);
        let places = [0, 1, 29, 30, 31, 89, 90, 91, on, on + 1, period.saturating_sub(1), period, 65_535];
        places.into_iter().flat_map(move |place| {
            [0, 1, 29, 30, 31, 89, 90, 91, 255]
                .into_iter()
                .flat_map(move |sent| [0, 1, 2, 3, 255].map(move |tone| c::Cadence { place, sent, tone, ..begun }))
        })
    })
}

/// Callers with these cadences, and answerers, which have none.
fn sessions_by_cadence() -> impl Iterator<Item = c::Session> {
    let callers = [1, 2, 3, 4, 5, 6, 10].map(|state| (1, 700, state));
    let answerers = [6, 7, 8, 9, 10].map(|state| (2, 0, state));
    let ends: Vec<(u8, u32, u8)> = callers.into_iter().chain(answerers).collect();
    cadences().flat_map(move |cadence| {
        let session = |&(end, te, state): &(u8, u32, u8)| {
            let (chosen, ended) = if state == 10 { (3, 5) } else { (0, 0) };
            c::Session { entry: 1000, te, cadence, end, state, chosen, ended }
        };
        ends.iter().map(session).collect::<Vec<_>>()
    })
}

fn draw(session: c::Session, out: &mut [u8]) -> c::BitsDrawn {
    // SAFETY: the session goes by value; the slice is lent for the call alone, with its length.
    unsafe { c::tailsprig_draw(session, out.as_mut_ptr(), out.len()) }
}

fn step(session: c::Session, event: u8, value: i32, now: u32) -> c::StepTaken {
    // SAFETY: takes and answers numbers.
    unsafe { c::tailsprig_step(session, event, value, now) }
}

#[test]
fn a_session_out_of_range_is_refused_before_all_else_and_one_in_range_stays_there() {
    let nothing_fits = (0, i32::MIN, 999);
    for session in sessions().chain(sessions_by_cadence()) {
        let (event, value, now) = nothing_fits;
        let refused = step(session, event, value, now);
        assert_eq!(refused.session, session);
        let expected = match (in_range(&session), session.state) {
            (false, _) => -10,
            (true, 10) => -7,
            (true, _) => -9,
        };
        assert_eq!(refused.code, expected, "{session:?}");
        for (event, value) in (1..=9).flat_map(|event| [0, 3, 17, -11].map(|value| (event, value))) {
            for now in [1000, 1075, 6000, 11_000] {
                let taken = step(session, event, value, now);
                assert_eq!(in_range(&taken.session), in_range(&session), "{session:?} {event} {value} {now}");
                assert!(taken.code >= 0 || taken.session == session);
            }
        }
    }
}

#[test]
fn a_number_that_is_no_event_and_an_event_of_the_other_end_are_refused_with_9() {
    // SAFETY: take and answer numbers.
    let starts = unsafe { [c::tailsprig_start_caller_default(0, 6, 3, 120).session, c::tailsprig_start_answerer(0)] };
    for session in starts {
        for event in 0..=255 {
            let own = event == 9 || if session.end == 1 { (1..=5).contains(&event) } else { (6..=8).contains(&event) };
            let expected = if own { 0 } else { -9 };
            let taken = step(session, event, 1, 0);
            assert_eq!((taken.code, taken.session), (expected, session), "end {} event {event}", session.end);
        }
    }
}

#[test]
fn an_event_carries_what_it_may_and_nothing_else() {
    let session = |end, state| {
        let (te, cadence) = if end == 1 { (500, THREE_SENT) } else { (0, c::Cadence::default()) };
        c::Session { entry: 0, te, cadence, end, state, chosen: 0, ended: 0 }
    };
    let values = (-40..300).chain([i32::MIN, i32::MAX, -256, 256 + 3, 65_536]);
    for value in values {
        let choice = matches!(value, 0..=12 | 17..=23);
        let item = matches!(value, 1..=12);
        let jm = if value == -11 { 16 + 4 } else if choice { 5 } else { -9 };
        assert_eq!(step(session(1, 4), 4, value, 0).code, jm, "agreed JM with {value}");
        assert_eq!(step(session(2, 8), 6, value, 0).code, if choice { 9 } else { -9 }, "agreed CM with {value}");
        assert_eq!(step(session(2, 8), 7, value, 0).code, if item { 6 } else { -9 }, "sigC with {value}");
        assert_eq!(step(session(1, 2), 1, value, 0).code, 3, "ANSam with {value}");
    }
}

/// A caller that has just begun.
fn begun(te: u32, cadence: c::Cadence) -> c::Session {
    c::Session { entry: 77, te, cadence, end: 1, state: 1, chosen: 0, ended: 0 }
}

#[test]
fn te_is_500_to_5000_or_the_start_is_refused() {
    for te in (0..6000).chain([u32::MAX, 65_536 + 500]) {
        // SAFETY: takes and answers numbers.
        let started = unsafe { c::tailsprig_start_caller(77, te, 6, 3, 120) };
        let is_te = (500..=5000).contains(&te);
        let expected = if is_te { (0, begun(te, CADENCE)) } else { (-10, c::Session::default()) };
        assert_eq!((started.code, started.session), expected, "Te {te}");
    }
}

#[test]
fn a_start_is_refused_with_16_exactly_where_its_cadence_is_outside_and_behind_10() {
    let offs = (0..700).chain([65_535, 256 + 120, 256 + 119]);
    let cadences = (0..=255).flat_map(|on| offs.clone().map(move |off| (on, off)));
    for (on, off) in cadences {
        let is_cadence = (3..=20).contains(&on) && (120..=600).contains(&off);
        for function in [0, 1, 2, 3, 4, 5, 6, 7, 255] {
            // SAFETY: both take and answer numbers.
            let starts = unsafe {
                [(499, false), (700, false), (1000, true)].map(|(te, is_default)| match is_default {
                    true => (te, c::tailsprig_start_caller_default(77, function, on, off)),
                    false => (te, c::tailsprig_start_caller(77, te, function, on, off)),
                })
            };
            for (te, started) in starts {
                let cadence = c::Cadence { off, on, function, ..c::Cadence::default() };
                let expected = match (te == 499 || !(1..=6).contains(&function), is_cadence) {
                    (true, _) => (-10, c::Session::default()),
                    (_, false) => (-16, c::Session::default()),
                    _ => (0, begun(te, cadence)),
                };
                assert_eq!((started.code, started.session), expected, "Te {te}, {on}/{off}, function {function}");
            }
        }
    }
}

#[test]
fn bits_come_in_calling_alone_and_from_a_session_in_range_which_stays_there() {
    for session in sessions_by_cadence() {
        for room in [0, 1, 95] {
            let mut out = vec![9; room];
            let drawn = draw(session, &mut out);
            let kept = out.iter().rev().take_while(|byte| **byte == 9).count();
            assert_eq!(drawn.bits + kept, room, "{session:?}: {drawn:?}");
            assert_eq!(drawn.code, if in_range(&session) { 0 } else { -10 }, "{session:?}");
            if !in_range(&session) || session.state != 2 {
                assert_eq!((drawn.bits, drawn.session), (0, session));
            }
            assert_eq!(in_range(&drawn.session), in_range(&session), "{session:?}: {drawn:?}");
            let changed = c::Session { cadence: session.cadence, ..drawn.session };
            assert_eq!(changed, session, "more than the cadence changed");
        }
    }
}

/// A period: CI as the writer writes it, so many times, and silence behind it.
fn period(function: u8, on: u8, off: u16) -> Vec<u8> {
    let mut bits = vec![SILENCE; 30 * usize::from(on) + usize::from(off)];
    assert_eq!(write(Kind::Ci, &[32 * function + 1], on.into(), &mut bits), Ok(30 * usize::from(on)));
    bits
}

/// A caller in calling, with these numbers, of which so many bits were drawn one by one.
fn calling(function: u8, on: u8, off: u16, given: usize) -> c::Session {
    let cadence = c::Cadence { off, on, function, ..c::Cadence::default() };
    let mut session = c::Session { state: 2, ..begun(700, cadence) };
    for _ in 0..given {
        session = draw(session, &mut [9]).session;
    }
    session
}

#[test]
fn bits_asked_in_turn_are_the_beginning_of_one_cadence() {
    for (function, on, off) in [(1, 3, 120), (2, 3, 600), (3, 4, 121), (4, 20, 120), (5, 20, 600), (6, 5, 450)] {
        let period = period(function, on, off);
        for sizes in [&[1][..], &[30], &[7, 0, 31], &[119, 600, 1], &[period.len() - 1, 2], &[65_537, 3]] {
            let mut session = calling(function, on, off, 0);
            let (mut all, mut sizes) = (Vec::new(), sizes.iter().cycle());
            while all.len() < 5 * period.len() {
                let mut out = vec![9; *sizes.next().expect("sizes come again")];
                let drawn = draw(session, &mut out);
                assert_eq!((drawn.bits, drawn.code), (out.len(), 0));
                all.extend(out);
                session = drawn.session;
            }
            assert!(all.iter().eq(period.iter().cycle().take(all.len())), "{on}/{off}");
        }
    }
}

#[test]
fn a_tone_at_any_place_lets_the_third_and_the_present_ci_be_finished_and_a_tick_leads_on() {
    for (on, off) in [(3, 120), (3, 600), (4, 121), (20, 120)] {
        let period = period(6, on, off);
        for given in 0..2 * period.len() + 2 {
            let place = given % period.len();
            let present = if place < 30 * usize::from(on) { place.next_multiple_of(30) - place } else { 0 };
            let left = present.max(90usize.saturating_sub(given));
            let session = calling(6, on, off, given);
            for (tone, code, other) in [(1, 3, 2), (2, 17, 1)] {
                let told = step(session, tone, 0, 80);
                if left == 0 {
                    assert_eq!((told.code, told.session.entry), (code, 80), "{on}/{off} behind {given} bits");
                    continue;
                }
                assert_eq!((told.code, told.session.entry), (0, 77), "{on}/{off} behind {given} bits");
                // Ticks and tones that come before the last bit change nothing, and neither does one behind it but the tick.
                let mut out = vec![9; 200];
                let most = draw(told.session, &mut out[..left - 1]);
                let early = [other, tone, 9].map(|event| step(most.session, event, 0, 81));
                assert!(early.iter().all(|early| (early.code, early.session) == (0, most.session)), "{early:?}");
                let last = draw(most.session, &mut out[left - 1..]);
                assert_eq!((most.bits, last.bits, out[left]), (left - 1, 1, 9), "{on}/{off} behind {given} bits");
                assert!(out[..left].iter().eq(period.iter().cycle().skip(place).take(left)));
                assert_eq!(step(last.session, other, 0, 82).session, last.session);
                let led = step(last.session, 9, 0, 83);
                assert_eq!((led.code, led.session.entry), (code, 83), "{on}/{off} behind {given} bits");
            }
            assert_eq!(step(session, 3, 0, 80).code, 17, "sigA behind {given} bits");
        }
    }
}
