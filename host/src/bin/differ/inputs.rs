//! Inputs: mostly what a line or a host would bring, and damage of every kind to it.
use crate::{
    fields::{self, FIELD},
    random::Random,
};
use tailsprig::{c, model::Model, numbers};

/// The tag of a modulation group.
const MODULATION: u8 = 5;

/// The tags that the documents give a meaning.
const TAGS: [u8; 6] = [1, MODULATION, 7, 10, 13, FIELD];

pub fn extension_octet(random: &mut Random) -> u8 {
    match random.below(8) {
        // Octet 55 looks like the V.92 sync on the line.
        0 => 0x55,
        _ => random.byte() & 0xc7 | 0x10,
    }
}

pub fn group(random: &mut Random, tag: u8, extensions: usize) -> Vec<u8> {
    let mut octets = vec![random.byte() & 0xe0 | tag];
    octets.extend((0..extensions).map(|_| extension_octet(random)));
    octets
}

/// A group that menus have, as V.8 builds it or a little longer or shorter.
fn known_group(random: &mut Random, tag: u8) -> Vec<u8> {
    let extensions = match (tag, random.below(4)) {
        (MODULATION, 0) => random.below(5),
        (MODULATION, _) => 2,
        (_, 0) => random.below(3),
        _ => 0,
    };
    let mut octets = group(random, tag, extensions);
    if tag == 10 && random.one_in(2) {
        octets[0] = 0x2a;
    }
    octets
}

/// A menu that reading does not refuse.
pub fn sound_menu(random: &mut Random) -> Vec<u8> {
    let mut groups: Vec<Vec<u8>> = Vec::new();
    for tag in [MODULATION, 7, 10, 13] {
        if !random.one_in(if tag == MODULATION { 10 } else { 3 }) {
            groups.push(known_group(random, tag));
        }
    }
    for _ in 0..random.below(3) {
        if random.one_in(2) {
            let tag = if random.one_in(2) { random.of(&TAGS) } else { random.byte() % 16 };
            let extensions = random.below(3);
            let at = random.below(groups.len() + 1);
            groups.insert(at, group(random, tag, extensions));
        }
    }
    if random.one_in(4) && groups.len() > 1 {
        let (from, to) = (random.below(groups.len()), random.below(groups.len()));
        groups.swap(from, to);
    }
    let function = if random.one_in(2) { 6 } else { random.byte() % 8 };
    let mut octets = vec![function * 32 + 1];
    octets.extend(groups.concat());
    if random.one_in(12) {
        fill(random, &mut octets);
    }
    octets
}

/// Makes a menu as long as one may be, or as long as none may.
fn fill(random: &mut Random, octets: &mut Vec<u8>) {
    let length = 63 + random.below(4);
    let groups = random.one_in(2);
    while octets.len() < length {
        let tag = random.byte() % 16;
        octets.extend(if groups { group(random, tag, 1) } else { vec![extension_octet(random)] });
    }
    octets.truncate(length);
}

/// One edit to a list of octets.
pub fn damage(random: &mut Random, octets: &mut Vec<u8>) {
    let at = random.below(octets.len() + 1);
    match (random.below(8), octets.get_mut(at)) {
        (0, Some(octet)) => *octet = random.byte(),
        (1, Some(octet)) => *octet ^= 1 << random.below(8),
        (2, Some(_)) => drop(octets.remove(at)),
        (3, _) => octets.truncate(at),
        (4, _) => octets.insert(at, random.byte()),
        (5, _) => {
            let (tag, extensions) = (random.byte() % 16, random.below(4));
            octets.splice(at..at, group(random, tag, extensions));
        }
        (6, _) => fill(random, octets),
        _ => {
            if let Some(first) = octets.first_mut() {
                *first = random.byte();
            }
        }
    }
}

/// A menu, often damaged.
pub fn menu(random: &mut Random) -> Vec<u8> {
    let mut octets = sound_menu(random);
    while random.one_in(3) {
        damage(random, &mut octets);
    }
    octets
}

/// Octets for CI: a function, perhaps with extension octets; or whatever a menu has.
fn ci(random: &mut Random) -> Vec<u8> {
    if random.one_in(4) {
        return menu(random);
    }
    let extensions = if random.one_in(2) { 0 } else { random.below(4) };
    let mut octets = group(random, 1, extensions);
    if random.one_in(4) {
        damage(random, &mut octets);
    }
    octets
}

/// Octets to write as a message of this kind.
pub fn message(random: &mut Random, kind: u8) -> Vec<u8> {
    if kind == 1 {
        ci(random)
    } else {
        menu(random)
    }
}

/// A place in a message, or behind it.
pub fn place(random: &mut Random, octets: &[u8]) -> usize {
    match random.below(16) {
        0 => random.of(&[64, 65, 255, 256, usize::MAX - 1, usize::MAX]),
        1 => random.below(70),
        _ => random.below(octets.len() + 2),
    }
}

/// A tag, mostly one with a meaning.
pub fn tag(random: &mut Random) -> u8 {
    match random.below(8) {
        0 => random.byte(),
        1 | 2 => random.byte() % 16,
        3 => 16 + random.of(&TAGS),
        _ => random.of(&TAGS),
    }
}

/// The record of an end, once in a few times with one number that makes it bad.
pub fn record(random: &mut Random) -> c::Record {
    let mut record = c::Record::default();
    for modes in &mut record.functions {
        modes.available = u8::from(random.one_in(2));
        modes.items = random.word() as u16 & 0x1ffe;
        if random.one_in(3) {
            modes.items &= random.word() as u16;
        }
        modes.pcm = if random.one_in(3) { 0 } else { random.byte() % 8 };
        if modes.pcm % 4 != 0 {
            modes.items |= 1 << 1;
        }
    }
    record.home = 1 + random.byte() % 6;
    record.functions[usize::from(record.home) - 1].available = 1;
    record.lapm = random.byte() % 2;
    record.access = random.byte() % 2;
    record.cellular = random.byte() % 2;
    record.digital = random.byte() % 2;
    if random.one_in(5) {
        damage_record(random, &mut record);
    }
    record
}

fn damage_record(random: &mut Random, record: &mut c::Record) {
    let no_flag = random.of(&[2, 3, 128, 254, 255]);
    let modes = &mut record.functions[random.below(6)];
    match random.below(10) {
        0 => modes.available = no_flag,
        1 => modes.items |= random.of(&[1, 1 << 13, 1 << 14, 1 << 15]),
        2 => modes.pcm = random.of(&[8, 9, 16, 128, 255]),
        3 => modes.items &= !(1 << 1),
        4 => record.home = random.of(&[0, 7, 8, 255]),
        5 => modes.available = 0,
        6 => record.lapm = no_flag,
        7 => record.access = no_flag,
        8 => record.cellular = no_flag,
        _ => record.digital = no_flag,
    }
}

/// A function to ask a CM for.
pub fn function(random: &mut Random, record: &c::Record) -> u8 {
    match random.below(8) {
        0 => random.byte(),
        1 => random.of(&[0, 7]),
        2..=4 => record.home,
        _ => 1 + random.byte() % 6,
    }
}

/// A CM: that of a record, or any menu.
pub fn cm(random: &mut Random) -> Vec<u8> {
    let record = record(random);
    let blocks = if random.one_in(4) { fields::own_blocks(random) } else { Vec::new() };
    let made = numbers::record(&record).and_then(|own| Model::default().cm(&own, record.home, &blocks, 64));
    match made {
        Ok(octets) if !random.one_in(3) => octets,
        _ => menu(random),
    }
}

/// A modulation group of so many octets, in half of all cases without an item from 1 to 12, so that none can be in common.
fn modulation_group(random: &mut Random, count: usize) -> Vec<u8> {
    let mut octets = match count.checked_sub(1) {
        Some(extensions) => group(random, MODULATION, extensions),
        None => Vec::new(),
    };
    if random.one_in(2) {
        octets.iter_mut().zip([0x2f, 0x10, 0x10]).for_each(|(octet, kept)| *octet &= kept);
    }
    octets
}

/// A CM to answer whose modulation group has any number of octets, none and as many as there can be; often the CM is about as long as one
/// may be, or one octet longer. There may be another modulation group, before or behind it.
fn cm_of_any_length(random: &mut Random) -> Vec<u8> {
    let mut groups: Vec<Vec<u8>> = Vec::new();
    if random.one_in(3) {
        groups.push(vec![0x2a]);
    }
    if random.one_in(3) {
        groups.extend([7, 13].map(|tag| group(random, tag, 0)));
    }
    if random.one_in(4) {
        let count = random.below(6);
        groups.push(modulation_group(random, count));
    }
    let most = 63 - groups.concat().len();
    let count = match random.below(4) {
        0 => random.of(&[0, 0, 1, 2, 3]),
        1 => random.below(most),
        _ => most + 1 - random.below(5),
    };
    let at = random.below(groups.len() + 1);
    groups.insert(at, modulation_group(random, count));
    let function = if random.one_in(2) { 6 } else { random.byte() % 8 };
    let mut octets = vec![function * 32 + 1];
    octets.extend(groups.concat());
    if random.one_in(8) {
        damage(random, &mut octets);
    }
    octets
}

/// An item to ask a menu for, mostly one that there is.
fn item(random: &mut Random) -> u8 {
    match random.below(8) {
        0 => random.of(&[0, 13, 14, 255]),
        1 => random.byte(),
        _ => 1 + random.byte() % 12,
    }
}

/// A menu of few groups, most of them modulation groups, and often one of these right behind another; each too short for some items, or as
/// V.8 builds it.
fn menu_of_short_groups(random: &mut Random) -> Vec<u8> {
    let mut octets = group(random, 1, 0);
    for _ in 0..random.below(5) {
        let tag = if random.one_in(2) { MODULATION } else { random.byte() % 16 };
        let extensions = random.below(3);
        octets.extend(group(random, tag, extensions));
    }
    octets
}

/// A menu and the item that it is asked for. Once in a few times an octet is bad: the one that decides, or one around it.
pub fn question(random: &mut Random) -> (Vec<u8>, u8) {
    let item = item(random);
    let mut octets = match random.below(4) {
        0 => menu(random),
        1 => cm_of_any_length(random),
        _ => menu_of_short_groups(random),
    };
    if random.one_in(3) {
        let looked = Model::default().asks(&octets, item).map_or(0, |asked| asked.looked);
        let at = (looked + random.below(4)).saturating_sub(2);
        if let Some(octet) = octets.get_mut(at) {
            *octet |= 0x10 | random.of(&[0x08, 0x20, 0x28]);
        }
    }
    (octets, item)
}

/// A CM to answer. How many octets JM has goes by that of its modulation group.
pub fn answered_cm(random: &mut Random) -> Vec<u8> {
    if random.one_in(2) {
        cm(random)
    } else {
        cm_of_any_length(random)
    }
}

/// Room for the JM of a record: often exactly as much as it takes, or one octet less.
pub fn jm_room(random: &mut Random, own: &c::Record, heard: &[u8]) -> usize {
    let made = numbers::record(own).and_then(|own| Model::default().jm(&own, heard, usize::MAX));
    let needed = made.map_or(64, |octets| octets.len());
    match random.below(6) {
        0 => random.below(70),
        1 => needed - 1,
        2 | 3 => needed,
        _ => needed + random.below(8),
    }
}

/// A JM for a CM: that of a record, mostly; or the CM again, or any menu.
pub fn jm(random: &mut Random, cm: &[u8]) -> Vec<u8> {
    let made = numbers::record(&record(random)).and_then(|own| Model::default().jm(&own, cm, 64));
    let mut octets = match (random.below(6), made) {
        (0..=3, Ok(octets)) => octets,
        (4, _) => cm.to_vec(),
        _ => menu(random),
    };
    if random.one_in(4) {
        damage(random, &mut octets);
    }
    octets
}

/// Room for a menu that is made, or a little less.
pub fn menu_room(random: &mut Random) -> usize {
    if random.one_in(3) {
        random.below(8)
    } else {
        7 + random.below(8)
    }
}

const CI_SYNC: [u8; 10] = [0, 0, 0, 0, 0, 0, 0, 0, 0, 1];
const MENU_SYNC: [u8; 10] = [0, 0, 0, 0, 0, 0, 1, 1, 1, 1];
const V92_SYNC: [u8; 10] = [0, 1, 0, 1, 0, 1, 0, 1, 0, 1];

fn add_octet(line: &mut Vec<u8>, octet: u8) {
    line.push(0);
    line.extend((0..8).map(|number| octet >> number & 1));
    line.push(1);
}

fn add(line: &mut Vec<u8>, count: usize, mut bit: impl FnMut() -> u8) {
    line.extend((0..count).map(|_| bit()));
}

fn add_cj(random: &mut Random, line: &mut Vec<u8>) {
    let octets = if random.one_in(4) { random.below(6) } else { 3 };
    (0..octets).for_each(|_| add_octet(line, 0x00));
}

/// A sequence, mostly more than once, as it was sent or with too few 1s before it.
fn add_sequences(random: &mut Random, line: &mut Vec<u8>) {
    let (sync, octets) = match random.below(12) {
        0 => (V92_SYNC, menu(random)),
        1 => (std::array::from_fn(|_| random.byte() % 2), menu(random)),
        2..=4 => (CI_SYNC, ci(random)),
        5 => (MENU_SYNC, Vec::new()),
        _ => (MENU_SYNC, menu(random)),
    };
    for _ in 0..1 + random.below(3) {
        let ones = if random.one_in(6) { random.below(14) } else { 10 };
        add(line, ones, || 1);
        line.extend(sync);
        octets.iter().for_each(|&octet| add_octet(line, octet));
        if random.one_in(12) {
            add_cj(random, line);
        }
    }
    // A CI with the octets of the menu before it.
    if random.one_in(12) {
        for sync in [CI_SYNC, MENU_SYNC] {
            add(line, 10, || 1);
            line.extend(sync);
            octets.iter().for_each(|&octet| add_octet(line, octet));
        }
    }
}

/// The bytes of a line.
pub fn line(random: &mut Random) -> Vec<u8> {
    let mut line = Vec::new();
    for _ in 0..1 + random.below(3) {
        let some = random.below(40);
        match random.below(12) {
            0 => add_cj(random, &mut line),
            1 => add(&mut line, some, || 1),
            2 => add(&mut line, some, || 0),
            3 => add(&mut line, some, || random.byte() % 2),
            _ => add_sequences(random, &mut line),
        }
    }
    if !random.one_in(4) {
        add(&mut line, 10, || 1);
    }
    while random.one_in(2) {
        let at = random.below(line.len() + 1);
        match (random.below(7), line.get_mut(at)) {
            (0 | 1, Some(bit)) => *bit ^= 1,
            (2, Some(_)) => drop(line.remove(at)),
            (3, _) => line.insert(at, random.byte() % 2),
            (4, _) => line.insert(at, random.byte()),
            (5, _) => line.truncate(at),
            _ => drop(line.drain(..at)),
        }
    }
    line
}

/// A listening record in its ranges, most of which no bits lead to.
pub fn listener(random: &mut Random) -> c::Listener {
    let mut message = || c::Message {
        kind: random.byte() % 3,
        len: if random.one_in(2) { random.of(&[0, 1, 5, 63, 64]) } else { random.below(65) as u8 },
        octets: std::array::from_fn(|_| random.byte()),
    };
    let (msg, last) = (message(), message());
    let ear = c::Ear { past: random.word(), heard: random.below(31) as u32, place: random.below(29) as u32 };
    c::Listener { ear, msg, last }
}

/// Puts a number of a listening record outside its range.
pub fn damage_listener(random: &mut Random, record: &mut c::Listener) {
    let above = |random: &mut Random, most: u32, all: u32| random.of(&[most + 1, most + 2, all / 2 + 1, all - 1, all]);
    match random.below(6) {
        0 => record.ear.heard = above(random, 30, u32::MAX),
        1 => record.ear.place = above(random, 28, u32::MAX),
        2 => record.msg.kind = above(random, 2, 255) as u8,
        3 => record.msg.len = above(random, 64, 255) as u8,
        4 => record.last.kind = above(random, 2, 255) as u8,
        _ => record.last.len = above(random, 64, 255) as u8,
    }
}

/// Writes over the octets that have no meaning.
pub fn scribble(random: &mut Random, record: &mut c::Listener) {
    for message in [&mut record.msg, &mut record.last] {
        let meant = usize::from(message.len);
        message.octets[meant..].iter_mut().for_each(|octet| *octet = random.byte());
    }
}

/// A time of the clock, often one where it is about to wrap.
pub fn time(random: &mut Random) -> u32 {
    match random.below(4) {
        0 => random.below(20_000) as u32,
        1 => u32::MAX - random.below(20_000) as u32,
        2 => random.of(&[0, 1, (1 << 31) - 1, 1 << 31, u32::MAX]),
        _ => random.word(),
    }
}

pub fn te(random: &mut Random) -> u32 {
    match random.below(4) {
        0 => random.of(&[0, 1, 499, 5001, 65_536 + 500, u32::MAX]),
        1 => random.of(&[500, 501, 4999, 5000]),
        _ => 500 + random.below(4501) as u32,
    }
}

/// The function of a caller's CI.
pub fn ci_function(random: &mut Random) -> u8 {
    match random.below(8) {
        0 => random.of(&[0, 7, 8, 32 + 1, 255]),
        _ => 1 + random.byte() % 6,
    }
}

/// How many CI an on period has.
pub fn on(random: &mut Random) -> u8 {
    match random.below(8) {
        0 => random.of(&[0, 1, 2, 21, 22, 255]),
        1..=4 => random.of(&[3, 3, 4, 5, 19, 20]),
        _ => 3 + random.byte() % 18,
    }
}

/// How many bit times of silence are behind them.
pub fn off(random: &mut Random) -> u16 {
    match random.below(8) {
        0 => random.of(&[0, 118, 119, 601, 602, 65_535]),
        1..=4 => random.of(&[120, 120, 121, 599, 600]),
        _ => 120 + random.below(481) as u16,
    }
}

/// A caller's cadence within its ranges: as it is before calling, behind a few bits, or far on; the places that count most often are
/// the ends of sequences and of periods.
fn cadence(random: &mut Random, is_still: bool) -> c::Cadence {
    let mut cadence = c::Cadence {
        off: off(random).clamp(120, 600),
        on: on(random).clamp(3, 20),
        function: 1 + random.byte() % 6,
        ..c::Cadence::default()
    };
    if is_still {
        return cadence;
    }
    let period = 30 * u16::from(cadence.on) + cadence.off;
    let (place, sent) = match random.below(3) {
        0 => {
            let sent = random.below(90) as u8;
            (sent.into(), sent)
        }
        1 => (random.below(period.into()) as u16, 90),
        _ => {
            let sequences = random.below(usize::from(cadence.on) + 1) as u16;
            let end = random.of(&[30 * sequences, period]);
            ((end + period + random.below(3) as u16 - 1) % period, 90)
        }
    };
    (cadence.place, cadence.sent) = (place, sent);
    cadence.tone = random.of(&[0, 0, 0, 1, 1, 2]);
    cadence
}

/// Puts a number of a cadence outside its range, mostly.
fn damage_cadence(random: &mut Random, cadence: &mut c::Cadence) {
    let period = 30 * u16::from(cadence.on) + cadence.off;
    match random.below(7) {
        0 => cadence.function = ci_function(random),
        1 => cadence.on = on(random),
        2 => cadence.off = off(random),
        3 => cadence.place = random.of(&[period, period + 1, 65_535, 0, cadence.place + 1]),
        4 => cadence.sent = random.of(&[91, 89, 255, 0, cadence.sent + 1]),
        5 => cadence.tone = random.of(&[3, 4, 255, 1, 2]),
        _ => *cadence = c::Cadence::default(),
    }
}

/// A session whose numbers are near their ranges, mostly in them.
pub fn session(random: &mut Random) -> c::Session {
    let end = random.of(&[1, 2]);
    let states: &[u8] = if end == 1 { &[1, 2, 2, 2, 3, 4, 5, 6, 6, 10] } else { &[6, 6, 7, 8, 9, 9, 10] };
    let state = random.of(states);
    let chooses = matches!(state, 5 | 6 | 9 | 10);
    let mut session = c::Session {
        entry: time(random),
        te: if end == 1 { 500 + random.below(4501) as u32 } else { 0 },
        cadence: if end == 1 { cadence(random, state == 1) } else { c::Cadence::default() },
        end,
        state,
        chosen: if chooses { choice(random) as u8 } else { 0 },
        ended: if state == 10 { 1 + random.byte() % 5 } else { 0 },
    };
    match random.below(12) {
        0 => session.te = te(random),
        1 => session.end = random.of(&[0, 1, 2, 3, 255]),
        2 => session.state = random.byte() % 13,
        3 => session.chosen = if random.one_in(2) { random.byte() % 26 } else { random.byte() },
        4 => session.ended = random.byte() % 8,
        5 | 6 => damage_cadence(random, &mut session.cadence),
        _ => {}
    }
    session
}

/// How many bits of its cadence a session is asked for: none, a few, up to the end of a sequence or to the third, a period and more; once in
/// a long time more than a number of the session can hold.
pub fn asked_for(random: &mut Random, session: &c::Session) -> usize {
    let c::Cadence { off, place, on, sent, .. } = session.cadence;
    let to_end = 30 - usize::from(place) % 30;
    let to_third = 90usize.saturating_sub(sent.into());
    let period = 30 * usize::from(on) + usize::from(off);
    let to_period = period.saturating_sub(place.into());
    match random.below(16) {
        0 => random.below(2),
        1..=4 => random.below(35),
        5..=7 => to_end + random.below(3) - 1,
        8..=10 => to_third.max(1) + random.below(3) - 1,
        11 | 12 => to_period.max(1) + random.below(3) - 1,
        13 | 14 => random.below(700),
        _ if random.one_in(40) => 65_536 + random.below(1300),
        _ => random.below(3000),
    }
}

fn choice(random: &mut Random) -> i32 {
    match random.below(4) {
        0 => 0,
        1 => 17 + random.below(7) as i32,
        _ => 1 + random.below(12) as i32,
    }
}

/// An event for a session, what it carries, and its time: mostly the one that the call waits for.
pub fn event(random: &mut Random, session: &c::Session) -> (u8, i32, u32) {
    const CALLERS: [u8; 6] = [1, 2, 3, 4, 5, 9];
    const ANSWERERS: [u8; 4] = [6, 7, 8, 9];
    let (awaited, wait): (&[u8], u32) = match session.state {
        1 => (&[9], 1000),
        2 if session.cadence.tone == 0 => (&[1, 1, 1, 2, 3, 9], 0),
        2 => (&[9, 9, 9, 9, 1, 2, 3], 0),
        3 => (&[9], session.te),
        4 => (&[4, 4, 9], 10_000),
        5 => (&[5], 0),
        6 => (&[9], 75),
        7 => (&[9], 200),
        8 => (&[6, 6, 7, 9], 5000),
        9 => (&[7, 8, 9], 10_000),
        _ => (&CALLERS, 0),
    };
    let event = match random.below(12) {
        0 => random.byte(),
        1 => random.of(if session.end == 1 { &ANSWERERS } else { &CALLERS }),
        2 | 3 => random.of(if session.end == 1 { &CALLERS } else { &ANSWERERS }),
        _ => random.of(awaited),
    };
    let value = match random.below(12) {
        0 => random.below(60) as i32 - 20,
        1 => random.of(&[i32::MIN, i32::MAX, -256, 256 + 3, 65_536, -11]),
        2 => -11,
        3..=5 if session.state == 9 => i32::from(session.chosen),
        _ => choice(random),
    };
    let elapsed = match random.below(16) {
        0 => random.of(&[(1 << 31) - 1, 1 << 31, (1 << 31) + 1]),
        1 => random.of(&[u32::MAX, u32::MAX - 70, 0, 1]),
        2 => random.word(),
        3..=5 => random.below(12_000) as u32,
        6 | 7 => wait.wrapping_sub(1),
        8..=11 => wait,
        _ => wait.wrapping_add(random.below(100) as u32),
    };
    (event, value, session.entry.wrapping_add(elapsed))
}
