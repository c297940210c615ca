//! Inputs with makers' own fields: blocks, damaged ones, and menus that carry them.
use crate::{
    inputs::{self, damage, extension_octet, group, sound_menu},
    random::Random,
};
use tailsprig::model::Model;

/// The tag of a field.
pub const FIELD: u8 = 15;

/// A block that fits: its codes often long or empty, and what stands in it often like lengths and like country codes.
fn block(random: &mut Random) -> Vec<u8> {
    let full = match random.below(12) {
        0 => random.below(40),
        1..=3 => 1 + random.below(3),
        _ => 0,
    };
    let most = if random.one_in(24) { 90 } else { 5 };
    let (provider, rest) = (random.below(most), random.below(most));
    let few = random.one_in(2);
    let octet = |random: &mut Random| if few { random.of(&[0, 1, 2, 3, 254, 255]) } else { random.byte() };

    let mut octets = vec![255; full];
    octets.push(octet(random).min(254));
    octets.push(provider as u8);
    octets.extend((0..provider + rest).map(|_| octet(random)));
    octets.insert(0, octets.len() as u8);
    octets
}

/// Blocks that fit, so many octets of them; three at least.
fn filled(random: &mut Random, length: usize) -> Vec<u8> {
    let mut octets = Vec::new();
    loop {
        let block = block(random);
        let left = length - octets.len();
        match left.checked_sub(block.len()) {
            Some(0) => return [octets, block].concat(),
            // Room for one more.
            Some(3..) => octets.extend(block),
            // A last block that is as long as what is left.
            _ => {
                let provider = random.below(left - 2);
                octets.extend([left as u8 - 1, 0xb5, provider as u8]);
                octets.extend((3..left).map(|_| random.byte()));
                return octets;
            }
        }
    }
}

/// Where blocks begin, as far as one length leads to the next; and where the last one leads.
fn starts(octets: &[u8]) -> Vec<usize> {
    let mut starts = vec![0];
    let mut at = 0;
    while let Some(&length) = octets.get(at) {
        at += 1 + usize::from(length);
        starts.push(at);
    }
    starts
}

/// One edit to blocks: the length of a block or of a provider code that is off by a little, or any octet.
fn damage_blocks(random: &mut Random, octets: &mut Vec<u8>) {
    let off = random.of(&[1, 1, 2, 255, 255, 254]);
    let octet = if random.one_in(2) { random.byte() } else { random.of(&[0, 1, 2, 255]) };
    let start = random.of(&starts(octets));
    let country = octets.iter().skip(start + 1).take_while(|octet| **octet == 255).count() + 1;
    let at = random.below(octets.len() + 1);
    let mut change = |at: usize, new: &dyn Fn(u8) -> u8| {
        octets.get_mut(at).into_iter().for_each(|octet| *octet = new(*octet));
    };
    match random.below(9) {
        0 | 1 => change(start, &|length| length.wrapping_add(off)),
        2 | 3 => change(start + 1 + country, &|length| length.wrapping_add(off)),
        4 => change(start, &|_| octet),
        5 => change(at, &|_| octet),
        6 => octets.insert(at, octet),
        7 if at < octets.len() => drop(octets.remove(at)),
        _ => octets.truncate(at),
    }
}

/// So many blocks, often damaged.
fn some_blocks(random: &mut Random, count: usize) -> Vec<u8> {
    let mut octets: Vec<u8> = (0..count).flat_map(|_| block(random)).collect();
    while random.one_in(3) {
        damage_blocks(random, &mut octets);
    }
    octets
}

/// Octets for the walk: as many blocks as fields have, or many more; a country code without an end; or any octets.
pub fn blocks(random: &mut Random) -> Vec<u8> {
    match random.below(24) {
        0 => [vec![random.byte()], vec![255; random.below(300)]].concat(),
        1 => (0..random.below(20)).map(|_| random.byte()).collect(),
        2 => some_blocks(random, 300),
        3 | 4 => {
            let count = random.below(40);
            some_blocks(random, count)
        }
        _ => {
            let count = random.below(7);
            some_blocks(random, count)
        }
    }
}

/// The number of a block, or one that no block has.
pub fn number(random: &mut Random, octets: &[u8]) -> usize {
    match random.below(8) {
        0 => random.of(&[octets.len(), usize::MAX / 2, usize::MAX]),
        _ => random.below(starts(octets).len() + 1),
    }
}

/// The place at which a block begins, or any other.
pub fn place(random: &mut Random, octets: &[u8]) -> usize {
    match random.below(8) {
        0 => random.of(&[octets.len(), octets.len() + 1, usize::MAX - 255, usize::MAX]),
        1 | 2 => random.below(octets.len() + 1),
        _ => random.of(&starts(octets)),
    }
}

/// Our own blocks for a CM: none, a few, about as many octets as one can hold, or far more.
pub fn own_blocks(random: &mut Random) -> Vec<u8> {
    match random.below(8) {
        0 => Vec::new(),
        1 => blocks(random),
        2 | 3 => {
            let length = 33 + random.below(6);
            let mut octets = filled(random, length);
            if random.one_in(3) {
                damage_blocks(random, &mut octets);
            }
            octets
        }
        _ => {
            let count = 1 + random.below(3);
            some_blocks(random, count)
        }
    }
}

/// A group of tag 15, once in a few times one that is not packed as it should be.
fn field(random: &mut Random) -> Vec<u8> {
    let count = random.below(5);
    let carried = match random.below(8) {
        0 => {
            let length = 30 + random.below(10);
            filled(random, length)
        }
        _ => some_blocks(random, count),
    };
    let mut field = vec![FIELD];
    field.extend(Model::default().field(&carried).iter().skip(1));
    let last = field.len() - 1;
    match random.below(16) {
        0 => field[0] |= random.of(&[0x20, 0x40, 0x80, 0xe0]),
        1 | 2 if last > 0 => field[last] |= random.of(&[0x80, 0x40, 0x04, 0x02, 0x01]),
        3 => field.push(0x10),
        4 => field.push(extension_octet(random)),
        5 => field.truncate(last.max(1)),
        6 => {
            let extensions = random.below(63);
            field = group(random, FIELD, extensions);
        }
        _ => {}
    }
    field
}

/// A heard CM with a field, mostly: last or among its groups, once in a few times with another one; damaged as any menu.
pub fn heard(random: &mut Random) -> Vec<u8> {
    let mut octets = sound_menu(random);
    if random.one_in(3) {
        octets.truncate(1 + random.below(3));
    }
    for _ in 0..random.of(&[0, 1, 1, 1, 1, 2]) {
        let field = field(random);
        let at = if random.one_in(3) { 1 + random.below(octets.len()) } else { octets.len() };
        octets.splice(at..at, field);
    }
    if !random.one_in(4) {
        octets.truncate(64);
    }
    while random.one_in(6) {
        damage(random, &mut octets);
    }
    octets
}

/// Room for what the field of a heard CM holds: often exactly that, or one octet less.
pub fn room(random: &mut Random, heard: &[u8]) -> usize {
    let needed = Model::default().fields(heard, usize::MAX).map_or(0, |octets| octets.len());
    match random.below(6) {
        0 => random.below(40),
        1 => needed.saturating_sub(1),
        2 | 3 => needed,
        _ => needed + random.below(40),
    }
}

/// Room for a CM with our own blocks, or a little less.
pub fn cm_room(random: &mut Random, blocks: &[u8]) -> usize {
    let field = Model::default().field(blocks).len();
    match random.below(4) {
        0 => field + inputs::menu_room(random),
        1 => random.below(70),
        _ => 64 + random.below(10),
    }
}
