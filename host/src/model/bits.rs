//! "Bits on the line": octets by their bits, and what is written.
use super::{Mistake, Model, Refusal};

/// The kinds of sequences that are written and heard.
#[derive(Clone, Copy, Debug, PartialEq, Eq)]
pub enum Kind {
    Ci,
    /// CM and JM.
    Menu,
}

impl Kind {
    /// The table's sync bits.
    pub(super) fn sync(self) -> [u8; 10] {
        match self {
            Kind::Ci => [0, 0, 0, 0, 0, 0, 0, 0, 0, 1],
            Kind::Menu => [0, 0, 0, 0, 0, 0, 1, 1, 1, 1],
        }
    }
}

/// "with n from 1 to 64".
pub(super) const MOST_OCTETS: usize = 64;

/// "b0 first, weight 1".
pub(super) fn bit(octet: u8, number: u8) -> bool {
    (octet >> number) & 1 == 1
}

/// "A category octet has b4 = 0 and a tag in b0 to b3."
pub(super) fn is_category(octet: u8) -> bool {
    !bit(octet, 4)
}

pub(super) fn tag(octet: u8) -> u8 {
    octet % 16
}

/// "An extension octet has b4 = 1, b3 = 0, b5 = 0."
pub(super) fn is_extension(octet: u8) -> bool {
    bit(octet, 4) && !bit(octet, 3) && !bit(octet, 5)
}

/// Refusal 3: "b4 = 1 with b3 or b5 = 1".
pub(super) fn is_bad(octet: u8) -> bool {
    !is_category(octet) && !is_extension(octet)
}

/// Refusals 4 and 5, with which reading and writing begin: "over 64 octets"; "first octet not tag 1 with b4 = 0, no octets".
pub(super) fn begins_well(octets: &[u8]) -> Result<(), Refusal> {
    if octets.len() > MOST_OCTETS {
        return Err(Refusal(4));
    }
    match octets.first() {
        Some(&first) if is_category(first) && tag(first) == 1 => Ok(()),
        _ => Err(Refusal(5)),
    }
}

/// "The writer accepts a menu whose first octet is a category octet with tag 1 and whose others are extension octets or category
/// octets with a tag other than 0. For CI only the first octet and extension octets are accepted." Otherwise "4, 5, then at the
/// first bad octet 3 or 12".
fn accepted(kind: Kind, octets: &[u8]) -> Result<(), Refusal> {
    begins_well(octets)?;
    for &octet in &octets[1..] {
        if is_bad(octet) {
            return Err(Refusal(3));
        }
        if is_category(octet) && (kind == Kind::Ci || tag(octet) == 0) {
            return Err(Refusal(12));
        }
    }
    Ok(())
}

/// "Each octet is 0, then b0 to b7 (b0 first, weight 1), then 1."
fn framed(octet: u8) -> Vec<u8> {
    let mut bits = vec![0];
    bits.extend((0..8).map(|number| u8::from(bit(octet, number))));
    bits.push(1);
    bits
}

/// "A sequence is ten 1s, ten sync bits, then octets."
fn sequence(kind: Kind, octets: &[u8]) -> Vec<u8> {
    let mut bits = vec![1; 10];
    bits.extend(kind.sync());
    bits.extend(octets.iter().flat_map(|&octet| framed(octet)));
    bits
}

/// "CJ is the octet 00 three times, each framed, with no preamble: 30 bits."
#[rustfmt::skip]
pub(super) const CJ: [u8; 30] = [
    0, 0, 0, 0, 0, 0, 0, 0, 0, 1,
    0, 0, 0, 0, 0, 0, 0, 0, 0, 1,
    0, 0, 0, 0, 0, 0, 0, 0, 0, 1,
];

impl Model {
    /// The bits that go to the start of a lent buffer of so many bytes. "The writer writes a stated number of copies, 0 to
    /// 65,535"; "later bytes keep their values".
    pub fn write(&self, kind: Kind, octets: &[u8], copies: u16, room: usize) -> Result<Vec<u8>, Refusal> {
        accepted(kind, octets)?;
        let copy = sequence(kind, octets);
        let copies = usize::from(copies);
        let asked = if self.makes(Mistake::RoomForOne) { copies.min(1) } else { copies };
        if room < asked * copy.len() {
            return Err(Refusal(6));
        }
        Ok(copy.repeat(copies))
    }

    /// "CJ has its own call: once, 30 bits, or refusal 6."
    pub fn write_cj(&self, room: usize) -> Result<Vec<u8>, Refusal> {
        if room < CJ.len() {
            return Err(Refusal(6));
        }
        Ok(CJ.to_vec())
    }
}
