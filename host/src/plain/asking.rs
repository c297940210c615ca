//! One item asked for in plain Rust: a walk that stops at the octet that decides.
use super::{is_bad, is_category};
use crate::c::ItemAsked;

const MODULATION: u8 = 5;

/// Where items 1 to 12 stand: the octet of the group, counted from its category octet, and the bit in it.
static PLACES: [(u8, u8); 12] = [
    (0, 0x40),
    (0, 0x80),
    (1, 0x01),
    (1, 0x02),
    (1, 0x04),
    (1, 0x40),
    (1, 0x80),
    (2, 0x01),
    (2, 0x02),
    (2, 0x04),
    (2, 0x40),
    (2, 0x80),
];

fn answered(offered: bool, looked: usize) -> ItemAsked {
    ItemAsked { looked, code: offered.into() }
}

fn refused(number: i32) -> ItemAsked {
    ItemAsked { looked: 0, code: -number }
}

/// Asks whether a menu offers an item. Kept a call of its own, as a call over the C ABI is.
#[inline(never)]
pub fn asks(octets: &[u8], item: u8) -> ItemAsked {
    let Some(&(held_in, mask)) = PLACES.get(usize::from(item).wrapping_sub(1)) else {
        return refused(9);
    };
    if octets.len() > 64 {
        return refused(4);
    }
    if !octets.first().is_some_and(|first| first & 0x1f == 1) {
        return refused(5);
    }
    let mut looked = 1;
    while let Some(&octet) = octets.get(looked) {
        looked += 1;
        if is_bad(octet) {
            return refused(3);
        }
        if octet & 0x1f != MODULATION {
            continue;
        }
        let mut holder = octet;
        for _ in 0..held_in {
            let Some(&octet) = octets.get(looked) else {
                return answered(false, looked);
            };
            looked += 1;
            if is_bad(octet) {
                return refused(3);
            }
            if is_category(octet) {
                return answered(false, looked);
            }
            holder = octet;
        }
        return answered(holder & mask != 0, looked);
    }
    answered(false, looked)
}
