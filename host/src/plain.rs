//! The same rules in plain Rust: what the benchmark measures the proved library against.
mod asking;
mod fields;
mod listener;
mod reading;
mod steps;

use crate::{Kind, Refusal};
pub use asking::asks;
pub use fields::{block_at, cm, fields};
pub use listener::{listing, Listener};
pub use reading::read;
pub use steps::{draw, step};

fn is_category(octet: u8) -> bool {
    octet & 0x10 == 0
}

fn is_bad(octet: u8) -> bool {
    octet & 0x10 != 0 && octet & 0x28 != 0
}

fn readable(octets: &[u8]) -> Result<(), Refusal> {
    match octets.first() {
        _ if octets.len() > 64 => Err(Refusal(4)),
        Some(first) if first & 0x1f == 1 => match octets.iter().any(|&octet| is_bad(octet)) {
            true => Err(Refusal(3)),
            false => Ok(()),
        },
        _ => Err(Refusal(5)),
    }
}

fn test(kind: Kind, octets: &[u8]) -> Result<(), Refusal> {
    if octets.len() > 64 {
        return Err(Refusal(4));
    }
    let Some((&first, rest)) = octets.split_first() else {
        return Err(Refusal(5));
    };
    if first & 0x1f != 1 {
        return Err(Refusal(5));
    }
    for &octet in rest {
        if is_bad(octet) {
            return Err(Refusal(3));
        }
        if is_category(octet) && (kind == Kind::Ci || octet & 0x0f == 0) {
            return Err(Refusal(12));
        }
    }
    Ok(())
}

/// Writes the copies from the start of `out`. Kept a call of its own, as a call over the C ABI is.
#[inline(never)]
pub fn write(kind: Kind, octets: &[u8], copies: u16, out: &mut [u8]) -> Result<usize, Refusal> {
    test(kind, octets)?;
    let size = 20 + 10 * octets.len();
    let total = size * copies as usize;
    if out.len() < total {
        return Err(Refusal(6));
    }
    let sync = match kind {
        Kind::Ci => [0, 0, 0, 0, 0, 0, 0, 0, 0, 1],
        Kind::Menu => [0, 0, 0, 0, 0, 0, 1, 1, 1, 1],
    };
    for copy in out[..total].chunks_exact_mut(size) {
        copy[..10].fill(1);
        copy[10..20].copy_from_slice(&sync);
        for (frame, &octet) in copy[20..].chunks_exact_mut(10).zip(octets) {
            frame[0] = 0;
            for (i, bit) in frame[1..9].iter_mut().enumerate() {
                *bit = octet >> i & 1;
            }
            frame[9] = 1;
        }
    }
    Ok(total)
}
