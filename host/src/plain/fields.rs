//! Makers' own fields in plain Rust: a field read, a CM with one made, and the block of a place.
use super::{is_category, readable};
use crate::{
    c::{Block, Modes, Record, Span},
    Refusal,
};

const FIELD: u8 = 15;

/// Room for the octets of any group.
const MOST: usize = 39;

/// Reads the field of a heard CM into `out`. Kept a call of its own, as a call over the C ABI is.
#[inline(never)]
pub fn fields(heard: &[u8], out: &mut [u8]) -> Result<usize, Refusal> {
    readable(heard)?;
    let Some(place) = heard.iter().position(|octet| octet & 0x1f == FIELD) else {
        return Ok(0);
    };
    let mut octets = [0; MOST];
    let (mut held, mut bits, mut count) = (0u16, 0, 0);
    for &octet in heard[place + 1..].iter().take_while(|octet| !is_category(**octet)) {
        held |= u16::from(octet & 0x07 | octet >> 3 & 0x18) << bits;
        bits += 5;
        if bits >= 8 {
            octets[count] = held as u8;
            count += 1;
            held >>= 8;
            bits -= 8;
        }
    }
    if heard[place] & 0xe0 != 0 || bits > 4 || held != 0 {
        return Err(Refusal(15));
    }
    let octets = &octets[..count];
    tested(octets)?;
    out.get_mut(..count).ok_or(Refusal(6))?.copy_from_slice(octets);
    Ok(count)
}

/// Goes over all blocks.
fn tested(octets: &[u8]) -> Result<(), Refusal> {
    let mut at = 0;
    while at < octets.len() {
        at += block(octets, at).ok_or(Refusal(14))?.whole.size;
    }
    Ok(())
}

fn block(octets: &[u8], place: usize) -> Option<Block> {
    let (&length, behind) = octets.get(place..)?.split_first()?;
    let block = behind.get(..usize::from(length))?;
    let country = block.iter().position(|&octet| octet != 255)? + 1;
    let provider = usize::from(*block.get(country)?);
    let codes = country + 1 + provider;
    let rest = block.len().checked_sub(codes)?;
    Some(Block {
        whole: Span { place, size: 1 + block.len() },
        country: Span { place: place + 1, size: country },
        provider: Span { place: place + 1 + country + 1, size: provider },
        rest: Span { place: place + 1 + codes, size: rest },
    })
}

/// The block that begins at a place, or numbers that are all 0. Kept a call of its own too.
#[inline(never)]
pub fn block_at(octets: &[u8], place: usize) -> Block {
    block(octets, place).unwrap_or_default()
}

fn is_bad_function(modes: &Modes) -> bool {
    modes.available > 1 || modes.items & !0x1ffe != 0 || modes.pcm > 7 || modes.pcm & 3 != 0 && modes.items & 2 == 0
}

fn available(own: &Record, function: u8) -> Option<&Modes> {
    own.functions.get(usize::from(function).checked_sub(1)?).filter(|modes| modes.available == 1)
}

/// Makes the CM of a record for a function into `out`, with our own blocks as its field. Kept a call of its own too.
#[inline(never)]
pub fn cm(own: &Record, function: u8, blocks: &[u8], out: &mut [u8]) -> Result<usize, Refusal> {
    let flags = own.lapm | own.access | own.cellular | own.digital;
    if own.functions.iter().any(is_bad_function) || available(own, own.home).is_none() || flags > 1 {
        return Err(Refusal(10));
    }
    let modes = available(own, function).ok_or(Refusal(5))?;
    let has_pcm = modes.pcm != 0;
    let has_access = own.access == 1 || has_pcm;
    let extensions = blocks.len().saturating_mul(8).div_ceil(5);
    let field = if blocks.is_empty() { 0 } else { extensions.saturating_add(1) };
    let groups = 4 + usize::from(has_pcm) + usize::from(own.lapm) + usize::from(has_access);
    if field > 64 - groups {
        return Err(Refusal(4));
    }
    tested(blocks)?;
    let out = out.get_mut(..groups + field).ok_or(Refusal(6))?;

    let items = modes.items;
    out[0] = 1 | function << 5;
    out[1] = 5 | u8::from(has_pcm) << 5 | ((items & 6) << 5) as u8;
    out[2] = extension(items >> 3);
    out[3] = extension(items >> 8);
    let mut at = 4;
    let mut push = |octet: u8| {
        out[at] = octet;
        at += 1;
    };
    if has_pcm {
        push(7 | modes.pcm << 5);
    }
    if own.lapm == 1 {
        push(0x2a);
    }
    if has_access {
        push(13 | own.cellular << 5 | own.digital << 7);
    }
    if let Some((category, extensions)) = out[groups..].split_first_mut() {
        *category = FIELD;
        pack(blocks, extensions);
    }
    Ok(groups + field)
}

/// The extension octet with the lowest five bits of a number.
fn extension(bits: u16) -> u8 {
    (0x10 | bits & 0x07 | (bits & 0x18) << 3) as u8
}

/// Writes the bits of octets to as many extension octets as they take.
fn pack(octets: &[u8], extensions: &mut [u8]) {
    let mut octets = octets.iter();
    let (mut held, mut bits) = (0u16, 0);
    for next in extensions {
        if bits < 5 {
            held |= octets.next().map_or(0, |&octet| u16::from(octet)) << bits;
            bits += 8;
        }
        *next = extension(held);
        held >>= 5;
        bits -= 5;
    }
}
