//! A menu read in plain Rust: the first group of each tag, and the items as five bits of each extension octet.
use super::{is_category, readable};
use crate::{c::Offer, Refusal};

/// The first group of a tag, empty where there is none.
fn group(octets: &[u8], tag: u8) -> &[u8] {
    let Some(place) = octets.iter().position(|octet| octet & 0x1f == tag) else {
        return &[];
    };
    let extensions = octets[place + 1..].iter().take_while(|octet| !is_category(**octet)).count();
    &octets[place..][..1 + extensions]
}

fn options(group: &[u8]) -> u8 {
    group.first().map_or(0, |octet| octet >> 5)
}

fn items(modulation: &[u8]) -> u16 {
    let five = |at| modulation.get(at).map_or(0, |&octet: &u8| u16::from(octet & 0x07 | octet >> 3 & 0x18));
    u16::from(options(modulation)) | five(1) << 3 | five(2) << 8
}

/// Reads a menu. Kept a call of its own, as a call over the C ABI is.
#[inline(never)]
pub fn read(octets: &[u8]) -> Result<Offer, Refusal> {
    readable(octets)?;
    let access = group(octets, 13);
    Ok(Offer {
        function: options(octets),
        items: items(group(octets, 5)),
        pcm: if access.is_empty() { 0 } else { options(group(octets, 7)) },
        lapm: options(group(octets, 10)) == 1,
        access: !access.is_empty(),
        access_options: options(access),
    })
}
