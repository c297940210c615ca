//! Document 02, request 02: "Makers' own fields, read and written." All that is quoted here is of that request.
use super::{
    bits::bit,
    octets::{options, readable},
    records::{category, fitting},
    Mistake, Model, Refusal,
};
use std::ops::Range;

/// "tag 15".
pub(super) const FIELD: u8 = 15;

/// "the five option bits of each extension octet, b0, b1, b2, b6, b7 in that order".
const OPTION_BITS: [u8; 5] = [0, 1, 2, 6, 7];

/// The option bits "are joined".
fn joined_options(extensions: &[u8]) -> Vec<bool> {
    extensions.iter().flat_map(|&octet| OPTION_BITS.map(|number| bit(octet, number))).collect()
}

/// The extension octet with these option bits, in this order; those that are missing are 0. It has b4 = 1, b3 = 0 and b5 = 0.
fn extension_octet(options: &[bool]) -> u8 {
    let stands = |(&option, number): (&bool, u8)| u8::from(option) << number;
    0x10 + options.iter().zip(OPTION_BITS).map(stands).sum::<u8>()
}

/// A block: where each of its parts stands in the lent octets. "reads of each block are parts of the lent octets".
#[derive(Clone, Debug, PartialEq, Eq)]
pub struct Block {
    /// With its length.
    pub whole: Range<usize>,
    pub country: Range<usize>,
    /// Without its length.
    pub provider: Range<usize>,
    pub rest: Range<usize>,
}

impl Model {
    /// The octets of the field of a heard CM, which go to the start of a lent buffer of so many bytes. "Where no tag 15 group stands, no
    /// blocks are read."; "order in reading 4, 5, 3, 15, 14, 6".
    pub fn fields(&self, heard: &[u8], room: usize) -> Result<Vec<u8>, Refusal> {
        readable(heard)?;
        let Some(group) = self.field_group(heard) else { return Ok(Vec::new()) };
        let joined = joined_options(&group[1..]);
        let eights = joined.chunks_exact(8);
        let left_over = eights.remainder();
        // "every eight make an octet".
        let octets: Vec<u8> = eights.map(|eight| self.octet(eight)).collect();
        if self.makes(Mistake::BlocksBeforePacking) {
            self.blocks(&octets)?;
        }
        self.well_packed(options(group[0]), left_over)?;
        self.blocks(&octets)?;
        fitting(octets, room)
    }

    /// The first group of the tag, as of every tag.
    fn field_group<'a>(&self, heard: &'a [u8]) -> Option<&'a [u8]> {
        let first = self.place(heard, FIELD)?;
        if self.makes(Mistake::SecondField) {
            if let Some(second) = self.group(&heard[first + 1..], FIELD) {
                return Some(second);
            }
        }
        Some(self.part(heard, first))
    }

    /// "at most four bits may be left over, and they are 0; the category octet's options are 0." Otherwise 15.
    fn well_packed(&self, options: u8, left_over: &[bool]) -> Result<(), Refusal> {
        let most = if self.makes(Mistake::FiveLeftOver) { 5 } else { 4 };
        let left_over_is_0 = !left_over.contains(&true) || self.makes(Mistake::AnyLeftOver);
        let options_are_0 = options == 0 || self.makes(Mistake::AnyOptions);
        if left_over.len() > most || !left_over_is_0 || !options_are_0 {
            return Err(Refusal(15));
        }
        Ok(())
    }

    /// "lowest first".
    fn octet(&self, eight: &[bool]) -> u8 {
        (0..8).filter(|&number| eight[self.place_of_bit(number)]).map(|number| 1 << number).sum()
    }

    fn bits(&self, octet: u8) -> [bool; 8] {
        let mut eight = [false; 8];
        (0..8).for_each(|number| eight[self.place_of_bit(number)] = bit(octet, number));
        eight
    }

    /// Where the bit of this number stands among the eight of an octet.
    fn place_of_bit(&self, number: u8) -> usize {
        usize::from(if self.makes(Mistake::LowestBitLast) { 7 - number } else { number })
    }

    /// The field that carries these octets: a category octet whose options are 0, and extension octets. "With no blocks CM has no field."
    pub fn field(&self, octets: &[u8]) -> Vec<u8> {
        if octets.is_empty() && !self.makes(Mistake::LoneCategory) {
            return Vec::new();
        }
        let joined: Vec<bool> = octets.iter().flat_map(|&octet| self.bits(octet)).collect();
        let mut field = vec![category(FIELD, 0)];
        field.extend(joined.chunks(OPTION_BITS.len()).map(extension_octet));
        field
    }

    /// "The walk over the blocks handles the first one and then does the same with what remains".
    pub fn blocks(&self, octets: &[u8]) -> Result<Vec<Block>, Refusal> {
        let mut blocks: Vec<Block> = Vec::new();
        let mut remains = 0;
        while remains < octets.len() && !(remains > 0 && self.makes(Mistake::OneBlock)) {
            let first = self.block_at(octets, remains)?;
            remains = first.whole.end;
            blocks.push(first);
        }
        Ok(blocks)
    }

    /// The block that begins at a place. "A block starts with a length that counts all that follows it; then the country code, which goes
    /// on past each octet of 255 and ends with the first other one; then the length of the provider code, that code, and the rest."
    /// Otherwise 14: "block longer than what remains or a code that doesn't fit in it".
    pub fn block_at(&self, octets: &[u8], place: usize) -> Result<Block, Refusal> {
        let no_block = Refusal(14);
        let length = usize::from(*octets.get(place).ok_or(no_block)?);
        let behind = place + 1;
        let end = if self.makes(Mistake::LengthCountsItself) { place + length } else { behind + length };
        let block = octets.get(behind..end).ok_or(no_block)?;

        let ends = |&octet: &u8| octet != 255 || self.makes(Mistake::CountryEndsAt255);
        let country_end = behind + block.iter().position(ends).ok_or(no_block)? + 1;

        let provider_length = block.get(country_end - behind).ok_or(no_block)?;
        let provider = country_end + 1;
        let provider_end = provider + usize::from(*provider_length);
        let most = if self.makes(Mistake::ProviderRunsOn) { octets.len() } else { end };
        if provider_end > most {
            return Err(no_block);
        }
        Ok(Block {
            whole: place..end,
            country: behind..country_end,
            provider: provider..provider_end,
            rest: provider_end..end.max(provider_end),
        })
    }

    /// The block of a number, the first having number 0. Where one is refused with 14 there is none.
    pub fn block_of(&self, octets: &[u8], number: usize) -> Option<Block> {
        self.blocks(octets).ok()?.into_iter().nth(number)
    }
}
