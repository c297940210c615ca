//! "Octets of the menu": groups, and what a menu says.
use super::{
    bits::{begins_well, bit, is_bad, is_category, tag},
    Mistake, Model, Refusal,
};

/// The table's tags.
pub(super) const CALL_FUNCTION: u8 = 1;
pub(super) const MODULATION: u8 = 5;
pub(super) const PCM: u8 = 7;
pub(super) const PROTOCOL: u8 = 10;
pub(super) const ACCESS: u8 = 13;

/// "1 is LAPM".
pub(super) const LAPM: u8 = 1;

/// Where each item from 0 to 12 stands: the octet of the modulation group, counted from its category octet, and the bit. "Items 0,
/// 1, 2 are b5, b6, b7 of the modulation category octet. Items 3 to 7 are b0, b1, b2, b6, b7 of the first extension octet, items
/// 8 to 12 the same bits of the second."
pub(super) const ITEMS: [(usize, u8); 13] =
    [(0, 5), (0, 6), (0, 7), (1, 0), (1, 1), (1, 2), (1, 6), (1, 7), (2, 0), (2, 1), (2, 2), (2, 6), (2, 7)];

/// "b5 to b7 as a number, b5 lowest".
pub(super) fn options(octet: u8) -> u8 {
    octet / 32
}

/// "b5 analogue, b6 digital, b7 V.91".
#[derive(Clone, Copy, Debug, PartialEq, Eq)]
pub struct Pcm {
    pub analogue: bool,
    pub digital: bool,
    pub v91: bool,
}

impl Pcm {
    pub(super) fn of(options: u8) -> Self {
        Pcm { analogue: bit(options, 0), digital: bit(options, 1), v91: bit(options, 2) }
    }

    /// The options as a number, b5 lowest.
    pub fn options(self) -> u8 {
        u8::from(self.analogue) + 2 * u8::from(self.digital) + 4 * u8::from(self.v91)
    }
}

/// "b5 caller cellular, b6 answerer cellular, b7 digital network".
#[derive(Clone, Copy, Debug, PartialEq, Eq)]
pub struct Access {
    pub caller_cellular: bool,
    pub answerer_cellular: bool,
    pub digital: bool,
}

impl Access {
    fn of(options: u8) -> Self {
        Access { caller_cellular: bit(options, 0), answerer_cellular: bit(options, 1), digital: bit(options, 2) }
    }

    /// The options as a number, b5 lowest.
    pub fn options(self) -> u8 {
        u8::from(self.caller_cellular) + 2 * u8::from(self.answerer_cellular) + 4 * u8::from(self.digital)
    }
}

/// What a menu says.
#[derive(Clone, Debug, PartialEq, Eq)]
pub struct Menu {
    pub function: u8,
    /// Item numbers, the lowest first, item 0 among them.
    pub items: Vec<u8>,
    /// The PCM options, where the group counts.
    pub pcm: Option<Pcm>,
    pub lapm: bool,
    pub access: Option<Access>,
}

/// "reading or writing octets 4, 5, then at the first bad octet 3".
pub(super) fn readable(octets: &[u8]) -> Result<(), Refusal> {
    begins_well(octets)?;
    if octets.iter().any(|&octet| is_bad(octet)) {
        return Err(Refusal(3));
    }
    Ok(())
}

impl Model {
    /// "To look for a tag gives the place of its first group, or the answer that there is none"; "looking refuses with 4, 5 and 3 as
    /// reading does; a tag over 15 is nowhere".
    pub fn find(&self, octets: &[u8], sought: u8) -> Result<Option<usize>, Refusal> {
        readable(octets)?;
        Ok(self.place(octets, sought))
    }

    pub(super) fn place(&self, octets: &[u8], sought: u8) -> Option<usize> {
        let begins = |&octet: &u8| is_category(octet) && tag(octet) == sought;
        if self.makes(Mistake::LastGroup) {
            return octets.iter().rposition(begins);
        }
        octets.iter().position(begins)
    }

    /// "With a place one can get back that stretch of the lent message itself, up to the next octet with b4 = 0; a place that holds
    /// no category octet gives the empty part."
    pub fn part<'a>(&self, octets: &'a [u8], place: usize) -> &'a [u8] {
        match octets.get(place) {
            Some(&octet) if is_category(octet) => {
                let behind = &octets[place + 1..];
                let extensions = behind.iter().position(|&octet| is_category(octet)).unwrap_or(behind.len());
                &octets[place..place + 1 + extensions]
            }
            _ => &[],
        }
    }

    /// "The first group of a tag counts."
    pub(super) fn group<'a>(&self, octets: &'a [u8], sought: u8) -> Option<&'a [u8]> {
        Some(self.part(octets, self.place(octets, sought)?))
    }

    /// Reads a menu. What is in none of its groups is skipped: "tags not in the table, 15 too, are skipped with their extension
    /// octets, as are extension octets past those defined".
    pub fn read(&self, octets: &[u8]) -> Result<Menu, Refusal> {
        readable(octets)?;
        let options_of = |sought| self.group(octets, sought).map(|group| options(group[0]));
        let modulation = self.group(octets, MODULATION).unwrap_or(&[]);
        let item_stands = |item: &u8| {
            let (octet, number) = ITEMS[usize::from(*item)];
            modulation.get(octet).is_some_and(|&octet| bit(octet, number))
        };
        let access = options_of(ACCESS).map(Access::of);
        // "A PCM group counts only where its options are not 0 and an access group stands too".
        let counts = |options: &u8| *options != 0 && (access.is_some() || self.makes(Mistake::PcmWithoutAccess));
        Ok(Menu {
            function: options_of(CALL_FUNCTION).unwrap_or(0),
            items: (0..13).filter(item_stands).collect(),
            pcm: options_of(PCM).filter(counts).map(Pcm::of),
            lapm: options_of(PROTOCOL) == Some(LAPM),
            access,
        })
    }
}
