//! Request 06: "One mode, asked quickly." What is quoted here is of that request. There is no walk: the group is looked for in the whole
//! menu and cut out of it as for reading, and from that it is said how far a walk would have come.
use super::{
    bits::{begins_well, bit, is_bad},
    octets::{ITEMS, MODULATION},
    Mistake, Model, Refusal,
};

/// Whether a menu offers an item, and "The number of octets looked at".
#[derive(Clone, Copy, Debug, PartialEq, Eq)]
pub struct AskedItem {
    pub offered: bool,
    pub looked: usize,
}

/// What decides.
#[derive(Clone, Copy)]
enum Deciding {
    /// The octet at this place, counted from 0: that of the group which holds the item, or "the next category octet if the group is
    /// short".
    Octet { place: usize, holds: bool },
    /// There is no modulation group, or the menu ends within a short one.
    Nothing,
}

impl Model {
    /// "The call router only asks if a menu offers one item".
    pub fn asks(&self, octets: &[u8], item: u8) -> Result<AskedItem, Refusal> {
        let (held_in, number) = self.question(octets, item)?;
        let deciding = self.deciding(octets, held_in);
        if self.seen(octets, deciding).iter().any(|&octet| is_bad(octet)) {
            return Err(Refusal(3));
        }
        let offered = match deciding {
            Deciding::Octet { place, holds: true } => bit(octets[place], number),
            Deciding::Octet { holds: false, .. } | Deciding::Nothing => false,
        };
        Ok(AskedItem { offered, looked: self.looked(octets, deciding) })
    }

    /// Where in a modulation group the item stands. "4 and 5 as before"; "item not 1 to 12 is 9, first of all".
    fn question(&self, octets: &[u8], item: u8) -> Result<(usize, u8), Refusal> {
        let place = match item {
            0 if self.makes(Mistake::AskedItem0) => Ok(ITEMS[0]),
            // As if the items went on in a third extension octet.
            13 if self.makes(Mistake::AskedItem13) => Ok((3, 0)),
            1..=12 => Ok(ITEMS[usize::from(item)]),
            _ => Err(Refusal(9)),
        };
        match begins_well(octets) {
            Err(Refusal(4)) if self.makes(Mistake::AskedSizeFirst) => Err(Refusal(4)),
            Err(Refusal(5)) if self.makes(Mistake::AskedFunctionFirst) => Err(Refusal(5)),
            Err(Refusal(4)) if self.makes(Mistake::AskedLongMenu) => place,
            begins => place.and_then(|place| begins.map(|()| place)),
        }
    }

    /// "stop at the octet that decides, in the first modulation group, or at the next category octet if the group is short".
    fn deciding(&self, octets: &[u8], held_in: usize) -> Deciding {
        let Some(group) = self.asked_group(octets, held_in) else { return Deciding::Nothing };
        let size = match self.makes(Mistake::AskedPastShortGroup) {
            true => octets.len() - group,
            false => self.part(octets, group).len(),
        };
        match octets.get(group + size) {
            _ if held_in < size => Deciding::Octet { place: group + held_in, holds: true },
            Some(_) => Deciding::Octet { place: group + size, holds: false },
            None => Deciding::Nothing,
        }
    }

    /// The place of "the first modulation group".
    fn asked_group(&self, octets: &[u8], held_in: usize) -> Option<usize> {
        let sought = if self.makes(Mistake::AskedLastGroup) { Model::broken(Mistake::LastGroup) } else { *self };
        let group = sought.place(octets, MODULATION)?;
        let size = self.part(octets, group).len();
        let goes_on = held_in >= size && self.place(&octets[group + size..], MODULATION) == Some(0);
        Some(if goes_on && self.makes(Mistake::AskedSecondGroup) { group + size } else { group })
    }

    /// The octets of which a bad one is refused: "a bad octet past the deciding one isn't seen here, one before it or in its place is 3".
    fn seen<'a>(&self, octets: &'a [u8], deciding: Deciding) -> &'a [u8] {
        match deciding {
            Deciding::Octet { .. } if self.makes(Mistake::AskedSeesAll) => octets,
            Deciding::Octet { place, .. } if self.makes(Mistake::AskedDecidingNotSeen) => &octets[..place],
            Deciding::Octet { place, .. } if self.makes(Mistake::AskedDecidingAloneSeen) => &octets[place..=place],
            Deciding::Octet { place, .. } => &octets[..=place],
            Deciding::Nothing => octets,
        }
    }

    /// "equals the place of the deciding octet, counted from 1, or the list's length where nothing decides".
    fn looked(&self, octets: &[u8], deciding: Deciding) -> usize {
        let looked = match deciding {
            Deciding::Octet { holds: false, .. } if self.makes(Mistake::AskedLengthIfShort) => octets.len(),
            Deciding::Octet { place, holds: false } if self.makes(Mistake::AskedCategoryNotCounted) => place,
            Deciding::Octet { place, .. } if self.makes(Mistake::AskedFrom0) => place,
            Deciding::Octet { place, .. } => place + 1,
            Deciding::Nothing if self.makes(Mistake::AskedNothingIs0) => 0,
            Deciding::Nothing => octets.len(),
        };
        looked - usize::from(self.makes(Mistake::AskedFirstNotCounted))
    }
}
