//! "Menus we make": the record of an end, CM, JM and the call function octet.
use super::{
    bits::MOST_OCTETS,
    fields::FIELD,
    octets::{options, ACCESS, CALL_FUNCTION, ITEMS, LAPM, MODULATION, PCM, PROTOCOL},
    Access, Menu, Mistake, Model, Pcm, Refusal,
};

/// "A record has, for each function 1 to 6: available or not, a set of items from 1 to 12, PCM options 0 to 7. It also has a home
/// function, LAPM wanted, access wanted, cellular, digital."
#[derive(Clone, Debug, PartialEq, Eq)]
pub struct Record {
    /// Functions 1 to 6 in turn.
    pub functions: [Function; 6],
    pub home: u8,
    pub lapm: bool,
    pub access: bool,
    pub cellular: bool,
    pub digital: bool,
}

#[derive(Clone, Debug, PartialEq, Eq)]
pub struct Function {
    pub available: bool,
    /// Item numbers, the lowest first.
    pub items: Vec<u8>,
    pub pcm: u8,
}

impl Record {
    /// The function of this number, if it is an available one; "0 and 7 never available".
    fn available(&self, number: u8) -> Option<&Function> {
        let place = usize::from(number).checked_sub(1)?;
        self.functions.get(place).filter(|function| function.available)
    }

    /// "It is bad (10) if the home function isn't an available one, if a set holds anything outside 1 to 12, if PCM options exceed
    /// 7, or if PCM b5 or b6 is set without item 1 in the same function. All six functions are tested".
    fn tested(&self) -> Result<(), Refusal> {
        let bad_function = |function: &Function| {
            let pcm = Pcm::of(function.pcm);
            function.items.iter().any(|item| !(1..=12).contains(item))
                || function.pcm > 7
                || (pcm.analogue || pcm.digital) && !function.items.contains(&1)
        };
        if self.available(self.home).is_none() || self.functions.iter().any(bad_function) {
            return Err(Refusal(10));
        }
        Ok(())
    }
}

/// In which of the two lent menus the call function octet stands.
#[derive(Clone, Copy, Debug, PartialEq, Eq)]
pub enum Source {
    Heard,
    Own,
}

/// A category octet: the tag in b0 to b3, the options in b5 to b7.
pub(super) fn category(tag: u8, options: u8) -> u8 {
    tag + 32 * options
}

/// "The modulation group has always three octets", but for the JM of which request 03 says otherwise.
const THREE: usize = 3;

/// The modulation group of a menu that we make, in so many octets: a category octet and extension octets, or no group. Item 0 goes with
/// PCM: it "says only that PCM is present". Request 03: "extra ones are 10 hex, and item 0 still goes with PCM if a group is there".
fn modulation(menu: &Menu, count: usize) -> Vec<u8> {
    let mut group: Vec<u8> = (0..count).map(|place| if place == 0 { MODULATION } else { 0x10 }).collect();
    let item_0 = menu.pcm.map(|_| 0);
    for item in menu.items.iter().copied().chain(item_0) {
        let (place, number) = ITEMS[usize::from(item)];
        if let Some(octet) = group.get_mut(place) {
            *octet |= 1 << number;
        }
    }
    group
}

/// "Group order is house: call function, modulation, PCM, protocol, access."
fn made(menu: &Menu, modulation: Vec<u8>) -> Vec<u8> {
    let mut octets = vec![category(CALL_FUNCTION, menu.function)];
    octets.extend(modulation);
    octets.extend(menu.pcm.map(|pcm| category(PCM, pcm.options())));
    octets.extend(menu.lapm.then_some(category(PROTOCOL, LAPM)));
    octets.extend(menu.access.map(|access| category(ACCESS, access.options())));
    octets
}

/// The octets that go to the start of a lent buffer of so many bytes, or refusal 6: "lent buffer too short".
pub(super) fn fitting(octets: Vec<u8>, room: usize) -> Result<Vec<u8>, Refusal> {
    if room < octets.len() {
        return Err(Refusal(6));
    }
    Ok(octets)
}

impl Model {
    /// "CM for an available function: its items; PCM if its options aren't 0, with item 0 then set; LAPM if wanted; access if wanted
    /// or PCM is there, b5 cellular, b6 0, b7 digital." Request 02: "The field stands last in CM"; its octets are those of our own
    /// blocks. Order: "in making a CM 10, 5, 4, 14, 6".
    pub fn cm(&self, own: &Record, function: u8, blocks: &[u8], room: usize) -> Result<Vec<u8>, Refusal> {
        own.tested()?;
        let ours = own.available(function).ok_or(Refusal(5))?;
        let pcm = Some(Pcm::of(ours.pcm)).filter(|_| ours.pcm != 0);
        let access = Access { caller_cellular: own.cellular, answerer_cellular: false, digital: own.digital };
        let menu = Menu {
            function,
            items: ours.items.clone(),
            pcm,
            lapm: own.lapm,
            access: (own.access || pcm.is_some()).then_some(access),
        };
        let mut octets = made(&menu, modulation(&menu, THREE));
        let field_at = match menu.access {
            Some(_) if self.makes(Mistake::FieldBeforeAccess) => octets.len() - 1,
            _ => octets.len(),
        };
        octets.splice(field_at..field_at, self.field(blocks));
        if self.makes(Mistake::BlocksBeforeSize) {
            self.blocks(blocks)?;
        }
        // "4 also for a CM that would pass 64 octets with the field".
        if octets.len() > MOST_OCTETS && !self.makes(Mistake::FieldNotCounted) {
            return Err(Refusal(4));
        }
        self.blocks(blocks)?;
        fitting(octets, room)
    }

    /// JM for a heard CM. Request 02: "The field stands last in CM; JM never carries it." Order: 10, "then the heard CM's refusals",
    /// then 4 of request 03, then 6.
    pub fn jm(&self, own: &Record, heard: &[u8], room: usize) -> Result<Vec<u8>, Refusal> {
        own.tested()?;
        let theirs = self.read(heard)?;
        let (function, items, pcm) = match own.available(theirs.function) {
            // "Function available: the same function, items in both."
            Some(ours) => {
                let items = self.shared_items(&ours.items, &theirs.items);
                let pcm = theirs.pcm.and_then(|theirs| self.joined(Pcm::of(ours.pcm), theirs, items.contains(&1)));
                (theirs.function, items, pcm)
            }
            // "Function not available: the home function, no items, no PCM."
            None => (own.home, Vec::new(), None),
        };
        // "Access if wanted, if their b5 is 1, or with PCM: b5 as theirs (0 if absent), b6 cellular, b7 digital."
        let caller_cellular = match theirs.access {
            _ if self.makes(Mistake::AccessB5) => own.cellular,
            Some(access) => access.caller_cellular,
            None => false,
        };
        let access = Access { caller_cellular, answerer_cellular: own.cellular, digital: own.digital };
        let menu = Menu {
            function,
            items,
            pcm,
            // "LAPM if theirs says so and ours wants it."
            lapm: theirs.lapm && own.lapm,
            access: (own.access || caller_cellular || pcm.is_some()).then_some(access),
        };
        let mut octets = made(&menu, self.answering(&menu, heard));
        if self.makes(Mistake::JmWithField) {
            octets.extend(self.group(heard, FIELD).unwrap_or(&[]));
        }
        if self.makes(Mistake::RoomBeforeSize) {
            octets = fitting(octets, room)?;
        }
        // "A JM that would pass 64 octets is refused with 4, just before 6."
        if octets.len() > MOST_OCTETS && !self.makes(Mistake::JmOf65) {
            return Err(Refusal(4));
        }
        fitting(octets, room)
    }

    /// The modulation group of a JM. Of the heard one it has the items in both and, where there are none, the count; all else that was
    /// heard there is left out.
    fn answering(&self, jm: &Menu, heard: &[u8]) -> Vec<u8> {
        let mut group = modulation(jm, self.answering_octets(jm, heard));
        if self.makes(Mistake::Item0NeedsAMode) && jm.items.is_empty() {
            group.iter_mut().take(1).for_each(|octet| *octet &= !(1 << 5));
        }
        if self.makes(Mistake::Item0InExtension) && jm.pcm.is_some() {
            group.iter_mut().skip(1).take(1).for_each(|octet| *octet |= 1 << 5);
        }
        if self.makes(Mistake::ExtraCopied) {
            let heard = self.group(heard, MODULATION).unwrap_or(&[]);
            group.iter_mut().zip(heard).skip(THREE).for_each(|(octet, heard)| *octet = *heard);
        }
        group
    }

    /// How many octets that group has. Request 03: "with no mode in common, or with another function, JM holds the same number of
    /// modulation octets as CM"; "With a mode in common it stays at three." With another function no mode is in common either.
    fn answering_octets(&self, jm: &Menu, heard: &[u8]) -> usize {
        let three = match jm.items.is_empty() {
            false => !self.makes(Mistake::HeardCountAlways),
            true => {
                self.makes(Mistake::AlwaysThree)
                    || self.makes(Mistake::ThreeForAnotherFunction) && jm.function != options(heard[0])
                    || self.makes(Mistake::ThreeWithV91) && jm.pcm.is_some()
            }
        };
        if three {
            return THREE;
        }
        // "the count is that of the heard group, none if it had none".
        let counted = if self.makes(Mistake::LastCount) { Model::broken(Mistake::LastGroup) } else { *self };
        match counted.group(heard, MODULATION) {
            Some(group) if self.makes(Mistake::CountTo62) => group.len().min(62),
            Some(group) => group.len(),
            None if self.makes(Mistake::OneForNone) => 1,
            None if self.makes(Mistake::GroupForItem0) && jm.pcm.is_some() => 1,
            None => 0,
        }
    }

    /// "items in both", from 1 to 12: item 0 goes with our own PCM group alone.
    fn shared_items(&self, ours: &[u8], theirs: &[u8]) -> Vec<u8> {
        let shared = |item: &u8| match (ours.contains(item), theirs.contains(item)) {
            (true, true) => true,
            (ours, theirs) => self.makes(Mistake::Union) && (ours || theirs),
        };
        (1..=12).filter(shared).collect()
    }

    /// "PCM b5 if ours is analogue and theirs digital, b6 if ours is digital and theirs analogue, both only when item 1 is shared; b7
    /// if both have V.91. PCM is there when one of these is 1".
    fn joined(&self, ours: Pcm, theirs: Pcm, item_1_shared: bool) -> Option<Pcm> {
        let theirs = self.opposite(theirs);
        let pcm = Pcm {
            analogue: ours.analogue && theirs.analogue && item_1_shared,
            digital: ours.digital && theirs.digital && item_1_shared,
            v91: ours.v91 && theirs.v91,
        };
        (pcm.options() != 0).then_some(pcm)
    }

    /// The options that the other end's pair with: an analogue end goes with a digital one, V.91 with V.91.
    pub(super) fn opposite(&self, pcm: Pcm) -> Pcm {
        if self.makes(Mistake::PcmLike) {
            return pcm;
        }
        Pcm { analogue: pcm.digital, digital: pcm.analogue, v91: pcm.v91 }
    }

    /// "The call function octet is handed back as a part of one of two lent menus: the first octet of the heard CM, or of our own CM
    /// for the home function. With a bad record, or where reading either menu refuses, it is the empty part and no number; our own
    /// CM's function isn't tested."
    pub fn call_function(&self, own: &Record, heard: &[u8], own_cm: &[u8]) -> Option<(Source, u8)> {
        own.tested().ok()?;
        let theirs = self.read(heard).ok()?;
        self.read(own_cm).ok()?;
        match own.available(theirs.function) {
            Some(_) => Some((Source::Heard, heard[0])),
            None => Some((Source::Own, own_cm[0])),
        }
    }
}
