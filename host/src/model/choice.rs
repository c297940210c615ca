//! "Choice from CM and JM".
use super::{Mistake, Model, Pcm, Refusal};

#[derive(Clone, Copy, Debug, PartialEq, Eq)]
pub enum Choice {
    None,
    Item(u8),
    /// The options that pair, b5 lowest.
    Pcm(u8),
}

impl Model {
    /// "a counted PCM group in JM gives PCM; otherwise the lowest item from 1 to 12 in JM; otherwise none". Order: "CM, JM, 11".
    pub fn choice(&self, cm: &[u8], jm: &[u8]) -> Result<Choice, Refusal> {
        let cm = self.read(cm)?;
        let jm = self.read(jm)?;
        let lowest = if self.makes(Mistake::Item0) { 0 } else { 1 };
        let choice = match (jm.pcm, jm.items.iter().find(|item| **item >= lowest)) {
            (Some(pcm), _) => Choice::Pcm(self.paired(pcm, cm.pcm).options()),
            (None, Some(&item)) => Choice::Item(item),
            (None, None) => return Ok(Choice::None),
        };
        // "If the functions differ, the item isn't in CM, or no option pairs, a choice other than none is refusal 11."
        let offered = match choice {
            Choice::Item(item) => cm.items.contains(&item),
            Choice::Pcm(options) => options != 0,
            Choice::None => true,
        };
        if cm.function != jm.function || !offered {
            return Err(Refusal(11));
        }
        Ok(choice)
    }

    /// "PCM carries the JM options that pair with CM (b5 with b6, b6 with b5, b7 with b7)": with CM's as far as they count.
    fn paired(&self, jm: Pcm, cm: Option<Pcm>) -> Pcm {
        let Some(cm) = cm else { return Pcm { analogue: false, digital: false, v91: false } };
        let cm = self.opposite(cm);
        Pcm { analogue: jm.analogue && cm.analogue, digital: jm.digital && cm.digital, v91: jm.v91 && cm.v91 }
    }
}
