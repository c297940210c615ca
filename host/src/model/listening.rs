//! "Listening", and where a message began, which is request 05.
use super::{
    bits::{is_bad, CJ, MOST_OCTETS},
    Kind, Mistake, Model, Refusal,
};

/// "The host keeps one listening record per line". Every bit is remembered, so that each rule can look at what was heard.
#[derive(Clone, Debug, PartialEq, Eq)]
pub struct Listener {
    /// The bits heard, the oldest first.
    pub heard: Vec<u8>,
    /// What the next bit belongs to.
    pub place: Place,
    /// Where in the bits heard the first bit of the sync stands that was started last.
    pub sync: usize,
    /// The message of the last accepted sync: "stored octets stay readable until the next accepted sync".
    pub stored: Option<Message>,
    /// "the message reported just before".
    pub reported: Option<Message>,
    /// Its span.
    pub span: Option<usize>,
}

#[derive(Clone, Debug, PartialEq, Eq)]
pub struct Message {
    pub kind: Kind,
    pub octets: Vec<u8>,
}

#[derive(Clone, Debug, PartialEq, Eq)]
pub enum Place {
    Hunting,
    /// In a sync, behind these bits of it.
    Sync(Vec<u8>),
    /// In an octet, behind its start bit and these data bits; with no bits at all, at an octet boundary.
    Octet(Vec<u8>),
    /// Behind so many 1s, counted from the boundary.
    Ending(usize),
}

/// Request 05: "Each reported message also carries the number of bits from its sync's first bit to the bit reporting it, both counted."
#[derive(Clone, Copy, Debug, PartialEq, Eq)]
pub enum Report {
    Nothing,
    Ci { span: usize },
    Menu { agreed: bool, span: usize },
    Cj,
}

impl Listener {
    /// "In a fresh record nothing has been heard."
    pub fn fresh() -> Self {
        Listener { heard: Vec::new(), place: Place::Hunting, sync: 0, stored: None, reported: None, span: None }
    }

    /// The octets that are readable.
    pub fn octets(&self) -> &[u8] {
        self.stored.as_ref().map_or(&[], |message| &message.octets)
    }
}

impl Model {
    /// Hears one bit.
    pub fn hear(&self, line: &mut Listener, bit: u8) -> Result<Report, Refusal> {
        // 1: "bit not 0 or 1"; "the listening record keeps its value on 1".
        if bit > 1 {
            if self.makes(Mistake::SpanCountsNoBits) {
                // As if the sync had begun a bit sooner.
                line.sync = line.sync.saturating_sub(1);
            }
            return Err(Refusal(1));
        }
        // "A 0 whose ten preceding heard bits are all 1 starts a sync."
        let ones = if self.makes(Mistake::NineOnes) { 9 } else { 10 };
        let starts_sync = bit == 0 && line.heard.ends_with(&[1; 10][..ones]);
        line.heard.push(bit);

        // Most rules end with "hunting resumes"; the others say where listening goes on.
        let place = std::mem::replace(&mut line.place, Place::Hunting);

        // "CJ is reported whenever the last 30 heard bits are CJ, however they were framed." At the stop position it comes first
        // and stores nothing; while hunting its last bit starts nothing; no other place is left at its end.
        if line.heard.ends_with(&CJ) {
            if self.makes(Mistake::SpanUntilCj) {
                line.span = None;
            }
            return Ok(Report::Cj);
        }
        match place {
            Place::Hunting => {
                if starts_sync {
                    line.place = Place::Sync(vec![0]);
                    line.sync = line.heard.len() - 1;
                }
                Ok(Report::Nothing)
            }
            Place::Sync(mut bits) => {
                bits.push(bit);
                if bits.len() < 10 {
                    line.place = Place::Sync(bits);
                } else if let Some(kind) = [Kind::Ci, Kind::Menu].into_iter().find(|kind| bits == kind.sync()) {
                    // "If the ten bits from there are the CI or menu sync, octets follow and the stored octets start empty. Any
                    // other sync is passed over and hunting resumes."
                    line.stored = Some(Message { kind, octets: Vec::new() });
                    line.place = Place::Octet(Vec::new());
                    if self.makes(Mistake::SpanUntilSync) {
                        line.span = None;
                    }
                }
                Ok(Report::Nothing)
            }
            // "At an octet boundary, 0 starts an octet and 1 ends the sequence."
            Place::Octet(bits) if bits.is_empty() => {
                line.place = if bit == 0 { Place::Octet(vec![0]) } else { Place::Ending(1) };
                Ok(Report::Nothing)
            }
            Place::Octet(mut bits) if bits.len() < 9 => {
                bits.push(bit);
                line.place = Place::Octet(bits);
                Ok(Report::Nothing)
            }
            Place::Octet(bits) => self.stop(line, bit, octet(&bits[1..])),
            Place::Ending(ones) if bit == 1 => {
                // "When ten 1s stand there in a row, counted from the boundary, the message is reported at the tenth, even with no
                // octets, and hunting resumes."
                if ones + 1 == 10 {
                    return Ok(self.reported(line));
                }
                line.place = Place::Ending(ones + 1);
                Ok(Report::Nothing)
            }
            Place::Ending(_) => {
                // "If a 0 comes sooner, that is refusal 13 and hunting resumes; if ten 1s precede it all the same (last data bits,
                // sync bits and stop bit included), it also starts a sync."
                if starts_sync && !self.makes(Mistake::CutStartsNoSync) {
                    line.place = Place::Sync(vec![0]);
                    if !self.makes(Mistake::SpanFromSyncCutShort) {
                        line.sync = line.heard.len() - 1;
                    }
                }
                Err(Refusal(13))
            }
        }
    }

    /// "At the stop position: a 0 is refusal 2. With a 1 the order is CJ, then 3, then 4. All these store nothing and resume
    /// hunting; otherwise the octet is stored."
    fn stop(&self, line: &mut Listener, bit: u8, octet: u8) -> Result<Report, Refusal> {
        if bit == 0 {
            return Err(Refusal(2));
        }
        if is_bad(octet) {
            return Err(Refusal(3));
        }
        if line.octets().len() == MOST_OCTETS {
            return Err(Refusal(4));
        }
        if octet == 0x55 && self.makes(Mistake::Octet55) {
            return Ok(Report::Nothing);
        }
        if let Some(message) = &mut line.stored {
            message.octets.push(octet);
        }
        line.place = Place::Octet(Vec::new());
        Ok(Report::Nothing)
    }

    /// Reports the stored message. "A menu is agreed when reading it gives no refusal and it equals, in kind and in every octet, the
    /// message reported just before it on that line; refusals and CJ between them don't matter, a CI between them does."
    fn reported(&self, line: &mut Listener) -> Report {
        let Some(message) = &line.stored else { return Report::Nothing };
        let agreed = self.read(&message.octets).is_ok() && line.reported.as_ref() == Some(message);
        let kind = message.kind;
        if !(kind == Kind::Ci && self.makes(Mistake::CiBetween)) {
            line.reported = line.stored.clone();
        }
        let counted = self.counted(line);
        let span = match line.span {
            before if self.makes(Mistake::SpanOfMessageBefore) => before.unwrap_or(0),
            Some(first) if agreed && self.makes(Mistake::SpanOfBothCopies) => first + counted,
            _ => counted,
        };
        if !(kind == Kind::Ci && self.makes(Mistake::SpanOfMenusAlone)) {
            line.span = Some(counted);
        }
        match kind {
            Kind::Ci => Report::Ci { span },
            Kind::Menu => Report::Menu { agreed, span },
        }
    }

    /// How many bits there are "from its sync's first bit to the bit reporting it, both counted". The latter was heard last.
    fn counted(&self, line: &Listener) -> usize {
        let one_if = |mistake| usize::from(self.makes(mistake));
        let first = line.sync + 10 * one_if(Mistake::SpanBehindSync) - 10 * one_if(Mistake::SpanFromOnes);
        let end = line.heard.len() - 10 * one_if(Mistake::SpanWithoutOnes) - one_if(Mistake::SpanBothNotCounted);
        line.heard[first..end].len()
    }

    /// Asked behind any bit: the span of the message reported last, where one was.
    pub fn last_span(&self, line: &Listener) -> Option<usize> {
        match line.span {
            None if self.makes(Mistake::SpanOfNothing) => Some(20),
            span => span,
        }
    }
}

/// The octet of eight data bits, "b0 first, weight 1".
fn octet(data: &[u8]) -> u8 {
    data.iter().rev().fold(0, |octet, bit| octet * 2 + bit)
}
