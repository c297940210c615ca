//! Listening in plain Rust: what the benchmark measures the proved listener against.
use crate::{Kind, Refusal, Report};
use std::io::{self, Read, Write};

/// The last bits heard, the newest one lowest.
const TEN_ONES: u32 = 0b1111111111;
const CI_SYNC: u32 = 0b0000000001;
const MENU_SYNC: u32 = 0b0000001111;
const CJ: u32 = 0b0000000001_0000000001_0000000001;

/// Where in the framing the next bit is.
#[derive(Clone, Copy)]
enum Place {
    /// Too few were heard for anything to start: so many bits until ten of them precede one.
    Opening(u8),
    Hunting,
    /// So many bits of the sync are still to come.
    Sync(u8),
    Boundary,
    /// So many bits of the octet are still to come, its stop bit with them.
    Octet(u8),
    /// So many of the ten 1s behind the last octet are still to come.
    Ending(u8),
}

#[derive(Clone, Copy)]
struct Message {
    kind: Option<Kind>,
    len: usize,
    octets: [u8; 64],
}

impl Message {
    const NONE: Message = Message { kind: None, len: 0, octets: [0; 64] };

    fn octets(&self) -> &[u8] {
        &self.octets[..self.len]
    }
}

/// The record of a line.
#[derive(Clone)]
pub struct Listener {
    /// The bits heard last. It starts as 1s: CJ starts with a 0, so none is heard before thirty bits are.
    past: u32,
    place: Place,
    message: Message,
    /// The message reported last.
    last: Message,
}

fn is_cj(past: u32) -> bool {
    past << 2 == CJ << 2
}

fn ten_ones_and_0(past: u32) -> bool {
    past << 21 == TEN_ONES << 22
}

impl Listener {
    /// Nothing heard.
    pub fn fresh() -> Self {
        Listener { past: u32::MAX, place: Place::Opening(10), message: Message::NONE, last: Message::NONE }
    }

    /// The octets stored last.
    pub fn octets(&self) -> &[u8] {
        self.message.octets()
    }

    /// Hears one bit. Kept a call of its own, as a call over the C ABI is.
    #[inline(never)]
    pub fn hear(&mut self, bit: u8) -> Report {
        self.step(bit)
    }

    /// Hears bits up to the first that reports something, and says how many that are.
    #[inline(never)]
    pub fn hear_many(&mut self, bits: &[u8]) -> (usize, Report) {
        for (at, &bit) in bits.iter().enumerate() {
            let report = self.step(bit);
            if report != Report::Nothing {
                return (at + 1, report);
            }
        }
        (bits.len(), Report::Nothing)
    }

    /// The same, with loops of their own for the bits that only go by: how fast Rust can be made to be.
    #[inline(never)]
    pub fn hear_many_tuned(&mut self, bits: &[u8]) -> (usize, Report) {
        let mut at = 0;
        loop {
            at += self.pass(&bits[at..]);
            let Some(&bit) = bits.get(at) else {
                return (at, Report::Nothing);
            };
            at += 1;
            let report = self.step(bit);
            if report != Report::Nothing {
                return (at, report);
            }
        }
    }

    /// Hears the bits in front that only go by, with the past in a register, and says how many that are.
    #[inline(always)]
    fn pass(&mut self, bits: &[u8]) -> usize {
        let mut past = self.past;
        let mut passed = 0;
        match &mut self.place {
            Place::Hunting => {
                for &bit in bits {
                    let next = past << 1 | u32::from(bit);
                    if bit > 1 || is_cj(next) || ten_ones_and_0(next) {
                        break;
                    }
                    past = next;
                    passed += 1;
                }
            }
            Place::Sync(left) | Place::Octet(left) => {
                for &bit in bits.iter().take(usize::from(*left) - 1).take_while(|bit| **bit <= 1) {
                    past = past << 1 | u32::from(bit);
                    passed += 1;
                }
                *left -= passed as u8;
            }
            _ => {}
        }
        self.past = past;
        passed
    }

    #[inline(always)]
    fn step(&mut self, bit: u8) -> Report {
        if bit > 1 {
            return Report::Refused(Refusal(1));
        }
        self.past = self.past << 1 | u32::from(bit);
        match &mut self.place {
            Place::Hunting => {
                if ten_ones_and_0(self.past) {
                    self.place = Place::Sync(9);
                // CJ ends here or at a stop bit: elsewhere the last thirty bits hold 1s that CJ has not.
                } else if is_cj(self.past) {
                    return Report::Cj;
                }
            }
            Place::Opening(left @ 2..) | Place::Sync(left @ 2..) | Place::Octet(left @ 2..) => *left -= 1,
            Place::Opening(_) => self.place = Place::Hunting,
            Place::Sync(_) => self.synced(),
            Place::Boundary => self.place = if bit == 0 { Place::Octet(9) } else { Place::Ending(9) },
            Place::Octet(_) => return self.stopped(bit),
            Place::Ending(_) if bit == 0 => {
                self.place = if ten_ones_and_0(self.past) { Place::Sync(9) } else { Place::Hunting };
                return Report::Refused(Refusal(13));
            }
            Place::Ending(left @ 2..) => *left -= 1,
            Place::Ending(_) => return self.ended(),
        }
        Report::Nothing
    }

    /// The last bit of a sync: what kind of message follows, if any.
    fn synced(&mut self) {
        self.place = Place::Boundary;
        match self.past & TEN_ONES {
            CI_SYNC => self.message.kind = Some(Kind::Ci),
            MENU_SYNC => self.message.kind = Some(Kind::Menu),
            _ => {
                self.place = Place::Hunting;
                return;
            }
        }
        self.message.len = 0;
    }

    /// The stop bit: the octet before it is stored or refused.
    fn stopped(&mut self, stop: u8) -> Report {
        let octet = ((self.past >> 1) as u8).reverse_bits();
        self.place = Place::Hunting;
        if stop == 0 {
            return Report::Refused(Refusal(2));
        }
        if is_cj(self.past) {
            return Report::Cj;
        }
        if octet & 0x10 != 0 && octet & 0x28 != 0 {
            return Report::Refused(Refusal(3));
        }
        let Some(free) = self.message.octets.get_mut(self.message.len) else {
            return Report::Refused(Refusal(4));
        };
        *free = octet;
        self.message.len += 1;
        self.place = Place::Boundary;
        Report::Nothing
    }

    /// The tenth 1 behind the last octet: the message is reported.
    fn ended(&mut self) -> Report {
        let (message, last) = (&self.message, &self.last);
        // Ten bits each for the sync, every octet and the 1s behind them.
        let span = 20 + 10 * message.len as u16;
        let report = if message.kind == Some(Kind::Ci) {
            Report::Ci { span }
        } else {
            // Reading refuses nothing but a first octet: what else it refuses is never stored.
            let reads = message.octets().first().is_some_and(|first| first & 0x1f == 1);
            let agreed = reads && message.kind == last.kind && message.octets() == last.octets();
            Report::Menu { agreed, span }
        };
        self.last = self.message;
        self.place = Place::Hunting;
        report
    }
}

/// The listing program, a block at a time.
pub fn listing(mut input: impl Read, mut output: impl Write) -> io::Result<()> {
    const NOT_A_BIT: Report = Report::Refused(Refusal(1));
    let mut listener = Listener::fresh();
    let mut block = vec![0; 1 << 16];
    let mut lines = b"bit\twhat\toctets\tspan\n".to_vec();
    let mut heard = 0;
    loop {
        let size = input.read(&mut block)?;
        if size == 0 {
            output.write_all(&lines)?;
            return output.flush();
        }
        for byte in &mut block[..size] {
            *byte ^= b'0';
        }
        let mut rest = &block[..size];
        while !rest.is_empty() {
            let (taken, report) = listener.hear_many(rest);
            let newest = rest[taken - 1] ^ b'0';
            rest = &rest[taken..];
            heard += taken;
            // A line feed stops the listener as every byte does that is no bit, but is not told.
            if report != Report::Nothing && newest != b'\n' {
                write_line(&mut lines, heard - 1, report, listener.octets())?;
            }
            heard -= usize::from(report == NOT_A_BIT);
        }
        output.write_all(&lines)?;
        lines.clear();
    }
}

fn write_line(lines: &mut Vec<u8>, before: usize, report: Report, octets: &[u8]) -> io::Result<()> {
    let (what, span) = match report {
        Report::Nothing => return Ok(()),
        Report::Refused(Refusal(number)) => return writeln!(lines, "{before}\tR{number}\t-\t-"),
        Report::Cj => return writeln!(lines, "{before}\tCJ\t-\t-"),
        Report::Ci { span } => ("CI", span),
        Report::Menu { span, .. } => ("MENU", span),
    };
    write!(lines, "{before}\t{what}\t")?;
    if octets.is_empty() {
        lines.push(b'-');
    }
    let digit = |value: u8| b"0123456789ABCDEF"[usize::from(value)];
    for (at, octet) in octets.iter().enumerate() {
        if at > 0 {
            lines.push(b' ');
        }
        lines.extend([digit(octet >> 4), digit(octet & 15)]);
    }
    writeln!(lines, "\t{span}")
}
