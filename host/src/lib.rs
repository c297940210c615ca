//! The proved library, called over its C ABI. `include/tailsprig.h` says what each call does; here a negative answer
//! becomes an `Err`, and a slice becomes the pointer and the length that C passes.

pub mod model;
pub mod numbers;
pub mod plain;
pub mod steps;
pub mod text;

/// The structs and functions as they are declared in `include/tailsprig.h`.
pub mod c {
    #[derive(Clone, Copy, Debug, PartialEq, Eq)]
    #[repr(C)]
    pub struct Ear {
        pub past: u32,
        pub heard: u32,
        pub place: u32,
    }

    #[derive(Clone, Copy, Debug, PartialEq, Eq)]
    #[repr(C)]
    pub struct Message {
        pub kind: u8,
        pub len: u8,
        pub octets: [u8; 64],
    }

    #[derive(Clone, Copy, Debug, PartialEq, Eq)]
    #[repr(C)]
    pub struct Listener {
        pub ear: Ear,
        pub msg: Message,
        pub last: Message,
    }

    #[derive(Clone, Copy, Debug, PartialEq, Eq)]
    #[repr(C)]
    pub struct Ran {
        pub rec: Listener,
        pub taken: usize,
        pub code: i32,
    }

    #[derive(Clone, Copy, Debug, PartialEq, Eq)]
    #[repr(C)]
    pub struct Offer {
        pub function: u8,
        pub items: u16,
        pub pcm: u8,
        pub lapm: bool,
        pub access: bool,
        pub access_options: u8,
    }

    #[derive(Clone, Copy, Debug, PartialEq, Eq)]
    #[repr(C)]
    pub struct MenuRead {
        pub offer: Offer,
        pub code: i32,
    }

    #[derive(Clone, Copy, Debug, PartialEq, Eq)]
    #[repr(C)]
    pub struct ItemAsked {
        pub looked: usize,
        pub code: i32,
    }

    /// A part of lent octets; not the span of a message, which is a count of bits.
    #[derive(Clone, Copy, Debug, Default, PartialEq, Eq)]
    #[repr(C)]
    pub struct Span {
        pub place: usize,
        pub size: usize,
    }

    #[derive(Clone, Copy, Debug, Default, PartialEq, Eq)]
    #[repr(C)]
    pub struct Block {
        pub whole: Span,
        pub country: Span,
        pub provider: Span,
        pub rest: Span,
    }

    #[derive(Clone, Copy, Debug, PartialEq, Eq)]
    #[repr(C)]
    pub struct BlocksRead {
        pub blocks: usize,
        pub code: i32,
    }

    /// What an end has for one call function.
    #[derive(Clone, Copy, Debug, Default, PartialEq, Eq)]
    #[repr(C)]
    pub struct Modes {
        pub available: u8,
        pub pcm: u8,
        pub items: u16,
    }

    /// What an end can do.
    #[derive(Clone, Copy, Debug, Default, PartialEq, Eq)]
    #[repr(C)]
    pub struct Record {
        pub functions: [Modes; 6],
        pub home: u8,
        pub lapm: u8,
        pub access: u8,
        pub cellular: u8,
        pub digital: u8,
    }

    /// What a caller's session holds of its CI.
    #[derive(Clone, Copy, Debug, Default, PartialEq, Eq)]
    #[repr(C)]
    pub struct Cadence {
        pub off: u16,
        pub place: u16,
        pub on: u8,
        pub function: u8,
        pub sent: u8,
        pub tone: u8,
    }

    #[derive(Clone, Copy, Debug, Default, PartialEq, Eq)]
    #[repr(C)]
    pub struct Session {
        pub entry: u32,
        pub te: u32,
        pub cadence: Cadence,
        pub end: u8,
        pub state: u8,
        pub chosen: u8,
        pub ended: u8,
    }

    #[derive(Clone, Copy, Debug, PartialEq, Eq)]
    #[repr(C)]
    pub struct CallerStart {
        pub session: Session,
        pub code: i32,
    }

    #[derive(Clone, Copy, Debug, PartialEq, Eq)]
    #[repr(C)]
    pub struct StepTaken {
        pub session: Session,
        pub code: i32,
    }

    #[derive(Clone, Copy, Debug, PartialEq, Eq)]
    #[repr(C)]
    pub struct BitsDrawn {
        pub session: Session,
        pub bits: usize,
        pub code: i32,
    }

    extern "C" {
        pub fn tailsprig_write(
            kind: u8,
            octets: *const u8,
            octets_len: usize,
            copies: u16,
            out: *mut u8,
            out_len: usize,
        ) -> i32;
        pub fn tailsprig_write_cj(out: *mut u8, out_len: usize) -> i32;
        pub fn tailsprig_fresh() -> Listener;
        pub fn tailsprig_hear(rec: *mut Listener, bit: u8) -> i32;
        pub fn tailsprig_hear_many(rec: Listener, bits: *const u8, len: usize) -> Ran;
        pub fn tailsprig_last_span(rec: Listener) -> i32;
        pub fn tailsprig_find(octets: *const u8, octets_len: usize, tag: u8) -> i32;
        pub fn tailsprig_part(octets: *const u8, octets_len: usize, place: usize) -> usize;
        pub fn tailsprig_read(octets: *const u8, octets_len: usize) -> MenuRead;
        pub fn tailsprig_asks(octets: *const u8, octets_len: usize, item: u8) -> ItemAsked;
        pub fn tailsprig_fields(octets: *const u8, octets_len: usize, out: *mut u8, out_len: usize) -> i32;
        pub fn tailsprig_blocks(octets: *const u8, octets_len: usize) -> BlocksRead;
        pub fn tailsprig_block_of(octets: *const u8, octets_len: usize, number: usize) -> Block;
        pub fn tailsprig_block_at(octets: *const u8, octets_len: usize, place: usize) -> Block;
        pub fn tailsprig_cm(
            own: Record,
            function: u8,
            blocks: *const u8,
            blocks_len: usize,
            out: *mut u8,
            out_len: usize,
        ) -> i32;
        pub fn tailsprig_jm(
            own: Record,
            heard: *const u8,
            heard_len: usize,
            out: *mut u8,
            out_len: usize,
        ) -> i32;
        pub fn tailsprig_call_function(
            own: Record,
            heard: *const u8,
            heard_len: usize,
            own_cm: *const u8,
            own_cm_len: usize,
        ) -> u8;
        pub fn tailsprig_choice(cm: *const u8, cm_len: usize, jm: *const u8, jm_len: usize) -> i32;
        pub fn tailsprig_start_caller(start: u32, te: u32, function: u8, on: u8, off: u16) -> CallerStart;
        pub fn tailsprig_start_caller_default(start: u32, function: u8, on: u8, off: u16) -> CallerStart;
        pub fn tailsprig_start_answerer(start: u32) -> Session;
        pub fn tailsprig_step(session: Session, event: u8, value: i32, now: u32) -> StepTaken;
        pub fn tailsprig_draw(session: Session, out: *mut u8, out_len: usize) -> BitsDrawn;
    }
}

/// A refusal's number, 1 to 16.
#[derive(Clone, Copy, Debug, PartialEq, Eq)]
pub struct Refusal(pub u8);

/// The kinds of messages, with the numbers that cross to C.
#[derive(Clone, Copy, Debug, PartialEq, Eq)]
#[repr(u8)]
pub enum Kind {
    Ci = 1,
    Menu = 2,
}

fn count(answer: i32) -> Result<usize, Refusal> {
    match usize::try_from(answer) {
        Ok(bits) => Ok(bits),
        Err(_) => Err(Refusal(answer.unsigned_abs() as u8)),
    }
}

/// Writes the copies from the start of `out`, a byte for each bit, and answers how many bits that is.
pub fn write(kind: Kind, octets: &[u8], copies: u16, out: &mut [u8]) -> Result<usize, Refusal> {
    // SAFETY: both slices are lent for the call alone, with their lengths, and a `&mut` overlaps nothing.
    count(unsafe {
        c::tailsprig_write(kind as u8, octets.as_ptr(), octets.len(), copies, out.as_mut_ptr(), out.len())
    })
}

/// Writes CJ once from the start of `out`.
pub fn write_cj(out: &mut [u8]) -> Result<usize, Refusal> {
    // SAFETY: as for `write`.
    count(unsafe { c::tailsprig_write_cj(out.as_mut_ptr(), out.len()) })
}

/// What hearing a bit reports. A message has a span: so many bits from the first of its sync to the one that reports it, both
/// counted.
#[derive(Clone, Copy, Debug, PartialEq, Eq)]
pub enum Report {
    Nothing,
    Ci { span: u16 },
    Menu { agreed: bool, span: u16 },
    Cj,
    Refused(Refusal),
}

impl Report {
    /// The span, where a message is reported.
    pub fn span(self) -> Option<u16> {
        match self {
            Report::Ci { span } | Report::Menu { span, .. } => Some(span),
            Report::Nothing | Report::Cj | Report::Refused(_) => None,
        }
    }
}

/// The record of a line. Its numbers are the library's own, so they are in range and 10 is never reported.
#[derive(Clone, Debug, PartialEq, Eq)]
pub struct Listener(c::Listener);

impl Listener {
    /// Nothing heard.
    pub fn fresh() -> Self {
        // SAFETY: takes nothing and answers numbers.
        Listener(unsafe { c::tailsprig_fresh() })
    }

    /// Hears one bit.
    pub fn hear(&mut self, bit: u8) -> Report {
        // SAFETY: the record is lent for the call alone.
        let code = unsafe { c::tailsprig_hear(&mut self.0, bit) };
        self.report(code)
    }

    /// Hears bytes up to the first that reports something, and says how many that are; all of them where none does.
    pub fn hear_many(&mut self, bits: &[u8]) -> (usize, Report) {
        // SAFETY: the slice is lent for the call alone, with its length; the record goes and comes back by value.
        let ran = unsafe { c::tailsprig_hear_many(self.0, bits.as_ptr(), bits.len()) };
        self.0 = ran.rec;
        (ran.taken, self.report(ran.code))
    }

    /// The report that a code of the header stands for, with the span that the record then tells.
    fn report(&self, code: i32) -> Report {
        // Where a message was reported just now, there is one.
        let span = || self.last_span().unwrap_or(0);
        match code {
            0 => Report::Nothing,
            1 => Report::Ci { span: span() },
            2 => Report::Menu { agreed: false, span: span() },
            3 => Report::Menu { agreed: true, span: span() },
            4 => Report::Cj,
            _ => Report::Refused(Refusal(code.unsigned_abs() as u8)),
        }
    }

    /// The span of the message reported last, until the next one is reported; `None` before the first.
    pub fn last_span(&self) -> Option<u16> {
        // SAFETY: the record goes by value.
        match unsafe { c::tailsprig_last_span(self.0) } {
            0 => None,
            span => Some(span as u16),
        }
    }

    /// The octets stored last. Right after a CI or a menu was reported they are that message's.
    pub fn octets(&self) -> &[u8] {
        &self.0.msg.octets[..usize::from(self.0.msg.len)]
    }
}

/// Looks for a tag: the place of its first group, or `None` where there is none.
pub fn find(octets: &[u8], tag: u8) -> Result<Option<usize>, Refusal> {
    /// What C gets where no group has the tag.
    const NOWHERE: usize = 64;
    // SAFETY: the slice is lent for the call alone, with its length.
    let place = count(unsafe { c::tailsprig_find(octets.as_ptr(), octets.len(), tag) })?;
    Ok((place != NOWHERE).then_some(place))
}

/// The part of a place: the category octet there and its extension octets, or nothing.
pub fn part(octets: &[u8], place: usize) -> &[u8] {
    // SAFETY: as for `find`.
    let len = unsafe { c::tailsprig_part(octets.as_ptr(), octets.len(), place) };
    if len == 0 {
        return &[];
    }
    &octets[place..place + len]
}

/// Reads a menu.
pub fn read(octets: &[u8]) -> Result<c::Offer, Refusal> {
    // SAFETY: as for `find`.
    let menu = unsafe { c::tailsprig_read(octets.as_ptr(), octets.len()) };
    count(menu.code).map(|_| menu.offer)
}

/// What a menu answers that is asked for one item.
#[derive(Clone, Copy, Debug, PartialEq, Eq)]
pub struct AskedItem {
    pub offered: bool,
    /// How many octets were looked at: up to the one that decides, or all where none does.
    pub looked: usize,
}

/// Asks whether a menu offers an item, without the whole menu read: octets behind the one that decides are not seen.
pub fn asks(octets: &[u8], item: u8) -> Result<AskedItem, Refusal> {
    // SAFETY: as for `find`.
    let asked = unsafe { c::tailsprig_asks(octets.as_ptr(), octets.len(), item) };
    count(asked.code).map(|code| AskedItem { offered: code == 1, looked: asked.looked })
}

/// Reads the field of a heard CM into `out`, and answers how many octets it has.
pub fn fields(octets: &[u8], out: &mut [u8]) -> Result<usize, Refusal> {
    // SAFETY: as for `write`.
    count(unsafe { c::tailsprig_fields(octets.as_ptr(), octets.len(), out.as_mut_ptr(), out.len()) })
}

/// A block of a field: its parts of the lent octets.
#[derive(Clone, Copy, Debug, PartialEq, Eq)]
pub struct Block<'a> {
    /// With its length octet.
    pub whole: &'a [u8],
    pub country: &'a [u8],
    /// Without its length octet.
    pub provider: &'a [u8],
    pub rest: &'a [u8],
}

impl<'a> Block<'a> {
    /// The block that the numbers stand for, if they stand for one.
    fn of(octets: &'a [u8], block: c::Block) -> Option<Self> {
        let part = |span: c::Span| &octets[span.place..][..span.size];
        (block != c::Block::default()).then(|| Block {
            whole: part(block.whole),
            country: part(block.country),
            provider: part(block.provider),
            rest: part(block.rest),
        })
    }
}

/// How many blocks the octets of a field are.
pub fn blocks(octets: &[u8]) -> Result<usize, Refusal> {
    // SAFETY: as for `find`.
    let read = unsafe { c::tailsprig_blocks(octets.as_ptr(), octets.len()) };
    count(read.code).map(|_| read.blocks)
}

/// The block of a number, counted from 0, where all blocks are good ones.
pub fn block_of(octets: &[u8], number: usize) -> Option<Block<'_>> {
    // SAFETY: as for `find`.
    Block::of(octets, unsafe { c::tailsprig_block_of(octets.as_ptr(), octets.len(), number) })
}

/// The block that begins at a place, where a good one does.
pub fn block_at(octets: &[u8], place: usize) -> Option<Block<'_>> {
    // SAFETY: as for `find`.
    Block::of(octets, unsafe { c::tailsprig_block_at(octets.as_ptr(), octets.len(), place) })
}

/// Makes the CM of a record for a function into `out`, with our own blocks as its field, and answers how many octets it has.
pub fn cm(own: &c::Record, function: u8, blocks: &[u8], out: &mut [u8]) -> Result<usize, Refusal> {
    // SAFETY: the record goes by value; both slices are lent for the call alone, with their lengths.
    count(unsafe {
        c::tailsprig_cm(*own, function, blocks.as_ptr(), blocks.len(), out.as_mut_ptr(), out.len())
    })
}

/// Makes the JM of a record for a heard CM into `out`, and answers how many octets it has.
pub fn jm(own: &c::Record, heard: &[u8], out: &mut [u8]) -> Result<usize, Refusal> {
    // SAFETY: as for `cm` and `write`.
    count(unsafe { c::tailsprig_jm(*own, heard.as_ptr(), heard.len(), out.as_mut_ptr(), out.len()) })
}

/// The menu in which the call function octet of a JM stands, as its first octet.
#[derive(Clone, Copy, Debug, PartialEq, Eq)]
pub enum Source {
    Heard,
    Own,
}

/// Where the call function octet of a JM stands: in the heard CM, in our own CM for the home function, or nowhere.
pub fn call_function(own: &c::Record, heard: &[u8], own_cm: &[u8]) -> Option<Source> {
    // SAFETY: the record goes by value; both slices are lent for the call alone, with their lengths.
    match unsafe { c::tailsprig_call_function(*own, heard.as_ptr(), heard.len(), own_cm.as_ptr(), own_cm.len()) } {
        1 => Some(Source::Heard),
        2 => Some(Source::Own),
        _ => None,
    }
}

/// What both ends go on with.
#[derive(Clone, Copy, Debug, PartialEq, Eq)]
pub enum Choice {
    Nothing,
    Item(u8),
    /// The options that pair, b5 lowest.
    Pcm(u8),
}

impl Choice {
    /// The choice that a number of the header stands for.
    fn of(code: u8) -> Self {
        match code {
            0 => Choice::Nothing,
            1..=12 => Choice::Item(code),
            _ => Choice::Pcm(code - 16),
        }
    }
}

/// The choice from CM and JM.
pub fn choice(cm: &[u8], jm: &[u8]) -> Result<Choice, Refusal> {
    // SAFETY: both slices are lent for the call alone, with their lengths.
    count(unsafe { c::tailsprig_choice(cm.as_ptr(), cm.len(), jm.as_ptr(), jm.len()) }).map(|code| Choice::of(code as u8))
}
