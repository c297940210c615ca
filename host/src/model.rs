//! Document 01, with the requests of document 02 that are in force, as a plain Rust program: what each call must answer, written for
//! reading. It shares no code with the library, with the wrappers around it or with the Rust that the library is timed against.
//! Where the pages leave room it follows `docs/DECISIONS.md`, as the library does: a comparison of the two tells whether both keep to
//! the pages as they are read there, and not whether that reading is right.
//!
//! The modules follow the sections of document 01; `fields` is request 02, `cadence` request 04, the span in `listening` request 05, and
//! `asking` request 06. What a comment has in double quotes is the text of a page, of document 01 where no request is named.

mod asking;
mod bits;
mod cadence;
mod choice;
mod fields;
mod listening;
mod octets;
mod records;
mod steps;

pub use asking::AskedItem;
pub use bits::Kind;
pub use cadence::{Cadence, Tone};
pub use choice::Choice;
pub use fields::Block;
pub use listening::{Listener, Message, Place, Report};
pub use octets::{Access, Menu, Pcm};
pub use records::{Function, Record, Source};
pub use steps::{Answer, End, Ended, Event, Session, State};

/// "A refusal carries its number alone."
#[derive(Clone, Copy, Debug, PartialEq, Eq)]
pub struct Refusal(pub u8);

/// The reading of the documents: the honest one, or one that makes a mistake.
#[derive(Clone, Copy, Debug, Default)]
pub struct Model {
    mistake: Option<Mistake>,
}

impl Model {
    /// A model that breaks one rule, to show that a comparison with it can fail.
    pub fn broken(mistake: Mistake) -> Self {
        Model { mistake: Some(mistake) }
    }

    /// Asked where a rule is that a mistake breaks; the honest model never makes one.
    fn makes(&self, mistake: Mistake) -> bool {
        self.mistake == Some(mistake)
    }
}

/// A rule broken on purpose.
#[derive(Clone, Copy, Debug, PartialEq, Eq)]
pub enum Mistake {
    /// Writing asks for the room of one copy only.
    RoomForOne,
    /// A 0 behind nine 1s starts a sync.
    NineOnes,
    /// An octet 55 is taken for the V.92 sync.
    Octet55,
    /// The 0 that cuts a sequence short never starts a sync.
    CutStartsNoSync,
    /// A CI between two equal menus is overlooked.
    CiBetween,
    /// The last group of a tag counts.
    LastGroup,
    /// A PCM group counts without an access group.
    PcmWithoutAccess,
    /// JM has the items of either end.
    Union,
    /// PCM options are joined like with like.
    PcmLike,
    /// JM's access options say our own cellular in b5.
    AccessB5,
    /// Item 0 is chosen as the best mode.
    Item0,
    /// The time 2^31 ms behind the entry is not refused.
    HalfRange,
    /// Elapsed means more than, not at least.
    MoreThan,
    /// The clock is tested before the event.
    ClockFirst,
    /// Te is 500 without a value, as it was before request 01.
    DefaultTe500,
    /// The joined bits of an octet come with the lowest last.
    LowestBitLast,
    /// Five bits may be left over.
    FiveLeftOver,
    /// Bits that are left over may be 1.
    AnyLeftOver,
    /// The options of the field's category octet are not looked at.
    AnyOptions,
    /// The length of a block counts itself.
    LengthCountsItself,
    /// A country code ends at an octet of 255 too.
    CountryEndsAt255,
    /// A provider code may run into the next block.
    ProviderRunsOn,
    /// The walk stops behind the first block.
    OneBlock,
    /// The second tag 15 group is read.
    SecondField,
    /// The field stands before the access group.
    FieldBeforeAccess,
    /// No octets make a category octet alone.
    LoneCategory,
    /// The field does not count towards the 64 octets of a CM.
    FieldNotCounted,
    /// In making a CM 14 comes before 4.
    BlocksBeforeSize,
    /// In reading 14 comes before 15.
    BlocksBeforePacking,
    /// JM carries the field of CM.
    JmWithField,
    /// JM's modulation group has always three octets, as it had before request 03.
    AlwaysThree,
    /// JM has as many modulation octets as CM where an item is in common too.
    HeardCountAlways,
    /// With another function JM has three modulation octets.
    ThreeForAnotherFunction,
    /// V.91 alone in common is taken for a mode in common.
    ThreeWithV91,
    /// The octets of CM's last modulation group are counted.
    LastCount,
    /// The count of a heard modulation group stops at 62.
    CountTo62,
    /// Where CM has no modulation group, JM has one of a category octet alone.
    OneForNone,
    /// PCM brings a modulation group into JM where CM has none.
    GroupForItem0,
    /// Item 0 goes with PCM only where a mode is in common.
    Item0NeedsAMode,
    /// Item 0 is set in the first extension octet of JM too.
    Item0InExtension,
    /// The modulation octets of JM past the third are those of CM.
    ExtraCopied,
    /// A JM of 65 octets is not refused.
    JmOf65,
    /// In making a JM 6 comes before 4.
    RoomBeforeSize,
    /// The off period is counted in sequences.
    OffInSequences,
    /// The cadence begins with the off period.
    OffFirst,
    /// Every CI names data.
    CiForData,
    /// Each time that bits are asked for the cadence begins anew.
    BegunAnew,
    /// ANSam and ANS end the calling at once, as they did before request 04.
    AtOnce,
    /// The sequence being sent is not finished, but for the first three.
    SequenceCutOff,
    /// The third sequence is not sent where fewer were.
    ThirdNotFinished,
    /// Three sequences are sent in the on period in which the tone comes.
    ThirdOfEachPeriod,
    /// Where no bit was asked for yet, none is left to send.
    NothingAsked,
    /// Between two sequences one more is left to send.
    OneMoreAtBoundary,
    /// In the off period a sequence is being sent too.
    SilenceFinished,
    /// The last tone that came decides.
    LaterToneDecides,
    /// ANS leads to quiet.
    AnsToQuiet,
    /// sigA lets the sequence be finished.
    SigAWaits,
    /// The time of a tone with bits left is the entry time.
    ToneIsEntry,
    /// The entry time stays that of calling where a tick ends it.
    EntryOfCalling,
    /// A tick ends the calling with one bit left.
    TickBeforeLastBit,
    /// The last bit ends the calling, without a tick.
    LastBitLeads,
    /// A tone that is refused with 8 is remembered.
    RefusedToneCounts,
    /// A tone that comes before calling is remembered.
    ToneInStill,
    /// Bits are given out before calling.
    BitsInStill,
    /// Bits are given out in quiet.
    BitsInQuiet,
    /// Bits are given out past those that are left to send.
    BitsPastTheEnd,
    /// An on period may have two sequences.
    OnOf2,
    /// An on period may have 21 sequences.
    OnOf21,
    /// An off period may have 119 bits.
    OffOf119,
    /// An off period may have 601 bits.
    OffOf601,
    /// A caller may start with function 7.
    Function7,
    /// A start with a function that is none is refused with 16.
    FunctionWith16,
    /// At a start 16 comes before 10.
    CadenceFirst,
    /// A span begins behind the sync.
    SpanBehindSync,
    /// A span begins with the ten 1s before the sync.
    SpanFromOnes,
    /// A span ends before the ten 1s that end a message.
    SpanWithoutOnes,
    /// Of the first and the last bit of a span only one is counted.
    SpanBothNotCounted,
    /// Bytes that are no bits are counted in a span.
    SpanCountsNoBits,
    /// Where the 0 that cuts a sequence short starts a sync, a span begins with the sync before.
    SpanFromSyncCutShort,
    /// A report carries the span of the message before.
    SpanOfMessageBefore,
    /// An agreed menu begins with the first of its two copies.
    SpanOfBothCopies,
    /// A CI has no span of its own: asked later, that of the menu before it is told.
    SpanOfMenusAlone,
    /// Before the first message a span is told: that of a message without octets.
    SpanOfNothing,
    /// Asked behind CJ, no span is told.
    SpanUntilCj,
    /// Asked behind the next accepted sync, no span is told.
    SpanUntilSync,
    /// Item 0 may be asked for.
    AskedItem0,
    /// Item 13 may be asked for.
    AskedItem13,
    /// In asking for an item 4 comes before 9.
    AskedSizeFirst,
    /// In asking for an item 5 comes before 9.
    AskedFunctionFirst,
    /// A menu of more than 64 octets may be asked.
    AskedLongMenu,
    /// The last modulation group is asked.
    AskedLastGroup,
    /// A second modulation octet right behind a short group goes on with it.
    AskedSecondGroup,
    /// The octets behind a short group are taken for those that it lacks.
    AskedPastShortGroup,
    /// A bad octet past the deciding one is seen.
    AskedSeesAll,
    /// A bad octet in the place of the deciding one is not seen.
    AskedDecidingNotSeen,
    /// A bad octet before the deciding one is not seen.
    AskedDecidingAloneSeen,
    /// The place of the deciding octet is counted from 0.
    AskedFrom0,
    /// The first octet is not counted.
    AskedFirstNotCounted,
    /// The category octet that decides where the group is short is not counted.
    AskedCategoryNotCounted,
    /// Where the group is short, the number is always the list's length.
    AskedLengthIfShort,
    /// Where nothing decides, the number is 0.
    AskedNothingIs0,
}

impl Mistake {
    /// Every mistake with the name that it is asked for by.
    pub const ALL: [(&str, Mistake); 101] = [
        ("room-for-one", Mistake::RoomForOne),
        ("nine-ones", Mistake::NineOnes),
        ("octet-55", Mistake::Octet55),
        ("cut-starts-no-sync", Mistake::CutStartsNoSync),
        ("ci-between", Mistake::CiBetween),
        ("last-group", Mistake::LastGroup),
        ("pcm-without-access", Mistake::PcmWithoutAccess),
        ("union", Mistake::Union),
        ("pcm-like", Mistake::PcmLike),
        ("access-b5", Mistake::AccessB5),
        ("item-0", Mistake::Item0),
        ("half-range", Mistake::HalfRange),
        ("more-than", Mistake::MoreThan),
        ("clock-first", Mistake::ClockFirst),
        ("default-te-500", Mistake::DefaultTe500),
        ("lowest-bit-last", Mistake::LowestBitLast),
        ("five-left-over", Mistake::FiveLeftOver),
        ("any-left-over", Mistake::AnyLeftOver),
        ("any-options", Mistake::AnyOptions),
        ("length-counts-itself", Mistake::LengthCountsItself),
        ("country-ends-at-255", Mistake::CountryEndsAt255),
        ("provider-runs-on", Mistake::ProviderRunsOn),
        ("one-block", Mistake::OneBlock),
        ("second-field", Mistake::SecondField),
        ("field-before-access", Mistake::FieldBeforeAccess),
        ("lone-category", Mistake::LoneCategory),
        ("field-not-counted", Mistake::FieldNotCounted),
        ("blocks-before-size", Mistake::BlocksBeforeSize),
        ("blocks-before-packing", Mistake::BlocksBeforePacking),
        ("jm-with-field", Mistake::JmWithField),
        ("always-three", Mistake::AlwaysThree),
        ("heard-count-always", Mistake::HeardCountAlways),
        ("three-for-another-function", Mistake::ThreeForAnotherFunction),
        ("three-with-v91", Mistake::ThreeWithV91),
        ("last-count", Mistake::LastCount),
        ("count-to-62", Mistake::CountTo62),
        ("one-for-none", Mistake::OneForNone),
        ("group-for-item-0", Mistake::GroupForItem0),
        ("item-0-needs-a-mode", Mistake::Item0NeedsAMode),
        ("item-0-in-extension", Mistake::Item0InExtension),
        ("extra-copied", Mistake::ExtraCopied),
        ("jm-of-65", Mistake::JmOf65),
        ("room-before-size", Mistake::RoomBeforeSize),
        ("off-in-sequences", Mistake::OffInSequences),
        ("off-first", Mistake::OffFirst),
        ("ci-for-data", Mistake::CiForData),
        ("begun-anew", Mistake::BegunAnew),
        ("at-once", Mistake::AtOnce),
        ("sequence-cut-off", Mistake::SequenceCutOff),
        ("third-not-finished", Mistake::ThirdNotFinished),
        ("third-of-each-period", Mistake::ThirdOfEachPeriod),
        ("nothing-asked", Mistake::NothingAsked),
        ("one-more-at-boundary", Mistake::OneMoreAtBoundary),
        ("silence-finished", Mistake::SilenceFinished),
        ("later-tone-decides", Mistake::LaterToneDecides),
        ("ans-to-quiet", Mistake::AnsToQuiet),
        ("sig-a-waits", Mistake::SigAWaits),
        ("tone-is-entry", Mistake::ToneIsEntry),
        ("entry-of-calling", Mistake::EntryOfCalling),
        ("tick-before-last-bit", Mistake::TickBeforeLastBit),
        ("last-bit-leads", Mistake::LastBitLeads),
        ("refused-tone-counts", Mistake::RefusedToneCounts),
        ("tone-in-still", Mistake::ToneInStill),
        ("bits-in-still", Mistake::BitsInStill),
        ("bits-in-quiet", Mistake::BitsInQuiet),
        ("bits-past-the-end", Mistake::BitsPastTheEnd),
        ("on-of-2", Mistake::OnOf2),
        ("on-of-21", Mistake::OnOf21),
        ("off-of-119", Mistake::OffOf119),
        ("off-of-601", Mistake::OffOf601),
        ("function-7", Mistake::Function7),
        ("function-with-16", Mistake::FunctionWith16),
        ("cadence-first", Mistake::CadenceFirst),
        ("span-behind-sync", Mistake::SpanBehindSync),
        ("span-from-ones", Mistake::SpanFromOnes),
        ("span-without-ones", Mistake::SpanWithoutOnes),
        ("span-both-not-counted", Mistake::SpanBothNotCounted),
        ("span-counts-no-bits", Mistake::SpanCountsNoBits),
        ("span-from-sync-cut-short", Mistake::SpanFromSyncCutShort),
        ("span-of-message-before", Mistake::SpanOfMessageBefore),
        ("span-of-both-copies", Mistake::SpanOfBothCopies),
        ("span-of-menus-alone", Mistake::SpanOfMenusAlone),
        ("span-of-nothing", Mistake::SpanOfNothing),
        ("span-until-cj", Mistake::SpanUntilCj),
        ("span-until-sync", Mistake::SpanUntilSync),
        ("asked-item-0", Mistake::AskedItem0),
        ("asked-item-13", Mistake::AskedItem13),
        ("asked-size-first", Mistake::AskedSizeFirst),
        ("asked-function-first", Mistake::AskedFunctionFirst),
        ("asked-long-menu", Mistake::AskedLongMenu),
        ("asked-last-group", Mistake::AskedLastGroup),
        ("asked-second-group", Mistake::AskedSecondGroup),
        ("asked-past-short-group", Mistake::AskedPastShortGroup),
        ("asked-sees-all", Mistake::AskedSeesAll),
        ("asked-deciding-not-seen", Mistake::AskedDecidingNotSeen),
        ("asked-deciding-alone-seen", Mistake::AskedDecidingAloneSeen),
        ("asked-from-0", Mistake::AskedFrom0),
        ("asked-first-not-counted", Mistake::AskedFirstNotCounted),
        ("asked-category-not-counted", Mistake::AskedCategoryNotCounted),
        ("asked-length-if-short", Mistake::AskedLengthIfShort),
        ("asked-nothing-is-0", Mistake::AskedNothingIs0),
    ];
}
