//! Why a call refused.

use std::error::Error;
use std::fmt;

/// A refusal. Its number is that of the table in `include/machirsun.h`.
#[derive(Clone, Copy, Debug, PartialEq, Eq)]
#[non_exhaustive]
pub enum Refusal {
    /// 1: the announced length is 0 or no multiple of 4.
    NotWholeNodes,
    /// 2: the announced length is over 67,108,864.
    OverLimit,
    /// 3: the node buffer has fewer than max(length / 4, 2) nodes.
    NodesTooShort,
    /// 4: no load of this node buffer has this state.
    BadState,
    /// 5: the piece is longer than what is missing; nothing was taken.
    TooLong,
    /// 6: a node does not fit the layout.
    DoesNotFit { node: usize, tile: u8, arc: u32 },
    /// 7: bytes are missing.
    Missing,
    /// 8: the largest arc is at least the number of nodes.
    ArcPastEnd { arc: u32 },
    /// 9: the last node is no end.
    NoEnd,
    /// 10: under 2 nodes or over 16,777,216.
    WrongSize,
    /// 11: a list is too short.
    ListTooShort,
    /// 12: the lowest node that can be reached from itself.
    Loops { node: u32 },
    /// 13: some node (for an LXD file: the start) has 4,294,967,295 words or more.
    TooManyWords,
    /// 14: a step leads to a node or a count that is not lent.
    NotLent,
    /// 15: a difference is below 0, or a sum above 4,294,967,295: the counts are not the graph's.
    OutOfRange,
    /// 16: the word buffer is full; for a list of words, there is no room for a tile or a size.
    BufferFull,
    /// 17: the tally has over 64 entries.
    TallyTooLong,
    /// 18: no label, or over 50.
    LabelCount,
    /// 19: a name over 255 bytes, a title over 31 or a date over 19; for a page a title over 40 bytes.
    TextTooLong,
    /// 20: the title or the date has a code point without a byte in Windows-1252.
    NotWindows1252,
    /// 21: a tile (for a page: one that is shown) has no label.
    NoLabel,
    /// 22: over 64 runs, each reached by an arc of the one before, from the start.
    ChainTooLong,
    /// 23: a label is not one code point (for an LXD file: a label reached has no byte in Windows-1252).
    BadLetter,
    /// 24: runs do not ascend.
    NotAscending,
    /// 25: the file or the graph would have too many nodes.
    TooManyNodes,
    /// 26: a byte of the title or a shown label is outside 20 to 7E hexadecimal.
    NotPrintable,
    /// 27: this line of the label file is bad, counted from 1.
    BadLabelLine { line: usize },
    /// 28: no label matches at this place of the text.
    Unreadable { place: usize },
    /// 29: the word is not in the lexicon, or its number is not below the start's count.
    NoWord,
    /// 30: the word is in play already.
    AlreadyInPlay,
    /// 31: the word is not in play.
    NotInPlay,
    /// 32: a word of the list has a length that is not 1 to 64 or a tile that is not 1 to 63, or the list ends inside it.
    BadWord,
    /// 33: a word of the list is not above the one before it.
    NotAbove,
    /// A number that this crate does not know: the library linked is a later one.
    Unknown(u32),
}

impl Refusal {
    pub(crate) fn of(number: u32, node: usize, tile: u8, arc: u32) -> Refusal {
        match number {
            1 => Refusal::NotWholeNodes,
            2 => Refusal::OverLimit,
            3 => Refusal::NodesTooShort,
            4 => Refusal::BadState,
            5 => Refusal::TooLong,
            6 => Refusal::DoesNotFit { node, tile, arc },
            7 => Refusal::Missing,
            8 => Refusal::ArcPastEnd { arc },
            9 => Refusal::NoEnd,
            10 => Refusal::WrongSize,
            11 => Refusal::ListTooShort,
            12 => Refusal::Loops { node: node as u32 },
            13 => Refusal::TooManyWords,
            14 => Refusal::NotLent,
            15 => Refusal::OutOfRange,
            16 => Refusal::BufferFull,
            17 => Refusal::TallyTooLong,
            18 => Refusal::LabelCount,
            19 => Refusal::TextTooLong,
            20 => Refusal::NotWindows1252,
            21 => Refusal::NoLabel,
            22 => Refusal::ChainTooLong,
            23 => Refusal::BadLetter,
            24 => Refusal::NotAscending,
            25 => Refusal::TooManyNodes,
            26 => Refusal::NotPrintable,
            29 => Refusal::NoWord,
            30 => Refusal::AlreadyInPlay,
            31 => Refusal::NotInPlay,
            32 => Refusal::BadWord,
            33 => Refusal::NotAbove,
            other => Refusal::Unknown(other),
        }
    }

    /// A refusal of a call that reads a text, with the line or the place that is bad.
    pub(crate) fn of_text(number: u32, bad: usize) -> Refusal {
        match number {
            27 => Refusal::BadLabelLine { line: bad },
            28 => Refusal::Unreadable { place: bad },
            other => Refusal::of(other, 0, 0, 0),
        }
    }

    /// The refusal's number.
    pub fn number(self) -> u32 {
        match self {
            Refusal::NotWholeNodes => 1,
            Refusal::OverLimit => 2,
            Refusal::NodesTooShort => 3,
            Refusal::BadState => 4,
            Refusal::TooLong => 5,
            Refusal::DoesNotFit { .. } => 6,
            Refusal::Missing => 7,
            Refusal::ArcPastEnd { .. } => 8,
            Refusal::NoEnd => 9,
            Refusal::WrongSize => 10,
            Refusal::ListTooShort => 11,
            Refusal::Loops { .. } => 12,
            Refusal::TooManyWords => 13,
            Refusal::NotLent => 14,
            Refusal::OutOfRange => 15,
            Refusal::BufferFull => 16,
            Refusal::TallyTooLong => 17,
            Refusal::LabelCount => 18,
            Refusal::TextTooLong => 19,
            Refusal::NotWindows1252 => 20,
            Refusal::NoLabel => 21,
            Refusal::ChainTooLong => 22,
            Refusal::BadLetter => 23,
            Refusal::NotAscending => 24,
            Refusal::TooManyNodes => 25,
            Refusal::NotPrintable => 26,
            Refusal::BadLabelLine { .. } => 27,
            Refusal::Unreadable { .. } => 28,
            Refusal::NoWord => 29,
            Refusal::AlreadyInPlay => 30,
            Refusal::NotInPlay => 31,
            Refusal::BadWord => 32,
            Refusal::NotAbove => 33,
            Refusal::Unknown(number) => number,
        }
    }
}

impl fmt::Display for Refusal {
    fn fmt(&self, f: &mut fmt::Formatter<'_>) -> fmt::Result {
        match self {
            Refusal::NotWholeNodes => write!(f, "the length is 0 or no multiple of 4"),
            Refusal::OverLimit => write!(f, "the length is over 67108864"),
            Refusal::NodesTooShort => write!(f, "the node buffer is too short for the file"),
            Refusal::BadState => write!(f, "no load of this node buffer has this state"),
            Refusal::TooLong => write!(f, "the piece is longer than what is missing"),
            Refusal::DoesNotFit { node, tile, arc } => {
                write!(
                    f,
                    "node {node} does not fit the layout: tile {tile}, arc {arc}"
                )
            }
            Refusal::Missing => write!(f, "bytes are missing"),
            Refusal::ArcPastEnd { arc } => write!(f, "arc {arc} leads past the nodes"),
            Refusal::NoEnd => write!(f, "the last node is no end"),
            Refusal::WrongSize => write!(f, "under 2 nodes or over 16777216"),
            Refusal::ListTooShort => write!(f, "a list is too short"),
            Refusal::Loops { node } => write!(f, "node {node} can be reached from itself"),
            Refusal::TooManyWords => write!(f, "too many words to count"),
            Refusal::NotLent => write!(f, "a step leads to a node or a count that is not lent"),
            Refusal::OutOfRange => write!(f, "the counts are not the graph's"),
            Refusal::BufferFull => write!(f, "the word buffer is full"),
            Refusal::TallyTooLong => write!(f, "the tally has over 64 entries"),
            Refusal::LabelCount => write!(f, "no label, or over 50"),
            Refusal::TextTooLong => write!(f, "a name, a title or a date is too long"),
            Refusal::NotWindows1252 => {
                write!(
                    f,
                    "the title or the date has a code point without a byte in Windows-1252"
                )
            }
            Refusal::NoLabel => write!(f, "a tile has no label"),
            Refusal::ChainTooLong => write!(f, "over 64 runs in a chain"),
            Refusal::BadLetter => write!(f, "a label cannot be written as a letter"),
            Refusal::NotAscending => write!(f, "runs do not ascend"),
            Refusal::TooManyNodes => write!(f, "the file or the graph would have too many nodes"),
            Refusal::NotPrintable => write!(f, "the title or a shown label is outside 20 to 7E"),
            Refusal::BadLabelLine { line } => write!(f, "line {line} of the label file is bad"),
            Refusal::Unreadable { place } => write!(f, "no label matches at place {place}"),
            Refusal::NoWord => write!(f, "the word is not in the lexicon"),
            Refusal::AlreadyInPlay => write!(f, "the word is in play already"),
            Refusal::NotInPlay => write!(f, "the word is not in play"),
            Refusal::BadWord => write!(f, "a word of the list has a bad length or a bad tile"),
            Refusal::NotAbove => {
                write!(f, "a word of the list is not above the one before it")
            }
            Refusal::Unknown(number) => write!(f, "refusal {number}"),
        }
    }
}

impl Error for Refusal {}
