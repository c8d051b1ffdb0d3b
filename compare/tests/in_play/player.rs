//! Words in play with one slip, or with none.

use Slip::*;
use compare::answer::Answer;
use compare::engine::{PlayOf, Turn, word_index};

#[derive(Clone, Copy, Debug, PartialEq, Eq)]
pub enum Slip {
    Nowhere,
    // Of the start and its count.
    Start0Counted,
    Start0NotAsked,
    NodeNotAsked,
    CountNotAsked,
    // Of the record's bits.
    BytesForBits,
    LastByteNotAsked,
    ByteMoreAsked,
    RoundingWraps,
    // Of the order of the checks.
    BitsBeforeStart,
    WordBeforeBits,
    NoWordBeforeBits,
    InPlayBeforeNoWord,
    // Of the word and its bit.
    EqualNumberTaken,
    GreaterNumberTaken,
    NoWordNotRefused,
    ArrivalNotRefused,
    LeavingNotRefused,
    RefusalsTurnedRound,
    BitsTurnedRound,
    ClearIsInPlay,
    // Of the change.
    SetAndClearTurnedRound,
    NothingChanged,
    OthersOfByteLost,
    RestOfByteCleared,
    RestOfRecordCleared,
    RefusedChanges,
    NoWordChanges,
    RefusedAnswers,
    // Of the answer.
    FromBefore,
    LowestFromBefore,
    InPlayCounted,
    RestOfByteCounted,
    RestOfRecordCounted,
    LowestOfRecord,
    LowestOfNone,
    LowestFrom1,
    LowestInItsByte,
    LowestInItsGroup,
    LowestIsItsByte,
    HighestForLowest,
    RemainingIn8Bits,
    RemainingIn16Bits,
    // Of a scan: groups of eight bytes, then the bytes that are left, then the bits of a last byte.
    LastBitUnseen,
    LastBitsUnseen,
    LastBytesUnseen,
    LastGroupUnseen,
    SecondGroupUnseen,
    LastBitOfGroupsUnseen,
    LowestInGroupsOnly,
    LowestNotInLastBits,
}

pub const SLIPS: [Slip; 50] = [
    Start0Counted,
    Start0NotAsked,
    NodeNotAsked,
    CountNotAsked,
    BytesForBits,
    LastByteNotAsked,
    ByteMoreAsked,
    RoundingWraps,
    BitsBeforeStart,
    WordBeforeBits,
    NoWordBeforeBits,
    InPlayBeforeNoWord,
    EqualNumberTaken,
    GreaterNumberTaken,
    NoWordNotRefused,
    ArrivalNotRefused,
    LeavingNotRefused,
    RefusalsTurnedRound,
    BitsTurnedRound,
    ClearIsInPlay,
    SetAndClearTurnedRound,
    NothingChanged,
    OthersOfByteLost,
    RestOfByteCleared,
    RestOfRecordCleared,
    RefusedChanges,
    NoWordChanges,
    RefusedAnswers,
    FromBefore,
    LowestFromBefore,
    InPlayCounted,
    RestOfByteCounted,
    RestOfRecordCounted,
    LowestOfRecord,
    LowestOfNone,
    LowestFrom1,
    LowestInItsByte,
    LowestInItsGroup,
    LowestIsItsByte,
    HighestForLowest,
    RemainingIn8Bits,
    RemainingIn16Bits,
    LastBitUnseen,
    LastBitsUnseen,
    LastBytesUnseen,
    LastGroupUnseen,
    SecondGroupUnseen,
    LastBitOfGroupsUnseen,
    LowestInGroupsOnly,
    LowestNotInLastBits,
];

pub fn in_play(nodes: &[u32], asked: &PlayOf, bits: &mut [u8], slip: Slip) -> Answer {
    let (start, words) = words_of_start(nodes, asked, slip);
    let index = word_index(nodes, asked.counts, asked.start, asked.word);
    let before = scan(bits, words, slip);
    let few = if too_few(bits.len(), words, slip) {
        11
    } else {
        0
    };
    let none = no_word(&index, words, bits, slip);
    let play = in_play_already(&index, asked.turn, bits, slip);
    let order = match slip {
        BitsBeforeStart => [few, start, index.refusal, none, play],
        WordBeforeBits => [start, index.refusal, few, none, play],
        NoWordBeforeBits => [start, index.refusal, none, few, play],
        InPlayBeforeNoWord => [start, few, index.refusal, play, none],
        _ => [start, few, index.refusal, none, play],
    };
    let number = if index.flag {
        index.value as usize
    } else {
        usize::MAX
    };
    match order.into_iter().find(|&refusal| refusal != 0) {
        Some(refusal) => refused(refusal, bits, number, &before, slip),
        None => {
            change(bits, words, number, asked.turn, slip);
            answered(&before, scan(bits, words, slip), slip)
        }
    }
}

// The refusal of the start, or 0, and its count, or 0.
fn words_of_start(nodes: &[u32], asked: &PlayOf, slip: Slip) -> (u32, usize) {
    let no_node = asked.start as usize >= nodes.len();
    let count = asked.counts.get(asked.start as usize);
    let (not_lent, words) = match asked.start {
        0 if slip == Start0NotAsked => (false, 0),
        0 if slip != Start0Counted => (no_node, 0),
        _ => (
            no_node && slip != NodeNotAsked || count.is_none() && slip != CountNotAsked,
            count.copied().unwrap_or(0),
        ),
    };
    (if not_lent { 14 } else { 0 }, words as usize)
}

fn no_word(index: &Answer, words: usize, bits: &[u8], slip: Slip) -> u32 {
    let number = index.value as usize;
    let past = match slip {
        EqualNumberTaken => number > words,
        GreaterNumberTaken => number >= 8 * bits.len(),
        _ => number >= words,
    };
    match index.flag && !past || slip == NoWordNotRefused {
        true => 0,
        false => 29,
    }
}

fn in_play_already(index: &Answer, turn: Turn, bits: &[u8], slip: Slip) -> u32 {
    let is_set = is_set(bits, index.value as usize, slip);
    match turn {
        _ if !index.flag => 0,
        Turn::Arrives if !is_set || slip == ArrivalNotRefused => 0,
        Turn::Leaves if is_set || slip == LeavingNotRefused => 0,
        _ if slip == RefusalsTurnedRound => 30 + u32::from(turn == Turn::Arrives),
        _ => 30 + u32::from(turn == Turn::Leaves),
    }
}

fn refused(refusal: u32, bits: &mut [u8], number: usize, before: &Answer, slip: Slip) -> Answer {
    match (refusal, slip) {
        (29, NoWordChanges) => put(bits, number, true, slip),
        (30 | 31, RefusedChanges) => put(bits, number, refusal == 31, slip),
        (30 | 31, RefusedAnswers) => return Answer { refusal, ..*before },
        _ => {}
    }
    Answer::refused(refusal)
}

fn answered(before: &Answer, after: Answer, slip: Slip) -> Answer {
    match slip {
        FromBefore => *before,
        LowestFromBefore => Answer {
            remaining: after.remaining,
            ..*before
        },
        _ => after,
    }
}

fn too_few(bytes: usize, words: usize, slip: Slip) -> bool {
    match slip {
        BytesForBits => bytes < words,
        LastByteNotAsked => bytes < words / 8,
        ByteMoreAsked => bytes <= words / 8,
        RoundingWraps => bytes < (words as u32).wrapping_add(7) as usize / 8,
        _ => 8 * bytes < words,
    }
}

// A bit's place in its byte.
fn place(number: usize, slip: Slip) -> usize {
    match slip {
        BitsTurnedRound => 7 - number % 8,
        _ => number % 8,
    }
}

fn is_set(bits: &[u8], number: usize, slip: Slip) -> bool {
    let byte = bits.get(number / 8).copied().unwrap_or(0);
    (byte >> place(number, slip) & 1 == 1) ^ (slip == ClearIsInPlay)
}

fn put(bits: &mut [u8], number: usize, set: bool, slip: Slip) {
    let bit = 1 << place(number, slip);
    if let Some(byte) = bits.get_mut(number / 8) {
        match set ^ (slip == ClearIsInPlay) {
            true => *byte |= bit,
            false => *byte &= !bit,
        }
    }
}

fn change(bits: &mut [u8], words: usize, number: usize, turn: Turn, slip: Slip) {
    match slip {
        NothingChanged => return,
        OthersOfByteLost => bits
            .iter_mut()
            .skip(number / 8)
            .take(1)
            .for_each(|byte| *byte = 0),
        RestOfByteCleared => {
            (words..words.next_multiple_of(8)).for_each(|rest| put(bits, rest, false, slip));
        }
        RestOfRecordCleared => bits[words.div_ceil(8)..].fill(0),
        _ => {}
    }
    let arrives = turn == Turn::Arrives;
    put(
        bits,
        number,
        arrives ^ (slip == SetAndClearTurnedRound),
        slip,
    );
}

fn scan(bits: &[u8], words: usize, slip: Slip) -> Answer {
    let end = 8 * bits.len();
    let words = words.min(end);
    let counted = match slip {
        RestOfByteCounted => words.next_multiple_of(8),
        RestOfRecordCounted => end,
        _ => words,
    };
    let clear = |number: &usize| is_set(bits, *number, slip) == (slip == InPlayCounted);
    let seen = |number: &usize| clear(number) && is_seen(*number, words, slip);
    let remaining = (0..counted).filter(seen).count() as u64;
    let looked = match slip {
        LowestOfRecord => 0..end,
        LowestInGroupsOnly if words >= 64 => 0..words / 64 * 64,
        LowestNotInLastBits => 0..words / 8 * 8,
        _ => 0..words,
    };
    let lowest = match slip {
        HighestForLowest => looked.rev().find(seen),
        LowestOfNone => looked.clone().find(seen).or(Some(words)),
        _ => looked.clone().find(seen),
    };
    Answer {
        remaining: match slip {
            RemainingIn8Bits => remaining % (1 << 8),
            RemainingIn16Bits => remaining % (1 << 16),
            _ => remaining,
        },
        ..Answer::found(lowest.map(|lowest| named(lowest as u64, slip)))
    }
}

fn named(lowest: u64, slip: Slip) -> u64 {
    match slip {
        LowestFrom1 => lowest + 1,
        LowestInItsByte => lowest % 8,
        LowestInItsGroup => lowest % 64,
        LowestIsItsByte => lowest / 8 * 8,
        _ => lowest,
    }
}

fn is_seen(number: usize, words: usize, slip: Slip) -> bool {
    let groups = words / 64;
    match slip {
        LastBitUnseen => number + 1 < words,
        LastBitsUnseen => number < words / 8 * 8,
        LastBytesUnseen => number < 64 * groups || number >= words / 8 * 8,
        LastGroupUnseen => groups < 2 || number / 64 != groups - 1,
        SecondGroupUnseen => groups < 2 || number / 64 != 1,
        LastBitOfGroupsUnseen => number % 64 != 63,
        _ => true,
    }
}
