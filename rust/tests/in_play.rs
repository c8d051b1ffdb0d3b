//! Words in play: every answer, each refusal in its order, and what a call leaves of the record.

use machirsun::*;

type Call = fn(&[u32], &[u32], u32, &[u8], &mut [u8]) -> Result<Remaining, Refusal>;

/// Where the lexicons here start.
const START: u32 = 2;

/// The lexicon of the words of two tiles, the first up to one tile and the second up to another: nodes and counts.
fn pairs(first: u8, second: u8) -> (Vec<u32>, Vec<u32>) {
    let arc = START + u32::from(first);
    let mut nodes = vec![START << 8 | 0x40, 0x40];
    nodes.extend((1..=first).map(|tile| arc << 8 | u32::from(tile)));
    *nodes.last_mut().unwrap() |= 0x40;
    nodes.extend((1..=second).map(|tile| 0x80 | u32::from(tile)));
    *nodes.last_mut().unwrap() |= 0x40;
    let mut counts = vec![0; nodes.len()];
    count_words(&nodes, &mut counts, &mut vec![0; 2 * nodes.len()]).unwrap();
    (nodes, counts)
}

/// The words of that lexicon, in order.
fn words(first: u8, second: u8) -> Vec<[u8; 2]> {
    (1..=first)
        .flat_map(|one| (1..=second).map(move |other| [one, other]))
        .collect()
}

fn left(count: usize, lowest: Option<usize>) -> Result<Remaining, Refusal> {
    Ok(Remaining {
        count: count as u32,
        lowest: lowest.map(|number| number as u32),
    })
}

/// All words arrive, one after the other, and all leave again: upwards, or downwards. After each call the record has one bit more, or one
/// less, and is else as before; beyond the count it is filled with any byte.
fn arrive_and_leave(first: u8, second: u8, fill: u8, downwards: bool) {
    let (nodes, counts) = pairs(first, second);
    let words = words(first, second);
    let count = words.len();
    let mut bits = vec![0; count / 8];
    bits.push(fill << (count % 8));
    bits.push(fill);
    let mut expected = bits.clone();
    let at = |step| if downwards { count - 1 - step } else { step };
    for step in 0..count {
        let number = at(step);
        let lowest = if downwards { 0 } else { number + 1 };
        let answer = arrive(&nodes, &counts, START, &words[number], &mut bits);
        let others = count - 1 - step;
        assert_eq!(answer, left(others, (others > 0).then_some(lowest)));
        expected[number / 8] ^= 1 << (number % 8);
        assert_eq!(bits, expected);
    }
    for step in 0..count {
        let number = at(step);
        let lowest = if downwards { number } else { 0 };
        let answer = leave(&nodes, &counts, START, &words[number], &mut bits);
        assert_eq!(answer, left(step + 1, Some(lowest)));
        expected[number / 8] ^= 1 << (number % 8);
        assert_eq!(bits, expected);
    }
}

#[test]
fn all_words_arrive_and_leave() {
    for second in 1..=63 {
        for (fill, downwards) in [(0, false), (0, true), (0xFF, false), (0xFF, true)] {
            arrive_and_leave(1, second, fill, downwards);
            arrive_and_leave(3, second, fill, downwards);
        }
    }
    arrive_and_leave(63, 63, 0xA5, false);
    arrive_and_leave(63, 63, 0xA5, true);
}

/// Both calls refuse, whatever is in the record, and leave it as it was.
fn refused(nodes: &[u32], counts: &[u32], start: u32, word: &[u8], bytes: usize, by: Refusal) {
    for call in [arrive as Call, leave] {
        for fill in [0, 0x55, 0xAA, 0xFF] {
            let mut bits = vec![fill; bytes];
            let answer = call(nodes, counts, start, word, &mut bits);
            assert_eq!(answer, Err(by), "{start} {word:?} {bytes} {fill}");
            assert_eq!(bits, vec![fill; bytes]);
        }
    }
}

#[test]
fn a_start_that_is_not_lent() {
    let (nodes, counts) = pairs(3, 3);
    for word in [&[][..], &[9], &[1, 1]] {
        for bytes in [0, 2] {
            let not_lent = |nodes: &[u32], counts: &[u32], start| {
                refused(nodes, counts, start, word, bytes, Refusal::NotLent)
            };
            not_lent(&nodes, &counts, 8);
            not_lent(&nodes, &counts, u32::MAX);
            not_lent(&nodes[..2], &counts, START);
            not_lent(&nodes, &counts[..2], START);
            not_lent(&[], &counts, 0);
        }
    }
}

#[test]
fn a_record_that_is_too_short() {
    let (nodes, mut counts) = pairs(3, 3);
    let short = |counts: &[u32], bytes| {
        for word in [&[][..], &[1, 1], &[2, 1]] {
            refused(&nodes, counts, START, word, bytes, Refusal::ListTooShort);
        }
    };
    short(&counts, 0);
    short(&counts, 1);
    // before what the word would be refused by
    short(&counts[..3], 1);
    counts[2] = u32::MAX;
    counts[3] = 0;
    short(&counts, 9);
    counts[2] = 65;
    counts[3] = 66;
    short(&counts, 8);
}

#[test]
fn refusals_of_word_numbers() {
    let (nodes, mut counts) = pairs(3, 3);
    refused(&nodes, &counts[..3], START, &[2, 1], 2, Refusal::NotLent);
    refused(&nodes[..3], &counts, START, &[2, 1], 2, Refusal::NotLent);
    counts[3] = 10;
    refused(&nodes, &counts, START, &[2, 1], 2, Refusal::OutOfRange);
}

#[test]
fn words_that_are_not_there() {
    let (nodes, mut counts) = pairs(3, 3);
    for word in [&[][..], &[1], &[4, 1], &[1, 4], &[1, 1, 1], &[0, 1]] {
        refused(&nodes, &counts, START, word, 2, Refusal::NoWord);
    }
    // node 0 starts a lexicon of no words, and its count is not read
    for word in [&[][..], &[1, 1], &[0]] {
        refused(&nodes, &counts, 0, word, 2, Refusal::NoWord);
        refused(&nodes[..1], &[], 0, word, 0, Refusal::NoWord);
    }
    // numbers that are not below the start's count: 9 of 9, 11 of 9, 0 of 0
    counts[3] = 0;
    refused(&nodes, &counts, START, &[2, 1], 2, Refusal::NoWord);
    refused(&nodes, &counts, START, &[2, 3], 2, Refusal::NoWord);
    refused(&nodes, &[0; 8], START, &[1, 1], 0, Refusal::NoWord);
}

#[test]
fn words_that_are_in_play_or_not() {
    let (nodes, counts) = pairs(3, 3);
    for (number, word) in words(3, 3).iter().enumerate() {
        let alone = |fill: u8| {
            let mut bits = [fill; 3];
            bits[number / 8] ^= 1 << (number % 8);
            bits
        };
        for mut bits in [[0xFF; 3], alone(0)] {
            let before = bits;
            let answer = arrive(&nodes, &counts, START, word, &mut bits);
            assert_eq!((answer, bits), (Err(Refusal::AlreadyInPlay), before));
        }
        for mut bits in [[0; 3], alone(0xFF)] {
            let before = bits;
            let answer = leave(&nodes, &counts, START, word, &mut bits);
            assert_eq!((answer, bits), (Err(Refusal::NotInPlay), before));
        }
    }
}

#[test]
fn a_record_is_read_by_the_start_and_the_counts_that_are_lent() {
    let (nodes, mut counts) = pairs(3, 3);
    let mut bits = [0, 0xFE];
    let answer = arrive(&nodes, &counts, START, &[1, 1], &mut bits);
    assert_eq!(answer, left(8, Some(1)));
    // from node 3 the words begin with 2: six, of which 2 1 is number 0
    let answer = arrive(&nodes, &counts, 3, &[2, 1], &mut bits);
    assert_eq!(answer, Err(Refusal::AlreadyInPlay));
    let answer = arrive(&nodes, &counts, 3, &[2, 2], &mut bits);
    assert_eq!(answer, left(4, Some(2)));
    // by other counts: two words, both in play, in one byte; then sixteen
    counts[2] = 2;
    let answer = leave(&nodes, &counts, START, &[1, 1], &mut bits[..1]);
    assert_eq!(answer, left(1, Some(0)));
    let answer = arrive(&nodes, &counts, START, &[1, 1], &mut bits[..1]);
    assert_eq!(answer, left(0, None));
    counts[2] = 16;
    let answer = leave(&nodes, &counts, START, &[1, 2], &mut bits);
    assert_eq!(answer, left(8, Some(1)));
    assert_eq!(bits, [1, 0xFE]);
}

#[test]
fn refusals_say_why() {
    for (refusal, number, text) in [
        (Refusal::NoWord, 29, "the word is not in the lexicon"),
        (Refusal::AlreadyInPlay, 30, "the word is in play already"),
        (Refusal::NotInPlay, 31, "the word is not in play"),
    ] {
        assert_eq!(refusal.number(), number);
        assert_eq!(refusal.to_string(), text);
    }
}
