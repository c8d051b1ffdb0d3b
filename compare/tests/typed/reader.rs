//! A reader of texts with one slip, or with none.

use Slip::*;
use compare::answer::Answer;
use compare::engine::TextOf;

#[derive(Clone, Copy, Debug, PartialEq, Eq)]
pub enum Slip {
    Nowhere,
    // Of the label file.
    LinesFrom0,
    Line257,
    Tile0,
    Tile64,
    LeadingZero,
    LabelOf16,
    EmptyLabel,
    EmptyLineGood,
    TabEndsLabel,
    EndBefore27,
    // Of the choice of a label.
    HigherTile,
    FirstInFile,
    ShortestLabel,
    // Of lines and words.
    LoneReturnInLine,
    EmptyLineRead,
    AfterWithoutEnding,
    BlankEndsAtStart,
    BlankBeforeLabels,
    Only20Ends,
    Byte21Ends,
    FullBeforeUnreadable,
    BlankUnreadable,
    PlaceInLine,
    // Of a list of words.
    SizeAskedLast,
    RefusedAfterWords,
    TilesTakenBack,
}

pub const SLIPS: [Slip; 26] = [
    LinesFrom0,
    Line257,
    Tile0,
    Tile64,
    LeadingZero,
    LabelOf16,
    EmptyLabel,
    EmptyLineGood,
    TabEndsLabel,
    EndBefore27,
    HigherTile,
    FirstInFile,
    ShortestLabel,
    LoneReturnInLine,
    EmptyLineRead,
    AfterWithoutEnding,
    BlankEndsAtStart,
    BlankBeforeLabels,
    Only20Ends,
    Byte21Ends,
    FullBeforeUnreadable,
    BlankUnreadable,
    PlaceInLine,
    SizeAskedLast,
    RefusedAfterWords,
    TilesTakenBack,
];

type Labels = Vec<(u8, Vec<u8>)>;

// A line, and how many bytes it has with its ending.
fn first_line(text: &[u8], slip: Slip) -> (&[u8], usize) {
    let returns = |at: usize| {
        text[at] == b'\r' && (slip != LoneReturnInLine || text.get(at + 1) == Some(&b'\n'))
    };
    let end = (0..text.len()).find(|&at| text[at] == b'\n' || returns(at));
    let end = end.unwrap_or(text.len());
    let ending = if text[end..].starts_with(b"\r\n") {
        2
    } else {
        1
    };
    (&text[..end], (end + ending).min(text.len()))
}

// The labels, or the number of the first bad line.
fn read_labels(file: &[u8], slip: Slip) -> Result<Labels, u64> {
    let (mut labels, mut rest) = (Labels::new(), file);
    for number in 1.. {
        if rest.is_empty() {
            break;
        }
        let (line, len) = first_line(rest, Nowhere);
        rest = &rest[len..];
        if line.is_empty() && slip == EmptyLineGood {
            continue;
        }
        match read_label(line, slip) {
            Some(label) if number <= 256 || slip == Line257 => labels.push(label),
            _ => return Err(number - u64::from(slip == LinesFrom0)),
        }
    }
    Ok(labels)
}

fn read_label(line: &[u8], slip: Slip) -> Option<(u8, Vec<u8>)> {
    let mut parts = line.splitn(if slip == TabEndsLabel { 3 } else { 2 }, |&byte| {
        byte == b'\t'
    });
    let digits = str::from_utf8(parts.next()?).ok()?;
    let label = parts.next()?;
    let tile: u8 = digits.parse().ok()?;
    let plain = !digits.starts_with(['0', '+'])
        || digits == "0"
        || slip == LeadingZero && !digits.starts_with('+');
    let tiles = if slip == Tile0 { 0 } else { 1 }..=if slip == Tile64 { 64 } else { 63 };
    let lens = if slip == EmptyLabel { 0 } else { 1 }..=if slip == LabelOf16 { 16 } else { 15 };
    let good = plain && tiles.contains(&tile) && lens.contains(&label.len());
    good.then(|| (tile, label.to_vec()))
}

fn taken<'a>(labels: &'a Labels, rest: &[u8], slip: Slip) -> Option<&'a (u8, Vec<u8>)> {
    let matches = labels
        .iter()
        .filter(|(_, label)| rest.starts_with(label) && !label.is_empty());
    match slip {
        HigherTile => matches.max_by_key(|(tile, label)| (label.len(), *tile)),
        FirstInFile => matches.rev().max_by_key(|(_, label)| label.len()),
        ShortestLabel => matches.min_by_key(|(tile, label)| (label.len(), *tile)),
        _ => matches.min_by_key(|(tile, label)| (16 - label.len(), *tile)),
    }
}

enum Stop {
    Full,
    Unreadable(usize),
}

// How many tiles the word has.
fn read_line(labels: &Labels, line: &[u8], word: &mut [u8], slip: Slip) -> Result<usize, Stop> {
    let (mut tiles, mut place) = (0, 0);
    while place < line.len() {
        let ends = ends_word(line[place], slip) && (place > 0 || slip == BlankEndsAtStart);
        let label = taken(labels, &line[place..], slip);
        match label.filter(|_| slip != BlankBeforeLabels || !ends) {
            Some(_) if tiles == word.len() => return Err(Stop::Full),
            Some((tile, label)) => {
                word[tiles] = *tile;
                tiles += 1;
                place += label.len();
            }
            None if slip == FullBeforeUnreadable && tiles == word.len() => return Err(Stop::Full),
            None if ends && slip != BlankUnreadable => break,
            None => return Err(Stop::Unreadable(place)),
        }
    }
    Ok(tiles)
}

fn ends_word(byte: u8, slip: Slip) -> bool {
    match slip {
        Only20Ends => byte == 0x20,
        Byte21Ends => byte <= 0x21,
        _ => byte <= 0x20,
    }
}

// Where the line starts, the line, and the place after its ending.
fn next_line(text: &[u8], at: usize, slip: Slip) -> Option<(usize, &[u8], usize)> {
    let mut at = at;
    while at < text.len() {
        let (line, len) = first_line(&text[at..], slip);
        if !line.is_empty() || slip == EmptyLineRead {
            let after = if slip == AfterWithoutEnding {
                at + line.len()
            } else {
                at + len
            };
            return Some((at, line, after));
        }
        at += len;
    }
    None
}

pub fn next_word(asked: &TextOf, word: &mut [u8], slip: Slip) -> Answer {
    let line = next_line(asked.text, asked.at, slip);
    if slip == EndBefore27 && line.is_none() {
        return Answer::default();
    }
    let labels = match read_labels(asked.labels, slip) {
        Ok(labels) => labels,
        Err(number) => return refused(27, number),
    };
    let Some((start, line, after)) = line else {
        return Answer::default();
    };
    match read_line(&labels, line, word, slip) {
        Err(Stop::Full) => refused(16, 0),
        Err(Stop::Unreadable(place)) if slip == PlaceInLine => refused(28, place as u64),
        Err(Stop::Unreadable(place)) => refused(28, (start + place) as u64),
        Ok(tiles) => Answer {
            flag: true,
            start: start as u64,
            end: (start + line.len()) as u64,
            after: after as u64,
            ..Answer::gives(tiles as u64)
        },
    }
}

fn refused(refusal: u32, bad: u64) -> Answer {
    Answer {
        bad,
        ..Answer::refused(refusal)
    }
}

pub fn read_words(asked: &TextOf, tiles: &mut [u8], sizes: &mut [usize], slip: Slip) -> Answer {
    let mut list = Answer::default();
    let mut at = asked.at;
    loop {
        let (words, put) = (list.words as usize, list.value as usize);
        let is_line = next_line(asked.text, at, slip).is_some();
        let before = tiles[put..].to_vec();
        let asked = TextOf { at, ..*asked };
        let full = words == sizes.len() && is_line && read_labels(asked.labels, slip).is_ok();
        let word: &mut [u8] = if full && slip != SizeAskedLast {
            &mut []
        } else {
            &mut tiles[put..]
        };
        let mut answer = next_word(&asked, word, slip);
        if full {
            answer = Answer::refused(16);
        }
        if !answer.flag || answer.after as usize <= at {
            if slip == TilesTakenBack {
                tiles[put..].copy_from_slice(&before);
            }
            let refused = words == 0 || slip == RefusedAfterWords && answer.refusal == 28;
            return if refused { answer } else { list };
        }
        sizes[words] = answer.value as usize;
        at = answer.after as usize;
        list = Answer {
            flag: true,
            words: list.words + 1,
            after: answer.after,
            ..Answer::gives(list.value + answer.value)
        };
    }
}
