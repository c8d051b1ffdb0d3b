// Calls 17 and 18: the words of a text as viewers type them, one by one and many
// at a time. The lines are those of `text::lines`, the tiles those of `next_tile`
// and of `parse_machine_words`; the label file is the oracle's own reading.

mod label_file;
mod requests;

use super::outcome::{DONE, FOUND, NO_ROOM, UNREADABLE};
use super::{Case, Family};
use crate::alphabet::AlphabetReader;
use crate::numbers::{Inputs, Unreadable};
use crate::{text, word_list};

const NEXT_WORD: u64 = 17;
const READ_WORDS: u64 = 18;

const MOST_ROOM: u64 = 64;
const MOST_SIZES: u64 = 16;

pub const FAMILY: Family = Family {
    list: "typed",
    calls: NEXT_WORD..=READ_WORDS,
    requests: requests::requests,
    answer,
};

fn answer(call: u64, inputs: &mut Inputs) -> Result<Case, Unreadable> {
    let at = inputs.word()?;
    let room = inputs.number(MOST_ROOM)?;
    let sizes = match call {
        READ_WORDS => Some(inputs.number(MOST_SIZES)?),
        _ => None,
    };
    let labels = inputs.bytes()?;
    let text = inputs.bytes()?;
    inputs.end()?;
    let asked = Asked {
        text: &text,
        at: at as usize,
        room: room as usize,
    };
    let answer = match (label_file::reader(&labels), sizes) {
        (Err(bad), None) => bad.next_word(),
        (Err(bad), Some(_)) => bad.read_words(),
        (Ok(reader), None) => next_word(&reader, &asked)?,
        (Ok(reader), Some(sizes)) => read_words(&reader, &asked, sizes as usize)?,
    };
    let mut words = vec![at, room as u32];
    words.extend(sizes.map(|sizes| sizes as u32));
    words.push(labels.len() as u32);
    Ok(Case {
        words,
        bytes: [labels, text].concat(),
        answer,
    })
}

struct Asked<'a> {
    text: &'a [u8],
    at: usize,
    room: usize,
}

// A refusal's number, and the line of the label file or the place in the text
// that it carries.
struct Refused(u64, u64);

impl Refused {
    fn next_word(&self) -> Vec<u64> {
        vec![self.0, 0, self.1, 0, 0, 0, 0]
    }

    fn read_words(&self) -> Vec<u64> {
        vec![self.0, 0, self.1, 0, 0, 0]
    }
}

// The end of the text is like a refusal that does not refuse.
const END: Refused = Refused(DONE, 0);

// Where a line starts and ends in the text, and the place after its ending.
struct Line {
    start: usize,
    end: usize,
    after: usize,
}

// The lines from the place on that are not empty. The Rust takes UTF-8 only; other
// bytes can be asked where they are one line.
fn lines(asked: &Asked) -> Result<Vec<Line>, Unreadable> {
    let Some(rest) = asked.text.get(asked.at..) else {
        return Ok(Vec::new());
    };
    let starts_and_ends: Vec<(usize, usize)> = match str::from_utf8(rest) {
        Ok(rest) => text::lines(rest)
            .map(|line| {
                let start = asked.at + line.as_ptr().addr() - rest.as_ptr().addr();
                (start, start + line.len())
            })
            .collect(),
        Err(_) if rest.iter().any(|byte| b"\n\r".contains(byte)) => {
            return Err("lines that are not UTF-8".into());
        }
        Err(_) => vec![(asked.at, asked.text.len())],
    };
    // After a line's ending the next line starts.
    let afters = starts_and_ends.iter().skip(1).map(|&(start, _)| start);
    let lines = starts_and_ends
        .iter()
        .zip(afters.chain([asked.text.len()]))
        .map(|(&(start, end), after)| Line { start, end, after });
    Ok(lines.filter(|line| line.start < line.end).collect())
}

// The tiles of a line for which there is room, and why there are no more where
// that is not the word's end.
fn tiles(reader: &AlphabetReader, asked: &Asked, line: &Line) -> (Vec<u8>, Option<Refused>) {
    let bytes = &asked.text[line.start..line.end];
    let mut tiles = Vec::new();
    let mut place = 0;
    while place < bytes.len() {
        match reader.next_tile(bytes, place) {
            Some(_) if tiles.len() == asked.room => return (tiles, Some(Refused(NO_ROOM, 0))),
            Some((tile, end)) => {
                tiles.push(tile);
                place = end;
            }
            None if place > 0 && bytes[place] <= b' ' => break,
            None => {
                let place = (line.start + place) as u64;
                return (tiles, Some(Refused(UNREADABLE, place)));
            }
        }
    }
    (tiles, None)
}

fn next_word(reader: &AlphabetReader, asked: &Asked) -> Result<Vec<u64>, Unreadable> {
    let lines = lines(asked)?;
    let Some(line) = lines.first() else {
        return Ok(END.next_word());
    };
    let (tiles, refused) = tiles(reader, asked, line);
    let mut answer = match refused {
        Some(refused) => refused.next_word(),
        None => {
            let places = [line.start, line.end, line.after, tiles.len()];
            let mut answer = vec![DONE, FOUND, 0];
            answer.extend(places.map(|place| place as u64));
            answer
        }
    };
    answer.extend(numbers(&tiles));
    Ok(answer)
}

// The words of the most lines that the Rust reads and that there is room for.
fn read_words(
    reader: &AlphabetReader,
    asked: &Asked,
    sizes: usize,
) -> Result<Vec<u64>, Unreadable> {
    let lines = lines(asked)?;
    let mut answer = match lines.first() {
        None => END.read_words(),
        Some(_) if sizes == 0 => Refused(NO_ROOM, 0).read_words(),
        Some(line) => match tiles(reader, asked, line).1 {
            Some(refused) => refused.read_words(),
            None => Vec::new(),
        },
    };
    for line in &lines {
        let start = str::from_utf8(&asked.text[asked.at..line.after]);
        let start = start.map_err(|e| e.to_string())?;
        let Ok(words) = word_list::parse(reader, start) else {
            break;
        };
        let tiles: Vec<u64> = words.iter().flat_map(|word| numbers(word)).collect();
        if words.len() > sizes || tiles.len() > asked.room {
            break;
        }
        let counts = [words.len(), tiles.len(), line.after];
        answer = vec![DONE, FOUND, 0];
        answer.extend(counts.map(|count| count as u64));
        answer.extend(words.iter().map(|word| word.len() as u64));
        answer.extend(tiles);
    }
    assert!(
        !answer.is_empty(),
        "the Rust reads the line's tiles, but not its word"
    );
    Ok(answer)
}

fn numbers(word: &[u8]) -> impl Iterator<Item = u64> {
    word.iter().map(|&tile| u64::from(tile))
}
