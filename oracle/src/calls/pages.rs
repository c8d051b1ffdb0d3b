// Call 16: a page of words. The Rust has no such call: the words are its own, by
// number, and its standard library puts them into columns.

mod requests;

use super::graphs::kwg_of;
use super::outcome::{DONE, NO_LABEL, NOT_PRINTABLE, TOO_LONG, fewer_words, unknown};
use super::{Case, Family};
use crate::kwg::{Kwg, Node24};
use crate::numbers::{Inputs, Unreadable};

const PAGE: u64 = 16;

// The rows below the title, and the columns of the title and of a word.
const WORDS: usize = 23;
const TITLE: usize = 40;
const TILES: usize = 28;

pub const FAMILY: Family = Family {
    list: "pages",
    calls: PAGE..=PAGE,
    requests: requests::requests,
    answer,
};

fn answer(_call: u64, inputs: &mut Inputs) -> Result<Case, Unreadable> {
    let words = inputs.words()?;
    let counts = inputs.words_of(words.len() as u64)?;
    let start = inputs.index()?;
    let first = inputs.word()?;
    let labels = inputs.words()?;
    let title = inputs.bytes()?;
    inputs.end()?;
    let rows = rows(&kwg_of(&words), &counts, start, first)?;
    let mut answer = Vec::new();
    match page(&rows, &labels, &title) {
        Ok(page) => {
            answer.push(DONE);
            answer.extend(page.bytes().map(u64::from));
        }
        Err(refusal) => answer.push(refusal),
    }
    let (label_count, len) = (labels.len() as u32, words.len() as u32);
    let head = [start as u32, first, label_count, len];
    Ok(Case {
        words: [&head, &labels[..], &words, &counts].concat(),
        bytes: title,
        answer,
    })
}

// A row's word: the tiles that are shown, and whether it has more.
struct Row {
    number: u32,
    tiles: Vec<u8>,
    more: bool,
}

// The rows up to the first number that names no word.
fn rows(
    graph: &Kwg<Node24>,
    counts: &[u32],
    start: i32,
    first: u32,
) -> Result<Vec<Row>, Unreadable> {
    let mut rows = Vec::new();
    for number in (first..=u32::MAX).take(WORDS) {
        match row(graph, counts, start, number)? {
            Some(row) => rows.push(row),
            None => break,
        }
    }
    Ok(rows)
}

// None where the Rust says so before it puts a tile that does not fit: a page's
// walk goes no further than that tile.
fn row(
    graph: &Kwg<Node24>,
    counts: &[u32],
    start: i32,
    number: u32,
) -> Result<Option<Row>, Unreadable> {
    let mut tiles = Vec::new();
    let found = graph.get_word_by_index(counts, start, number, |tile| tiles.push(tile));
    let more = tiles.len() > TILES;
    tiles.truncate(TILES);
    match found {
        Err(refusal) if !fewer_words(&refusal) => Err(unknown(&refusal)),
        Err(_) if !more => Ok(None),
        _ => Ok(Some(Row {
            number,
            tiles,
            more,
        })),
    }
}

// The page, or the number of the refusal.
fn page(rows: &[Row], labels: &[u32], title: &[u8]) -> Result<String, u64> {
    if title.len() > TITLE {
        return Err(TOO_LONG);
    }
    let label = |&tile: &u8| labels.get(usize::from(tile)).copied().ok_or(NO_LABEL);
    let mut words = Vec::new();
    for row in rows {
        words.push(row.tiles.iter().map(label).collect::<Result<Vec<_>, _>>()?);
    }
    let title = printable(title.iter().map(|&byte| byte.into()))?;
    let mut page = format!("{title:<40}");
    for (row, word) in rows.iter().zip(words) {
        let word = printable(word.into_iter())?;
        let last = if row.more { "+" } else { " " };
        page += &format!("{:>10} {word:<28}{last}", row.number);
    }
    Ok(format!("{page:<960}"))
}

fn printable(characters: impl Iterator<Item = u32>) -> Result<String, u64> {
    let is_printable = |character: &char| (' '..='~').contains(character);
    characters
        .map(|number| char::from_u32(number).filter(is_printable))
        .map(|character| character.ok_or(NOT_PRINTABLE))
        .collect()
}
