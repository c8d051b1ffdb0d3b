// A label file, read by the oracle itself: the Rust has no such file.

use super::super::outcome::BAD_LABEL_LINE;
use super::Refused;
use crate::alphabet::AlphabetReader;
use crate::bites::Bites;
use crate::text;

const MOST_LINES: usize = 256;
const MOST_TILES: u8 = 63;
const LONGEST: usize = 15;

// The Rust's reader with the file's labels, or the number of the first bad line.
pub fn reader(file: &[u8]) -> Result<AlphabetReader, Refused> {
    // Lines of any bytes: each byte stands for the code point of its number.
    let characters: String = file.iter().map(|&byte| char::from(byte)).collect();
    let mut labels = Vec::new();
    for (number, line) in (1..).zip(text::lines(&characters)) {
        let label = label(line).filter(|_| number <= MOST_LINES);
        labels.push(label.ok_or(Refused(BAD_LABEL_LINE, number as u64))?);
    }
    Ok(AlphabetReader::new_for_tiles(labels.into()))
}

// A line's tile and label: the tile's number is in its one form.
fn label(line: &str) -> Option<(u8, Bites)> {
    let (digits, label) = line.split_once('\t')?;
    let tile = (1..=MOST_TILES).find(|tile| tile.to_string() == digits)?;
    let label: Vec<u8> = label.chars().map(|byte| byte as u8).collect();
    (1..=LONGEST)
        .contains(&label.len())
        .then(|| (tile, label[..].into()))
}
