// An alphabet of the Rust with the labels of a request, one number a tile.

use crate::alphabet::Alphabet;
use crate::numbers::Unreadable;

// The least number that is no code point. A label that is not one code point
// has this number, or any other that is no code point.
pub const NO_CODE_POINT: u32 = 0x110000;

// What stands for such a label in the alphabet: any text of two characters.
const TWO_CODE_POINTS: &str = "QU";

// The Rust takes an alphabet as a text, a line for each tile: the label, the
// label of a blank that stands for it, how many there are, the score, whether a
// vowel, and the numbers of two kinds of aliases. The writers read the first of
// these only, and how many lines there are. Labels may be equal.
//
// None where the Rust refuses the text for the number of its lines, which is
// from 1 to 64. A label of white space parts the others instead of being one,
// so that it cannot be asked.
pub fn alphabet_of(labels: &[u32]) -> Result<Option<Alphabet>, Unreadable> {
    let mut text = String::new();
    for &label in labels {
        let label = label_text(label).ok_or_else(|| format!("{label} is white space"))?;
        text += &format!("{label} {label} 1 0 0 0 0\n");
    }
    match Alphabet::new_static_from_text(&text) {
        Ok(alphabet) => {
            assert_eq!(usize::from(alphabet.len()), labels.len());
            Ok(Some(alphabet))
        }
        Err(refusal) if refusal.to_string() == "an alphabet has from 1 to 64 tiles" => Ok(None),
        Err(refusal) => Err(super::outcome::unknown(&refusal)),
    }
}

fn label_text(label: u32) -> Option<String> {
    match char::from_u32(label) {
        Some(c) if c.is_whitespace() => None,
        Some(c) => Some(c.into()),
        None => Some(TWO_CODE_POINTS.into()),
    }
}

// The letters A, B and on, after a question mark for the blank.
pub fn letters_up(count: usize) -> Vec<u32> {
    let letters = (0x41..).take(count.saturating_sub(1));
    [0x3f].into_iter().chain(letters).take(count).collect()
}

// The same letters, the last first.
pub fn letters_down(count: usize) -> Vec<u32> {
    let mut labels = letters_up(count);
    if let Some(letters) = labels.get_mut(1..) {
        letters.reverse();
    }
    labels
}
