//! Words as viewers type them: the lines of a text read as tiles, by the labels of a label file.

use crate::{ffi, Refusal};
use std::iter::FusedIterator;
use std::mem::take;

#[inline]
fn refused(number: u32, bad: usize) -> Result<(), Refusal> {
    match number {
        0 => Ok(()),
        _ => Err(Refusal::of_text(number, bad)),
    }
}

/// A line that was read. Its tiles are in the word buffer.
#[derive(Clone, Copy, Debug, PartialEq, Eq)]
pub struct TypedWord<'a> {
    /// The whole line without its ending, as a part of the text.
    pub line: &'a [u8],
    /// The place of the line's first byte.
    pub start: usize,
    /// The place after the line's ending, where the next call goes on.
    pub after: usize,
    /// How many tiles were put.
    pub tiles: usize,
}

/// Reads the next line that is not empty, from a place of the text on, and puts the tiles of its word. There is none where no line is left,
/// but a bad line of the label file (27) is refused before that too. After 16 or 28 the tiles already put stay. To leave out the line of an
/// unreadable byte, go on from the first 0A or 0D after its place, or from the text's end.
#[inline]
pub fn next_word<'a>(
    labels: &[u8],
    text: &'a [u8],
    at: usize,
    word: &mut [u8],
) -> Result<Option<TypedWord<'a>>, Refusal> {
    let typed = unsafe {
        ffi::machirsun_next_word(
            labels.as_ptr(),
            labels.len(),
            text.as_ptr(),
            text.len(),
            at,
            word.as_mut_ptr(),
            word.len(),
        )
    };
    refused(typed.refusal, typed.bad)?;
    Ok(typed.found.then(|| TypedWord {
        line: &text[typed.start..typed.end],
        start: typed.start,
        after: typed.after,
        tiles: typed.tiles,
    }))
}

/// Lines that were read. The tiles of their words are in the tile buffer, one word after the other.
#[derive(Clone, Copy, Debug, PartialEq, Eq)]
pub struct TypedWords {
    /// How many words were read, at least one. Each has its number of tiles in the sizes.
    pub words: usize,
    /// How many tiles they have in all.
    pub tiles: usize,
    /// The place after the last line's ending, where the next call goes on.
    pub after: usize,
}

/// Reads line after line as [`next_word`] does, while there is room for the tiles of each word and for their number. What stops it is
/// refused, or is the end, only where no word was read. The next call, from `after`, begins with the line that stopped this one: with the
/// buffers anew it may have room for it; an unreadable one is refused there. 16 says that the buffers are too short for the next line as far
/// as it was read: call again from the same place with longer ones. The label file is taken once for all the lines, so for many of them
/// this is the faster call.
///
/// ```
/// use machirsun::read_words;
///
/// let text = b"AB\nBAA\n\nA\n";
/// let (mut tiles, mut sizes) = ([0; 4], [0; 4]);
/// let (mut words, mut at) = (Vec::new(), 0);
/// while let Some(read) = read_words(b"1\tA\n2\tB\n", text, at, &mut tiles, &mut sizes)? {
///     let mut rest = &tiles[..];
///     for &size in &sizes[..read.words] {
///         let (word, after) = rest.split_at(size);
///         words.push(word.to_vec());
///         rest = after;
///     }
///     at = read.after;
/// }
/// assert_eq!(words, [vec![1, 2], vec![2, 1, 1], vec![1]]);
/// # Ok::<(), machirsun::Refusal>(())
/// ```
#[inline]
pub fn read_words(
    labels: &[u8],
    text: &[u8],
    at: usize,
    tiles: &mut [u8],
    sizes: &mut [usize],
) -> Result<Option<TypedWords>, Refusal> {
    let list = unsafe {
        ffi::machirsun_read_words(
            labels.as_ptr(),
            labels.len(),
            text.as_ptr(),
            text.len(),
            at,
            tiles.as_mut_ptr(),
            tiles.len(),
            sizes.as_mut_ptr(),
            sizes.len(),
        )
    };
    refused(list.refusal, list.bad)?;
    Ok(list.found.then_some(TypedWords {
        words: list.words,
        tiles: list.tiles,
        after: list.after,
    }))
}

/// The words of a text from a place on, each with its tiles, which stand one word after the other in the buffer that is lent. Each is a call
/// of [`next_word`], which makes the index of the label file anew; for a long text there is [`read_words`]. After a refusal there are no more.
#[derive(Debug)]
pub struct TypedText<'a, 'b> {
    labels: &'a [u8],
    text: &'a [u8],
    at: usize,
    room: &'b mut [u8],
    refused: bool,
}

impl<'a, 'b> TypedText<'a, 'b> {
    /// The words of the text from a place on.
    #[inline]
    pub fn at(labels: &'a [u8], text: &'a [u8], at: usize, tiles: &'b mut [u8]) -> Self {
        TypedText {
            labels,
            text,
            at,
            room: tiles,
            refused: false,
        }
    }

    /// The place after the last line that was read, or the first place where none was. After a full buffer, go on from here with another one.
    #[inline]
    pub fn place(&self) -> usize {
        self.at
    }
}

impl<'a, 'b> Iterator for TypedText<'a, 'b> {
    type Item = Result<(TypedWord<'a>, &'b [u8]), Refusal>;

    #[inline]
    fn next(&mut self) -> Option<Self::Item> {
        if self.refused {
            return None;
        }
        let read = next_word(self.labels, self.text, self.at, self.room).transpose()?;
        self.refused = read.is_err();
        Some(read.map(|typed| {
            let (tiles, rest) = take(&mut self.room).split_at_mut(typed.tiles);
            self.room = rest;
            self.at = typed.after;
            (typed, &*tiles)
        }))
    }
}

impl FusedIterator for TypedText<'_, '_> {}
