//! Texts with all kinds of label files: every short text from each place, texts made of labels, and each limit met and passed.

use super::Size;
use super::label_files::{self, of_labels};
use crate::checker::{Checker, Labels};
use crate::random::Random;

pub fn run(checker: &mut Checker, size: Size, random: &mut Random) {
    short_texts(checker, random, size);
    label_files::run(checker, size, random);
    competing(checker, size);
    long_lines(checker, size);
    for _ in 0..size.of(3, 400, 20_000) {
        random_texts(checker, random);
    }
}

// Label files, each with the bytes of its short texts.
const ALPHABETS: [(&[u8], &[u8]); 10] = [
    (b"1\tA\n63\tB\n", b"AB\n\r ?"),
    // One label for two tiles in either order, and the same line twice.
    (b"5\tA\n3\tA\n1\tB\n2\tB\n3\tA", b"AB\n\r\t"),
    (b"7\tAB\n5\tAB\n6\tA\n6\tA\n", b"AB\n\r\x1f"),
    // Labels that begin others, the shorter of the lower tile, and of the higher.
    (b"1\tA\n2\tAA\n3\tAAB\n4\tBA\n", b"AB\n\r "),
    (b"4\tA\r\n3\tAA\r\n2\tAAAA\r\n1\tBAB", b"AB\n\r!"),
    // Labels of blanks, tabs and zeros.
    (b"1\t \n2\tA\n3\tA \n4\t\0", b"A \t\n\0"),
    (b"1\t\t\n2\t\tA\n3\tA B\n4\tA", b"A\t B\r"),
    // Letters of two and three bytes, whole and cut.
    (
        b"1\t\xc3\xa9\n2\t\xe2\x82\xac\n3\t\xc3",
        b"\xc3\xa9\xe2\x82\xac\n",
    ),
    (b"1\t\xff\n2\t\x80\xff\r3\t\x7f", b"\xff\x80\x7f\r\n "),
    (b"", b"A\n\r \0"),
];

// Each text from each place, at its end and past it, with room enough and with any; and in parts.
fn short_texts(checker: &mut Checker, random: &mut Random, size: Size) {
    let one_in = size.of(29, 1, 1);
    for (labels, bytes) in ALPHABETS {
        let labels = Labels::new(labels);
        for len in 0..=size.of(3, 4, 5) {
            for number in (0..bytes.len().pow(len)).step_by(one_in) {
                let text = nth(bytes, len, number);
                from_each_place(checker, random, &labels, &text);
                checker.parts(&labels, &text);
            }
        }
    }
}

/// The text of this number among all texts of so many of the bytes.
pub fn nth(bytes: &[u8], len: u32, number: usize) -> Vec<u8> {
    let digit = |place: u32| number / bytes.len().pow(place) % bytes.len();
    (0..len).map(|place| bytes[digit(place)]).collect()
}

fn from_each_place(checker: &mut Checker, random: &mut Random, labels: &Labels, text: &[u8]) {
    let len = text.len();
    for at in (0..=len + 1).chain([usize::MAX]) {
        let any = random.within(0, len as u64 + 1) as usize;
        let sizes = random.within(0, 4) as usize;
        checker.next_word(labels, text, at, len);
        checker.next_word(labels, text, at, any);
        checker.read_words(labels, text, at, len, len);
        checker.read_words(labels, text, at, any, sizes);
    }
}

// Texts of labels, line breaks, blanks and other bytes: from places anywhere, whole, and in parts.
fn random_texts(checker: &mut Checker, random: &mut Random) {
    let labels = label_files::random_labels(random);
    let file = Labels::new(label_files::random_file(random, &labels));
    let text = random_text(random, &labels);
    for _ in 0..4 {
        let at = random.within(0, text.len() as u64 + 2) as usize;
        let room = random.within(0, 12) as usize;
        let sizes = random.within(0, 5) as usize;
        checker.next_word(&file, &text, at, room);
        checker.read_words(&file, &text, at, room, sizes);
        rooms_about(checker, &file, &text, at);
    }
    let (room, sizes) = (random.within(0, 12) as usize, random.within(1, 5) as usize);
    checker.whole_text(&file, &text, room, sizes);
    checker.parts(&file, &text);
}

fn random_text(random: &mut Random, labels: &[Vec<u8>]) -> Vec<u8> {
    let mut text = Vec::new();
    // Some texts are of labels, blanks and endings alone.
    let readable = random.flag();
    for _ in 0..random.within(0, 40) {
        match random.within(0, if readable { 10 } else { 12 }) {
            0 | 1 => text.extend(random.pick(&[&b"\n"[..], b"\r", b"\r\n", b"\n\n"])),
            2 if text.last().is_some_and(|last| !b"\n\r".contains(last)) => {
                text.extend(random.pick(&[&b" "[..], b"\t", b" x", b"\0"]));
            }
            10 => text.push(random.byte()),
            11 => {
                let label = random_label(random, labels);
                text.extend(&label[..label.len().saturating_sub(1)]);
            }
            _ => text.extend(random_label(random, labels)),
        }
    }
    text
}

fn random_label<'a>(random: &mut Random, labels: &'a [Vec<u8>]) -> &'a [u8] {
    match labels.len() as u64 {
        0 => b"",
        many => &labels[random.within(0, many) as usize],
    }
}

// Room for just the word or the words that are read with room enough, and one tile and one size fewer.
fn rooms_about(checker: &mut Checker, labels: &Labels, text: &[u8], at: usize) {
    let (_, tiles) = checker.next_word(labels, text, at, text.len());
    for room in [tiles.len(), tiles.len().saturating_sub(1)] {
        checker.next_word(labels, text, at, room);
    }
    let (_, tiles, sizes) = checker.read_words(labels, text, at, text.len(), text.len());
    for room in [tiles.len(), tiles.len().saturating_sub(1)] {
        for sizes in [sizes.len(), sizes.len().saturating_sub(1)] {
            checker.read_words(labels, text, at, room, sizes);
        }
    }
}

// A word's end, an unreadable byte or a line's end after so many tiles, in every room: the first in the text is answered, and in a list it
// counts only where no word was read before it.
fn competing(checker: &mut Checker, size: Size) {
    let labels = Labels::new("1\tA\n2\tAA\n3\tB\n");
    let ends = [
        "", " ", " B", "?", "?B", "B?", "\n", "\n?", "\r\nB", "A?", "A B?", "!", "\x1f",
    ];
    let befores = ["\n", "B\n", "", "B\r\n\r\n"];
    for before in &befores[..size.of(2, 4, 4)] {
        for (tiles, end) in (0..4).flat_map(|tiles| ends.map(|end| (tiles, end))) {
            let text = before.to_string() + &"B".repeat(tiles) + end;
            for room in 0..size.of(4, 6, 6) {
                checker.next_word(&labels, text.as_bytes(), 0, room);
                for sizes in 0..size.of(2, 4, 4) {
                    checker.read_words(&labels, text.as_bytes(), 0, room, sizes);
                }
            }
        }
    }
}

// Long lines and many, with the longest label, in room enough and one tile too little.
fn long_lines(checker: &mut Checker, size: Size) {
    let labels = [&b"A"[..], b"AAAAAAAAAAAAAA", b"AAAAAAAAAAAAAAA", b"B "];
    let labels = Labels::new(of_labels(&labels));
    for len in size.of(&[40][..], &[1_000], &[1_000, 100_000]) {
        for text in [
            b"A".repeat(*len),
            b"B ".repeat(*len),
            b"A\n".repeat(*len),
            b"\r\n".repeat(*len),
            [b"A".repeat(*len), b"?".to_vec()].concat(),
        ] {
            rooms_about(checker, &labels, &text, 0);
            rooms_about(checker, &labels, &text, len / 2);
        }
    }
}
