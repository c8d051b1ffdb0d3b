//! Label files: every bad form of a line at several places, files about the most lines, all bytes as labels, and random ones.

use super::Size;
use super::typed::nth;
use crate::checker::{Checker, Labels};
use crate::random::Random;

const MOST_LINES: usize = 256;

// A good line, and texts for it, some of which cannot be read.
const GOOD: &[u8] = b"1\tA";
const TEXTS: [&[u8]; 6] = [b"A", b"", b"?", b"AA A", b"\n\nA\nB", b" "];
const ENDINGS: [&[u8]; 4] = [b"\n", b"\r", b"\r\n", b"\n\r"];

// Bad lines, but for some that look like them.
const LINES: [&[u8]; 44] = [
    b"",
    b" ",
    b"\t",
    b"\tA",
    b"A",
    b"1",
    b"1\t",
    b"1 A",
    b"1  \tA",
    b"A\t1",
    b"0\tA",
    b"00\tA",
    b"01\tA",
    b"007\tA",
    b"+1\tA",
    b"-1\tA",
    b" 1\tA",
    b"1 \tA",
    b"1.\tA",
    b"1a\tA",
    b"a1\tA",
    b"0x1\tA",
    b"9\tA",
    b"10\tA",
    b"63\tA",
    b"64\tA",
    b"65\tA",
    b"70\tA",
    b"99\tA",
    b"100\tA",
    b"257\tA",
    b"319\tA",
    b"65537\tA",
    b"4294967297\tA",
    b"18446744073709551617\tA",
    b"1\tABCDEFGHIJKLMN",
    b"1\tABCDEFGHIJKLMNO",
    b"1\tABCDEFGHIJKLMNOP",
    b"1\t\t",
    b"1\t\t\t",
    b"1\t A",
    b"1\tA\tB",
    b"1\t\0",
    b"\xb1\tA",
];

pub fn run(checker: &mut Checker, size: Size, random: &mut Random) {
    short_files(checker, size);
    odd_lines(checker, size);
    many_lines(checker, size);
    every_byte(checker, random, size.of(51, 1, 1));
    for _ in 0..size.of(3, 300, 20_000) {
        random_bytes(checker, random);
    }
}

// A few texts read with such a file, from their start and from past their end.
fn few_texts(checker: &mut Checker, file: Vec<u8>, texts: usize) {
    let labels = Labels::new(file);
    for text in &TEXTS[..texts] {
        checker.next_word(&labels, text, 0, 4);
        checker.next_word(&labels, text, 0, 0);
        checker.next_word(&labels, text, usize::MAX, 4);
        checker.read_words(&labels, text, 0, 4, 4);
        checker.read_words(&labels, text, text.len(), 0, 0);
    }
}

// Every file of a few bytes that label files are made of.
fn short_files(checker: &mut Checker, size: Size) {
    let bytes = b"16\tA\n\r0";
    for len in 0..=size.of(4, 5, 7) {
        for number in (0..bytes.len().pow(len)).step_by(size.of(97, 1, 1)) {
            let labels = Labels::new(nth(bytes, len, number));
            checker.next_word(&labels, b"A1\t6A60", 0, 7);
        }
    }
}

// A line alone, before and after good ones, before a bad one, and after an empty one, with each ending.
fn odd_lines(checker: &mut Checker, size: Size) {
    for (number, line) in LINES.into_iter().enumerate() {
        for (ending, with) in ENDINGS.into_iter().enumerate() {
            if size == Size::Tiny && (number + ending) % 4 > 0 {
                continue;
            }
            let files: [&[&[u8]]; 8] = [
                &[line],
                &[line, with],
                &[line, with, GOOD],
                &[GOOD, with, line],
                &[GOOD, with, line, with],
                &[GOOD, b"\r\n", GOOD, with, line, b"\n", b"0\tA", b"\r"],
                &[with, line],
                &[GOOD, with, with, line],
            ];
            for file in files {
                few_texts(checker, file.concat(), size.of(1, 2, TEXTS.len()));
            }
        }
    }
}

// So many lines about the most there may be; and so many with a bad line at each of some places.
fn many_lines(checker: &mut Checker, size: Size) {
    let last = MOST_LINES - 1;
    let places = [0, 1, last - 1, last, last + 1, last + 2];
    for ending in ENDINGS.into_iter().take(size.of(1, 4, 4)) {
        for count in MOST_LINES - 1..=MOST_LINES + 2 {
            let mut lines = vec![GOOD; count];
            few_texts(checker, lines.join(ending), 1);
            few_texts(checker, [&lines.join(ending), ending].concat(), 1);
            for at in places.into_iter().filter(|&at| at < count) {
                for bad in [&b""[..], b"0\tA", b"1\tABCDEFGHIJKLMNOP"] {
                    lines[at] = bad;
                    few_texts(checker, lines.join(ending), 1);
                }
                lines[at] = GOOD;
            }
        }
    }
    few_texts(checker, b"\n".repeat(MOST_LINES + 1), 1);
    few_texts(checker, b"?".repeat(MOST_LINES + 1), 1);
}

/// A file of labels, of the tiles from 1 on.
pub fn of_labels(labels: &[&[u8]]) -> Vec<u8> {
    let line = |(label, tile): (&&[u8], usize)| {
        let tile = (tile % 63 + 1).to_string();
        [tile.as_bytes(), b"\t", label, b"\n"].concat()
    };
    labels.iter().zip(0..).flat_map(line).collect()
}

// Each byte as a label of one byte, all of them but two in one file, and each by itself; with texts of all bytes.
fn every_byte(checker: &mut Checker, random: &mut Random, one_in: usize) {
    let bytes = (0..=u8::MAX).filter(|byte| !b"\n\r".contains(byte));
    let bytes: Vec<[u8; 1]> = bytes.map(|byte| [byte]).collect();
    let labels: Vec<&[u8]> = bytes.iter().map(|byte| &byte[..]).collect();
    let all = Labels::new(of_labels(&labels));
    for byte in (0..=u8::MAX).step_by(one_in) {
        let alone = Labels::new(of_labels(&[&[byte]]));
        for text in [
            vec![byte],
            vec![byte, b'A'],
            vec![b'A', byte],
            vec![byte; 3],
        ] {
            checker.next_word(&all, &text, 0, 3);
            checker.next_word(&alone, &text, 0, 3);
        }
        let text: Vec<u8> = (0..20).map(|_| random.byte()).collect();
        checker.read_words(&all, &text, 0, 20, 3);
    }
}

// Bytes of any kind, and such as label files are made of.
fn random_bytes(checker: &mut Checker, random: &mut Random) {
    let kind = random.pick(&[&b"1\tA\n"[..], b"16\t\n\rAB", b"0123456789\t\n", b""]);
    let len = random.within(0, 24);
    let file = (0..len).map(|_| match kind {
        b"" => random.byte(),
        bytes => random.pick(bytes),
    });
    let file = file.collect();
    few_texts(checker, file, 2);
}

/// Labels that share their beginnings: of few bytes, of letters, or of any.
pub fn random_labels(random: &mut Random) -> Vec<Vec<u8>> {
    let bytes = random.pick(&[
        &b"AB"[..],
        b"ABC \t",
        b"A\xc3\xa9\xa8",
        b"\xe2\x82\xac\xa0",
        b"",
    ]);
    let longest = random.pick(&[1, 2, 3, 4, 15]);
    let count = random.pick(&[0, 1, 2, 4, 8, 30, 256]);
    let byte = |random: &mut Random| match bytes {
        b"" => random.pick(&[0, 1, 0x1f, 0x20, 0x21, 0x41, 0x7f, 0x80, 0xfe, 0xff]),
        bytes => random.pick(bytes),
    };
    (0..count)
        .map(|_| {
            (0..random.within(1, longest + 1))
                .map(|_| byte(random))
                .collect()
        })
        .collect()
}

/// A file of these labels with tiles anywhere and endings of any kind. At times a line is bad.
pub fn random_file(random: &mut Random, labels: &[Vec<u8>]) -> Vec<u8> {
    let few = random.flag();
    let ending = random.pick(&ENDINGS[..3]);
    let mixed = random.within(0, 4) == 0;
    let bad = random.within(0, 12 * labels.len() as u64 + 12) as usize;
    let mut file = Vec::new();
    for (at, label) in labels.iter().enumerate() {
        let tile = random.within(1, if few { 4 } else { 64 });
        let tile = if at == bad { 0 } else { tile };
        file.extend(tile.to_string().as_bytes());
        file.push(b'\t');
        file.extend(label);
        file.extend(if mixed {
            random.pick(&ENDINGS[..3])
        } else {
            ending
        });
    }
    if random.flag() && file.ends_with(ending) {
        file.truncate(file.len() - ending.len());
    }
    file
}
