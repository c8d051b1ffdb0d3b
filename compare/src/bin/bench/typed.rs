//! Words as viewers type them: a text of many lines beside the Rust's reading of the same, and the engine alone on texts and labels that are made
//! to be slow.

use crate::bench::row;
use crate::clock::{fastest, in_turns};
use compare::engine::{TextOf, next_word, read_words};
use compare::paper::typed::records;
use compare::random::Random;
use compare::rust_side::typed::reader_of;
use wolges::alphabet::AlphabetReader;
use wolges::bites::Bites;
use wolges::word_list;

const LINES: usize = 100_000;

// Where each line is a call.
const FEWER_LINES: usize = 10_000;

pub fn print() {
    let file = label_file(&labels());
    let reader = reader_of(&records(&file).expect("no line is bad"));
    let text = text(&mut Random::new(13), LINES);
    let made_of = "each 2 to 15 of 64 labels at random, which may merge when read";
    println!("{LINES} lines in {} bytes, {made_of}\n", text.len());
    println!("| | ours, ms | Rust, ms | ratio |");
    println!("|---|---|---|---|");
    in_one_call(&file, &reader, &text);
    a_call_a_line(
        &file,
        &reader,
        &self::text(&mut Random::new(14), FEWER_LINES),
    );
    println!();
}

fn in_one_call(file: &[u8], reader: &AlphabetReader, text: &str) {
    let asked = asked(file, text.as_bytes());
    let (mut tiles, mut sizes) = (vec![0; text.len()], vec![0; LINES]);
    let list = read_words(&asked, &mut tiles, &mut sizes);
    assert_eq!((list.refusal, list.words as usize), (0, LINES));
    let words = words(reader, text);
    assert!(
        words
            .iter()
            .map(|word| word.len())
            .eq(sizes.iter().copied())
    );
    let put = &tiles[..list.value as usize];
    assert!(words.iter().flat_map(|word| word.iter()).eq(put));
    let times = in_turns(
        || read_words(&asked, &mut tiles, &mut sizes),
        || self::words(reader, text),
    );
    row("words of 100,000 lines, in one call", times);
}

fn a_call_a_line(file: &[u8], reader: &AlphabetReader, text: &str) {
    let asked = asked(file, text.as_bytes());
    let mut read = Vec::new();
    each_line(&asked, |word| read.push(word.to_vec()));
    let words = words(reader, text);
    assert!(
        words
            .iter()
            .map(|word| &word[..])
            .eq(read.iter().map(|word| &word[..]))
    );
    let times = in_turns(|| each_line(&asked, |_| ()), || self::words(reader, text));
    row("words of 10,000 lines, a call a line", times);
}

// The Rust's callers make its reader once.
fn words(reader: &AlphabetReader, text: &str) -> Vec<Bites> {
    word_list::parse(reader, text).expect("the Rust reads the text")
}

fn asked<'a>(labels: &'a [u8], text: &'a [u8]) -> TextOf<'a> {
    TextOf {
        labels,
        text,
        at: 0,
    }
}

// Each line by a call that takes the label file anew.
fn each_line(asked: &TextOf, mut read: impl FnMut(&[u8])) {
    let (mut asked, mut word) = (*asked, [0; 64]);
    loop {
        let line = next_word(&asked, &mut word);
        if !line.flag {
            assert_eq!(line.refusal, 0);
            return;
        }
        read(&word[..line.value as usize]);
        asked.at = line.after as usize;
    }
}

// 64 labels: letters of one, of two and of three bytes, and groups of letters. However letters and groups follow each other, they can be read.
fn labels() -> Vec<String> {
    let letters = ('A'..='Z').chain('À'..='Ï').chain('Ḁ'..='Ḋ');
    let groups = [
        "CH", "LL", "RR", "NY", "QU", "TZ", "SZ", "DZS", "IJ", "GY", "ÀÀ",
    ];
    letters
        .map(String::from)
        .chain(groups.map(String::from))
        .collect()
}

// The tiles from 1 to 63, and the last label for tile 1 again.
fn label_file(labels: &[String]) -> Vec<u8> {
    let tiles = (1..=63).chain([1]);
    let lines = tiles
        .zip(labels)
        .map(|(tile, label)| format!("{tile}\t{label}\n"));
    lines.collect::<String>().into_bytes()
}

// Each line is 2 to 15 labels at random. Some merge when they are read, C and H to CH, so that a word may have fewer tiles.
fn text(random: &mut Random, lines: usize) -> String {
    let labels = labels();
    let mut text = String::new();
    for _ in 0..lines {
        for _ in 0..random.within(2, 16) {
            text += &labels[random.within(0, labels.len() as u64) as usize];
        }
        text.push('\n');
    }
    text
}

/// The time for each byte of the text must not grow.
pub fn print_hostile() {
    println!("| | N | ns a byte, N | 2N | 4N |");
    println!("|---|---|---|---|---|");
    let plain = label_file(&labels());
    grows("text, one long line", &plain, b"A", 1_000_000);
    grows("text, empty lines", &plain, b"\n", 1_000_000);
    grows("text, lines of one letter", &plain, b"A\n", 500_000);
    grows(
        "text, 255 labels that match everywhere but for their last two bytes",
        &near(),
        b"A",
        10_000,
    );
    println!();
}

// Labels of 15 bytes that share all but their last two: the text has their beginning everywhere, and their ends nowhere. And a short one.
fn near() -> Vec<u8> {
    let ends = (0..255).map(|end| [b'B' + end / 16, b'B' + end % 16]);
    let lines = ends.map(|end| [b"1\tAAAAAAAAAAAAA", &end[..], b"\n"].concat());
    lines
        .chain([b"2\tA\n".to_vec()])
        .collect::<Vec<_>>()
        .concat()
}

fn grows(name: &str, labels: &[u8], piece: &[u8], pieces: usize) {
    print!("| {name} | {} |", piece.len() * pieces);
    for times in [1, 2, 4] {
        let text = piece.repeat(times * pieces);
        let (mut tiles, mut sizes) = (vec![0; text.len()], vec![0; text.len()]);
        let asked = asked(labels, &text);
        assert_eq!(read_words(&asked, &mut tiles, &mut sizes).refusal, 0);
        let time = fastest(|| read_words(&asked, &mut tiles, &mut sizes));
        print!(" {:.1} |", time * 1e9 / text.len() as f64);
    }
    println!();
}
