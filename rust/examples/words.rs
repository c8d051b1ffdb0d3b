//! Loads a lexicon in pieces, looks a word up, says how many words begin before its first letter, names a number, reads words as viewers type
//! them, shows the page of words from that number on, plays a short round, and looks the word up in a lexicon that it builds from a list: words FILE
//! WORD NUMBER. Its letters are A to Z, tiles 1 to 26.

use machirsun::{
    arrive, build, count_words, leave, seek, word_by_index, word_index, write_page, Layout, Loader,
    TypedText, PAGE,
};
use std::error::Error;
use std::fs::File;
use std::io::Read;
use std::process::ExitCode;

/// A piece of any length will do; this one cuts inside nodes.
const PIECE: usize = 7;

/// The most letters of a word here; the engine sets no limit.
const LONGEST: usize = 64;

/// The columns of a page of the text service.
const COLUMNS: usize = 40;

/// What viewers typed: small letters, a letter of two bytes, an empty line, more than the word.
const TYPED: &str = "lexicon\r\nLÉTTER\n\ntiles of wood\n";

/// The words of a regional editor, in order.
const REGIONAL: [&str; 4] = ["LEXICON", "LEXICONS", "TIDE", "TIDES"];

fn load(path: &str) -> Result<Vec<u32>, Box<dyn Error>> {
    let mut file = File::open(path)?;
    let length = file.metadata()?.len() as usize;
    let mut nodes = vec![0; (length / 4).max(2)];
    let mut loader = Loader::begin(length, Layout::Kwg, &nodes)?;
    let mut piece = [0; PIECE];
    loop {
        let got = file.read(&mut piece)?;
        if got == 0 {
            break;
        }
        let fed = loader.feed(&piece[..got], &mut nodes);
        fed.answer?;
        loader = fed.loader;
    }
    let count = loader.finish(&mut nodes)?;
    nodes.truncate(count);
    Ok(nodes)
}

/// The tiles of a word.
fn read_word(word: &str) -> Result<Vec<u8>, String> {
    if word.len() > LONGEST || !word.bytes().all(|letter| letter.is_ascii_uppercase()) {
        return Err(format!(
            "{word} is not a word of at most {LONGEST} letters A to Z"
        ));
    }
    Ok(word.bytes().map(|letter| letter - b'A' + 1).collect())
}

/// Reads digits and nothing else: `parse` alone would take a sign before them.
fn read_number(digits: &str) -> Result<u32, String> {
    let all_digits = digits.bytes().all(|digit| digit.is_ascii_digit());
    digits
        .parse()
        .ok()
        .filter(|_| all_digits)
        .ok_or_else(|| format!("{digits} is not a number from 0 to {} in digits", u32::MAX))
}

/// The letters of the word with a number.
fn letters(number: u32, tiles: &[u8]) -> Result<String, String> {
    let letter = |&tile: &u8| match tile {
        1..=26 => Ok(char::from(b'A' - 1 + tile)),
        _ => Err(format!(
            "word {number} has tile {tile}, which is no letter A to Z"
        )),
    };
    tiles.iter().map(letter).collect()
}

/// The label file: each letter, large and small, is its tile, and É is the tile of E.
fn label_file() -> String {
    let letters = (1..).zip('A'..='Z').chain((1..).zip('a'..='z'));
    letters
        .chain([(5, 'É')])
        .map(|(tile, letter)| format!("{tile}\t{letter}\n"))
        .collect()
}

/// Reads what viewers typed, line by line, and looks each word up.
fn read_typed(nodes: &[u32], counts: &[u32]) -> Result<(), Box<dyn Error>> {
    let labels = label_file();
    let mut room = [0; TYPED.len()];
    for read in TypedText::at(labels.as_bytes(), TYPED.as_bytes(), 0, &mut room) {
        let (typed, tiles) = read?;
        print!("typed {:?}: tiles", std::str::from_utf8(typed.line)?);
        tiles.iter().for_each(|tile| print!(" {tile}"));
        match word_index(nodes, counts, nodes[0] >> 8, tiles)? {
            Some(number) => println!(", word {number}"),
            None => println!(", no word"),
        }
    }
    Ok(())
}

/// A word arrives, or leaves, and a line says how many words are not in play then.
fn play(
    nodes: &[u32],
    counts: &[u32],
    word: &str,
    arrives: bool,
    bits: &mut [u8],
) -> Result<(), String> {
    let (start, tiles) = (nodes[0] >> 8, read_word(word)?);
    let (does, answer) = if arrives {
        ("arrives", arrive(nodes, counts, start, &tiles, bits))
    } else {
        ("leaves", leave(nodes, counts, start, &tiles, bits))
    };
    print!("{word} {does}: ");
    match answer.map(|left| (left.count, left.lowest)) {
        Err(refusal) => println!("refusal {}", refusal.number()),
        Ok((count, Some(lowest))) => {
            println!("{count} words are not in play, the lowest is word {lowest}")
        }
        Ok((_, None)) => println!("all words are in play"),
    }
    Ok(())
}

/// A short round: the word and two others arrive, one of them again, which is refused, and then it leaves. The record has a bit for each word.
fn play_round(nodes: &[u32], counts: &[u32], word: &str) -> Result<(), String> {
    let mut bits = vec![0; counts[(nodes[0] >> 8) as usize] as usize / 8 + 1];
    play(nodes, counts, word, true, &mut bits)?;
    play(nodes, counts, "CAPTION", true, &mut bits)?;
    play(nodes, counts, "CAPTIONS", true, &mut bits)?;
    play(nodes, counts, "CAPTION", true, &mut bits)?;
    play(nodes, counts, "CAPTION", false, &mut bits)
}

/// Looks a word up in nodes that are counted.
fn look_up(nodes: &[u32], counts: &[u32], word: &str, tiles: &[u8]) -> Result<(), Box<dyn Error>> {
    match word_index(nodes, counts, nodes[0] >> 8, tiles)? {
        Some(number) => println!("{word} is word {number}"),
        None => println!("{word} is no word"),
    }
    Ok(())
}

/// Builds a lexicon of the regional editor's words, and looks the word up in it. The list has of each word its length and its tiles.
fn build_regional(word: &str, tiles: &[u8]) -> Result<(), Box<dyn Error>> {
    let mut list = Vec::new();
    for word in REGIONAL {
        list.push(word.len() as u8);
        list.extend(read_word(word)?);
    }
    let mut work = vec![0; 8 * list.len() + 64];
    let mut nodes = vec![0; list.len() + 2];
    let count = build(&list, &mut work, &mut nodes)?;
    nodes.truncate(count);
    let mut counts = vec![0; count];
    count_words(&nodes, &mut counts, &mut work)?;
    let words = counts[(nodes[0] >> 8) as usize];
    println!("a list of {words} words: {count} nodes");
    look_up(&nodes, &counts, word, tiles)
}

fn run(arguments: &[String]) -> Result<(), Box<dyn Error>> {
    let [_, path, word, number] = arguments else {
        return Err("usage: words FILE WORD NUMBER".into());
    };
    let tiles = read_word(word)?;
    let number = read_number(number)?;
    let nodes = load(path)?;
    let mut counts = vec![0; nodes.len()];
    count_words(&nodes, &mut counts, &mut vec![0; 2 * nodes.len()])?;
    let start = nodes[0] >> 8;
    println!("{} nodes, {} words", nodes.len(), counts[start as usize]);

    look_up(&nodes, &counts, word, &tiles)?;
    if let (Some(letter), Some(&tile)) = (word.chars().next(), tiles.first()) {
        match seek(&nodes, &counts, 0, tile)? {
            Some(sought) => println!("{} words begin before {letter}", sought.before),
            None => println!("no word begins with {letter}"),
        }
    }

    let mut put = [0; LONGEST];
    match word_by_index(&nodes, &counts, start, number, &mut put)? {
        Some(tiles) => println!("word {number} is {}", letters(number, &put[..tiles])?),
        None => println!("there is no word {number}"),
    }

    read_typed(&nodes, &counts)?;

    let labels: Vec<u32> = "?ABCDEFGHIJKLMNOPQRSTUVWXYZ"
        .chars()
        .map(u32::from)
        .collect();
    let mut page = [0; PAGE];
    write_page(&nodes, &counts, &labels, b"WORDS", start, number, &mut page)?;
    for row in page.chunks(COLUMNS) {
        println!("{}", std::str::from_utf8(row)?);
    }

    play_round(&nodes, &counts, word)?;
    build_regional(word, &tiles)
}

fn main() -> ExitCode {
    let arguments: Vec<String> = std::env::args().collect();
    match run(&arguments) {
        Ok(()) => ExitCode::SUCCESS,
        Err(error) => {
            eprintln!("{error}");
            ExitCode::FAILURE
        }
    }
}
