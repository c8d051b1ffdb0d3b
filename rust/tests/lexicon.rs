//! The lexicon that comes with the examples has the words of its list, each with its number, and pages of them; the same built from the list; and an
//! evening with its words.

use machirsun::*;
use std::collections::BTreeSet;

const FILE: &[u8] = include_bytes!("../../examples/words.kwg");
const LIST: &str = include_str!("../../examples/words.txt");

/// The nodes of the lexicon, and their counts.
fn load() -> (Vec<u32>, Vec<u32>) {
    let mut nodes = vec![0; FILE.len() / 4];
    let mut loader = Loader::begin(FILE.len(), Layout::Kwg, &nodes).unwrap();
    for piece in FILE.chunks(7) {
        let fed = loader.feed(piece, &mut nodes);
        fed.answer.unwrap();
        loader = fed.loader;
    }
    assert_eq!(loader.finish(&mut nodes), Ok(nodes.len()));
    let mut counts = vec![0; nodes.len()];
    count_words(&nodes, &mut counts, &mut vec![0; 2 * nodes.len()]).unwrap();
    (nodes, counts)
}

/// The tiles of a word.
fn tiles(word: &str) -> Vec<u8> {
    word.bytes().map(|letter| letter - b'A' + 1).collect()
}

#[test]
fn the_bundled_lexicon_is_its_list() {
    let (nodes, counts) = load();
    is_the_list(&nodes, &counts);
}

#[test]
fn the_list_builds_the_lexicon() {
    let word = |line: &str| [vec![line.len() as u8], tiles(line)].concat();
    let list: Vec<u8> = LIST.lines().flat_map(word).collect();
    let mut nodes = vec![0; list.len() + 2];
    let count = build(&list, &mut vec![0; 8 * list.len() + 64], &mut nodes).unwrap();
    nodes.truncate(count);
    let mut counts = vec![0; count];
    count_words(&nodes, &mut counts, &mut vec![0; 2 * count]).unwrap();
    is_the_list(&nodes, &counts);
}

/// Each word of the list has its place there as its number, and the other way round.
fn is_the_list(nodes: &[u32], counts: &[u32]) {
    let list: Vec<&str> = LIST.lines().collect();
    let start = nodes[0] >> 8;
    assert_eq!(counts[start as usize] as usize, list.len());
    for (number, word) in (0..).zip(&list) {
        let tiles = tiles(word);
        let mut put = [0; 64];
        assert_eq!(word_index(nodes, counts, start, &tiles), Ok(Some(number)));
        assert_eq!(
            word_by_index(nodes, counts, start, number, &mut put),
            Ok(Some(tiles.len()))
        );
        assert_eq!(put[..tiles.len()], tiles);
    }
    assert_eq!(
        word_by_index(nodes, counts, start, list.len() as u32, &mut [0; 64]),
        Ok(None)
    );
}

/// The page that the list gives, from a number on.
fn page_of(title: &str, first: usize) -> String {
    let mut page = format!("{title:<40}");
    for (number, word) in LIST.lines().enumerate().skip(first).take(23) {
        page += &format!("{number:>10} {word:<29}");
    }
    format!("{page:<960}")
}

#[test]
fn the_bundled_lexicon_on_pages() {
    let (nodes, counts) = load();
    let start = nodes[0] >> 8;
    let labels: Vec<u32> = (b'@'..=b'Z').map(u32::from).collect();
    for first in 0..30 {
        let mut page = [0xEE; PAGE + 3];
        let title = "The words of the examples";
        let answer = write_page(
            &nodes,
            &counts,
            &labels,
            title.as_bytes(),
            start,
            first,
            &mut page,
        );
        assert_eq!(answer, Ok(()));
        assert_eq!(
            std::str::from_utf8(&page[..PAGE]),
            Ok(&page_of(title, first as usize)[..])
        );
        assert_eq!(page[PAGE..], [0xEE; 3]);
    }
}

/// What a word's arrival, or its leaving, comes to when a set has the numbers of the words in play; a word that the lexicon lacks has none.
fn played(
    in_play: &mut BTreeSet<u32>,
    arrives: bool,
    number: Option<u32>,
) -> Result<Remaining, Refusal> {
    let number = number.ok_or(Refusal::NoWord)?;
    if arrives && !in_play.insert(number) {
        return Err(Refusal::AlreadyInPlay);
    }
    if !arrives && !in_play.remove(&number) {
        return Err(Refusal::NotInPlay);
    }
    let words = LIST.lines().count() as u32;
    Ok(Remaining {
        count: words - in_play.len() as u32,
        lowest: (0..words).find(|number| !in_play.contains(number)),
    })
}

/// The record of a set, with the bits past the words as they are in another record.
fn record_of(in_play: &BTreeSet<u32>, past: &[u8]) -> Vec<u8> {
    let mut bits = past.to_vec();
    for number in in_play {
        bits[*number as usize / 8] |= 1 << (number % 8);
    }
    bits
}

#[test]
fn an_evening_with_the_bundled_lexicon() {
    let (nodes, counts) = load();
    let words: Vec<&str> = LIST.lines().chain(["", "LEX", "WORDSX"]).collect();
    // 27 words: five bits of the fourth byte, and the fifth, are past them
    for past in [[0; 5], [0, 0, 0, 0xF8, 0xFF]] {
        let (mut bits, mut in_play) = (past, BTreeSet::new());
        let (mut sizes, mut random) = (BTreeSet::new(), 1_u64);
        for step in 0..4000 {
            random = random.wrapping_mul(6364136223846793005).wrapping_add(1);
            let word = words[(random >> 33) as usize % words.len()];
            // mostly arrivals for a while, then mostly the others
            let arrives = (step % 1000 < 500) == (random >> 60 > 0);
            let number = LIST.lines().position(|line| line == word);
            let expected = played(&mut in_play, arrives, number.map(|place| place as u32));
            let call = if arrives { arrive } else { leave };
            let answer = call(&nodes, &counts, nodes[0] >> 8, &tiles(word), &mut bits);
            assert_eq!(answer, expected, "step {step}: {word} {arrives}");
            assert_eq!(bits[..], record_of(&in_play, &past));
            sizes.insert(in_play.len());
        }
        assert!(sizes.into_iter().eq(0..=27));
    }
}
