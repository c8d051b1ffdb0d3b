//! The unchanged Rust's answers, its messages read as 01's numbers.
//!
//! It is asked in this process. What it cannot survive is decided beforehand: `recounting` bounds the work of its counter, which counts
//! nodes without words again and again, and the program's thread has a stack that its deepest recursion fits. A panic is caught; as
//! none is to be expected where it is asked, it comes out as the refusal `PANICKED`, which no other answer equals. It is left out where
//! `get_word_index` reads a count that is not lent for a tile that is not found.

pub mod building;
pub mod in_play;
pub mod typed;

use crate::engine::{LxdTexts, MacondoTexts, PageOf};
use crate::paper::counting::steps;
use crate::windows1252::for_the_original;
use std::collections::HashMap;
use std::panic::{AssertUnwindSafe, catch_unwind, resume_unwind};
use wolges::alphabet::Alphabet;
use wolges::kwg::{Kwg, Node, Node22, Node24, kbwg_from_bytes_alloc, repack_in_place};
use wolges::lexport::{self, MacondoFormat};

pub const PANICKED: u32 = 999;
const UNKNOWN: u32 = 998;

/// A refusal: its number, and the node, tile and arc that the message names.
#[derive(Clone, Copy, Debug, Default, PartialEq, Eq)]
pub struct Refused {
    pub number: u32,
    pub node: u64,
    pub tile: u8,
    pub arc: u32,
}

impl Refused {
    fn plain(number: u32) -> Self {
        Self {
            number,
            ..Self::default()
        }
    }
}

pub type Answered<T> = Result<T, Refused>;
pub type Graph = Kwg<Node24>;

pub fn graph_of(nodes: &[u32]) -> Graph {
    Kwg(nodes.iter().map(|&word| Node24::new(word)).collect())
}

fn guarded<T>(ask: impl FnOnce() -> Answered<T>) -> Answered<T> {
    catch_unwind(AssertUnwindSafe(ask)).unwrap_or(Err(Refused::plain(PANICKED)))
}

// What stands between the two texts that a message starts and ends with.
fn named<'a>(message: &'a str, start: &str, end: &str) -> Option<&'a str> {
    message.strip_prefix(start)?.strip_suffix(end)
}

fn refused(message: &str) -> Refused {
    read_numbers(message).unwrap_or_else(|| {
        Refused::plain(match message {
            "the word graph's last node does not end its run" => 9,
            "the word graph holds too many words to count" => 13,
            "too many letters for gaddag" => 18,
            "lexicon name too long" | "title too long" | "date too long" => 19,
            "unsupported title" | "unsupported date" => 20,
            "tile is not one codepoint" | "unrepresentable letter" => 23,
            _ => UNKNOWN,
        })
    })
}

// The messages that name numbers.
fn read_numbers(message: &str) -> Option<Refused> {
    if named(message, "a word graph of ", " bytes is not whole nodes").is_some() {
        return Some(Refused::plain(1));
    }
    if let Some(text) = named(message, "a node of tile ", " does not fit the new layout") {
        let (tile, arc) = text.split_once(" and arc ")?;
        return Some(Refused {
            tile: tile.parse().ok()?,
            arc: arc.parse().ok()?,
            ..Refused::plain(6)
        });
    }
    if let Some(text) = named(message, "the word graph points to node ", " nodes") {
        let (arc, _) = text.split_once(", past its ")?;
        return Some(Refused {
            arc: arc.parse().ok()?,
            ..Refused::plain(8)
        });
    }
    let node = named(message, "the word graph loops back to node ", "")?;
    Some(Refused {
        node: node.parse().ok()?,
        ..Refused::plain(12)
    })
}

/// The nodes of a file as it loads.
pub fn load(bytes: &[u8], layout: u32) -> Answered<Vec<u32>> {
    let whole = |bytes: &[u8]| match kbwg_from_bytes_alloc(bytes.to_vec(), layout != 0) {
        // A node keeps its word to itself: it is packed again from its fields.
        Ok(graph) => Ok(graph.0.iter().map(|node| word_of(*node)).collect()),
        Err(message) => Err(refused(&message.to_string())),
    };
    guarded(|| whole(bytes)).map_err(|refusal| Refused {
        node: node_refused(&refusal, bytes, &|start| {
            whole(start).is_err_and(|r| r.number == 6)
        }),
        ..refusal
    })
}

fn word_of(node: Node24) -> u32 {
    Node24::pack(node.tile(), node.accepts(), node.is_end(), node.arc_index())
        .expect("a loaded node fits its own layout")
}

/// Repacks bytes in place.
pub fn repack(bytes: &mut [u8], from: u32, to: u32) -> Answered<()> {
    let repack = |bytes: &mut [u8]| match (from, to) {
        (0, 0) => repack_in_place::<Node22, Node22>(bytes),
        (0, _) => repack_in_place::<Node22, Node24>(bytes),
        (_, 0) => repack_in_place::<Node24, Node22>(bytes),
        _ => repack_in_place::<Node24, Node24>(bytes),
    };
    let before = bytes.to_vec();
    let answer = guarded(|| repack(bytes).map_err(|message| refused(&message.to_string())));
    answer.map_err(|refusal| Refused {
        node: node_refused(&refusal, &before, &|start| {
            repack(&mut start.to_vec()).is_err()
        }),
        ..refusal
    })
}

// A refusal 6 does not say which node it was: the last node of the shortest beginning of the bytes that is refused by 6. A beginning is
// refused where a shorter one is, so that it is found by halving.
fn node_refused(refusal: &Refused, bytes: &[u8], refuses: &dyn Fn(&[u8]) -> bool) -> u64 {
    if refusal.number != 6 {
        return 0;
    }
    let (mut accepted, mut refused) = (0, bytes.len() / 4);
    while refused - accepted > 1 {
        let middle = (accepted + refused) / 2;
        if refuses(&bytes[..4 * middle]) {
            refused = middle;
        } else {
            accepted = middle;
        }
    }
    accepted as u64
}

/// An upper bound of the calls that the Rust's counter makes of itself: each node is counted at least once, and what has no words each
/// time that it is come to. A node from which a loop is reached is come to once, since the loop ends the counting.
pub fn recounting(nodes: &[u32], counts: &[Option<u64>]) -> u64 {
    let mut memo = vec![None; nodes.len()];
    let mut calls = 0u64;
    for p in 0..nodes.len() {
        calls = calls.saturating_add(1);
        for q in steps(nodes, p).chain([p]).filter(|&q| counts[q] == Some(0)) {
            calls = calls.saturating_add(recount(nodes, q, &mut memo));
        }
    }
    calls
}

fn recount(nodes: &[u32], p: usize, memo: &mut [Option<u64>]) -> u64 {
    if let Some(known) = memo[p] {
        return known;
    }
    let calls = steps(nodes, p).fold(1, |sum, q| {
        u64::saturating_add(sum, recount(nodes, q, memo))
    });
    memo[p] = Some(calls);
    calls
}

pub fn count_words(graph: &Graph) -> Answered<Vec<u32>> {
    guarded(|| match graph.count_words_alloc() {
        Ok(counts) => Ok(counts.into_vec()),
        Err(message) => Err(refused(&message.to_string())),
    })
}

pub fn seek(graph: &Graph, counts: &[u32], place: u32, tile: u8) -> Answered<Option<(u32, u32)>> {
    guarded(|| Ok(sought(graph, counts, place, tile)))
}

/// The Rust's `seek` takes no counts: the words before the node are the difference that its `get_word_index` takes at a tile.
#[inline(always)]
pub fn sought(graph: &Graph, counts: &[u32], place: u32, tile: u8) -> Option<(u32, u32)> {
    let found = u32::try_from(graph.seek(place as i32, tile)).ok()?;
    let first = graph[place as i32].arc_index();
    let before = counts[first as usize].wrapping_sub(counts[found as usize]);
    Some((found, before))
}

/// The Rust has no call for a step along a run: its loops over a run are written out, each with this test before this step.
pub fn run_step(graph: &Graph, at: u32) -> Answered<Option<u32>> {
    guarded(|| Ok((!graph[at as i32].is_end()).then_some(at + 1)))
}

pub fn word_index(graph: &Graph, counts: &[u32], start: u32, word: &[u8]) -> Answered<Option<u32>> {
    guarded(|| {
        let number = graph.get_word_index(counts, start as i32, word);
        Ok(Some(number).filter(|&number| number != !0))
    })
}

const FEWER_WORDS: &str = "the word graph has fewer words than the index";

/// The tiles put, and whether the word is whole.
pub fn word_by_index(
    graph: &Graph,
    counts: &[u32],
    start: u32,
    number: u32,
) -> Answered<(Vec<u8>, bool)> {
    guarded(|| {
        let mut tiles = Vec::new();
        let put = graph.get_word_by_index(counts, start as i32, number, |tile| tiles.push(tile));
        match put.map_err(|message| message.to_string()) {
            Ok(()) => Ok((tiles, true)),
            Err(message) if message == FEWER_WORDS => Ok((tiles, false)),
            Err(message) => Err(refused(&message)),
        }
    })
}

// What the Rust's walk is left with at the first tile that has no room: it may meet a panic later, or never end.
struct NoRoom;

// The first tiles of a word, as many as there is room for, and whether it has more; none where there are fewer words.
fn first_tiles(
    graph: &Graph,
    counts: &[u32],
    start: u32,
    number: u32,
    room: usize,
) -> Answered<Option<(Vec<u8>, bool)>> {
    let mut tiles = Vec::new();
    let put = |tile| {
        if tiles.len() == room {
            resume_unwind(Box::new(NoRoom));
        }
        tiles.push(tile);
    };
    let walk = || graph.get_word_by_index(counts, start as i32, number, put);
    match catch_unwind(AssertUnwindSafe(walk)) {
        Ok(Ok(())) => Ok(Some((tiles, false))),
        Ok(Err(message)) if message.to_string() == FEWER_WORDS => Ok(None),
        Ok(Err(message)) => Err(refused(&message.to_string())),
        Err(left) if left.is::<NoRoom>() => Ok(Some((tiles, true))),
        Err(_) => Err(Refused::plain(PANICKED)),
    }
}

/// A page of the Rust's words, put into columns by its standard library. The title and the labels that are shown must be ASCII.
pub fn page(graph: &Graph, asked: &PageOf) -> Answered<Vec<u8>> {
    let character = |label: u32| char::from_u32(label).unwrap_or(char::REPLACEMENT_CHARACTER);
    let title: String = asked.title.iter().map(|&byte| char::from(byte)).collect();
    let mut page = format!("{title:<40}");
    for number in (asked.first..=u32::MAX).take(23) {
        let Some((tiles, more)) = first_tiles(graph, asked.counts, asked.start, number, 28)? else {
            break;
        };
        let labels = tiles.iter().map(|&tile| asked.labels[usize::from(tile)]);
        let word: String = labels.map(character).collect();
        let last = if more { "+" } else { " " };
        page += &format!("{number:>10} {word:<28}{last}");
    }
    Ok(format!("{page:<960}").into_bytes())
}

pub fn letter_bits(graph: &Graph) -> Answered<(Vec<u64>, Vec<u64>)> {
    guarded(|| {
        let bits = graph.compute_letter_bits();
        Ok((bits.letter_bits.into_vec(), bits.accepting_bits.into_vec()))
    })
}

pub fn accepts_alpha(graph: &Graph, tally: &[u8]) -> Answered<bool> {
    guarded(|| Ok(graph.accepts_alpha(tally)))
}

pub fn alpha_cross_set(graph: &Graph, tally: &[u8]) -> Answered<u64> {
    guarded(|| Ok(graph.compute_alpha_cross_set(tally)))
}

/// Alphabets of the Rust, each made once.
#[derive(Default)]
pub struct Alphabets(HashMap<Vec<u32>, Option<Alphabet>>);

// What stands for a label that is not one code point: any text of two characters.
const TWO_CODE_POINTS: &str = "QU";

// No more are kept than this.
const MOST_ALPHABETS: usize = 1000;

impl Alphabets {
    /// None where the Rust makes no such alphabet: it takes 1 to 64 labels, and none of white space.
    pub fn of(&mut self, labels: &[u32]) -> Option<&Alphabet> {
        if self.0.len() > MOST_ALPHABETS {
            self.0.clear();
        }
        let made = self.0.entry(labels.to_vec());
        made.or_insert_with_key(|labels| alphabet(labels)).as_ref()
    }
}

// The Rust takes an alphabet as a text with a line for each tile. The writers read the first word of a line only, the label.
fn alphabet(labels: &[u32]) -> Option<Alphabet> {
    let mut text = String::new();
    for &label in labels {
        let label = match char::from_u32(label) {
            Some(c) if c.is_whitespace() => return None,
            Some(c) => c.to_string(),
            None => TWO_CODE_POINTS.to_string(),
        };
        text += &format!("{label} {label} 1 0 0 0 0\n");
    }
    let alphabet = Alphabet::new_static_from_text(&text).ok()?;
    (usize::from(alphabet.len()) == labels.len()).then_some(alphabet)
}

/// None where the Rust cannot be asked.
pub fn to_macondo(
    graph: &Graph,
    alphabets: &mut Alphabets,
    texts: &MacondoTexts,
) -> Option<Answered<Vec<u8>>> {
    let name = str::from_utf8(&texts.name).ok()?;
    let alphabet = alphabets.of(&texts.labels)?;
    let format = match texts.format {
        0 => MacondoFormat::Dawg,
        _ => MacondoFormat::Gaddag,
    };
    Some(guarded(|| {
        let file = lexport::to_macondo(graph, alphabet, name, format);
        file.map(|file| file.into_vec())
            .map_err(|message| refused(&message.to_string()))
    }))
}

/// None where the Rust cannot be asked. It writes ISO/IEC 8859-1: where Windows-1252 has another byte, it is asked with the code point that it
/// writes as that byte, and where it has none, with one that the Rust refuses too.
pub fn to_lxd(
    graph: &Graph,
    alphabets: &mut Alphabets,
    texts: &LxdTexts,
) -> Option<Answered<Vec<u8>>> {
    let text = |code_points: &[u32]| -> Option<String> {
        let asked = for_the_original(code_points).into_iter();
        asked.map(char::from_u32).collect()
    };
    let (title, date) = (text(&texts.title)?, text(&texts.date)?);
    let alphabet = alphabets.of(&for_the_original(&texts.labels))?;
    Some(guarded(|| {
        let file = lexport::to_lxd(graph, alphabet, &title, &date);
        file.map(|file| file.into_vec())
            .map_err(|message| refused(&message.to_string()))
    }))
}
