//! Request C-18, a lexicon from a word list: "The list is one length byte and that many tiles per word. The result is a KBWG graph: node 0 (tile
//! 0, an end) with the root's arc, node 1 the same without arc, then runs that ascend."

use super::WithWork;
use super::nodes::{Node, packed};
use crate::answer::Answer;
use std::collections::{BTreeMap, HashMap};

const KBWG: u32 = 1;

/// The words of a list in their order, or "32 for a length not 1 to 64, a list that ends inside a word or a tile not 1 to 63; 33 for a word not
/// above the one before, both met word by word in list order, 32 first".
pub fn words(list: &[u8]) -> Result<Vec<&[u8]>, u32> {
    let mut words: Vec<&[u8]> = Vec::new();
    let mut rest = list;
    while let Some((&len, after)) = rest.split_first() {
        let is_tile = |tile: &u8| (1..=63).contains(tile);
        let word = after.get(..usize::from(len)).ok_or(32u32)?;
        if !(1..=64).contains(&len) || !word.iter().all(is_tile) {
            return Err(32);
        }
        // Slices are compared entry by entry, and one that begins another is below it.
        if words.last().is_some_and(|&before| before >= word) {
            return Err(33);
        }
        words.push(word);
        rest = &after[word.len()..];
    }
    Ok(words)
}

/// How many numbers the work list of a list of so many bytes has at least: "8 numbers a list byte and 64 more".
pub fn work_for(bytes: usize) -> usize {
    8 * bytes + 64
}

/// What the call answers, and the nodes that it writes: "A refusal writes no node."
pub fn build(list: &[u8], work_len: usize, nodes_len: usize) -> (WithWork, Vec<u32>) {
    let refused = |number: u32, free: usize| {
        let answer = Answer::refused(number);
        (WithWork { answer, free }, Vec::new())
    };
    let words = match words(list) {
        Ok(words) => words,
        Err(refusal) => return refused(refusal, 0),
    };
    let free = work_for(list.len());
    if work_len < free {
        return refused(11, 0);
    }
    let nodes = graph_of(words);
    if nodes.len() > 16_777_216 {
        return refused(25, free);
    }
    if nodes_len < nodes.len() {
        return refused(11, free);
    }
    let answer = Answer::gives(nodes.len() as u64);
    (WithWork { answer, free }, nodes)
}

fn graph_of(words: Vec<&[u8]>) -> Vec<u32> {
    let head = |arc: u32| word_of(0, false, true, arc);
    let mut runs = Runs {
        places: HashMap::new(),
        nodes: vec![head(0), head(0)],
    };
    runs.nodes[0] = head(runs.place(words));
    runs.nodes
}

// An arc that does not fit leads to a node past the most that are not refused.
fn word_of(tile: u8, accepts: bool, end: bool, arc: u32) -> u32 {
    let node = Node {
        tile,
        accepts,
        end,
        arc,
    };
    packed(KBWG, node).unwrap_or(0)
}

struct Runs<'a> {
    // The place of each run that was met, by its words: "no two of these hold the same words".
    places: HashMap<Vec<&'a [u8]>, u32>,
    nodes: Vec<u32>,
}

impl<'a> Runs<'a> {
    /// "runs take consecutive places when first met, as in LXD": the place of the run of these words, or 0 where there are none.
    fn place(&mut self, words: Vec<&'a [u8]>) -> u32 {
        if words.is_empty() {
            return 0;
        }
        if let Some(&place) = self.places.get(&words) {
            return place;
        }
        let mut rests: BTreeMap<u8, Vec<&[u8]>> = BTreeMap::new();
        for word in &words {
            rests.entry(word[0]).or_default().push(&word[1..]);
        }
        let place = self.nodes.len();
        self.places.insert(words, place as u32);
        self.nodes.resize(place + rests.len(), 0);
        let last = self.nodes.len() - 1;
        for (at, (tile, rests)) in (place..).zip(rests) {
            let (alone, longer): (Vec<&[u8]>, _) =
                rests.into_iter().partition(|rest| rest.is_empty());
            let arc = self.place(longer);
            self.nodes[at] = word_of(tile, !alone.is_empty(), at == last, arc);
        }
        place as u32
    }
}
