//! A builder with one slip, or with none: it closes runs from their ends, numbers them, and then places them.

use Slip::*;
use compare::answer::Answer;
use compare::lexicon::node;
use std::collections::HashMap;
use std::hash::{DefaultHasher, Hash, Hasher};

#[derive(Clone, Copy, Debug, PartialEq, Eq)]
pub enum Slip {
    Nowhere,
    // Of a word.
    Length0Taken,
    Length64Refused,
    Length65Taken,
    Tile0Taken,
    Tile63Refused,
    Tile64Taken,
    Tile255Taken,
    LastTileNotAsked,
    CutWordTaken,
    CutWordLeftOut,
    // Of the order of words.
    EqualWordTaken,
    BeginningTaken,
    LongerNotAbove,
    ByLength,
    ByFirstTiles,
    AboveTheFirst,
    NotAboveTaken,
    OrderBeforeWord,
    AllWordsBeforeOrder,
    RefusalsTurnedRound,
    // Of the lent lists.
    WorkBeforeWords,
    WorkNotAsked,
    WorkWithout64,
    WorkOf7,
    WorkMoreAsked,
    EmptyListNeedsNone,
    NodesNotAsked,
    NodesMoreAsked,
    WorkChangedByRefusal,
    WorkChangedByItsOwn,
    WorkPastFreeChanged,
    RootsBeforeRefusal,
    NodeBeforeRefusal,
    NodePastWritten,
    // Of the answer.
    RootsNotCounted,
    RefusalHasNodes,
    RunsAnswered,
    // Of the first two nodes.
    EmptyListHasArc,
    EmptyListOfOne,
    RootAccepts,
    RootWithoutEnd,
    SecondLeadsToo,
    SecondWithoutEnd,
    // Of the words.
    FirstWordLost,
    LastWordLost,
    LastTileLost,
    BeginningsLost,
    BeginningsAdded,
    // Of the nodes.
    LeafLeadsTo1,
    EndOfLastRunLost,
    EndOfEach,
    TilesDescend,
    // Of sharing.
    NothingShared,
    LeavesNotShared,
    OneDepthShared,
    EndsOfRunsShared,
    SharedByTiles,
    SharedByFirstChild,
    SharedBy8Bits,
    SharedBy16Bits,
    // Of places.
    ChildrenFirst,
    LevelByLevel,
    ChildrenAtOnce,
    LastChildFirst,
    RunAfterItsFirstChild,
    FromPlace3,
}

pub const SLIPS: [Slip; 66] = [
    Length0Taken,
    Length64Refused,
    Length65Taken,
    Tile0Taken,
    Tile63Refused,
    Tile64Taken,
    Tile255Taken,
    LastTileNotAsked,
    CutWordTaken,
    CutWordLeftOut,
    EqualWordTaken,
    BeginningTaken,
    LongerNotAbove,
    ByLength,
    ByFirstTiles,
    AboveTheFirst,
    NotAboveTaken,
    OrderBeforeWord,
    AllWordsBeforeOrder,
    RefusalsTurnedRound,
    WorkBeforeWords,
    WorkNotAsked,
    WorkWithout64,
    WorkOf7,
    WorkMoreAsked,
    EmptyListNeedsNone,
    NodesNotAsked,
    NodesMoreAsked,
    WorkChangedByRefusal,
    WorkChangedByItsOwn,
    WorkPastFreeChanged,
    RootsBeforeRefusal,
    NodeBeforeRefusal,
    NodePastWritten,
    RootsNotCounted,
    RefusalHasNodes,
    RunsAnswered,
    EmptyListHasArc,
    EmptyListOfOne,
    RootAccepts,
    RootWithoutEnd,
    SecondLeadsToo,
    SecondWithoutEnd,
    FirstWordLost,
    LastWordLost,
    LastTileLost,
    BeginningsLost,
    BeginningsAdded,
    LeafLeadsTo1,
    EndOfLastRunLost,
    EndOfEach,
    TilesDescend,
    NothingShared,
    LeavesNotShared,
    OneDepthShared,
    EndsOfRunsShared,
    SharedByTiles,
    SharedByFirstChild,
    SharedBy8Bits,
    SharedBy16Bits,
    ChildrenFirst,
    LevelByLevel,
    ChildrenAtOnce,
    LastChildFirst,
    RunAfterItsFirstChild,
    FromPlace3,
];

type Words = Vec<Vec<u8>>;

pub fn build(list: &[u8], work: &mut [u32], nodes: &mut [u32], slip: Slip) -> Answer {
    let words = words_of(list, slip);
    let need = needed(list.len(), slip);
    let refused = words.as_ref().err().copied();
    let short = (work.len() < need).then_some(11);
    let refusal = match slip {
        WorkBeforeWords => short.or(refused),
        _ => refused.or(short),
    };
    let mut words = match (refusal, words) {
        (None, Ok(words)) => words,
        (refusal, _) => return before_building(refusal.unwrap_or(11), work, nodes, slip),
    };
    change(work, list.len(), slip);
    lose(&mut words, slip);
    let (graph, runs) = graph_of(&words, slip);
    let short = match slip {
        NodesNotAsked => false,
        NodesMoreAsked => nodes.len() <= graph.len(),
        _ => nodes.len() < graph.len(),
    };
    if short {
        return after_building(&graph, nodes, slip);
    }
    let fitting = graph.len().min(nodes.len());
    nodes[..fitting].copy_from_slice(&graph[..fitting]);
    if slip == NodePastWritten
        && let Some(past) = nodes.get_mut(graph.len())
    {
        *past = 0;
    }
    Answer::gives(match slip {
        RootsNotCounted => graph.len() - 2,
        RunsAnswered => runs,
        _ => graph.len(),
    } as u64)
}

fn before_building(refusal: u32, work: &mut [u32], nodes: &mut [u32], slip: Slip) -> Answer {
    let changed = match slip {
        WorkChangedByRefusal => refusal != 11,
        WorkChangedByItsOwn => refusal == 11,
        _ => false,
    };
    if changed && let Some(number) = work.first_mut() {
        *number ^= 1;
    }
    if slip == NodeBeforeRefusal
        && refusal == 33
        && let Some(node) = nodes.first_mut()
    {
        *node ^= 1;
    }
    Answer::refused(match (slip, refusal) {
        (RefusalsTurnedRound, 32) => 33,
        (RefusalsTurnedRound, 33) => 32,
        _ => refusal,
    })
}

fn after_building(graph: &[u32], nodes: &mut [u32], slip: Slip) -> Answer {
    if slip == RootsBeforeRefusal {
        let roots = nodes.len().min(2);
        nodes[..roots].copy_from_slice(&graph[..roots]);
    }
    let value = match slip {
        RefusalHasNodes => graph.len() as u64,
        _ => 0,
    };
    Answer {
        value,
        ..Answer::refused(11)
    }
}

fn needed(bytes: usize, slip: Slip) -> usize {
    match slip {
        WorkNotAsked => 0,
        WorkWithout64 => 8 * bytes,
        WorkOf7 => 7 * bytes + 64,
        WorkMoreAsked => 8 * bytes + 65,
        EmptyListNeedsNone if bytes == 0 => 0,
        _ => 8 * bytes + 64,
    }
}

// The free part of the work list, and the number after it where that is the slip.
fn change(work: &mut [u32], bytes: usize, slip: Slip) {
    let changed = 8 * bytes + 64 + usize::from(slip == WorkPastFreeChanged);
    work.iter_mut()
        .take(changed)
        .for_each(|number| *number ^= 1);
}

// The words of a list, or the refusal.
fn words_of(list: &[u8], slip: Slip) -> Result<Words, u32> {
    let mut words = Words::new();
    let (mut rest, mut in_order) = (list, true);
    while let Some((&len, after)) = rest.split_first() {
        let tiles = match after.get(..len.into()) {
            Some(tiles) => tiles,
            None if slip == CutWordTaken => after,
            None if slip == CutWordLeftOut => break,
            None => return Err(32),
        };
        let is_word = takes_length(len, slip) && takes_tiles(tiles, slip);
        let before = match slip {
            AboveTheFirst => words.first(),
            _ => words.last(),
        };
        let above = before.is_none_or(|before| is_above(before, tiles, slip));
        match slip {
            OrderBeforeWord if !above => return Err(33),
            _ if !is_word => return Err(32),
            AllWordsBeforeOrder => in_order &= above,
            _ if !above => return Err(33),
            _ => {}
        }
        words.push(tiles.to_vec());
        rest = &after[tiles.len()..];
    }
    match in_order {
        true => Ok(words),
        false => Err(33),
    }
}

fn takes_length(len: u8, slip: Slip) -> bool {
    match slip {
        Length0Taken => len <= 64,
        Length64Refused => (1..=63).contains(&len),
        Length65Taken => (1..=65).contains(&len),
        _ => (1..=64).contains(&len),
    }
}

fn takes_tiles(tiles: &[u8], slip: Slip) -> bool {
    let asked = match (slip, tiles) {
        (LastTileNotAsked, [asked @ .., _]) => asked,
        _ => tiles,
    };
    asked.iter().all(|&tile| match slip {
        Tile0Taken => tile <= 63,
        Tile63Refused => (1..=62).contains(&tile),
        Tile64Taken => (1..=64).contains(&tile),
        Tile255Taken => (1..=63).contains(&tile) || tile == 255,
        _ => (1..=63).contains(&tile),
    })
}

fn is_above(before: &[u8], word: &[u8], slip: Slip) -> bool {
    match slip {
        EqualWordTaken => before <= word,
        BeginningTaken => before < word || before.starts_with(word) && before != word,
        LongerNotAbove => before < word && !word.starts_with(before),
        ByLength => (before.len(), before) < (word.len(), word),
        ByFirstTiles => before.first() <= word.first(),
        NotAboveTaken => true,
        _ => before < word,
    }
}

fn lose(words: &mut Words, slip: Slip) {
    words.sort_unstable();
    words.dedup();
    words.retain(|word| !word.is_empty());
    let all = words.clone();
    let begins_another =
        |word: &Vec<u8>| all.iter().any(|one| one != word && one.starts_with(word));
    match slip {
        FirstWordLost if words.len() > 1 => drop(words.remove(0)),
        LastWordLost if words.len() > 1 => drop(words.pop()),
        LastTileLost => words.iter_mut().for_each(|word| word.truncate(63)),
        BeginningsLost => words.retain(|word| !begins_another(word)),
        BeginningsAdded => words.extend(all.iter().map(|word| word[..1].to_vec())),
        _ => {}
    }
    words.sort_unstable();
    words.dedup();
}

// The place of a run among those closed, and how many of its nodes are passed over.
type Child = Option<(usize, usize)>;

// Tile, whether it accepts, and what follows.
type Run = Vec<(u8, bool, Child)>;

struct Closed {
    runs: Vec<Run>,
    known: HashMap<(u64, Vec<u64>), usize>,
    slip: Slip,
}

impl Closed {
    // Words in order that have the first `depth` tiles in common.
    fn close(&mut self, words: &[Vec<u8>], depth: usize) -> Child {
        let longer = words.partition_point(|word| word.len() <= depth);
        let groups = words[longer..].chunk_by(|a, b| a[depth] == b[depth]);
        let run: Run = groups
            .map(|group| {
                let accepts = group[0].len() == depth + 1;
                (group[0][depth], accepts, self.close(group, depth + 1))
            })
            .collect();
        (!run.is_empty()).then(|| self.number(run, depth))
    }

    fn number(&mut self, mut run: Run, depth: usize) -> (usize, usize) {
        if self.slip == TilesDescend {
            run.reverse();
        }
        if let Some(found) = self.as_an_end(&run) {
            return found;
        }
        let key = self.key(&run, depth);
        if let Some(&number) = self.known.get(&key) {
            return (number, 0);
        }
        self.runs.push(run);
        self.known.insert(key, self.runs.len() - 1);
        (self.runs.len() - 1, 0)
    }

    // The run as the end of another one.
    fn as_an_end(&self, run: &Run) -> Child {
        if self.slip != EndsOfRunsShared {
            return None;
        }
        let mut all = self.runs.iter().enumerate();
        let (number, one) = all.find(|(_, one)| one.ends_with(run))?;
        Some((number, one.len() - run.len()))
    }

    // What two runs have in common that are taken for one.
    fn key(&self, run: &Run, depth: usize) -> (u64, Vec<u64>) {
        let child = |child: Child| child.map_or(0, |(number, _)| number as u64 + 1);
        let numbers = |&(tile, accepts, to): &(u8, bool, Child)| match self.slip {
            SharedByTiles => u64::from(tile) | child(to) << 9,
            _ => u64::from(tile) | u64::from(accepts) << 8 | child(to) << 9,
        };
        let mut key: Vec<u64> = run.iter().map(numbers).collect();
        let is_leaf = run.iter().all(|&(_, _, to)| to.is_none());
        let apart = match self.slip {
            NothingShared => self.runs.len() as u64,
            LeavesNotShared if is_leaf => self.runs.len() as u64,
            OneDepthShared => depth as u64,
            _ => 0,
        };
        match self.slip {
            SharedByFirstChild => key[1..].iter_mut().for_each(|entry| *entry &= 0x1ff),
            SharedBy8Bits => key = vec![hash(&key) % (1 << 8)],
            SharedBy16Bits => key = vec![hash(&key) % (1 << 16)],
            _ => {}
        }
        (apart, key)
    }
}

fn hash(key: &[u64]) -> u64 {
    let mut hasher = DefaultHasher::new();
    key.hash(&mut hasher);
    hasher.finish()
}

fn children(run: &Run) -> impl DoubleEndedIterator<Item = usize> {
    run.iter()
        .filter_map(|&(_, _, to)| to.map(|(number, _)| number))
}

// The runs in the order of their places.
fn order(runs: &[Run], root: usize, slip: Slip) -> Vec<usize> {
    let mut order = Vec::new();
    match slip {
        LevelByLevel => {
            order.push(root);
            let mut at = 0;
            while at < order.len() {
                for child in children(&runs[order[at]]) {
                    if !order.contains(&child) {
                        order.push(child);
                    }
                }
                at += 1;
            }
        }
        _ => meet(runs, root, slip, &mut order),
    }
    order
}

fn meet(runs: &[Run], run: usize, slip: Slip, order: &mut Vec<usize>) {
    if order.contains(&run) && slip != ChildrenAtOnce {
        return;
    }
    let all: Vec<usize> = match slip {
        LastChildFirst => children(&runs[run]).rev().collect(),
        _ => children(&runs[run]).collect(),
    };
    let (first, others) = match slip {
        ChildrenFirst => (&all[..], &[][..]),
        RunAfterItsFirstChild => all.split_at(all.len().min(1)),
        _ => (&[][..], &all[..]),
    };
    first
        .iter()
        .for_each(|&child| meet(runs, child, slip, order));
    if !order.contains(&run) {
        order.push(run);
    }
    let new: Vec<usize> = others
        .iter()
        .copied()
        .filter(|child| !order.contains(child))
        .collect();
    if slip == ChildrenAtOnce {
        for &child in &new {
            if !order.contains(&child) {
                order.push(child);
            }
        }
    }
    new.iter().for_each(|&child| meet(runs, child, slip, order));
}

// The nodes, and how many runs they are.
fn graph_of(words: &Words, slip: Slip) -> (Vec<u32>, usize) {
    let mut closed = Closed {
        runs: Vec::new(),
        known: HashMap::new(),
        slip,
    };
    let root = closed.close(words, 0);
    let order = root.map_or(Vec::new(), |(root, _)| order(&closed.runs, root, slip));
    let first = if slip == FromPlace3 { 3 } else { 2 };
    let (mut places, mut next) = (vec![0; closed.runs.len()], first);
    for &run in &order {
        places[run] = next;
        next += closed.runs[run].len();
    }
    let arc = |to: Child| match to {
        Some((run, passed)) => (places[run] + passed) as u32,
        None => u32::from(slip == LeafLeadsTo1),
    };
    let mut nodes = roots(root.map(|(run, _)| places[run] as u32), slip);
    nodes.resize(first.min(nodes.len() + order.len()), 0x40);
    for (at, &run) in order.iter().enumerate() {
        let last_run = at + 1 == order.len();
        let last = closed.runs[run].len() - 1;
        for (at, &(tile, accepts, to)) in closed.runs[run].iter().enumerate() {
            let end = match slip {
                EndOfLastRunLost => at == last && !last_run,
                EndOfEach => true,
                _ => at == last,
            };
            nodes.push(node(tile & 0x3f, accepts, end, arc(to)));
        }
    }
    (nodes, order.len())
}

fn roots(arc: Option<u32>, slip: Slip) -> Vec<u32> {
    let none = u32::from(slip == EmptyListHasArc) * 2;
    let arc_of_0 = arc.unwrap_or(none);
    let arc_of_1 = if slip == SecondLeadsToo { arc_of_0 } else { 0 };
    let first = node(0, slip == RootAccepts, slip != RootWithoutEnd, arc_of_0);
    let second = node(0, false, slip != SecondWithoutEnd, arc_of_1);
    match slip {
        EmptyListOfOne if arc.is_none() => vec![first],
        _ => vec![first, second],
    }
}
