//! The node that a search for the lowest looping one names with one slip, or with none.

use Slip::*;
use compare::paper::counting::steps;

#[derive(Clone, Copy, Debug, PartialEq, Eq)]
pub enum Slip {
    Nowhere,
    // Of the steps.
    Arc0Followed,
    RunsNotFollowed,
    MiddleNotFollowed,
    MiddleTakenForFirst,
    SelfLoopUnseen,
    PairUnseen,
    // Of the choice: another node than the lowest that loops.
    LeadsToLoop,
    ComesFromLoop,
    BetweenLoops,
    FromNode0Only,
    Highest,
    // Of a walk that stops at the first loop: where it comes back to its path, and the lowest node of that part of the path.
    MetFromLast,
    MetFromFirst,
    LowestMetFromLast,
    LowestMetFromFirst,
    // Of a search for the groups of nodes that all reach each other, by the lowest mark that each node comes back to.
    FirstGroupFromLast,
    FirstGroupFromFirst,
    LastGroupFromLast,
    LastGroupFromFirst,
    EnteredFromLast,
    EnteredFromFirst,
    LeftGroupTakenIn,
    MarkOfArcLost,
    MarkOfRunLost,
}

pub const SLIPS: [Slip; 24] = [
    Arc0Followed,
    RunsNotFollowed,
    MiddleNotFollowed,
    MiddleTakenForFirst,
    SelfLoopUnseen,
    PairUnseen,
    LeadsToLoop,
    ComesFromLoop,
    BetweenLoops,
    FromNode0Only,
    Highest,
    MetFromLast,
    MetFromFirst,
    LowestMetFromLast,
    LowestMetFromFirst,
    FirstGroupFromLast,
    FirstGroupFromFirst,
    LastGroupFromLast,
    LastGroupFromFirst,
    EnteredFromLast,
    EnteredFromFirst,
    LeftGroupTakenIn,
    MarkOfArcLost,
    MarkOfRunLost,
];

/// The node named in a graph that loops. Where the slip finds none it is the right one, so that the node alone tells.
pub fn named(nodes: &[u32], slip: Slip) -> usize {
    let lowest = || lowest_where(nodes, |p| reaches(nodes, p, p, Nowhere));
    let up = 0..nodes.len();
    let down = up.clone().rev();
    let found = match slip {
        MetFromLast => met(nodes, down).map(|path| path[0]),
        MetFromFirst => met(nodes, up).map(|path| path[0]),
        LowestMetFromLast => met(nodes, down).and_then(|path| path.into_iter().min()),
        LowestMetFromFirst => met(nodes, up).and_then(|path| path.into_iter().min()),
        FirstGroupFromLast => groups(nodes, down, slip).first().map(|group| group.lowest),
        FirstGroupFromFirst => groups(nodes, up, slip).first().map(|group| group.lowest),
        LastGroupFromLast => groups(nodes, down, slip).last().map(|group| group.lowest),
        LastGroupFromFirst => groups(nodes, up, slip).last().map(|group| group.lowest),
        EnteredFromLast => groups(nodes, down, slip)
            .iter()
            .map(|group| group.entered)
            .min(),
        EnteredFromFirst => groups(nodes, up, slip)
            .iter()
            .map(|group| group.entered)
            .min(),
        LeftGroupTakenIn | MarkOfArcLost | MarkOfRunLost => groups(nodes, down, slip)
            .iter()
            .map(|group| group.lowest)
            .min(),
        _ => chosen(nodes, slip),
    };
    found.or_else(lowest).expect("the graph loops")
}

fn lowest_where(nodes: &[u32], holds: impl Fn(usize) -> bool) -> Option<usize> {
    (0..nodes.len()).find(|&p| holds(p))
}

// The choices that need no walk but from each node to each.
fn chosen(nodes: &[u32], slip: Slip) -> Option<usize> {
    let len = nodes.len();
    let to = |p: usize, q: usize| reaches(nodes, p, q, slip);
    let loops = |p: usize| to(p, p);
    let leads_to = |p: usize| loops(p) || (0..len).any(|q| loops(q) && to(p, q));
    let comes_from = |p: usize| loops(p) || (0..len).any(|q| loops(q) && to(q, p));
    match slip {
        LeadsToLoop => lowest_where(nodes, leads_to),
        ComesFromLoop => lowest_where(nodes, comes_from),
        BetweenLoops => lowest_where(nodes, |p| leads_to(p) && comes_from(p)),
        FromNode0Only => lowest_where(nodes, |p| to(0, p) && loops(p)),
        Highest => (0..len).rev().find(|&p| loops(p)),
        // A pair is two nodes that lead to each other, and no third leads to them and is led to from them.
        PairUnseen => lowest_where(nodes, |p| {
            loops(p) && (0..len).filter(|&q| to(p, q) && to(q, p)).count() != 2
        }),
        _ => lowest_where(nodes, loops),
    }
}

// Whether a walk from p comes to q, by one step or more.
fn reaches(nodes: &[u32], p: usize, q: usize, slip: Slip) -> bool {
    // A node with whether it was entered by an arc into a run's middle.
    let mut seen = vec![false; 2 * nodes.len()];
    let mut waiting = slipped_steps(nodes, p, false, slip);
    while let Some((next, middle)) = waiting.pop() {
        if next == q {
            return true;
        }
        if !std::mem::replace(&mut seen[2 * next + usize::from(middle)], true) {
            waiting.extend(slipped_steps(nodes, next, middle, slip));
        }
    }
    false
}

fn slipped_steps(nodes: &[u32], p: usize, middle: bool, slip: Slip) -> Vec<(usize, bool)> {
    let is_middle = |at: usize| at > 0 && nodes[at - 1] & 0x40 == 0;
    let is_end =
        nodes[p] & 0x40 != 0 || slip == RunsNotFollowed || slip == MiddleNotFollowed && middle;
    let arc = match (nodes[p] >> 8) as usize {
        0 if slip != Arc0Followed => None,
        at if at == p && slip == SelfLoopUnseen => None,
        at if slip == MiddleTakenForFirst => (0..=at).rev().find(|&first| !is_middle(first)),
        at => Some(at),
    };
    let arc = arc.map(|at| (at, is_middle(at)));
    arc.into_iter()
        .chain((!is_end).then_some((p + 1, false)))
        .collect()
}

// The path from where a walk comes back to it, from the first start from which it does.
fn met(nodes: &[u32], mut starts: impl Iterator<Item = usize>) -> Option<Vec<usize>> {
    fn walk(
        nodes: &[u32],
        p: usize,
        path: &mut Vec<usize>,
        done: &mut [bool],
    ) -> Option<Vec<usize>> {
        if let Some(at) = path.iter().position(|&q| q == p) {
            return Some(path[at..].to_vec());
        }
        if done[p] {
            return None;
        }
        path.push(p);
        let found = steps(nodes, p).find_map(|next| walk(nodes, next, path, done));
        path.pop();
        done[p] = true;
        found
    }
    let mut done = vec![false; nodes.len()];
    starts.find_map(|start| walk(nodes, start, &mut Vec::new(), &mut done))
}

// The groups that loop, in the order in which they are left.
fn groups(nodes: &[u32], starts: impl Iterator<Item = usize>, slip: Slip) -> Vec<Group> {
    let mut search = Search {
        nodes,
        slip,
        marks: vec![None; nodes.len()],
        met: 0,
        open: Vec::new(),
        groups: Vec::new(),
    };
    for start in starts {
        if search.marks[start].is_none() {
            search.visit(start);
        }
    }
    search.groups
}

// Nodes that all reach each other: the one by which the search entered them, and the lowest.
struct Group {
    entered: usize,
    lowest: usize,
}

struct Search<'a> {
    nodes: &'a [u32],
    slip: Slip,
    // When each node was met.
    marks: Vec<Option<usize>>,
    met: usize,
    // The nodes met whose group is not left yet.
    open: Vec<usize>,
    groups: Vec<Group>,
}

impl Search<'_> {
    // The lowest mark that p comes back to.
    fn visit(&mut self, p: usize) -> usize {
        let mark = self.met;
        self.marks[p] = Some(mark);
        self.met += 1;
        let place = self.open.len();
        self.open.push(p);
        let mut lowest = mark;
        for next in steps(self.nodes, p).collect::<Vec<_>>() {
            let back = match self.marks[next] {
                None => Some(self.visit(next)),
                met => met.filter(|_| self.open.contains(&next) || self.slip == LeftGroupTakenIn),
            };
            let by_arc = (self.nodes[p] >> 8) as usize == next;
            let lost = self.slip == if by_arc { MarkOfArcLost } else { MarkOfRunLost };
            lowest = lowest.min(back.filter(|_| !lost).unwrap_or(mark));
        }
        if lowest == mark {
            let group = self.open.split_off(place);
            if group.len() > 1 || steps(self.nodes, p).any(|next| next == p) {
                let lowest = group.into_iter().min().unwrap_or(p);
                self.groups.push(Group { entered: p, lowest });
            }
        }
        lowest
    }
}
