//! The row "counting", and the numbers of words.

use super::nodes::{kbwg, largest_arc, last_ends};
use super::{WithWork, row};
use crate::answer::Answer;
use std::mem::replace;

/// The least number of words that is too many.
pub const TOO_MANY: u64 = 4_294_967_295;

/// What can be reached from p in one step: "by an arc that is not 0 or by p+1 after a node that is not an end".
pub fn steps(nodes: &[u32], p: usize) -> impl Iterator<Item = usize> {
    let node = kbwg(nodes[p]);
    let arc = (node.arc != 0).then_some(node.arc as usize);
    arc.into_iter().chain((!node.end).then_some(p + 1))
}

/// The number of words from each node, held at the greatest number that there is; none for nodes from which a loop is reached. A node is
/// counted once all that it leads to is; a sweep down and a sweep up take turns until no node is counted any more.
pub fn counts(nodes: &[u32]) -> Vec<Option<u64>> {
    let mut counts: Vec<Option<u64>> = vec![None; nodes.len()];
    let mut grows = true;
    while grows {
        grows = false;
        for p in (0..nodes.len()).rev().chain(0..nodes.len()) {
            if counts[p].is_none() {
                let here = u64::from(kbwg(nodes[p]).accepts);
                counts[p] = steps(nodes, p)
                    .try_fold(here, |sum, next| Some(sum.saturating_add(counts[next]?)));
                grows |= counts[p].is_some();
            }
        }
    }
    counts
}

/// Whether a node can be reached from itself.
pub fn reaches_itself(nodes: &[u32], p: usize) -> bool {
    if p >= nodes.len() {
        return false;
    }
    let mut seen = vec![false; nodes.len()];
    let mut waiting: Vec<usize> = steps(nodes, p).collect();
    while let Some(next) = waiting.pop() {
        if next == p {
            return true;
        }
        if !replace(&mut seen[next], true) {
            waiting.extend(steps(nodes, next));
        }
    }
    false
}

/// "the lowest-numbered node that can be reached from itself": of the nodes in groups of two or more that all reach each other, and of those
/// that lead to themselves, the lowest.
pub fn lowest_looping(nodes: &[u32]) -> Option<usize> {
    let mut backwards: Vec<(usize, usize)> = (0..nodes.len())
        .flat_map(|p| steps(nodes, p).map(move |next| (next, p)))
        .collect();
    backwards.sort_unstable();
    let mut seen = vec![false; nodes.len()];
    let mut lowest = None;
    // A group that leads to p's and is not led to from it has a node that was left after all of p's, and so is seen by now: what leads to p and is not seen
    // yet is p's group.
    for p in as_left(nodes).into_iter().rev() {
        let (mut group, mut least, mut waiting) = (0, p, vec![p]);
        while let Some(q) = waiting.pop() {
            if !replace(&mut seen[q], true) {
                (group, least) = (group + 1, least.min(q));
                let first = backwards.partition_point(|&(to, _)| to < q);
                let to_here = backwards[first..].iter().take_while(|&&(to, _)| to == q);
                waiting.extend(to_here.map(|&(_, from)| from));
            }
        }
        if group > 1 || group == 1 && steps(nodes, p).any(|next| next == p) {
            lowest = lowest.into_iter().chain([least]).min();
        }
    }
    lowest
}

// The nodes in the order in which a walk leaves them: each after all that it leads to and that the walk had not come to yet.
fn as_left(nodes: &[u32]) -> Vec<usize> {
    let (mut seen, mut left) = (vec![false; nodes.len()], Vec::new());
    for start in 0..nodes.len() {
        let mut waiting = vec![(start, false)];
        while let Some((p, leaving)) = waiting.pop() {
            if leaving {
                left.push(p);
            } else if !replace(&mut seen[p], true) {
                waiting.push((p, true));
                waiting.extend(steps(nodes, p).map(|next| (next, false)));
            }
        }
    }
    left
}

/// The checks that counting and both writers begin with.
pub fn size_and_shape(nodes: &[u32]) -> u32 {
    row(&[
        (10, &|| nodes.len() < 2 || nodes.len() > 16_777_216),
        (8, &|| largest_arc(nodes) as usize >= nodes.len()),
        (9, &|| !last_ends(nodes)),
    ])
}

/// A refusal with the arc that 8 carries.
pub fn refused(refusal: u32, nodes: &[u32]) -> Answer {
    Answer {
        arc: if refusal == 8 { largest_arc(nodes) } else { 0 },
        ..Answer::refused(refusal)
    }
}

pub fn count_words(nodes: &[u32], counted: &mut [u32], work_len: usize) -> WithWork {
    let n = nodes.len();
    let shape = size_and_shape(nodes);
    let refusal = row(&[
        (shape, &|| shape != 0),
        (11, &|| counted.len() < n || work_len < 2 * n),
    ]);
    if refusal != 0 {
        return WithWork {
            answer: refused(refusal, nodes),
            free: 0,
        };
    }
    let words = counts(nodes);
    let refusal = row(&[
        (12, &|| words.contains(&None)),
        (13, &|| {
            words.iter().flatten().any(|&count| count >= TOO_MANY)
        }),
    ]);
    let node = match refusal {
        12 => lowest_looping(nodes).expect("a node loops"),
        _ => 0,
    };
    let answer = Answer {
        node: node as u64,
        ..Answer::refused(refusal)
    };
    for (place, count) in words.into_iter().enumerate() {
        let shown = count.filter(|_| answer.refusal == 0);
        counted[place] = shown.unwrap_or(0) as u32;
    }
    WithWork {
        answer,
        free: 2 * n,
    }
}

#[cfg(test)]
mod tests {
    use super::{lowest_looping, reaches_itself, size_and_shape};
    use crate::graphs::loops::{placed, random_runs};
    use crate::graphs::{every_node, nth, shuffled, wild};
    use crate::random::Random;

    // By the request's sentence, word for word.
    fn hold(nodes: &[u32]) {
        if size_and_shape(nodes) == 0 {
            let lowest = (0..nodes.len()).find(|&p| reaches_itself(nodes, p));
            assert_eq!(lowest_looping(nodes), lowest, "{nodes:x?}");
        }
    }

    #[test]
    fn the_lowest_node_is_the_first_that_reaches_itself() {
        for len in 2..=4 {
            let nodes = every_node(1, len);
            (0..nodes.len().pow(len)).for_each(|number| hold(&nth(&nodes, len, number)));
        }
        let mut random = Random::new(1);
        for len in (2..150).cycle().take(10_000) {
            hold(&wild(&mut random, len, 2));
            let percent = random.within(10, 60);
            let shape = random_runs(&mut random, len, percent);
            hold(&placed(&shape, &shuffled(&mut random, len)));
        }
    }
}
