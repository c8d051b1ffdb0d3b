//! Letter bits and alpha sets.

use crate::bench::{Bench, row};
use crate::clock::in_turns;
use compare::lexicon::Words;

type Tally = [u8; 27];

impl Bench {
    pub fn letter_bits(&self) {
        let (mut all, mut accepting) = (vec![1; self.nodes.len()], vec![1; self.nodes.len()]);
        let bits = self.rust.compute_letter_bits();
        assert_eq!(
            machirsun::letter_bits(&self.nodes, &mut all, &mut accepting),
            Ok(())
        );
        assert_eq!(all[..], bits.letter_bits[..]);
        assert_eq!(accepting[..], bits.accepting_bits[..]);
        let times = in_turns(
            || machirsun::letter_bits(&self.nodes, &mut all, &mut accepting),
            || self.rust.compute_letter_bits(),
        );
        row("letter bits", times);
    }

    // On a graph of the words' letters in ascending order, which accepts each of them.
    pub fn accepts_alpha(&self, words: &Words) {
        let tallies: Vec<Tally> = words.iter().map(|word| tally(word)).collect();
        let ours = |tally: &Tally| machirsun::accepts_alpha(&self.nodes, tally).unwrap();
        let theirs = |tally: &Tally| self.rust.accepts_alpha(tally);
        for tally in &tallies {
            assert_eq!((ours(tally), theirs(tally)), (true, true));
        }
        let times = in_turns(
            || tallies.iter().filter(|tally| ours(tally)).count(),
            || tallies.iter().filter(|tally| theirs(tally)).count(),
        );
        row("`accepts_alpha`, one a word", times);
    }

    // The letters of a word but its first, which the cross set is to find again.
    pub fn cross_sets(&self, words: &Words) {
        let tallies: Vec<Tally> = words.iter().map(|word| tally(&word[1..])).collect();
        let ours = |tally: &Tally| machirsun::alpha_cross_set(&self.nodes, tally).unwrap();
        let theirs = |tally: &Tally| self.rust.compute_alpha_cross_set(tally);
        for tally in &tallies {
            assert_eq!(ours(tally), theirs(tally));
        }
        let times = in_turns(
            || tallies.iter().map(ours).fold(0, u64::wrapping_add),
            || tallies.iter().map(theirs).fold(0, u64::wrapping_add),
        );
        row("cross sets, one a word", times);
    }
}

// How often each tile stands in a word.
fn tally(word: &[u8]) -> Tally {
    let mut tally = [0; 27];
    for &tile in word {
        tally[usize::from(tile)] += 1;
    }
    tally
}
