//! The comparison can fail: an engine that builds lexicons with one slip is found, each slip by itself.

mod builder;

use builder::{SLIPS, Slip, build};
use compare::checker::Checker;
use compare::corpus::{Size, building, building_limits};
use compare::random::Random;
use compare::report::{Call, Report};

fn run(slip: Slip) -> Report {
    let building =
        move |list: &[u8], work: &mut [u32], nodes: &mut [u32]| build(list, work, nodes, slip);
    let mut checker = Checker::building(1, Box::new(building));
    building::run(&mut checker, Size::Tiny, &mut Random::new(1));
    building_limits::run(&mut checker, Size::Tiny);
    checker.report
}

fn held(report: &Report, to: &str) -> bool {
    let mut smallest = report.smallest.iter();
    smallest.any(|difference| difference.call == Call::Build && difference.held_to == to)
}

#[test]
fn a_builder_without_a_slip_differs_nowhere() {
    let report = run(Slip::Nowhere);
    assert_eq!(report.differences(), 0, "{}", report.text());
    for refusal in [11, 32, 33] {
        assert!(report.line(Call::Build).refusals[refusal] > 0, "{refusal}");
    }
}

#[test]
fn every_slip_is_found() {
    for slip in SLIPS {
        assert!(held(&run(slip), "01"), "{slip:?}");
    }
}

// What the Rust finds when it reads the words of a graph that should be the list's.
const OF_WORDS: [Slip; 9] = [
    Slip::FirstWordLost,
    Slip::LastWordLost,
    Slip::LastTileLost,
    Slip::BeginningsLost,
    Slip::BeginningsAdded,
    Slip::EndOfEach,
    Slip::TilesDescend,
    Slip::SharedByTiles,
    Slip::SharedByFirstChild,
];

#[test]
fn other_words_are_found_by_the_original() {
    for slip in OF_WORDS {
        assert!(held(&run(slip), "the Rust"), "{slip:?}");
    }
}
