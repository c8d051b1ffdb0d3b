//! The comparison can fail: an engine that names another node in refusal 12 is found, each slip by itself.

mod named;

use compare::checker::Checker;
use compare::corpus::{Size, loops};
use compare::engine;
use compare::random::Random;
use compare::report::{Call, Report};
use named::{SLIPS, Slip, named};

// The engine, but for the node that it names.
fn run(slip: Slip) -> Report {
    let counting = move |nodes: &[u32], counts: &mut [u32], work: &mut [u32]| {
        let mut answer = engine::count_words(nodes, counts, work);
        if answer.refusal == 12 {
            answer.node = named(nodes, slip) as u64;
        }
        answer
    };
    let mut checker = Checker::counting(1, Box::new(counting));
    loops::run(&mut checker, Size::Tiny, &mut Random::new(1));
    checker.report
}

#[test]
fn the_lowest_node_differs_nowhere() {
    let report = run(Slip::Nowhere);
    assert_eq!(report.differences(), 0, "{}", report.text());
    assert!(report.line(Call::CountWords).refusals[12] > 0);
}

#[test]
fn every_slip_is_found() {
    for slip in SLIPS {
        let report = run(slip);
        // The Rust's answer is the paper's where the node that it names loops: so it was asked.
        for held_to in ["01", "the Rust"] {
            let mut smallest = report.smallest.iter();
            let found = smallest.any(|difference| difference.held_to == held_to);
            assert!(found, "{slip:?}, held to {held_to}");
        }
    }
}
