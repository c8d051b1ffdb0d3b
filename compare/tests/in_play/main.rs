//! The comparison can fail: an engine that has words in play with one slip is found, each slip by itself.

mod player;

use compare::checker::Checker;
use compare::corpus::{Size, evenings, play_limits};
use compare::engine::PlayOf;
use compare::random::Random;
use compare::report::{Call, Report};
use player::{SLIPS, Slip, in_play};

const CALLS: [Call; 2] = [Call::Arrive, Call::Leave];

fn run(slip: Slip, corpus: impl Fn(&mut Checker, Size, &mut Random)) -> Report {
    let playing =
        move |nodes: &[u32], asked: &PlayOf, bits: &mut [u8]| in_play(nodes, asked, bits, slip);
    let mut checker = Checker::playing(1, Box::new(playing));
    corpus(&mut checker, Size::Tiny, &mut Random::new(1));
    checker.report
}

fn held(report: &Report, call: Call, to: &str) -> bool {
    let mut smallest = report.smallest.iter();
    smallest.any(|difference| difference.call == call && difference.held_to == to)
}

#[test]
fn words_in_play_without_a_slip_differ_nowhere() {
    for corpus in [play_limits::run, evenings::run] {
        let report = run(Slip::Nowhere, corpus);
        assert_eq!(report.differences(), 0, "{}", report.text());
    }
}

// Where a leaving is not refused, the word that left is not in play.
const OF_ARRIVALS: [Slip; 3] = [
    Slip::ArrivalNotRefused,
    Slip::LowestOfRecord,
    Slip::LowestOfNone,
];

#[test]
fn every_slip_is_found() {
    for slip in SLIPS {
        let report = run(slip, play_limits::run);
        for call in CALLS {
            let of_the_other = match call {
                Call::Arrive => slip == Slip::LeavingNotRefused,
                _ => OF_ARRIVALS.contains(&slip),
            };
            assert!(
                of_the_other || held(&report, call, "01"),
                "{slip:?} {call:?}"
            );
        }
    }
}

// What shows in the answers of calls one after the other, by the words that came and went alone.
const OF_EVENINGS: [Slip; 30] = [
    Slip::NoWordNotRefused,
    Slip::ArrivalNotRefused,
    Slip::LeavingNotRefused,
    Slip::RefusalsTurnedRound,
    Slip::ClearIsInPlay,
    Slip::SetAndClearTurnedRound,
    Slip::NothingChanged,
    Slip::OthersOfByteLost,
    Slip::RefusedChanges,
    Slip::RefusedAnswers,
    Slip::FromBefore,
    Slip::LowestFromBefore,
    Slip::InPlayCounted,
    Slip::RestOfByteCounted,
    Slip::RestOfRecordCounted,
    Slip::LowestOfRecord,
    Slip::LowestOfNone,
    Slip::LowestFrom1,
    Slip::LowestInItsByte,
    Slip::LowestInItsGroup,
    Slip::LowestIsItsByte,
    Slip::HighestForLowest,
    Slip::LastBitUnseen,
    Slip::LastBitsUnseen,
    Slip::LastBytesUnseen,
    Slip::LastGroupUnseen,
    Slip::SecondGroupUnseen,
    Slip::LastBitOfGroupsUnseen,
    Slip::LowestInGroupsOnly,
    Slip::LowestNotInLastBits,
];

#[test]
fn an_evening_shows_what_its_answers_show() {
    for slip in OF_EVENINGS {
        let report = run(slip, evenings::run);
        let found = CALLS.map(|call| held(&report, call, "the evening"));
        assert_ne!(found, [false; 2], "{slip:?}");
    }
}
