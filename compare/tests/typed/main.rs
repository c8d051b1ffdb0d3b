//! The comparison can fail: an engine that reads texts with one slip is found, each slip by itself.

mod reader;

use compare::checker::{Checker, Labels, Reading};
use compare::corpus::{Size, typed};
use compare::random::Random;
use compare::report::{Call, Report};
use reader::{SLIPS, Slip, next_word, read_words};

fn checker(slip: Slip) -> Checker {
    let reading = Reading {
        next_word: Box::new(move |asked, word| next_word(asked, word, slip)),
        read_words: Box::new(move |asked, tiles, sizes| read_words(asked, tiles, sizes, slip)),
    };
    Checker::reading(1, reading)
}

fn run(slip: Slip) -> Report {
    let mut checker = checker(slip);
    typed::run(&mut checker, Size::Tiny, &mut Random::new(1));
    checker.report
}

#[test]
fn a_reading_without_a_slip_differs_nowhere() {
    let report = run(Slip::Nowhere);
    assert_eq!(report.differences(), 0, "{}", report.text());
}

#[test]
fn every_slip_is_found() {
    for slip in SLIPS {
        let report = run(slip);
        let of_lists = matches!(
            slip,
            Slip::SizeAskedLast | Slip::RefusedAfterWords | Slip::TilesTakenBack
        );
        for call in [Call::NextWord, Call::ReadWords] {
            let found = report.line(call).differences > 0;
            assert!(
                found || call == Call::NextWord && of_lists,
                "{slip:?} {call:?}"
            );
        }
    }
}

// A return that alone is no ending shows where the cut parts it from its line feed; a place counted in the line, where a part begins.
#[test]
fn parts_that_read_otherwise_are_found() {
    let parts_differ = |slip, text: &[u8]| {
        let mut checker = checker(slip);
        checker.parts(&Labels::new("1\tA"), text);
        let mut smallest = checker.report.smallest.iter();
        smallest.any(|difference| difference.held_to == "its parts")
    };
    for (slip, text) in [
        (Slip::LoneReturnInLine, &b"A\r\nA"[..]),
        (Slip::PlaceInLine, b"A\n?"),
        (Slip::PlaceInLine, b"A\n?\nA"),
    ] {
        assert!(parts_differ(slip, text), "{slip:?}");
        assert!(!parts_differ(Slip::Nowhere, text));
    }
}
