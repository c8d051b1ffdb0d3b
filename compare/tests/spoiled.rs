//! The comparison can fail: an error in any one call is found, be it in a field of the answer, in an entry that the call writes, or in one
//! that it must leave alone.

use compare::answer::{Buffer, Outcome};
use compare::checker::Checker;
use compare::corpus::{self, Size};
use compare::report::{CALLS, Call, Report};

/// What is changed, where the call refuses nothing.
#[derive(Clone, Copy, Debug)]
enum Change {
    Refusal,
    Value,
    Flag,
    /// The words before the node found.
    Before,
    /// How many words are not in play.
    Remaining,
    /// The bytes taken, in a load's state.
    Taken,
    /// What begin refused by, in a whole load.
    Begun,
    /// Of a text that is read.
    Bad,
    Start,
    End,
    After,
    Words,
    /// One bit of an entry of a buffer: which buffer, and the entry counted from the front or, where negative, from the back.
    Entry(usize, isize),
}

use Change::*;

// A guard of 3 entries stands on both sides of what is lent.
const FIRST: isize = 3;
const GUARD_BEFORE: isize = 2;
const GUARD_AFTER: isize = -3;
const LAST: isize = -4;

fn spoil(change: Change, outcome: &mut Outcome) {
    let answer = &mut outcome.answer;
    match change {
        Refusal => answer.refusal = 14,
        Value => answer.value ^= 1,
        Flag => answer.flag ^= true,
        Before => answer.before ^= 1,
        Remaining => answer.remaining ^= 1,
        Begun => answer.begun ^= 1,
        Bad => answer.bad ^= 1,
        Start => answer.start ^= 1,
        End => answer.end ^= 1,
        After => answer.after ^= 1,
        Words => answer.words ^= 1,
        Taken => answer.state.iter_mut().for_each(|state| state.taken ^= 1),
        Entry(buffer, place) => match &mut outcome.buffers[buffer] {
            Buffer::Bytes(list) => *entry(list, place) ^= 1,
            Buffer::Numbers(list) => *entry(list, place) ^= 1,
            Buffer::Sets(list) => *entry(list, place) ^= 1,
            Buffer::Sizes(list) => *entry(list, place) ^= 1,
        },
    }
}

fn entry<T>(list: &mut [T], place: isize) -> &mut T {
    let len = list.len() as isize;
    &mut list[place.rem_euclid(len) as usize]
}

fn run(spoiled: Call, change: Option<Change>) -> Report {
    run_where(move |call, outcome| {
        if call == spoiled && outcome.answer.refusal == 0 {
            change.iter().for_each(|&change| spoil(change, outcome));
        }
    })
}

fn run_where(spoil: impl Fn(Call, &mut Outcome) + 'static) -> Report {
    let mut checker = Checker::spoiled(1, Box::new(spoil));
    corpus::run(&mut checker, Size::Tiny, 1);
    checker.report
}

// The fields and buffers that a call's answer has.
fn changes(call: Call) -> Vec<Change> {
    let (fields, buffers): (&[Change], usize) = match call {
        Call::Begin => (&[Taken], 0),
        Call::Feed => (&[Taken], 1),
        Call::Finish => (&[Value], 1),
        Call::LoadInPieces => (&[Begun, Taken, Value], 2),
        Call::Repack | Call::WritePage => (&[], 1),
        Call::CountWords | Call::LetterBits => (&[], 2),
        Call::Seek => (&[Value, Flag, Before], 0),
        Call::CursorAt | Call::CursorStep | Call::WordIndex => (&[Value, Flag], 0),
        Call::WordByIndex => (&[Value, Flag], 1),
        Call::AcceptsAlpha => (&[Flag], 0),
        Call::AlphaCrossSet => (&[Value], 0),
        Call::ToMacondo | Call::ToLxd => (&[Value], 2),
        Call::NextWord => (&[Value, Flag, Bad, Start, End, After], 1),
        Call::ReadWords => (&[Value, Flag, Bad, Words, After], 2),
        Call::Arrive | Call::Leave => (&[Value, Flag, Remaining], 3),
        Call::Build => (&[Value], 3),
    };
    let places = [FIRST, LAST, GUARD_BEFORE, GUARD_AFTER];
    let entries = (0..buffers).flat_map(|buffer| places.map(|place| Entry(buffer, place)));
    [&[Refusal], fields]
        .concat()
        .into_iter()
        .chain(entries)
        .collect()
}

fn held(report: &Report, call: Call, to: &str) -> bool {
    let mut differences = report.smallest.iter();
    differences.any(|difference| difference.call == call && difference.held_to == to)
}

#[test]
fn the_engine_differs_nowhere() {
    let report = run(Call::Begin, None);
    assert_eq!(report.differences(), 0, "{}", report.text());
    for call in CALLS {
        assert!(report.line(call).calls > 0, "{call:?} is not called");
    }
}

#[test]
fn every_error_is_found() {
    for call in CALLS {
        for change in changes(call) {
            let report = run(call, Some(change));
            let text = report.text();
            assert!(held(&report, call, "01"), "{call:?} {change:?}\n{text}");
            // The Rust has no cursor to make, and of a begin it knows refusals only.
            if !matches!(call, Call::Begin | Call::CursorAt) {
                assert!(
                    held(&report, call, "the Rust"),
                    "{call:?} {change:?}\n{text}"
                );
            }
        }
    }
}

// The last byte of an LXD header, changed by a call that refuses.
#[test]
fn a_header_written_before_a_refusal_is_found() {
    for refusal in [11, 13, 19, 20, 21, 22, 23] {
        let report = run_where(move |call, outcome| {
            let file_len = match outcome.buffers.get(1) {
                Some(Buffer::Bytes(file)) => file.len(),
                _ => 0,
            };
            let has_header = file_len as isize >= FIRST + 64 - GUARD_AFTER;
            if call == Call::ToLxd && outcome.answer.refusal == refusal && has_header {
                spoil(Entry(1, FIRST + 63), outcome);
            }
        });
        assert!(held(&report, Call::ToLxd, "01"), "{refusal}");
    }
}
