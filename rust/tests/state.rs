//! The state of a load, field by field: the safe interface hands it on and reads little of it.

use machirsun::ffi::{machirsun_begin, machirsun_feed, Loader};

fn after(file: &[u8], taken: usize, layout: u32) -> Loader {
    let mut nodes = [7; 3];
    unsafe {
        let begun = machirsun_begin(file.len(), layout, nodes.as_ptr(), nodes.len());
        machirsun_feed(
            begun.loader,
            file.as_ptr(),
            taken,
            nodes.as_mut_ptr(),
            nodes.len(),
        )
        .loader
    }
}

#[test]
fn bytes_are_held_between_nodes() {
    let held = Loader {
        announced: 8,
        taken: 7,
        held_count: 3,
        node: 0,
        layout: 1,
        refusal: 0,
        arc: 0,
        tile: 0,
        held: [5, 6, 7],
    };
    assert_eq!(after(&[1, 2, 3, 4, 5, 6, 7, 8], 7, 1), held);
}

#[test]
fn a_refusal_is_kept() {
    let kept = Loader {
        announced: 8,
        taken: 4,
        held_count: 0,
        node: 1,
        layout: 0,
        refusal: 6,
        arc: 3,
        tile: 64,
        held: [0; 3],
    };
    assert_eq!(after(&[0, 0, 0x40, 0, 3, 0, 0x40, 0x40], 8, 0), kept);
}
