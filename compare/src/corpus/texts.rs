//! Labels, names, titles and dates, with each limit met and passed.

use crate::engine::{LxdTexts, MacondoTexts, Texts};
use crate::random::Random;
use crate::windows1252::gained;

pub const LONGEST_TITLE: usize = 31;
pub const LONGEST_DATE: usize = 19;

// So many labels of one of several kinds. There are few lists of each kind, so that the Rust's alphabets are made once each.
fn labels(random: &mut Random, len: usize) -> Vec<u32> {
    let kind = random.within(0, 12);
    let mut own = Random::new(kind * 100 + random.within(0, 6));
    let mut label = |tile: u32| match kind {
        0..3 => 0x40 + tile,
        3 => 0x7f - tile,
        4 => 0x41,
        // Around the place of the separator, and equal ones.
        5 | 6 => 0x5c + own.within(0, 5) as u32,
        7 => 0xf8 + own.within(0, 9) as u32,
        8 => 0x100 - tile,
        9 => own.within(0x21, 0x300) as u32,
        10 => character(&mut own),
        _ => own.pick(&[
            0x20, 0x41, 0xd7ff, 0xd800, 0xdfff, 0xe000, 0x10ffff, 0x110000, !0,
        ]),
    };
    let mut labels: Vec<u32> = (0..len as u32).map(&mut label).collect();
    if let Some(blank) = labels.first_mut().filter(|_| kind < 8) {
        *blank = 0x3f;
    }
    labels
}

/// Mostly a label for each tile, at times one too few, and at times a number near a limit.
pub fn label_count(random: &mut Random, tiles: usize) -> usize {
    match random.within(0, 16) {
        0 => tiles - 1,
        1 => tiles + 1,
        2 => random.pick(&[0, 1, 49, 50, 51, 64, 65, 300]),
        _ => tiles,
    }
}

fn length(random: &mut Random, limit: usize) -> usize {
    match random.within(0, 16) {
        0 => limit,
        1 => limit + 1,
        2 => 2 * limit,
        _ => random.within(0, 9) as usize,
    }
}

/// Texts for a Macondo file with so many labels.
pub fn macondo(random: &mut Random, label_count: usize) -> Texts {
    let plain = random.within(0, 12) > 0;
    let len = length(random, 255);
    Texts::Macondo(MacondoTexts {
        labels: labels(random, label_count),
        // Bytes from 80 hexadecimal on are no UTF-8 here.
        name: (0..len)
            .map(|_| random.byte() & if plain { 0x7f } else { 0xff })
            .collect(),
        format: random.pick(&[0, 0, 0, 1, 1, 1, 7, u32::MAX]),
    })
}

fn text(random: &mut Random, limit: usize) -> Vec<u32> {
    let len = length(random, limit);
    let mut text: Vec<u32> = (0..len).map(|_| character(random)).collect();
    if len > 0 && random.within(0, 12) == 0 {
        let at = random.within(0, len as u64) as usize;
        text[at] = random.pick(&[0, 0x80, 0x9f, 0xff, 0x100, 0x101, 0xd800, 0x10ffff, !0]);
    }
    text
}

/// A code point with a byte in Windows-1252, other than 0.
pub fn character(random: &mut Random) -> u32 {
    match random.within(0, 8) {
        0 => random.pick(&gained().collect::<Vec<_>>()),
        1..4 => random.within(0xa0, 0x100) as u32,
        _ => random.within(1, 0x80) as u32,
    }
}

/// Texts for an LXD file with so many labels.
pub fn lxd(random: &mut Random, label_count: usize) -> Texts {
    let labels = labels(random, label_count);
    let title = text(random, LONGEST_TITLE);
    labelled(labels, title, text(random, LONGEST_DATE))
}

pub fn labelled(labels: Vec<u32>, title: Vec<u32>, date: Vec<u32>) -> Texts {
    Texts::Lxd(LxdTexts {
        labels,
        title,
        date,
    })
}

/// The list with each of these entries at each of its places, one at a time.
pub fn with_each<T: Copy>(list: &[T], entries: &[T]) -> Vec<Vec<T>> {
    let mut all = Vec::new();
    for at in 0..list.len() {
        for &entry in entries {
            let mut changed = list.to_vec();
            changed[at] = entry;
            all.push(changed);
        }
    }
    all
}

/// A question mark for the blank, then the letters A, B and on.
pub fn letters(count: usize) -> Vec<u32> {
    [0x3f].into_iter().chain(0x41..).take(count).collect()
}

/// Texts with nothing to refuse but too many labels.
pub fn plain_macondo(label_count: usize, format: u32) -> Texts {
    Texts::Macondo(MacondoTexts {
        labels: letters(label_count),
        name: b"plain".to_vec(),
        format,
    })
}

pub fn plain_lxd(label_count: usize) -> Texts {
    labelled(letters(label_count), vec![0x41, 0xe9], vec![0x32, 0x30])
}
