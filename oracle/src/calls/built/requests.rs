// The list `built`.

use super::{BUILD, GREATEST_TILE, LONGEST, MOST_NODES, MOST_WORK, Words, work_for};
use crate::calls::graphs::random_words;
use crate::random::Random;
use crate::requests::Requests;

pub fn requests(requests: &mut Requests) {
    requests.comment("call 19: a graph from a word list");
    every_small_set(requests);
    short_lists(requests);
    lengths_and_tiles(requests);
    orders(requests);
    two_faults(requests);
    lent(requests);
    long_words(requests);
    wide_runs(requests);
    random_lists(requests);
}

fn ask_lent(requests: &mut Requests, work: u64, nodes: u64, list: &[u8]) {
    let mut numbers = vec![BUILD, work, nodes, list.len() as u64];
    numbers.extend(list.iter().map(|&byte| u64::from(byte)));
    requests.ask(&numbers);
}

// With a work list just long enough, and nodes enough for each list here.
fn ask(requests: &mut Requests, list: &[u8]) {
    ask_lent(requests, work_for(list), MOST_NODES, list);
}

fn list_of(words: &[Vec<u8>]) -> Vec<u8> {
    let one = |word: &Vec<u8>| [&[word.len() as u8], &word[..]].concat();
    words.iter().flat_map(one).collect()
}

// Each set of the words of one or two of two tiles.
fn every_small_set(requests: &mut Requests) {
    let words: [&[u8]; 6] = [&[1], &[1, 1], &[1, 2], &[2], &[2, 1], &[2, 2]];
    for set in 0..1 << words.len() {
        let chosen = (0..words.len()).filter(|at| set >> at & 1 == 1);
        let chosen: Words = chosen.map(|at| words[at].to_vec()).collect();
        ask(requests, &list_of(&chosen));
    }
}

// Each list of up to two bytes of these.
fn short_lists(requests: &mut Requests) {
    let bytes = [0, 1, 2, 63, 64, 65, 255];
    for first in bytes {
        ask(requests, &[first]);
        for second in bytes {
            ask(requests, &[first, second]);
        }
    }
}

// Words about the longest, whole and cut; and tiles about the greatest.
fn lengths_and_tiles(requests: &mut Requests) {
    for len in [1, 2, LONGEST - 1, LONGEST, LONGEST + 1, 128, u8::MAX] {
        let one = [&[len][..], &vec![7; len.into()]].concat();
        ask(requests, &one);
        ask(requests, &one[..one.len() - 1]);
        ask(requests, &[&one[..], &[1, 8]].concat());
    }
    for tile in [0, 1, GREATEST_TILE, GREATEST_TILE + 1, 128, u8::MAX] {
        ask(requests, &[1, tile]);
        ask(requests, &[3, 1, 1, tile]);
        ask(requests, &[3, tile, 9, 9, 1, GREATEST_TILE]);
    }
}

// Each two of some words, in each order.
fn orders(requests: &mut Requests) {
    let words: [&[u8]; 6] = [&[1], &[1, 1], &[1, 2], &[2], &[2, 1, 1], &[63]];
    for first in words {
        for second in words {
            ask(requests, &list_of(&[first.to_vec(), second.to_vec()]));
        }
    }
}

// Words that are none, that are not above those before them, and both at once.
fn two_faults(requests: &mut Requests) {
    let faulty: [&[u8]; 5] = [&[0], &[2, 2, 0], &[2, 1, 64], &[1, 1], &[65]];
    for first in faulty {
        for second in faulty {
            ask(requests, &[&[1, 2], first, second].concat());
        }
    }
}

// Work lists and nodes just long enough, longer, and too short; also for lists that
// are refused before that.
fn lent(requests: &mut Requests) {
    let lists: [(&[u8], u64); 5] = [
        (&[], 2),
        (&[1, 1], 3),
        (&[1, 1, 2, 1, 2, 2, 2, 2], 5),
        (&[1, 1, 0], 5),
        (&[1, 2, 1, 1], 5),
    ];
    for (list, nodes) in lists {
        let work = work_for(list);
        for (work, nodes) in [
            (work, nodes),
            (work, nodes - 1),
            (work, 0),
            (work - 1, nodes),
            (work - 1, nodes - 1),
            (work - 64, nodes),
            (0, nodes),
            (0, 0),
            (work + 1, nodes + 1),
            (MOST_WORK, MOST_NODES),
        ] {
            ask_lent(requests, work, nodes, list);
        }
    }
}

// A word of 64 tiles, words that share its beginning, its end, both, or are its
// beginnings.
fn long_words(requests: &mut Requests) {
    let long: Vec<u8> = (1..=LONGEST).map(|tile| tile.min(GREATEST_TILE)).collect();
    let with = |at: usize, tile: u8| {
        let mut word = long.clone();
        word[at] = tile;
        word
    };
    for other in [
        with(63, 62),
        with(62, 1),
        with(32, 40),
        with(1, 3),
        with(0, 2),
    ] {
        let mut words = vec![long.clone(), other];
        words.sort_unstable();
        ask(requests, &list_of(&words));
        words.push(vec![GREATEST_TILE]);
        ask(requests, &list_of(&words));
    }
    for len in [1, 2, 31, 63] {
        ask(requests, &list_of(&[long[..len].to_vec(), long.clone()]));
    }
    let beginnings: Words = (1..=29).map(|len| long[..len].to_vec()).collect();
    ask(requests, &list_of(&beginnings));
}

// A run of 63 nodes, alone and below another; and as many words as lead to one run.
fn wide_runs(requests: &mut Requests) {
    let tiles = 1..=GREATEST_TILE;
    ask(
        requests,
        &list_of(&tiles.clone().map(|tile| vec![tile]).collect::<Words>()),
    );
    ask(
        requests,
        &list_of(&tiles.clone().map(|tile| vec![9, tile]).collect::<Words>()),
    );
    ask(
        requests,
        &list_of(&tiles.clone().map(|tile| vec![tile, 9]).collect::<Words>()),
    );
    let both = tiles.flat_map(|tile| [vec![tile], vec![tile, 9]]);
    ask(requests, &list_of(&both.collect::<Words>()));
}

// Words of few tiles and of many, as they are; and with one byte changed, or cut.
fn random_lists(requests: &mut Requests) {
    let mut random = Random::new(18);
    for number in 0..60 {
        let (letters, longest) = [(2, 4), (3, 6), (26, 8), (63, 3)][number % 4];
        let count = random.within(1, 40) as usize;
        let words = random_words(&mut random, count, letters, longest);
        let list = list_of(&words.into_iter().collect::<Words>());
        ask(requests, &list);
        let at = random.within(0, list.len() as u64) as usize;
        let mut changed = list.clone();
        changed[at] = random.pick(&[0, 1, 2, 3, 63, 64]);
        ask(requests, &changed);
        if number % 3 == 0 {
            ask(requests, &list[..at]);
        }
    }
}
