//! A lexicon from a word list: its nodes, its words, each refusal in its order, and what a call leaves of the lent lists.

use machirsun::*;

/// One length byte and that many tiles a word.
fn list_of(words: &[&[u8]]) -> Vec<u8> {
    let one = |word: &&[u8]| [&[word.len() as u8], *word].concat();
    words.iter().flat_map(one).collect()
}

fn work_for(list: &[u8]) -> usize {
    8 * list.len() + 64
}

/// The nodes of a list's graph, built in buffers just long enough for it and in longer ones: what is past them stays.
fn built(list: &[u8]) -> Vec<u32> {
    let (mut work, mut nodes) = (vec![0xEE; work_for(list) + 2], vec![0xEE; list.len() + 4]);
    let count = build(list, &mut work, &mut nodes).unwrap();
    assert_eq!(work[work_for(list)..], [0xEE; 2]);
    assert!(nodes[count..].iter().all(|&node| node == 0xEE));
    let (mut work, mut just) = (vec![0xA5; work_for(list)], vec![0xA5; count]);
    assert_eq!(build(list, &mut work, &mut just), Ok(count));
    assert_eq!(just, nodes[..count]);
    just
}

/// The words of a graph, by their numbers, each of which gives its number back.
fn words_of(nodes: &[u32]) -> Vec<Vec<u8>> {
    let mut counts = vec![0; nodes.len()];
    count_words(nodes, &mut counts, &mut vec![0; 2 * nodes.len()]).unwrap();
    let start = nodes[0] >> 8;
    let words = match start {
        0 => 0,
        _ => counts[start as usize],
    };
    (0..words)
        .map(|number| {
            let mut word = [0; 64];
            let tiles = word_by_index(nodes, &counts, start, number, &mut word);
            let word = &word[..tiles.unwrap().unwrap()];
            assert_eq!(word_index(nodes, &counts, start, word), Ok(Some(number)));
            word.to_vec()
        })
        .collect()
}

#[test]
fn the_words_of_document_01() {
    let list = list_of(&[&[1], &[1, 2], &[2, 2]]);
    assert_eq!(built(&list), [0x240, 0x40, 0x481, 0x442, 0xC2]);
}

#[test]
fn an_empty_list() {
    assert_eq!(built(&[]), [0x40, 0x40]);
}

#[test]
fn runs_stand_in_the_order_in_which_they_are_met() {
    // 1 1 1, 1 2, 2 1 1 and 3 2: below 1 a run of two, below that 1, which is met before the run below 2
    let list = list_of(&[&[1, 1, 1], &[1, 2], &[2, 1, 1], &[3, 2]]);
    let nodes = built(&list);
    assert_eq!(
        nodes,
        [0x240, 0x40, 0x501, 0x802, 0x943, 0x701, 0xC2, 0xC1, 0x741, 0xC2]
    );
    // the run below 1 and below 3 is one; that below 2 is like its end, and still a run of its own
    let list = list_of(&[&[1], &[1, 1], &[1, 2], &[2, 2], &[3, 1], &[3, 2]]);
    assert_eq!(
        built(&list),
        [0x240, 0x40, 0x581, 0x702, 0x543, 0x81, 0xC2, 0xC2]
    );
}

#[test]
fn every_small_list_comes_back() {
    let words: [&[u8]; 7] = [
        &[1],
        &[1, 1],
        &[1, 1, 2],
        &[1, 2],
        &[2],
        &[2, 1, 2],
        &[2, 2],
    ];
    for set in 0..1 << words.len() {
        let chosen = (0..words.len()).filter(|at| set >> at & 1 == 1);
        let chosen: Vec<&[u8]> = chosen.map(|at| words[at]).collect();
        assert_eq!(words_of(&built(&list_of(&chosen))), chosen);
    }
}

#[test]
fn the_longest_words_and_the_widest_runs() {
    let long: Vec<u8> = (0..64).map(|at| at % 63 + 1).collect();
    let beginnings: Vec<&[u8]> = (1..=64).map(|len| &long[..len]).collect();
    let nodes = built(&list_of(&beginnings));
    assert_eq!(nodes.len(), 66);
    assert_eq!(words_of(&nodes), beginnings);
    let pairs: Vec<[u8; 2]> = (1..=63)
        .flat_map(|one| (1..=63).map(move |other| [one, other]))
        .collect();
    let pairs: Vec<&[u8]> = pairs.iter().map(|word| &word[..]).collect();
    let nodes = built(&list_of(&pairs));
    assert_eq!(nodes.len(), 2 + 63 + 63);
    assert_eq!(words_of(&nodes), pairs);
}

#[test]
fn a_built_graph_loads_and_keeps_its_numbers_in_an_lxd_file() {
    let list = list_of(&[&[1, 1, 1], &[1, 2], &[2, 1, 1], &[3, 2]]);
    let nodes = built(&list);
    let file: Vec<u8> = nodes.iter().flat_map(|node| node.to_le_bytes()).collect();
    let mut loaded = vec![0; nodes.len()];
    let loader = Loader::begin(file.len(), Layout::Kbwg, &loaded).unwrap();
    let loader = loader.feed(&file, &mut loaded).loader;
    assert_eq!(loader.finish(&mut loaded), Ok(nodes.len()));
    assert_eq!(loaded, nodes);
    let mut lxd = vec![0; 64 + 4 * nodes.len()];
    let mut work = vec![0; 8 * nodes.len()];
    let written = to_lxd(&nodes, &[63, 65, 66, 67], &[], &[], &mut work, &mut lxd);
    assert_eq!(written, Ok(lxd.len()));
    for (node, bytes) in nodes.iter().zip(lxd[64..].chunks(4)).skip(2) {
        let number = u32::from_le_bytes(bytes.try_into().unwrap());
        assert_eq!(number & 0x3F_FFFF, node >> 8);
    }
}

/// The call refuses, whatever is lent, and changes nothing.
fn refused(list: &[u8], by: Refusal) {
    for (work_len, nodes_len) in [(0, 0), (work_for(list) - 1, 9), (work_for(list), 9)] {
        let (mut work, mut nodes) = (vec![0xEE; work_len], vec![0xEE; nodes_len]);
        assert_eq!(build(list, &mut work, &mut nodes), Err(by), "{list:?}");
        assert_eq!((work, nodes), (vec![0xEE; work_len], vec![0xEE; nodes_len]));
    }
}

#[test]
fn words_that_are_none() {
    for list in [
        &[0][..],
        &[1],
        &[1, 0],
        &[1, 64],
        &[1, 255],
        &[2, 1],
        &[1, 1, 0],
        &[1, 1, 3, 2, 2],
    ] {
        refused(list, Refusal::BadWord);
    }
    for length in [65, 66, 128, 255] {
        refused(&[&[length][..], &[1; 255]].concat(), Refusal::BadWord);
    }
    refused(&[&[64][..], &[1; 63]].concat(), Refusal::BadWord);
}

#[test]
fn words_that_are_not_above_those_before_them() {
    refused(&list_of(&[&[1], &[1]]), Refusal::NotAbove);
    refused(&list_of(&[&[2], &[1]]), Refusal::NotAbove);
    refused(&list_of(&[&[1, 1], &[1]]), Refusal::NotAbove);
    refused(&list_of(&[&[2], &[1, 63]]), Refusal::NotAbove);
    refused(&list_of(&[&[1], &[3], &[2]]), Refusal::NotAbove);
}

#[test]
fn the_first_word_with_a_fault_decides() {
    // 2, then 1, then a word of tile 0; and the other way round; and one word with both faults
    refused(&[1, 2, 1, 1, 1, 0], Refusal::NotAbove);
    refused(&[1, 2, 1, 0, 1, 1], Refusal::BadWord);
    refused(&[1, 2, 2, 1, 0], Refusal::BadWord);
    refused(&[1, 2, 1, 1, 9], Refusal::NotAbove);
}

#[test]
fn lists_that_are_too_short() {
    for list in [&[][..], &[1, 1], &[1, 1, 2, 1, 2, 2, 2, 2]] {
        let (need, count) = (work_for(list), built(list).len());
        for work_len in [0, need - 64, need - 1] {
            let (mut work, mut nodes) = (vec![0xEE; work_len], vec![0xEE; count]);
            let answer = build(list, &mut work, &mut nodes);
            assert_eq!(answer, Err(Refusal::ListTooShort));
            assert_eq!((work, nodes), (vec![0xEE; work_len], vec![0xEE; count]));
        }
        for nodes_len in 0..count {
            let (mut work, mut nodes) = (vec![0xEE; need + 1], vec![0xEE; nodes_len]);
            let answer = build(list, &mut work, &mut nodes);
            assert_eq!(answer, Err(Refusal::ListTooShort));
            assert_eq!((work[need], nodes), (0xEE, vec![0xEE; nodes_len]));
        }
    }
}

#[test]
fn refusals_say_why() {
    for (refusal, number, text) in [
        (
            Refusal::BadWord,
            32,
            "a word of the list has a bad length or a bad tile",
        ),
        (
            Refusal::NotAbove,
            33,
            "a word of the list is not above the one before it",
        ),
    ] {
        assert_eq!(refusal.number(), number);
        assert_eq!(refusal.to_string(), text);
    }
}
