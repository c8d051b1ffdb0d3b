//! Document 01's five nodes, and refusals, through every call.

use machirsun::*;

/// The five nodes as a KWG file, and loaded.
const G_FILE: [u32; 5] = [
    0x0040_0002,
    0x0040_0000,
    0x0180_0004,
    0x0240_0004,
    0x02C0_0000,
];
const G: [u32; 5] = [0x240, 0x40, 0x481, 0x442, 0xC2];
const G_COUNTS: [u32; 5] = [3, 0, 3, 1, 1];
const LABELS: [u32; 3] = ['?' as u32, 'A' as u32, 'B' as u32];

fn bytes(nodes: &[u32]) -> Vec<u8> {
    nodes.iter().flat_map(|node| node.to_le_bytes()).collect()
}

fn load(file: &[u8], layout: Layout, nodes: &mut [u32]) -> Result<usize, Refusal> {
    let fed = Loader::begin(file.len(), layout, nodes)?.feed(file, nodes);
    fed.answer?;
    fed.loader.finish(nodes)
}

#[test]
fn a_file_loads_however_it_is_cut() {
    let file = bytes(&G_FILE);
    for first in 0..=file.len() {
        for second in first..=file.len() {
            let mut nodes = [7; 6];
            let mut loader = Loader::begin(file.len(), Layout::Kwg, &nodes).unwrap();
            for piece in [&file[..first], &file[first..second], &file[second..]] {
                let taken = loader.taken();
                let fed = loader.feed(piece, &mut nodes);
                assert_eq!(fed.answer, Ok(()));
                assert_eq!(fed.loader.taken(), taken + piece.len());
                loader = fed.loader;
            }
            assert_eq!(loader.finish(&mut nodes), Ok(5));
            assert_eq!(nodes[..5], G);
            assert_eq!(nodes[5], 7);
        }
    }
}

#[test]
fn a_file_loads_in_one_call_however_it_is_cut() {
    let file = bytes(&G_FILE);
    for first in 0..=21 {
        for second in 0..=21 {
            let (mut answers, mut nodes) = ([9; 4], [7; 6]);
            let cuts = [first, second];
            let loaded = load_in_pieces(20, Layout::Kwg, &file, &cuts, &mut answers, &mut nodes);
            assert_eq!(loaded.begun, Ok(()));
            assert_eq!(loaded.loader.taken(), 20);
            assert_eq!(loaded.finished, Ok(5));
            assert_eq!(answers, [0, 0, 0, 9]);
            assert_eq!(nodes[..5], G);
            assert_eq!(nodes[5], 7);
        }
    }
}

#[test]
fn a_load_in_pieces_gives_each_answer() {
    let file = bytes(&G_FILE);
    let load = |announced, file: &[u8], cuts: &[u32], answers: &mut [u32], nodes: &mut [u32]| {
        load_in_pieces(announced, Layout::Kwg, file, cuts, answers, nodes)
    };

    // of 12 bytes announced the second piece is too long, the rest is not
    let (mut answers, mut nodes) = ([9; 4], [7; 6]);
    let loaded = load(12, &file, &[8, 8], &mut answers, &mut nodes);
    assert_eq!(answers, [0, 5, 0, 9]);
    assert_eq!((loaded.begun, loaded.finished), (Ok(()), Ok(3)));
    assert_eq!(loaded.loader.taken(), 12);
    assert_eq!(nodes, [0x240, 0x40, 0xC2, 7, 7, 7]);

    // the second node does not fit, which the piece that completes it answers, and each after it; there is room for three
    let (mut answers, mut nodes) = ([9; 3], [7; 6]);
    let wide = bytes(&[0x0040_0000, 0x4040_0003, 0x0040_0000]);
    let misfit = Refusal::DoesNotFit {
        node: 1,
        tile: 64,
        arc: 3,
    };
    let loaded = load(12, &wide, &[6, 2, 0], &mut answers, &mut nodes);
    assert_eq!(answers, [0, 6, 6]);
    assert_eq!(loaded.finished, Err(misfit));
    assert_eq!(loaded.loader.taken(), 4);
    assert_eq!(nodes, [0x40, 7, 7, 7, 7, 7]);

    // bytes are missing, and no answer is asked for
    let loaded = load(24, &file, &[5], &mut [], &mut nodes);
    assert_eq!(loaded.finished, Err(Refusal::Missing));
    assert_eq!(loaded.loader.taken(), 20);

    // a refused begin
    let (mut answers, mut nodes) = ([9; 4], [7; 6]);
    let loaded = load(7, &file, &[5, 20], &mut answers, &mut nodes);
    assert_eq!(answers, [4, 4, 4, 9]);
    assert_eq!(loaded.begun, Err(Refusal::NotWholeNodes));
    assert_eq!(loaded.finished, Err(Refusal::BadState));
    assert_eq!(loaded.loader.announced(), 0);
    assert_eq!(nodes, [7; 6]);
}

#[test]
fn one_node_gets_its_copy() {
    let mut nodes = [0; 2];
    assert_eq!(load(&bytes(&[0x0040_0000]), Layout::Kwg, &mut nodes), Ok(2));
    assert_eq!(nodes, [0x40, 0x40]);
}

#[test]
fn kbwg_files_load_too() {
    let mut nodes = [0; 5];
    assert_eq!(load(&bytes(&G), Layout::Kbwg, &mut nodes), Ok(5));
    assert_eq!(nodes, G);
}

#[test]
fn lengths_are_refused() {
    let nodes = [0; 4];
    let begin =
        |length| Loader::begin(length, Layout::Kwg, &nodes).map(|loader| loader.announced());
    assert_eq!(begin(8), Ok(8));
    assert_eq!(begin(0), Err(Refusal::NotWholeNodes));
    assert_eq!(begin(7), Err(Refusal::NotWholeNodes));
    assert_eq!(begin(67_108_868), Err(Refusal::OverLimit));
    assert_eq!(begin(20), Err(Refusal::NodesTooShort));
}

#[test]
fn a_load_refuses() {
    let mut nodes = [0; 6];
    assert_eq!(load(&bytes(&[0x3F40_0000]), Layout::Kwg, &mut nodes), Ok(2));
    let wide = Refusal::DoesNotFit {
        node: 1,
        tile: 64,
        arc: 3,
    };
    let file = bytes(&[0x0040_0000, 0x4040_0003]);
    assert_eq!(load(&file, Layout::Kwg, &mut nodes), Err(wide));
    // the refusal is kept
    let fed = Loader::begin(8, Layout::Kwg, &nodes)
        .unwrap()
        .feed(&file, &mut nodes);
    assert_eq!(fed.loader.taken(), 4);
    assert_eq!(fed.loader.feed(&[], &mut nodes).answer, Err(wide));
    assert_eq!(fed.loader.finish(&mut nodes), Err(wide));

    let begun = Loader::begin(20, Layout::Kwg, &nodes).unwrap();
    assert_eq!(begun.finish(&mut nodes), Err(Refusal::Missing));
    let fed = begun.feed(&[0; 21], &mut nodes);
    assert_eq!(fed.answer, Err(Refusal::TooLong));
    assert_eq!(fed.loader, begun);
    // the same state over a shorter buffer
    assert_eq!(begun.finish(&mut nodes[..4]), Err(Refusal::BadState));

    let arc = |arc: u32| {
        bytes(&[
            0x0040_0000 + arc,
            0x0040_0000,
            0x0040_0000,
            0x0040_0000,
            0x0040_0000,
        ])
    };
    assert_eq!(load(&arc(4), Layout::Kwg, &mut nodes), Ok(5));
    assert_eq!(
        load(&arc(5), Layout::Kwg, &mut nodes),
        Err(Refusal::ArcPastEnd { arc: 5 })
    );
    assert_eq!(
        load(&bytes(&[0x0040_0000, 0]), Layout::Kwg, &mut nodes),
        Err(Refusal::NoEnd)
    );
}

#[test]
fn repacking_goes_both_ways() {
    let mut file = bytes(&G_FILE);
    file.extend([1, 2, 3]);
    assert_eq!(repack(&mut file, Layout::Kwg, Layout::Kbwg), Ok(()));
    assert_eq!(file[..20], bytes(&G));
    assert_eq!(file[20..], [1, 2, 3]);
    assert_eq!(repack(&mut file, Layout::Kbwg, Layout::Kwg), Ok(()));
    assert_eq!(file[..20], bytes(&G_FILE));

    let mut wide = bytes(&[0x0140_0000, 0x4040_0003]);
    assert_eq!(
        repack(&mut wide, Layout::Kwg, Layout::Kbwg),
        Err(Refusal::DoesNotFit {
            node: 1,
            tile: 64,
            arc: 3
        })
    );
    assert_eq!(wide, bytes(&[0x41, 0x4040_0003]));
}

#[test]
fn words_are_counted() {
    let mut counts = [9; 6];
    let mut work = [0; 10];
    assert_eq!(count_words(&G, &mut counts, &mut work), Ok(()));
    assert_eq!(counts[..5], G_COUNTS);
    assert_eq!(counts[5], 9);

    let mut refused = |nodes: &[u32]| count_words(nodes, &mut counts, &mut work);
    assert_eq!(refused(&G[..1]), Err(Refusal::WrongSize));
    assert_eq!(refused(&[0x40, 0x540]), Err(Refusal::ArcPastEnd { arc: 5 }));
    assert_eq!(refused(&[0x40, 0]), Err(Refusal::NoEnd));
    assert_eq!(refused(&[0x40; 6]), Err(Refusal::ListTooShort));
    assert_eq!(refused(&[0x40, 0x140]), Err(Refusal::Loops { node: 1 }));
    assert_eq!(counts, [0, 0, 3, 1, 1, 9]);
}

#[test]
fn the_lowest_node_that_loops_is_named() {
    for (nodes, node) in [
        // node 1's run goes on to node 2, whose arc leads to node 1
        (&[0x40, 0x0, 0x140][..], 1),
        // node 1 leads to node 2, which leads to itself
        (&[0x40, 0x240, 0x240], 2),
        // nodes 3 and 5 lead to each other, and nodes 0, 1 and 4 to these; node 2 leads to itself
        (&[0x340, 0x540, 0x240, 0x540, 0x340, 0x340], 2),
    ] {
        let (mut counts, mut work) = ([9; 7], [9; 13]);
        let refused = count_words(nodes, &mut counts, &mut work);
        assert_eq!(refused, Err(Refusal::Loops { node }));
        let (cleared, kept) = counts.split_at(nodes.len());
        assert!(cleared.iter().all(|&count| count == 0));
        assert!(kept.iter().all(|&count| count == 9));
        assert_eq!(work[12], 9);
    }
}

#[test]
fn too_many_words_are_refused() {
    // each node accepts and its arc leads to the next: node 2 has 2^33 - 1 words
    let mut nodes = vec![0x40, 0x40];
    nodes.extend((2..34).map(|node| (node + 1) << 8 | 0x80 | 1));
    nodes.push(0xC1);
    let mut work = vec![0; 2 * nodes.len()];
    let mut counts = vec![0; nodes.len()];
    assert_eq!(
        count_words(&nodes, &mut counts, &mut work),
        Err(Refusal::TooManyWords)
    );
}

#[test]
fn tiles_are_found_in_runs() {
    let at = |place, before| Ok(Some(Sought { place, before }));
    assert_eq!(seek(&G, &G_COUNTS, 0, 1), at(2, 0));
    assert_eq!(seek(&G, &G_COUNTS, 0, 2), at(3, 2));
    assert_eq!(seek(&G, &G_COUNTS, 0, 3), Ok(None));
    assert_eq!(seek(&G, &G_COUNTS, 4, 1), Ok(None));
    assert_eq!(seek(&G, &G_COUNTS, 5, 1), Err(Refusal::NotLent));
    assert_eq!(seek(&G[..3], &G_COUNTS, 2, 2), Err(Refusal::NotLent));
    // Counts are read only for a tile that is found.
    assert_eq!(seek(&G, &G_COUNTS[..3], 0, 2), Err(Refusal::NotLent));
    assert_eq!(seek(&G, &[], 0, 3), Ok(None));
    assert_eq!(seek(&G, &[0, 0, 0, 1, 1], 0, 2), Err(Refusal::OutOfRange));
}

#[test]
fn a_cursor_goes_along_a_run() {
    let mut cursor = RunCursor::at(&G, 2).unwrap();
    assert_eq!(cursor.step(), Ok(Some(3)));
    assert_eq!(cursor.step(), Ok(None));
    assert_eq!(cursor.place(), 3);
    assert_eq!(RunCursor::at(&G, 5).unwrap_err(), Refusal::NotLent);
    let mut cursor = RunCursor::at(&G[..3], 2).unwrap();
    assert_eq!(cursor.step(), Err(Refusal::NotLent));
    assert_eq!(cursor.place(), 2);
}

#[test]
fn words_and_numbers() {
    let words: [&[u8]; 3] = [&[1], &[1, 2], &[2, 2]];
    for (number, word) in (0..).zip(words) {
        let mut tiles = [9; 3];
        assert_eq!(
            word_by_index(&G, &G_COUNTS, 2, number, &mut tiles),
            Ok(Some(word.len()))
        );
        assert_eq!(&tiles[..word.len()], word);
        assert!(tiles[word.len()..].iter().all(|&tile| tile == 9));
        assert_eq!(word_index(&G, &G_COUNTS, 2, word), Ok(Some(number)));
    }
    assert_eq!(word_by_index(&G, &G_COUNTS, 2, 3, &mut [0; 3]), Ok(None));
    assert_eq!(word_index(&G, &G_COUNTS, 2, &[2]), Ok(None));
    assert_eq!(word_index(&G, &G_COUNTS, 2, &[]), Ok(None));
    assert_eq!(word_index(&G, &G_COUNTS, 0, &[1]), Ok(None));

    let mut tile = [9];
    assert_eq!(
        word_by_index(&G, &G_COUNTS, 2, 1, &mut tile),
        Err(Refusal::BufferFull)
    );
    assert_eq!(tile, [1]);
    assert_eq!(
        word_index(&G, &G_COUNTS[..2], 2, &[1]),
        Err(Refusal::NotLent)
    );
    assert_eq!(
        word_index(&G, &[0, 0, 0, 1, 1], 2, &[2, 2]),
        Err(Refusal::OutOfRange)
    );
    // A further tile's run counts by the words before the tile alone, and where it is not found by none.
    assert_eq!(
        word_index(&G, &[3, 0, 3, 1, u32::MAX], 2, &[1, 2]),
        Ok(Some(1))
    );
    assert_eq!(word_index(&G, &G_COUNTS[..3], 2, &[1, 9]), Ok(None));
    assert_eq!(
        word_by_index(&G, &G_COUNTS, 5, 0, &mut tile),
        Err(Refusal::NotLent)
    );
    assert_eq!(
        word_by_index(&G, &[0, 0, 0, 1, 1], 2, 1, &mut tile),
        Err(Refusal::OutOfRange)
    );
}

#[test]
fn letters_of_runs() {
    let mut all = [99; 6];
    let mut accepting = [99; 6];
    assert_eq!(letter_bits(&G, &mut all, &mut accepting), Ok(()));
    assert_eq!(all, [1, 1, 6, 4, 4, 99]);
    assert_eq!(accepting, [0, 0, 2, 0, 4, 99]);
    assert_eq!(
        letter_bits(&G, &mut all, &mut [0; 4]),
        Err(Refusal::ListTooShort)
    );
}

#[test]
fn alpha_sets() {
    assert_eq!(accepts_alpha(&G, &[0, 1]), Ok(true));
    assert_eq!(accepts_alpha(&G, &[0, 0, 1]), Ok(false));
    assert_eq!(accepts_alpha(&G, &[0, 1, 1]), Ok(true));
    assert_eq!(alpha_cross_set(&G, &[0, 1]), Ok(5));
    assert_eq!(alpha_cross_set(&G, &[0, 0, 1]), Ok(7));
    assert_eq!(accepts_alpha(&G, &[0; 65]), Err(Refusal::TallyTooLong));
    assert_eq!(alpha_cross_set(&G, &[0; 65]), Err(Refusal::TallyTooLong));
    assert_eq!(accepts_alpha(&[], &[]), Err(Refusal::NotLent));
    assert_eq!(alpha_cross_set(&[], &[]), Err(Refusal::NotLent));
}

#[test]
fn macondo_files() {
    let mut file = [0xEE; 100];
    let mut work = [0; 40];
    let mut write = |nodes: &[u32], labels: &[u32], name: &[u8], format, work: &mut [u32]| {
        to_macondo(nodes, labels, name, format, work, &mut file)
            .map(|length| file[..length].to_vec())
    };
    let mut dawg = b"cdwg\x01G".to_vec();
    for number in [
        2,
        'A' as u32,
        'B' as u32,
        2,
        0,
        1,
        0,
        2,
        4,
        0x0200_0000,
        3,
        0x0100_0003,
        1,
    ] {
        dawg.extend(number.to_be_bytes());
    }
    assert_eq!(write(&G, &LABELS, b"G", Format::Dawg, &mut work), Ok(dawg));
    // node 1 has no arc, so the walk begins at node 0, whose tile is the blank
    let gaddag = write(&G, &LABELS, b"G", Format::Gaddag, &mut work).unwrap();
    assert_eq!(gaddag[..6], *b"cgdg\x01G");

    let mut refused = |nodes: &[u32], labels: &[u32], name: &[u8], room: usize| {
        write(nodes, labels, name, Format::Dawg, &mut work[..room]).unwrap_err()
    };
    assert_eq!(refused(&G[..1], &LABELS, b"G", 40), Refusal::WrongSize);
    assert_eq!(
        refused(&[0x40, 0x540], &LABELS, b"G", 40),
        Refusal::ArcPastEnd { arc: 5 }
    );
    assert_eq!(refused(&[0x40, 0], &LABELS, b"G", 40), Refusal::NoEnd);
    assert_eq!(refused(&G, &[], b"G", 40), Refusal::LabelCount);
    assert_eq!(refused(&G, &LABELS, &[0; 256], 40), Refusal::TextTooLong);
    assert_eq!(refused(&G, &LABELS[..2], b"G", 40), Refusal::NoLabel);
    assert_eq!(
        refused(&[0x240, 0x40, 0x82, 0xC1], &LABELS, b"G", 40),
        Refusal::NotAscending
    );
    assert_eq!(refused(&G, &LABELS, b"G", 39), Refusal::ListTooShort);
    assert_eq!(
        refused(&[0x240, 0x40, 0x2C1], &LABELS, b"G", 40),
        Refusal::ChainTooLong
    );
    assert_eq!(refused(&G, &[0, 0xD800, 1], b"G", 40), Refusal::BadLetter);
    let mut short = [0xEE; 57];
    assert_eq!(
        to_macondo(&G, &LABELS, b"G", Format::Dawg, &mut work, &mut short),
        Err(Refusal::ListTooShort)
    );
    assert_eq!(short, [0xEE; 57]);
}

#[test]
fn lxd_files() {
    let title: Vec<u32> = "Œé’".chars().map(u32::from).collect();
    let date: Vec<u32> = "2026".chars().map(u32::from).collect();
    let mut file = [0xEE; 100];
    let mut work = [0; 40];
    let mut expected = bytes(&[64, 5]);
    expected.extend([0x8C, 0xE9, 0x92]);
    expected.resize(40, 0);
    expected.extend(b"2026");
    expected.resize(60, 0);
    expected.extend(bytes(&[
        3,
        0x8A80_0000,
        0x8A80_0002,
        0x5040_0004,
        0x9080_0004,
        0xD080_0000,
    ]));
    assert_eq!(
        to_lxd(&G, &LABELS, &title, &date, &mut work, &mut file),
        Ok(84)
    );
    assert_eq!(file[..84], expected);
    assert_eq!(file[84..], [0xEE; 16]);
    let labels = ['?', 'Œ', 'B'].map(u32::from);
    expected.splice(72..76, bytes(&[0x6300_0004]));
    assert_eq!(
        to_lxd(&G, &labels, &title, &date, &mut work, &mut file),
        Ok(84)
    );
    assert_eq!(file[..84], expected);

    let mut refused = |nodes: &[u32], labels: &[u32], title: &[u32], date: &[u32], room: usize| {
        to_lxd(
            nodes,
            labels,
            title,
            date,
            &mut work[..room],
            &mut file[..83],
        )
        .unwrap_err()
    };
    assert_eq!(
        refused(&G[..1], &LABELS, &title, &date, 40),
        Refusal::WrongSize
    );
    assert_eq!(
        refused(&[0x40, 0x540], &LABELS, &title, &date, 40),
        Refusal::ArcPastEnd { arc: 5 }
    );
    assert_eq!(
        refused(&[0x40, 0], &LABELS, &title, &date, 40),
        Refusal::NoEnd
    );
    assert_eq!(
        refused(&G, &LABELS, &[0x8C], &date, 40),
        Refusal::NotWindows1252
    );
    assert_eq!(
        refused(&G, &LABELS, &[65; 32], &date, 40),
        Refusal::TextTooLong
    );
    assert_eq!(
        refused(&G, &LABELS, &title, &[0x100], 40),
        Refusal::NotWindows1252
    );
    assert_eq!(
        refused(&G, &LABELS, &title, &[65; 20], 40),
        Refusal::TextTooLong
    );
    assert_eq!(
        refused(&G, &LABELS[..2], &title, &date, 40),
        Refusal::NoLabel
    );
    assert_eq!(
        refused(&G, &LABELS, &title, &date, 39),
        Refusal::ListTooShort
    );
    assert_eq!(
        refused(&[0x240, 0x40, 0x2C1], &LABELS, &title, &date, 40),
        Refusal::ChainTooLong
    );
    assert_eq!(
        refused(&G, &[63, 0x8C, 66], &title, &date, 40),
        Refusal::BadLetter
    );
    assert_eq!(
        refused(&G, &LABELS, &title, &date, 40),
        Refusal::ListTooShort
    );
}

#[test]
fn pages() {
    let mut page = [0xEE; PAGE + 1];
    assert_eq!(
        write_page(&G, &G_COUNTS, &LABELS, b"G", 2, 0, &mut page),
        Ok(())
    );
    let mut rows = format!("{:<40}", "G");
    for (number, word) in ["A", "AB", "BB"].iter().enumerate() {
        rows += &format!("{number:>10} {word:<29}");
    }
    assert_eq!(page[..PAGE], *format!("{rows:<960}").as_bytes());
    assert_eq!(page[PAGE], 0xEE);
    // no word from the first number on: only the title
    assert_eq!(
        write_page(&G, &G_COUNTS, &[], &[b'~'; 40], 2, 3, &mut page),
        Ok(())
    );
    assert_eq!(page[..40], [b'~'; 40]);
    assert_eq!(page[40..PAGE], [b' '; PAGE - 40]);
}

#[test]
fn a_word_of_over_28_tiles_on_a_page() {
    // a chain of 29 nodes: the words of 28 and of 29 tiles
    let mut nodes = vec![0x240, 0x40];
    nodes.extend((2..29).map(|node| (node + 1) << 8 | 0x41));
    nodes.extend([30 << 8 | 0xC1, 0xC1]);
    let mut counts = vec![0; nodes.len()];
    count_words(&nodes, &mut counts, &mut vec![0; 2 * nodes.len()]).unwrap();
    let mut page = [0xEE; PAGE];
    assert_eq!(
        write_page(&nodes, &counts, &LABELS, b"", 2, 0, &mut page),
        Ok(())
    );
    let word = "A".repeat(28);
    let rows = format!("{:<40}{:>10} {word} {:>10} {word}+", "", 0, 1);
    assert_eq!(page[..], *format!("{rows:<960}").as_bytes());
}

#[test]
fn pages_are_refused() {
    let mut page = [0xEE; PAGE];
    let mut refused = |counts: &[u32], labels: &[u32], title: &[u8], start, room: usize| {
        write_page(&G, counts, labels, title, start, 0, &mut page[..room]).unwrap_err()
    };
    assert_eq!(
        refused(&[], &[], &[0; 41], 5, 0),
        Refusal::TextTooLong,
        "before all others"
    );
    assert_eq!(
        refused(&[], &[], &[0; 40], 5, PAGE - 1),
        Refusal::ListTooShort
    );
    assert_eq!(refused(&G_COUNTS, &[], b"\n", 5, PAGE), Refusal::NotLent);
    // the second row meets it, the first shows a tile without a label
    assert_eq!(
        refused(&[0, 0, 0, 1, 1], &[], b"\n", 2, PAGE),
        Refusal::OutOfRange
    );
    assert_eq!(
        refused(&G_COUNTS, &LABELS[..2], b"\n", 2, PAGE),
        Refusal::NoLabel
    );
    assert_eq!(
        refused(&G_COUNTS, &LABELS, b"\n", 2, PAGE),
        Refusal::NotPrintable
    );
    for label in [0x1F, 0x7F, 0x141, 0xD800, u32::MAX] {
        assert_eq!(
            refused(&G_COUNTS, &[63, 65, label], b"G", 2, PAGE),
            Refusal::NotPrintable
        );
    }
    assert_eq!(page, [0xEE; PAGE]);
}

#[test]
fn a_refusal_is_an_error_with_a_number() {
    let refusal = Refusal::DoesNotFit {
        node: 1,
        tile: 64,
        arc: 3,
    };
    assert_eq!(refusal.number(), 6);
    assert_eq!(
        refusal.to_string(),
        "node 1 does not fit the layout: tile 64, arc 3"
    );
    let error: Box<dyn std::error::Error> = Box::new(Refusal::Missing);
    assert_eq!(error.to_string(), "bytes are missing");
}
