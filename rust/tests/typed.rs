//! Words as viewers type them: lines, labels, places, and each refusal with what stays in the buffers.

use machirsun::*;

/// Two labels for tile 1, two letters of two bytes, and groups of letters beside their first letters.
const LABELS: &str = "1\tA\n1\ta\n2\tC\n3\tCH\n4\tÉ\n5\tË\n6\tH\n7\tCHA\n";

/// What a word buffer has before a call.
const UNPUT: u8 = 99;

/// The answer, and the buffer after it.
fn next(
    labels: &[u8],
    text: &[u8],
    at: usize,
    room: usize,
) -> (Result<Option<usize>, Refusal>, Vec<u8>) {
    let mut word = vec![UNPUT; room];
    let answer = next_word(labels, text, at, &mut word);
    (answer.map(|typed| typed.map(|typed| typed.after)), word)
}

/// The tiles of a text of one line.
fn tiles(labels: &str, text: &[u8]) -> Result<Vec<u8>, Refusal> {
    let mut word = [UNPUT; 64];
    let typed = next_word(labels.as_bytes(), text, 0, &mut word)?.expect("a line");
    assert!(word[typed.tiles..].iter().all(|&tile| tile == UNPUT));
    Ok(word[..typed.tiles].to_vec())
}

/// The first lines of a label file: tile 1, and another letter in each line.
fn label_lines(count: usize) -> String {
    let letters = char::from_u32(0x100).unwrap()..;
    letters
        .take(count)
        .map(|letter| format!("1\t{letter}\n"))
        .collect()
}

#[test]
fn a_line_comes_with_its_places_and_tiles() {
    let text = "\r\n\nCHaÉ! no\r\nË".as_bytes();
    let labels = [LABELS.as_bytes(), b"63\t!"].concat();
    let mut word = [UNPUT; 6];
    let typed = next_word(&labels, text, 0, &mut word).unwrap().unwrap();
    let first = TypedWord {
        line: "CHaÉ! no".as_bytes(),
        start: 3,
        after: 14,
        tiles: 4,
    };
    assert_eq!(typed, first);
    assert_eq!(typed.line.as_ptr(), text[3..].as_ptr());
    assert_eq!(word, [3, 1, 4, 63, UNPUT, UNPUT]);

    let last = next_word(&labels, text, typed.after, &mut word).unwrap();
    let expected = TypedWord {
        line: "Ë".as_bytes(),
        start: 14,
        after: 16,
        tiles: 1,
    };
    assert_eq!(last, Some(expected));
    assert_eq!(word, [5, 1, 4, 63, UNPUT, UNPUT]);
    assert_eq!(next_word(&labels, text, 16, &mut word), Ok(None));
    assert_eq!(word, [5, 1, 4, 63, UNPUT, UNPUT]);
}

#[test]
fn the_longest_label_is_taken_and_then_the_lowest_tile() {
    assert_eq!(tiles(LABELS, b"CHACHaCAH"), Ok(vec![7, 3, 1, 2, 1, 6]));
    // a group is not looked for past the line's end
    assert_eq!(tiles(LABELS, b"CH\nA"), Ok(vec![3]));
    for labels in [
        "9\tX\n10\tX\n8\tX",
        "8\tX\n9\tX\n10\tX",
        "10\tX\n8\tX\n9\tX",
    ] {
        assert_eq!(tiles(labels, b"XX"), Ok(vec![8, 8]), "{labels:?}");
    }
    // the longest has the highest tile
    assert_eq!(
        tiles("1\tX\n2\tXX\n63\tXXX", b"XXXXXXXX"),
        Ok(vec![63, 63, 2])
    );
}

#[test]
fn letters_of_several_bytes_are_labels_like_others() {
    assert_eq!(
        tiles("1\tÉ\n2\tḀ\n3\t🂡", "🂡ÉḀÉ".as_bytes()),
        Ok(vec![3, 1, 2, 1])
    );
    // the second byte is at fault where only the first is a label's
    let labels = "1\tÉ\n2\tA";
    let unreadable = Err(Refusal::Unreadable { place: 1 });
    assert_eq!(tiles(labels, "AË".as_bytes()), unreadable);
    assert_eq!(tiles(labels, b"A\xc3"), unreadable);
    let fifteen = "ÉÉÉÉÉÉÉA";
    assert_eq!(fifteen.len(), 15);
    assert_eq!(
        tiles(&format!("{labels}\n3\t{fifteen}"), fifteen.as_bytes()),
        Ok(vec![3])
    );
}

#[test]
fn a_word_ends_at_a_blank_that_no_label_matches() {
    for blank in 0..=0x20 {
        if !b"\n\r".contains(&blank) {
            assert_eq!(tiles(LABELS, &[b'A', blank, b'?']), Ok(vec![1]), "{blank}");
            assert_eq!(
                tiles(LABELS, &[blank, b'A']),
                Err(Refusal::Unreadable { place: 0 }),
                "{blank}"
            );
        }
    }
    assert_eq!(tiles(LABELS, b"A!"), Err(Refusal::Unreadable { place: 1 }));
    let labels = format!("{LABELS}8\t \n9\tA\tA\n");
    assert_eq!(
        tiles(&labels, b" AA A\tA  \tA"),
        Ok(vec![8, 1, 1, 8, 9, 8, 8])
    );
}

#[test]
fn lines_end_in_three_ways() {
    let text = b"A\nAA\r\nAAA\rAAAA\n\r\r\n\nA";
    let mut room = [UNPUT; 20];
    let read: Vec<_> = TypedText::at(LABELS.as_bytes(), text, 0, &mut room)
        .map(|read| read.map(|(typed, _)| (typed.start, typed.line.len(), typed.after)))
        .collect();
    let expected = [(0, 1, 2), (2, 2, 6), (6, 3, 10), (10, 4, 15), (19, 1, 20)];
    assert_eq!(read, expected.map(Ok));
    for text in [&b""[..], b"\n", b"\r", b"\r\n", b"\n\r\n\r"] {
        assert_eq!(
            next(b"1\tA", text, 0, 1),
            (Ok(None), vec![UNPUT]),
            "{text:?}"
        );
    }
}

#[test]
fn a_text_is_read_from_any_place() {
    let text = b"CHA\r\nAC";
    let after = |at| next(LABELS.as_bytes(), text, at, 3);
    assert_eq!(after(0), (Ok(Some(5)), vec![7, UNPUT, UNPUT]));
    // inside a line, even inside a label
    assert_eq!(after(1), (Ok(Some(5)), vec![6, 1, UNPUT]));
    assert_eq!(after(2), (Ok(Some(5)), vec![1, UNPUT, UNPUT]));
    // at its ending, and inside that
    assert_eq!(after(3), (Ok(Some(7)), vec![1, 2, UNPUT]));
    assert_eq!(after(4), (Ok(Some(7)), vec![1, 2, UNPUT]));
    for at in [7, 8, 1 << 32, usize::MAX] {
        assert_eq!(after(at), (Ok(None), vec![UNPUT; 3]), "{at}");
    }
    // a place at a blank is a line's first
    assert_eq!(
        next(LABELS.as_bytes(), b"A A", 1, 1).0,
        Err(Refusal::Unreadable { place: 1 })
    );
}

#[test]
fn a_full_buffer_and_an_unreadable_byte() {
    let labels = LABELS.as_bytes();
    let full = Err(Refusal::BufferFull);
    let unreadable = |place| Err(Refusal::Unreadable { place });
    assert_eq!(next(labels, b"\nACH", 0, 2), (Ok(Some(4)), vec![1, 3]));
    assert_eq!(next(labels, b"\nACH", 0, 1), (full, vec![1]));
    assert_eq!(next(labels, b"\nACH", 0, 0), (full, vec![]));
    assert_eq!(
        next(labels, b"\nAC?", 0, 4),
        (unreadable(3), vec![1, 2, UNPUT, UNPUT])
    );
    // the first of both in the text; a full buffer still ends at a blank
    assert_eq!(next(labels, b"\nAC?", 0, 1), (full, vec![1]));
    assert_eq!(next(labels, b"\nAC?", 0, 2), (unreadable(3), vec![1, 2]));
    assert_eq!(next(labels, b"\nAC A", 0, 2), (Ok(Some(5)), vec![1, 2]));
    assert_eq!(next(labels, b"?", 0, 0), (unreadable(0), vec![]));
}

#[test]
fn bad_lines_of_the_label_file() {
    let bad = |labels: &str, line| {
        let refused = Err(Refusal::BadLabelLine { line });
        for (text, at) in [(&b"AA"[..], 0), (b"?", 0), (b"", 0), (b"A", usize::MAX)] {
            let answer = next(labels.as_bytes(), text, at, 2);
            assert_eq!(answer, (refused, vec![UNPUT; 2]), "{labels:?}");
            let (mut tiles, mut sizes) = ([UNPUT; 2], [7]);
            let list = read_words(labels.as_bytes(), text, at, &mut tiles, &mut sizes);
            assert_eq!(list.map(|_| None), refused, "{labels:?}");
            assert_eq!((tiles, sizes), ([UNPUT; 2], [7]));
        }
    };
    for line in [
        "",
        "A",
        "1",
        "1\t",
        "1 A",
        "\tA",
        "0\tA",
        "01\tA",
        "64\tA",
        "100\tA",
        "+1\tA",
        " 1\tA",
        "1 \tA",
        "1\tABCDEFGHIJKLMNOP",
    ] {
        bad(&format!("{line}\n"), 1);
        bad(&format!("1\tA\r\n2\tB\r{line}\n0\tA"), 3);
    }
    // no ending is needed, and lines end as in a text
    assert_eq!(
        tiles("1\tA\r2\tB\r\n63\tABCDEFGHIJKLMNO", b"ABA"),
        Ok(vec![1, 2, 1])
    );
}

#[test]
fn a_label_file_has_up_to_256_lines() {
    let most = label_lines(256);
    assert_eq!(tiles(&most, "ĀǿĀ".as_bytes()), Ok(vec![1, 1, 1]));
    assert_eq!(tiles(most.trim_end(), "ǿ".as_bytes()), Ok(vec![1]));
    let refused = |labels: &str| next(labels.as_bytes(), b"", 0, 0).0.unwrap_err();
    let bad = |line| Refusal::BadLabelLine { line };
    assert_eq!(refused(&label_lines(257)), bad(257));
    assert_eq!(refused(&format!("{most}\n")), bad(257));
    assert_eq!(refused(&format!("{}\n{most}", label_lines(255))), bad(256));
}

#[test]
fn an_empty_label_file_has_no_labels() {
    assert_eq!(next(b"", b"\n\n", 0, 1), (Ok(None), vec![UNPUT]));
    let unreadable = Err(Refusal::Unreadable { place: 1 });
    assert_eq!(next(b"", b"\nA", 0, 1), (unreadable, vec![UNPUT]));
}

/// The words of a text in batches of so much room, up to the end or a refusal.
fn in_batches(text: &[u8], room: usize, count: usize) -> (Vec<Vec<u8>>, Option<Refusal>) {
    let (mut words, mut at) = (Vec::new(), 0);
    loop {
        let (mut tiles, mut sizes) = (vec![UNPUT; room], vec![7; count]);
        match read_words(LABELS.as_bytes(), text, at, &mut tiles, &mut sizes) {
            Ok(Some(read)) => {
                assert!(read.after > at);
                assert_eq!(sizes[..read.words].iter().sum::<usize>(), read.tiles);
                assert!(sizes[read.words..].iter().all(|&size| size == 7));
                let mut rest = &tiles[..read.tiles];
                for &size in &sizes[..read.words] {
                    words.push(rest[..size].to_vec());
                    rest = &rest[size..];
                }
                at = read.after;
            }
            Ok(None) => return (words, None),
            Err(refusal) => return (words, Some(refusal)),
        }
    }
}

/// The same line by line.
fn one_by_one(text: &[u8]) -> (Vec<Vec<u8>>, Option<Refusal>) {
    let (mut words, mut at, mut word) = (Vec::new(), 0, [UNPUT; 8]);
    loop {
        match next_word(LABELS.as_bytes(), text, at, &mut word) {
            Ok(Some(typed)) => {
                words.push(word[..typed.tiles].to_vec());
                at = typed.after;
            }
            Ok(None) => return (words, None),
            Err(refusal) => return (words, Some(refusal)),
        }
    }
}

#[test]
fn batches_have_the_words_of_the_lines() {
    let good = "A\nCHAA\r\n\nÉÉË a\rCHACH\n";
    let unreadable = format!("{good}AC?A\nA");
    for text in [good, &unreadable] {
        let lines = one_by_one(text.as_bytes());
        assert_eq!(lines.0.len(), 4);
        for (room, count) in (3..12).flat_map(|room| (1..6).map(move |count| (room, count))) {
            assert_eq!(
                in_batches(text.as_bytes(), room, count),
                lines,
                "{room} {count}"
            );
        }
    }
    // a word of three tiles never fits, the two before it do
    let (words, refusal) = in_batches(good.as_bytes(), 2, 3);
    assert_eq!(words, [vec![1], vec![7, 1]]);
    assert_eq!(refusal, Some(Refusal::BufferFull));
}

/// The answer, and both buffers after it.
fn batch(
    text: &[u8],
    at: usize,
    room: usize,
    count: usize,
) -> (Result<Option<TypedWords>, Refusal>, Vec<u8>, Vec<usize>) {
    let (mut tiles, mut sizes) = (vec![UNPUT; room], vec![7; count]);
    let answer = read_words(LABELS.as_bytes(), text, at, &mut tiles, &mut sizes);
    (answer, tiles, sizes)
}

fn words(words: usize, tiles: usize, after: usize) -> Result<Option<TypedWords>, Refusal> {
    Ok(Some(TypedWords {
        words,
        tiles,
        after,
    }))
}

#[test]
fn a_batch_begins_with_the_line_that_stopped_the_one_before() {
    let text = b"AA\nCH\nAC?\n";
    // an unreadable line is refused there; its tiles stay after those of the words
    let put = (words(2, 3, 6), vec![1, 1, 3, 1, 2, UNPUT], vec![2, 1, 7]);
    assert_eq!(batch(text, 0, 6, 3), put);
    let unreadable = Err(Refusal::Unreadable { place: 8 });
    assert_eq!(
        batch(text, 6, 3, 1),
        (unreadable, vec![1, 2, UNPUT], vec![7])
    );
    // so it is where the room for its tiles stopped the first batch
    let put = (words(2, 3, 6), vec![1, 1, 3, 1], vec![2, 1, 7]);
    assert_eq!(batch(text, 0, 4, 3), put);
    let put = (unreadable, vec![1, 2, UNPUT, UNPUT], vec![7, 7, 7]);
    assert_eq!(batch(text, 6, 4, 3), put);
}

#[test]
fn a_line_without_room_may_have_room_in_the_next_batch() {
    let put = (words(1, 1, 2), vec![1, 1], vec![1, 7, 7, 7]);
    assert_eq!(batch(b"A\nAA", 0, 2, 4), put);
    let put = (words(1, 2, 4), vec![1, 1], vec![2, 7, 7, 7]);
    assert_eq!(batch(b"A\nAA", 2, 2, 4), put);
    // a first line is read as far as there is room, and may be no word
    let full = Err(Refusal::BufferFull);
    assert_eq!(batch(b"AA?", 0, 1, 1), (full, vec![1], vec![7]));
    let unreadable = Err(Refusal::Unreadable { place: 2 });
    assert_eq!(batch(b"AA?", 0, 2, 1), (unreadable, vec![1, 1], vec![7]));
}

#[test]
fn a_line_without_a_size_is_not_read() {
    let put = (words(1, 2, 3), vec![1, 1, UNPUT], vec![2]);
    assert_eq!(batch(b"AA\nA", 0, 3, 1), put);
    let full = Err(Refusal::BufferFull);
    assert_eq!(batch(b"AA\nA", 0, 3, 0), (full, vec![UNPUT; 3], vec![]));
    // unreadable or not
    assert_eq!(batch(b"?", 0, 3, 0), (full, vec![UNPUT; 3], vec![]));
    // the end needs no size, and empty lines after the last word are left for the next call
    assert_eq!(batch(b"A\n\n", 0, 1, 1), (words(1, 1, 2), vec![1], vec![1]));
    for at in [2, 3, 4, usize::MAX] {
        assert_eq!(
            batch(b"A\n\n", at, 0, 0),
            (Ok(None), vec![], vec![]),
            "{at}"
        );
    }
}

#[test]
fn the_words_of_a_text_come_one_by_one() {
    let text = "CHa\n\nÉ x\nAA?\nA".as_bytes();
    let mut room = [UNPUT; 6];
    let mut typed = TypedText::at(LABELS.as_bytes(), text, 0, &mut room);
    let (first, first_tiles) = typed.next().unwrap().unwrap();
    let (second, second_tiles) = typed.next().unwrap().unwrap();
    assert_eq!((first.line, first_tiles), (&b"CHa"[..], &[3, 1][..]));
    assert_eq!((second.line, second_tiles), ("É x".as_bytes(), &[4][..]));
    assert_eq!(typed.place(), second.after);
    assert_eq!(typed.next(), Some(Err(Refusal::Unreadable { place: 12 })));
    assert_eq!(typed.next(), None);
    assert_eq!(typed.next(), None);
    assert_eq!(typed.place(), 10);
    assert_eq!(room, [3, 1, 4, 1, 1, UNPUT]);
}

#[test]
fn a_text_goes_on_with_another_buffer() {
    let text = "CHa\nÉ".as_bytes();
    let mut room = [UNPUT; 2];
    let mut typed = TypedText::at(LABELS.as_bytes(), text, 0, &mut room);
    assert!(typed.next().unwrap().is_ok());
    assert_eq!(typed.next(), Some(Err(Refusal::BufferFull)));
    assert_eq!((typed.next(), typed.place()), (None, 4));
    let mut rest = TypedText::at(LABELS.as_bytes(), text, 4, &mut room);
    assert_eq!(rest.next().unwrap().unwrap().1, [4]);
    assert_eq!((rest.next(), rest.next()), (None, None));

    let refused: Vec<_> = TypedText::at(b"A", b"", 0, &mut []).collect();
    assert_eq!(refused, [Err(Refusal::BadLabelLine { line: 1 })]);
}

#[test]
fn refusals_say_what_is_bad() {
    let line = Refusal::BadLabelLine { line: 3 };
    let place = Refusal::Unreadable { place: 8 };
    assert_eq!((line.number(), place.number()), (27, 28));
    assert_eq!(line.to_string(), "line 3 of the label file is bad");
    assert_eq!(place.to_string(), "no label matches at place 8");
}
