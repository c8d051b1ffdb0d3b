// The list `typed`.

use super::{MOST_ROOM, MOST_SIZES, NEXT_WORD, READ_WORDS};
use crate::random::Random;
use crate::requests::Requests;

pub fn requests(requests: &mut Requests) {
    requests.comment("calls 17 and 18: words as viewers type them");
    for (seed, (labels, pieces)) in (41..).zip(ALPHABETS) {
        short_texts(requests, &mut Random::new(seed), labels, pieces);
    }
    rooms(requests);
    other_bytes(requests);
    word_lists(requests);
    bad_label_files(requests);
}

fn ask(
    requests: &mut Requests,
    at: usize,
    rooms: Rooms,
    labels: impl AsRef<[u8]>,
    text: impl AsRef<[u8]>,
) {
    let at = at as u64;
    let mut numbers = match rooms {
        Rooms::Word(room) => vec![NEXT_WORD, at, room],
        Rooms::List(room, sizes) => vec![READ_WORDS, at, room, sizes],
    };
    for bytes in [labels.as_ref(), text.as_ref()] {
        numbers.push(bytes.len() as u64);
        numbers.extend(bytes.iter().map(|&byte| u64::from(byte)));
    }
    requests.ask(&numbers);
}

// What is lent: for one word, or for a list of words and their sizes.
#[derive(Clone, Copy)]
enum Rooms {
    Word(u64),
    List(u64, u64),
}

const ENOUGH: Rooms = Rooms::Word(MOST_ROOM);
const ENOUGH_FOR_ALL: Rooms = Rooms::List(MOST_ROOM, MOST_SIZES);

// Enough more often than not.
fn any_rooms(random: &mut Random) -> Rooms {
    let room = random.pick(&[MOST_ROOM, MOST_ROOM, MOST_ROOM, 3, 2, 1, 0]);
    match random.within(0, 3) {
        0 => Rooms::List(room, random.pick(&[MOST_SIZES, MOST_SIZES, 2, 1, 0])),
        _ => Rooms::Word(room),
    }
}

// Label files, each with the pieces of its short texts.
const ALPHABETS: [(&str, [&str; 5]); 9] = [
    ("1\tA\n63\tB\n", ["A", "B", "\n", "\r", " "]),
    // Several labels a tile, and one label for two tiles.
    ("1\tA\r1\tb\r1\tBA\r", ["A", "b", "B", "\n", "\t"]),
    ("5\tA\n3\tA\n9\tB\n9\tB", ["A", "B", "\n", "\r", "C"]),
    ("3\tAB\n5\tAB\n4\tA", ["A", "B", "\n", "\r", "\0"]),
    // Labels that begin others.
    ("1\tA\n2\tAA\n3\tAAB\n4\tBA", ["A", "B", "\n", "\r", " "]),
    // Labels with blanks, tabs and zeros.
    (
        "1\t \n2\tA\r\n3\tA \tA\n4\t\0",
        ["A", " ", "\t", "\n", "\0"],
    ),
    ("1\t\t\n2\t\tA\n3\tA B", ["A", "\t", " ", "B", "\r"]),
    // Letters of two and of three bytes.
    ("1\té\n2\t€\n3\tè", ["é", "€", "\r\n", "è", "ê"]),
    // None.
    ("", ["A", "\n", "\r", " ", "é"]),
];

// Texts of up to four pieces: each of up to three from its start, and of the others
// some; and some from other places, at the end and past it.
fn short_texts(requests: &mut Requests, random: &mut Random, labels: &str, pieces: [&str; 5]) {
    let one_in = |random: &mut Random, many: u64| random.within(0, many) == 0;
    for (text, len) in texts_of(pieces) {
        if len < 4 || one_in(random, 16) {
            ask(requests, 0, any_rooms(random), labels, &text);
        }
        let places = (1..=text.len()).filter(|&at| text.is_char_boundary(at));
        let past = [text.len() + 1, u32::MAX as usize];
        for (at, many) in places.map(|at| (at, 4)).chain(past.map(|at| (at, 16))) {
            if one_in(random, many * [1, 2, 4, 12, 96][len]) {
                ask(requests, at, any_rooms(random), labels, &text);
            }
        }
    }
}

// Each text of up to four pieces, with how many it has.
fn texts_of(pieces: [&str; 5]) -> Vec<(String, usize)> {
    let mut all = vec![(String::new(), 0)];
    let mut longest = vec![String::new()];
    for len in 1..=4 {
        longest = longest
            .iter()
            .flat_map(|text| pieces.map(|piece| text.clone() + piece))
            .collect();
        all.extend(longest.iter().map(|text| (text.clone(), len)));
    }
    all
}

// A word with all kinds of ends in every room about its own, and lists of words.
fn rooms(requests: &mut Requests) {
    let labels = b"1\tA\n2\tB\n3\tAB\n";
    for text in [
        "ABBA", "ABBA ?", "ABBA?", "ABB?A", "?", " A", "ABBAA\nB", "\n\nB",
    ] {
        for room in 0..=5 {
            ask(requests, 0, Rooms::Word(room), labels, text);
        }
    }
    for text in [
        "A\nBB\nAA\n",
        "\nA B\r\rBA\r\n\n",
        "A\nB?\nA",
        "A\n B",
        "BB\nA",
        "",
        "\n",
    ] {
        for room in 0..=4 {
            for sizes in 0..=3 {
                let rooms = Rooms::List(room, sizes);
                ask(requests, 0, rooms, labels, text);
            }
        }
    }
    // As many as a case may lend, one fewer and one more.
    for (len, count) in [(63, 15), (64, 16), (65, 17)] {
        ask(requests, 0, ENOUGH, labels, "B".repeat(len));
        for text in ["B".repeat(len), "B\n".repeat(count), "BBBB\n".repeat(count)] {
            ask(requests, 0, ENOUGH_FOR_ALL, labels, text);
        }
    }
}

// Bytes that are not UTF-8, in one line: labels and texts of bytes about both ends,
// and the middle of a letter as a place.
fn other_bytes(requests: &mut Requests) {
    let labels = b"1\t\xc3\n2\t\xc3\xa9\n3\t\xff\n4\t\x80\x01\n5\t\x7f";
    let bytes = [0, 0x1f, 0x20, 0x21, 0x7f, 0x80, 0xa9, 0xc3, 0xff];
    for first in bytes {
        ask(requests, 0, ENOUGH, labels, [first]);
        for second in bytes {
            ask(requests, 0, ENOUGH, labels, [first, second]);
        }
    }
    for at in 0..7 {
        ask(requests, at, ENOUGH, labels, b"\xc3\xc3\xa9\xff\x80\x01");
    }
    longest_labels(requests);
}

// Labels of 14 and 15 bytes in texts that end within them.
fn longest_labels(requests: &mut Requests) {
    let labels = b"1\tABCDEFGHIJKLMNO\n2\tABCDEFGHIJKLMN\n3\tA";
    let text = b"ABCDEFGHIJKLMNO";
    for len in 0..=text.len() {
        let (cut, line) = (&text[..len], [&text[..len], b"\nO"].concat());
        ask(requests, 0, ENOUGH, labels, cut);
        ask(requests, 0, ENOUGH, labels, line);
    }
}

// Tiles for letters of one to three bytes and for groups of letters, the labels of
// each parted by blanks; and words with remarks after them.
const WORD_LISTS: [(&[&str], &str); 3] = [
    (
        &[
            "A a À à",
            "C c",
            "Ç ç",
            "E e É é",
            "L l",
            "L·L l·l ĿL",
            "NY ny",
            "QU qu",
            "S s",
        ],
        "CEL·LA 5\nQUE\r\nÇA\n\nSenya\nSÉ\tand more\nl·l l\nllny",
    ),
    (
        &[
            "A a", "C c", "CH ch Ch", "E e", "L l", "LL ll Ll", "Ñ ñ", "R r", "RR rr Rr",
        ],
        "CHE\rLLÑA\rCARRE 7\rcarne\rRRR\rCCHC\r\r",
    ),
    (
        &["A a", "Ą ą", "Ć ć", "Ł ł", "O o", "Ó ó", "Ź ź", "Ż ż"],
        "ŁĄĆ\nŹŻó łódź\nÓ\n\u{a0}Ó\nŁ\u{a0}\n żab",
    ),
];

// Each list is read from each of its lines.
fn word_lists(requests: &mut Requests) {
    for (alphabet, words) in WORD_LISTS {
        let labels = label_file(alphabet);
        let starts = words.char_indices().map(|(at, _)| at);
        for at in starts.filter(|&at| at == 0 || b"\n\r".contains(&words.as_bytes()[at - 1])) {
            for rooms in [ENOUGH, ENOUGH_FOR_ALL, Rooms::Word(2), Rooms::List(6, 2)] {
                ask(requests, at, rooms, &labels, words);
            }
        }
    }
}

// A line for each label, the tiles from 1 on.
fn label_file(alphabet: &[&str]) -> String {
    let lines = alphabet.iter().zip(1..).flat_map(|(labels, tile)| {
        let line = move |label| format!("{tile}\t{label}\n");
        labels.split(' ').map(line)
    });
    lines.collect()
}

const BAD_LINES: [&str; 20] = [
    "",
    "A",
    "1",
    "1\t",
    "1 A",
    "\tA",
    "0\tA",
    "64\tA",
    "01\tA",
    "007\tA",
    "+1\tA",
    " 1\tA",
    "1 \tA",
    "-1\tA",
    "1a\tA",
    "100\tA",
    "257\tA",
    "4294967297\tA",
    "1\tABCDEFGHIJKLMNOP",
    "1\tÀÀÀÀÀÀÀÀ",
];

// Every kind of bad line, alone, after a good one, and before one that is bad too;
// whatever the text and the rooms are.
fn bad_label_files(requests: &mut Requests) {
    for line in BAD_LINES {
        let after = format!("2\tB\n{line}\n");
        let before = format!("{line}\r\n{line}\n3\tC");
        for labels in [line, &after, &before] {
            ask(requests, 0, ENOUGH, labels, b"B");
        }
        ask(requests, 9, Rooms::List(0, 0), &after, b"B");
    }
    many_lines(requests);
}

// As many lines as there may be, and one more, of which the last or one before it may
// be bad itself.
fn many_lines(requests: &mut Requests) {
    let lines = |count: usize| b"1\tA\n".repeat(count);
    for labels in [
        lines(256),
        lines(257),
        [lines(255), b"\n".to_vec(), lines(1)].concat(),
        [lines(256), b"?".to_vec()].concat(),
    ] {
        ask(requests, 0, ENOUGH, &labels, b"AA");
    }
}
