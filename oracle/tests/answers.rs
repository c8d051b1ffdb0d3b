// Runs the program as its user does.

use std::io::Write;
use std::process::{Command, Output, Stdio};

fn oracle(arguments: &[&str], input: &str) -> Output {
    let mut child = Command::new(env!("CARGO_BIN_EXE_oracle"))
        .args(arguments)
        .stdin(Stdio::piped())
        .stdout(Stdio::piped())
        .stderr(Stdio::piped())
        .spawn()
        .unwrap();
    let mut to = child.stdin.take().unwrap();
    let input = input.to_string();
    // Beside the reading, or both sides wait for each other on a long list.
    let writer = std::thread::spawn(move || to.write_all(input.as_bytes()));
    let output = child.wait_with_output().unwrap();
    // A run that stops early leaves some of its input unread.
    let _ = writer.join().unwrap();
    output
}

fn text(bytes: Vec<u8>) -> String {
    String::from_utf8(bytes).unwrap()
}

// The lines written, with what is said of the run.
fn answers(input: &str) -> (String, String) {
    let output = oracle(&["answers"], input);
    assert!(output.status.success());
    (text(output.stdout), text(output.stderr))
}

// The line of a case: the call, its words and its bytes, each list with its
// length before it, and the answer.
fn case(call: u32, words: &str, bytes: &str, answer: &str) -> String {
    let list = |numbers: &str| match numbers.split_whitespace().count() {
        0 => "0".into(),
        many => format!("{many} {numbers}"),
    };
    format!("{call} {} {} {answer}\n", list(words), list(bytes))
}

// A graph of five nodes in each layout.
const KWG: [u32; 5] = [0x00400002, 0x00400000, 0x01800004, 0x02400004, 0x02c00000];
const KBWG: [u32; 5] = [0x240, 0x40, 0x481, 0x442, 0xc2];

fn bytes(words: &[u32]) -> String {
    let bytes = words.iter().flat_map(|word| word.to_le_bytes());
    let texts: Vec<String> = bytes.map(|byte| byte.to_string()).collect();
    texts.join(" ")
}

#[test]
fn a_panic_is_reported_and_the_next_request_answered() {
    let (list, said) = answers("0 0\n0 1\n1 0 12582913\n");
    assert_eq!(list, "0 1 0 0 0\n# panic: 0 1\n1 2 0 12582913 0 0 1 1 1\n");
    assert_eq!(said, "2 cases, 1 panic, 0 died\n");
}

#[test]
fn an_exhausted_stack_is_reported_and_the_next_request_answered() {
    let (list, said) = answers("0 2\n0 0\n0 2\n1 1 449\n");
    assert_eq!(
        list,
        "# died: 0 2\n0 1 0 0 0\n# died: 0 2\n1 2 1 449 0 1 1 1 1\n"
    );
    assert_eq!(said, "died: 0 2\ndied: 0 2\n2 cases, 0 panic, 2 died\n");
}

#[test]
fn an_abort_is_reported_and_the_next_request_answered() {
    let (list, said) = answers("0 3\n0 0\n");
    assert_eq!(list, "# died: 0 3\n0 1 0 0 0\n");
    assert_eq!(said, "died: 0 3\n1 cases, 0 panic, 1 died\n");
}

#[test]
fn the_sample_graph_is_repacked_either_way() {
    for (from, to, before, after) in [(0, 1, KWG, KBWG), (1, 0, KBWG, KWG)] {
        let request = format!("4 {from} {to} 20 {}\n", bytes(&before));
        let answer = format!("0 0 0 0 {}", bytes(&after));
        let expected = case(4, &format!("{from} {to}"), &bytes(&before), &answer);
        assert_eq!(answers(&request).0, expected);
    }
}

#[test]
fn the_sample_graph_loads_in_either_layout() {
    // The cut is the sum of the bytes, modulo the places there are.
    for (layout, words, cut) in [(0, KWG, 2), (1, KBWG, 2)] {
        let request = format!("5 {layout} 20 {}\n", bytes(&words));
        let answer = "0 0 5 0 0 576 64 1153 1090 194";
        let expected = case(5, &format!("{layout} {cut}"), &bytes(&words), answer);
        assert_eq!(answers(&request).0, expected);
    }
}

#[test]
fn a_refused_load_says_why() {
    let expected = [
        case(5, "0 0", "", "1"),
        case(5, "1 0", "64 0 0", "1"),
        // The second node of two has tile 64 and arc 3; the first's arc is 2.
        case(5, "0 3", "2 0 64 5 3 0 0 64", "6 3 0 1 64"),
        case(5, "1 7", "64 2 0 0 64 3 0 0", "8 3 0 0 0"),
        case(5, "1 3", "64 1 0 0 0 1 0 0", "9 0 0 0 0"),
    ]
    .concat();
    let requests = "5 0 0\n5 1 3 64 0 0\n5 0 8 2 0 64 5 3 0 0 64\n\
                    5 1 8 64 2 0 0 64 3 0 0\n5 1 8 64 1 0 0 0 1 0 0\n";
    assert_eq!(answers(requests).0, expected);
}

#[test]
fn the_words_of_the_sample_graph_have_numbers() {
    // The words are 1, 1 2 and 2 2, from node 2.
    let graph = "576 64 1153 1090 194";
    let counts = "3 0 3 1 1";
    let mut requests = format!("6 5 {graph}\n");
    let mut expected = case(6, graph, "", &format!("0 0 0 {counts}"));
    for (number, word) in ["1", "1 2", "2 2"].iter().enumerate() {
        let tiles = word.split(' ').count();
        requests += &format!("7 5 {graph} {counts} 2 {tiles} {word}\n");
        requests += &format!("8 5 {graph} {counts} 2 {number}\n");
        let words = format!("2 5 {graph} {counts}");
        expected += &case(7, &words, word, &format!("0 1 {number}"));
        let words = format!("2 {number} 5 {graph} {counts}");
        expected += &case(8, &words, "", &format!("0 1 {tiles} {word}"));
    }
    // No such word, none from node 0, and no such number.
    for (start, word) in [(2, 2), (0, 1)] {
        requests += &format!("7 5 {graph} {counts} {start} 1 {word}\n");
        let words = format!("{start} 5 {graph} {counts}");
        expected += &case(7, &words, &word.to_string(), "0 0 0");
    }
    requests += &format!("8 5 {graph} {counts} 2 3\n");
    expected += &case(8, &format!("2 3 5 {graph} {counts}"), "", "0 0 0");
    // By these counts the walk puts tile 1 before it finds no word.
    let counts = "9 9 9 1 1";
    requests += &format!("8 5 {graph} {counts} 2 7\n");
    expected += &case(8, &format!("2 7 5 {graph} {counts}"), "", "0 0 0 1");
    assert_eq!(answers(&requests).0, expected);
}

#[test]
fn a_loop_and_too_many_words_are_not_counted() {
    for (nodes, lowest) in [
        // Node 1 leads to itself.
        ("320 320", 1),
        // Node 1's run goes on to node 2, which leads to node 1.
        ("64 0 320", 1),
        // Node 1 leads to node 2, which leads to itself.
        ("64 576 576", 2),
        // Node 0 and node 4 lead to the pair of nodes 3 and 5; node 2 leads to
        // itself.
        ("832 64 576 1344 832 832", 2),
    ] {
        let len = nodes.split(' ').count();
        let (list, _) = answers(&format!("6 {len} {nodes}\n"));
        let zeros = " 0".repeat(len);
        assert_eq!(list, case(6, nodes, "", &format!("12 0 {lowest}{zeros}")));
    }
    // 32 runs of two nodes that both lead to the next.
    let run = |at: u64| match at {
        0 | 1 => 0x240,
        at => (at < 64) as u64 * (at / 2 * 2 + 2) * 256 + at % 2 * 64 + (at >= 64) as u64 * 128,
    };
    let nodes: Vec<String> = (0..66).map(|at| run(at).to_string()).collect();
    let nodes = nodes.join(" ");
    let (list, _) = answers(&format!("6 66 {nodes}\n"));
    assert_eq!(
        list,
        case(6, &nodes, "", &format!("13 0 0{}", " 0".repeat(66)))
    );
}

#[test]
fn the_runs_of_the_sample_graph_have_tiles() {
    // Nodes 2 and 3 are a run of the tiles 1 and 2, of which 1 accepts.
    let graph = "576 64 1153 1090 194";
    let mut requests = format!("11 5 {graph}\n");
    let mut expected = case(11, graph, "", "0 1 1 6 4 4 0 0 2 0 4");
    // Two of the run's three words come before tile 2; by other counts as many as
    // their difference.
    for (counts, inputs, answer) in [
        ("3 0 3 1 1", "0 2", "0 1 3 2"),
        ("3 0 3 1 1", "2 2", "0 1 4 0"),
        ("3 0 3 1 1", "0 3", "0 0 0 0"),
        ("0 0 9 2 0", "0 2", "0 1 3 7"),
    ] {
        requests += &format!("9 5 {graph} {counts} {inputs}\n");
        expected += &case(9, &format!("{inputs} 5 {graph} {counts}"), "", answer);
    }
    for (inputs, answer) in [("2", "0 0 3"), ("3", "0 1 3")] {
        requests += &format!("10 5 {graph} {inputs}\n");
        expected += &case(10, &format!("{inputs} {graph}"), "", answer);
    }
    for (call, tally, answer) in [
        (12, "0 1 1", "0 1"),
        (12, "0 0 1", "0 0"),
        (13, "0 0 1", "0 7"),
    ] {
        requests += &format!("{call} 5 {graph} 3 {tally}\n");
        expected += &case(call, graph, tally, answer);
    }
    assert_eq!(answers(&requests).0, expected);
}

// Numbers of four bytes each, the highest byte first.
fn big_endian(words: &[u32]) -> String {
    let swapped: Vec<u32> = words.iter().map(|word| word.swap_bytes()).collect();
    bytes(&swapped)
}

#[test]
fn the_sample_graph_is_written_as_a_file_of_macondo() {
    // The tiles are ?, A and B; the name is G. Node 1's arc is 0, so that a
    // gaddag starts at node 0, whose tile 0 leads to the same run.
    let graph = "576 64 1153 1090 194";
    let letters = big_endian(&[2, 0x41, 0x42]);
    let dawg = [2, 0, 1, 0, 2, 4, 0x02000000, 3, 0x01000003, 1];
    let gaddag = [
        3, 0, 0, 0, 1, 0, 2, 6, 0x01000000, 0x32000002, 0x02000001, 5, 0x01000005, 2,
    ];
    let files = [
        format!("0 0 58 99 100 119 103 1 71 {letters} {}", big_endian(&dawg)),
        format!(
            "0 0 74 99 103 100 103 1 71 {letters} {}",
            big_endian(&gaddag)
        ),
    ];
    for (format, file) in files.iter().enumerate() {
        let request = format!("14 5 {graph} {format} 3 63 65 66 1 71\n");
        let words = format!("{format} 3 63 65 66 {graph}");
        assert_eq!(answers(&request).0, case(14, &words, "71", file));
    }
}

#[test]
fn the_sample_graph_is_written_as_an_lxd_file() {
    let graph = "576 64 1153 1090 194";
    let nodes = [0x8a800000, 0x8a800002, 0x50400004, 0x90800004, 0xd0800000];
    let answer = format!(
        "0 0 84 {} 71{} {} {}",
        bytes(&[64, 5]),
        " 0".repeat(51),
        bytes(&[3]),
        bytes(&nodes)
    );
    let request = format!("15 5 {graph} 3 63 65 66 1 71 0\n");
    let words = format!("3 1 0 63 65 66 71 {graph}");
    assert_eq!(answers(&request).0, case(15, &words, "", &answer));
}

#[test]
fn a_refused_file_says_why() {
    let graph = "5 576 64 1153 1090 194";
    let many = |len: usize| format!("{len}{}", " 65".repeat(len));
    let cases = [
        // No labels, and one too many; a name too long; B is two letters.
        (14, "0 0 0".into(), 18),
        (14, format!("1 {} 0", many(51)), 18),
        (14, format!("0 3 63 65 66 {}", many(256)), 19),
        (14, "1 3 63 65 1114112 0".into(), 23),
        // A title and a date of other letters, and too long; B is another.
        (15, "3 63 65 66 1 256 0".into(), 20),
        (15, format!("3 63 65 66 {} 0", many(32)), 19),
        (15, "3 63 65 66 0 1 256".into(), 20),
        (15, format!("3 63 65 66 0 {}", many(20)), 19),
        (15, "3 63 65 256 0 0".into(), 23),
    ];
    for (call, inputs, refusal) in cases {
        let request = format!("{call} {graph} {inputs}");
        let (list, _) = answers(&(request + "\n"));
        assert!(list.ends_with(&format!(" {refusal} 0 0\n")), "{list}");
    }
}

// The rows of a page, and blanks to its end.
fn page(rows: &[&str]) -> String {
    let rows: String = rows.iter().map(|row| format!("{row:<40}")).collect();
    let bytes: Vec<String> = format!("{rows:<960}")
        .bytes()
        .map(|byte| byte.to_string())
        .collect();
    format!("0 {}", bytes.join(" "))
}

#[test]
fn the_words_of_the_sample_graph_stand_on_a_page() {
    let graph = "576 64 1153 1090 194";
    let counts = "3 0 3 1 1";
    let rows = ["G", "         0 A", "         1 AB", "         2 BB"];
    for (first, rows) in [
        (0, &rows[..]),
        (2, &[rows[0], rows[3]]),
        (3, &rows[..1]),
        (u32::MAX, &rows[..1]),
    ] {
        let request = format!("16 5 {graph} {counts} 2 {first} 3 63 65 66 1 71\n");
        let words = format!("2 {first} 3 5 63 65 66 {graph} {counts}");
        assert_eq!(answers(&request).0, case(16, &words, "71", &page(rows)));
    }
    // By these counts number 2 names no word, and 3 does.
    let counts = "0 0 4 1 1";
    for (first, rows) in [(0, &rows[1..3]), (3, &["         3 BB"])] {
        let request = format!("16 5 {graph} {counts} 2 {first} 3 63 65 66 0\n");
        let words = format!("2 {first} 3 5 63 65 66 {graph} {counts}");
        let rows = [&[""], rows].concat();
        assert_eq!(answers(&request).0, case(16, &words, "", &page(&rows)));
    }
}

#[test]
fn a_row_has_28_tiles_at_most() {
    // Each node leads to the next; the words have 28 and 29 tiles.
    let nodes: Vec<String> = (2..31)
        .map(|at| match at {
            30 => 0xc1,
            29 => 0x1ec1,
            at => (at + 1) * 256 + 0x41,
        })
        .map(|node: u32| node.to_string())
        .collect();
    let graph = format!("576 64 {}", nodes.join(" "));
    let counts = format!("2 0{} 1", " 2".repeat(28));
    let word = "A".repeat(28);
    let rows = [
        String::new(),
        format!("         0 {word} "),
        format!("         1 {word}+"),
    ];
    let rows: Vec<&str> = rows.iter().map(String::as_str).collect();
    let request = format!("16 31 {graph} {counts} 2 0 2 63 65 0\n");
    let words = format!("2 0 2 31 63 65 {graph} {counts}");
    assert_eq!(answers(&request).0, case(16, &words, "", &page(&rows)));
}

#[test]
fn a_refused_page_says_why() {
    let graph = "5 576 64 1153 1090 194 3 0 3 1 1 2 0";
    let many = |len: usize| format!("{len}{}", " 65".repeat(len));
    for (inputs, refusal) in [
        // A title too long comes before all; B has no label; a label and a byte
        // of the title are not printable.
        (format!("0 {}", many(41)), 19),
        ("2 63 7 1 7".into(), 21),
        ("3 63 65 321 0".into(), 26),
        ("3 63 65 66 1 127".into(), 26),
    ] {
        let (list, _) = answers(&format!("16 {graph} {inputs}\n"));
        assert!(list.ends_with(&format!(" {refusal}\n")), "{list}");
    }
}

// The bytes of a label file and of a text, as numbers.
fn listed(text: &str) -> String {
    let bytes: Vec<String> = text.bytes().map(|byte| byte.to_string()).collect();
    bytes.join(" ")
}

// The answer to a request of call 17 or 18: the place and the rooms, a label file,
// a text. The case's words and bytes are checked here.
fn typed(call: u32, inputs: &str, labels: &str, text: &str) -> String {
    let (file, line) = (listed(labels), listed(text));
    let (labels, text) = (labels.len(), text.len());
    let request = format!("{call} {inputs} {labels} {file} {text} {line}");
    let (list, _) = answers(&(request.trim_end().to_string() + "\n"));
    let bytes = format!("{file} {line}");
    let asked = case(call, &format!("{inputs} {labels}"), bytes.trim(), "");
    let answer = list.strip_prefix(asked.trim_end_matches('\n'));
    answer
        .expect("a case of the request")
        .trim_end()
        .to_string()
}

// A and AB have tiles 1 and 3, B has 2; and there are two lower tiles for é.
const LABELS: &str = "1\tA\n2\tB\r3\tAB\r\n9\té\n7\té\n8\té";

#[test]
fn a_line_is_read_with_its_places_and_tiles() {
    for (inputs, text, answer) in [
        ("0 9", "ABBA", "0 1 0 0 4 4 3 3 2 1"),
        ("1 9", "ABBA", "0 1 0 1 4 4 3 2 2 1"),
        ("0 9", "\n\rAé B\r\nA", "0 1 0 2 7 9 2 1 7"),
        ("8 9", "\n\rAé B\r\nA", "0 1 0 9 10 10 1 1"),
        // The text's end, and past it; no line that is not empty.
        ("4 9", "ABBA", "0 0 0 0 0 0 0"),
        ("4294967295 9", "ABBA", "0 0 0 0 0 0 0"),
        ("0 9", "\r\n\n", "0 0 0 0 0 0 0"),
        // A blank at the start, an unreadable byte, and too little room.
        ("0 9", "\n A", "28 0 1 0 0 0 0"),
        ("0 2", "BA?B", "28 0 2 0 0 0 0 2 1"),
        ("0 2", "BAA?", "16 0 0 0 0 0 0 2 1"),
        ("0 2", "BA\tA", "0 1 0 0 4 4 2 2 1"),
    ] {
        assert_eq!(typed(17, inputs, LABELS, text), answer, "{inputs} {text:?}");
    }
}

#[test]
fn lines_are_read_up_to_what_stops_the_reading() {
    let text = "AA\n\nB é\r?";
    for (inputs, answer) in [
        ("0 9 9", "0 1 0 2 3 9 2 1 1 1 2"),
        ("0 9 1", "0 1 0 1 2 3 2 1 1"),
        ("0 2 9", "0 1 0 1 2 3 2 1 1"),
        ("2 9 9", "0 1 0 1 1 9 1 2"),
        ("9 9 9", "28 0 9 0 0 0"),
        ("9 9 0", "16 0 0 0 0 0"),
        ("0 1 9", "16 0 0 0 0 0"),
        ("10 0 0", "0 0 0 0 0 0"),
    ] {
        assert_eq!(typed(18, inputs, LABELS, text), answer, "{inputs}");
    }
}

#[test]
fn a_bad_label_file_is_refused_before_all() {
    for (labels, line) in [
        ("\n", 1),
        ("1\tA\n01\tB\n?", 2),
        ("1\tA\r\r2\tB", 2),
        ("63\tA\n64\tA", 2),
        (&"1\tA\n".repeat(257), 257),
    ] {
        assert_eq!(
            typed(17, "9 0", labels, "?"),
            format!("27 0 {line} 0 0 0 0")
        );
        assert_eq!(
            typed(18, "9 0 0", labels, "?"),
            format!("27 0 {line} 0 0 0")
        );
    }
}

#[test]
fn what_lines_of_the_rust_cannot_hold_is_not_asked() {
    // Call 17 takes such bytes in one line, call 18 does not.
    for request in [
        "17 0 9 0 2 255 10",
        "18 0 9 9 0 1 255",
        "17 0 65 0 0",
        "18 0 0 17 0 0",
    ] {
        let output = oracle(&["answers"], &format!("{request}\n"));
        assert!(!output.status.success(), "{request}");
    }
    assert_eq!(
        answers("17 0 9 0 1 255\n").0,
        case(17, "0 9 0", "255", "28 0 0 0 0 0 0")
    );
}

// A line of an evening, with the length of its list after the first number.
fn with_length(line: &str) -> String {
    let (kind, list) = line.split_once(' ').unwrap_or((line, ""));
    let len = list.split_whitespace().count();
    format!("{kind} {len} {list}").trim_end().to_string() + "\n"
}

// Holds an evening to the answer that stands beside each call. What is said of the
// run.
fn evening(begin: &str, calls: &[(&str, &str)]) -> String {
    let lines: String = calls.iter().map(|(call, _)| with_length(call)).collect();
    let begins = with_length(begin);
    let output = oracle(&["evening-answers"], &format!("# {begin}\n{begins}{lines}"));
    assert!(output.status.success());
    let answers: String = calls.iter().map(|(_, said)| format!("{said}\n")).collect();
    assert_eq!(text(output.stdout), answers, "{begin}");
    text(output.stderr)
}

#[test]
fn an_evening_is_answered_by_its_history() {
    // The words are 1, 1 2 and 2 2, from node 2.
    let begin = "0 2 1 5 576 64 1153 1090 194 3 0 3 1 1";
    let calls = [
        ("2 1", "31 0 0 0 0"),
        ("1 1 2", "0 1 2 0 2"),
        ("1 1 2", "30 0 0 0 2"),
        ("1 1", "0 1 1 2 3"),
        ("1 2", "29 0 0 0 3"),
        ("2", "29 0 0 0 3"),
        ("1 2 2", "0 0 0 0 7"),
        ("2 1", "0 1 1 0 6"),
        ("2 1 2", "0 1 2 0 4"),
        ("2 1 2", "31 0 0 0 4"),
    ];
    let said = evening(begin, &calls);
    assert_eq!(
        said,
        "10 calls, 1 evenings by the Rust, 0 by what is lent\n"
    );
    // From the middle of the run there is 2 2, from nodes 0 and 1 nothing; and a record
    // that is too short or longer than it has to be.
    let graph = "5 576 64 1153 1090 194 3 0 3 1 1";
    for (head, first, second) in [
        ("3 1", "29 0 0 0 0", "0 0 0 0 1"),
        ("1 0", "29 0 0 0", "29 0 0 0"),
        ("0 2", "29 0 0 0 0 0", "29 0 0 0 0 0"),
        ("2 0", "11 0 0 0", "11 0 0 0"),
        ("2 2", "0 1 2 1 1 0", "0 1 1 1 5 0"),
    ] {
        let calls = [("1 1", first), ("1 2 2", second)];
        evening(&format!("0 {head} {graph}"), &calls);
    }
}

#[test]
fn an_evening_by_other_counts_is_answered_by_what_is_lent() {
    let graph = "5 576 64 1153 1090 194";
    for (start, counts, answers) in [
        // A start and a count that are not lent; start 0 needs no count.
        (9, "3 0 3 1 1", ["14 0 0 0 0"; 3]),
        (2, "3 0", ["14 0 0 0 0"; 3]),
        (0, "", ["29 0 0 0 0"; 3]),
        // Counts of further tiles that are not lent, a difference below 0, and a
        // number that is not below the count.
        (2, "3 0 3 1", ["0 1 2 1 1", "14 0 0 0 1", "14 0 0 0 1"]),
        (2, "3 0 1 2 1", ["0 0 0 0 1", "29 0 0 0 1", "15 0 0 0 1"]),
        (2, "3 0 2 0 1", ["0 1 1 1 1", "0 0 0 0 3", "29 0 0 0 3"]),
        // Two words with one number; and of a great count only a difference.
        (2, "3 0 3 2 1", ["0 1 2 1 1", "0 1 1 2 3", "30 0 0 0 3"]),
        (
            2,
            "3 0 3 1 4294967295",
            ["0 1 2 1 1", "0 1 1 2 3", "0 0 0 0 7"],
        ),
    ] {
        let begin = format!("0 {start} 1 {graph} {counts}");
        let calls = [
            ("1 1", answers[0]),
            ("1 1 2", answers[1]),
            ("1 2 2", answers[2]),
        ];
        let said = evening(begin.trim_end(), &calls);
        assert_eq!(said, "3 calls, 0 evenings by the Rust, 1 by what is lent\n");
    }
}

#[test]
fn an_unreadable_evening_stops_the_run() {
    let long = format!("0 1001 2 1 0{}", " 0".repeat(998));
    for lines in [
        "1 1 1",
        "3 1 1",
        "",
        "0 2 2 1",
        "0 7 2 1 5 576 64 1153 1090",
        "0 3 2 1001 0",
        "0 4 2 1 0 01",
        "0 3 2 1 0\n1 1 256",
        "0 3 2 1 0\n1  1 1",
        "0 3 2 1 0\n1 1 1 2",
        "0 3 2 1 0\n1 2 1",
        &long,
    ] {
        let output = oracle(&["evening-answers"], &format!("# first\n{lines}\n"));
        assert!(!output.status.success(), "{lines:?} is answered");
        let line = 1 + lines.split('\n').count();
        assert!(text(output.stderr).contains(&format!("line {line}:")));
        assert!(output.stdout.is_empty());
    }
}

#[test]
fn the_evenings_are_the_same_each_time_and_fully_answered() {
    let evenings = text(oracle(&["evenings"], "").stdout);
    assert_eq!(evenings, text(oracle(&["evenings"], "").stdout));

    let output = oracle(&["evening-answers"], &evenings);
    assert!(output.status.success());
    let calls = evenings
        .lines()
        .filter(|line| !line.starts_with(['#', '0']));
    assert_eq!(text(output.stdout).lines().count(), calls.count());
}

#[test]
fn a_word_list_is_built() {
    // None; 1, 1 2 and 2 2; and 1 2 and 2 2 1, whose runs are met one after the other.
    for (list, work, nodes) in [
        ("", 64, "64 64"),
        ("1 1 2 1 2 2 2 2", 128, "576 64 1153 1090 194"),
        ("2 1 2 3 2 2 1", 120, "576 64 1025 1346 194 1602 193"),
    ] {
        let (len, count) = (list.split_whitespace().count(), nodes.split(' ').count());
        let request = format!("19 {work} {count} {len} {list}");
        let answer = format!("0 {count} {nodes}");
        let expected = case(19, &format!("{work} {count}"), list, &answer);
        assert_eq!(
            answers(&(request.trim_end().to_string() + "\n")).0,
            expected
        );
    }
}

#[test]
fn a_refused_word_list_says_why() {
    for (lent, list, refusal) in [
        // A length, a tile, a cut word, and the first of two bad words.
        ("0 0", "0", 32),
        ("0 0", "1 64", 32),
        ("0 0", "1 1 2 2", 32),
        ("0 0", "1 2 1 1 0", 33),
        ("0 0", "1 2 0 1 1", 32),
        // Words that are equal, and in the wrong order.
        ("0 0", "1 1 1 1", 33),
        ("0 0", "2 1 1 1 1", 33),
        // Too few numbers; too few nodes.
        ("79 9", "1 1", 11),
        ("80 2", "1 1", 11),
    ] {
        let len = list.split(' ').count();
        let request = format!("19 {lent} {len} {list}\n");
        let expected = case(19, lent, list, &format!("{refusal} 0"));
        assert_eq!(answers(&request).0, expected);
    }
}

#[test]
fn what_an_alphabet_or_a_text_cannot_hold_is_not_asked() {
    let graph = "5 576 64 1153 1090 194";
    for request in [
        // A label of white space, a name that is not UTF-8, a title of a number
        // that is no code point, and an alphabet of none.
        format!("14 {graph} 0 3 63 32 66 0"),
        format!("14 {graph} 0 3 63 65 66 1 255"),
        format!("15 {graph} 3 63 65 66 1 55296 0"),
        format!("15 {graph} 0 0 0"),
    ] {
        let output = oracle(&["answers"], &(request + "\n"));
        assert!(!output.status.success());
    }
}

#[test]
fn a_refusal_names_the_node_and_keeps_what_was_done() {
    // The second node has tile 64 and arc 3, and half a node comes after.
    let (list, _) = answers("4 0 1 10 1 0 64 5 3 0 0 64 7 7\n3 0 1 1073741827\n");
    assert_eq!(
        list,
        "4 2 0 1 10 1 0 64 5 3 0 0 64 7 7 6 3 1 64 69 1 0 0 3 0 0 64 7 7\n\
         3 3 0 1 1073741827 0 6 64 3\n"
    );
}

#[test]
fn an_unreadable_request_stops_the_run() {
    for request in [
        "1 0",
        "1 0 0 0",
        "1 2 0",
        "9999",
        "1  0 0",
        "1 0 00",
        "",
        "4 0 1 5 1",
        "19 4097 2 0",
        "19 64 513 0",
    ] {
        let output = oracle(&["answers"], &format!("# first\n{request}\n"));
        assert!(!output.status.success(), "{request:?} is answered");
        assert!(text(output.stderr).contains("line 2:"));
    }
}

#[test]
fn the_lists_are_the_same_each_time_and_fully_answered() {
    let asked = [
        "requests", "nodes", "loading", "numbers", "letters", "macondo", "lxd", "pages", "typed",
        "built",
    ];
    let requests = text(oracle(&asked, "").stdout);
    assert_eq!(requests, text(oracle(&asked, "").stdout));

    let (list, said) = answers(&requests);
    assert!(said.ends_with(" cases, 0 panic, 0 died\n"), "{said}");
    assert_eq!(list.lines().count(), requests.lines().count());
    for (line, request) in list.lines().zip(requests.lines()) {
        if request.starts_with('#') {
            assert_eq!(line, request);
        } else {
            assert_eq!(line.split(' ').next(), request.split(' ').next());
            assert!(line.bytes().all(|b| b.is_ascii_digit() || b == b' '));
        }
    }
}
