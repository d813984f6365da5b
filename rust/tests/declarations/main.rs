//! Three texts declare the proved calls: `crates/snapshot/src/lib.rt`, which has them, `include/snapshot.h` for C, and
//! `rust/src/raw.rs` for this crate. They must declare the same: names, results, parameters with their names, widths,
//! lengths, and whether what is lent is written. What a parser does not know is an error, so nothing is passed over.
mod c;
mod forms;
mod rattle;
mod raw;
mod tokens;

use snapshot::lent::{DONE, SCAN, SPENT, TAKEN, TO_ALL, TO_SENDER};
use snapshot::{Message, Refusal, Report};
use std::collections::BTreeMap;
use tokens::without_comments;

/// A number that crosses.
#[derive(Clone, Copy, Debug, PartialEq)]
enum Number {
    Size,
    Byte,
    Word32,
    Word64,
    Bool,
}

/// What a parameter is once it crosses. A slice is a pointer and, as a parameter of its own, a length.
#[derive(Clone, Copy, Debug, PartialEq)]
enum Type {
    Given(Number),
    /// A pointer; an array has its length.
    Lent {
        written: bool,
        number: Number,
        length: Option<usize>,
    },
}

#[derive(Debug, PartialEq)]
struct Call {
    parameters: Vec<(String, Type)>,
    result: Number,
}

type Calls = BTreeMap<String, Call>;

/// What a parser answers, or what it does not know.
type Parsed<T> = Result<T, String>;

/// Adds a call, unless there is one of this name.
fn add(calls: &mut Calls, name: String, call: Call) -> Parsed<()> {
    match calls.insert(name.clone(), call) {
        None => Ok(()),
        Some(_) => Err(format!("{name} is declared twice")),
    }
}

fn file(path: &str) -> Parsed<String> {
    let path = format!("{}/../{path}", env!("CARGO_MANIFEST_DIR"));
    std::fs::read_to_string(&path).map_err(|e| format!("{path}: {e}"))
}

/// The sizes of this crate, by their names.
const SIZES: [(&str, usize); 8] = [
    ("RECORD", snapshot::RECORD),
    ("OUTPUT", snapshot::OUTPUT),
    ("LONGEST", snapshot::LONGEST),
    ("FRAME", snapshot::FRAME),
    ("FRAME_OUTPUT", snapshot::FRAME_OUTPUT),
    ("VIEW", snapshot::VIEW),
    ("REPORT", snapshot::REPORT),
    ("LINE", snapshot::LINE),
];

fn size(name: &str) -> Parsed<usize> {
    let found = SIZES.iter().find(|(known, _)| *known == name);
    found.map(|&(_, size)| size).ok_or_else(|| format!("{name} is no size of the crate"))
}

fn header() -> c::Header {
    c::parse(&file("include/snapshot.h").unwrap()).unwrap()
}

#[test]
fn the_three_texts_declare_the_same() {
    let proved = rattle::parse(&file("crates/snapshot/src/lib.rt").unwrap(), &rattle::constant).unwrap();
    let header = header().calls;
    let raw = raw::parse(&file("rust/src/raw.rs").unwrap(), &size).unwrap();
    for (other, calls) in [("snapshot.h", &header), ("raw.rs", &raw)] {
        for (name, call) in &proved {
            assert_eq!(calls.get(name), Some(call), "{name} in {other}");
        }
        for name in calls.keys() {
            assert!(proved.contains_key(name), "{name} of {other} is not in lib.rt");
        }
    }
    assert_eq!(proved.len(), 18);
}

#[test]
fn the_header_has_the_sizes_of_the_crate() {
    let header = header();
    for (name, size) in SIZES {
        assert_eq!(header.numbers.get(&format!("SNAPSHOT_{name}")), Some(&size), "{name}");
    }
    assert_eq!(snapshot::lent::node_size(), snapshot::RECORD);
}

#[test]
fn the_header_has_the_sizes_of_the_proved_code() {
    let header = header();
    for (name, module) in [
        ("NODES", "view/src/lib"),
        ("REPORT", "view/src/lib"),
        ("ENTRY", "view/src/lib"),
        ("VIEW", "view/src/lib"),
        ("RECORD", "region/src/places"),
        ("OUTPUT", "calls/src/lib"),
        ("LONGEST", "wire/src/lib"),
        ("FRAME", "calls_bytes/src/lib"),
        ("FRAME_OUTPUT", "calls_bytes/src/lib"),
        ("LINE", "page/src/lib"),
    ] {
        let text = without_comments(&file(&format!("crates/{module}.rt")).unwrap()).unwrap();
        let size = rattle::constant(&text, name).unwrap();
        assert_eq!(header.numbers.get(&format!("SNAPSHOT_{name}")), Some(&size), "{name}");
    }
    assert_eq!(header.numbers.len(), 10);
}

/// The formulas of the header, which its parser does not look at.
#[test]
fn the_header_has_the_sizes_for_n_nodes() {
    let text = file("include/snapshot.h").unwrap();
    let formulas: Vec<&str> = text.lines().filter(|line| line.starts_with("#define") && line.contains("(n)")).collect();
    let expected =
        ["#define SNAPSHOT_PAGE(n) (SNAPSHOT_LINE * ((n) + 1))", "#define SNAPSHOT_CLUSTER(n) (2 + 73353 * (n))"];
    assert_eq!(formulas, expected);
    for n in 1..=16 {
        assert_eq!(snapshot::page_size(n), snapshot::LINE * (n + 1));
        assert_eq!(snapshot::lent::size(n), 2 + 73353 * n);
    }
}

#[test]
fn the_header_has_the_refusals_of_the_crate() {
    let expected = Refusal::ALL.map(|r| (format!("SNAPSHOT_REFUSED_{r:?}").to_uppercase(), usize::from(r.number())));
    assert_eq!(header().enums["snapshot_refusal"], expected);
}

/// The cases of an enum as the header has them.
fn cases<const N: usize>(cases: [(&str, u8); N]) -> Vec<(String, usize)> {
    cases.map(|(name, number)| (format!("SNAPSHOT_{name}"), usize::from(number))).to_vec()
}

#[test]
fn the_header_has_the_endings_of_the_crate() {
    let expected = cases([
        ("TAKEN", TAKEN),
        ("SPENT", SPENT),
        ("DONE_BORROWED", DONE),
        ("DONE_ROUND_1", DONE + 1),
        ("DONE_ROUND_2", DONE + 2),
        ("DONE_ROUND_3", DONE + 3),
        ("SCAN_BORROWED", SCAN),
        ("SCAN_ROUND_1", SCAN + 1),
        ("SCAN_ROUND_2", SCAN + 2),
        ("SCAN_ROUND_3", SCAN + 3),
    ]);
    assert_eq!(header().enums["snapshot_ending"], expected);
}

#[test]
fn the_header_has_the_routes_of_the_crate() {
    assert_eq!(header().enums["snapshot_route"], cases([("TO_ALL", TO_ALL), ("TO_SENDER", TO_SENDER)]));
}

#[test]
fn the_header_has_the_kinds_of_the_crate() {
    let (request, tag, report) = (1, 1, Report::default());
    let kinds = [
        ("READ", Message::Read { request }),
        ("READ_ANSWER", Message::ReadAnswer { request, tag }),
        ("WRITE", Message::Write { request, tag }),
        ("WRITE_ANSWER", Message::WriteAnswer { request, tag }),
        ("ECHO", Message::Echo { tag }),
        ("VALUE", Message::Value { tag, writer: 1, report }),
        ("GOOD", Message::Good { tag }),
    ];
    let expected = kinds.map(|(name, message)| {
        let mut bytes = [0; snapshot::LONGEST];
        message.write(1, &[0; 16], &mut bytes).unwrap();
        (format!("SNAPSHOT_KIND_{name}"), usize::from(bytes[3]))
    });
    assert_eq!(header().enums["snapshot_kind"], expected);
}
