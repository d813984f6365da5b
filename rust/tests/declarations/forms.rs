//! The parsers themselves: the forms that they know, and that a changed declaration is told apart.
use super::*;

/// Texts that declare the same three calls, with every form that the parsers know.
const RATTLE: &str = r#"
// A comment.
use view::REPORT;
ghost use Rattle.codes.specs.Code.{lent, Wrote};

#[unsafe(no_mangle)]
pub extern "C" fn one(n: usize) -> usize
    ensures { result ≡ size_for n }
{
    helper(n)
}

fn helper(n: usize) -> usize {
    n
}

#[unsafe(no_mangle)]
pub extern "C" fn two(b: &mut [u8], report: &[u8; REPORT], cut: bool, sums: &mut [u32; 4],) -> u8 {
    0
}

#[unsafe(no_mangle)]
pub extern "C" fn three(out: &[u8], numbers: &[u64; 4], length: &mut usize) -> u8 {
    0
}

#[unsafe(no_mangle)]
pub extern "C" fn four() -> usize {
    0
}
"#;

const C: &str = r#"
/* A comment
 * of two lines. */
#ifndef SNAPSHOT_H
#define SNAPSHOT_H
#include <stddef.h>
#ifndef __cplusplus
#include <stdbool.h>
#endif
#define SNAPSHOT_REPORT 8
#define SNAPSHOT_CLUSTER(n) (2 + 73353 * (n))
enum some { SNAPSHOT_A = 1, /* one */ SNAPSHOT_B = 2 };
static inline bool some(uint8_t code)
{
    if (code) { return true; }
    return false;
}
#ifdef __cplusplus
extern "C" {
#endif
size_t one(size_t n);
uint8_t two(uint8_t *b, size_t b_len, const uint8_t report[SNAPSHOT_REPORT], bool cut,
            uint32_t sums[4]);
uint8_t three(const uint8_t *out, size_t out_len, const uint64_t numbers[4], size_t *length);
size_t four(void);
#ifdef __cplusplus
}
#endif
#endif
"#;

const RAW: &str = r#"
//! A comment.
use crate::{REPORT, VIEW};

extern "C" {
    pub fn one(n: usize) -> usize;
    pub fn two(b: *mut u8, b_len: usize, report: *const [u8; REPORT], cut: bool, sums: *mut [u32; 4]) -> u8;
    pub fn three(
        out: *const u8,
        out_len: usize,
        numbers: *const [u64; 4],
        length: *mut usize,
    ) -> u8;
    pub fn four() -> usize;
}
"#;

fn of_rattle(text: &str) -> Parsed<Calls> {
    rattle::parse(text, &|_, name| size(name))
}

fn of_c(text: &str) -> Parsed<Calls> {
    c::parse(text).map(|header| header.calls)
}

fn of_raw(text: &str) -> Parsed<Calls> {
    raw::parse(text, &size)
}

#[test]
fn the_forms_that_the_parsers_know() {
    let calls = of_rattle(RATTLE).unwrap();
    assert_eq!(calls.len(), 4);
    let bytes = |written, length| Type::Lent { written, number: Number::Byte, length };
    let two = Call {
        parameters: vec![
            ("b".to_string(), bytes(true, None)),
            ("b_len".to_string(), Type::Given(Number::Size)),
            ("report".to_string(), bytes(false, Some(8))),
            ("cut".to_string(), Type::Given(Number::Bool)),
            ("sums".to_string(), Type::Lent { written: true, number: Number::Word32, length: Some(4) }),
        ],
        result: Number::Byte,
    };
    assert_eq!(calls["two"], two);
    assert_eq!(of_c(C).unwrap(), calls);
    assert_eq!(of_raw(RAW).unwrap(), calls);
    let header = c::parse(C).unwrap();
    assert_eq!(header.numbers["SNAPSHOT_REPORT"], 8);
    assert_eq!(header.enums["some"], [("SNAPSHOT_A".to_string(), 1), ("SNAPSHOT_B".to_string(), 2)]);
}

/// Each edit of a text must be told apart: another declaration, or one that is not understood.
fn tells_apart(text: &str, parse: impl Fn(&str) -> Parsed<Calls>, edits: &[(&str, &str)]) {
    let calls = parse(text).unwrap();
    for (from, to) in edits {
        assert_eq!(text.matches(from).count(), 1, "{from} stands once");
        let other = parse(&text.replace(from, to));
        assert_ne!(other.as_ref(), Ok(&calls), "{from} became {to}");
    }
}

#[test]
fn a_changed_rattle_text_is_told_apart() {
    let edits = [
        ("one(n: usize)", "one()"),
        ("one(n: usize)", "one(m: usize)"),
        ("one(n: usize) -> usize", "one(n: usize) -> u8"),
        ("one(n: usize) -> usize", "one(n: usize)"),
        ("fn one", "fn other"),
        ("fn one", "fn two"),
        ("b: &mut [u8], ", ""),
        ("b: &mut [u8], ", "b: &[u8], "),
        ("b: &mut [u8], ", "b: &mut [u64], "),
        ("[u8; REPORT]", "[u8; VIEW]"),
        ("[u8; REPORT]", "[u8; 9]"),
        ("[u8; REPORT]", "[u8; UNKNOWN]"),
        ("[u8; REPORT]", "[u8]"),
        ("cut: bool", "cut: u8"),
        ("cut: bool", "cut: Bool"),
        ("sums: &mut [u32; 4]", "sums: &mut [u64; 4]"),
        ("cut: bool, sums: &mut [u32; 4]", "sums: &mut [u32; 4], cut: bool"),
        ("length: &mut usize", "length: &usize"),
        ("length: &mut usize", "length: usize"),
        ("numbers: &[u64; 4]", "numbers: &mut [u64; 4]"),
        ("#[unsafe(no_mangle)]\npub extern \"C\" fn one", "pub extern \"C\" fn one"),
        ("#[unsafe(no_mangle)]\npub extern \"C\" fn one", "#[no_mangle]\npub extern \"C\" fn one"),
        ("#[unsafe(no_mangle)]\npub extern \"C\" fn one", "#[unsafe(no_mangle)]\npub fn one"),
        ("#[unsafe(no_mangle)]\npub extern \"C\" fn one", "pub fn one"),
        ("#[unsafe(no_mangle)]\npub extern \"C\" fn one", "#[unsafe(no_mangle)]\nextern \"C\" fn one"),
        ("pub extern \"C\" fn four", "pub extern \"D\" fn four"),
        ("\nfn helper", "\npub fn helper"),
    ];
    tells_apart(RATTLE, of_rattle, &edits);
}

#[test]
fn a_changed_header_is_told_apart() {
    let edits = [
        ("one(size_t n)", "one(void)"),
        ("one(size_t n)", "one(size_t m)"),
        ("one(size_t n)", "one(size_t)"),
        ("one(size_t n)", "one()"),
        ("size_t one", "uint8_t one"),
        ("size_t one", "int one"),
        ("size_t one", "size_t *one"),
        ("size_t one(size_t n);", ""),
        ("size_t one(size_t n);", "/* size_t one(size_t n); */"),
        ("size_t one(size_t n);", "size_t one(size_t n)"),
        ("size_t one(size_t n);", "typedef int some_type;"),
        ("uint8_t *b, ", ""),
        ("uint8_t *b, ", "const uint8_t *b, "),
        ("uint8_t *b, ", "uint64_t *b, "),
        ("uint8_t *b, ", "uint8_t **b, "),
        ("size_t b_len", "size_t len"),
        ("const uint8_t report", "uint8_t report"),
        ("REPORT 8", "REPORT 9"),
        ("REPORT 8", "REPORT (8"),
        ("report[SNAPSHOT_REPORT]", "report[9]"),
        ("report[SNAPSHOT_REPORT]", "report[]"),
        ("report[SNAPSHOT_REPORT]", "report[SNAPSHOT_UNKNOWN]"),
        ("bool cut", "uint8_t cut"),
        ("uint32_t sums", "uint64_t sums"),
        ("const uint64_t numbers", "uint64_t numbers"),
        ("size_t *length", "size_t length"),
        ("size_t *length", "const size_t *length"),
        ("size_t four(void);", "size_t four(void); size_t four(void);"),
        ("size_t four(void);", "size_t four(void); size_t five(void);"),
        ("#ifdef __cplusplus\nextern \"C\" {", "#ifdef __cplusplus\nextern \"C\" { uint8_t six(void);"),
        ("#ifndef __cplusplus", "#ifndef OTHER"),
        ("#include <stddef.h>", "#pragma once"),
        ("#include <stddef.h>", "#include <stddef.h>\n#if 0"),
        ("#include <stddef.h>", "#include \\\n<stddef.h>"),
        ("SNAPSHOT_B = 2", "SNAPSHOT_B"),
        ("/* A comment", "A comment"),
    ];
    tells_apart(C, of_c, &edits);
}

#[test]
fn a_changed_block_of_declarations_is_told_apart() {
    let edits = [
        ("one(n: usize)", "one()"),
        ("one(n: usize)", "one(m: usize)"),
        ("one(n: usize) -> usize", "one(n: usize) -> u8"),
        ("one(n: usize) -> usize", "one(n: usize)"),
        ("pub fn one(n: usize) -> usize;", ""),
        ("pub fn one(n: usize) -> usize;", "pub static one: usize;"),
        ("pub fn one(n: usize) -> usize;", "#[link_name = \"x\"] pub fn one(n: usize) -> usize;"),
        ("b: *mut u8, ", ""),
        ("b: *mut u8, ", "b: *const u8, "),
        ("b: *mut u8, ", "b: *mut u64, "),
        ("b: *mut u8, ", "b: &mut u8, "),
        ("b_len", "len"),
        ("*const [u8; REPORT]", "*mut [u8; REPORT]"),
        ("*const [u8; REPORT]", "*const [u8; VIEW]"),
        ("*const [u8; REPORT]", "*const u8"),
        ("cut: bool", "cut: u8"),
        ("sums: *mut [u32; 4]", "sums: *mut [u32; 5]"),
        ("length: *mut usize", "length: *mut u32"),
        ("    pub fn four() -> usize;\n}", "    pub fn four() -> usize;\n}\nextern \"C\" { pub fn five() -> usize; }"),
        ("    pub fn four() -> usize;\n}", "    pub fn four() -> usize;\n}\nfn other() {}"),
        ("    pub fn four() -> usize;\n}", "    pub fn four() -> usize;\n"),
        ("extern \"C\"", "extern \"system\""),
    ];
    tells_apart(RAW, of_raw, &edits);
}
