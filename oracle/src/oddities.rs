//! Lines that are bad, and good ones that look odd.

use crate::dice::Dice;

/// Mostly n and f, now and then with zeros before them or bad.
pub fn first_line(dice: &mut Dice, n: usize, f: usize) -> Vec<u8> {
    #[rustfmt::skip]
    const BAD: [&str; 28] = [
        "", " ", "0 0", "6 2", "16 7", " 3 1", "+3 1", "00003 1", "n f", "99999 0", "3", "3 ", "3  1", "3 1 ", "3 1 1",
        "3\t1", "3,1", "3 1\r", "3 -1", "3 +1", "3 00001", "1 1", "2 1", "3 2", "4 2", "5 3", "5 8", "5 9999",
    ];
    let line = match dice.below(100) {
        0..=2 => dice.pick(&BAD).to_string(),
        3..=7 => zeros_before_numbers(&format!("{n} {f}")),
        _ => format!("{n} {f}"),
    };
    format!("{line}\n").into_bytes()
}

/// A line that means nothing.
pub fn bad_line(dice: &mut Dice) -> Vec<u8> {
    #[rustfmt::skip]
    const BAD: [&str; 34] = [
        "", " ", "u", "s", "d", "x", "u 1", "d 1", "q 1", " s 1", "s 1 ", "s\t1", "s 1\r", "s 12345", "s -1", "s +1",
        "s 1 2", "s 1 cut x", "s 1 cut 12345", "s 1 cut 1 1", "s 1 CUT 1", "d 1  1", "d 1 1 1", "x 1 1", "x 1 cut 0",
        "U 1 0000000000000000", "u 1 000000000000000", "u 1 00000000000000000", "u 1 00000000000000AB",
        "u 1 000000000000000g", "u  1 0000000000000000", "u 1 0000000000000000 ", "u 1 0000000000000000 cut",
        "u 1 0000000000000000 cut ",
    ];
    match dice.below(12) {
        0 => (0..1 + dice.below(60)).map(|_| dice.number() as u8).filter(|&byte| byte != b'\n').collect(),
        1 => vec![b'1'; dice.pick(&[32, 39, 40, 41, 42, 500])],
        2 => format!("u 1 {}", "0".repeat(dice.pick(&[15, 17, 36, 37]))).into_bytes(),
        _ => dice.pick(&BAD).as_bytes().to_vec(),
    }
}

/// The same line with each short number written with four digits.
pub fn zeros_before_numbers(line: &str) -> String {
    let wide = |word: &str| match word.parse::<usize>() {
        Ok(number) if word.len() < 4 => format!("{number:04}"),
        _ => word.to_string(),
    };
    line.split(' ').map(wide).collect::<Vec<_>>().join(" ")
}
