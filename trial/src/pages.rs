//! Views by chance for the desk's page, with their n and the buffer that is lent: such as are one, and what is nearly.

use crate::chance::{extreme, noise, report};
use crate::records::nodes;
use crate::stored::{entry, Words};
use oracle::dice::Dice;
use oracle::message::LIMIT;
use oracle::record::NODES;
use oracle::wire::ENTRY;

/// The bytes of a line.
const LINE: usize = 35;

/// What is lent for a page: the bytes of a view, and so many for the page.
pub struct Page {
    pub n: usize,
    pub view: Vec<u8>,
    pub size: usize,
}

impl Page {
    /// The bytes that a page of n nodes has, or the most that there may be.
    pub fn length(&self) -> usize {
        self.n.saturating_add(1).saturating_mul(LINE)
    }

    /// The tag and the report of each entry, as far as the bytes are some.
    pub fn entries(&self) -> impl Iterator<Item = (u64, u64)> + '_ {
        let number = |bytes: &[u8]| bytes.iter().fold(0, |sum, &byte| sum << 8 | u64::from(byte));
        self.view.chunks_exact(ENTRY).map(move |entry| (number(&entry[..ENTRY / 2]), number(&entry[ENTRY / 2..])))
    }
}

/// A view that the record holds, or one that is made up, as it is or with one fault or more.
pub fn page(dice: &mut Dice, words: &Words) -> Page {
    let mut entries = if dice.chance(500) { held(dice, words) } else { made_up(dice) };
    if dice.chance(150) {
        damage(dice, &mut entries);
    }
    let mut page = Page { n: entries.len(), view: bytes(&entries), size: 0 };
    if dice.chance(100) {
        damage_length(dice, &mut page.view);
    }
    if dice.chance(100) {
        renumber(dice, &mut page);
    }
    page.size = buffer(dice, page.length());
    page
}

fn bytes(entries: &[(u64, u64)]) -> Vec<u8> {
    entries.iter().flat_map(|&(tag, report)| [tag, report]).flat_map(u64::to_be_bytes).collect()
}

/// One of the record's views.
fn held(dice: &mut Dice, words: &Words) -> Vec<(u64, u64)> {
    let view = dice.below(4);
    (1..=nodes(words)).map(|writer| entry(view, writer)).map(|place| (words[place], words[place + 1])).collect()
}

/// A view whose counts have every number of digits; now and then all are the largest.
fn made_up(dice: &mut Dice) -> Vec<(u64, u64)> {
    let n = if dice.chance(200) { NODES } else { 1 + dice.below(NODES) };
    let full = dice.chance(100);
    let count = |dice: &mut Dice| dice.pick(&[0, 1, 9, 10, 99, 100, 999, 1000, 9999, 10_000, 65_535]);
    let shown = |dice: &mut Dice| match dice.below(4) {
        _ if full => (1, u64::MAX),
        0 => (0, 0),
        1 => (dice.pick(&[1, LIMIT]), report(dice)),
        _ => (1 + dice.number() % LIMIT, (0..4).fold(0, |sum, _| sum << 16 | count(dice))),
    };
    (0..n).map(|_| shown(dice)).collect()
}

/// Changes an entry or all of them, just within what a view may hold or just beyond.
fn damage(dice: &mut Dice, entries: &mut [(u64, u64)]) {
    let place = dice.below(entries.len());
    match dice.below(6) {
        0 => entries[place].0 = LIMIT + 1,
        1 => entries[place] = (0, 1 << dice.below(64)),
        2 => entries[place].0 = 1 << dice.below(64),
        3 => entries[place].0 = extreme(dice),
        4 => entries[place].1 = 0,
        _ => entries.iter_mut().for_each(|entry| *entry = (dice.number(), dice.number())),
    }
}

/// Another length than that of n entries.
fn damage_length(dice: &mut Dice, view: &mut Vec<u8>) {
    let length = view.len();
    let any = dice.below(2 * length);
    let size = dice.pick(&[0, length - 1, length - ENTRY, length + 1, length + ENTRY, any]);
    view.truncate(size);
    let more = size - view.len();
    view.extend(noise(dice, more));
}

/// Another n, at an end of what there may be or such that 16 n is the same in fewer bits; now and then with as many
/// entries as it says.
fn renumber(dice: &mut Dice, page: &mut Page) {
    let n = page.n;
    let any = NODES + 1 + dice.below(300);
    page.n = dice.pick(&[0, n - 1, n + 1, NODES, NODES + 1, any, n + (1 << 28), n + (1 << 60), usize::MAX]);
    if page.n < 1000 && dice.chance(700) {
        page.view.resize(ENTRY * page.n, 0);
    }
}

/// The bytes lent for a page that has so many: mostly enough. One that is far too long gets some.
fn buffer(dice: &mut Dice, length: usize) -> usize {
    let any = dice.below(2 * LINE * (NODES + 1));
    if length > 100_000 {
        return any;
    }
    match dice.below(20) {
        0 | 1 => length - 1,
        2 => dice.pick(&[0, 1, length - LINE, any.min(length - 1)]),
        3..=9 => length + dice.pick(&[1, LINE, 1 + any]),
        _ => length,
    }
}

#[cfg(test)]
mod tests {
    use super::*;
    use crate::records::crowded;
    use oracle::page;

    /// Without a fault, both kinds of views are such, of every n.
    #[test]
    fn what_is_drawn_is_a_view() {
        let mut dice = Dice::new(1);
        for _ in 0..1000 {
            let words = crowded(&mut dice);
            for entries in [held(&mut dice, &words), made_up(&mut dice)] {
                let n = entries.len();
                let mut out = vec![0; LINE * (n + 1)];
                assert_eq!(page::write(n, &bytes(&entries), &mut out), Ok(out.len()), "{entries:?}");
            }
        }
    }
}
