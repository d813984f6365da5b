//! What has occurred in pages: which views they showed, how their buffers were, and which faults came together.

use super::Tally;
use crate::pages::Page;
use oracle::message::LIMIT;
use oracle::page::SHORT_BUFFER;
use oracle::record::{BAD_LENGTH, BAD_NUMBER, NODES, NOT_OF_THE_LAYOUT};
use oracle::wire::ENTRY;

const ABSENT_BESIDE_ZEROS: &str = "page written: no report beside one of zeros";
const ALL_ABSENT: &str = "page written: no report at all";
const SEVEN_DIGITS: &str = "page written: the largest figures";
const TWO_WAIT: &str = "page written: two counts of calls waiting, neither 0";
const EXACT: &str = "page written: as long as its buffer";
const LONGER: &str = "page written: a longer buffer";
const ONE_SHORT: &str = "page refused: 15, one byte short";
const NO_BUFFER: &str = "page refused: 15, no byte";
const NO_VIEW: &str = "page refused: 12, no byte";
const ODD_LENGTH: &str = "page refused: 12, no whole entries";
const OTHER_LENGTH: &str = "page refused: 12, other entries than n";
const WRAPPED: &str = "page refused: 12, 16 n but for bits above the 64th";
const NO_NODE: &str = "page refused: 1, n is 0";
const ONE_NODE_MORE: &str = "page refused: 1, n is 17";
const MORE_NODES: &str = "page refused: 1, n is above 17";
const ABOVE_LIMIT: &str = "page refused: 7, one tag just above its limit";
const BESIDE_ZERO: &str = "page refused: 7, bytes beside one tag 0";

/// The faults of a page, in the order of their refusals.
const FAULTS: [u8; 4] = [BAD_LENGTH.0, BAD_NUMBER.0, NOT_OF_THE_LAYOUT.0, SHORT_BUFFER.0];

impl Tally {
    /// Counts a page by its answer, by what is special of it, and by the faults that it has behind the first.
    pub fn see_page(&mut self, page: &Page, code: u8) {
        self.count(format!("page: {code}"));
        let special = if code == 0 { written(page) } else { refused(page, code) };
        special.into_iter().for_each(|name| self.count(name));
        if code == 0 {
            self.count(of_nodes(page.n));
        }
        for fault in faults(page).into_iter().filter(|&fault| code != 0 && fault != code) {
            self.count(before(code, fault));
        }
    }
}

fn written(page: &Page) -> Vec<&'static str> {
    let has = |entry: (u64, u64)| page.entries().any(|found| found == entry);
    let zeros = page.entries().any(|(tag, report)| tag > 0 && report == 0);
    let cases = [
        (has((0, 0)) && zeros, ABSENT_BESIDE_ZEROS),
        (page.entries().all(|(tag, _)| tag == 0), ALL_ABSENT),
        (page.n == NODES && page.entries().all(|(_, report)| report == u64::MAX), SEVEN_DIGITS),
        (page.entries().filter(|(_, report)| report >> 16 & 0xffff > 0).count() > 1, TWO_WAIT),
        (page.size == page.length(), EXACT),
        (page.size > page.length(), LONGER),
    ];
    named(&cases)
}

fn refused(page: &Page, code: u8) -> Vec<&'static str> {
    let (n, length) = (page.n, page.view.len());
    let wrong: Vec<_> = page.entries().filter(|&entry| is_wrong(entry)).collect();
    let cases = [
        (code == 15 && page.size + 1 == page.length(), ONE_SHORT),
        (code == 15 && page.size == 0, NO_BUFFER),
        (code == 12 && length == 0, NO_VIEW),
        (code == 12 && length % ENTRY != 0, ODD_LENGTH),
        (code == 12 && length % ENTRY == 0, OTHER_LENGTH),
        (code == 12 && n.wrapping_mul(ENTRY) == length, WRAPPED),
        (code == 1 && n == 0, NO_NODE),
        (code == 1 && n == NODES + 1, ONE_NODE_MORE),
        (code == 1 && n > NODES + 1, MORE_NODES),
        (code == 7 && matches!(wrong[..], [(tag, _)] if tag == LIMIT + 1), ABOVE_LIMIT),
        (code == 7 && matches!(wrong[..], [(0, _)]), BESIDE_ZERO),
    ];
    named(&cases)
}

fn named(cases: &[(bool, &'static str)]) -> Vec<&'static str> {
    cases.iter().filter(|case| case.0).map(|case| case.1).collect()
}

/// Whether no view may have the entry.
fn is_wrong((tag, report): (u64, u64)) -> bool {
    tag > LIMIT || tag == 0 && report > 0
}

/// All that would refuse the page, each taken by itself.
fn faults(page: &Page) -> Vec<u8> {
    let found = [
        page.n.checked_mul(ENTRY) != Some(page.view.len()),
        !(1..=NODES).contains(&page.n),
        page.entries().any(is_wrong),
        page.size < page.length(),
    ];
    FAULTS.into_iter().zip(found).filter(|fault| fault.1).map(|fault| fault.0).collect()
}

fn of_nodes(n: usize) -> String {
    format!("page written: of {n:>2} nodes")
}

fn before(code: u8, fault: u8) -> String {
    format!("page refused: {code} before {fault}")
}

/// What has to occur.
pub(super) fn needed() -> Vec<String> {
    let special = [
        [ABSENT_BESIDE_ZEROS, ALL_ABSENT, SEVEN_DIGITS, TWO_WAIT, EXACT, LONGER, ONE_SHORT, NO_BUFFER].to_vec(),
        [NO_VIEW, ODD_LENGTH, OTHER_LENGTH, WRAPPED, NO_NODE, ONE_NODE_MORE, MORE_NODES].to_vec(),
        [ABOVE_LIMIT, BESIDE_ZERO].to_vec(),
    ];
    let pairs = (0..FAULTS.len()).flat_map(|k| FAULTS[k + 1..].iter().map(move |&fault| before(FAULTS[k], fault)));
    let special = special.concat().into_iter().map(String::from);
    special.chain((1..=NODES).map(of_nodes)).chain(pairs).collect()
}
