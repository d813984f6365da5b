//! Records that no run has left: usable ones with any contents, and damaged ones, most of them only just wrong or only
//! just not.

use crate::chance::{extreme, near, report};
use crate::stored::{
    entry, heard, Words, ANSWERED, AT_MAX, AT_ROUND, BORROWING, CODE, COMPARING, F, IDLE, KEPT, KEPT_VIEW, KIND,
    LARGEST, LAST, MAX_TAG, N, OWN, READING, REPORT, REQUEST, ROUND, TAG, WORDS, WRITING,
};
use oracle::cluster::most_faults;
use oracle::dice::Dice;
use oracle::habits::faults;
use oracle::message::{Tag, LIMIT};
use oracle::record::NODES;

/// Bits that a narrower number would lose.
const WIDE: u64 = 1 << 8;
const WIDER: u64 = 1 << 32;

/// The most nodes that the tables have place for, or as many as the record says.
pub fn nodes(words: &Words) -> usize {
    (words[N] as usize).clamp(1, NODES)
}

/// n, an f that they can bear and one of them as the own.
fn set_numbers(dice: &mut Dice, words: &mut Words) -> usize {
    let n = 1 + dice.below(NODES);
    (words[N], words[F], words[OWN]) = (n as u64, faults(dice, n) as u64, 1 + dice.below(n) as u64);
    n
}

/// The largest tag of a view.
fn largest_of(words: &Words, view: usize) -> Tag {
    (1..=NODES).map(|writer| words[entry(view, writer)]).max().unwrap_or(0)
}

/// A usable record whose tags are few and close together, low or just below the limit, so that they meet in every way;
/// most of these no run can leave.
pub fn crowded(dice: &mut Dice) -> Words {
    let mut words = [0; WORDS];
    let base = dice.pick(&[0, 0, LIMIT - 5]);
    let up_to = |dice: &mut Dice, tag: Tag| match dice.below(6) as u64 {
        0 => 0,
        more => (base + more - u64::from(base == 0)).min(tag),
    };
    let n = set_numbers(dice, &mut words);
    words[MAX_TAG] = up_to(dice, LIMIT);
    words[KEPT] = up_to(dice, LIMIT);
    words[REQUEST] = if dice.chance(700) { dice.below(6) as u64 } else { LIMIT - 5 - dice.below(3) as u64 };
    // Mostly up to n, as in a run; tables may hold more.
    let places = if dice.chance(700) { n } else { NODES };
    let lag = dice.pick(&[0, 100, 500, 1000]);
    for writer in 1..=places {
        let bounds = [(LAST, LIMIT), (AT_MAX, words[MAX_TAG]), (AT_ROUND, LIMIT), (KEPT_VIEW, words[KEPT])];
        for (view, bound) in bounds {
            put_report(dice, &mut words, view, writer, bound, up_to);
        }
        for sender in 1..=places {
            let tag = if dice.chance(lag) { up_to(dice, LIMIT) } else { words[entry(LAST, writer)] };
            words[heard(sender, writer)] = tag;
        }
    }
    set_wait(dice, &mut words);
    words
}

/// A report with a tag up to a bound; beside tag 0 none.
fn put_report(
    dice: &mut Dice,
    words: &mut Words,
    view: usize,
    writer: usize,
    bound: Tag,
    up_to: impl Fn(&mut Dice, Tag) -> Tag,
) {
    let tag = up_to(dice, bound);
    let place = entry(view, writer);
    (words[place], words[place + 1]) = (tag, if tag == 0 { 0 } else { report(dice) });
}

/// What is no record, or one only by its first words.
pub fn wild(dice: &mut Dice) -> Words {
    let mut words = [0; WORDS].map(|_| dice.number());
    match dice.below(5) {
        0 => words = [dice.pick(&[0, 1, LIMIT, u64::MAX]); WORDS],
        1 => (),
        // Any tags at all, but for the bounds.
        kind => {
            set_numbers(dice, &mut words);
            words[CODE..].iter_mut().for_each(|word| *word &= LIMIT);
            (words[MAX_TAG], words[KEPT], words[REQUEST], words[CODE]) = (LIMIT, LIMIT, LIMIT - 9, IDLE);
            if kind > 2 {
                set_wait(dice, &mut words);
            }
        }
    }
    words
}

/// Another wait, with numbers that leave a usable record usable; now and then also what makes its quorum agree.
pub fn set_wait(dice: &mut Dice, words: &mut Words) {
    let n = nodes(words);
    let [code, kind, round] = [dice.below(5) as u64, dice.below(2) as u64, dice.below(4) as u64];
    let tags = [MAX_TAG, MAX_TAG, KEPT, LARGEST].map(|word| words[word]);
    let tag = dice.pick(&[tags[0], tags[1], tags[2], tags[3], largest_of(words, AT_ROUND), largest_of(words, LAST)]);
    let tag = near(dice, tag).min(if code != BORROWING && round == 0 { LIMIT - 1 } else { LIMIT });
    let largest = near(dice, words[MAX_TAG]).min(LIMIT);
    (words[CODE], words[KIND], words[ROUND], words[TAG], words[LARGEST]) = (code, kind, round, tag, largest);
    words[ANSWERED] = some_senders(dice, n, words[F]);
    words[REPORT] = report(dice);
    // Words that the wait does not have may hold anything, or zero as in a run.
    if dice.chance(700) {
        let idle: &[usize] = match code {
            IDLE => &[KIND, ROUND, TAG, ANSWERED, LARGEST, REPORT],
            READING => &[ROUND, TAG],
            WRITING => &[LARGEST, REPORT],
            COMPARING => &[ANSWERED, LARGEST, REPORT],
            _ => &[ROUND, ANSWERED, LARGEST, REPORT],
        };
        idle.iter().for_each(|&word| words[word] = 0);
    }
    if code == WRITING || code == COMPARING {
        for writer in 1..=NODES {
            let place = entry(AT_ROUND, writer);
            if words[place] > tag {
                (words[place], words[place + 1]) = (0, 0);
            }
        }
    }
    words[REQUEST] = words[REQUEST].min(LIMIT - requests_to_come(words));
    if dice.chance(400) {
        for sender in (1..=n).filter(|_| dice.chance(800)) {
            (1..=n).for_each(|writer| words[heard(sender, writer)] = words[entry(LAST, writer)].min(LIMIT));
        }
    }
}

/// The senders of some answers: a little more or less than a quorum, by preference.
fn some_senders(dice: &mut Dice, n: usize, f: u64) -> u64 {
    let quorum = n - most_faults(n).min(f as usize);
    let count = dice.pick(&[0, quorum - 1, quorum - 1, quorum, n]);
    let mut mask = (1 << count) - 1;
    // Which ones they are: turned around by some places.
    for _ in 0..dice.below(n) {
        mask = (mask << 1 | mask >> (n - 1)) & ((1 << n) - 1);
    }
    mask
}

/// The request numbers that the wait of these words may still use, by its code, kind and round.
fn requests_to_come(words: &Words) -> u64 {
    match (words[CODE], words[KIND]) {
        (READING, 0) => 3,
        (READING, _) => 4,
        (WRITING | COMPARING, _) => 3u64.saturating_sub(words[ROUND]),
        _ => 0,
    }
}

/// A single change, just at a limit of refusal 2 or just past it, or any.
pub fn damage(dice: &mut Dice, words: &mut Words) {
    let (n, f, own) = (words[N], words[F], words[OWN]);
    match dice.below(23) {
        0 => words[N] = dice.pick(&[0, 1, 16, 17, n.wrapping_add(1), n ^ WIDE, n ^ WIDER, u64::MAX]),
        1 => words[F] = other_f(dice, nodes(words), f),
        2 => words[OWN] = dice.pick(&[0, 1, n, n.wrapping_add(1), 16, 17, own ^ WIDE, own ^ WIDER, u64::MAX]),
        3 => words[MAX_TAG] = number(dice, largest_of(words, AT_MAX)),
        4 => words[KEPT] = number(dice, largest_of(words, KEPT_VIEW)),
        5..=7 => words[REQUEST] = number(dice, LIMIT - requests_to_come(words)),
        8 => words[CODE] = dice.pick(&[0, 1, 2, 3, 4, 5, 5, 256, words[CODE] ^ WIDER, u64::MAX]),
        9 => words[KIND] = dice.pick(&[0, 1, 2, 2, 3, 256, words[KIND] ^ WIDER, u64::MAX]),
        10 => words[ROUND] = dice.pick(&[0, 1, 2, 3, 4, 4, 5, 256, words[ROUND] ^ WIDER, u64::MAX]),
        11 => {
            let tag = dice.pick(&[largest_of(words, AT_ROUND), words[MAX_TAG], words[KEPT], LIMIT]);
            words[TAG] = number(dice, tag);
        }
        12 => {
            let all = u64::MAX >> (64 - nodes(words));
            words[ANSWERED] = dice.pick(&[all, all + 1, words[ANSWERED] | (all + 1), 1 << 63, 1 << 32, u64::MAX]);
        }
        13 => words[LARGEST] = number(dice, words[MAX_TAG]),
        14 | 15 => {
            let writer = 1 + dice.below(NODES);
            words[heard(1 + dice.below(NODES), writer)] = number(dice, words[entry(LAST, writer)]);
        }
        // A tag against the bound of its view.
        16..=18 => {
            let view = dice.below(4);
            let place = entry(view, 1 + dice.below(NODES));
            words[place] = number(dice, [LIMIT, words[MAX_TAG], words[TAG], words[KEPT]][view]);
            words[place + 1] = if words[place] == 0 { 0 } else { report(dice) };
        }
        // Bytes beside tag 0, or none beside another.
        19 => {
            let place = entry(dice.below(4), 1 + dice.below(NODES));
            words[place] = dice.pick(&[0, words[place]]);
            words[place + 1] = if words[place] == 0 { 1 << dice.below(64) } else { 0 };
        }
        20 => words[dice.below(WORDS)] ^= 1 << dice.below(64),
        21 => words[dice.below(WORDS)] = dice.number(),
        _ => words[dice.below(WORDS)] = extreme(dice),
    }
}

/// An f in place of another of n nodes: the largest, one more, or one that only few bits tell from an f that can be.
pub fn other_f(dice: &mut Dice, n: usize, f: u64) -> u64 {
    let most = most_faults(n) as u64;
    dice.pick(&[0, most, most + 1, most + 1, 7, 8, 255, f ^ WIDE, f ^ WIDER, f ^ 1 << 63, 1 << 63, u64::MAX])
}

/// Mostly near a bound, now and then at one end of what there is.
fn number(dice: &mut Dice, bound: u64) -> u64 {
    match dice.below(3) {
        0 => extreme(dice),
        _ => near(dice, bound),
    }
}
