//! The record of a node in its own run of bytes: words, the report of an update that reads, the tags heard, four views.
use super::bytes::{put_word, view_ok, word, Report, LIMIT, NO_REPORT, VIEW};
use std::borrow::{Borrow, BorrowMut};

pub const SIZE: usize = 3176;

const N: usize = 0;
pub const F: usize = 8;
const OWN: usize = 16;
pub const MAXTAG: usize = 24;
pub const REQUEST: usize = 32;
const KEPT: usize = 40;
/// The code of the wait, its kind, its round and its tag, then two numbers more.
pub const WAIT: usize = 48;
const REPORT: usize = 96;
pub const HEARD: usize = 104;

/// Where the four views are.
pub const LAST: usize = 2152;
pub const ATMAX: usize = 2408;
pub const ATROUND: usize = 2664;
pub const KEPTVIEW: usize = 2920;

#[derive(Clone, Copy, Debug)]
pub enum Operation {
    Update(Report),
    Scan,
}

#[derive(Clone, Copy)]
pub enum Kind {
    Update,
    Scan,
}

/// What the open operation waits for.
#[derive(Clone, Copy)]
pub enum Wait {
    Idle,
    Reading { operation: Operation, answered: u64, largest: u64 },
    Writing { kind: Kind, round: u64, tag: u64, answered: u64 },
    Comparing { kind: Kind, round: u64, tag: u64 },
    Borrowing { kind: Kind, tag: u64 },
}

use Wait::*;

impl Wait {
    /// The request numbers that the open operation may still use.
    fn still_uses(&self) -> u64 {
        match *self {
            Reading { operation: Operation::Update(_), .. } => 4,
            Reading { operation: Operation::Scan, .. } => 3,
            Writing { round, .. } | Comparing { round, .. } => 3u64.saturating_sub(round),
            Idle | Borrowing { .. } => 0,
        }
    }

    /// The tag above which no report is held for the open round.
    pub fn round_tag(&self) -> Option<u64> {
        match *self {
            Writing { tag, .. } | Comparing { tag, .. } => Some(tag),
            _ => None,
        }
    }

    fn is_ok(&self, n: usize) -> bool {
        let round_ok = |round, tag| round <= 3 && (tag < LIMIT || tag == LIMIT && round >= 1);
        match *self {
            Idle => true,
            Reading { answered, largest, .. } => answered >> n == 0 && largest <= LIMIT,
            Writing { round, tag, answered, .. } => answered >> n == 0 && round_ok(round, tag),
            Comparing { round, tag, .. } => round_ok(round, tag),
            Borrowing { tag, .. } => tag <= LIMIT,
        }
    }
}

/// A record, read in place.
#[derive(Clone, Copy)]
pub struct Record<B>(pub B);

impl<B: Borrow<[u8; SIZE]>> Record<B> {
    fn bytes(&self) -> &[u8; SIZE] {
        self.0.borrow()
    }

    pub fn n(&self) -> usize {
        word(self.bytes(), N) as usize
    }

    pub fn f(&self) -> usize {
        word(self.bytes(), F) as usize
    }

    pub fn own(&self) -> usize {
        word(self.bytes(), OWN) as usize
    }

    pub fn maxtag(&self) -> u64 {
        word(self.bytes(), MAXTAG)
    }

    pub fn request(&self) -> u64 {
        word(self.bytes(), REQUEST)
    }

    pub fn kept(&self) -> u64 {
        word(self.bytes(), KEPT)
    }

    pub fn view(&self, place: usize) -> &[u8; VIEW] {
        self.bytes()[place..place + VIEW].try_into().unwrap()
    }

    /// The tag of writer w in a view.
    pub fn tag(&self, place: usize, w: usize) -> u64 {
        word(self.bytes(), place + 16 * (w - 1))
    }

    /// The last tag heard from sender s for writer w.
    pub fn heard(&self, s: usize, w: usize) -> u64 {
        word(self.bytes(), HEARD + 128 * (s - 1) + 8 * (w - 1))
    }

    /// The wait; none where its code is none of the five, or the code of its kind none of the two.
    pub fn wait(&self) -> Option<Wait> {
        let b = self.bytes();
        let [code, kind, round, tag, answered, largest] = std::array::from_fn(|i| word(b, WAIT + 8 * i));
        if code != 0 && kind > 1 {
            return None;
        }
        let (operation, kind) = if kind == 0 {
            (Operation::Scan, Kind::Scan)
        } else {
            let report = b[REPORT..REPORT + 8].try_into().unwrap();
            (Operation::Update(report), Kind::Update)
        };
        Some(match code {
            0 => Idle,
            1 => Reading { operation, answered, largest },
            2 => Writing { kind, round, tag, answered },
            3 => Comparing { kind, round, tag },
            4 => Borrowing { kind, tag },
            _ => return None,
        })
    }

    /// Whether this is a usable record of node `own` of n, of which f may stop.
    pub fn is_sound(&self, n: usize, f: usize, own: usize) -> bool {
        let Some(wait) = self.wait() else {
            return false;
        };
        let numbers = word(self.bytes(), N) == n as u64
            && word(self.bytes(), F) == f as u64
            && word(self.bytes(), OWN) == own as u64
            && self.maxtag() <= LIMIT
            && self.request() <= LIMIT
            && self.kept() <= LIMIT
            && wait.is_ok(n)
            && wait.still_uses() <= LIMIT - self.request();
        let heard = &self.bytes()[HEARD..LAST];
        numbers
            && heard.chunks_exact(8).fold(0, |high, tag| high | tag[0]) < 128
            && view_ok(self.view(LAST), LIMIT)
            && view_ok(self.view(ATMAX), self.maxtag())
            && view_ok(self.view(ATROUND), wait.round_tag().unwrap_or(LIMIT))
            && view_ok(self.view(KEPTVIEW), self.kept())
    }

    /// Whether fewer than five request numbers are left.
    pub fn is_full(&self) -> bool {
        LIMIT - self.request() < 5
    }

    /// Whether a value of writer w with this tag cannot come from sender s now.
    pub fn is_stale(&self, s: usize, w: usize, tag: u64) -> bool {
        let last = self.tag(LAST, w);
        tag < self.heard(s, w) || last < tag && self.maxtag() < last
    }

    /// Whether sender s has sent, for each writer, the report held for the round or a later one.
    fn agrees(&self, s: usize) -> bool {
        s == self.own() || (1..=self.n()).all(|w| self.tag(ATROUND, w) <= self.heard(s, w))
    }

    pub fn agreeing(&self) -> usize {
        (1..=self.n()).filter(|&s| self.agrees(s)).count()
    }
}

impl<B: BorrowMut<[u8; SIZE]>> Record<B> {
    fn bytes_mut(&mut self) -> &mut [u8; SIZE] {
        self.0.borrow_mut()
    }

    /// Writes the record of a node that has done nothing over zeros.
    pub fn make_blank(&mut self, n: usize, f: usize, own: usize) {
        put_word(self.bytes_mut(), N, n as u64);
        put_word(self.bytes_mut(), F, f as u64);
        put_word(self.bytes_mut(), OWN, own as u64);
    }

    pub fn set_request(&mut self, request: u64) {
        put_word(self.bytes_mut(), REQUEST, request);
    }

    pub fn set_heard(&mut self, s: usize, w: usize, tag: u64) {
        put_word(self.bytes_mut(), HEARD + 128 * (s - 1) + 8 * (w - 1), tag);
    }

    /// Puts an entry of writer w into a view.
    pub fn put_entry(&mut self, place: usize, w: usize, tag: u64, report: Report) {
        let at = place + 16 * (w - 1);
        put_word(self.bytes_mut(), at, tag);
        self.bytes_mut()[at + 8..at + 16].copy_from_slice(&report);
    }

    /// Each writer's last report goes into a view where it is not above the tag.
    fn renew(&mut self, place: usize, tag: u64) {
        for at in (0..VIEW).step_by(16) {
            if word(self.bytes(), LAST + at) <= tag {
                self.bytes_mut().copy_within(LAST + at..LAST + at + 16, place + at);
            }
        }
    }

    /// A tag above the top tag raises it, and with it the reports held for it.
    pub fn raise(&mut self, tag: u64) -> bool {
        let grown = self.maxtag() < tag;
        if grown {
            put_word(self.bytes_mut(), MAXTAG, tag);
            self.renew(ATMAX, tag);
        }
        grown
    }

    /// Holds the newest reports not above the tag for a round.
    pub fn hold(&mut self, tag: u64) {
        self.bytes_mut().copy_within(ATMAX..ATMAX + VIEW, ATROUND);
        self.renew(ATROUND, tag);
    }

    /// Holds no reports for a round.
    pub fn release(&mut self) {
        self.bytes_mut()[ATROUND..ATROUND + VIEW].fill(0);
    }

    /// Keeps the good message with the greatest tag, the earlier on a tie.
    pub fn keep(&mut self, tag: u64, view: &[u8]) {
        if self.kept() < tag {
            put_word(self.bytes_mut(), KEPT, tag);
            let kept = &mut self.bytes_mut()[KEPTVIEW..KEPTVIEW + VIEW];
            kept[..view.len()].copy_from_slice(view);
            kept[view.len()..].fill(0);
        }
    }

    pub fn set_wait(&mut self, wait: &Wait) {
        let (words, report) = match *wait {
            Idle => ([0; 6], NO_REPORT),
            Reading { operation: Operation::Update(report), answered, largest } => {
                ([1, 1, 0, 0, answered, largest], report)
            }
            Reading { operation: Operation::Scan, answered, largest } => ([1, 0, 0, 0, answered, largest], NO_REPORT),
            Writing { kind, round, tag, answered } => ([2, code(kind), round, tag, answered, 0], NO_REPORT),
            Comparing { kind, round, tag } => ([3, code(kind), round, tag, 0, 0], NO_REPORT),
            Borrowing { kind, tag } => ([4, code(kind), 0, tag, 0, 0], NO_REPORT),
        };
        for (i, x) in words.into_iter().enumerate() {
            put_word(self.bytes_mut(), WAIT + 8 * i, x);
        }
        self.bytes_mut()[REPORT..REPORT + 8].copy_from_slice(&report);
    }
}

fn code(kind: Kind) -> u64 {
    match kind {
        Kind::Update => 1,
        Kind::Scan => 0,
    }
}
