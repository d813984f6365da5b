//! How long works take: in turn, on the same lent memory, with the stack at several places, the best of several runs at
//! each place.
use std::fmt;
use std::hint::black_box;
use std::mem::MaybeUninit;

/// How many places there are, of the stack and, where a message is written, of its output.
pub const PLACES: usize = 16;

/// How often each work runs at each place at least, and for how many seconds all together.
pub const RUNS: usize = 5;
pub const SECONDS: f64 = 0.3;

/// Of so many runs at a place the best is left out: of some thousands of times the clock tells one that is some
/// microseconds too short.
pub const LEFT_OUT: usize = 20;

/// The bytes of a page.
pub const PAGE: usize = 4096;

/// The best time of a work at each place of the stack, in seconds.
type Places = [f64; PLACES];

/// What is timed: it gets the memory that is lent and the number of its place, and answers its seconds.
pub trait Work<T>: FnMut(&mut T, usize) -> f64 {}

impl<T, W: FnMut(&mut T, usize) -> f64> Work<T> for W {}

/// The work, with the stack a page and some 300 bytes further down for each step: a row moves with its place within
/// lines of 64 bytes, beside the lent bytes modulo a page, and with the pages that the two are in.
#[inline(never)]
fn deeper(steps: usize, work: &mut dyn FnMut() -> f64) -> f64 {
    let room = MaybeUninit::<[u8; PAGE + 240]>::uninit();
    black_box(&room);
    let time = if steps == 0 { work() } else { deeper(steps - 1, work) };
    black_box(&room);
    time
}

/// The best times of each work. They run in turn, and go to the next place after each run. The same memory is lent to
/// all, so that they are held against each other at like places.
fn best<T, const K: usize>(lent: &mut T, mut works: [&mut dyn Work<T>; K]) -> [Places; K] {
    let mut times = [const { [const { Vec::new() }; PLACES] }; K];
    let (mut runs, mut spent) = (0, 0.0);
    while runs < RUNS || spent < SECONDS {
        for place in 0..PLACES {
            for (times, work) in times.iter_mut().zip(&mut works) {
                let time = deeper(place, &mut || work(lent, place));
                times[place].push(time);
                spent += time;
            }
        }
        runs += 1;
    }
    let best = |mut times: Vec<f64>| {
        times.sort_unstable_by(f64::total_cmp);
        times[runs / LEFT_OUT]
    };
    times.map(|places| places.map(best))
}

/// The best times of the proved code, and of what it is held against.
pub struct Times {
    proved: Places,
    other: Places,
}

impl Times {
    pub const NONE: Times = Times { proved: [0.0; PLACES], other: [0.0; PLACES] };

    pub fn of<T>(lent: &mut T, mut proved: impl Work<T>, mut plain: impl Work<T>) -> Times {
        let [proved, other] = best(lent, [&mut proved, &mut plain]);
        Times { proved, other }
    }

    /// The proved code held against each of two others.
    pub fn of_three<T>(
        lent: &mut T,
        mut proved: impl Work<T>,
        mut one: impl Work<T>,
        mut two: impl Work<T>,
    ) -> [Times; 2] {
        let [proved, one, two] = best(lent, [&mut proved, &mut one, &mut two]);
        [one, two].map(|other| Times { proved, other })
    }

    /// Adds the times of another work, place by place.
    pub fn add(&mut self, more: &Times) {
        for (sum, more) in [(&mut self.proved, &more.proved), (&mut self.other, &more.other)] {
            sum.iter_mut().zip(more).for_each(|(sum, more)| *sum += more);
        }
    }

    /// The time of the proved code at its best place.
    pub fn proved(&self) -> f64 {
        smallest(&self.proved)
    }

    /// The time of the other at its best place.
    pub fn other(&self) -> f64 {
        smallest(&self.other)
    }

    pub fn ratio(&self) -> f64 {
        self.proved() / self.other()
    }

    /// The largest ratio of the two at one place.
    pub fn worst(&self) -> f64 {
        self.proved.iter().zip(&self.other).map(|(proved, other)| proved / other).fold(0.0, f64::max)
    }
}

fn smallest(times: &Places) -> f64 {
    times.iter().copied().fold(f64::INFINITY, f64::min)
}

/// The last columns of a row: the ratio and the worst.
impl fmt::Display for Times {
    fn fmt(&self, f: &mut fmt::Formatter) -> fmt::Result {
        write!(f, "{:>8.2} {:>8.2}", self.ratio(), self.worst())
    }
}
