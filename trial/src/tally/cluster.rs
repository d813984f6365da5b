//! What has occurred in clusters: fresh ones by their f, the events of runs, and the copies with something changed.

use super::Tally;
use crate::clusters::{
    BAD_F, BAD_F_OF_ALL, BAD_F_OF_RECORD, LENGTH, NOTHING, OTHER_F, OTHER_F_OF_ALL, OTHER_F_OF_RECORD,
    OTHER_F_OF_RECORDS, OTHER_N, OTHER_N_OF_RECORD, OTHER_OWN_OF_RECORD, STOPS,
};
use oracle::cluster::most_faults;
use oracle::record::NODES;

/// What each change has to give: a taken stop, or a refusal.
const CHANGED: [(&str, &[u8]); 13] = [
    (NOTHING, &[0, 3, 4, 10]),
    (OTHER_F, &[2]),
    (BAD_F, &[2]),
    (OTHER_F_OF_RECORD, &[2]),
    (BAD_F_OF_RECORD, &[2]),
    (OTHER_F_OF_RECORDS, &[2]),
    (OTHER_F_OF_ALL, &[0, 2, 10]),
    (BAD_F_OF_ALL, &[2]),
    (STOPS, &[0, 2, 4, 10]),
    (OTHER_N, &[2, 12]),
    (OTHER_N_OF_RECORD, &[2]),
    (OTHER_OWN_OF_RECORD, &[2]),
    (LENGTH, &[12]),
];

impl Tally {
    pub fn see_fresh_cluster(&mut self, f: usize, code: u8) {
        self.count(format!("fresh cluster: {code}"));
        if code == 0 {
            self.count(made(f));
        }
    }

    pub fn see_event(&mut self, code: u8) {
        self.count(event(code));
    }

    pub fn see_copy(&mut self, name: &str, code: u8) {
        self.count(changed(name, code));
    }
}

fn made(f: usize) -> String {
    format!("fresh cluster: with f = {f}")
}

fn event(code: u8) -> String {
    format!("cluster: {code}")
}

fn changed(name: &str, code: u8) -> String {
    format!("cluster changed, {name}: {code}")
}

/// What has to occur.
pub(super) fn needed() -> Vec<String> {
    let copies = CHANGED.iter().flat_map(|(name, codes)| codes.iter().map(|&code| changed(name, code)));
    [
        [0, 1, 12].map(|code| format!("fresh cluster: {code}")).to_vec(),
        (0..=most_faults(NODES)).map(made).collect(),
        [0, 3, 4, 5, 8, 10, 101, 111].map(event).to_vec(),
        copies.collect(),
    ]
    .concat()
}
