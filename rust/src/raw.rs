//! The declarations of the proved calls, as `include/snapshot.h` has them for C. `tests/declarations` holds both and
//! `crates/snapshot/src/lib.rt` together.
use crate::{REPORT, VIEW};

extern "C" {
    pub fn snapshot_most_faults(n: usize) -> usize;
    pub fn snapshot_size(n: usize) -> usize;
    pub fn snapshot_fresh(n: usize, f: usize, cluster: *mut u8, cluster_len: usize) -> u8;
    pub fn snapshot_begin_update(
        cluster: *mut u8,
        cluster_len: usize,
        node: usize,
        report: *const [u8; REPORT],
        cut: bool,
        entries: usize,
    ) -> u8;
    pub fn snapshot_begin_scan(cluster: *mut u8, cluster_len: usize, node: usize, cut: bool, entries: usize) -> u8;
    pub fn snapshot_deliver(
        cluster: *mut u8,
        cluster_len: usize,
        from: usize,
        to: usize,
        cut: bool,
        entries: usize,
        view: *mut [u8; VIEW],
    ) -> u8;
    pub fn snapshot_stop(cluster: *mut u8, cluster_len: usize, node: usize) -> u8;
    pub fn snapshot_read(
        n: usize,
        bytes: *const u8,
        bytes_len: usize,
        numbers: *mut [u64; 4],
        report: *mut [u8; REPORT],
    ) -> u8;
    pub fn snapshot_write(
        n: usize,
        numbers: *const [u64; 4],
        report: *const [u8; REPORT],
        view: *const u8,
        view_len: usize,
        out: *mut u8,
        out_len: usize,
        length: *mut usize,
    ) -> u8;
    pub fn snapshot_figures(n: usize, view: *const u8, view_len: usize, figures: *mut [u32; 4]) -> u8;
    pub fn snapshot_page(
        n: usize,
        view: *const u8,
        view_len: usize,
        out: *mut u8,
        out_len: usize,
        length: *mut usize,
    ) -> u8;
    pub fn snapshot_node_size() -> usize;
    pub fn snapshot_node_fresh(n: usize, f: usize, own: usize, state: *mut u8, state_len: usize) -> u8;
    pub fn snapshot_node_begin_update(
        state: *mut u8,
        state_len: usize,
        report: *const [u8; REPORT],
        out: *mut u8,
        out_len: usize,
        length: *mut usize,
    ) -> u8;
    pub fn snapshot_node_begin_scan(
        state: *mut u8,
        state_len: usize,
        out: *mut u8,
        out_len: usize,
        length: *mut usize,
    ) -> u8;
    pub fn snapshot_node_message(
        state: *mut u8,
        state_len: usize,
        sender: usize,
        bytes: *const u8,
        bytes_len: usize,
        out: *mut u8,
        out_len: usize,
        length: *mut usize,
        view: *mut [u8; VIEW],
    ) -> u8;
    pub fn snapshot_node_frame(
        state: *mut u8,
        state_len: usize,
        sender: usize,
        frame: *const u8,
        frame_len: usize,
        out: *mut u8,
        out_len: usize,
        length: *mut usize,
        view: *mut [u8; VIEW],
    ) -> u8;
    pub fn snapshot_next(n: usize, bytes: *const u8, bytes_len: usize, length: *mut usize, route: *mut u8) -> u8;
}
